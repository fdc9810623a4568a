/** Rows over the hours of the day. Only those in view are drawn, and anew only where they are others. Hours and names stay while they scroll. */

import { alike } from "./changes.js";
import { html, svg } from "./elements.js";
import { drawHours } from "./scale.js";

const MORE = 6;
const HOURS = 26;

export class Rows {
  /** `source` has `day`, once there is one, and `count()`, `height()`, `draw(row)` and `name(row)`. A row is drawn from what `grounds(row)`
  lists: while that and the scale are the same, it stays as it is.

  What it draws above the rows is as high as its `top`, and comes from `drawTop()`. */
  constructor(host, scale, source, left) {
    this.scale = scale;
    this.source = source;
    this.left = left;
    this.drawn = new Map();
    this.pinned = null;
    this.topHeight = source.top ?? 0;
    this.corner = html("div", { class: "corner" });
    this.head = svg("svg", { class: "head", "aria-hidden": "true" });
    this.names = svg("svg", { class: "names", "aria-hidden": "true" });
    this.sheet = svg("svg", { class: "sheet", role: "group", "aria-label": source.label });
    this.frame = html("div", { class: "frame" }, this.corner, this.head, this.names, this.sheet);
    this.frame.addEventListener("scroll", () => this.renderSoon());
    host.append(this.frame);
    this.frame.style.setProperty("--left", `${left}px`);
  }

  /** Whether something else is in front. */
  get isHidden() {
    return this.frame.closest("[hidden]") !== null;
  }

  /** How wide the hours of the day may be without scrolling. */
  get room() {
    return this.frame.clientWidth - this.left - 2;
  }

  /** Draws what is others, as after a zoom or with another day. Where the whole day is shown, it fills the room.

  `aim` scrolls to what is to be in view, before anything is drawn. */
  redraw(aim = () => {}) {
    if (!this.source.day) {
      return;
    }
    const kept = this.day === this.source.day ? document.activeElement : null;
    this.day = this.source.day;
    const height = Math.max(this.source.count() * this.source.height(), 1);
    setSize(this.names, this.left, height);
    if (this.scale.fitted && !this.isHidden) {
      this.scale.fit(this.room);
    }
    const width = this.scale.width;
    setSize(this.head, width, HOURS + this.topHeight);
    setSize(this.sheet, width, height);
    this.clear();
    this.corner.style.height = `${HOURS + this.topHeight}px`;
    this.sheet.style.backgroundSize = `${60 * this.scale.perMinute}px 100%`;
    this.head.replaceChildren(drawHours(this.scale, HOURS));
    if (this.source.drawTop) {
      const top = this.source.drawTop();
      top.setAttribute("transform", `translate(0 ${HOURS})`);
      this.head.append(top);
    }
    aim();
    this.render();
    this.refocus(kept);
  }

  /** Takes away the rows that are drawn from something else than they would be now. */
  clear() {
    for (const [row, { grounds }] of this.drawn) {
      if (row >= this.source.count() || !alike(grounds, this.groundsOf(row))) {
        this.takeAway(row);
      }
    }
  }

  /** All from which a row is drawn. */
  groundsOf(row) {
    return [this.scale.begin, this.scale.perMinute, this.scale.width, ...this.source.grounds(row)];
  }

  /** Takes a row away. */
  takeAway(row) {
    this.drawn.get(row).parts.forEach((part) => part.remove());
    this.drawn.delete(row);
  }

  /** Gives the focus back to the bar that had it before the same day was drawn anew. On another day another bar may stand there. */
  refocus(kept) {
    if (kept?.dataset?.row !== undefined && !kept.isConnected) {
      this.bar(Number(kept.dataset.row), Number(kept.dataset.at))?.focus({ preventScroll: true });
    }
  }

  /** Draws what has come into view once the browser paints next. */
  renderSoon() {
    this.waiting ??= requestAnimationFrame(() => {
      this.waiting = undefined;
      this.render();
    });
  }

  /** Draws the rows that have come into view, and takes away those that have left it. */
  render() {
    const height = this.source.height();
    const first = Math.max(Math.floor(this.frame.scrollTop / height) - MORE, 0);
    const last = Math.min(Math.ceil((this.frame.scrollTop + this.frame.clientHeight) / height) + MORE, this.source.count()) - 1;
    for (const row of this.drawn.keys()) {
      if ((row < first || row > last) && row !== this.pinned) {
        this.takeAway(row);
      }
    }
    for (let row = first; row <= last; row += 1) {
      this.ensure(row);
    }
  }

  /** Draws a row where it is not drawn. Rows stand in their order, as somebody hears them who does not see them. */
  ensure(row) {
    if (this.drawn.has(row) || row < 0 || row >= this.source.count()) {
      return;
    }
    const at = `translate(0 ${row * this.source.height()})`;
    const [group, name] = [this.source.draw(row), this.source.name(row)];
    group.setAttribute("transform", at);
    name.setAttribute("transform", at);
    group.position = row;
    const next = [...this.sheet.children].find((other) => other.position > row);
    this.sheet.insertBefore(group, next ?? null);
    this.names.append(name);
    this.drawn.set(row, { parts: [group, name], grounds: this.groundsOf(row) });
  }

  /** The element of a bar, where it is drawn. */
  bar(row, at) {
    return this.sheet.querySelector(`[data-row="${row}"][data-at="${at}"]`);
  }

  /** Shows a row and its hours from one minute to another. */
  show(row, from, until) {
    this.scrollTo(row, from, until);
    this.pinned = row;
    this.render();
  }

  /** Scrolls so far that a row and its hours from one minute to another are in view. */
  scrollTo(row, from, until) {
    const height = this.source.height();
    const [top, bottom] = [row * height, (row + 1) * height + HOURS + this.topHeight];
    const frame = this.frame;
    if (top < frame.scrollTop) {
      frame.scrollTop = top;
    } else if (bottom > frame.scrollTop + frame.clientHeight) {
      frame.scrollTop = bottom - frame.clientHeight;
    }
    const [left, right] = [this.scale.x(from) - 20, this.scale.x(until) + 20];
    if (left < frame.scrollLeft || right > frame.scrollLeft + this.room) {
      frame.scrollLeft = Math.max(left - this.room / 3, 0);
    }
  }
}

/** Gives a drawing its size, where it has another one. */
function setSize(drawing, width, height) {
  for (const [name, value] of [["width", width], ["height", height]]) {
    if (drawing.getAttribute(name) !== String(value)) {
      drawing.setAttribute(name, value);
    }
  }
}
