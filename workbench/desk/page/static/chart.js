/** The day as one looks at it: zoom and pan, the bar with the focus, and what is shown of it. */

import { byId } from "./elements.js";
import { tell } from "./day.js";
import { Pinch } from "./pinch.js";

const NEAR = { ArrowLeft: [0, -1], ArrowRight: [0, 1], ArrowUp: [-1, 0], ArrowDown: [1, 0], PageUp: [-10, 0], PageDown: [10, 0] };

export class Chart {
  /** `views` are the drawings that share the scale, that of the vehicles first. `act` gets each key first, and gives whether it took it. */
  constructor(views, scale, tip, act) {
    this.views = views;
    this.vehicles = views[0];
    this.scale = scale;
    this.tip = tip;
    this.act = act;
    this.current = null;
    this.quiet = false;
    for (const view of views) {
      this.listenToZoom(view.rows);
    }
    this.listenToBars(this.vehicles.rows.sheet);
    this.vehicles.rows.frame.addEventListener("scroll", () => this.tip.hide());
    byId("zoom-in").addEventListener("click", () => this.zoom(1.5));
    byId("zoom-out").addEventListener("click", () => this.zoom(1 / 1.5));
    byId("zoom-fit").addEventListener("click", () => this.fit());
    window.addEventListener("resize", () => this.resize());
  }

  /** The drawing that is in front. */
  get front() {
    return this.views.find((view) => view.rows.frame.offsetParent !== null) ?? this.vehicles;
  }

  /** Shows the whole day. */
  fit() {
    this.scale.fitted = true;
    this.front.rows.redraw();
  }

  /** Shows these minutes of the day, or from its begin, or until its end. Without both it is the whole day. */
  showHours(from, until) {
    const [first, last] = [Math.max(from ?? -Infinity, this.scale.begin), Math.min(until ?? Infinity, this.scale.end)];
    if (first >= last) {
      return;
    }
    this.scale.span(first, last, this.front.rows.room);
    this.front.rows.redraw();
    this.front.rows.frame.scrollLeft = this.scale.x(first);
  }

  /** Follows the size of the window. */
  resize() {
    this.front.rows.redraw();
  }

  /** Makes the hours wider or narrower, where the minute below a place of the frame stays. */
  zoom(factor, at = this.front.rows.room / 2) {
    const rows = this.front.rows;
    const minute = this.scale.minute(rows.frame.scrollLeft + at);
    this.scale.zoom(factor, rows.room);
    rows.redraw();
    rows.frame.scrollLeft = this.scale.x(minute) - at;
    this.tip.hide();
  }

  /** The wheel with Ctrl, and two fingers, zoom; the wheel and one finger scroll as everywhere. */
  listenToZoom(rows) {
    const frame = rows.frame;
    const zoom = (factor, x) => this.zoom(factor, x - frame.getBoundingClientRect().left - rows.left);
    frame.addEventListener("wheel", (event) => {
      if (event.ctrlKey || event.metaKey) {
        event.preventDefault();
        zoom(Math.exp(-event.deltaY / 300), event.clientX);
      }
    }, { passive: false });
    new Pinch(frame, zoom);
  }

  /** Bars tell what they are below the pointer and with the focus. */
  listenToBars(sheet) {
    const bar = (event) => this.barOf(event.target);
    sheet.addEventListener("pointerover", (event) => this.told(bar(event), event.target));
    sheet.addEventListener("pointerleave", () => this.tip.hide());
    sheet.addEventListener("focusin", (event) => this.enter(bar(event), event.target));
    sheet.addEventListener("focusout", () => this.tip.hide());
    sheet.addEventListener("click", (event) => this.focus(bar(event)));
    sheet.addEventListener("keydown", (event) => this.key(event));
  }

  /** The bar that an element is a part of, or null. */
  barOf(element) {
    const group = element.closest?.("[data-row]");
    return group ? this.vehicles.day.blocks[group.dataset.row].bars[group.dataset.at] : null;
  }

  /** Says what a bar is, beside its element, where nothing else is shown there. */
  told(bar, element) {
    if (this.quiet) {
      return;
    }
    if (bar) {
      this.tip.show(tell(bar), element.closest("[data-row]").getBoundingClientRect());
    } else {
      this.tip.hide();
    }
  }

  /** A bar has come to have the focus. */
  enter(bar, element) {
    if (bar) {
      this.makeCurrent(bar);
      this.told(bar, element);
    }
  }

  /** Makes a bar the one that the Tab key reaches. */
  makeCurrent(bar) {
    this.vehicles.rows.sheet.querySelectorAll('[tabindex="0"]').forEach((other) => other.setAttribute("tabindex", "-1"));
    this.current = bar;
    this.vehicles.element(bar)?.setAttribute("tabindex", "0");
  }

  /** Scrolls to a bar and gives it the focus. */
  focus(bar) {
    if (bar) {
      this.vehicles.reveal(bar);
      this.makeCurrent(bar);
      this.vehicles.element(bar)?.focus({ preventScroll: true });
    }
  }

  /** After the day or what is shown of it has changed, the first bar, or the one that was current, can be reached. */
  settle() {
    const rows = this.vehicles.shown;
    const bar = this.vehicles.day.named.get(this.current?.name) ?? null;
    const first = rows.length ? this.vehicles.day.blocks[rows[0]].bars[0] : null;
    const next = bar && this.vehicles.positions.has(bar.row) ? bar : first;
    if (next) {
      this.vehicles.rows.ensure(this.vehicles.positions.get(next.row));
      this.vehicles.rows.pinned = this.vehicles.positions.get(next.row);
      this.makeCurrent(next);
    }
  }

  /** The keys on a bar. */
  key(event) {
    const bar = this.barOf(event.target);
    if (!bar || this.act(event, bar)) {
      return;
    }
    const next = this.next(event.key, bar);
    if (next) {
      this.focus(next);
    } else if (event.key === "+" || event.key === "=") {
      this.zoom(1.5);
    } else if (event.key === "-") {
      this.zoom(1 / 1.5);
    } else if (event.key === "0") {
      this.fit();
    } else {
      return;
    }
    event.preventDefault();
  }

  /** The bar to which a key leads, or null for another key. At an end it is the same bar. */
  next(key, bar) {
    const bars = this.vehicles.day.blocks[bar.row].bars;
    if (key === "Home" || key === "End") {
      return bars.at(key === "Home" ? 0 : -1);
    }
    if (!(key in NEAR)) {
      return null;
    }
    const [down, right] = NEAR[key];
    if (right) {
      return bars[bar.at + right] ?? bar;
    }
    const shown = this.vehicles.shown;
    const position = Math.min(Math.max(this.vehicles.positions.get(bar.row) + down, 0), shown.length - 1);
    const middle = (bar.from + bar.until) / 2;
    const distance = (other) => Math.max(other.from - middle, middle - other.until);
    return this.vehicles.day.blocks[shown[position]].bars.reduce((one, other) => (distance(other) < distance(one) ? other : one));
  }
}
