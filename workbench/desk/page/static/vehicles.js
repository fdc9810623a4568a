/** The vehicles as rows, with the curve of vehicles in service above them: those that are out. */

import { svg } from "./elements.js";
import { SIZES, drawBar, drawEnds, drawPlaces } from "./bars.js";
import { Rows } from "./rows.js";
import { stepPath } from "./steps.js";

const NAMES = 64;
const CURVE = 44;

export class Vehicles {
  constructor(host, scale, look) {
    this.scale = scale;
    this.look = look;
    this.label = "Vehicles as rows over the hours. The arrow keys go from bar to bar.";
    this.top = CURVE;
    this.size = SIZES.high;
    this.shown = [];
    this.rows = new Rows(host, scale, this, NAMES);
    this.rows.corner.append("in service");
    this.rows.corner.title = "vehicles on trips, at their layover or running empty; in grey with those that wait";
  }

  /** Shows these blocks of a day, by their rows, with this bar in view where there is one. */
  show(day, shown, bar) {
    this.day = day;
    this.shown = shown;
    this.positions = new Map(shown.map((row, position) => [row, position]));
    this.rows.pinned = null;
    const position = this.positions.get(bar?.row);
    const isSeen = position !== undefined && !this.rows.isHidden;
    this.rows.redraw(() => isSeen && this.rows.scrollTo(position, bar.from, bar.until));
  }

  count() {
    return this.shown.length;
  }

  height() {
    return this.size.row;
  }

  /** From what the row at a position is drawn: its block and trips, and how these are shown. */
  grounds(position) {
    const block = this.day.blocks[this.shown[position]];
    return [this.size, block.row, block.source, ...block.bars.flatMap((bar) => [bar.trip, this.look.statesOf(bar).join(" ")])];
  }

  /** The row at a position. */
  draw(position) {
    const block = this.day.blocks[this.shown[position]];
    const stripe = position % 2 ? svg("rect", { class: "stripe", width: this.scale.width, height: this.size.row }) : null;
    const bars = block.bars.map((bar) => drawBar(bar, this.scale, this.size, this.look));
    const draw = this.size.places ? drawPlaces : this.size.labels ? drawEnds : () => [];
    return svg("g", { role: "group", "aria-label": `block ${block.name}` }, stripe, ...bars, ...draw(block, this.scale, this.size));
  }

  /** The name of the row at a position. */
  name(position) {
    const block = this.day.blocks[this.shown[position]];
    const y = this.size.top + this.size.bar / 2 + (this.size.labels ? 4 : 3);
    const kind = this.size.labels ? "name" : "name low";
    return svg("g", {}, svg("text", { class: kind, x: NAMES - 8, y, "text-anchor": "end" }, block.name));
  }

  /** The curve of vehicles that are out, and behind it with those that wait. */
  drawTop() {
    const [out, away] = [this.day.service(), this.day.away()];
    const most = Math.max(1, ...away.map(([, number]) => number));
    const peak = out.reduce((one, other) => (other[1] > one[1] ? other : one), [0, 0]);
    const y = (number) => CURVE - 4 - (number / most) * (CURVE - 18);
    const path = (steps) => `${stepPath(steps, (minute) => this.scale.x(minute), y, this.scale.begin, this.scale.end)}V${y(0)}Z`;
    const parts = [svg("path", { class: "away", d: path(away) }), svg("path", { class: "service", d: path(out) })];
    if (peak[1]) {
      parts.push(svg("text", { class: "peak", x: this.scale.x(peak[0]) + 3, y: y(peak[1]) - 3 }, String(peak[1])));
    }
    return svg("g", {}, ...parts);
  }

  /** Scrolls a bar into view. */
  reveal(bar) {
    const position = this.positions.get(bar.row);
    if (position !== undefined) {
      this.rows.show(position, bar.from, bar.until);
    }
  }

  /** The position of the row at a height of the window; undefined where there is none. */
  positionAt(y) {
    const position = Math.floor((y - this.rows.sheet.getBoundingClientRect().top) / this.size.row);
    return position in this.shown ? position : undefined;
  }

  /** The element of a bar, where it is drawn. */
  element(bar) {
    return this.rows.bar(bar.row, bar.at);
  }
}
