/** The deficit function of each terminal, in steps, with its maximum and the first minute that has it. */

import { svg } from "./elements.js";
import { shortened } from "./labels.js";
import { Rows } from "./rows.js";
import { stepPath } from "./steps.js";
import { clock } from "./times.js";

const NAMES = 170;
const HEIGHT = 74;
const FONT = "600 12px 'DejaVu Sans', Verdana, 'Segoe UI', sans-serif";

export class Terminals {
  constructor(host, scale) {
    this.scale = scale;
    this.label = "The deficit of each terminal over the hours: departures less arrivals";
    this.shown = [];
    this.rows = new Rows(host, scale, this, NAMES);
    this.rows.corner.append("deficit");
  }

  /** Shows the terminals of a day, or one of them. */
  show(day, terminal) {
    this.day = day;
    this.shown = day.places.filter((place) => !terminal || place.name === terminal);
    this.rows.redraw();
  }

  count() {
    return this.shown.length;
  }

  height() {
    return HEIGHT;
  }

  /** From what the row at a position is drawn. */
  grounds(position) {
    return [this.shown[position]];
  }

  /** The steps of the terminal at a position. */
  draw(position) {
    const place = this.shown[position];
    const stripe = position % 2 ? svg("rect", { class: "stripe", width: this.scale.width, height: HEIGHT }) : null;
    const told = `${place.name}: maximum ${place.max} at ${clock(place.at)}`;
    return svg("g", { role: "img", "aria-label": told }, stripe, ...drawDeficit(place, this.scale, HEIGHT));
  }

  /** The name of the terminal at a position, with its maximum. */
  name(position) {
    const place = this.shown[position];
    const of = { x: NAMES - 8, "text-anchor": "end" };
    return svg("g", {}, svg("text", { class: "name", y: 26, ...of }, shortened(place.name, NAMES - 16, FONT)),
      svg("text", { class: "name light", y: 44, ...of }, `max ${place.max} at ${clock(place.at)}`));
  }
}

/** The drawing of a deficit: its steps, the line of 0, and a dot at the first minute of its maximum. */
function drawDeficit(place, scale, height) {
  const values = place.steps.map(([, value]) => value);
  const [least, most] = [Math.min(0, ...values), Math.max(1, ...values)];
  const y = (value) => 14 + ((most - value) / (most - least)) * (height - 24);
  const x = (minute) => scale.x(minute);
  const parts = [
    svg("line", { class: "zero", x1: 0, x2: scale.width, y1: y(0), y2: y(0) }),
    svg("path", { class: "deficit", d: stepPath(place.steps, x, y, scale.begin, scale.end) }),
  ];
  if (place.max > 0) {
    const at = x(place.at);
    const top = y(place.max);
    parts.push(svg("line", { class: "maximum", x1: at, x2: at, y1: top, y2: y(0) }));
    parts.push(svg("circle", { class: "maximum", cx: at, cy: top, r: 4 }));
    parts.push(svg("text", { class: "peak", x: at + 7, y: top - 2 }, `${place.max} at ${clock(place.at)}`));
  }
  return parts;
}
