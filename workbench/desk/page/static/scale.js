/** The hours of the day across the page, which all drawings share. */

import { widthOf } from "./labels.js";
import { clock } from "./times.js";
import { svg } from "./elements.js";

const MOST = 24;
const APART = 4;
const FONT = "11px 'DejaVu Sans', Verdana, 'Segoe UI', sans-serif";
const STEPS = [5, 10, 15, 30, 60, 120, 180];

export class Scale {
  constructor() {
    this.begin = 0;
    this.end = 1440;
    this.perMinute = 1;
    this.fitted = true;
  }

  /** Where a minute stands. */
  x(minute) {
    return (minute - this.begin) * this.perMinute;
  }

  /** Which minute stands at a place. */
  minute(x) {
    return this.begin + x / this.perMinute;
  }

  get width() {
    return this.x(this.end);
  }

  /** Shows these hours of a day. */
  setHours(begin, end) {
    this.begin = begin;
    this.end = end;
  }

  /** Makes the whole day as wide as this. */
  fit(width) {
    this.perMinute = Math.max(width, 200) / (this.end - this.begin);
    this.fitted = true;
  }

  /** Makes the minutes from one to another as wide as this, within bounds. */
  span(from, until, width) {
    this.fit(width);
    this.zoom((this.end - this.begin) / Math.max(until - from, 1), width);
  }

  /** Makes a minute so many times as wide, within bounds. The whole day never gets narrower than this width. */
  zoom(factor, width) {
    const least = Math.max(width, 200) / (this.end - this.begin);
    this.perMinute = Math.min(Math.max(this.perMinute * factor, least), Math.max(MOST, least));
    this.fitted = this.perMinute === least;
  }
}

/** The minutes that have a tick, from one to another. Each has the anchor of its label, or null where that would touch one at an end. */
export function hoursBetween(begin, end, step, x, font) {
  const minutes = [];
  for (let minute = Math.ceil(begin / step) * step; minute <= end; minute += step) {
    minutes.push(minute);
  }
  const wide = (minute) => widthOf(clock(minute), font) + APART;
  const from = minutes[0] === begin ? x(begin) + wide(begin) : -Infinity;
  const until = minutes.at(-1) === end ? x(end) - wide(end) : Infinity;
  return minutes.map((minute) => {
    const half = wide(minute) / 2;
    const fits = x(minute) - half >= from && x(minute) + half <= until;
    return [minute, minute === begin ? "start" : minute === end ? "end" : fits ? "middle" : null];
  });
}

/** The labels of the hours in a drawing, with a tick below each. */
export function drawHours(scale, height) {
  const step = STEPS.find((minutes) => minutes * scale.perMinute >= 46) ?? 240;
  const hours = hoursBetween(scale.begin, scale.end, step, (minute) => scale.x(minute), FONT);
  return svg("g", {}, ...hours.flatMap(([minute, anchor]) => {
    const x = scale.x(minute);
    const label = anchor && svg("text", { class: "hour", x, y: height - 9, "text-anchor": anchor }, clock(minute));
    return [svg("line", { class: "tick", x1: x, x2: x, y1: height - 6, y2: height }), label];
  }));
}
