/** Bars in the row of a vehicle: trips with their layover, empty running, and waiting. */

import { svg } from "./elements.js";
import { hatched } from "./hatch.js";
import { firstThatFits, shortened, widthOf } from "./labels.js";
import { markOf } from "./lines.js";
import { clock, signed } from "./times.js";
import { tell } from "./day.js";

const FAMILY = "'DejaVu Sans', Verdana, 'Segoe UI', sans-serif";
const LABEL = `11px ${FAMILY}`;
const PLACE = `9.5px ${FAMILY}`;
const FREE = 160;
const MIDDLE = 12.5;

/** The heights of rows: the whole row, the bar in it, and whether places stand below. */
export const SIZES = {
  high: { row: 38, top: 5, bar: 18, places: true, labels: true },
  middle: { row: 24, top: 3, bar: 18, places: false, labels: true },
  low: { row: 11, top: 1.5, bar: 8, places: false, labels: false },
};

/** Draws a bar. `look` has the styles of lines, and what is dim, found, or changed. */
export function drawBar(bar, scale, size, look) {
  const x = scale.x(bar.from);
  const until = Math.max(scale.x(bar.until), x + 1);
  const parts = bar.kind === "trip" ? drawTrip(bar.trip, scale, size, look) : drawBetween(bar, x, until, size);
  const told = tell(bar);
  const ink = bar.trip ? look.lines.of(bar.trip.line).ink : null;
  const states = [bar.kind, ...(ink ? [`on-${ink}`] : []), ...look.statesOf(bar)];
  return svg("g", {
    class: `bar ${states.join(" ")}`, role: look.roleOf(bar), tabindex: look.isCurrent(bar) ? "0" : "-1", "aria-label": told.join(", "),
    "data-row": bar.row, "data-at": bar.at, "data-trip": bar.trip?.id,
  }, ...parts);
}

/** The parts of a bar between trips. */
function drawBetween(bar, x, until, size) {
  const middle = size.top + size.bar / 2;
  if (bar.kind === "wait") {
    const reach = svg("rect", { class: "body reach", x, y: size.top, width: until - x, height: size.bar });
    return [reach, svg("line", { class: "waiting", x1: x, x2: until, y1: middle, y2: middle })];
  }
  const height = Math.round(size.bar * 0.6);
  const running = hatched({ x, y: middle - height / 2, width: until - x, height }, until - x, bar.kind !== "empty");
  if (bar.kind === "empty") {
    return running;
  }
  const depot = bar.kind === "out" ? x : until;
  return [...running, svg("line", { class: "depot", x1: depot, x2: depot, y1: size.top, y2: size.top + size.bar })];
}

/** The parts of a trip: layover, body, mark, label and places. */
function drawTrip(trip, scale, size, look) {
  const [x, arrives, ends] = [trip.departs, trip.arrives, trip.ends].map((minute) => scale.x(minute));
  const until = Math.max(arrives, x + 1);
  const style = look.lines.of(trip.line);
  const box = { y: size.top, height: size.bar };
  const parts = [];
  if (ends > until) {
    parts.push(svg("rect", { class: "layover", x: until, width: ends - until, ...box, stroke: style.edge }));
  }
  parts.push(svg("rect", { class: "body", x, width: until - x, ...box, fill: style.fill, stroke: style.edge }));
  parts.push(markOf(style, x, until, size.top, size.bar));
  if (size.labels) {
    parts.push(labelOf(trip, x, until, size, style));
  }
  if (look.isMarked(trip)) {
    parts.push(svg("path", { class: "changed-mark", d: `M${x} ${size.top}h9l-9 9z` }));
  }
  return parts;
}

/** The label of a trip: its line, its name and its times, or as much as fits. */
function labelOf(trip, x, until, size, style) {
  const shift = trip.shift ? ` ${signed(trip.shift)}` : "";
  const named = `${trip.line} ${trip.id}${shift}`;
  const [departs, arrives] = [clock(trip.departs), clock(trip.arrives)];
  const texts = [`${named} ${departs}–${arrives}`, named, `${trip.line}${shift} ${departs}`, `${trip.line}${shift}`, trip.line]
    .map((text) => text.trim());
  const text = firstThatFits(texts, until - x - 6, LABEL);
  return text ? svg("text", { class: `label ${style.ink ?? ""}`, x: x + 4, y: size.top + size.bar / 2 + 4 }, text) : null;
}

/** The places of a block below its bars: where it begins and ends, where it stays, and both ends of empty running. */
export function drawPlaces(block, scale, size) {
  const trips = block.bars.filter((bar) => bar.kind === "trip").map((bar) => bar.trip);
  const half = (trip) => (scale.x(trip.arrives) - scale.x(trip.departs)) / 2;
  const [first, last] = [trips[0], trips.at(-1)];
  const [begins, ends] = [scale.x(first.departs) + 4, scale.x(last.arrives) - 4];
  const parts = [
    placeAt(first.from, "end", Math.max(begins, Math.min(widthOf(first.from, PLACE) + 2, FREE)), FREE, size),
    placeAt(last.to, "start", Math.min(ends, scale.width - Math.min(widthOf(last.to, PLACE) + 2, FREE)), FREE, size),
  ];
  for (let at = 1; at < trips.length; at += 1) {
    const [before, after] = [trips[at - 1], trips[at]];
    const [from, until] = [scale.x(before.arrives) - half(before), scale.x(after.departs) + half(after)];
    if (before.to === after.from) {
      parts.push(placeAt(before.to, "middle", (scale.x(before.arrives) + scale.x(after.departs)) / 2, until - from - 6, size));
    } else {
      const middle = (from + until) / 2;
      parts.push(placeAt(before.to, "end", middle - 3, middle - from - 6, size));
      parts.push(placeAt(after.from, "start", middle + 3, until - middle - 6, size));
    }
  }
  return parts;
}

/** The terminals of a block in the line of its bars: where it begins, where it waits, and where it ends. */
export function drawEnds(block, scale, size) {
  const trips = block.bars.filter((bar) => bar.kind === "trip").map((bar) => bar.trip);
  const [from, until] = [scale.x(block.leaves), scale.x(block.returns)];
  const [first, last] = [trips[0], trips.at(-1)];
  const waits = block.bars.filter((bar) => bar.kind === "wait").map((bar) =>
    placeAt(bar.start, "middle", scale.x((bar.from + bar.until) / 2), scale.x(bar.until) - scale.x(bar.from) - 6, size, MIDDLE));
  return [
    placeAt(`${first.from} ${clock(first.departs)}`, "end", from - 4, Math.min(from - 4, FREE), size, MIDDLE),
    placeAt(`${clock(last.arrives)} ${last.to}`, "start", until + 4, Math.min(scale.width - until - 4, FREE), size, MIDDLE),
    ...waits,
  ];
}

/** The name of a place, as much of it as fits. */
function placeAt(place, anchor, x, room, size, below = size.bar + 11) {
  const text = shortened(place, room, PLACE);
  return text ? svg("text", { class: "place", x, y: size.top + below, "text-anchor": anchor }, text) : null;
}
