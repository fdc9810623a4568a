/** A day: the program's plan as bars in the rows of its blocks. */

import { byText } from "./order.js";
import { clock, count, exactClock, signed } from "./times.js";

/** What the bars are called. */
export const KINDS = { out: "out of the depot", trip: "trip", empty: "empty running", wait: "waiting", home: "home to the depot" };

export class Day {
  /** The day of a view. Until its proof has come, the deficits of places are those of the day before it. */
  constructor(view, before) {
    this.view = view;
    this.places = view.proof?.places ?? before?.places ?? [];
    this.trips = view.trips;
    this.blocks = view.blocks.map((block, row) => withBars(block, row, view.trips));
    this.bars = new Map();
    this.named = new Map();
    for (const block of this.blocks) {
      for (const bar of block.bars) {
        this.named.set(bar.name, bar);
        if (bar.kind === "trip") {
          this.bars.set(bar.trip.id, bar);
        }
      }
    }
    this.lines = [...new Set(view.trips.map((trip) => trip.line))].sort(byText);
    this.terminals = [...new Set(view.trips.flatMap((trip) => [trip.from, trip.to]))].sort(byText);
    this.begin = 60 * Math.floor(least(this.blocks.map((block) => block.leaves), 300) / 60);
    this.end = Math.max(60 * Math.ceil(-least(this.blocks.map((block) => -block.returns), -1320) / 60), this.begin + 60);
  }

  /** The vehicles that are out, on trips, at their layover or running empty, as steps. Those that wait are not out. */
  service() {
    this.out ??= stepsOf(this.blocks.flatMap((block) => block.bars.filter((bar) => bar.kind !== "wait")));
    return this.out;
  }

  /** The vehicles that are out or wait for a later trip, as steps. */
  away() {
    this.gone ??= stepsOf(this.blocks.map((block) => ({ from: block.leaves, until: block.returns })));
    return this.gone;
  }

  /** The proof of the day has come; without one there is a reason why it could not be had. */
  prove(proof, reason) {
    Object.assign(this.view, { proof, reason });
    this.places = proof?.places ?? this.places;
  }

  /** The name of the trip that follows on one in its block; undefined where none does. */
  following(name) {
    const bar = this.bars.get(name);
    return bar && this.blocks[bar.row].bars.find((other) => other.kind === "trip" && other.at > bar.at)?.trip.id;
  }

  /** The trips that do not run. */
  cancelled() {
    return this.trips.filter((trip) => !trip.runs);
  }
}

/** How many of these spans there are as steps: each minute at which their number changes, with the number from then on. */
function stepsOf(spans) {
  const changes = new Map();
  for (const { from, until } of spans) {
    changes.set(from, (changes.get(from) ?? 0) + 1);
    changes.set(until, (changes.get(until) ?? 0) - 1);
  }
  let number = 0;
  return [...changes].filter(([, change]) => change).sort((one, other) => one[0] - other[0]).map(([minute, change]) => [minute, number += change]);
}

/** The least of these numbers, or another one where there are none. */
function least(numbers, without) {
  return numbers.reduce((one, other) => Math.min(one, other), numbers.length ? Infinity : without);
}

/** What names a bar on any day: its kind, with its trip or the trip to which or from which it leads. */
export function nameOf(kind, trip) {
  return `${kind} ${trip}`;
}

/** A block with its bars in the order of the day, and its ends. `source` is what the view has of it: the same object while it is as before. */
function withBars(block, row, trips) {
  const bars = [];
  const add = (kind, from, until, start, end, beside) => {
    if (until > from || kind === "trip") {
      const trip = kind === "trip" ? beside : null;
      bars.push({ kind, from, until, start, end, trip, row, at: bars.length, block: block.name, name: nameOf(kind, beside.id) });
    }
  };
  let before = null;
  for (const [number, empty] of block.rides) {
    const trip = trips[number];
    if (before === null) {
      add("out", trip.departs - empty, trip.departs, "depot", trip.from, trip);
    } else {
      add("empty", before.ends, before.ends + empty, before.to, trip.from, trip);
      add("wait", before.ends + empty, trip.departs, trip.from, trip.from, trip);
    }
    add("trip", trip.departs, trip.ends, trip.from, trip.to, trip);
    before = trip;
  }
  add("home", before.ends, before.ends + block.home, before.to, "depot", before);
  return { ...block, source: block, row, bars, leaves: bars[0].from, returns: bars.at(-1).until };
}

/** All of a bar, line by line: a heading, and then what is known of it. */
export function tell(bar) {
  const time = `${clock(bar.from)} to ${clock(bar.until)}`;
  if (bar.kind === "trip") {
    return [`${bar.trip.line} ${bar.trip.id}`.trim(), ...tellTrip(bar.trip), `block ${bar.block}`];
  }
  const way = bar.kind === "wait" ? `at ${bar.start}` : `${bar.start} to ${bar.end}`;
  return [KINDS[bar.kind], way, `${time}, ${count(bar.until - bar.from, "minute")}`, `block ${bar.block}`];
}

/** What is known of a trip. */
function tellTrip(trip) {
  const told = [`${clock(trip.departs)} ${trip.from}`, `${clock(trip.arrives)} ${trip.to}`];
  if (trip.ends > trip.arrives) {
    told.push(`layover ${count(trip.ends - trip.arrives, "minute")}, until ${clock(trip.ends)}`);
  }
  if (trip.headsign) {
    told.push(`to passengers: ${trip.headsign}`);
  }
  if (trip.published) {
    told.push(`published ${trip.published.map(exactClock).join(" to ")}`);
  }
  if (trip.service) {
    told.push(`service ${trip.service}`);
  }
  if (trip.extra) {
    told.push("extra trip of the script");
  }
  if (trip.shift) {
    told.push(`shifted by ${count(trip.shift, "minute").replace(/^(\d)/, "+$1")}`);
  }
  const allowed = `may be shifted by ${signed(-trip.early)} to ${signed(trip.late)} in all`;
  told.push(trip.early || trip.late ? allowed : "may not be shifted");
  return told;
}

/** By how many minutes a trip may still be shifted: the least and the greatest number. */
export function room(trip) {
  return [-trip.early - trip.shift, trip.late - trip.shift];
}
