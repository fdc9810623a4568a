/** The day on paper: tables whose head has the title and the hours, which the browser prints on every page.

Places are in shares of the width, so any paper is filled. Labels are chosen so that they fit on A4. */

import { drawPlaces } from "./bars.js";
import { byId, html, svg } from "./elements.js";
import { hatched } from "./hatch.js";
import { firstThatFits, widthOf } from "./labels.js";
import { legendOf } from "./legend.js";
import { markOf } from "./lines.js";
import { hoursBetween } from "./scale.js";
import { columnsOf } from "./table.js";
import { clock } from "./times.js";

const FEW = 16;
const WIDTH = 940;
const WIDEST = 1600;
const STEPS = 30;
const FONT = "9px 'DejaVu Sans', Verdana, 'Segoe UI', sans-serif";
const TIME = "7.5px 'DejaVu Sans', Verdana, 'Segoe UI', sans-serif";

/** The rows of few vehicles, with times above their bars and places below them, and those of many. */
const TALL = { row: 43, top: 12, bar: 16, places: true };
const FLAT = { row: 16, top: 1.5, bar: 13, places: false };

/** Makes the pages of a day, of these blocks. */
export function layPaper(day, shown, styles, title) {
  const blocks = shown.map((row) => day.blocks[row]);
  const sheet = new Sheet(day, styles, blocks.length > FEW ? FLAT : TALL);
  const vehicles = blocks.map((block) => [[block.name], sheet.block(block)]);
  const places = (day.view.proof?.places ?? []).map((place) => [[place.name, `max ${place.max} at ${clock(place.at)}`], sheet.steps(place.steps)]);
  byId("paper").replaceChildren(
    html("div", { class: "paper-legend" }, ...legendOf(day.lines, styles)),
    tableOfDrawings([title, "Vehicles"], sheet.hours(), vehicles),
    tableOfDrawings([title, "Vehicles in service, and the deficit of each terminal"], sheet.hours(),
      [[["in service"], sheet.steps(day.service())], [["with those that wait"], sheet.steps(day.away())], ...places]),
    tableOfBlocks([title, "Blocks: times are hours and minutes"], day, blocks));
}

/** A table of drawings with the hours in its head. Each row has the lines of its name and its drawing. */
function tableOfDrawings(titles, hours, rows) {
  const name = (lines) => html("th", { scope: "row" }, ...lines.map((line) => html("div", {}, line)));
  const body = rows.map(([lines, drawing]) => html("tr", {}, name(lines), html("td", {}, drawing)));
  return html("table", { class: "sheet-of-paper" },
    html("colgroup", {}, html("col", { class: "paper-names" }), html("col")),
    html("thead", {}, titleRow(titles, 2), html("tr", {}, html("th"), html("td", {}, hours))),
    html("tbody", {}, ...body));
}

/** The table of blocks. Two stand beside each other where they are many. */
function tableOfBlocks(titles, day, blocks) {
  const columns = columnsOf(day);
  const beside = blocks.length > FEW ? 2 : 1;
  const gap = (name) => html(name, { class: "paper-gap" });
  const heads = Array.from({ length: beside }, (_, at) => [at ? gap("th") : null, ...columns.map(([heading]) => html("th", {}, heading))]);
  const cells = (block, at) => [at ? gap("td") : null, ...columns.map(([, text]) => html("td", {}, text(block)))];
  const rows = Array.from({ length: Math.ceil(blocks.length / beside) }, (_, row) => blocks.slice(row * beside, (row + 1) * beside));
  return html("table", { class: "sheet-of-paper numbers-of-paper" },
    html("thead", {}, titleRow(titles, beside * (columns.length + 1) - 1), html("tr", {}, ...heads.flat())),
    html("tbody", {}, ...rows.map((row) => html("tr", {}, ...row.flatMap(cells)))));
}

/** The row of a title and of what a table shows. */
function titleRow([title, shown], columns) {
  const cell = html("th", { colspan: columns, class: "paper-title" }, html("strong", {}, title), html("span", {}, shown));
  return html("tr", {}, cell);
}

/** Draws the rows of a day, as wide as the paper. */
class Sheet {
  constructor(day, styles, size) {
    Object.assign(this, { day, styles, size });
  }

  /** Where a minute stands, in hundredths of the width. */
  share(minute) {
    return (100 * (minute - this.day.begin)) / (this.day.end - this.day.begin);
  }

  at(minute) {
    return `${this.share(minute)}%`;
  }

  /** The hours of the day. */
  hours() {
    const { begin, end } = this.day;
    const hours = hoursBetween(begin, end, 60, (minute) => (this.share(minute) / 100) * WIDTH, FONT);
    const parts = hours.flatMap(([minute, anchor]) => [
      anchor && svg("text", { x: this.at(minute), y: 11, "text-anchor": anchor, class: "hour" }, clock(minute)),
      this.upright("tick", minute, 14, 18)]);
    return svg("svg", { width: "100%", height: 18 }, ...parts);
  }

  /** A line at a minute. */
  upright(kind, minute, top, bottom) {
    return svg("line", { class: kind, x1: this.at(minute), x2: this.at(minute), y1: top, y2: bottom });
  }

  /** A box from one minute to another. */
  box(from, until, y, height, attributes) {
    const width = `${Math.max(this.share(until) - this.share(from), 0.05)}%`;
    return svg("rect", { x: this.at(from), width, y, height, ...attributes });
  }

  /** The bars of a block, over light lines at the hours. */
  block(block) {
    const parts = [];
    for (let minute = 60 * Math.ceil(block.leaves / 60); minute <= block.returns; minute += 60) {
      parts.push(this.upright("hour-line", minute, 0, this.size.row));
    }
    if (this.size.places) {
      parts.push(...this.places(block), ...this.times(block));
    }
    parts.push(...block.bars.flatMap((bar) => (bar.kind === "trip" ? this.trip(bar.trip) : this.between(bar))));
    return svg("svg", { width: "100%", height: this.size.row }, ...parts);
  }

  /** A bar between trips. */
  between(bar) {
    const { top, bar: height } = this.size;
    const middle = top + height / 2;
    if (bar.kind === "wait") {
      return [svg("line", { class: "waiting", x1: this.at(bar.from), x2: this.at(bar.until), y1: middle, y2: middle })];
    }
    const share = this.share(bar.until) - this.share(bar.from);
    const box = { x: this.at(bar.from), y: middle - 4, width: `${share}%`, height: 8 };
    const running = hatched(box, (share / 100) * WIDEST, bar.kind !== "empty");
    if (bar.kind === "empty") {
      return running;
    }
    return [...running, this.upright("depot", bar.kind === "out" ? bar.from : bar.until, top, top + height)];
  }

  /** A trip, with its line and its name, and where they do not stand above it with its times, as they fit. */
  trip(trip) {
    const { top, bar: height } = this.size;
    const style = this.styles.of(trip.line);
    const parts = [this.box(trip.departs, trip.arrives, top, height, { fill: style.fill, stroke: style.edge })];
    if (trip.ends > trip.arrives) {
      parts.push(this.box(trip.arrives, trip.ends, top, height, { class: "layover", stroke: style.edge }));
    }
    const mark = markOf(style, 0, WIDTH, top, height);
    if (mark) {
      mark.setAttribute("x1", `${this.share(trip.departs) + 0.1}%`);
      mark.setAttribute("x2", `${this.share(trip.arrives) - 0.1}%`);
      parts.push(mark);
    }
    const room = ((this.share(trip.arrives) - this.share(trip.departs)) / 100) * WIDTH - 4;
    const times = `${clock(trip.departs)}–${clock(trip.arrives)}`;
    const texts = this.size.places ? [`${trip.line} ${trip.id}`, trip.line]
      : [`${trip.line} ${trip.id} ${times}`, `${trip.line} ${times}`, `${trip.line} ${clock(trip.departs)}`, trip.line];
    const text = firstThatFits(texts.map((one) => one.trim()), room, FONT);
    if (text) {
      parts.push(svg("text", { class: `paper-label ${style.ink ?? ""}`, x: this.at(trip.departs), dx: 2, y: top + height / 2 + 3 }, text));
    }
    return parts;
  }

  /** The times of the trips of a block above their ends: both, or the departure alone, or its minutes, as they fit before the next one. */
  times(block) {
    const trips = block.bars.filter((bar) => bar.kind === "trip").map((bar) => bar.trip);
    const wide = (from, until) => ((this.share(until) - this.share(from)) / 100) * WIDTH - 2;
    const at = (minute, anchor, text) => svg("text", {
      class: "paper-time", x: this.at(minute), dx: anchor === "end" ? -1 : 1, y: this.size.top - 3, "text-anchor": anchor }, text);
    return trips.flatMap((trip, place) => {
      const [departs, arrives] = [clock(trip.departs), clock(trip.arrives)];
      const room = wide(trip.departs, trips[place + 1]?.departs ?? Infinity);
      const isBoth = widthOf(`${departs} ${arrives}`, TIME) <= Math.min(room, wide(trip.departs, trip.arrives));
      const text = firstThatFits([departs, departs.slice(-3)], room, TIME);
      return [text ? at(trip.departs, "start", text) : null, isBoth ? at(trip.arrives, "end", arrives) : null];
    });
  }

  /** The places of a block. */
  places(block) {
    const scale = { x: (minute) => (this.share(minute) / 100) * WIDTH, width: WIDTH };
    const places = drawPlaces(block, scale, this.size).filter((place) => place);
    places.forEach((place) => place.setAttribute("x", `${(100 * place.getAttribute("x")) / WIDTH}%`));
    return places;
  }

  /** Steps, stretched to the width. Their greatest value is at the top, and 0 is a dashed line. */
  steps(steps) {
    const values = steps.map(([, value]) => value);
    const [least, most] = [Math.min(0, ...values), Math.max(1, ...values)];
    const y = (value) => 4 + ((most - value) / (most - least)) * (STEPS - 8);
    const line = (kind, d) => svg("path", { class: kind, d, "vector-effect": "non-scaling-stroke" });
    const path = steps.map(([minute, value]) => `H${this.share(minute)}V${y(value)}`).join("");
    const shape = { class: "steps", width: "100%", height: STEPS, viewBox: `0 0 100 ${STEPS}`, preserveAspectRatio: "none" };
    return svg("svg", shape, line("zero", `M0 ${y(0)}H100`), line("deficit", `M0 ${y(0)}${path}H100`));
  }
}
