/** The table of blocks, which is sorted by any of its columns. */

import { button, html } from "./elements.js";
import { byText } from "./order.js";
import { hours } from "./times.js";

/** The columns: a heading, the text of a block, and the number by which blocks are sorted. */
const COLUMNS = [
  ["Block", (block) => block.name, (block) => block.row],
  ["Class", (block) => block.class ?? "", (block) => block.class ?? ""],
  ["Trips", (block) => String(block.figures.trips), (block) => block.figures.trips],
  ["Leaves", (block) => block.figures.leaves, (block) => block.leaves],
  ["Home", (block) => block.figures.returns, (block) => block.returns],
  ...["Span", "Platform", "Layover", "Waiting", "Empty"].map((heading) => {
    const minutes = (block) => block.figures[heading.toLowerCase()];
    return [heading, (block) => hours(minutes(block)), minutes];
  }),
];

/** The columns that a day has: without classes there is none of them. */
export function columnsOf(day) {
  return COLUMNS.filter(([heading]) => heading !== "Class" || day.blocks.some((block) => block.class !== null));
}

export class BlockTable {
  /** `open` is called with the block that is chosen. */
  constructor(host, open) {
    this.host = host;
    this.open = open;
    this.by = 0;
    this.falling = false;
  }

  /** Shows these blocks of a day, by their rows. */
  show(day, shown) {
    this.day = day;
    this.shown = shown;
    this.draw();
  }

  draw() {
    const columns = columnsOf(this.day);
    const [, , key] = columns[this.by] ?? columns[0];
    const order = this.shown.map((row) => this.day.blocks[row]).sort((one, other) => compare(key(one), key(other)));
    if (this.falling) {
      order.reverse();
    }
    const head = columns.map(([heading], column) => this.heading(heading, column));
    const rows = order.map((block) => html("tr", {}, ...columns.map(([, text], column) => this.cell(block, text(block), column))));
    this.host.replaceChildren(html("table", { class: "blocks" },
      html("caption", {}, "Blocks. Times are hours and minutes; a heading sorts by its column."),
      html("thead", {}, html("tr", {}, ...head)), html("tbody", {}, ...rows)));
  }

  /** A heading, which sorts by its column. */
  heading(text, column) {
    const sorted = column === this.by ? (this.falling ? "descending" : "ascending") : null;
    const mark = sorted ? html("span", { "aria-hidden": "true" }, this.falling ? " ▼" : " ▲") : null;
    const heading = html("button", { type: "button", click: () => this.sort(column) }, text, mark);
    return html("th", { scope: "col", "aria-sort": sorted }, heading);
  }

  /** A cell. That of the block's name shows the block among the vehicles. */
  cell(block, text, column) {
    if (column > 0) {
      return html("td", {}, text);
    }
    return html("th", { scope: "row" }, button(text, () => this.open(block), { class: "plain" }));
  }

  sort(column) {
    this.falling = column === this.by && !this.falling;
    this.by = column;
    this.draw();
    this.host.querySelectorAll("thead button")[column].focus();
  }
}

/** The order of two numbers or texts. */
function compare(one, other) {
  return typeof one === "number" ? one - other : byText(one, other);
}
