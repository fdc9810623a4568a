/** The order of texts, and that of the rows. */

import { byId, html } from "./elements.js";

/** How two texts stand to each other in the order that people expect, `2` before `10`. */
export const byText = new Intl.Collator("en", { numeric: true }).compare;

/** Each order by what it goes: a name, and how two blocks stand to each other. */
const ORDERS = {
  block: () => 0,
  line: (one, other) => byText(lineOf(one), lineOf(other)) || one.leaves - other.leaves,
  start: (one, other) => one.leaves - other.leaves,
  end: (one, other) => one.returns - other.returns,
  "span, longest first": (one, other) => other.figures.span - one.figures.span,
  "waiting, longest first": (one, other) => other.figures.waiting - one.figures.waiting,
  "name, kept ones first": (one, other) => other.kept - one.kept || byText(one.name, other.name),
};

/** Offers the orders, and calls `changed` when another one is chosen. */
export function offerOrders(changed) {
  byId("sort").append(...Object.keys(ORDERS).map((name) => html("option", { value: name }, name)));
  byId("sort").addEventListener("input", changed);
}

/** These rows of a day in the order that is chosen. Rows that stand alike stay as the program has them. */
export function ordered(day, rows) {
  const order = ORDERS[byId("sort").value];
  return [...rows].sort((one, other) => order(day.blocks[one], day.blocks[other]));
}

/** The line of the first trip of a block. */
function lineOf(block) {
  return block.bars.find((bar) => bar.kind === "trip").trip.line;
}
