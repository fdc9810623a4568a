/** The legend: each line, and what the other bars are. */

import { html, svg } from "./elements.js";
import { hatched } from "./hatch.js";

/** What shows each of these lines, and each kind of bar. */
export function legendOf(names, styles) {
  const running = (isDepot) => hatched({ x: 1, y: 3, width: 26, height: 9 }, 26, isDepot);
  const kinds = [
    ["layover", [svg("rect", { class: "layover", x: 1, y: 1, width: 26, height: 13, stroke: "#434b59" })]],
    ["empty running", running(false)],
    ["from and to the depot", [...running(true), svg("line", { class: "depot", x1: 2, x2: 2, y1: 0, y2: 15 })]],
    ["waiting", [svg("line", { class: "waiting", x1: 1, x2: 27, y1: 8, y2: 8 })]],
  ];
  const ofKind = ([name, parts]) => html("span", {}, svg("svg", { width: 28, height: 15, "aria-hidden": "true" }, ...parts), name);
  return [...names.map((name) => html("span", {}, styles.sample(name), name || "extra trip")), ...kinds.map(ofKind)];
}
