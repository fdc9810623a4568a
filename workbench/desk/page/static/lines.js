/** How the bars of a line look: its colour, a strong edge, and a mark that is seen without colour too. */

import { darker, isDark, isTold, partsOf, textOf } from "./colours.js";
import { svg } from "./elements.js";

const COLOURS = [
  ["#cfe1fb", "#1c56a8"], ["#ffe0bd", "#9a4f00"], ["#cdeedd", "#17693f"], ["#e6dafa", "#5f35a8"],
  ["#ffd8e4", "#a31d55"], ["#cdecef", "#0c6470"], ["#f6eeb4", "#6d5800"], ["#e2e5ea", "#434b59"],
];
const DASHES = ["none", "7 3", "1.5 2.5"];
const NONE = { fill: "#fffdf5", edge: "#16202c", side: null };

/** The styles of lines. A line that has one keeps it, whatever lines come and go. */
export class LineStyles {
  constructor() {
    this.styles = new Map([["", NONE]]);
    this.agencys = [];
  }

  /** Gives each of these lines a style that has none yet. `colours` are those of the agency by lines, as six digits. */
  add(names, colours) {
    for (const name of names.filter((one) => !this.styles.has(one))) {
      const own = partsOf(colours[name] ?? "");
      const style = markedStyle(this.styles.size - 1);
      this.styles.set(name, own && isTold(own, this.agencys) ? { ...style, ...coloured(own) } : style);
      if (this.styles.get(name).fill !== style.fill) {
        this.agencys.push(own);
      }
    }
  }

  /** The style of a line. */
  of(name) {
    return this.styles.get(name);
  }

  /** What shows the style of a line in the legend. */
  sample(name) {
    const style = this.of(name);
    const bar = svg("rect", { x: 1, y: 1, width: 26, height: 13, rx: 2, fill: style.fill, stroke: style.edge });
    return svg("svg", { width: 28, height: 15, "aria-hidden": "true" }, bar, markOf(style, 1, 27, 1, 13));
  }
}

/** The style of the line with this number. Seven marks and eight colours make 56 pairs. */
function markedStyle(number) {
  const [fill, edge] = COLOURS[number % COLOURS.length];
  const mark = number % 7;
  return { fill, edge, side: mark === 0 ? null : mark < 4 ? "bottom" : "top", dashes: DASHES[(mark + 2) % 3] };
}

/** A colour of the agency, with an edge and a mark that stand out from it. */
function coloured(parts) {
  const dark = isDark(parts);
  const edge = textOf(darker(parts, 0.45));
  return { fill: textOf(parts), edge, mark: dark ? "#fff" : edge, ink: dark ? "light-ink" : "dark-ink" };
}

/** The mark of a line in a bar, or null where its style has none. */
export function markOf(style, x, until, y, height) {
  if (style.side === null || until - x < 4) {
    return null;
  }
  const at = style.side === "top" ? y + 2 : y + height - 2;
  const place = { x1: x + 1, x2: until - 1, y1: at, y2: at };
  return svg("line", { class: "mark", ...place, stroke: style.mark ?? style.edge, "stroke-dasharray": style.dashes });
}
