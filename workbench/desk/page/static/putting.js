/** A trip on its way to the row of another bus: which row that is, and the mark in it. */

import { svg } from "./elements.js";

const EDGE = 12;

export class Putting {
  constructor(chart, tip) {
    Object.assign(this, { chart, tip, mark: null });
  }

  /** The block whose row is at a height of the window, where it is another one than that of a bar. The row is marked, and the bar,
  whose element is given, is drawn in it. Null where there is none. */
  aim(bar, element, y) {
    const { vehicles } = this.chart;
    this.scroll(y);
    const position = vehicles.positionAt(y);
    const block = vehicles.day.blocks[vehicles.shown[position]];
    if (!block || block.row === bar.row) {
      return null;
    }
    this.mark = this.markOf(bar, position);
    element.setAttribute("transform", `translate(0 ${(position - vehicles.positions.get(bar.row)) * vehicles.size.row})`);
    this.tip.show([`${bar.trip.id} on block ${block.name}`, "Let go: the program says what it costs."], this.mark.lastChild.getBoundingClientRect());
    return block;
  }

  /** Brings the next row into view where the mouse is near the upper or the lower end of those that are. */
  scroll(y) {
    const { rows: { frame, head }, size } = this.chart.vehicles;
    if (y > frame.getBoundingClientRect().bottom - EDGE) {
      frame.scrollTop += size.row;
    } else if (y < head.getBoundingClientRect().bottom + EDGE) {
      frame.scrollTop -= size.row;
    }
  }

  /** Marks the row at a position, and where a bar would be in it. */
  markOf(bar, position) {
    const { vehicles: { size, rows }, scale } = this.chart;
    const y = position * size.row;
    const place = { x: scale.x(bar.from), y: y + size.top, width: scale.x(bar.until) - scale.x(bar.from), height: size.bar };
    const row = svg("rect", { y, width: scale.width, height: size.row });
    const mark = svg("g", { class: "target" }, row, svg("rect", { class: "place-of-trip", ...place }));
    rows.sheet.append(mark);
    return mark;
  }

  /** Takes the mark away. */
  end() {
    this.mark?.remove();
    this.mark = null;
  }
}
