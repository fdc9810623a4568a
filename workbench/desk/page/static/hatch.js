/** Hatching, which shows empty running without colour. It is made of lines, which print fast. */

import { svg } from "./elements.js";

const APART = 5;

/** A hatched box. Its width may be a share of the paper, and is at most so many pixels. Ways from and to the depot lean the other way. */
export function hatched({ x, y, width, height }, most, isDepot) {
  const [from, until] = isDepot ? [0, height] : [height, 0];
  let path = "";
  for (let at = -height; at < most; at += APART) {
    path += `M${at} ${from}L${at + height} ${until}`;
  }
  return [
    svg("rect", { class: "body running", x, y, width, height }),
    svg("svg", { class: isDepot ? "hatch depot-hatch" : "hatch", x, y, width, height }, svg("path", { d: path })),
  ];
}
