/** What is known of the bar below the pointer or with the focus, beside it. */

import { byId, html } from "./elements.js";

const APART = 8;

export class Tip {
  constructor() {
    this.box = byId("tip");
  }

  /** Shows lines beside a box of the window. The first is a heading. */
  show(lines, beside) {
    this.box.replaceChildren(...lines.map((line, at) => html(at ? "div" : "strong", {}, line)));
    this.box.hidden = false;
    placeBeside(this.box, beside);
  }

  hide() {
    this.box.hidden = true;
  }
}

/** Where an element is in the window, beside which something is shown; the verdict where it is not there any more. */
export function boxOf(element) {
  return (element?.isConnected ? element : byId("verdict")).getBoundingClientRect();
}

/** Places an element below a box of the window, or above it where there is no room, and never outside. */
export function placeBeside(element, box) {
  const [width, height] = [element.offsetWidth, element.offsetHeight];
  const isBelow = box.bottom + APART + height <= window.innerHeight;
  element.style.left = `${Math.max(4, Math.min(box.left, window.innerWidth - width - APART))}px`;
  element.style.top = `${isBelow ? box.bottom + APART : Math.max(4, box.top - height - APART)}px`;
}
