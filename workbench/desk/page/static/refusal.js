/** The words of the program for an edit that it refuses, where the hand is. */

import { button, byId, html } from "./elements.js";
import { boxOf, placeBeside } from "./tip.js";

/** Shows words beside an element, with hints how what they are about is mended, until they are closed. */
export function refuse(title, words, hints, element) {
  const box = byId("refusal");
  const close = button("×", () => {
    forgive();
    (element?.querySelector("input") ?? element)?.focus();
  }, { "aria-label": "close" });
  box.replaceChildren(html("strong", {}, title), html("div", {}, words), ...hints.map((hint) => html("p", {}, hint)), close);
  box.hidden = false;
  placeBeside(box, boxOf(element));
}

/** Takes the words away. */
export function forgive() {
  byId("refusal").hidden = true;
}
