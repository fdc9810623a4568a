/** Parts of the page that fold, so that the day has the room. In a small window they begin folded. */

import { byId } from "./elements.js";

const SMALL = window.matchMedia("(max-width: 900px), (max-height: 640px)");

export class Folds {
  /** `parts` are the elements that each button folds, by the name behind `fold-` in its id. `changed` is called after each change. */
  constructor(parts, changed) {
    this.parts = parts;
    this.changed = changed;
    for (const name of Object.keys(parts)) {
      const button = byId(`fold-${name}`);
      button.hidden = false;
      button.addEventListener("click", () => this.turn(name, !this.isOpen(name)));
    }
    SMALL.addEventListener("change", () => this.begin());
    this.begin();
  }

  /** Whether the window is small. */
  get isSmall() {
    return SMALL.matches;
  }

  isOpen(name) {
    return byId(`fold-${name}`).getAttribute("aria-expanded") === "true";
  }

  /** All parts are open in a large window, and none is in a small one. */
  begin() {
    Object.keys(this.parts).forEach((name) => this.turn(name, !SMALL.matches));
  }

  /** Opens a part, or folds it. */
  turn(name, open) {
    byId(`fold-${name}`).setAttribute("aria-expanded", open);
    this.parts[name].forEach((part) => { part.hidden = !open; });
    this.changed();
  }
}
