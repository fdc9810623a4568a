/** The hand: which bar is chosen, by its name on any day, and what is shown of it beside the vehicles. */

import { byId } from "./elements.js";
import { nameOf } from "./day.js";
import { showSide } from "./side.js";

export class Hand {
  /** `page` has the day and shows bars. `send` takes an edit with the element at which its answer is shown. */
  constructor(page, send) {
    this.page = page;
    this.send = send;
    this.name = null;
    const sheet = page.vehicles.rows.sheet;
    sheet.addEventListener("focusin", () => this.choose(page.chart.current));
    sheet.addEventListener("click", (event) => this.unfold(page.chart.barOf(event.target)));
  }

  /** The bar that is chosen, where it is on this day. */
  get bar() {
    return this.page.day.named.get(this.name);
  }

  /** Chooses a bar. */
  choose(bar) {
    this.name = bar?.name ?? null;
    this.tell();
  }

  /** An edit of a trip is sent: the hand is on that one. */
  take(trip) {
    this.name = trip ? nameOf("trip", trip) : this.name;
  }

  /** Tells of the bar beside the vehicles, with what can be done to it. */
  tell() {
    showSide(this.bar, this.page.day.view, this.send, this.page.wishes, () => this.page.folds.turn("side", false));
  }

  /** In a small window what stands beside the vehicles comes with a trip that is clicked, in place of the words beside its bar. */
  unfold(bar) {
    const { folds, vehicles, tip } = this.page;
    if (bar?.kind === "trip" && folds.isSmall) {
      folds.turn("side", true);
      vehicles.reveal(bar);
      tip.hide();
    }
  }

  /** Whether the focus is at the vehicles or beside them; after an edit of one's own also where it is nowhere. */
  isHere(isOwn) {
    const focused = document.activeElement ?? document.body;
    return focused === document.body ? isOwn : Boolean(focused.closest("#panel-Vehicles, #side"));
  }

  /** On another day the hand is on the bar on which it was, wherever that stands now. Where that is gone, it is on none. */
  follow(wasHere, isOwn) {
    this.tell();
    const isHidden = byId("panel-Vehicles").hidden;
    this.unseen = isOwn && isHidden;
    // A button that has nothing more to do loses the focus, which then goes to the bar.
    if (this.bar && (wasHere || document.activeElement?.disabled) && !isHidden) {
      this.page.go(this.bar);
    }
  }

  /** The vehicles have come to the front: what was edited elsewhere comes into view. */
  turn() {
    if (this.unseen && !byId("panel-Vehicles").hidden) {
      this.unseen = false;
      if (this.bar) {
        this.page.vehicles.reveal(this.bar);
      }
    }
  }
}
