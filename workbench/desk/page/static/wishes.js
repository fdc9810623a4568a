/** Wishes: which trips follow on one another. The program says what each costs, and then it is taken into pairs.csv or left. */

import { button, byId, html, list } from "./elements.js";
import { boxOf, placeBeside } from "./tip.js";

const SHOWN = 4;

export class Wishes {
  /** `page` has the day, and tells the server of a wish: `tell` with an element at which its answer is shown. */
  constructor(page) {
    this.page = page;
    this.box = byId("wish");
    this.box.addEventListener("keydown", (event) => event.key === "Escape" && this.leave());
    this.head = null;
  }

  /** Whether wishes can be made: pairs.csv is of the town, and not of one planner. */
  get areOpen() {
    return !this.page.day.view.planner;
  }

  /** What can be wished of a trip, beside the vehicles. */
  forms(bar) {
    if (!this.areOpen) {
      return [];
    }
    const { day } = this.page;
    const [trip, next] = [bar.trip.id, day.following(bar.trip.id)];
    const ask = (text, wish, id) => button(text, (pressed) => this.ask(wish, pressed), { id });
    const isKept = day.view.wishes.some(({ before, after, rule }) =>
      rule === "keep" && day.bars.get(before)?.row === bar.row && day.following(before) === after);
    const buttons = [
      next && ask(`Never ${next} straight after it`, { wish: "never", trip }, "wish-never"),
      this.tail(trip, ask),
      day.blocks[bar.row].rides.length > 1 && ask(`Keep block ${bar.block} as it is`, { wish: "freeze", block: bar.block }, "wish-freeze"),
      isKept && ask(`Take back what keeps block ${bar.block}`, { wish: "thaw", block: bar.block }, "wish-thaw"),
    ].filter((part) => part);
    return [this.put(trip), html("div", { class: "wishes", role: "group", "aria-label": "Wishes" }, ...buttons)];
  }

  /** The form that puts a trip on the bus of a block. */
  put(trip) {
    const field = html("input", { id: "wish-block", required: true, autocomplete: "off" });
    const submit = (event) => {
      event.preventDefault();
      this.ask({ wish: "put", trip, block: field.value.trim() }, event.target);
    };
    return html("form", { submit }, html("label", {}, "Put on block ", field), " ", html("button", { "aria-label": "ask what it costs" }, "Ask"));
  }

  /** The button of a trip that has its tail swapped: the first one is remembered, until one of another bus is chosen. */
  tail(trip, ask) {
    const { day } = this.page;
    const head = day.bars.get(this.head);
    if (head && head.row !== day.bars.get(trip).row) {
      return ask(`Swap what follows with what follows ${this.head}`, { wish: "swap", trip: this.head, other: trip }, "wish-swap");
    }
    const isHead = this.head === trip;
    const words = isHead ? "Now choose the trip of another bus" : "Swap what follows it ..";
    return button(words, () => this.remember(isHead ? null : trip), { id: "wish-head", "aria-pressed": String(isHead) });
  }

  /** Remembers the first trip of two whose tails are swapped. */
  remember(trip) {
    this.head = trip;
    this.page.hand.tell();
    byId("wish-head").focus();
  }

  /** Asks what a wish costs, and offers it. */
  async ask(wish, element) {
    const answer = await this.page.wish("wish", wish, element);
    if (answer?.wish) {
      this.offer(wish, answer.wish, element);
    }
  }

  /** Shows what a wish costs, to be taken or left. */
  offer(wish, { title, cost, records, taken, file }, element) {
    const more = records.length > SHOWN ? ` and ${records.length - SHOWN} more` : "";
    const codes = records.slice(0, SHOWN).flatMap((record) => [html("code", {}, record), " "]);
    const take = button("Take it", () => this.take(wish, element), { id: "wish-take" });
    this.element = element;
    this.box.replaceChildren(
      html("strong", { id: "wish-title" }, title), html("p", { id: "wish-cost" }, cost), ...inTheWay(taken),
      html("p", { class: "light" }, `${file}: `, ...codes, more),
      html("div", { class: "buttons" }, take, button("Leave it", () => this.leave(), { id: "wish-leave" })));
    this.box.hidden = false;
    placeBeside(this.box, boxOf(element));
    take.focus();
  }

  /** Writes a wish. Gives whether it was taken. No tail is remembered any more. */
  async take(wish, element) {
    this.head = null;
    return Boolean((await this.page.wish("take_wish", wish, element))?.done);
  }

  /** Leaves a wish, and gives the focus back to where it was asked. */
  leave() {
    this.forget();
    (this.element?.querySelector?.("input") ?? this.element)?.focus();
  }

  /** Takes an offer away: what it says was of another day. */
  forget() {
    this.box.hidden = true;
  }
}

/** The wishes that stand in the way of one, and are taken back with it. */
function inTheWay(taken) {
  return taken.length ? [html("p", {}, "In the way stands, and is taken back with it:"), list("ul", taken)] : [];
}
