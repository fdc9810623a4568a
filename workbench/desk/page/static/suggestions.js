/** Suggestions of the program that help the plan, shifts and chains of deadheads; and what it says of the blocks of today. */

import { button, html, list } from "./elements.js";
import { count } from "./times.js";

const WORDS = [
  ["shifts", "Shifts that save a vehicle without deadheads"],
  ["chains", "Chains of deadheads that save one"],
  ["audit", "The agency's blocks of today"],
];

export class Suggestions {
  /** `send` writes an edit, `tell` tells the server something, and `go` shows a trip. */
  constructor(send, tell, go) {
    Object.assign(this, { send, tell, go });
    this.found = html("div", { id: "suggested", "aria-live": "polite" });
    const buttons = WORDS.map(([word, label]) => button(label, (pressed) => this.suggest(word, pressed), { id: `suggest-${word}` }));
    this.element = html("div", {}, html("div", { class: "buttons" }, ...buttons), this.found);
  }

  /** Takes away what was suggested for another day. */
  forget() {
    this.found.replaceChildren();
  }

  async suggest(word, pressed) {
    pressed.disabled = true;
    this.found.replaceChildren(html("p", {}, "The program searches, and tries what it finds."));
    const answer = await this.tell("suggest", { word });
    pressed.disabled = false;
    this.found.replaceChildren(...(answer.error ? [html("p", { class: "refused" }, answer.error)] : this[word](answer.found)));
  }

  shifts(found) {
    return this.offers(found, "shift");
  }

  chains(found) {
    return this.offers(found, "chain");
  }

  /** What helps the plan, each to be tried, with what it does to vehicles and empty minutes. */
  offers({ count: number, untried, sum, offered, now }, noun) {
    const items = offered.map(({ words, edits, vehicles, minutes, own }) => [
      `${words}: ${changeOf("vehicles", now.vehicles, vehicles)}, ${changeOf("empty minutes", now.minutes, minutes)}`,
      own ? ` with ${own} of the extra ${edits.length === 1 ? "trip" : "trips"} ` : " ", this.trial(edits)]);
    const others = number - untried - offered.length;
    const more = untried ? ` ${untried} more are not tried yet.` : "";
    const told = number ? `The program finds ${count(number, noun)}; vehicles without deadheads after them: ${sum}.` : `The program finds no ${noun}.`;
    const left = others ? ` ${count(others, noun)} ${others === 1 ? "is" : "are"} not offered: this plan would not be better.` : "";
    return [html("p", {}, told + left + more), list("ul", items)];
  }

  /** The neighbours that do not fit in the blocks of today, or how far these are from the least. */
  audit({ verdict, vehicles, minutes, above, misfits }) {
    if (verdict !== "no") {
      const [what, number] = Object.entries(above ?? {})[0] ?? [];
      const far = what ? `${count(number, what.slice(0, -1))} above the least` : "as good as the least";
      return [html("p", {}, `The blocks of today can be run: ${count(vehicles, "vehicle")}, ${count(minutes, "empty minute")}; ${far}.`)];
    }
    const items = misfits.map(({ block, first, second, short }) => [
      `block ${block}: ${first} to ${second} ${short === null ? "no way" : `short by ${short}`} `, button("Show", () => this.go(first))]);
    return [html("p", {}, `${count(misfits.length, "pair")} of neighbours in the blocks of today do not fit.`), list("ul", items)];
  }

  /** A button that writes edits one after the other, until one is refused. */
  trial(edits) {
    return button("Try", async (pressed) => {
      for (const edit of edits) {
        if (!await this.send(edit, pressed)) {
          return;
        }
      }
    });
  }
}

/** A number before and after a suggestion, in words. */
function changeOf(words, before, after) {
  return before === after ? `${words} ${before} as before` : `${words} ${before} → ${after}`;
}
