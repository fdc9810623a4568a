/** The list of wishes: each record of pairs.csv, what it costs as the program says, and a button that takes it back. */

import { button, html, list } from "./elements.js";
import { count } from "./times.js";
import { tellServer } from "./server.js";

const RULES = { keep: "kept together", never: "never one after the other" };
const UNDO = "Undo takes back edits, and no wish: a wish is taken back here.";
const NONE = "There is no wish. Drag a trip to the row of another bus, or choose one.";
const PLANNERS = "Wishes are of the town, and not of one planner: ./desk open without --planner shows and takes them.";

export class WishList {
  /** `take` writes a wish, `go` shows a trip, and `left` is called where the list is left before all costs were asked. */
  constructor(host, take, go, left) {
    Object.assign(this, { host, take, go, left });
  }

  /** Shows the wishes of a day, and asks what each costs. */
  show(day) {
    this.day = day;
    const { wishes, planner } = day.view;
    if (planner || !wishes.length) {
      this.host.replaceChildren(html("div", { class: "list" }, html("p", {}, planner ? PLANNERS : NONE)));
      return;
    }
    this.sum = html("p", { id: "wishes-sum" }, "The program plans without each one.");
    this.costs = wishes.map(() => html("span", { class: "light" }, ".."));
    const items = wishes.map((wish, at) => this.item(wish, this.costs[at]));
    this.host.replaceChildren(html("div", { class: "list" }, this.sum, list("ol", items, { id: "wishes" }), html("p", { class: "light" }, UNDO)));
    this.ask(day);
  }

  /** A wish: its trips, its rule, whether the plan has it, its cost, and what can be done with it. */
  item({ record, before, after, rule }, cost) {
    const { day } = this;
    const isMissed = rule === "keep" && day.following(before) !== after;
    const bar = day.bars.get(before) ?? day.bars.get(after);
    return [
      html("code", {}, before), " to ", html("code", {}, after), `: ${RULES[rule]}`,
      isMissed ? html("span", { class: "refused" }, " (not in this plan)") : null, ", ", cost, " ",
      bar ? button("Show", () => this.go(bar)) : null, " ",
      button("Take back", (pressed) => this.back(record, pressed), { "aria-label": `take back ${before} to ${after}` }),
    ].filter((part) => part);
  }

  /** Takes a record back. The focus goes to the next one. */
  async back(record, pressed) {
    if (await this.take({ wish: "back", record }, pressed)) {
      const buttons = [...this.host.querySelectorAll("li button:last-child")];
      buttons[Math.min(record, buttons.length) - 1]?.focus();
    }
  }

  /** Asks what the wishes of a day cost, all together and then each, as long as the list of that day is looked at. */
  async ask(day) {
    const { state, wishes, numbers } = day.view;
    const asked = [wishes, ...wishes.map((wish) => [wish])];
    for (const [at, without] of asked.entries()) {
      const { plan, error } = await tellServer("cost", { state, without: without.map(({ record }) => record) });
      if (this.day !== day) {
        return;
      }
      if (this.host.hidden) {
        this.left();
        return;
      }
      if (at === 0 && plan) {
        this.sum.textContent = `With all wishes ${planWords(numbers)}; with none ${planWords(plan)}.`;
      } else if (at > 0) {
        this.costs[at - 1].textContent = plan?.words ?? error ?? "";
      }
    }
  }
}

/** The vehicles and empty minutes of a plan. */
function planWords({ vehicles, minutes }) {
  return `${count(vehicles, "vehicle")}, ${count(minutes, "empty minute")}`;
}
