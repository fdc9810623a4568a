/** The page: a day that is written in it, or the day of `desk open`, which can be changed. */

import { byId } from "./elements.js";
import { SIZES } from "./bars.js";
import { alike, changed } from "./changes.js";
import { Chart } from "./chart.js";
import { Day } from "./day.js";
import { showDays } from "./days.js";
import { Editing } from "./editing.js";
import { Filters } from "./filters.js";
import { Folds } from "./folds.js";
import { Hand } from "./hand.js";
import { changeWords, paperTitle, showHead, showUndo, toggleKeys } from "./head.js";
import { legendOf } from "./legend.js";
import { LineStyles } from "./lines.js";
import { offerOrders, ordered } from "./order.js";
import { layPaper } from "./paper.js";
import { forgive, refuse } from "./refusal.js";
import { Scale } from "./scale.js";
import { ScriptPanel } from "./script.js";
import { ask, tellServer } from "./server.js";
import { BlockTable } from "./table.js";
import { makeTabs } from "./tabs.js";
import { Terminals } from "./terminals.js";
import { signed } from "./times.js";
import { Tip } from "./tip.js";
import { Vehicles } from "./vehicles.js";
import { WishList } from "./wish_list.js";
import { Wishes } from "./wishes.js";

const EVERY = 2000;
const SOON = 300;
const LONG = 15000;
const MANY = 40;
const VIEWS = ["Vehicles", "Terminals", "Blocks"];

class Page {
  constructor(canEdit) {
    this.canEdit = canEdit;
    this.marked = new Set();
    this.stale = new Set();
    this.lines = new LineStyles();
    this.scale = new Scale();
    this.tip = new Tip();
    const panels = makeTabs(canEdit ? [...VIEWS, "Edits", "Wishes"] : VIEWS, () => this.turn());
    this.vehicles = new Vehicles(panels[0], this.scale, this);
    this.terminals = new Terminals(panels[1], this.scale);
    this.table = new BlockTable(panels[2], (block) => this.go(block.bars[0]));
    this.chart = new Chart([this.vehicles, this.terminals], this.scale, this.tip, (event, bar) => this.editing?.key(event, bar));
    this.filters = new Filters(() => this.draw(), (from, until) => this.chart.showHours(from, until), (bar, focus) => this.find(bar, focus));
    offerOrders(() => this.draw());
    const parts = { tools: [...document.querySelectorAll(".unfolds")], legend: [byId("legend")], ...(canEdit ? { side: [byId("side")] } : {}) };
    this.folds = new Folds(parts, () => this.day && this.chart.resize());
    byId("row-size").addEventListener("input", () => this.draw());
    byId("print").addEventListener("click", () => window.print());
    byId("help").addEventListener("click", (event) => toggleKeys(event.target, canEdit));
    window.addEventListener("beforeprint", () => layPaper(this.day, this.shown, this.lines, paperTitle(this.day.view)));
    if (canEdit) {
      this.listenToEdits(panels[3], panels[4]);
    }
  }

  /** Makes what changes the day. */
  listenToEdits(panel, wishPanel) {
    this.sending = (edit, element) => this.send(edit, element);
    this.wishes = new Wishes(this);
    this.editing = new Editing(this.chart, this.tip, this.sending, this.wishes, () => this.busy);
    const taking = (wish, element) => this.wishes.take(wish, element);
    this.wishList = new WishList(wishPanel, taking, (bar) => this.go(bar), () => this.stale.add("Wishes"));
    const go = (trip) => this.go(this.day.bars.get(trip));
    this.script = new ScriptPanel(panel, this.sending, (name, body) => this.tell(name, body), go);
    this.hand = new Hand(this, this.sending);
    byId("edit-buttons").hidden = false;
    for (const edit of ["undo", "redo"]) {
      byId(edit).addEventListener("click", (event) => this.send({ edit }, event.target));
    }
    document.addEventListener("keydown", (event) => event.key === "Escape" && this.forget());
  }

  /** Takes away what was said or offered beside a bar. */
  forget() {
    forgive();
    this.wishes?.forget();
  }

  /** Another tab has come to the front. */
  turn() {
    this.forget();
    this.chart?.resize();
    if (this.day) {
      this.drawFront();
    }
    this.hand?.turn();
  }

  /** Shows a day, as it is after an edit of one's own or after those of others. */
  show(view, isOwn = false) {
    const before = this.day;
    const wasHere = this.hand?.isHere(isOwn);
    this.forget();
    this.editing?.drop();
    this.day = new Day(view, before);
    this.lines.add(this.day.lines, view.colours);
    this.scale.setHours(this.day.begin, this.day.end);
    if (!before) {
      byId("row-size").value = this.day.blocks.length > MANY ? "middle" : "high";
    }
    this.filters.offer(this.day);
    this.foundBar = this.foundBar && this.filters.hit;
    showHead(view, this.before);
    if (view.days) {
      showDays(view.days, view.tab, (at) => this.choose(at));
    }
    if (!before || !alike(before.lines, this.day.lines)) {
      byId("legend").replaceChildren(...legendOf(this.day.lines, this.lines));
    }
    if (this.canEdit) {
      this.stale.add("Edits").add("Wishes");
    }
    this.draw(isOwn || wasHere ? this.hand.bar : null);
    if (this.canEdit) {
      showUndo(view);
      this.hand.follow(wasHere, isOwn);
      this.proveSoon();
    }
  }

  /** Goes to another day type, which `desk open` has under its number. */
  choose(at) {
    if (this.views) {
      this.day = null;
      this.foundBar = null;
      this.show(this.views[at]);
    } else {
      location.assign(`../${at}/`);
    }
  }

  /** Asks for the proof of a day that comes without it, once it is painted and no other edit follows at once. */
  proveSoon() {
    clearTimeout(this.proving);
    if (!this.day.view.proof) {
      this.proving = setTimeout(() => this.prove(), SOON);
    }
  }

  /** Asks for the proof of the day, and shows it where that day still stands. */
  async prove() {
    const { state } = this.day.view;
    const { proof, error } = await tellServer("proof", { state });
    if (state === this.day.view.state) {
      this.day.prove(proof, error);
      showHead(this.day.view, this.before);
      this.script.showHeld(this.day);
      this.stale.add("Terminals");
      this.drawFront();
    }
  }

  /** Draws what passes the filter, with this bar in view where there is one. */
  draw(bar = null) {
    if (!this.day) {
      return;
    }
    this.vehicles.size = SIZES[byId("row-size").value];
    this.shown = ordered(this.day, this.filters.rows(this.day));
    this.vehicles.show(this.day, this.shown, bar);
    this.chart.settle();
    this.stale.add("Terminals").add("Blocks");
    this.drawFront();
  }

  /** Draws what is in front beside the vehicles, where it is of another day or of other rows. */
  drawFront() {
    const draw = {
      Terminals: () => this.terminals.show(this.day, this.filters.value("terminal")),
      Blocks: () => this.table.show(this.day, this.shown),
      Edits: () => this.script.show(this.day),
      Wishes: () => this.wishList.show(this.day),
    };
    const front = [...this.stale].find((name) => !byId(`panel-${name}`).hidden);
    if (this.stale.delete(front)) {
      draw[front]();
    }
  }

  /** The states of a bar that its drawing shows. */
  statesOf(bar) {
    const states = [];
    if (this.filters.active && !this.filters.passes(bar)) {
      states.push("dim");
    }
    if (bar === this.foundBar) {
      states.push("found");
    }
    if (bar.trip && this.isMarked(bar.trip)) {
      states.push("changed");
    }
    return states;
  }

  /** Whether the last edit has put a trip into another block or to another time, or has brought it in. */
  isMarked(trip) {
    return this.marked.has(trip.id);
  }

  /** Whether the Tab key reaches a bar. */
  isCurrent(bar) {
    return bar === this.chart.current;
  }

  /** What a bar is to somebody who does not see it. */
  roleOf(bar) {
    return this.canEdit && bar.kind === "trip" ? "button" : "img";
  }

  /** Shows a bar that a search has found, or that none is found any more. */
  find(bar, focus) {
    this.foundBar = bar;
    this.vehicles.rows.redraw();
    if (bar) {
      this.uncover(bar);
      this.vehicles.reveal(bar);
      this.chart.makeCurrent(bar);
      if (focus) {
        this.chart.focus(bar);
      }
    }
  }

  /** Shows a bar among the vehicles, whatever is in front. */
  go(bar) {
    if (bar) {
      this.uncover(bar);
      this.chart.focus(bar);
    }
  }

  /** Brings the vehicles to the front, and leaves a filter that hides a bar. */
  uncover(bar) {
    if (byId("panel-Vehicles").hidden) {
      byId("tab-Vehicles").click();
    }
    if (!this.vehicles.positions.has(bar.row)) {
      this.filters.clear();
    }
  }

  /** Sends an edit, and shows its answer where the hand is. Gives whether it was done. */
  async send(edit, element) {
    if (this.busy) {
      return false;
    }
    forgive();
    this.say("");
    this.hand.take(edit.trip);
    clearTimeout(this.proving);
    const answer = await this.tell("edit", { ...edit, state: this.day.view.state });
    const words = [edit.edit, edit.trip, edit.shift && signed(edit.shift)].filter((part) => part).join(" ");
    if (!answer.done) {
      refuse(words, answer.error ?? answer.said, answer.hints ?? [], this.placeOf(edit.trip, element));
      this.proveSoon();
      return false;
    }
    this.say(`${words}: ${changeWords(this.before, this.day.view.numbers, answer.marks)}`);
    return true;
  }

  /** Asks for a wish or takes it, and gives the answer. Where it cannot be, that is shown where the hand is. */
  async wish(name, wish, element) {
    if (this.busy) {
      return null;
    }
    this.forget();
    this.say("");
    this.hand.take(wish.trip);
    const answer = await this.tell(name, { ...wish, state: this.day.view.state });
    if (answer.done) {
      this.say(`${answer.said}: ${changeWords(this.before, this.day.view.numbers, answer.marks)}`);
    } else if (answer.wish?.misfit || !answer.wish) {
      const { title = "This wish", misfit = answer.error ?? answer.said } = answer.wish ?? {};
      refuse(title, misfit, answer.hints ?? [], this.placeOf(wish.trip, element));
      return null;
    }
    return answer;
  }

  /** Says something for a while. */
  say(words) {
    clearTimeout(this.saying);
    byId("said").textContent = words;
    this.saying = setTimeout(() => this.say(""), LONG);
  }

  /** Tells the server something, and shows the day that it answers with. */
  async tell(name, body) {
    this.busy = true;
    document.body.classList.add("busy");
    const answer = await tellServer(name, body);
    document.body.classList.remove("busy");
    this.busy = false;
    const view = answer.change ? changed(this.day.view, answer.change) : answer.day;
    if (view) {
      this.before = answer.done ? this.day.view.numbers : null;
      this.marked = new Set(answer.marks?.trips ?? []);
      this.show(view, true);
    }
    return answer;
  }

  /** The element beside which words about a trip stand: that of the hand, or where it is gone the trip's bar. */
  placeOf(trip, element) {
    const bar = this.day.bars.get(trip);
    return element?.isConnected || !bar ? element : this.vehicles.element(bar);
  }

  /** Looks whether the folder has changed, and reads it again. */
  async look() {
    if (document.hidden || this.busy || this.looking || this.editing.held) {
      return;
    }
    this.looking = true;
    const { state } = await ask("state");
    if (state && !this.busy && state !== this.day?.view.state && state !== this.looked) {
      const answer = await this.reload();
      this.looked = answer ? state : this.looked;
      this.say(answer?.day ? "The folder has changed, and the day was read again." : "");
    }
    this.looking = false;
  }

  /** Reads the day again, and gives the answer. Where the hand has begun something meanwhile, it is nothing. */
  async reload() {
    const answer = await ask("day");
    if (this.busy || this.editing.held) {
      return null;
    }
    if (answer.day) {
      this.marked = new Set();
      this.before = null;
      this.show(answer.day);
    } else {
      refuse("The day cannot be read", answer.error, answer.hints ?? [], null);
    }
    return answer;
  }
}

/** Begins with the day that stands in the page, or asks the server for it. */
async function begin() {
  const stands = byId("day");
  const page = new Page(stands === null);
  if (stands) {
    const told = JSON.parse(stands.textContent);
    page.views = told.views;
    page.show(told.views?.[0] ?? told);
  } else {
    await page.reload();
    setInterval(() => page.look(), EVERY);
  }
  document.body.classList.add("ready");
}

begin();
