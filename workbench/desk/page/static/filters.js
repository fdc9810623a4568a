/** Which trips are looked at: by line, terminal, block and time, and by a search.

An exact name that is searched for comes before names that have it in them: of a trip, of a block, of a line. */

import { alike } from "./changes.js";
import { byId, html } from "./elements.js";
import { count, parseClock } from "./times.js";

const FIELDS = ["line", "terminal", "block", "from", "until"];

export class Filters {
  /** `changed` is called after each change of the filter, `timed` after one of its hours, `found` with each bar that a search finds. */
  constructor(changed, timed, found) {
    Object.assign(this, { changed, timed, found });
    this.at = -1;
    this.hits = [];
    for (const field of FIELDS) {
      byId(`filter-${field}`).addEventListener("input", () => this.enter(field));
    }
    byId("filter-clear").addEventListener("click", () => this.clear());
    byId("search").addEventListener("input", () => this.search(0));
    byId("search").addEventListener("keydown", (event) => this.key(event));
    byId("search-before").addEventListener("click", () => this.search(-1));
    byId("search-next").addEventListener("click", () => this.search(1));
  }

  /** A field has changed. */
  enter(field) {
    this.changed();
    if (field === "from" || field === "until") {
      this.timed(this.readMinute("from"), this.readMinute("until"));
    }
  }

  /** Offers the lines and terminals of a day. */
  offer(day) {
    for (const [field, texts] of [["line", day.lines], ["terminal", day.terminals]]) {
      if (!this.day || !alike(texts, this.day[`${field}s`])) {
        offer(byId(`filter-${field}`), `all ${field}s`, texts);
      }
    }
    this.day = day;
    const name = this.hit?.trip.id;
    this.hits = this.matches();
    this.at = Math.max(this.hits.findIndex((bar) => bar.trip.id === name), 0);
    this.count();
  }

  /** The bar that is found; null where none is. */
  get hit() {
    return this.hits[this.at] ?? null;
  }

  value(field) {
    return byId(`filter-${field}`).value;
  }

  /** Leaves nothing out any more. */
  clear() {
    const wasTimed = this.value("from") || this.value("until");
    FIELDS.forEach((field) => { byId(`filter-${field}`).value = ""; });
    this.changed();
    if (wasTimed) {
      this.timed(null, null);
    }
  }

  /** Whether anything is left out. */
  get active() {
    return FIELDS.some((field) => this.value(field).trim() !== "");
  }

  /** Reads the fields once for many bars. A time of no form is marked and leaves nothing out. */
  read() {
    const [from, until] = ["from", "until"].map((field) => this.readMinute(field));
    const block = this.value("block").trim().toLowerCase();
    return { line: this.value("line"), terminal: this.value("terminal"), block, from: from ?? -Infinity, until: until ?? Infinity };
  }

  /** The minute of a field; null where it is empty or of no form, which is marked. */
  readMinute(field) {
    const minute = parseClock(this.value(field));
    byId(`filter-${field}`).setAttribute("aria-invalid", minute === null && this.value(field).trim() !== "");
    return minute;
  }

  /** The rows of the blocks that have a bar which passes. */
  rows(day) {
    this.wanted = this.read();
    const passes = (block) => !this.active || block.bars.some((bar) => bar.kind === "trip" && this.passes(bar));
    return day.blocks.filter(passes).map((block) => block.row);
  }

  /** Whether a bar passes. What is between trips passes where its place and its time do. */
  passes(bar) {
    const wanted = this.wanted;
    return (!wanted.line || bar.trip?.line === wanted.line)
      && (!wanted.terminal || bar.start === wanted.terminal || bar.end === wanted.terminal)
      && (!wanted.block || bar.block.toLowerCase().includes(wanted.block))
      && bar.from <= wanted.until && bar.until >= wanted.from;
  }

  /** The bars of trips that have the text of the search in what names them, those that are named exactly so first. */
  matches() {
    const text = byId("search").value.trim().toLowerCase();
    if (!text || !this.day) {
      return [];
    }
    const ranked = [[], [], [], []];
    for (const bar of this.day.bars.values()) {
      const names = [bar.trip.id, bar.block, bar.trip.line].map((name) => name.toLowerCase());
      const exact = names.indexOf(text);
      if (exact >= 0) {
        ranked[exact].push(bar);
      } else if ([...names, bar.trip.headsign.toLowerCase()].some((name) => name.includes(text))) {
        ranked[3].push(bar);
      }
    }
    return ranked.flat();
  }

  /** Searches, and shows the match that stands so many behind the one that is shown. */
  search(step) {
    if (step === 0) {
      this.hits = this.matches();
      this.at = 0;
    } else if (this.hits.length) {
      this.at = (this.at + step + this.hits.length) % this.hits.length;
    }
    this.count();
    this.found(this.hit, false);
  }

  /** Says how many matches there are. */
  count() {
    const text = byId("search").value.trim();
    const found = this.hits.length ? `${this.at + 1} of ${count(this.hits.length, "trip")}` : "no trip";
    byId("search-count").textContent = text ? found : "";
    ["before", "next"].forEach((step) => { byId(`search-${step}`).hidden = this.hits.length < 2; });
  }

  /** Enter, Escape and the arrow down lead to the trip that is found. */
  key(event) {
    if (["Enter", "Escape", "ArrowDown"].includes(event.key) && this.hit) {
      event.preventDefault();
      this.found(this.hit, true);
    }
  }
}

/** Fills a choice with texts and keeps what was chosen. */
function offer(select, all, texts) {
  const chosen = select.value;
  const options = texts.filter((text) => text).map((text) => html("option", { value: text }, text));
  select.replaceChildren(html("option", { value: "" }, all), ...options);
  select.value = texts.includes(chosen) ? chosen : "";
}
