/** The script of edits: its records, trips that do not run, extra trips, suggestions, and what is written. */

import { button, byId, html, list } from "./elements.js";
import { Suggestions } from "./suggestions.js";

const EXPORTS = [["blocks", "blocks.csv and prices.csv"], ["boards", "boards.csv"], ["feed", "the feed with its blocks"]];
const WRITTEN = {
  same: "blocks.csv in the folder is of this plan.",
  other: "blocks.csv in the folder is of another plan.",
  missing: "blocks.csv is not in the folder yet.",
};

const TAKEN = "What is written is of the edits that stand. The commands work on edits.csv: ./desk take puts these edits there.";

export class ScriptPanel {
  /** `send` writes an edit, `tell` tells the server something, and `go` shows a trip. */
  constructor(host, send, tell, go) {
    Object.assign(this, { host, send, tell });
    this.suggestions = new Suggestions(send, tell, go);
    this.answer = html("pre", { id: "answered", "aria-live": "polite" });
  }

  /** Shows the script of a day. */
  show(day) {
    const { planners, state } = day.view;
    if (state !== this.state) {
      this.suggestions.forget();
    }
    this.state = state;
    const parts = {
      "Edits": this.records(planners ? planners.records : day.view.script),
      "Trips that do not run": this.cancelled(day),
      "An extra trip": this.extra(day.places.map((place) => place.name)),
      "Suggestions": this.suggestions.element,
      ...(planners ? { "Who edits what": this.standing(planners.standing, day.view.proof?.held ?? {}) } : {}),
      "Keep and write": this.files(day.view.written, planners),
    };
    const cards = Object.entries(parts).map(([title, part]) => html("section", {}, html("h2", {}, title), part));
    this.host.replaceChildren(html("div", { class: "cards" }, ...cards));
  }

  /** Shows who holds whom, once the program has been asked. */
  showHeld({ view }) {
    if (view.planners) {
      byId("planners")?.replaceWith(this.standing(view.planners.standing, view.proof?.held ?? {}));
    }
  }

  /** The records, with what the program says of each. */
  records(records) {
    if (!records.length) {
      return html("p", {}, "There is no edit. Drag a trip, or choose one.");
    }
    const items = records.map(({ text, ok, said }) => [html("code", {}, text), " ", html("span", { class: ok ? null : "refused" }, said)]);
    return list("ol", items, { id: "records" });
  }

  /** The trips that do not run, each with a button that restores it. */
  cancelled(day) {
    const restore = (trip) => button("Restore", (pressed) => this.send({ edit: "restore", trip: trip.id }, pressed));
    const items = day.cancelled().map((trip) => [`${trip.line} ${trip.id} `.trimStart(), restore(trip)]);
    return items.length ? list("ul", items, { id: "cancelled" }) : html("p", {}, "All trips run.");
  }

  /** The form of an extra trip between two of these places. */
  extra(places) {
    const choice = (name, label) => html("label", {}, label, html("select", { name }, ...places.map((place) => html("option", {}, place))));
    const field = (name, label, placeholder) => html("label", {}, label,
      html("input", { name, placeholder, required: true, size: 8, autocomplete: "off" }));
    const submit = (event) => {
      event.preventDefault();
      this.send({ edit: "extra", ...Object.fromEntries(new FormData(event.target)) }, event.target);
    };
    return html("form", { id: "extra", submit }, field("trip", "name ", "E1"), choice("from", "from "), choice("to", "to "),
      field("departs", "departs ", "HH:MM"), field("arrives", "arrives ", "HH:MM"), html("button", {}, "Add"));
  }

  /** Keeping and writing, with what was answered last. With planners it is of the edits that stand. */
  files(written, planners) {
    const label = planners ? "Take all planners' edits that stand into edits.csv, and keep them" : "Keep the edits in the journal";
    const keep = button(label, (pressed) => this.write("keep", {}, pressed), { id: "keep" });
    const exports = EXPORTS.map(([what, file]) =>
      button(`Write ${file}`, (pressed) => this.write("export", { what }, pressed), { id: `export-${what}` }));
    const buttons = html("div", { class: "buttons" }, keep, ...exports);
    return html("div", {}, buttons, html("p", { class: "light" }, WRITTEN[written], planners ? ` ${TAKEN}` : null), this.answer);
  }

  async write(name, body, pressed) {
    pressed.disabled = true;
    const answer = await this.tell(name, body);
    this.answer.textContent = answer.error ?? answer.said;
    pressed.disabled = false;
    byId(pressed.id).focus();
  }

  /** The planners' edits that stand, and who holds the last one of each. */
  standing(edits, held) {
    const row = (name, texts) => html("tr", {}, ...texts.map((text) => html(name, {}, text)));
    const last = new Map(edits.map((edit) => [edit.planner, edit]));
    const holder = (edit) => (last.get(edit.planner) === edit ? held[edit.planner] ?? "" : "");
    return html("table", { id: "planners" }, html("thead", {}, row("th", ["planner", "edit that stands", "held by"])),
      html("tbody", {}, ...edits.map((edit) => row("td", [edit.planner, edit.text, holder(edit)]))));
  }
}
