/** What is around the day: its name, the numbers and the verdict above it, and below it the run that gave them. */

import { byId, html } from "./elements.js";
import { count, grouped, signed } from "./times.js";

const NUMBERS = { vehicles: "vehicles", minutes: "empty minutes", fixed: "vehicles without deadheads" };
const KEYS = [
  ["Arrows", "go from bar to bar"],
  ["Home, End", "first and last bar of a vehicle"],
  ["Page up, Page down", "ten vehicles up or down"],
  ["+ − 0", "zoom, and the whole day"],
  ["Ctrl and wheel, two fingers", "zoom"],
  ["Enter or Escape in the search", "go to the trip that is found"],
];
const EDIT_KEYS = [
  ["Shift and ← →", "shift a trip by a minute"],
  ["Enter, Escape", "write that shift, or leave it"],
  ["Delete", "cancel a trip"],
  ["Drag to another row", "ask what it costs to put a trip on that bus"],
  ["Ctrl Z, Ctrl Y", "undo, redo"],
];

/** Shows the name, the numbers and the verdict of a day, and by how much the numbers are others than before. */
export function showHead(view, before) {
  const { title, date, planner, numbers } = view;
  const verdict = verdictOf(view);
  document.title = `${title}: ${date}`;
  byId("title").textContent = title;
  byId("date").textContent = planner ? `${date}, planner ${planner}` : date;
  for (const key of Object.keys(NUMBERS)) {
    const change = before ? numbers[key] - before[key] : 0;
    const mark = html("span", { class: change < 0 ? "change less" : "change" }, signed(change));
    byId(`number-${key}`).replaceChildren(grouped(numbers[key]), change ? mark : "");
  }
  const mark = html("span", { class: verdict.yes ? "yes" : "no", "aria-hidden": "true" }, verdict.yes ? "✓ " : "✗ ");
  byId("verdict").replaceChildren(verdict.yes === null ? "" : mark, verdict.words);
  byId("warnings").replaceChildren(...view.warnings.map((words) => html("li", {}, words)));
  byId("warnings").hidden = !view.warnings.length;
  byId("run").textContent = runWords(view);
}

/** The run that gave the day, and what a planner should know beside it. */
function runWords(view) {
  const { made, script, planners, written } = view;
  const words = [
    `blocks and check of ${made}: check says ${verdictOf(view).text}`,
    scriptWords("edits.csv", script),
    planners ? scriptWords("planner_edits.csv", planners.records) : "",
    written === "other" ? "blocks.csv in the folder is of another plan" : "",
    "this page itself is not proved",
  ];
  return words.filter((text) => text).join("; ");
}

/** How many records a script has, and how many of them are refused. */
function scriptWords(name, records) {
  const refused = records.filter((record) => !record.ok).length;
  return `${name}: ${count(records.length, "record")}${refused ? `, ${refused} refused` : ""}`;
}

/** Shows what undo and redo would do. A planner's undo is judged by the program alone. */
export function showUndo({ undo, redo, planner }) {
  byId("undo").disabled = undo === null && !planner;
  byId("redo").disabled = redo === null || Boolean(planner);
  byId("undo").title = planner ? "" : undo ?? "";
  byId("redo").title = redo ?? "";
}

/** What an edit has changed, in words: the numbers, and how many trips are marked and why. */
export function changeWords(before, after, marks) {
  const changed = Object.keys(NUMBERS).filter((key) => before[key] !== after[key]);
  const words = changed.map((key) => `${NUMBERS[key]} ${before[key]} → ${after[key]}`).join(", ");
  const blocks = `In another block: ${marks.neighbours} by neighbours, ${marks.names} by names.`;
  const marked = `Marked: ${count(marks.trips.length, "trip")}.`;
  const others = [marks.times && `At another time: ${marks.times}.`, marks.new && `New: ${marks.new}.`];
  return [`${words || "the numbers are as before"}.`, marked, blocks, ...others].filter((part) => part).join(" ");
}

/** What stands above the pages of a day on paper. */
export function paperTitle(view) {
  const { title, date, numbers } = view;
  const plan = `${count(numbers.vehicles, "vehicle")}, ${count(numbers.minutes, "empty minute")}`;
  return `${title}, ${date}: ${plan}; check: ${verdictOf(view).text}`;
}

/** What `check` says of a day; else that it is asked, or why it could not be asked. */
function verdictOf({ proof, reason }) {
  return proof?.verdict ?? { yes: null, words: reason ? `The plan could not be checked: ${reason}` : "The program checks the plan.", text: "nothing yet" };
}

/** Shows or hides what the keys do. */
export function toggleKeys(button, canEdit) {
  const box = byId("keys");
  box.hidden = !box.hidden;
  button.setAttribute("aria-expanded", !box.hidden);
  const keys = canEdit ? [...KEYS, ...EDIT_KEYS] : KEYS;
  box.replaceChildren(html("dl", {}, ...keys.map(([key, does]) => html("div", {}, html("dt", {}, key), html("dd", {}, does)))));
}
