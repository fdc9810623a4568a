/** The day types of a period above the day: a tab for each with its vehicles, and the fleet, which is the most of them. */

import { byId, html } from "./elements.js";
import { count } from "./times.js";

/** Shows the day types, of which one is in front. `choose` is called with the place of one that is chosen. */
export function showDays(days, front, choose) {
  const tabs = byId("days");
  const hadFocus = tabs.contains(document.activeElement);
  const buttons = days.map((day, at) => html("button", {
    type: "button", "aria-current": at === front ? "page" : "false", title: `${day.folder}, ${count(day.dates, "date")}`, click: () => choose(at),
  }, `${day.label} `, html("b", {}, day.vehicles === null ? "?" : String(day.vehicles))));
  tabs.replaceChildren(html("p", { id: "fleet" }, fleetWords(days)), ...buttons);
  tabs.hidden = false;
  if (hadFocus) {
    buttons[front].focus();
  }
}

/** The most vehicles over the day types, and which of them needs them. */
function fleetWords(days) {
  const known = days.filter((day) => day.vehicles !== null);
  const most = known.reduce((one, other) => (other.vehicles > one.vehicles ? other : one));
  const least = known.length < days.length ? "at least " : "";
  return `Fleet: ${least}${count(most.vehicles, "vehicle")}, on ${most.label}`;
}
