/** The chosen bar beside the vehicles, and what can be done to its trip. */

import { button, byId, html } from "./elements.js";
import { room, tell } from "./day.js";
import { signed } from "./times.js";

/** Shows a bar of a day. `send` takes an edit with the element at which its answer is shown, `wishes` has what can be wished of a trip,
and `close` folds all of this. */
export function showSide(bar, view, send, wishes, close) {
  const side = byId("side");
  const closing = button("×", close, { "aria-label": "close", class: "close" });
  if (!bar) {
    side.replaceChildren(closing, html("p", {}, "Choose a trip to shift it, to cancel it or to put it on another bus: click it, or go to it with the arrow keys."));
    return;
  }
  const [title, ...lines] = tell(bar);
  for (const edit of view.planners?.standing ?? []) {
    if (edit.trip === bar.trip?.id) {
      lines.push(`${edit.planner}: ${edit.text}`);
    }
  }
  const actions = bar.trip ? [shiftForm(bar.trip, send), cancelButton(bar.trip, send), ...wishes.forms(bar)] : [];
  side.replaceChildren(closing, html("h2", {}, title), ...lines.map((line) => html("p", {}, line)), ...actions);
}

/** The form that shifts a trip. */
function shiftForm(trip, send) {
  const [least, most] = room(trip);
  const value = most <= 0 && least < 0 ? -1 : 1;
  const field = html("input", { id: "shift-minutes", type: "number", min: -120, max: 120, value, required: true });
  const submit = (event) => {
    event.preventDefault();
    send({ edit: "shift", trip: trip.id, shift: Number(field.value) }, event.target);
  };
  const allowed = html("p", { class: "light" }, `from ${signed(least)} to ${signed(most)} are allowed`);
  return html("form", { submit }, html("label", {}, "Shift by ", field, " minutes"), " ", html("button", {}, "Shift"), allowed);
}

/** The button that cancels a trip. */
function cancelButton(trip, send) {
  return button("Cancel the trip", (pressed) => send({ edit: "cancel", trip: trip.id }, pressed), { id: "cancel-trip" });
}
