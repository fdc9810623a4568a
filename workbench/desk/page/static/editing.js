/** Edits by hand: a trip is dragged, or shifted and cancelled by keys. Each edit is one record of the script.

A trip that is dragged to another row is wished onto the bus of that row. */

import { byId, svg } from "./elements.js";
import { room } from "./day.js";
import { Putting } from "./putting.js";
import { clock, signed } from "./times.js";

const NEAR = 4;

export class Editing {
  /** `send` takes an edit with the element at which its answer is shown. Until it has its answer, `isBusy` says so. `wishes` asks what
  a wish costs. */
  constructor(chart, tip, send, wishes, isBusy) {
    Object.assign(this, { chart, tip, send, wishes, isBusy });
    this.putting = new Putting(chart, tip);
    this.held = null;
    const sheet = chart.vehicles.rows.sheet;
    sheet.addEventListener("pointerdown", (event) => this.take(event));
    sheet.addEventListener("pointermove", (event) => this.move(event));
    sheet.addEventListener("pointerup", (event) => this.letGo(event));
    sheet.addEventListener("pointercancel", () => this.drop());
    sheet.addEventListener("focusout", () => this.held?.keys && this.drop());
    document.addEventListener("keydown", (event) => this.shortcut(event));
  }

  /** A mouse or a pen takes a trip. A finger scrolls, and shifts by the form. */
  take(event) {
    const bar = this.chart.barOf(event.target);
    if (event.button === 0 && event.pointerType !== "touch" && bar?.kind === "trip" && !this.isBusy()) {
      this.hold(bar, event, false);
    }
  }

  /** Holds a trip, from where its way is counted. */
  hold(bar, { clientX, clientY }, keys) {
    this.drop();
    this.held = { bar, x: clientX, y: clientY, keys, shift: 0, group: this.chart.vehicles.element(bar), moved: false };
  }

  /** The mouse moves. Where its button came up elsewhere, the trip is let go. */
  move(event) {
    const held = this.held;
    if (!held || held.keys) {
      return;
    }
    if (event.buttons === 0) {
      this.drop();
      return;
    }
    const [far, down] = [event.clientX - held.x, event.clientY - held.y];
    if (!held.moved && Math.max(Math.abs(far), Math.abs(down)) < NEAR) {
      return;
    }
    if (!held.moved) {
      held.moved = true;
      held.group.ownerSVGElement.setPointerCapture(event.pointerId);
    }
    const isAcross = Math.abs(down) > Math.abs(far) && this.wishes.areOpen;
    this.draw(isAcross ? 0 : Math.round(far / this.chart.scale.perMinute));
    this.putting.end();
    held.target = isAcross ? this.putting.aim(held.bar, held.group, event.clientY) : null;
  }

  /** Draws the held trip so many minutes later, within its tolerances. */
  draw(minutes) {
    const { bar, group } = this.held;
    const [least, most] = room(bar.trip);
    const shift = Math.min(Math.max(minutes, least), most);
    this.held.shift = shift;
    this.chart.quiet = true;
    group.classList.add("held");
    group.setAttribute("transform", `translate(${shift * this.chart.scale.perMinute} 0)`);
    this.drawRoom(bar, least, most);
    const told = least === most ? "This trip may not be shifted: tolerances.csv, or early and late of desk.toml, allow nothing."
      : `${clock(bar.from + shift)} to ${clock(bar.until + shift)}; from ${signed(least)} to ${signed(most)} are allowed`;
    const hint = this.held.keys ? "Enter shifts it, Escape leaves it." : "";
    this.tip.show([`${bar.trip.id} ${signed(shift)}`, told, hint].filter((line) => line), group.getBoundingClientRect());
    byId("said").textContent = this.held.keys ? `shift ${signed(shift)}, ${clock(bar.from + shift)}` : "";
  }

  /** Draws how far the held trip may go. */
  drawRoom(bar, least, most) {
    this.held.room?.remove();
    const { scale, vehicles } = this.chart;
    const [x, until] = [scale.x(bar.from + least), scale.x(bar.until + most)];
    this.held.room = svg("path", { class: "room", d: `M${x} ${vehicles.size.top + vehicles.size.bar + 3}v-3H${until}v3` });
    this.held.group.parentNode.append(this.held.room);
  }

  /** The button comes up. */
  letGo() {
    if (this.held && !this.held.keys) {
      this.finish();
    }
  }

  /** Sends the shift of the held trip, or asks for the bus on which it was put. */
  finish() {
    const { bar, shift, group, target } = this.held;
    this.drop();
    if (target) {
      this.wishes.ask({ wish: "put", trip: bar.trip.id, block: target.name }, group);
    } else if (shift) {
      this.send({ edit: "shift", trip: bar.trip.id, shift }, group);
    }
  }

  /** Lets the held trip go back to where it was. */
  drop() {
    const held = this.held;
    this.held = null;
    this.chart.quiet = false;
    if (held) {
      held.room?.remove();
      this.putting.end();
      held.group?.classList.remove("held");
      held.group?.removeAttribute("transform");
      this.tip.hide();
    }
  }

  /** The keys on a bar. Gives whether the key was one of an edit. While another edit has no answer they do nothing. */
  key(event, bar) {
    if (bar.kind !== "trip" || event.ctrlKey || event.metaKey || event.altKey) {
      return false;
    }
    const isShift = event.shiftKey && (event.key === "ArrowLeft" || event.key === "ArrowRight");
    if (this.isBusy() && (isShift || event.key === "Delete")) {
      event.preventDefault();
      return true;
    }
    if (isShift) {
      if (this.held?.bar !== bar) {
        this.hold(bar, event, true);
      }
      this.draw(this.held.shift + (event.key === "ArrowRight" ? 1 : -1));
    } else if (event.key === "Enter" && this.held) {
      this.finish();
    } else if (event.key === "Escape" && this.held) {
      this.drop();
    } else if (event.key === "Delete") {
      this.send({ edit: "cancel", trip: bar.trip.id }, event.target);
    } else {
      return false;
    }
    event.preventDefault();
    return true;
  }

  /** Undo and redo from anywhere but a field, which has its own. */
  shortcut(event) {
    if (!(event.ctrlKey || event.metaKey) || /^(INPUT|SELECT|TEXTAREA)$/.test(event.target.tagName)) {
      return;
    }
    const key = event.key.toLowerCase();
    const edit = key === "y" || (key === "z" && event.shiftKey) ? "redo" : key === "z" ? "undo" : null;
    const button = edit && byId(edit);
    if (button) {
      event.preventDefault();
      button.click();
    }
  }
}
