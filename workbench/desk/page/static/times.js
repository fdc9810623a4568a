/** Minutes of the service day and their texts. */

/** A minute as `HH:MM`, with a minus in front before midnight. */
export function clock(minute) {
  if (minute < 0) {
    return "-" + clock(-minute);
  }
  const hours = String(Math.floor(minute / 60)).padStart(2, "0");
  return `${hours}:${String(minute % 60).padStart(2, "0")}`;
}

/** Seconds as `HH:MM:SS`. */
export function exactClock(seconds) {
  return `${clock(Math.floor(seconds / 60))}:${String(seconds % 60).padStart(2, "0")}`;
}

/** The minute of `HH:MM` or `H:MM`, or null where the text is none. */
export function parseClock(text) {
  const found = /^\s*(\d{1,2}):([0-5]\d)\s*$/.exec(text);
  return found ? 60 * Number(found[1]) + Number(found[2]) : null;
}

/** A number of minutes in hours and minutes, `3:05`. */
export function hours(minutes) {
  return `${Math.floor(minutes / 60)}:${String(minutes % 60).padStart(2, "0")}`;
}

/** A number with its sign, `+2`. */
export function signed(number) {
  return number > 0 ? `+${number}` : String(number);
}

/** A number with its thousands apart, `12,913`. */
export function grouped(number) {
  return number < 1000 ? String(number) : number.toLocaleString("en");
}

/** A number with its noun, `1 trip` or `2 trips`. */
export function count(number, noun) {
  return `${grouped(number)} ${noun}${number === 1 ? "" : "s"}`;
}
