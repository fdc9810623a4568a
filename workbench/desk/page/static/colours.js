/** Colours of lines: how light they are, and whether they can be told apart. */

const LIGHTEST = 1.25;
const DARKEST = 1.25;
const APART = 70;

/** The parts of a colour of six digits, each from 0 to 255, or null where the text is none. */
export function partsOf(text) {
  return /^[0-9a-f]{6}$/i.test(text) ? [0, 2, 4].map((at) => parseInt(text.slice(at, at + 2), 16)) : null;
}

/** A colour as a style has it. */
export function textOf(parts) {
  return `#${parts.map((part) => Math.round(part).toString(16).padStart(2, "0")).join("")}`;
}

/** How much light comes from a colour, by the rule of the W3C: 0 of black, 1 of white. */
function light(parts) {
  const linear = (share) => (share <= 0.03928 ? share / 12.92 : ((share + 0.055) / 1.055) ** 2.4);
  const [red, green, blue] = parts.map((part) => linear(part / 255));
  return 0.2126 * red + 0.7152 * green + 0.0722 * blue;
}

/** Whether white letters stand out better from a colour than dark ones. */
export function isDark(parts) {
  return light(parts) < 0.18;
}

/** A colour with this share of black in it. */
export function darker(parts, share) {
  return parts.map((part) => part * (1 - share));
}

/** Whether a colour stands out from paper and from ink, and from each of these colours. */
export function isTold(parts, others) {
  const seen = light(parts) + 0.05;
  return 1.05 / seen >= LIGHTEST && seen / 0.05 >= DARKEST && others.every((other) => distance(parts, other) >= APART);
}

/** How far two colours are apart to the eye: 0 to 765. */
function distance(one, other) {
  const [red, green, blue] = one.map((part, at) => (part - other[at]) ** 2);
  const mean = (one[0] + other[0]) / 2 / 256;
  return Math.sqrt((2 + mean) * red + 4 * green + (3 - mean) * blue);
}
