/** Texts that fit into the room that a bar has. */

const NARROWEST = 3;
const pen = document.createElement("canvas").getContext("2d");
const widths = new Map();

/** How wide a text is in a font. */
export function widthOf(text, font) {
  const key = font + text;
  let width = widths.get(key);
  if (width === undefined) {
    pen.font = font;
    width = pen.measureText(text).width;
    widths.set(key, width);
  }
  return width;
}

/** The first of these texts that fits, or an empty one. What would not fit in the narrowest letters is not measured. */
export function firstThatFits(texts, room, font) {
  return texts.find((text) => text.length * NARROWEST <= room && widthOf(text, font) <= room) ?? "";
}

/** A text, shortened with an ellipsis where it does not fit; empty where three letters of it do not. */
export function shortened(text, room, font) {
  if (widthOf(text, font) <= room) {
    return text;
  }
  let letters = Math.floor((room / widthOf(text, font)) * text.length);
  while (letters >= 3 && widthOf(text.slice(0, letters) + "…", font) > room) {
    letters -= 1;
  }
  return letters >= 3 ? text.slice(0, letters).trimEnd() + "…" : "";
}
