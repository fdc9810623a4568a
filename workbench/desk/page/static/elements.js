/** Elements of the page and of drawings. Texts are set as texts, so a name of the feed is never read as markup. */

const DRAWING = "http://www.w3.org/2000/svg";

/** An element of the page. Attributes that are false, null or undefined are left out. */
export function html(name, attributes = {}, ...children) {
  return filled(document.createElement(name), attributes, children);
}

/** An element of a drawing. */
export function svg(name, attributes = {}, ...children) {
  return filled(document.createElementNS(DRAWING, name), attributes, children);
}

/** A button that does something when it is clicked, which is given the button. */
export function button(text, does, attributes = {}) {
  return html("button", { type: "button", click: (event) => does(event.currentTarget), ...attributes }, text);
}

/** A list of items, each of one part or of several. */
export function list(name, items, attributes = {}) {
  return html(name, attributes, ...items.map((item) => html("li", {}, ...[item].flat())));
}

/** The element of the page with this id. */
export function byId(id) {
  return document.getElementById(id);
}

/** An element with these attributes and children. */
function filled(element, attributes, children) {
  for (const [name, value] of Object.entries(attributes)) {
    if (typeof value === "function") {
      element.addEventListener(name, value);
    } else if (value !== false && value !== null && value !== undefined) {
      element.setAttribute(name, value === true ? "" : value);
    }
  }
  element.append(...children.filter((child) => child !== null && child !== undefined));
  return element;
}
