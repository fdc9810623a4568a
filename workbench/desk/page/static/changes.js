/** What has changed of a day: the server sends of its lists what is new, and where in those before the other elements stood. */

const LISTS = ["trips", "blocks", "script", "wishes"];

/** The view after a change of another one. In its lists `[first, count]` are elements of the list before, from this place on. */
export function changed(view, change) {
  const lists = LISTS.map((name) => [name, change[name].flatMap((part) => wholeOf(part, view[name]))]);
  return { ...change, ...Object.fromEntries(lists) };
}

/** Whether two lists have the same elements. */
export function alike(one, other) {
  return one.length === other.length && one.every((element, at) => element === other[at]);
}

/** The elements of a part of a list. */
function wholeOf(part, before) {
  return Array.isArray(part) ? before.slice(part[0], part[0] + part[1]) : [part];
}
