/** The server of `desk open`, which is asked by names beside the page. */

/** What the server answers to a name. */
export function ask(name) {
  return answerTo(name, { method: "GET" });
}

/** What the server answers to a request under a name. */
export function tellServer(name, body) {
  return answerTo(name, { method: "POST", headers: { "Content-Type": "application/json" }, body: JSON.stringify(body) });
}

/** The answer to a request. Where there is none, it says why. */
async function answerTo(name, request) {
  let answer;
  try {
    answer = await fetch(name, { ...request, cache: "no-store" });
  } catch {
    return { error: "The server does not answer: has `./desk open` ended?" };
  }
  try {
    return await answer.json();
  } catch {
    return { error: `The server answers ${answer.status}.` };
  }
}
