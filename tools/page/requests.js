// Asking: the desk's views, the files beside them, and commands.
import {AGAIN, LONGEST, state} from "./state.js";

const MINUTE = 60000;

// (an address with a name and a password in it can't be asked)
export function address(path) {
  return new URL(path, location.origin + location.pathname);
}

const within = () => /** @type {any} */ (AbortSignal).timeout(LONGEST);
const pause = wait => new Promise(done => setTimeout(done, wait));

// What came in place of an answer that was wanted: a refusal with its status, or none at all.
export class NoAnswer extends Error {
  constructor(text, status = 0) {
    super(text);
    this.status = status;
  }
}

/**
 * An answer to a look that isn't a refusal. Who is asked to wait (429) waits.
 * @param {string} path
 * @param {RequestInit} settings
 */
export async function get(path, settings) {
  for (const wait of [...AGAIN, 0]) {
    const answer = await fetch(address(path), {signal: within(), ...settings}).catch(fault => {
      throw new NoAnswer(fault.name === "TimeoutError" ? "nothing came for "
        + LONGEST / 1000 + " s" : "no connection");
    });
    if (answer.ok) return answer;
    if (answer.status !== 429 || !wait) {
      throw new NoAnswer((answer.status + " " + answer.statusText).trim(), answer.status);
    }
    await pause(wait);
  }
}

// The last text of each view and file, and what it says: what hasn't changed is the same object.
const kept = new Map();

// The JSON of an answer, of which a part may be lost on the way.
async function jsonOf(path, answer) {
  try {
    const text = await answer.text(), was = kept.get(path);
    if (was?.text === text) return was.said;
    const said = JSON.parse(text);
    if (!path.includes("/")) kept.set(path, {text, said});
    return said;
  } catch {
    throw new NoAnswer("what came isn't an answer of the desk's");
  }
}

// A view of the desk's, which may be a second old: so a proxy can answer many viewers at once.
// After a command it has to be fresh.
export async function look(path, isFresh = false) {
  const headers = isFresh ? {} : {"cache-control": "max-age=1"};
  const answer = await get(path, {cache: "no-store", headers});
  const said = await jsonOf(path, answer), date = Date.parse(answer.headers.get("date"));
  // (a date is cut to the second, so what is less than that isn't followed)
  const offset = date + 500 - Date.now();
  if (Math.abs(offset - state.offset) > 1500) state.offset = offset;
  return said;
}

/**
 * The JSON of a file beside the views, which not every lab has: null where it isn't served, and
 * then it is asked for again each minute; undefined where no answer came. What is of low priority
 * comes after the views, where a line is slow.
 * @param {string} path
 * @param {"auto" | "low"} priority
 */
export async function fileOf(path, priority = "auto") {
  if (Date.now() < (state.absent.get(path) || 0)) return null;
  try {
    /** @type {any} */
    const settings = {cache: "no-cache", priority};
    return await jsonOf(path, await get(path, settings));
  } catch (fault) {
    if (fault.status !== 404) return undefined;
    state.absent.set(path, Date.now() + MINUTE);
    return null;
  }
}

// Does this for each of these, so many at a time at most. (By HTTP/2 all are asked in one round
// trip; else a browser asks six at a time.)
export async function forEachOf(all, call, most = 64) {
  const left = [...all];
  const work = async () => {
    while (left.length) await call(left.shift());
  };
  await Promise.all(Array.from({length: most}, work));
}

// A key that nobody has used.
export function freshKey() {
  const bytes = crypto.getRandomValues(new Uint8Array(16));
  return Array.from(bytes, it => it.toString(16).padStart(2, "0")).join("");
}

// The answer to a command, or null where none came after several times.
export async function sendUntilAnswered(action, tellAgain) {
  for (const wait of [...AGAIN, null]) {
    const answer = await send(action);
    if (answer || wait === null) return answer;
    tellAgain();
    await pause(wait);
  }
}

// Sends a command once. There is no answer where the desk's didn't come through, or where it says
// that nobody knows (5xx); where the proxy wants a pause (429) it is sent again, too.
export async function send({path, body = null, key = "", text = ""}) {
  try {
    const answer = await fetch(address(path), {
      method: "POST", cache: "no-store", headers: key ? {"x-key": key} : {},
      body: text || (body ? JSON.stringify(body) : ""), signal: within(),
    });
    const {ok, status, statusText} = answer;
    if (status === 429 || (status >= 500 && status !== 501)) return null;
    const said = ok ? await answer.json() : await answer.json().catch(() => ({}));
    return {isRefused: !ok, status, statusText, said};
  } catch {
    return null;
  }
}

// What to do about a refusal, by its code.
export const ADVICE = {
  3: "only its owner or the admin may", 4: "the farm has reached a limit; its admin knows",
  6: "a tag is letters, digits, - _ and ., or such a key, = and a value",
  14: "first its holder has to give it back", 21: "it has gone on meanwhile",
  22: "no boards that aren't Retired have all these tags", 31: "reserve again",
  32: "it has gone on meanwhile", 401: "log in again",
  403: "the proxy takes commands from its own pages alone",
};

export function wordsOfRefusal({status, statusText, said}) {
  const text = said.text || (status + " " + statusText).trim();
  const advice = ADVICE[said.code || status];
  return advice ? text + " (" + advice + ")" : text;
}
