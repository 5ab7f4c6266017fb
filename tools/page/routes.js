// Addresses: what is looked for stands behind the ?, what is opened behind the #, so that each has
// a link, and the browser's back and forward go from one to the next.

// The address of what a page opens: a board, a job, or the run of a job that began then.
export const hrefOfBoard = name => "#/boards/" + encodeURIComponent(name);
export const hrefOfJob = (number, began) => "#/jobs/" + number + (began ? "/" + began : "");
export const hrefOfWords = words => "?q=" + encodeURIComponent(words);

/**
 * What a hash opens.
 * @param {string} hash
 * @returns {{kind: string, name?: string, number?: number, began?: number}}
 */
export function routeOf(hash) {
  const [, kind, name = "", began = ""] = /^#\/(\w+)(?:\/([^/]+))?(?:\/(\d+))?$/.exec(hash) || [];
  if (kind === "boards" && name) return {kind: "board", name: decoded(name)};
  if (kind === "jobs" && /^[1-9]\d{0,8}$/.test(name)) {
    return {kind: "job", number: Number(name), began: Number(began)};
  }
  return {kind: ["usage", "submit", "keys"].includes(kind) && !name ? kind : ""};
}

/**
 * What an address looks for. An older link has the words behind the #.
 * @param {{search: string, hash: string}} address
 */
export function choiceOf({search, hash}) {
  const asked = new URLSearchParams(search);
  const words = asked.get("q") ?? (hash.startsWith("#/") ? "" : decoded(hash.slice(1)));
  return {words, isMine: asked.has("mine"), areGrouped: !asked.has("flat"),
    isFree: asked.has("free"), isGrid: asked.has("grid")};
}

// What stands behind the ? for a choice.
export function searchOf({words, isMine, areGrouped, isFree, isGrid}) {
  const asked = [isMine && "mine", !areGrouped && "flat", isFree && "free", isGrid && "grid",
    words && "q=" + encodeURIComponent(words)].filter(it => it);
  return asked.length ? "?" + asked.join("&") : "";
}

function decoded(text) {
  try {
    return decodeURIComponent(text);
  } catch {
    return "";
  }
}

// Opens what has this address.
export function go(hash) {
  if (location.hash !== hash) location.hash = hash;
}

// Closes what is open.
export function leave() {
  if (!location.hash.startsWith("#/")) return;
  history.pushState(null, "", location.pathname + location.search);
}

// ---- other labs

const MOST_LABS = 50;
const LONGEST_LAB = 48;

/**
 * The labs that a menu may lead to, each with where it is.
 * @param {any} labs
 * @param {string} origin
 * @returns {{name: string, href: string}[]}
 */
export function labsOf(labs, origin) {
  const found = [];
  for (const it of Array.isArray(labs) ? labs : []) {
    const isText = typeof it?.name === "string" && typeof it.address === "string";
    if (!isText || !it.name || it.name.length > LONGEST_LAB) continue;
    if (/^\/(?!\/)(.*\/)?$/.test(it.address) || /^https:\/\//.test(it.address)) {
      found.push({name: it.name, href: new URL(it.address, origin).href});
    }
  }
  return found.slice(0, MOST_LABS);
}
