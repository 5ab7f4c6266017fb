// What claims want, which boards fit, and why they don't get them.
import {FEW, OUT} from "./state.js";

/**
 * One board of a type, or of any where it is empty, that has all of these tags.
 * @typedef {{type: string, tags: string[]}} Want
 * @typedef {{name: string, type: string, tags: string[], health: string, holder: string}} Board
 */

const MOST_NAMED = 4;

/**
 * Which machine runs a board's jobs.
 * @param {{tags: string[]}} board
 */
export function workerOf({tags}) {
  return tags.find(it => it.startsWith("worker="))?.slice(7) || "desk";
}

/**
 * The workers that don't answer, as far as what the dispatcher keeps is such a list.
 * @param {any} told
 * @returns {Map<string, {since: number, reason: string}>}
 */
export function awayOf(told) {
  const all = Array.isArray(told?.workers) ? told.workers : [];
  return new Map(all.filter(it => it?.answers === false && typeof it.name === "string"
    && Number.isFinite(it.since)).map(({name, since, reason}) =>
    [name, {since, reason: typeof reason === "string" ? reason : ""}]));
}

/**
 * @param {Board} board
 * @param {Want} want
 */
export function fits(board, want) {
  return (!want.type || board.type === want.type)
    && want.tags.every(it => board.tags.includes(it) || it === "name=" + board.name);
}

const healthWords = health => health === "Maintenance" ? "in Maintenance" : health;

export function wantText({type, tags}) {
  return [type || (tags.length ? "" : "any board"), ...tags].filter(it => it).join(" ");
}

// What is wanted, in words: '2 rpi4b hdmi, 1 nuc'.
export function wantsText(wants) {
  const counts = new Map();
  for (const it of wants.map(wantText)) counts.set(it, (counts.get(it) || 0) + 1);
  return [...counts].map(([text, times]) => times > 1 ? times + " x " + text : text).join(", ");
}

// Some of the wants, as few as can be, for which there are too few boards that aren't out: there
// are such wants exactly where no list of these boards meets them all (Hall's theorem).
export function shortWants(all, boards) {
  const coming = boards.filter(it => !OUT.includes(it.health));
  for (let chosen = 1; chosen < 1 << all.length; chosen++) {
    const some = all.filter((_, place) => chosen >> place & 1);
    const fitting = coming.filter(it => some.some(want => fits(it, want)));
    if (fitting.length < some.length) return some;
  }
  return [];
}

// What keeps these wants from being met, and nothing where boards can come that meet them.
export function stuckBy(all, boards) {
  const short = shortWants(all, boards);
  if (!short.length) return "";
  const out = boards.filter(it => OUT.includes(it.health) && short.some(want => fits(it, want)))
    .map(it => it.name + " is " + healthWords(it.health));
  if (out.length > FEW) out.splice(FEW, Infinity, out.length - FEW + " more are out");
  const words = short.map(wantText);
  return "can't be served: " + (out.join(", ") || "no board fits " + words.join(" and "));
}

/**
 * How many boards fit a want, and why none of them is free, as `desk wait` says it; nothing where
 * one is.
 * @param {Want} want
 * @param {Board[]} boards
 * @param {(board: Board) => boolean} isUnchecked whether it has to be checked first
 * @param {(board: Board) => string} holderOf who holds it, by what
 * @param {(board: Board) => boolean} isAway whether its worker doesn't answer
 */
export function waitsFor(want, boards, isUnchecked, holderOf, isAway) {
  const fitting = boards.filter(it => fits(it, want));
  const stateOf = it => OUT.includes(it.health) ? healthWords(it.health)
    : it.holder !== "none" ? "held" : isUnchecked(it) ? "Unknown until it is checked"
      : isAway(it) ? "on worker " + workerOf(it) + ", which doesn't answer" : "";
  const states = fitting.map(stateOf);
  if (!fitting.length) return "no board fits";
  if (states.includes("")) return "";
  const holders = some => some.slice(0, MOST_NAMED).map(holderOf).join(", ")
    + (some.length > MOST_NAMED ? ", " + (some.length - MOST_NAMED) + " more" : "");
  if (fitting.length === 1) {
    return "1 board fits, " + (states[0] === "held" ? "held by " + holders(fitting) : states[0]);
  }
  const counts = [...new Set(states)].sort().map(it => {
    const some = fitting.filter((_, place) => states[place] === it);
    return some.length + " " + it + (it === "held" ? " (" + holders(some) + ")" : "");
  });
  return fitting.length + " boards fit: " + counts.join(", ");
}
