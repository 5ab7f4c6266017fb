import {draw} from "./again.js";
import {boardDialog, filter, freeOnly, gridding, grouping, jobDialog, mine} from "./parts.js";
import {choiceOf, searchOf} from "./routes.js";
import {state} from "./state.js";
import {wordsIn} from "./words.js";

/** @type {[HTMLElement, "isMine" | "isFree" | "areGrouped" | "isGrid"][]} */
const PRESSED = [[mine, "isMine"], [freeOnly, "isFree"], [grouping, "areGrouped"],
  [gridding, "isGrid"]];

export function choose(text) {
  filter.value = text;
  noteChoice();
}

export function addWord(word) {
  for (const it of [boardDialog, jobDialog]) it.close();
  if (!filter.value.includes(word)) choose((filter.value + " " + word).trim());
}

// What is chosen stands in the address, so that it can be kept and handed on.
export function noteChoice() {
  readChoice();
  const search = searchOf({...state, words: filter.value});
  const hash = location.hash.startsWith("#/") ? location.hash : "";
  history.replaceState(null, "", location.pathname + search + hash);
  draw();
}

export function readChoice() {
  state.wanted = wordsIn(filter.value);
  for (const [place, name] of PRESSED) {
    state[name] = place.getAttribute("aria-pressed") === "true";
  }
  state.choices++;
}

export function toggle(it) {
  it.setAttribute("aria-pressed", String(it.getAttribute("aria-pressed") !== "true"));
  noteChoice();
}

// What the address looks for.
export function takeAddress() {
  const choice = choiceOf(location);
  for (const [place, name] of PRESSED) place.setAttribute("aria-pressed", String(choice[name]));
  if (filter.value !== choice.words) filter.value = choice.words;
}
