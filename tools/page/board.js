import {actionsOfBoard, healthActions} from "./actions.js";
import {fillActions, fillTags} from "./cells.js";
import {dateOf, span} from "./clocks.js";
import {
  arrangeNamed, element, linkTo, setHidden, setHref, setKind, setText
} from "./elements.js";
import {boardDialog, olderButton} from "./parts.js";
import {get} from "./requests.js";
import {hrefOfBoard, hrefOfJob} from "./routes.js";
import {awayText, commandsOf, connectedTo, pastOf, rowsOfPast, stateText} from "./rows.js";
import {state} from "./state.js";
import {boardPast} from "./tables.js";
import {linesOf} from "./usage.js";
import {count, cut} from "./words.js";

// Facts with their terms; a fact is a text, a list of tags, or texts and links. Some have a class.
export function fillFacts(list, facts) {
  const there = facts.filter(([, fact]) => fact), names = there.flatMap(([it]) => [it, it + ":"]);
  const made = arrangeNamed(list, names, name => element(name.endsWith(":") ? "dd" : "dt"));
  there.forEach(([term, fact, kind = ""], at) => {
    setText(made[2 * at], term);
    const place = made[2 * at + 1];
    setKind(place, kind);
    if (Array.isArray(fact)) fillTags(place, {tags: fact});
    else if (fact.parts) fillParts(place, fact.parts);
    else setText(place, fact);
  });
}

// Texts and links beside each other; another site learns nothing of this one.
function fillParts(place, parts) {
  const made = arrangeNamed(place, parts.map((it, at) => (it.href || "text") + at), name =>
    name.startsWith("text") ? element("span") : linkTo(""));
  parts.forEach(({text, href}, at) => {
    setText(made[at], text);
    if (href) setHref(made[at], href);
    if (!href || href.startsWith("#")) return;
    Object.assign(made[at], {rel: "noreferrer noopener", target: "_blank"});
  });
}

export const boardLinks = names => ({parts: names.map(it => ({text: it, href: hrefOfBoard(it)}))});

// Who holds a board, by what, since when: a job is a link.
function holderOf(row) {
  if (!row.held.kind) return "";
  const since = row.since ? ", since " + (row.isSeen ? "" : "before ") + dateOf(row.since) : "";
  const href = row.held.kind === "job" ? hrefOfJob(row.held.number) : "";
  return {parts: [{text: row.owner + " "}, {text: row.holder, href},
    {text: (row.title ? " " + row.title : "") + since}]};
}

const LONGEST_NOTE = 1000;

// What people noted of a board, where that is served: texts alone, and a link to a site.
function noteOf(name, key) {
  const text = state.notes?.[name]?.[key];
  if (typeof text !== "string") return "";
  if (key !== "wiki") return cut(text, LONGEST_NOTE);
  const parts = [{text: cut(text, LONGEST_NOTE), href: text}];
  return /^https?:\/\/[^\s]+$/.test(text) ? {parts} : "";
}

export function openBoard(name) {
  if (state.openedBoard !== name) lookAtHolds(name);
  if (older.name !== name) older = {name, lines: [], from: -1, said: ""};
  state.openedBoard = name;
  drawBoard();
  if (!boardDialog.open) boardDialog.showModal();
}

export function closeBoard() {
  state.openedBoard = "";
}

export function drawBoard() {
  const row = state.rows.boards.find(it => it.name === state.openedBoard);
  setText(document.getElementById("board-title"), row ? row.name : "No board has this name");
  for (const it of boardDialog.querySelectorAll(".about")) setHidden(it, !row);
  setHidden(document.getElementById("health"), !row || !healthActions(row).length);
  if (!row) return;
  fillFacts(boardDialog.querySelector("dl"), [
    ["Type", row.type], ["Health", row.health, row.health], ["State", stateText(row)],
    ["Held by", holderOf(row)], ["Worker", row.away && awayText(row.away), "bad"],
    ["Tags", row.tags.length ? row.tags : ""],
    ["Ways", commandsOf(row).join("\n"), "commands"],
    ["Connected", connectedTo(row).join("\n"), "lines"],
    ["Place", noteOf(row.name, "place")], ["Cared for by", noteOf(row.name, "owner")],
    ["Comment", noteOf(row.name, "comment"), "lines"], ["Wiki", noteOf(row.name, "wiki")],
    ["Last check", row.last_check ? dateOf(row.last_check) : "never"],
    ["Jobs since", String(row.jobs_since)],
  ]);
  fillActions(boardDialog.querySelector(".actions"), actionsOfBoard(row), "boards/" + row.name);
  const healths = healthActions(row);
  fillActions(document.querySelector("#health .actions"), healths, "health/" + row.name);
  setHidden(boardPast.place, state.past === null);
  boardPast.show(withOlder([...pastOf(row.name), ...holdsOf(row.name)]));
  setHidden(olderButton, !state.past || older.from === 0);
  setText(document.getElementById("older-said"), older.said || endOfPast());
}

// How far what the page has of the past goes back.
function endOfPast() {
  if (!state.past) return "";
  const oldest = state.past.jobs.at(-1);
  return oldest ? "Of the farm's last " + count(state.past.jobs.length) + " jobs, since "
    + dateOf(oldest.ended || oldest.began) : "The farm has no history yet.";
}

// ---- holds of people that have ended

const HOLDS_READ = 200000;
/** @type {any[]} */
let holds = [];

// Reads the newest holds, where farm-watch keeps them and the site serves them.
async function lookAtHolds(name) {
  const headers = {range: "bytes=-" + HOLDS_READ};
  const answer = await get("holds.jsonl", {cache: "no-cache", headers}).catch(() => null);
  if (!answer) return;
  holds = linesOf(await answer.text()).filter(it => it.kind === "hold");
  if (state.openedBoard === name) drawBoard();
}

function holdsOf(name) {
  return holds.filter(it => it.board === name && it.ended > 0).map(it => ({
    key: String(it.key), at: it.ended, what: "held", owner: String(it.owner), outcome: "",
    reason: [span(Math.max(0, it.ended - it.began)), it.reason].filter(text => text).join(": "),
    name: "reservation " + it.reservation,
  }));
}

// ---- further back

const STEP_BACK = 1000000;
// What was read of the whole history for a board: from which byte on, and the board's lines.
let older = {name: "", lines: [], from: -1, said: ""};

// Reads so much more of the history, from its end to its begin.
export async function lookFurther() {
  const it = older;
  it.said = "loading";
  drawBoard();
  try {
    const range = it.from < 0 ? "bytes=-" + STEP_BACK
      : "bytes=" + Math.max(0, it.from - STEP_BACK) + "-" + (it.from - 1);
    const answer = await get("history.jsonl", {cache: "no-store", headers: {range}});
    const [, from] = /bytes (\d+)-/.exec(answer.headers.get("content-range")) || [0, 0];
    const bytes = new Uint8Array(await answer.arrayBuffer());
    // (a line that is cut is read with the part before)
    const begin = Number(from) ? bytes.indexOf(10) + 1 : 0;
    it.lines.push(...linesOf(new TextDecoder().decode(bytes.subarray(begin))).reverse());
    it.from = begin < bytes.length ? Number(from) + begin : 0;
    it.said = it.from ? "since " + dateOf(momentOf(it.lines.at(-1))) : "all that there is";
  } catch (fault) {
    it.from = fault.status === 404 || fault.status === 416 ? 0 : it.from;
    it.said = fault.status === 404 ? "no more of it is served"
      : "no answer (" + fault.message + ")";
  }
  if (state.openedBoard === it.name) drawBoard();
}

const momentOf = row => row?.at || row?.ended || row?.began || 0;

// A board's past, with what was read of it from further back.
function withOlder(rows) {
  const there = new Set(rows.map(it => it.key));
  const more = rowsOfPast(older.lines, older.name).filter(it => !there.has(it.key));
  return [...rows, ...more].sort((one, other) => other.at - one.at);
}
