// What is shown, made of what is known: rows, their uses, why claims wait, what is to be told.
import {dateOf, machineTime, span} from "./clocks.js";
import {isOwn} from "./rights.js";
import {AHEAD, BEHIND, FEW, LEASE, state} from "./state.js";
import {announce} from "./telling.js";
import {waitsFor, wantsText, workerOf} from "./wants.js";
import {count, cut} from "./words.js";

const LONGEST_REASON = 160;

// What whoever holds a board types to get to it.
export function commandsOf(row) {
  const ways = state.access?.[row.name]?.ways || [];
  if (!isOwn(row) || row.state !== "Running") return [];
  return ways.map(way => {
    const [name] = way.split(" ");
    if (name === "console") return "desk console " + row.name;
    if (name === "power") return "desk power " + row.name + " cycle";
    if (name === "tcp") return / (.*[|])?22([|]|$)/.test(way) ? "desk ssh " + row.name : "";
    return "";
  }).filter(it => it);
}

export const connectedTo = row => (state.access?.[row.name]?.sessions || []).map(it =>
  it.person + ": " + it.way + ", since " + dateOf(it.since));

// Since when a board is held, in seconds since 1970: as the dispatcher tells it, or as this page
// saw the holder come, or at least since then; of a reservation at least since its lease was set.
export function sinceOf(board, held) {
  if (!held.kind) return {};
  const sight = state.sights.get(board.name + " " + board.holder);
  const told = held.kind === "job" ? state.running?.get(held.number)?.began
    : state.holds.get(board.name + " " + board.holder);
  if (told) return {since: told, isSeen: true};
  if (sight?.isSeen) return {since: sight.at, isSeen: true};
  const known = held.kind === "reservation" && state.reservations.get(held.number);
  const least = Math.min(known ? known.deadline - LEASE : Infinity, sight ? sight.at : Infinity);
  return least < Infinity ? {since: least, isSeen: false} : {};
}

export function warnings() {
  const found = [], own = state.farm.clock - Math.floor(Date.now() / 1000);
  // (a reader of the page isn't told each five seconds anew)
  const behind = state.farm.behind - state.farm.behind % 15;
  if (-state.farm.behind > AHEAD) {
    found.push("the farm's clock is " + span(-state.farm.behind)
      + " ahead of this machine's: leases won't end until then");
  } else if (own > AHEAD) {
    found.push("the farm's clock and its machine's are " + span(own) + " ahead of this machine's");
  } else if (state.farm.behind > BEHIND) {
    found.push((state.farm.clock ? "no pass for " + span(behind) : "no pass yet")
      + ": is farm-dispatch running?");
  }
  for (const name of state.away.keys()) found.push(awayText(name));
  for (const it of state.farm.queue) {
    if (it.collects && it.stuck) found.push("group " + it.number + " " + noteOf(it));
  }
  return found;
}

// Why a claim waits: what it lacks where it collects boards, what keeps it from being served at
// all, or who has what fits it. (The members of a group have numbers that follow each other.)
export function noteOf(row) {
  if (!row.wants) return row.collects ? "collects boards" : "";
  if (!row.collects) return row.stuck || waitText(row.wants, row.text);
  const lacks = row.wants.filter((_, at) => !state.rows.holders.has("job " + (row.number + at)));
  const head = ["collects boards", wantsText(lacks)].filter(it => it).join(", lacks ");
  const why = waitText(lacks);
  return row.stuck ? head + ", and " + row.stuck : why ? head + ": " + why : head;
}

// (many claims want the same)
export function waitText(wants, text = wantsText(wants)) {
  if (wants.length !== 1) return "";
  if (!state.rows.waits.has(text)) {
    const {boards} = state.rows, why = waitsFor(wants[0], boards, isUnchecked, holderOf, isAway);
    state.rows.waits.set(text, why || "a board is free: it waits for the next pass");
  }
  return state.rows.waits.get(text);
}

const holderOf = row => row.holder + (row.owner ? " of " + row.owner : "");
const isAway = row => Boolean(row.away);
const isUnchecked = row => row.health === "Unknown" && isChecked(row);
const isChecked = row => (state.types.get(row.type)?.check || "none") !== "none";

// Whether a pass could give this board to somebody: an Unknown one of a type with a check is
// checked before.
export function isFree(row) {
  const isWell = row.health === "Good" || (row.health === "Unknown" && !isChecked(row));
  return row.holder === "none" && isWell;
}

// What counts a board, once: out of use as its health says, else busy, free or to be checked.
export function useOf(row) {
  if (row.health === "Bad") return "bad";
  if (row.health === "Retired") return "retired";
  if (row.holder !== "none") return row.held.kind === "job" ? "running" : "held";
  if (row.health === "Maintenance") return "in Maintenance";
  return isFree(row) ? "free" : "to be checked";
}

export const USES = [
  "free", "held", "running", "bad", "in Maintenance", "to be checked", "retired",
];

// How many of these boards are of which use: those uses that there are.
export function usesOf(boards) {
  const counts = new Map(USES.map(it => [it, 0]));
  for (const it of boards) counts.set(useOf(it), counts.get(useOf(it)) + 1);
  return [...counts].filter(([, number]) => number);
}

// What a board's state is in words: a person's hold and a job's run are told apart, and whether its
// worker answers.
export function stateText(row) {
  const held = row.state === "Running" ? "Held" : "Offered";
  const text = row.held.kind === "reservation" ? held : row.state;
  return row.away ? text + ", no answer" : text;
}

// (what would change each second isn't told; while a look is under way it may answer again)
export function awayText(name) {
  if (!state.away.has(name)) return "";
  const {since, reason} = state.away.get(name), gone = Math.max(0, machineTime() - since);
  return "worker " + name + " has not answered for " + span(gone - gone % 15)
    + (reason ? ": " + cut(reason, LONGEST_REASON) : "");
}

export function boardRow(board) {
  const [kind, number] = board.holder.split(" ");
  const held = number ? {kind, number: Number(number)} : {kind: "", number: 0};
  const run = held.kind === "job" ? state.running?.get(held.number) : null;
  const known = run || (held.kind === "job" ? state.jobs : state.reservations).get(held.number);
  // (of a group the first job's text has the name)
  const ofGroup = run ? null : state.jobs.get(known?.group);
  const title = ofGroup?.name || known?.name || "";
  const worker = workerOf(board), away = state.away.has(worker) ? worker : "";
  return {...board, key: board.name, held, owner: known?.owner || "", title, run, away,
    ...sinceOf(board, held)};
}

// Makes the rows of all tables anew from what is known, where that has changed.
export function makeRows() {
  if (state.rows?.version === state.version) return;
  const unknown = {owner: "", priority: "", tags: [], isAwaited: true};
  const boards = state.farm.boards.map(boardRow);
  const byName = new Map(boards.map(it => [it.name, it]));
  state.rows = {
    boards, waits: new Map(), version: state.version,
    holders: new Set(boards.map(it => it.holder)),
    queue: state.farm.queue.map(it => ({...it, key: it.number})),
    reservations: state.farm.live.map(it => ({
      ...(state.reservations.get(it.number) || unknown), ...it, key: it.number,
      since: byName.get(it.board)?.since, isSeen: byName.get(it.board)?.isSeen,
    })),
    ended: (state.past?.jobs || []).filter(it => it.ended).map(
      it => ({...it, key: it.job + " " + it.began})),
  };
}

// Tells what has changed of one's own reservations and jobs, and which boards went Bad.
export function tellChanges(before) {
  if (before === state.rows) return;
  const found = [], byNumber = new Map(state.rows.reservations.map(it => [it.number, it]));
  const byName = new Map(state.rows.boards.map(it => [it.name, it]));
  for (const was of before.reservations.filter(isOwn)) {
    const now = byNumber.get(was.number);
    const what = "reservation " + was.number;
    if (!now && !state.ends.has(what)) found.push(what + " has ended");
    else if (now?.state === "allocated" && was.state === "waiting"
      && !state.reserved.get(was.number)?.isTaken) {
      found.push(what + " has " + now.board + ": take it within a minute");
    }
  }
  for (const was of before.boards) {
    const now = byName.get(was.name);
    if (was.held.kind === "job" && isOwn(was) && now?.holder !== was.holder) {
      found.push(was.holder + " on " + was.name + " has ended");
    }
    if (now?.health === "Bad" && was.health !== "Bad") found.push(was.name + " is Bad");
  }
  if (found.length > FEW) found.splice(FEW, Infinity, found.length - FEW + " more changes");
  if (found.length) announce(found.join("; "));
}

export const holderText = row =>
  row.held.kind ? [row.owner, row.holder, row.title].join(" ").trim() : "";
export const lengthOf = row => row.began && row.ended ? row.ended - row.began : -1;

// What the dispatcher tells of a board: its jobs, and the changes of its health, newest first.
export function pastOf(name) {
  if (!state.past) return [];
  return rowsOfPast([...state.past.jobs, ...state.past.boards], name).sort(
    (one, other) => other.at - one.at);
}

// The lines of the history that are about a board, as they are shown.
export function rowsOfPast(lines, name) {
  const found = [];
  for (const it of lines) {
    if (it.boards?.includes(name)) {
      const reason = [testsText(it.tests), it.reason].filter(text => text).join("; ");
      found.push({...it, reason, key: it.job + " " + it.began, at: it.ended || it.began,
        what: "job " + it.job});
    } else if (it.board === name && it.from) {
      found.push({...it, key: it.at + it.from + it.to, what: "health", owner: ""});
    }
  }
  return found;
}

/**
 * The counts of a job's tests, but for those that are none.
 * @param {any} tests
 */
export function testsText(tests) {
  if (!tests) return "";
  const kinds = ["passed", "failed", "errors", "skipped"];
  return kinds.filter(it => Number.isInteger(tests[it]) && tests[it] > 0).map(it =>
    count(tests[it]) + " " + (it === "errors" && tests[it] === 1 ? "error" : it)).join(", ");
}
