import {canAct, isOwn, mayEnd, whoseOf} from "./rights.js";
import {isFree} from "./rows.js";
import {HEALTHS, state} from "./state.js";

// What may be done with a row, as a list of actions: their name, the command's path and body, what
// is asked before it is sent, what is told once it is done, and what a reservation is like then.
export function actionsOfReservation(row) {
  const path = "reservations/" + row.number, what = "reservation " + row.number;
  const whose = whoseOf(row), isHeld = row.state === "acquired";
  return [
    row.state === "allocated" && isOwn(row) && {
      name: "Take", what, path: path + "/acquire", isMain: true,
      done: row.board + " is yours", known: {state: "acquired"},
    },
    mayEnd(row) && {
      name: "Extend", what, path: path + "/refresh", done: what + " is extended",
      known: {isOver: false}, isLease: true,
    },
    mayEnd(row) && isHeld && {
      name: "Give back", what, path: path + "/cancel", isDanger: true, isEnd: true,
      question: "Give back " + row.board + (whose ? ", which is " + whose.trim() : "")
        + "? Others may get it at once.",
      done: row.board + " is given back",
    },
    mayEnd(row) && !isHeld && {
      name: "Cancel", what, path: path + "/cancel", isDanger: true, isEnd: true,
      question: "Cancel " + whose + what + (row.board ? ", which has " + row.board : "") + "?",
      done: what + " is canceled",
    },
  ].filter(it => it);
}

export function actionsOfJob(number, row, isGroup = false) {
  if (!mayEnd(row)) return [];
  const what = (isGroup ? "group " : "job ") + number;
  return [{
    name: "Cancel", what, path: "jobs/" + number + "/cancel", isDanger: true, isEnd: true,
    question: "Cancel " + whoseOf(row) + what + "? All jobs of its group end.",
    done: what + " is canceled",
  }];
}

export function actionsOfClaim(row) {
  if (row.kind === "group") return actionsOfJob(row.number, row, true);
  return actionsOfReservation({...row, state: "waiting", board: ""});
}

export function actionsOfBoard(row) {
  const {kind, number} = row.held;
  if (kind === "reservation") {
    return actionsOfReservation({...row, number, board: row.name,
      state: row.state === "Running" ? "acquired" : "allocated"});
  }
  if (kind === "job") return actionsOfJob(number, row);
  if (!canAct() || !isFree(row)) return [];
  const own = waitingFor("name=" + row.name);
  if (own) return actionsOfReservation({...own, board: ""});
  return [reserving(["name=" + row.name], row.name)];
}

// One's own reservation that waits for a board by this tag alone.
function waitingFor(tag) {
  for (const it of state.reservations.values()) {
    const isIt = it.tags.length === 1 && it.tags[0] === tag;
    if (isIt && it.state === "waiting" && isOwn(it)) return it;
  }
  return null;
}

/**
 * @param {string[]} tags
 * @param {string} what
 * @param {boolean} isTaken whether the board is taken when it comes
 */
export function reserving(tags, what, isTaken = true) {
  return {name: "Reserve", what, path: "reservations", body: {tags}, tags, isTaken,
    done: number => "reservation " + number + " waits; this page extends it"
      + (isTaken ? ", and takes the board when it comes" : "")};
}

export function healthActions(row) {
  if (state.user !== "admin" || row.health === "Retired") return [];
  return HEALTHS.filter(it => it !== row.health).map(health => ({
    name: health, what: row.name, path: "boards/" + row.name + "/health", body: {health},
    isDanger: health === "Retired", done: row.name + " is set " + health,
    question: health === "Retired" && "Retire " + row.name + "? That is for good.",
  }));
}
