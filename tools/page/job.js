// The dialog of a job: its facts, why it waits, its log, what it left.
import {actionsOfJob} from "./actions.js";
import {drawArtifacts, lookAtArtifacts} from "./artifacts.js";
import {boardLinks, fillFacts} from "./board.js";
import {fillActions} from "./cells.js";
import {dateOf, machineTime, span} from "./clocks.js";
import {piecesOf} from "./console.js";
import {element, setHidden, setHref, setKind, setText} from "./elements.js";
import {againLink, jobDialog, logPlace} from "./parts.js";
import {address, get, look} from "./requests.js";
import {canAct} from "./rights.js";
import {hrefOfJob} from "./routes.js";
import {awayText, lengthOf, noteOf, testsText, waitText} from "./rows.js";
import {LOG_END, state} from "./state.js";
import {nameIn} from "./words.js";

// Opens a job, or of its runs in several farms the one that began then.
export function openJob(number, began) {
  const record = began
    && state.past?.jobs.find(it => it.job === number && it.began === began);
  state.openedJob = {number, record, facts: null, log: "", said: "loading", artifacts: null};
  logPlace.replaceChildren();
  shownLog = {log: "", pieces: []};
  document.getElementById("job-text").removeAttribute("open");
  drawJob();
  if (!jobDialog.open) jobDialog.showModal();
  lookAtOpened();
}

export function closeJob() {
  state.openedJob = null;
}

// What the desk says of the job that is open, and the end of its log: again at each look, until it
// has ended. A job that ended and isn't the desk's was an earlier farm's.
export async function lookAtOpened() {
  const it = state.openedJob;
  if (!it || it.isDone || it.isAsked) return;
  it.isAsked = true;
  const facts = await look("jobs/" + it.number).catch(fault => {
    it.isGone = fault.status === 404;
    return it.facts;
  });
  const isOther = it.record && (facts?.state !== "Finished" || facts.owner !== it.record.owner);
  it.facts = isOther ? null : facts;
  await readLog(it);
  it.isDone = Boolean(it.record) || it.isGone || facts?.state === "Finished";
  if (it.isDone) it.artifacts = await lookAtArtifacts(endOf(it), it.artifacts);
  it.isAsked = false;
  if (it === state.openedJob) drawJob();
}

async function readLog(it) {
  if (state.past === null) {
    it.said = "no logs are served here";
    return;
  }
  try {
    const range = "bytes=-" + LOG_END;
    const answer = await get("logs/" + it.number, {cache: "no-store", headers: {range}});
    const text = await answer.text(), isCut = text.length > LOG_END
      || (answer.status === 206 && !/bytes 0-/.test(answer.headers.get("content-range")));
    it.log = text.slice(-LOG_END);
    it.said = isCut ? "the end of it" : it.log ? "" : "nothing yet";
  } catch (fault) {
    // (416: it hasn't a byte yet)
    const isOver = it.record || it.isGone || it.facts?.state === "Finished";
    if (fault.status === 404) it.said = isOver ? "no log is kept of it" : "no log yet";
    else it.said = fault.status === 416 ? "nothing yet" : "no answer (" + fault.message + ")";
  }
}

// What the history says of it, where it has ended, or was an earlier farm's.
function endOf({number, facts, record, isGone}) {
  const isOver = isGone || facts?.state === "Finished";
  return record || (isOver ? state.past?.byNumber.get(number) : null);
}

export function drawJob() {
  const opened = state.openedJob, {number, facts, log, said} = opened, ended = endOf(opened);
  const name = ended?.name || nameIn(facts?.text || "") || state.jobs.get(facts?.group)?.name || "";
  const isNone = opened.isGone && !ended && !log;
  setKind(jobDialog, isNone ? "side none" : "side");
  setText(document.getElementById("job-title"), isNone ? "There is no job " + number
    : "Job " + number + (name ? ": " + name : ""));
  const boards = facts?.board ? [facts.board] : ended?.boards || [];
  fillFacts(jobDialog.querySelector("dl"), [
    ["Owner", facts?.owner || ended?.owner],
    ["State", facts ? [facts.state, facts.result].filter(it => it).join(", ") : ended?.outcome,
      facts?.result || ended?.outcome],
    ["Waits", facts ? placeOf(facts) : ""],
    ["Reason", ended?.reason], ["Board", boards.length && boardLinks(boards)],
    ["Worker", facts && awayFrom(facts), "bad"],
    ["Type", facts?.type || ended?.type], ["Tags", facts?.tags.length ? facts.tags : ""],
    ["Role", facts?.role], ["Group", membersOf(number, facts?.group || ended?.group, ended)],
    ...momentsOf(number, ended),
    ["Tests", testsText(ended?.tests), ended?.tests?.failed ? "Bad" : ""],
    ["Failed", failedOf(ended), "lines"],
  ]);
  const isOpen = facts && facts.state !== "Finished" && facts.state !== "Canceling";
  fillActions(jobDialog.querySelector(".actions"), isOpen ? actionsOfJob(number, facts) : [],
    "job/" + number);
  setHidden(againLink, !facts?.text || !canAct() || facts.kind === "check");
  const text = document.getElementById("job-text");
  setHidden(text, !facts?.text);
  setText(text.querySelector("pre"), facts?.text || "");
  drawArtifacts(opened.artifacts);
  drawLog(log, said, "logs/" + number);
}

// When it came, began and ended, and how long it takes; of one that runs, how long it may.
function momentsOf(number, ended) {
  const at = moment => moment ? dateOf(moment) : "";
  const run = ended ? null : state.running?.get(number);
  const waits = state.waiting?.get(state.openedJob.facts?.group);
  const gone = run?.began ? span(Math.max(0, machineTime() - run.began)) : "";
  return [
    ["Submitted", at(ended?.submitted || waits?.submitted)],
    ["Began", at(ended?.began || run?.began)], ["Ended", at(ended?.ended)],
    ["Took", ended && lengthOf(ended) >= 0 ? span(lengthOf(ended)) : ""],
    ["Runs for", gone && run.limit ? gone + " of " + span(run.limit) + " at most" : gone],
  ];
}

// That the worker on which a job runs doesn't answer.
function awayFrom({board, state: what}) {
  const row = what !== "Finished" && state.rows.boards.find(it => it.name === board);
  return row?.away && awayText(row.away);
}

// The other members of a job's group, whose numbers follow its own.
function membersOf(number, group, ended) {
  const claim = state.rows.queue.find(it => it.kind === "group" && it.number === group);
  const runs = [...state.running?.values() || []].filter(it => it.group === group);
  const last = Math.max(number, group + (claim?.boards || ended?.boards.length || 1) - 1,
    ...runs.map(it => it.job));
  const all = Array.from({length: last - group + 1}, (_, at) => group + at);
  return all.length > 1 && {parts: all.map(it =>
    ({text: it + " ", href: it === number ? "" : hrefOfJob(it)}))};
}

// Where a job that waits stands in the queue, and why it doesn't get its boards.
function placeOf(facts) {
  if (!["Submitted", "Scheduling"].includes(facts.state)) return "";
  const claim = state.rows.queue.find(it => it.kind === "group" && it.number === facts.group);
  if (!claim) return "";
  const why = claim.wants ? noteOf(claim) : waitText([facts]);
  return "place " + claim.place + " of " + claim.length + " in the queue" + (why ? ": " + why : "");
}

function failedOf(ended) {
  const names = Array.isArray(ended?.tests?.names) ? ended.tests.names.slice(0, 10) : [];
  return names.map(String).join("\n");
}

// ---- its log

let shownLog = {log: "", pieces: []};

// Shows a log; what has come to its end is added, and followed by who is there.
function drawLog(log, said, path) {
  setText(document.getElementById("log-said"), said);
  setHidden(logPlace, !log);
  const link = document.getElementById("whole-log");
  setHidden(link, !log);
  setHref(link, address(path).href);
  if (shownLog.log === log) return;
  const isAtEnd = logPlace.scrollTop + logPlace.clientHeight > logPlace.scrollHeight - 30;
  const pieces = piecesOf(log);
  pieces.forEach((it, at) => drawPiece(it, shownLog.pieces[at], logPlace.childNodes[at]));
  while (logPlace.childNodes.length > pieces.length) logPlace.lastChild.remove();
  shownLog = {log, pieces};
  if (isAtEnd) logPlace.scrollTop = logPlace.scrollHeight;
}

// A piece of one colour is a node; one that has grown stays, so that what is selected does.
function drawPiece(piece, was, node) {
  if (!was) {
    logPlace.append(nodeOf(piece));
  } else if (was.kind !== piece.kind) {
    node.replaceWith(nodeOf(piece));
  } else if (was.text !== piece.text) {
    const text = piece.kind ? node.firstChild : node;
    if (piece.text.startsWith(was.text)) text.appendData(piece.text.slice(was.text.length));
    else text.data = piece.text;
  }
}

function nodeOf({text, kind}) {
  if (!kind) return document.createTextNode(text);
  const made = element("span");
  setKind(made, kind);
  made.append(text);
  return made;
}
