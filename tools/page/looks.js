// Looking: what the desk and the files beside it say goes into the state.
import {draw} from "./again.js";
import {machineTime} from "./clocks.js";
import {fileOf, forEachOf, get, look} from "./requests.js";
import {makeRows} from "./rows.js";
import {FEW, LEASED, REST, SLACK, state} from "./state.js";
import {awayOf, stuckBy, wantsText} from "./wants.js";
import {nameIn, numberOf} from "./words.js";

// What a slow line leaves for the second part of a first look, in milliseconds. One on which the
// first takes twice as long is slower than that: what is there is shown at once.
const PATIENCE = 400;

// Looks at everything. What is there at first is shown before the rest has come, where that takes
// long.
export async function lookAtAll(isFresh) {
  state.lookBegan = Date.now();
  const isFirst = !state.farm, began = performance.now();
  // (what is asked for first comes first, where a line is slow)
  const seen = views(isFresh), user = lookAtUser(), beside = Promise.all([user, lookAtFiles()]);
  const {queue, boards, status} = await seen;
  takeFarm(queue, boards, status);
  noteSights(isFirst);
  const rest = lookAtRest(beside, isFresh);
  if (isFirst && await isSlow(began, rest)) {
    await user;
    makeRows();
    draw();
  }
  await rest;
}

function isSlow(began, rest) {
  const left = performance.now() - began > 2 * PATIENCE ? 0 : PATIENCE;
  const slow = new Promise(done => setTimeout(() => done(true), left));
  return Promise.race([slow, rest.then(() => false, () => false)]);
}

// (each waits for what it needs alone: what waits for another answer comes a round trip later)
async function lookAtRest(beside, isFresh) {
  const {boards, queue, clock, behind} = state.farm;
  const live = liveReservations(boards, queue), moment = clock + Math.max(0, behind - SLACK);
  state.farm.live = live;
  const isNew = live.some(it => isNews(it, moment));
  const wanted = Promise.all([
    beside, lookAtTypes(boards), isNew && lookAtReservations(moment, isFresh),
  ]).then(() => lookedInto === state.version ? undefined : lookInto(queue, boards));
  await Promise.all([wanted, beside.then(lookAtHolders)]);
  forgetJobs();
}

// The first look asks for all views at once, since each is a way there and back. Later ones ask for
// the queue before the boards, so that a reservation that is given its board between the two is
// seen.
async function views(isFresh) {
  if (state.farm) {
    const {queue} = await look("queue", isFresh), {boards} = await look("boards", isFresh);
    return {queue, boards, status: await look("status", isFresh)};
  }
  const [{queue}, {boards}, status, {types}] = await Promise.all(
    ["queue", "boards", "status", "types"].map(it => look(it, isFresh)));
  for (const it of types) state.types.set(it.name, it);
  return {queue, boards, status};
}

function takeFarm(queue, boards, {clock, collector, next}) {
  // (in the next farm numbers begin anew)
  if (state.farm && next < state.farm.next) {
    state.farm.asked = null;
    for (const it of [state.types, state.reservations, state.jobs]) it.clear();
  }
  const was = state.farm, seen = new Date().toLocaleTimeString(), behind = machineTime() - clock;
  if (was?.boards === boards && was.asked === queue && was.collector === collector) {
    Object.assign(was, {clock, next, behind, seen});
    return;
  }
  state.version++;
  const claims = queue.map((it, place) =>
    ({...it, place: place + 1, length: queue.length, collects: it.number === collector}));
  state.farm = {boards, queue: claims, asked: queue, live: was?.live || [], clock, collector, next,
    behind, seen};
}

async function lookAtTypes(boards) {
  if (boards.every(it => state.types.has(it.type))) return;
  for (const it of (await look("types")).types) state.types.set(it.name, it);
}

// The reservations that haven't ended: first those that hold a board, then those that wait.
export function liveReservations(boards, queue) {
  const held = boards.filter(it => it.holder.startsWith("reservation ")).map(it => ({
    number: numberOf(it.holder), board: it.name,
    state: it.state === "Running" ? "acquired" : "allocated",
  }));
  const given = new Set(held.map(it => it.number));
  const waiting = queue.filter(it => it.kind === "reservation" && !given.has(it.number)).map(
    ({number, owner, priority}) => ({number, owner, priority, board: "", state: "waiting"}));
  const byNumber = (one, other) => one.number - other.number;
  return [...held.sort(byNumber), ...waiting.sort(byNumber)];
}

// Whether the desk has to be asked about a reservation: it is new, or has a new lease, or its lease
// was refreshed or is over. The answer has all that ever were, so it is asked for seldom.
export function isNews(row, moment) {
  const known = state.reservations.get(row.number);
  if (!known) return true;
  if (!LEASED.includes(row.state)) return false;
  return known.state !== row.state || (!known.isOver && known.deadline <= moment);
}

async function lookAtReservations(moment, isFresh) {
  const begun = performance.now();
  if (begun < state.listAt) return;
  const all = (await look("reservations", isFresh)).reservations;
  state.version++;
  state.reservations.clear();
  for (const it of all) {
    if (LEASED.includes(it.state) || it.state === "acquired") {
      state.reservations.set(it.number, {...it, isOver: it.deadline <= moment});
    }
  }
  state.listAt = performance.now() + REST * (performance.now() - begun);
}

/**
 * What is known of a job, which is asked for once: whose it is, what it wants, what it is called.
 * @param {number} number
 * @returns {Promise<import("./state.js").Job>}
 */
export async function lookAtJob(number) {
  if (!state.jobs.has(number)) {
    const {owner, kind, group, type, tags, text} = await look("jobs/" + number);
    const name = kind === "check" ? "check" : nameIn(text);
    state.jobs.set(number, {owner, group, type, tags, name});
    state.version++;
  }
  return state.jobs.get(number);
}

const heldByJobs = () => state.farm.boards.map(it => it.holder).filter(it => it.startsWith("job "))
  .map(numberOf).filter(it => !state.running?.has(it));

// Asks for the jobs that hold boards and of which neither the dispatcher nor the desk has told yet.
async function lookAtHolders() {
  // (the first of a group has its name)
  await forEachOf(heldByJobs(), async number => lookAtJob((await lookAtJob(number)).group));
}

// Forgets the jobs of which nothing is shown any more.
function forgetJobs() {
  const held = heldByJobs(), groups = held.map(it => state.jobs.get(it)?.group);
  const kept = new Set([...held, ...groups, ...state.farm.queue.flatMap(it => it.jobs || [])]);
  for (const number of state.jobs.keys()) if (!kept.has(number)) state.jobs.delete(number);
}

// ---- who looks, and the files beside the views

async function lookAtUser() {
  if (state.user !== undefined) return;
  const answer = await get("whoami", {cache: "no-store"}).catch(fault => fault);
  if (answer.text) {
    const text = (await answer.text()).trim();
    state.user = /^[\w.-]{1,48}$/.test(text) ? text : "";
  } else if (answer.status === 404) {
    state.user = "";
  }
  state.version++;
}

// What the dispatcher tells of the past, of what runs and of what waits; the ways to boards.
async function lookAtFiles() {
  const [running, workers, labs, access, notes, waiting, past] = await Promise.all([
    fileOf("running.json"), fileOf("workers.json"), state.labs || fileOf("labs.json"),
    fileOf("access.json", "low"), fileOf("notes.json", "low"), fileOf("waiting.json", "low"),
    fileOf("history.json", "low"),
  ]);
  take("past", past, takePast);
  take("running", running, takeRunning);
  take("waiting", waiting, takeWaiting);
  take("workers", workers, it => state.away = awayOf(it));
  take("access", access, it => state.access = it?.boards || null);
  take("notes", notes, it => state.notes = it?.boards || null);
  state.labs ||= labs?.labs || [];
}

// What each file said last; what is said anew is taken.
const said = new Map();

function take(name, it, call) {
  if (it === undefined || (said.has(name) && said.get(name) === it)) return;
  said.set(name, it);
  state.version++;
  call(it);
}

// (the newest of a number counts: in the next farm numbers begin anew)
function takePast(past) {
  state.past = past && {...past,
    byNumber: new Map(past.jobs.map(it => [it.job, it]).reverse())};
}

function takeRunning(running) {
  state.running = running && new Map(running.jobs.map(it => [it.job, it]));
  state.holds = new Map((running?.holds || []).map(
    it => [it.board + " reservation " + it.reservation, it.since]));
}

function takeWaiting(waiting) {
  state.waiting = waiting && new Map(waiting.groups.map(
    it => [it.group, {...it, text: wantsText(it.wants)}]));
}

// ---- what claims want

let lookedInto = -1;

// Notes what claims want and are called, as far as the dispatcher tells it, or else of the group
// that collects and of the first claims; and what keeps them from being served.
async function lookInto(claims, boards) {
  const stuck = new Map();
  await forEachOf(claims, async claim => {
    const isAsked = claim.collects || claim.place <= FEW;
    claim.wants = await wantsOf(claim, isAsked);
    if (!claim.wants) return;
    claim.text ||= wantsText(claim.wants);
    if (!stuck.has(claim.text)) stuck.set(claim.text, stuckBy(claim.wants, boards));
    claim.stuck = stuck.get(claim.text);
  });
  lookedInto = ++state.version;
}

// The type and the tags of each board that a claim wants, null where that isn't known. The members
// of a group, whose numbers follow each other, are asked for once.
async function wantsOf(claim, isAsked) {
  if (claim.kind === "reservation") {
    const known = state.reservations.get(claim.number);
    return known ? [{type: "", tags: known.tags}] : null;
  }
  const told = state.waiting?.get(claim.number);
  if (told) {
    Object.assign(claim, {title: told.name, submitted: told.submitted, text: told.text});
    return told.wants;
  }
  if (!isAsked) return null;
  claim.jobs = Array.from({length: claim.boards}, (_, place) => claim.number + place);
  const wants = await Promise.all(claim.jobs.map(lookAtJob));
  claim.title = wants[0].name;
  return wants;
}

// ---- since when boards are held

// Notes when each board's holder was seen first, and whether it was seen to come. It is kept by the
// browser for the next time that the page is opened.
function noteSights(isFirst) {
  const there = new Set(), known = isFirst ? keptSights() : [];
  for (const [sight, it] of known) state.sights.set(sight, it);
  for (const {name, holder} of state.farm.boards.filter(it => it.holder !== "none")) {
    const sight = name + " " + holder;
    there.add(sight);
    if (!state.sights.has(sight)) state.sights.set(sight, {at: machineTime(), isSeen: !isFirst});
  }
  for (const it of state.sights.keys()) if (!there.has(it)) state.sights.delete(it);
  if (state.rows?.version === state.version) return;
  try {
    localStorage.setItem("sights", JSON.stringify([...state.sights]));
  } catch {
    // (a browser that keeps nothing)
  }
}

function keptSights() {
  try {
    return JSON.parse(localStorage.getItem("sights")) || [];
  } catch {
    return [];
  }
}
