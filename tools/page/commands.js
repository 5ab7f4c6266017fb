// Commands: each is sent under a key of its own until there is an answer.
import {farmTime} from "./clocks.js";
import {draw, lookAgain} from "./again.js";
import {setText} from "./elements.js";
import {questionDialog} from "./parts.js";
import {address, freshKey, send, sendUntilAnswered, wordsOfRefusal} from "./requests.js";
import {LEASE, SHOWN, state} from "./state.js";
import {announce, notify} from "./telling.js";

// What was done, by what was sent, and when: a second click on the same is one too many.
const done = new Map();
const TWICE = 1500;

const sentBy = ({path, body}) => path + JSON.stringify(body);
const isRepeated = action => Date.now() - (done.get(sentBy(action)) || 0) < TWICE;

export function tell(place, text, more = {}) {
  state.told.set(place, {text, at: Date.now(), ...more});
  draw();
}

// Does an action: asks, sends its command under a key of its own until there is an answer, and
// tells the answer beside its row.
export async function act(action, place) {
  if (state.told.get(place)?.isUnderWay || isRepeated(action)) return;
  if (action.question && !await confirms(action)) return;
  action.key ??= freshKey();
  tell(place, "is sent", {isUnderWay: true});
  const answer = await sendUntilAnswered(action,
    () => tell(place, "no answer yet: is sent again", {isUnderWay: true}));
  if (!answer || answer.isRefused) {
    const text = answer ? "refused: " + wordsOfRefusal(answer)
      : "no answer: nobody knows whether it was done";
    announce(action.name + " " + action.what + ": " + text);
    tell(place, text, {isFault: true, action: answer ? null : action});
  } else {
    state.told.delete(place);
    done.set(sentBy(action), Date.now());
    succeed(action, answer.said.number);
  }
  lookAgain(true);
}

function succeed(action, number) {
  learnFrom(action, number);
  if (action.isEnd) state.ends.add(action.what);
  announce(typeof action.done === "function" ? action.done(number) : action.done);
  draw();
}

// What an accepted command says of a reservation needn't be asked of the desk.
function learnFrom(action, number) {
  state.version++;
  const deadline = farmTime() + LEASE;
  if (action.tags) {
    const {tags} = action;
    keep(number, action.isTaken);
    state.reservations.set(number, {number, owner: state.user, tags, priority: 50, board: "",
      state: "waiting", deadline, isOver: false});
  } else if (action.known && state.reservations.has(number)) {
    Object.assign(state.reservations.get(number), action.known, action.isLease ? {deadline} : {});
  }
}

// ---- what was reserved from here

// Remembers a reservation of this page, over a reload too, and under which key it is taken.
function keep(number, isTaken) {
  state.reserved.set(number, {isTaken, at: Date.now(), key: freshKey()});
  keepNumbers();
}

/** @type {Worker | null} */
let clock = null;

function keepNumbers() {
  if (state.reserved.size && !clock) {
    clock = new Worker(address("page/keeper.js"));
    clock.onmessage = () => document.hidden && state.reserved.size && lookAgain(true);
  }
  try {
    sessionStorage.setItem("reserved", JSON.stringify([...state.reserved]));
  } catch {
    // (a browser that keeps nothing)
  }
}

export function takeKept() {
  try {
    state.reserved = new Map(JSON.parse(sessionStorage.getItem("reserved")) || []);
  } catch {
    state.reserved = new Map();
  }
  keepNumbers();
}

// Extends what was reserved from here and waits, which does no harm when it is done twice, and
// takes what has come, under one key, since a browser itself sends again what got no answer. Where
// no answer comes either is tried again at the next look.
export async function keepReserved() {
  const live = new Map(state.farm.live.map(it => [it.number, it]));
  for (const [number, {isTaken, at, key}] of [...state.reserved]) {
    const row = live.get(number), known = state.reservations.get(number);
    // (a look that began before doesn't know it)
    if (!row && at >= state.lookBegan) continue;
    if (!row || row.state === "acquired" || (known && known.owner !== state.user)) {
      // (the answer to its taking was lost)
      if (row && isTaken && known?.owner === state.user) notify(row.board + " is yours");
      state.reserved.delete(number);
      keepNumbers();
    } else if (row.state === "allocated" && isTaken) {
      await take(row, key);
    } else if (known && known.deadline - farmTime() <= LEASE / 2) {
      const answer = await send({path: "reservations/" + number + "/refresh"});
      if (answer && !answer.isRefused) {
        known.deadline = farmTime() + LEASE;
        state.version++;
      }
    }
  }
}

async function take({number, board}, key) {
  const answer = await send({path: "reservations/" + number + "/acquire", key});
  if (!answer) return;
  if (answer.isRefused) {
    announce("reservation " + number + " has " + board + ", which isn't taken: "
      + wordsOfRefusal(answer));
  } else {
    const known = state.reservations.get(number);
    if (known) known.state = "acquired";
    state.version++;
    notify(board + " is yours");
    lookAgain(true);
  }
  state.reserved.delete(number);
  keepNumbers();
}

export function toldOf(key) {
  const it = state.told.get(key);
  if (it && !it.isUnderWay && Date.now() > it.at + SHOWN) state.told.delete(key);
  return state.told.get(key);
}

// Asks whether an action is meant, and answers so.
export function confirms(action) {
  setText(document.getElementById("question-text"), action.question);
  setText(questionDialog.querySelector("[value=yes]"), action.name);
  questionDialog.returnValue = "";
  questionDialog.showModal();
  return new Promise(answered => {
    questionDialog.onclose = () => {
      // (the end of the question before may be told late)
      if (!questionDialog.open) answered(questionDialog.returnValue === "yes");
    };
  });
}
