// What the page knows, and the limits that it goes by.
// Between two looks, and how long an answer may take, in milliseconds; what passes before a command
// that got no answer is sent again.
export const EVERY = 5000, LONGEST = 30000, AGAIN = [500, 1000, 2000, 4000, 8000];

// How many claims and reservations are shown before more are asked for, how many more then at most,
// how many of the first claims are looked into, and how many unknown jobs are waited for before
// boards are shown.
export const FIRST = 50, STEP = 200, FEW = 5, MANY = 20;

// Of more boards than this the types are folded at first.
export const UNFOLDED = 60;

// A clock that is further behind or ahead than this, in seconds, is told; and how far what is known
// of the desk's time may be off.
export const BEHIND = 30, AHEAD = 60, SLACK = 2;

// How far on a deadline is set, in seconds. A refusal is shown for so long, in milliseconds.
export const LEASE = 60, SHOWN = 120000;

// A list of all reservations takes the desk longer the older the farm is: between two of them there
// is as many times that as this.
export const REST = 20;

// How much of a log's end is shown, in bytes.
export const LOG_END = 200000;
export const LEASED = ["waiting", "allocated"], OUT = ["Retired", "Bad", "Maintenance"];
export const HEALTHS = ["Good", "Unknown", "Bad", "Maintenance", "Retired"];


/**
 * @typedef {{owner: string, group: number, type: string, tags: string[], name: string}} Job
 * @typedef {{job: number, group: number, owner: string, board: string, type: string, name: string,
 *   began: number, limit: number}} Run
 * @typedef {{group: number, name: string, submitted: number,
 *   wants: import("./wants.js").Want[], text?: string}} Waiting
 */

// All parts of the page read it here, and what looks writes it.
export const state = {
  /** @type {any} what the desk said last */
  farm: null,
  // what it said of types, reservations and jobs, which is kept by name and number
  types: new Map(), reservations: new Map(),
  /** @type {Map<number, Job>} */
  jobs: new Map(),
  // when a file that isn't served is asked for again, by its path
  absent: new Map(),
  /** @type {Map<number, Run> | null} what the dispatcher says that it runs, by job */
  running: null,
  /** @type {Map<number, Waiting> | null} what it says of the queue, by group */
  waiting: null,
  /** @type {Map<string, {since: number, reason: string}>} the workers that don't answer */
  away: new Map(),
  // since when a board has its holder, as the dispatcher saw it, and as this page saw it
  holds: new Map(), sights: new Map(),
  /** @type {string | undefined} who looks: "" where the proxy doesn't tell it, undefined before */
  user: undefined,
  /** @type {any} what the dispatcher tells of the past, null where it isn't served */
  past: undefined,
  /** @type {any} the ways to boards and who is there, what people noted of boards, other labs */
  access: null, notes: null, labs: null,
  // how far the desk's machine is ahead of this one, in milliseconds
  offset: 0,
  // when all reservations may be asked for again, by the page's own clock
  listAt: 0,
  // how often something of that has changed; what is shown of it, made anew whenever it has
  version: 0,
  /** @type {any} */
  rows: null,
  // what was reserved from here, and whether it is taken when it comes; what was ended from here,
  // whose end needn't be told again
  reserved: new Map(), ends: new Set(),
  // what is told beside a row: of a command that is under way, or was refused, or got no answer
  told: new Map(),
  /** @type {any[]} the words of the search */
  wanted: [],
  // what else is chosen, and how often that has changed
  isMine: false, areGrouped: true, isFree: false, isGrid: false, choices: 0,
  /** @type {any} what the dialogs show: a board's name, and a job with its log */
  openedBoard: "", openedJob: null,
  // whether a look is under way, whether another is to follow it, when it began, when the last one
  // ended, and what is wrong since the last one that was answered
  isLooking: false, isWanted: false, lookBegan: 0, lookedAt: 0, trouble: "",
  // what has come that is told in the window's title, until it is seen
  titled: "",
};
