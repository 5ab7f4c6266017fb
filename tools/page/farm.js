// The page's beginning: what happens when, and what follows a click, a key, an address.
import {setCalls} from "./again.js";
import {closeBoard, lookFurther, openBoard} from "./board.js";
import {keepReserved, takeKept} from "./commands.js";
import {drawAll, order} from "./drawing.js";
import {closeJob, lookAtOpened, openJob} from "./job.js";
import {lookAtAll} from "./looks.js";
import {
  againLink, bar, boardDialog, filter, freeOnly, gridding, grouping, jobDialog, keysDialog, mine,
  narrow, olderButton, reserveForm, submitDialog, tagField, usageBy, usageDialog
} from "./parts.js";
import {complete, reserveByTags, showFitting} from "./reserve.js";
import {canAct} from "./rights.js";
import {go, leave, routeOf} from "./routes.js";
import {makeRows, tellChanges} from "./rows.js";
import {choose, noteChoice, readChoice, takeAddress, toggle} from "./search.js";
import {EVERY, state} from "./state.js";
import {boardPast, tables} from "./tables.js";
import {beginSubmit, openSubmit, submitAgain} from "./submit.js";
import {troubleOf} from "./telling.js";
import {drawUsage, openUsage} from "./usageview.js";

let timer = 0;

// Looks now; where a look is under way another follows it.
async function lookFarm(isFresh = false) {
  if (state.isLooking) {
    state.isWanted = true;
    return;
  }
  state.isLooking = true;
  clearTimeout(timer);
  do {
    isFresh ||= state.isWanted;
    state.isWanted = false;
    if (!document.hidden || state.reserved.size) await lookOnce(isFresh);
  } while (state.isWanted);
  state.isLooking = false;
  timer = setTimeout(lookFarm, EVERY);
}

async function lookOnce(isFresh) {
  const isFirst = !state.farm, before = state.rows;
  try {
    await lookAtAll(isFresh);
    makeRows();
    if (before) tellChanges(before);
    // (what is waited for is told last, since each news takes the place of the one before)
    if (state.reserved.size) {
      await keepReserved();
      makeRows();
    }
    state.trouble = "";
    state.lookedAt = Date.now();
    if (isFirst) follow();
    lookAtOpened();
  } catch (fault) {
    state.trouble = troubleOf(fault);
  }
  drawAll();
}

// What keys do where nothing is typed and nothing is open.
const KEYS = {
  "/": () => {
    filter.focus();
    filter.select();
  },
  j: () => moveRow(1),
  k: () => moveRow(-1),
  g: () => chooseBoards(gridding),
  m: () => state.user && toggle(mine),
  n: () => canAct() && go("#/submit"),
  u: () => go("#/usage"),
  "?": () => go("#/keys"),
};

// Changes which boards are shown or how, and leads to them.
function chooseBoards(it) {
  toggle(it);
  tables[0].heading.scrollIntoView({block: "nearest"});
}

// Escape leaves the search, or empties it first.
function onKey(event) {
  const isTyping = event.target.matches("input:not([type=checkbox]), textarea, select")
    || document.querySelector("dialog[open]");
  const call = isTyping || event.ctrlKey || event.metaKey || event.altKey ? null : KEYS[event.key];
  if (call) {
    event.preventDefault();
    call();
  } else if (event.key === "Escape" && event.target === filter) {
    event.preventDefault();
    if (filter.value) choose("");
    else filter.blur();
  }
}

// Goes so many rows on, to what the row is about.
function moveRow(step) {
  /** @type {any[]} */
  const lines = [...document.querySelectorAll("main tbody tr, #tiles li")];
  const seen = lines.filter(it => it.checkVisibility());
  const at = seen.indexOf(document.activeElement.closest("tr, li"));
  const next = seen[at < 0 ? 0 : at + step];
  next?.querySelector("a, button:not([tabindex='-1'])")?.focus();
}

// Closes a dialog where what is beside it is clicked.
function onBeside(event) {
  const box = this.getBoundingClientRect();
  const isIn = event.clientX >= box.left && event.clientX <= box.right
    && event.clientY >= box.top && event.clientY <= box.bottom;
  if (event.target === this && !isIn) leaveOpened();
}

// What an address opens, and how; what is to be done where it is closed.
const OPENED = {
  board: {dialog: boardDialog, open: ({name}) => openBoard(name), close: closeBoard},
  job: {dialog: jobDialog, open: ({number, began}) => openJob(number, began), close: closeJob},
  submit: {dialog: submitDialog, open: openSubmit},
  usage: {dialog: usageDialog, open: openUsage},
  keys: {dialog: keysDialog, open: () => keysDialog.open || keysDialog.showModal()},
};

// Opens what the address says, and closes what it doesn't.
function follow() {
  takeAddress();
  readChoice();
  if (!state.rows) return;
  const route = routeOf(location.hash);
  for (const [kind, {dialog, close}] of Object.entries(OPENED)) {
    if (kind === route.kind || !dialog.open) continue;
    dialog.close();
    close?.();
  }
  OPENED[route.kind]?.open(route);
  drawAll();
}

// A link to a search changes the page and doesn't load it anew.
function onLink(event) {
  const link = event.target.closest("a[href^='?']");
  if (!link || event.button || event.ctrlKey || event.metaKey || event.shiftKey) return;
  event.preventDefault();
  history.pushState(null, "", location.pathname + link.getAttribute("href"));
  follow();
}

function beginDialogs() {
  for (const {dialog: it} of Object.values(OPENED)) {
    /** @type {HTMLElement} */ (it.querySelector(".close")).onclick = leaveOpened;
    it.addEventListener("cancel", event => {
      event.preventDefault();
      leaveOpened();
    });
    it.onmousedown = onBeside;
  }
}

function begin() {
  setCalls(drawAll, lookFarm);
  document.getElementById("board-past").append(boardPast.place);
  filter.oninput = noteChoice;
  for (const it of [mine, grouping]) it.onclick = () => toggle(it);
  for (const it of [freeOnly, gridding]) it.onclick = () => chooseBoards(it);
  tagField.oninput = tagField.onfocus = () => {
    complete();
    showFitting();
  };
  reserveForm.onsubmit = event => {
    event.preventDefault();
    reserveByTags();
  };
  beginDialogs();
  olderButton.onclick = lookFurther;
  againLink.onclick = submitAgain;
  usageBy.onchange = () => drawUsage("");
  beginSubmit();
  addEventListener("popstate", follow);
  document.onclick = onLink;
  document.onkeydown = onKey;
  document.onvisibilitychange = () => {
    if (!document.hidden && Date.now() - state.lookedAt >= EVERY) lookFarm();
  };
  narrow.onchange = () => {
    order();
    drawAll();
  };
  new ResizeObserver(() => document.documentElement.style.setProperty("--bar",
    bar.offsetHeight + "px")).observe(bar);
  takeKept();
  follow();
  order();
  // Leases run on between two looks.
  setInterval(() => {
    if (!document.hidden) drawAll();
  }, 1000);
  lookFarm();
}

function leaveOpened() {
  leave();
  follow();
}

begin();
