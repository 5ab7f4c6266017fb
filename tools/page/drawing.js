// Drawing: shows all that is known, and leaves the focus where it is.
import {drawBoard} from "./board.js";
import {fillTold} from "./cells.js";
import {toldOf} from "./commands.js";
import {arrange, arrangeNamed, element, setHidden, setText} from "./elements.js";
import {drawGrid} from "./grid.js";
import {drawJob} from "./job.js";
import {drawLabs, nameOfLab} from "./labs.js";
import {
  footer, gridPlace, main, mine, narrow, nav, reserveForm, submitLink, warned, who, work
} from "./parts.js";
import {showFitting} from "./reserve.js";
import {canAct} from "./rights.js";
import {warnings} from "./rows.js";
import {state} from "./state.js";
import {tables} from "./tables.js";
import {sayHow} from "./telling.js";

const TITLE = document.title;

// On a phone what is short comes first: the boards, of which all are shown, come late, but where
// they are what was chosen.
export function order() {
  const [boards, queue, held, ended] = tables;
  const isLate = narrow.matches && !state.isGrid && !state.isFree;
  const all = isLate ? [held, queue, boards, ended] : [boards, queue, held, ended];
  arrange(main, all.filter(it => it !== ended || state.past).map(it => it.place));
  // (what may come has its place before it is there, so that nothing moves then)
  arrange(nav, all.filter(it => it !== ended || state.past !== null).map(it => it.jump));
}

// Shows all that is known, and leaves the focus where it is, or near where it was.
export function drawAll() {
  sayHow();
  drawTitle();
  document.body.classList.toggle("stale", Boolean(state.trouble));
  if (!state.rows) return;
  const focused = /** @type {HTMLElement} */ (document.activeElement);
  const line = focused.closest("tr"), table = tables.find(it => it.place.contains(focused));
  order();
  for (const it of tables) if (it.place.isConnected) it.show(state.rows[it.name]);
  drawGridOf(tables[0]);
  drawAround();
  if (state.openedBoard) drawBoard();
  if (state.openedJob) drawJob();
  if (document.activeElement !== focused) focusNear(focused, line, table);
}

function focusNear(focused, line, table) {
  const near = line?.isConnected ? line.querySelector("button, a") : table?.heading;
  (focused.isConnected ? focused : near)?.focus({preventScroll: true});
}

// The window's title says which lab it is, and what has come until that is seen.
function drawTitle() {
  if (!document.hidden && document.hasFocus()) state.titled = "";
  const lab = nameOfLab(state.labs) + " - " + TITLE;
  const title = state.titled ? "(" + state.titled + ") " + lab : lab;
  if (document.title !== title) document.title = title;
}

// The boards as a grid, in the place of their table.
function drawGridOf(table) {
  setHidden(table.content, state.isGrid);
  setHidden(gridPlace, !state.isGrid);
  if (!state.isGrid) return;
  if (gridPlace.parentElement !== table.place) table.place.append(gridPlace);
  drawGrid(gridPlace, table.found(state.rows.boards));
}

function drawAround() {
  for (const it of [main, work]) setHidden(it, false);
  const lines = warnings();
  arrangeNamed(warned, lines, text => element("p", "", text));
  setHidden(mine, !state.user);
  setHidden(reserveForm, !canAct());
  setHidden(submitLink, !canAct());
  for (const it of reserveForm.querySelectorAll("button")) it.disabled = Boolean(state.trouble);
  drawLabs(state.labs);
  setText(who, state.user || "");
  setHidden(who.parentElement, !state.user);
  const answer = toldOf("reserve"), place = document.getElementById("reserve-told");
  if (answer) fillTold(place, answer, "reserve");
  else arrange(place, []);
  const quiet = [
    state.user === ""
      && "Who looks isn't told here (/whoami), so nothing can be done from this page.",
    state.past === null && "No history and no logs are served here.",
  ].filter(it => it);
  arrangeNamed(footer, quiet, text => element("p", "", text));
  showFitting();
}
