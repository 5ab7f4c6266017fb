// A console's text as a terminal would show it: colours, what overwrote what, and marks for what
// would lead a reader astray.

/**
 * A part of a log: its text, and the class of its colours.
 * @typedef {{text: string, kind: string}} Piece
 */

const COLOURS = ["black", "red", "green", "yellow", "blue", "magenta", "cyan", "white"];
// What a terminal takes for a command and doesn't show: titles, links and other strings, moves,
// character sets. (Colours, which end in an m, are read before.)
const STRINGS = /\x1b[\]PX^_](?:[^\x07\x1b]|\x1b(?!\\))*(?:\x07|\x1b\\|$)/g;
const MOVES = /\x1b\[[0-9;?<=>!]*[ -/]*[@-ln-~]|\x1b[()*+#%][0-9A-Za-z@]|\x1b[=>78cDEHMNOZ]/g;
const COLOUR = /\x1b\[([0-9;:]*)m/g;
// What has no shape of its own or turns the text around, but for tabs and line ends.
const MARKED = /[\x00-\x08\x0b-\x1f\x7f-\x9f\u061c\u200b-\u200f\u202a-\u202e\u2060-\u2069\ufeff]/g;

/**
 * A text in which what can't be seen, or turns others around, is a mark: ⟨U+202E⟩.
 * @param {string} text
 */
export function visible(text) {
  return text.replace(MARKED, it =>
    "\u27e8U+" + it.codePointAt(0).toString(16).toUpperCase().padStart(4, "0") + "\u27e9");
}

/**
 * A log in pieces of one colour each, a line end at the end of its line.
 * @param {string} text
 * @returns {Piece[]}
 */
export function piecesOf(text) {
  const pieces = [], style = {colour: "", isBold: false, ground: ""};
  const plain = text.replace(STRINGS, "").replace(MOVES, "").replace(/\r+\n/g, "\n");
  for (const line of plain.split(/(?<=\n)/)) addLine(pieces, line, style);
  return pieces;
}

// Adds a line: what stands behind a return overwrites what stands before it.
function addLine(pieces, line, style) {
  if (!line.includes("\r") && !line.includes("\b")) {
    for (const it of coloured(line, style)) add(pieces, it.text, it.kind);
    return;
  }
  const cells = [];
  let place = 0;
  for (const {text, kind} of coloured(line, style)) {
    for (const letter of text) {
      if (letter === "\r") place = 0;
      else if (letter === "\b") place = Math.max(0, place - 1);
      else if (letter === "\n") cells.push({letter, kind});
      else cells[place++] = {letter, kind};
    }
  }
  for (const it of cells) add(pieces, it.letter, it.kind);
}

function coloured(line, style) {
  const found = [];
  let done = 0;
  for (const it of line.matchAll(COLOUR)) {
    found.push({text: line.slice(done, it.index), kind: kindOf(style)});
    setColours(style, it[1]);
    done = it.index + it[0].length;
  }
  found.push({text: line.slice(done), kind: kindOf(style)});
  return found;
}

function add(pieces, text, kind) {
  if (!text) return;
  const shown = text === "\r" || text === "\b" ? text : visible(text), last = pieces.at(-1);
  if (last && last.kind === kind) last.text += shown;
  else pieces.push({text: shown, kind});
}

function kindOf({colour, ground, isBold}) {
  return [colour, ground, isBold ? "bold" : ""].filter(it => it).join(" ");
}

// The colours that a command sets; of 256 or millions of colours none is shown.
function setColours(style, numbers) {
  const all = numbers.split(/[;:]/).map(Number);
  for (let at = 0; at < all.length; at++) {
    const it = all[at];
    if (it === 0) Object.assign(style, {colour: "", ground: "", isBold: false});
    else if (it === 1) style.isBold = true;
    else if (it === 22) style.isBold = false;
    else if (it === 39) style.colour = "";
    else if (it === 49) style.ground = "";
    else if (it >= 30 && it <= 37) style.colour = COLOURS[it - 30];
    else if (it >= 90 && it <= 97) style.colour = COLOURS[it - 90];
    else if (it >= 40 && it <= 47) style.ground = "on-" + COLOURS[it - 40];
    else if (it === 38 || it === 48) at += all[at + 1] === 5 ? 2 : 4;
  }
}
