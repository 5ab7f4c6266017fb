import assert from "node:assert/strict";
import test from "node:test";
import {piecesOf, visible} from "./console.js";

const textOf = log => piecesOf(log).map(it => it.text).join("");

test("colours are classes, and end where they are set back", () => {
  assert.deepEqual(piecesOf("a\x1b[1;31mb\x1b[0mc"), [
    {text: "a", kind: ""}, {text: "b", kind: "red bold"}, {text: "c", kind: ""},
  ]);
  assert.deepEqual(piecesOf("\x1b[32mone\ntwo\x1b[39m\n"), [
    {text: "one\ntwo", kind: "green"}, {text: "\n", kind: ""},
  ]);
  assert.deepEqual(piecesOf("\x1b[38;5;196;1mx\x1b[48;2;1;2;3my"), [{text: "xy", kind: "bold"}]);
});

test("what follows a return overwrites the line, as progress does", () => {
  assert.equal(textOf("10 %\r50 %\r100 %\ndone\n"), "100 %\ndone\n");
  assert.equal(textOf("abcdef\rxy\n"), "xycdef\n");
  assert.equal(textOf("ab\bc\n"), "ac\n");
  assert.equal(textOf("one\r\ntwo\r\r\n"), "one\ntwo\n");
});

test("titles, links, moves and character sets aren't shown", () => {
  assert.equal(textOf("\x1b]0;title\x07a\x1b]8;;http://x\x1b\\link\x1b]8;;\x1b\\\x1b[2J\x1b[?25l\x1b(B"), "alink");
  assert.equal(textOf("\x1b]52;c;c2VjcmV0"), "", "one that isn't closed");
});

test("what turns a text around or can't be seen is a mark", () => {
  assert.equal(visible("a\u202eb\u200bc\x00\x1b"), "a\u27e8U+202E\u27e9b\u27e8U+200B\u27e9c\u27e8U+0000\u27e9\u27e8U+001B\u27e9");
  assert.equal(visible("tab\tend\n"), "tab\tend\n");
  assert.equal(textOf("\u2066x\n"), "\u27e8U+2066\u27e9x\n");
});

test("200,000 letters are read at once", () => {
  assert.equal(textOf("\x1b[31mx\x1b[0my\r\n".repeat(13000)).length, 3 * 13000);
});
