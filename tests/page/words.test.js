import assert from "node:assert/strict";
import test from "node:test";
import {byKey, cut, hasWords, nameIn, sortKey, wordsIn} from "./words.js";

test("a job's name is read as TOML writes it", () => {
  assert.equal(nameIn('a = 1\njob_name = "boot \\u00fc \\"x\\" \\U0001F600"'), 'boot \u00fc "x" \u{1F600}');
  assert.equal(nameIn("job_name='it\\u0041'"), "it\\u0041", "a literal text has no escapes");
  assert.equal(nameIn("# job_name = 'x'\ndevice_type = 'y'"), "");
  assert.equal(nameIn('job_name = "\\Uffffffff"'), "\\Uffffffff");
});

test("a long name is cut", () => {
  const name = nameIn("job_name = '" + "n".repeat(20000) + "'");
  assert.equal(name.length, 201);
  assert.ok(name.endsWith("\u2026"));
  assert.equal(cut("abc", 3), "abc");
});

test("words are found in parts, and in quotes whole", () => {
  const texts = ["rpi4b-01", "reservation 12"];
  assert.ok(hasWords(texts, wordsIn("RPI 12")));
  assert.ok(hasWords(texts, wordsIn('"rpi4b-01" "12"')));
  assert.ok(!hasWords(texts, wordsIn('"rpi4b"')));
  assert.ok(!hasWords(texts, wordsIn("rpi qemu")));
});

test("names sort as people count", () => {
  const names = ["b10", "b2", "a1"].map(it => [sortKey(it), it]).sort(byKey);
  assert.deepEqual(names.map(([, it]) => it), ["a1", "b2", "b10"]);
});
