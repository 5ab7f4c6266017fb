import assert from "node:assert/strict";
import test from "node:test";
import {faultBefore, faultOf} from "./jobfile.js";
import {Reader} from "./toml.js";

const GOOD = "# a job\njob_name = 'x'\ndevice_type = \"bbb\"\npriority = 101\ntags = ['a']\n[roles.a]\ncount = 9\n";
const KNOWN = {types: ["bbb"], boards: [
  {name: "b1", tags: ["hdmi", "a"], health: "Good"}, {name: "b2", tags: ["vga"], health: "Retired"}]};
const BAD = {code: 70, text: "bad job file"};
const placeOf = text => (({line, column}) => [line, column])(faultOf(text, BAD, KNOWN));

test("a refusal names the line that it is about", () => {
  for (const [code, line] of [[23, 4], [6, 5], [7, 5], [22, 5]]) {
    assert.equal(faultOf(GOOD, {code, text: "no"}, KNOWN).line, line, String(code));
  }
  assert.deepEqual(faultOf("x", {code: 4, text: "full"}, KNOWN), {line: 0, column: 0, text: "full"});
});

test("line and column of what is no TOML are named", () => {
  assert.deepEqual(placeOf("job_name = 'x'\ndevice_type bbb\n"), [2, 13]);
  assert.deepEqual(placeOf("job_name = 'x\ndevice_type = 'b'\n"), [1, 12]);
  assert.deepEqual(placeOf("job_name = 'x'\nrun = '''\nany thing = [\n'''\n= 3\n"), [5, 1]);
  assert.deepEqual(placeOf("job_name = 'x'\ntags = [\n 'a',\n 'b']\noops\n"), [5, 5]);
  assert.deepEqual(placeOf("job_name = 'x'\n  tags = ['a' 'b']\n"), [2, 15]);
  assert.equal(faultOf("device_type = bbb", BAD, KNOWN).text, "no TOML: a value is missing, as a text in quotes");
});

test("a key that is twice is named where it is the second time", () => {
  const twice = {line: 3, column: 1, text: "no TOML: job_name is there already"};
  assert.deepEqual(faultOf("job_name = 'x'\ndevice_type = 'bbb'\njob_name = 'y'\n", BAD, KNOWN), twice);
  assert.deepEqual(placeOf("[roles.a]\n[roles.b]\n[roles.a]\n"), [3, 1]);
  assert.deepEqual(placeOf("a = {b = 1}\na.c = 2\n"), [2, 1]);
});

test("what is TOML is read", () => {
  const text = "a.\"b c\" = 1 # it's\nx = \"\"\"\none \\\n  two\"\"\"\n[[t]]\ny = [1, -2.5e3,\n 0x1F, # three\n]\n[[t]]\n"
    + "at = 2026-12-01 10:00:00Z\nin = {k.l = 'v', m = true,}\nw = \"\\u00e9\\n\"\n";
  assert.deepEqual(JSON.parse(JSON.stringify(new Reader(text).document())), {
    a: {"b c": 1}, x: "one two", t: [{y: [1, -2500, 31]}, {at: "2026-12-01 10:00:00Z", in: {k: {l: "v"}, m: true},
      w: "\u00e9\n"}],
  });
  const strange = new Reader("__proto__.x = 1").document();
  assert.equal(({}).x, undefined);
  assert.deepEqual(Object.keys(strange), ["__proto__"]);
});

test("a type and a tag that nobody has are named", () => {
  const type = {line: 2, column: 1, text: "no such type: ddd"};
  assert.deepEqual(faultOf("job_name = 'x'\ndevice_type = 'ddd'", {code: 10, text: "no such type"}, KNOWN), type);
  const tag = {line: 4, column: 3, text: "no board has the tag vga"};
  const roles = "job_name = 'x'\n[roles.a]\ndevice_type = 'bbb'\n  tags = ['hdmi', 'vga']\n";
  assert.deepEqual(faultOf(roles, {code: 22, text: "no such boards"}, KNOWN), tag);
});

test("a missing key, and one of another kind, are named", () => {
  const textOf = text => faultOf(text, BAD, KNOWN).text;
  assert.equal(textOf("device_type = 'b'"), "it has no job_name");
  assert.equal(textOf("job_name = 'b'"), "it has no device_type");
  assert.equal(textOf("job_name = 'b'\ndevice_type = 3"), "device_type isn't a text");
  assert.equal(textOf("job_name = 'b'\n[roles.a]\ndevice_type = 'b'"), "the role has no device_type or no count");
});

test("a time that is none, and an empty text, aren't sent", () => {
  const job = "job_name = 'x'\ndevice_type = 'bbb'\n";
  assert.deepEqual(faultBefore(job + "[timeouts]\njob = '15 parsecs'\n"),
    {line: 4, column: 1, text: "timeouts.job \"15 parsecs\" isn't like '1 hour 30 minutes'"});
  for (const it of ["'15 minutes'", "'1 hour 30 minutes'", "'1 hour, 2.5 seconds'", "{minutes = 3}"]) {
    assert.equal(faultBefore(job + "timeouts.job = " + it), null, it);
  }
  for (const it of ["15", "{parsecs = 3}", "{}", "'0 minutes'"]) {
    assert.equal(faultBefore(job + "timeouts.job = " + it).line, 3, it);
  }
  assert.equal(faultBefore(" \n").text, "there is no text");
  assert.equal(faultBefore("what the desk refuses"), null);
});

test("a text that is nested without end is told", () => {
  assert.match(faultOf("a = " + "[".repeat(60000), BAD, KNOWN).text, /no TOML/);
});
