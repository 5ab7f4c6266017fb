import assert from "node:assert/strict";
import test from "node:test";
import {awayOf, stuckBy, waitsFor, wantsText, workerOf} from "./wants.js";

const board = (name, health, holder, tags = ["serial"]) => ({name, type: "bbb", health, holder, tags});
const want = (type, ...tags) => ({type, tags});
const isUnchecked = it => it.health === "Unknown";
const waits = (wanted, ...boards) => waitsFor(wanted, boards, isUnchecked, it => it.holder + " of ann",
  it => workerOf(it) === "rack2");

test("why a claim waits is said as desk wait says it", () => {
  const held = board("b1", "Good", "job 3"), bad = board("b2", "Bad", "none");
  assert.equal(waits(want("bbb"), held), "1 board fits, held by job 3 of ann");
  assert.equal(waits(want("bbb"), bad), "1 board fits, Bad");
  assert.equal(waits(want("bbb"), held, bad), "2 boards fit: 1 Bad, 1 held (job 3 of ann)");
  assert.equal(waits(want("bbb"), board("b3", "Unknown", "none")), "1 board fits, Unknown until it is checked");
  assert.equal(waits(want("ccc"), held), "no board fits");
  assert.equal(waits(want("bbb"), held, board("b4", "Good", "none")), "", "one is free");
  assert.equal(waits(want("", "name=b1"), held), "1 board fits, held by job 3 of ann");
});

test("which boards a worker that doesn't answer has is said", () => {
  assert.deepEqual([workerOf({tags: ["a", "worker=rack2"]}), workerOf({tags: ["a"]})], ["rack2", "desk"]);
  const far = board("b5", "Good", "none", ["worker=rack2"]), held = board("b6", "Good", "job 4", ["worker=rack2"]);
  assert.equal(waits(want("bbb"), far), "1 board fits, on worker rack2, which doesn't answer");
  assert.equal(waits(want("bbb"), far, held),
    "2 boards fit: 1 held (job 4 of ann), 1 on worker rack2, which doesn't answer");
});

test("of what isn't a list of workers nothing is said", () => {
  const rack2 = {name: "rack2", answers: false, since: 7, reason: "no route"};
  assert.deepEqual([...awayOf({at: 9, workers: [rack2, {...rack2, name: "rack3", answers: true}]})],
    [["rack2", {since: 7, reason: "no route"}]]);
  for (const it of [null, undefined, 3, [], {}, {workers: "x"}, {workers: [null, 3, {}, {...rack2, name: 3},
    {...rack2, since: "now"}, {...rack2, answers: 0}]}]) assert.equal(awayOf(it).size, 0);
});

test("of many holders the first four are named", () => {
  const boards = [1, 2, 3, 4, 5, 6].map(it => board("b" + it, "Good", "job " + it));
  assert.match(waits(want("bbb"), ...boards), /^6 boards fit: 6 held \(job 1 of ann, .*job 4 of ann, 2 more\)$/);
});

test("what can't come is said, of several wants together too", () => {
  const boards = [board("b1", "Good", "job 3"), board("b2", "Maintenance", "none")];
  assert.equal(stuckBy([want("bbb")], boards), "");
  assert.equal(stuckBy([want("bbb"), want("bbb")], boards), "can't be served: b2 is in Maintenance");
  assert.equal(stuckBy([want("bbb", "hdmi")], boards), "can't be served: no board fits bbb hdmi");
});

test("what is wanted is counted", () => {
  assert.equal(wantsText([want("bbb"), want("bbb"), want("ccc", "hdmi")]), "2 x bbb, ccc hdmi");
  assert.equal(wantsText([want("")]), "any board");
});
