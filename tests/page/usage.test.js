import assert from "node:assert/strict";
import test from "node:test";
import {busyHours, linesOf, usageOf} from "./usage.js";

const H = 3600, DAY = 24 * H;
const run = (owner, boards, began, ended) => ({kind: "job", owner, boards, type: "bbb", began, ended});

test("a run counts in each day that it touches, once a board", () => {
  const {days, sums} = usageOf([
    run("ann", ["b1", "b2"], DAY - H, DAY + H), run("bob", ["b1"], H, 2 * H), {kind: "health", board: "b1"},
  ], "owner", [0, DAY, 2 * DAY]);
  assert.deepEqual(days.map(it => [...it.hours]), [[["ann", 2], ["bob", 1]], [["ann", 2]]]);
  assert.deepEqual(sums, [["ann", 4], ["bob", 1]]);
});

test("by board each board has its own hours", () => {
  const {sums} = usageOf([run("ann", ["b1", "b2"], H, 3 * H), run("bob", ["b1"], H, 2 * H)], "board", [0, DAY]);
  assert.deepEqual(sums, [["b1", 3], ["b2", 2]]);
});

test("a hold of a person counts beside jobs, and is told apart", () => {
  const hold = {kind: "hold", owner: "ann", board: "b2", type: "bbb", began: H, ended: 4 * H};
  const rows = [run("ann", ["b1"], H, 2 * H), hold, {...hold, ended: H - 1}, {...hold, kind: "other"}];
  const {sums, held} = usageOf(rows, "owner", [0, DAY]);
  assert.deepEqual([sums, [...held]], [[["ann", 4]], [["ann", 3]]]);
  assert.deepEqual(usageOf(rows, "board", [0, DAY]).sums, [["b2", 3], ["b1", 1]]);
  assert.equal(busyHours(rows, [0, DAY], at => Math.floor(at / H))[1], 2);
});

test("busy hours are boards on average", () => {
  const hours = busyHours([run("ann", ["b1", "b2"], 10 * H, 11 * H + H / 2)], [0, DAY, 2 * DAY],
    at => Math.floor(at % DAY / H));
  assert.deepEqual([hours[9], hours[10], hours[11]], [0, 1, 0.5]);
});

test("a line that is cut is passed over", () => {
  assert.deepEqual(linesOf('"job":1}\n{"kind":"job"}\n{"ki'), [{kind: "job"}]);
});
