import assert from "node:assert/strict";
import test from "node:test";
import {forEachOf} from "./requests.js";

test("many are asked for at once, and each once", async () => {
  let under = 0, most = 0;
  const asked = [];
  await forEachOf(Array.from({length: 150}, (_, at) => at), async it => {
    asked.push(it);
    most = Math.max(most, ++under);
    await new Promise(done => setImmediate(done));
    under--;
  });
  assert.deepEqual(asked, Array.from({length: 150}, (_, at) => at));
  assert.equal(most, 64);
});
