// What draws the page and what looks at the farm, for the parts below them.
/** @type {{draw: () => void, look: (isFresh: boolean) => any}} */
const calls = {draw() {}, look() {}};

export function setCalls(drawAll, lookFarm) {
  Object.assign(calls, {draw: drawAll, look: lookFarm});
}

export function draw() {
  calls.draw();
}

// Looks now; where a look is under way another follows it.
export function lookAgain(isFresh = false) {
  return calls.look(isFresh);
}
