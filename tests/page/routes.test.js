import assert from "node:assert/strict";
import test from "node:test";
import {choiceOf, hrefOfBoard, hrefOfJob, hrefOfWords, labsOf, routeOf, searchOf} from "./routes.js";

test("each board, job and run has an address", () => {
  assert.deepEqual(routeOf(hrefOfBoard("b.1_x-2")), {kind: "board", name: "b.1_x-2"});
  assert.deepEqual(routeOf(hrefOfJob(42)), {kind: "job", number: 42, began: 0});
  assert.deepEqual(routeOf(hrefOfJob(42, 1700000000)), {kind: "job", number: 42, began: 1700000000});
  for (const it of ["usage", "submit", "keys"]) assert.equal(routeOf("#/" + it).kind, it);
});

test("what is no address opens nothing", () => {
  for (const it of ["", "#", "#hdmi", "#/", "#/jobs", "#/jobs/0", "#/jobs/x", "#/boards/%E0%A4", "#/submit/1", "#/admin"]) {
    assert.ok(["", "board"].includes(routeOf(it).kind) && !routeOf(it).name, it);
  }
});

test("a search stands in the address and is read from it", () => {
  const choice = {words: 'ann "rack=1" #&?', isMine: true, areGrouped: false, isFree: true, isGrid: true};
  assert.deepEqual(choiceOf({search: searchOf(choice), hash: "#/jobs/1"}), choice);
  assert.equal(choiceOf({search: "", hash: "#hdmi%20usb"}).words, "hdmi usb", "an older link");
  assert.equal(choiceOf({search: hrefOfWords('"ann"'), hash: ""}).words, '"ann"');
  assert.equal(searchOf({words: "", isMine: false, areGrouped: true, isFree: false, isGrid: false}), "");
});
test("labs lead to paths of the site and to sites by TLS alone", () => {
  const found = labsOf([
    {name: "berlin", address: "/berlin/"}, {name: "paris", address: "https://paris.lab.example/"},
    {name: "x", address: "javascript:alert(1)"}, {name: "y", address: "//evil.example/"}, {name: "", address: "/a/"},
    {name: "z", address: "http://plain.example/"}, {name: "n".repeat(49), address: "/b/"}, null, {name: 1, address: 2},
  ], "https://lab.example");
  assert.deepEqual(found, [
    {name: "berlin", href: "https://lab.example/berlin/"}, {name: "paris", href: "https://paris.lab.example/"},
  ]);
  assert.deepEqual(labsOf("no list", "https://lab.example"), []);
});
