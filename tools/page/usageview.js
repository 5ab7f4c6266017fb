// The dialog that shows how much the boards were used: bars a day, the sums, the busy hours.
import {machineTime} from "./clocks.js";
import {arrangeNamed, element, setHidden, setText} from "./elements.js";
import {usageBy, usageDialog} from "./parts.js";
import {get} from "./requests.js";
import {busyHours, linesOf, usageOf} from "./usage.js";

const DAYS = 14, MOST_READ = 4000000, NAMED = 6, WIDE = 700, HIGH = 180;
const SVG = document.querySelector("#usage-days svg").namespaceURI;
/** @type {any[]} the jobs and the holds that ended; null where nobody keeps holds */
let lines = [], holds = null;

export async function openUsage() {
  if (!usageDialog.open) usageDialog.showModal();
  drawUsage("loading");
  try {
    const [jobs, held] = await Promise.all([linesIn("history.jsonl"), linesIn("holds.jsonl")]);
    holds = held;
    lines = [...jobs || [], ...held || []];
    drawUsage(jobs ? "" : "No history is served here.");
  } catch (fault) {
    drawUsage("no answer (" + fault.message + ")");
  }
}

// The last lines of a file, null where it isn't served. (416: it has no line yet)
async function linesIn(path) {
  const headers = {range: "bytes=-" + MOST_READ};
  try {
    return linesOf(await (await get(path, {cache: "no-cache", headers})).text());
  } catch (fault) {
    if (fault.status === 416) return [];
    if (fault.status === 404) return null;
    throw fault;
  }
}

export function drawUsage(said) {
  const uncounted = holds ? "" : "Holds of people aren't counted: farm-watch keeps none here.";
  setText(document.getElementById("usage-said"), said || uncounted);
  for (const it of usageDialog.querySelectorAll(".held")) setHidden(it, !holds);
  const charts = document.getElementById("usage-charts");
  charts.hidden = Boolean(said);
  if (said) return;
  const begins = daysUntil(new Date(machineTime() * 1000));
  const {days, sums, held} = usageOf(lines, usageBy.value, begins);
  const names = sums.slice(0, NAMED).map(([name]) => name);
  drawBars(document.getElementById("usage-days"), days.map(({begin, hours}) => ({
    label: new Date(begin * 1000).toLocaleDateString([], {day: "numeric", month: "numeric"}),
    parts: partsOf(hours, names),
  })), "hours");
  drawSums(sums, names, held);
  const hours = busyHours(lines, begins, at => new Date(at * 1000).getHours());
  drawBars(document.getElementById("usage-hours"), hours.map((it, hour) =>
    ({label: String(hour), parts: [{name: "boards", amount: it, at: 0}]})), "boards");
}

// When each of the last days began, and the next one's begin.
function daysUntil(now) {
  return Array.from({length: DAYS + 1}, (_, at) => {
    const day = new Date(now.getFullYear(), now.getMonth(), now.getDate() - DAYS + 1 + at);
    return Math.floor(day.getTime() / 1000);
  });
}

function partsOf(hours, names) {
  const parts = names.map((name, at) => ({name, amount: hours.get(name) || 0, at}));
  const rest = [...hours].filter(([name]) => !names.includes(name));
  const amount = rest.reduce((sum, [, it]) => sum + it, 0);
  return amount ? [...parts, {name: "others", amount, at: NAMED}] : parts;
}

function shape(name, settings) {
  const made = document.createElementNS(SVG, name);
  for (const [key, value] of Object.entries(settings)) made.setAttribute(key, value);
  return made;
}

// Bars side by side, each of parts above each other; what each says is told by its title.
function drawBars(place, bars, unit) {
  const sums = bars.map(it => it.parts.reduce((sum, part) => sum + part.amount, 0));
  const most = Math.max(...sums, 1), wide = WIDE / bars.length, room = HIGH - 30;
  const drawn = shape("svg", {viewBox: "0 0 " + WIDE + " " + HIGH, role: "img"});
  const told = bars.map((it, at) => it.label + ": " + sums[at].toFixed(1)).join(", ");
  drawn.setAttribute("aria-label", unit + " by " + place.dataset.by + ": " + told);
  bars.forEach(({label, parts}, at) => {
    let top = HIGH - 16;
    for (const part of parts.filter(it => it.amount > 0)) {
      const high = part.amount / most * room;
      top -= high;
      const bar = shape("rect", {x: at * wide + 1, y: top, width: wide - 2, height: high,
        class: "share-" + part.at});
      const title = shape("title", {});
      title.textContent = label + ", " + part.name + ": " + part.amount.toFixed(1) + " " + unit;
      bar.append(title);
      drawn.append(bar);
    }
    const text = shape("text", {x: at * wide + wide / 2, y: HIGH - 3, "text-anchor": "middle"});
    text.textContent = label;
    drawn.append(text);
  });
  const scale = shape("text", {x: 0, y: 11});
  scale.textContent = most.toFixed(most < 10 ? 1 : 0) + " " + unit;
  drawn.append(scale);
  place.replaceChildren(drawn);
}

function drawSums(sums, names, held) {
  const list = document.getElementById("usage-sums"), shown = sums.slice(0, 20);
  if (!shown.length) {
    list.replaceChildren(element("li", "", "nothing has ended in these days"));
    return;
  }
  const made = arrangeNamed(list, shown.map(([name]) => name), () => {
    const line = element("li");
    line.append(element("span"), element("span"));
    return line;
  });
  shown.forEach(([name, hours], at) => {
    const place = names.indexOf(name);
    made[at].firstChild.className = "swatch share-" + (place < 0 ? NAMED : place);
    const part = held.get(name), inHolds = part ? ", " + part.toFixed(1) + " held" : "";
    setText(made[at].lastChild, name + ": " + hours.toFixed(1) + " hours" + inHolds);
  });
}
