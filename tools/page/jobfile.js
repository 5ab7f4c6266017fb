// What is wrong with a job file, and where, as far as its text, the desk's refusal and the farm
// tell it: as `desk submit` does.
import {Reader} from "./toml.js";

// Which keys of a job file a refusal is about, by its code, and what they may be.
const ABOUT = {5: ["job_name"], 6: ["tags"], 7: ["tags", "count"], 23: ["priority"]};
const MEANS = {
  5: "a name is letters, digits, - _ and .", 6: "a tag is letters, digits, - _ and ., or a key, = "
    + "and a value", 7: "at most 16 tags, and four boards in all", 10: "there is no such type",
  22: "no boards that aren't Retired are so many, or have all these tags",
  23: "a priority is 0 to 100, or low, medium or high",
};
const isText = it => typeof it === "string";
/** @type {Record<string, [string, (it: any) => boolean]>} */
const KINDS = {
  "job_name": ["a text", isText], "device_type": ["a text", isText],
  tags: ["an array of texts", it => Array.isArray(it) && it.every(isText)],
  count: ["a whole number", Number.isInteger],
  priority: ["a whole number or a text", it => isText(it) || Number.isInteger(it)],
};
const UNITS = ["days", "hours", "minutes", "seconds"];
const TIME = /^(?:\d+(?:\.\d+)? *(?:day|hour|minute|second)s?(?: *,? *|$))+$/;

/**
 * @typedef {{line: number, column: number, text: string}} Fault what is wrong, and where, 0 where
 *   that isn't known
 * @typedef {{tags: string[], name: string, health: string}} Board
 * @typedef {{types: Iterable<string>, boards: Board[]}} Known
 */

// A job file's tables, where its keys stand, and what is no TOML of it.
function read(text) {
  const reader = new Reader(text);
  const toldAt = (at, said) => {
    const lines = text.slice(0, at).split("\n");
    return at === undefined ? {line: 0, column: 0, text: said}
      : {line: lines.length, column: lines.at(-1).length + 1, text: said};
  };
  const told = (path, said) => toldAt(reader.places.get(path.join(" ")), said);
  try {
    return {tree: reader.document(), told, fault: null};
  } catch (fault) {
    return {tree: {}, told, fault: toldAt(fault.at ?? 0, "no TOML: " + fault.message)};
  }
}

/**
 * Why nothing is submitted, of what the desk knows nothing.
 * @param {string} text
 * @returns {Fault | null}
 */
export function faultBefore(text) {
  if (!text.trim()) return {line: 0, column: 0, text: "there is no text"};
  const {tree, told} = read(text), time = tree.timeouts?.job;
  if (time === undefined) return null;
  const isTime = isText(time) ? TIME.test(time) && /[1-9]/.test(time)
    : time && typeof time === "object" && Object.entries(time).length
      && Object.entries(time).every(([unit, it]) => UNITS.includes(unit) && it >= 0);
  return isTime ? null : told(["timeouts", "job"],
    "timeouts.job " + JSON.stringify(time) + " isn't like '1 hour 30 minutes'");
}

/**
 * What is wrong with a job file that the desk refused.
 * @param {string} text
 * @param {{code?: number, text?: string}} refusal
 * @param {Known} known
 * @returns {Fault}
 */
export function faultOf(text, {code = 0, text: said = "refused"}, known) {
  const {tree, told, fault} = read(text), parts = partsOf(tree);
  if (fault) return code === 70 ? fault : {line: 0, column: 0, text: said};
  if (code === 70) return told(...broken(tree, parts));
  const stranger = code === 10 ? strangeType(parts, known.types)
    : code === 22 ? strangeTag(parts, known.boards) : null;
  if (stranger) return told(...stranger);
  const keys = ABOUT[code] || (MEANS[code] ? ["tags", "device_type"] : []);
  const about = parts.flatMap(([path, it]) =>
    keys.filter(key => key in it).map(key => [...path, key]));
  return told(about[0] || [], MEANS[code] ? said + ": " + MEANS[code] : said);
}

// The tables of a job file that want boards, by their paths.
function partsOf(tree) {
  const isTable = it => it && typeof it === "object" && !Array.isArray(it);
  const roles = Object.entries(isTable(tree.roles) ? tree.roles : {});
  return [[[], tree], ...roles.filter(([, it]) => isTable(it)).map(
    ([name, it]) => [["roles", name], it])];
}

function strangeType(parts, types) {
  const there = new Set(types);
  const found = parts.map(([path, it]) => [[...path, "device_type"], it.device_type]).find(
    ([, type]) => isText(type) && !there.has(type));
  return found && [found[0], "no such type: " + found[1]];
}

function strangeTag(parts, boards) {
  const there = boards.filter(it => it.health !== "Retired");
  const all = new Set(there.flatMap(it => [...it.tags, "name=" + it.name]));
  for (const [path, {tags = []}] of parts) {
    const tag = tags.find(it => !all.has(it));
    if (tag !== undefined) return [[...path, "tags"], "no board has the tag " + tag];
  }
  return null;
}

// Which key is missing, or of another kind.
function broken(tree, parts) {
  for (const [path, it] of parts) {
    const key = Object.keys(KINDS).find(name => name in it && !KINDS[name][1](it[name]));
    if (key) return [[...path, key], key + " isn't " + KINDS[key][0]];
  }
  if (!tree.job_name) return [["job_name"], "it has no job_name"];
  if (!("device_type" in tree || "roles" in tree)) return [[], "it has no device_type"];
  if ("device_type" in tree && "roles" in tree) {
    return [["roles"], "it has both device_type and roles"];
  }
  const lacks = parts.slice(1).find(([, it]) => !("device_type" in it && "count" in it));
  if (lacks) return [lacks[0], "the role has no device_type or no count"];
  return [[], "bad job file: a key is one too many"];
}
