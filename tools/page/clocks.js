import {LEASED, state} from "./state.js";

// The time of the desk's machine, in seconds since 1970.
export function machineTime() {
  return Math.floor((Date.now() + state.offset) / 1000);
}

// The farm's time: the moment of a command that came now.
export function farmTime() {
  return Math.max(state.farm.clock, machineTime());
}

export function span(seconds) {
  /** @type {[number, string][]} */
  const units = [[86400, "days"], [3600, "hours"], [60, "minutes"]];
  const [unit, name] = units.find(([it]) => seconds >= 2 * it) || [1, "s"];
  return Math.floor(seconds / unit) + " " + name;
}

// The same in a table.
export function shortSpan(seconds) {
  return span(seconds).replace("minutes", "min").replace("hours", "h");
}

// How long ago something was. What would change each second isn't told.
export function age(seconds) {
  return seconds < 60 ? "< 1 min" : seconds < 120 ? "1 min" : shortSpan(seconds);
}

export const dates = new Intl.DateTimeFormat([], {dateStyle: "medium", timeStyle: "medium"});

export const shortDates = new Intl.DateTimeFormat([], {month: "short", day: "numeric",
  hour: "numeric", minute: "2-digit"});

export function dateOf(seconds, format = dates) {
  return format.format(new Date(seconds * 1000));
}

// How long a lease still runs: until the later of the farm's clock and the time comes to its
// deadline. It may have been refreshed since, until the desk has said that it wasn't.
export function left(row) {
  if (!LEASED.includes(row.state) || row.deadline === undefined) return "";
  if (row.isOver) return "over: waits for the next pass";
  return Math.max(0, row.deadline - farmTime()) + " s";
}

export function sinceText(row) {
  if (!row.since) return "";
  const text = age(Math.max(0, machineTime() - row.since));
  return row.isSeen ? text : text.startsWith("<") ? "" : "> " + text;
}

export function endedText(moment) {
  return age(Math.max(0, machineTime() - moment)) + " ago";
}
