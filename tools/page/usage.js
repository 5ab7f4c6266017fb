// How much the boards were used, by day and by hour, from the history's lines.

const DAY = 86400;
const HOUR = 3600;

/**
 * A job's line of the history, or a person's hold that ended.
 * @typedef {{kind: string, owner: string, boards?: string[], board?: string, type: string,
 *   began: number, ended: number}} Line
 */

/**
 * The lines of a part of history.jsonl; a first line that was cut is passed over.
 * @param {string} text
 * @returns {any[]}
 */
export function linesOf(text) {
  const found = [];
  for (const line of text.split("\n")) {
    try {
      const row = JSON.parse(line);
      if (row && typeof row === "object") found.push(row);
    } catch {
      // (the first of a part, or one that is being written)
    }
  }
  return found;
}

const boardsOf = row => row.kind === "hold" ? [row.board] : row.boards;
const namesOf = (row, by) => by === "board" ? boardsOf(row) : [row[by]];
const isUse = row => row.began > 0 && row.ended >= row.began
  && (row.kind === "hold" || (row.kind === "job" && Array.isArray(row.boards)));

/**
 * Of the last so many days, each with its begin, the hours of boards by owner, board or type; the
 * sums of all, the longest first; and what of them people held.
 * @param {Line[]} rows
 * @param {string} by
 * @param {number[]} begins when each day began, the last the end of all
 */
export function usageOf(rows, by, begins) {
  const days = begins.slice(0, -1).map(begin => ({begin, hours: new Map()}));
  const sums = new Map(), held = new Map();
  for (const row of rows.filter(isUse)) {
    const share = by === "board" ? 1 : boardsOf(row).length;
    for (const name of namesOf(row, by)) {
      days.forEach((day, at) => {
        const spent = Math.min(row.ended, begins[at + 1]) - Math.max(row.began, begins[at]);
        if (spent <= 0) return;
        for (const it of row.kind === "hold" ? [day.hours, sums, held] : [day.hours, sums]) {
          it.set(name, (it.get(name) || 0) + spent * share / HOUR);
        }
      });
    }
  }
  return {days, sums: [...sums].sort(([, one], [, other]) => other - one), held};
}

/**
 * How many boards were used on average in each hour of the day, by the viewer's clock.
 * @param {Line[]} rows
 * @param {number[]} begins
 * @param {(moment: number) => number} hourOf
 */
export function busyHours(rows, begins, hourOf) {
  const [from, to] = [begins[0], begins.at(-1)], hours = Array(24).fill(0);
  for (const row of rows.filter(isUse)) {
    const end = Math.min(row.ended, to);
    for (let at = Math.max(row.began, from); at < end;) {
      const next = Math.min(end, at - at % HOUR + HOUR);
      hours[hourOf(at)] += (next - at) * boardsOf(row).length;
      at = next;
    }
  }
  return hours.map(it => it / HOUR / Math.max(1, (to - from) / DAY));
}
