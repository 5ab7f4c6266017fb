// Words: how they are read, cut, counted, sorted and looked for.
export function numberOf(holder) {
  return Number(holder.split(" ")[1]);
}

const LONGEST_NAME = 200;
const ESCAPES = {b: "\b", t: "\t", n: "\n", f: "\f", r: "\r", e: "\x1b"};

/**
 * What a job's text calls it, as much as is shown of a name.
 * @param {string} text
 */
export function nameIn(text) {
  const found = /^\s*job_name\s*=\s*(?:"((?:[^"\\]|\\.)*)"|'([^']*)')/m.exec(text);
  return found ? cut((found[1] ? unescaped(found[1]) : found[2] || ""), LONGEST_NAME) : "";
}

// What TOML's escapes stand for.
function unescaped(text) {
  return text.replace(
    /\\(?:u([\da-fA-F]{4})|U([\da-fA-F]{8})|x([\da-fA-F]{2})|(.))/g,
    (whole, short, long, byte, letter) => {
      if (letter) return ESCAPES[letter] || letter;
      const code = parseInt(short || long || byte, 16);
      return code > 0x10ffff ? whole : String.fromCodePoint(code);
    });
}

/**
 * So much of a text, and that there is more.
 * @param {string} text
 * @param {number} most
 */
export function cut(text, most) {
  return text.length > most ? text.slice(0, most) + "\u2026" : text;
}

export function count(number) {
  return number.toLocaleString("en");
}

// A text by which names sort as people count: b2 before b10.
export function sortKey(text) {
  return text.toLowerCase().replace(/\d+/g, it => it.padStart(12, "0"));
}

/** @type {(one: any[], other: any[]) => number} */
export const byKey = ([one], [other]) => one < other ? -1 : one > other ? 1 : 0;

// Each word is looked for within what is shown, in quotes as a whole.
export function wordsIn(text) {
  const found = text.toLowerCase().matchAll(/"([^"]*)"?|(\S+)/g);
  return [...found].map(([, whole, part]) => ({whole, part})).filter(it => it.whole || it.part);
}

export function hasWords(texts, words) {
  return words.every(({whole, part}) => texts.some(text =>
    part ? text.includes(part) : text === whole || text.split(" ").includes(whole)));
}
