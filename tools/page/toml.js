// A small reader of TOML 1.1, which knows where each key stands. Moments are texts.

const BLANK = /(?:[ \t\r\n]|#[^\n]*)*/y, SPACE = /[ \t]*/y, BARE = /[\w-]+/y;
const LINE_END = /[ \t]*(?:#[^\n]*)?(?:\r?\n|$)/y, CONTROL = /[\0-\x08\x0b\x0c\x0e-\x1f\x7f]/;
// Ways to quote a text, a long one before a short one, and whether it has escapes.
/** @type {[RegExp, boolean][]} */
const QUOTED = [
  [/"""(?:\r?\n)?((?:[^\\]|\\[^])*?"{0,2})"""(?!")/y, true], [/"((?:[^"\\\n]|\\.)*)"/y, true],
  [/'''(?:\r?\n)?([^]*?'{0,2})'''(?!')/y, false], [/'([^'\n]*)'/y, false],
];
const ESCAPE = /\\(?:x([\da-fA-F]{2})|u([\da-fA-F]{4})|U([\da-fA-F]{8})|([ \t]*\r?\n\s*)|([^]))/g;
const LETTERS = {e: "\x1b", b: "\b", t: "\t", n: "\n", f: "\f", r: "\r", "\"": "\"", "\\": "\\"};
const CLOCK = "(?:[01]\\d|2[0-3]):[0-5]\\d(?::[0-5]\\d(?:\\.\\d+)?)?";
const MOMENT = new RegExp("\\d{4}-\\d\\d-\\d\\d(?:[Tt ]" + CLOCK
  + "(?:[Zz]|[+-]\\d\\d:\\d\\d)?)?|" + CLOCK, "y");
const DIGITS = "\\d(?:_?\\d)*";
const NUMBER = new RegExp("(?:0x[\\da-fA-F](?:_?[\\da-fA-F])*|0o[0-7](?:_?[0-7])*|0b[01](?:_?[01])*"
  + "|[+-]?(?:inf|nan|(?:0|[1-9](?:_?\\d)*)(?:\\." + DIGITS + ")?(?:[eE][+-]?" + DIGITS
  + ")?))(?![\\w.])", "y");

// Reads a text from its beginning on; what is wrong is an error with its place, `at`.
export class Reader {
  constructor(text) {
    this.text = text;
    this.at = 0;
    // where the keys of a path stand first, by the path with spaces between
    this.places = new Map();
    // tables that a line of their own named, that a key with dots made, and that stand as values
    this.headed = new Set();
    this.dotted = new Set();
    this.closed = new Set();
  }

  fault(text, at = this.at) {
    return Object.assign(new Error(text), {at});
  }

  // The match of a pattern that stands here, which is passed over, or null.
  take(pattern) {
    pattern.lastIndex = this.at;
    const found = pattern.exec(this.text);
    if (found) this.at = pattern.lastIndex;
    return found;
  }

  passed(word) {
    const isThere = this.text.startsWith(word, this.at);
    if (isThere) this.at += word.length;
    return isThere;
  }

  demand(word) {
    this.take(SPACE);
    if (!this.passed(word)) throw this.fault(word + " is missing");
  }

  document() {
    const control = this.text.search(CONTROL), root = Object.create(null);
    if (control >= 0) throw this.fault("a byte stands there that no text has", control);
    let table = root, path = [];
    for (;;) {
      this.take(BLANK);
      if (this.at === this.text.length) return root;
      const begun = this.at;
      if (this.passed("[[")) {
        path = this.keys();
        this.demand("]]");
        table = this.added(root, path, begun);
      } else if (this.passed("[")) {
        path = this.keys();
        this.demand("]");
        table = this.named(root, path, begun);
      } else {
        this.pair(table, path);
      }
      if (!this.take(LINE_END)) throw this.fault("something stands behind the end of a line");
    }
  }

  // The keys that stand here, with dots between, in the table of a path.
  keys(above = []) {
    const found = [];
    do {
      this.take(SPACE);
      const {at} = this, bare = this.take(BARE), key = bare ? bare[0] : this.quoted(false);
      if (key === null) throw this.fault("a key is missing");
      found.push(key);
      const name = [...above, ...found].join(" ");
      if (!this.places.has(name)) this.places.set(name, at);
      this.take(SPACE);
    } while (this.passed("."));
    return found;
  }

  // The table under a key, the last of an array of tables; a new one where none is.
  inner(table, key, at) {
    table[key] ??= Object.create(null);
    const isOpen = Array.isArray(table[key]) && !this.closed.has(table[key]);
    const found = isOpen ? table[key].at(-1) : table[key];
    if (typeof found !== "object" || Array.isArray(found) || this.closed.has(found)) {
      throw this.fault(key + " is a value already", at);
    }
    return found;
  }

  above(root, path, at) {
    return path.slice(0, -1).reduce((table, key) => this.inner(table, key, at), root);
  }

  named(root, path, at) {
    const table = this.above(root, path, at), found = table[path.at(-1)] ??= Object.create(null);
    const isTaken = [this.headed, this.dotted, this.closed].some(it => it.has(found));
    if (typeof found !== "object" || Array.isArray(found) || isTaken) {
      throw this.fault(path.join(".") + " is there already", at);
    }
    this.headed.add(found);
    return found;
  }

  added(root, path, at) {
    const table = this.above(root, path, at), found = table[path.at(-1)] ??= [];
    if (!Array.isArray(found) || this.closed.has(found)) {
      throw this.fault(path.join(".") + " is no array of tables", at);
    }
    found.push(Object.create(null));
    return found.at(-1);
  }

  pair(table, above) {
    const {at} = this, keys = this.keys(above), last = keys.pop();
    this.demand("=");
    let place = table;
    for (const key of keys) {
      place = this.inner(place, key, at);
      if (this.headed.has(place)) throw this.fault(key + " has a line of its own", at);
      this.dotted.add(place);
    }
    if (last in place) throw this.fault(last + " is there already", at);
    this.take(SPACE);
    place[last] = this.value([...above, ...keys, last]);
  }

  // A text in quotes, for a key a short one; null where none stands here.
  quoted(mayBeLong = true) {
    for (const [pattern, isEscaped] of QUOTED.filter((_, which) => mayBeLong || which % 2)) {
      const {at} = this, found = this.take(pattern);
      if (found) return isEscaped ? this.unescaped(found[1], at) : found[1];
    }
    return null;
  }

  unescaped(text, at) {
    return text.replace(ESCAPE, (_, byte, short, long, end, letter) => {
      if (end !== undefined) return "";
      const code = parseInt(byte || short || long, 16);
      const isNone = code > 0x10ffff || (code >= 0xd800 && code < 0xe000);
      const said = letter ? LETTERS[letter] : isNone ? undefined : String.fromCodePoint(code);
      if (said !== undefined) return said;
      throw this.fault("a text has \\" + (letter || "u") + ", which stands for nothing", at);
    });
  }

  value(path) {
    const text = this.quoted();
    if (text !== null) return text;
    if (this.passed("[")) return this.array(path);
    if (this.passed("{")) return this.table(path);
    if (this.passed("true")) return true;
    if (this.passed("false")) return false;
    const moment = this.take(MOMENT);
    if (moment) return moment[0];
    const number = this.take(NUMBER);
    if (!number) {
      throw this.fault(/["']/.test(this.text[this.at]) ? "a text in quotes isn't closed"
        : "a value is missing, as a text in quotes");
    }
    return Number(number[0].replaceAll("_", "").replace("inf", "Infinity"));
  }

  array(path) {
    const found = [];
    this.closed.add(found);
    for (;;) {
      this.take(BLANK);
      if (this.passed("]")) return found;
      found.push(this.value([...path, "[]"]));
      this.take(BLANK);
      if (!this.passed(",")) {
        this.demand("]");
        return found;
      }
    }
  }

  table(path) {
    const found = Object.create(null);
    for (;;) {
      this.take(BLANK);
      if (this.passed("}")) break;
      this.pair(found, path);
      this.take(BLANK);
      if (!this.passed(",")) {
        this.demand("}");
        break;
      }
    }
    this.closed.add(found);
    return found;
  }
}
