import {fillText} from "./cells.js";
import {draw} from "./again.js";
import {arrange, arrangeNamed, button, element, setHidden, setKind, setText} from "./elements.js";
import {isOwn} from "./rights.js";
import {state, STEP} from "./state.js";
import {byKey, count, hasWords, sortKey} from "./words.js";

// So many lines of a list are told at once, at most.
const LAST_OF = 200;

// A table that is kept from look to look, with its rows by their keys.
export class Table {
  /**
   * @param {string} name
   * @param {any} settings its title and columns; how many rows are shown at first; by what they
   *   are grouped, when, of how many rows groups are open at first, and how one is summed up; which
   *   are free; whether no choice is made of them; what is said where there is none, and at the end
   *   of a list that goes no further
   */
  constructor(name, settings) {
    const {title, columns, first = Infinity, groupOf, areGrouped, unfolded, summaryOf, isFree,
      isWhole, none, last} = settings;
    this.name = name;
    this.title = title;
    this.columns = columns;
    this.first = first;
    this.groupOf = groupOf;
    this.areGrouped = areGrouped;
    this.unfolded = unfolded;
    this.summaryOf = summaryOf;
    this.isFree = isFree;
    this.isWhole = Boolean(isWhole);
    this.none = none || "none";
    this.last = last || "";
    /** @type {any} the rows that were chosen of, by which choice, and what it left */
    this.all = null;
    this.choice = -1;
    this.kept = [];
    /** @type {any} the column that it is sorted by, and whether downwards */
    this.sorted = null;
    this.isDown = false;
    this.lines = new Map();
    this.bodies = new Map();
    this.most = this.first;
    // those of its groups that are turned from what they are at first, and those that are so while
    // words are looked for
    this.turned = [new Set(), new Set()];
    this.makeHead();
    this.makeTable();
    this.more = element("div");
    this.more.className = "more";
    this.more.append(
      button("", "", () => this.showMost(this.most + this.step())),
      button("only the first " + this.first, "", () => this.showMost(this.first)));
    this.end = element("p", "", this.last);
    this.end.className = "nothing";
    this.jump = button(this.title, "", () => {
      this.heading.scrollIntoView();
      this.heading.focus({preventScroll: true});
    });
  }

  makeHead() {
    this.place = element("section");
    this.heading = element("h2", "", this.title + " ");
    this.heading.id = this.name + "-title";
    this.heading.tabIndex = -1;
    this.number = element("span");
    this.number.id = this.name + "-count";
    this.heading.append(this.number);
    this.summary = element("p");
    this.summary.className = "summary";
    this.content = element("div");
    this.content.id = this.name;
    this.nothing = element("p", "", "");
    this.nothing.className = "nothing";
    this.place.append(element("div"), this.content);
    this.place.firstChild.className = "title";
    this.place.firstChild.append(this.heading, this.summary);
    this.place.setAttribute("aria-labelledby", this.heading.id);
  }

  // (roles are said, since a phone's layout would take them away)
  makeTable() {
    this.table = element("table", "table");
    this.table.setAttribute("aria-labelledby", this.heading.id);
    this.head = this.table.createTHead();
    this.head.setAttribute("role", "rowgroup");
    const line = this.head.insertRow();
    line.setAttribute("role", "row");
    for (const column of this.columns) {
      const cell = element("th", "columnheader");
      cell.scope = "col";
      if (column.isActions) {
        cell.className = "last";
        cell.append(element("span", "", column.title));
        cell.firstChild.className = "unseen";
      } else {
        cell.className = column.title === "Type" ? "type" : "";
        cell.append(button(column.title, "", () => this.sortBy(column)));
      }
      line.append(cell);
      column.head = cell;
    }
  }

  // How many more are shown at a time: as many again, but no more than are drawn at once.
  step() {
    return Math.min(this.most, STEP);
  }

  showMost(most) {
    this.most = most;
    draw();
  }

  // Sorts by a column, then the other way round, then not at all.
  sortBy(column) {
    if (this.sorted !== column) Object.assign(this, {sorted: column, isDown: false});
    else if (!this.isDown) this.isDown = true;
    else this.sorted = null;
    for (const it of this.columns) it.head.removeAttribute("aria-sort");
    this.sorted?.head.setAttribute("aria-sort", this.isDown ? "descending" : "ascending");
    this.all = null;
    draw();
  }

  // Those rows that have the wanted words, in the order that is wanted.
  found(all) {
    if (this.all === all && this.choice === state.choices) return this.kept;
    if (!state.wanted.length) this.turned[1].clear();
    Object.assign(this, {all, choice: state.choices});
    this.kept = this.isWhole ? all : all.filter(row =>
      (!state.isMine || !state.user || isOwn(row))
      && (!state.isFree || !this.isFree || this.isFree(row))
      && hasWords(this.wordsOf(row), state.wanted));
    if (this.sorted) {
      const {sort, text} = this.sorted;
      const keyed = this.kept.map(row => [sort ? sort(row) : sortKey(text(row)), row]);
      keyed.sort((one, other) => this.isDown ? byKey(other, one) : byKey(one, other));
      this.kept = keyed.map(([, row]) => row);
    }
    return this.kept;
  }

  // Shows those of all rows that are wanted: the first of them, or more.
  show(all) {
    this.dropLines(all);
    const found = this.found(all), isGrouped = Boolean(this.groupOf && this.areGrouped());
    let open = 0, room = this.most;
    const bodies = this.groups(found, isGrouped).map(({name, members, isOpen}) => {
      const shown = isOpen ? members.slice(0, room) : [];
      open += isOpen ? members.length : 0;
      room -= shown.length;
      return this.body(name, members, isOpen, shown);
    });
    this.setWidths(isGrouped);
    arrange(this.table, [this.head, ...bodies]);
    setText(this.nothing, this.nothingText(all));
    this.showMore(open);
    const shownMore = found.length > this.first ? [this.more] : [];
    if (this.last && all.length >= LAST_OF && found.length <= this.most) shownMore.push(this.end);
    arrange(this.content, [found.length ? this.table : this.nothing, ...shownMore]);
    this.showCounts(found, all);
  }

  // Where groups are titled by it, the type has no column.
  setWidths(isGrouped) {
    if (this.table.className === (isGrouped ? "grouped" : "ungrouped")) return;
    this.table.className = isGrouped ? "grouped" : "ungrouped";
    const shown = this.columns.filter(it => !(isGrouped && it.title === "Type"));
    const widths = shown.map(it => "minmax(0, " + (it.width || "1fr") + ")");
    this.table.style.setProperty("--columns", widths.join(" "));
  }

  nothingText(all) {
    if (!all.length) return this.none;
    if (state.wanted.length) return "none has these words";
    return state.isMine ? "none is yours" : "none is free";
  }

  // Lines are kept while their rows are there, shown or not.
  dropLines(all) {
    if (this.all === all) return;
    const there = new Set(all.map(it => it.key));
    for (const key of this.lines.keys()) if (!there.has(key)) this.lines.delete(key);
  }

  showMore(length) {
    const rest = Math.max(0, length - this.most), next = Math.min(rest, this.step());
    const [more, fewer] = this.more.children;
    setText(more, next === rest ? "the other " + count(rest)
      : count(next) + " more of " + count(rest));
    setHidden(more, !rest);
    setHidden(fewer, this.most === this.first);
  }

  showCounts(found, all) {
    const size = found.length === all.length ? count(all.length)
      : count(found.length) + " of " + count(all.length);
    setText(this.number, "(" + size + ")");
    setText(this.jump, this.title + " (" + size + ")");
    if (this.summaryOf) fillUses(this.summary, this.summaryOf(found), state.isGrid ? "tile " : "");
  }

  turnedNow() {
    return this.turned[state.wanted.length ? 1 : 0];
  }

  // The groups of rows, in the order of their names; without grouping all are one.
  groups(found, isGrouped) {
    if (!isGrouped) return [{name: "", members: found, isOpen: true}];
    const groups = new Map();
    for (const row of found) {
      const name = this.groupOf(row);
      if (groups.has(name)) groups.get(name).push(row);
      else groups.set(name, [row]);
    }
    // (of many boards the types alone are seen at first; what has no title can't be folded)
    const isOpen = found.length <= this.unfolded || state.wanted.length > 0;
    const turned = this.turnedNow();
    return [...groups].sort(([one], [other]) => byKey([sortKey(one)], [sortKey(other)])).map(
      ([name, members]) => ({name, members, isOpen: !name || isOpen !== turned.has(name)}));
  }

  // The part of the table that has a group, with its title where there are groups.
  body(name, members, isOpen, rows) {
    if (!this.bodies.has(name)) this.bodies.set(name, this.makeBody(name));
    const {part, title} = this.bodies.get(name), shown = [];
    if (title) {
      this.fillTitle(title.firstChild, members, isOpen);
      shown.push(title);
    }
    for (const row of rows) {
      if (!this.lines.has(row.key)) this.lines.set(row.key, this.line());
      const line = this.lines.get(row.key);
      this.fill(line, row);
      shown.push(line);
    }
    arrange(part, shown);
    return part;
  }

  makeBody(name) {
    const part = element("tbody", "rowgroup");
    if (!name) return {part};
    const title = element("tr", "row"), cell = element("th", "rowheader");
    title.className = "group";
    cell.scope = "rowgroup";
    cell.colSpan = this.columns.length - 1;
    const opener = button(name, "", () => {
      const turned = this.turnedNow();
      if (!turned.delete(name)) turned.add(name);
      draw();
    });
    cell.append(opener, element("span"), element("span"));
    title.append(cell);
    return {part, title};
  }

  fillTitle({children: [opener, size, uses]}, members, isOpen) {
    opener.setAttribute("aria-expanded", isOpen);
    const what = this.title.toLowerCase();
    setText(size, count(members.length) + " " + (members.length === 1 ? what.slice(0, -1) : what));
    if (this.summaryOf) fillUses(uses, this.summaryOf(members));
  }

  line() {
    const made = element("tr", "row");
    made.marks = [];
    for (const column of this.columns) {
      const cell = element(column.isHead ? "th" : "td", column.isHead ? "rowheader" : "cell");
      if (column.isHead) cell.scope = "row";
      if (column.labelled) cell.dataset.label = column.title;
      cell.append(element(column.isActions ? "div" : "span"));
      if (column.isActions) cell.firstChild.className = "actions";
      made.append(cell);
    }
    return made;
  }

  // Shows a row in a line, and touches no cell whose text and kind are as they were. Where the row
  // is the one that it shows only what goes with time is looked at.
  fill(line, row) {
    const isShown = line.row === row;
    line.row = row;
    setKind(line, row.isAwaited ? "awaited" : isOwn(row) && !this.isWhole ? "mine" : "");
    this.columns.forEach((column, place) => {
      if (isShown && !column.isTimed) return;
      const text = column.text(row), kind = column.kind ? column.kind(row) : "";
      const mark = kind + "\n" + text;
      if (line.marks[place] === mark) return;
      line.marks[place] = mark;
      const cell = line.cells[place];
      setKind(cell, (kind + (text ? "" : " empty")).trim());
      (column.fill || fillText)(cell.firstChild, row, text);
    });
  }

  // The texts by which a row is found.
  wordsOf(row) {
    if (row.words) return row.words;
    row.words = [];
    for (const {words, text} of this.columns) {
      if (!words) row.words.push(text(row).toLowerCase());
      else for (const it of words(row)) row.words.push(it.toLowerCase());
    }
    return row.words;
  }
}

// How many are of which use; over the grid's tiles they look as these.
export function fillUses(place, uses, look = "") {
  const made = arrangeNamed(place, uses.map(([use]) => use), () => element("span"));
  made.forEach((it, at) => {
    const [use, number] = uses[at];
    setText(it, count(number) + " " + use);
    setKind(it, look + use.replaceAll(" ", "-"));
  });
}
