import {dateOf} from "./clocks.js";
import {act, toldOf} from "./commands.js";
import {
  arrangeNamed, button, element, linkTo, setHref, setKind, setText, setTitle
} from "./elements.js";
import {hrefOfBoard, hrefOfJob, hrefOfWords} from "./routes.js";
import {addWord} from "./search.js";
import {state} from "./state.js";
import {cut} from "./words.js";

// How many letters of a text stand in a row.
const LONG = 160;

export const plain = (title, text, more = {}) => ({title, text, ...more});

export const numbers = (title, text, more = {}) =>
  ({title, text, kind: () => "number", labelled: true, ...more});

// What changes with time isn't searched for.
export const moments = (title, text, sort, more = {}) => numbers(title, text,
  {words: () => [], sort, isTimed: true, ...more});

export const tagList = row => row.tags.join(" ");

// A long text is cut, and all of it is shown at a click.
export function fillText(place, row, text) {
  if (text.length <= LONG) {
    setText(place, text);
    return;
  }
  if (!place.firstElementChild) place.textContent = "";
  const [shown, more] = arrangeNamed(place, ["text", "more"], name =>
    name === "text" ? element("span") : button("more", "more", () => {
      place.dataset.isWhole = place.dataset.isWhole ? "" : "yes";
      fillText(place, row, text);
    }));
  setText(shown, place.dataset.isWhole ? text : cut(text, LONG));
  setText(more, place.dataset.isWhole ? "less" : "more");
}

export function fillTags(place, row) {
  arrangeNamed(place, row.tags, tagButton);
}

export function tagButton(tag) {
  const made = button(tag, "tag", () => addWord('"' + tag + '"'));
  // (a search by keys finds it too, so a tab needn't stop at each)
  made.tabIndex = -1;
  made.title = "only what has " + tag;
  return made;
}

// A cell whose text opens something.
export const opening = (hrefOf, label) => (place, row, text) => {
  const [made] = arrangeNamed(place, ["open"], () => linkTo(""));
  setHref(made, hrefOf(row));
  setText(made, text);
  setTitle(made, label(row));
};

// Whose a board is, by what: a job's number opens it.
export function fillHolder(place, row) {
  const {kind, number} = row.held;
  const [owner, holder, title] = arrangeNamed(place, kind ? ["owner", kind, "job-name"] : [],
    name => {
      if (name === "job") return linkTo("");
      if (name === "owner") return linkToOwner();
      const made = element("span");
      if (name !== kind) made.className = name;
      return made;
    });
  if (!kind) return;
  fillOwnerLink(owner, row.owner);
  setText(holder, row.holder);
  if (kind === "job") setHref(holder, hrefOfJob(number));
  setText(title, row.title);
}

// The boards of an ended job.
export function fillBoards(place, row) {
  for (const it of arrangeNamed(place, row.boards, name => linkTo(hrefOfBoard(name)))) {
    setText(it, it.dataset.name);
  }
}

// A row's buttons, and what is told beside it.
export function fillActions(place, actions, key) {
  const it = toldOf(key), names = actions.map(action => action.name);
  const made = arrangeNamed(place, it ? [...names, "told"] : names,
    name => name === "told" ? element("span", "", "") : button(name, ""));
  actions.forEach((action, at) => {
    setKind(made[at], action.isMain ? "main" : action.isDanger ? "danger" : "");
    made[at].onclick = () => act({...action}, key);
    if (made[at].disabled !== Boolean(state.trouble)) made[at].disabled = Boolean(state.trouble);
    made[at].setAttribute("aria-label", action.name + " " + action.what);
  });
  if (it) fillTold(made[names.length], it, key);
}

// What is told of a command: where no answer came, it can be sent again under its key.
export function fillTold(place, it, key) {
  setKind(place, it.isFault ? "told fault" : "told");
  arrangeNamed(place, it.action ? ["text", "again"] : ["text"], name =>
    name === "text" ? element("span") : button("Send again", ""));
  setText(place.firstChild, it.text);
  if (it.action) {
    place.lastChild.onclick = () => {
      state.told.delete(key);
      act({...it.action, question: ""}, key);
    };
  }
}

// The column of what can be done, which has no title to see.
export const acting = (table, actionsOf, width) => ({
  title: "Actions", isActions: true, isTimed: true, words: () => [], width, kind: () => "last",
  text: row => {
    const actions = actionsOf(row).map(it => it.name + it.path + it.question);
    return [state.trouble, ...actions, toldOf(table + "/" + row.key)?.text].join(" ").trim();
  },
  fill: (place, row) => fillActions(place, actionsOf(row), table + "/" + row.key),
});

export const hrefOfRow = row => row.job ? hrefOfJob(row.job, row.began) : hrefOfJob(row.number);

function linkToOwner() {
  const made = linkTo("");
  made.className = "link owner";
  made.tabIndex = -1;
  return made;
}

// An owner's name leads to all that is his or hers.
function fillOwnerLink(made, owner) {
  setHref(made, hrefOfWords('"' + owner + '"'));
  setTitle(made, "all of " + owner);
  setText(made, owner);
}

export function fillOwner(place, row) {
  const [made] = arrangeNamed(place, row.owner ? ["owner"] : [], linkToOwner);
  if (made) fillOwnerLink(made, row.owner);
}

export function fillSince(place, row, text) {
  setText(place, text);
  setTitle(place, row.since ? (row.isSeen ? "since " : "since before ") + dateOf(row.since) : "");
}

export function fillState(place, row, text) {
  setText(place, text);
  setTitle(place, row.away && "worker " + row.away + " doesn't answer");
}

export function fillClaim(place, row) {
  const isGroup = row.kind === "group", names = [row.kind, row.title ? "job-name" : ""];
  const [claim, title] = arrangeNamed(place, names.filter(it => it), name => {
    const made = name === "group" ? linkTo(hrefOfJob(row.number)) : element("span");
    if (name === "job-name") made.className = name;
    return made;
  });
  setText(claim, row.kind + " " + row.number);
  if (isGroup) setTitle(claim, "job " + row.number);
  if (title) setText(title, row.title);
}

export function fillBoard(place, row, text) {
  const names = row.board ? ["open"] : [];
  for (const it of arrangeNamed(place, names, () => linkTo(""))) {
    setText(it, text);
    setHref(it, hrefOfBoard(row.board));
  }
}

export function fillWhat(place, row, text) {
  if (row.job) opening(hrefOfRow, it => "job " + it.job + ": its log")(place, row, text);
  else setText(place, text);
}
