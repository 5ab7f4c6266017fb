import {reserving} from "./actions.js";
import {act} from "./commands.js";
import {arrangeNamed, element, setText} from "./elements.js";
import {completions, fitting, tagField, takes} from "./parts.js";
import {isFree} from "./rows.js";
import {state} from "./state.js";
import {askToNotify} from "./telling.js";
import {fits} from "./wants.js";
import {count} from "./words.js";

export function wantedTags() {
  return tagField.value.split(/[\s,]+/).filter(it => it);
}

// Offers the tags of boards that go on with the last word, behind the words before it.
export function complete() {
  const begun = /^(.*?)([^\s,]*)$/.exec(tagField.value), boards = state.farm?.boards || [];
  const there = boards.filter(it => it.health !== "Retired");
  const all = new Set(there.flatMap(it => it.tags).sort());
  for (const it of there) all.add("name=" + it.name);
  const taken = wantedTags();
  const offered = [...all].filter(it => it.includes(begun[2]) && !taken.includes(it)).slice(0, 40);
  arrangeNamed(completions, offered.map(it => begun[1] + it), text => {
    const option = element("option");
    option.value = text;
    return option;
  });
}

// How many boards have what is wanted.
export function showFitting() {
  if (!state.rows) return;
  const want = {type: "", tags: wantedTags()};
  const all = state.rows.boards.filter(it => it.health !== "Retired" && fits(it, want));
  const fit = all.length === 1 ? " board fits, " : " boards fit, ";
  const isAsked = want.tags.length || document.activeElement === tagField;
  setText(fitting, isAsked ? count(all.length) + fit + all.filter(isFree).length + " free" : "");
}

export async function reserveByTags() {
  const tags = wantedTags(), text = tagField.value;
  const action = reserving(tags, tags.join(" ") || "any board", takes.checked);
  // (a second Enter, after which the field is empty, isn't meant)
  if (!tags.length) action.question = "Reserve any board, of whatever type?";
  askToNotify();
  await act(action, "reserve");
  if (!state.told.has("reserve") && tagField.value === text) tagField.value = "";
  showFitting();
}
