// All boards at a glance: a tile each, by type, coloured by what it is used for.
import {arrangeNamed, element, linkTo, setKind, setText, setTitle} from "./elements.js";
import {hrefOfBoard} from "./routes.js";
import {holderText, useOf} from "./rows.js";
import {byKey, sortKey} from "./words.js";

// So many letters of a name have room in a tile, however wide others are.
const LONGEST = 24;

/**
 * @param {HTMLElement} place
 * @param {any[]} rows
 */
export function drawGrid(place, rows) {
  const types = new Map(), longest = Math.max(0, ...rows.map(it => it.name.length));
  // (names of a lab differ at their ends)
  place.style.setProperty("--tile", Math.min(longest, LONGEST) + "ch");
  for (const row of rows) {
    if (types.has(row.type)) types.get(row.type).push(row);
    else types.set(row.type, [row]);
  }
  const names = [...types.keys()].sort((one, other) => byKey([sortKey(one)], [sortKey(other)]));
  const parts = arrangeNamed(place, names, makePart);
  parts.forEach((part, at) => drawPart(part, types.get(names[at])));
  if (!names.length) setText(place, "none");
}

function makePart(name) {
  const part = element("div"), list = element("ul");
  part.className = "of-type";
  part.append(element("h3", "", name), list);
  list.className = "tiles";
  return part;
}

function drawPart(part, rows) {
  const tiles = arrangeNamed(part.lastElementChild, rows.map(it => it.name), name => {
    const tile = element("li");
    tile.append(linkTo(hrefOfBoard(name)));
    setText(tile.firstElementChild, name);
    return tile;
  });
  tiles.forEach((tile, at) => {
    const row = rows[at], use = useOf(row), who = holderText(row);
    setKind(tile.firstElementChild, "link tile " + use.replaceAll(" ", "-"));
    const text = row.name + ": " + use + (who ? ", " + who : "");
    setTitle(tile.firstElementChild, text);
    if (tile.firstElementChild.ariaLabel !== text) tile.firstElementChild.ariaLabel = text;
  });
}
