// Elements; what is so already isn't touched, so that focus and selection stay.
import {visible} from "./console.js";

export function element(name, role, text) {
  const made = document.createElement(name);
  if (role) made.setAttribute("role", role);
  if (text !== undefined) made.textContent = text;
  return made;
}

export function button(text, kind, action) {
  const made = element("button", "", text);
  made.type = "button";
  made.className = kind;
  made.onclick = action;
  return made;
}

// (a text may be a stranger's)
export function setText(node, text) {
  const shown = visible(text);
  if (node.textContent !== shown) node.textContent = shown;
}

export function setKind(node, kind) {
  if (node.className !== kind) node.className = kind;
}

export function setTitle(node, title) {
  if (node.title !== title) node.title = title;
}

export function setHidden(node, isHidden) {
  if (node.hidden !== isHidden) node.hidden = isHidden;
}

// Makes these the children of a node in this order, and moves none that needn't be.
export function arrange(parent, wanted) {
  const kept = new Set(wanted);
  for (const it of [...parent.children]) if (!kept.has(it)) it.remove();
  let place = parent.firstElementChild;
  for (const it of wanted) {
    if (it === place) place = place.nextElementSibling;
    else parent.insertBefore(it, place);
  }
}

// Makes a node's children those of these names, in this order: those that are there stay.
export function arrangeNamed(parent, names, make) {
  const there = new Map([...parent.children].map(it => [it.dataset.name, it]));
  const wanted = names.map(name => there.get(name) || make(name));
  wanted.forEach((it, place) => {
    if (it.dataset.name !== names[place]) it.dataset.name = names[place];
  });
  arrange(parent, wanted);
  return wanted;
}

// A link to another part of the page.
export function linkTo(href) {
  const made = element("a");
  made.className = "link";
  if (href) made.setAttribute("href", href);
  return made;
}

export function setHref(node, href) {
  if (node.getAttribute("href") !== href) node.setAttribute("href", href);
}
