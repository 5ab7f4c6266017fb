// The menu of other labs, where the site tells of some.
import {arrangeNamed, linkTo, setHidden, setText} from "./elements.js";
import {labsPlace} from "./parts.js";
import {labsOf} from "./routes.js";

const own = location.origin + location.pathname.replace(/farm\.html$/, "");

// What this lab is called by the others, or else its machine's name.
export const nameOfLab = labs =>
  labsOf(labs, location.origin).find(it => it.href === own)?.name || location.hostname;

export function drawLabs(labs) {
  const all = labsOf(labs, location.origin);
  setHidden(labsPlace, all.length < 2);
  if (all.length < 2) return;
  const made = arrangeNamed(labsPlace, all.map(it => it.href), href => linkTo(href));
  all.forEach(({name, href}, at) => {
    setText(made[at], name);
    if (href === own) made[at].setAttribute("aria-current", "page");
  });
}
