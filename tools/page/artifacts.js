// What a job left in its folder, which the site serves as files.
import {arrangeNamed, element, setHidden, setText} from "./elements.js";
import {address, fileOf} from "./requests.js";
import {count, cut} from "./words.js";

const MOST = 200, LONGEST = 400;

/**
 * The list of what a job left, null where it left none; asked for once.
 * @param {any} ended its line in the history
 * @param {any} known
 */
export async function lookAtArtifacts(ended, known) {
  if (known || !ended?.artifacts || !Number.isInteger(ended.group)) return known;
  const found = await fileOf("artifacts/" + ended.group + "/index.json");
  return Array.isArray(found?.files) ? found : null;
}

export function drawArtifacts(found) {
  const place = document.getElementById("artifacts"), list = place.querySelector("ul");
  setHidden(place, !found);
  if (!found) return;
  const files = found.files.filter(it => Number.isInteger(it.number)).slice(0, MOST);
  const made = arrangeNamed(list, files.map(it => String(it.number)), () => {
    const line = element("li");
    line.append(element("a"), element("span"));
    return line;
  });
  files.forEach((it, at) => drawFile(made[at], found.group, it));
  const more = found.files.length - files.length;
  const left = (Array.isArray(found.left_out) ? found.left_out : []).slice(0, 50).map(it =>
    cut(String(it.name), LONGEST) + " isn't kept: " + cut(String(it.why), LONGEST));
  if (more > 0) left.push(count(more) + " more files: desk artifacts lists them");
  setText(place.querySelector("p"), left.join("\n"));
}

function drawFile(line, group, {number, name, size}) {
  const [link, about] = line.children, text = cut(String(name), LONGEST);
  link.href = address("artifacts/" + group + "/" + number).href;
  link.download = text.slice(text.lastIndexOf("/") + 1);
  setText(link, text);
  setText(about, " " + sizeText(Number(size)));
}

function sizeText(bytes) {
  if (!(bytes >= 0)) return "";
  const units = ["bytes", "kB", "MB", "GB"];
  let at = 0, size = bytes;
  while (size >= 1000 && at < units.length - 1) {
    size /= 1000;
    at++;
  }
  return (at ? size.toFixed(size < 10 ? 1 : 0) : size) + " " + units[at];
}
