// The dialog by which a job is submitted: its text, or a file that is dropped on it.
import {lookAgain} from "./again.js";
import {element, setHidden, setText} from "./elements.js";
import {faultBefore, faultOf} from "./jobfile.js";
import {faultPlace, jobFile, submitButton, submitDialog, upload} from "./parts.js";
import {freshKey, sendUntilAnswered, wordsOfRefusal} from "./requests.js";
import {go, hrefOfJob} from "./routes.js";
import {state} from "./state.js";
import {announce} from "./telling.js";

const MOST = 65536;
// The key of a text that got no answer: the same text is sent again under it.
let unanswered = {text: "", key: ""};

export function openSubmit() {
  setText(faultPlace, "");
  if (!submitDialog.open) submitDialog.showModal();
}

// The text that is open for another job.
export function submitAgain() {
  jobFile.value = state.openedJob?.facts?.text || "";
}

export function beginSubmit() {
  document.getElementById("submit-form").onsubmit = event => {
    event.preventDefault();
    submit();
  };
  upload.onchange = () => takeFile(upload.files[0]);
  submitDialog.ondragover = event => event.preventDefault();
  submitDialog.ondrop = event => {
    event.preventDefault();
    takeFile(event.dataTransfer.files[0]);
  };
  jobFile.oninput = () => setText(faultPlace, "");
}

async function takeFile(file) {
  if (!file) return;
  if (file.size > MOST) setText(faultPlace, "refused: a job file has at most 65,536 bytes");
  else jobFile.value = await file.text();
}

async function submit() {
  const text = jobFile.value;
  if (submitButton.disabled) return;
  const before = faultBefore(text);
  if (before) {
    tellFault("nothing is submitted", before);
    return;
  }
  submitButton.disabled = true;
  setText(faultPlace, "is sent");
  const key = unanswered.text === text ? unanswered.key : freshKey();
  const answer = await sendUntilAnswered({path: "jobs", text, key},
    () => setText(faultPlace, "no answer yet: is sent again"));
  submitButton.disabled = false;
  if (!answer) {
    unanswered = {text, key};
    setText(faultPlace, "no answer: nobody knows whether it was done; Submit sends it again");
  } else if (answer.isRefused) {
    tellFault("refused", answer.said.code ? faultOf(text, answer.said, knownOf())
      : {line: 0, column: 0, text: wordsOfRefusal(answer)});
  } else {
    setText(faultPlace, "");
    announce("job " + answer.said.number + " is submitted");
    go(hrefOfJob(answer.said.number));
    lookAgain(true);
  }
}

const knownOf = () => ({types: state.types.keys(), boards: state.farm.boards});

// A fault; a click on it goes to its line.
function tellFault(what, {line, column, text}) {
  const where = line ? "line " + line + ", column " + column + ": " : "";
  setText(faultPlace, what + ": " + where + text);
  if (!line) return;
  const to = element("button", "", "go to line " + line);
  to.type = "button";
  to.onclick = () => {
    const lines = jobFile.value.split("\n"), begin = lines.slice(0, line - 1).join("\n").length;
    jobFile.focus();
    jobFile.setSelectionRange(begin + (line > 1 ? 1 : 0), begin + lines[line - 1].length + 1);
  };
  faultPlace.append(" ", to);
  setHidden(faultPlace, false);
}
