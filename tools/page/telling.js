// What the page says: how things stand, and what has changed.
import {setKind, setText} from "./elements.js";
import {news, said} from "./parts.js";
import {NoAnswer} from "./requests.js";
import {state} from "./state.js";

// What is wrong, in words: the way to the desk, the desk, or the page itself.
export function troubleOf(fault) {
  if (!(fault instanceof NoAnswer)) return "a fault of this page: " + fault;
  if (fault.status === 401) return "the site asks for your password again: load the page anew";
  if (fault.status === 403) return "the site doesn't let you look (403 Forbidden)";
  return (state.farm ? "no answer from the desk (" : "the desk can't be reached (")
    + fault.message + ")";
}

// How things stand: as of when, or what is wrong and as of when this is.
export function sayHow() {
  const {farm, trouble} = state;
  const seen = state.lookedAt ? "as of " + farm.seen : "loading";
  say(trouble ? trouble + (farm ? "; this is " + seen : "") : seen, Boolean(trouble));
}

function say(text, isFault) {
  const role = isFault ? "alert" : "none";
  if (said.getAttribute("role") !== role) said.setAttribute("role", role);
  setText(said, text);
  setKind(said, isFault ? "fault" : "");
}

// Tells a change: to those who see it, and to those who hear it.
export function announce(text) {
  for (const it of news) setText(it, new Date().toLocaleTimeString() + ": " + text);
}

// Tells what the user waits for, also where the page is out of sight.
export function notify(text) {
  announce(text);
  state.titled = text;
  if (document.hidden && "Notification" in window && Notification.permission === "granted") {
    new Notification("Board farm", {body: text, tag: text});
  }
}

// May be asked at a click alone.
export function askToNotify() {
  if ("Notification" in window && Notification.permission === "default") {
    Notification.requestPermission();
  }
}
