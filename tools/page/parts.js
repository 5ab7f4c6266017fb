// The elements of the page.

/** @returns {any} */
const named = name => document.getElementById(name);
/** @returns {HTMLElement} */
const place = name => named(name);
/** @returns {HTMLInputElement} */
const field = name => named(name);
/** @returns {HTMLButtonElement} */
const pressed = name => named(name);
/** @returns {HTMLDialogElement} */
const dialog = name => named(name);

export const said = place("said"), warned = place("warnings"), who = place("who");
export const filter = field("filter"), mine = pressed("mine"), grouping = pressed("grouping");
export const freeOnly = pressed("free"), gridding = pressed("grid"), gridPlace = place("tiles");
export const submitLink = place("to-submit"), takes = field("takes");
/** @type {HTMLFormElement} */
export const reserveForm = named("reserve");
export const tagField = field("tags"), fitting = place("fits"), completions = place("completions");
export const logPlace = place("log"), againLink = place("again");
export const boardDialog = dialog("board"), jobDialog = dialog("job");
export const submitDialog = dialog("submit"), submitButton = pressed("submit-button");
/** @type {HTMLTextAreaElement} */
export const jobFile = named("job-file");
export const upload = field("upload"), faultPlace = place("faults");
export const usageDialog = dialog("usage");
/** @type {HTMLSelectElement} */
export const usageBy = named("usage-by");
export const keysDialog = dialog("keys"), olderButton = pressed("older");
export const questionDialog = dialog("question");
export const news = document.querySelectorAll(".news"), work = place("work"), bar = place("tools");
export const main = document.querySelector("main");
export const nav = document.querySelector("#tools nav");
export const labsPlace = place("labs");
export const footer = document.querySelector("footer");
export const narrow = matchMedia("(max-width: 44rem)");
