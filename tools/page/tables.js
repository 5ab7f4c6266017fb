import {actionsOfBoard, actionsOfClaim, actionsOfReservation} from "./actions.js";
import {
  acting, fillBoard, fillBoards, fillClaim, fillHolder, fillOwner, fillSince, fillState, fillTags,
  fillWhat, hrefOfRow, moments, numbers, opening, plain, tagList
} from "./cells.js";
import {
  age, dateOf, endedText, left, machineTime, shortDates, shortSpan, sinceText
} from "./clocks.js";
import {narrow} from "./parts.js";
import {isOwn} from "./rights.js";
import {hrefOfBoard} from "./routes.js";
import {holderText, isFree, lengthOf, noteOf, stateText, testsText, usesOf} from "./rows.js";
import {FEW, FIRST, LEASED, state, UNFOLDED} from "./state.js";
import {Table} from "./table.js";

// Each table's columns: a title, the text that a row has there, the words by which it is found and
// what it is sorted by where these are others, how its cell is filled, its classes, its width, and
// whether a phone shows its title too.
const claimText = row => [row.kind + " " + row.number, row.title].filter(it => it).join(" ");

export const TABLES = {
  boards: {title: "Boards", columns: [
    plain("Board", row => row.name, {isHead: true, width: "9rem",
      words: row => [row.name, "name=" + row.name],
      fill: opening(row => hrefOfBoard(row.name), row => row.name + ": its history")}),
    plain("Type", row => row.type, {kind: () => "type", width: "10%"}),
    plain("Health", row => row.health, {kind: row => "health " + row.health, width: "8rem"}),
    plain("State", stateText, {width: "6rem", fill: fillState,
      kind: row => row.away ? "bad" : row.held.kind ? "" : "quiet"}),
    plain("Held by", holderText, {fill: fillHolder, width: "17%", kind: () => "holder",
      words: row => row.held.kind ? [row.owner, row.holder, row.title] : []}),
    moments("Since", sinceText, row => row.since || Infinity, {width: "6rem",
      fill: fillSince}),
    plain("Tags", tagList, {kind: () => "long", fill: fillTags}),
    acting("boards", actionsOfBoard, "11.5rem"),
  ], groupOf: row => row.type, areGrouped: () => state.areGrouped, unfolded: UNFOLDED,
    summaryOf: usesOf, isFree,
    none: "no boards yet: an admin adds them, as by 'desk import lab.toml'"},
  queue: {title: "Queue", first: FIRST, columns: [
    numbers("Place", row => String(row.place), {width: "4.5rem", sort: row => row.place}),
    plain("Claim", claimText, {isHead: true, width: "17%", fill: fillClaim,
      words: row => [row.kind + " " + row.number, row.title || ""]}),
    plain("Owner", row => row.owner, {labelled: true, width: "9%", fill: fillOwner}),
    plain("Wants", row => row.text || row.boards + (row.boards === 1 ? " board" : " boards"),
      {width: "17%", sort: row => row.boards}),
    numbers("Priority", row => String(row.priority), {width: "5.5rem", sort: row => row.priority}),
    moments("Age", row => row.submitted ? age(machineTime() - row.submitted) : "",
      row => row.submitted || Infinity, {width: "5rem"}),
    plain("Why it waits", noteOf, {kind: row => row.stuck ? "long stuck" : "long",
      words: row => [row.stuck || ""]}),
    acting("queue", actionsOfClaim, "9rem"),
  ]},
  reservations: {title: "Reservations", first: FIRST, columns: [
    numbers("Number", row => String(row.number), {width: "5rem", sort: row => row.number,
      isHead: true}),
    plain("State", row => row.state, {kind: row => row.state, width: "6rem"}),
    moments("Left", left, row => LEASED.includes(row.state) ? row.deadline : Infinity,
      {width: "6.5rem"}),
    plain("Board", row => row.board, {labelled: true, width: "11%", fill: fillBoard}),
    plain("Owner", row => row.owner, {labelled: true, width: "9%", fill: fillOwner}),
    moments("Since", sinceText, row => row.since || Infinity, {width: "5.5rem", fill: fillSince}),
    numbers("Priority", row => String(row.priority), {width: "5rem", sort: row => row.priority}),
    plain("Tags", tagList, {kind: () => "long", fill: fillTags}),
    acting("reservations", actionsOfReservation, "11.5rem"),
  // (a phone has no room for what is others')
  ], groupOf: row => isOwn(row) || row.isAwaited ? "" : "Of others",
    areGrouped: () => narrow.matches, unfolded: FEW},
  ended: {title: "Ended jobs", first: 20,
    last: "These are the last that the dispatcher tells of at once; desk history has all.",
    columns: [
    numbers("Job", row => String(row.job), {width: "5rem", sort: row => row.job, isHead: true,
      fill: opening(hrefOfRow, row => "job " + row.job + ": its log")}),
    plain("Name", row => row.name, {width: "18%"}),
    plain("Owner", row => row.owner, {width: "10%", fill: fillOwner}),
    plain("Boards", row => row.boards.join(" "), {fill: fillBoards, width: "14%"}),
    plain("Outcome", row => row.outcome, {kind: row => row.outcome, width: "7.5rem"}),
    moments("Ended", row => endedText(row.ended), row => row.ended, {width: "7rem"}),
    moments("Took", row => lengthOf(row) < 0 ? "" : shortSpan(lengthOf(row)), lengthOf,
      {width: "7rem"}),
    plain("Reason", row => [testsText(row.tests), row.reason].filter(it => it).join("; "),
      {kind: () => "long"}),
  ]},
};

export const tables = Object.entries(TABLES).map(([name, it]) => new Table(name, it));

export const boardPast = new Table("board-history", {title: "History", isWhole: true, first: 20,
  columns: [
  moments("When", row => dateOf(row.at, shortDates), row => row.at, {width: "9.5rem",
    labelled: false}),
  plain("What", row => row.what, {isHead: true, width: "6rem", fill: fillWhat}),
  plain("Who", row => row.owner, {width: "5rem"}),
  plain("Outcome", row => row.from ? row.from + " to " + row.to : row.outcome,
    {kind: row => row.to || row.outcome, width: "10rem"}),
  plain("Reason", row => [row.name, row.reason].filter(it => it).join(": "), {kind: () => "long"}),
]});
