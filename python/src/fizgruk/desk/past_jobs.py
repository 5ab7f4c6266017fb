"""Jobs that ended beside those that are open, a board's past, and what jobs said and left."""
import argparse
import itertools
import operator
import os
import sys
import time
from typing import Any, Dict, Iterator, List, Optional, Sequence, Set, Tuple

from fizgruk import calls, history, limits, present, wants
from fizgruk._tools import tables
from fizgruk.artifacts import Artifact, counts_in_words
from fizgruk.desk import REFUSED, tell, views, waiting
from fizgruk.errors import Refused
from fizgruk.models import Results, view_of
from fizgruk.waiting import behind_colon

LONGEST = 1000  # letters of a reason, and of a name where one job is shown
Row = Dict[str, Any]


# ---- what there is and was


def show_some_or_all(desk: calls.Desk, options: argparse.Namespace) -> int:
    """Shows jobs by their numbers, or without any, those that are open and the last that ended."""
    if options.numbers:
        if options.mine or options.last or options.limit:
            options.parser.error("--mine, --last and --limit go without numbers")
        return show_jobs(desk, options)
    if options.text:
        options.parser.error("--text: give numbers")
    return list_jobs(desk, options)


def list_jobs(desk: calls.Desk, options: argparse.Namespace) -> int:
    """Shows the newest jobs that haven't ended, and the last ones that have."""
    owner = desk.user if options.mine else None
    most = options.limit or views.LAST
    claims = wants.Claims(desk)
    now = list(itertools.islice(open_jobs(claims, owner, options.json), most + 1))
    try:
        ended = history.past_of(desk).jobs(options.last or views.LAST, owner)
    except Refused as refusal:
        if refusal.status != calls.NOT_FOUND:
            raise
        tell(f"only open jobs are shown: {refusal}")
        ended = []
    if options.json:
        views.print_json({"ended": ended, "open": now[:most]})
    else:
        rows = [row_of_open(it) for it in with_reasons(claims, now[:most])] + [row_of_ended(it) for it in ended]
        views.show(options, {}, rows, COLUMNS)
    options.clock.note_shown(claims.status, not now)
    if len(now) > most:
        tell(f"more are open than these {most}: --limit")
    return 0


def open_jobs(claims: wants.Claims, owner: Optional[str], are_asked: bool = False) -> Iterator[Row]:
    """The jobs that hold boards and the groups that wait, the newest first. Those that the dispatcher doesn't tell of
    are asked for, a call a job; so are all where their whole views are wanted."""
    queue = {it["number"]: it for it in claims.desk.look("/queue")["queue"] if it["kind"] == "group"}
    held = calls.held_in(claims.lab.boards, "job")
    for number in sorted({*queue, *held}, reverse=True):
        claim, board = queue.get(number), held.get(number)
        row: Optional[Row] = None
        if claim and owner not in (None, claim["owner"]):
            continue
        if not are_asked and not claim and board:
            run = claims.now.row_of(present.JOBS, number, board["name"])
            state = "Running" if board["state"] == "Running" else "Scheduled"
            row = {"type": board["type"], **run, "number": number, "state": state} if run else None
        elif not are_asked and claim and not board and claims.is_known(claim):
            name, kinds = claims.groups[number]["name"], " ".join(claims.kinds(claim))
            row = {**claim, "group": number, "state": "Submitted", "type": kinds, "board": "", "name": name}
        row = row or calls.job_of(claims.desk, number)
        if row and row["state"] != "Finished" and owner in (None, row["owner"]):
            yield row


def row_of_open(view: Row) -> Row:
    """A row of a job that hasn't ended, by its view or what the dispatcher tells of it."""
    began = view.get("began")
    return {
        **view,
        "name": view["name"] if "name" in view else views.name_of(view),
        "began": tables.moment(began) if began else "",
        "took": tables.span(max(0, int(time.time()) - began)) if began else "",
        "reason": view.get("reason", ""),
    }


def row_of_ended(row: Row) -> Row:
    return {
        **row,
        "number": row["job"],
        "state": row["outcome"],
        "board": " ".join(row["boards"]),
        "began": tables.moment(row["began"]),
        "took": tables.span(row["ended"] - row["began"]),
    }


COLUMNS = [
    *tables.of("number", "state", "owner", "type", "board", "began", "took"),
    ("NAME", lambda it: tables.printable(it["name"])),
    ("REASON", lambda it: tables.printable(it["reason"], LONGEST)),
]
PAST = COLUMNS[-4:]
RUNS: tables.Column = ("RUNS", operator.itemgetter("lasts"))  # in the place of how long a job took that hasn't ended
TESTS: List[tables.Column] = [("TESTS", lambda it: counts_in_words(it["tests"]) if it.get("tests") else "")]


# ---- some jobs


def show_jobs(desk: calls.Desk, options: argparse.Namespace) -> int:
    """Shows jobs by their numbers: of those that ended what the history has, of others what the dispatcher tells."""
    rows, status = jobs_of(desk, options.numbers)
    if options.text:
        sys.stdout.write("".join(it["text"] for it in rows))
        return status
    ended = {it["number"] for it in rows if it["state"] == "Finished"}
    found = lines_of(desk, ended) if ended else {}
    if options.json and rows:
        more = {"ended": [found[it] for it in sorted(found)]} if found else {}
        views.print_json({"jobs": rows, **more})
    elif rows:
        claims = wants.Claims(desk)
        rows = [row_of_open(with_present(claims, it)) for it in with_reasons(claims, rows)]
        show_rows(options, [{**it, **more_of(found.get(it["number"]))} for it in rows])
    return status


def more_of(line: Optional[Row]) -> Row:
    """What the history has of a job, beside its view."""
    more = row_of_ended(line) if line else {}
    return {it: more[it] for it in ("name", "began", "took", "reason", "tests") if it in more}


def show_rows(options: argparse.Namespace, rows: List[Row]) -> None:
    """Shows one job as facts, and several as a table."""
    tested = [it for it in rows if it.get("tests")]
    columns = tables.JOBS + PAST + (TESTS if tested else [])
    if len(rows) == 1:
        columns = [RUNS if it[0] == "TOOK" and rows[0].get("lasts") else it for it in columns]
        facts = {title.lower(): call(rows[0]) for title, call in columns}
        facts["name"] = tables.printable(rows[0]["name"], LONGEST)
        print(tables.facts_of(facts), end="", flush=True)
    else:
        views.show(options, {}, rows, columns)
    for it in tested:
        print_failed(it)


def with_reasons(claims: wants.Claims, rows: Sequence[Row]) -> List[Row]:
    """Rows of jobs, and why those wait that do, or that the workers of those that run don't answer."""
    waiting = {it["group"] for it in rows if it["state"] in wants.QUEUED}
    queue = claims.desk.look("/queue")["queue"] if waiting else []
    reasons = claims.reasons([it for it in queue if it["kind"] == "group" and it["number"] in waiting])

    def reason(row: Row) -> str:
        if row["state"] in (*wants.QUEUED, "Finished"):
            return reasons.get(row["group"], "")
        return claims.lab.silence([it for it in claims.lab.boards if it["name"] == row["board"]])

    return [{**it, "reason": reason(it)} for it in rows]


def with_present(claims: wants.Claims, row: Row) -> Row:
    """A row of a job, and where it stands in the queue, or for how long it runs, as the dispatcher tells that."""
    if row["state"] in wants.QUEUED:
        place = wants.place_of(claims.desk, "group", row["group"])
        return {**row, "reason": place + behind_colon(row["reason"]) if place else ""}
    run = claims.now.row_of(present.JOBS, row["number"], row["board"]) if row["state"] != "Finished" else {}
    return {**row, **run, "lasts": present.lasting(run) if run.get("began") else ""}


def jobs_of(desk: calls.Desk, numbers: Sequence[int]) -> Tuple[List[Row], int]:
    """The views of the jobs that are there, and the exit status; those that aren't are told."""
    rows, status = [], 0
    for number in numbers:
        view = calls.job_of(desk, number)
        if view is None:
            status = tell.told(REFUSED, f"job {number}: refused: 20 no such job")
        else:
            rows.append(view)
    return rows, status


def print_failed(row: Row) -> None:
    """Prints the names of a job's tests that failed, as far as the history has them."""
    counts = view_of(Results, row["tests"])
    others = counts.failed + counts.errors - len(counts.names)
    more = f" and {others:,} more" if others > 0 else ""
    if counts.names:
        print(f"job {row['number']} failed: {', '.join(map(tables.printable, counts.names))}{more}", flush=True)


def lines_of(desk: calls.Desk, numbers: Set[int]) -> Dict[int, Row]:
    """The lines that the history has of jobs that ended, by their numbers; where there is none,
    that is told."""
    try:
        past = history.past_of(desk)
        found = {it["job"]: it for it in reversed(past.newest()) if it["job"] in numbers}
        if found.keys() != numbers:
            found = {it["job"]: it for it in past.many_jobs() if it["job"] in numbers}
        return found
    except Refused as refusal:
        if refusal.status != calls.NOT_FOUND:
            raise
        tell(f"times and reasons aren't shown: {refusal}")
        return {}


# ---- a board


def show_history(desk: calls.Desk, options: argparse.Namespace) -> int:
    """Shows what became of a board, the newest first: its jobs, and how its health changed."""
    rows = history.past_of(desk).of_board(options.board, options.last or views.LAST)
    if not rows and options.board not in {it["name"] for it in desk.look("/boards")["boards"]}:
        return tell.told(REFUSED, f"there is no board {options.board}")
    return views.show(options, {"history": rows}, rows, BOARD_COLUMNS)


def what_of(row: Row) -> str:
    if row["kind"] == "health":
        return f"{row['from']} to {row['to']}"
    return f"job {row['job']} {row['outcome']}"


def about_of(row: Row) -> str:
    if row["kind"] == "health":
        return str(row["reason"])
    return ": ".join(it for it in (row["name"], row["reason"]) if it)


BOARD_COLUMNS = [
    ("MOMENT", lambda it: tables.moment(it["at"] if it["kind"] == "health" else it["ended"])),
    ("WHAT", what_of),
    ("OWNER", lambda it: it.get("owner", "-")),
    ("TOOK", lambda it: tables.span(it["ended"] - it["began"]) if "began" in it else "-"),
    ("ABOUT", lambda it: tables.printable(about_of(it))),
]


# ---- a job's log, and its text


def show_log(desk: calls.Desk, options: argparse.Namespace) -> int:
    """Prints a job's log; with --follow all that is added to it until the job has ended."""
    if options.follow:
        print_followed(desk, options, options.number)
    else:
        log = history.log_of(history.past_of(desk), desk, options.number)
        views.print_bytes(log, sys.stdout.isatty() and not options.raw)
    return 0


def print_followed(desk: calls.Desk, options: argparse.Namespace, number: int) -> None:
    """Prints what a job says until it has ended."""
    history.is_to_come(desk, number)  # what is asked first has to be answered
    wait = waiting.Checked(desk, "", None, options.every, tell)
    log = history.followed(history.past_of(desk), number, wait)
    views.print_bytes(log, sys.stdout.isatty() and not getattr(options, "raw", False))


# ---- what jobs left

LEFT: List[tables.Column] = [("SIZE", operator.itemgetter("size")), ("NAME", operator.itemgetter("name"))]


def show_artifacts(desk: calls.Desk, options: argparse.Namespace) -> int:
    """Lists what a job's group left, prints one of it, or fetches all or one into a folder."""
    left = history.Artifacts(desk, history.past_of(desk), options.number)
    wanted = [left.of(options.name)] if options.name else left.files
    if options.to:
        return fetch(left, wanted, options.to)
    if not options.name:
        return show_list(options, left)
    views.print_bytes(left.bytes_of(wanted[0]), sys.stdout.isatty())
    return 0


def show_list(options: argparse.Namespace, left: history.Artifacts) -> int:
    """Shows what is kept, and tells what isn't, and what became of the tests."""
    status = views.show(options, left.index, left.index["files"], LEFT)
    if not options.json:
        for it in left.index["left_out"]:
            tell(f"not kept: {it['name']} ({it['why']})")
        if left.index.get("more_left_out"):
            tell(f"nor {left.index['more_left_out']:,} more")
        if isinstance(left.index.get("tests"), dict):
            tell(f"junit.xml: {counts_in_words(left.index['tests'])}")
        elif left.index.get("no_tests"):
            tell(f"junit.xml isn't counted: {left.index['no_tests']}")
    return status


def fetch(left: history.Artifacts, wanted: List[Artifact], folder: str) -> int:
    """Writes files into a folder, each whole or not at all, and prints where."""
    for it in wanted:
        file = os.path.join(folder, *it.name.split("/"))
        os.makedirs(os.path.dirname(file), exist_ok=True)
        with open(f"{file}.new", "wb") as new:
            for said in left.bytes_of(it):
                new.write(said)
        os.replace(f"{file}.new", file)
        print(file, flush=True)
    return 0


def show_usage(desk: calls.Desk, options: argparse.Namespace) -> int:
    """Shows who used, or what was used, since a moment; the most hours first."""
    since = options.since
    past = history.past_of(desk)
    lines = list(past.rows())
    holds = past.holds()
    if holds is None:
        tell("holds of people aren't counted: farm-watch keeps none here")
    rows = history.uses_of([*lines, *(holds or ())], since, options.by)
    said = {"by": options.by, "since": since, "until": int(time.time()), "usage": rows}
    first: tables.Column = (options.by.upper(), operator.itemgetter("name"))
    return views.show(options, said, rows, [first, *USAGE])


def moment_of(text: str) -> int:
    """The moment that a text names: `30d`, `12h`, `90m` or `2w` ago, or a date's begin."""
    span = limits.short_time_of(text, "mhdw")
    if span is not None:
        return int(time.time() - span)
    try:
        return int(time.mktime(time.strptime(text, "%Y-%m-%d")))
    except (ValueError, OverflowError) as fault:
        told = f"{text} is neither like 30d or 12h nor like 2026-11-30"
        raise argparse.ArgumentTypeError(told) from fault


def waited(seconds: Optional[int]) -> str:
    return "-" if seconds is None else tables.span(seconds)


USAGE = [
    *tables.of("jobs", *(it.lower() for it in history.OUTCOMES)),
    ("HOURS", lambda it: f"{it['hours']:.1f}"),
    *tables.of("holds"),
    ("HELD", lambda it: f"{it['held']:.1f}"),
    ("WAITED", lambda it: waited(it["waited_median"])),
    ("NINTH", lambda it: waited(it["waited_ninth"])),
]
