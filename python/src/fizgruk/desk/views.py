"""The desk's views, as lines of text or as JSON: boards, types, reservations, and the queue."""
import argparse
import itertools
import json
import shutil
import sys
import threading
import time
from typing import Any, Dict, Iterable, List, Optional, Sequence, Tuple

from fizgruk import calls, history, job_file, notes, present, records, settings, submissions, wants
from fizgruk._tools import tables, terminal
from fizgruk.desk import FAULT, REFUSED, tell
from fizgruk.errors import BadSettings, FizgrukError, Refused, Unreachable

BY_NAME = "name="
LAST = 50  # rows that are shown where nothing else is asked for
Row = Dict[str, Any]


def show(
    options: argparse.Namespace, said: Row, rows: Sequence[Row], columns: Sequence[tables.Column],
) -> int:
    """Prints what the desk answered, or its rows as lines, at a terminal as wide as that."""
    if options.json:
        print_json(said)
    else:
        is_wide = options.wide or not sys.stdout.isatty()
        print("\n".join(tables.lines_of(rows, columns, 0 if is_wide else shutil.get_terminal_size().columns)))
    return 0


def print_json(said: Row) -> None:
    print(json.dumps(said, ensure_ascii=False, separators=(",", ":")), flush=True)


def answer(options: argparse.Namespace, said: Row, *lines: object) -> int:
    """Prints what the desk answered, or these lines."""
    if options.json:
        print_json(said)
    else:
        print("".join(f"{it}\n" for it in lines), end="", flush=True)
    return 0


def print_bytes(pieces: Iterable[bytes], is_plain: bool) -> None:
    """Prints bytes as they come; plain ones without what a terminal takes for a command."""
    plain = terminal.Plain()
    for said in pieces:
        if is_plain:
            print(plain.of(said), end="", flush=True)
        else:
            sys.stdout.buffer.write(said)
            sys.stdout.buffer.flush()
    print(plain.end(), end="", flush=True)


def bytes_of(file: str) -> bytes:
    """What is in a file, or comes as the input where that is `-`."""
    if file == "-":
        if sys.stdin is None:
            raise BadSettings("there is no input: it is closed")
        return sys.stdin.buffer.read()
    with open(file, "rb") as opened:
        return opened.read()


# ---- boards


def show_boards(desk: calls.Desk, options: argparse.Namespace) -> int:
    """Shows the boards that the words choose; of those that are named, who has them and what is noted."""
    lab = wants.Claims(desk).lab
    rows, named, strange = chosen_of(lab.boards, options.words)
    if strange:
        return tell.told(REFUSED, strange)
    if options.free:
        rows = [it for it in rows if not lab.state(it)]
    if not named or not rows:
        return show(options, {"boards": rows}, rows, tables.BOARDS)
    found = notes.notes_of(desk)
    noted = {it["name"]: found.of(it["name"]) for it in rows if found.of(it["name"])}
    if options.json:
        print_json({"boards": rows, **({"notes": noted} if noted else {})})
    else:
        facts = [{**facts_of(lab, it), **found.of(it["name"])} for it in rows]
        print("\n".join(map(tables.facts_of, facts)), end="", flush=True)
    if found.fault:
        tell(f"notes of boards: {found.fault}")
    return 0


def chosen_of(boards: Sequence[Row], words: Sequence[str]) -> Tuple[List[Row], bool, str]:
    """The boards that have all of these tags, are of the type, and among those that are named; whether some are
    named; and what is told of words that are no board's. A tag goes before a type, and a type before a name."""
    names, kinds = {it["name"] for it in boards}, {it["type"] for it in boards}
    own = {tag for it in boards for tag in it["tags"]}.intersection(words)
    kinds = kinds.intersection(words) - own
    named = {it[len(BY_NAME) :] if it.startswith(BY_NAME) else it for it in set(words) - own - kinds}
    strange = " ".join(sorted(named - names))
    rows = [
        it for it in boards
        if own <= {*it["tags"]} and kinds <= {it["type"]} and (not named or it["name"] in named)
    ]
    return rows, bool(named), f"no board has the tag, the type or the name {strange}" if strange else ""


def facts_of(lab: wants.Lab, board: Row) -> Row:
    """What is to be said of one board."""
    checked = tables.moment(board["last_check"]) if board["last_check"] else ""
    silence = lab.silence([board])
    return {
        **{it: board[it] for it in ("name", "type", "health", "state")},
        "holder": holder_of(lab, board), "checked": checked, "tags": board["tags"],
        **({"worker": silence} if silence else {}),
    }


def holder_of(lab: wants.Lab, board: Row) -> str:
    """Who has a board, by what, and since when: `ann, reservation 4, 12 minutes`."""
    kind, _, number = board["holder"].partition(" ")
    if not number:
        return ""
    assert lab.now
    row = lab.now.row_of(present.JOBS if kind == "job" else present.HOLDS, int(number), board["name"])
    parts = [lab.owner(board["holder"]), board["holder"]]
    if kind == "job" and row.get("began"):
        parts.append(present.lasting(row))
    elif "since" in row:
        parts.append(present.ago(time.time() - row["since"]))
    return ", ".join(parts)


# ---- types and reservations


def show_types(desk: calls.Desk, options: argparse.Namespace) -> int:
    said = desk.look("/types")
    return show(options, said, said["types"], tables.TYPES)


def show_reservations(desk: calls.Desk, options: argparse.Namespace) -> int:
    rows = desk.look("/reservations")["reservations"]
    if not options.all:
        rows = [it for it in rows if it["state"] not in tables.ENDED]
    if options.mine:
        rows = [it for it in rows if it["owner"] == desk.user]
    return show(options, {"reservations": rows}, rows, tables.RESERVATIONS)


# ---- the queue


def show_queue(desk: calls.Desk, options: argparse.Namespace) -> int:
    """Shows the queue, or the claims of it that are asked for. Each job that is shown and that the dispatcher doesn't
    tell of is asked for, a call a job, so that no more claims are shown than there is time for."""
    claims = wants.Claims(desk)
    said = claims.desk.look("/queue")
    queue: List[Row] = [{**it, "place": place} for place, it in enumerate(said["queue"], 1)]
    if options.mine:
        queue = [it for it in queue if it["owner"] == desk.user]
    most = options.limit or (len(queue) if options.json else LAST)
    fitting = (it for it in queue if not options.type or options.type in claims.kinds(it))
    found = list(itertools.islice(fitting, most))
    if options.type and not found and options.type not in {it["name"] for it in desk.look("/types")["types"]}:
        return tell.told(REFUSED, f"there is no type {options.type}")
    if options.json:
        places = {it["place"] for it in found}
        rows = [it for place, it in enumerate(said["queue"], 1) if place in places]
        print_json({**said, "queue": rows})
        return 0
    moments = moments_of(desk) if found else []
    reasons = claims.reasons(found)
    rows = [{**row_of(claims, it, moments), "reason": reasons.get(it["number"], "")} for it in found]
    show(options, said, rows, tables.QUEUE)
    options.clock.note_shown(claims.status, False)
    if next(fitting, None):
        tell(f"more wait than these {most}: --limit")
    return 0


def row_of(claims: wants.Claims, claim: Row, moments: submissions.Looks) -> Row:
    since = submissions.moment_in(moments, claim["number"])
    members = claims.members(claim)
    is_known = claim["kind"] == "group" and claims.is_known(claim)
    return {
        **claim,
        "type": " ".join(claims.kinds(claim)),
        "waited": "-" if since is None else tables.span(max(0, int(time.time()) - since)),
        "name": claims.groups[claim["number"]]["name"] if is_known else name_of(members[0]) if members else "",
    }


def name_of(view: Row) -> str:
    """The name of a job that hasn't ended, by its view."""
    return records.CHECK if view.get("kind") == "check" else job_file.name_of(view.get("text", ""))


# ---- the history


def moments_of(desk: calls.Desk) -> submissions.Looks:
    """When the last numbers were given, as far as it is known."""
    try:
        return history.past_of(desk).moments()
    except BadSettings:
        return []  # it has no history


PATIENCE = 2.0
LONGEST = 10.0  # seconds for which a lab's answer is waited for
NONE = "the settings have no labs: a section [lab NAME] for each"


class Asked:
    """One lab's boards, once they are known, or why they aren't."""

    def __init__(self, lab: str, config: Optional[str]):
        self.lab, self.config = lab, config
        self.boards: List[Dict[str, Any]] = []
        self.fault, self.status = f"no answer within {LONGEST:.0f} seconds", FAULT
        self.thread = threading.Thread(target=self._ask, daemon=True)
        self.thread.start()

    def _ask(self) -> None:
        try:
            own = settings.read_settings({"lab": self.lab, "config": self.config})
            desk = calls.Desk(own, PATIENCE)
            desk.timeout = min(desk.timeout, LONGEST)
            self.boards = calls.rows_of(desk, "boards")
            self.fault, self.status = "", 0
        except Refused as refusal:
            self.fault, self.status = f"refused: {refusal}", REFUSED
        except Unreachable as fault:
            self.fault = f"no answer from the desk at {fault}"
        except (FizgrukError, OSError) as fault:
            self.fault = str(fault)


def show_boards_of_labs(options: argparse.Namespace) -> int:
    """Shows the boards of all labs that have all of these tags. Returns the exit status, which says
    whether all have answered."""
    config = options.config
    names = settings.labs_of({"config": config})
    if not names:
        raise BadSettings(NONE)
    asked = [Asked(it, config) for it in names]
    for each in asked:
        each.thread.join(LONGEST + PATIENCE)
    everywhere = [{**it, "lab": each.lab} for each in asked for it in each.boards]
    rows, _, strange = chosen_of(everywhere, options.words)
    for each in asked if options.json else ():
        found = [{key: value for key, value in it.items() if key != "lab"} for it in rows if it["lab"] == each.lab]
        said: Dict[str, Any] = {"fault": each.fault} if each.fault else {"boards": found}
        print_json({"lab": each.lab, **said})
    if not options.json:
        show(options, {}, rows, [*tables.of("lab"), *tables.BOARDS])
    for each in asked:
        if each.fault:
            tell(f"lab {each.lab}: {each.fault}")
    status = max(it.status for it in asked)
    return tell.told(REFUSED, strange) if strange and not status else status
