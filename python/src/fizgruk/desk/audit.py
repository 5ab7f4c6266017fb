"""Who did what with a board: the lines that the site writes of each accepted command."""
import argparse
import collections
import functools
import itertools
import re
from typing import Any, Callable, Deque, Dict, Iterator, List, Optional

from fizgruk import calls
from fizgruk._tools import disk, tables
from fizgruk.desk import views

FILE = "/var/log/farm/audit.log"
LAST = 50
LONGEST = 262_144  # bytes of a line
MOST_LOOKS = 2_000  # at jobs, which the desk is asked for one by one
NUMBERED = re.compile(r"[A-Z]+ /(jobs|reservations)/([1-9][0-9]{0,8})/")
NUMBER = re.compile("[1-9][0-9]{0,8}")
MADE = {"POST /jobs": "jobs", "POST /reservations": "reservations"}
COLUMNS: List[tables.Column] = [
    ("AT", lambda it: it["at"]),
    ("LOGIN", lambda it: it["login"]),
    ("FROM", lambda it: it["from"]),
    ("COMMAND", lambda it: tables.printable(it["command"])),
    ("BODY", lambda it: tables.printable(it["body"])),
    ("ANSWER", lambda it: tables.printable(number_in(it) or "-")),
]
Row = Dict[str, Any]


def show_audit(desk: calls.Desk, options: argparse.Namespace) -> int:
    """Shows the last accepted commands that concern a board, the newest last."""
    board_of = boards_of(desk)
    found: Deque[Row] = collections.deque(maxlen=options.last or LAST)
    for row in rows_in(options.file or FILE):
        if is_about(row, options.board, board_of):
            found.append(row)
    rows = list(found)
    return views.show(options, {"audit": rows}, rows, COLUMNS)


def rows_in(file: str) -> Iterator[Row]:
    """The lines of a file of the site's; what is none of these is passed over."""
    with open(disk.opened_file(file), "rb") as lines:
        for line in iter(lambda: lines.readline(LONGEST), b""):
            row = row_of(line)
            if row is not None:
                yield row


def row_of(line: bytes) -> Optional[Row]:
    """A line's row. Its command is as it was asked, of which what stands behind a `?` counts for nothing."""
    said = disk.object_of(line)
    names = ("at", "login", "from", "command", "body")
    if not all(isinstance(said.get(it), str) for it in names):
        return None
    return {**said, "command": said["command"].partition("?")[0]}


def is_about(row: Row, board: str, board_of: Callable[[str, int], str]) -> bool:
    """Whether a command concerns a board: by its path, by its body, or by what it is a command to, or made."""
    if f"{row['command']}/".partition(" /boards/")[2].partition("/")[0] == board:
        return True
    numbered = NUMBERED.match(row["command"])
    if numbered:
        return board_of(numbered.group(1), int(numbered.group(2))) == board
    made, number = MADE.get(row["command"]), number_in(row)
    if made and number and board_of(made, int(number)) == board:
        return True
    return _names(row["body"], board)


def number_in(row: Row) -> str:
    """The number of the job or the reservation that a command was answered, where the line has it."""
    number = row.get("number")
    return number if isinstance(number, str) and NUMBER.fullmatch(number) else ""


def _names(body: str, board: str) -> bool:
    """Whether a body asks for a board, or adds it."""
    said = disk.object_of(body)
    tags = said.get("tags")
    return said.get("name") == board or isinstance(tags, list) and f"name={board}" in tags


def boards_of(desk: calls.Desk) -> Callable[[str, int], str]:
    """What says which board a job or a reservation has or had, as the desk does."""
    looks = itertools.count()

    @functools.lru_cache(maxsize=None)
    def reserved() -> Dict[int, str]:
        return {it["number"]: it["board"] for it in desk.look("/reservations")["reservations"]}

    @functools.lru_cache(maxsize=None)
    def board_of(kind: str, number: int) -> str:
        if kind == "reservations":
            return reserved().get(number, "")
        job = calls.job_of(desk, number) if next(looks) < MOST_LOOKS else None
        return str(job["board"]) if job else ""  # (another farm's)

    return board_of
