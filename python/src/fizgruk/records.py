"""What the dispatcher keeps of the past: history.jsonl, a line for each job that ended and each
change of a board's health that was seen, and history.json, which has the newest of both.

Lines are whole and are never changed. A stop in the middle of one leaves a part of it, which is cut
off before the next is written.
"""
import collections
import json
import os
import time
from typing import Any, Callable, Deque, Dict, Iterable, List, NamedTuple, Optional, Set, Tuple

from fizgruk._tools import disk

LINES, NEWEST, HEALTHS = "history.jsonl", "history.json", "healths.json"
HOLDS = "holds.jsonl"  # of farm-watch, as the site serves it, and as it stands beside the dispatcher's folder
OF_HOLDS = "farm-watch/shown/holds.jsonl"
MOST_SHOWN = 200
CHECK = "health check"  # the name of a job that the desk makes itself
BY_ADMIN = "by the admin"
BLOCK = 65536
ALL_HEALTHS = ("Good", "Unknown", "Maintenance")


def is_text(told: object) -> bool:
    return isinstance(told, str)


def is_number(told: object) -> bool:
    return isinstance(told, int) and not isinstance(told, bool) and 0 <= told < 2**63


def is_number_if_known(told: object) -> bool:
    return told is None or is_number(told)


def are_names(told: object) -> bool:
    return isinstance(told, list) and all(map(is_text, told))


Fields = Dict[str, Callable[[object], bool]]  # the fields of a row, and what each of them is
# The kinds of lines, each with its fields.
FIELDS: Dict[str, Fields] = {
    "job": {
        "job": is_number, "group": is_number, "owner": is_text, "boards": are_names,
        "type": is_text, "name": is_text, "submitted": is_number_if_known, "began": is_number,
        "ended": is_number, "outcome": is_text, "reason": is_text,
    },
    "health": {
        "board": is_text, "from": is_text, "to": is_text, "at": is_number, "reason": is_text,
    },
    "hold": {  # of farm-watch
        "key": is_text, "reservation": is_number, "owner": is_text, "board": is_text,
        "type": is_text, "began": is_number, "ended": is_number, "reason": is_text,
    },
}


class Effect(NamedTuple):
    """What a job's end does to its board: a board of one of these healths gets this one."""

    of: Tuple[str, ...]
    health: str
    reason: str


class History:
    """The history in a dispatcher's folder."""

    def __init__(self, place: str, wanted: Set[int]):
        """`wanted` are the groups of which it has to be known whether they have their lines."""
        self.lines = os.path.join(place, LINES)
        self.newest = os.path.join(place, NEWEST)
        self.known = os.path.join(place, HEALTHS)
        self.jobs: Deque[Dict[str, Any]] = collections.deque(maxlen=MOST_SHOWN)
        self.boards: Deque[Dict[str, Any]] = collections.deque(maxlen=MOST_SHOWN)
        # of groups that aren't settled: when each member began that has its line
        self.written: Dict[int, Dict[int, int]] = {}
        self.effects: Dict[str, Effect] = {}  # of jobs that ended, until the health is seen
        self.healths: Dict[str, str] = disk.object_in(self.known)  # as they were seen last
        self.is_shown = False
        append(self.lines, [])
        for row in rows_of(self.lines):
            self._take(row)
            if row["kind"] == "job" and row["group"] in wanted:
                self._note_written(row)
        self.show()

    def add_jobs(self, rows: List[Dict[str, Any]]) -> None:
        """Adds the lines of jobs that ended, of those that have none yet."""
        new = [it for it in rows if self.written.get(it["group"], {}).get(it["job"]) != it["began"]]
        self._add(new)
        for row in new:
            self._note_written(row)

    def _note_written(self, row: Dict[str, Any]) -> None:
        self.written.setdefault(row["group"], {})[row["job"]] = row["began"]

    def settle(self, group: int) -> None:
        """This group has its lines, which are never added again."""
        self.written.pop(group, None)

    def see(self, boards: List[Dict[str, Any]]) -> None:
        """Adds a line for each of these boards whose health isn't what it was when it was seen
        before."""
        now = {it["name"]: it["health"] for it in boards}
        changed = {name: it for name, it in now.items() if it != self.healths.get(name)}
        if not changed:
            return
        at = int(time.time())
        rows = []
        for name, health in changed.items():
            before = self.healths.get(name)
            if before is not None:
                reason = self._reason(name, before, health)
                row = {"kind": "health", "board": name, "from": before, "to": health, "at": at}
                rows.append({**row, "reason": reason})
        self._add(rows)
        self.healths.update(changed)
        _write(self.known, self.healths)

    def show(self) -> None:
        """Writes the newest lines anew."""
        newest = {
            "at": int(time.time()),
            "jobs": list(reversed(self.jobs)),
            "boards": list(reversed(self.boards)),
        }
        self.is_shown = _write(self.newest, newest)

    def _add(self, rows: List[Dict[str, Any]]) -> None:
        if rows:
            append(self.lines, rows)
            for row in rows:
                self._take(row)
            self.show()

    def _take(self, row: Dict[str, Any]) -> None:
        """Takes a line into what is known."""
        if row["kind"] == "health":
            self.boards.append(row)
            self.healths[row["board"]] = row["to"]
            self.effects.pop(row["board"], None)
            return
        self.jobs.append(row)
        effect = effect_of(row)
        for board in row["boards"]:
            if effect:
                self.effects[board] = effect
            else:
                self.effects.pop(board, None)

    def _reason(self, board: str, before: str, health: str) -> str:
        """Why a board's health changed. What no job's end did the admin did."""
        effect = self.effects.get(board)
        if effect and before in effect.of and health == effect.health:
            return effect.reason
        return BY_ADMIN


def boards_of(row: Dict[str, Any]) -> List[str]:
    """The boards that a line is about."""
    return list(row["boards"]) if row["kind"] == "job" else [row["board"]]


def is_check(row: Dict[str, Any]) -> bool:
    """Whether a job's line is of a health check."""
    return (row["name"], row["owner"]) == (CHECK, "admin")


def effect_of(row: Dict[str, Any]) -> Optional[Effect]:
    """What a job's end does to its board's health: the desk's rules (MACHINE.md, Change)."""
    if row["outcome"] == "Canceled":
        return None
    if is_check(row):
        health = "Good" if row["outcome"] == "Complete" else "Bad"
        reason = f"{CHECK} {row['job']} ended {row['outcome']}"
        return Effect(("Good", "Unknown"), health, reason)
    if row["outcome"] == "Infra":
        return Effect(("Good",), "Unknown", f"job {row['job']} ended Infra")
    return None


def rows_of(file: str, last: int = 0) -> Iterable[Dict[str, Any]]:
    """The lines of a history, or those of its last so many bytes, from the oldest on; what is none
    is passed over."""
    try:
        with open(file, "rb") as lines:
            if last:
                lines.seek(max(0, os.fstat(lines.fileno()).st_size - last))
            for line in lines:
                row = row_of(line)
                if row is not None:
                    yield row
    except FileNotFoundError:
        return


def row_of(line: bytes) -> Optional[Dict[str, Any]]:
    """What a line of a history says, or None where it isn't one: where it lacks a field, or has one
    that isn't of its kind."""
    row = disk.object_of(line)
    wanted = FIELDS.get(str(row.get("kind")), {})
    return row if wanted and is_row(row, wanted) else None


def is_row(row: Any, fields: Fields) -> bool:
    """Whether it is an object that has these fields, each of its kind."""
    return isinstance(row, dict) and all(name in row and is_so(row[name]) for name, is_so in fields.items())


def append(file: str, rows: List[Dict[str, Any]]) -> None:
    """Adds lines to a history, all of them or none, behind its last whole one, and waits until they
    are on the disk."""
    text = "".join(f"{json.dumps(it, ensure_ascii=False, separators=(',', ':'))}\n" for it in rows)
    left = text.encode(errors="replace")
    is_new = not os.path.exists(file)
    with open(file, "ab+", buffering=0) as lines:
        opened = lines.fileno()
        os.fchmod(opened, disk.READABLE)
        size = _mended(opened)
        try:
            while left:
                left = left[os.write(opened, left) :]
            os.fsync(opened)
        except OSError:
            os.ftruncate(opened, size)
            raise
    if is_new:
        disk.sync_folder(os.path.dirname(file))


def _mended(opened: int) -> int:
    """Ends the last line of a history, where it is whole, or cuts it off, where a stop left a part
    of it. Returns the file's size."""
    size = end = os.fstat(opened).st_size
    tail = b""
    while end and b"\n" not in tail:
        begin = max(0, end - BLOCK)
        tail = os.pread(opened, end - begin, begin) + tail
        end = begin
    last = tail.rpartition(b"\n")[2]
    if not last:
        return size
    if row_of(last) is not None:
        os.write(opened, b"\n")
        return size + 1
    os.ftruncate(opened, size - len(last))
    return size - len(last)


def _write(file: str, said: object) -> bool:
    """Writes a file whole or not at all. Returns whether there was room for it."""
    text = json.dumps(said, ensure_ascii=False, separators=(",", ":"))
    try:
        disk.write_whole(file, f"{text}\n")
        return True
    except OSError:
        return False
