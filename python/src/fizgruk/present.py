"""What the dispatcher tells of the present, as the proxy serves it beside the desk or as it stands in its folder: the
jobs that run, since when people hold boards, what the queue's groups want, and which workers don't answer. Each file
may be missing, and what isn't as it should be in one is passed over."""
import os
import time
from typing import Any, Dict, Optional, Tuple

from fizgruk import calls, limits, records, words
from fizgruk._tools import disk
from fizgruk.errors import Refused, Unreachable

WORKERS = "workers.json"
HERE = "desk"  # the worker of a board whose tags name none
LONGEST = 4_000_000  # bytes, which none of these files has
Row = Dict[str, Any]


def _are_wants(told: object) -> bool:
    fields: records.Fields = {"type": records.is_text, "tags": records.are_names}
    return isinstance(told, list) and all(records.is_row(it, fields) for it in told)


# The lists of each file: in which it stands, by what its rows are found, and their fields.
JOBS = ("running.json", "jobs", "job", {
    "job": records.is_number, "owner": records.is_text, "board": records.is_text, "name": records.is_text,
    "began": records.is_number_if_known, "limit": records.is_number,
})
HOLDS = ("running.json", "holds", "reservation", {
    "board": records.is_text, "reservation": records.is_number, "since": records.is_number,
})
GROUPS = ("waiting.json", "groups", "group", {
    "group": records.is_number, "name": records.is_text, "submitted": records.is_number_if_known, "wants": _are_wants,
})
ALL_WORKERS = (WORKERS, "workers", "name", {
    "name": lambda told: isinstance(told, str) and words.NAMES.fullmatch(told) is not None,
    "answers": lambda told: isinstance(told, bool), "since": records.is_number,
})


def said_in(desk: calls.Looker, name: str, folder: Optional[str] = None) -> Row:
    """What a file of the dispatcher's says, in its folder on this machine or beside the desk; nothing where there is
    none."""
    place = folder or getattr(desk, "history", None)
    if place:
        return disk.object_in(os.path.join(os.path.expanduser(place), name), LONGEST)
    try:
        return desk.look(f"/{name}")
    except (Refused, Unreachable):
        return {}


class Present:
    """These files, each of which is read once."""

    def __init__(self, desk: calls.Looker, folder: Optional[str] = None) -> None:
        self.desk, self.folder = desk, folder
        self.said: Dict[str, Row] = {}
        self.found: Dict[Tuple[str, str], Dict[Any, Row]] = {}

    def rows(self, of: Any) -> Dict[Any, Row]:
        """The rows of a list, by what they are found by."""
        file, name, key, fields = of
        if file not in self.said:
            self.said[file] = said_in(self.desk, file, self.folder)
        if (file, name) not in self.found:
            rows = self.said[file].get(name)
            good = [it for it in rows if records.is_row(it, fields)] if isinstance(rows, list) else []
            self.found[file, name] = {it[key]: it for it in good}
        return self.found[file, name]

    def row_of(self, of: Any, number: int, board: str) -> Row:
        """The row of a job or a reservation that has this board; nothing where it has another one: that is another
        farm's."""
        row = self.rows(of).get(number, {})
        return row if row.get("board") == board else {}

    def silent(self) -> Dict[str, str]:
        """What is told of each worker that doesn't answer."""
        now = time.time()
        return {
            name: f"worker {name} has not answered for {ago(now - it['since'])}"
            for name, it in self.rows(ALL_WORKERS).items() if not it["answers"]
        }


def ago(seconds: float) -> str:
    """A span in words as the page has it, which change once a minute at most: `90 minutes`."""
    for unit, length in limits.UNITS.items():
        if unit != "seconds" and seconds >= 2 * length:
            return f"{int(seconds // length)} {unit}"
    return "1 minute" if seconds >= 60 else "less than a minute"


def lasting(job: Row) -> str:
    """For how long a job runs, and how long it may: `6 minutes of 60 at most`."""
    gone, most = ago(time.time() - job["began"]), ago(job["limit"])
    number, unit = most.split(maxsplit=1)
    return f"{gone} of {number if gone.endswith(unit) else most} at most"


def worker_of(board: Row) -> str:
    """The worker of a board, which its tag `worker=NAME` names."""
    return next((it[7:] for it in board["tags"] if it.startswith("worker=")), HERE)
