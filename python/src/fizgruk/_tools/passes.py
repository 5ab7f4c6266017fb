"""How many passes the dispatcher asked for, and when it asked for the last: passes.json in its
folder, which it writes and farm-metrics reads."""
import contextlib
import dataclasses
import json
import os
import time

from fizgruk._tools import disk

FILE = "passes.json"
LONGEST_FILE = 4096


@dataclasses.dataclass(frozen=True)
class Passes:
    """Passes that the desk acknowledged: how many, over the lives of all dispatchers on a folder,
    and when the last was, in seconds since 1970."""

    count: int
    at: float


class Counter:
    """The count in a dispatcher's folder."""

    def __init__(self, place: str):
        self.file = os.path.join(place, FILE)
        try:
            self.count = passes_in(self.file).count
        except (OSError, ValueError):
            self.count = 0  # there is none yet, or the machine stopped while it was written

    def add(self) -> None:
        """Counts a pass. Where there is no room for the file the next one writes both."""
        self.count += 1
        said = {"count": self.count, "at": round(time.time(), 3)}
        with contextlib.suppress(OSError):
            disk.write_whole(self.file, f"{json.dumps(said)}\n")


def passes_in(file: str) -> Passes:
    """What a file says. Raises ValueError where it isn't one of these."""
    text = disk.text_in(file, LONGEST_FILE)
    if text is None:
        raise FileNotFoundError(file)
    count, at = map(disk.object_of(text).get, ("count", "at"))
    if type(count) is int and isinstance(at, (int, float)) and 0 <= count < 2**63 and 0 <= at < 2**63:
        return Passes(count, float(at))
    raise ValueError(f"{file} has no count of passes")
