"""When jobs were submitted. The desk doesn't say it, but its status has the number that is given
next: a job whose number was still to come at one look, and given at the next, was submitted between
the two."""
import bisect
import contextlib
import os
import time
from typing import Iterable, List, NamedTuple, Optional

from fizgruk._tools import disk

FILE = "numbers"
MOST = 20_000  # looks that are kept: as many as find a new number
SURE = 60  # seconds between two looks, at most: else it isn't known when a number was given


class NumberLook(NamedTuple):
    """A look at the desk that found new numbers: all below `next` were given by then, and after
    the moment `since` those that the look before didn't find; 0 where nobody knows."""

    next: int
    at: int
    since: int


Looks = List[NumberLook]  # the oldest first


class Submissions:
    """The looks at a desk's numbers, kept in a file over restarts."""

    def __init__(self, place: str):
        self.file = os.path.join(place, FILE)
        self.looks: List[NumberLook] = looks_in(self.file)
        self.since = 0
        self._trim()

    def note(self, following: int) -> bool:
        """Notes the number that is given next, as the desk says it now. Returns whether numbers
        that were given will be given again: the farm is another, or an earlier copy."""
        now = int(time.time())
        is_earlier = bool(self.looks) and following < self.looks[-1].next
        if is_earlier:
            self.looks, self.since = [it for it in self.looks if it.next <= following], 0
            self._write()
        if not self.looks or following > self.looks[-1].next:
            self.looks.append(NumberLook(following, now, self.since))
            self._append(self.looks[-1])
            self._trim()
        self.since = now
        return is_earlier

    def has_seen(self, number: int) -> bool:
        """Whether a look found that a number was given."""
        return bool(self.looks) and number < self.looks[-1].next

    def moment_of(self, number: int) -> Optional[int]:
        """When a number was given, or None where nobody looked then."""
        return moment_in(self.looks, number)

    def _trim(self) -> None:
        if len(self.looks) > MOST:
            self.looks = self.looks[-MOST // 2 :]
            self._write()

    def _append(self, look: NumberLook) -> None:
        with contextlib.suppress(OSError), open(self.file, "a", encoding="ascii") as file:
            file.write(_line_of(look))  # (else it is known until the next restart)

    def _write(self) -> None:
        with contextlib.suppress(OSError):
            disk.write_whole(self.file, "".join(map(_line_of, self.looks)))


def moment_in(looks: Looks, number: int) -> Optional[int]:
    """When a number was given by these looks, or None where nobody looked then."""
    place = bisect.bisect_right(looks, (number, float("inf"), 0))
    if place == len(looks):
        return None
    look = looks[place]
    return look.at if look.since and look.at - look.since <= SURE else None


def _line_of(look: NumberLook) -> str:
    return f"{look.next} {look.at} {look.since}\n"


def looks_in(file: str) -> Looks:
    """The looks that a file has; a line that a stop cut is passed over."""
    try:
        with open(file, encoding="ascii", errors="replace") as lines:
            return looks_of(lines)
    except OSError:
        return []


def looks_of(lines: Iterable[str]) -> Looks:
    """The looks of a file's lines, but for a line that was cut."""
    looks: Looks = []
    for line in lines:
        words = line.split()
        if line.endswith("\n") and len(words) == 3 and all(it.isdigit() for it in words):
            look = NumberLook(*map(int, words))
            if not looks or look.next > looks[-1].next:
                looks.append(look)
    return looks
