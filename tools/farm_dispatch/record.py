"""What is kept here of a group that isn't settled.

Its record is a file in DIR/open, whose name is the number of the group's first job.

It has the group's `unit`, its `worker`, the `life` of that machine in which it is begun, and `about`, what its history
says of it. Then, one after another: `started` (the desk knows it as this unit's), `began` (when its command did), `ended`
(how) and `ended_at`, `told` (the desk knows that), `kept` (what it left in `out`), and `written` (in the history).

Its log is as the site serves it: a beginning of what its command said, with lines of the dispatcher's before and behind. Of
more than the limit the head and the tail are kept, and what was cut is told between them.

So that an end can be noted, the file DIR/reserve holds room, and is given up where the disk is full."""
import contextlib
import errno
import json
import os
from typing import Any, Callable, Dict, Iterator, List, Set

from fizgruk._tools import disk

OPEN, RESERVE, LOGS = "open", "reserve", "logs"
SIZE = 4_194_304
NO_ROOM = (errno.ENOSPC, errno.EDQUOT)
TAIL = 1_048_576  # bytes at most of the tail
SHORT = 65_536  # of these where the disk was full
CUT = "{:,} bytes of the log aren't kept: {}"
FULL, LIMITED = "the disk was full", "a log's limit is {:,} bytes"


class Record(Dict[str, Any]):
    """A group's record, which says nothing where nothing is known."""

    def __init__(self, place: str, number: int):
        super().__init__()
        self.place, self.number = place, number
        self.file = os.path.join(place, OPEN, str(number))
        found = disk.object_in(self.file)
        with contextlib.suppress(KeyError, TypeError):  # (one that is damaged is found again by its unit)
            if all(isinstance(found[it], str) for it in ("unit", "worker", "life")) and found["about"]["members"]:
                self.update(found)

    def note(self, **more: Any) -> None:
        """Notes more of it. Where the disk is full this takes the room of the reserve."""
        text = json.dumps({**self, **more})
        with_room(self.place, lambda: disk.write_synced(self.file, text))
        self.update(more)

    def drop(self) -> None:
        """Takes it off the disk. (What it says stays: another thread may be reading it.)"""
        if os.path.lexists(self.file):
            os.unlink(self.file)
            disk.sync_folder(os.path.dirname(self.file))

    def add_to_log(self, *lines: str) -> None:
        with open(os.path.join(self.place, LOGS, str(self.number)), "ab") as log:
            log.write("".join(map(line_of, lines)).encode(errors="replace"))

    @property
    def unit(self) -> str:
        return str(self["unit"])

    @property
    def members(self) -> List[int]:
        return [it["job"] for it in self["about"]["members"]]

    @property
    def boards(self) -> Set[str]:
        """The boards on which something of it may live."""
        lives = self.get("started") and not self.get("ended")
        return {it["board"] for it in self["about"]["members"]} if lives else set()


def records_in(place: str) -> Dict[int, Record]:
    """The groups that aren't settled, by their numbers."""
    folder = os.path.join(place, OPEN)
    os.makedirs(folder, mode=0o750, exist_ok=True)
    found = {int(it): Record(place, int(it)) for it in os.listdir(folder) if it.isdigit()}
    return {number: it for number, it in found.items() if it}


def keep_reserve(place: str) -> None:
    """Makes the reserve of a dispatcher's folder, where there is none and room for it."""
    file = os.path.join(place, RESERVE)
    with contextlib.suppress(OSError):
        about = os.statvfs(place)
        if not os.path.exists(file) and about.f_bavail * about.f_frsize >= 2 * SIZE:
            with open(file, "xb") as new:
                os.posix_fallocate(new.fileno(), 0, SIZE)


def with_room(place: str, call: Callable[[], Any]) -> Any:
    """Does what writes to the disk, and once more without the reserve where that is full."""
    try:
        return call()
    except OSError as fault:
        reserve = os.path.join(place, RESERVE)
        if fault.errno not in NO_ROOM or not os.path.lexists(reserve):
            raise
        os.unlink(reserve)
        return call()


# ---- its log


def line_of(text: str) -> str:
    """A line that the dispatcher adds to a job's log."""
    return f"farm-dispatch: {text}\n"


class Log:
    """A group's log, with so many bytes of the dispatcher's own lines before what the command said."""

    def __init__(self, record: Record, limit: int):
        self.place, self.file = record.place, os.path.join(record.place, LOGS, str(record.number))
        self.limit, self.tail, self.own = limit, min(TAIL, limit // 2), int(record.get("own") or 0)

    def has(self) -> int:
        """The bytes of what the command said that are here."""
        return max(0, os.path.getsize(self.file) - self.own) if os.path.exists(self.file) else 0

    def fetch(self, size: int, asked: Callable[[int], bytes]) -> None:
        """Takes up what the command said until now, so many bytes, as far as the head goes."""
        most = size if size <= self.limit else self.limit - self.tail
        with _if_there_is_room():
            while self.has() < most:
                at = self.has()
                said = asked(at)[: most - at]
                if not said:
                    return
                self._add(said, at)

    def close(self, size: int, asked: Callable[[int], bytes], remark: str) -> None:
        """Adds the tail, and a remark, once the command has ended. Done again it is the same."""
        is_long = size > self.limit
        begin = min(size, self.has(), self.limit - self.tail if is_long else size)
        keep = min(size - begin, self.tail if is_long else SHORT)
        cut, text = size - keep - begin, b""
        if cut:
            text = b"\n" + line_of(CUT.format(cut, LIMITED.format(self.limit) if is_long else FULL)).encode()
        if keep:
            text += asked(size - keep)[:keep]
        if remark:
            text += line_of(remark).encode(errors="replace")
        with _if_there_is_room():
            with_room(self.place, lambda: self._add(text, begin))

    def _add(self, said: bytes, at: int) -> None:
        """Puts bytes behind so many that the command said."""
        flags = os.O_RDWR | os.O_CREAT | os.O_NOFOLLOW | os.O_CLOEXEC
        with open(os.open(self.file, flags, disk.READABLE), "r+b", buffering=0) as log:
            log.truncate(self.own + at)
            log.seek(self.own + at)
            while said:
                said = said[log.write(said) or 0 :]


@contextlib.contextmanager
def _if_there_is_room() -> Iterator[None]:
    """On a full disk a job goes on without its log."""
    try:
        yield
    except OSError as fault:
        if fault.errno not in NO_ROOM:
            raise
