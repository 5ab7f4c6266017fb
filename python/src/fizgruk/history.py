"""The history that farm-dispatch keeps, as the proxy serves it beside the desk, or as it stands in
the dispatcher's folder."""
import collections
import contextlib
import os
from typing import Dict, Iterable, Iterator, List, Optional, Type, Union

from fizgruk import artifacts, calls, records, submissions
from fizgruk._tools import disk
from fizgruk.calls import Row
from fizgruk.errors import BadSettings, Code, FizgrukError, NoArtifact, NoLog, NoText, Refused, Unreachable
from fizgruk.waiting import Wait

NONE_SERVED = (
    "{} serves no history: ask through the proxy (examples/nginx.conf), or on the dispatcher's "
    "machine with --history FOLDER"
)

# In so many bytes of a history's end the newest jobs are looked for, before all of it is read; and in so many more than
# the newest.
TAIL, LONG_TAIL = 500_000, 4_000_000
NUMBERS = 65_536  # bytes of the last lines of when numbers were given, some 2,000
BY = ("owner", "board", "type")
OUTCOMES = ("Complete", "Incomplete", "Infra", "Canceled")


class Folder:
    """A dispatcher's folder, or a file of its lines, in the place of a desk beside which these files are served."""

    def __init__(self, place: str):
        lines = place if os.path.isfile(place) else os.path.join(place, records.LINES)
        self.server, self.folder = place, os.path.dirname(lines)
        holds = os.path.join(os.path.dirname(self.folder), records.OF_HOLDS)  # as farm-watch keeps them beside it
        self.elsewhere = {f"/{records.LINES}": os.path.realpath(lines), f"/{records.HOLDS}": holds}
        if not os.path.isfile(lines):
            raise BadSettings(f"{place} has no history: {lines} isn't there")

    def stream(self, path: str, begin: int = 0) -> Iterator[bytes]:
        """The bytes of a file from one on, or the last ones where that is below 0."""
        try:
            opened = disk.opened_file(self.elsewhere.get(path) or os.path.join(self.folder, path[1:]))
        except FileNotFoundError as fault:
            raise Refused(calls.NOT_FOUND, 0, "no such file") from fault
        with open(opened, "rb") as file:
            file.seek(begin if begin >= 0 else max(0, os.fstat(opened).st_size + begin))
            yield from iter(lambda: file.read(calls.BLOCK), b"")


class Past:
    """The history that stands beside a desk, or in a folder, of which all is read."""

    def __init__(self, source: Union[calls.Desk, Folder]):
        self.source = source

    def newest(self) -> List[Row]:
        """The lines of the newest jobs, the newest first."""
        if isinstance(self.source, calls.Desk):
            with self._told():
                jobs: List[Row] = self.source.look(f"/{records.NEWEST}")["jobs"]
                return jobs
        for last in (TAIL, 0):
            rows = self._lines(records.LINES, last)
            found = collections.deque((it for it in rows if it["kind"] == "job"), records.MOST_SHOWN)
            if len(found) == records.MOST_SHOWN:
                break
        return list(found)[::-1]

    def jobs(self, count: int, owner: Optional[str] = None) -> List[Row]:
        """The lines of the last jobs that ended, of one owner where that is named, the newest first."""
        newest = self.newest()
        found = [it for it in newest if owner in (None, it["owner"])]
        if len(found) < count and len(newest) >= records.MOST_SHOWN:
            found = [it for it in self.many_jobs() if owner in (None, it["owner"])][::-1]
        return found[:count]

    def many_jobs(self) -> Iterator[Row]:
        """The lines of jobs among the last of the history, many more than the newest, the oldest first."""
        return (it for it in self.rows(LONG_TAIL) if it["kind"] == "job")

    def of_board(self, board: str, count: int) -> List[Row]:
        """The last lines that are about a board, the newest first."""
        return [it for it in self.rows() if board in records.boards_of(it)][::-1][:count]

    def rows(self, last: int = 0) -> Iterator[Row]:
        """All lines, or those of the last so many bytes that are served, the oldest first."""
        if isinstance(self.source, calls.Desk):
            self.source.look("/status")  # (a desk that gives no answer at first is waited for)
        with self._told():
            yield from self._lines(records.LINES, last if isinstance(self.source, calls.Desk) else 0)

    def _lines(self, name: str, last: int) -> Iterator[Row]:
        """The rows of a file's lines; what is none is passed over."""
        rest = b""
        for said in self.source.stream(f"/{name}", -last):
            *lines, rest = (rest + said).split(b"\n")
            yield from (row for row in map(records.row_of, lines) if row is not None)
        row = records.row_of(rest)
        if row is not None:
            yield row

    def log(self, number: int, begin: int) -> Iterator[bytes]:
        """What a job's log has, from a byte on."""
        with self._told(NoLog):
            yield from self.source.stream(f"/logs/{number}", begin)

    def holds(self) -> Optional[List[Row]]:
        """The lines of people's holds that ended, the oldest first; None where none are kept."""
        try:
            return [it for it in self._lines(records.HOLDS, 0) if it["kind"] == "hold"]
        except Refused as refusal:
            if refusal.status != calls.NOT_FOUND:
                raise
            return None

    def artifact(self, group: int, name: str) -> Iterator[bytes]:
        """The bytes of a file that is kept of a group, by its name there. Raises NoArtifact."""
        with self._told(NoArtifact):
            yield from self.source.stream(f"/{artifacts.FOLDER}/{group}/{name}")

    def moments(self) -> submissions.Looks:
        """When numbers were given, as far as it is known and served."""
        begin = -NUMBERS if isinstance(self.source, calls.Desk) else 0
        try:
            said = b"".join(self.source.stream(f"/{submissions.FILE}", begin))
        except (Refused, Unreachable, OSError):
            return []
        lines = said.decode(errors="replace").splitlines(keepends=True)
        return submissions.looks_of(lines[1:] if begin and len(said) >= NUMBERS else lines)

    @contextlib.contextmanager
    def _told(self, lacks: Optional[Type[FizgrukError]] = None) -> Iterator[None]:
        """Says what is known of a refusal; `lacks` is raised where a history is kept that hasn't what
        was asked for."""
        try:
            yield
        except Refused as refusal:
            if refusal.status != calls.NOT_FOUND:
                raise
            if lacks and refusal.code != Code.NO_SUCH_ROUTE:
                raise lacks from refusal
            raise refusal.about(NONE_SERVED.format(self.source.server))


def past_of(desk: calls.Desk) -> Past:
    """The history of a desk: that of a folder, or the one that is served beside it."""
    return Past(Folder(os.path.expanduser(desk.history)) if desk.history else desk)


def log_of(past: Past, desk: calls.Desk, number: int) -> Iterator[bytes]:
    """What a job has said so far. Raises NoLog, which says why, where it has no log."""
    try:
        yield from past.log(number, 0)
    except NoLog as fault:
        raise NoLog(why_no_log(desk, number)) from fault


def followed(past: Past, number: int, wait: Wait) -> Iterator[bytes]:
    """What a job says, piece by piece, until it has ended; a job that hasn't begun is waited for, and
    so is a desk that gives no answer."""
    begin, is_open = 0, True
    while is_open:
        try:
            # (a log to which something may be added is looked at once more)
            is_open = is_to_come(wait.desk, number)
            for said in past.log(number, begin):
                begin += len(said)
                yield said
        except NoLog as fault:
            why = wait.answer_of(lambda: why_no_log(wait.desk, number))
            if not is_open:
                raise NoLog(why) from fault
            wait.say(why)
        except Unreachable as fault:
            is_open = True
            wait.say(f"no answer from the desk, which is asked again: {fault.trouble}")
        if is_open:
            wait.pause()


def is_to_come(desk: calls.Desk, number: int) -> bool:
    """Whether a job hasn't ended."""
    view = calls.job_of(desk, number)
    return view is not None and view["state"] != "Finished"


def why_no_log(desk: calls.Desk, number: int) -> str:
    """Why a job has no log."""
    view = calls.job_of(desk, number)
    if view is None:
        return f"there is no job {number}"
    if view["state"] == "Finished":
        return f"job {number} has no log: it never began, or its log is too old to be kept"
    return f"job {number} is {view['state']}, and has no log yet"


class Artifacts:
    """What a job's group left, by the list that is kept of it."""

    def __init__(self, desk: calls.Desk, past: Past, number: int):
        """Raises NoArtifact where nothing is kept of the job."""
        self.past, self.number = past, number
        view = calls.job_of(desk, number)
        if view is None:
            raise NoArtifact(f"there is no job {number}")
        self.group = int(view["group"])
        try:
            said = b"".join(bounded(past.artifact(self.group, artifacts.INDEX), artifacts.MOST_INDEX))
            self.index = artifacts.index_of(said)
        except NoArtifact as fault:
            raise NoArtifact(_why_no_artifacts(view)) from fault
        except artifacts.BadIndex as fault:
            raise Unreachable(str(fault), desk.server) from fault
        self.files = artifacts.files_of(self.index)

    def of(self, name: str) -> artifacts.Artifact:
        """The one of this name. Raises NoArtifact."""
        found = next((it for it in self.files if it.name == name), None)
        if found is None:
            raise NoArtifact(f"job {self.number} left no {name}, or it isn't kept")
        return found

    def bytes_of(self, it: artifacts.Artifact) -> Iterator[bytes]:
        """Its bytes, as many as the list says."""
        left = it.size
        try:
            for said in bounded(self.past.artifact(self.group, f"{it.number}"), it.size):
                left -= len(said)
                yield said
        except NoArtifact as fault:
            raise NoArtifact(f"{it.name} of job {self.number} isn't kept any longer") from fault
        if left:
            raise Unreachable(f"{it.name} was cut")


def bounded(pieces: Iterator[bytes], most: int) -> Iterator[bytes]:
    """Pieces that are no more than so many bytes together."""
    left = most
    for said in pieces:
        left -= len(said)
        if left < 0:
            raise Unreachable(f"there are more than {most:,} bytes")
        yield said


def _why_no_artifacts(view: calls.Row) -> str:
    """Why nothing is kept of a job."""
    number, state = view["number"], view["state"]
    if state == "Finished":
        return f"job {number} has no artifacts: it left none, or they are too old to be kept, or aren't kept yet"
    return f"job {number} is {state}: what it leaves is kept once it has ended"


def text_of(desk: calls.Desk, number: int) -> bytes:
    """The text by which a job's group was submitted, as the desk keeps it. Raises NoText for a health
    check."""
    view = desk.look(f"/jobs/{number}")
    if view["kind"] == "check":
        raise NoText(f"job {number} is a health check, which has no text")
    if view["group"] != number:
        view = desk.look(f"/jobs/{view['group']}")
    return str(view["text"]).encode()


# ---- what is used


def share_of(numbers: List[int], percent: int) -> Optional[int]:
    """The least number that so many of a hundred don't exceed."""
    if not numbers:
        return None
    return sorted(numbers)[-(-len(numbers) * percent // 100) - 1]


def uses_of(history: Iterable[Row], since: int, by: str) -> List[Row]:
    """What the jobs of a history, and the holds among its lines, used since a moment, by owner, board or
    type; the most hours of both first."""
    used: Dict[str, List[Row]] = collections.defaultdict(list)
    for row in history:
        if row["kind"] in ("job", "hold") and row["ended"] >= since:
            for name in row["boards"] if (row["kind"], by) == ("job", "board") else [row[by]]:
                used[name].append(row)
    rows = [_use_of(name, found, since, by) for name, found in used.items()]
    return sorted(rows, key=lambda it: (-it["hours"] - it["held"], it["name"]))


def _use_of(name: str, rows: List[Row], since: int, by: str) -> Row:
    """The use of one owner, board or type, by these jobs and holds."""
    jobs, holds = ([it for it in rows if it["kind"] == kind] for kind in ("job", "hold"))
    outcomes = collections.Counter(it["outcome"] for it in jobs)
    seconds = sum(_lasted(it, since) * (1 if by == "board" else len(it["boards"])) for it in jobs)
    waits = [max(0, it["began"] - it["submitted"]) for it in jobs if it.get("submitted") is not None]
    return {
        "name": name, "jobs": len(jobs), **{it.lower(): outcomes[it] for it in OUTCOMES}, "hours": round(seconds / 3600, 2),
        "holds": len(holds), "held": round(sum(_lasted(it, since) for it in holds) / 3600, 2),
        "waited_median": share_of(waits, 50), "waited_ninth": share_of(waits, 90),
    }


def _lasted(row: Row, since: int) -> int:
    """For how many seconds a job or a hold had its boards since a moment."""
    return max(0, int(row["ended"] - max(row["began"], since)))
