"""A farm's two files and whole copies of them, made while the desk serves.

The desk writes lab.db only while it carries its log into it, and what it carries stands in the log
until that begins anew, with another header. So the file, and the log after it, are the farm at one
moment where the log's header stayed meanwhile. A log may begin anew some times a second, which is
sooner than a file is copied: so while that is copied all is noted that its logs change in it, and
then only this is copied once more, until the header stays. A commit that was read in part is none.

No lock is taken: the desk's locks hold up writers alone, and a reader takes nothing from it."""
import contextlib
import itertools
import os
import re
import shutil
import sqlite3
import stat
import subprocess
import tempfile
import time
from typing import BinaryIO, Callable, Iterator, List, Optional, Set, Tuple

from farm_backup import wal
from fizgruk._tools import disk
from fizgruk._tools.farm_file import FarmFile, line_of

WITHIN = 50.0  # seconds, in which there is a copy or none
STAYS = 5.0  # seconds after which damage is no head of a log that a desk was writing as it was killed, and is about to again
PAUSE = 0.05
LOOK = 64  # blocks that are copied between two looks at the log
COPY = re.compile(r"farm-(\d{8}T\d{6}Z)(?:-(\d+))?")
DAMAGED = "is damaged: commands stand behind a frame whose sum is wrong"
NEW = ".new-"  # how a copy's folder is named until it is checked
# A farm only grows: its commands are counted, its clock never falls back, and a kept reply, a job and a reservation once
# made stay. So a copy is an earlier one where the last row of each of its tables stands in the other, too: keys are their
# clients' own, so another history hasn't these rows. These are the columns of a table that stay as they are made.
STAYING = {
    "kept": "caller, ckey, kind, a, b",
    "jobs": "number, grp, owner, kind, role, body",
    "reservations": "number, owner, tags",
}
LAST = "ORDER BY rowid DESC LIMIT 1"
Row = Optional[Tuple[object, ...]]


class NoCopy(Exception):
    """There is no copy, or none that is a farm."""


def log_of(farm: FarmFile, most: int = -1) -> bytes:
    with open(farm.log, "rb", buffering=0) as log:
        return log.read(most)


def state_of(farm: FarmFile) -> Tuple[int, int, bytes]:
    """Which file it is, and the log's header."""
    found = os.stat(farm.db)
    return found.st_dev, found.st_ino, log_of(farm, wal.HEADER)


def count_of(copy: FarmFile) -> int:
    """How many commands a copy has."""
    try:
        with _tables(copy) as tables:
            return _come_to(tables)[0]
    except (sqlite3.Error, KeyError) as fault:
        raise NoCopy(f"{copy.db} is no farm ({fault})") from fault


def prove(copy: FarmFile) -> None:
    """Opens a copy by `farm report`, which reads and checks all of it."""
    words = [copy.program, "report", "--db", copy.db, "boards"]
    try:
        ran = subprocess.run(words, stdout=subprocess.DEVNULL, stderr=subprocess.PIPE, check=False)
    except OSError as fault:
        raise NoCopy(f"no copy is made, since it can't be proved: {fault}") from fault
    if ran.returncode:
        raise NoCopy(f"the copy is no farm, and is thrown away ({line_of(ran.stderr) or 'nothing was said'})")


@contextlib.contextmanager
def new_copy(farm: FarmFile, folder: str, tell: Callable[[str], object]) -> Iterator[FarmFile]:
    """A checked copy of a farm in a new folder below `folder`, which goes where nobody has named it otherwise. `tell` is
    told where it is copied again."""
    place = tempfile.mkdtemp(prefix=NEW, dir=folder)
    try:
        copy = copied(farm, place, tell)
        for name in (copy.db, copy.log):
            with open(name, "rb") as opened:
                os.fsync(opened.fileno())
        prove(copy)
        disk.sync_folder(place)
        yield copy
    finally:
        shutil.rmtree(place, ignore_errors=True)


def copied(farm: FarmFile, place: str, tell: Callable[[str], object]) -> FarmFile:
    """A copy of a farm's two files in a folder, copied again where its log got away, or a frame of
    it was read in part."""
    copy, why, since = farm.within(place), "", time.monotonic()
    until = since + WITHIN
    while True:
        before = why
        try:
            why = _copy(farm, copy, until)
        except FileNotFoundError as fault:
            raise NoCopy(f"there is no {fault.filename}: a farm is a file and its log") from fault
        except wal.Anew as fault:
            why = str(fault)
        if not why:
            return copy
        since = since if why == before else time.monotonic()
        if DAMAGED in why and time.monotonic() > since + STAYS:
            raise NoCopy(why.rpartition(" (")[0])
        if time.monotonic() > until:
            raise NoCopy(f"no copy within {WITHIN:g} s: {why}")
        tell(f"copied again: {why}")
        time.sleep(PAUSE)


def _copy(farm: FarmFile, copy: FarmFile, until: float) -> str:
    """Copies the file, then again and again what was changed in it meanwhile, and the log. Returns
    why these aren't one farm; nothing where they are."""
    state, changes = state_of(farm), wal.Changes()
    with open(farm.db, "rb", buffering=0) as old, open(copy.db, "w+b", buffering=0) as new:
        os.fchmod(new.fileno(), _mode_of(old))
        blocks = set(range(os.fstat(old.fileno()).st_size // wal.BLOCK + 1))
        while True:
            before = state_of(farm)
            blocks |= changes.taken(log_of(farm))
            _copy_blocks(old, new, blocks, lambda: changes.look(log_of(farm)))
            _copy_log(farm, copy)
            if state_of(farm) == before:
                break
            if time.monotonic() > until:
                return "the log began anew"
            blocks = set()
    if before[:2] != state[:2]:
        return f"{farm.db} became another file"
    at = wal.damage(log_of(copy))
    return f"{farm.log} {DAMAGED} (at {at})" if at else ""


def _copy_blocks(old: BinaryIO, new: BinaryIO, blocks: Set[int], look: Callable[[], None]) -> None:
    for done, block in enumerate(sorted(blocks), 1):
        at = block * wal.BLOCK
        new.seek(at)
        new.write(os.pread(old.fileno(), wal.BLOCK, at))
        if done % LOOK == 0:
            look()
    new.truncate(os.fstat(old.fileno()).st_size)


def _copy_log(farm: FarmFile, copy: FarmFile) -> None:
    with open(farm.log, "rb") as old, open(copy.log, "wb") as new:
        os.fchmod(new.fileno(), _mode_of(old))
        shutil.copyfileobj(old, new, 1 << 20)


def _mode_of(file: BinaryIO) -> int:
    return stat.S_IMODE(os.fstat(file.fileno()).st_mode) & 0o666


def take_folder(folder: str) -> Optional[int]:
    """The lock on a folder of copies, once what was cut off in it is removed; None where another
    program has it."""
    lock = disk.take_lock(os.path.join(folder, ".lock"))
    if lock is not None:
        for name in os.listdir(folder):
            if name.startswith(NEW):
                shutil.rmtree(os.path.join(folder, name), ignore_errors=True)
    return lock


def link(target: str, name: str) -> None:
    """Lets a name lead to a target from now on, in one step."""
    with contextlib.suppress(FileNotFoundError):
        os.remove(f"{name}.new")
    os.symlink(target, f"{name}.new")
    os.replace(f"{name}.new", name)
    disk.sync_folder(os.path.dirname(name))


# ---- names of copies


def name_of(moment: float) -> str:
    """The name of a copy that began at a moment."""
    return time.strftime("farm-%Y%m%dT%H%M%SZ", time.gmtime(moment))


def free_name(folder: str, name: str) -> str:
    """The name, or with a number behind it where it is taken."""
    names = itertools.chain([name], (f"{name}-{number}" for number in itertools.count(2)))
    return next(it for it in names if not os.path.lexists(os.path.join(folder, it)))


def copies_in(folder: str) -> List[str]:
    """The names of the copies in a folder, the oldest first."""
    found = filter(None, map(COPY.fullmatch, os.listdir(folder)))
    return [it[0] for it in sorted(found, key=lambda it: (it[1], int(it[2] or 1)))]


# ---- which copies are earlier farms of another copy's history, by what they hold


def earlier(farm: FarmFile, folder: str, new: str) -> Tuple[List[str], List[str]]:
    """The copies in a folder that are earlier farms of the new one's history, the earliest first;
    and the others, which nobody can put in order."""
    with _tables(farm.within(os.path.join(folder, new))) as newest:
        names = [it for it in copies_in(folder) if it != new]
        come = {it: _come_to_before(newest, farm.within(os.path.join(folder, it))) for it in names}
    return sorted(filter(come.get, names), key=lambda it: come[it]), [it for it in names if not come[it]]


def _come_to_before(newest: sqlite3.Connection, copy: FarmFile) -> Tuple[int, ...]:
    """How far a copy has come; nothing where it isn't an earlier farm of the newest one's history."""
    try:
        with _tables(copy) as tables:
            found, rows = _come_to(tables), {it: _row(tables, it, LAST) for it in STAYING}
    except (sqlite3.Error, OSError, KeyError):
        return ()
    return found if found <= _come_to(newest) and all(_has(newest, *it) for it in rows.items()) else ()


@contextlib.contextmanager
def _tables(copy: FarmFile) -> Iterator[sqlite3.Connection]:
    """A copy's tables, read by other names of its two files, beside which SQLite may write."""
    folder = os.path.dirname(os.path.dirname(copy.db))
    with tempfile.TemporaryDirectory(prefix=NEW, dir=folder) as place:
        for name, end in ((copy.db, ""), (copy.log, "-wal")):
            try:
                os.link(name, f"{place}/db{end}")
            except OSError:  # (not every file system has links)
                shutil.copyfile(name, f"{place}/db{end}")
        with contextlib.closing(sqlite3.connect(f"file:{place}/db?mode=ro", uri=True)) as tables:
            yield tables


def _come_to(tables: sqlite3.Connection) -> Tuple[int, int]:
    """How many commands a farm has, and its clock."""
    meta = dict(tables.execute("SELECT name, value FROM meta"))
    return int(meta["count"]), int(meta["clock"])


def _row(tables: sqlite3.Connection, table: str, which: str) -> Row:
    found: Row = tables.execute(f"SELECT rowid, {STAYING[table]} FROM {table} {which}").fetchone()
    return found


def _has(tables: sqlite3.Connection, table: str, row: Row) -> bool:
    """Whether a farm has this row of another's."""
    return row is None or _row(tables, table, f"WHERE rowid = {row[0]}") == row
