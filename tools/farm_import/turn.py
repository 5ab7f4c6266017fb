"""The turn from one farm to the next: farm-from-desk --next FILE.

The next farm is made whole in HOME/next before anything is stopped: types, boards and healths, asked
of the program as a user's commands are. Then what serves is stopped, the farm that is there is looked
at once more and set aside in HOME/old-N; one rename gives the next one its name, and what was stopped begins
again. Where it stands after a stop the files say:

    next/turn.json   the next farm is whole, and the turn has begun; without it, what stands in next
                     counts for nothing
    old-N            (as turn.json names it) the old farm is being set aside: only this turn goes on
    next/lab.db      the next farm isn't in its place yet
    old-N/turn.json  the turn is done

Each step may be done again. The old farm is only ever named otherwise, and the desk's file is the old
farm, the next one, or not there, in which case a desk doesn't begin."""
import contextlib
import fcntl
import itertools
import json
import os
import shlex
import shutil
import subprocess
import time
from typing import Any, Dict, Iterator, List, NamedTuple, Optional, Sequence

from farm_import import next_lab, stopped
from farm_import.next_lab import NextLab
from fizgruk import calls
from fizgruk._tools import disk
from fizgruk.errors import Unreachable

NEXT, OLD, RECORD, LAB = "next", "old-{}", "turn.json", "lab.toml"
# In the order in which they are stopped.
DISPATCH, WATCH, DESK = "farm-dispatch", "farm-watch", "farm"
UNITS = (DISPATCH, WATCH, DESK)
STOPPED = ("inactive", "failed", "unknown", "deactivating")
ROOM = 64_000_000  # bytes, of which a new farm of 256 boards takes some
FREE_WITHIN, SERVES_WITHIN = 60.0, 120.0  # seconds
PAUSE = 0.2
LATELY = 86400
STORE_FAULT = "60 store fault"


class NotDone(Exception):
    """The turn stopped at a step, which is to be done again."""


class InTheWay(Exception):
    """Nothing was begun, or all is as before; the texts say why, a line each."""

    def __init__(self, lines: Sequence[str]):
        super().__init__("\n".join(lines))
        self.lines = list(lines)


class TurnRecord(NamedTuple):
    """What a turn goes by: its lab file's mark, the folder for the old farm, the units that ran, and
    when it began."""

    mark: str
    aside: str
    units: List[str]
    began: float


class Services:
    """What serves and asks the farm: systemd's units, or what two commands stop and start."""

    def __init__(self, stop: Optional[str], start: Optional[str]):
        if not stop and not os.path.isdir("/run/systemd/system"):
            raise NotDone("no systemd is here: --stop and --start say what stops and starts the desk")
        self.words = {"stop": shlex.split(stop or ""), "start": shlex.split(start or "")}
        self.has_words = bool(stop)

    def running(self) -> List[str]:
        """The units that run, or try to."""
        if self.has_words:
            return []
        ran = subprocess.run(["systemctl", "is-active", *UNITS], stdout=subprocess.PIPE, text=True, check=False)
        return [unit for unit, state in zip(UNITS, ran.stdout.split()) if state not in STOPPED]

    def stop(self, named: List[str]) -> None:
        self._call("stop", [it for it in UNITS if it in named or it == DESK])

    def start_desk(self) -> None:
        self._call("start", [DESK])

    def start_others(self, named: List[str]) -> None:
        """Starts the units that ask the desk; a command of its own has started all."""
        others = [it for it in named if it != DESK]
        if others and not self.has_words:
            self._call("start", others)

    def _call(self, what: str, named: List[str]) -> None:
        words = self.words[what] if self.has_words else ["systemctl", what, *named]
        with stopped.as_before():
            status = subprocess.run(words, stdin=subprocess.DEVNULL, check=False).returncode
        if status:
            raise NotDone(f"{f'--{what}' if self.has_words else ' '.join(words)} ended with {status}")


class Turn:
    """A turn of the farm in a file to the one of a lab."""

    def __init__(self, farm: stopped.StoppedFarm, desk: calls.Desk, services: Services):
        self.farm, self.desk, self.services = farm, desk, services
        self.next = farm.within(os.path.join(farm.home, NEXT))
        self.file = os.path.join(self.next.home, RECORD)

    def record(self) -> Optional[TurnRecord]:
        """Where a turn has begun."""
        return record_in(self.file)

    @contextlib.contextmanager
    def alone(self) -> Iterator[None]:
        """Keeps other turns of this farm from beginning meanwhile."""
        opened = os.open(self.farm.home, os.O_RDONLY | os.O_DIRECTORY | os.O_CLOEXEC)
        try:
            fcntl.flock(opened, fcntl.LOCK_EX | fcntl.LOCK_NB)
            yield
        except BlockingIOError as fault:
            raise NotDone(f"another turn of {self.farm.db} is under way") from fault
        finally:
            os.close(opened)

    # ---- before it

    def looker(self) -> calls.Looker:
        """Who shows the farm that is there: the desk, or where it doesn't serve, its file."""
        try:
            self.desk.of_patience(2).look("/status")
            return calls.Remembered(self.desk)
        except Unreachable as fault:
            with contextlib.suppress(stopped.NoFarm):
                self.farm.look("/status")
                return calls.Remembered(self.farm)
            raise NotDone(f"no answer from the desk at {fault}, and {self.farm.db} can't be opened")

    def done_lately(self, lab: NextLab) -> str:
        """When a turn to this lab was done, within a day; nothing where none was."""
        for name in os.listdir(self.farm.home):
            file = os.path.join(self.farm.home, name, RECORD)
            done = record_in(file) if name.startswith(OLD.format("")) else None
            if done and done.mark == lab.mark() and 0 <= time.time() - done.began < LATELY:
                return time.strftime("%Y-%m-%d %H:%M", time.localtime(done.began))
        return ""

    def demand_room(self) -> None:
        about = os.statvfs(self.farm.home)
        if about.f_bavail * about.f_frsize < ROOM:
            raise InTheWay([f"{self.farm.home} has room for less than {ROOM // 10**6} MB"])

    # ---- making the next farm

    def prepare(self, lab: NextLab, healths: Dict[str, str], before: Optional[TurnRecord]) -> TurnRecord:
        """Makes the next farm whole in a folder of its own, and lets the turn begin. `before` is a
        turn to another lab that has set nothing aside."""
        ran = [*(before.units if before else []), *self.services.running()]
        self._give_up()
        os.mkdir(self.next.home, 0o700)
        file = os.path.join(self.next.home, LAB)
        disk.write_synced(file, lab.text)
        self.next.order("init")
        self.next.order("import", "--at", str(int(time.time())), file)
        for board, health in healths.items():
            if health != next_lab.FIRST_HEALTH:
                self.next.tell(f"/boards/{calls.part(board)}/health", {"health": health})
        self._demand_whole(lab, healths)
        disk.sync_folder(self.next.home)
        disk.sync_folder(self.farm.home)
        found = [it for it in UNITS if it in ran]
        record = TurnRecord(lab.mark(), self._free_name(), found, time.time())
        disk.write_synced(self.file, json.dumps(record._asdict()) + "\n")
        return record

    def _demand_whole(self, lab: NextLab, healths: Dict[str, str]) -> None:
        """Demands that the next farm is the lab, read from its file anew."""
        wrong = next_lab.changes_of(lab, calls.Remembered(self.next))
        for it in calls.rows_of(self.next, "boards"):
            if it["health"] != healths.get(it["name"]):
                wrong.append(f"board {it['name']}: it is {it['health']}")
        if wrong:
            raise NotDone(f"the next farm isn't as the file has it: {wrong[0]}")

    def _free_name(self) -> str:
        return next(it for it in map(OLD.format, itertools.count(1)) if not os.path.lexists(f"{self.farm.home}/{it}"))

    def _give_up(self) -> None:
        """Lets what stands in next/ go, which counts for nothing from the first step on."""
        with contextlib.suppress(FileNotFoundError):
            os.unlink(self.file)
            disk.sync_folder(self.next.home)
        with contextlib.suppress(FileNotFoundError):
            shutil.rmtree(self.next.home)

    # ---- the turn itself

    def aside(self, record: TurnRecord) -> str:
        return os.path.join(self.farm.home, record.aside)

    def has_set_aside(self, record: TurnRecord) -> bool:
        """Whether the old farm has lost its name, or began to."""
        return os.path.isdir(self.aside(record))

    def is_in_place(self) -> bool:
        return os.path.exists(self.farm.db) and not os.path.exists(self.next.db)

    def go_on(self, lab: NextLab, record: TurnRecord, may_lose: bool) -> None:
        """Does what is left to be done."""
        if not self.is_in_place():
            self.services.stop(record.units)
            if os.path.exists(self.farm.db) and not stopped.is_begun_to_be_set_aside(self.farm):
                self._look_again(lab, record, may_lose)
            self._change(record)
        self.services.start_desk()
        self._demand_served(lab)
        self.services.start_others(record.units)
        self._end(record)

    def _look_again(self, lab: NextLab, record: TurnRecord, may_lose: bool) -> None:
        """Looks at the farm once nobody serves it. What came since the first look, and is in the
        way, gets its desk back."""
        self._wait_until_free()
        look = calls.Remembered(self.farm)
        lines = next_lab.faults_of(lab, look) + ([] if may_lose else next_lab.lost_of(look))
        if not lines:
            return
        self.services.start_desk()
        self.services.start_others(record.units)
        self._give_up()
        raise InTheWay(lines)

    def _wait_until_free(self) -> None:
        until = time.monotonic() + FREE_WITHIN
        while True:
            try:
                self.farm.look("/status")
                return
            except stopped.NoFarm as fault:
                if STORE_FAULT not in str(fault) or time.monotonic() > until:
                    raise
            time.sleep(PAUSE)

    def _change(self, record: TurnRecord) -> None:
        """Sets the old farm aside, and gives the next one its name."""
        place = self.aside(record)
        if not os.path.isdir(place):
            os.mkdir(place, 0o700)
            disk.sync_folder(self.farm.home)
        stopped.set_aside(self.farm, place)
        stopped.put_in_place(self.next, self.farm)

    def _demand_served(self, lab: NextLab) -> None:
        """Demands that the desk that answers is the next farm's: it has each of its boards."""
        rows = calls.rows_of(self.desk.of_patience(SERVES_WITHIN), "boards")
        if not lab.boards.keys() <= {it["name"] for it in rows}:
            raise NotDone(f"the desk at {self.desk.server} isn't that of {self.farm.db}")

    def _end(self, record: TurnRecord) -> None:
        """Notes that the turn is done."""
        os.rename(self.file, os.path.join(self.aside(record), RECORD))
        disk.sync_folder(self.aside(record))
        shutil.rmtree(self.next.home)


def record_in(file: str) -> Optional[TurnRecord]:
    """What a file has of a turn; None where there is none."""
    try:
        said: Any = json.loads(disk.text_in(file) or "null")
        if said is None:
            return None
        mark, aside, began = str(said["mark"]), str(said["aside"]), float(said["began"])
        return TurnRecord(mark, aside, [str(it) for it in said["units"]], began)
    except (ValueError, KeyError, TypeError) as fault:
        raise NotDone(f"{file} can't be read: where a turn stands isn't known") from fault
