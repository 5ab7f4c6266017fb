"""The groups whose commands run on one machine: each step of theirs, in a thread of this machine's, so that one that is
slow or away delays no other's.

The desk says what a job comes to, a worker what became of its command, and a record here (farm_dispatch.record) which unit
on which machine, in which of its lives, is the group's. Each step is on the disk before the next begins, so a dispatcher
that is killed at any moment and started again goes on where it was. The protocol is modelled in tests/model."""
import contextlib
import json
import os
import re
import secrets
import select
import threading
import time
from typing import TYPE_CHECKING, Any, Callable, Dict, List, Optional, Set

from farm_dispatch.artifacts import Collectors
from farm_dispatch.published import about
from farm_dispatch.record import NO_ROOM, Log, Record, line_of, with_room
from farm_dispatch.workers import LOG_PART, NO_LOOK, Away, Look, Worker, outcome_of, words_of, worker_of
from fizgruk import calls, limits
from fizgruk.errors import Code, Refused, Unreachable

if TYPE_CHECKING:
    from farm_dispatch.dispatcher import Dispatcher

GONE = (Code.NO_SUCH_JOB, Code.WRONG_JOB_STATE)
NOT_ASKED = "it wasn't asked yet"
HELD = ("Scheduled", "Running", "Canceling")
BUSY, IDLE = 1.0, 5.0  # seconds between two looks
STAYS = 300.0  # seconds for which a fault of a group's own stays until it ends the group
MOST_STRAYS = 100  # that are ended in one turn
KILLS_AFTER = 10.0  # seconds after which what was to be killed is told to live on
Rows = List[Dict[str, Any]]


class Runs:
    """What runs on one machine."""

    def __init__(self, dispatcher: "Dispatcher", worker: Worker):
        self.all, self.worker, self.desk = dispatcher, worker, dispatcher.desk
        self.given: Set[int] = set()  # groups that hold boards of this machine
        self.look = NO_LOOK  # the last that was whole, as long as its machine answers
        self.reason, self.since = NOT_ASKED, int(time.time())  # why it can't run jobs
        self.collectors = Collectors(dispatcher.place, dispatcher.options)
        self.faulty: Dict[int, float] = {}
        self.others: Dict[int, float] = {}  # jobs that others started, and when the history was read for them
        self.woken, self.wakes = os.pipe()
        os.set_blocking(self.wakes, False)
        self.thread = threading.Thread(target=self._run, daemon=True, name=worker.name)

    def start(self) -> None:
        if not self.thread.ident:
            self.thread.start()

    def wake(self) -> None:
        with contextlib.suppress(BlockingIOError):
            os.write(self.wakes, b"w")

    def records(self) -> List[Record]:
        return [it for it in list(self.all.records.values()) if it.get("worker") == self.worker.name]

    def _run(self) -> None:
        while not self.all.is_over:
            try:
                self.turn()
            except Exception as fault:  # pylint: disable=broad-except
                self.all.tell_once(f"{self.worker.name}: {type(fault).__name__}: {fault}")  # (and it goes on)
            self._rest()

    def _rest(self) -> None:
        """Waits until there is something to do."""
        seconds = BUSY if self.records() else IDLE
        with contextlib.suppress(Away):  # (its next look says why)
            if self.look.life:
                self.worker.wait(self.look, self.all.identity, seconds, self.woken)
                seconds = 0
        if select.select([self.woken], [], [], seconds)[0]:
            os.read(self.woken, 4096)

    def turn(self) -> None:
        """Looks at the machine once, and does what each group asks for."""
        given = self.given
        try:
            self._see(self.worker.look(self.all.identity))
        except Away as fault:
            self._see(NO_LOOK, str(fault))
        try:
            for unit, number in list(self.strays().items())[:MOST_STRAYS]:
                self._try(number, self._end_stray, unit, number)
            for record in self.records() if self.look.life else ():
                self._try(record.number, self._fetch, record)
            for number in sorted(given | {it.number for it in self.records()}) if self.look.life else ():
                self._try(number, self._do, number)
        except Away as fault:  # (one wait for it is enough, so the others' steps are taken in the next turn)
            self.all.tell_once(f"{self.worker.name}: {fault}")
        for number in sorted(given - set(self.all.records)) if self.reason else ():
            self.all.tell_once(f"job {number} waits for worker {self.worker.name}: {self.reason}")

    def _see(self, look: Look, away: str = "") -> None:
        self.look, reason = look, away or look.lacks
        if reason != self.reason and not self.all.is_over:
            self.since = self.since if reason and self.reason else int(time.time())
            self.reason = reason
            self.all.tell(f"worker {self.worker.name} " + (f"doesn't answer, or can't run jobs: {reason}" if reason else "answers"))
            self.all.woken.set()

    def _try(self, number: int, step: Any, *words: Any) -> None:
        """Does what one group asks for. Its fault keeps none of the others waiting, and ends the group where it stays."""
        try:
            step(*words)
            self.faulty.pop(number, None)
        except (Away, Unreachable):
            raise
        except Exception as fault:  # pylint: disable=broad-except
            if isinstance(fault, Refused) and not fault.is_desks:
                raise
            self.all.tell_once(f"job {number}: {type(fault).__name__}: {fault}")
            if isinstance(fault, OSError) and fault.errno in NO_ROOM or getattr(fault, "code", 0) == Code.FULL:
                return  # (it is everybody's)
            since = self.faulty.setdefault(number, time.monotonic())
            record = self.all.records.get(number)
            if time.monotonic() > since + STAYS and record and not record.get("broken"):
                record.note(broken=f"a fault of farm-dispatch: {type(fault).__name__}: {fault}")

    # ---- what a group asks for

    def _do(self, number: int) -> None:
        record, first = self.all.records.get(number), calls.job_of(self.desk, number)
        views = calls.members_of(self.desk, number) if first and first["role"] else [first] if first else []
        view = next((it for it in views if it["group"] == number and it["state"] in HELD), None)
        if view is not None and view["state"] == "Scheduled":
            if record is None or not (record.get("started") or record.unit in self.look.marks | self.look.units | self.look.lives):
                self._begin(number, record, views)
                return
            # the desk says that it isn't: its farm, or this folder, is an older copy, or the next
            self.all.tell_once(f"job {number}: its farm is another one; {record.unit} is ended first")
            if not record.get("started"):
                record.note(started=True)
            view = None
        elif view is not None:
            record = record or self._found_again(number, views)
            if record is not None and not self._is_its_start(record, view):
                view = None
        if record is not None:
            self._go_on(record, views, view)

    def _begin(self, number: int, record: Optional[Record], views: Rows) -> None:
        boards = self._boards_of(number, views)
        if all(it["state"] == "Scheduled" for it in views) and not self.look.lacks and boards:
            if record is None:
                record = self._recorded(number, f"farm-job-{self.all.identity}-{number}-{secrets.token_hex(4)}", views)
            if self._is_its_start(record, views[0]):
                self._launch(record, views, boards)

    def _boards_of(self, number: int, views: Rows) -> Rows:
        """The boards of a group, as its command is told them; none where it hasn't all of them yet, or where somebody else
        may have one still."""
        boards = {it["name"]: it for it in self.desk.look("/boards")["boards"]}
        has_all = all(boards.get(it["board"], {}).get("holder") == f"job {it['number']}" for it in views)
        if not has_all or self._waits({it["board"] for it in views}, number):
            return []
        rows = [(boards[it["board"]], it) for it in views]
        return [{**board, "job": it["number"], "role": it["role"], "machine": worker_of(board)} for board, it in rows]

    def _waits(self, boards: Set[str], number: int) -> bool:
        """Whether a group can't begin yet, nor give these boards on."""
        busy = self.all.living_on(boards, number)
        if busy:
            self.all.tell_once(f"job {number} waits until {busy}, which may have its boards, has ended")
        return bool(busy)

    def units_of(self, number: int) -> Set[str]:
        """Units that this machine has, or had, of a group."""
        return {it for it in self.look.marks | self.look.units if it.startswith(f"farm-job-{self.all.identity}-{number}-")}

    def strays(self) -> Dict[str, int]:
        """Units here that no record has started, and their groups: a record was lost, or the dispatcher's folder is older."""
        known = {it.unit for it in list(self.all.records.values()) if it.get("started")}
        units = sorted((self.look.units | self.look.lives) - known)
        names = (re.match(f"farm-job-{self.all.identity}-([0-9]{{1,9}})-", it) for it in units)
        return {it.string: int(it[1]) for it in names if it is not None}

    def _end_stray(self, unit: str, number: int) -> None:
        """Ends it where its group isn't the job that runs: this is finished, or begun by another unit or somebody else."""
        view = calls.job_of(self.desk, number)
        if view is None or view["state"] not in ("Running", "Canceling") or not self._is_start_of(unit, number):
            self.all.tell_once(f"{unit} has no record, and is ended")
            self.worker.close(unit)

    def _recorded(self, number: int, unit: str, views: Rows, **more: Any) -> Record:
        """A new record of a group."""
        record, life = Record(self.all.place, number), self.look.life
        record.note(unit=unit, worker=self.worker.name, life=life, about=about(views), kind=views[0]["kind"], **more)
        self.all.records[number] = record
        return record

    def _is_start_of(self, unit: str, number: int) -> bool:
        """Starts a group as this unit's, or asks whether it was: the key's reply is kept. Of two that have the same job, or of
        two farms that gave the same number, one alone is told so."""
        return is_done(self.desk.tell, f"/jobs/{number}/start", None, f"start-{unit}")

    def _is_its_start(self, record: Record, view: Dict[str, Any]) -> bool:
        """The same of a record's unit, which counts as started then. Where the desk has no room for one more reply it is asked
        without a key; that is noted before, and where no answer came what runs counts as started here."""
        about_it = record["about"]  # (what has ended counts as on no board any more)
        is_same = view["owner"] == about_it["owner"] and view["board"] in {it["board"] for it in about_it["members"]}
        is_it = bool(record.get("unkeyed")) and view["state"] != "Scheduled" and is_same
        try:
            is_it = self._is_start_of(record.unit, record.number) or is_it
        except Refused as refusal:
            if refusal.code != Code.FULL:
                raise
            if view["state"] == "Scheduled":
                record.note(unkeyed=True)
                is_it = is_done(self.desk.tell, f"/jobs/{record.number}/start")
        if is_it and not record.get("started"):
            record.note(started=True)
        return is_it

    def _launch(self, record: Record, views: Rows, boards: Rows) -> None:
        """Begins its command, which is done once at most in this life of the machine."""
        options, unit = self.all.options, record.unit
        limit = limits.limit_of(views[0]["text"], options.limit, options.most)
        if record.get("log") != unit:
            remarks = "".join(line_of(it) for it in limit.remarks).encode()
            self.all.published.begin_log(record.members, remarks)
            record.note(log=unit, own=len(remarks), limit=limit.seconds, words=limit.words())
        kind, times = "check" if views[0]["kind"] == "check" else "job", (max(1, round(it)) for it in (limit.seconds, options.grace))
        words = " ".join(map(str, [record.get("life"), kind, *times, options.log_limit, options.folder_limit]))
        answer = self.worker.begin(unit, words, files_of(views, boards, self.worker.folder_of(unit)))
        if answer == "ok":
            record.note(began=int(time.time()))
            names = " ".join(it["board"] for it in views)
            self.all.tell(f"job {record.number} of {views[0]['owner']} starts on {names} ({self.worker.name})")
        elif answer not in ("begun", "otherlife"):
            self.all.tell_once(f"job {record.number} wasn't started on {self.worker.name}: {answer}")

    # ---- a group that runs

    def _go_on(self, record: Record, views: Rows, view: Optional[Dict[str, Any]]) -> None:
        """What is to be done for a group of which this member runs; of none where the job isn't the record's: it is ended, and so
        it is where others have ended, since this dispatcher was killed while it told the desk of each one's end, or somebody
        else finished them."""
        if not record.get("started"):
            self._forget(record)  # nothing was begun: that comes after `started`
        elif not record.get("ended"):
            is_over = any(it["state"] not in HELD for it in views) or bool(record.get("broken"))
            how = self._how(record, views, is_over or view is None or view["state"] == "Canceling")
            if how is not None:
                self._end(record, how)
                self._do(record.number)  # (who started the job is asked again: its log may have taken its time)
        elif view is None or record.get("told"):
            self._settle(record)
        elif not self._waits({it["board"] for it in record["about"]["members"]}, record.number):
            self._finish(record, view)

    def _found_again(self, number: int, views: Rows) -> Optional[Record]:
        """A record that is lost, made again of what a worker has, or of the history, since an older farm may have a
        job running that ended long ago."""
        found, now = self.units_of(number), time.monotonic()
        if now > self.others.get(number, -STAYS) + STAYS:
            self.others[number] = now
            found |= {self.all.published.unit_of(number)[0]} - {""}
        for it in sorted(found):
            if self._is_start_of(it, number):
                unit, how = self.all.published.unit_of(number)
                ended = {"ended": how, "ended_at": int(time.time()), "written": True} if it == unit else {}
                return self._recorded(number, it, views, started=True, **ended)
        self.all.tell_once(f"job {number} was started by somebody else, and is left alone")
        return None

    def _how(self, record: Record, views: Rows, ends_it: bool) -> Optional[str]:
        """How it ended, where nothing of it lives, but what can't be killed, and nothing of it can begin; else None."""
        look, unit, life = self.look, record.unit, str(record.get("life"))
        if look.life.partition("/")[0] != life.partition("/")[0]:
            self.all.tell_once(f"job {record.number}: {self.worker.name} isn't the machine on which it was begun")
            return None
        if unit in look.units or unit in look.lives:
            if ends_it or unit not in look.units or look.life != life:
                if not record.get("closing"):
                    self.all.tell(f"job {record.number} is told to end")
                    record.note(closing=True)
                self.worker.close(unit)
            if unit in look.units or look.ended.get(unit, ("", -1))[1] < KILLS_AFTER:
                return None
            why = f"a process of job {record.number} can't be killed"
            self.all.tell_once(f"{why}: its boards become Bad")
            return f"lost: {why}" if all(self.all.set_health(it, "Bad", why) for it in sorted(record.boards)) else None
        if look.life != life:
            return f"lost: {self.worker.lost}"
        if unit in look.marks:  # (an end without: it began and ended within this look)
            return look.ended[unit][0] if unit in look.ended else "lost: its unit is gone" if unit in look.begun else "never"
        if ends_it:
            self.worker.close(unit)
        elif not look.lacks:
            boards = self._boards_of(record.number, views)
            if boards:
                self._launch(record, views, boards)
        return None

    # ---- its end

    def _end(self, record: Record, how: str) -> None:
        """Notes how it ended, once its log is here."""
        if record.get("closing") and how.startswith("timeout "):
            how = how.replace("timeout", "signal", 1)  # of the grace, after it was told to end
        words = record.get("broken") or words_of(how, str(record.get("words")))
        if record.get("log") == record.unit:
            self._end_log(record, "" if words.startswith("status ") else words)
        at = max(int(time.time()) - self.look.ended.get(record.unit, ("", 0))[1], record.get("began") or 0)
        record.note(ended=words, ended_at=at, began=record.get("began") or at)
        self.all.woken.set()  # (others may wait for its boards)

    def _end_log(self, record: Record, remark: str) -> None:
        """The rest of what it said, and what the log says behind that. Of what its machine has no longer what was fetched stays."""
        log, unit = Log(record, self.all.options.log_limit), record.unit
        if "said" not in record:  # (a job may have cut its log: what is served of it stays)
            record.note(said=max(self.look.sizes.get(unit, 0), log.has()))
        size = int(record["said"])

        def rest(begin: int) -> bytes:
            answer = self.worker.log(unit, begin)
            if len(answer) < min(size - begin, LOG_PART):
                raise Away("its answer was cut")
            return answer

        log.fetch(size, rest)
        log.close(size, rest, remark)

    def _fetch(self, record: Record) -> None:
        """What it said, from where it was fetched last: the file here is always a beginning of the one there."""
        if record.get("log") == record.unit and not record.get("ended"):
            log, size = Log(record, self.all.options.log_limit), self.look.sizes.get(record.unit, 0)
            log.fetch(size, lambda begin: self.worker.log(record.unit, begin))

    def _finish(self, record: Record, view: Dict[str, Any]) -> None:
        """Tells the desk how it ended, of each member."""
        ended = str(record.get("ended"))
        outcome = outcome_of(ended, self.all.options.infra)
        said = "Canceled" if view["state"] == "Canceling" else outcome
        if said == "Infra" and record.get("kind") == "ordinary":
            self.all.run_again(record, view)
        with self.all.lock:
            self.all.published.expect_end(record["about"], said)
        for number in record.members:
            key = f"finish-{record.unit}-{number}"
            is_done(calls.tell_with_room, self.desk, f"/jobs/{number}/finish", {"outcome": outcome}, key)
        record.note(told=True)
        self.all.tell(f"job {record.number} has ended ({ended}): {said}")
        self.all.is_pass_wanted = True
        self.all.woken.set()
        self._settle(record)

    def _settle(self, record: Record) -> None:
        """What it left in `out` is kept, the history gets its line, the worker forgets it, and then the record goes."""
        if not record.get("written"):
            if not self.collectors.are_done(record, self.worker):
                return
            outcome = outcome_of(str(record.get("ended")), self.all.options.infra)
            with self.all.lock:
                with_room(self.all.place, lambda: self.all.published.record(record, outcome))
            record.note(written=True)
        if record.unit not in self.look.units | self.look.lives:
            self._forget(record)

    def _forget(self, record: Record) -> None:
        if not record.get("started") or self.worker.forget(record.unit):
            with self.all.lock:
                record.drop()
                self.all.records.pop(record.number, None)
                self.all.published.history.settle(record.number)


def is_done(tell: Callable[..., Any], *words: Any) -> bool:
    """Whether the desk does what it is told; it doesn't where a job isn't there any more, or is in no state for it."""
    try:
        tell(*words)
        return True
    except Refused as refusal:
        if refusal.code not in GONE:
            raise
        return False


def files_of(views: Rows, rows: Rows, folder: str) -> Dict[str, str]:
    """What a group's folder has, and its environment, by the views of its members and the rows of their boards."""
    first = views[0]
    pairs = {
        "FARM_JOB": first["number"], "FARM_KIND": first["kind"], "FARM_OWNER": first["owner"],
        "FARM_PRIORITY": first["priority"], "FARM_BOARD": first["board"],
        "FARM_BOARDS": " ".join(it["board"] for it in views), "FARM_TYPES": " ".join(it["type"] for it in views),
        "FARM_ROLES": " ".join(it["role"] or "-" for it in views), "FARM_MACHINES": " ".join(it["machine"] for it in rows),
        "FARM_JOB_FILE": os.path.join(folder, "job.toml"), "FARM_BOARDS_FILE": os.path.join(folder, "boards"),
        "FARM_FOLDER": folder,
    }
    return {
        "job.toml": first["text"], "boards": "".join(f"{it['name']} {it['type']} {it['role'] or '-'} {it['job']}\n" for it in rows),
        "boards.json": json.dumps(rows, indent=1) + "\n", "env": "".join(f'{name}="{text}"\n' for name, text in pairs.items()),
    }
