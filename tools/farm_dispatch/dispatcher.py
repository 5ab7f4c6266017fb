"""Passes, and gives each group that got its boards to the machine that runs its command (farm_dispatch.runs). Of what has
ended it keeps a history, for people and other tools."""
import argparse
import contextlib
import dataclasses
import functools
import json
import os
import re
import secrets
import threading
import time
from typing import Dict, List, Optional, Sequence, Set

from farm_dispatch.published import WORKERS, Published, Row
from farm_dispatch.record import Record, keep_reserve, records_in
from farm_dispatch.runs import HELD, NOT_ASKED, Runs
from farm_dispatch.workers import DESK, Worker, worker_of
from fizgruk import calls, settings, toml_text
from fizgruk._tools import disk
from fizgruk._tools.passes import Counter
from fizgruk.errors import Refused

AWAY, HELD_BACK = "away.json", ("Good", "Unknown")
AWAY_AFTER = 60.0  # seconds after which the boards of a worker that doesn't answer get no new jobs
OUT_AFTER = 10.0  # and those on which something lives that has none: passes wait no longer for it


class Dispatcher:
    """The dispatcher of one desk, over a folder of its own."""

    def __init__(
        self, desk: calls.Desk, place: str, options: argparse.Namespace, workers: Sequence[Worker],
        own: Optional[settings.Settings] = None,
    ):
        """`options` has `grace`, `infra`, `keep_logs`, `limit`, `most`, `log_limit`, `folder_limit`, `artifact_count`,
        `artifact_limit` and `artifacts_limit`; `own` are the settings by which it asks, where it may ask as others."""
        self.desk, self.place, self.options = desk, place, options
        self.identity = identity_of(place)
        self.lock = threading.RLock()  # of what follows, which each machine's thread uses
        self.records = records_in(place)
        self.published = Published(desk, place, self.records)
        # (who asks with a password can't ask as others)
        self.own = own if own is not None and own.password is None else None
        self.passes = Counter(place)
        self.tell_once = functools.lru_cache(maxsize=1000)(self.tell)  # (some texts are of strangers)
        self.is_over = self.is_pass_wanted = False
        self.removes = time.monotonic()  # when old logs go
        self.woken = threading.Event()
        self.unknown: Dict[str, int] = {}  # workers that boards name and nobody set up, and since when
        self.away: Dict[str, str] = disk.object_in(os.path.join(place, AWAY))  # boards out of use, and their health before
        self.out: Dict[str, str] = {}  # of these those that this dispatcher took out of use, and the unit that lives there
        self.free = time.monotonic()  # when nothing was in the way of a pass
        self.machines: Dict[str, str] = {}  # of boards, as they were seen last
        self.runs = {it.name: Runs(self, it) for it in workers}

    # ---- what the machines' threads ask for

    def tell(self, text: str) -> None:
        print(text, flush=True)

    def living_on(self, boards: Set[str], number: int) -> str:
        """What else may live on these boards; nothing where that is sure. (Of a unit without a record nobody knows which of
        its machine's boards it has.)"""
        records = list(self.records.values())
        found = [f"job {it.number}" for it in records if it.number != number and it.boards & boards]
        machines = {self.machines.get(it, "") for it in boards} & set(self.runs)
        return next(iter([*found, *(unit for it in sorted(machines) for unit in self.runs[it].strays())]), "")

    def run_again(self, record: Record, view: Row) -> None:
        """Submits a job again that is about to end as Infra, as its owner and once, where its text asks for it. A pass comes
        before its boards are given back, if it may, so the new job gets others, where some are free."""
        again = text_again(view["text"])
        if again is None:
            return
        told = "it isn't run again: farm-dispatch asks with a password, and can't as its owner"
        if self.own is not None:
            try:
                number = self.as_user(view["owner"]).tell("/jobs", again.encode(), f"retry-{record.unit}")["number"]
                told = f"it is run again as job {number}"
            except Refused as refusal:
                told = f"it isn't run again: {refusal}"
        self.tell(f"job {record.number}: {told}")
        record.add_to_log(told)
        if not self._occupied(self.desk.look("/boards")["boards"]):
            self._pass()

    def as_user(self, user: str) -> calls.Desk:
        """The desk as this user sees it, where it may be asked so; else as the dispatcher does."""
        return calls.Desk(dataclasses.replace(self.own, user=user), self.desk.patience) if self.own else self.desk

    def set_health(self, board: str, health: str, why: str) -> bool:
        """Sets a board's health as an admin. Returns whether it could."""
        with self.lock:
            self.published.expect(board, health, why)
        try:
            self.as_user("admin").tell(f"/boards/{board}/health", {"health": health})
            return True
        except Refused as refusal:
            self.tell_once(f"{board} doesn't become {health} ({why}): {refusal}")
            return False

    # ---- rounds

    def fault(self) -> str:
        """Why no machine at all can start a command; nothing where one can."""
        faults = [it.reason for it in self.runs.values()]
        return next((it for it in faults if it != NOT_ASKED), "") if all(faults) else ""

    def round(self, passes: bool) -> None:
        """Passes where that is due, or the end of a job asks for it, and gives groups to the machines."""
        keep_reserve(self.place)
        for it in self.runs.values():
            it.start()
        with self.lock:
            if passes:
                self.published.look()
            if time.monotonic() >= self.removes:
                self.removes = time.monotonic() + 3600
                self.published.remove_old(self.options.keep_logs, set(self.records))
        self.is_pass_wanted |= passes
        lab = self.desk.look("/boards")["boards"]
        if self._may_pass(lab) and self.is_pass_wanted:
            self.is_pass_wanted = False
            self._pass()
            lab = self.desk.look("/boards")["boards"]
        self._give(lab)
        with self.lock:
            self.published.see(lab)
            self.published.show_running()
            self.published.write(WORKERS, {"workers": self._workers(lab)})
            if passes:
                self.published.show_waiting()

    def _may_pass(self, lab: List[Row]) -> bool:
        """Not while no machine can run a job, nor while a board may be given on that something lives on. That is ended first,
        and where it doesn't end its boards are taken out of use."""
        occupied = self._occupied(lab)
        self._hold_back(lab, occupied)
        if any(it["name"] in occupied and it["name"] not in self.out and it["health"] in HELD_BACK for it in lab):
            return False
        self.free = time.monotonic()
        return not all(it.reason for it in self.runs.values())

    def _occupied(self, lab: List[Row]) -> Dict[str, str]:
        """Boards on which a unit may live that the desk doesn't know of, as of an earlier farm, or where somebody else finished
        its job; and that unit."""
        held, found = set(calls.held_in(lab, "job")), {}
        for it in list(self.records.values()):
            if it.boards and not held & set(it.members):
                self.tell_once(f"job {it.number}: {it.unit} has no board any more, and is ended before one of its boards is given on")
                found.update(dict.fromkeys(it.boards, it.unit))
        strays = {name: next(iter(it.strays()), "") for name, it in self.runs.items()}
        found.update({it["name"]: strays[worker_of(it)] for it in lab if strays.get(worker_of(it))})
        return found

    def _pass(self) -> None:
        self.desk.nudge("/pass")
        with self.lock:
            self.passes.add()

    def _give(self, lab: List[Row]) -> None:
        """Gives the groups that hold boards to the machines that run them, but those that collect boards still."""
        held = calls.held_in(lab, "job")
        self.machines = {it["name"]: worker_of(it) for it in lab}
        known = {it: record for record in list(self.records.values()) for it in record.members}
        given: Dict[str, Set[int]] = {name: set() for name in self.runs}
        for number in sorted(held):
            record, view = known.get(number), None if number in known else calls.job_of(self.desk, number)
            if record is not None:
                given.get(str(record.get("worker")), set()).add(record.number)
            elif view is not None and view["state"] in HELD:
                given.get(self._machine_of(view, held), set()).add(view["group"])
        for name, runs in self.runs.items():
            runs.given = given[name]
            runs.wake()

    def _machine_of(self, view: Row, held: Dict[int, Row]) -> str:
        """The machine at which a group's first board hangs, or, where it runs, one that has a unit of its number."""
        name = DESK if self.options.command else worker_of(held.get(view["group"], held[view["number"]]))
        having = [it for it, runs in self.runs.items() if runs.units_of(view["group"])]
        return having[0] if having and name not in having and view["state"] != "Scheduled" else name

    # ---- machines that don't answer

    def _workers(self, lab: Sequence[Row]) -> List[Row]:
        """What is told of the machines."""
        rows = [{"name": it, "answers": not by.reason, "since": by.since, "reason": by.reason} for it, by in self.runs.items()]
        named = set() if self.options.command else {worker_of(it) for it in lab} - set(self.runs)
        self.unknown = {it: self.unknown.get(it, int(time.time())) for it in sorted(named)}
        for name, since in self.unknown.items():
            self.tell_once(f"worker {name} is named by boards, and nobody set it up")
            rows.append({"name": name, "answers": False, "since": since, "reason": f"{self.options.workers} doesn't name it"})
        return rows

    def _hold_back(self, lab: Sequence[Row], occupied: Dict[str, str]) -> None:
        """Takes boards of machines that don't answer, and those that are occupied, out of use, and gives them back."""
        if self.options.command or self.own is None:
            return
        is_over = time.monotonic() > self.free + OUT_AFTER
        for board in lab:
            machine, name = worker_of(board), board["name"]
            runs, unit = self.runs.get(machine), occupied.get(name, "")
            is_away = runs is not None and bool(runs.reason) and time.time() > runs.since + AWAY_AFTER
            if (unit and is_over or is_away) and name not in self.out and board["health"] in HELD_BACK:
                self._note_away({**self.away, name: board["health"]})
                if self.set_health(name, "Maintenance", f"{unit} lives on it" if unit else f"worker {machine} doesn't answer"):
                    self.out[name] = unit
            elif name in self.away and not unit and runs is not None and not runs.reason:
                unit = self.out.pop(name, "")
                if board["health"] == "Maintenance":
                    self.set_health(name, self.away[name], f"{unit} has ended" if unit else f"worker {machine} answers again")
                self._note_away({key: it for key, it in self.away.items() if key != name})

    def _note_away(self, away: Dict[str, str]) -> None:
        disk.write_whole(os.path.join(self.place, AWAY), json.dumps(away) + "\n")
        self.away = away

    def end(self) -> None:
        """Ends the threads, and what runs by hand."""
        self.is_over = True
        for it in self.runs.values():
            it.wake()
        for it in self.runs.values():
            if it.thread.ident:
                it.thread.join(timeout=2.0)
            it.worker.close_all()


def identity_of(place: str) -> str:
    """The name of a dispatcher's folder, which is made once."""
    file = os.path.join(place, "id")
    if not (disk.text_in(file) or "").strip():
        disk.write_synced(file, f"{secrets.token_hex(8)}\n")
    name = (disk.text_in(file) or "").strip()
    if not re.fullmatch("[0-9a-f]{16}", name):
        raise OSError(f"{file} is no name of a folder, which has 16 hexadecimal digits")
    return name


def text_again(text: str) -> Optional[str]:
    """A job's text as it is submitted again, with `retry = 0` in the one line that says it; None where it doesn't ask
    for that, or says so in a way that can't be changed."""
    with contextlib.suppress(toml_text.NotToml):
        before = toml_text.tree_of(text)
        if type(before.get("retry")) is int and before["retry"] == 1:
            lines, at = text.split("\n"), toml_text.line_of(text, ["retry"]) - 1
            changed = "\n".join([*lines[:at], lines[at].replace("1", "0", 1), *lines[at + 1 :]])
            return changed if toml_text.tree_of(changed) == {**before, "retry": 0} else None
    return None
