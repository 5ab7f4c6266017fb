"""What farm-watch sees between two looks at a desk, by a desk and a clock that are set by hand."""
from __future__ import annotations

import itertools
import os
import signal
import sqlite3
import tempfile
from typing import Any, Dict, Iterator, List, Optional, Sequence, Set, Tuple

import pytest
from hand_clock import NOW, Clock
from farm_watch import holds as watch_holds, tell as watch_tell, watcher
from farm_watch.rules import Mail, Rules
from farm_watch.store import Delivery, Store
from farm_watch.watcher import Watcher
from fizgruk import records
from fizgruk.errors import Code, Refused

HOUR = 3600
GONE = Refused(404, Code.NO_SUCH_JOB, "no such job")


class Desk:
    """A desk whose views are set by hand; what is asked of it is noted. It has the boards b1 and b2, Good and free."""

    def __init__(self, clock: Clock) -> None:
        self.clock = clock
        self.count = 10
        self.next = 1
        self.boards = {it: self.board(it) for it in ("b1", "b2")}
        self.queue: List[Dict[str, Any]] = []
        self.jobs: Dict[int, Dict[str, Any]] = {}
        self.reservations: Dict[int, Dict[str, Any]] = {}
        self.asked: List[str] = []
        self.told: List[Tuple[str, Optional[str]]] = []
        self.done: Set[Optional[str]] = set()  # the keys of commands
        self.refusal: Optional[Refused] = None
        self.is_full = False
        self.history: Optional[List[Dict[str, Any]]] = None  # none is served
        self.kills = ""  # farm-watch, as it tells a command: before the desk has it, or after

    @staticmethod
    def board(name: str) -> Dict[str, Any]:
        return {"name": name, "type": "bbb", "tags": [], "health": "Good", "state": "Idle", "holder": "none"}

    def look(self, path: str) -> Any:
        self.asked.append(path)
        kind, _, number = path[1:].partition("/")
        if kind == "jobs":
            if int(number) not in self.jobs:
                raise GONE
            return self.jobs[int(number)]
        if kind == "history.json" and self.history is None:
            raise Refused(404, Code.NO_SUCH_ROUTE, "no such route")
        return {
            "status": {"count": self.count, "next": self.next, "clock": int(self.clock.at)},
            "history.json": {"jobs": self.history},
            "queue": {"queue": self.queue},
            "boards": {"boards": list(self.boards.values())},
            "reservations": {"reservations": list(self.reservations.values())},
        }[kind]

    def tell(self, path: str, body: None = None, key: Optional[str] = None) -> Any:
        self.told.append((path, key))
        if self.kills == "before":
            raise SystemExit
        if self.is_full and key:
            raise Refused(409, Code.FULL, "full")
        if self.refusal:
            raise self.refusal
        row = self.reservations[int(path.split("/")[2])]
        if key in self.done:
            return {}
        if row["state"] == "canceled":
            raise Refused(409, Code.WRONG_RESERVATION_STATE, "wrong state")
        self.count += 1
        self.done.add(key)
        row["state"] = "canceled"
        self.boards[row["board"]].update(state="Idle", holder="none")
        if self.kills:
            raise SystemExit
        return {}

    # ---- what happens

    def submits(self, owner: str = "ann", size: int = 1, kind: str = "job") -> int:
        """A job of so many boards, which waits."""
        number, self.next = self.next, self.next + size
        for it in range(number, number + size):
            self.jobs[it] = {
                "number": it, "group": number, "owner": owner, "kind": kind, "state": "Waiting", "result": "",
                "text": "job_name = 'boot'", "type": "bbb", "tags": [], "board": "", "role": "",
            }
        self.queue.append({"kind": "group", "number": number, "owner": owner, "boards": size})
        self.count += 1
        return number

    def gives(self, number: int, *names: str, holder: str = "job") -> None:
        """A pass, which gives boards to a claim that waits."""
        self.queue = [it for it in self.queue if it["number"] != number]
        state = "Running" if holder == "job" else "Reserved"
        for place, name in enumerate(names):
            self.boards[name].update(state=state, holder=f"{holder} {number + place}")
        self.count += 1

    def ends(self, number: int, result: str = "Complete") -> None:
        self.queue = [it for it in self.queue if it["number"] != number]
        for board in self.boards.values():
            if board["holder"] == f"job {number}":
                board.update(state="Idle", holder="none")
        self.jobs[number].update(state="Finished", result=result)
        self.count += 1

    def waits(self, owner: str = "ann", tags: Sequence[str] = ()) -> int:
        """A reservation that waits."""
        number, self.next = self.next, self.next + 1
        self.queue.append({"kind": "reservation", "number": number, "owner": owner, "boards": 1})
        self.reservations[number] = {"number": number, "owner": owner, "tags": list(tags), "state": "waiting"}
        self.count += 1
        return number

    def holds(self, name: str, begin: float, owner: str = "ann") -> int:
        """A reservation that has had a board since a moment."""
        number, self.next = self.next, self.next + 1
        self.boards[name] = {**self.board(name), "state": "Running", "holder": f"reservation {number}"}
        self.reservations[number] = {
            "number": number, "owner": owner, "tags": [], "state": "acquired", "board": name,
            "deadline": int(begin) + 60,
        }
        self.count += 1
        return number


def rules(**more: Any) -> Rules:
    """Rules that tell of nothing but what is said."""
    said: Dict[str, Any] = {
        "desk": {}, "mail": Mail("f@x.example", "{owner}@x.example", ("l@x.example",), "/bin/true", {}),
        "webhook": None, "remind": None, "end": None, "outcomes": (), "free": (),
        "by": {it: ("mail",) for it in ("hold", "job", "board")},
    }
    return Rules(**{**said, **more})


class Lab:
    """A desk and who watches it."""

    def __init__(self, file: str, clock: Clock):
        self.file = file
        self.clock = clock
        self.desk = Desk(clock)
        self.troubles: List[str] = []

    def watches(self, **said: Any) -> "Lab":
        """A process begins to watch, also after another one; it looks once."""
        self.store = Store(self.file)
        place = os.path.dirname(self.file)
        self.watcher = Watcher(self.desk, self.store, rules(**said), self.troubles.append, place)  # type: ignore[arg-type]
        self.looks()
        return self

    def looks(self, after: float = 0) -> None:
        self.clock.at += after
        self.watcher.round()

    def bodies(self) -> List[Dict[str, Any]]:
        """What was told since this was asked."""
        found: List[Dict[str, Any]] = []
        while True:
            it = self.store.take("mail")
            if it is None:
                return found
            self.store.done(it, "mail")
            found.append(it.body)

    def told(self) -> List[Tuple[str, str]]:
        """Whom what was told since this was asked."""
        return [(it["owner"], it["subject"]) for it in self.bodies()]


@pytest.fixture
def lab(monkeypatch: pytest.MonkeyPatch) -> Iterator[Lab]:
    clock = Clock()
    for module in (watch_tell, watch_holds, watcher):
        if hasattr(module, "time"):
            monkeypatch.setattr(module, "time", clock)
    with tempfile.TemporaryDirectory(dir="/dev/shm" if os.path.isdir("/dev/shm") else None) as folder:
        yield Lab(f"{folder}/watch.db", clock)


# ---- jobs

ALL = {"outcomes": ("Complete", "Incomplete", "Infra", "Canceled")}


def test_a_job_that_began_and_ended_between_two_looks_is_told(lab: Lab) -> None:
    lab.watches(**ALL)
    number = lab.desk.submits()
    lab.desk.ends(number)
    lab.looks()
    assert lab.told() == [("ann", "job 1 (boot) has ended: Complete")]
    lab.looks()
    assert lab.told() == []


def test_a_group_is_told_once_all_its_members_have_ended(lab: Lab) -> None:
    """Also where its last member's number is found alone, since the others were asked for before."""
    lab.watches(**ALL)
    number = lab.desk.submits(size=2)
    lab.desk.gives(number, "b1", "b2")
    lab.desk.ends(number)
    lab.looks()
    assert lab.told() == []
    lab.desk.ends(number + 1, "Infra")
    lab.looks()
    assert lab.told() == [("ann", "job 1 (boot) has ended: Complete, Infra")]


def test_a_group_that_ended_between_two_looks_is_told_with_all_members(lab: Lab) -> None:
    lab.watches(**ALL)
    number = lab.desk.submits(size=3)
    for it in range(3):
        lab.desk.ends(number + it)
    lab.looks()
    assert lab.told() == [("ann", "job 1 (boot) has ended: Complete, Complete, Complete")]


def test_what_was_open_at_the_first_look_is_told_and_what_had_ended_isnt(lab: Lab) -> None:
    ended, runs, waits = (lab.desk.submits(owner=it) for it in ("ann", "bob", "cat"))
    lab.desk.ends(ended)
    lab.desk.gives(runs, "b1")
    lab.watches(**ALL)
    lab.desk.ends(runs)
    lab.desk.ends(waits)
    lab.looks()
    assert sorted(lab.told()) == [
        ("bob", "job 2 (boot) has ended: Complete"), ("cat", "job 3 (boot) has ended: Complete"),
    ]


def test_what_happened_while_nobody_watched_is_told_by_the_next_process(lab: Lab) -> None:
    lab.watches(**ALL)
    runs = lab.desk.submits()
    lab.desk.gives(runs, "b1")
    lab.looks()
    lab.desk.ends(runs)
    lab.desk.ends(lab.desk.submits(owner="bob"))
    lab.watches(**ALL)
    assert [owner for owner, _ in lab.told()] == ["ann", "bob"]


def test_outcomes_that_arent_named_and_checks_arent_told(lab: Lab) -> None:
    lab.watches(outcomes=("Infra",))
    lab.desk.ends(lab.desk.submits())
    lab.desk.ends(lab.desk.submits(kind="check"), "Infra")
    lab.looks()
    assert lab.told() == []


def test_more_jobs_than_a_look_asks_for_are_told_by_the_next(lab: Lab) -> None:
    lab.watches(**ALL)
    for _ in range(201):
        lab.desk.ends(lab.desk.submits())
    for _ in range(3):
        before = len(lab.desk.asked)
        lab.looks()
        assert sum(it.startswith("/jobs/") for it in lab.desk.asked[before:]) <= 200
    assert len(lab.told()) == 201


def test_a_reason_of_the_history_is_told_of_this_farms_job_alone(lab: Lab) -> None:
    """And it isn't asked for again for a while where no proxy serves it."""
    lab.watches(**ALL)
    of_bob: Dict[str, Any] = {"kind": "job", "job": 2, "owner": "bob", "outcome": "Incomplete"}
    histories: Tuple[Optional[List[Dict[str, Any]]], ...] = (None, [
        {**of_bob, "owner": "ann", "reason": "another farm's"}, {**of_bob, "reason": "time limit,\nstatus 143"},
        {"kind": "job", "job": 1}])
    for lab.desk.history in histories:
        lab.desk.ends(lab.desk.submits(owner="bob"), "Incomplete")
        lab.looks(after=600)
    assert [it["reason"] for it in lab.bodies()] == ["", "time limit, status 143"]
    lab.desk.history = None
    for _ in range(2):
        lab.desk.ends(lab.desk.submits())
        lab.looks(5)
    assert lab.desk.asked.count("/history.json") == 3


def test_a_look_asks_for_three_views_and_new_jobs(lab: Lab) -> None:
    """Nothing that grows with the farm's age, and little."""
    lab.watches(**ALL, **HOLDS, free=("reservation",))
    assert lab.desk.asked == ["/status", "/queue", "/boards"]
    lab.desk.waits()
    job = lab.desk.submits()
    acquires(lab, lab.desk.waits(), "b1")
    lab.looks()
    lab.desk.asked.clear()
    for _ in range(20):
        lab.looks(5)
    assert lab.desk.asked == ["/status", "/queue", "/boards"] * 20 and not lab.desk.told
    lab.desk.ends(job)
    lab.looks()
    assert lab.desk.asked[-2:] == [f"/jobs/{job}", "/history.json"]


def test_the_next_farm_begins_its_numbers_anew(lab: Lab) -> None:
    lab.watches(**ALL)
    for _ in range(2):
        lab.desk.ends(lab.desk.submits())
    lab.looks()
    assert len(lab.told()) == 2
    lab.desk = lab.watcher.desk = Desk(lab.clock)  # type: ignore[assignment]
    lab.desk.count = 3
    lab.looks()
    lab.desk.ends(lab.desk.submits(owner="bob"))
    lab.looks()
    assert lab.told() == [("bob", "job 1 (boot) has ended: Complete")]


# ---- boards


@pytest.mark.parametrize("free, wanted", [
    ((), []),
    (("reservation",), [("ann", "reservation 1 has got b1")]),
    (("reservation", "group"), [("ann", "reservation 1 has got b1"), ("bob", "job 2 has got b2")]),
])
def test_who_waited_is_told_once_of_the_boards_that_were_given(
    lab: Lab, free: Tuple[str, ...], wanted: List[Tuple[str, str]]
) -> None:
    lab.watches(free=free)
    waits, job = lab.desk.waits(), lab.desk.submits(owner="bob")
    lab.looks()
    lab.desk.gives(waits, "b1", holder="reservation")
    lab.desk.gives(job, "b2")
    lab.looks()
    lab.looks()
    found = lab.bodies()
    assert sorted((it["owner"], it["subject"]) for it in found) == wanted
    assert not found or f"desk acquire {waits}" in found[0]["text"]


def test_who_didnt_wait_isnt_told(lab: Lab) -> None:
    """It was given its board between two looks, or gave up waiting."""
    lab.watches(free=("reservation", "group"))
    at_once, gives_up = lab.desk.waits(), lab.desk.waits(owner="bob")
    lab.desk.gives(at_once, "b1", holder="reservation")
    lab.looks()
    lab.desk.queue = [it for it in lab.desk.queue if it["number"] != gives_up]
    lab.looks()
    assert lab.told() == []


# ---- holds

HOLDS = {"remind": 4 * HOUR, "end": 12 * HOUR}


def test_a_hold_is_reminded_of_and_ended_when_it_is_due_and_not_a_second_before(lab: Lab) -> None:
    number = lab.desk.holds("h1", NOW)
    lab.watches(**HOLDS)
    lab.looks(after=4 * HOUR - 1)
    assert lab.told() == []
    lab.looks(after=1)
    assert lab.told() == [("ann", "you have held h1 for 4 hours (reservation 1)")]
    lab.looks(after=8 * HOUR - 1)
    assert (lab.told(), lab.desk.told) == ([], [])
    lab.looks(after=1)
    assert lab.told() == [("ann", "reservation 1 was ended: you had held h1 for 12 hours")]
    assert lab.desk.told == [(f"/reservations/{number}/cancel", "watch-end-1")]
    lab.looks()
    assert (lab.told(), len(lab.desk.told)) == ([], 1)


def test_a_hold_that_was_extended_just_before_its_end_isnt_ended(lab: Lab) -> None:
    """By what was known of it it is due, so the rows are looked at, which are looked at no more than that."""
    extended, other = lab.desk.holds("h1", NOW - HOUR), lab.desk.holds("h2", NOW - HOUR, owner="bob")
    lab.watches(end=12 * HOUR)
    lab.looks(after=11 * HOUR - 5)
    assert lab.desk.asked.count("/reservations") == 1, "at the start, when nothing is known"
    lab.desk.reservations[extended]["deadline"] = lab.clock.at + 60
    lab.looks(after=5)
    assert lab.told() == [("bob", "reservation 2 was ended: you had held h2 for 12 hours")]
    assert [lab.desk.reservations[it]["state"] for it in (extended, other)] == ["acquired", "canceled"]
    for _ in range(10):
        lab.looks(after=HOUR)
    assert lab.desk.asked.count("/reservations") == 2
    lab.looks(after=2 * HOUR)
    assert lab.told() == [("ann", "reservation 1 was ended: you had held h1 for 12 hours")]


@pytest.mark.parametrize("is_again", [False, True])
def test_a_hold_that_was_extended_after_its_reminder_is_reminded_of_again(lab: Lab, is_again: bool) -> None:
    """Its age begins anew. Also by another process; the rows are looked at once in that time."""
    number = lab.desk.holds("h1", NOW)
    lab.watches(remind=4 * HOUR)
    lab.looks(after=4 * HOUR)
    assert lab.told() == [("ann", "you have held h1 for 4 hours (reservation 1)")]
    lab.looks(after=HOUR)
    lab.desk.reservations[number]["deadline"] = lab.clock.at + 60
    if is_again:
        lab.watches(remind=4 * HOUR)
    before = lab.desk.asked.count("/reservations")
    for _ in range(3):
        lab.looks(after=HOUR)
    lab.looks(after=HOUR - 1)
    assert lab.told() == []
    assert lab.desk.asked.count("/reservations") == before + 1
    lab.looks(after=1)
    assert lab.told() == [("ann", "you have held h1 for 4 hours (reservation 1)")]


def test_a_hold_that_wasnt_extended_is_reminded_of_once(lab: Lab) -> None:
    lab.desk.holds("h1", NOW)
    lab.watches(remind=4 * HOUR)
    for _ in range(24):
        lab.looks(after=HOUR)
    assert len(lab.told()) == 1
    assert lab.desk.asked.count("/reservations") <= 1 + 24 / 4


def test_holds_count_by_the_farms_clock_where_the_machines_was_set_back(
    lab: Lab, monkeypatch: pytest.MonkeyPatch
) -> None:
    """The farm's clock never goes back, and deadlines are by it."""
    lab.desk.holds("h1", NOW)
    lab.watches(**HOLDS)
    back = Clock()
    back.at = NOW - 30 * 86400.0
    monkeypatch.setattr(watcher, "time", back)
    lab.looks(after=4 * HOUR)
    assert lab.told() == [("ann", "you have held h1 for 4 hours (reservation 1)")]


@pytest.mark.parametrize("code", [Code.RESERVATION_EXPIRED, Code.WRONG_RESERVATION_STATE, Code.NO_SUCH_RESERVATION])
def test_a_hold_that_its_owner_ended_meanwhile_isnt_told(lab: Lab, code: int) -> None:
    lab.desk.holds("h1", NOW - 12 * HOUR)
    lab.desk.refusal = Refused(409, code, "gone")
    lab.watches(end=12 * HOUR)
    assert (lab.told(), lab.troubles) == ([], [])


def test_a_hold_that_cant_be_ended_is_told_and_tried_again_after_ten_minutes(lab: Lab) -> None:
    lab.desk.holds("h1", NOW - 12 * HOUR)
    lab.desk.refusal = Refused(403, Code.FORBIDDEN, "forbidden")
    lab.watches(end=12 * HOUR)
    for _ in range(9):
        lab.looks(after=60)
    assert (len(lab.desk.told), lab.told()) == (1, [])
    assert lab.troubles == ["reservation 1 can't be ended: refused: 3 forbidden"]
    lab.desk.refusal = None
    lab.looks(after=60)
    assert [owner for owner, _ in lab.told()] == ["ann"]


def test_killed_while_it_ends_a_hold_the_next_process_tells_its_own_end(lab: Lab) -> None:
    """Before the desk has the command, or after; neither an extended one nor another's end is told."""
    lab.desk.boards.clear()
    extended, other, mine, last = (lab.desk.holds(f"h{it}", NOW - 12 * HOUR, f"user{it}") for it in range(4))
    lab.desk.kills = "before"
    with pytest.raises(SystemExit):
        lab.watches(end=12 * HOUR)
    lab.desk.reservations[extended]["deadline"] = NOW + 60
    lab.desk.reservations[other]["state"] = "canceled"
    lab.desk.kills = "after"
    with pytest.raises(SystemExit):
        lab.watches(end=12 * HOUR)
    lab.desk.kills = ""
    lab.watches(end=12 * HOUR)
    lab.looks()
    assert [owner for owner, _ in lab.told()] == ["user2", "user3"]
    states = [lab.desk.reservations[it]["state"] for it in (extended, other, mine, last)]
    assert states == ["acquired", "canceled", "canceled", "canceled"]


def told_over_a_kill(lab: Lab, count: int, file: str) -> bool:
    """Watches and tells in a child, which is killed at its place of this count: each statement that its SQLite begins, and
    each message before and behind its telling. Returns whether it was."""
    def place(_: object = None) -> None:
        if not child and next(left) == count:
            os.kill(os.getpid(), signal.SIGKILL)

    def notes(it: Delivery) -> str:
        place()
        with open(file, "a", encoding="utf-8") as opened:
            opened.write(f"{it.ident} {it.body}\n")
        place()
        return "ann"

    def connect(*words: Any, **more: Any) -> sqlite3.Connection:
        line = plain(*words, **more)
        line.set_trace_callback(place)
        return line

    def tells() -> None:
        lab.watches(**ALL, remind=4 * HOUR)
        teller = watch_tell.Messenger(lab.store, "mail", notes, lab.troubles.append)
        while teller._one():
            pass

    plain, left, child = sqlite3.connect, itertools.count(1), os.fork()
    if child:
        how = os.waitpid(child, 0)[1]
        tells()
        return os.WIFSIGNALED(how)
    setattr(sqlite3, "connect", connect)
    try:
        tells()
    finally:
        os._exit(0)


def test_killed_anywhere_it_tells_each_event_once(lab: Lab) -> None:
    """The end of a job, and a reminder; what comes again has its id, by which it is dropped, and is the same to the byte."""
    file, wanted = f"{lab.file}.told", []
    for count in itertools.count(1):
        lab.desk.boards.clear()
        number = lab.desk.submits()
        lab.watches(**ALL)
        lab.store.line.close()
        lab.desk.ends(number)
        held = lab.desk.holds(f"h{count}", NOW - 4 * HOUR)
        wanted += [f"'job': {number},", f"'reservation': {held},"]
        if not told_over_a_kill(lab, count, file):
            break
    with open(file, encoding="utf-8") as told:
        lines = set(told)
    assert [sum(it in line for line in lines) for it in wanted] == [1] * len(wanted)
    assert count > 20 and len(lines) == len(wanted)


def test_without_room_for_replies_a_hold_is_ended_without_a_key(lab: Lab) -> None:
    lab.desk.holds("h1", NOW - 12 * HOUR)
    lab.desk.is_full = True
    lab.watches(end=12 * HOUR)
    path = "/reservations/1/cancel"
    assert lab.desk.told == [(path, "watch-end-1"), (path, None)]
    assert [owner for owner, _ in lab.told()] == ["ann"]


# ---- the holds that have ended


def lines(lab: Lab) -> List[Dict[str, Any]]:
    """The holds that are written down, without their keys, of which each has its own."""
    file = os.path.join(os.path.dirname(lab.file), "shown", "holds.jsonl")
    rows = list(records.rows_of(file))
    assert len({it.pop("key") for it in rows}) == len(rows)
    return rows


def hold_of(number: int, began: float, ended: float, owner: str = "ann", board: str = "b1", reason: str = "") -> Dict[str, Any]:
    return {
        "kind": "hold", "reservation": number, "owner": owner, "board": board, "type": "bbb", "began": int(began),
        "ended": int(ended), "reason": reason,
    }


def acquires(lab: Lab, number: int, name: str) -> None:
    lab.desk.gives(number, name, holder="reservation")
    lab.looks(5)
    lab.desk.boards[name].update(state="Running")
    lab.looks(5)


def held(lab: Lab, owner: str = "ann") -> Tuple[int, float]:
    """A hold of b1 that was seen from its waiting on: its number, and when it began."""
    lab.watches()
    number = lab.desk.waits(owner)
    lab.looks()
    acquires(lab, number, "b1")
    return number, lab.clock.at


def frees(lab: Lab, name: str) -> None:
    lab.desk.boards[name].update(state="Idle", holder="none")


def test_a_hold_that_was_seen_from_its_waiting_on_is_written_down_at_its_end(lab: Lab) -> None:
    """Without a question for all reservations, over another process."""
    lab.watches()
    number = lab.desk.waits("bob")
    lab.looks()
    lab.desk.gives(number, "b1", holder="reservation")
    for _ in range(3):
        lab.looks(5)
    lab.desk.boards["b1"].update(state="Running")
    lab.looks(5)
    began = lab.clock.at
    for _ in range(100):
        lab.looks(50)
    lab.watches()
    assert lines(lab) == []
    frees(lab, "b1")
    lab.looks(5)
    assert lines(lab) == [hold_of(number, began, lab.clock.at, "bob")]
    assert "/reservations" not in lab.desk.asked


def test_a_hold_nobody_saw_waiting_has_its_owner_by_a_question_at_its_end(lab: Lab) -> None:
    """Of several that end at once, or within a minute, one question."""
    lab.watches()
    first, second = lab.desk.holds("b1", NOW, "bob"), lab.desk.holds("b2", NOW, "zoe")
    lab.looks(5)
    began = lab.clock.at
    lab.looks(600)
    frees(lab, "b1")
    lab.looks(5)
    frees(lab, "b2")
    lab.looks(5)
    assert lines(lab) == [hold_of(first, began, began + 605, "bob")]
    lab.looks(60)
    assert lines(lab)[1:] == [hold_of(second, began, began + 610, "zoe", "b2")]
    assert lab.desk.asked.count("/reservations") == 2


def test_a_board_that_is_released_and_acquired_again_is_two_holds(lab: Lab) -> None:
    number, began = held(lab)
    lab.desk.boards["b1"].update(state="Reserved")
    lab.looks(30)
    lab.desk.boards["b1"].update(state="Running")
    lab.looks(5)
    frees(lab, "b1")
    lab.looks(5)
    assert lines(lab) == [hold_of(number, began, began + 30), hold_of(number, began + 35, began + 40)]


def test_what_was_only_given_to_a_reservation_is_no_hold(lab: Lab) -> None:
    lab.watches()
    number = lab.desk.waits()
    lab.looks()
    lab.desk.gives(number, "b1", holder="reservation")
    lab.looks(5)
    frees(lab, "b1")
    lab.looks(5)
    assert lines(lab) == [] and "/reservations" not in lab.desk.asked


def test_a_hold_that_ended_while_nobody_looked_counts_until_it_was_seen_last(lab: Lab) -> None:
    number, began = held(lab)
    for _ in range(10):
        lab.looks(30)
    frees(lab, "b1")
    lab.clock.at += 5 * HOUR
    lab.watches()
    (row,) = lines(lab)
    assert began + 240 <= row["ended"] <= began + 300


def test_a_hold_that_began_before_anybody_looked_counts_from_when_the_desk_says(lab: Lab) -> None:
    number = lab.desk.holds("b1", NOW - 600, "bob")
    lab.watches(remind=HOUR)
    frees(lab, "b1")
    lab.looks(5)
    assert lines(lab) == [hold_of(number, NOW - 600, NOW + 5, "bob")]


def test_a_hold_ends_no_sooner_than_it_began(lab: Lab) -> None:
    """The last look that is kept may be older than its begin."""
    number, began = held(lab)
    frees(lab, "b1")
    lab.clock.at += 5 * HOUR
    lab.watches()
    assert lines(lab) == [hold_of(number, began, began)]


def test_a_hold_that_farm_watch_ends_says_so(lab: Lab) -> None:
    lab.watches(end=HOUR)
    number = lab.desk.holds("b1", NOW, "bob")
    lab.looks(5)
    lab.looks(HOUR)
    lab.looks(5)
    (row,) = lines(lab)
    assert (row["reservation"], row["owner"], row["reason"]) == (number, "bob", "ended by farm-watch after 1 hour")


def test_a_hold_that_an_earlier_version_kept_goes_on(lab: Lab) -> None:
    number, began = held(lab, "bob")
    seen = lab.store.seen()
    seen["held"] = {f"1.{number}": ["b1", "bbb", "bob", int(began), 0, ""], "looked": int(lab.clock.at)}
    lab.store.keep({**seen, "holds": {str(number): ["b1", "bob", int(began), None]}}, [])
    lab.watches(remind=HOUR)
    frees(lab, "b1")
    lab.looks(5)
    assert lines(lab) == [hold_of(number, began, lab.clock.at, "bob")]
    assert "holds" not in lab.watches().store.kept


def test_holds_of_the_farm_before_end_with_it(lab: Lab) -> None:
    """And what had the same numbers there isn't taken for this farm's."""
    number, began = held(lab, "bob")
    lab.desk = Desk(lab.clock)
    lab.desk.count = 1
    again = lab.desk.holds("b1", lab.clock.at, "zoe")
    assert again == number
    lab.clock.at += 5
    lab.watches()
    assert lines(lab) == [hold_of(number, began, began + 5, "bob")]
    lab.looks(5)
    frees(lab, "b1")
    lab.looks(5)
    assert [it["owner"] for it in lines(lab)] == ["bob", "zoe"]


@pytest.mark.parametrize("step", ["before the line", "in the line", "behind the line"])
def test_a_line_is_there_once_over_a_kill(lab: Lab, monkeypatch: pytest.MonkeyPatch, step: str) -> None:
    number, _ = held(lab)
    frees(lab, "b1")

    was = records.append
    if step == "behind the line":
        def whole(file: str, rows: Any) -> None:
            was(file, rows)
            raise SystemExit

        monkeypatch.setattr(records, "append", whole)
    else:

        def half(file: str, rows: Any) -> None:
            was(file, [])
            if step == "in the line":
                with open(file, "a", encoding="utf-8") as opened:
                    opened.write('{"kind":"hold","ke')
            raise SystemExit

        monkeypatch.setattr(records, "append", half)
    with pytest.raises(SystemExit):
        lab.looks(5)
    monkeypatch.undo()
    lab.watches()
    assert [it["reservation"] for it in lines(lab)] == [number]
    assert lab.store.seen()["held"] == {}


def test_what_cant_be_written_down_is_told_and_waits(lab: Lab, monkeypatch: pytest.MonkeyPatch) -> None:
    number, _ = held(lab)
    frees(lab, "b1")
    shown = os.path.join(os.path.dirname(lab.file), "shown")
    with open(shown, "w", encoding="utf-8"):
        pass
    lab.looks(5)
    assert lab.troubles == [f"{shown}/holds.jsonl can't be written: File exists"]
    os.unlink(shown)
    lab.looks(5)
    assert [it["reservation"] for it in lines(lab)] == [number]
    assert os.stat(shown).st_mode & 0o777 == 0o755 and os.stat(f"{shown}/holds.jsonl").st_mode & 0o777 == 0o644


def test_a_desk_that_shows_no_reservations_keeps_no_look_from_being_kept(lab: Lab, monkeypatch: pytest.MonkeyPatch) -> None:
    lab.watches(**ALL)
    number, job = lab.desk.holds("b1", NOW, "bob"), lab.desk.submits()
    lab.looks(5)
    was = lab.desk.look

    def look(path: str) -> Any:
        if path == "/reservations":
            raise Refused(503, 0, "no memory")
        return was(path)

    monkeypatch.setattr(lab.desk, "look", look)
    frees(lab, "b1")
    lab.desk.ends(job)
    lab.looks(5)
    assert lab.told() == [("ann", f"job {job} (boot) has ended: Complete")] and len(lab.troubles) == 1
    monkeypatch.undo()
    monkeypatch.setattr(watch_holds, "time", lab.clock)
    lab.looks(60)
    assert [it["reservation"] for it in lines(lab)] == [number]
