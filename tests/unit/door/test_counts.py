"""What farm-door counts of a user, as looks at the desk and answers to commands come in any order."""
from __future__ import annotations

import threading
from concurrent.futures import ThreadPoolExecutor
from typing import Any, Dict, List, Optional

import pytest
from fake_desk import FakeDesk
from farm_door import counts as of_counts
from farm_door.counts import Counts, Passed
from farm_door.rules import JOBS, RESERVATIONS, Group, Limits
from fizgruk._tools import service
from fizgruk.errors import Unreachable


class Desk(FakeDesk):
    """What a look at the desk finds, set by hand; each job is ann's."""

    def __init__(self) -> None:
        self.rows: List[Dict[str, Any]] = []
        super().__init__(queue=self.rows, reservations=self.rows, boards=[], jobs={"owner": "ann"})

    def waits(self, kind: str, number: int, boards: int = 1) -> None:
        self.rows.append({"kind": kind, "number": number, "owner": "ann", "boards": boards})


@pytest.fixture
def desk() -> Desk:
    return Desk()


@pytest.fixture
def counts(desk: Desk) -> Counts:
    return Counts(desk)  # type: ignore[arg-type]


def room(counts: Counts, kind: str) -> int:
    """How many more of one board ann may ask for of three."""
    ann = Group("ann", frozenset(["ann"]), Limits(open_reservations=3, open_jobs=3))
    asked = [Passed(kind, "ann", 1) for _ in range(4)]
    passed = [it for it in asked if counts.let(it, [ann]) is None]
    for it in passed:
        counts.answer(it, False)
    return len(passed)


def let(counts: Counts, kind: str, boards: int = 1) -> Passed:
    asked = Passed(kind, "ann", boards)
    assert counts.let(asked, []) is None
    return asked


@pytest.mark.parametrize("fault, told", [
    (Unreachable("no answer"), "no answer from the desk at no answer"),
    (MemoryError("no more"), "a look at the desk: MemoryError: no more"),
])
def test_a_look_that_fails_however_is_told_and_isnt_the_last(
    desk: Desk, counts: Counts, monkeypatch: pytest.MonkeyPatch, fault: Exception, told: str
) -> None:
    """Nothing is known before the desk answers."""
    def fails(path: str) -> Dict[str, Any]:
        raise fault

    with monkeypatch.context() as patched:
        patched.setattr(desk, "look", fails)
        assert service.hindrance(counts.look) == told
    assert not counts.are_known()
    counts.look()
    assert counts.are_known()


def test_what_is_asked_first_waits_for_the_first_look(
    desk: Desk, counts: Counts, monkeypatch: pytest.MonkeyPatch
) -> None:
    look, wait, is_awaited = desk.look, counts.has_looked.wait, threading.Event()

    def looked(path: str) -> Dict[str, Any]:
        assert is_awaited.wait(60)
        return look(path)

    def waited(seconds: Optional[float] = None) -> bool:
        is_awaited.set()
        return wait(seconds)

    monkeypatch.setattr(of_counts, "FIRST_LOOK", 60.0)
    monkeypatch.setattr(desk, "look", looked)
    monkeypatch.setattr(counts.has_looked, "wait", waited)
    with ThreadPoolExecutor(1) as beside:
        beside.submit(counts.look)
        assert counts.are_known()


def test_what_is_asked_first_doesnt_wait_for_ever(counts: Counts, monkeypatch: pytest.MonkeyPatch) -> None:
    monkeypatch.setattr(of_counts, "FIRST_LOOK", 0.01)
    assert not counts.are_known()


def test_what_was_let_through_counts_until_a_look_finds_it(desk: Desk, counts: Counts) -> None:
    first = let(counts, RESERVATIONS)
    assert room(counts, RESERVATIONS) == 2
    counts.renew()
    assert room(counts, RESERVATIONS) == 2, "the desk hasn't answered"
    counts.answer(first, True, 1)
    assert room(counts, RESERVATIONS) == 2, "the look was before the answer"
    desk.waits("reservation", 1)
    counts.renew()
    assert room(counts, RESERVATIONS) == 2 and room(counts, JOBS) == 3


@pytest.mark.parametrize("is_answered_first", [False, True])
def test_what_a_look_found_before_its_answer_counts_once(
    desk: Desk, counts: Counts, monkeypatch: pytest.MonkeyPatch, is_answered_first: bool
) -> None:
    """A look that began before a command was answered may find it: before the door has the answer, or while it has it."""
    first = let(counts, JOBS)
    desk.waits("group", 7)
    if is_answered_first:
        look = desk.look

        def answered(path: str) -> Dict[str, Any]:
            if path == "/queue":
                counts.answer(first, True, 7)
            return look(path)

        monkeypatch.setattr(desk, "look", answered)
        counts.renew()
    else:
        counts.renew()
        counts.answer(first, True, 7)
    assert room(counts, JOBS) == 2


def test_a_group_is_found_by_any_of_its_jobs(desk: Desk, counts: Counts) -> None:
    asked = let(counts, JOBS, 2)
    desk.views["boards"] = [{"holder": "job 8"}]  # its first job, 7, has ended
    counts.renew()
    counts.answer(asked, True, 7)
    assert room(counts, JOBS) == 2


def test_what_another_has_of_that_number_is_not_it(desk: Desk, counts: Counts) -> None:
    first = let(counts, JOBS)
    desk.waits("group", 7)
    desk.rows[0]["owner"] = "bob"
    counts.renew()
    counts.answer(first, True, 7)
    assert room(counts, JOBS) == 2
