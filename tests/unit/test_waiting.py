"""Waits for a reservation's board, by a clock of the test's own."""
from __future__ import annotations

import time
from typing import Any, Dict, List, Type, cast

import pytest
from fake_desk import FakeDesk
from fizgruk import calls, waiting
from fizgruk.desk import waiting as desk_waiting
from fizgruk.errors import Refused, ReservationEnded, TimedOut, Unreachable

LEASE = 60  # seconds for which a reservation lives that isn't refreshed
EXPIRED = Refused(409, 31, "expired")


class Desk(FakeDesk):
    """A desk of one reservation, 7, which has its board after some seconds; `faults` come in place of answers to its
    refreshes."""

    def __init__(self, monkeypatch: pytest.MonkeyPatch) -> None:
        super().__init__(types=[], jobs={1: {"owner": "bob"}}, **{"workers.json": {}, "running.json": {}})
        self.now = 1000.0
        self.comes = 100.0  # after so many seconds
        self.holder = "job 1"  # until then
        self.state = "waiting"
        self.queue: List[Dict[str, Any]] = []  # what waits besides
        self.refreshes: List[float] = []
        monkeypatch.setattr(time, "time", lambda: self.now)
        monkeypatch.setattr(time, "monotonic", lambda: self.now)
        monkeypatch.setattr(time, "sleep", self.sleep)

    def sleep(self, seconds: float) -> None:
        self.now += seconds

    def look(self, path: str) -> Dict[str, Any]:
        has_board = self.now >= 1000 + self.comes
        own = [{"kind": "reservation", "number": 7}] if not has_board and self.state == "waiting" else []
        holder = "reservation 7" if has_board else self.holder
        self.views.update(
            status={"clock": int(self.now), "count": int(self.now)}, queue=own + self.queue,
            boards=[{"name": "b1", "type": "bbb", "tags": [], "health": "Good", "holder": holder}],
            reservations=[{"number": 7, "state": self.state, "tags": [], "owner": "ann"}],
        )
        return super().look(path)

    def nudge(self, path: str) -> Dict[str, Any]:  # type: ignore[override]
        assert path == "/reservations/7/refresh"
        super().nudge(path)
        self.refreshes.append(self.now - 1000)
        return {"number": 7}


@pytest.fixture
def desk(monkeypatch: pytest.MonkeyPatch) -> Desk:
    return Desk(monkeypatch)


def wait(desk: Desk, every: float = 2, number: int = 7) -> Dict[str, Any]:
    with desk_waiting.ShownWait(cast(calls.Desk, desk), desk_waiting.FarmClock(cast(calls.Desk, desk)), every) as waits:
        return waiting.wait_for_board(waits, number, [])


@pytest.mark.parametrize("every", [0.05, 2, 19, 60])
def test_a_reservation_that_waits_is_refreshed_long_before_its_lease_ends(desk: Desk, every: float) -> None:
    assert wait(desk, every)["name"] == "b1"
    moments = [0.0, *desk.refreshes, desk.now - 1000]
    assert max(later - former for former, later in zip(moments, moments[1:])) <= LEASE * 2 / 3
    assert len(desk.refreshes) <= 5, "each refresh moves the desk's clock for all"


def test_while_a_free_board_fits_it_is_told_that_no_pass_comes(desk: Desk, capsys: pytest.CaptureFixture[str]) -> None:
    """Also though others move the desk's clock."""
    for desk.holder, count in (("job 1", 0), ("none", 1)):
        desk.now = 1000.0
        assert wait(desk)["name"] == "b1"
        assert capsys.readouterr().err.count("desk: no pass for 36 seconds: is farm-dispatch running?\n") == count


def test_a_board_that_comes_between_two_views_is_its_own(
    desk: Desk, monkeypatch: pytest.MonkeyPatch, capsys: pytest.CaptureFixture[str]
) -> None:
    """A pass comes after the queue was shown, and before the boards are: no holder is told, least of all itself."""
    look = desk.look

    def look_and_pass(path: str) -> Dict[str, Any]:
        seen = look(path)
        if path == "/queue" and desk.now >= 1010:
            desk.comes = 0.0
        return seen

    monkeypatch.setattr(desk, "look", look_and_pass)
    assert wait(desk)["name"] == "b1"
    told = capsys.readouterr().err
    assert "reservation 7 of" not in told and "held by job 1 of bob" in told
    assert desk.now == 1010, "it doesn't look once more"


def test_a_job_that_gets_its_board_between_two_views_isnt_its_own_reason(desk: Desk) -> None:
    desk.state, desk.queue = "canceled", [{"kind": "group", "number": 1}]
    job: Dict[str, Any] = {"number": 1, "group": 1, "state": "Submitted", "type": "bbb", "tags": []}
    waits = desk_waiting.ShownWait(cast(calls.Desk, desk), desk_waiting.FarmClock(cast(calls.Desk, desk)), 2)
    assert waiting.state_and_place(waits, [job]) == "Submitted, place 1 of 1 in the queue"
    other = {**job, "number": 2}
    assert waiting.state_and_place(waits, [other]).endswith(": 1 board fits, held by job 1 of bob")


@pytest.mark.parametrize("fault, kind, told", [
    (EXPIRED, ReservationEnded, "reservation 7 has expired"),
    (Refused(409, 32, "wrong reservation state"), ReservationEnded, "reservation 7 has ended"),
    (Refused(403, 3, "forbidden"), Refused, "3 forbidden"),
])
def test_a_refused_refresh_ends_the_wait(desk: Desk, fault: Exception, kind: Type[Exception], told: str) -> None:
    """With what became of the reservation; another refusal is the desk's."""
    desk.faults = [fault]
    with pytest.raises(kind, match=f"^{told}$"):
        wait(desk)


@pytest.mark.parametrize("state, number", [("expired", 7), ("canceled", 7), ("unknown", 8)])
def test_a_reservation_that_ended_is_gone(desk: Desk, state: str, number: int) -> None:
    desk.state = state
    with pytest.raises(ReservationEnded, match=f"^reservation {number} is {state}$"):
        wait(desk, number=number)


def test_one_that_left_the_queue_while_the_boards_were_looked_at_is_looked_at_again(
    desk: Desk, capsys: pytest.CaptureFixture[str]
) -> None:
    desk.state, desk.comes = "allocated", 2.0
    assert wait(desk)["name"] == "b1" and desk.now == 1002
    assert "reservation 7 is allocated\n" in capsys.readouterr().err


def test_a_wait_ends_at_its_time_and_says_why(desk: Desk) -> None:
    """Neither before nor a look later."""
    timed = waiting.Wait(cast(calls.Desk, desk), "no board", 5, 2.0, print)
    told = "no board within 5 s: reservation 7 is waiting, place 1 of 1 in the queue: 1 board fits, held by job 1 of bob"
    with pytest.raises(TimedOut, match=f"^{told}$"):
        waiting.wait_for_board(timed, 7, ())
    assert desk.now == 1005


def test_a_desk_that_gives_no_answer_is_asked_again(desk: Desk, capsys: pytest.CaptureFixture[str]) -> None:
    desk.faults = [Unreachable("gone"), Unreachable("gone")]
    assert wait(desk)["name"] == "b1"
    assert capsys.readouterr().err.count("no answer from the desk: gone\n") == 1
    assert len(desk.refreshes) >= 2
