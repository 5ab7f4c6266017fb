"""Reservations and holds that are given back whatever comes, by a clock of the test's own."""
from __future__ import annotations

import logging
import os
from typing import Any, List, Optional, Type

import pytest
from fake_desk import FakeDesk
from fizgruk import holding
from fizgruk.desk import holding as desk_holding
from fizgruk.errors import Code, NotGivenBack, Refused, ReservationEnded, Unreachable
from hand_clock import NOW, Clock

AWAY, NO, FAULT = Unreachable("away"), Refused(401, 0, "no"), Refused(503, Code.STORE_FAULT, "store fault")
EXPIRED, OVER, NONE = (
    Refused(409, it, "gone") for it in (Code.RESERVATION_EXPIRED, Code.WRONG_RESERVATION_STATE, Code.NO_SUCH_RESERVATION)
)
CANCEL = "/reservations/7/cancel"


class Slept(Clock):
    """A clock that goes on by what is slept alone."""

    def __init__(self) -> None:
        super().__init__()
        self.slept: List[float] = []

    def sleep(self, seconds: float) -> None:
        self.slept.append(seconds)
        self.at += seconds


@pytest.fixture(autouse=True)
def clock(monkeypatch: pytest.MonkeyPatch) -> Slept:
    made = Slept()
    monkeypatch.setattr(holding, "time", made)
    return made


def reservation_of(desk: Any, number: Optional[int] = 7) -> holding.Reservation:
    made = holding.Reservation(desk, ["hdmi"], "high")
    made.number = number
    return made


def hold_of(desk: Any) -> holding.Hold:
    hold = holding.Hold(desk, (), None, None, 2.0, print)
    hold._reservation.number, hold._process = 7, os.getpid()
    holding.OPEN.add(hold)
    return hold


# ---- a reservation


def test_it_is_given_back_under_one_key_once_the_desk_answers(clock: Slept) -> None:
    desk = FakeDesk(*[AWAY] * 5)
    assert desk_holding.is_given_back(reservation_of(desk))
    assert [path for path, _ in desk.told] == [CANCEL] * 6 and len({key for _, key in desk.told}) == 1
    assert clock.slept == [1.0] * 5


@pytest.mark.parametrize("fault, told, seconds", [
    (AWAY, "desk: away: reservation 7 is left: desk cancel-reservation 7\n", 61),
    (NO, "desk: 401 no: reservation 7 is left: desk cancel-reservation 7\n", 0),
    (EXPIRED, "", 0), (OVER, "", 0), (NONE, "", 0),
])
def test_what_is_left_is_told_and_what_ended_isnt(
    capsys: pytest.CaptureFixture[str], clock: Slept, fault: Exception, told: str, seconds: float
) -> None:
    """It is tried for a minute, but not where the desk refuses."""
    desk = FakeDesk(*[fault] * 1000)
    assert desk_holding.is_given_back(reservation_of(desk)) is (told == "")
    assert capsys.readouterr().err == told
    assert clock.at - NOW == pytest.approx(seconds, abs=1) and len({key for _, key in desk.told}) == 1


def test_one_that_ended_is_lost_where_it_had_a_board() -> None:
    for board in ("", "b1"):
        reservation = reservation_of(FakeDesk(EXPIRED))
        reservation.board = board
        assert desk_holding.is_given_back(reservation) and reservation.is_lost is (board != "")


def test_one_whose_number_never_came_is_asked_for_under_its_key(capsys: pytest.CaptureFixture[str]) -> None:
    """So what was done is found; if the desk is away still, it ends by itself."""
    desk = FakeDesk(AWAY, AWAY)
    reservation = reservation_of(desk, None)
    with pytest.raises(Unreachable):
        reservation.ask()
    assert not desk_holding.is_given_back(reservation)
    assert capsys.readouterr().err == "desk: away: a reservation may be left, which ends by itself within two minutes\n"
    assert desk_holding.is_given_back(reservation)
    assert [path for path, _ in desk.told] == ["/reservations"] * 3 + [CANCEL]
    *asked, cancel = (key for _, key in desk.told)
    assert len(set(asked)) == 1 and cancel not in (None, asked[0])


@pytest.mark.parametrize("fault, kind", [(EXPIRED, ReservationEnded), (OVER, ReservationEnded), (NO, Refused)])
def test_a_board_that_was_taken_back_meanwhile_is_gone(fault: Exception, kind: Type[Exception]) -> None:
    desk = FakeDesk(fault)
    reservation = reservation_of(desk)
    with pytest.raises(kind):
        reservation.acquire("b1")
    assert reservation.board == ""
    reservation.acquire("b1")
    assert reservation.board == "b1" and [path for path, _ in desk.told] == ["/reservations/7/acquire"] * 2


# ---- a hold


@pytest.mark.parametrize("fault, kind", [
    (EXPIRED, ReservationEnded), (OVER, ReservationEnded), (NO, Refused), (KeyboardInterrupt(), KeyboardInterrupt),
])
def test_a_board_that_comes_too_late_is_given_back(
    fault: BaseException, kind: Type[BaseException], monkeypatch: pytest.MonkeyPatch
) -> None:
    desk: Any = FakeDesk()

    def comes(*_: object) -> Any:
        desk.faults = [fault]
        return {"name": "b1"}

    monkeypatch.setattr(holding, "wait_for_board", comes)
    with pytest.raises(kind):
        holding.Hold(desk, ("hdmi",), None, None, 2.0, print).__enter__()
    assert [path for path, _ in desk.told][2:] == [CANCEL] and not holding.OPEN


def test_it_is_given_back_again_and_again_and_ctrl_c_comes_out_at_the_end(clock: Slept) -> None:
    desk: Any = FakeDesk(AWAY, AWAY, KeyboardInterrupt(), AWAY)  # type: ignore[arg-type]
    troubles: List[str] = []
    desk.tell_trouble = troubles.append
    hold = hold_of(desk)
    with pytest.raises(KeyboardInterrupt):
        hold.end()
    assert (len(desk.told), len({key for _, key in desk.told}), clock.slept) == (5, 1, [1.0, 1.0, 1.0])
    assert troubles == ["away", "away"], "it is told, and anew after the interrupt"
    assert hold not in holding.OPEN


def test_what_cant_be_given_back_is_raised_and_after_a_fault_logged(caplog: pytest.LogCaptureFixture) -> None:
    left = "store fault: reservation 7 is left: desk cancel-reservation 7"
    with pytest.raises(NotGivenBack, match=f"^60 {left}$"):
        hold_of(FakeDesk(FAULT)).end()
    hold_of(FakeDesk(FAULT)).end(ValueError())
    assert caplog.messages == [f"60 {left}"] and not holding.OPEN


def test_at_the_end_of_the_program_what_is_held_still_is_given_back(caplog: pytest.LogCaptureFixture) -> None:
    """What can't be is logged."""
    given = FakeDesk()
    for it in (given, FakeDesk(FAULT)):
        hold_of(it)
    with caplog.at_level(logging.ERROR):
        holding.end_all()
    assert (len(given.told), len(caplog.messages), holding.OPEN) == (1, 1, set())
