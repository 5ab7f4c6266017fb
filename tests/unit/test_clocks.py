"""What is told of a farm's clock and of this machine's."""
from __future__ import annotations

import os
import time
from typing import Any, Dict, List, cast

import pytest
from fake_desk import FakeDesk
from farm_dispatch import main as dispatch
from fizgruk import calls, limits
from fizgruk.desk.waiting import FarmClock
from fizgruk.errors import Unreachable

QUIET = "no pass for {} seconds: is farm-dispatch running?"


class Desk(FakeDesk):
    """A desk that has nothing but a clock of the test's own, and a machine of the same time."""

    def __init__(self, monkeypatch: pytest.MonkeyPatch) -> None:
        self.now = 1_700_000_000.0
        self.said: Dict[str, Any] = {"clock": int(self.now), "count": 5}
        super().__init__(status=self.said)
        for name in ("time", "monotonic"):
            monkeypatch.setattr(time, name, lambda: self.now)

    def accept(self) -> None:
        self.said.update(clock=int(self.now), count=self.said["count"] + 1)


@pytest.fixture
def desk(monkeypatch: pytest.MonkeyPatch) -> Desk:
    return Desk(monkeypatch)


def watch_of(desk: Desk) -> FarmClock:
    return FarmClock(cast(calls.Desk, desk))


def test_its_own_refreshes_are_no_passes(desk: Desk) -> None:
    watch = watch_of(desk)
    told: List[str] = []
    for place in range(12):
        if place % 4 == 0:
            desk.accept()
            watch.note_own()
        watch.look(told.append)
        desk.now += 5
    assert told == [QUIET.format(35)]


def test_what_others_do_is_taken_for_passes(desk: Desk) -> None:
    watch = watch_of(desk)
    told: List[str] = []
    for _ in range(12):
        desk.accept()
        watch.look(told.append)
        desk.now += 10
    assert told == []


def test_while_a_free_board_fits_no_pass_comes_whatever_others_do(desk: Desk) -> None:
    watch = watch_of(desk)
    told: List[str] = []
    for place in range(7):
        watch.note_met(place > 0)
        desk.accept()
        watch.look(told.append)
        desk.now += 10
    assert told == [QUIET.format(40)]


def test_a_board_that_is_taken_again_begins_the_wait_anew(desk: Desk) -> None:
    watch = watch_of(desk)
    told: List[str] = []
    for place in range(20):
        watch.note_met(place % 3 != 0)
        desk.accept()
        watch.look(told.append)
        desk.now += 10
    assert told == []


@pytest.mark.parametrize("seconds, told", [(30, []), (31, [QUIET.format(31)]), (-5, [])])
def test_a_clock_that_stands_still_is_told_after_thirty_seconds(desk: Desk, seconds: int, told: List[str]) -> None:
    desk.said["clock"] -= seconds
    found: List[str] = []
    watch_of(desk).look(found.append)
    assert found == told


def test_a_new_farm_had_no_pass_yet(desk: Desk) -> None:
    desk.said["clock"] = 0
    told: List[str] = []
    watch_of(desk).look(told.append)
    assert told == ["no pass yet: is farm-dispatch running?"]


@pytest.mark.parametrize("seconds, told", [
    (60, ""), (61, "the farm's clock is 1 minute 1 second ahead of this machine's: so"),
    (3 * 86400, "the farm's clock is 3 days ahead of this machine's: so"), (-86400, ""),
])
def test_a_clock_that_is_ahead(desk: Desk, seconds: int, told: str) -> None:
    assert limits.clock_ahead({"clock": desk.now + seconds}, "so") == told


def test_it_looks_every_five_seconds(desk: Desk) -> None:
    watch = watch_of(desk)
    assert not watch.has_looked
    for _ in range(10):
        watch.look()
        desk.now += 1
    assert (len(desk.asked), watch.has_looked) == (2, True)


def test_a_desk_that_gives_no_answer_tells_nothing_here(desk: Desk, monkeypatch: pytest.MonkeyPatch) -> None:
    def fails(_: str) -> Dict[str, Any]:
        raise Unreachable("gone")

    monkeypatch.setattr(desk, "look", fails)
    told: List[str] = []
    watch_of(desk).look(told.append)
    assert told == []


# ---- beside a dispatcher


def beside(desk: Desk, folder: str) -> dispatch.Clocks:
    return dispatch.Clocks(cast(calls.Desk, desk), folder, True)


def test_a_farm_ahead_is_told_each_hour(desk: Desk, folder: str) -> None:
    ahead = "the farm's clock is 2 hours ahead of this machine's: leases won't end until then"
    clock = beside(desk, folder)
    told = []
    for _ in range(125):
        desk.said["clock"] = desk.now + 7200
        told.append(clock.warning())
        desk.now += 30
    assert (len(desk.asked), [at for at, it in enumerate(told) if it]) == (2, [0, 120])
    assert {it for it in told if it} == {ahead}


@pytest.mark.parametrize("said, is_set", [
    ("NTP=yes NTPSynchronized=no", False), ("NTP=yes NTPSynchronized=yes", True),
    ("NTP=no NTPSynchronized=no", True), ("", True),
])
def test_a_machines_clock_is_waited_for_where_its_service_runs(
    desk: Desk, folder: str, monkeypatch: pytest.MonkeyPatch, said: str, is_set: bool
) -> None:
    monkeypatch.setattr(dispatch, "time_service", said.split)
    assert beside(desk, folder).is_machine_set() is is_set


def test_a_clock_that_was_set_stays_so_until_the_machine_begins_anew(
    desk: Desk, folder: str, monkeypatch: pytest.MonkeyPatch
) -> None:
    said, boot = {"clock": "NTP=yes NTPSynchronized=yes"}, os.path.join(folder, "boot")
    monkeypatch.setattr(dispatch, "time_service", lambda: said["clock"].split())
    monkeypatch.setattr(dispatch, "BOOT", boot)
    tell(boot, "one\n")
    assert beside(desk, folder).is_machine_set()
    with open(os.path.join(folder, "synchronized"), encoding="ascii") as note:
        assert note.read() == "one\n"
    said["clock"] = "NTP=yes NTPSynchronized=no"
    assert beside(desk, folder).is_machine_set()
    tell(boot, "two\n")
    assert not beside(desk, folder).is_machine_set()


def test_a_farm_that_is_not_ahead_is_looked_at_each_minute(desk: Desk, folder: str) -> None:
    clock = beside(desk, folder)
    for _ in range(125):
        assert clock.warning() == ""
        desk.now += 30
    assert len(desk.asked) == 63


def tell(file: str, text: str) -> None:
    with open(file, "w", encoding="ascii") as opened:
        opened.write(text)
