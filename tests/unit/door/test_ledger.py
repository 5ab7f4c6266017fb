"""farm-door's file of tokens and of commands that were let through."""
from __future__ import annotations

import pathlib

import pytest

from farm_door import counts
from farm_door.counts import Ledger
from hand_clock import Clock

DAY = 86_400


@pytest.fixture
def clock(monkeypatch: pytest.MonkeyPatch) -> Clock:
    clock = Clock()
    monkeypatch.setattr(counts, "time", clock)
    return clock


@pytest.fixture
def ledger(tmp_path: pathlib.Path, clock: Clock) -> Ledger:
    return Ledger(str(tmp_path / "kept.db"))


def test_no_token_has_the_number_of_one_that_ended(ledger: Ledger, clock: Clock) -> None:
    """The audit names it by that; the row of one that ended goes after a day."""
    numbers = []
    for _ in range(3):
        numbers.append(ledger.make("ann", "nightly")["number"])
        assert ledger.end("ann", numbers[-1])
        clock.at += 2 * DAY
    assert numbers == [1, 2, 3]


def test_a_key_counts_for_its_owner_s_commands_of_one_kind_within_an_hour(ledger: Ledger, clock: Clock) -> None:
    ledger.let("ann", "jobs", "k1")
    asked = [("ann", "jobs", "k1"), ("ann", "reservations", "k1"), ("bob", "jobs", "k1"), ("ann", "jobs", "k2"), ("ann", "jobs", "")]
    assert [ledger.has_passed(*it) for it in asked] == [True, False, False, False, False]
    clock.at += 3601
    assert not ledger.has_passed("ann", "jobs", "k1")
