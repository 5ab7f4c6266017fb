"""What failover.py shows, a little of it; by hand it fails over twenty times."""
from __future__ import annotations

import pytest

import failover
from wants import lacks, wants

pytestmark = [pytest.mark.timeout(1200), pytest.mark.slow(60), pytest.mark.xdist_group("failover")]


@pytest.fixture(autouse=True)
def has_all() -> None:
    wants(*failover.WANTED)
    why = failover.lacking()
    if why:
        lacks(why)


def test_a_failover_loses_nothing_and_does_nothing_twice(program: str) -> None:
    found = failover.main(program, 2, 20261201)
    assert (found.failovers, found.lost, found.twice, found.otherwise, found.begun_twice) == (2, 0, 0, 0, 0)
    assert found.jobs > 0


def test_what_migrates_a_farm_is_killed_and_the_other_machine_goes_on(program: str) -> None:
    assert failover.main(program, 1, 20261201, "upgrade").failovers == 1


def test_without_fencing_a_cut_cable_loses_what_is_answered_behind_it(program: str) -> None:
    """Which the trial finds."""
    assert failover.main(program, 1, 20261201, "cut").lost > 0


def test_with_fencing_nothing_is_answered_behind_a_cut_cable(program: str) -> None:
    """Nor does the other machine take over, but by an admin's word."""
    found = failover.main(program, 1, 20261201, "frozen")
    assert (found.lost, found.twice, found.otherwise) == (0, 0, 0)
