"""What jobs and holds that ended have used: hours, outcomes, and how long jobs waited."""
from __future__ import annotations

import argparse
import time
from typing import Any, Dict, List, Optional

import pytest
from fizgruk import history
from fizgruk.desk import past_jobs

NOW = 1_800_000_000
HOUR = 3600


def job(owner: str, began: int, ended: int, **more: Any) -> Dict[str, Any]:
    said = {"kind": "job", "owner": owner, "type": "bbb", "boards": ["b1"], "began": began, "ended": ended}
    return {**said, "outcome": "Complete", "submitted": began - 60, **more}


def hold(owner: str, began: int, ended: int, board: str = "b1") -> Dict[str, Any]:
    return {"kind": "hold", "owner": owner, "board": board, "type": "bbb", "began": began, "ended": ended}


def used(rows: List[Dict[str, Any]], by: str = "owner", since: int = 0) -> List[Any]:
    """The rows of the usage since a moment."""
    return history.uses_of(rows, since, by)


def test_hours_count_each_board_from_the_moment_on() -> None:
    rows = [
        job("ann", 0, 10 * HOUR, boards=["b1", "b2"]),  # six hours of it, on two boards
        job("bob", 5 * HOUR, 9 * HOUR, outcome="Infra"),
        job("cat", 0, 4 * HOUR - 1),  # ended before
        {"kind": "health", "board": "b1"},
    ]
    found = used(rows, since=4 * HOUR)
    assert [(it["name"], it["hours"], it["jobs"], it["complete"], it["infra"]) for it in found] == [
        ("ann", 12.0, 1, 1, 0), ("bob", 4.0, 1, 0, 1),
    ]


def test_a_job_counts_once_for_each_of_its_boards() -> None:
    rows = [job("ann", 0, HOUR, boards=["b1", "b2"]), job("bob", 0, HOUR, boards=["b2"])]
    found = used(rows, by="board")
    assert [(it["name"], it["hours"], it["jobs"]) for it in found] == [("b2", 2.0, 2), ("b1", 1.0, 1)]


def test_holds_of_people_count_beside_jobs_from_the_moment_on() -> None:
    jobs = [job("ann", 5 * HOUR, 6 * HOUR)]
    holds = [
        hold("bob", 0, 7 * HOUR), hold("bob", 8 * HOUR, 9 * HOUR, "b2"), hold("ann", 5 * HOUR, 6 * HOUR),
        hold("cat", 0, 4 * HOUR - 1), hold("bob", 9 * HOUR, 8 * HOUR),
    ]
    found = used(jobs + holds, since=4 * HOUR)
    assert [(it["name"], it["jobs"], it["hours"], it["holds"], it["held"]) for it in found] == [
        ("bob", 0, 0.0, 3, 4.0), ("ann", 1, 1.0, 1, 1.0),
    ]
    boards = used(jobs + holds, by="board", since=4 * HOUR)
    assert [(it["name"], it["holds"], it["held"]) for it in boards] == [("b1", 3, 4.0), ("b2", 1, 1.0)]
    assert [it["holds"] for it in used(jobs + holds, by="type")] == [5]
    assert [it["holds"] for it in used(jobs)] == [0]


def test_types_are_summed_and_equals_stand_by_name() -> None:
    rows = [job("ann", 0, HOUR, type=it) for it in ("c", "b", "a", "c")]
    found = used(rows, by="type")
    assert [(it["name"], it["hours"]) for it in found] == [("c", 2.0), ("a", 1.0), ("b", 1.0)]


def test_a_clock_that_was_set_back_makes_nothing_below_0() -> None:
    (found,) = used([job("ann", 100, 50, submitted=200)])
    assert (found["hours"], found["waited_median"]) == (0.0, 0)


def test_who_was_submitted_nobody_knows_when_counts_in_no_wait() -> None:
    rows = [job("ann", 100, 200, submitted=it) for it in (None, 70, 90)]
    (found,) = used(rows)
    assert (found["jobs"], found["waited_median"], found["waited_ninth"]) == (3, 10, 30)
    (found,) = used(rows[:1])
    assert (found["waited_median"], past_jobs.waited(found["waited_median"])) == (None, "-")


@pytest.mark.parametrize("numbers, percent, wanted", [
    ([], 50, None), ([7], 50, 7), ([7], 90, 7), ([3, 1], 50, 1), ([3, 1, 2], 50, 2), (list(range(10, 0, -1)), 90, 9),
    (list(range(1, 12)), 90, 10),
])
def test_the_least_number_that_so_many_dont_exceed(numbers: List[int], percent: int, wanted: Optional[int]) -> None:
    assert history.share_of(numbers, percent) == wanted


@pytest.mark.parametrize("text, ago", [("90m", 5400), ("12h", 12 * HOUR), ("30d", 30 * 86400), ("2w", 14 * 86400)])
def test_a_moment_ago(monkeypatch: pytest.MonkeyPatch, text: str, ago: int) -> None:
    monkeypatch.setattr(time, "time", lambda: NOW + 0.7)
    assert past_jobs.moment_of(text) == NOW - ago


def test_a_moment_is_a_dates_begin() -> None:
    assert time.localtime(past_jobs.moment_of("2026-11-30"))[:6] == (2026, 11, 30, 0, 0, 0)


@pytest.mark.parametrize("text", ["", "30", "d", "3s", "1234567d", "2026-13-01", "30.11.2026", " 30d"])
def test_what_is_no_moment(text: str) -> None:
    with pytest.raises(argparse.ArgumentTypeError):
        past_jobs.moment_of(text)
