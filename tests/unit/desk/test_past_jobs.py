"""What the client shows of jobs, by a desk and by rows that the test sets."""
from __future__ import annotations

from typing import Any, Dict, Sequence

import pytest
from fake_desk import FakeDesk
from fizgruk import wants
from fizgruk.desk import past_jobs

Row = Dict[str, Any]


def board(name: str, holder: str, state: str, *tags: str) -> Row:
    return {"name": name, "type": "bbb", "tags": list(tags), "health": "Good", "holder": holder, "state": state}


def claims() -> wants.Claims:
    """A queue of one group of two boards, ann's, a job of ann's that runs, and one of bob's that is to be started on a
    board whose worker doesn't answer."""
    runs = {"owner": "ann", "name": "boot", "limit": 3600}
    desk: Any = FakeDesk(
        queue=[{"number": 9, "kind": "group", "owner": "ann", "priority": 50, "boards": 2}],
        boards=[board("b1", "job 5", "Running"), board("b2", "job 6", "Reserved", "worker=rack2")], status={"collector": 0},
        **{
            "running.json": {"jobs": [
                {**runs, "job": 5, "group": 5, "board": "b1", "began": 7},
                {**runs, "job": 6, "group": 6, "board": "b2", "began": None, "owner": "bob"},
            ]},
            "waiting.json": {"groups": [
                {"group": 9, "name": "two", "submitted": None, "wants": [{"type": "bbb", "tags": []}] * 2},
            ]},
            "workers.json": {"workers": [{"name": "rack2", "answers": False, "since": 0}]},
        },
    )
    return wants.Claims(desk)


def test_an_open_job_is_shown_as_the_dispatcher_tells_it() -> None:
    found = {it["number"]: it for it in past_jobs.open_jobs(claims(), None)}
    assert {number: (it["state"], it["type"], it["board"], it["name"]) for number, it in found.items()} == {
        9: ("Submitted", "bbb", "", "two"), 6: ("Scheduled", "bbb", "b2", "boot"), 5: ("Running", "bbb", "b1", "boot"),
    }


def test_why_a_job_waits_and_whose_worker_doesnt_answer() -> None:
    """Of a job that has ended nobody's worker is told."""
    asked = claims()
    rows = [*past_jobs.open_jobs(asked, None), {"number": 3, "group": 3, "state": "Finished", "board": "b2"}]
    waits, silent, runs, ended = (it["reason"] for it in past_jobs.with_reasons(asked, rows))
    assert waits.startswith("2 boards fit: 2 held (job 5 of ann, job 6 of bob); worker rack2 has not answered for ")
    assert silent.startswith("worker rack2 has not answered for ") and (runs, ended) == ("", "")


def counts(failed: int, errors: int, names: Sequence[str]) -> Dict[str, Any]:
    return {"passed": 5, "failed": failed, "errors": errors, "skipped": 1, "names": list(names)}


@pytest.mark.parametrize("failed, errors, names, told", [
    (2, 0, ["a", "b"], "job 7 failed: a, b\n"),
    (3, 2, ["a", "b"], "job 7 failed: a, b and 3 more\n"),
    (1, 1500, ["a\x1b"], "job 7 failed: a? and 1,500 more\n"),
    (0, 0, [], ""),
])
def test_the_tests_that_failed_are_named_and_the_others_counted(
    capsys: pytest.CaptureFixture[str], failed: int, errors: int, names: Sequence[str], told: str
) -> None:
    past_jobs.print_failed({"number": 7, "tests": counts(failed, errors, names)})
    assert capsys.readouterr().out == told
