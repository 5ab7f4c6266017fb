"""Rows as lines of text."""
from __future__ import annotations

import os
import time
from typing import Iterator

import pytest
from fizgruk._tools import tables


@pytest.fixture(autouse=True)
def in_utc(monkeypatch: pytest.MonkeyPatch) -> Iterator[None]:
    monkeypatch.setitem(os.environ, "TZ", "UTC")
    time.tzset()
    yield
    monkeypatch.undo()
    time.tzset()


def test_numbers_stand_at_the_right_and_no_line_ends_with_spaces() -> None:
    rows = [{"name": "b1", "count": 5, "tags": ""}, {"name": "b12345", "count": 1234, "tags": "x"}]
    columns: list[tables.Column] = [
        ("NAME", lambda it: it["name"]), ("N", lambda it: it["count"]), ("TAGS", lambda it: it["tags"]),
    ]
    assert tables.lines_of(rows, columns) == ["NAME      N TAGS", "b1        5 -", "b12345 1234 x"]
    assert tables.lines_of([], columns) == ["NAME N TAGS"]


@pytest.mark.parametrize("state, deadline, left", [
    ("waiting", 1060, "60 s"), ("allocated", 1001, "1 s"), ("waiting", 990, "0 s"), ("acquired", 1060, "-"),
    ("expired", 990, "-"), ("canceled", 1060, "-"),
    ("waiting", 1119, "119 s"), ("waiting", 1120, "2 minutes"), ("allocated", 1000 + 3 * 86400 + 7260, "3 days 2 hours"),
])
def test_the_time_that_a_lease_has_left(state: str, deadline: int, left: str) -> None:
    assert tables.time_left({"state": state, "deadline": deadline}, 1000.9) == left


@pytest.mark.parametrize("check, every, told", [
    ("none", 0, "-"), ("hours", 24, "every 24 hours"), ("jobs", 10000, "every 10,000 jobs"), ("jobs", 1, "every 1 job"),
])
def test_how_often_boards_are_checked(check: str, every: int, told: str) -> None:
    assert tables.check_of({"check": check, "every": every}) == told


def test_moments_and_spans() -> None:
    assert tables.moment(1_700_000_000) == "2023-11-14 22:13"
    spans = [tables.span(it) for it in (0, 59, 60, 3723, 360_000)]
    assert spans == ["0:00:00", "0:00:59", "0:01:00", "1:02:03", "100:00:00"]


def test_a_strangers_text_is_shown_without_what_moves_a_terminal() -> None:
    assert tables.printable("a\x1b[31mb\né\u202e") == "a?[31mb?é?"
    assert tables.printable("x" * 60) == "x" * 60
    assert tables.printable("x" * 61) == "x" * 58 + ".."
