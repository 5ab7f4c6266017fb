"""Records of consoles: which are removed."""
from __future__ import annotations

import os
import pathlib
import time

import pytest

from farm_access import inner


def record(folder: pathlib.Path, hold: str, size: int, age: float) -> None:
    file = folder / f"{hold}.cast"
    file.write_bytes(b"")
    os.truncate(file, size)
    os.utime(file, (time.time() - age, time.time() - age))


@pytest.fixture
def board(tmp_path: pathlib.Path, monkeypatch: pytest.MonkeyPatch) -> pathlib.Path:
    monkeypatch.setattr(inner, "RECORDS", str(tmp_path))
    (tmp_path / "b1").mkdir()
    return tmp_path / "b1"


def test_records_of_a_board_are_bounded_and_the_oldest_go_first(board: pathlib.Path) -> None:
    """1 GB, of which a hold that begins may write 100 MB."""
    for number in range(12):
        record(board, f"reservation-{number}", 100_000_000, 60 * (12 - number))
    record(board, "reservation-99", 10, 3600)
    opened, _ = inner.opened_for("b1", "reservation 12", "ann")
    os.close(opened)
    assert sorted(it.name for it in board.iterdir()) == sorted(f"reservation-{it}.cast" for it in range(3, 13))


def test_a_record_goes_after_a_day(board: pathlib.Path) -> None:
    record(board, "reservation-1", 10, 86_410)
    record(board, "reservation-2", 10, 86_000)
    inner.remove_old_records("b1")
    assert [it.name for it in board.iterdir()] == ["reservation-2.cast"]
