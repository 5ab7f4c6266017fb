"""What logs that SQLite writes change in their file, and damage in them."""
from __future__ import annotations

import pathlib
import sqlite3
from typing import List, Tuple

import pytest
from farm_backup import wal

SIZE = 4096
FRAME = 24 + SIZE  # https://www.sqlite.org/fileformat2.html#walformat


def log_of(tmp_path: pathlib.Path, commits: int, *more: str) -> Tuple[bytearray, List[int]]:
    """A log of so many commits, and where each ends."""
    db, ends = tmp_path / "farm.db", []
    conn = sqlite3.connect(db, isolation_level=None)
    for words in (f"pragma page_size = {SIZE}", "pragma journal_mode = wal", "create table turns (turn, more)", *more):
        conn.execute(words)
    for turn in range(commits):
        conn.execute("insert into turns values (?, ?)", (turn, "x" * 3000))
        ends.append((tmp_path / "farm.db-wal").stat().st_size)
    log = bytearray((tmp_path / "farm.db-wal").read_bytes())
    conn.close()
    return log, ends


def test_what_sqlite_writes_isnt_damaged(tmp_path: pathlib.Path) -> None:
    log = log_of(tmp_path, 9)[0]
    assert wal.damage(bytes(log)) == 0
    assert wal.damage(b"") == 0


def test_frames_of_the_log_before_are_none_of_this(tmp_path: pathlib.Path) -> None:
    """They stand behind it where it began anew and is shorter."""
    log = log_of(tmp_path, 2, *["insert into turns values (1, zeroblob(3000))"] * 9, "pragma wal_checkpoint(restart)")[0]
    assert log[-FRAME + 8 : -FRAME + 16] != log[16:24] and wal.damage(bytes(log)) == 0


@pytest.mark.parametrize("at", [0, 8, 9, 16, 23, 24, 24 + SIZE - 1])
def test_a_frame_before_the_last_that_is_damaged_is_found(tmp_path: pathlib.Path, at: int) -> None:
    """In its page, its number, its salts and its sum."""
    log, ends = log_of(tmp_path, 9)
    log[ends[3] + at] ^= 0x40
    assert wal.damage(bytes(log)) == ends[3]


@pytest.mark.parametrize("at", [8, 16, 24, 31])
def test_a_header_that_is_damaged_is_found(tmp_path: pathlib.Path, at: int) -> None:
    log = log_of(tmp_path, 1)[0]
    log[at] ^= 0x40
    assert wal.damage(bytes(log)) > 0


def test_a_commit_whose_first_frame_is_missing_is_a_killed_desks(tmp_path: pathlib.Path) -> None:
    """Which nobody was answered: a desk writes the first frame last."""
    log, ends = log_of(tmp_path, 9)
    log[ends[-3] : ends[-3] + FRAME] = bytes(FRAME)
    assert wal.damage(bytes(log)) == ends[-3], "two commits, of which one was answered"
    log = log[: ends[-2]]
    assert wal.damage(bytes(log)) == 0
    assert wal.damage(bytes(log[:41])) == wal.damage(bytes(10) + bytes(log[10:41])) == 0


def test_a_commit_that_was_read_in_part_is_none(tmp_path: pathlib.Path) -> None:
    log, ends = log_of(tmp_path, 9)
    log[ends[-1] - 1] ^= 0x40
    assert wal.damage(bytes(log)) == 0
    for cut in (1, SIZE, FRAME, FRAME + 7):
        assert wal.damage(bytes(log[: ends[-1] - cut])) == 0


# ---- what they change


def frames(salt: int, *pages: int) -> bytes:
    """A log with these pages of 32 kB, of which two are a block."""
    salts = salt.to_bytes(4, "big") + b"salt"
    head = b"\x37\x7f\x06\x82" + bytes(4) + (1 << 15).to_bytes(4, "big") + bytes(4) + salts + bytes(8)
    return head + b"".join(it.to_bytes(4, "big") + bytes(4) + salts + bytes(8 + (1 << 15)) for it in pages)


def test_the_blocks_of_all_pages_since_the_last_look_are_taken() -> None:
    """Those that stand in the log may be changed once more, so they are among the next ones."""
    changes = wal.Changes()
    assert changes.taken(frames(1, 1, 2, 3)) == {0, 1}
    changes.look(frames(1, 1, 2, 3, 9))
    assert changes.taken(frames(2, 11)) == {0, 1, 4, 5}
    assert changes.taken(frames(2, 11)) == {5}
    assert changes.taken(b"") == {5} and changes.taken(b"") == set()


def test_frames_of_the_log_before_that_stand_behind_it_count() -> None:
    changes, rest = wal.Changes(), frames(1, 1, 2, 9)[32 + 24 + (1 << 15):]
    changes.look(frames(1, 1))
    assert changes.taken(frames(2, 7) + rest) == {0, 3, 4}


@pytest.mark.parametrize("salt, pages", [(3, [1]), (0, [1]), (2, [1, 2])])
def test_frames_that_were_written_over_unseen_are_told(salt: int, pages: List[int]) -> None:
    """The log began anew twice, or is another, or is longer than the one before was at the last look."""
    changes = wal.Changes()
    changes.look(frames(1, 1))
    with pytest.raises(wal.Anew):
        changes.look(frames(salt, *pages))


def test_the_first_salt_begins_at_0_again() -> None:
    changes = wal.Changes()
    changes.look(frames(0xFFFFFFFF, 1))
    changes.look(frames(0, 1))
