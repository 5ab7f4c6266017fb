"""Copies of two files, their names and their order; what is on the disk before it gets its name."""
from __future__ import annotations

import contextlib
import os
import pathlib
import sqlite3
import types
from typing import Any, Callable, Iterator, List, Set

import pytest
from farm_backup import copying
from fizgruk._tools import disk
from fizgruk._tools.farm_file import FarmFile
from recorded import recorded

MAKE = """\
import sys
sys.path.insert(0, sys.argv[1])
from fizgruk._tools import disk
disk.write_synced(sys.argv[2], "new")
"""
LIBRARY = str(pathlib.Path(disk.__file__).parents[2])


def test_a_file_is_on_the_disk_before_it_gets_its_name(tmp_path: pathlib.Path) -> None:
    """And its name, too, when write_synced returns."""
    entries = recorded(["-c", MAKE, LIBRARY, f"{tmp_path}/file"], str(tmp_path))
    assert [(it.what, it.path) for it in entries] == [
        ("w", f"{tmp_path}/file.new"), ("s", f"{tmp_path}/file.new"), ("s", str(tmp_path)),
    ]
    assert (tmp_path / "file").read_text() == "new"


# ---- names


def test_copies_are_listed_by_moment_and_number(tmp_path: pathlib.Path) -> None:
    wanted = ["farm-20200101T000000Z", *(f"farm-20200102T000000Z{it}" for it in ("", "-2", "-9", "-10"))]
    for name in [*wanted, "farm-notes", ".new-1", "farm-20200103T000000", "latest", "xfarm-20200102T000000Z"]:
        (tmp_path / name).mkdir()
    assert copying.copies_in(str(tmp_path)) == wanted


def test_a_name_that_is_taken_gets_a_number(tmp_path: pathlib.Path) -> None:
    assert copying.free_name(str(tmp_path), "farm-1") == "farm-1"
    (tmp_path / "farm-1").mkdir()
    assert copying.free_name(str(tmp_path), "farm-1") == "farm-1-2"
    (tmp_path / "farm-1-2").symlink_to("nowhere")
    assert copying.free_name(str(tmp_path), "farm-1") == "farm-1-3"


def test_a_name_tells_a_moment() -> None:
    assert copying.name_of(86400 * 365.25 * 30) == "farm-20000101T120000Z"


def test_a_link_is_led_elsewhere_in_one_step(tmp_path: pathlib.Path) -> None:
    name = str(tmp_path / "latest")
    (tmp_path / "latest.new").symlink_to("what a stop left")
    for target in ("one", "two"):
        copying.link(target, name)
        assert os.readlink(name) == target
    assert os.listdir(tmp_path) == ["latest"]


# ---- copies


@pytest.fixture
def farm(tmp_path: pathlib.Path) -> Iterator[FarmFile]:
    """A file and its log, as SQLite has them."""
    found = FarmFile(str(tmp_path / "farm.db"), "true")
    conn = sqlite3.connect(found.db, isolation_level=None)
    conn.execute("pragma journal_mode = wal")
    conn.execute("create table turns (turn)")
    yield found
    conn.close()


@pytest.fixture
def clock(monkeypatch: pytest.MonkeyPatch) -> List[float]:
    """The moment, which goes on by waits alone."""
    now = [0.0]

    def sleep(seconds: float) -> None:
        now[0] += seconds

    monkeypatch.setattr(copying, "time", types.SimpleNamespace(sleep=sleep, monotonic=lambda: now[0]))
    return now


def place_in(tmp_path: pathlib.Path) -> str:
    (tmp_path / "to").mkdir()
    return str(tmp_path / "to")


def copied(farm: FarmFile, place: str, beside: Callable[[], None]) -> List[str]:
    """Copies, and does something beside it each time that blocks of the file were copied. Returns why it was copied again."""
    told: List[str] = []
    copy_blocks = copying._copy_blocks

    def with_more(*words: Any) -> None:
        copy_blocks(*words)
        beside()

    with pytest.MonkeyPatch.context() as patch:
        patch.setattr(copying, "_copy_blocks", with_more)
        copying.copied(farm, place, told.append)
    return told


def once(call: Callable[[], None]) -> Callable[[], None]:
    """What calls another the first time alone."""
    left = [call]
    return lambda: left.pop()() if left else None


def turns_in(place: str) -> List[int]:
    """What whoever opens a copy finds in it."""
    with contextlib.closing(sqlite3.connect(f"{place}/farm.db")) as conn:
        assert conn.execute("pragma integrity_check").fetchall() == [("ok",)]
        return [it for it, in conn.execute("select turn from turns order by turn")]


def insert(farm: FarmFile, turn: int, *more: str) -> None:
    with contextlib.closing(sqlite3.connect(farm.db, isolation_level=None)) as conn:
        for words in more:
            conn.execute(words)
        conn.execute("insert into turns values (?)", (turn,))


def test_a_farm_that_grows_and_is_carried_meanwhile_is_copied_at_once(
    farm: FarmFile, tmp_path: pathlib.Path
) -> None:
    """What was written in the file behind the copier stands in the log still."""
    for turn in range(200):
        insert(farm, turn)
    place = place_in(tmp_path)

    def grows() -> None:
        insert(farm, 200)
        insert(farm, 201)
        with contextlib.closing(sqlite3.connect(farm.db, isolation_level=None)) as conn:
            conn.execute("pragma wal_checkpoint(full)")

    assert copied(farm, place, grows) == []
    assert turns_in(place) == list(range(202))


def test_what_changed_while_the_log_began_anew_is_copied_once_more(
    farm: FarmFile, tmp_path: pathlib.Path
) -> None:
    """And nothing else: here of a file of some megabytes that the first log made longer."""
    for turn in range(200):
        insert(farm, turn, "insert into turns select zeroblob(20000)")
    counts: List[int] = []
    copy_blocks = copying._copy_blocks

    def counted(old: Any, new: Any, blocks: Set[int], look: Any) -> None:
        counts.append(len(blocks))
        copy_blocks(old, new, blocks, look)

    place = place_in(tmp_path)
    with pytest.MonkeyPatch.context() as patch:
        patch.setattr(copying, "_copy_blocks", counted)
        assert copied(farm, place, once(lambda: insert(farm, 200, "pragma wal_checkpoint(restart)"))) == []
    assert len(counts) == 2 and counts[0] > 60 and counts[1] < counts[0]
    assert [it for it in turns_in(place) if isinstance(it, int)] == list(range(201))
    assert (tmp_path / "to" / "farm.db").stat().st_size == (tmp_path / "farm.db").stat().st_size


def test_a_log_that_gets_away_meanwhile_is_copied_again(
    farm: FarmFile, tmp_path: pathlib.Path, clock: List[float]
) -> None:
    """It began anew twice."""
    insert(farm, 0)

    def gets_away() -> None:
        for turn in (1, 2):
            insert(farm, turn, "pragma wal_checkpoint(restart)")

    place = place_in(tmp_path)
    assert copied(farm, place, once(gets_away)) == ["copied again: the log began anew"]
    assert turns_in(place) == [0, 1, 2]


def test_a_file_in_whose_place_another_is_put_is_copied_again(
    farm: FarmFile, tmp_path: pathlib.Path, clock: List[float]
) -> None:
    def replaces() -> None:
        (tmp_path / "other").write_bytes((tmp_path / "farm.db").read_bytes())
        os.replace(tmp_path / "other", farm.db)

    assert copied(farm, place_in(tmp_path), once(replaces)) == [f"copied again: {farm.db} became another file"]


def test_files_that_never_stand_still_are_given_up_within_a_minute(
    farm: FarmFile, tmp_path: pathlib.Path, clock: List[float]
) -> None:
    insert(farm, 0)

    def begins_anew() -> None:
        clock[0] += 1
        insert(farm, 1, "pragma wal_checkpoint(restart)")

    with pytest.raises(copying.NoCopy, match="^no copy within 50 s: the log began anew$"):
        copied(farm, place_in(tmp_path), begins_anew)
    assert 50 < clock[0] < 60


def test_a_farm_without_a_log_is_none(tmp_path: pathlib.Path) -> None:
    (tmp_path / "farm.db").write_text("")
    with pytest.raises(copying.NoCopy, match="there is no .*farm.db-wal: a farm is a file and its log"):
        copying.copied(FarmFile(str(tmp_path / "farm.db"), "true"), str(tmp_path), lambda why: None)


def test_what_was_cut_off_is_removed_by_who_takes_the_folder(tmp_path: pathlib.Path) -> None:
    (tmp_path / ".new-cut").mkdir()
    lock = copying.take_folder(str(tmp_path))
    assert lock is not None
    assert os.listdir(tmp_path) == [".lock"]
    (tmp_path / ".new-of-the-first").mkdir()
    assert copying.take_folder(str(tmp_path)) is None
    assert (tmp_path / ".new-of-the-first").is_dir()
    os.close(lock)
