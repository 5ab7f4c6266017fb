"""A farm's two files: what is set aside and put in place is whole, and has its own log."""
from __future__ import annotations

import contextlib
import os
import pathlib
import shutil
import sqlite3
from typing import List

import pytest
from farm_import import stopped
from fizgruk._tools.farm_file import FarmFile


def farm(file: pathlib.Path, *rows: str) -> FarmFile:
    """A file whose rows stand in the log beside it."""
    file.parent.mkdir()
    with contextlib.closing(sqlite3.connect(f"{file}.made", isolation_level=None)) as made:
        made.executescript("PRAGMA journal_mode = wal; CREATE TABLE t (row TEXT)")
        made.executemany("INSERT INTO t VALUES (?)", [(it,) for it in rows])
        for end in ("", "-wal"):
            shutil.copy(f"{file}.made{end}", f"{file}{end}")
    for it in file.parent.glob("*.made*"):
        it.unlink()
    return FarmFile(str(file), "farm")


def rows_in(file: str) -> List[str]:
    with contextlib.closing(sqlite3.connect(f"file:{file}?mode=ro", uri=True)) as tables:
        return [it for it, in tables.execute("SELECT row FROM t")]


def test_the_next_farm_comes_in_one_file_by_one_rename_and_the_old_one_keeps_its_log(tmp_path: pathlib.Path) -> None:
    old, new, aside = farm(tmp_path / "home" / "lab.db", "old"), farm(tmp_path / "next" / "lab.db", "new"), tmp_path / "old-1"
    aside.mkdir()
    (aside / "lab.db-wal").write_text("of one that was stopped")
    for _ in range(2):
        stopped.set_aside(old, str(aside))
    assert os.stat(old.db).st_nlink == 2, "which no desk opens"
    stopped.put_in_place(new, old)
    assert sorted(os.listdir(old.home)) == ["lab.db"] and os.listdir(new.home) == []
    assert (rows_in(old.db), rows_in(f"{aside}/lab.db")) == (["new"], ["old"])


def test_a_farm_that_was_set_aside_in_part_keeps_its_log(tmp_path: pathlib.Path, monkeypatch: pytest.MonkeyPatch) -> None:
    """As where it is killed between its two files."""
    old, new, aside = farm(tmp_path / "home" / "lab.db", "old"), farm(tmp_path / "next" / "lab.db", "new"), tmp_path / "old-1"
    aside.mkdir()
    link = os.link

    def once(*names: str) -> None:
        link(*names)
        monkeypatch.setattr(os, "link", killed)

    def killed(*_: str) -> None:
        raise SystemExit

    monkeypatch.setattr(os, "link", once)
    with pytest.raises(SystemExit):
        stopped.set_aside(old, str(aside))
    assert stopped.is_begun_to_be_set_aside(old) and not stopped.is_begun_to_be_set_aside(new)
    monkeypatch.setattr(os, "link", link)
    stopped.set_aside(old, str(aside))
    stopped.put_in_place(new, old)
    assert (rows_in(old.db), rows_in(f"{aside}/lab.db")) == (["new"], ["old"])


def test_a_farm_in_one_file_has_all_of_its_log(tmp_path: pathlib.Path) -> None:
    file = farm(tmp_path / "next" / "lab.db", "a", "b")
    for _ in range(2):
        file.put_in_one()
        assert not os.path.exists(file.log) and rows_in(file.db) == ["a", "b"]
