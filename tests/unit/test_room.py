"""What is kept on a full disk: a job's log, its end, and the reserve that is given up for it."""
from __future__ import annotations

import errno
import os
import pathlib
import types

import pytest
from farm_dispatch import record
from fizgruk._tools import disk as disk_module, passes


def full(*_: object) -> None:
    raise OSError(errno.ENOSPC, "No space left on device")


# ---- the reserve


def test_the_reserve_is_made_once(tmp_path: pathlib.Path) -> None:
    record.keep_reserve(str(tmp_path))
    file = tmp_path / record.RESERVE
    about = file.stat()
    assert about.st_size == record.SIZE and about.st_blocks * 512 >= record.SIZE, "its bytes are on the disk"
    record.keep_reserve(str(tmp_path))
    assert file.stat().st_ino == about.st_ino and os.listdir(tmp_path) == [record.RESERVE]


def test_no_reserve_is_made_where_there_is_little_room(tmp_path: pathlib.Path, monkeypatch: pytest.MonkeyPatch) -> None:
    size = os.statvfs(tmp_path).f_frsize
    plain = os.statvfs

    class About:
        f_bavail, f_frsize = 2 * record.SIZE // size - 1, size

    monkeypatch.setattr(os, "statvfs", lambda place: About)
    record.keep_reserve(str(tmp_path))
    assert os.listdir(tmp_path) == []
    monkeypatch.setattr(os, "statvfs", plain)
    record.keep_reserve(str(tmp_path / "not" / "there"))
    record.keep_reserve(str(tmp_path))
    assert os.listdir(tmp_path) == [record.RESERVE]


@pytest.mark.parametrize("number", [errno.ENOSPC, errno.EDQUOT])
def test_the_reserve_is_given_up_once_where_the_disk_is_full(tmp_path: pathlib.Path, number: int) -> None:
    (tmp_path / record.RESERVE).touch()
    tries: "list[bool]" = []

    def write() -> str:
        tries.append((tmp_path / record.RESERVE).exists())
        if len(tries) == 1:
            raise OSError(number, "full")
        return "written"

    assert record.with_room(str(tmp_path), write) == "written"
    assert tries == [True, False]


@pytest.mark.parametrize("number, has_reserve", [(errno.ENOSPC, False), (errno.EIO, True)])
def test_what_the_reserve_doesnt_help_is_raised(tmp_path: pathlib.Path, number: int, has_reserve: bool) -> None:
    if has_reserve:
        (tmp_path / record.RESERVE).touch()
    tries = []

    def write() -> None:
        tries.append(True)
        raise OSError(number, "it can't")

    with pytest.raises(OSError, match="it can't"):
        record.with_room(str(tmp_path), write)
    assert len(tries) == 1
    assert (tmp_path / record.RESERVE).exists() is has_reserve


# ---- a job's log


class Said:
    """What a command says, as its machine has it."""

    def __init__(self, place: pathlib.Path, limit: int, own: bytes = b""):
        self.text, self.file = b"", place / "logs" / "1"
        self.file.parent.mkdir()
        self.file.write_bytes(own)
        group = record.Record(str(place), 1)
        group["own"] = len(own)
        self.log = record.Log(group, limit)

    def asked(self, begin: int) -> bytes:
        return self.text[begin : begin + 7]

    def fetch(self, text: bytes = b"") -> bytes:
        self.text += text
        self.log.fetch(len(self.text), self.asked)
        return self.file.read_bytes()

    def close(self, remark: str = "") -> bytes:
        self.log.close(len(self.text), lambda begin: self.text[begin:], remark)
        return self.file.read_bytes()


def test_a_log_is_a_beginning_of_what_was_said_until_it_is_whole(tmp_path: pathlib.Path) -> None:
    said = Said(tmp_path, 100, b"farm-dispatch: own\n")
    assert said.fetch(b"one\n") == b"farm-dispatch: own\none\n"
    assert said.fetch(b"two, and more than a call gives\n").endswith(b"one\ntwo, and more than a call gives\n")
    whole = said.close("time limit of 1 minute, signal 15")
    assert whole == b"farm-dispatch: own\n" + said.text + b"farm-dispatch: time limit of 1 minute, signal 15\n"
    assert said.close("time limit of 1 minute, signal 15") == whole, "done again it is the same"


def test_of_a_long_log_its_head_and_its_tail_are_kept(tmp_path: pathlib.Path) -> None:
    said = Said(tmp_path, 20)
    assert said.fetch(b"head-head-middle") == b"head-head-middle"
    said.fetch(b"middle" * 5 + b"tail--tail")
    kept = said.close()
    assert kept == b"head-head-\nfarm-dispatch: 36 bytes of the log aren't kept: a log's limit is 20 bytes\ntail--tail"
    assert said.close() == kept


def test_a_log_of_just_its_limit_is_whole(tmp_path: pathlib.Path) -> None:
    said = Said(tmp_path, 20)
    assert said.fetch(b"01234567890123456789") == said.close() == b"01234567890123456789"


def test_on_a_full_disk_a_job_goes_on_and_the_reserve_makes_room_for_a_short_tail(
    tmp_path: pathlib.Path, monkeypatch: pytest.MonkeyPatch
) -> None:
    (tmp_path / record.RESERVE).touch()
    said = Said(tmp_path, 10_000_000)
    said.fetch(b"head-")
    plain = record.Log._add

    def fills(*words: object) -> None:
        (full if (tmp_path / record.RESERVE).exists() else plain)(*words)  # type: ignore[operator]

    monkeypatch.setattr(record.Log, "_add", fills)
    assert said.fetch(b"x" * 100_000) == b"head-"
    cut = 100_000 - record.SHORT
    assert said.close() == b"head-\nfarm-dispatch: %s bytes of the log aren't kept: the disk was full\n%s" % (
        f"{cut:,}".encode(), b"x" * record.SHORT)


def test_a_disk_that_stays_full_keeps_nobody_waiting(tmp_path: pathlib.Path, monkeypatch: pytest.MonkeyPatch) -> None:
    said = Said(tmp_path, 1000)
    monkeypatch.setattr(record.Log, "_add", full)
    assert said.fetch(b"said") == said.close() == b""


# ---- files that strangers may have made


def test_a_strangers_file_is_read_only_where_it_is_one(tmp_path: pathlib.Path) -> None:
    file = tmp_path / "file"
    assert disk_module.text_in(str(file)) is None
    file.write_bytes(b"a\xff")
    assert disk_module.text_in(str(file)) == "a\N{REPLACEMENT CHARACTER}"
    with pytest.raises(disk_module.Strange, match="file has 2 bytes$"):
        disk_module.text_in(str(file), 1)
    os.symlink(file, tmp_path / "link")
    with pytest.raises(disk_module.Strange, match="link: Too many levels of symbolic links$"):
        disk_module.text_in(str(tmp_path / "link"))
    os.mkfifo(tmp_path / "pipe")
    with pytest.raises(disk_module.Strange, match="pipe is no file$"):
        disk_module.text_in(str(tmp_path / "pipe"))


# ---- the count of passes


def test_passes_are_counted_on_over_lives(tmp_path: pathlib.Path, monkeypatch: pytest.MonkeyPatch) -> None:
    monkeypatch.setattr(passes, "time", types.SimpleNamespace(time=lambda: 1_800_000_000.1234))
    passes.Counter(str(tmp_path)).add()
    counter = passes.Counter(str(tmp_path))
    counter.add()
    assert passes.passes_in(counter.file) == passes.Passes(2, 1_800_000_000.123)


def test_what_there_was_no_room_for_is_counted_by_the_next_pass(
    tmp_path: pathlib.Path, monkeypatch: pytest.MonkeyPatch
) -> None:
    counter, plain = passes.Counter(str(tmp_path)), disk_module.write_whole
    monkeypatch.setattr(disk_module, "write_whole", full)
    counter.add()
    monkeypatch.setattr(disk_module, "write_whole", plain)
    counter.add()
    assert passes.passes_in(counter.file).count == 2


@pytest.mark.parametrize("said", [
    "", "[]", "{}", '{"count": true, "at": 1}', '{"count": -1, "at": 1}', '{"count": 1}', '{"count": 1.0, "at": 1}',
])
def test_a_file_of_another_kind_has_no_count(tmp_path: pathlib.Path, said: str) -> None:
    (tmp_path / passes.FILE).write_text(said)
    with pytest.raises(ValueError):
        passes.passes_in(str(tmp_path / passes.FILE))
    assert passes.Counter(str(tmp_path)).count == 0
