"""What is kept of what a job left: whatever stands there, within bounds, whole over a kill anywhere, and as long as logs;
and what a reader takes for a list of it."""
from __future__ import annotations

import argparse
import io
import json
import os
import pathlib
import socket
import tracemalloc
from typing import Any, Callable, Dict, List, Optional, Tuple

import pytest
from farm_dispatch import artifacts
from farm_dispatch.record import Record
from farm_dispatch.workers import END, Away, Hand
from fizgruk import artifacts as index

BOUNDS = {"artifact_count": 1000, "artifact_limit": 10_000, "artifacts_limit": 100_000}
UNIT = "farm-job-0-7-1"
JUNIT = "<testsuite><testcase name='a'/><testcase name='b'><failure/></testcase></testsuite>"
COUNTS = {"passed": 1, "failed": 1, "errors": 0, "skipped": 0, "names": ["b"]}


class Place:
    """A dispatcher's folder with one group, whose command has ended, and what farm-worker's script says of its folder."""

    def __init__(self, place: pathlib.Path) -> None:
        self.place, self.out = place, place / "jobs" / UNIT / "work" / "out"
        for folder in (self.out.parent, place / "logs", place / "open"):
            folder.mkdir(parents=True)
        (place / "logs" / "7").touch()
        self.record = Record(str(place), 7)
        self.record.update({"unit": UNIT, "worker": "desk", "began": 1})
        self.hand = Hand(str(place), ["true"], ["true"])

    def keeps(self, **bounds: int) -> Dict[str, Any]:
        found = artifacts.Collectors(str(self.place), argparse.Namespace(**{**BOUNDS, **bounds}))
        return found._kept(self.record, self.hand)

    def kept(self) -> Dict[str, str]:
        """The texts that are kept, by their names."""
        folder = self.place / "artifacts" / "7"
        assert set(os.listdir(folder)) == {"index.json", *(str(it["number"]) for it in self.index()["files"])}
        return {it["name"]: (folder / str(it["number"])).read_text() for it in self.index()["files"]}

    def is_told(self, listed: bytes, out: bytes = b"") -> None:
        """Has the machine say this, as one that somebody has taken."""
        self.hand.listed = lambda unit: listed  # type: ignore[assignment]
        self.hand.out = lambda unit, names: io.BytesIO(out)  # type: ignore[assignment]

    def index(self) -> Dict[str, Any]:
        return index.index_of((self.place / "artifacts" / "7" / "index.json").read_bytes())

    def is_given_up(self) -> bool:
        """Whether nothing is kept in the end."""
        found = artifacts.Collectors(str(self.place), argparse.Namespace(**BOUNDS))
        while not found.are_done(self.record, self.hand):
            pass
        return self.record.get("kept") == {}

    def left_out(self) -> Dict[str, str]:
        return {it["name"]: it["why"] for it in self.index()["left_out"]}

    def leaves(self, **texts: str) -> None:
        """Files in `out`, by their names, in which `_` stands for `/`."""
        for name, text in texts.items():
            file = self.out / name.replace("_", "/")
            file.parent.mkdir(parents=True, exist_ok=True)
            file.write_text(text)

    def log(self) -> str:
        return (self.place / "logs" / "7").read_text()


@pytest.fixture
def place(tmp_path: pathlib.Path) -> Place:
    return Place(tmp_path)


def test_files_are_kept_by_their_names_and_counted(place: Place) -> None:
    place.leaves(log="said", sub_deep_log="below", junit="")
    (place.out / "junit.xml").write_text(JUNIT)
    assert place.keeps() == {"artifacts": {"files": 4, "bytes": len(JUNIT) + 9, "left_out": 0}, "tests": COUNTS}
    assert place.kept() == {"junit.xml": JUNIT, "junit": "", "log": "said", "sub/deep/log": "below"}
    assert (place.index()["group"], place.index()["tests"], place.log()) == (7, COUNTS, "")
    for name in os.listdir(place.place / "artifacts" / "7"):
        assert (place.place / "artifacts" / "7" / name).stat().st_mode & 0o777 == 0o644
    assert (place.place / "artifacts" / "7").stat().st_mode & 0o777 == 0o711


def test_nothing_is_made_of_nothing(place: Place) -> None:
    assert place.keeps() == {}
    place.out.mkdir()
    (place.out / "empty").mkdir()
    assert place.keeps() == {}
    assert not (place.place / "artifacts").exists()


def test_sixteen_folders_arent_too_deep(place: Place) -> None:
    folder = "/".join("d" * 16)
    (place.out / folder).mkdir(parents=True)
    (place.out / folder / "x").write_text("said", encoding="utf-8")
    place.keeps()
    assert place.kept() == {f"{folder}/x": "said"}


def make_socket(file: pathlib.Path) -> None:
    before = os.getcwd()
    with socket.socket(socket.AF_UNIX) as made:
        os.chdir(file.parent)  # (its whole path may be too long for a socket's)
        try:
            made.bind(file.name)
        finally:
            os.chdir(before)


def make_deep(file: pathlib.Path) -> None:
    (file.parent / "/".join(["d"] * 17)).mkdir(parents=True)
    (file.parent / "/".join(["d"] * 17) / "x").touch()


Make = Callable[[pathlib.Path], Any]
STRANGE: Dict[str, Tuple[Make, str]] = {
    "a link to a file": (lambda it: it.symlink_to("/etc/passwd"), "a link"),
    "a link to a folder": (lambda it: it.symlink_to("/etc"), "a link"),
    "a link to nothing": (lambda it: it.symlink_to("nothing"), "a link"),
    "a link to a kept file": (lambda it: it.symlink_to("good"), "a link"),
    "a pipe": (os.mkfifo, "no file"),
    "a socket": (make_socket, "no file"),
    "a sparse file": (lambda it: os.truncate(os.open(it, os.O_CREAT | os.O_WRONLY), 40 * 10**9), "larger than 10 kB"),
    "folders without end": (make_deep, "more than 16 folders deep"),
}


@pytest.mark.parametrize("what", STRANGE)
def test_what_is_no_file_is_left_out_and_named(place: Place, what: str) -> None:
    make, why = STRANGE[what]
    place.leaves(good="said")
    make(place.out / "x")
    assert place.keeps()["artifacts"] == {"files": 1, "bytes": 4, "left_out": 1}
    assert place.kept() == {"good": "said"}
    (found,) = place.left_out().values()
    assert found == why
    assert place.log().startswith("farm-dispatch: of out isn't kept: ") and place.log().endswith(f" ({why})\n")


@pytest.mark.parametrize(
    "name, told",
    [
        (b"a\nb", "a?b"), (b"\x1b]0;x\x07", "?]0;x?"), (b"\xff\xfe", "??"), ("\u202eab".encode(), "?ab"),
        (b"d" * 250 + b"/" + b"e" * 250, "d" * 198 + ".."), (b"\xff" * 255, "?" * 198 + ".."),
    ],
)
def test_names_that_cant_be_shown_or_are_too_long_are_left_out(place: Place, name: bytes, told: str) -> None:
    place.leaves(good="said")
    file = os.path.join(os.fsencode(place.out), name)
    os.makedirs(os.path.dirname(file), exist_ok=True)
    os.close(os.open(file, os.O_CREAT | os.O_WRONLY))
    place.keeps()
    assert place.kept() == {"good": "said"}
    assert place.left_out() == {told: "its name is too long, or no text"}


def test_odd_names_that_are_text_are_kept(place: Place) -> None:
    odd = {"-rf": "1", " ": "2", "..x": "3", "a\\b": "4", "<script>": "5", "ä.log": "6", "x" * 255: "7", "%2e%2e": "8", "index.json": "9"}
    place.out.mkdir()
    for name, text in odd.items():
        (place.out / name).write_text(text)
    place.keeps()
    assert place.kept() == odd


def test_bounds_of_counts_and_sizes(place: Place) -> None:
    place.leaves(a="x" * 10, b="x" * 11, c="x" * 10, d="x" * 6, e="x" * 4, f="x")
    (place.out / "junit.xml").write_text("<a/>")
    kept = place.keeps(artifact_limit=10, artifacts_limit=34)
    assert kept == {"artifacts": {"files": 5, "bytes": 34, "left_out": 2}}
    assert sorted(place.kept()) == ["a", "c", "d", "e", "junit.xml"]
    assert place.left_out() == {"b": "larger than 10 bytes", "f": "beyond 34 bytes in all"}
    place.keeps(artifact_count=2)
    assert sorted(place.kept()) == ["a", "junit.xml"], "the tests' file goes first"
    assert place.left_out()["c"] == "beyond 2 files"


def test_a_million_files_arent_looked_at(place: Place, monkeypatch: pytest.MonkeyPatch) -> None:
    monkeypatch.setattr(artifacts, "MOST_ENTRIES", 100)
    place.out.mkdir()
    for it in range(150):
        (place.out / f"{it:03}").touch()
    kept = place.keeps(artifact_count=10)["artifacts"]
    assert kept["files"] == 10 and 85 <= kept["left_out"] <= 150
    assert len(place.index()["left_out"]) == 50 and place.index()["more_left_out"] == kept["left_out"] - 50


@pytest.mark.parametrize("name", ["/etc/passwd", "../x", "a/../../x", "", ".", "a//b"])
def test_a_worker_that_lies_writes_nothing_beyond_the_folder(place: Place, name: str) -> None:
    place.is_told(f"f 4 {name}\0f 4 good\0end\0".encode(), b"%020dsaid" % 4)
    before = sorted(os.listdir(place.place.parent))
    place.keeps()
    assert place.kept() == {"good": "said"}
    assert sorted(os.listdir(place.place.parent)) == before


def test_a_size_below_0_makes_no_room_for_others(place: Place) -> None:
    place.is_told(b"f -1000 a\0f 4 b\0f 4 c\0end\0", b"%020dsaid" % 4)
    place.keeps(artifacts_limit=4)
    assert (place.kept(), list(place.left_out())) == ({"b": "said"}, ["a", "c"])


@pytest.mark.parametrize("size", [0, 3, 5, 10**6])
def test_a_file_of_another_size_is_left_out(place: Place, size: int) -> None:
    place.is_told(b"f 4 a\0f 4 b\0end\0", b"%020d%s%020dsaid" % (size, b"x" * size, 4))
    place.keeps()
    assert (place.kept(), place.left_out()) == ({"b": "said"}, {"a": "it can't be read"})


@pytest.mark.parametrize("head", [b"", b"1", b"x" * 20, b"-" + b"0" * 19, b"%020d" % 10**15])
def test_an_answer_that_isnt_farm_workers_fills_no_memory(place: Place, head: bytes, monkeypatch: pytest.MonkeyPatch) -> None:
    monkeypatch.setattr(Hand, "listed", lambda *words: b"f 4 a\0end\0")
    asked: List[int] = []

    class Answer(io.BytesIO):
        def read(self, size: Optional[int] = -1) -> bytes:
            asked.append(size or 0)
            return super().read(size)

    monkeypatch.setattr(Hand, "out", lambda *words: Answer(head))
    with pytest.raises(Away):
        place.keeps()
    assert max(asked) <= artifacts.BLOCK and not (place.place / "artifacts" / "7").exists()


def test_many_files_are_asked_for_some_at_a_time(place: Place, monkeypatch: pytest.MonkeyPatch) -> None:
    monkeypatch.setattr(artifacts, "AT_ONCE", 3)
    texts = {f"f{it}": f"said {it}" for it in range(8)}
    place.leaves(**texts)
    place.keeps()
    assert place.kept() == texts


@pytest.mark.parametrize("listed", [b"", b"f 4 a\0", b"en"])
def test_a_list_that_was_cut_is_asked_for_again(place: Place, listed: bytes) -> None:
    place.is_told(listed)
    with pytest.raises(Away):
        place.keeps()
    assert not (place.place / "artifacts" / "7").exists()


def test_files_that_were_cut_are_asked_for_again(place: Place, monkeypatch: pytest.MonkeyPatch) -> None:
    """As where ssh is killed; not without end."""
    place.leaves(a="x" * 2000, b="y" * 2000)
    whole = place.hand.out(UNIT, ["a", "b"]).read()
    assert len(whole) == 4040
    monkeypatch.setattr(Hand, "out", lambda *words: io.BytesIO(whole[:4039]))
    with pytest.raises(Away):
        place.keeps()
    assert os.listdir(place.place / "artifacts") == []
    monkeypatch.setattr(artifacts, "MOST_TRIES", 2)
    assert place.is_given_up() and "isn't kept: its answer was cut" in place.log()


def test_a_fault_of_ones_own_keeps_no_line_waiting(place: Place, monkeypatch: pytest.MonkeyPatch) -> None:
    place.leaves(a="said")
    monkeypatch.setattr(artifacts.Collection, "take", lambda *words: os.stat("/none"))
    assert place.is_given_up() and "isn't kept: [Errno 2] " in place.log()


def test_time_that_is_over_leaves_out_the_rest(place: Place, monkeypatch: pytest.MonkeyPatch) -> None:
    place.leaves(a="said", b="said")
    monkeypatch.setattr(artifacts, "TIME", -1.0)
    assert place.keeps()["artifacts"]["left_out"] == 2
    assert list(place.kept()) == []


def test_a_full_disk_keeps_nothing_and_says_so(place: Place, monkeypatch: pytest.MonkeyPatch) -> None:
    place.leaves(a="said")
    monkeypatch.setattr(artifacts, "MARGIN", 2**60)
    assert place.keeps()["artifacts"] == {"files": 0, "bytes": 0, "left_out": 1}
    assert place.left_out() == {"a": "the disk is full"}


def test_a_junit_that_isnt_counted_is_kept_and_told(place: Place) -> None:
    place.leaves(log="x")
    (place.out / "junit.xml").write_text("<!DOCTYPE x>" + JUNIT)
    assert place.keeps() == {"artifacts": {"files": 2, "bytes": len(JUNIT) + 13, "left_out": 0}}
    assert place.index()["no_tests"] == "it has a document type"
    assert place.log() == "farm-dispatch: the tests of out/junit.xml aren't counted: it has a document type\n"


# ---- what a list of artifacts is

GOOD: Dict[str, Any] = {"files": [{"number": 1, "name": "a/b", "size": 3}], "left_out": [], "more_left_out": 0}


def test_a_list_is_read() -> None:
    assert index.files_of(index.index_of(json.dumps(GOOD).encode())) == [index.Artifact("a/b", 3, 1)]


@pytest.mark.parametrize(
    "name", ["", "/etc/passwd", "../x", "a/../x", "a//b", "a/.", ".", "a\nb", "a\x00b", "a/", "x" * 401, 7, None, ["a"]]
)
def test_a_list_names_nothing_beyond_its_folder(name: Any) -> None:
    said = {**GOOD, "files": [{"number": 1, "name": name, "size": 3}]}
    with pytest.raises(index.BadIndex):
        index.index_of(json.dumps(said).encode())


BAD: List[bytes] = [
    b"", b"[]", b"{}", b'{"files":3,"left_out":[]}', b'{"files":[],"left_out":[3]}', b"[" * 100_000, b"\xff",
    json.dumps({**GOOD, "files": [{"number": "../1", "name": "a", "size": 3}]}).encode(),
    json.dumps({**GOOD, "files": [{"number": 1, "name": "a", "size": -3}]}).encode(),
    json.dumps({**GOOD, "files": GOOD["files"] * 2}).encode(),
    json.dumps({**GOOD, "left_out": [{"name": 3, "why": "x"}]}).encode(),
    json.dumps({**GOOD, "more_left_out": "many"}).encode(),
]


@pytest.mark.parametrize("said", BAD, ids=range(len(BAD)))
def test_what_is_no_list_is_refused(said: bytes) -> None:
    with pytest.raises(index.BadIndex):
        index.index_of(said)


def test_what_never_began_left_nothing_and_that_is_an_answer(tmp_path: pathlib.Path) -> None:
    """As of a try by hand whose dispatcher was killed between the start and the command: else it is asked for ever."""
    assert Hand(str(tmp_path), ["/bin/true"], ["/bin/true"]).listed("farm-job-a-1-b") == END


def test_a_list_of_many_files_takes_little_memory() -> None:
    """A job can make millions within its folder's limit, and several end at once."""
    listed = b"".join(b"f 0 %07d\0" % it for it in range(400_000)) + b"f 1 junit.xml\0" + END
    tracemalloc.start()
    try:
        found = artifacts.entries_of(listed)
        most = tracemalloc.get_traced_memory()[1]
    finally:
        tracemalloc.stop()
    assert found[:2] == [("junit.xml", "f", 1), ("0000000", "f", 0)] and len(found) == artifacts.MOST_ENTRIES
    assert most < 70_000_000
