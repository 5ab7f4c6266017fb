"""The dispatcher's history: lines that are whole, the newest of them, and why a board's health changed."""
from __future__ import annotations

import json
import os
import pathlib
from typing import Any, Dict, List

import pytest
from fizgruk import records
from fizgruk.records import History
from recorded import recorded, synced

NOW = 1_800_000_000
TOOLS = str(pathlib.Path(records.__file__).parents[1])
ADD = """\
import json, sys
sys.path.insert(0, sys.argv[1])
from fizgruk import records
records.History(sys.argv[2], set()).add_jobs([json.loads(sys.argv[3])])
"""


class Clock:
    @staticmethod
    def time() -> float:
        return NOW + 0.5


@pytest.fixture
def place(tmp_path: pathlib.Path, monkeypatch: pytest.MonkeyPatch) -> str:
    monkeypatch.setattr(records, "time", Clock)
    return str(tmp_path)


def job(number: int, **more: Any) -> Dict[str, Any]:
    said: Dict[str, Any] = {
        "kind": "job", "job": number, "group": number, "owner": "ann", "boards": ["b1"], "type": "bbb", "name": "boot",
        "submitted": None, "began": 100, "ended": 200, "outcome": "Complete", "reason": "status 0",
    }
    return {**said, **more}


def board(name: str, health: str) -> Dict[str, Any]:
    return {"name": name, "health": health}


def lines_in(place: str) -> List[Any]:
    with open(os.path.join(place, "history.jsonl"), encoding="utf-8") as lines:
        return [json.loads(it) for it in lines]


def newest_in(place: str) -> Any:
    with open(os.path.join(place, "history.json"), encoding="utf-8") as file:
        return json.load(file)


def reasons(place: str) -> List[str]:
    return [it["reason"] for it in lines_in(place) if it["kind"] == "health"]


def test_a_job_has_one_line(place: str) -> None:
    """Also over a restart that doesn't know whether the group had it; one that began again has another."""
    history = History(place, set())
    for _ in range(2):
        history.add_jobs([job(1)])
    history = History(place, {1})
    history.add_jobs([job(1)])
    assert lines_in(place) == [job(1)]
    history.add_jobs([job(1, began=150)])
    assert lines_in(place) == [job(1), job(1, began=150)]


def test_of_a_group_those_members_are_added_that_have_no_line(place: str) -> None:
    History(place, set()).add_jobs([job(1, group=1)])
    History(place, {1}).add_jobs([job(1, group=1), job(2, group=1)])
    assert [it["job"] for it in lines_in(place)] == [1, 2]


def test_lines_are_on_the_disk_when_they_are_added(tmp_path: pathlib.Path) -> None:
    """And the name of a new history is, too."""
    entries = recorded(["-c", ADD, TOOLS, str(tmp_path), json.dumps(job(1))], str(tmp_path))
    assert {str(tmp_path), f"{tmp_path}/history.jsonl"} <= synced(entries)
    assert lines_in(str(tmp_path)) == [job(1)]


@pytest.mark.parametrize("left", ['{"kind":"job","job":2,', "x", '{"kind":"job"}', "é" * 40000])
def test_a_line_that_a_stop_cut_is_cut_off(place: str, left: str) -> None:
    History(place, set()).add_jobs([job(1)])
    with open(os.path.join(place, "history.jsonl"), "a", encoding="utf-8") as lines:
        lines.write(left)
    History(place, set()).add_jobs([job(2)])
    assert [it["job"] for it in lines_in(place)] == [1, 2]


def test_a_whole_line_that_lacks_its_end_gets_it(place: str) -> None:
    History(place, set()).add_jobs([job(1)])
    with open(os.path.join(place, "history.jsonl"), "a", encoding="utf-8") as lines:
        lines.write(json.dumps(job(2)))
    History(place, set()).add_jobs([job(3)])
    assert [it["job"] for it in lines_in(place)] == [1, 2, 3]


def test_without_room_all_lines_are_added_or_none(place: str, monkeypatch: pytest.MonkeyPatch) -> None:
    history = History(place, set())
    history.add_jobs([job(1)])
    write = os.write
    written: List[int] = []

    def one_byte_then_full(file: int, text: bytes) -> int:
        if written:
            raise OSError(28, "No space left on device")
        written.append(write(file, text[:1]))
        return 1

    with monkeypatch.context() as patch:
        patch.setattr(os, "write", one_byte_then_full)
        with pytest.raises(OSError):
            history.add_jobs([job(2), job(3)])
    assert lines_in(place) == [job(1)]
    history.add_jobs([job(2), job(3)])
    assert [it["job"] for it in lines_in(place)] == [1, 2, 3]


def test_others_may_read_the_history(place: str) -> None:
    """The proxy's user, whatever the umask."""
    before = os.umask(0o077)
    try:
        History(place, set()).see([board("b1", "Good")])
    finally:
        os.umask(before)
    modes = {it: os.stat(os.path.join(place, it)).st_mode & 0o777 for it in ("history.jsonl", "history.json")}
    assert modes == {"history.jsonl": 0o644, "history.json": 0o644}


# ---- the newest


def test_the_newest_of_both_kinds_come_first(place: str, monkeypatch: pytest.MonkeyPatch) -> None:
    history = History(place, set())
    history.add_jobs([job(it) for it in range(1, 204)])
    for health in ("Good", "Bad"):
        history.see([board("b1", health)])
    newest = newest_in(place)
    assert [it["job"] for it in newest["jobs"]] == list(range(203, 3, -1)), "two hundred"
    assert [(it["from"], it["to"]) for it in newest["boards"]] == [("Good", "Bad")]
    assert newest["at"] == NOW
    os.remove(os.path.join(place, "history.json"))
    History(place, set())
    assert newest_in(place) == newest


# ---- healths


def test_a_health_is_a_line_when_it_changes(place: str) -> None:
    """Not when it is seen for the first time."""
    history = History(place, set())
    for healths in (("Good", "Bad"), ("Good", "Bad"), ("Bad", "Bad"), ("Good", "Bad")):
        history.see([board(*it) for it in zip(("b1", "b2"), healths)])
    row: Dict[str, Any] = {"kind": "health", "board": "b1", "at": NOW, "reason": "by the admin"}
    assert lines_in(place) == [{**row, "from": "Good", "to": "Bad"}, {**row, "from": "Bad", "to": "Good"}]


def test_a_health_that_changed_while_nobody_looked_is_a_line(place: str) -> None:
    History(place, set()).see([board("b1", "Good")])
    History(place, set()).see([board("b1", "Bad")])
    assert [(it["from"], it["to"]) for it in lines_in(place)] == [("Good", "Bad")]


CHECK: Dict[str, Any] = {"owner": "admin", "name": "health check"}


@pytest.mark.parametrize("before, ended, after, why", [
    ("Good", {"outcome": "Infra"}, "Unknown", "job 1 ended Infra"),
    ("Good", {"outcome": "Incomplete"}, "Unknown", "by the admin"),
    ("Good", {"outcome": "Infra"}, "Bad", "by the admin"),
    ("Bad", {"outcome": "Infra"}, "Unknown", "by the admin"),
    ("Unknown", {**CHECK, "outcome": "Complete"}, "Good", "health check 1 ended Complete"),
    ("Unknown", {**CHECK, "outcome": "Infra"}, "Bad", "health check 1 ended Infra"),
    ("Good", {**CHECK, "outcome": "Incomplete"}, "Bad", "health check 1 ended Incomplete"),
    ("Good", {**CHECK, "outcome": "Canceled"}, "Bad", "by the admin"),
    ("Good", {**CHECK, "owner": "ann", "outcome": "Incomplete"}, "Bad", "by the admin"),
])
def test_a_jobs_end_is_why_a_health_changed(place: str, before: str, ended: Any, after: str, why: str) -> None:
    """Where the desk's rules let it be (docs/MACHINE.md, Change); also over a restart."""
    history = History(place, set())
    history.see([board("b1", before)])
    history.add_jobs([job(1, **ended)])
    History(place, set()).see([board("b1", after)])
    assert reasons(place) == [why]


def test_a_later_jobs_end_takes_the_place_of_an_earlier(place: str) -> None:
    history = History(place, set())
    history.see([board("b1", "Good")])
    history.add_jobs([job(1, outcome="Infra"), job(2)])
    history.see([board("b1", "Unknown")])
    assert reasons(place) == ["by the admin"]


def test_a_reason_holds_for_one_change(place: str) -> None:
    history = History(place, set())
    history.see([board("b1", "Good")])
    history.add_jobs([job(1, outcome="Infra")])
    for health in ("Unknown", "Good", "Unknown"):
        history.see([board("b1", health)])
    assert reasons(place) == ["job 1 ended Infra", "by the admin", "by the admin"]


# ---- reading


@pytest.mark.parametrize("line", [
    b"", b"x", b"[1]", b"1", b"null", b'{"kind":"job","job":1}', b'{"kind":["job"]}', b"\xff",
])
def test_what_is_no_line_of_a_history(line: bytes) -> None:
    assert records.row_of(line) is None


HEALTH: Dict[str, Any] = {"kind": "health", "board": "b1", "from": "Good", "to": "Bad", "at": 100, "reason": "by the admin"}
HOLD: Dict[str, Any] = {
    "kind": "hold", "key": "k-1.2.3", "reservation": 2, "owner": "ann", "board": "b1", "type": "bbb", "began": 100,
    "ended": 200, "reason": "",
}


@pytest.mark.parametrize("row", [job(1), job(1, submitted=90), job(1, boards=[]), HEALTH, HOLD])
def test_what_is_a_line_of_a_history(row: Dict[str, Any]) -> None:
    assert records.row_of(json.dumps(row).encode()) == row


@pytest.mark.parametrize("row", [
    job(1, job="1"), job(1, group=True), job(1, owner=None), job(1, boards="b1"), job(1, boards=[1]), job(1, type=3),
    job(1, name=["boot"]), job(1, submitted="100"), job(1, began=1.5), job(1, began=-1), job(1, ended=None),
    job(1, ended=10**400), job(1, outcome=[]), job(1, reason=0), {**HEALTH, "board": ["b1"]}, {**HEALTH, "from": None},
    {**HEALTH, "to": 1}, {**HEALTH, "at": "100"}, {**HOLD, "key": 1}, {**HOLD, "reservation": "2"}, {**HOLD, "began": None},
])
def test_a_line_whose_fields_are_of_other_kinds_is_none(row: Dict[str, Any]) -> None:
    assert records.row_of(json.dumps(row).encode()) is None


def test_the_last_bytes_of_a_history_have_its_last_lines(place: str) -> None:
    History(place, set()).add_jobs([job(1), job(2), job(3)])
    file = os.path.join(place, "history.jsonl")
    length = os.path.getsize(file) // 3
    assert [it["job"] for it in records.rows_of(file, 2 * length + 5)] == [2, 3]
    assert [it["job"] for it in records.rows_of(file, 100 * length)] == [1, 2, 3]
    assert list(records.rows_of(f"{file}.none")) == []


@pytest.mark.parametrize("known", ["", "[]", "x"])
def test_healths_that_cant_be_read_are_seen_anew(place: str, known: str) -> None:
    pathlib.Path(place, "healths.json").write_text(known)
    History(place, set()).see([board("b1", "Bad")])
    assert (lines_in(place), History(place, set()).healths) == ([], {"b1": "Bad"})
