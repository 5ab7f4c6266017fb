"""A lab file that is written from what another system knows, and the one that is read and added over HTTP."""
from __future__ import annotations

import argparse
import os
import re
from typing import List

import lab_texts
import pytest
from farm_import import lab_file
from fizgruk._tools import lab_text, service
from fizgruk._tools.lab_text import Addition
from fizgruk.words import BadFile


@pytest.fixture
def lab() -> lab_file.LabFile:
    return lab_file.LabFile()


def told(lab: lab_file.LabFile) -> List[str]:
    return [text for text, _ in lab.notes]


def test_types_and_boards_in_the_order_of_their_names(lab: lab_file.LabFile) -> None:
    lab.head = ["made of", "a test"]
    lab.remarks["boards", "b2"] = "a remark"
    lab.add_type("t", "rpi", "jobs", 20)
    lab.add_type("t", "bbb")
    lab.add_board("b", "b2", "bbb", ["usb", "rack=1", "usb"], "Good")
    lab.add_board("b", "b.1", "rpi", [])
    assert lab.text() == """\
# made of
# a test

[types.bbb]

[types.rpi]
check = "jobs"
every = 20

[boards."b.1"]
type = "rpi"
tags = []

# a remark
[boards.b2]
type = "bbb"
tags = ["rack=1", "usb"]
health = "Good"
"""
    assert told(lab) == []
    assert [it.name for it in lab_text.additions_of(lab.text())] == ["bbb", "rpi", "b.1", "b2"]


def test_a_type_that_is_added_again_stays(lab: lab_file.LabFile) -> None:
    lab.add_type("t", "bbb", "hours", 24)
    assert lab.add_type("t", "bbb") == "bbb"
    assert lab.types == {"bbb": ("hours", 24)}


@pytest.mark.parametrize("name, word", [
    ("b1", "b1"), ("b 1", "b-1"), ("é/ü", "---"), ("", "-"), ("n" * 48, "n" * 48), ("n" * 49, "n" * 48),
])
def test_a_name_becomes_one_that_the_desk_takes(lab: lab_file.LabFile, name: str, word: str) -> None:
    lab.add_board("place", name, "bbb", [])
    assert list(lab.boards) == [word]
    note = f"place: board {name!r} isn't carried over as it is: it is {word}"
    assert told(lab) == ([] if name == word else [note])


def test_of_two_names_that_become_one_the_first_is_carried_over(lab: lab_file.LabFile) -> None:
    lab.add_board("one", "b 1", "bbb", ["usb"])
    lab.add_board("two", "b-1", "ccc", [])
    assert lab.boards == {"b-1": ("bbb", ["usb"], None)}
    assert told(lab)[1:] == ["two: board b-1 isn't carried over: there is a b-1 already"]


@pytest.mark.parametrize("tag, kept, note", [
    ("usb", ["usb"], None),
    ("rack=1", ["rack=1"], None),
    ("rack=", ["rack"], "tag rack= isn't carried over as it is: it is rack"),
    ("name=x", [], "tag name=x isn't carried over: a board's name is its tag of this key"),
    ("a=b=c", ["a=b-c"], "value of tag a 'b=c' isn't carried over as it is: it is b-c"),
    ("k" * 33, ["k" * 32], f"tag {'k' * 33!r} isn't carried over as it is: it is {'k' * 32}"),
    (f"v={'w' * 64}", [f"v={'w' * 64}"], None),
    (f"v={'w' * 65}", [f"v={'w' * 64}"],
     f"value of tag v {'w' * 65!r} isn't carried over as it is: it is {'w' * 64}"),
])
def test_a_tag_becomes_one_that_the_desk_takes(
    lab: lab_file.LabFile, tag: str, kept: List[str], note: str
) -> None:
    lab.add_board("place", "b1", "bbb", [tag])
    assert lab.boards["b1"][1] == kept
    assert told(lab) == ([] if note is None else [f"place: {note}"])


def test_sixteen_tags_are_kept(lab: lab_file.LabFile) -> None:
    lab.add_board("place", "b1", "bbb", [f"t{it}" for it in range(10, 27)])
    assert lab.boards["b1"][1] == [f"t{it}" for it in range(10, 26)]
    assert told(lab) == ["place: tag t26 isn't carried over: a board has 16 tags at most"]


def test_what_a_farm_has_no_room_for_is_told(lab: lab_file.LabFile) -> None:
    for number in range(64):
        lab.add_type("t", f"t{number}")
    for number in range(256):
        lab.add_board("b", f"b{number}", f"t{number % 4}", [])
    lab.note_limits()
    assert told(lab) == []
    lab.add_type("t", "one-more")
    lab.add_board("b", "one-more", "t0", [])
    lab.note_limits()
    assert told(lab) == [
        f"lab file: it has {many} {what}, and a farm has room for {most}"
        for many, what, most in ((65, "types", 64), (257, "boards", 256), (65, "boards of type t0", 64))
    ]


@pytest.mark.parametrize("verbose", [False, True])
@pytest.mark.parametrize("lost, status", [(False, 0), (True, 1)])
def test_the_status_says_whether_something_that_matters_was_left_out(
    lab: lab_file.LabFile, folder: str, capsys: pytest.CaptureFixture[str], verbose: bool, lost: bool, status: int
) -> None:
    lab.note("place", "usual", True)
    if lost:
        lab.note("place", "unusual")
    options = argparse.Namespace(output=os.path.join(folder, "lab.toml"), verbose=verbose)
    assert lab_file.write(service.Teller("tool"), lab, options) == status
    lines = (["tool: place: usual"] if verbose else []) + (["tool: place: unusual"] if lost else [])
    assert capsys.readouterr().err.splitlines() == lines
    assert os.listdir(folder) == ["lab.toml"]


def test_a_file_that_cant_be_written_leaves_the_old_one(
    lab: lab_file.LabFile, folder: str, monkeypatch: pytest.MonkeyPatch
) -> None:
    monkeypatch.setattr(service, "catch_signals", lambda: None)
    file = os.path.join(folder, "lab.toml")
    os.mkdir(f"{file}.new")
    with open(file, "w", encoding="utf-8") as opened:
        opened.write("old")
    options = argparse.Namespace(output=file, verbose=False)
    assert lab_file.run("tool", lambda: options, lambda _: lab) == 4
    with open(file, encoding="utf-8") as opened:
        assert opened.read() == "old"


# ---- a lab file that is read


def test_types_come_first_each_in_the_byte_order_of_its_name() -> None:
    text = lab_texts.written(
        boards={"b1": {"type": "z", "tags": ["usb"]}, "B2": {"type": "a"}},
        types={"z": {"check": "jobs", "every": 10000}, "a": {"check": "none", "every": 7}},
    )
    assert lab_text.additions_of(text) == [
        Addition("types", "a", {"name": "a"}),
        Addition("types", "z", {"name": "z", "check": "jobs", "every": 10000}),
        Addition("boards", "B2", {"name": "B2", "type": "a", "tags": []}),
        Addition("boards", "b1", {"name": "b1", "type": "z", "tags": ["usb"]}),
    ]
    keys = [it.key() for it in lab_text.additions_of(text)]
    assert keys == ["type.a", "type.z", "board.B2", "board.b1"]


@pytest.mark.parametrize("lines, why", [
    (["[boards.b1]", "type = 'x'", "tags = ['name=y']"], "line 1: board b1: tag name=y isn't a board's own"),
    (["[boards.b1]", "type = 'x'", "tags = ['name']"], "line 1: board b1: tag name isn't a board's own"),
    (["", "[boards.b1]"], "line 2: board b1: there is no type"),
    (["[boards.'b 1']", "type = 'x'"], "line 1: board b 1: its name 'b 1' isn't a name"),
    (["[types]", "x = 3"], "line 2: type x: it isn't a table"),
    (["[types.x]", "check = 'days'", "every = 1"], "line 1: type x: check is none of none, hours and jobs"),
    (["[types.x]", "check = 'hours'"], "line 1: type x: there is no every"),
    (["[types.x]", "check = 'hours'", "every = 0"], "line 1: type x: every is 0, and is 1 to 10,000"),
    (["[types.x]", "check = 'hours'", "every = 10001"], "line 1: type x: every is 10001, and is 1 to 10,000"),
    (["boards = []"], "boards isn't a table"),
    (["[types"], "no TOML: "),
])
def test_a_fault_of_a_lab_file(lines: List[str], why: str) -> None:
    with pytest.raises(BadFile, match=f"^{re.escape(why)}"):
        lab_text.additions_of("\n".join(lines))


@pytest.mark.parametrize("name", [".", ".."])
def test_no_board_is_added_whose_address_would_lead_elsewhere(name: str) -> None:
    """The desk takes such a name; a proxy takes its address for another."""
    with pytest.raises(BadFile, match=f"line 2: board {re.escape(name)}: its name '{re.escape(name)}' would lead its address"):
        lab_text.additions_of(f'[types.bbb]\n[boards."{name}"]\ntype = "bbb"\n')
    lab = lab_file.LabFile()
    lab.add_board("here", name, "bbb", [])
    assert name not in lab.boards
