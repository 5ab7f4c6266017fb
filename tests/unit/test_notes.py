"""Notes of boards: the lab's file, what farm-dispatch shows of it, and what is read of that."""
from __future__ import annotations

import json
import os
import pathlib
from typing import Any, List

import pytest
from farm_dispatch.published import Notes
from fizgruk import notes
from fizgruk.words import BadFile
from served import TOP, read

ONE = '[boards.b1]\nplace = "rack 2"\n'
LONG = "x" * 1001


def test_the_example_is_one() -> None:
    found = notes.notes_in(read(os.path.join(TOP, "examples", "notes.toml")))
    assert set(found) == {"bbb-01", "rpi4b-04"} and set(found["bbb-01"]) == {"place", "owner", "wiki", "comment"}
    assert found["rpi4b-04"] == {
        "comment": "Its camera looks at the panel of rpi4b-03.\nAsk bob before you move either."
    }


@pytest.mark.parametrize("text, told", [
    ("[boards", "no TOML"),
    ("boards = 3\n", "boards isn't a table"),
    ("[types.bbb]\n", "line 1: there is no table types: [boards.NAME] is meant"),
    ('[boards.b1]\nonwer = "ann"\n', "board b1: onwer is none of place, owner, wiki, comment, reason"),
    (ONE + "owner = 3\n", "board b1: owner is no text of at most 1,000 letters"),
    (ONE + f'comment = "{LONG}"\n', "board b1: comment is no text of at most 1,000 letters"),
    (ONE + 'wiki = "javascript:alert(1)"\n', "board b1: wiki begins with none of https:// and http://"),
    (ONE + '[boards."b 1"]\n', "line 3: board b 1: its name 'b 1' isn't a name"),
])
def test_a_file_that_has_a_fault(text: str, told: str) -> None:
    with pytest.raises(BadFile) as fault:
        notes.notes_in(text)
    assert told in str(fault.value)


def test_what_is_empty_isnt_there() -> None:
    assert notes.notes_in('[boards.b1]\nplace = " "\nwiki = ""\ncomment = " a "\n[boards.b2]\n') == {"b1": {"comment": "a"}, "b2": {}}


@pytest.mark.parametrize("said", [None, [], {"boards": 3}, {"boards": {"b1": 3}}, {"boards": {"b1": {"place": 3}}}])
def test_an_answer_that_is_no_notes(said: Any) -> None:
    assert notes.told(said).of("b1") == {} and notes.told(said).fault == ""


class Shown:
    """A dispatcher's folder, and the lab's file."""

    def __init__(self, place: pathlib.Path):
        self.file, self.told = place / "notes.toml", list[str]()
        self.shown = place / "notes.json"
        self.notes = Notes(str(place), str(self.file), self.told.append)

    def look(self, text: str | None = None) -> Any:
        """What is shown after a look, where the file has this text."""
        if text is not None:
            self.file.write_text(text, encoding="utf-8")
        self.notes.look()
        return json.loads(self.shown.read_text(encoding="utf-8")) if self.shown.exists() else None


@pytest.fixture
def shown(tmp_path: pathlib.Path) -> Shown:
    return Shown(tmp_path)


def test_a_lab_without_the_file_shows_none(shown: Shown) -> None:
    assert shown.look() is None and shown.told == []


def test_what_changes_is_shown_and_a_file_that_goes_too(shown: Shown) -> None:
    assert shown.look(ONE)["boards"] == {"b1": {"place": "rack 2"}}
    assert oct(shown.shown.stat().st_mode)[-3:] == "644"
    shown.shown.unlink()
    assert shown.look() is None, "what hasn't changed isn't read again"
    assert shown.look(ONE.replace("2", "30"))["boards"] == {"b1": {"place": "rack 30"}}
    shown.file.unlink()
    assert shown.look()["boards"] == {} and shown.told == []


def test_a_fault_is_told_once_and_the_notes_of_before_stay(shown: Shown, tmp_path: pathlib.Path) -> None:
    """Also by a dispatcher that is started meanwhile."""
    shown.look(ONE)
    for _ in range(3):
        said = shown.look()
    said = shown.look(ONE + "x = 3\n")
    shown.look()
    fault = f"{shown.file}: line 1: board b1: x is none of place, owner, wiki, comment, reason"
    assert said["fault"] == fault and said["boards"] == {"b1": {"place": "rack 2"}}
    assert shown.told == [f"notes of boards: {fault}; what it said before is shown"]
    later = Shown(tmp_path)
    assert later.look()["boards"] == {"b1": {"place": "rack 2"}} and len(later.told) == 1
    assert later.look(ONE)["fault"] == ""


@pytest.mark.parametrize("make", ["fifo", "folder", "bytes", "large"])
def test_what_is_no_file_holds_up_nobody(shown: Shown, make: str) -> None:
    if make == "fifo":
        os.mkfifo(shown.file)
    elif make == "folder":
        shown.file.mkdir()
    else:
        shown.file.write_bytes(b"\xff" if make == "bytes" else b"#" * 1_000_001)
    said = shown.look()
    faults: List[str] = shown.told
    assert said["boards"] == {} and (len(faults) == 1 or (make, faults) == ("fifo", []))
