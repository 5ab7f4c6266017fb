"""The lab file of a next farm: what is no lab, what would be otherwise, and what is in the way."""
from __future__ import annotations

import json
import os
import pathlib
from typing import Any, Dict, List

import pytest
from fake_desk import FakeDesk
from farm_import import lab_file, next_lab
from served import TOP

GOOD = '[types.bbb]\n[boards.b1]\ntype = "bbb"\nhealth = "Good"\n'
MANY = "".join(f'[boards.b{it}]\ntype = "bbb"\n' for it in range(65))


def views(**more: Any) -> FakeDesk:
    """A farm's views; each job is ann's."""
    return FakeDesk(**{"types": [], "boards": [], "queue": [], "reservations": [], "jobs": {"owner": "ann"}, **more})


def board(name: str, holder: str = "none", health: str = "Good", tags: List[str] = []) -> Dict[str, Any]:
    return {"name": name, "type": "bbb", "tags": tags, "health": health, "holder": holder}


def read(tmp_path: pathlib.Path, text: str) -> next_lab.NextLab:
    file = tmp_path / "next.toml"
    file.write_bytes(text.encode())
    return next_lab.lab_of(str(file))[0]


@pytest.mark.parametrize("text, told", [
    ("[types", "no TOML"),
    ("[types.bbb]\n", "it has no boards"),
    ('[boards.b1]\ntype = "bbb"\n', "line 1: board b1: there is no type bbb"),
    (GOOD.replace("Good", "good"), "line 2: board b1: health is none of Good, Bad, Unknown, Maintenance, Retired"),
    (GOOD.replace('"Good"', "3"), "line 2: board b1: health is none of"),
    (GOOD.replace("bbb]", 'bbb]\ncheck = "days"'), "line 1: type bbb: check is none of none, hours and jobs"),
    (GOOD + 'tags = ["name=x"]\n', "line 2: board b1: tag name=x isn't a board's own"),
    ("[types.bbb]\n" + MANY, "it has 65 boards of type bbb, and a farm has room for 64"),
    (GOOD + "".join(f"[types.t{it}]\n" for it in range(64)), "it has 65 types, and a farm has room for 64"),
    ("#" * 1_048_577, "it has more than 1,048,576 bytes"),
])
def test_a_file_that_is_no_lab(tmp_path: pathlib.Path, text: str, told: str) -> None:
    with pytest.raises(lab_file.Unreadable) as fault:
        read(tmp_path, text)
    assert str(fault.value).startswith(f"{tmp_path}/next.toml is no lab file: ") and told in str(fault.value)


def test_what_counts_for_nothing_is_told(tmp_path: pathlib.Path) -> None:
    """A health counts, and a misspelt one doesn't."""
    file = tmp_path / "next.toml"
    file.write_text(GOOD + 'helth = "Good"\n', encoding="utf-8")
    assert next_lab.lab_of(str(file))[1] == ["line 5: board b1: helth is ignored"]


def test_each_board_has_the_files_health_or_its_own_or_the_first(tmp_path: pathlib.Path) -> None:
    lab = read(tmp_path, GOOD + '[boards.b2]\ntype = "bbb"\n[boards.b3]\ntype = "bbb"\n')
    view = views(boards=[board("b1"), board("b2", health="Bad"), board("b9")])
    assert next_lab.healths_of(lab, view) == {"b1": "Good", "b2": "Bad", "b3": "Maintenance"}
    assert next_lab.changes_of(lab, view) == ["type bbb: it is new", "board b9: it is left out", "board b3: it is new"]


def test_what_is_in_the_way_and_what_is_lost(tmp_path: pathlib.Path) -> None:
    lab = read(tmp_path, GOOD)
    view = views(
        boards=[board("b1", "reservation 3", "Bad"), board("b2", "job 5"), board("b4", "reservation 9")],
        queue=[{"kind": "group", "number": 7, "owner": "bob"}, {"kind": "reservation", "number": 8, "owner": "eve"}],
        reservations=[{"number": 3, "owner": "eve"}],
    )
    assert next_lab.faults_of(lab, view) == [
        "board b2: job 5 of ann has it", "board b1: the desk has it Bad, and the file Good",
    ]
    assert next_lab.lost_of(view) == [
        "board b1: reservation 3 of eve has it", "board b4: reservation 9 has it",
        "queue: job 7 of bob waits", "queue: reservation 8 of eve waits",
    ]


def test_two_texts_have_two_marks(tmp_path: pathlib.Path) -> None:
    assert read(tmp_path, GOOD).mark() == read(tmp_path, GOOD).mark() != read(tmp_path, f"{GOOD}\n").mark()


def test_a_column_that_isnt_known_is_in_the_way_and_all_of_todays_are_known(tmp_path: pathlib.Path) -> None:
    """What a later desk shows of a board would be lost in silence."""
    lab = read(tmp_path, GOOD)
    view = views(boards=[{**board("b1"), "location": "rack 2"}])
    assert next_lab.faults_of(lab, view) == [
        "boards: the desk shows location, which would be lost: this tool is older than it",
    ]
    with open(os.path.join(TOP, "docs", "openapi.json"), encoding="utf-8") as file:
        schemas = json.load(file)["components"]["schemas"]
    for name, view_name in (("Board", "boards"), ("Type", "types")):
        assert schemas[name]["properties"].keys() == next_lab.COLUMNS[view_name]
