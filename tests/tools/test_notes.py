"""Notes of boards: from the lab's file by farm-dispatch and the site to desk and Python, and labgrid's comments into such a
file. (tests/unit/test_notes.py: what a file may say.)"""
from __future__ import annotations

import json
import os
import subprocess
import sys
from typing import Iterator, List, Tuple

import pytest

import fizgruk
from dispatch_lab import Lab
from fizgruk import notes
from nginx_site import Site
from served import STARTED, TOOLS, end_all, environment, read, wait_until
from wants import wants_modules

FILE = """\
[boards.b1]
place = "rack 2"
wiki = "https://wiki.lab.example/b1"
comment = "first\\nsecond"
[boards.gone]
place = "nowhere"
"""
SHOWN = """\
place:   rack 2
wiki:    https://wiki.lab.example/b1
comment: first
         second
"""


class Noted:
    """A lab with a dispatcher and a site, and its file of notes."""

    def __init__(self, program: str, folder: str):
        self.lab = Lab(program, folder, [("b1", "bbb", ["hdmi"]), ("b2", "bbb", ["b1-like"])])
        self.file = os.path.join(folder, "notes.toml")
        self.tool = self.lab.dispatch("--notes", self.file)
        self.site = Site(self.lab.farm, folder)

    def write(self, text: str, shown: str) -> None:
        """Writes the file, and waits until that is shown."""
        with open(f"{self.file}.new", "w", encoding="utf-8") as file:
            file.write(text)
        os.replace(f"{self.file}.new", self.file)
        wait_until("the notes", lambda: shown in read(os.path.join(self.lab.place, "notes.json")))


@pytest.fixture(scope="module")
def noted(program: str, tmp_path_factory: pytest.TempPathFactory) -> Iterator[Noted]:
    before = len(STARTED)
    made = Noted(program, str(tmp_path_factory.mktemp("noted")))
    own = STARTED[before:]
    del STARTED[before:]
    yield made
    end_all(own)


def test_a_named_board_has_its_notes(noted: Noted) -> None:
    """In a folder, at the site, as JSON and from Python; a board that isn't named hasn't, nor one without any."""
    assert noted.site.got("/notes.json")[0] == 404 and noted.site.desk("boards", "b1")[0] == 0
    noted.write(FILE, "rack 2")
    for words in (["b1"], ["name=b1"], ["b1", "hdmi"]):
        status, said, errors = noted.site.desk("boards", *words)
        assert (status, errors) == (0, "") and said.startswith("name:    b1\ntype:    bbb\n") and said.endswith(SHOWN), words
    assert noted.site.desk("--history", noted.lab.place, "boards", "b1")[1].endswith(SHOWN)
    for tag in ("hdmi", "b2", "b1-like", "gone"):
        said = noted.site.desk("boards", tag)[1]
        assert "rack" not in said and "nowhere" not in said, tag
    row = json.loads(noted.site.desk("boards", "b1", "--json")[1])
    assert list(row) == ["boards", "notes"] and row["notes"]["b1"]["comment"] == "first\nsecond"
    assert list(json.loads(noted.site.desk("boards", "b2", "--json")[1])) == ["boards"]
    own = noted.site.settings()
    with fizgruk.Client(own["DESK_SERVER"], own["DESK_USER"], password_file=own["DESK_PASSWORD_FILE"],
                        ca_file=own["DESK_CA_FILE"]) as client:
        assert client.notes("b1")["place"] == "rack 2" and client.notes("b2") == {}
    assert fizgruk.Client(noted.lab.farm.server, "ann").notes("b1") == {}, "nobody serves them there"
    with fizgruk.Client(noted.lab.farm.server, "ann", history=noted.lab.place) as client:
        assert client.notes("b1")["wiki"] == "https://wiki.lab.example/b1"


def test_the_page_gets_them_as_json(noted: Noted) -> None:
    noted.write(FILE, "rack 2")
    status, fields, body = noted.site.got("/notes.json")
    assert (status, fields["cache-control"]) == (200, "no-cache")
    said = json.loads(body)
    assert list(said) == ["at", "fault", "boards"] and set(said["boards"]) == {"b1", "gone"}
    assert noted.site.got("/notes.json", "-X", "POST")[0] == 405
    assert noted.site.curl("-o", "/dev/null", "-f", "/notes.json") == 22, "without a password"


def test_a_fault_of_the_file_is_told_to_the_admin_and_to_who_looks(noted: Noted) -> None:
    noted.write(FILE, "rack 2")
    noted.write(FILE + "x = 1\n", "x is none of")
    status, said, errors = noted.site.desk("boards", "b1")
    fault = f"{noted.file}: line 5: board gone: x is none of place, owner, wiki, comment, reason"
    assert status == 0 and said.endswith(SHOWN) and errors == f"desk: notes of boards: {fault}\n"
    assert f"notes of boards: {fault}; what it said before is shown" in noted.tool.errors()
    noted.write(FILE.replace("rack 2", "rack 3"), "rack 3")
    assert noted.site.desk("boards", "b1")[2] == ""


# ---- labgrid


PLACES = """\
bbb 1:
  comment: next to "the"
    window
  tags: {board: bbb}
b2:
  comment: ''
  tags: {board: bbb}
b3:
  comment: LONG
  tags: {board: bbb}
b4:
  comment: no tags
  matches: []
"""


def run(*words: str) -> Tuple[int, str, List[str]]:
    ran = subprocess.run(
        [sys.executable, os.path.join(TOOLS, "farm-from-labgrid"), *words], capture_output=True, text=True, check=False,
        env=environment(),
    )
    return ran.returncode, ran.stdout, ran.stderr.splitlines()


def test_comments_of_labgrid_become_notes(folder: str) -> None:
    wants_modules("yaml")
    places, file = os.path.join(folder, "places.yaml"), os.path.join(folder, "notes.toml")
    with open(places, "w", encoding="utf-8") as text:
        text.write(PLACES.replace("LONG", "x" * 1001))
    status, _, errors = run(places, "--notes", file)
    assert (status, errors) == (1, [
        "farm-from-labgrid: place bbb 1: board 'bbb 1' isn't carried over as it is: it is bbb-1",
        "farm-from-labgrid: place b4: it has no tag board: its type is place",
        "farm-from-labgrid: place b3: its comment is cut to 1,000 letters",
    ])
    assert notes.notes_in(read(file)) == {
        "bbb-1": {"comment": 'next to "the" window'}, "b3": {"comment": "x" * 1000}, "b4": {"comment": "no tags"},
    }
    status, said, errors = run(places, "--notes", file)
    assert (status, said, errors) == (4, "", [f"farm-from-labgrid: {file} is there: name another, and put both together"])
