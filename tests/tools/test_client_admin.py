"""An admin's commands, imports of lab files, completion."""
from __future__ import annotations

import json
import os
import re
import subprocess
import sys
import time
from typing import Callable, List

import pytest
from answering import Answering
from completed import completed
from desks import BOARDS, Ran, at_a_terminal, desk, prints, read_until, rest_of, write
from served import PATIENCE, TOP, Farm, read

EXAMPLE = os.path.join(TOP, "examples", "lab.toml")


@pytest.fixture
def lab(make_farm: Callable[..., Farm]) -> Farm:
    """A farm that has nothing."""
    return make_farm()


def admin(lab: Farm, *words: str, user: str = "") -> Ran:
    """What a command comes to that asks as the admin where nothing names another."""
    return desk(lab, *words, user=user)


def test_types_are_added(lab: Farm) -> None:
    assert admin(lab, "add-type", "rpi", "--check", "jobs", "--every", "20") == (0, "", "")
    assert admin(lab, "add-type", "bbb", "--json") == (0, '{"number":0}\n', "")
    types = [(it["name"], it["check"], it["every"]) for it in lab.look("/types")["types"]]
    assert types == [("bbb", "none", 0), ("rpi", "jobs", 20)]
    assert admin(lab, "add-type", "bbb", user="admin") == (3, "", "desk: refused: 11 type exists\n")
    assert admin(lab, "add-type", "x", user="ann") == (3, "", "desk: refused: 3 forbidden: asked as ann\n")


def test_boards_are_added_and_have_tags(lab: Farm) -> None:
    lab.tell("admin", "/types", {"name": "rpi"})
    assert admin(lab, "add-board", "r1", "rpi", "hdmi", "serial") == (0, "", "")
    assert admin(lab, "add-board", "r3", "ccc") == (3, "", "desk: refused: 10 no such type: ccc\n")
    assert lab.board("r1")["tags"] == ["hdmi", "serial"]
    assert admin(lab, "tags", "r1", "usb", "rack=2") == (0, "", "")
    assert lab.board("r1")["tags"] == ["rack=2", "usb"]
    assert admin(lab, "tags", "r1", "--none") == (0, "", "")
    assert lab.board("r1")["tags"] == []


def test_the_health_of_several_boards_is_set_and_those_that_arent_there_are_told(lab: Farm) -> None:
    lab.tell("admin", "/types", {"name": "rpi"})
    for name in ("r1", "r2"):
        lab.tell("admin", "/boards", {"name": name, "type": "rpi"})
    told = "desk: board r9: refused: 12 no such board\n"
    assert admin(lab, "health", "r9", "r1", "r2", "good") == (3, "", told)
    assert [lab.board(it)["health"] for it in ("r1", "r2")] == ["Good", "Good"]
    assert admin(lab, "health", "r2", "Maintenance") == (0, "", "")
    assert lab.board("r2")["health"] == "Maintenance"
    assert admin(lab, "health", "r1", "r2", "Bad", user="ann") == (3, "", "desk: refused: 3 forbidden: asked as ann\n")


@pytest.mark.parametrize("answer, words, status, healths", [
    (b"y\r", ["b1", "b2"], 0, ["Retired", "Retired"]), (b"\r", ["b1"], 1, ["Good", "Good"]),
    (b"n\r", ["b1", "b2"], 1, ["Good", "Good"]), (b"\x03", ["b1"], 130, ["Good", "Good"]),
    (b"", ["b1", "--yes"], 0, ["Retired", "Good"]),
])
def test_at_a_terminal_it_asks_once_before_boards_are_retired(
    make_farm: Callable[..., Farm], answer: bytes, words: List[str], status: int, healths: List[str]
) -> None:
    farm = make_farm(BOARDS)
    process, line = at_a_terminal(farm, "--user", "admin", "health", *words, "Retired")
    said = read_until(line, rb"\[y/N\]") if answer else b""
    os.write(line, answer)
    said += rest_of(line)
    assert (process.wait(timeout=PATIENCE), said.count(b"[y/N]")) == (status, bool(answer))
    assert [farm.board(it)["health"] for it in ("b1", "b2")] == healths


def test_elsewhere_it_doesnt_ask(make_farm: Callable[..., Farm]) -> None:
    farm = make_farm(BOARDS)
    assert (admin(farm, "health", "b1", "retired"), farm.board("b1")["health"]) == ((0, "", ""), "Retired")


@pytest.mark.parametrize("name", ["r 1", "r\u00e9", "r/1", "..", "?"])
def test_the_health_of_an_odd_name_is_refused_by_the_desk(lab: Farm, name: str) -> None:
    status, _, errors = desk(lab, "health", name, "Good", user="admin")
    assert (status, errors.count("refused: ")) == (3, 1)


# ---- imports (tests/unit/importers/test_lab_file.py has the faults of lab files, without a server)


def import_by_program(lab: Farm, file: str) -> str:
    """What `farm import` prints, over a farm that isn't served meanwhile."""
    lab.kill()
    words = [lab.program, "import", "--db", lab.db, "--at", str(int(time.time())), file]
    ran = subprocess.run(words, capture_output=True, text=True, check=False)
    lab.start()
    return ran.stdout


def test_a_lab_file_is_imported_over_http_as_by_the_program(make_farm: Callable[..., Farm]) -> None:
    """Each keeps what the other added."""
    first, second = make_farm(), make_farm()
    assert admin(first, "import", EXAMPLE) == (0, "accepted 15, kept 0\n", "")
    assert admin(first, "import", EXAMPLE) == (0, "accepted 0, kept 15\n", "")
    assert import_by_program(second, EXAMPLE) == "accepted 15, kept 0\n"
    for view in ("/types", "/boards"):
        assert first.look(view) == second.look(view)
    assert import_by_program(first, EXAMPLE) == "accepted 0, kept 15\n"
    assert admin(second, "import", EXAMPLE, "--json") == (0, '{"accepted":0,"kept":15}\n', "")
    grown = read(EXAMPLE) + '\n[boards."qemu.05"]\ntype = "qemu-aarch64"\n'
    assert desk(second, "import", "-", given=grown, user="admin") == (0, "accepted 1, kept 15\n", "")


def test_a_lab_file_of_toml_1_1_is_read_as_the_program_reads_it(lab: Farm, folder: str) -> None:
    text = 'types.bbb = {\n  check = "hours",\n  every = 3,\n}\nboards.b1 = {type = "\\x62bb",}\n'
    assert desk(lab, "import", "-", given=text, user="") == (0, "accepted 2, kept 0\n", "")
    assert import_by_program(lab, write(folder, "newer.toml", text)) == "accepted 0, kept 2\n"


@pytest.mark.parametrize("lines, user, told, left", [
    (
        ["[types.bbb]", "", "[boards.b2]", 'type = "bbb"', "", "[boards.b1]", "tags = [", "]", 'type = "x"'], "",
        "line 6: board b1: 10 no such type: x; before it: accepted 1, kept 0", ["bbb", "rpi"],
    ),
    (
        ["[types]", "bbb = {}", "rpi = {}"], "",
        "line 3: type rpi: 11 type exists, and no import added it; before it: accepted 1, kept 0", ["bbb", "rpi"],
    ),
    (
        ["[types.ccc]"], "ann",
        "line 1: type ccc: 3 forbidden: asked as ann; before it: accepted 0, kept 0", ["rpi"],
    ),
    (
        ["[types.ddd]", "[boards.b1]", 'type = "bbb"', 'tags = ["a b"]'], "",
        "bad lab file: line 2: board b1: 'a b' isn't a tag: a key, or key=value", ["rpi"],
    ),
    (["#" * 1048576], "", "bad lab file: it has more than 1,048,576 bytes", ["rpi"]),
    (["[boards.b1]", "x"], "", "bad lab file: no TOML: '=' is missing (at line 2)", ["rpi"]),
])
def test_a_lab_file_that_is_refused_is_told_with_its_line(
    lab: Farm, folder: str, lines: List[str], user: str, told: str, left: List[str]
) -> None:
    lab.tell("admin", "/types", {"name": "rpi"})
    file = write(folder, "refused.toml", "".join(f"{it}\n" for it in lines))
    status, said, errors = desk(lab, "import", file, user=user)
    assert (status, said, errors) == (3, "", f"desk: {file}: {told}\n")
    assert [it["name"] for it in lab.look("/types")["types"]] == left


IGNORED = """\
site = "lab"
[type.rpi]
[types.bbb]
every = 3
[types.rpi]
check = "hours"
every = 3
chekc = "jobs"
[boards.b1]
type = "bbb"
tag = ["hdmi"]
health = "Good"
[boards.b2]
type = "bbb"
health = "Bad"
"""


@pytest.mark.parametrize("text, accepted, warnings", [
    (IGNORED, 4, [
        "line 1: site is ignored",
        "line 2: type is ignored: is types meant?",
        "line 4: type bbb: every is ignored: it has no check",
        "line 8: type rpi: chekc is ignored: is check meant?",
        "line 11: board b1: tag is ignored: is tags meant?",
        "line 12: board b1: health is ignored, and 1 more: desk health sets it",
    ]),
    ("", 0, ["it has neither types nor boards"]), ("[types]\n[boards]\n", 0, ["it has neither types nor boards"]),
    ("board.b1 = {type = 'x'}", 0, ["line 1: board is ignored: is boards meant?", "it has neither types nor boards"]),
])
def test_what_the_desk_ignores_of_a_lab_file_is_told(lab: Farm, text: str, accepted: int, warnings: List[str]) -> None:
    status, said, errors = desk(lab, "import", "-", given=text, user="")
    assert (status, said) == (0, f"accepted {accepted}, kept 0\n")
    assert [it for it in errors.splitlines() if it.startswith("desk: -: ")] == [f"desk: -: {it}" for it in warnings]


# ---- version, completion


def test_the_clients_version_is_the_packages(lab: Farm) -> None:
    first = re.match(r"fizgruk \(([^-)]*)", read(os.path.join(TOP, "packaging", "debian", "changelog")))
    assert first is not None
    prints(lab, f"desk {first[1]}\n", "--version")


@pytest.mark.parametrize("line, wanted, others", [
    ("desk ", "queue health tags add-type add-board import with log history usage resubmit", ""),
    ("desk ext", "extend", "queue"),
    ("desk add-t", "add-type add-token", "tokens"),
    ("desk usage --by ", "owner board type", ""),
    ("desk --json ad", "add-type add-board", "queue"),
    ("desk reserve --priority ", "low medium high", "hdmi"),
    ("desk add-type x --check h", "hours", "jobs"),
    ("desk --server ", "http://127.0.0.1:880", "queue"),
    ("desk --user queue res", "reserve reservations", ""),
    ("desk with hdmi -- ech", "echo", ""),
    ("desk import PLACE/de", "PLACE/desk", ""),
])
def test_bash_completes(folder: str, line: str, wanted: str, others: str) -> None:
    completes(folder, line.replace("PLACE", folder), wanted.replace("PLACE", folder), others)


def test_bash_completes_what_the_desk_has(make_farm: Callable[..., Farm], folder: str) -> None:
    farm = make_farm(BOARDS)
    number = farm.submit("true")
    at = f"desk --server {farm.server}"
    for words, wanted, others in (
        ("history ", "b1 c1", "hdmi"),
        ("health b1 ", "b1 b2 c1 Good Retired", "hdmi"),
        ("tags ", "b1 b2", "hdmi Good"),
        ("tags b1 ", "hdmi serial", "b1 name=b1"),
        ("add-board x ", "bbb ccc", ""),
        ("reserve ", "hdmi name=b1", ""),
        *((f"--user ann {it} ", str(number), "b1") for it in ("log", "cancel", "resubmit", "jobs", "artifacts")),
    ):
        completes(folder, f"{at} {words}", wanted, others)
    place = os.path.join(folder, "past", "artifacts", str(number))
    os.makedirs(place)
    index = {"files": [{"number": 1, "name": it, "size": 1} for it in ("boot/a.log", "$(touch ran)")], "left_out": []}
    for name, text in (("artifacts/1/index.json", json.dumps(index)), ("history.jsonl", "")):
        write(os.path.join(folder, "past"), name, text)
    completes(folder, f"{at} --history {folder}/past artifacts {number} ", "boot/a.log", "$(touch")


def completes(folder: str, line: str, wanted: str, others: str) -> None:
    """Demands that a line is completed by all these words, and by none of the others."""
    found = completed(folder, line)
    assert set(wanted.split()) - found == set() and set(others.split()) & found == set(), line


@pytest.mark.parametrize("shell", ["zsh", "fish"])
def test_other_shells_complete_too(make_farm: Callable[..., Farm], folder: str, shell: str) -> None:
    farm = make_farm(BOARDS)
    assert completed(folder, "desk ext", shell) == {"extend"}
    assert {"b1", "b2", "c1"} <= completed(folder, "desk history ", shell, DESK_SERVER=farm.server)
    assert completed(folder, "desk boards name=b", shell, DESK_SERVER=farm.server) & {"name=b1", "b1"}


TAGS = ["$(touch ran)", "`touch ran`", "a;touch ran", "*", "d?sk", "'", "two words", "\x1b[2J", "plain"]


@pytest.mark.parametrize("shell", ["bash", "zsh", "fish"])
def test_what_a_stranger_sends_is_nothing_to_a_shell(folder: str, shell: str) -> None:
    """Of what a desk shows only what is a name or a tag is offered, and a shell makes nothing else of it."""
    board = {"name": "$(touch ran)", "type": "x", "tags": TAGS, "holder": "none"}
    with Answering(lambda _: (200, {"boards": [board]})) as stranger:
        assert completed(folder, "desk reserve ", shell, DESK_SERVER=stranger.url) == {"plain"}
    assert os.listdir(folder) == ["desk"]


# What other programs answer in JSON: one at all, and one by a desk's names, with nothing else of a desk's.
OTHERS = ({"status": "up"}, {
    "boards": [7], "queue": [[]], "types": ["x"], "reservations": [None], "number": "7", "state": 7, "clock": "now",
    "count": [], "jobs": {},
})


@pytest.mark.parametrize("said", OTHERS, ids=["another", "alike"])
@pytest.mark.parametrize("words", [
    "boards", "queue", "jobs", "jobs 1", "types", "reservations", "reserve name=b1", "acquire 1", "cancel 1", "resubmit 1", "wait 1",
    "artifacts 1", "with hdmi -- true", "health b1 Good", "add-type bbb",
])
def test_what_another_program_answers_is_told_in_a_line(words: str, said: object) -> None:
    with Answering(lambda _: (200, said)) as program:
        ran = subprocess.run(
            [sys.executable, os.path.join(TOP, "tools", "desk"), "--server", program.url, *words.split()],
            stdout=subprocess.PIPE, stderr=subprocess.PIPE, text=True, check=False, timeout=300,
        )
    assert (ran.returncode, ran.stdout) == (125 if words.startswith("with") else 4, "")
    told = f"{program.url}: the answer isn't a desk's"
    assert re.fullmatch(rf"desk: (no answer from the desk at )?{told}(: it lacks [a-z]+|: [a-z ]+ is .+)?\n", ran.stderr)
