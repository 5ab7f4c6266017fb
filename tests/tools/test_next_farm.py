"""farm-from-desk --next: the turn to the next farm from an edited lab file, what is in its way, and a turn that is
stopped anywhere. (tests/tools/test_next_units.py: the same under a systemd; tests/unit/importers/test_next_lab.py: the file.)"""
from __future__ import annotations

import fcntl
import json
import os
import signal
import subprocess
import sys
import time
from typing import Callable, Iterator, List, Tuple

import lab_texts
import pytest
from ports import free_port
from served import MODULES, TOOLS, Asks, Farm, environment
from turned import Home

RPI = {"type": "rpi"}
LAB = lab_texts.written(
    types={"bbb": {}, "rpi": {"check": "jobs", "every": 20}},
    boards={"b1": {"type": "bbb", "tags": ["hdmi"]}, "b2": {"type": "bbb"}, "r1": RPI},
)
# b2 is named otherwise, rpi is checked otherwise, r1 has a tag more.
EDITED = lab_texts.written(
    types={"bbb": {}, "rpi": {"check": "hours", "every": 24}},
    boards={
        "b1": {"type": "bbb", "tags": ["hdmi"], "health": "Good"}, "b-two": {"type": "bbb", "health": "Unknown"},
        "r1": {**RPI, "tags": ["usb"]},
    },
)
CHANGES = """\
type rpi: every 20 jobs becomes every 24 hours
board b2: it is left out
board b-two: it is new
board r1: rpi becomes rpi usb
"""
OLD = (7, ["b1 bbb hdmi Good", "b2 bbb  Maintenance", "r1 rpi  Bad"])
# (the five that an import accepts, and two healths)
NEXT = ["b-two bbb  Unknown", "b1 bbb hdmi Good", "r1 rpi usb Bad"]


class Lab(Home, Asks):
    """A farm of LAB with a desk that serves it, and a lab file of its next farm."""

    def __init__(self, folder: str, program: str):
        super().__init__(folder, program, free_port())
        self.order("init")
        self.order("import", "--at", str(int(time.time())), self.file("lab.toml", LAB))
        self.next = self.file("next.toml", EDITED)
        assert self.serves()
        self.tell("admin", "/boards/b1/health", {"health": "Good"})
        self.tell("admin", "/boards/r1/health", {"health": "Bad"})

    def file(self, name: str, text: str) -> str:
        path = os.path.join(self.folder, name)
        with open(path, "w", encoding="utf-8") as file:
            file.write(text)
        return path

    def turn(self, *more: str, file: str = "") -> Tuple[int, str, List[str]]:
        """What a turn comes to: its status, its output and its errors line by line, without the tool's name."""
        ran = subprocess.run(
            [sys.executable, os.path.join(TOOLS, "farm-from-desk"), *self.words(file or self.next, *more)],
            capture_output=True, text=True, check=False, timeout=300, env=environment(),
        )
        head = "farm-from-desk: "
        assert all(it.startswith(head) for it in ran.stderr.splitlines()), ran.stderr
        return ran.returncode, ran.stdout, [it[len(head):] for it in ran.stderr.splitlines()]

    def listed(self) -> List[str]:
        return sorted(os.listdir(os.path.dirname(self.db)))

    def demand_untouched(self) -> None:
        """Demands that the desk serves the old farm, alone in its folder."""
        assert self.listens()
        assert [it["name"] for it in self.ask("ann", "GET", "/boards")[1]["boards"]] == ["b1", "b2", "r1"]
        assert self.listed() == ["lab.db", "lab.db-wal"]


@pytest.fixture
def lab(folder: str, program: str) -> Iterator[Lab]:
    made = Lab(folder, program)
    yield made
    made.call("stop")


IN_THE_WAY = "nothing is done: this is in the way"


# ---- the turn


def test_the_next_farm_is_as_the_file_has_it_and_the_old_one_is_kept(lab: Lab) -> None:
    """A board without a health in the file keeps its own."""
    assert lab.turn("--check") == (0, CHANGES, [])
    lab.demand_untouched()
    last = f"{lab.db} is the farm of {lab.next}; the old one is in {os.path.dirname(lab.db)}/old-1\n"
    assert lab.turn() == (0, CHANGES + last, [])
    assert lab.ask("ann", "GET", "/status")[1]["next"] == 1
    status, types = lab.ask("ann", "GET", "/types")
    assert {it["name"]: (it["check"], it["every"]) for it in types["types"]} == {"bbb": ("none", 0), "rpi": ("hours", 24)}
    lab.call("stop")
    farms = lab.farms()
    assert farms["old-1"] == OLD and farms["home"][1] == NEXT
    assert lab.listed() == ["lab.db", "lab.db-wal", "old-1"]


def test_a_turn_that_is_done_isnt_done_again_by_the_same_file(lab: Lab) -> None:
    """Its end may have been missed. Another file is another turn, and each old farm has a folder of its own."""
    assert lab.turn()[0] == 0
    status, said, errors = lab.turn()
    assert (status, errors) == (0, []) and said.endswith(": nothing is done\n") and said.count("\n") == 1
    assert lab.listed() == ["lab.db", "lab.db-wal", "old-1"]
    assert lab.turn(file=lab.file("other.toml", LAB))[0] == 0
    assert lab.listed() == ["lab.db", "lab.db-wal", "old-1", "old-2"]


def test_a_farm_that_nobody_serves_has_a_next_one_too(lab: Lab) -> None:
    lab.call("stop")
    assert lab.turn()[:2] == (0, CHANGES + f"{lab.db} is the farm of {lab.next}; the old one is in "
                              f"{os.path.dirname(lab.db)}/old-1\n")
    assert lab.ask("ann", "GET", "/status")[1]["boards"] == 3


# ---- what is in its way


def test_a_job_that_has_a_board_and_a_health_that_changed_are_in_the_way_whatever_is_said(lab: Lab) -> None:
    lab.tell("ann", "/jobs", b"job_name = 'j'\ndevice_type = 'bbb'")
    lab.tell("dispatcher", "/pass")
    lab.tell("admin", "/boards/b1/health", {"health": "Bad"})
    told = ["board b1: job 1 of ann has it", "board b1: the desk has it Bad, and the file Good", IN_THE_WAY]
    assert lab.turn() == (1, CHANGES, told) == lab.turn("--let-go")
    lab.demand_untouched()


def test_what_people_have_and_wait_for_is_in_the_way_until_it_is_let_go(lab: Lab) -> None:
    for tag in ("name=b1", "name=b1"):
        lab.tell("bob", "/reservations", {"tags": [tag]})
    lab.tell("dispatcher", "/pass")
    lab.tell("bob", "/reservations/1/acquire")
    lab.tell("ann", "/jobs", b"job_name = 'j'\ndevice_type = 'bbb'")
    waits = ["board b1: reservation 1 of bob has it", "queue: reservation 2 of bob waits", "queue: job 3 of ann waits"]
    assert lab.turn() == (1, CHANGES, [*(f"{it} (--let-go)" for it in waits), IN_THE_WAY])
    lab.demand_untouched()
    status, _, errors = lab.turn("--let-go")
    assert (status, errors) == (0, [f"{it}, and isn't carried over" for it in waits])


def test_what_comes_between_the_look_and_the_stop_gets_its_desk_back(lab: Lab) -> None:
    """Somebody acquires a board just before the desk is stopped."""
    sent = "curl -s -o /dev/null -H 'x-user: {}' -d '{}' http://127.0.0.1:{}{}\n"
    lines = [("bob", '{"tags":[]}', "/reservations"), ("dispatcher", "", "/pass"), ("bob", "", "/reservations/1/acquire")]
    stop = os.path.join(lab.folder, "stop")
    with open(stop, encoding="utf-8") as file:
        usual = file.read()
    came = "".join(sent.format(user, body, lab.port, path) for user, body, path in lines)
    lab.file("stop", usual.replace("#!/bin/sh\n", f"#!/bin/sh\n{came}"))
    assert lab.turn() == (1, CHANGES, ["board b1: reservation 1 of bob has it", IN_THE_WAY])
    lab.demand_untouched()
    assert lab.ask("bob", "POST", "/reservations/1/cancel")[0] == 200


def test_a_stop_that_fails_changes_nothing_and_another_file_may_be_gone_on_with(lab: Lab) -> None:
    with open(os.path.join(lab.folder, "stop"), encoding="utf-8") as file:
        usual = file.read()
    lab.file("stop", "#!/bin/sh\nexit 3\n")
    status, _, errors = lab.turn()
    assert (status, errors) == (4, ["--stop ended with 3: run it again, once that is mended"])
    assert [it["name"] for it in lab.ask("ann", "GET", "/boards")[1]["boards"]] == ["b1", "b2", "r1"]
    lab.file("stop", usual)
    assert lab.turn(file=lab.file("other.toml", LAB))[0] == 0
    lab.call("stop")
    assert lab.farms()["home"][1] == ["b1 bbb hdmi Good", "b2 bbb  Maintenance", "r1 rpi  Bad"]


def test_two_turns_at_once_and_a_farm_that_nobody_can_look_at(lab: Lab) -> None:
    opened = os.open(os.path.dirname(lab.db), os.O_RDONLY)
    fcntl.flock(opened, fcntl.LOCK_EX)
    status, said, errors = lab.turn()
    assert (status, said, errors) == (4, "", [f"another turn of {lab.db} is under way: run it again, once that is mended"])
    os.close(opened)
    status, said, errors = lab.turn("--server", f"http://127.0.0.1:{free_port()}")
    assert (status, said, len(errors)) == (4, "", 1) and f"and {lab.db} can't be opened" in errors[0]
    lab.demand_untouched()


# ---- a turn that is stopped


@pytest.mark.slow(60)
@pytest.mark.timeout(2400)
def test_a_turn_that_is_killed_before_any_step_is_run_again(lab: Lab) -> None:
    """At each step the farm under its name is the old one or the next one; the old one is whole under the old name or the
    new one, and no desk opens it under both. Run again the turn is done, once."""
    lab.call("stop")
    words = [":".join(MODULES), lab.folder, lab.program, lab.next, str(lab.port)]
    script = os.path.join(os.path.dirname(os.path.abspath(__file__)), "..", "shared", "turned.py")
    ran = subprocess.run(
        [sys.executable, script, *words], capture_output=True, text=True, check=False, timeout=2300, env=environment()
    )
    assert ran.returncode == 0, ran.stdout[-2000:] + ran.stderr[-2000:]
    whole, *rows = [json.loads(it) for it in ran.stdout.splitlines() if it.startswith("{")]
    assert whole["again"] == 0 and len(rows) > 25
    both = 0
    for row in rows:
        assert row["how"] == -signal.SIGKILL, row
        killed = {place: boards for place, (_, boards) in row["killed"].items()}
        assert killed["home"] in (OLD[1], NEXT), row
        assert OLD[1] in (killed["home"], killed.get("old-1")), row
        if killed["home"] == killed.get("old-1"):
            both += 1
            assert not row.get("served"), row
        assert row["again"] == 0 and row["serves"], row
        assert row["left"] == ["lab.db", "lab.db-wal", "old-1"], row
        assert row["farms"]["old-1"] == [OLD[0], OLD[1]] and row["farms"]["home"][1] == NEXT, row
    assert both >= 3


def test_a_turn_that_has_set_the_old_farm_aside_goes_on_with_its_own_file_alone(lab: Lab) -> None:
    start = os.path.join(lab.folder, "start")
    with open(start, encoding="utf-8") as file:
        usual = file.read()
    lab.file("start", "#!/bin/sh\nexit 3\n")
    assert lab.turn()[0] == 4
    lab.file("start", usual)
    own = os.path.join(os.path.dirname(lab.db), "next", "lab.toml")
    status, _, errors = lab.turn(file=lab.file("other.toml", LAB))
    assert (status, errors) == (4, [f"a turn to another file isn't done, which is {own}: run it again, once that is mended"])
    assert lab.turn(file=own)[0] == 0
    assert lab.listed() == ["lab.db", "lab.db-wal", "old-1"]


def test_a_desk_that_shows_another_labs_boards_is_not_the_next_farms(lab: Lab, make_farm: Callable[..., Farm]) -> None:
    other = make_farm([("x1", "bbb", []), ("x2", "bbb", [])])
    status, _, errors = lab.turn("--server", other.server)
    assert status == 4 and errors[-1].startswith(f"the desk at {other.server} isn't that of {lab.db}")
