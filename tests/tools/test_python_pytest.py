"""The plugin of pytest over a served farm, and the example for a shell."""
from __future__ import annotations

import os
import pathlib
import signal
import subprocess
import sys
import time
from typing import Callable, Dict

import pytest

from desks import write
from python_front import PATH, Passer, rows, states
from served import STARTED, TOOLS, TOP, Farm, environment, read, wait_until
from wants import wants_modules

HOLDS = """\
def demand_held(board, client):
    rows = [it for it in client.reservations() if it.number == board.reservation]
    assert [it.state for it in rows] == ["acquired"]
    assert [it.name for it in client.boards("hdmi")] == [board.name]
"""
TESTS = f"""import pytest
{HOLDS}
@pytest.fixture
def console(board, farm_client):
    demand_held(board, farm_client)
    raise OSError("no console")
def test_one(board, farm_client):
    demand_held(board, farm_client)
def test_two(board, farm_client):
    demand_held(board, farm_client)
    assert board.name == "another"
def test_three(console):
    pass
"""
SLEEPS = """import time
def test_one(board):
    print("holds", file=open("holds", "w"))
    try:
        time.sleep(300)
    except Exception:
        pass
"""


# (Debian's plugin of labgrid takes a second to read)
PLUGINS = ("-p", "no:cacheprovider", "-p", "no:labgrid", "-p", "fizgruk.pytest_plugin")


class Session:
    """A run of pytest in a folder with one file of tests."""

    def __init__(self, farm: Farm, folder: str, text: str, *words: str, **more: str):
        self.folder, self.file = folder, os.path.join(folder, "output")
        write(folder, "test_it.py", text)
        env = environment(PYTHONPATH=PATH, **{"DESK_SERVER": farm.server, "DESK_USER": "ann", **more})
        with open(self.file, "wb") as output:
            self.process = subprocess.Popen(
                [sys.executable, "-m", "pytest", *PLUGINS, *words], cwd=folder, env=env,
                stdin=subprocess.DEVNULL, stdout=output, stderr=subprocess.STDOUT,
            )
        STARTED.append(self.process)

    def output(self) -> str:
        return read(self.file)

    def holds(self) -> None:
        """Waits until the test says that it holds its board."""
        wait_until("it holds a board", lambda: os.path.exists(os.path.join(self.folder, "holds")), 300)

    def ends(self, status: int, *said: str) -> None:
        """Demands how it ends, and what it says."""
        found = self.process.wait(300)
        text = self.output()
        assert [it for it in said if it not in text] == [], text
        assert found == status, text


Start = Callable[..., Session]


@pytest.fixture
def start(farm: Farm, tmp_path_factory: pytest.TempPathFactory) -> Start:
    """Starts pytest over a file of tests with these words and more environment."""

    def started(text: str, *words: str, **more: str) -> Session:
        return Session(farm, str(tmp_path_factory.mktemp("session")), text, *words, **more)

    return started


def test_session(farm: Farm, start: Start) -> None:
    """pytest --farm holds one board a session, given back after tests that pass, fail or err."""
    with Passer(farm):
        start(TESTS, "--farm", "hdmi").ends(1, "1 failed, 1 passed, 1 error", "farm: b1 is held by reservation 1\n")
    assert states(farm) == ["canceled"]


def test_without_farm(farm: Farm, start: Start) -> None:
    """Tests that ask for a board are skipped without --farm, and nothing is reserved where none asks."""
    start(TESTS).ends(0, "3 skipped")
    start(MARKS).ends(0, "4 skipped")
    start("def test_one():\n    pass\n", "--farm", "hdmi").ends(0, "1 passed")
    assert not rows(farm)


def test_several_tags(farm: Farm, start: Start) -> None:
    """The board has the tags of all options --farm."""
    with Passer(farm):
        words = ["-k", "one", "--farm", "serial name=b1", "--farm=hdmi"]
        start(TESTS, *words).ends(0, "1 passed", "farm: a board with serial ")
    assert rows(farm)[-1]["tags"] == ["hdmi", "name=b1", "serial"]


LATE = "no board with hdmi within 1 s: reservation 1 is waiting, place 1 of 1 in the queue: 1 board fits, Bad; none can come"


@pytest.mark.parametrize("word, priority", [("low", 0), ("high", 100), ("7", 7)])
def test_no_board_in_time(word: str, priority: int, farm: Farm, start: Start) -> None:
    """Where no board comes in time pytest says why, without a trace; the reservation has its priority."""
    farm.tell("admin", "/boards/b1/health", {"health": "Bad"})
    session = start(TESTS, "-k", "one", "--farm", "hdmi", "--farm-timeout", "1", "--farm-priority", word)
    session.ends(1, "1 error", LATE)
    assert "holding.py" not in session.output()
    assert (states(farm), rows(farm)[0]["priority"]) == (["canceled"], priority)


@pytest.mark.parametrize(
    "tags, around, said", [("vga", {}, "22 no such boards"), ("", {"DESK_USER": "a b"}, "'a b' is no name of a user")]
)
def test_refused(tags: str, around: Dict[str, str], said: str, start: Start) -> None:
    """What the desk refuses, or what settings can't be used, pytest says without a trace."""
    session = start(TESTS, "-k", "one", "--farm", tags, **around)
    session.ends(1, "1 error", said)
    assert "holding.py" not in session.output()


@pytest.mark.parametrize("number, health, state", [
    *((it, "Good", "acquired") for it in (signal.SIGINT, signal.SIGTERM, signal.SIGHUP)),
    *((it, "Bad", "waiting") for it in (signal.SIGINT, signal.SIGTERM)),
])
def test_signal(number: signal.Signals, health: str, state: str, farm: Farm, start: Start) -> None:
    """A session that is ended by Ctrl-C, SIGTERM or SIGHUP gives back the board that it holds or waits for."""
    farm.tell("admin", "/boards/b1/health", {"health": health})
    with Passer(farm):
        session = start(SLEEPS, "--farm", "hdmi")
        if health == "Good":
            session.holds()
        else:
            wait_until("it waits", lambda: "1 board fits, Bad; none can come" in session.output(), 300)
        assert states(farm) == [state]
        session.process.send_signal(number)
        session.ends(2)
    assert states(farm) == ["canceled"]


def test_signals_while_the_desk_is_away(farm: Farm, start: Start) -> None:
    """It goes on until its board is given back, whatever signals come."""
    with Passer(farm):
        session = start(SLEEPS, "--farm", "hdmi")
        session.holds()
        farm.kill()
        for _ in range(10):
            for number in (signal.SIGTERM, signal.SIGINT):
                session.process.send_signal(number)
                time.sleep(0.05)
        assert session.process.poll() is None
        farm.start()
        session.process.wait(300)
    assert states(farm) == ["canceled"]


LOSES = """import time, pytest
def lost(board):
    print("holds", file=open("holds", "w"))
    try:
        time.sleep(300)
    except Exception:
        pass
@pytest.fixture
def console(board):
    open("console", "a").write("x")
    yield
def test_one(board):
    lost(board)
def test_two(console):
    pass
def test_three():
    pass
"""
ENDS = """import time
def test_one(board, farm_client):
    print("holds", file=open("holds", "w"))
    while farm_client.reservations()[0].state == "acquired":
        time.sleep(0.05)
"""


@pytest.mark.slow(5)
def test_board_that_is_lost(farm: Farm, start: Start) -> None:
    """The test that runs on a board which an admin gives to others is interrupted, and fails with HoldLost, and those
    after it that ask for the board don't begin."""
    with Passer(farm):
        session = start(LOSES, "--farm", "hdmi")
        session.holds()
        farm.tell("admin", "/reservations/1/cancel")
        told = "HoldLost: board b1 is lost: reservation 1 is canceled"
        said = (f"  fizgruk.errors.{told}", ">           time.sleep(300)\n", "ERROR test_it.py::test_two")
        session.ends(1, "1 failed, 1 passed, 1 error in ", *said)
    assert not os.path.exists(os.path.join(session.folder, "console"))
    assert states(farm) == ["canceled"]


def test_board_that_is_lost_at_the_end(farm: Farm, start: Start) -> None:
    """A test that ends before the loss of its board was seen fails by it all the same, as the board is given back."""
    with Passer(farm):
        session = start(ENDS, "--farm", "hdmi")
        session.holds()
        farm.tell("admin", "/reservations/1/cancel")
        session.ends(1, "board b1 is lost: reservation 1 is canceled\n")


def test_shell_example(farm: Farm, folder: str) -> None:
    """examples/with-board.sh tests on a board, and gives it back also after SIGTERM."""
    write(folder, "desk", f"#!/bin/sh\nexec {sys.executable} {TOOLS}/desk \"$@\"\n", 0o755)
    env = environment(PATH=f"{folder}:{os.environ['PATH']}", DESK_SERVER=farm.server, DESK_USER="ann")
    long = write(folder, "long.sh", read(os.path.join(TOP, "examples", "with-board.sh")) + "exec sleep 300\n")
    with Passer(farm):
        process = subprocess.Popen(["sh", long, "hdmi"], env=env, stdin=subprocess.DEVNULL, stdout=subprocess.PIPE)
        STARTED.append(process)
        assert process.stdout and process.stdout.readline() == b"testing b1, a bbb, under reservation 1\n"
        assert states(farm) == ["acquired"]
        process.send_signal(signal.SIGTERM)
        assert process.wait(300) == 143
    assert states(farm) == ["canceled"]


# ---- the mark `farm`

MARKS = f"""{HOLDS}
import pytest
names = []
@pytest.mark.farm("serial", boards=2)
def test_two(boards, farm_client):
    assert {{it.name for it in boards}} == {{"b1", "b2"}}
    for it in boards:
        demand_held(it, farm_client)
@pytest.mark.farm("name=b2", scope="session")
def test_first(boards, farm_client):
    demand_held(boards[0], farm_client)
    names.append(boards[0].reservation)
@pytest.mark.farm("hdmi", priority="high")
def test_own(boards, farm_client):
    assert [it.name for it in boards] == ["b1"]
    assert [it.priority for it in farm_client.reservations() if it.number == boards[0].reservation] == [100]
@pytest.mark.farm("name=b2", scope="session")
def test_again(boards, farm_client):
    demand_held(boards[0], farm_client)
    assert names == [boards[0].reservation]
"""
# (what `demand_held` demands of boards with hdmi isn't so here)
MARKS = MARKS.replace('assert [it.name for it in client.boards("hdmi")] == [board.name]', "")
LOST = """import pytest, time
@pytest.mark.farm("hdmi")
def test_lost(boards):
    print("holds", file=open("holds", "w"))
    time.sleep(300)
def test_other():
    pass
@pytest.mark.farm("hdmi")
def test_anew(boards):
    assert boards[0].name == "b1"
"""


def test_marks_hold_boards_for_a_test_or_for_the_session(farm: Farm, start: Start) -> None:
    """Two boards for one test, one for one, and one for all of the session that want it; all are given back."""
    with Passer(farm):
        start(MARKS, "--farm", "").ends(0, "4 passed")
    assert states(farm) == ["canceled"] * 4


def test_marks_of_a_session_want_its_tags_too(farm: Farm, start: Start) -> None:
    with Passer(farm):
        text = "import pytest\n@pytest.mark.farm('serial')\ndef test_it(boards):\n    assert boards[0].name == 'b1'\n"
        start(text, "--farm", "hdmi").ends(0, "1 passed")


@pytest.mark.parametrize("mark", ["board=2", "scope='module'"])
def test_a_mark_that_is_none_is_told(farm: Farm, start: Start, mark: str) -> None:
    text = f"import pytest\n@pytest.mark.farm('hdmi', {mark})\ndef test_it(boards):\n    pass\n"
    start(text, "--farm", "", "--strict-markers").ends(1, "1 error", "farm(*tags, boards=1, scope='function'")
    assert states(farm) == []


def test_a_marks_board_that_is_lost_fails_its_test_alone(farm: Farm, start: Start) -> None:
    with Passer(farm):
        session = start(LOST, "--farm", "")
        session.holds()
        farm.tell("admin", "/reservations/1/cancel")
        session.ends(1, "HoldLost: board b1 is lost: reservation 1 is canceled", "1 failed, 2 passed")
    assert states(farm) == ["canceled", "canceled"]


@pytest.mark.slow(30)
def test_each_worker_has_boards_of_its_own(farm: Farm, start: Start, tmp_path: pathlib.Path) -> None:
    """Two processes of xdist hold their boards at one time: each waits for the other."""
    wants_modules("xdist")
    place = str(tmp_path / "held")
    os.mkdir(place)
    text = f"""import os, pytest, time
@pytest.mark.farm("serial", scope="session")
def test_one(boards):
    open(os.path.join({place!r}, boards[0].name), "w").close()
    until = time.monotonic() + 240
    while len(os.listdir({place!r})) < 2 and time.monotonic() < until:
        time.sleep(0.05)
    assert sorted(os.listdir({place!r})) == ["b1", "b2"]
"""
    with Passer(farm):
        start(text, "--farm", "", "-n", "2", "--dist", "each").ends(0, "2 passed")
    assert states(farm) == ["canceled"] * 2


@pytest.mark.slow(30)
def test_two_sessions_that_want_two_boards_each_both_get_them(farm: Farm, start: Start, tmp_path: pathlib.Path) -> None:
    """Each begins with one board that the other waits for: all are given back, and asked for again."""
    text = """import pytest, time
@pytest.mark.farm("serial", boards=2)
def test_it(boards):
    assert {it.name for it in boards} == {"b1", "b2"}
"""
    sessions = []
    for name in ("one", "two"):
        os.mkdir(tmp_path / name)
        sessions.append(Session(farm, str(tmp_path / name), text, "--farm", ""))
    wait_until("both wait", lambda: len([it for it in rows(farm) if it["state"] == "waiting"]) == 2)
    with Passer(farm):
        for it in sessions:
            it.ends(0, "1 passed")
    assert set(states(farm)) == {"canceled"}
