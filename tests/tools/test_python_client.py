"""The Python package fizgruk over a served farm: as pip installs it, its types by mypy, each view and
command, kept connections and lost answers, boards that are held by a `with` and given back whatever
happens."""
from __future__ import annotations

import datetime
import json
import os
import re
import shutil
import signal
import subprocess
import sys
import threading
import time
from typing import Any, Callable, Dict, Iterator, List, Optional, Tuple, Type

import pytest

import fizgruk
from desks import JOB, write
from fizgruk import __version__, holding
from nginx_site import Site
from python_front import (  # noqa: F401
    PATH, SOURCES, SRC, Front, Passer, client_of, no_settings_fixture, rows, states,
)
from served import STARTED, TOP, Farm, environment, read, wait_until
from wants import wants, wants_python_with

MakeFarm = Callable[..., Farm]
USED = """\
from fizgruk import Board, Client, JobView
def first(client: Client) -> JobView:
    with client.board("hdmi", power="pdu2", timeout=300) as board:
        held: Board = board
        print(held.name, board.reservation + 1)
    return client.wait_for_job(client.submit("x"))[0]
client = Client()
client.set_health("b1", "good")  # type: ignore[arg-type]
print(client.job(1).state == "Running", client.boards()[0].tags[0].upper())
"""


@pytest.fixture
def front(farm: Farm) -> Front:
    """A server that keeps connections, in front of that farm."""
    return Front(farm)


# ---- the package by itself


@pytest.mark.slow(15)
def test_pip_installs_it(folder: str) -> None:
    """pip installs the package from its folder into a fresh environment, without a network, with its
    types, and pytest finds its plugin."""
    python = wants_python_with("pip", "setuptools", "venv", "wheel")
    copied, to = os.path.join(folder, "python"), os.path.join(folder, "installed")
    left = shutil.ignore_patterns("__pycache__", "build", "*.egg-info", ".mypy_cache")
    shutil.copytree(SOURCES, copied, ignore=left)
    around = environment(PIP_DISABLE_PIP_VERSION_CHECK="1")

    def said(*words: str) -> str:
        return subprocess.run(words, capture_output=True, text=True, check=True, env=around, cwd=folder).stdout

    said(python, "-m", "venv", "--system-site-packages", "--without-pip", to)  # (pip, its tools and pytest are Debian's)
    own = f"{to}/bin/python"
    said(own, "-m", "pip", "install", "-q", "--no-build-isolation", "--no-index", copied)
    told = "import fizgruk; print(fizgruk.__version__, fizgruk.__path__[0])"
    version, place = said(own, "-c", told).split()
    assert version == __version__ and place.startswith(to)
    assert said(own, "-c", "import importlib.metadata as it; print(it.version('fizgruk'))") == f"{__version__}\n"
    assert said(f"{to}/bin/desk", "--version") == f"desk {__version__}\n", "the command comes with it"
    files = {it for it in os.listdir(place) if it != "__pycache__"}
    assert files == {it for it in os.listdir(f"{SRC}/fizgruk") if it != "__pycache__"}
    assert "py.typed" in files
    assert "\n  --farm=TAGS" in said(own, "-m", "pytest", "--help")


@pytest.mark.slow(20)
@pytest.mark.parametrize("version", ["3.9", "3.11"])
def test_types(version: str, folder: str) -> None:
    """A program that uses the package is typed by it, for the oldest Python that it takes too."""
    wants("mypy")
    used = write(folder, "used.py", USED)
    ran = subprocess.run(
        ["mypy", "--strict", "--python-version", version, "--cache-dir", os.path.join(folder, "types"), used],
        cwd=folder, capture_output=True, text=True, check=False, env={**os.environ, "MYPYPATH": SRC},
    )
    assert ran.returncode == 0, ran.stdout


def test_codes() -> None:
    """Its codes are those of docs/API.md."""
    page = read(os.path.join(TOP, "docs", "API.md"))
    told = re.findall(r"^\| (\d+) \| \d+ \| ([a-z ]+) \|", page, re.MULTILINE)
    wanted = {int(code): text.upper().replace(" ", "_") for code, text in told}
    assert {it.value: it.name for it in fizgruk.Code} == wanted


# ---- the wire


def test_views_and_commands(make_farm: MakeFarm) -> None:
    """Each route of docs/openapi.json is asked, and answered by a value that has its type."""
    own = make_farm()
    front = Front(own)
    admin, ann, runner = (client_of(front.url, it) for it in ("admin", "ann", "dispatcher"))
    add_lab(admin, ann)
    run_a_job(own, ann, runner)
    held = hold_a_board(own, ann, runner)
    raw = own.look("/status")
    clock = datetime.datetime.fromtimestamp(raw["clock"], datetime.timezone.utc)
    assert vars(ann.status()) == {**raw, "clock": clock}
    demand_all_asked(front, held)


def add_lab(admin: fizgruk.Client, ann: fizgruk.Client) -> None:
    """Two types and a board, as ann sees them."""
    admin.add_type("bbb")
    admin.add_type("rpi", "jobs", 20)
    admin.add_board("b1", "bbb", ["serial"])
    admin.set_tags("b1", ["hdmi", "power=pdu2"])
    admin.set_health("b1", "Good")
    assert [(it.name, it.check, it.every) for it in ann.types()] == [("bbb", "none", 0), ("rpi", "jobs", 20)]
    board = ann.boards("hdmi", "name=b1")[0]
    assert vars(board) == {
        "name": "b1", "type": "bbb", "tags": ("hdmi", "power=pdu2"), "health": "Good", "state": "Idle",
        "holder": None, "jobs_since": 0, "last_check": None,
    }
    assert not ann.boards("vga")


def run_a_job(own: Farm, ann: fizgruk.Client, runner: fizgruk.Client) -> None:
    """A job from its submission to its end, and one that is canceled."""
    number = ann.submit(JOB)
    assert [vars(it) for it in ann.queue()] == [
        {"number": number, "kind": "group", "owner": "ann", "priority": 50, "boards": 1}
    ]
    assert vars(runner.call_pass()) == {"checks": 0, "expired": 0, "served": 1}
    assert runner.start_job(number) == number
    assert runner.finish_job(number, "Complete") == number
    raw = own.job(number)
    assert vars(ann.job(number)) == {**raw, "tags": tuple(raw["tags"])}
    assert [it.result for it in ann.wait_for_job(number)] == ["Complete"]
    assert ann.submit(JOB.encode()) == ann.cancel_job(number + 1)


def hold_a_board(own: Farm, ann: fizgruk.Client, runner: fizgruk.Client) -> int:
    """A reservation from its asking to its end. Returns its number."""
    held = ann.reserve("hdmi", priority="high")
    ann.refresh(held)
    runner.call_pass()
    allocated = ann.wait_for_board(held, 30)
    assert (allocated.name, allocated.holder) == ("b1", fizgruk.Holder("reservation", held))
    assert str(allocated.holder) == f"reservation {held}"
    deadline = datetime.datetime.fromtimestamp(own.reservation(held)["deadline"], datetime.timezone.utc)
    assert ann.reservations()[-1].deadline == deadline
    ann.acquire(held)
    raw = own.reservation(held)
    assert {**vars(ann.reservations()[-1]), "deadline": 0} == {**raw, "tags": ("hdmi",), "deadline": 0}
    ann.release(held)
    ann.cancel_reservation(held)
    return held


def demand_all_asked(front: Front, held: int) -> None:
    """Each route of docs/openapi.json was asked; each command but two had a key, and none another's."""
    paths = json.loads(read(os.path.join(TOP, "docs", "openapi.json")))["paths"]
    routes = {f"{method.upper()} {path}" for path, it in paths.items() for method in it}
    asked = {re.sub(r"/\d+", "/{n}", it.replace("/b1/", "/{name}/")) for it in front.paths()}
    assert asked - {"GET /workers.json"} == routes, "what the site has beside the desk's aside"
    commands = [(path, fields.get("x-key")) for method, path, fields in front.asked if method == "POST"]
    assert {path for path, key in commands if key is None} == {"/pass", f"/reservations/{held}/refresh"}
    keys = [key for _, key in commands if key is not None]
    assert len(set(keys)) == len(keys)


def test_group(farm: Farm) -> None:
    """A job's group is all of its members, whichever of them it is asked for, and no other job."""
    ann = client_of(farm.server)
    two = "job_name = 'two'\n[roles.a]\ndevice_type = 'bbb'\ncount = 2\n"
    for text in (JOB, two, JOB, two):
        ann.submit(text)
    groups = [[it.number for it in ann.group(number)] for number in (1, 2, 3, 4, 6)]
    assert groups == [[1], [2, 3], [2, 3], [4], [5, 6]]
    with pytest.raises(fizgruk.Refused, match="20 no such job"):
        ann.group(9)


def test_connection_is_kept(front: Front) -> None:
    """Many calls take one connection, and one more after it was closed."""
    ann = client_of(front.url)
    for _ in range(20):
        ann.status()
    assert front.connections == 1
    front.trouble("closed")
    for _ in range(3):
        ann.status()
    assert front.connections == 2


FORKS = """\
import os, sys, fizgruk
client = fizgruk.Client()
client.status()
child = os.fork()
if child == 0:
    client.status()
    client.close()
    os._exit(0)
print(os.waitstatus_to_exitcode(os.waitpid(child, 0)[1]), client.status().next)
"""


def test_fork(front: Front, folder: str) -> None:
    """A child leaves the connections of the process that it came from alone: it opens one of its own,
    and the other goes on over the one that it kept."""
    ran = subprocess.run(
        [sys.executable, "-c", FORKS], capture_output=True, text=True, timeout=300, check=True,
        env=environment(PYTHONPATH=PATH, DESK_SERVER=front.url, DESK_USER="ann"), cwd=folder,
    )
    assert ran.stdout == "0 1\n"
    assert (front.connections, len(front.asked)) == (2, 3)


def test_command_whose_answer_is_lost(farm: Farm, front: Front) -> None:
    """It is sent again under its key, and done once; so is one under a key of one's own, however often it is given."""
    front.trouble("lost", "502", "lost", "503", "lost", "504", path="/jobs")
    ann = client_of(front.url, patience=300)
    assert ann.submit(JOB) == 1
    assert len(front.keys("/jobs")) == 7
    assert len(set(front.keys("/jobs"))) == 1
    assert [ann.submit(JOB, key="nightly") for _ in range(2)] == [2, 2]
    assert front.keys("/jobs")[7:] == ["nightly"] * 2 and farm.look("/status")["jobs"] == 2


@pytest.fixture
def site(farm: Farm, folder: str) -> Site:
    """The site of examples/nginx.conf in front of that farm."""
    return Site(farm, folder)


def test_behind_nginx(site: Site, farm: Farm) -> None:
    """Through nginx, over TLS and by a password, a board is the user's."""
    ann = client_of(site.server, password_file=os.path.join(site.folder, "ann"), ca_file=site.certificate)
    with Passer(farm), ann.board("hdmi", every=0.1):
        assert [(it["owner"], it["state"]) for it in rows(farm)] == [("ann", "acquired")]
    assert states(farm) == ["canceled"]


def test_certificate_that_nobody_knows(site: Site, monkeypatch: pytest.MonkeyPatch) -> None:
    """It is told at once, and isn't tried again."""
    monkeypatch.setattr("fizgruk.calls.time.sleep", lambda _: pytest.fail("it is tried again"))
    with pytest.raises(fizgruk.Unreachable, match="its certificate isn't trusted: self-signed certificate"):
        client_of(site.server).status()


# ---- boards that are held


def test_board(farm: Farm) -> None:
    """A board is acquired within its `with`, and given back at its end; each `with` wants a call of board() of its own."""
    hold = client_of(farm.server).board("hdmi", "serial", name="b1", priority="high", every=0.1)
    with Passer(farm), hold as board:
        row = rows(farm)[-1]
        assert (row["state"], row["board"], row["priority"]) == ("acquired", "b1", 100)
        assert row["tags"] == ["hdmi", "name=b1", "serial"]
        assert board == fizgruk.Board("b1", "bbb", ("hdmi", "serial"), row["number"])
    with pytest.raises(fizgruk.FizgrukError, match="call board"):
        hold.__enter__()
    assert states(farm) == ["canceled"]


def test_board_that_is_held(farm: Farm) -> None:
    """While it waits it tells who holds the board, and why none came in time."""
    ann = client_of(farm.server)
    said: List[str] = []
    with Passer(farm), ann.board("hdmi", every=0.1) as board:
        what = f"1 board fits, held by reservation {board.reservation} of ann"
        with pytest.raises(fizgruk.TimedOut, match=f"^no board with hdmi within 0.5 s: .*: {what}$"):
            ann.board("hdmi", timeout=0.5, every=0.1, tell=said.append).__enter__()
        assert states(farm) == ["acquired", "canceled"]
    assert said == [f"reservation 2 is waiting, place 1 of 1 in the queue: {what}"]


@pytest.mark.parametrize("kind", [ValueError, KeyboardInterrupt, SystemExit])
def test_end_by_what_is_raised(kind: Type[BaseException], farm: Farm) -> None:
    """A board is given back after whatever its `with` raises."""
    with Passer(farm), pytest.raises(kind, match="in its midst"):
        with client_of(farm.server).board("hdmi", priority="low", every=0.1):
            raise kind("in its midst")
    assert states(farm) == ["canceled"]


@pytest.mark.parametrize("path", ["/reservations", "/acquire", "/cancel"])
def test_lost_answers_of_a_hold(path: str, farm: Farm, front: Front) -> None:
    """No board is left where answers are lost on the way to it, or on the way back."""
    front.trouble("lost", "502", "lost", path=path)
    with Passer(farm), client_of(front.url).board("hdmi", every=0.1) as board:
        assert board.name == "b1"
    assert states(farm) == ["canceled"]


# ---- boards that are lost

LOST = "^board b1 is lost: reservation 1 is canceled$"


@pytest.fixture
def handler() -> Iterator[None]:
    """The test's own process handles the signal of a loss as it did before."""
    before = signal.getsignal(signal.SIGURG)
    yield
    signal.signal(signal.SIGURG, before)


@pytest.mark.usefixtures("handler")
@pytest.mark.parametrize("call", [
    lambda: time.sleep(300), lambda: subprocess.run(["sleep", "300"], check=True), lambda: threading.Event().wait(300),
], ids=["sleep", "process", "event"])
def test_board_that_is_lost(call: Callable[[], object], farm: Farm, caplog: pytest.LogCaptureFixture) -> None:
    """What a block of the main thread waits for is interrupted, though it takes errors for its own, and raised."""
    ended: List[bool] = []
    with Passer(farm), pytest.raises(fizgruk.HoldLost, match=LOST):
        with client_of(farm.server).board("hdmi", every=0.1):
            try:
                farm.tell("admin", "/reservations/1/cancel")
                call()
            except Exception:
                pytest.fail("it is no error of the block's")
            finally:
                ended.append(True)
    assert (ended, caplog.messages[-1]) == ([True], "board b1 is lost: reservation 1 is canceled")
    time.sleep(0.1)  # nothing comes any more
    with Passer(farm), client_of(farm.server).board("hdmi", every=0.1) as board:
        assert board.reservation == 2


@pytest.mark.usefixtures("handler")
def test_board_that_is_lost_in_a_thread(farm: Farm) -> None:
    """The block of another thread goes on, may ask, and raises at its end; the main thread isn't interrupted."""
    raised: List[object] = []

    def hold() -> None:
        one = client_of(farm.server).board("hdmi", every=0.1)
        try:
            with one:
                assert one.lost == ""
                farm.tell("admin", "/reservations/1/cancel")
                wait_until("it knows", lambda: one.lost)
                raised.append(one.lost)
        except fizgruk.HoldLost as fault:
            raised.append(str(fault))

    thread = threading.Thread(target=hold)
    with Passer(farm):
        thread.start()
        thread.join(300)
    assert raised == ["board b1 is lost: reservation 1 is canceled"] * 2


@pytest.mark.usefixtures("handler")
@pytest.mark.parametrize("fault, kind", [
    (None, fizgruk.HoldLost), (ValueError, fizgruk.HoldLost), (KeyboardInterrupt, KeyboardInterrupt),
    (SystemExit, SystemExit),
])
def test_board_that_is_lost_at_the_end(
    fault: Optional[Type[BaseException]], kind: Type[BaseException], farm: Farm, monkeypatch: pytest.MonkeyPatch
) -> None:
    """A loss that nobody saw before is raised at the block's end, in the place of its errors; what ends the program
    goes on."""
    monkeypatch.setattr(holding, "EVERY", 3600.0)  # (nobody looks before)
    with Passer(farm), pytest.raises(kind) as raised:
        with client_of(farm.server).board("hdmi", every=0.1):
            farm.tell("admin", "/reservations/1/cancel")
            if fault:
                raise fault
    if kind is fizgruk.HoldLost:
        assert re.match(LOST, str(raised.value))
        assert isinstance(raised.value.__cause__, fault or type(None))


@pytest.mark.usefixtures("handler")
def test_one_of_two_boards_that_is_lost(farm: Farm) -> None:
    """The block of the other one is interrupted too, and that is given back."""
    ann = client_of(farm.server)
    with Passer(farm), pytest.raises(fizgruk.HoldLost, match=LOST):
        with ann.board("name=b1", every=0.1), ann.board("name=b2", every=0.1):
            farm.tell("admin", "/reservations/1/cancel")
            time.sleep(300)
    assert states(farm) == ["canceled", "canceled"]


@pytest.mark.usefixtures("handler")
def test_signal_that_is_the_programs_own(farm: Farm) -> None:
    """Where the program has its own use of the signal the block goes on, and raises at its end."""
    signal.signal(signal.SIGURG, lambda *_: None)
    hold = client_of(farm.server).board("hdmi", every=0.1)
    with Passer(farm), pytest.raises(fizgruk.HoldLost, match=LOST):
        with hold:
            farm.tell("admin", "/reservations/1/cancel")
            wait_until("it knows", lambda: hold.lost)


@pytest.mark.usefixtures("handler")
@pytest.mark.slow(10)
def test_desk_that_is_away_while_a_board_is_held(front: Front, farm: Farm) -> None:
    """No board is lost while the desk is away, and looks have a connection of their own that is kept."""
    with Passer(farm), client_of(front.url).board("hdmi", every=0.1):
        farm.kill()
        wait_until("looks", lambda: front.paths()[-2:] == ["GET /boards"] * 2)
        farm.start()
        seen = len(front.asked)
        wait_until("looks again", lambda: len(front.asked) > seen + 1)
        assert front.connections == 2, "the client's, and that of its looks"
    assert states(farm) == ["canceled"]


# ---- programs that hold a board

SCRIPT = """\
import os, sys, time, fizgruk
if sys.argv[1] == "leaves":
    print(fizgruk.Client().board("hdmi", every=0.1).__enter__().reservation)
    sys.exit()
with fizgruk.Client().board("hdmi", every=0.1) as board:
    print(board.reservation, flush=True)
    if sys.argv[1] == "forks":
        if os.fork() == 0:
            sys.exit(0)
        os.wait()
        print("its child has ended", flush=True)
    time.sleep(300)
"""
Script = Tuple["subprocess.Popen[bytes]", str]


def script_of(farm: Farm, folder: str, word: str) -> Script:
    """A program that holds a board, and the file of what it prints."""
    file = os.path.join(folder, "said")
    env = environment(PYTHONPATH=PATH, DESK_SERVER=farm.server, DESK_USER="ann")
    with open(file, "wb") as said:
        words = [sys.executable, "-c", SCRIPT, word]
        process = subprocess.Popen(words, stdout=said, stderr=subprocess.DEVNULL, env=env)
    STARTED.append(process)
    return process, file


def test_child_that_ends(farm: Farm, folder: str) -> None:
    """The end of a child gives nothing back."""
    with Passer(farm):
        process, file = script_of(farm, folder, "forks")
        wait_until("its child has ended", lambda: "ended" in read(file))
        assert states(farm) == ["acquired"]
        process.send_signal(signal.SIGINT)
        process.wait(300)
    assert states(farm) == ["canceled"]


def test_end_of_the_program(farm: Farm, folder: str) -> None:
    """A program that ends without the end of its `with` gives the board back."""
    with Passer(farm):
        process, file = script_of(farm, folder, "leaves")
        assert process.wait(300) == 0
    assert (read(file), states(farm)) == ("1\n", ["canceled"])


def test_documented_program(make_farm: MakeFarm) -> None:
    """The program that docs/PYTHON.md begins with runs."""
    page = read(os.path.join(TOP, "docs", "PYTHON.md"))
    found = re.search("```python\n(.*?)```", page, re.DOTALL)
    assert found
    own = make_farm([("b1", "bbb", ["hdmi", "power=pdu2"])])
    env: Dict[str, Any] = environment(PYTHONPATH=PATH, DESK_SERVER=own.server, DESK_USER="ann")
    with Passer(own):
        ran = subprocess.run(
            [sys.executable, "-c", found.group(1)], capture_output=True, text=True, timeout=300, check=False, env=env
        )
    assert (ran.returncode, ran.stdout) == (0, "b1 bbb ('hdmi', 'power=pdu2') 1\n"), ran.stderr
    assert states(own) == ["canceled"]
