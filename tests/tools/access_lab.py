"""A lab before farm-access: a machine with a systemd of its own, with the units as the package has them, ser2net,
pdudaemon, boards that keep each byte that reaches them, and people with keys."""
from __future__ import annotations

import json
import os
import signal
import subprocess
import time
from typing import Any, Callable, Dict, Iterator, List, NamedTuple, Optional, Sequence, Tuple

import pytest

from machine import Machine
from served import PATIENCE, STARTED, TOP
from wants import wants

PEOPLE = ("ann", "bob", "eve")
BOARDS = ("b1", "b2", "b3")
OUTLETS = {"b1": 3, "b2": 4, "b3": 5}
UNITS = ("farm-access-sshd", "farm-access-guard")
PLACE = "/srv/access"
GROUPS = "/sys/fs/cgroup/farm.slice/farm-hold.slice"
SLOW = "b1"  # the board as slow as a serial line of 115200 baud
PDU, ECHO = 16421, 7700
# Beside what the package's postinst does: the lab's own files, and people's keys.
SET_UP = """\
set -e
mount -o remount,gid=5,mode=620 /dev/pts  # (as it is where nobody made a machine of his own)
ln -sf /usr/local/lib/farm-tools/farm-access /usr/bin/farm-access
install -m 644 /tmp/source/examples/farm-access-sshd.conf /etc/farm/
install -D -m 644 /tmp/source/examples/farm-port-access.nft /etc/farm/port.d/access.nft
install -m 644 -t /etc/systemd/system /tmp/source/examples/farm-access*.service /tmp/source/examples/farm-access*.socket \\
    /tmp/source/examples/farm-hold.slice
mkdir -p PLACE/people PLACE/got /dev/boards /etc/farm/keys /run/ser2net /run/sshd
chmod 700 /run/ser2net PLACE/people
for it in ann bob eve stranger; do
    ssh-keygen -q -t ed25519 -N '' -C '' -f PLACE/people/$it
    [ $it = stranger ] || install -m 644 PLACE/people/$it.pub /etc/farm/keys/$it
done
/usr/bin/python3 -m compileall -q /usr/local/lib/farm-tools
systemctl daemon-reload
echo look ab12 | farm-worker > /dev/null  # (which makes its folders)
for it in BOARDS; do
    systemd-run -q --unit=board-$it -p Restart=always /usr/bin/python3 PLACE/access_board.py /dev/boards/$it PLACE/got/$it \\
        $([ $it = SLOW ] && echo slow || echo farm-hold)
done
systemd-run -q --unit=ser2net-b1 -p Restart=always ser2net -n -u -c /etc/ser2net.yaml
systemd-run -q --unit=echo -p Restart=always /usr/bin/python3 PLACE/access_echo.py ECHO
""".replace("PLACE", PLACE).replace("BOARDS", " ".join(BOARDS)).replace("SLOW", SLOW).replace("ECHO", str(ECHO))
WAYS = f"""\
admins = ["eve"]

[[ways]]
boards = "*"
console = {{ device = "/dev/boards/{{board}}" }}
power = {{ pdudaemon = "http://127.0.0.1:{PDU}", host = "{{power}}", port = "{{outlet}}", settle = 0.2 }}
tcp = {{ host = "127.0.0.1", ports = [{ECHO}] }}
say = ["/bin/echo", "..."]
env = ["/usr/bin/env"]
sleep = ["/bin/sleep", "600"]
shell = ["/bin/sh"]
lacking = ["/bin/echo", "{{flasher}}"]
gone = ["/no/such/command"]
nasty = ["/usr/bin/python3", "{PLACE}/access_nasty.py", "/dev/boards/{{board}}", "..."]
devices = ["/dev/boards/{{board}}"]

[[ways]]
boards = "b1"
console = {{ unix = "/run/ser2net/b1", rate = 4000 }}

[[ways]]
boards = "b3"
after = ["/bin/sh", "-c", "test ! -e {PLACE}/fails && printf '<after>' > /dev/boards/b3"]
power = {{ on = ["/bin/sh", "-c", "printf 'the board is up\\\\r\\\\nboard:/# ' > /dev/boards/b3"], off = ["/bin/true"] }}
"""
SER2NET = """\
%YAML 1.1
---
connection: &b1
  accepter: unix(umode=6,gmode=0,omode=0),/run/ser2net/b1
  connector: serialdev,/dev/boards/b1,115200n81,local
  options:
    kickolduser: false
"""
# A job's unit, begun as farm-worker does, but that the test has its terminal; farm-job-.service.d says the rest. (Of another
# name it has no account of its own.)
JOB = "systemd-run --quiet --collect --pipe --wait --slice=farm-job.slice -p DynamicUser=yes -p TimeoutStopSec=1".split()
FILES = 'mkdir "/run/farm-jobs/in/$0" && (cd "/run/farm-jobs/in/$0" && touch job.toml boards boards.json env) && exec "$@"'


# By which several sessions of a person go over one connection.
SHARED = ("-o", "ControlMaster=auto", "-o", "ControlPath=/root/%C", "-o", "ControlPersist=60")


class Tried(NamedTuple):
    """What came of a session that ended by itself."""

    status: Optional[int]
    output: bytes
    errors: str


class Byte(NamedTuple):
    """Bytes that reached a board at a moment."""

    at: float
    said: bytes


class Lab:
    """A machine with boards and the way to them, all of which runs."""

    def __init__(self, machine: Machine, desk: str = ""):
        """`desk` is the address, within the machine, of a desk that is served elsewhere; it has a desk of its own, else."""
        wants("ssh", "sshd", "ser2net", "pdudaemon", "ssh-keygen", "curl")
        self.machine = machine
        self.seen: Dict[str, Tuple[int, List[Byte]]] = {}  # what boards received, and up to where it was read
        with open(os.path.join(TOP, "packaging/debian/fizgruk-access.postinst"), encoding="utf-8") as file:
            machine.run("sh", "-c", file.read(), "postinst", "configure")
        for name in ("access_board.py", "access_echo.py", "access_nasty.py"):
            with open(os.path.join(TOP, "tests/tools", name), encoding="utf-8") as file:
                machine.write(f"{PLACE}/{name}", file.read())
        told = {f"cmd_{it}": f"echo %s {it} >> {PLACE}/power" for it in ("on", "off")}
        daemon = {"hostname": "127.0.0.1", "port": PDU, "logging_level": "INFO", "listener": "http"}
        pdus = {"daemon": daemon, "pdus": {"bench": {"driver": "localcmdline", **told}}}
        machine.write("/etc/pdudaemon.conf", json.dumps(pdus))
        machine.write("/etc/ser2net.yaml", SER2NET)
        machine.run("sh", "-c", SET_UP)
        self.pdus()
        machine.write("/etc/farm/access.toml", f'desk = "{desk}"\n{WAYS}' if desk else WAYS)
        if not desk:
            self.serve()
        machine.run("systemctl", "start", *UNITS)
        until(lambda: self.session("ann", "b1", "ways").status == 0, 60)

    def serve(self) -> None:
        """A desk of its own, which has the boards."""
        self.machine.serve()
        self.tell("admin", "/types", {"name": "bbb"})
        for name in BOARDS:
            self.tell("admin", "/boards", {"name": name, "type": "bbb", "tags": ["power=bench", f"outlet={OUTLETS[name]}"]})
            self.tell("admin", f"/boards/{name}/health", {"health": "Good"})

    def pdus(self) -> None:
        self.machine.run("systemd-run", "-q", "--unit=pdus", "pdudaemon", "--conf", "/etc/pdudaemon.conf")

    def there(self, file: str) -> str:
        """A file of the machine, from outside."""
        return f"/proc/{self.machine.first}/root{file}"

    def read(self, file: str) -> str:
        with open(self.there(file), encoding="utf-8", errors="replace") as opened:
            return opened.read()

    # ---- sessions

    def within(self, *words: str) -> List[str]:
        """A command in the machine: one of ssh(1)'s is this test's own process, which sees no other of the machine."""
        around = ["env", "-i", "PATH=/usr/local/bin:/usr/sbin:/usr/bin:/sbin:/bin", "HOME=/root", "LC_ALL=C"]
        parts = ["-m", "-n", "-u", "-i"] if "ssh" in words else ["-a"]
        return ["nsenter", "-t", str(self.machine.first), *parts, "--wdns=/", *around, *words]

    def ssh(self, person: str, *words: str, options: Sequence[str] = (), account: str = "board") -> List[str]:
        plain = ["BatchMode=yes", "IdentitiesOnly=yes", "StrictHostKeyChecking=no", "LogLevel=ERROR", "UserKnownHostsFile=/root/known"]
        more = [word for it in plain for word in ("-o", it)]
        return ["ssh", "-F", "none", "-p", "2222", "-i", f"{PLACE}/people/{person}", *more, *options, f"{account}@127.0.0.1", *words]

    def try_words(self, words: Sequence[str], seconds: float = 120, said: bytes = b"", **more: str) -> Tried:
        """What comes of a client that ends by itself."""
        around = [f"{name}={text}" for name, text in more.items()]
        try:
            ran = subprocess.run(self.within("env", *around, *words), input=said, capture_output=True, timeout=seconds, check=False)
        except subprocess.TimeoutExpired as late:
            return Tried(None, late.stdout or b"", (late.stderr or b"").decode(errors="replace"))
        return Tried(ran.returncode, ran.stdout, ran.stderr.decode(errors="replace").strip())

    def session(self, person: str, *words: str, options: Sequence[str] = (), seconds: float = 120, said: bytes = b"") -> Tried:
        return self.try_words(self.ssh(person, *words, options=options), seconds, said)

    def begun(self, *words: str) -> "subprocess.Popen[bytes]":
        """A command in the machine that goes on."""
        pipe = subprocess.PIPE
        process = subprocess.Popen(self.within(*words), stdin=pipe, stdout=pipe, stderr=pipe)
        STARTED.append(process)
        return process

    def begin(self, person: str, *words: str, options: Sequence[str] = (), **more: str) -> "subprocess.Popen[bytes]":
        """A session that goes on."""
        return self.begun("env", *(f"{name}={text}" for name, text in more.items()), *self.ssh(person, *words, options=options))

    def units(self, board: str = "") -> List[str]:
        """The units of holds in which something runs, as the kernel has them."""
        found = []
        for place, _, files in os.walk(self.there(f"{GROUPS}/farm-hold-{board}.slice" if board else GROUPS)):
            if place.endswith(".service") and "cgroup.procs" in files:
                found.append(place)
        return found

    def pids_of(self, unit: str) -> List[int]:
        with open(os.path.join(unit, "cgroup.procs"), encoding="ascii") as file:
            return [int(it) for it in file.read().split()]

    def running(self, board: str, way: str) -> str:
        """The unit that has something on this way of a board."""
        until(lambda: any(f"farm-way-{way}-" in it for it in self.units(board)))
        return next(it for it in self.units(board) if f"farm-way-{way}-" in it)

    def uses(self) -> List[Dict[str, Any]]:
        """What the door has written down."""
        said = self.machine.journal("farm-access").splitlines()
        return [json.loads(it) for it in said if it.startswith("{")]

    # ---- jobs

    def submit(self, board: str, of: str = "bbb") -> int:
        """A job that has a board of a type; what runs in it a test starts by itself (`job`)."""
        text = f"job_name = 'test'\ndevice_type = '{of}'\ntags = ['name={board}']\n"
        number = int(self.tell("ann", "/jobs", text)["number"])
        until(lambda: self.tell("dispatcher", "/pass") and self.look(f"/jobs/{number}")["state"] == "Scheduled")
        self.tell("dispatcher", f"/jobs/{number}/start")
        assert self.look(f"/jobs/{number}")["state"] == "Running"
        return number

    def job(self, number: int, *words: str, **more: str) -> List[str]:
        """A command of a job's unit."""
        token = f"{time.monotonic_ns():x}"
        around = [word for name, text in more.items() for word in ("-E", f"{name}={text}")]
        unit = f"farm-job-ab12-{number}-{token}"
        return ["sh", "-c", FILES, unit, *JOB, f"--unit={unit}", *around, *words]

    def finish(self, number: int) -> None:
        self.tell("dispatcher", f"/jobs/{number}/finish", {"outcome": "Complete"})

    # ---- the desk and the boards

    def look(self, path: str) -> Any:
        return json.loads(self.machine.run(*self.machine.curl("ann", path)).stdout)

    def board(self, name: str) -> Any:
        return next(it for it in self.look("/boards")["boards"] if it["name"] == name)

    def tell(self, user: str, path: str, body: Any = None, seconds: float = 60) -> Any:
        """Gives a command, again where the desk is down; a refusal is answered as it is."""
        sent = ["--data-binary", body if isinstance(body, str) else json.dumps(body)] if body is not None else ["-X", "POST"]
        key, end = f"x-key: k{time.time_ns()}", time.monotonic() + seconds
        while True:
            ran = self.machine.run(*self.machine.curl(user, path, "-H", key, *sent), check=False)
            if ran.returncode == 0:
                return json.loads(ran.stdout)
            assert time.monotonic() < end, ran.stderr
            time.sleep(0.1)

    def reserve(self, person: str, board: str) -> int:
        """Has a board acquired by a person, once nobody else has it."""
        number = int(self.tell(person, "/reservations", {"tags": [f"name={board}"]})["number"])
        end = time.monotonic() + 60
        while "number" not in self.tell(person, f"/reservations/{number}/acquire"):
            assert time.monotonic() < end, f"{person} gets no {board}"
            self.tell("dispatcher", "/pass")
            self.tell(person, f"/reservations/{number}/refresh")
        return number

    def cancel(self, person: str, number: int) -> None:
        self.tell(person, f"/reservations/{number}/cancel")

    def give_back(self) -> None:
        """Ends all holds, and waits until nothing of them is left."""
        for it in self.look("/reservations")["reservations"]:
            if it["state"] in ("waiting", "allocated", "acquired"):
                self.cancel(it["owner"], it["number"])
        for it in self.look("/boards")["boards"]:
            if it["holder"].startswith("job "):
                self.finish(int(it["holder"].split()[1]))
        until(lambda: not self.units())

    def got(self, board: str) -> List[Byte]:
        """What a board received."""
        place, found = self.seen.get(board, (0, []))
        try:
            with open(self.there(f"{PLACE}/got/{board}"), "rb") as file:
                file.seek(place)
                whole = file.read().rpartition(b"\n")[0]
        except FileNotFoundError:
            return []
        rows = [it.split() for it in whole.split(b"\n")]
        found = found + [Byte(float(it[0]), bytes.fromhex(it[1].decode())) for it in rows if len(it) == 2]
        self.seen[board] = (place + len(whole) + bool(whole), found)
        return found

    def text(self, board: str) -> bytes:
        return b"".join(it.said for it in self.got(board))


MADE: List[Lab] = []


def the_lab(program: str, folders: pytest.TempPathFactory) -> Lab:
    """The lab of all tests of a process, which ends with it."""
    if not MADE:
        machine = Machine(str(folders.mktemp("machine")), program)
        STARTED.remove(machine.process)
        MADE.append(Lab(machine))
    return MADE[0]


@pytest.fixture(name="lab")
def lab_fixture(program: str, tmp_path_factory: pytest.TempPathFactory) -> Iterator[Lab]:
    made = the_lab(program, tmp_path_factory)
    yield made
    made.give_back()


def echoed(line: "subprocess.Popen[bytes]", said: bytes) -> bytes:
    """Types into a session, and says what comes back, of as many bytes."""
    assert line.stdin and line.stdout
    line.stdin.write(said)
    line.stdin.flush()
    return line.stdout.read(len(said))


def kill(pid: int, number: int = signal.SIGKILL) -> None:
    try:
        os.kill(pid, number)
    except ProcessLookupError:
        pass


def until(true: Callable[[], Any], seconds: float = PATIENCE) -> float:
    """Waits until something is true, and says for how long it wasn't."""
    since, pause = time.monotonic(), 0.02
    while not true() and time.monotonic() < since + seconds:
        time.sleep(pause)
        pause = min(pause * 1.2, 0.2)
    return time.monotonic() - since
