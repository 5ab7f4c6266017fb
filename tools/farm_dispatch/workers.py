"""The machines that run jobs, as the dispatcher asks them: over ssh(1), or at a socket of systemd's on its own. What
runs there is farm-worker, whose head says what it can be asked; in a try by hand `Hand` stands in for it."""
import contextlib
import io
import os
import secrets
import select
import signal
import socket
import subprocess
import tempfile
import time
from typing import Any, Dict, List, NamedTuple, Optional, Sequence, Set, Tuple, Union

from fizgruk import toml_text, words as texts
from fizgruk._tools import commands, disk
from fizgruk.errors import BadSettings

LIMITS = {"timeout": "time limit", "folder-limit": "folder limit", "memory-limit": "memory limit"}
DESK = "desk"  # the machine of boards without a tag worker=NAME
SOCKET = "/run/farm-worker.socket"
PATIENCE, LONGEST_CALL = 15.0, 900.0  # seconds without a byte of an answer, and until its end
LONGEST = 17_000_000  # bytes of an answer that is kept in memory: a list has 16,000,000
PART = 262_144  # bytes that are read at once
END = b"end\0"  # of a list
SCRIPT = os.path.join(os.path.dirname(os.path.realpath(__file__)), "..", "farm-worker")
LONGEST_ROW = 400  # characters of what a look says in one, and bytes of how a begin went
LOG_PART = 8_000_000  # bytes that one call gives of a log, at most
MOST_ROWS = 600_000  # that are read of a look: farm-worker's own have 30 bytes at least
# (What a worker says to stderr goes into a file: who writes more there is ended, ssh or the master that it left.)
SSH = (
    "prlimit", "--fsize=1000000", "--core=0", "ssh", "-T", "-o", "BatchMode=yes", "-o", "ConnectTimeout=5",
    "-o", "ServerAliveInterval=3", "-o", "ServerAliveCountMax=3", "-o", "ControlMaster=auto", "-o", "ControlPersist=60",
)


class Away(Exception):
    """A worker gave no whole answer: what it was asked may be done, or not, or be done later."""


class Look(NamedTuple):
    """What a worker has of this dispatcher's. Its units were looked at after the marks and `old`, and before the ends."""

    life: str  # of the machine: its id, and what is another one after each start
    marks: Set[str]  # begun, or closed, also where that was forgotten less than a day ago
    begun: Set[str]  # of these those whose command began
    units: Set[str]  # known to systemd
    lives: Set[str]  # with processes
    ended: Dict[str, Tuple[str, int]]  # how, and since how many seconds
    sizes: Dict[str, int]  # of logs
    lacks: str = ""  # why commands can't be started there


NO_LOOK = Look("", set(), set(), set(), set(), {}, {})  # (of no life, so nothing follows from it)


def worker_of(board: Dict[str, Any]) -> str:
    """The name of the machine at which a board hangs."""
    tags = (it.partition("=") for it in board["tags"])
    return next((value for key, _, value in tags if key == "worker" and value), DESK)


def destinations_in(file: str) -> Dict[str, str]:
    """The names of other machines that run jobs, and where ssh(1) goes for each: the table [workers] of a file."""
    try:
        pairs = dict(toml_text.tree_of(disk.text_in(file) or "").get("workers", {}))
    except (toml_text.NotToml, TypeError, ValueError) as fault:
        raise BadSettings(f"{file}: {fault}") from fault
    for name, to in pairs.items():
        is_name = texts.TAGS.fullmatch(f"worker={name}") is not None
        if not is_name or not isinstance(to, str) or not to or to.startswith("-") or name == DESK:
            raise BadSettings(f"{file}: {name!r} = {to!r} is no worker, as rack2 = \"root@rack2.lab.example\"")
    return pairs


class Call:
    """A call that is under way: its answer comes out of `end`."""

    def __init__(self, way: str, ssh: List[str], sent: bytes):
        self.process: Optional["subprocess.Popen[bytes]"] = None
        self.until = time.monotonic() + LONGEST_CALL
        self.errors = tempfile.TemporaryFile()  # pylint: disable=consider-using-with
        self.end, theirs = (socket.socket(socket.AF_UNIX), None) if way.startswith("/") else socket.socketpair()
        self.end.settimeout(PATIENCE)
        try:
            if theirs is None:
                self.end.connect(way)
            else:
                with theirs:
                    words = [*ssh, "--", way, "farm-worker"]
                    self.process = subprocess.Popen(words, stdin=theirs.fileno(), stdout=theirs.fileno(), stderr=self.errors)
            self.end.sendall(sent)
            self.end.shutdown(socket.SHUT_WR)
        except OSError as fault:
            why = self._why(fault)
            self.close()
            raise Away(why) from fault

    def read(self, size: int = PART) -> bytes:
        """At most so many bytes of the answer; none at its end."""
        if time.monotonic() > self.until:
            raise Away("its answer has no end")
        try:
            return self.end.recv(min(size, PART))
        except OSError as fault:
            raise Away(self._why(fault)) from fault

    def whole(self) -> bytes:
        """The whole answer."""
        said = b""
        try:
            for more in iter(self.read, b""):
                said += more
                if len(said) > LONGEST:
                    raise Away(f"its answer has more than {LONGEST:,} bytes")
            if self.process is not None and self.process.wait(timeout=PATIENCE):
                raise Away(self._why(None))
            return said
        except subprocess.TimeoutExpired as fault:
            raise Away(self._why(fault)) from fault
        finally:
            self.close()

    def _why(self, fault: Optional[Exception]) -> str:
        """Why there is no answer, as ssh says it, or the system."""
        self.errors.seek(0)
        lines = self.errors.read(65_536).decode(errors="replace").split("\n")
        text = next((it for it in reversed(lines) if it.strip()), str(fault or "it gives no answer"))
        return "".join(it if it.isprintable() else "?" for it in text.strip())[:200]

    def close(self) -> None:
        self.end.close()
        if self.process is not None:
            self.process.kill()
            self.process.wait()
        self.errors.close()


Answer = Union[Call, io.BytesIO]


class Worker:
    """A machine that runs commands, by farm-worker there. All but `folder_of` and `close_all` may raise Away."""

    lost = "the machine was restarted"  # what has become of another life

    def __init__(self, name: str, way: str, place: str):
        """`way` is the path of a socket, or where ssh(1) goes; ssh's own sockets stand in `place`."""
        self.name, self.way = name, way
        self.ssh = [*SSH, "-o", f"ControlPath={place}/ssh-%C"]

    def _start(self, words: str, body: bytes = b"") -> Call:
        return Call(self.way, self.ssh, words.encode() + b"\n" + body)

    def look(self, identity: str) -> Look:
        return look_of(self._start(f"look {identity}").whole().decode(errors="replace"))

    def begin(self, unit: str, words: str, files: Dict[str, str]) -> str:
        """Begins a unit in a life, by words of it, its kind, its limit of time, grace, and its limits of log and folder."""
        sent = [it.encode() for it in files.values()]
        sizes = " ".join(str(len(it)) for it in sent)
        said = self._start(f"begin {unit} {words} {sizes}", b"".join(sent)).whole()[:LONGEST_ROW]
        return " ".join(said.decode(errors="replace").split())

    def close(self, unit: str) -> None:
        if self._start(f"close {unit}").whole().strip() != b"ok":
            raise Away("its answer was cut")

    def log(self, unit: str, begin: int) -> bytes:
        return self._start(f"log {unit} {begin}").whole()

    def listed(self, unit: str) -> bytes:
        return self._start(f"list {unit}").whole()

    def out(self, unit: str, names: List[str]) -> Answer:
        """Of each of these files its size, and its bytes."""
        return self._start(f"out {unit}", "".join(f"{it}\0" for it in names).encode())

    def forget(self, unit: str) -> bool:
        return self._start(f"forget {unit}").whole().strip() == b"ok"

    def wait(self, look: Look, identity: str, seconds: float, woken: int) -> None:
        """Waits until one more command has ended than at a look, for so many seconds, or until somebody else wakes it."""
        with contextlib.closing(self._start(f"wait {identity} {len(look.ended)} {max(1, round(seconds))}")) as call:
            select.select([woken, call.end], [], [], seconds)

    def folder_of(self, unit: str) -> str:
        return os.path.join("/var/lib/farm-job", unit)

    def close_all(self) -> None:
        """(What runs there goes on.)"""


def look_of(said: str) -> Look:
    """A look at a worker, by its answer. Raises Away where that isn't whole."""
    rows = [it[:LONGEST_ROW].split(" ") for it in said.split("\n", MOST_ROWS)]
    if rows[0][0] != "life" or len(rows[0]) != 2 or rows[-2:] != [["end"], [""]]:
        raise Away("its answer was cut" if said else "it gives no answer")
    of: Dict[str, List[List[str]]] = {}
    for row in rows:
        of.setdefault(row[0], []).append(row[1:])
    try:
        kinds = ("marks", "old", "begun", "unit", "lives")
        marks, old, begun, units, lives = ({it[0] for it in of.get(kind, [])} for kind in kinds)
        now = int(of["now"][0][0])
        at = {it[0].partition("/")[0]: int(it[1].partition(".")[0]) for it in of.get("at", [])}
        ended = {it[0]: (" ".join(it[1:]), max(0, now - at.get(it[0], now))) for it in of.get("ended", [])}
        sizes = {it[0]: int(it[1]) for it in of.get("size", [])}
    except (ValueError, IndexError, KeyError) as fault:
        raise Away("its answer isn't farm-worker's") from fault
    return Look(rows[0][1], marks | old, begun, units, lives, ended, sizes, " ".join(of.get("lacks", [[]])[0]))


# ---- how a command ended


def words_of(how: str, limit: str) -> str:
    """An end in words, as `time limit of 9 seconds, status 143`: what systemd says, `RESULT CODE STATUS`, of a command with
    this limit of time, or what is known of one that was lost."""
    kind, code, status = [*how.split(" "), "", ""][:3]
    if kind in ("lost:", "never"):
        return how if kind == "lost:" else "not begun"
    if how == "exit-code exited 203":  # systemd's own status
        return "not started: it can't be executed"
    name = f"SIG{status}"
    number = int(signal.Signals[name]) if name in signal.Signals.__members__ else status
    end = f"status {status}" if code == "exited" else f"signal {number}"
    if kind == "oom-kill":
        return f"{end}, out of memory"
    return f"{LIMITS[kind]}{f' of {limit}' if kind == 'timeout' else ''}, {end}" if kind in LIMITS else end


def outcome_of(words: str, infra: int) -> str:
    """The outcome of an end, where this exit status means a fault of the lab."""
    if words == "status 0":
        return "Complete"
    is_own = words.startswith(("status ", *LIMITS.values())) and words != f"status {infra}"
    return "Incomplete" if is_own else "Infra"


# ---- a try by hand, without systemd: jobs are plain children of the dispatcher, each a process group of its account, and are
# ended with it. A process that leaves its group is neither found nor killed; there are no limits but the time's.

# Kills the process groups that were begun and haven't ended, once its input ends, as the dispatcher does then.
GUARD = """trap '' TERM INT HUP
groups=' '
while read -r what group; do
    [ "$what" = begun ] && groups="$groups-$group " || groups="${groups%% -$group *} ${groups#* -$group }"
done
[ "$groups" = ' ' ] || kill -KILL $groups"""


class Hand(Worker):
    """This machine as a worker, without systemd."""

    lost = "the dispatcher that ran it has ended"

    def __init__(self, place: str, command: Sequence[str], check: Sequence[str]):
        super().__init__(DESK, "", place)
        self.place = os.path.join(place, "jobs")
        self.commands = {"job": list(command), "check": list(check)}
        self.life = f"{DESK}/{secrets.token_hex(8)}"
        self.children: Dict[str, Tuple["subprocess.Popen[bytes]", float, int]] = {}  # also when it is late, and a pidfd
        self.closed: Dict[str, Tuple[str, float]] = {}  # how what has ended did, and when
        self.stopped: Set[str] = set()
        self.grace = 0
        theirs, self.guard = os.pipe()
        subprocess.Popen(["sh", "-c", GUARD], stdin=theirs, start_new_session=True)  # pylint: disable=consider-using-with
        os.close(theirs)
        os.makedirs(self.place, mode=0o750, exist_ok=True)

    def _file(self, unit: str, name: str) -> str:
        return os.path.join(self.place, unit, name)

    def look(self, identity: str) -> Look:
        for unit, (process, late, line) in list(self.children.items()):
            status = process.poll()
            if status is not None and not lives_on(process.pid):
                self.closed[unit] = how_of(status, time.monotonic() >= late), time.time()
                os.write(self.guard, f"ended {process.pid}\n".encode())
                os.close(line)
                del self.children[unit]
        lacks = next((it for it in map(commands.fault_of, self.commands.values()) if it), "")
        ended = {unit: (how, int(time.time() - at)) for unit, (how, at) in self.closed.items()}
        alive = set(self.children)
        sizes = {it: self._size(it) for it in os.listdir(self.place)}
        return Look(self.life, alive | set(ended), alive, alive, alive, ended, sizes, lacks)

    def _size(self, unit: str) -> int:
        """The bytes of a job's log, which a command of this account may have put another thing in the place of."""
        with contextlib.suppress(OSError), open(disk.opened_file(self._file(unit, "log")), "rb") as log:
            return os.fstat(log.fileno()).st_size
        return 0

    def begin(self, unit: str, words: str, files: Dict[str, str]) -> str:
        life, kind, limit, grace = words.split(" ")[:4]
        if life != self.life or unit in self.children or unit in self.closed:
            return "otherlife" if life != self.life else "begun"
        work = self.folder_of(unit)
        os.makedirs(work, mode=0o750, exist_ok=True)
        for name in ("job.toml", "boards", "boards.json"):
            disk.write_whole(os.path.join(work, name), files[name], 0o640)
        own = {name: text for name, text in os.environ.items() if not name.startswith("DISPATCH_")}
        own.update((name, text.strip('"')) for name, _, text in (it.partition("=") for it in files["env"].splitlines()))
        timeout, late = ["timeout", "--preserve-status", "-k", grace, limit], time.monotonic() + int(limit)
        with open(self._file(unit, "log"), "ab") as log:
            process = subprocess.Popen(  # pylint: disable=consider-using-with
                [*timeout, *self.commands[kind]], cwd=work, stdin=subprocess.DEVNULL, stdout=log, stderr=log, env=own,
                start_new_session=True,
            )
        os.write(self.guard, f"begun {process.pid}\n".encode())
        self.children[unit] = process, late, os.pidfd_open(process.pid)
        self.grace = int(grace)
        return "ok"

    def close(self, unit: str) -> None:
        if unit not in self.children:
            self.closed.setdefault(unit, ("never", time.time()))
        elif unit not in self.stopped:
            self.stopped.add(unit)
            self.children[unit][0].send_signal(signal.SIGTERM)

    def log(self, unit: str, begin: int) -> bytes:
        with contextlib.suppress(OSError), open(disk.opened_file(self._file(unit, "log")), "rb") as log:
            log.seek(begin)
            return log.read(LOG_PART)
        return b""

    def listed(self, unit: str) -> bytes:
        return self._asked("list", unit) if os.path.isdir(self.folder_of(unit)) else END  # (what never began has none)

    def out(self, unit: str, names: List[str]) -> io.BytesIO:
        return io.BytesIO(self._asked("out", unit, "".join(f"{it}\0" for it in names).encode()))

    def _asked(self, verb: str, unit: str, names: bytes = b"") -> bytes:
        """What the worker's script says of a folder."""
        words = ["sh", SCRIPT, verb, self.folder_of(unit)]
        return subprocess.run(words, input=names, capture_output=True, timeout=LONGEST_CALL, check=False).stdout

    def forget(self, unit: str) -> bool:
        script = 'rm -rf -- "$1" 2> /dev/null || { chmod -R u+rwX -- "$1"; rm -rf -- "$1"; }'
        subprocess.run(["sh", "-c", script, "sh", os.path.join(self.place, unit)], check=False)
        self.closed.pop(unit, None)
        return True

    def wait(self, look: Look, identity: str, seconds: float, woken: int) -> None:
        select.select([woken, *(line for process, _, line in self.children.values() if process.returncode is None)], [], [], seconds)

    def folder_of(self, unit: str) -> str:
        return self._file(unit, "work")

    def close_all(self) -> None:
        """Ends all that runs, with the dispatcher."""
        for unit in self.children:
            self.close(unit)
        until = time.monotonic() + self.grace
        while self.look("").units and time.monotonic() < until:
            time.sleep(0.05)
        for process, _, _ in self.children.values():
            lives_on(process.pid)


def lives_on(group: int) -> bool:
    """Kills a process group. Returns whether there was still a process."""
    try:
        os.killpg(group, signal.SIGKILL)
        return True
    except (ProcessLookupError, PermissionError):
        return False


def how_of(status: int, is_late: bool) -> str:
    """How timeout(1), or its command, ended, in systemd's words."""
    number = 9 if is_late and status == 137 else -status
    names = {int(it): it.name[3:] for it in signal.Signals}  # (some of realtime have none)
    kind = "timeout" if is_late else "signal" if number > 0 else "exit-code" if status else "success"
    return f"{kind} killed {names.get(number, number)}" if number > 0 else f"{kind} exited {status}"
