"""The door to the boards: root's, without a capability and without a device, told in fixed words over a socket.

A process for each use. Who asks the kernel says (SO_PEERCRED): the account of the boards' sshd, which says whose key it
took; a process of a job's unit, which is that job's; or root. The door asks the desk, starts a unit in the hold's slice,
has the opener open what is a device, and hands the unit terminal and line.
"""
import contextlib
import fcntl
import json
import os
import pathlib
import pwd
import re
import select
import signal
import socket
import subprocess
import time
from typing import Any, Callable, Dict, List, NamedTuple, NoReturn, Optional, Sequence, Tuple

from farm_access import holds, inner, opener, site as sites
from farm_access.holds import ADMIN, FREE, PUMP, BoardSeen, Lookout, NoDesk, Party, asked_again
from farm_access.inner import FAULT
from farm_access.site import AFTER, DEVICES, NETWORK, NO_WAYS, BadWay, Lost, NotYours, Refusal, Ways, whole
from fizgruk.errors import BadSettings
from fizgruk.words import NAMES, BadFile

ACCOUNT = "board"
WORD = re.compile(r"[A-Za-z0-9_.,:=@%+/-]{1,200}")
TERM = re.compile("[A-Za-z0-9.+-]{1,40}")
TAG = re.compile(r"[A-Za-z0-9_][A-Za-z0-9_.:-]*")  # what of a tag may stand in a path, and is no option
JOB = re.compile(r"^0::/farm\.slice/farm-job\.slice/farm-job-[0-9a-f]+-([1-9][0-9]*)-[0-9a-f]+\.service(/.*)?$", re.MULTILINE)
MOST_TEXT, MOST = 2000, 65536
AS_ADMIN, WATCH, LOG, WORDS = "--as-admin", "--watch", "--log", "..."
PATH = "/usr/local/bin:/usr/bin:/bin"
AFTER_SECONDS, ASKS_WITHIN, UNPACED = 60, 5.0, 1e9
MOST_USES = {True: 512, False: 64}  # at once: of the sshd's account, and of any other
MOST_OF_PERSON = 16
HELP = "BOARD ways | console [--watch|--log] | power on|off|cycle|status | tcp PORT | NAME .., behind it --as-admin"


Given = Tuple[Dict[str, object], List[int]]  # what a unit is told, and what it is handed beside the terminal


class Wanted(NamedTuple):
    """What a session's words ask for."""

    board: str
    way: str
    words: Sequence[str]
    as_admin: bool


def wanted_of(text: str) -> Wanted:
    """The words of a session, which reach no shell."""
    words = text.split(" ")
    as_admin = words[-1] == AS_ADMIN
    words = words[:-1] if as_admin else words
    if len(text) > MOST_TEXT or not words or not NAMES.fullmatch(words[0]) or not all(WORD.fullmatch(it) for it in words):
        raise BadWay(f"words are: {HELP}")
    return Wanted(words[0], words[1] if len(words) > 1 else "ways", words[2:], as_admin)


def job_of(pid: int, uid: int) -> int:
    """The number of the group of a job in whose unit a process is; 0 where it is in none. (A process that came under
    the number of who asked and ended is another account's: each job has its own.)"""
    about = pathlib.Path("/proc", str(pid))
    try:
        found = JOB.search((about / "cgroup").read_text(encoding="ascii"))
        is_its = f"\nUid:\t{uid}\t" in (about / "status").read_text(encoding="ascii")
    except (OSError, ValueError):
        return 0
    return int(found.group(1)) if found and is_its else 0


def take_place(person: str) -> None:
    """Takes one of a person's places, which the kernel gives back at this process's end."""
    opened = os.open(f"{holds.RUN}/{person}.uses", os.O_RDWR | os.O_CREAT | os.O_CLOEXEC, 0o600)
    for number in range(MOST_OF_PERSON):
        with contextlib.suppress(BlockingIOError):
            fcntl.lockf(opened, fcntl.LOCK_EX | fcntl.LOCK_NB, 1, number)
            return
    raise Refusal(f"you use {MOST_OF_PERSON} ways at once, and nobody has more: end one first")


def told_of(ways: Ways) -> List[str]:
    """A board's ways, for people; those that lack a tag of it aren't there."""
    found = {name: name for name in sorted(ways) if name not in NO_WAYS and not sites.lacks(ways[name])}
    if "power" in found:
        found["power"] = "power on|off|cycle" + "|status" * ("status" in ways["power"])
    if "tcp" in found:
        found["tcp"] = f"tcp {'|'.join(map(str, ways['tcp'].get('ports', [])))}"
    return list(found.values())


def ways_of(site: sites.Site, board: BoardSeen) -> Ways:
    return site.ways_of(board.name, {key: it for key, it in board.tags.items() if TAG.fullmatch(it)})


class WayUse:
    """One use of a way."""

    site: sites.Site
    lookout: Lookout
    ways: Ways
    board = hold = person = term = auth = ""
    job, is_root = 0, False
    unit: Optional[holds.Unit] = None

    def __init__(self, line: socket.socket):
        self.line = line
        self.about: Dict[str, Any] = {}  # what is written down

    def say(self, **told: Any) -> None:
        with contextlib.suppress(OSError):  # (nobody is there to be told)
            self.line.sendall(json.dumps(told).encode() + b"\n")

    # ---- who asks, and for what

    def look_at_peer(self) -> None:
        """Who asks: a person, a job, by the number of its group, or root."""
        pid, uid = opener.peer_of(self.line)
        self.job = job_of(pid, uid)
        self.is_root = uid == 0 and not self.job
        if not self.job and uid == pwd.getpwnam(ACCOUNT).pw_uid:
            self.person = self.person_now()
        if not (self.job or self.person or self.is_root):
            raise NotYours("you are neither a person's session nor a job")

    def person_now(self) -> str:
        person = sites.person_of(self.site.keys, self.auth)
        if not (person or self.job):  # (a job comes by no key)
            raise NotYours("your key is nobody's any more, or of two")
        return person

    def serve(self) -> int:
        """Serves it. Returns the status."""
        self.site = sites.read_file(sites.FILE)
        self.lookout = Lookout(self.site)
        self.line.settimeout(ASKS_WITHIN)
        text, self.fds, _, _ = socket.recv_fds(self.line, MOST, 3)
        if len(self.fds) != 3:
            raise BadWay("no terminal came")
        self.line.settimeout(None)
        asked = json.loads(text)
        self.auth = str(asked["auth"])
        self.look_at_peer()
        if self.person:
            take_place(self.person)
        wanted, self.term = wanted_of(str(asked["words"])), str(asked["term"])
        self.about = {"person": self.person, "job": self.job, "words": str(asked["words"]), "from": str(asked["from"])[:100]}
        board = asked_again(self.lookout.boards).get(wanted.board)
        if board is None:
            raise NotYours(f"there is no board {wanted.board}")
        self.board, self.ways = board.name, ways_of(self.site, board)
        if wanted.way == "ways":
            self.say(print="\n".join(told_of(self.ways)))
            return 0
        if self.is_root:
            return self.tidy(board, wanted)
        is_admin = wanted.as_admin and self.person in self.site.admins
        if wanted.way == "console" and list(wanted.words) == [LOG] and self.person:
            return self.show_log(is_admin)
        self.hold = self.about["hold"] = (board.hold or ADMIN) if is_admin else self.hold_of(board, wanted.as_admin)
        self.go(wanted.way, list(wanted.words))
        return self.wait()

    def hold_of(self, board: BoardSeen, as_admin: bool) -> str:
        """The hold by which who asks is let in."""
        if self.job:
            if as_admin or not asked_again(lambda: self.lookout.is_of_group(board.hold, self.job)):
                raise NotYours(f"{board.name} is no board of this job's")
            self.person = asked_again(lambda: self.lookout.owner_of(board.hold))
            return board.hold
        if board.hold and asked_again(lambda: self.lookout.owner_of(board.hold)) == self.person:
            return board.hold
        other = f"`desk reserve name={board.name}`" if board.holder == FREE else f"{board.holder} has it"
        raise NotYours(f"{board.name} isn't yours now: {other}")

    def show_log(self, is_admin: bool) -> int:
        """Hands over what the console said in the last hold of a person, or of anybody to an admin."""
        file = inner.last_record_of(self.board, self.person, is_admin)
        if file is None:
            raise NotYours(f"there is no record of yours of {self.board} any more")
        socket.send_fds(self.line, [json.dumps({"status": 0}).encode() + b"\n"], [inner.opened_to_read(file)])
        self.line.shutdown(socket.SHUT_WR)
        while self.line.recv(1):  # (who reads it uses a way until it is read)
            pass
        return 0

    # ---- the ways

    def go(self, way: str, words: List[str]) -> None:
        told = self.ways.get(way)
        if told is None or way in NO_WAYS:
            raise BadWay(f"access.toml has no {way} for this board: {HELP}")
        if way == "console" and words == [WATCH]:  # what another session of the hold has there
            file = inner.record_of(self.board, self.hold)
            if not os.path.exists(file):
                raise NotYours(f"nobody has had the console in {self.hold}: `{self.board} console`")
            self.begin(way, PUMP, lambda: ({"kind": "watch"}, [inner.opened_to_read(file)]))
        elif way == "console" and not words:
            self.console(whole(told, way))
        elif way == "tcp" and len(words) == 1 and words[0].isdigit() and int(words[0]) in told.get("ports", []):
            address = f"{whole(told.get('host'), 'host of tcp')}:{words[0]}"
            pump: Dict[str, object] = {"kind": "pump", "rate": UNPACED, "ends": True, "first": ""}
            self.begin(way, PUMP, lambda: (pump, [opener.open_address(address)[0]]))
        elif way == "power" and len(words) == 1:
            self.power(sites.steps_of(words[0], told))
        elif isinstance(told, list) and (not words or WORDS in told):
            self.command(way, [more for it in whole(told, way) for more in (words if it == WORDS else [it])])
        else:
            raise BadWay(f"{way} has other words: {HELP}")

    def console(self, way: Any) -> None:
        def gives() -> Given:
            try:
                kept, began = inner.opened_for(self.board, self.hold, self.person)
            except BlockingIOError:
                raise NotYours(f"another session of {self.hold} has the console: console {WATCH}") from None
            line, first = opener.open_console(way)
            pump = {"kind": "pump", "rate": sites.rate_of(way), "ends": "device" not in way}
            return {**pump, "first": first.decode("latin-1"), "began": began}, [line, kept]

        self.begin("console", PUMP, gives)

    def power(self, steps: sites.Steps) -> None:
        if steps.command:
            self.command("power", steps.command)
        else:
            told: Dict[str, object] = {"kind": "power", "paths": steps.paths, "pause": steps.pause}
            at = (steps.address, 0, "pdudaemon: ")
            self.begin("power", PUMP, lambda: (told, [opener.open_address(*at)[0] for _ in steps.paths]))

    def command(self, way: str, words: Sequence[str]) -> None:
        around = {"PATH": PATH, "HOME": "/", "FARM_BOARD": self.board, "FARM_HOLD": self.hold, "FARM_PERSON": self.person}
        if TERM.fullmatch(self.term):
            around["TERM"] = self.term
        self.begin(way, self.rights(), lambda: ({"kind": "run", "words": list(words), "environment": around}, []))

    def rights(self) -> List[str]:
        return holds.rights_of_command(*(whole(self.ways.get(it, []), it) for it in (DEVICES, NETWORK)))

    # ---- the hold

    def begin(self, way: str, rights: Sequence[str], gives: Callable[[], Given]) -> None:
        """Takes the board, and begins a unit there, which has nothing of the board before the desk was asked again."""
        party = Party(way) if self.job else Party(way, self.person, sites.mark_of(sites.key_of(self.auth)))
        with holds.taken(self.lookout, self.board, self.hold, self.between) as look:
            try:
                self.unit = holds.begin(self.board, holds.slice_of(self.board, self.hold), rights, party)
                told, opened = gives()
                look()
                self.unit.hand(json.dumps(told).encode(), [*self.fds, *opened])
            except OSError:
                look()  # (where the hold has ended, or the key is away, the guard ends the unit before it has begun)
                self.person_now()
                raise
        for it in (*self.fds, *opened):
            os.close(it)

    def between(self, board: BoardSeen) -> None:
        """Between two holds: nobody keeps a device open, and what the lab runs then has run."""
        device = self.ways.get("console", {}).get("device", "")
        for it in {device, *self.ways.get(DEVICES, [])}:
            if it.startswith("/dev/") and not sites.lacks(it) and os.path.exists(it):
                opener.asked("hangup", it)
        if AFTER in self.ways:
            unit = holds.begin(board.name, holds.slice_of(board.name, AFTER), self.rights(), Party(AFTER))
            null = os.open(os.devnull, os.O_RDWR)
            told = {"kind": "run", "words": whole(self.ways[AFTER], AFTER), "environment": {"PATH": PATH, "HOME": "/"}}
            unit.hand(json.dumps(told).encode(), [null] * 3)
            with contextlib.suppress(subprocess.TimeoutExpired):
                unit.child.wait(AFTER_SECONDS)
            if unit.child.returncode != 0:
                unit.kill()
                raise Refusal(f"{board.name} is shut: what is to run between two holds failed ({unit.child.returncode})")
        keep = holds.slice_of(board.name, self.hold or board.hold)
        holds.drop(it for it in holds.slices_of(board.name) if it != keep)

    def wait(self) -> int:
        """Until the unit has ended, or who asked is gone."""
        assert self.unit
        ended = os.pidfd_open(self.unit.child.pid)
        while ended not in select.select([ended, self.line], [], [])[0]:
            said = self.line.recv(1)
            if not said:
                self.unit.kill()
                return FAULT
            self.unit.line.send(said)
        status = self.unit.child.wait()
        if status != holds.KILLED:
            return status if status >= 0 else FAULT
        seen = None
        with contextlib.suppress(NoDesk):
            seen = self.lookout.boards().get(self.board)
        if seen is None or not seen.is_held_by(self.hold):
            raise Lost(f"{self.board}: {self.hold} has ended")
        self.person_now()
        raise Refusal(f"{self.board}: the way was killed")

    def tidy(self, board: BoardSeen, wanted: Wanted) -> int:
        """Cleans up behind a board's last hold, for the guard and for root."""
        if wanted.way != "tidy" or wanted.words:
            raise BadWay("root says: BOARD tidy")
        with holds.locked(board.name):
            seen = asked_again(self.lookout.boards)[board.name]
            if (last := holds.last_of(board.name)) != holds.UNKNOWN:  # (an admin may have come to the board since, which is free)
                holds.clean(seen, last if seen.is_held_by(last) else seen.hold, self.between)
        return 0


def one(line: socket.socket) -> None:
    """One use, from what is asked to its status, which is written down."""
    use = WayUse(line)
    try:
        status = use.serve()
    except (Refusal, BadFile, BadSettings, OSError, ValueError, TypeError, LookupError) as fault:
        status = getattr(fault, "status", FAULT)
        use.say(say=str(fault))
    if use.unit:
        use.unit.kill()
    use.say(status=status)
    print(json.dumps({"ended": time.time(), "status": status, **use.about}), flush=True)


def serve() -> NoReturn:
    """A child for each use; the children go on where this is killed or restarted (KillMode=process)."""
    there = [socket.socket(fileno=3 + it) for it in range(int(os.environ["LISTEN_FDS"]))]
    account = pwd.getpwnam(ACCOUNT).pw_uid
    os.umask(0o077)
    signal.signal(signal.SIGPIPE, signal.SIG_IGN)
    opener.serve(there, lambda uid: MOST_USES[uid == account], one)
