"""What has a board: what the desk says, the cgroups of systemd's slices, and a lock of root's for a take.

Nothing says who lives but the kernel: what runs at a board is a unit in the slice of its hold, with an account of its own,
and nothing but what it is handed (inner.py); only root writes beside it. RUN has, for each board, BOARD.lock, BOARD.last
(whose hold it was cleaned for last) and BOARD.shut.
"""
import contextlib
import dataclasses
import glob
import os
import pathlib
import secrets
import socket
import subprocess
import time
from typing import Any, Callable, Dict, Iterable, Iterator, List, NamedTuple, Sequence, TypeVar

from farm_access import opener
from farm_access.site import Lost, Refusal, Site
from fizgruk import calls, settings
from fizgruk._tools import disk
from fizgruk.errors import Refused, Unreachable

RUN = "/run/farm-access"
GROUPS = "/sys/fs/cgroup/farm.slice/farm-hold.slice"
INNER = os.path.join(os.path.dirname(os.path.abspath(__file__)), "inner.py")
DIES_WITHIN, LOCK_WITHIN, STARTS_WITHIN = 3.0, 60.0, 60.0
ANSWERS_WITHIN = 30.0  # a desk that takes longer is down; until then it is slow
BEGINS_WITHIN = 10.0  # seconds for which what is to begin asks again where nobody listens
AGAIN = 0.5
ADMIN, FREE = "admin", "none"
UNKNOWN = "?"
KILLED = 255  # (systemd-run's status where its unit was killed)
SLICE, SERVICE = ".slice", ".service"
GROUP = "farm-hold"  # of units of holds, and of nobody else
# (what a pump has are a few open files: it can make no socket, open no device, see no other process)
ALWAYS = f"""
 DynamicUser=yes Group={GROUP} UMask=0077 CapabilityBoundingSet= NoNewPrivileges=yes ProtectProc=invisible ProtectControlGroups=yes
 ProtectKernelTunables=yes ProtectKernelLogs=yes ProtectKernelModules=yes ProtectHome=yes ProtectClock=yes ProtectHostname=yes
 RestrictNamespaces=yes RestrictRealtime=yes LockPersonality=yes DevicePolicy=strict TemporaryFileSystem=/run:ro
 SystemCallArchitectures=native SystemCallFilter=@system-service SystemCallErrorNumber=EPERM KillMode=control-group
 KillSignal=SIGKILL SendSIGHUP=no TimeoutStopSec=1 TasksMax=64 MemoryMax=512M OOMPolicy=kill""".split()
PUMP = (
    "PrivateNetwork=yes", "SystemCallFilter=~socket connect bind listen socketpair ptrace", "MemoryDenyWriteExecute=yes",
    "ProcSubset=pid",
)
T = TypeVar("T")


# ---- the desk's side


class NoDesk(Refusal):
    """The desk gives no answer, or none that says it."""


class BoardSeen(NamedTuple):
    """A board in the desk's view. `hold` is who has it, acquired or running, or nothing."""

    name: str
    hold: str
    holder: str
    tags: Dict[str, str]

    def is_held_by(self, hold: str) -> bool:
        """Whether a hold goes on; admins have a free board until somebody gets it."""
        return self.hold == hold or (hold == ADMIN and self.holder == FREE)


class Lookout:
    """A desk's boards; several threads may ask at once."""

    def __init__(self, site: Site):
        self.own = settings.read_settings({**site.desk, "user": site.desk.get("user", "access")})

    def boards(self) -> Dict[str, BoardSeen]:
        """The boards, asked for now."""
        return self._told("/boards", lambda told: {it["name"]: _board_of(it) for it in told["boards"]})

    def owner_of(self, hold: str) -> str:
        """Whose a hold is; nothing where it has ended."""
        kind, _, number = hold.partition(" ")
        if kind == "job":
            return self._told(f"/jobs/{number}", lambda row: str(row["owner"]) if row["state"] == "Running" else "")
        return self._told("/reservations", lambda told: "".join(
            str(it["owner"]) for it in told["reservations"] if f"reservation {it['number']}" == hold
        ))

    def is_of_group(self, hold: str, group: int) -> bool:
        """Whether a hold is that of a job of this group, or of the one job that has its number."""
        kind, _, number = hold.partition(" ")
        return kind == "job" and self._told(f"/jobs/{number}", lambda row: int(row["group"])) == group

    def _told(self, path: str, takes: Callable[[Any], T]) -> T:
        desk = calls.Desk(dataclasses.replace(self.own, timeout=ANSWERS_WITHIN), patience=0)
        try:
            return takes(desk.look(path))
        except (Unreachable, Refused) as fault:
            raise NoDesk(f"no answer from the desk at {desk.server}: {fault}") from fault
        except (TypeError, KeyError, ValueError, AttributeError) as fault:
            raise NoDesk("the answer isn't a desk's") from fault
        finally:
            desk.close()


def asked_again(asks: Callable[[], T]) -> T:
    """What the desk answers. One that nobody listens for is asked again for a while, since it may just start."""
    return opener.again(BEGINS_WITHIN, AGAIN, asks, NoDesk)


def _board_of(row: Dict[str, Any]) -> BoardSeen:
    pairs = [it.partition("=") for it in row["tags"]]
    tags = {key: value for key, equals, value in pairs if equals}
    hold = row["holder"] if row["state"] == "Running" else ""
    return BoardSeen(row["name"], "" if hold == FREE else hold, row["holder"], tags)


# ---- names


def escaped(name: str) -> str:
    """A name as a part of a unit's, in which '-' parts what is above from what is below."""
    return name.replace("-", ":")


def slice_of(board: str, hold: str) -> str:
    """The slice of a hold: of reservation 7 at b1 farm-hold-b1-r7.slice; of admins at a free board farm-hold-b1-admin.slice."""
    kind, _, number = hold.partition(" ")
    return f"farm-hold-{escaped(board)}-{kind[0] + number if number else kind}{SLICE}"


def folder_of(board: str) -> str:
    return f"{GROUPS}/farm-hold-{escaped(board)}{SLICE}"


class Party(NamedTuple):
    """Which way a unit is, and who came to it by which key, by its mark; a job came by none."""

    way: str
    person: str = ""
    key: str = ""


def told_of(unit: str) -> Dict[str, object]:
    """Who has the way of a unit of this name, or path, and since when; nothing where it is a job."""
    words = os.path.basename(unit).split("-")
    if len(words) != 7 or not words[3]:
        return {}
    way, person, key, since = (it.replace(":", "-") for it in words[2:6])
    return {"person": person, "way": way, "since": int(since), "key": key}


# ---- the kernel's side


def kill(group: str, seconds: float = DIES_WITHIN) -> bool:
    """Kills all that a cgroup and those below it have. Returns whether nothing is left."""
    until = time.monotonic() + seconds
    with contextlib.suppress(OSError):
        pathlib.Path(group, "cgroup.kill").write_text("1", encoding="ascii")
        while "populated 0" not in pathlib.Path(group, "cgroup.events").read_text(encoding="ascii"):
            if time.monotonic() > until:
                return False
            time.sleep(0.005)
        return True
    return not os.path.exists(group)


def slices_of(board: str) -> List[str]:
    """The slices of a board's holds."""
    return [os.path.basename(it) for it in glob.glob(f"{folder_of(board)}/*{SLICE}")]


def units_of(board: str = "*") -> List[str]:
    """Each unit at a board, or at any, as a path."""
    return sorted(glob.glob(f"{folder_of(board)}/*{SLICE}/*{SERVICE}"))


def clear(board: str, keep: str) -> bool:
    """Kills what any other hold than that of the slice `keep` has at a board."""
    return all([kill(f"{folder_of(board)}/{it}") for it in slices_of(board) if it != keep])


# ---- a take


@contextlib.contextmanager
def locked(board: str) -> Iterator[None]:
    """Root's lock of a board: for a take, not for a hold."""
    lock = disk.take_lock_in_time(f"{RUN}/{board}.lock", LOCK_WITHIN)
    if lock is None:
        raise Refusal(f"{board}: somebody is taking it")
    try:
        yield
    finally:
        os.close(lock)


def last_of(board: str) -> str:
    """The hold for which a board was cleaned last; UNKNOWN after the machine's start."""
    found = disk.text_in(f"{RUN}/{board}.last")
    return UNKNOWN if found is None else found


@contextlib.contextmanager
def taken(lookout: Lookout, board: str, hold: str, between: Callable[[BoardSeen], None]) -> Iterator[Callable[[], BoardSeen]]:
    """Look, end what is left of others, clean up behind them; meanwhile what begins is in the hold's slice, where who
    comes next sees it. It looks again, by what this gives, before it has anything of the board."""

    def look() -> BoardSeen:
        seen = asked_again(lookout.boards).get(board)
        if seen is None or not seen.is_held_by(hold):
            raise Lost(f"{board}: the hold has ended")
        return seen

    with locked(board):
        clean(look(), hold, between)
        yield look


def clean(board: BoardSeen, hold: str, between: Callable[[BoardSeen], None]) -> None:
    """Cleans up behind all holds of a board but this one, under its lock. A board that can't be cleaned is shut, and
    stays so until it can be."""
    shut = f"{RUN}/{board.name}.shut"
    try:
        if not clear(board.name, slice_of(board.name, hold) if hold else ""):
            raise Refusal(f"{board.name} is shut: what a hold left can't be ended")
        if last_of(board.name) != hold:
            between(board)
            disk.write_whole(f"{RUN}/{board.name}.last", hold)
    except (OSError, Refusal):
        if not os.path.exists(shut):
            disk.write_whole(shut, str(int(time.time())))
        raise
    with contextlib.suppress(FileNotFoundError):
        os.unlink(shut)


# ---- units


class Unit(NamedTuple):
    """A unit that runs and waits for what it is handed; it ends with its door, which has the line to it."""

    child: "subprocess.Popen[bytes]"
    line: socket.socket
    group: str

    def hand(self, told: bytes, opened: Sequence[int]) -> None:
        socket.send_fds(self.line, [told], opened)

    def kill(self) -> None:
        kill(self.group)


def rights_of_command(devices: Sequence[str], networks: Sequence[str]) -> List[str]:
    """What a lab's command may: its board's devices, sockets, and addresses."""
    nodes = [it for it in devices if it.startswith("/dev/")]
    others = [it for it in devices if it not in nodes]
    found = [f"DeviceAllow={it} rw" for it in (*nodes, "/dev/null", "/dev/zero", "/dev/urandom")]
    found += [f"BindPaths={it}" for it in others]
    if not networks:
        return [*found, "PrivateNetwork=yes", "RestrictAddressFamilies=AF_UNIX"]
    families = "AF_INET AF_INET6" + " AF_UNIX" * bool(others)
    return [*found, f"RestrictAddressFamilies={families}", "IPAddressDeny=any", *(f"IPAddressAllow={it}" for it in networks)]


def begin(board: str, of_slice: str, rights: Sequence[str], party: Party) -> Unit:
    """Starts a unit, whose name tells the party."""
    ours, theirs = socket.socketpair()
    name = "-".join(["farm-way", *map(escaped, party), str(int(time.time())), f"{secrets.token_hex(6)}{SERVICE}"])
    words = ["systemd-run", "--quiet", "--collect", "--pipe", "--wait", f"--unit={name}", f"--slice={of_slice}"]
    words += [word for it in (*ALWAYS, *rights, f"Description=A way to {board}") for word in ("-p", it)]
    child = subprocess.Popen([*words, "/usr/bin/python3", "-IS", INNER], stdin=theirs.fileno(), stdout=subprocess.DEVNULL)
    theirs.close()
    ours.settimeout(STARTS_WITHIN)
    if ours.recv(1) != b"r":
        raise OSError("systemd starts no unit for the way")
    return Unit(child, ours, f"{folder_of(board)}/{of_slice}/{name}")


def drop(slices: Iterable[str]) -> None:
    """Lets go of slices in which nothing is left."""
    for it in slices:
        subprocess.run(["systemctl", "stop", "--no-block", it], check=False, stderr=subprocess.DEVNULL)
