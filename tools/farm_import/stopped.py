"""A farm's file that nobody serves, asked and told by the program, as the user who has its folder; and its two files, its
log beside it, set aside and put in place."""
import contextlib
import json
import os
import subprocess
import time
from typing import Any, Dict, Iterator

from fizgruk import calls
from fizgruk._tools import disk
from fizgruk._tools.farm_file import LOG, FarmFile, line_of
from fizgruk.errors import Refused

DONE, REFUSED = 0, 3
HEAD = "{} {} HTTP/1.1\r\nhost: farm\r\nx-user: admin\r\ncontent-length: {}\r\n\r\n"


class NoFarm(Exception):
    """The program doesn't open the file, or isn't there."""


@contextlib.contextmanager
def as_owner_of(db: str) -> Iterator[None]:
    """Lets root have no rights but those of whoever has the folder that a path names, who may have put links there that
    lead anywhere."""
    if os.geteuid() != 0:
        yield
        return
    about, groups = os.stat(os.path.dirname(os.path.abspath(db))), os.getgroups()
    os.setgroups([])
    os.setegid(about.st_gid)
    os.seteuid(about.st_uid)
    try:
        yield
    finally:
        os.seteuid(0)
        os.setegid(0)
        os.setgroups(groups)


@contextlib.contextmanager
def as_before() -> Iterator[None]:
    """Within `as_owner_of`, root again."""
    user, group = os.geteuid(), os.getegid()
    os.seteuid(os.getuid())
    os.setegid(os.getgid())
    try:
        yield
    finally:
        os.setegid(group)
        os.seteuid(user)


class StoppedFarm(FarmFile):
    """The file, and the program that opens it."""

    def order(self, *words: str) -> None:
        """Lets the program carry out an order over the file."""
        ran = self._run(words[0], "--db", self.db, *words[1:])
        if ran.returncode != DONE:
            raise NoFarm(f"farm {words[0]} of {self.db}: {_line(ran)}")

    def look(self, path: str) -> calls.Row:
        """What a view shows."""
        return self._asked("GET", path, b"")

    def tell(self, path: str, body: Dict[str, Any]) -> None:
        """Gives a command as the admin."""
        self._asked("POST", path, json.dumps(body).encode())

    def _asked(self, method: str, path: str, body: bytes) -> calls.Row:
        sent = HEAD.format(method, path, len(body)).encode() + body
        ran = self._run("once", "--db", self.db, "--at", str(int(time.time())), given=sent)
        head, _, said = ran.stdout.partition(b"\r\n\r\n")
        try:
            told: calls.Row = json.loads(said)
            if ran.returncode == DONE:
                return told
            if ran.returncode == REFUSED:
                raise Refused(int(head.split()[1]), told["code"], told["text"])
        except (ValueError, KeyError, IndexError):
            pass
        raise NoFarm(f"{self.db} can't be opened: {_line(ran)}")

    def _run(self, *words: str, given: bytes = b"") -> "subprocess.CompletedProcess[bytes]":
        owner: Dict[str, Any] = {"umask": 0o077}
        if os.getuid() != os.geteuid():  # (or it could be root again)
            owner.update({"user": os.geteuid(), "group": os.getegid()})
        try:
            return subprocess.run(
                [self.program, *words], input=given, capture_output=True, check=False, **owner
            )
        except OSError as fault:
            raise NoFarm(f"{self.program} can't be run: {fault.strerror}") from fault


def _line(ran: "subprocess.CompletedProcess[bytes]") -> str:
    return line_of(ran.stderr) or f"it ended with {ran.returncode}"


# ---- its two files: at no moment of this does a desk open one without its own log, which would be an older farm, or beside
# another's: a stop leaves the one farm, the other, or none that a desk opens


def set_aside(farm: FarmFile, place: str) -> None:
    """Gives a farm's files, its log first, another name each in a folder of the same file system. No desk opens
    files of two names."""
    there = os.path.join(place, os.path.basename(farm.db))
    if not os.path.exists(there):
        with contextlib.suppress(FileNotFoundError):
            os.unlink(f"{there}{LOG}")  # (of one that was stopped, and maybe not this log)
        for name, end in ((farm.log, LOG), (farm.db, "")):
            with contextlib.suppress(FileNotFoundError):
                os.link(name, f"{there}{end}")
            disk.sync_folder(place)


def is_begun_to_be_set_aside(farm: FarmFile) -> bool:
    """Whether a file of the farm has another name already, since which no desk has opened it."""
    return any(os.path.exists(it) and os.stat(it).st_nlink > 1 for it in (farm.log, farm.db))


def put_in_place(new: FarmFile, farm: FarmFile) -> None:
    """Gives a farm, in a folder of the same file system, the name of one that is set aside: one rename."""
    new.put_in_one()
    with contextlib.suppress(FileNotFoundError):
        os.unlink(farm.log)
    disk.sync_folder(farm.home)
    os.rename(new.db, farm.db)
    disk.sync_folder(farm.home)
