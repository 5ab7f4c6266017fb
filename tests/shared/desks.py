"""What the tests of the client share: its calls, and what they give it."""
from __future__ import annotations

import contextlib
import fcntl
import functools
import json
import os
import pty
import re
import select
import struct
import subprocess
import sys
import tempfile
import termios
from typing import Dict, List, Sequence, Tuple, Union

from served import LASTING, PATIENCE, STARTED, TOOLS, Board, Farm, Tool, environment, read, wait_until

SHARED = os.path.dirname(os.path.abspath(__file__))
DESK = os.path.join(TOOLS, "desk")
BOARDS: List[Board] = [("b1", "bbb", ["hdmi", "serial"]), ("b2", "bbb", ["serial"]), ("c1", "ccc", [])]
JOB = "job_name = 'one'\ndevice_type = 'bbb'\n"
GROUP = "job_name = 'two'\n[roles.a]\ndevice_type = 'bbb'\ncount = 2\n"
LIMIT = 120  # seconds in which a call ends on a busy machine
Ran = Tuple[int, str, str]  # status, output and errors
SLOW = re.compile(r"desk: no pass for (\d+ seconds|\d minutes?( \d+ seconds?)?): is farm-dispatch running\?\r?\n")


def at_ease(errors: str) -> str:
    """What the client tells on a machine that isn't so slow that half a minute goes by between two commands."""
    return SLOW.sub("", errors)


class Starter:
    """A process that runs calls of the client in copies of itself (starter.py)."""

    def __init__(self) -> None:
        words = [sys.executable, os.path.join(SHARED, "starter.py"), DESK, "fizgruk.desk.main"]
        self.process = subprocess.Popen(
            words, stdin=subprocess.PIPE, stdout=subprocess.PIPE, text=True, env=environment()
        )
        LASTING.append(self.process)

    def call(self, words: Sequence[str], surroundings: Dict[str, str], given: str) -> Ran:
        """What comes of a call."""
        assert self.process.stdin and self.process.stdout
        with tempfile.TemporaryDirectory() as folder:
            files = [write(folder, name, text) for name, text in (("in", given), ("out", ""), ("err", ""))]
            try:
                self.process.stdin.write(f"{json.dumps([words, surroundings, files])}\n")
                self.process.stdin.flush()
                ended = select.select([self.process.stdout], [], [], LIMIT)[0]
                assert ended, f"desk {' '.join(words)}: not within {LIMIT} s"
                status = int(self.process.stdout.readline())
            except BaseException:
                # (its status would be taken for the next call's)
                self.process.kill()
                starter.cache_clear()
                raise
            return status, read(files[1]), at_ease(read(files[2]))


@functools.lru_cache(None)
def starter() -> Starter:
    return Starter()


def around(farm: Union[Farm, str], user: str = "ann", **more: str) -> Dict[str, str]:
    """The environment of a user of a farm, or of a server at an address. (What Python reads of it is left out.)"""
    server = farm if isinstance(farm, str) else farm.server
    found = environment(DESK_SERVER=server, DESK_USER=user, **more)
    return {name: text for name, text in found.items() if name != "PYTHONUNBUFFERED"}


def desk(farm: Union[Farm, str], *words: str, given: str = "", user: str = "ann", **more: str) -> Ran:
    """What the client comes to."""
    return starter().call(words, around(farm, user, **more), given)


def prints(farm: Farm, wanted: str, *words: str, given: str = "", **more: str) -> None:
    """Demands that the client prints this, and tells nothing."""
    assert desk(farm, *words, given=given, **more) == (0, wanted, ""), f"desk {' '.join(words)}"


def passes(farm: Farm) -> None:
    farm.tell("dispatcher", "/pass")


def waiting_tool(farm: Farm, folder: str, *words: str, **more: str) -> Tool:
    """A client that goes on."""
    return Tool(["desk", *words], tempfile.mkdtemp(dir=folder), **around(farm, **more))


def number_of(tool: Tool) -> int:
    """The number that a client prints at first."""
    return int(wait_until("its number", tool.output).split()[0])


def waits(tool: Tool) -> None:
    """Waits until a client tells that it waits in the queue."""
    wait_until("it waits", lambda: "in the queue" in tool.errors())


def at_a_terminal(farm: Farm, *words: str, width: int = 0) -> Tuple["subprocess.Popen[bytes]", int]:
    """A client at a terminal of its own: its process, and the terminal's other end."""
    ours, its = pty.openpty()
    fcntl.ioctl(its, termios.TIOCSWINSZ, struct.pack("HHHH", 24, width, 0, 0))
    process = subprocess.Popen(
        [sys.executable, DESK, *words], stdin=its, stdout=its, stderr=its, env=around(farm), start_new_session=True,
        preexec_fn=lambda: fcntl.ioctl(0, termios.TIOCSCTTY, 0),
    )
    STARTED.append(process)
    os.close(its)
    return process, ours


def read_until(line: int, wanted: bytes) -> bytes:
    """What a client writes on its terminal, until this pattern is among it."""
    said = b""
    while not re.search(wanted, said):
        assert select.select([line], [], [], PATIENCE)[0], f"{wanted!r} doesn't come, only {said!r}"
        said += os.read(line, 4096)
    return said


def rest_of(line: int) -> bytes:
    """What a client writes on its terminal from now on, which ends with it."""
    said = b""
    with contextlib.suppress(OSError):  # (which is how a terminal ends that nobody has any more)
        while chunk := os.read(line, 4096):
            said += chunk
    os.close(line)
    return said


def write(folder: str, name: str, text: str, mode: int = 0o644) -> str:
    file = os.path.join(folder, name)
    with open(file, "w", encoding="utf-8") as opened:
        opened.write(text)
    os.chmod(file, mode)
    return file


def tell_at(farm: Farm, moment: float, user: str, path: str, body: bytes = b"") -> None:
    """Gives a farm a command at a moment while it isn't served, and serves it again."""
    farm.kill()
    farm.tell_at(moment, user, path, body)
    farm.start()
