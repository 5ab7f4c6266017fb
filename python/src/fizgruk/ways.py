"""The ways to a board that one holds: its console, its power, its network, by ssh(1) to the lab's
farm-access."""
import contextlib
import os
import re
import shlex
import subprocess
import threading
import time
from typing import IO, List, Optional, Pattern, Sequence, Union

from fizgruk import settings
from fizgruk.errors import FizgrukError, HoldLost, TimedOut

PORT, ACCOUNT = 2222, "board"
BLOCK = 65536
KEPT = 1_000_000  # bytes of a console that are looked through
ENDS_WITHIN = 10.0
LOST = 6  # a status of farm-access(8)
# A board's own keys change with what runs on it, and farm-access says which board it is.
FOR_BOARDS = (
    "StrictHostKeyChecking=no", "UserKnownHostsFile=/dev/null", "GlobalKnownHostsFile=/dev/null",
    "LogLevel=ERROR", "ForwardAgent=no",
)
Sought = Union[str, Pattern[str]]


class NoWay(FizgrukError):
    """farm-access refuses a way to a board, or it doesn't answer."""


def destination(access: Optional[str] = None, server: Optional[str] = None) -> str:
    """Where ssh(1) goes for boards: what is given, or said by the settings, or the desk's host."""
    said = access or settings.access_of({})
    return said or way_of(None, server or settings.read_settings({}).server)


def way_of(access: Optional[str], server: str) -> str:
    """Where ssh(1) goes for the boards of a desk: what its own settings say, or its host."""
    if access:
        return access
    host = settings.address_of(server).hostname or ""
    return f"ssh://{ACCOUNT}@{f'[{host}]' if ':' in host else host}:{PORT}"


def words_of(to: str, board: str, *words: str, options: Sequence[str] = ("-T",)) -> List[str]:
    """The command that goes a board's way."""
    return ["ssh", *options, "--", to, board, *words]


def ssh_words(to: str, board: str, words: Sequence[str], user: str = "root", port: int = 22) -> List[str]:
    """The command that goes to a board's own sshd, by farm-access."""
    proxy = shlex.join(words_of(to, board, "tcp", str(port))).replace("%", "%%")
    options = [f"ProxyCommand={proxy}", *FOR_BOARDS]
    more = [it for option in options for it in ("-o", option)]
    return ["ssh", *more, "--", f"{user}@{board}", *words]


class Ways:
    """The ways to a board."""

    name: str  # the board's
    to: str  # where ssh(1) goes; nothing where the settings say it

    def console(self) -> "Console":
        """The board's console, for a `with`."""
        return Console(self.name, self.to or destination())

    @property
    def power(self) -> "Power":
        return Power(self.name, self.to or destination())

    def ssh(
        self, *words: str, user: str = "root", port: int = 22, timeout: Optional[float] = None
    ) -> "subprocess.CompletedProcess[str]":
        """What a command on the board prints, which its shell takes as one line; its status isn't
        looked at."""
        return _ran(ssh_words(self.to or destination(), self.name, words, user, port), timeout)


class Power:
    """A board's power. A call returns once it is done."""

    def __init__(self, board: str, to: str) -> None:
        self.board, self.to = board, to

    def on(self) -> None:
        self._do("on")

    def off(self) -> None:
        self._do("off")

    def cycle(self) -> None:
        self._do("cycle")

    def status(self) -> str:
        """What the lab's command says of it."""
        return self._do("status").strip()

    def _do(self, verb: str) -> str:
        ran = _ran(words_of(self.to, self.board, "power", verb, options=("-T", "-n")), None)
        if ran.returncode:
            raise fault_of(ran.returncode, ran.stderr)
        return ran.stdout


class Console:
    """A board's console, as expect(1) has one: what is sent, and what is waited for, each for so many
    seconds at most. What came before is `before`."""

    def __init__(self, board: str, to: str) -> None:
        self.board = board
        self.before = ""
        self._words = words_of(to, board, "console")
        self._process: Optional["subprocess.Popen[bytes]"] = None
        self._reader: Optional[threading.Thread] = None
        self._came = threading.Condition()
        self._said = b""
        self._told = b""  # why it ended
        self._is_over = False

    def __enter__(self) -> "Console":
        self._process = subprocess.Popen(
            self._words, stdin=subprocess.PIPE, stdout=subprocess.PIPE, stderr=subprocess.PIPE
        )
        self._reader = threading.Thread(target=self._read, args=(self._process.stdout,), daemon=True)
        self._reader.start()
        return self

    def __exit__(self, *_: object) -> None:
        self.close()

    def close(self) -> None:
        """Leaves the console."""
        if self._process is None:
            return
        self._process.terminate()
        try:
            self._process.wait(ENDS_WITHIN)
        except subprocess.TimeoutExpired:
            self._process.kill()
            self._process.wait()
        if self._reader:
            # (a descriptor that it reads from isn't to become another file's)
            self._reader.join(ENDS_WITHIN)
        for stream in (self._process.stdin, self._process.stdout, self._process.stderr):
            if stream:
                with contextlib.suppress(OSError):  # (what was typed last isn't taken any more)
                    stream.close()
        self._process = None

    def send(self, text: Union[str, bytes]) -> None:
        """Types a text."""
        process = self._began()
        said = text.encode() if isinstance(text, str) else text
        try:
            assert process.stdin
            process.stdin.write(said)
            process.stdin.flush()
        except OSError as fault:
            raise self._fault() from fault

    def send_line(self, text: str = "") -> None:
        """Types a line."""
        self.send(f"{text}\r")

    def expect(self, *sought: Sought, timeout: float = 30.0) -> int:
        """Waits until the console says one of these, texts or compiled patterns. Returns which of
        them it was, counted from 0; what it said before is in `before`. What came up to its end
        isn't looked through again. Raises TimedOut, HoldLost where the board is lost, and NoWay."""
        self._began()
        until = time.monotonic() + timeout
        with self._came:
            while True:
                found = self._found(sought)
                if found is not None:
                    return found
                left = until - time.monotonic()
                if self._is_over or left <= 0:
                    break
                self._came.wait(left)
        if self._is_over:
            raise self._fault()
        last = self._said.decode(errors="replace")[-200:]
        raise TimedOut(f"{self.board} hasn't said {sought} within {timeout:g} s; it said {last!r}")

    def _found(self, sought: Sequence[Sought]) -> Optional[int]:
        """Which stands first in what was said, which is cut off behind it."""
        text = self._said.decode(errors="surrogateescape")
        firsts = []
        for place, it in enumerate(sought):
            pattern = re.compile(re.escape(it)) if isinstance(it, str) else it
            match = pattern.search(text)
            if match:
                firsts.append((match.start(), place, match.end()))
        if not firsts:
            return None
        begin, which, end = min(firsts)
        self.before = text[:begin].encode(errors="surrogateescape").decode(errors="replace")
        self._said = text[end:].encode(errors="surrogateescape")
        return which

    def _began(self) -> "subprocess.Popen[bytes]":
        if self._process is None:
            raise FizgrukError("a console is used within a with")
        return self._process

    def _read(self, stream: IO[bytes]) -> None:
        while True:
            try:
                said = os.read(stream.fileno(), BLOCK)
            except (OSError, ValueError):
                said = b""
            with self._came:
                self._said = (self._said + said)[-KEPT:]
                self._is_over = not said
                self._came.notify_all()
            if not said:
                return

    def _fault(self) -> FizgrukError:
        """Why the console has ended."""
        process = self._began()
        try:
            status = process.wait(ENDS_WITHIN)
            self._told = self._told or (process.stderr.read(BLOCK) if process.stderr else b"")
        except subprocess.TimeoutExpired:
            return NoWay(f"the console of {self.board} doesn't answer")
        return fault_of(status, self._told.decode(errors="replace"))


def fault_of(status: int, told: str) -> FizgrukError:
    """What a status of farm-access's means."""
    text = " ".join("".join(it if it.isprintable() else " " for it in told).split())[-500:]
    return HoldLost(text) if status == LOST else NoWay(text or f"status {status}")


def _ran(words: Sequence[str], timeout: Optional[float]) -> "subprocess.CompletedProcess[str]":
    try:
        return subprocess.run(
            words, stdin=subprocess.DEVNULL, capture_output=True, encoding="utf-8",
            errors="replace", timeout=timeout, check=False,
        )
    except subprocess.TimeoutExpired as late:
        raise TimedOut(f"{words[-1]}: not within {timeout:g} s") from late
    except OSError as fault:
        raise NoWay(f"{words[0]}: {fault}") from fault
