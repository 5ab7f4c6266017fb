"""A wait of the command's: its progress on standard error, and the farm's clock meanwhile."""
import contextlib
import math
import os
import sys
import time
from typing import Any, Callable, Dict, Optional, Set

from fizgruk import calls, limits, waiting
from fizgruk._tools import service, terminal
from fizgruk.desk import tell
from fizgruk.errors import Refused, Unreachable

QUIET = 30  # seconds without a pass, which comes every few seconds, that aren't told yet
EVERY = 5  # seconds between a client's looks
LONGEST_LOOK = 5.0
WIDTH = 80


class FarmClock:
    """Looks at a farm's clock while a command is done, and tells each trouble once.

    Each accepted command moves the clock, so the client's own are noted, and what is left are
    passes and what others do. A claim that free boards meet is given them by the next pass, so no
    pass comes while it waits."""

    def __init__(self, desk: calls.Desk):
        self.desk = desk.of_patience(0)
        self.desk.timeout = min(desk.timeout, LONGEST_LOOK)
        self.told: Set[str] = set()
        self.own = 0
        self.others: Optional[int] = None
        self.moved = 0.0
        self.met: Optional[float] = None
        self.due = 0.0

    @property
    def has_looked(self) -> bool:
        return self.due > 0

    def note_own(self) -> None:
        """Notes that the client gave a command that was accepted."""
        self.own += 1

    def note_met(self, is_met: bool) -> None:
        """Notes whether a claim that waits is met by free boards."""
        if not is_met:
            self.met = None
        elif self.met is None:
            self.met = time.monotonic()

    def note_shown(self, status: Dict[str, Any], is_idle: bool) -> None:
        """Notes a status that was looked at for what is shown; that nothing there waits for a pass is noted too, and then
        nobody asks whether one comes."""
        if status:
            self.see(status)
        elif is_idle:
            self.due = math.inf

    def look(self, teller: Callable[[str], None] = tell) -> None:
        """Looks, where it is time to, and tells what it sees; a desk that gives no answer tells
        that elsewhere. Raises NoDesks where what answers is no desk."""
        if time.monotonic() < self.due:
            return
        self.due = time.monotonic() + EVERY
        try:
            self.see(self.desk.look("/status"), teller)
        except calls.NoDesks:
            raise
        except (Unreachable, Refused):
            return

    def see(self, status: Dict[str, Any], teller: Callable[[str], None] = tell) -> None:
        """Tells what a status says, which isn't looked at again so soon."""
        self.due = time.monotonic() + EVERY
        ahead, quiet = limits.clock_ahead(status, limits.NO_END), self._quiet(status)
        for about, text in (("ahead", ahead), ("quiet", quiet)):
            if text and about not in self.told:
                self.told.add(about)
                teller(text)

    def _quiet(self, status: Dict[str, Any]) -> str:
        """That no pass has come for long, or nothing."""
        others = status["count"] - self.own
        if self.others is None:
            self.moved = time.monotonic() - max(0.0, time.time() - status["clock"])
        elif others != self.others:
            self.moved = time.monotonic()
        self.others = others
        since = self.moved if self.met is None else min(self.moved, self.met)
        quiet = time.monotonic() - since
        if quiet <= QUIET:
            return ""
        long = f"for {limits.words_of(quiet)}" if status["clock"] else "yet"
        return f"no pass {long}: is farm-dispatch running?"


class Progress:
    """What a wait has come to, on standard error: a text that changes on a terminal, elsewhere a
    line a change."""

    def __init__(self) -> None:
        self.terminal = sys.stderr.isatty()
        self.begun = time.monotonic()
        self.shown = ""
        self.rows = 0

    def show(self, text: str) -> None:
        if self.terminal:
            waited = int(time.monotonic() - self.begun)
            line = f"{text} ({waited} s)"
            terminal.write_own(sys.stderr, self._erased())
            print(line, end="", file=sys.stderr, flush=True)
            self.rows = -(-len(line) // columns())
        elif text != self.shown:
            print(text, file=sys.stderr, flush=True)
        self.shown = text

    def tell(self, text: str) -> None:
        """Tells what stays, on a line of its own."""
        terminal.write_own(sys.stderr, self._erased())
        print(f"desk: {text}", file=sys.stderr, flush=True)

    def end(self) -> None:
        """Clears what a terminal shows."""
        with contextlib.suppress(OSError):  # (the terminal is gone)
            terminal.write_own(sys.stderr, self._erased())
            sys.stderr.flush()

    def _erased(self) -> str:
        """What erases the rows that a terminal shows of it."""
        rows, self.rows = self.rows, 0
        up = f"\033[{rows - 1}A" if rows > 1 else ""
        return f"\r{up}\033[J" if rows else ""


def columns() -> int:
    """How wide the terminal of standard error is."""
    try:
        return os.get_terminal_size(sys.stderr.fileno()).columns or WIDTH
    except OSError:
        return WIDTH


class Checked(waiting.Wait):
    """A wait until a signal comes."""

    def pause(self) -> None:
        service.check()
        super().pause()


class ShownWait(Checked):
    """A wait that shows its progress."""

    def __init__(self, desk: calls.Desk, clock: FarmClock, every: float) -> None:
        super().__init__(desk, "", None, every, print)
        self.clock = clock
        self.progress = Progress()

    def say(self, text: str) -> None:
        self.progress.show(text)

    def note_own(self) -> None:
        self.clock.note_own()

    def note_met(self, is_met: bool) -> None:
        self.clock.note_met(is_met)

    def note_look(self) -> None:
        self.clock.look(self.progress.tell)

    def __enter__(self) -> "ShownWait":
        return self

    def __exit__(self, *_: object) -> None:
        self.progress.end()
