"""A reservation from its asking to its end: a board that is reserved, waited for, acquired, and given back whatever
happens, in a `with`; and a thread that looks at the hold meanwhile, and interrupts the block where its board is lost."""
import atexit
import contextlib
import logging
import os
import signal
import threading
import time
from types import FrameType, TracebackType
from typing import Any, Callable, Dict, List, Optional, Sequence, Set, Type, Union

from fizgruk import calls, wants, ways
from fizgruk.calls import Desk, fresh_key, number_of
from fizgruk.errors import Code, FizgrukError, HoldLost, NotGivenBack, Refused, Unreachable
from fizgruk.models import Board
from fizgruk.waiting import LEASE, Tell, Wait, wait_for_board, with_end_told

LOG = logging.getLogger("fizgruk")
EVERY = 2.0  # seconds between two looks
SIGNAL: Optional[int] = getattr(signal, "SIGURG", None)  # Windows has none
# Where nothing is interrupted: what ends a hold, and what tells its loss.
NEVER_IN = ("fizgruk.holding", "fizgruk.pytest_plugin")
MOST_INTERRUPTS = 1000
OPEN: Set["Hold"] = set()
# For so many seconds it is tried to give a board back.
GIVES_UP = 60.0
PAUSE = 1.0
# What a reservation that has ended, and so holds nothing, is refused for.
NONE_HELD = (Code.RESERVATION_EXPIRED, Code.WRONG_RESERVATION_STATE, Code.NO_SUCH_RESERVATION)
Priority = Union[int, str, None]


def priority_of(text: str) -> Union[int, str]:
    """The priority that a word names."""
    return int(text) if text.isascii() and text.isdigit() else text


class Reservation:
    """A reservation of one's own, from its asking to its end."""

    def __init__(self, desk: Desk, tags: Optional[Sequence[str]], priority: Priority) -> None:
        self.desk = desk
        self.tags = tags
        self.number: Optional[int] = None
        self.board = ""  # what it has acquired
        self.is_lost = False  # whether it had ended before its board was given back
        self._body: Dict[str, Any] = {"tags": None if tags is None else list(tags)}
        if priority is not None:
            self._body["priority"] = priority
        self._is_refused = False
        self._key, self._cancel_key = fresh_key(), fresh_key()
        self._until: Optional[float] = None

    def ask(self, desk: Optional[Desk] = None) -> int:
        """Reserves. Asked again, it is the same reservation."""
        try:
            said = (desk or self.desk).tell("/reservations", self._body, self._key)
            self.number = number_of(self.desk, said)
        except Refused as refusal:
            self._is_refused = True
            if refusal.code == Code.NO_SUCH_BOARDS and self.tags is not None:
                raise wants.explained(self.desk, refusal, [wants.Want("", tuple(self.tags))])
            raise
        return self.number

    def acquire(self, board: str) -> None:
        """Makes the board that it was given its owner's."""
        desk, path = self.desk.of_patience(LEASE), f"/reservations/{self.number}/acquire"
        with_end_told(self.number or 0, lambda: desk.tell(path, key=fresh_key()))
        self.board = board

    def give_back(self) -> None:
        """Cancels it, so that its board is free, and tries so for a minute, under one key however
        often it is called. One without a number may have been made, and its answer lost: it is
        asked for once more. Raises NotGivenBack where it is left."""
        if self._is_refused:
            return
        desk = self.desk.of_patience(0)
        self._until = self._until or time.monotonic() + GIVES_UP
        is_told = False
        while True:
            try:
                number = self.number or self.ask(desk)
                desk.tell(f"/reservations/{number}/cancel", key=self._cancel_key)
                return
            except Refused as refusal:
                if self.number is None:
                    return  # there is none
                if refusal.code in NONE_HELD:
                    self.is_lost = bool(self.board)
                    return
                raise NotGivenBack(f"{refusal}: {self._left()}") from refusal
            except Unreachable as silence:
                if self.number is None or time.monotonic() > self._until:
                    raise NotGivenBack(f"{silence.trouble}: {self._left()}") from silence
                if not is_told:
                    self.desk.tell_trouble(silence.trouble)
                is_told = True
            time.sleep(PAUSE)

    def _left(self) -> str:
        if self.number is None:
            return "a reservation may be left, which ends by itself within two minutes"
        return f"reservation {self.number} is left: desk cancel-reservation {self.number}"


# ---- whether it is held still


class HoldWatch:
    """Looks whether a reservation still holds its board, until it doesn't.

    A look is one view of the boards, of which a farm has 256 at most (42 kB, some 10 ms), over
    a connection of its own, which no other thread uses; that of the reservations, which has all that
    ever were, is asked for once, at a loss. A look that isn't answered finds nothing: while the desk
    is away no hold changes.
    """

    def __init__(self, desk: Desk, board: str, number: int) -> None:
        self._desk = desk.alone()
        self._board = board
        self._number = number
        self._is_over = threading.Event()
        self.lost = ""

    def begin(self) -> None:
        """Begins to look."""
        threading.Thread(target=self._look_on, name="fizgruk", daemon=True).start()

    def end(self) -> None:
        """Ends it: nobody is woken from here on."""
        self._is_over.set()

    def note(self, lost: str) -> None:
        """Notes that the board is lost, where it is."""
        self.lost = lost

    def wake(self) -> bool:
        """Wakes who waits for a loss. Returns whether that is to be done again."""
        return False

    def _look_on(self) -> None:
        if hasattr(signal, "pthread_sigmask"):  # the main thread is to have them
            signal.pthread_sigmask(signal.SIG_BLOCK, signal.valid_signals())
        while not self._is_over.wait(EVERY):
            if not self.lost:
                self.note(self._look())
            if self.lost and not self.wake():
                break
        self._desk.close()

    def _look(self) -> str:
        try:
            boards = calls.rows_of(self._desk, "boards")
        except FizgrukError:
            return ""
        held = (self._board, f"reservation {self._number}")
        return "" if any((it["name"], it["holder"]) == held for it in boards) else self.text()

    def text(self) -> str:
        """That the board is lost, and how, as far as the desk says it."""
        how = "has ended"
        with contextlib.suppress(FizgrukError):
            rows = calls.rows_of(self._desk, "reservations")
            states = [it["state"] for it in rows if it["number"] == self._number]
            how = f"is {states[0]}" if states else "is unknown"
        return f"board {self._board} is lost: reservation {self._number} {how}"


# ---- a block that is interrupted


class Interrupt(KeyboardInterrupt):
    """The block of a board that is lost is interrupted."""


class BlockWatch(HoldWatch):
    """Interrupts the main thread's block at a loss, again and again until it is told.

    The interrupt is SIGURG, to which a program does nothing by itself, so that one that comes late
    does no harm, and Ctrl-C stays the user's own. Its handler raises a kind of KeyboardInterrupt,
    which a block doesn't take for one of its own errors, and which `Hold` turns into HoldLost.
    """

    interrupts = True  # whether the block may be interrupted just now
    is_told = False  # whether it was

    def __init__(
        self, desk: Desk, board: str, number: int, on_loss: Callable[[], object] = lambda: None
    ) -> None:
        super().__init__(desk, board, number)
        self._on_loss = on_loss

    def begin(self) -> None:
        """Begins to look. The block is interrupted where it is the main thread's, and the program
        has no use of its own for the signal."""
        if threading.current_thread() is threading.main_thread() and _handles_signal():
            WATCHED.append(self)
        super().begin()

    def end(self) -> None:
        if self in WATCHED:
            WATCHED.remove(self)
        super().end()

    def note(self, lost: str) -> None:
        super().note(lost)
        if lost:
            LOG.error("%s", lost)
            self._on_loss()

    def wake(self) -> bool:
        main = threading.main_thread().ident
        if self.is_told or self not in WATCHED or SIGNAL is None or main is None:
            return False
        signal.pthread_kill(main, SIGNAL)
        return True


WATCHED: List[BlockWatch] = []


def _handles_signal() -> bool:
    """Whether the signal is this module's from here on."""
    if SIGNAL is None:
        return False
    found: Any = signal.getsignal(SIGNAL)
    if found not in (signal.SIG_DFL, signal.SIG_IGN, interrupt):
        return False
    signal.signal(SIGNAL, interrupt)
    return True


def interrupt(_number: int, frame: Optional[FrameType]) -> None:
    """Raises what tells the main thread of a loss, once for each. What isn't to be interrupted just
    now is later."""
    __tracebackhide__ = True  # pytest shows where the block was
    if frame is not None and frame.f_globals.get("__name__") in NEVER_IN:
        return
    for it in WATCHED:
        if it.lost and it.interrupts and not it.is_told:
            it.is_told = True
            raise Interrupt(it.lost)


# ---- what Client.board gives


class Hold:
    """What `Client.board` gives: within it the board is acquired."""

    def __init__(
        self, desk: Desk, tags: Sequence[str], priority: Priority, timeout: Optional[float],
        every: float, tell: Tell,
    ) -> None:
        self._desk = desk
        self._tags = tags
        self._timeout = timeout
        self._every = every
        self._tell = tell
        self._reservation = Reservation(desk, tags, priority)
        self._process = 0
        self.watch: Optional[BlockWatch] = None
        self.on_loss: Callable[[], object] = lambda: None  # called in the thread that finds it

    @property
    def lost(self) -> str:
        """Why the board isn't yours any more, or nothing."""
        return self.watch.lost if self.watch else ""

    def __enter__(self) -> Board:
        if self._process:
            raise FizgrukError("each `with` reserves anew: call board() again")
        self._process = os.getpid()
        OPEN.add(self)
        try:
            return self._acquired()
        except BaseException as fault:
            self.end(fault)
            self._raise_loss(fault)
            raise

    def __exit__(
        self, kind: Optional[Type[BaseException]], fault: Optional[BaseException],
        trace: Optional[TracebackType],
    ) -> None:
        self.end(fault)
        self._raise_loss(fault)

    def _raise_loss(self, fault: Optional[BaseException]) -> None:
        """Raises that the board was lost, in the place of what came of that; what ends the program
        goes on."""
        if not self.lost:
            return
        if fault is None or isinstance(fault, (Exception, Interrupt)):
            raise HoldLost(self.lost) from fault

    def _acquired(self) -> Board:
        number = self._reservation.ask()
        what = " ".join(["no board", *(["with"] if self._tags else []), *self._tags])
        wait = Wait(self._desk, what, self._timeout, self._every, self._tell)
        board = wait_for_board(wait, number, self._tags)
        self._reservation.acquire(board["name"])
        self.watch = BlockWatch(self._desk, board["name"], number, self.on_loss)
        self.watch.begin()
        to = ways.way_of(self._desk.access, self._desk.server)
        return Board(board["name"], board["type"], tuple(board["tags"]), number, to)

    def end(self, fault: Optional[BaseException] = None) -> None:
        """Gives the board back, also where the program is interrupted again and again: what comes
        meanwhile is raised once it is done. `fault` is why it ends, if it isn't over by itself; a
        board that can't be given back is raised only where there is no such reason. A child of the
        process that reserved it gives nothing back."""
        if not self.is_own():
            return
        if self.watch:
            self.watch.end()
        came: Optional[BaseException] = None
        for _ in range(MOST_INTERRUPTS):
            try:
                self._reservation.give_back()
                self._note_loss()
                break
            except NotGivenBack as left:
                OPEN.discard(self)
                if fault is None and came is None:
                    raise
                LOG.error("%s", left)
                break
            except BaseException as it:
                came = it
        OPEN.discard(self)
        if came is not None:
            raise came

    def is_own(self) -> bool:
        """Whether this process reserved it."""
        return self._process == os.getpid()

    def _note_loss(self) -> None:
        """Notes that the reservation had ended before its board was given back."""
        if self._reservation.is_lost and self.watch and not self.watch.lost:
            self.watch.note(self.watch.text())


@atexit.register
def end_all() -> None:
    """Gives back what a `with` that was cut off in its midst left. The program ends, so that it is
    interrupted meanwhile is no news to anybody."""
    for _ in range(MOST_INTERRUPTS):
        try:
            for it in [it for it in OPEN if it.is_own()]:
                it.end()
            return
        except FizgrukError as fault:
            LOG.error("%s", fault)
        except BaseException:  # pylint: disable=broad-except
            continue
