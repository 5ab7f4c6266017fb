"""What each tool does in one way: a signal that ends it is raised where it comes, a fault has an exit status, and what is
in the way of one that serves is told once and doesn't end it."""
import contextlib
import signal
import sys
import time
from types import FrameType
from typing import Callable, List, NoReturn, Optional, Sequence, Type

from fizgruk._tools import terminal
from fizgruk.errors import BadSettings, Refused, Unreachable
from fizgruk.words import BadFile

FAULT = 4  # the exit status where a file or the desk can't be used
SIGNALS = (signal.SIGINT, signal.SIGTERM, signal.SIGHUP, signal.SIGQUIT)
CAME: List[int] = []


# ---- what is told


class Teller:
    """Tells texts on standard error in a tool's name, a line each."""

    def __init__(self, program: str) -> None:
        self.program = program
        self.last = ""

    def __call__(self, text: str) -> None:
        with contextlib.suppress(OSError):  # (nobody is there to be told)
            print(f"{self.program}: {text}", file=sys.stderr, flush=True)

    def told(self, status: int, text: str) -> int:
        """Tells a text. Returns the exit status that goes with it."""
        self(text)
        return status

    def once(self, text: str) -> None:
        """Tells a text, unless it was the last that was told so."""
        if text != self.last:
            self.last = text
            self(text)


class Troubles:
    """Tells what is in the way of a tool that goes on, each trouble once while it lasts."""

    def __init__(self, tell: Callable[[str], None]) -> None:
        self.tell = tell
        self.last: Sequence[str] = ()

    def are(self, *found: str) -> None:
        """Tells those that are new; texts that say nothing are none."""
        troubles = [it for it in found if it]
        for it in troubles:
            if it not in self.last:
                self.tell(it)
        if self.last and not troubles:
            self.tell("it goes on")
        self.last = troubles


# ---- signals


class Interrupted(BaseException):
    """A signal came that ends the tool."""

    def __init__(self, number: int):
        super().__init__(number)
        self.status = 128 + number


def catch_signals() -> None:
    """Lets a signal that ends the tool be raised as Interrupted, once."""
    for number in SIGNALS:
        if signal.getsignal(number) != signal.SIG_IGN:
            signal.signal(number, interrupt)


def interrupt(number: int, _frame: Optional[FrameType]) -> None:
    ignore_signals()
    CAME.append(number)
    raise Interrupted(number)


def ignore_signals() -> None:
    """Lets nothing but SIGKILL end the tool from here on."""
    for each in SIGNALS:
        signal.signal(each, signal.SIG_IGN)


def check() -> None:
    """Raises again what came: Python drops what is raised while it ends an object."""
    if CAME:
        raise Interrupted(CAME[0])


# ---- what is done


def run(
    tell: Teller, work: Callable[[], int], *faults: Type[Exception], ended: str = "", bad_file: int = FAULT
) -> int:
    """Does a tool's work, from the reading of its words on. Returns its exit status, also where one of these faults ends
    it, or a signal: a tool serves until one comes, where `ended` doesn't say otherwise."""
    terminal.guard()
    try:
        catch_signals()
        return work()
    except Interrupted:
        return tell.told(FAULT, ended) if ended else 0
    except BadFile as fault:
        return tell.told(bad_file, str(fault))
    except (BadSettings, OSError) as fault:
        return tell.told(FAULT, str(fault))
    except faults as fault:
        return tell.told(FAULT, str(fault))


def rounds(tell: Callable[[str], None], every: float, work: Callable[[], str]) -> NoReturn:
    """Does a work again and again, so many seconds after it began before; it says what is in its way."""
    troubles = Troubles(tell)
    while True:
        begun = time.monotonic()
        troubles.are(hindrance(work))
        check()
        time.sleep(max(0.0, begun + every - time.monotonic()))


def hindrance(work: Callable[[], str]) -> str:
    """What is in the way of a work, as it says or as it raises it; nothing where it is done."""
    try:
        return work()
    except Refused as refusal:
        return f"the desk refuses: {refusal}"
    except Unreachable as fault:
        return f"no answer from the desk at {fault}"
    except OSError as fault:
        return str(fault)
