"""The command that runs with a board, which is given back whatever happens; where its board is lost
it is ended, with all that descends from it."""
import argparse
import contextlib
import os
import shutil
import signal
import subprocess
import threading
import time
from typing import Any, Dict, NamedTuple, Sequence, Set, Tuple

from fizgruk import calls
from fizgruk._tools.service import SIGNALS, Interrupted, check
from fizgruk.desk import tell, waiting
from fizgruk.errors import FizgrukError, NotGivenBack
from fizgruk.holding import HoldWatch, Reservation
from fizgruk.waiting import wait_for_board

# ---- the processes of this machine, as /proc shows them
GRACE = 10.0  # seconds between SIGTERM and SIGKILL
LEAVES = 5.0  # seconds after which what doesn't end by that is left, as another user's process
PAUSE = 0.1
Known = Tuple[int, str]  # a process's number, and when it began
OF_ITSELF, NOT_RUN, NOT_FOUND = 125, 126, 127
# Signals that keys of a terminal stand for, and the code of those that the system sends.
KEYS, SI_KERNEL = (signal.SIGINT, signal.SIGQUIT), 0x80


class Process(NamedTuple):
    """A process that lives: its parent, and when it began, in ticks since the boot. A number alone is
    given again."""

    parent: int
    began: str


def living_now() -> Dict[int, Process]:
    """Those that live, by their numbers; none where the system has no /proc."""
    found: Dict[int, Process] = {}
    for name in filter(str.isdigit, os.listdir("/proc") if os.path.isdir("/proc") else []):
        with contextlib.suppress(OSError), open(f"/proc/{name}/stat", "rb") as stat:
            fields = stat.read().decode(errors="replace").rpartition(")")[2].split()
            if len(fields) > 19 and fields[0] not in ("Z", "X"):
                found[int(name)] = Process(int(fields[1]), fields[19])
    return found


def with_below(tops: Set[int], among: Dict[int, Process]) -> Set[int]:
    """These, and all among those that live which descend from them."""
    found: Set[int] = set()
    newest = tops
    while newest:
        found |= newest
        newest = {pid for pid, process in among.items() if process.parent in newest} - found
    return found


class CommandWatch(HoldWatch):
    """Wakes the main thread by SIGCHLD, which that waits for, once the board is lost."""

    def wake(self) -> bool:
        main = threading.main_thread().ident
        if main is not None:
            signal.pthread_kill(main, signal.SIGCHLD)
        return False


# ---- the end of a command


def end(child: "subprocess.Popen[Any]") -> None:
    """Ends a command and what it started: all that descend from it are sent SIGTERM, and those that
    live on after the grace SIGKILL. They are in this process's own group, where the terminal's keys
    reach them, so that is no way to tell them apart."""
    until = time.monotonic() + GRACE
    numbers: Sequence[int] = (signal.SIGTERM, signal.SIGCONT)  # what a terminal stopped takes the other one then
    known = living_of(child, set())
    while known or child.poll() is None:
        for number in numbers:
            for pid in sorted(pid for pid, _ in known if pid != child.pid):
                with contextlib.suppress(OSError):  # it may end meanwhile, or be another user's
                    os.kill(pid, number)
            child.send_signal(number)
        if time.monotonic() >= until + LEAVES:
            return
        time.sleep(PAUSE)
        numbers = (signal.SIGKILL,) if time.monotonic() >= until else ()
        known = living_of(child, known)


def living_of(child: "subprocess.Popen[Any]", known: Set[Known]) -> Set[Known]:
    """A command and all that descend from it, of those that live. One that was known before is so also
    once its parent has ended."""
    living = living_now()
    tops = {pid for pid, began in known if pid in living and living[pid].began == began}
    return {(it, living[it].began) for it in with_below(tops | {child.pid} & living.keys(), living)}


def is_given_back(reservation: Reservation) -> bool:
    """Gives a reservation back. What is left is told."""
    try:
        reservation.give_back()
        return True
    except NotGivenBack as left:
        tell(str(left))
        return False


def asked(reservation: Reservation, options: argparse.Namespace) -> int:
    """Reserves. Gives the reservation's number."""
    options.clock.look()
    number = reservation.ask()
    options.clock.note_own()
    return number


def awaited(reservation: Reservation, number: int, options: argparse.Namespace) -> calls.Row:
    """The view of a reservation's board, which is waited for."""
    with waiting.ShownWait(reservation.desk, options.clock, options.every) as wait:
        return wait_for_board(wait, number, reservation.tags)


def run_with_board(desk: calls.Desk, options: argparse.Namespace) -> int:
    """Reserves, waits, acquires, runs the command, and gives back whatever happens. Returns the
    exit status."""
    status, fault = fault_of(options.words[0])
    if status:
        tell(f"{options.words[0]}: {fault}")
        return status
    reservation = Reservation(desk, options.tags, options.priority)
    is_asked, is_free = False, True
    try:
        status = ran_with(reservation, options)
    except Interrupted as it:
        status, is_asked = it.status, True
    finally:
        signal.pthread_sigmask(signal.SIG_BLOCK, SIGNALS)  # no signal is raised from here on
        if is_asked or reservation.number is not None:
            is_free = is_given_back(reservation)
    if not is_free:
        return OF_ITSELF
    if reservation.is_lost and status != OF_ITSELF:
        how = f"reservation {reservation.number} had ended before the command"
        tell(f"board {reservation.board} is lost: {how}")
        return OF_ITSELF
    return status


def fault_of(command: str) -> Tuple[int, str]:
    """Why a command can't be run: a shell's status and its reason, 0 where it can."""
    if shutil.which(command):
        return 0, ""
    if shutil.which(command, mode=os.F_OK) or (os.sep in command and os.path.isdir(command)):
        return NOT_RUN, "it can't be run"
    return NOT_FOUND, "no such command"


def ran_with(reservation: Reservation, options: argparse.Namespace) -> int:
    """The exit status of the command that ran with a reservation's board, or that of a fault."""
    try:
        number = asked(reservation, options)
        board = awaited(reservation, number, options)
        reservation.acquire(board["name"])
        check()
        return run(reservation.desk, options.words, board, number)
    except FizgrukError as fault:
        tell(str(fault))
        return OF_ITSELF


def run(desk: calls.Desk, words: Sequence[str], board: calls.Row, number: int) -> int:
    """Runs a command, and hands signals on to it; where its board is lost, it is ended. Returns its
    exit status, 128 and the number for a signal.

    Signals are blocked from here on. A terminal sends what its keys stand for to the command too;
    all others are handed on, the terminal's hangup among them, which comes to its session's leader
    alone.
    """
    environment = {
        **os.environ,
        "BOARD": board["name"],
        "FARM_BOARD": board["name"],
        "BOARD_TYPE": board["type"],
        "BOARD_TAGS": " ".join(board["tags"]),
        "RESERVATION": str(number),
    }
    signal.signal(signal.SIGCHLD, lambda *_: None)
    before = signal.pthread_sigmask(signal.SIG_BLOCK, (*SIGNALS, signal.SIGCHLD))

    def unblock() -> None:
        signal.pthread_sigmask(signal.SIG_SETMASK, before)

    try:
        child = subprocess.Popen(words, env=environment, preexec_fn=unblock)
    except (OSError, subprocess.SubprocessError) as fault:
        tell(f"{fault}")
        return NOT_RUN
    watch = CommandWatch(desk, board["name"], number)
    watch.begin()
    wait_for_end(child, watch)
    watch.end()
    if watch.lost:
        tell(f"{watch.lost}: the command is ended")
        end(child)
        return OF_ITSELF
    return child.returncode if child.returncode >= 0 else 128 - child.returncode


def wait_for_end(child: "subprocess.Popen[bytes]", watch: CommandWatch) -> None:
    """Waits until a command has ended or its board is lost, and hands signals on meanwhile."""
    while child.poll() is None and not watch.lost:
        came = signal.sigwaitinfo((*SIGNALS, signal.SIGCHLD))
        of_a_key = came.si_signo in KEYS and came.si_code == SI_KERNEL
        if came.si_signo != signal.SIGCHLD and not of_a_key:
            child.send_signal(came.si_signo)
