"""What each process of Python does under `make coverage` as it starts (coverage.sh): it counts, and keeps what it
counted also where it ends in a way that coverage doesn't see.

These are os._exit, another program in its place, and a signal that ends it, by itself or by another of these processes,
which first sends SAVES to one that catches that, and gives it a moment to keep what it has. (Coverage's own setting for
SIGTERM catches it, so programs that ask what stands there would go another way than without it.)
"""
from __future__ import annotations

import os
import pathlib
import signal
import time
from typing import Any, Callable, NoReturn

SETTINGS = "COVERAGE_PROCESS_START"
SAVES = signal.SIGRTMAX - 1
ENDS = (signal.SIGKILL, signal.SIGTERM, signal.SIGINT, signal.SIGHUP, signal.SIGQUIT)
MOMENT = 10.0  # seconds at most that a process has to keep what it counted
PLAIN_EXIT, PLAIN_KILL, PLAIN_SEND, PLAIN_EXECVE = os._exit, os.kill, signal.pidfd_send_signal, os.execve
kept: list[pathlib.Path] = []  # where this process keeps what it counts


def begin(settings: str) -> None:
    """Begins to count by coverage's settings of a file, where Debian's coverage is there, and it hasn't begun."""
    try:
        import coverage  # type: ignore[import]
    except ImportError:
        return  # another Python than Debian's
    before = os.environ.get(SETTINGS)
    os.environ[SETTINGS] = settings
    counts = coverage.process_startup()
    del os.environ[SETTINGS]
    if before is not None:
        os.environ[SETTINGS] = before
    if counts is None:
        return
    kept.append(pathlib.Path(counts.get_data().base_filename()).parent)
    busy: list[bool] = []

    def save() -> None:
        if not busy:
            busy.append(True)
            try:
                counts.save()
            finally:
                busy.clear()

    replace_ends(save)


def replace_ends(save: Callable[[], None]) -> None:
    def save_and_exit(status: int) -> None:
        try:
            save()
        finally:
            PLAIN_EXIT(status)

    def save_and_become(file: Any, words: Any, around: Any = os.environ) -> NoReturn:
        save()
        PLAIN_EXECVE(file, words, around)

    def save_and_kill(pid: int, number: int) -> None:
        if number == signal.SIGKILL and pid == os.getpid():
            save()
        elif number in ENDS and pid > 0:
            ask(pid, number)
        PLAIN_KILL(pid, number)

    def save_and_send(opened: int, number: int, *more: Any) -> None:
        if number in ENDS:
            lines = pathlib.Path(f"/proc/self/fdinfo/{opened}").read_text(encoding="utf-8").splitlines()
            ask(next(int(it[4:]) for it in lines if it.startswith("Pid:")), number)
        PLAIN_SEND(opened, number, *more)

    def answer(*_: object) -> None:
        try:
            save()
        finally:
            (kept[0] / said_by(pathlib.Path("/proc/self"))).touch()

    os._exit, os.execv, os.execve = save_and_exit, save_and_become, save_and_become  # type: ignore[assignment]
    os.kill, signal.pidfd_send_signal = save_and_kill, save_and_send
    signal.signal(SAVES, answer)


def said_by(process: pathlib.Path) -> str:
    """The name of the file by which a process, a folder of /proc, says that it has kept what it counted. Each namespace
    has the same."""
    began = (process / "stat").read_text(errors="replace").rpartition(")")[2].split()[19]
    return f"said-{about(process)['NSpid'].split()[-1]}-{began}"


def about(process: pathlib.Path) -> dict[str, str]:
    lines = (process / "status").read_text(encoding="utf-8", errors="replace").splitlines()
    return dict(it.split(":\t", 1) for it in lines if ":\t" in it)


def ask(pid: int, number: int) -> None:
    """Lets another process that a signal ends keep what it counted, where it is one of these, and runs."""
    process = pathlib.Path(f"/proc/{pid}")
    try:
        found = about(process)
        catches = int(found["SigCgt"], 16)
        is_its_end = not (catches | int(found["SigIgn"], 16)) >> (number - 1) & 1
        if not (is_its_end and catches >> (SAVES - 1) & 1) or found["State"][0] in "TtZX":
            return
        said = kept[0] / said_by(process)
        said.unlink(missing_ok=True)
        PLAIN_KILL(pid, SAVES)
    except (OSError, KeyError, ValueError):
        return
    until = time.monotonic() + MOMENT
    while time.monotonic() < until and not said.exists() and runs(process):
        time.sleep(0.005)


def runs(process: pathlib.Path) -> bool:
    try:
        return about(process)["State"][0] not in "ZX"
    except (OSError, KeyError):
        return False
