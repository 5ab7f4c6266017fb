"""The programs that are measured, and their peers: how they are built, run, timed and counted."""
from __future__ import annotations

import os
import re
import shutil
import statistics
import subprocess
import sys
import time
from collections.abc import Iterable, Sequence
from pathlib import Path

HERE = Path(__file__).resolve().parent
FIRST_PORT = 18100
Pairs = list[tuple[str, int]]


def built(name: str, folder: str, *libraries: str) -> str:
    """Compiles a C program of this folder."""
    made = f"{folder}/{name}"
    subprocess.run(["cc", "-O2", "-o", made, f"{HERE}/{name}.c", *libraries], check=True)
    return made


def lines(*words: str, given: bytes | None = None) -> Pairs:
    """Runs a program. Returns its lines 'NAME NANOSECONDS' as pairs."""
    ran = subprocess.run(words, input=given, stdout=subprocess.PIPE, check=True)
    return [(name, int(nanos)) for name, nanos in (it.split() for it in ran.stdout.decode().splitlines())]


def timed(*words: str) -> int:
    """How long a program takes, in nanoseconds."""
    start = time.perf_counter_ns()
    subprocess.run(words, stdout=subprocess.DEVNULL, stdin=subprocess.DEVNULL, check=True)
    return time.perf_counter_ns() - start


def measured(*words: str) -> tuple[int, int]:
    """How long a program takes, in nanoseconds, and the most memory that it has, in bytes: no less than this one, some
    18 MB, from which it is copied."""
    start = time.perf_counter_ns()
    running = subprocess.Popen(words, stdout=subprocess.DEVNULL, stdin=subprocess.DEVNULL)
    _, status, used = os.wait4(running.pid, 0)
    running.returncode = status
    if status:
        sys.exit(f"{words} ended with {status}")
    return time.perf_counter_ns() - start, 1024 * used.ru_maxrss


def memory_now(status: str) -> int:
    """The bytes of memory that a process has now, by its file /proc/PID/status."""
    found = re.search(r"^VmRSS:\s+(\d+) kB$", status, re.M)
    if not found:
        raise ValueError("no VmRSS")
    return 1024 * int(found.group(1))


def waiting(*words: str) -> subprocess.Popen[bytes]:
    """Starts a program, and waits until it has printed its first line; then it waits for its input."""
    running = subprocess.Popen(words, stdin=subprocess.PIPE, stdout=subprocess.PIPE)
    assert running.stdout
    running.stdout.readline()
    return running


def memory_at_rest(running: subprocess.Popen[bytes]) -> int:
    """The bytes that a program has which waits. It is ended then."""
    with running:
        status = Path(f"/proc/{running.pid}/status").read_text(encoding="utf-8")
        running.kill()
    return memory_now(status)


# Servers

def desk(farm: str, path: str) -> list[str]:
    return [farm, "serve", "--db", path, "--port", "{port}", "--max", "{count}"]


class Served:
    """Servers, each on a port of its own, and the client that asks them."""

    def __init__(self, folder: str) -> None:
        self.client = built("client", folder)
        self.port = FIRST_PORT

    def begin(self, server: Sequence[str], count: int) -> subprocess.Popen[bytes]:
        """Starts a server that ends after so many connections, and waits until it listens."""
        self.port += 1
        return waiting(*(it.format(port=self.port, count=count) for it in server))

    def say(self, listed: Iterable[bytes], *words: str) -> Pairs:
        """Sends a list of requests to the server that was started last."""
        return lines(self.client, str(self.port), *words, given=b"".join(listed))

    def ask(self, server: Sequence[str], listed: Sequence[bytes], *words: str) -> Pairs:
        """Starts a server and asks it all of a list."""
        with self.begin(server, len(listed)) as running:
            try:
                return self.say(listed, *words)
            except subprocess.CalledProcessError:
                running.kill()
                raise


# Times

class Table:
    """The times of each measure, in nanoseconds, one a round."""

    def __init__(self) -> None:
        self.times: dict[str, list[int]] = {}

    def add(self, pairs: Pairs, before: str = "") -> None:
        for name, nanos in pairs:
            self.times.setdefault(before + name, []).append(nanos)

    def median(self, name: str) -> float:
        return statistics.median(self.times[name])

    def text(self, name: str) -> str:
        times = [it / 1000 for it in self.times[name]]
        return f"{statistics.median(times):.1f} us ({min(times):.1f} to {max(times):.1f})"

    def names(self, before: str) -> list[str]:
        return [it[len(before):] for it in self.times if it.startswith(before)]


def spread(each: Sequence[float]) -> str:
    return f"{statistics.median(each):.2f} ({min(each):.2f} to {max(each):.2f})"


# Instructions

UNTOLD = "untold"  # how what is asked under `-` is dumped


def has_callgrind() -> bool:
    return all(shutil.which(it) for it in ("valgrind", "callgrind_control"))


def totals(dump: str) -> int:
    """The instructions of one of callgrind's files."""
    found = re.search(r"^(?:totals|summary): (\d+)", dump, re.M)
    if not found:
        raise ValueError("no sum in callgrind's file")
    return int(found.group(1))


def reason(dump: str) -> str:
    """Under which name one of callgrind's files was dumped; empty where a program ended."""
    found = re.search(r"^desc: Trigger: (?:dump|Client Request:) (\S+)", dump, re.M)
    return found.group(1) if found else ""


def by_reason(dumps: Iterable[str]) -> dict[str, int]:
    """The instructions under each name, of the last file that has it."""
    return {name: totals(it) for it in dumps if (name := reason(it))}


def dumps_of(file: str) -> list[str]:
    """Callgrind's files FILE.1, FILE.2 and on, which are removed."""
    found = sorted(Path(file).parent.glob(f"{Path(file).name}.*"), key=lambda it: int(it.suffix[1:]))
    texts = [it.read_text(encoding="utf-8") for it in found]
    for it in found:
        it.unlink()
    return texts


def under_callgrind(file: str, *flags: str) -> list[str]:
    return ["valgrind", "-q", "--tool=callgrind", f"--callgrind-out-file={file}", *flags]


def counted(folder: str, *words: str) -> tuple[int, dict[str, int]]:
    """The instructions of a program from its beginning, and those that it dumped under names."""
    file = f"{folder}/callgrind.out"
    subprocess.run([*under_callgrind(file), *words], stdin=subprocess.DEVNULL, stdout=subprocess.DEVNULL, check=True)
    last = Path(file).read_text(encoding="utf-8")
    Path(file).unlink()
    dumps = dumps_of(file)
    return totals(last) + sum(map(totals, dumps)), by_reason(dumps)


def control(process: int, *words: str) -> None:
    ran = subprocess.run(["callgrind_control", *words, str(process)], capture_output=True, text=True, check=False)
    if ran.returncode or "OK" not in ran.stdout:
        raise RuntimeError(f"callgrind_control {' '.join(words)}: {ran.stdout}{ran.stderr}")


def counted_server(served: Served, folder: str, server: Sequence[str], phases: Sequence[tuple[str, list[bytes]]]) -> dict[str, int]:
    """The instructions of a server while it answers each of some lists; its opening isn't counted."""
    file, count = f"{folder}/callgrind.out", sum(len(listed) for _, listed in phases)
    with served.begin([*under_callgrind(file, "--instr-atstart=no"), *server], count + 1) as running:
        try:
            control(running.pid, "-i", "on")
            for name, listed in phases:
                served.say(listed)
                control(running.pid, "-d", name.replace("-", UNTOLD))
        finally:
            running.kill()
    found = by_reason(dumps_of(file))
    found.pop(UNTOLD, None)
    return found
