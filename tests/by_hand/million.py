#!/usr/bin/env python3
"""Gives a serving program one million commands, by hand.

python3 tests/by_hand/million.py bin/farm [COMMANDS [FOLDER]]

One client sends one command after another to one program that serves a farm of one board: a reservation that
a pass gives the board and that is canceled then, and passes. Every command is accepted. On the way it looks at
the file, at the log beside it and at the program's memory, and prints what they were. At the end it demands
that the log stayed below what a commit may leave in it before it is carried into the file, that no file is
open that wasn't before, and that the farm, opened once more, has counted each command.

COMMANDS commands, 1,000,000 where no number is given; FOLDER is where the farm's file lies, the system's folder
for temporary files where none is given (a disk that syncs takes most of the time: some ten minutes in all).
"""
import os
import re
import sys
import tempfile
import time
from typing import Iterator, NoReturn, Optional

HERE = os.path.dirname(os.path.abspath(__file__))
sys.path.insert(0, os.path.join(HERE, "../shared"))
from served import Farm  # noqa: E402

# A log is carried into the file once it has 1,000 pages, and as many as one command may write come on top.
LONGEST_LOG = 8 * 2**20
LOOKS = 20


def fail(what: str) -> NoReturn:
    sys.exit(f"million: {what}")


def memory(farm: Farm) -> int:
    """How many KiB of memory the program has."""
    with open(f"/proc/{farm.process.pid}/status", encoding="ascii") as status:
        return int(re.findall(r"VmRSS:\s+([0-9]+) kB", status.read())[0])


def files(farm: Farm) -> int:
    """How many files it has open, once it waits for the next client."""
    time.sleep(0.5)
    return len(os.listdir(f"/proc/{farm.process.pid}/fd"))


def commands(farm: Farm) -> Iterator[None]:
    """Gives one command after another: one reservation among twenty."""
    while True:
        number = farm.tell("ann", "/reservations", {"tags": []})["number"]
        yield
        for turn in range(19):
            yield farm.tell("ann", f"/reservations/{number}/cancel") if turn == 1 else farm.tell("dispatcher", "/pass")


def main(program: str, count: int = 1_000_000, place: Optional[str] = None) -> None:
    with tempfile.TemporaryDirectory(dir=place) as folder:
        farm = Farm(program, folder, [("b1", "bbb", [])])
        given = commands(farm)
        opened, begin, longest, carried, last = files(farm), time.time(), 0, 0, 0
        for done in range(count):
            next(given)
            if done % 16 == 0:
                longest = max(longest, os.stat(f"{farm.db}-wal").st_size)
                moved = os.stat(farm.db).st_mtime_ns
                carried, last = carried + (moved != last), moved
            if (done + 1) % max(count // LOOKS, 1) == 0:
                print(f"million: after {done + 1} commands {time.time() - begin:.0f} s, memory {memory(farm)} KiB, "
                      f"file {os.stat(farm.db).st_size} bytes, log {os.stat(farm.db + '-wal').st_size} bytes", flush=True)
        if longest > LONGEST_LOG:
            fail(f"the log had {longest} bytes")
        if files(farm) != opened:
            fail(f"it had {opened} open files, and has {files(farm)}")
        took, had = time.time() - begin, memory(farm)
        farm.kill()
        farm.start()
        counted = farm.look("/status")["count"]
        if counted != count + 3:
            fail(f"the farm counts {counted} commands")
        print(f"million: {count} commands in {took:.0f} s; the longest log had {longest} bytes")
        print(f"million: it was carried into the file about {carried} times; {opened} open files before and after")
        print(f"million: memory {had} KiB at the end, {memory(farm)} KiB where the same farm is opened anew")
        farm.kill()


if __name__ == "__main__":
    main(sys.argv[1], *map(int, sys.argv[2:3]), *sys.argv[3:])
