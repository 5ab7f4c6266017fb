#!/usr/bin/env python3
"""What a session at a board costs: python3 bench/at_boards.py bin/farm [COUNT]

In a machine of its own, with the units of examples/: how long it takes from ssh(1) to the first byte of a console, and of a
command, so many times; what the desk is asked of the guard at rest, and what the guard and the door then take of a processor;
and how long after a hold's end its session is out. It wants what tests/tools/access_lab.py wants, and pytest.
"""
from __future__ import annotations

import os
import pathlib
import statistics
import sys
import tempfile
import time
from typing import List

HERE = os.path.dirname(os.path.abspath(__file__))
sys.path[:0] = [os.path.join(HERE, "../tests/tools"), os.path.join(HERE, "../tests/shared")]
from access_lab import Lab  # noqa: E402
from machine import Machine  # noqa: E402

REST = 10.0
UNITS = ("farm-access", "farm-access-guard", "farm-access-opener", "farm-access-sshd")


def processor_time(lab: Lab) -> float:
    """Seconds of a processor that the way to boards has taken."""
    shown = lab.machine.run("systemctl", "show", *(f"{it}.service" for it in UNITS), "-P", "CPUUsageNSec").stdout
    return sum(int(it) for it in shown.split() if it.isdigit()) / 1e9


def first_byte(lab: Lab, way: List[str]) -> float:
    """Seconds from ssh(1) to the first byte that the board gives back, or a command says."""
    since = time.monotonic()
    line = lab.begin("ann", "b2", *way)
    assert line.stdin and line.stdout
    line.stdin.write(b"x")
    line.stdin.flush()
    line.stdout.read(1)
    took = time.monotonic() - since
    line.kill()
    line.wait()
    return took


def told(name: str, found: List[float]) -> None:
    print(f"{name}: {statistics.median(found):.2f} s ({min(found):.2f} to {max(found):.2f})", flush=True)


def main(program: str, count: int = 20) -> None:
    with tempfile.TemporaryDirectory() as place:
        machine = Machine(str(pathlib.Path(place)), os.path.realpath(program))
        try:
            lab = Lab(machine)
            before, since = processor_time(lab), time.monotonic()
            time.sleep(REST)
            print(f"at rest: {(processor_time(lab) - before) / (time.monotonic() - since):.3f} of a processor", flush=True)
            number, before = lab.reserve("ann", "b2"), processor_time(lab)
            told("ssh to a console's first byte", [first_byte(lab, ["console"]) for _ in range(count)])
            told("ssh to a command's first byte", [first_byte(lab, ["say", "x"]) for _ in range(count)])
            print(f"processor time of a session: {(processor_time(lab) - before) / (2 * count):.2f} s", flush=True)
            lab.cancel("ann", number)
            ends: List[float] = []
            for _ in range(count):
                number = lab.reserve("ann", "b2")
                line = lab.begin("ann", "b2", "sleep")
                lab.running("b2", "sleep")
                since = time.monotonic()
                lab.cancel("ann", number)
                line.wait(60)
                ends.append(time.monotonic() - since)
            told("out after the hold's end", ends)
        finally:
            machine.end()


if __name__ == "__main__":
    main(sys.argv[1], *map(int, sys.argv[2:]))
