#!/usr/bin/env python3
"""What the site costs a user, without farm-door and with it: python3 bench/through_site.py bin/farm [ROUNDS]

A lab of twenty users works through the example's nginx, as packaged: once with the site alone and once with farm-door and
its usual limits, in rounds that alternate, over one farm. Each user's turn opens the page, looks at boards, queue and
reservations, reserves, refreshes and gives back, submits a job, looks at it and cancels it, over a connection that is
kept. It prints of each request the median and the 99th of a hundred in milliseconds, and how much longer these are
with farm-door. It wants nginx, openssl and curl, and pytest, whose helpers it shares.
"""
from __future__ import annotations

import http.client
import json
import os
import statistics
import sys
import tempfile
import time
from typing import Dict, Iterator, List, Tuple

HERE = os.path.dirname(os.path.abspath(__file__))
sys.path.insert(0, os.path.join(HERE, "../tests/shared"))
import nginx_site  # noqa: E402
from door_site import Door  # noqa: E402
from served import STARTED, Farm, read  # noqa: E402

USERS = [f"user{it}" for it in range(20)]
RESERVATION = '{"tags":["hdmi"]}'
JOB = "job_name = 'boot'\ndevice_type = 'bbb'\ntags = ['hdmi']\n[timeouts]\njob = '15 minutes'\n# " + "x" * 1000 + "\n"
Call = Tuple[str, str, str, str]  # what it is called, the method, the path and the body
Times = Dict[str, List[float]]


def turn() -> Iterator[Call]:
    """A user's turn; N in a path is the number that was answered last."""
    for name in ("", "whoami", "boards", "queue", "reservations"):
        yield f"GET /{name}", "GET", f"/{name}", ""
    yield "POST /reservations", "POST", "/reservations", RESERVATION
    yield "POST ../refresh", "POST", "/reservations/N/refresh", ""
    yield "POST ../cancel", "POST", "/reservations/N/cancel", ""
    yield "POST /jobs", "POST", "/jobs", JOB
    yield "GET /jobs/N", "GET", "/jobs/N", ""
    yield "POST /jobs/N/cancel", "POST", "/jobs/N/cancel", ""


def go(line: http.client.HTTPSConnection, fields: Dict[str, str], times: Times) -> None:
    """Goes through one turn, and notes how long each request took."""
    number = ""
    for name, method, path, body in turn():
        began = time.perf_counter()
        line.request(method, path.replace("N", number), body=body.encode() if body else None, headers=fields)
        answer = line.getresponse()
        said = answer.read()
        times.setdefault(name, []).append(1000 * (time.perf_counter() - began))
        if answer.status != 200:
            sys.exit(f"through_site: {method} {path}: {answer.status} {said[:200]!r}")
        if method == "POST":
            number = str(json.loads(said)["number"])


def of_hundred(times: List[float], place: int) -> float:
    return statistics.quantiles(times, n=100, method="inclusive")[place - 1]


def rows(alone: Times, door: Times) -> List[str]:
    """A line of a table for each request."""
    found = ["| Request | Site alone | With farm-door | Longer |", "|---|---|---|---|"]
    for name, before in alone.items():
        after = door[name]
        pairs = [(of_hundred(before, it), of_hundred(after, it)) for it in (50, 99)]
        cells = [f"{pairs[0][at]:.1f} ({pairs[1][at]:.1f})" for at in (0, 1)]
        longer = " ".join(f"{after - before:+.1f}" if not at else f"({after - before:+.1f})" for at, (before, after) in enumerate(pairs))
        found.append(f"| `{name}` | {cells[0]} | {cells[1]} | {longer} |")
    return found


def main(program: str, rounds: int) -> None:
    nginx_site.WORDS = {it: f"word of {it}" for it in USERS}
    with tempfile.TemporaryDirectory() as folder:
        places = [os.path.join(folder, it) for it in ("farm", "alone", "door")]
        for it in places:
            os.mkdir(it)
        farm = Farm(program, places[0], [(f"b{it}", "bbb", ["hdmi"]) for it in range(60)])
        try:
            alone = nginx_site.Site(farm, places[1])
            rules = read(os.path.join(HERE, "../examples/door.toml"))
            door = Door(farm, lambda made, *changes: nginx_site.Site(made, places[2], changes), places[2], rules)
            ways = [alone, door.site]
            lines = [[it.connection(user) for user in USERS] for it in ways]
            times: List[Times] = [{}, {}]
            for turns in range(rounds + 1):
                for user in range(len(USERS)):
                    for way in (0, 1) if turns % 2 else (1, 0):
                        go(*lines[way][user], times[way] if turns else {})  # (the first opens connections)
            print("\n".join(rows(*times)))
        finally:
            for process in STARTED:
                process.kill()
                process.communicate()


if __name__ == "__main__":
    main(os.path.realpath(sys.argv[1]), int(sys.argv[2]) if len(sys.argv) > 2 else 10)
