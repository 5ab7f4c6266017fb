#!/usr/bin/env python3
"""A lab's week in about fourteen minutes, with every tool on:
python3 tests/by_hand/lab_days.py [--site] bin/farm [SECONDS [SEED]]

Run by hand, since it takes that long; `make test` leaves it out. A day is a seventh of the time, and ends with a night. Fourteen
boards of three types (one checked by the hour, one by jobs, one never) are served from files. People submit a hundred
jobs of one board and a hundred groups of two to four, in two bursts and between them, and cancel
some; others reserve, acquire, extend, give back, or forget a board, which farm-watch ends. An admin
sets healths, mends what went Bad once that is told, and imports two more boards. farm-dispatch runs
commands of 0.1 to 2 seconds that end in all ways and leave files, links, too much and tests in out/; farm-watch tells by mail
and webhook, and keeps what people held; farm-backup makes copies,
farm-metrics counts. Each night the line of examples/nightly-job.service comes twice under the key of its day, and
farm-backup keeps the last copies. Desk, dispatcher, watcher and door are killed (SIGKILL) at random moments and
started again at once, at least sixty times.

At the end it demands: each command that was answered is answered alike once more; no board was held twice, by the
desk's answers and what commands and people noted; each job that began has one line in the history and the outcome
that its command meant (Infra where its dispatcher was killed, with which it ends), and each group's command ran once,
with all its boards; what it left is kept within the bounds, listed and counted; each event was told once by both ways
(what came again under its id is dropped), in fewer mails; `desk usage` counts what people noted; each copy is the
farm after a prefix of the commands; the metrics agree with the history; a night has one job; and nothing is left
running. Then each demand is made once more of what was found with one fault in it, which it has to find
(lab_week/spoils.py). It prints the figures in a table, and ends with status 1 where anything deviated.

SECONDS is how long people work, 700 where no number is given (at least 400, for holds to end), or up to twice as long where
sixty kills haven't come by then; SEED makes the same people again. With --site people ask with a password each through the
example's nginx with farm-door, as packaged, which is killed too: two admins have logins of their own, a pipeline asks by
tokens, and the audit has each command once; it wants nginx and openssl. (Consoles over kills are access_handovers.py's,
limits tests/security's, the next farm test_next_units'.)
"""
from __future__ import annotations

import contextlib
import os
import random
import signal
import sys
import tempfile
import threading
import time
from typing import Callable, Iterator, List, Optional, Tuple, Union

HERE = os.path.dirname(os.path.abspath(__file__))
sys.path[:0] = [os.path.join(HERE, it) for it in ("../shared", "../../tools", "../../python/src")]
from lab_week import (  # noqa: E402
    beside, figures, nights, of_artifacts, of_copies, of_holds, of_jobs, of_messages, of_metrics, of_site, people, pipelines,
    spoils,
)
from lab_week.lab import QUEUED, Lab  # noqa: E402
from lab_week.texts import PIPELINE  # noqa: E402
from served import PATIENCE  # noqa: E402

SUBMISSIONS = 200


def begins(lab: Lab, call: Callable[..., None], name: str, *words: object) -> threading.Thread:
    def run() -> None:
        try:
            call(lab, *words)
        except (Exception, SystemExit) as fault:  # what a person stumbles over is no end of the week
            lab.wrong(f"{name}: {type(fault).__name__}: {fault}")

    thread = threading.Thread(target=run, name=name, daemon=True)
    thread.start()
    return thread


def all_begin(lab: Lab, dice: random.Random) -> List[threading.Thread]:
    """Lets people begin, and what ends with their work."""

    def chance() -> random.Random:
        return random.Random(dice.random())

    plans = zip(people.SUBMITTERS, people.plans_of(lab.left(), dice))
    found = [begins(lab, people.submits, user, user, plan, chance()) for user, plan in plans]
    others = [*people.OTHERS, *([(PIPELINE, pipelines.asks_by_tokens)] if lab.site else [])]
    found += [begins(lab, call, user, user, chance()) for user, call in others]
    return found + [begins(lab, call, call.__name__, chance())
                    for call in (beside.kills, beside.copies, nights.nights)]


def lives(lab: Lab, dice: random.Random) -> None:
    """Lets people work until the week is over and all is given back."""
    working = all_begin(lab, dice)
    late = [begins(lab, people.administers, "admin", "admin", random.Random(dice.random()))]
    late += [begins(lab, call, call.__name__, None) for call in (beside.measures, beside.watches_boards)]
    for it in working:
        it.join(QUEUED)
        if it.is_alive():
            lab.wrong(f"{it.name} hasn't ended")
    if not lab.waits(PATIENCE, lambda: not busy(lab)):
        lab.wrong(f"not all has ended: {busy(lab)}")
    lab.waits(PATIENCE, lambda: of_messages.are_known(of_messages.told(lab)))
    lab.drained.set()
    for it in late:
        it.join(PATIENCE)


def busy(lab: Lab) -> List[object]:
    """What waits, and the boards that are held or don't serve; a board of a type without a check
    serves while it is Unknown, too."""
    boards = [(it["name"], it["health"], it["holder"]) for it in lab.look("/boards")["boards"]
              if it["holder"] != "none" or it["health"] != "Good"
              and (it["type"], it["health"]) != ("qemu", "Unknown")]
    return [*lab.look("/queue")["queue"], *boards]


def demand(lab: Lab, faults: List[str], spoiled: Iterator[spoils.Spoiled]) -> int:
    """Demands that there are no faults, and that each one that is put in is found. Returns how many those were."""
    tried = 0
    for it in faults:
        lab.wrong(it)
    try:
        for tried, (name, call) in enumerate(spoiled, 1):
            if not call():
                lab.wrong(f"no demand finds this fault: {name}")
    except (StopIteration, LookupError, ValueError, RuntimeError) as fault:
        lab.wrong(f"a fault couldn't be made: {type(fault).__name__}: {fault}")
    return tried


def judged(lab: Lab) -> Tuple[figures.Rows, int]:
    """What people, their jobs and the tools did. Returns its figures, and how many faults were put in."""
    jobs, holds, told = of_jobs.jobs_of(lab), of_holds.judged(lab), of_messages.told(lab)
    left = of_artifacts.seen(lab, jobs)
    there = os.listdir(f"{lab.room}/nightly")
    tried = demand(lab, jobs.faults(), spoils.of_jobs_run(jobs))
    tried += demand(lab, left.faults(), spoils.of_artifacts_kept(left))
    tried += demand(lab, holds.faults(), spoils.of_holds_counted(holds))
    tried += demand(lab, of_holds.faults_of_holders(lab.held, lab.runs), spoils.of_holders(lab))
    faults = nights.faults_of_nights(lab.nights, jobs.views) + of_copies.faults_of_keeping(there, lab.nightly)
    tried += demand(lab, faults, spoils.of_the_nights(lab, jobs.views, there))
    tried += demand(lab, of_metrics.faults(lab, quiet=True), spoils.of_figures(lab))
    tried += demand(lab, told.faults(), spoils.of_messages_told(told))
    if lab.site:
        audit = of_site.audit_of(lab)
        tried += demand(lab, audit.faults(), spoils.of_what_goes_by_site(audit))
    return figures.of_work(lab, jobs, holds) + figures.of_tools(lab, lab.look("/status")["count"], told), tried


def at_its_end(lab: Lab) -> int:
    """All commands are sent once more; then what is left of the farm is its file and its copies."""
    for name in ("dispatcher", "watcher"):
        lab.stop(name)
    tried = demand(lab, of_jobs.faults_of_all_keys(lab), spoils.of_commands(lab))
    ends(lab)
    found = of_copies.copies_of(lab)
    return tried + demand(lab, of_copies.faults(found, lab.commands), spoils.of_prefixes(found, lab.commands))


def ends(lab: Lab) -> None:
    """Ends all; no tool has told of a fault of its own."""
    for name, tool in lab.tools.items():
        if "Traceback" in tool.errors():
            lab.wrong(f"the {name} tells: {tool.errors()}")
    if lab.site:
        lab.site.end()
    lab.farm.kill()
    if lab.waits(20, lambda: not processes_of(lab.room)) is None:
        lab.wrong(f"processes that are left: {processes_of(lab.room)}")


def processes_of(room: str) -> List[str]:
    """The words of the processes that have a file of the lab's folder among them."""
    found = []
    for name in os.listdir("/proc"):
        if name.isdigit() and int(name) != os.getpid():
            with contextlib.suppress(OSError):
                with open(f"/proc/{name}/cmdline", encoding="utf-8", errors="replace") as file:
                    words = file.read()
                if f"{room}/" in words:
                    found.append(words.replace("\0", " "))
    return found


def main(has_site: bool, program: str, seconds: Union[int, str] = 700, seed: Optional[str] = None) -> int:
    number = int(seed or random.randrange(10**6))
    dice, began = random.Random(number), time.monotonic()
    print(f"lab_days: {seconds} s, seed {number}", flush=True)
    # (ended from outside, it ends what it started, too)
    signal.signal(signal.SIGTERM, lambda *_: sys.exit(128 + signal.SIGTERM))
    with tempfile.TemporaryDirectory(ignore_cleanup_errors=True) as room:
        lab = Lab(os.path.realpath(program), os.path.realpath(room), int(seconds), has_site)
        lives(lab, dice)
        if sum(lab.kills.values()) < beside.LEAST or len(lab.submitted) < SUBMISSIONS:
            lab.wrong(f"{sum(lab.kills.values())} kills, {len(lab.submitted)} submissions")
        rows, tried = judged(lab)
        tried += at_its_end(lab)
    rows += [("demands", f"{tried} faults were tried, each of which has to be found"),
             ("time", f"{(time.monotonic() - began) / 60:.1f} minutes"),
             ("deviated", "; ".join(lab.deviations) or "nothing")]
    for name, text in rows:
        print(f"{name:<16} {text}", flush=True)
    return 1 if lab.deviations else 0


if __name__ == "__main__":
    given = [it for it in sys.argv[1:] if it != "--site"]
    sys.exit(main(len(given) < len(sys.argv) - 1, *given[:3]))
