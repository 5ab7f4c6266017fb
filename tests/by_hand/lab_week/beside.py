"""What goes on beside the people of the week: kills, copies, figures, and looks at the boards."""
from __future__ import annotations

import collections
import random
import subprocess
import sys
import time
from typing import Sequence

from lab_week import of_metrics
from lab_week.lab import Copy, Lab
from lab_week.texts import Row
from served import PATIENCE, TOOLS, environment, read

KILLED = ("desk", "dispatcher", "watcher")
LEAST = 60  # kills of a week
BACK_WITHIN, LONGEST = 30.0, 80.0  # seconds for which what was killed is waited for, and from one kill to the next


def kills(lab: Lab, dice: random.Random) -> None:
    """Kills one after another. Most times it waits until what was killed works again, so that a slow machine gets on with
    its work; there the week lasts until so many were killed."""
    latest = lab.over + lab.left()
    while lab.left() > 0:
        name = dice.choice([*KILLED, *(["door"] if lab.site else [])])
        sign = works_by(lab, name)
        lab.kill(name)
        if dice.random() < 0.8:
            lab.waits(min(lab.left(), BACK_WITHIN), lambda: works_by(lab, name) != sign)
        time.sleep(dice.uniform(1, 7))
        if lab.left() < LONGEST and sum(lab.kills.values()) < LEAST:
            lab.over = min(lab.over + LONGEST, latest)


def works_by(lab: Lab, name: str) -> object:
    """What is another once things go on after a kill: a job has ended, farm-watch has looked."""
    if name in ("desk", "dispatcher"):
        return read(f"{lab.dispatch_folder}/history.json")
    return len(lab.door.noted)


def backup(lab: Lab, *words: str) -> "subprocess.CompletedProcess[str]":
    """What farm-backup comes to beside the farm that is served."""
    around = [sys.executable, f"{TOOLS}/farm-backup", "--program", lab.farm.program, "--db", lab.farm.db, *words]
    return subprocess.run(around, capture_output=True, text=True, timeout=PATIENCE, check=False, env=environment())


def copies(lab: Lab, dice: random.Random) -> None:
    while lab.left() > 5:
        begin = time.time()
        ran = backup(lab, "--server", lab.farm.server, f"{lab.room}/copies")
        if ran.returncode:
            lab.wrong(f"farm-backup ended with status {ran.returncode}: {ran.stderr}")
        else:
            lab.copies.append(Copy(f"{ran.stdout.strip()}/farm.db", begin, time.time()))
        time.sleep(dice.uniform(3, 20))


def measures(lab: Lab, _: object) -> None:
    while not lab.drained.is_set():
        for it in of_metrics.faults(lab):
            lab.wrong(it)
        lab.drained.wait(8)


def watches_boards(lab: Lab, _: object) -> None:
    """Looks at the boards and reservations: none is held twice, no group has begun in part."""
    while not lab.drained.is_set():
        check_boards(lab, lab.look("/boards")["boards"])
        check_reservations(lab, lab.look("/reservations")["reservations"])
        time.sleep(1)


def check_boards(lab: Lab, boards: Sequence[Row]) -> None:
    holders = collections.Counter(it["holder"] for it in boards if it["holder"] != "none")
    for holder, count in holders.items():
        if count > 1:
            lab.wrong(f"{holder} holds {count} boards")
    states = {it["holder"]: it["state"] for it in boards}
    for number, job in list(lab.submitted.items()):
        found = {states.get(f"job {it}") for it in range(number, number + job.boards)}
        if {"Running", "Reserved"} <= found:
            lab.wrong(f"group {number} has begun in part")


def check_reservations(lab: Lab, rows: Sequence[Row]) -> None:
    held = collections.Counter(
        it["board"] for it in rows if it["state"] in ("allocated", "acquired")
    )
    for board, count in held.items():
        if count > 1:
            lab.wrong(f"{board} is held by {count} reservations")
