"""A stream of commands that a farm is sent, what the farm is after so many of them, and farm-backup beside it."""
from __future__ import annotations

import contextlib
import http.client
import random
import shutil
import sqlite3
import tempfile
import threading
import time
from typing import Any, Dict, List, Set, Tuple

from forks import ReadOnce
from served import Farm, wait_until

FIRST = 3  # commands that make the farm: a type, a board, its health


def text_of(number: int) -> str:
    """The text of the job that command `number` submits; long ones fill the log."""
    return f"job_name = 'boot'\ndevice_type = 'bbb'\n# {'x' * (number % 7 * 5000)}"


def rows_after(commands: int) -> Dict[str, List[Any]]:
    """The rows of the farm after so many commands of the stream."""
    jobs = [(at + 1, "ann", "bbb", text_of(2 * at)) for at in range((commands + 1) // 2)]
    last = commands - 1 if commands % 2 == 0 else commands - 2
    return {
        "jobs": jobs,
        "tags": [(f"turn={last}" if last > 0 else "",)],
        "kept": sorted(f"k{at}" for at in range(commands)),
    }


def rows(db: str) -> Tuple[int, Dict[str, List[Any]]]:
    """How many commands of the stream a farm's two files have, and their rows, as SQLite reads them."""
    with tempfile.TemporaryDirectory() as place:
        for end in ("", "-wal"):
            shutil.copy(db + end, f"{place}/farm.db{end}")
        with contextlib.closing(sqlite3.connect(f"{place}/farm.db")) as conn:
            assert conn.execute("pragma integrity_check").fetchall() == [("ok",)]
            count = conn.execute("select value from meta where name = 'count'").fetchone()[0]
            found = {
                "jobs": conn.execute("select number, owner, kind, body from jobs order by number").fetchall(),
                "tags": conn.execute("select tags from boards").fetchall(),
                "kept": sorted(it for it, in conn.execute("select ckey from kept")),
            }
    return count - FIRST, found


def demand_prefix(db: str, least: int, most: int) -> None:
    """Demands that files hold the farm after so many commands of the stream, at least and at most."""
    count, found = rows(db)
    assert least <= count <= most, f"{db} has {count} commands"
    wanted = rows_after(count)
    assert [name for name in wanted if found[name] != wanted[name]] == [], f"{db} after {count} commands"


class Worker(threading.Thread):
    """What goes on beside the test until it is ended."""

    def __init__(self) -> None:
        super().__init__(daemon=True)
        self.is_over = False
        self.start()

    def run(self) -> None:
        while not self.is_over:
            self.step()

    def step(self) -> None:
        """One step of it."""

    def end(self) -> None:
        self.is_over = True
        self.join()


class Stream(Worker):
    """Commands that are sent one after another, each again under its key until it is answered: at most so many."""

    def __init__(self, farm: Farm, most: int = 10**9):
        self.farm = farm
        self.answered: List[float] = []  # the moment of each answer
        self.most = most
        self.pause = 0.0  # before each
        super().__init__()

    def step(self) -> None:
        number = len(self.answered)
        time.sleep(self.pause)
        if number >= self.most:
            time.sleep(0.005)
            return
        sent: Tuple[str, str, str, object] = ("ann", "POST", "/jobs", text_of(number).encode())
        if number % 2:
            sent = ("admin", "POST", "/boards/b1/tags", {"tags": [f"turn={number}"]})
        try:
            status, said = self.farm.ask(*sent, key=f"k{number}")
        except (OSError, ValueError, http.client.HTTPException):
            time.sleep(0.01)
            return
        assert (status, said.get("number")) == (200, 0 if number % 2 else number // 2 + 1)
        self.answered.append(time.time())


class Kills(Worker):
    """Kills a desk and starts it again at moments by chance."""

    def __init__(self, farm: Farm, chance: random.Random):
        self.farm = farm
        self.chance = chance
        super().__init__()

    def step(self) -> None:
        time.sleep(self.chance.uniform(0.1, 2))
        self.farm.kill()
        self.farm.start()


class Salts(Worker):
    """Notes the salts that a log has had."""

    def __init__(self, log: str):
        self.log = log
        self.seen: Set[bytes] = set()
        super().__init__()

    def step(self) -> None:
        salts = salts_of(self.log)
        if salts:
            self.seen.add(salts)
        time.sleep(0.005)


def salts_of(log: str) -> bytes:
    """A log's salts, which stand in its header behind sixteen bytes; nothing while it is begun anew."""
    try:
        with open(log, "rb") as opened:
            header = opened.read(32)
    except FileNotFoundError:
        return b""
    return header[16:24] if header[:1] == b"\x37" else b""


def quiet_farm(farm: Farm) -> int:
    """Sends a farm thirty commands, so few that all stand in its log, and no more. Returns how many it has."""
    stream = Stream(farm, 30)
    wait_until("thirty commands", lambda: len(stream.answered) == 30)
    stream.end()
    return len(stream.answered)


def still_farm(farm: Farm) -> int:
    """The same, and ends its serving."""
    commands = quiet_farm(farm)
    farm.kill()
    return commands


# ---- farm-backup

READ: List[ReadOnce] = []


def words_of(farm: Farm, *words: str) -> List[str]:
    """The words of farm-backup for a farm, whose file later words may name anew."""
    return ["farm-backup", "--program", farm.program, "--db", farm.db, *words]


def farm_backup() -> ReadOnce:
    """The tool, read once in a process of the tests."""
    if not READ or READ[-1].process.poll() is not None:
        READ.append(ReadOnce("from farm_backup.main import main\n", lasts=True))
    return READ[-1]


def backup(farm: Farm, *words: str) -> Tuple[int, str, str]:
    """What farm-backup comes to: its status, output and errors."""
    ran = farm_backup().run(*words_of(farm, *words)[1:])
    return ran.returncode, ran.stdout, ran.stderr
