#!/usr/bin/env python3
"""Syncs that fail, and then a power cut: python3 tests/by_hand/failed_syncs.py bin/farm [ROUNDS [SEED]]

A system that couldn't write a page may count it as written from then on: it shows the page to whoever opens the
file again, syncs succeed without it, and the next power cut takes it. In each round a farm is served, one of its
syncs fails (tests/faults/record.c, preloaded), and the program ends. It is started again over the same files, in
some rounds with another sync that fails, at last with none, and commands are given to each. Then the power is cut,
behind the last answer or anywhere in the last life. What the disk has then is made of the record: of each page of
4,096 bytes what stood there at the last sync that succeeded, and of those written since none, all, or some by
chance. Whether a page was written is forgotten at a sync that fails, unless it is written again. The farm that the
program opens there has to have every job whose command was answered.

The kernel's advice that `sqlite`'s opening gives, to drop its copies of the pages, changes nothing here: it is
advice.

200 rounds are made where no number is given: some minutes. SEED is where chance begins. By hand alone.
Wants what tests/shared/libraries.py wants.
"""
from __future__ import annotations

import concurrent.futures
import json
import os
import random
import shutil
import subprocess
import sys
import tempfile
from typing import Dict, List, Set, Tuple

TESTS = os.path.dirname(os.path.dirname(os.path.realpath(__file__)))
sys.path += [os.path.join(TESTS, it) for it in ("shared", "faults")]
from ports import free_port  # noqa: E402
from power_cuts import conversation, request  # noqa: E402
from recorded import Entry, entries_in  # noqa: E402
from served import Farm  # noqa: E402

PAGE = 4096
ENDS = ("", "-wal")


class Disk:
    """A file as the system shows it, and what the disk has of it."""

    def __init__(self, held: bytes):
        self.shown, self.has = bytearray(held), bytearray(held)
        self.changed: Set[int] = set()  # the pages that are to be written
        self.least = len(held)  # how short the file was since the last sync

    def does(self, entry: Entry) -> None:
        if entry.what == "w":
            end = entry.offset + len(entry.data)
            self.lengthen(self.shown, end)
            self.shown[entry.offset : end] = entry.data
            self.changed |= set(range(entry.offset // PAGE, (end + PAGE - 1) // PAGE))
        elif entry.what == "t":
            self.least = min(self.least, entry.offset)
            self.changed = {page for page in self.changed if page * PAGE < entry.offset}
            del self.shown[entry.offset :]
            self.lengthen(self.shown, entry.offset)
        elif entry.what == "s":
            self.has = self.left(self.changed)
        if entry.what in "sf":
            self.changed, self.least = set(), len(self.shown)

    @staticmethod
    def lengthen(held: bytearray, length: int) -> None:
        held.extend(bytes(max(0, length - len(held))))

    def left(self, written: Set[int]) -> bytearray:
        """What the disk has once these pages are written, and the file's length."""
        has = self.has[: self.least]
        self.lengthen(has, len(self.shown))
        for page in written:
            has[page * PAGE : (page + 1) * PAGE] = self.shown[page * PAGE : (page + 1) * PAGE]
        return has[: len(self.shown)]

    def cut(self, chance: random.Random) -> bytes:
        """What a power cut leaves."""
        pages = sorted(self.changed)
        written = {page for page in pages if chance.random() < chance.choice((0.0, 0.5, 1.0))}
        return bytes(self.left(written) if written or chance.random() < 0.5 else self.has)


class Round:
    """A farm that is served again and again while syncs fail."""

    def __init__(self, farm: str, recorder: str, before: str, chance: random.Random):
        self.farm, self.recorder, self.chance = farm, recorder, chance
        self.place = tempfile.mkdtemp(dir=os.path.dirname(os.path.dirname(before)))
        self.db, self.record = f"{self.place}/farm.db", f"{self.place}/record"
        for end in ENDS:
            shutil.copy(before + end, self.db + end)
        self.disks = {self.db + end: Disk(contents(before + end)) for end in ENDS}
        with open(self.record, "wb"):
            pass
        self.answered: Dict[int, int] = {}  # by the job's number how long the record was then
        self.sent = 0
        self.last = b""  # the command that got no answer

    def length(self) -> int:
        return os.path.getsize(self.record)

    def command(self) -> bytes:
        """The next job, or the last once more if it got no answer."""
        if not self.last:
            self.sent += 1
            text = 'job_name = "one"\ndevice_type = "plain"\n# ' + "x" * self.chance.choice((0, 9000, 20000, 30000)) + "\n"
            self.last = request("ann", "/jobs", text, key=f"k{self.sent}")
        return self.last

    def live(self, failed: int, commands: int) -> None:
        """Serves the farm, with the sync of that number failing, for so many commands or until it ends."""
        port, words = free_port(), {"LD_PRELOAD": self.recorder, "RECORD": self.record, "RECORDED": self.db}
        server = subprocess.Popen(
            [self.farm, "serve", "--db", self.db, "--port", str(port), "--max", "1000000"],
            env={**os.environ, **words, "FAILED": str(failed)}, stdout=subprocess.PIPE, stderr=subprocess.DEVNULL,
        )
        assert server.stdout is not None
        try:
            if not server.stdout.readline():
                return
            for _ in range(commands):
                answer = conversation(port, self.command())
                if not answer.startswith(b"HTTP/1.1 200 "):
                    return
                self.answered[json.loads(answer.partition(b"\r\n\r\n")[2])["number"]] = self.length()
                self.last = b""
        except OSError:
            return  # (it ended)
        finally:
            server.kill()
            server.communicate()

    def lives(self) -> int:
        """All lives. Returns where in the record the last began."""
        self.live(self.chance.randrange(3, 14), 10)
        if self.chance.random() < 0.4:
            self.live(self.chance.randrange(1, 16), self.chance.randrange(1, 6))
        begun = self.length()
        self.live(0, self.chance.randrange(1, 8))
        return begun

    def cut(self, at: int) -> None:
        """Makes the files as a power cut at that place of the record leaves them."""
        place = 0
        for entry in entries_in(self.record):
            if place >= at:
                break
            place += 25 + len(entry.path) + len(entry.data)
            if entry.path in self.disks:
                self.disks[entry.path].does(entry)
        for path, disk in self.disks.items():
            with open(path, "wb") as file:
                file.write(disk.cut(self.chance))

    def lost(self) -> List[int]:
        """Which jobs of answered commands the farm lacks once the power was cut."""
        begun = self.lives()
        at = self.length() if self.chance.random() < 0.5 else self.chance.randrange(begun, self.length() + 1)
        self.cut(at)
        done = subprocess.run([self.farm, "report", "--db", self.db, "queue"], capture_output=True, check=False)
        there = {int(line.split()[1]) for line in done.stdout.decode().splitlines()}
        shutil.rmtree(self.place)
        return sorted(number for number, place in self.answered.items() if place <= at and number not in there)


def contents(path: str) -> bytes:
    with open(path, "rb") as file:
        return file.read()


def farms(program: str, folder: str) -> List[str]:
    """A farm without a job, and one of sixty jobs whose log is about to be carried into its file."""
    made = []
    for name, jobs in (("empty", 0), ("full", 60)):
        os.mkdir(f"{folder}/{name}")
        farm = Farm(program, f"{folder}/{name}", [("p1", "plain", [])])
        for _ in range(jobs):
            farm.tell("bea", "/jobs", b'job_name = "large"\ndevice_type = "plain"\n# ' + b"x" * 60000)
        farm.kill()
        made.append(farm.db)
    return made


def main(farm: str, recorder: str, rounds: int, seed: int) -> Tuple[int, int]:
    """Makes so many rounds. Returns how many there were, and how many of them lost a job."""
    chance = random.Random(seed)
    # (in memory, where there is room: what a disk keeps is told by the record)
    with tempfile.TemporaryDirectory(dir="/dev/shm" if os.access("/dev/shm", os.W_OK) else None) as folder:
        before = farms(farm, folder)
        made = [Round(farm, recorder, before[at % 2], random.Random(chance.random())) for at in range(rounds)]
        with concurrent.futures.ThreadPoolExecutor(os.cpu_count()) as pool:
            found = list(pool.map(Round.lost, made))
        bad = sum(1 for lost in found if lost)
        answered = sum(len(it.answered) for it in made)
        print(f"{rounds} rounds, {answered} answered commands, {bad} rounds with lost ones", flush=True)
    return rounds, bad


if __name__ == "__main__":
    from libraries import made as library_of

    NUMBERS = [int(word) for word in sys.argv[2:]]
    NUMBERS += [200, 20261201][len(NUMBERS) :]
    with tempfile.TemporaryDirectory() as built:
        FOUND = main(os.path.realpath(sys.argv[1]), library_of(f"{TESTS}/faults/record.c", built), NUMBERS[0], NUMBERS[1])
    sys.exit(1 if FOUND[1] else 0)
