#!/usr/bin/env python3
"""Cuts the power while the program works: python3 tests/faults/power_cuts.py bin/farm [CUTS [SEED]]

A program that is killed leaves what the system still holds; a power cut doesn't. Here each write, change
of length, sync and removal of the program's two files is written down (tests/faults/record.c, preloaded), in seven
lives of a farm: `init`, an import, commands of a day, large jobs until the log has been carried into the
file several times, a start after a cut, and the upgrades of a small and of a large farm of the first edition
(tests/shared/first_edition). Then the two files are made as a cut at any place of that record
could leave them: all that was synced, and of the sectors of 512 bytes that were written since then none,
all, each by chance, all but one, or the last alone. Each pair is opened by the program: it holds exactly
the farm after some number of commands, no fewer than had been answered and no more than had been begun,
by its reports, by its status and, row by row, by SQLite; and the next command is done. After a cut within
`init` there is no farm, or the empty one, and `init` is done again; after one within an upgrade there is the old
farm or the new one, and the old one is upgraded to just the new one.

What isn't tried: a disk that tears a sector, or forgets what it said is synced, and a folder that forgets
a file's name once it is synced.

CUTS different pairs are tried, 10,000 where no number is given: some 20 minutes on four processors. SEED is where
chance begins. test_by_chance.py tries 100, and fewer large jobs. Wants what tests/shared/libraries.py wants.
"""
from __future__ import annotations

import bisect
import concurrent.futures
import contextlib
import gzip
import hashlib
import json
import os
import random
import shutil
import socket
import sqlite3
import struct
import subprocess
import sys
import tempfile
from typing import Any, Dict, Generator, Iterator, List, Optional, Tuple

TESTS = os.path.dirname(os.path.dirname(os.path.realpath(__file__)))
sys.path.append(os.path.join(TESTS, "shared"))
from ports import free_port  # noqa: E402

SECTOR = 512
TABLES = ["types", "boards", "jobs", "reservations", "kept", "meta"]
REPORTS = ["boards", "queue", "reservations"]
NO_FARM = "farm: 60 store fault\n"
OLD_FARM = "farm: 63 old schema\n"
STATUS = b"GET /status HTTP/1.1\r\n\r\n"


FARM = RECORDER = ""  # the program, and the library of record.c
Part = Tuple[str, int, bytes]  # a write ("w"), change of length or removal of a file, its offset and its bytes
Cut = Tuple[str, Dict[str, Optional[bytes]], int, int]
Requests = Generator[bytes, Any, None]


def request(caller: str, path: str, body: str = "", key: Optional[str] = None) -> bytes:
    """The bytes of a command."""
    kept = f"x-key: {key}\r\n" if key else ""
    return f"POST {path} HTTP/1.1\r\nx-user: {caller}\r\n{kept}content-length: {len(body)}\r\n\r\n{body}".encode()


# ---- what a farm is, seen from outside


def ask(db: str, bytes_in: bytes, at: int = 1700000000) -> Tuple[int, bytes]:
    """The answer of one conversation over the farm of a file."""
    words = [FARM, "once", "--db", db, "--at", str(at)]
    done = subprocess.run(words, input=bytes_in, capture_output=True, check=False)
    return done.returncode, done.stdout + done.stderr


def rows(db: str) -> Optional[List[List[Any]]]:
    """All rows of the six tables, as SQLite reads them; it may move the log into the file."""
    with contextlib.closing(sqlite3.connect(db)) as conn:
        if conn.execute("pragma integrity_check").fetchall() != [("ok",)]:
            return None
        return [sorted(conn.execute(f"select * from {table}").fetchall()) for table in TABLES]


def seen(db: str) -> str:
    """A digest of all that a farm shows; the fault where the program finds none."""
    shown = [ask(db, STATUS)]
    if shown[0][0] and shown[0][1].decode() != OLD_FARM:
        return shown[0][1].decode()
    for report in REPORTS:
        done = subprocess.run([FARM, "report", "--db", db, report], capture_output=True, check=False)
        shown.append((done.returncode, done.stdout + done.stderr))
    place = tempfile.mkdtemp(dir=os.path.dirname(db))
    found = rows(copied(db, place))
    shutil.rmtree(place)
    if found is None:
        return "SQLite finds the file damaged"
    return hashlib.sha256(repr((shown, found)).encode()).hexdigest()


def copied(db: str, folder: str) -> str:
    """A copy of a farm's two files in a folder of its own."""
    place = tempfile.mkdtemp(dir=folder)
    for end in ("", "-wal"):
        if os.path.exists(db + end):
            shutil.copy(db + end, f"{place}/farm.db{end}")
    return f"{place}/farm.db"


def seen_in_copy(db: str, folder: str) -> str:
    """What a farm shows that goes on being used."""
    copy = copied(db, folder)
    try:
        return seen(copy)
    finally:
        shutil.rmtree(os.path.dirname(copy))


def bytes_in(file: str) -> bytes:
    with open(file, "rb") as opened:
        return opened.read()


def write(file: str, held: Optional[bytes]) -> None:
    """Makes a file of these bytes, or none."""
    if held is not None:
        with open(file, "wb") as opened:
            opened.write(held)


# ---- lives: what was recorded, and which farms stood when


class Life:
    """A recorded run: the files that it began with, its record, and its farms.

    `farms[n]` is what the farm shows after n commands, and `begun[n]`, `answered[n]` say how long the record
    was before command n (from 1) and after its answer. `farms[0]` stands before the first.
    """

    def __init__(self, name: str, folder: str, before: str = ""):
        self.name = name
        self.place = tempfile.mkdtemp(dir=folder)
        self.db = f"{self.place}/farm.db"
        self.record = f"{self.place}/record"
        self.start: Dict[str, bytes] = {}
        for end in ("", "-wal"):
            if before and os.path.exists(before + end):
                shutil.copy(before + end, self.db + end)
                self.start[end] = bytes_in(before + end)
        write(self.record, b"")
        self.environment = {**os.environ, "LD_PRELOAD": RECORDER, "RECORD": self.record, "RECORDED": self.db}
        self.farms: List[str] = []
        self.begun = [0]
        self.answered = [0]

    def run(self, words: List[str]) -> "subprocess.CompletedProcess[bytes]":
        return subprocess.run([FARM, *words], env=self.environment, capture_output=True, check=False)

    def length(self) -> int:
        return os.path.getsize(self.record)

    def entries(self) -> Iterator[Tuple[int, str, Optional[str], int, bytes]]:
        """The record's entries, each with the place in the record where it begins."""
        text = bytes_in(self.record)
        at = 0
        while at < len(text):
            begin, what = at, chr(text[at])
            size, offset, count = struct.unpack_from("<QQQ", text, at + 1)
            at += 25
            path = text[at : at + size].decode()
            at += size
            data = b""
            if what == "w":
                data = text[at : at + count]
                at += count
            yield begin, what, path[len(self.db) :], offset, data

    def carried(self) -> int:
        """How many times the log was carried into the file: the file was synced behind writes to it."""
        kinds = [what for _, what, end, _, _ in self.entries() if end == "" and what in "ws"]
        return sum(1 for at in range(1, len(kinds)) if kinds[at - 1 : at + 1] == ["w", "s"])


def life_of_init(folder: str) -> Life:
    life = Life("init", folder)
    life.farms.append(NO_FARM)
    life.begun.append(life.length())
    assert life.run(["init", "--db", life.db]).stdout == b"ready\n"
    life.answered.append(life.length())
    life.farms.append(seen_in_copy(life.db, folder))
    return life


def life_of_import(folder: str, before: str) -> Life:
    """An import: its commands are answered as one, and each may be the last that is done."""
    life = Life("an import", folder, before)
    life.farms.append(seen_in_copy(life.db, folder))
    items = [f"[types.t{n}]\ncheck = \"jobs\"\nevery = {n}\n" for n in range(1, 6)]
    items += [f"[boards.b{n:02}]\ntype = \"t{n % 5 + 1}\"\ntags = [\"serial\", \"rack={n}\"]\n" for n in range(20)]
    for n in range(1, len(items) + 1):
        copy = copied(before, folder)
        lab = f"{copy}.toml"
        write(lab, "\n".join(items[:n]).encode())
        words = [FARM, "import", "--db", copy, "--at", "1700000000", lab]
        done = subprocess.run(words, capture_output=True, check=False)
        assert done.stdout == f"accepted {n}, kept 0\n".encode(), done.stderr
        life.farms.append(seen(copy))
        life.begun.append(0)
        shutil.rmtree(os.path.dirname(copy))
    lab = f"{life.db}.toml"
    write(lab, "\n".join(items).encode())
    assert life.run(["import", "--db", life.db, "--at", "1700000000", lab]).returncode == 0
    life.answered += [life.length()] * len(items)
    return life


def conversation(port: int, sent: bytes) -> bytes:
    with socket.create_connection(("127.0.0.1", port)) as stream:
        stream.sendall(sent)
        answer = b""
        while more := stream.recv(65536):
            answer += more
    return answer


def life_of_serving(name: str, folder: str, before: str, requests: Requests) -> Life:
    """A served farm: each request is answered 200 before the next is sent, which may go by that answer."""
    life = Life(name, folder, before)
    life.farms.append(seen_in_copy(life.db, folder))
    port = free_port()
    words = [FARM, "serve", "--db", life.db, "--port", str(port), "--max", "1000000"]
    server = subprocess.Popen(words, env=life.environment, stdout=subprocess.PIPE)
    try:
        assert server.stdout is not None
        server.stdout.readline()
        sent: Optional[bytes] = next(requests)
        while sent:
            life.begun.append(life.length())
            answer = conversation(port, sent)
            life.answered.append(life.length())
            assert answer.startswith(b"HTTP/1.1 200 "), f"{name}: {sent[:80]!r} was answered {answer!r}"
            life.farms.append(seen_in_copy(life.db, folder))
            body = json.loads(answer.partition(b"\r\n\r\n")[2])
            try:
                sent = requests.send(body)
            except StopIteration:
                sent = None
    finally:
        server.kill()
        server.communicate()
    return life


def day() -> Requests:
    """Commands of a day, over the boards of the import."""
    requests = [request("admin", f"/boards/b{n:02}/health", '{"health":"Good"}') for n in range(6)]
    texts = [f'job_name = "boot"\ndevice_type = "t{n % 3 + 1}"\n' for n in range(6)]
    requests += [request("ann", "/jobs", text, key=f"j{n}") for n, text in enumerate(texts)]
    requests += [request("bea", "/reservations", '{"tags":["serial"]}') for _ in range(3)]
    requests += [request("dispatcher", "/pass")]
    requests += [request("dispatcher", "/jobs/1/start")]
    requests += [request("dispatcher", "/jobs/1/finish", '{"outcome":"Complete"}')]
    requests += [request("ann", "/jobs/2/cancel", key="c2"), request("ann", "/jobs/2/cancel", key="c2")]
    requests += [request("bea", "/reservations/7/acquire"), request("bea", "/reservations/7/release")]
    requests += [request("dispatcher", "/pass"), request("bea", "/reservations/8/cancel")]
    for it in requests:
        yield it


def large_jobs(number: int) -> Requests:
    """Jobs of sixty thousand bytes each, one after another: each is given a board, started and finished, and
    each time its row is written anew."""
    yield request("admin", "/types", '{"name":"plain"}')
    yield request("admin", "/boards", '{"name":"p1","type":"plain"}')
    yield request("admin", "/boards/p1/health", '{"health":"Good"}')
    text = 'job_name = "large"\ndevice_type = "plain"\n# ' + "x" * 60000 + "\n"
    for _ in range(number):
        job = (yield request("ann", "/jobs", text))["number"]
        yield request("dispatcher", "/pass")
        yield request("dispatcher", f"/jobs/{job}/start")
        yield request("dispatcher", f"/jobs/{job}/finish", '{"outcome":"Complete"}')


def more_jobs(number: int) -> Requests:
    """Some more of them, canceled."""
    text = 'job_name = "large"\ndevice_type = "plain"\n# ' + "x" * 60000 + "\n"
    for at in range(number):
        job = (yield request("ann", "/jobs", text, key=f"m{at}"))["number"]
        yield request("ann", f"/jobs/{job}/cancel")


# ---- cuts


class File:
    """What a file surely holds, and what was done to it since it was synced."""

    def __init__(self, held: Optional[bytes]):
        self.held = held
        self.since: List[Part] = []

    def sync(self) -> None:
        """A file that is synced is there, if only without a byte."""
        self.held = self.left(self.since) or b""
        self.since = []

    def left(self, done: List[Part]) -> Optional[bytes]:
        """What the file holds where these of the parts that wait were done; None where there is no file."""
        if not done:
            return self.held
        held = bytearray(self.held or b"")
        for what, offset, data in done:
            if what == "t":
                held = held[:offset] + bytes(max(0, offset - len(held)))
            elif what == "u":
                return None
            else:
                held += bytes(max(0, offset + len(data) - len(held)))
                held[offset : offset + len(data)] = data
        return bytes(held)


def sectors(offset: int, data: bytes) -> Iterator[Part]:
    """A write in parts, each within one sector."""
    while data:
        count = min(len(data), SECTOR - offset % SECTOR)
        yield "w", offset, data[:count]
        offset, data = offset + count, data[count:]


def chosen(chance: random.Random, since: List[Part], way: str) -> List[Part]:
    """Some of the parts that wait."""
    if way == "none":
        return []
    if way == "all":
        return since
    if way == "all but one":
        gone = chance.randrange(len(since)) if since else 0
        return since[:gone] + since[gone + 1 :]
    if way == "the last alone":
        return since[-1:]
    weight = chance.random()
    return [part for part in since if chance.random() < weight]


WAYS = ["none", "all", "all but one", "the last alone", "by chance", "by chance", "by chance"]


def cuts(life: Life, chance: random.Random, share: float) -> Iterator[Cut]:
    """Of each place of a life's record and each way a share by chance: the files that such a cut could leave."""
    files = {end: File(life.start.get(end)) for end in ("", "-wal")}
    for begin, what, end, offset, data in [*life.entries(), (life.length(), "", None, 0, b"")]:
        answered = bisect.bisect_right(life.answered, begin) - 1
        # (a command that wrote nothing begins and is answered at one place)
        begun = max(bisect.bisect_left(life.begun, begin) - 1, answered)
        for way in WAYS:
            if chance.random() < share:
                left = {end: it.left(chosen(chance, it.since, way)) for end, it in files.items()}
                yield f"{life.name}, before byte {begin} of the record, {way}", left, answered, begun
        if end is None or end not in files:
            continue
        if what == "s":
            files[end].sync()
        elif what == "w":
            files[end].since += sectors(offset, data)
        else:
            files[end].since.append((what, offset, b""))


def different(life: Life, number: int, chance: random.Random) -> Iterator[Cut]:
    """So many different pairs of files of a life, by chance; fewer where there are no more."""
    known = set()
    places = sum(1 for _ in life.entries()) + 1
    for _ in range(40):
        for cut in cuts(life, chance, min(1, number / places / len(WAYS))):
            _, left, answered, begun = cut
            digest = hashlib.sha256(b"%d %d" % (answered, begun))
            for held in left.values():
                digest.update(b"none" if held is None else hashlib.sha256(held).digest())
            if digest.digest() not in known:
                known.add(digest.digest())
                yield cut
            if len(known) == number:
                return


def life_of_upgrading(name: str, folder: str, before: str) -> Life:
    """A farm of the first edition that is migrated."""
    life = Life(name, folder, before)
    assert ask(life.db, STATUS)[1].decode() == OLD_FARM, f"{name}: there is no farm of the first edition"
    life.farms.append(seen_in_copy(life.db, folder))
    life.begun.append(0)
    assert life.run(["migrate", "--db", life.db]).stdout == b"migrated\n", name
    life.answered.append(life.length())
    life.farms.append(seen_in_copy(life.db, folder))
    return life


def first_edition(folder: str) -> Tuple[str, str]:
    """The farm that the first edition's program made, and one of it with large jobs more."""
    small = f"{tempfile.mkdtemp(dir=folder)}/farm.db"
    for end in ("", "-wal"):
        with gzip.open(f"{TESTS}/shared/first_edition/lab.db{end}.gz") as packed:
            write(small + end, packed.read())
    large = copied(small, folder)
    with contextlib.closing(sqlite3.connect(large)) as conn:
        last = conn.execute("select value from meta where name = 'next'").fetchone()[0]
        text = 'job_name = "large"\ndevice_type = "qemu-aarch64"\n# ' + "x" * 60000 + "\n"
        row = "0, 'ann', 50, 'qemu-aarch64', '', '', 4, 1, 'qemu-01'"
        for number in range(last, last + 8):
            conn.execute(f"insert into jobs values ({number}, {number}, {row}, ?)", (text,))
        conn.execute("update meta set value = ? where name = 'next'", (last + 8,))
        conn.commit()
    return small, large


def begins_again(db: str) -> bool:
    """Whether an `init` that was cut off is done again, at the latest once what it left is removed."""
    for _ in range(2):
        if subprocess.run([FARM, "init", "--db", db], capture_output=True, check=False).stdout == b"ready\n":
            return True
        for end in ("", "-wal"):
            with contextlib.suppress(FileNotFoundError):
                os.remove(db + end)
    return False


def opens(life: Life, cut: Cut, folder: str) -> None:
    """Opens what a cut left, which has to be a farm as it should be."""
    where, left, answered, begun = cut
    place = tempfile.mkdtemp(dir=folder)
    db = f"{place}/farm.db"
    for end, held in left.items():
        write(db + end, held)
    found = seen(db)
    wrong = ""
    if found == life.farms[0] and ask(db, STATUS)[1].decode() == OLD_FARM:
        subprocess.run([FARM, "migrate", "--db", db], capture_output=True, check=False)
        found = found if answered == 0 and seen(db) == life.farms[1] else "another one, once it is upgraded"
    if found not in life.farms[answered : begun + 1]:
        at = str(life.farms.index(found)) if found in life.farms else found
        wrong = f"{where}: {answered} commands were answered and {begun} begun, and the farm is {at}"
    elif found != NO_FARM and ask(db, request("admin", "/types", '{"name":"after"}'))[0]:
        wrong = f"{where}: the next command is refused"
    elif found == NO_FARM and not begins_again(db):
        wrong = f"{where}: init isn't done again"
    shutil.rmtree(place)
    if wrong:
        place = tempfile.mkdtemp(prefix="power-cut-")
        for end, held in left.items():
            write(f"{place}/farm.db{end}", held)
        raise AssertionError(f"{wrong}; the files are left in {place}")


def tried(life: Life, number: int, chance: random.Random, folder: str) -> int:
    """Tries so many pairs of files of a life; ends at the first that is wrong. Returns how many there were."""
    count = 0
    with concurrent.futures.ThreadPoolExecutor(os.cpu_count()) as pool:
        waiting: "List[concurrent.futures.Future[None]]" = []
        for cut in different(life, number, chance):
            waiting.append(pool.submit(opens, life, cut, folder))
            if len(waiting) > 64:
                waiting.pop(0).result()
            count += 1
        for it in waiting:
            it.result()
    syncs = sum(1 for it in life.entries() if it[1] == "s")
    print(
        f"{life.name}: {count} pairs of files, {len(life.farms) - 1} commands, {syncs} syncs, "
        f"the log carried into the file {life.carried()} times", flush=True,
    )
    return count


def main(farm: str, recorder: str, number: int, seed: int, jobs: int = 24) -> int:
    """Tries so many pairs of files, of a farm that had so many large jobs among others. Returns how many there were."""
    global FARM, RECORDER
    FARM, RECORDER = farm, recorder
    chance = random.Random(seed)
    # (in memory, where there is room: what a disk keeps is told by the record)
    with tempfile.TemporaryDirectory(dir="/dev/shm" if os.access("/dev/shm", os.W_OK) else None) as folder:
        empty = life_of_init(folder)
        lab = life_of_import(folder, empty.db)
        busy = life_of_serving("a day", folder, lab.db, day())
        full = life_of_serving("large jobs", folder, busy.db, large_jobs(jobs))
        assert full.carried() >= 2, f"the log was carried into the file {full.carried()} times"
        parts = ((empty, 1), (lab, 4), (busy, 7), (full, 4))
        sums = [tried(life, number * part // 20, chance, folder) for life, part in parts]
        left = next(cut for cut in cuts(full, chance, 0.05) if cut[2] > 3 * jobs)[1]
        again = f"{tempfile.mkdtemp(dir=folder)}/farm.db"
        for end, held in left.items():
            write(again + end, held)
        after = life_of_serving("a start after a cut", folder, again, more_jobs(4))
        names = ("an upgrade", "an upgrade of large jobs")
        for name, old in zip(names, first_edition(folder)):
            sums.append(tried(life_of_upgrading(name, folder, old), number // 20, chance, folder))
        sums.append(tried(after, max(number - sum(sums), 0), chance, folder))
        return sum(sums)


if __name__ == "__main__":
    from libraries import made

    NUMBERS = [int(word) for word in sys.argv[2:]]
    NUMBERS += [10000, 20261124][len(NUMBERS) :]
    with tempfile.TemporaryDirectory() as built:
        COUNT = main(os.path.realpath(sys.argv[1]), made(f"{TESTS}/faults/record.c", built), NUMBERS[0], NUMBERS[1])
        print(f"{COUNT} pairs of files, each the farm after some command")
