#!/usr/bin/env python3
"""Shows that a later version of the tables takes over a farm of today's:
python3 tests/gate/next_version.py FARM [KILLS] [--rows JOBS RESERVATIONS REPLIES] [--next PROGRAM]

FARM is today's program. The next version's is made of the sources by tests/next/location.patch, which gives boards one
more column, and built without proofs, which takes some ten minutes; --next names one that was. FARM and the real SQLite
make a farm with rows in all states, and so many finished jobs, canceled reservations and kept replies more (--rows;
4,000, 200 and 12,000 where it is absent). It is looked
- that the next program refuses that farm as old, and brings it to its tables by `migrate`, with each row of each table,
  and the new column empty; that FARM refuses it from then on; that both report the same; that a command is accepted;
- that `migrate`, killed KILLS times (100), each after a time by chance, leaves the farm to FARM as it was, and it goes
  over after all, or has brought it over whole;
- that it is so where `migrate` is killed right behind each write, change of length and sync of a small farm's file and
  of its log (tests/faults/pause.c), with a log that was left over and without one.
The last line is 'N passed, M failed, 0 skipped'.
"""
from __future__ import annotations

import argparse
import contextlib
import hashlib
import os
import pathlib
import random
import shutil
import sqlite3
import subprocess
import sys
import tempfile
import time
from typing import Dict, Iterator, List, NamedTuple, Optional, Tuple

sys.dont_write_bytecode = True
TOP = pathlib.Path(__file__).resolve().parents[2]
sys.path[:0] = [str(TOP / it) for it in ("tests/gate", "tests/shared", "bench")]
import edge
import farms
import libraries
from orders import Orders, Ran, request

PATCH = TOP / "tests/next/location.patch"
TODAY, NEXT = 2, 3  # the versions of the tables
ROWS = (4_000, 200, 12_000)  # finished jobs, canceled reservations, kept replies
FEW = (3, 2, 4)  # the same of a small farm
PATIENCE = 900  # seconds for an order
BEGUN = 1_700_000_000  # the clock of a farm that is filled
STOPS = "wpts"  # what is done to a file, by the letters of pause.c
KEYS = {
    "types": "name", "boards": "name", "jobs": "number", "reservations": "number", "kept": "caller, ckey",
    "meta": "name",
}
OLD, NEW, BAD = (Ran(4, "", f"farm: {it}\n") for it in ("63 old schema", "64 new schema", "62 bad store"))
MIGRATED = Ran(0, "migrated\n", "")
REPORTS = ("queue", "boards", "reservations")
JOB = 'job_name = "one"\ndevice_type = "{}"\ntags = ["{}"]\n'
PAIRED = ("board-0252", "board-0253")
AWAY = "board-0252"
LEASED = ("k01", "k07", f"name={AWAY}")
PAIR = 'job_name = "pair"\n[roles.both]\ndevice_type = "ddd"\ncount = 2\ntags = ["pair"]\n'


class Held(NamedTuple):
    """What a file holds: its version, the boards' locations where they have any, and of each table, but for these two,
    how many rows it has, and a digest of them."""

    version: int
    locations: Tuple[str, ...]
    rows: Dict[str, Tuple[int, str]]


class Given(NamedTuple):
    """Today's program and the next, a farm of today's in a file, what that holds, and what today's reports of it."""

    farm: str
    later: str
    file: str
    held: Held
    reports: List[Ran]


class Count:
    """How many looks found what they had to, and how many didn't."""

    def __init__(self) -> None:
        self.passed = self.failed = 0

    def look(self, what: str, wrong: str) -> None:
        """Counts a look, and says what it found wrong, if anything."""
        self.passed += not wrong
        self.failed += bool(wrong)
        if wrong:
            print(f"{what}: {wrong}", flush=True)

    def same(self, what: str, found: object, wanted: object) -> None:
        self.look(what, "" if found == wanted else f"it is {str(found)[:400]}, and not {str(wanted)[:400]}")


# --- farms in files ---


@contextlib.contextmanager
def copied(file: str) -> Iterator[str]:
    """A copy of a farm's file and of its log, for a while."""
    with tempfile.TemporaryDirectory(dir=os.path.dirname(file)) as folder:
        for end in ("", "-wal"):
            if os.path.exists(file + end):
                shutil.copy(file + end, f"{folder}/lab.db{end}")
        yield f"{folder}/lab.db"


def ran(program: str, *words: str, given: bytes = b"", around: Optional[Dict[str, str]] = None) -> Ran:
    """How an order ended, also over a farm so large that it takes minutes."""
    it = subprocess.run(
        [program, *words], input=given, capture_output=True, check=False, timeout=PATIENCE,
        env={**os.environ, **(around or {})},
    )
    return Ran(it.returncode, it.stdout.decode(), it.stderr.decode())


def migrate(program: str, file: str, around: Optional[Dict[str, str]] = None) -> Ran:
    return ran(program, "migrate", "--db", file, around=around)


def digest_of(conn: sqlite3.Connection, table: str) -> Tuple[int, str]:
    """How many rows a table has without those of later versions alone, and a digest of them in order of their keys."""
    names = [it for it, in conn.execute(f"SELECT name FROM pragma_table_info('{table}')") if it != "location"]
    rest = "WHERE name <> 'schema'" if table == "meta" else ""
    count, digest = 0, hashlib.sha256()
    for row in conn.execute(f"SELECT {', '.join(names)} FROM {table} {rest} ORDER BY {KEYS[table]}"):
        digest.update(repr(row).encode())
        count += 1
    return count, digest.hexdigest()


def held(file: str) -> Held:
    """What a file holds, as the real SQLite reads a copy of it; an error where it finds that damaged."""
    with copied(file) as copy, contextlib.closing(sqlite3.connect(copy)) as conn:
        whole = conn.execute("PRAGMA integrity_check").fetchall()
        tables = [it for it, in conn.execute("SELECT name FROM sqlite_master WHERE type = 'table' ORDER BY rowid")]
        if (whole, tables) != ([("ok",)], list(KEYS)):
            raise sqlite3.DatabaseError(f"{whole} {tables}")
        version = conn.execute("SELECT value FROM meta WHERE name = 'schema'").fetchone()[0]
        has_location = conn.execute("SELECT 1 FROM pragma_table_info('boards') WHERE name = 'location'").fetchone()
        locations = conn.execute("SELECT DISTINCT location FROM boards").fetchall() if has_location else []
        return Held(version, tuple(it for it, in locations), {it: digest_of(conn, it) for it in tables})


def reports(program: str, file: str) -> List[Ran]:
    """What a program reports of a copy."""
    with copied(file) as copy:
        return [ran(program, "report", "--db", copy, it) for it in REPORTS]


def given(farm: str, later: str, file: str) -> Given:
    return Given(farm, later, file, held(file), reports(farm, file))


def ready(farm: Orders) -> None:
    """Boards of each health, a type that is checked, two boards for pairs, of which one is away."""
    at = BEGUN + 100
    farm.tell("/types", body={"name": "eee", "check": "hours", "every": 24}, at=at)
    farm.tell("/boards", body={"name": "checked", "type": "eee", "tags": ["usb"]}, at=at)
    for name in PAIRED:
        farm.tell(f"/boards/{name}/tags", body={"tags": ["pair"]}, at=at)
    healths = {"checked": "Good", "board-0063": "Bad", "board-0127": "Unknown", "board-0190": "Retired"}
    for name, health in {**healths, AWAY: "Maintenance"}.items():
        farm.tell(f"/boards/{name}/health", body={"health": health}, at=at)


def lively(farm: Orders) -> None:
    """Jobs and reservations in all states: a pass serves those that come first, later ones a group that collects."""
    at = BEGUN + 200
    jobs = [farm.tell("/jobs", "ann", JOB.format("aaa", "k01"), f"job-{it}", at)["number"] for it in range(6)]
    leases = [farm.tell("/reservations", "bob", {"tags": [it]}, f"lease-{it[-3:]}", at)["number"] for it in LEASED]
    farm.tell("/pass", "dispatcher", at=at)
    for job in jobs[:4]:
        farm.tell(f"/jobs/{job}/start", "dispatcher", at=at + 1)
    farm.tell(f"/jobs/{jobs[0]}/finish", "dispatcher", {"outcome": "Complete"}, at=at + 2)
    farm.tell(f"/jobs/{jobs[1]}/finish", "dispatcher", {"outcome": "Infra"}, at=at + 2)
    farm.tell(f"/jobs/{jobs[2]}/cancel", "ann", at=at + 2)
    farm.tell(f"/jobs/{jobs[4]}/cancel", "ann", at=at + 2)
    farm.tell(f"/reservations/{leases[0]}/acquire", "bob", at=at + 2)
    at += 100
    farm.tell("/jobs", "ann", PAIR, "pair", at)
    farm.tell("/jobs", "eve", JOB.format("ddd", "pair"), "late", at)
    last = [farm.tell("/reservations", "eve", {"tags": [it]}, at=at)["number"] for it in LEASED]
    farm.tell(f"/reservations/{last[1]}/cancel", "eve", at=at)
    farm.tell("/pass", "dispatcher", at=at)


def fill(farm: Orders, jobs: int, reservations: int, replies: int) -> None:
    """Makes a farm with rows in all states, and so many more that are of no use any more."""
    file = farm.path(farm.db)
    farms.fill(farm.program, file, 254)
    ready(farm)
    lively(farm)
    begin = farm.look("/status", at=BEGUN + 300)["next"]
    canceled = farms.canceled_reservations(begin + jobs, reservations)
    added = (farms.finished_jobs(begin, jobs), canceled, farms.kept_replies(replies))
    script = [farms.insertion(file, it) for it in added]
    script.append(f"UPDATE meta SET value = value + {jobs + reservations} WHERE name = 'next';")
    script.append(f"UPDATE meta SET value = value + {replies} WHERE name = 'count';")
    subprocess.run(["sqlite3", file], input="".join(script).encode(), check=True)


def states(file: str) -> Tuple[List[int], List[int], bool]:
    """The states that jobs and reservations of a farm have, and whether a group collects."""
    with copied(file) as copy, contextlib.closing(sqlite3.connect(copy)) as conn:
        jobs, leases = (sorted(conn.execute(f"SELECT DISTINCT state FROM {it}")) for it in ("jobs", "reservations"))
        collector = conn.execute("SELECT value FROM meta WHERE name = 'collector'").fetchone()[0]
    return [it for it, in jobs], [it for it, in leases], collector > 0


# --- what is looked at ---


def next_program(folder: pathlib.Path) -> str:
    """The program of the sources with the patch."""
    copy = edge.copied(folder)
    around = {**os.environ, "GIT_CEILING_DIRECTORIES": str(folder)}
    subprocess.run(["git", "apply", str(PATCH)], cwd=copy, env=around, check=True)
    return str(edge.compiled(copy / "crates/farm", folder))


def wrong_over(after: str, before: Given) -> str:
    """What is wrong with a farm that went over: nothing where it has all that it had, and each board an empty place."""
    if (found := held(after)) != Held(NEXT, ("",), before.held.rows):
        return f"it went over as {str(found)[:400]}"
    return "" if reports(before.later, after) == before.reports else "it reports something else"


def wrong_left(left: str, before: Given) -> Tuple[bool, str]:
    """Whether a farm that a killed `migrate` left went over, and what is wrong with it."""
    went = reports(before.later, left) != [OLD] * len(REPORTS)
    try:
        if went:
            return True, wrong_over(left, before)
        if (held(left), reports(before.farm, left)) != (before.held, before.reports):
            return False, "it isn't what it was"
        with copied(left) as copy:
            again = migrate(before.later, copy)
            return False, wrong_over(copy, before) if again == MIGRATED else f"later it doesn't go over: {again}"
    except sqlite3.Error as fault:
        return went, f"SQLite finds it damaged: {fault}"


def goes_over(count: Count, before: Given) -> None:
    """The farm is old to the next program, and goes over."""
    count.same("the next program reports", reports(before.later, before.file), [OLD] * len(REPORTS))
    with copied(before.file) as copy:
        asked = request("GET", "/status", {})
        count.same("it answers", ran(before.later, "once", "--db", copy, "--at", str(BEGUN + 400), given=asked), OLD)
        count.same("migrate", migrate(before.later, copy), MIGRATED)
        count.look("the farm then", wrong_over(copy, before))
        count.same("a second migrate", migrate(before.later, copy), NEW)
        count.same("FARM reports then", reports(before.farm, copy), [BAD] * len(REPORTS))
        orders = Orders(before.later, os.path.dirname(copy), os.path.basename(copy))
        counted = orders.look("/status", at=BEGUN + 400)["count"]
        orders.tell("/boards", body={"name": "new", "type": "eee", "tags": []}, at=BEGUN + 400)
        orders.tell("/boards/new/health", body={"health": "Good"}, at=BEGUN + 400)
        count.same("commands are counted", orders.look("/status", at=BEGUN + 400)["count"], counted + 2)
        after, boards = held(copy), before.held.rows["boards"][0] + 1
        count.same("the locations then", (after.locations, after.rows["boards"][0]), (("",), boards))


def seconds_until_killed(later: str, file: str, after: float) -> Optional[float]:
    """How long a `migrate` took; nothing where it was killed, after so many seconds."""
    began = time.monotonic()
    try:
        subprocess.run([later, "migrate", "--db", file], stdout=subprocess.DEVNULL, timeout=after, check=True)
    except subprocess.TimeoutExpired:  # (it was killed)
        return None
    return time.monotonic() - began


def killed_by_chance(count: Count, before: Given, kills: int) -> None:
    """Kills within the time that the last one took that ended, or somewhat later: a loaded machine changes its pace."""
    late = over = number = 0
    with copied(before.file) as copy:
        usual = seconds_until_killed(before.later, copy, PATIENCE) or 0.0
    while number < kills and late < 3 * kills:
        with copied(before.file) as copy:
            after = random.uniform(0, usual)
            seconds = seconds_until_killed(before.later, copy, after)
            if seconds is not None:
                late, usual = late + 1, seconds
                continue
            number, usual = number + 1, usual * 1.05
            went, wrong = wrong_left(copy, before)
        over += went
        count.look(f"kill {number}, after {after:.4f} s", wrong)
    count.same("kills by chance", number, kills)
    print(f"kills by chance: {number}, of which {over} came when it had gone over; {late} came too late", flush=True)


def killed_at(count: Count, name: str, place: Dict[str, str], before: Given) -> bool:
    """Whether there is that stop; what is left behind it is looked at."""
    with copied(before.file) as copy:
        ended = migrate(before.later, copy, {**place, "PAUSED": copy + place["PAUSED"], "PAUSE": "kill -9 $PPID"})
        if ended.status != -9:
            count.same(f"{name}, to its end", ended, MIGRATED)
            return False
        went, wrong = wrong_left(copy, before)
    count.look(f"{name}, which went over: {went}", wrong)
    return True


def killed_at_stops(count: Count, name: str, before: Given) -> None:
    """Kills behind each of what is done to the file and to its log."""
    library = libraries.made(f"{TOP}/tests/faults/pause.c", os.path.dirname(before.file))
    for end in ("", "-wal"):
        stops = {it: 0 for it in STOPS}
        for what in STOPS:
            place = {"LD_PRELOAD": library, "PAUSED": end, "PAUSE_AT": f"{what}1"}
            while killed_at(count, f"{name}, killed at {place['PAUSE_AT']} of lab.db{end}", place, before):
                stops[what] += 1
                place["PAUSE_AT"] = f"{what}{stops[what] + 1}"
        count.look(f"{name}, kills by lab.db{end}", "" if any(stops.values()) else "there was none")
        print(f"{name}, kills by lab.db{end}: {stops}", flush=True)


def main(words: argparse.Namespace) -> int:
    count = Count()
    with tempfile.TemporaryDirectory() as place:
        folder = os.path.realpath(place)
        farm, later = os.path.realpath(words.farm), os.path.realpath(words.next or next_program(pathlib.Path(folder)))
        large, small = Orders(farm, folder, "large.db"), Orders(farm, folder, "small.db")
        fill(large, *words.rows)
        count.same("the states in the farm", states(large.path(large.db)), (list(range(6)), list(range(5)), True))
        before = given(farm, later, large.path(large.db))
        count.same("the version of its tables", before.held.version, TODAY)
        print("rows:", ", ".join(f"{many} {it}" for it, (many, _) in before.held.rows.items()), flush=True)
        goes_over(count, before)
        killed_by_chance(count, before, words.kills)
        fill(small, *FEW)
        file = small.path(small.db)
        assert not os.path.exists(f"{file}-wal")
        killed_at_stops(count, "without a log", given(farm, later, file))
        small.tell("/types", body={"name": "last"}, at=BEGUN + 400)
        assert os.path.getsize(f"{file}-wal") > 0
        killed_at_stops(count, "with a log", given(farm, later, file))
    print(f"{count.passed} passed, {count.failed} failed, 0 skipped")
    return 1 if count.failed else 0


if __name__ == "__main__":
    parser = argparse.ArgumentParser()
    parser.add_argument("farm")
    parser.add_argument("kills", nargs="?", type=int, default=100)
    parser.add_argument("--rows", nargs=3, type=int, default=ROWS)
    parser.add_argument("--next")
    sys.exit(main(parser.parse_args()))
