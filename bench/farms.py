"""Farms in files: the program makes them empty, and the real SQLite fills them."""
from __future__ import annotations

import os
import shutil
import subprocess
from typing import NamedTuple

FEW, MANY = 1_000, 99_000  # finished jobs in a farm; it can have 100,000 jobs
REPLIES = 299_000  # kept replies in a full farm; it can have 300,000
SUBMITTED, RUNNING, FINISHED = 0, 3, 5  # a job's states
WAITING, CANCELED = 0, 4  # a reservation's states
BOARDS = 64  # boards that are added, and rows that a pass changes
TAGS = ["k01", "k02", "k03", "k04", "k05", "k06", "k07", "k16"]
TYPES = "INSERT INTO types VALUES ('aaa', 0, 0), ('bbb', 0, 0), ('ccc', 0, 0), ('ddd', 0, 0);"
JOB_FILE = 'job_name = "boot"\ndevice_type = "bbb"\npriority = 50\ntags = ["k01", "k07"]\n#'.ljust(299, "x") + "\n"

# Each table in order of its key, as the program reads them.
READS = "; ".join(f"SELECT * FROM {table} ORDER BY {key}" for table, key in (
    ("types", "name"), ("boards", "name"), ("jobs", "number"), ("reservations", "number"),
    ("kept", "caller, ckey"), ("meta", "name")))


class Rows(NamedTuple):
    """Rows of a table, one for each number `i` from the first on: terms of SQL under the names of their columns."""

    table: str
    first: int
    many: int
    values: dict[str, str]


def rows(table: str, first: int, count: int, **values: str) -> Rows:
    return Rows(table, first, count, values)


def insertion(path: str, wanted: Rows) -> str:
    """The statement that adds rows. A column that they don't name is 0 or an empty text."""
    asked = f"SELECT name, type FROM pragma_table_info('{wanted.table}')"
    told = subprocess.run(["sqlite3", path, asked], stdout=subprocess.PIPE, check=True, text=True).stdout
    columns = [line.split("|") for line in told.split()]
    terms = [wanted.values.get(name, "0" if kind == "INTEGER" else "''") for name, kind in columns]
    return f"""
        INSERT INTO {wanted.table}
            WITH RECURSIVE n(i) AS (SELECT {wanted.first} UNION ALL SELECT i + 1 FROM n LIMIT {wanted.many})
            SELECT {", ".join(terms)} FROM n;
    """


def clear(path: str) -> None:
    for end in ("", "-wal", "-shm", "-journal"):
        if os.path.exists(path + end):
            os.remove(path + end)


def copy(filled: str, path: str) -> None:
    """A copy that is on the disk, so that no commit has to wait for its pages."""
    clear(path)
    shutil.copy(filled, path)
    with open(path, "rb+") as it:
        os.fsync(it.fileno())


def fill(farm: str, path: str, count: int, *added: Rows | str) -> None:
    """A farm that the desk has made, which the real SQLite fills: four types, so many good boards, and what is added,
    rows or statements."""
    clear(path)
    subprocess.run([farm, "init", "--db", path], stdout=subprocess.DEVNULL, check=True)
    parts: list[Rows | str] = [TYPES, boards(count), *added]
    statements = [insertion(path, it) if isinstance(it, Rows) else it for it in parts]
    last = """
        UPDATE meta SET value = 1700000000 WHERE name = 'clock';
        UPDATE meta SET value = 1 + (SELECT count(*) FROM jobs) + (SELECT count(*) FROM reservations) WHERE name = 'next';
        UPDATE meta SET value = (SELECT count(*) FROM kept) WHERE name = 'count';
    """
    subprocess.run(["sqlite3", path], check=True, input="".join([*statements, last]).encode())


def fill_full(farm: str, path: str, jobs_there: int, reservations: int, replies: int) -> int:
    """A farm of 256 boards and so many finished jobs, canceled reservations and kept replies. Returns the next number."""
    fill(farm, path, 256, finished_jobs(1, jobs_there), canceled_reservations(jobs_there + 1, reservations), kept_replies(replies))
    return jobs_there + reservations + 1


def boards(count: int) -> Rows:
    """Good boards, 64 of each type."""
    return rows("boards", 0, count, name="printf('board-%04d', i)", kind="substr('aaabbbcccddd', i / 64 * 3 + 1, 3)",
                tags=f"'{','.join(TAGS)}'")


def waiting_reservations(count: int) -> Rows:
    """Reservations that have waited in vain, numbered from 1 on."""
    return reservations(1, count, WAITING)


def canceled_reservations(first: int, count: int) -> Rows:
    """Reservations that were canceled, numbered from `first` on."""
    return reservations(first, count, CANCELED)


def reservations(first: int, count: int, state: int) -> Rows:
    return rows("reservations", first, count, number="i", owner="'ann'", priority="50", tags="'k01,k07'", state=str(state),
                deadline="1700000060")


def kept_replies(count: int) -> Rows:
    """Replies of submissions, kept for twenty callers."""
    return rows("kept", 1, count, caller="printf('user-%02d', i % 20)", ckey="printf('key-%08d', i)", kind="5", a="1 + i % 1000")


def jobs(first: int, count: int, state: int, **values: str) -> Rows:
    """Single jobs of 300 bytes, numbered from `first` on."""
    usual = {"number": "i", "grp": "i", "owner": "'ann'", "priority": "50", "kind": "'aaa'", "tags": "'k01,k07'",
             "state": str(state), "body": f"'{JOB_FILE}'"}
    return Rows("jobs", first, count, usual | values)


def waiting_jobs(count: int, kind: str = "'aaa'") -> Rows:
    """Jobs that wait, numbered from 1 on."""
    return jobs(1, count, SUBMITTED, kind=kind)


def finished_jobs(first: int, count: int) -> Rows:
    return jobs(first, count, FINISHED, outcome="1", board="printf('board-%04d', i % 64)")


def running_jobs(first: int) -> tuple[Rows, str]:
    """A job that runs on each of 64 boards, numbered from `first` on, and the boards that they hold."""
    place = "CAST(substr(name, 7) AS INTEGER)"
    held = f"UPDATE boards SET state = 2, holder = 1, held_by = {first} + {place} WHERE {place} < {BOARDS};"
    return jobs(first, BOARDS, RUNNING, board=f"printf('board-%04d', i - {first})"), held


def of_the_first_edition() -> str:
    """A farm of the second edition in which nobody collects, as the first one's tables have it."""
    return """
        UPDATE jobs SET state = state - (state > 0);
        DELETE FROM meta WHERE name = 'collector';
        UPDATE meta SET value = 1 WHERE name = 'schema';
    """
