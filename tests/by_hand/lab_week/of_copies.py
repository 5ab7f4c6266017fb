"""Demands: each copy is the farm after a prefix of the commands."""
from __future__ import annotations

import contextlib
import os
import shutil
import sqlite3
import tempfile
from typing import Any, Dict, List, NamedTuple, Sequence

from lab_week import texts
from lab_week.lab import Command, Copy, Lab

Rows = Dict[str, Any]


def rows_of(db: str, place: str) -> Rows:
    """The rows of a farm's files, which are copied first, so that they stay as they are."""
    for end in ("", "-wal"):
        with contextlib.suppress(FileNotFoundError):
            shutil.copy(db + end, f"{place}/farm.db{end}")
    with contextlib.closing(sqlite3.connect(f"{place}/farm.db")) as conn:
        return {
            "kept": set(conn.execute("select caller, ckey from kept")),
            "jobs": set(conn.execute("select number, grp, owner, kind, role, body from jobs")),
            "reservations": set(conn.execute("select number, owner, tags from reservations")),
            "next": conn.execute("select value from meta where name = 'next'").fetchone()[0],
        }


class Prefix(NamedTuple):
    """A copy's rows, and what it has to have: what was answered before `due`, and nothing that was sent after `killed`."""

    name: str
    rows: Rows
    due: float
    killed: float

    def faults(self, commands: Sequence[Command], final: Rows) -> List[str]:
        """It has no command without all that were answered before that was sent."""
        rows, found = self.rows, []
        mine = [(it, (it.user, it.key) in rows["kept"]) for it in commands]
        newest = max((it.sent for it, is_there in mine if is_there), default=0)
        lost = [it.key for it, is_there in mine if not is_there and it.answered < max(self.due, newest)]
        early = [it.key for it, is_there in mine if is_there and it.sent > self.killed]
        if lost or early:
            found.append(f"{self.name}: lost {lost}, and has {early} that came later")
        for table in ("jobs", "reservations"):
            wanted = {it for it in final[table] if it[0] < rows["next"]}
            if rows[table] != wanted:
                found.append(f"{self.name}: its {table} aren't those below {rows['next']}")
        for it, is_there in mine:
            if it.path in ("/jobs", "/reservations") and is_there != (it.said["number"] < rows["next"]):
                found.append(f"{self.name}: {it.key} made {it.said}, and the next number is {rows['next']}")
        return found


def prefix_in(lab: Lab, name: str, db: str, due: float = 0, killed: float = 0) -> Prefix:
    with tempfile.TemporaryDirectory(dir=lab.room) as place:
        return Prefix(name, rows_of(db, place), due, killed)


def faults_of_keeping(there: Sequence[str], nightly: Sequence[Copy]) -> List[str]:
    """Of the nightly copies the last ones are kept, and no other. `there` is what stands in their folder."""
    last = sorted(os.path.basename(os.path.dirname(it.db)) for it in nightly[-texts.KEEP:])
    kept = sorted(it for it in there if it.startswith("farm-"))
    if kept != last or len(last) != texts.KEEP:
        return [f"the nightly copies {kept} are kept, and the last are {last}"]
    return []


def copies_of(lab: Lab) -> List[Prefix]:
    """The farm at its end, which isn't served any more, and all copies."""
    last = prefix_in(lab, "the farm at its end", lab.farm.db)
    return [last, *(prefix_in(lab, os.path.basename(os.path.dirname(it.db)), *it)
                    for it in [*lab.copies, *lab.nightly[-texts.KEEP:]])]


def faults(found: Sequence[Prefix], commands: Sequence[Command]) -> List[str]:
    return [fault for it in found[1:] for fault in it.faults(commands, found[0].rows)]
