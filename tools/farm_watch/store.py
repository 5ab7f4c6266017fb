"""What farm-watch keeps over its lives, in an SQLite file: what it saw of the farm at its last
look, and what it has to tell.

A look's events and what was seen by it are kept in one commit, so an event is kept once however
often the process is killed. Each event has a delivery for each way of telling it. A delivery is
noted before it is tried, with the moment of the next try, and once it is done.
"""
import contextlib
import json
import secrets
import sqlite3
import threading
import time
from typing import Any, Dict, Iterator, NamedTuple, Optional, Sequence

TABLES = """
CREATE TABLE IF NOT EXISTS seen (kind TEXT, key TEXT, value TEXT NOT NULL, PRIMARY KEY (kind, key));
CREATE TABLE IF NOT EXISTS events (
    number INTEGER PRIMARY KEY AUTOINCREMENT, name TEXT UNIQUE NOT NULL, at INTEGER NOT NULL,
    body TEXT NOT NULL);
CREATE TABLE IF NOT EXISTS deliveries (
    event INTEGER REFERENCES events, way TEXT, tries INTEGER NOT NULL, due REAL NOT NULL,
    done REAL, PRIMARY KEY (event, way));
CREATE INDEX IF NOT EXISTS waiting ON deliveries (way, due) WHERE done IS NULL;
"""
DAY = 86400
FIRST_WAIT, LONGEST_WAIT = 5.0, 3600.0
GIVES_UP, KEPT = 5 * DAY, 90 * DAY  # a delivery is tried so long; an event is kept so long


class Event(NamedTuple):
    """Something that is told once. `name` is its own; `body` what a program reads of it, and whom it is told to: nobody
    where it is for the admins."""

    name: str
    at: int
    ways: Sequence[str]
    body: Dict[str, Any]


class Delivery(NamedTuple):
    """An event on one way: `ident` is the same at each try, and no other's."""

    number: int
    ident: str
    tries: int
    at: int
    body: Dict[str, Any]


# What was seen, by its kinds: the farm's own numbers; open groups of jobs and
# reservations that wait, with their owners; the holds that may be ended, and all (farm_watch.holds).
Seen = Dict[str, Dict[str, Any]]
KINDS = ("farm", "groups", "waiting", "endings", "held")


def nothing() -> Seen:
    return {kind: {} for kind in KINDS}


class Store:
    """The file. Its calls may come from several threads."""

    def __init__(self, file: str):
        self.lock = threading.RLock()
        self.line = sqlite3.connect(file, check_same_thread=False, isolation_level=None)
        self.line.execute("PRAGMA synchronous = FULL")
        self.line.executescript(TABLES)
        # what isn't told yet, or was being told when the process was killed, is tried at once
        self.line.execute("UPDATE deliveries SET due = 0 WHERE done IS NULL")
        self.kept = self._seen()
        # what tells this file's events from those of others
        self.file = self.kept.get("file") or {"mark": secrets.token_hex(6)}
        self.mark: str = self.file["mark"]

    @contextlib.contextmanager
    def _change(self) -> Iterator[sqlite3.Connection]:
        """One commit."""
        with self.lock, self.line:
            self.line.execute("BEGIN IMMEDIATE")
            yield self.line

    def _seen(self) -> Seen:
        found: Seen = {}
        for kind, key, value in self.line.execute("SELECT kind, key, value FROM seen"):
            found.setdefault(kind, {})[key] = json.loads(value)
        return found

    # ---- what was seen

    def seen(self) -> Seen:
        """What was seen at the last look that was kept; the caller's own."""
        return {kind: dict(self.kept.get(kind, {})) for kind in KINDS}

    def keep(self, seen: Seen, events: Sequence[Event]) -> None:
        """Keeps what a look saw and its events, in one commit, and with these no longer those of long ago; nothing where
        nothing is new."""
        seen = {**{kind: dict(rows) for kind, rows in seen.items()}, "file": self.file}
        changed = [kind for kind in {**self.kept, **seen} if self.kept.get(kind, {}) != seen.get(kind, {})]
        if not (changed or events):
            return
        with self._change() as line:
            for kind in changed:
                line.execute("DELETE FROM seen WHERE kind = ?", (kind,))
                rows = [(kind, key, json.dumps(value)) for key, value in seen.get(kind, {}).items()]
                line.executemany("INSERT INTO seen VALUES (?, ?, ?)", rows)
            for event in events:
                _add(line, event)
            if events:
                oldest = (time.time() - KEPT,)
                line.execute("DELETE FROM deliveries WHERE event IN (SELECT number FROM events WHERE at < ?)", oldest)
                line.execute("DELETE FROM events WHERE at < ?", oldest)
        self.kept = seen

    # ---- what is to be told

    def take(self, way: str) -> Optional[Delivery]:
        """The next delivery that is due on a way, first those that weren't tried yet. That it is
        tried is noted, and when it's tried again where it isn't done by then."""
        now = time.time()
        with self._change() as line:
            # (a moment that is far ahead was noted before the machine's clock was set back)
            row = line.execute(
                "SELECT event, tries, at, body FROM deliveries JOIN events ON number = event "
                "WHERE way = ? AND done IS NULL AND (due <= ? OR due > ? + ? + 1) ORDER BY tries > 0, due, event",
                (way, now, now, LONGEST_WAIT),
            ).fetchone()
            if row is None:
                return None
            number, tries, at, body = row
            again = (tries + 1, now + wait_after(tries + 1), number, way)
            line.execute("UPDATE deliveries SET tries = ?, due = ? WHERE event = ? AND way = ?", again)
        return Delivery(number, f"{self.mark}-{number}", tries + 1, at, json.loads(body))

    def fail(self, it: Delivery, way: str) -> bool:
        """Gives up a delivery that failed for long. Returns whether it is tried again."""
        gives_up = time.time() - it.at > GIVES_UP
        if gives_up:
            self.done(it, way)
        return not gives_up

    def done(self, it: Delivery, way: str) -> None:
        """Notes that a delivery is done."""
        with self._change() as line:
            row = (time.time(), it.number, way)
            line.execute("UPDATE deliveries SET done = ? WHERE event = ? AND way = ?", row)


def wait_after(tries: int) -> float:
    """How long it is waited after so many tries."""
    return min(FIRST_WAIT * 2.0 ** min(tries - 1, 20), LONGEST_WAIT)


def _add(line: sqlite3.Connection, event: Event) -> None:
    """Adds an event that isn't there yet, with its deliveries."""
    row = (event.name, event.at, json.dumps(event.body))
    added = line.execute("INSERT OR IGNORE INTO events (name, at, body) VALUES (?, ?, ?)", row)
    if added.rowcount:
        rows = [(added.lastrowid, way) for way in event.ways]
        line.executemany("INSERT INTO deliveries (event, way, tries, due) VALUES (?, ?, 0, 0)", rows)
