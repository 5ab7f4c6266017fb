"""What is counted: how much each user has open at the desk, as it was seen a moment ago, with what was let through since;
and what a kill doesn't lose, tokens, by their hashes alone, and what was let through within the hour, with its key."""
import dataclasses
import hashlib
import http.client
import math
import re
import secrets
import sqlite3
import threading
import time
from typing import Any, Dict, List, Optional, Sequence, Tuple

from farm_door.rules import JOBS, OPEN, RESERVATIONS, Group
from fizgruk import calls
from fizgruk.errors import Refused, Unreachable

EVERY = 2.0
TOO_OLD = 30.0  # seconds after which nobody knows any more
FIRST_LOOK = 20.0  # seconds for which what is asked first waits, as long as the calls of a look may take
HOLDER = re.compile(r"(job|reservation) ([1-9][0-9]*)")
HOUR = 3600
DAY = 24 * HOUR  # for which a token that has ended stands in the file
MOST_TOKENS = 100  # of one owner that haven't ended
TABLES = """
create table if not exists tokens (
    number integer primary key, owner text not null, name text not null, hash text not null unique, made integer not null,
    ended integer not null default 0);
create table if not exists passed (
    number integer primary key, owner text not null, kind text not null, ckey text not null, at real not null);
create index if not exists passed_of on passed (owner, kind, ckey);
"""


@dataclasses.dataclass(eq=False)
class Passed:
    """What was let through: of which kind, whose, of how many boards, and when it was answered, from when on a look at
    the desk shows it; and its number, the first job's of a group, 0 until it is answered."""

    kind: str
    owner: str
    boards: int
    answered: float = math.inf
    number: int = 0

    def is_among(self, owners: Dict[Tuple[str, int], str]) -> bool:
        """Whether what a look found has it, so that it counts there."""
        numbers = range(self.number, self.number + self.boards) if self.number else ()
        return any(owners.get((self.kind, it)) == self.owner for it in numbers)


class Counts:
    """The counts, which one thread renews."""

    def __init__(self, desk: calls.Desk):
        self.desk = desk
        self.lock = threading.Lock()
        self.owners: Dict[Tuple[str, int], str] = {}
        self.open: Dict[Tuple[str, str], int] = {}
        self.passed: List[Passed] = []
        self.seen = float("-inf")
        self.has_looked = threading.Event()

    def look(self) -> str:
        """Renews them, and says what is in the way; then they get old, and nothing is let through any more."""
        try:
            self.renew()
            return ""
        except (Unreachable, Refused):
            raise
        except Exception as fault:  # pylint: disable=broad-except # (else nothing is let through any more)
            return f"a look at the desk: {type(fault).__name__}: {fault}"
        finally:
            self.has_looked.set()

    def renew(self) -> None:
        began = time.monotonic()
        found: Dict[Tuple[str, str], int] = {}
        held: Dict[Tuple[str, int], str] = {}
        for row in self.desk.look("/queue")["queue"]:
            kind = JOBS if row["kind"] == "group" else RESERVATIONS
            held[kind, row["number"]] = row["owner"]
            found[kind, row["owner"]] = found.get((kind, row["owner"]), 0) + (row["boards"] if kind == JOBS else 1)
        holders = [HOLDER.fullmatch(it["holder"]) for it in self.desk.look("/boards")["boards"]]
        keys = [(it.group(1), int(it.group(2))) for it in holders if it]
        for key in keys:
            owner = held.get(key) or self.owners.get(key) or self._owner_of(key, held)
            held[key] = owner
            found[key[0], owner] = found.get((key[0], owner), 0) + 1
        with self.lock:
            self.owners, self.open, self.seen = held, found, began
            self.passed = [it for it in self.passed if it.answered >= began and not it.is_among(held)]

    def _owner_of(self, key: Tuple[str, int], held: Dict[Tuple[str, int], str]) -> str:
        kind, number = key
        if kind == JOBS:
            return str(self.desk.look(f"/jobs/{number}")["owner"])
        # (all that ever were: only where one was given a board between two looks, or before the first)
        for row in self.desk.look("/reservations")["reservations"]:
            if row["state"] in ("allocated", "acquired"):
                self.owners[RESERVATIONS, row["number"]] = row["owner"]
        return self.owners.get(key, "")

    def let(self, asked: Passed, groups: List[Group]) -> Optional[Group]:
        """Lets one more through, and counts it until it is seen; or returns whose limit is met."""
        with self.lock:
            for it in groups:
                count = sum(self.open.get((asked.kind, name), 0) for name in it.members)
                count += sum(one.boards for one in self.passed if one.kind == asked.kind and one.owner in it.members)
                if count + asked.boards > getattr(it.limits, OPEN[asked.kind]):
                    return it
            self.passed.append(asked)
        return None

    def answer(self, asked: Passed, is_done: bool, number: int = 0) -> None:
        """What was let through was answered with its number; where it isn't done, or a look has found it since it was,
        it counts no more."""
        with self.lock:
            asked.number, asked.answered = number, time.monotonic()
            if not is_done or asked.is_among(self.owners):
                self.passed.remove(asked)

    def are_known(self) -> bool:
        """Whether a look is young enough; the first one is waited for a while."""
        self.has_looked.wait(FIRST_LOOK)
        return time.monotonic() - self.seen < TOO_OLD


class Denied(Exception):
    """The door lets a request not through: its status, and why."""

    def __init__(self, status: int, text: str = ""):
        super().__init__(text or http.client.responses[status])
        self.status = status


class Ledger:
    """The file, for one caller at a time."""

    def __init__(self, file: str):
        self.lock = threading.RLock()
        self.base = sqlite3.connect(file, check_same_thread=False, isolation_level=None)
        self.base.executescript("pragma journal_mode = wal; pragma synchronous = normal;" + TABLES)

    def _rows(self, order: str, *words: object) -> List[Any]:
        with self.lock:
            return self.base.execute(order, words).fetchall()

    def _done(self, order: str, *words: object) -> sqlite3.Cursor:
        with self.lock:
            return self.base.execute(order, words)

    def owner_of(self, token: str) -> Optional[Tuple[str, str]]:
        """Whose a token is, where it hasn't ended, and which of the owner's."""
        rows = self._rows("select owner, number, name from tokens where hash = ? and ended = 0", _hash(token))
        return (str(rows[0][0]), f"token {rows[0][1]} {rows[0][2]}") if rows else None

    def make(self, owner: str, name: str) -> Dict[str, Any]:
        """A new token, which is told this once. Raises Denied."""
        token = f"{calls.TOKEN_MARK}{secrets.token_urlsafe(32)}"
        with self.lock:
            names = [it["name"] for it in self.list(owner)]
            if name in names:
                raise Denied(409, "you have a token of that name")
            if len(names) >= MOST_TOKENS:
                raise Denied(403, f"the limit is {MOST_TOKENS} tokens that haven't ended")
            # (the last one's number stays, so that none has it again)
            old = "delete from tokens where 0 < ended and ended < ? and number < (select max(number) from tokens)"
            self._done(old, int(time.time()) - DAY)
            words = (owner, name, _hash(token), int(time.time()))
            done = self._done("insert into tokens (owner, name, hash, made) values (?, ?, ?, ?)", *words)
        return {"number": done.lastrowid, "name": name, "token": token}

    def list(self, owner: str) -> List[Dict[str, Any]]:
        rows = self._rows("select number, name, made from tokens where owner = ? and ended = 0", owner)
        return [{"number": it[0], "name": it[1], "made": it[2]} for it in rows]

    def end(self, owner: str, number: int) -> bool:
        """Ends a token of this owner. Returns whether there was one."""
        order = "update tokens set ended = ? where owner = ? and number = ? and ended = 0"
        return self._done(order, int(time.time()), owner, number).rowcount == 1

    def has_passed(self, owner: str, kind: str, key: str) -> bool:
        """Whether a command was let through under this key within the hour, and perhaps done: again it is none more."""
        order = "select 1 from passed where owner = ? and kind = ? and ckey = ? and at > ?"
        return bool(key and self._rows(order, owner, kind, key, time.time() - HOUR))

    def let(self, owner: str, kind: str, key: str) -> int:
        """Notes that a command is let through. Returns the number of the note."""
        now = time.time()
        self._done("delete from passed where at < ?", now - HOUR)
        order = "insert into passed (owner, kind, ckey, at) values (?, ?, ?, ?)"
        return int(self._done(order, owner, kind, key, now).lastrowid or 0)

    def count(self, group: Group, kinds: Sequence[str]) -> Tuple[int, float]:
        """How many commands of a group's, of these kinds, were let through within the hour, and when the first of them
        was."""
        kind, owner = ",".join("?" * len(kinds)), ",".join("?" * len(group.members))
        order = f"select count(*), min(at) from passed where owner in ({owner}) and kind in ({kind}) and at > ?"
        count, first = self._rows(order, *group.members, *kinds, time.time() - HOUR)[0]
        return int(count), float(first or 0)

    def take_back(self, note: int) -> None:
        """A command that was let through wasn't done."""
        self._done("delete from passed where number = ?", note)


def _hash(token: str) -> str:
    """A token is random and long, so that no salt is wanted."""
    return hashlib.sha256(token.encode()).hexdigest()
