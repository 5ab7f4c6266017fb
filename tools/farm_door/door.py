"""What the door decides: who asks, which command is handed on to the desk, and whose tokens there are."""
import http.client
import math
import re
import sqlite3
import threading
import time
from typing import Any, Dict, List, NamedTuple, Optional, Sequence, Tuple

from farm_door.counts import HOUR, Counts, Denied, Ledger, Passed
from farm_door.rules import JOBS, OPEN, OTHERS, RESERVATIONS, WISHES, DoorRules, Group, Wish
from fizgruk import settings
from fizgruk._tools import disk
from fizgruk.words import NAMES, BadFile

LOGIN = re.compile(rf"({NAMES.pattern})(?: \(token [0-9]{{1,9}} {NAMES.pattern}\))?")
PATIENCE = 30.0  # seconds for each step of the desk's
LONGEST_ANSWER = 65536
BEARER = re.compile(r"[Bb]earer (\S{1,200})")
TOKEN = re.compile(r"/tokens/([1-9][0-9]{0,8})/end")
LIMITED = {"/jobs": JOBS, "/reservations": RESERVATIONS}
OF_AN_HOUR = (("jobs_an_hour", (JOBS,)), ("commands_an_hour", (JOBS, RESERVATIONS, OTHERS)))
TURN = 25.0  # seconds that one command of a user's waits for another
WAITS = "your limits can't be told, since the desk gives no answer"


class UserCommand(NamedTuple):
    """What nginx hands on, of whose asking it is sure: by a login, or by a token, as farm-door told it before."""

    login: str
    method: str
    path: str
    keys: Sequence[str]  # one at most, or the desk refuses it
    body: bytes

    @property
    def owner(self) -> str:
        """Whose command it is; nobody's where that can't be read."""
        found = LOGIN.fullmatch(self.login)
        return found.group(1) if found else ""

    @property
    def is_by_token(self) -> bool:
        return self.owner != self.login

    @property
    def key(self) -> str:
        return self.keys[0] if len(self.keys) == 1 else ""


class Reply(NamedTuple):
    """What a command is answered: as the desk did, or for the door's own reasons."""

    status: int
    body: bytes
    fields: Sequence[Tuple[str, str]] = ()

    @property
    def is_refusal(self) -> bool:
        """Whether the command surely wasn't done."""
        return 400 <= self.status < 500 or self.status == 501

    @property
    def number(self) -> str:
        """The number of the job or the reservation, for the audit."""
        number = disk.object_of(self.body).get("number") if self.status == 200 else ""
        return str(number) if type(number) is int else ""


class NotReached(Denied):
    """The desk isn't there: the command surely wasn't done."""


class DeskPort:
    """The desk's port, which takes one command a connection."""

    def __init__(self, server: str):
        address = settings.address_of(server)
        if address.scheme != "http":
            raise BadFile(f"{server} is no http:// address, as the desk's port is one")
        self.host, self.port = address.hostname or "", address.port or 80

    def answer(self, command: UserCommand, user: str) -> Reply:
        """Hands a command on, once, as this user's. Raises Denied where no answer comes: nobody knows then whether it was done."""
        line = http.client.HTTPConnection(self.host, self.port, timeout=PATIENCE)
        try:
            line.connect()
        except OSError as fault:
            raise NotReached(502) from fault
        try:
            line.putrequest(command.method, command.path, skip_accept_encoding=True)
            line.putheader("x-user", user)
            for key in command.keys:
                line.putheader("x-key", key)
            line.putheader("content-length", str(len(command.body)))
            line.endheaders(command.body)
            return _answer_of(line.getresponse())
        except (OSError, http.client.HTTPException) as fault:
            raise Denied(502) from fault
        except ValueError as fault:
            raise Denied(400) from fault  # it can't be written as a request
        finally:
            line.close()


def _answer_of(told: http.client.HTTPResponse) -> Reply:
    body = told.read(LONGEST_ANSWER + 1)
    if told.length != 0 or len(body) > LONGEST_ANSWER:
        raise http.client.HTTPException("the answer isn't whole")
    fields = [(it, told.headers[it]) for it in ("content-type", "allow") if it in told.headers]
    return Reply(told.status, body, fields)


class Door:
    """What is asked of it, and answered."""

    def __init__(self, rules: DoorRules, kept: Ledger, counts: Counts, desk: DeskPort):
        self.rules, self.kept, self.counts, self.desk = rules, kept, counts, desk
        self.turns: Dict[str, threading.Lock] = {}

    # ---- who asks

    def who(self, login: str, bearer: str) -> Tuple[str, str]:
        """As whom the desk is asked, and by which token, where it is one; raises Denied. `login` is whose password
        nginx has checked, nothing where a token came in its place."""
        if not login:
            return self._of_token(bearer)
        if not NAMES.fullmatch(login):
            raise Denied(401)
        return self._user_of(login), ""

    def _user_of(self, login: str) -> str:
        return "admin" if login in self.rules.admins else login

    def _of_token(self, bearer: str) -> Tuple[str, str]:
        found = BEARER.fullmatch(bearer)
        token = self.kept.owner_of(found.group(1)) if found else None
        if token is None:
            raise Denied(401)
        return token[0], f"{token[0]} ({token[1]})"

    # ---- commands

    def command(self, command: UserCommand) -> Reply:
        """Hands a command on where no limit is met. A user's go one after another, so that a repetition finds what is
        known of the first. What leaves neither a row nor a kept reply at the desk has no limit."""
        kind = LIMITED.get(command.path, OTHERS)
        if not command.owner:
            raise Denied(401)
        leaves_nothing = kind == OTHERS and not command.keys
        if leaves_nothing or command.method != "POST" or self.rules.is_unlimited(command.owner):
            return self._handed_on(command)
        wish = WISHES[kind](command.body) if kind != OTHERS else None
        groups = self.rules.groups_of(command.owner)
        for it in groups:
            _compare_priority(it, wish)
        turn = self.turns.setdefault(command.owner, threading.Lock())
        if not turn.acquire(timeout=TURN):
            raise Denied(503)
        try:
            if self.kept.has_passed(command.owner, kind, command.key):
                return self._handed_on(command)
            for it in groups:
                self._compare_hour(it, kind)
            if wish is None:
                return self._noted(command, kind)
            return self._counted(command, Passed(kind, command.owner, wish.boards), groups)
        finally:
            turn.release()

    def _handed_on(self, command: UserCommand) -> Reply:
        """An admin's token is no admin's."""
        return self.desk.answer(command, command.owner if command.is_by_token else self._user_of(command.owner))

    def _counted(self, command: UserCommand, asked: Passed, groups: List[Group]) -> Reply:
        """Hands a command on that counts from now on, but where it surely isn't done."""
        if not self.counts.are_known():
            raise Denied(503, WAITS)
        met = self.counts.let(asked, groups)
        if met:
            raise _at_limit(met, OPEN[asked.kind])
        is_done, number = True, 0
        try:
            answer = self._noted(command, asked.kind)
            is_done, number = not answer.is_refusal, int(answer.number or 0)
            return answer
        except (NotReached, sqlite3.Error):
            is_done = False
            raise
        finally:
            self.counts.answer(asked, is_done, number)

    def _noted(self, command: UserCommand, kind: str) -> Reply:
        """Hands a command on that counts for an hour, but where it surely isn't done."""
        note, is_done = self.kept.let(command.owner, kind, command.key), True
        try:
            answer = self._handed_on(command)
            is_done = not answer.is_refusal
            return answer
        except NotReached:
            is_done = False
            raise
        finally:
            if not is_done:
                self._take_back(note)

    def _compare_hour(self, group: Group, kind: str) -> None:
        for word, kinds in OF_AN_HOUR:
            if kind in kinds:
                count, first = self.kept.count(group, kinds)
                if count >= getattr(group.limits, word):
                    raise _at_limit(group, word, first + HOUR)

    def _take_back(self, note: int) -> None:
        try:
            self.kept.take_back(note)
        except sqlite3.Error:
            pass  # it counts for its hour, and the desk's answer stands

    # ---- tokens

    def tokens(self, owner: str, method: str, path: str, body: bytes) -> Dict[str, Any]:
        """What an owner asks for tokens, whose password nginx has checked."""
        if not NAMES.fullmatch(owner):
            raise Denied(401)
        ended = TOKEN.fullmatch(path)
        if method == "GET" and path == "/tokens":
            return {"tokens": self.kept.list(owner)}
        if method == "POST" and ended:
            if not self.kept.end(owner, int(ended.group(1))):
                raise Denied(404, "no such token")
            return {"number": int(ended.group(1))}
        if method != "POST" or path != "/tokens":
            raise Denied(404, "no such route")
        return self.kept.make(owner, _name_in(body))


def _compare_priority(group: Group, wish: Optional[Wish]) -> None:
    """It is no 429, after which a client asks again: the same is never let through."""
    most = group.limits.highest_priority
    if wish and wish.priority > most:
        why = f", and none can be read: {wish.fault}" if wish.fault else ""
        raise Denied(403, f"the limit of {group.name} is priority {most}{why}")


def _at_limit(group: Group, word: str, ends: float = 0) -> Denied:
    """`ends` is when one more is let through, where the limit is of an hour."""
    again = f"; again at {time.strftime('%H:%M:%S %Z', time.localtime(math.ceil(ends)))}" if ends else ""
    return Denied(429, f"the limit of {group.name} is {getattr(group.limits, word)} {word.replace('_', ' ')}{again}")


def _name_in(body: bytes) -> str:
    name = disk.object_of(body).get("name")
    if not isinstance(name, str) or not NAMES.fullmatch(name):
        raise Denied(400, "no name of a token")
    return name
