"""Calls to the desk over HTTP: connections that are kept where the server keeps them, and requests
that are sent again, a command under its key, where no answer came."""
import base64
import copy
import functools
import http.client
import json
import os
import reprlib
import secrets
import socket
import ssl
import time
import urllib.parse
from typing import Any, Callable, Dict, Iterable, Iterator, List, NamedTuple, Optional, Protocol, Tuple, Type, Union

from fizgruk import models, records
from fizgruk.errors import Code, Refused, Unreachable, sentence_of
from fizgruk.settings import Settings, address_of
from fizgruk.words import MOST_WANTS

NOT_LET_IN, NOT_FOUND, TOO_LARGE, NOTHING_BEYOND, TOO_MANY = 401, 404, 413, 416, 429
# Statuses after which nobody knows whether a command was done: those of a proxy that reached no
# desk, and the desk's own 503.
UNKNOWN = (502, 503, 504)
FIRST_WAIT, LONGEST_WAIT = 0.2, 5.0
# A connection that nobody used for so many seconds isn't used again: what lies between may have
# dropped it without a word.
LONGEST_IDLE = 30.0
MOST_IDLE = 4
BLOCK = 65536
TOKEN_MARK = "farm_token_"
NO_DESKS = "the answer isn't a desk's"
# What each view shows rows of, and under which name.
LISTS: Dict[str, Tuple[str, Callable[..., object]]] = {
    "/types": ("types", models.TypeView), "/boards": ("boards", models.BoardView),
    "/queue": ("queue", models.Claim), "/reservations": ("reservations", models.ReservationView),
    f"/{records.NEWEST}": ("jobs", models.PastJob),
}
Row = Dict[str, Any]
Body = Union[bytes, Row, None]


class Answer(NamedTuple):
    """An answer as it came."""

    status: int
    reason: str
    body: bytes


class NoDesks(Unreachable):
    """An answer isn't a desk's, since what it has is of another kind."""


class Lacks(NoDesks, KeyError):
    """An answer isn't a desk's, since it lacks what a desk's has."""

    __str__ = Exception.__str__


def told_by(server: str) -> Type[Row]:
    """The class of the objects that this server tells. An answer may have a hundred thousand of them,
    so it makes each without a line of Python."""
    class Told(Row):
        def __missing__(self, name: str) -> Any:
            raise Lacks(f"{NO_DESKS}: it lacks {name}", server)

    return Told


def authorization_of(user: str, password: str) -> str:
    """How a password is told, in whose place a token of farm-door's may stand."""
    if password.startswith(TOKEN_MARK):
        return f"Bearer {password}"
    return "Basic " + base64.b64encode(f"{user}:{password}".encode()).decode()


def fresh_key() -> str:
    """A key that no other command has."""
    return secrets.token_hex(16)


def part(name: str) -> str:
    """A name as a part of a path, also where it is none that the desk takes."""
    return urllib.parse.quote(name, safe="", errors="surrogateescape")


class Looker(Protocol):
    """What shows a desk's views."""

    def look(self, path: str) -> Row:
        ...


class Remembered:
    """A desk whose views are asked for once each."""

    def __init__(self, desk: Looker):
        self.history = getattr(desk, "history", None)
        self.look = functools.lru_cache(maxsize=None)(desk.look)


class Desk:
    """A desk at a server's address, as one user sees it; several threads may use it at once."""

    def __init__(self, settings: Settings, patience: float):
        """`patience` is for how many seconds a call is sent again where no answer comes."""
        address = address_of(settings.server)
        self.server = settings.server
        self.user = settings.user
        self.timeout = settings.timeout
        self.history, self.access = settings.history, settings.access
        self.patience = patience
        # what is told, once a call, where it gets no answer at first and is sent again
        self.tell_trouble: Callable[[str], None] = lambda trouble: None
        self._told = told_by(settings.server)
        self._address = address
        self._front = address.path.rstrip("/")
        self._context: Optional[ssl.SSLContext] = None
        if address.scheme == "https":
            self._context = ssl.create_default_context(cafile=settings.ca_file)
        self._fields = {"x-user": settings.user}
        if settings.password is not None:
            self._fields["authorization"] = authorization_of(settings.user, settings.password)
        self._idle: List[Tuple[http.client.HTTPConnection, float]] = []
        self._process = os.getpid()

    def of_patience(self, seconds: float) -> "Desk":
        """The same desk, whose calls are sent again for so many seconds."""
        other = copy.copy(self)
        other.patience = seconds
        return other

    def alone(self) -> "Desk":
        """The same desk, over connections of its own, whose calls are sent once."""
        other = self.of_patience(0)
        other._idle = []
        return other

    def close(self) -> None:
        """Closes the connections that are kept; the next call opens one again."""
        for line in iter(self._kept, None):
            line.close()

    def asked_as(self) -> str:
        """Who asks, as the desk or the proxy in front of it sees it."""
        word = "with" if "authorization" in self._fields else "without"
        return f"asked as {self.user}, {word} a password"

    # ---- calls

    def look(self, path: str) -> Row:
        """What a view shows."""
        told = self._answer("GET", path, None, {}, True)
        fault = fault_of(path, told)
        if fault:
            raise NoDesks(f"{NO_DESKS}: {fault}", self.server)
        return told

    def tell(self, path: str, body: Body = None, key: Optional[str] = None) -> Row:
        """Gives a command, again and again under its key until an answer comes; without a key it is
        sent once."""
        fields = {"x-key": key} if key else {}
        sent = json.dumps(body).encode() if isinstance(body, dict) else body
        return self._answer("POST", path, sent, fields, key is not None)

    def nudge(self, path: str) -> Row:
        """Gives a command that does no harm when it is done twice, a pass or a refresh, so it needs
        no key."""
        return self._answer("POST", path, None, {}, True)

    def stream(self, path: str, begin: int = 0) -> Iterator[bytes]:
        """The bytes of a file that stands beside the desk, from one on, or the last ones where that
        is below 0."""
        line = self._opened()
        try:
            span = {"range": f"bytes={begin}-" if begin > 0 else f"bytes={begin}"} if begin else {}
            line.request("GET", self._front + path, headers={**self._fields, **span})
            answer = line.getresponse()
            if answer.status == NOTHING_BEYOND:
                return
            if answer.status in UNKNOWN:
                raise Unreachable(f"{answer.status} {answer.reason}", self.server)
            if answer.status not in (200, 206):
                self._meaning(Answer(answer.status, answer.reason, answer.read()), path)
            yield from _read(answer, 0 if answer.status == 206 else begin)
        except (OSError, http.client.HTTPException) as fault:
            raise Unreachable(sentence_of(fault), self.server) from fault
        finally:
            line.close()

    def _answer(
        self, method: str, path: str, body: Optional[bytes], fields: Dict[str, str], again: bool
    ) -> Row:
        until = time.monotonic() + self.patience
        wait, is_told = FIRST_WAIT, False
        while True:
            answer, trouble = self._tried(method, path, body, {**self._fields, **fields})
            has_time = time.monotonic() + wait <= until
            # (where a proxy lets nothing through, nothing was done: that goes without a key too)
            is_limited = answer is not None and answer.status == TOO_MANY
            is_known = answer is not None and answer.status not in UNKNOWN
            if answer is not None and is_known and not (is_limited and has_time):
                return self._meaning(answer, path)
            if not has_time or not (again or is_limited):
                raise Unreachable(trouble, self.server)
            if not is_told:
                self.tell_trouble(trouble)
            is_told = True
            time.sleep(wait)
            wait = min(2 * wait, LONGEST_WAIT)

    def _tried(
        self, method: str, path: str, body: Optional[bytes], fields: Dict[str, str]
    ) -> Tuple[Optional[Answer], str]:
        """The answer to a request, if one comes, and what is told where it is none."""
        try:
            answer = self._exchange(method, path, body, fields)
        except (OSError, http.client.HTTPException) as fault:
            trouble = sentence_of(fault)
            if _is_final(fault):
                raise Unreachable(trouble, self.server) from fault
            return None, trouble
        return answer, f"{answer.status} {answer.reason}"

    def _meaning(self, answer: Answer, path: str) -> Row:
        """What an answer says, where it isn't a refusal."""
        try:
            told = json.loads(answer.body, object_hook=self._told)
        except (ValueError, RecursionError):
            told = None
        if answer.status == 200 and isinstance(told, dict):
            return told
        if 200 <= answer.status < 300:
            raise Unreachable(NO_DESKS, self.server)
        code, text = 0, answer.reason
        if isinstance(told, dict) and isinstance(told.get("code"), int):
            code, text = told["code"], str(told.get("text", text))
        refusal = Refused(answer.status, code, text)
        if answer.status == NOT_LET_IN:
            refusal.about(self.asked_as())
        elif code == Code.FORBIDDEN:
            refusal.about(f"asked as {self.user}")
        elif code == Code.NO_SUCH_ROUTE:
            refusal.about(f"{self.server} has no {path}")
        raise refusal

    # ---- connections

    def _exchange(self, method: str, path: str, body: Optional[bytes], fields: Dict[str, str]) -> Answer:
        """One request and its answer. A server may close a connection that it kept just as it is
        used again: then the request goes out over a new one. A command without a key may have been done
        then, so it never goes over a kept one."""
        kept = self._kept() if method == "GET" or "x-key" in fields else None
        if kept is not None:
            try:
                return self._exchange_over(kept, method, path, body, fields)
            except socket.timeout:
                raise
            except (OSError, http.client.HTTPException):
                self.close()
        return self._exchange_over(self._opened(), method, path, body, fields)

    def _exchange_over(
        self, line: http.client.HTTPConnection, method: str, path: str, body: Optional[bytes],
        fields: Dict[str, str],
    ) -> Answer:
        try:
            line.request(method, self._front + path, body=body, headers=fields)
            answer = line.getresponse()
            if not (answer.getheader("content-length") or answer.getheader("transfer-encoding")):
                raise http.client.HTTPException("the answer was cut in its head")
            found = Answer(answer.status, answer.reason, answer.read())
        except BaseException:
            line.close()
            raise
        if answer.will_close or len(self._idle) >= MOST_IDLE:
            line.close()
        else:
            self._idle.append((line, time.monotonic()))
        return found

    def _kept(self) -> Optional[http.client.HTTPConnection]:
        """A connection that was kept, if there is one; a child of the process that opened it leaves
        it alone."""
        if self._process != os.getpid():
            self._idle, self._process = [], os.getpid()
        while True:
            try:
                line, since = self._idle.pop()
            except IndexError:
                return None
            if time.monotonic() - since < LONGEST_IDLE:
                if line.sock:
                    line.sock.settimeout(self.timeout)
                return line
            line.close()

    def _opened(self) -> http.client.HTTPConnection:
        host, port = self._address.hostname or "", self._address.port
        if self._context:
            return http.client.HTTPSConnection(host, port, timeout=self.timeout, context=self._context)
        return http.client.HTTPConnection(host, port, timeout=self.timeout)


def _is_final(fault: Exception) -> bool:
    """Whether it would be the same again: a certificate that isn't trusted, or no TLS there. A
    connection that ended within TLS is as any that ended."""
    return isinstance(fault, ssl.SSLError) and not isinstance(
        fault, (ssl.SSLEOFError, ssl.SSLZeroReturnError, ssl.SSLSyscallError)
    )


def _read(answer: http.client.HTTPResponse, begin: int) -> Iterator[bytes]:
    """The bytes of an answer from one on, piece by piece."""
    length, place = answer.getheader("content-length"), 0
    for said in iter(lambda: answer.read(BLOCK), b""):
        yield said[max(0, begin - place) :]
        place += len(said)
    if length is not None and place < int(length):
        raise http.client.HTTPException("the answer was cut")


def tell_with_room(desk: Desk, path: str, body: Body, key: str) -> Row:
    """Gives a command under its key, or without where the desk has no room for one more reply."""
    try:
        return desk.tell(path, body, key)
    except Refused as refusal:
        if refusal.code != Code.FULL:
            raise
        return desk.tell(path, body)


# ---- what is answered


def fault_of(path: str, told: Row) -> str:
    """What isn't of its kind in a view, if anything. What it lacks is found where it is used."""
    if path in LISTS:
        name, kind = LISTS[path]
        rows = told.get(name, [])
        if not isinstance(rows, list):
            return f"{name} is {reprlib.repr(rows)}"
        return next(filter(None, (models.fault_of(kind, it) for it in rows)), "")
    if path == "/status":
        return models.fault_of(models.Status, told)
    return models.fault_of(models.JobView, told) if path.startswith("/jobs/") else ""


def number_of(desk: "Desk", said: Row) -> int:
    """The number that a command is answered by."""
    number = said.get("number")
    if not isinstance(number, int):
        raise Unreachable(NO_DESKS, desk.server)
    return number


def rows_of(desk: Looker, name: str) -> List[Row]:
    """The rows of a view."""
    path = f"/{name}"
    rows = desk.look(path).get(LISTS[path][0] if path in LISTS else name)
    if not isinstance(rows, list):
        raise Unreachable(NO_DESKS, getattr(desk, "server", ""))
    return rows


def held_in(boards: Iterable[Row], kind: str) -> Dict[int, Row]:
    """The boards that jobs or reservations hold, by the number of these."""
    holders = ((it["holder"].partition(" "), it) for it in boards)
    return {int(number): board for (who, _, number), board in holders if who == kind}


def job_of(desk: Looker, number: int) -> Optional[Row]:
    """A job's view, or None where there is no such job."""
    try:
        return desk.look(f"/jobs/{number}")
    except Refused as refusal:
        if refusal.code != Code.NO_SUCH_JOB:
            raise
        return None


def members_of(desk: Looker, number: int) -> List[Row]:
    """The views of all members of a job's group, whether they hold boards or not: they have the
    numbers from the group's own on, and roles, if they are more than one."""
    first = desk.look(f"/jobs/{number}")
    if first["group"] != number:
        first = desk.look(f"/jobs/{first['group']}")
    found = [first]
    while first["role"] and len(found) < MOST_WANTS:
        view = job_of(desk, first["number"] + len(found))
        if view is None or view["group"] != first["group"]:
            break
        found.append(view)
    return found
