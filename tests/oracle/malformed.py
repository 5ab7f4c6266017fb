#!/usr/bin/env python3
"""Sends a serving program requests by chance, most of them malformed.

python3 tests/oracle/malformed.py bin/farm [REQUESTS [SEED]]

Random bytes, requests with some bytes changed, cut, doubled or moved, fields and bodies that are wrong in one
place or in several, bodies nested deeply, heads that are long or have many fields, two requests in one. What
each has to be answered is worked out here, from the rules of docs/MACHINE.md, docs/API.md, HTTP/1.1, JSON and TOML
alone: a refusal of the reading with its code, status and fields, a view, or that the machine is asked, which
may do the command or refuse it for reasons of its own. At the end the farm is what the commands that were
answered 200 make of another farm, so what was refused changed nothing; the program has no more open files than
at the beginning, and its memory is told beside the rows that it holds.

REQUESTS requests, 500,000 where no number is given: about three minutes. test_oracle.py sends 5,000.
"""
from __future__ import annotations

import errno
import json
import os
import random
import re
import socket
import subprocess
import sys
import tempfile
import time
import tomllib
from typing import Any, Callable, Dict, Iterable, Iterator, List, NoReturn, Optional, Tuple, Union

sys.path.append(os.path.join(os.path.dirname(os.path.realpath(__file__)), "../shared"))
from ports import free_port  # noqa: E402
from served import wait_until  # noqa: E402

LONGEST_HEAD, LONGEST_BODY, MOST_FIELDS, DEEPEST = 8192, 65536, 64, 127
TOKEN = re.compile(rb"[!#$%&'*+\-.^_`|~0-9A-Za-z]+")
REQUEST_LINE = re.compile(rb"([!#$%&'*+\-.^_`|~0-9A-Za-z]+) ([\x21-\x7e\x80-\xff]+) HTTP/1\.[01]\r?\n")
FIELD = re.compile(rb"([!#$%&'*+\-.^_`|~0-9A-Za-z]+):([\t\x20-\x7e\x80-\xff]*)\r?\n")
NAME = re.compile(r"[A-Za-z0-9._-]{1,48}\Z")
KEY = re.compile(r"[A-Za-z0-9._-]{1,64}\Z")
TAG = re.compile(r"[A-Za-z0-9._-]{1,32}(=[A-Za-z0-9._-]{1,64})?\Z")
NUMBER = re.compile(r"[1-9][0-9]{0,8}\Z")

# Each refusal: its HTTP status and its text.
REFUSALS = {
    2: (400, "bad moment"), 3: (403, "forbidden"), 4: (409, "full"), 5: (400, "bad name"), 6: (400, "bad tag"),
    7: (400, "bad count"), 10: (404, "no such type"), 11: (409, "type exists"), 12: (404, "no such board"),
    13: (409, "board exists"), 14: (409, "board is held"), 15: (409, "board is retired"), 20: (404, "no such job"),
    21: (409, "wrong job state"), 22: (409, "no such boards"), 23: (400, "bad priority"),
    30: (404, "no such reservation"), 31: (409, "reservation expired"), 32: (409, "wrong reservation state"),
    40: (409, "key reused"), 41: (400, "bad key"), 50: (400, "bad request"), 51: (413, "too large"),
    52: (404, "no such route"), 53: (405, "wrong method"), 54: (501, "bad coding"), 70: (400, "bad job file"),
}
# Those that only the machine gives.
OF_THE_MACHINE = {3, 4, 10, 11, 12, 13, 14, 15, 20, 21, 22, 30, 31, 32, 40}
REASONS = {
    200: "OK", 400: "Bad Request", 403: "Forbidden", 404: "Not Found", 405: "Method Not Allowed",
    409: "Conflict", 413: "Content Too Large", 501: "Not Implemented",
}
HEALTHS = {"Good", "Bad", "Unknown", "Maintenance", "Retired"}


Fields = List[Tuple[bytes, bytes]]
Table = Dict[str, Any]
Parameter = Optional[Tuple[str, str]]


# ---- the rules, read anew


class Refused(Exception):
    """The request is refused with this code; with several, any of them."""

    def __init__(self, *codes: int):
        super().__init__()
        self.codes = codes


class WrongMethod(Exception):
    """The path has other methods."""


class Unsure(Exception):
    """A body that python3's reader of TOML 1.0 refuses, and that may be well-formed by TOML 1.1."""


def head_of(sent: bytes) -> Tuple[int, bytes, bytes, Fields]:
    """Where the head ends, its method, target and fields; a head is looked at after each line feed."""
    at, lines = 0, 0
    method = target = b""
    fields: Fields = []
    while True:
        end = sent.find(b"\n", at) + 1
        if not end or end > LONGEST_HEAD:
            raise Refused(51 if len(sent) >= LONGEST_HEAD else 50)
        line = sent[at:end]
        if not lines:
            if line in (b"\n", b"\r\n"):
                # (empty lines before the request line are skipped)
                at = end
                continue
            found = REQUEST_LINE.fullmatch(line)
            if not found:
                raise Refused(50)
            method, target = found[1], found[2]
        elif line in (b"\n", b"\r\n"):
            return end, method, target, fields
        else:
            found = FIELD.fullmatch(line)
            if not found or len(fields) == MOST_FIELDS:
                raise Refused(50)
            fields.append((found[1].lower(), found[2].strip(b" \t")))
        lines += 1
        at = end


def values(fields: Fields, name: bytes) -> List[bytes]:
    return [value for key, value in fields if key == name]


def body_of(sent: bytes, end: int, fields: Fields) -> bytes:
    """The bytes that the length declares."""
    if values(fields, b"transfer-encoding"):
        raise Refused(54)
    lengths = values(fields, b"content-length")
    if len(lengths) > 1 or (lengths and not re.fullmatch(rb"[0-9]+", lengths[0])):
        raise Refused(50)
    length = int(lengths[0]) if lengths else 0
    if length > LONGEST_BODY:
        raise Refused(51)
    if len(sent) - end < length:
        raise Refused(50)
    return sent[end : end + length]


def depth_of(value: Any) -> int:
    depth, layer = 0, [value]
    while layer := [it for it in layer if isinstance(it, (dict, list))]:
        depth += 1
        layer = [inner for it in layer for inner in (it.values() if isinstance(it, dict) else it)]
    return depth


def texts_of(value: Any) -> Iterator[str]:
    layer = [value]
    while layer:
        inner: List[Any] = []
        for it in layer:
            if isinstance(it, str):
                yield it
            elif isinstance(it, dict):
                yield from it
                inner += it.values()
            elif isinstance(it, list):
                inner += it
        layer = inner


def object_of(body: bytes) -> Table:
    """The fields of a JSON object."""

    def no_constant(_: str) -> NoReturn:
        raise ValueError

    def finite(text: str) -> float:
        value = float(text)
        if value in (float("inf"), float("-inf")):
            raise ValueError
        return value

    def whole(text: str) -> Union[int, float]:
        return int(text) if not text.startswith("-") and int(text) < 2**64 else float(text[:300])

    try:
        found = json.loads(body.decode(), parse_constant=no_constant, parse_float=finite, parse_int=whole)
        if depth_of(found) > DEEPEST or any("\ud800" <= char <= "\udfff" for text in texts_of(found) for char in text):
            raise ValueError
    except (ValueError, RecursionError):
        raise Refused(50) from None
    if not isinstance(found, dict):
        raise Refused(50)
    return found


def name_in(value: Any, wrong_kind: int) -> None:
    if not isinstance(value, str):
        raise Refused(wrong_kind)
    if not NAME.match(value):
        raise Refused(5)


def tags_in(value: Any, wrong_kind: int, is_boards: bool = False) -> None:
    if not isinstance(value, list) or not all(isinstance(it, str) for it in value):
        raise Refused(wrong_kind)
    if len(value) > 16:
        raise Refused(7)
    for tag in value:
        if not TAG.match(tag) or (is_boards and tag.split("=")[0] == "name"):
            raise Refused(6)


def is_whole(value: Any) -> bool:
    return isinstance(value, int) and not isinstance(value, bool)


def type_in(fields: Table) -> None:
    name_in(fields.get("name"), 50)
    check = fields.get("check", "none")
    if check not in ("none", "hours", "jobs") or not isinstance(check, str):
        raise Refused(50)
    every: Any = fields.get("every")
    if check != "none" and not (is_whole(every) and 1 <= every <= 10000):
        raise Refused(50)


def board_in(fields: Table) -> None:
    name_in(fields.get("name"), 50)
    name_in(fields.get("type"), 50)
    tags_in(fields.get("tags", []), 50, True)


def word_in(key: str, words: Iterable[str]) -> Callable[[Table], None]:
    def read(fields: Table) -> None:
        if not isinstance(fields.get(key), str) or fields[key] not in words:
            raise Refused(50)

    return read


def priority_in(value: Any, wrong_kind: int) -> None:
    if isinstance(value, bool) or not isinstance(value, (int, float, str)):
        raise Refused(wrong_kind)
    if not (is_whole(value) and 0 <= int(value) <= 100) and value not in ("low", "medium", "high"):
        raise Refused(23)


def reservation_in(fields: Table) -> None:
    tags_in(fields.get("tags"), 50)
    priority_in(fields.get("priority", 50), 50)


def job_in(body: bytes) -> None:
    """A job file."""
    try:
        found = tomllib.loads(body.decode())
    except UnicodeDecodeError:
        raise Refused(70) from None
    except (ValueError, RecursionError):
        # (escapes and line breaks that 1.1 has, and 1.0 hasn't)
        raise Unsure() if re.search(rb"\\[ex]|[{]", body) else Refused(70) from None
    if not isinstance(found.get("job_name"), str) or not found["job_name"]:
        raise Refused(70)
    priority_in(found.get("priority", 50), 70)
    if ("device_type" in found) == ("roles" in found) or ("tags" in found and "roles" in found):
        raise Refused(70)
    if "device_type" in found:
        name_in(found["device_type"], 70)
        tags_in(found.get("tags", []), 70)
        return
    if not isinstance(found["roles"], dict):
        raise Refused(70)
    if not found["roles"]:
        raise Refused(7)
    total = 0
    for name in sorted(found["roles"], key=str.encode):
        role = found["roles"][name]
        name_in(name, 70)
        if not isinstance(role, dict):
            raise Refused(70)
        name_in(role.get("device_type"), 70)
        if not is_whole(role.get("count")):
            raise Refused(70)
        if not 1 <= role["count"] <= 4:
            raise Refused(7)
        tags_in(role.get("tags", []), 70)
        total += role["count"]
    if total > 4:
        raise Refused(7)


def in_object(read: Callable[[Table], None]) -> Callable[[bytes], None]:
    return lambda body: read(object_of(body))


# Each path, `{name}` and `{n}` being parameters: its methods, and how the body of its command is read.
ROUTES: Dict[str, Tuple[str, Optional[Callable[[bytes], None]]]] = {
    "/types": ("GET, POST", in_object(type_in)),
    "/boards": ("GET, POST", in_object(board_in)),
    "/boards/{name}/tags": ("POST", in_object(lambda fields: tags_in(fields.get("tags"), 50, True))),
    "/boards/{name}/health": ("POST", in_object(word_in("health", HEALTHS))),
    "/jobs": ("POST", job_in),
    "/jobs/{n}": ("GET", None),
    "/jobs/{n}/cancel": ("POST", None),
    "/jobs/{n}/start": ("POST", None),
    "/jobs/{n}/finish": ("POST", in_object(word_in("outcome", {"Complete", "Incomplete", "Infra"}))),
    "/reservations": ("GET, POST", in_object(reservation_in)),
    "/reservations/{n}/acquire": ("POST", None),
    "/reservations/{n}/release": ("POST", None),
    "/reservations/{n}/refresh": ("POST", None),
    "/reservations/{n}/cancel": ("POST", None),
    "/pass": ("POST", None),
    "/queue": ("GET", None),
    "/status": ("GET", None),
}


def route_of(path: str) -> Tuple[str, Parameter]:
    """A path's route and its parameter."""
    parts = path.split("/")
    for route in ROUTES:
        own = route.split("/")
        if len(own) == len(parts) and all(it == part or (it.startswith("{") and part) for it, part in zip(own, parts)):
            return route, next(((it, part) for it, part in zip(own, parts) if it.startswith("{")), None)
    raise Refused(52)


def parameter_in(parameter: Parameter) -> None:
    if parameter and parameter[0] == "{name}" and not NAME.match(parameter[1]):
        raise Refused(5)
    if parameter and parameter[0] == "{n}" and not NUMBER.match(parameter[1]):
        raise Refused(50)


def text_of(value: bytes) -> str:
    """A field's text; with a letter that no word has, where it is none."""
    return value.decode("latin-1")


def asked(sent: bytes) -> Tuple[str, str]:
    """What bytes ask: ("view", path), or ("call", caller)."""
    end, word, target, fields = head_of(sent)
    path: Optional[str] = None
    try:
        path = target.decode().split("?")[0]
    except UnicodeDecodeError:
        pass
    try:
        body = body_of(sent, end, fields)
    except Refused as error:
        # (a target that is no text may be refused with the head, or later)
        raise error if path is not None else Refused(50, *error.codes) from None
    if path is None:
        raise Refused(50)
    route, parameter = route_of(path)
    methods, read = ROUTES[route]
    method = word.decode()
    if method not in methods.split(", "):
        raise WrongMethod(methods)
    if method == "GET":
        parameter_in(parameter)
        return "view", path
    callers, keys = values(fields, b"x-user"), values(fields, b"x-key")
    if len(callers) != 1:
        raise Refused(50)
    if not NAME.match(text_of(callers[0])):
        raise Refused(5)
    if len(keys) > 1:
        raise Refused(50)
    if keys and not KEY.match(text_of(keys[0])):
        raise Refused(41)
    parameter_in(parameter)
    if read:
        read(body)
    return "call", text_of(callers[0])


def answer(status: int, body: str, more: str = "") -> bytes:
    return (
        f"HTTP/1.1 {status} {REASONS[status]}\r\ncontent-type: application/json\r\n"
        f"content-length: {len(body)}\r\nconnection: close\r\n{more}\r\n{body}"
    ).encode()


def refusal(code: int, more: str = "") -> bytes:
    status, text = REFUSALS[code]
    return answer(status, json.dumps({"code": code, "text": text}, separators=(",", ":")), more)


ALL = {refusal(code) for code in REFUSALS}
OF_MACHINE = {refusal(code): code for code in OF_THE_MACHINE}
DONE = re.compile(rb'\{"number":[0-9]+\}|\{"checks":[0-9]+,"expired":[0-9]+,"served":[0-9]+\}')


class Judge:
    """Judges answers, and keeps what was done."""

    def __init__(self) -> None:
        self.sums: Dict[Union[int, str], int] = {}
        self.done: List[bytes] = []

    def sees(self, kind: Union[int, str]) -> None:
        self.sums[kind] = self.sums.get(kind, 0) + 1

    def is_right(self, sent: bytes, got: bytes) -> bool:
        try:
            what, more = asked(sent)
        except WrongMethod as error:
            self.sees(53)
            return bool(got == refusal(53, f"allow: {error}\r\n"))
        except Refused as error:
            self.sees(error.codes[0])
            return got in [refusal(code) for code in error.codes]
        except Unsure:
            self.sees("by TOML 1.1 alone, or 70")
            if got.startswith(b"HTTP/1.1 200 "):
                self.done.append(sent)
            return got in ALL or bool(DONE.fullmatch(got.partition(b"\r\n\r\n")[2]))
        body = got.partition(b"\r\n\r\n")[2]
        if got in OF_MACHINE:
            code = OF_MACHINE[got]
            self.sees("refused by the machine")
            return code == 20 and more.startswith("/jobs/") if what == "view" else True
        if got != answer(200, body.decode()):
            return False
        self.sees("views" if what == "view" else "commands done")
        if what == "view":
            return isinstance(json.loads(body), dict)
        self.done.append(sent)
        return bool(DONE.fullmatch(body))


# ---- requests by chance

JOB = 'job_name = "boot"\ndevice_type = "bbb"\npriority = "high"\ntags = ["hdmi"]\n'
ROLES = """\
job_name = "net"
[roles.a]
device_type = "bbb"
count = 1
[roles.b]
device_type = "bbb"
count = 1
tags = ["hdmi"]
"""
# Well-formed requests. Nobody who may calls a pass, so that nothing hangs on the moment at which it is called.
Good = Tuple[str, str, Optional[str], Any]
GOOD: List[Good] = [
    ("POST", "/types", "admin", {"name": "bbb"}),
    ("POST", "/types", "admin", {"check": "hours", "every": 24, "name": "ccc"}),
    ("POST", "/boards", "admin", {"name": "b1", "tags": ["hdmi", "rack=1"], "type": "bbb"}),
    ("POST", "/boards/b1/tags", "admin", {"tags": ["hdmi", "usb"]}),
    ("POST", "/boards/b1/health", "admin", {"health": "Good"}),
    ("POST", "/jobs", "ann", JOB),
    ("POST", "/jobs", "ann", ROLES),
    ("POST", "/jobs/1/cancel", "bob", ""),
    ("POST", "/jobs/1/start", "dispatcher", ""),
    ("POST", "/jobs/1/finish", "dispatcher", {"outcome": "Complete"}),
    ("POST", "/reservations", "ann", {"priority": 50, "tags": ["hdmi"]}),
    ("POST", "/reservations/2/acquire", "ann", ""),
    ("POST", "/reservations/2/release", "ann", ""),
    ("POST", "/reservations/2/refresh", "bob", ""),
    ("POST", "/reservations/2/cancel", "bob", ""),
    ("POST", "/pass", "ann", ""),
    ("GET", "/types", None, ""), ("GET", "/boards", None, ""), ("GET", "/queue", None, ""),
    ("GET", "/reservations", None, ""), ("GET", "/status", None, ""), ("GET", "/jobs/1", None, ""),
]
TOKENS = [
    b"\r\n", b"\n", b"\r", b" ", b"\t", b":", b"/", b"?", b"%2f", b"\0", b"\xff", b"\xc3\xa9", b"GET ", b"POST ",
    b"HTTP/1.1", b"HTTP/1.0", b"HTTP/2", b"content-length: 5\r\n", b"content-length:\r\n", b"Content-Length: +5\r\n",
    b"transfer-encoding: chunked\r\n", b"x-user: ann\r\n", b"X-KEY: k\r\n", b"x-key: a b\r\n", b"x-user:\r\n",
    b"a: b\r\n", b" folded\r\n", b"{", b"}", b"[", b"]", b'"', b"\\", b"\\u0000", b"\\ud800", b"null", b"true",
    b"1e400", b"-0", b"0", b"00", b"1.5", b"18446744073709551616", b'"name"', b"tags", b"name=x", b"=", b",", b"#",
    b"'''", b'"""', b"[roles.a]\n",
]
VALUES: List[Any] = [
    None, True, False, 0, -1, 1, 1.5, 100, 101, 10001, 1e30, "", "a b", "x" * 48, "x" * 49, "é", "low", [], ["a"],
    ["a", "a"], ["name=b1"], ["a="], ["="], [1], ["t%d" % n for n in range(16)], ["t%d" % n for n in range(17)], {},
    {"a": 1},
]
METHODS = ["GET", "POST", "PUT", "DELETE", "HEAD", "get", "PATCH", "OPTIONS", "G\x01T", "", "A" * 40]
TARGETS = [
    "/", "//", "/types/", "/nowhere", "*", "http://127.0.0.1/types", "/jobs/01", "/jobs/0", "/jobs/999999999",
    "/jobs/1000000000", "/jobs/x/start", "/boards/a%20b/tags", "/boards//tags", "/types?x=1", "/Types",
    "/jobs/1/finish/",
]
FIELDS = [
    "content-length: 5", "content-length: 65537", "content-length: 99999999999999999999999", "content-length: -1",
    "content-length: 1 1", "content-length: 0x5", "content-length:", "content-length: 00", "transfer-encoding:",
    "transfer-encoding: identity", "x-user: bob", "x-user: a b", "x-user:", "x-user: " + "u" * 48,
    "x-user: " + "u" * 49, "x-key: k1", "x-key: k2", "x-key:", "x-key: k/1", "x-key: " + "k" * 64,
    "x-key: " + "k" * 65, "expect: 100-continue", "host: a", "host : a", ": a", "a", "a:\x01", "a:\x7f", "é: a",
    "a: é", "a\tb: c", "connection: keep-alive",
]


def plain(chance: random.Random, good: Good) -> Tuple[str, str, List[str], bytes]:
    """A well-formed request as its parts: method, target, fields and body."""
    method, target, caller, body = good
    fields = [f"x-user: {caller}"] if caller else []
    if isinstance(body, dict):
        body = json.dumps(body)
    if chance.random() < 0.05 and method == "POST":
        fields.append(f"x-key: k{chance.randrange(50)}")
    return method, target, fields, body.encode()


def spelled(
    chance: random.Random, method: str, target: str, fields: List[str], body: bytes, declares: bool = True
) -> bytes:
    lines = [f"{method} {target} HTTP/1.1", *fields]
    if declares and (body or chance.random() < 0.5):
        lines.append(f"content-length: {len(body)}")
    end = "\r\n" if chance.random() < 0.9 else "\n"
    return (end.join(lines) + end + end).encode() + body


def changed_bytes(chance: random.Random, sent: bytes) -> bytes:
    """A request with some bytes changed, cut, doubled or moved, or with other words in it."""
    for _ in range(chance.choice([1, 1, 1, 2, 3, 8])):
        at = chance.randrange(len(sent) + 1)
        way = chance.randrange(6)
        to = min(at + chance.choice([1, 1, 2, 5, 20]), len(sent))
        if way == 0:
            sent = sent[:at] + bytes([chance.randrange(256)]) + sent[at + 1 :]
        elif way == 1:
            sent = sent[:at] + sent[to:]
        elif way == 2:
            sent = sent[:to] + sent[at:to] + sent[to:]
        elif way == 3:
            sent = sent[:at] + chance.choice(TOKENS) + sent[at:]
        elif way == 4:
            sent = sent[:at] + chance.choice(TOKENS) + sent[to:]
        else:
            other = chance.randrange(len(sent) + 1)
            sent = sent[:at] + sent[to:other] + sent[at:to] + sent[max(to, other) :]
    return sent


def wrong_parts(chance: random.Random) -> bytes:
    """A request that is wrong in its method, its target, its fields or its length, or in none."""
    method, target, fields, body = plain(chance, chance.choice(GOOD))
    way = chance.randrange(5)
    if way == 0:
        method = chance.choice(METHODS)
    elif way == 1:
        target = chance.choice(TARGETS)
    elif way == 2:
        fields.insert(chance.randrange(len(fields) + 1), chance.choice(FIELDS))
    elif way == 3:
        fields = [chance.choice(FIELDS) for _ in range(chance.randrange(4))]
    if way in (0, 1) and method == "POST" and target == "/pass":
        fields = ["x-user: ann"]
    return spelled(chance, method, target, fields, body, chance.random() < 0.8)


def wrong_body(chance: random.Random) -> bytes:
    """A command whose body is wrong in a value, in its spelling or in its depth."""
    good = chance.choice([it for it in GOOD if it[3]])
    method, target, caller, body = good
    if isinstance(body, dict):
        body = dict(body)
        for _ in range(chance.choice([1, 1, 2])):
            key = chance.choice(sorted(body) + ["other"])
            if chance.random() < 0.2:
                body.pop(key, None)
            else:
                body[key] = chance.choice(VALUES)
        body = json.dumps(body, ensure_ascii=chance.random() < 0.5)
        if chance.random() < 0.1:
            depth = chance.choice([5, 125, 126, 127, 128, 400, 5000])
            body = body[:-1] + ', "deep": ' + "[" * depth + "]" * chance.choice([depth, depth, depth - 1]) + "}"
    else:
        for _ in range(chance.choice([1, 1, 2])):
            lines = body.split("\n")
            at = chance.randrange(len(lines))
            value = json.dumps(chance.choice([it for it in VALUES if it is not None and not isinstance(it, dict)]))
            key = lines[at].split(" = ")[0]
            others = ["", f"{key} = {value}", lines[at] + " #", "[roles]", "roles = {}", f"{key} = {{}}"]
            lines[at] = chance.choice(others)
            body = "\n".join(lines)
    body = body.encode()
    if chance.random() < 0.3:
        body = changed_bytes(chance, body)
    return spelled(chance, method, target, [f"x-user: {caller}"], body)


def large(chance: random.Random) -> bytes:
    """A head about as long as one may be, or with about as many fields, or a body about as large."""
    way = chance.randrange(3)
    if way == 0:
        count = chance.randrange(8100, 8300)
        end = chance.choice([b"\r\n\r\n", b"", b"\r\n", b"\x01\r\n\r\n"])
        return b"GET /types HTTP/1.1\r\na: " + b"z" * (count - 27) + end
    if way == 1:
        return b"GET /types HTTP/1.1\r\n" + b"a: b\r\n" * chance.randrange(60, 70) + b"\r\n"
    count = chance.choice([60000, 65535, 65536, 65537])
    head = f"POST /pass HTTP/1.1\r\nx-user: ann\r\ncontent-length: {count}\r\n\r\n".encode()
    return head + b"z" * (count - chance.choice([0, 0, 1]))


def some_request(chance: random.Random) -> bytes:
    way = chance.random()
    if way < 0.08:
        return bytes(chance.randrange(256) for _ in range(chance.randrange(120)))
    if way < 0.12:
        return b"".join(chance.choice(TOKENS) for _ in range(chance.randrange(30)))
    if way < 0.35:
        return wrong_parts(chance)
    if way < 0.60:
        return wrong_body(chance)
    if way < 0.61:
        return large(chance)
    sent = spelled(chance, *plain(chance, chance.choice(GOOD)))
    if way < 0.70:
        return sent[: chance.randrange(len(sent) + 1)]
    if way < 0.75:
        return sent + spelled(chance, *plain(chance, chance.choice(GOOD)))
    return changed_bytes(chance, sent)


# ---- the program


class Server:
    """A program that serves a farm in a new file: a type, two boards, a job and a reservation."""

    def __init__(self, farm: str, folder: str):
        self.db = f"{tempfile.mkdtemp(dir=folder)}/farm.db"
        subprocess.run([farm, "init", "--db", self.db], check=True, stdout=subprocess.DEVNULL)
        self.port = free_port()
        words = [farm, "serve", "--db", self.db, "--port", str(self.port), "--max", "1000000000"]
        self.process = subprocess.Popen(words, stdout=subprocess.PIPE, stderr=subprocess.PIPE)
        assert self.process.stdout is not None
        assert self.process.stdout.readline() == f"listening {self.port}\n".encode()
        chance = random.Random(0)
        for place in (0, 2, 4, 5, 10):
            method, target, caller, body = GOOD[place]
            body = body if isinstance(body, str) else json.dumps(body)
            got = self.ask(spelled(chance, method, target, [f"x-user: {caller}"], body.encode()))
            assert got and got.startswith(b"HTTP/1.1 200 "), f"{target} was answered {got!r}"

    def ask(self, sent: bytes) -> Optional[bytes]:
        """All that is answered to bytes and the end of them; None where the connection was reset."""
        with socket.create_connection(("127.0.0.1", self.port), timeout=100) as stream:
            got = b""
            try:
                stream.sendall(sent)
                self.end_of(stream)
                while more := stream.recv(65536):
                    got += more
            except (ConnectionResetError, BrokenPipeError):
                return got or None
            return got

    @staticmethod
    def end_of(stream: socket.socket) -> None:
        """Says that no more is sent. A server that has answered and closed meanwhile needs no word of
        it: what it wrote is read all the same."""
        try:
            stream.shutdown(socket.SHUT_WR)
        except OSError as fault:
            if fault.errno != errno.ENOTCONN:
                raise

    def view(self, path: str) -> Any:
        answer = self.ask(f"GET {path} HTTP/1.1\r\n\r\n".encode()) or b""
        return json.loads(answer.partition(b"\r\n\r\n")[2])

    def shown(self) -> Tuple[List[Any], List[Any]]:
        """All that the views show, without moments."""
        views = [self.view(path) for path in ("/types", "/boards", "/queue", "/reservations", "/status")]
        for row in views[3]["reservations"]:
            del row["deadline"]
        del views[4]["clock"]
        jobs = [self.view(f"/jobs/{number}") for number in range(1, min(views[4]["next"], 300))]
        return views, jobs

    def files(self) -> int:
        """How many files it has open, once it waits for the next client."""
        time.sleep(0.5)
        return len(os.listdir(f"/proc/{self.process.pid}/fd"))

    def memory(self) -> int:
        """How many KiB of memory it has."""
        with open(f"/proc/{self.process.pid}/status", encoding="ascii") as status:
            return int(re.findall(r"VmRSS:\s+([0-9]+) kB", status.read())[0])


def keep(sent: bytes) -> str:
    file = os.path.join(tempfile.mkdtemp(prefix="malformed-"), "request")
    with open(file, "wb") as kept:
        kept.write(sent)
    return file


def main(farm: str, number: int, seed: int, folder: str) -> str:
    """Sends so many requests to a farm in a folder. Says what came of it."""
    chance = random.Random(seed)
    served = Server(farm, folder)
    judge = Judge()
    files, memory, lost = served.files(), served.memory(), 0
    for at in range(number):
        if at and at % 50000 == 0:
            print(f"malformed: {at} requests so far", flush=True)
        sent = some_request(chance)
        got = served.ask(sent)
        if got is None and len(sent) > 4096:
            # (a client that sends more than is asked for may meet the reset of its connection)
            lost += 1
        elif got is None or not judge.is_right(sent, got):
            raise AssertionError(f"a request, kept in {keep(sent)}, was answered {got!r}: {sent[:300]!r}")
    wait_until("no more open files than before", lambda: served.files() <= files)
    grown = served.memory() - memory
    again = Server(farm, folder)
    for sent in judge.done:
        got = again.ask(sent)
        assert got and got.startswith(b"HTTP/1.1 200 "), f"it isn't done on another farm: {sent[:300]!r}"
    assert served.shown() == again.shown(), "the farm isn't that of the commands that were done"
    status = served.view("/status")
    for it in (served, again):
        it.process.kill()
        it.process.communicate()
    sums = ", ".join(f"{kind} {count}" for kind, count in sorted(judge.sums.items(), key=str))
    return (
        f"{number} requests, {lost} of them reset: {sums}; {files} open files before and after\n"
        f"the farm is that of the {len(judge.done)} answers 200: {status}; "
        f"memory grew by {grown} KiB to {memory + grown}"
    )


if __name__ == "__main__":
    NUMBERS = [int(it) for it in sys.argv[2:]]
    NUMBERS += [500000, 20261124][len(NUMBERS) :]
    with tempfile.TemporaryDirectory() as room:
        print(main(os.path.realpath(sys.argv[1]), NUMBERS[0], NUMBERS[1], room))
