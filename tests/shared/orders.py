"""The program's orders over a farm's file: what they print, and requests to `farm once`."""
from __future__ import annotations

import contextlib
import json
import os
import sqlite3
import subprocess
from typing import Any, Dict, NamedTuple, Optional, Union

STORE_FAULT = "farm: 60 store fault\n"
Body = Union[bytes, str, Dict[str, Any], None]


class Ran(NamedTuple):
    """How an order ended."""

    status: int
    output: str
    errors: str


class Answer(NamedTuple):
    """An answer: its status, its fields and its body."""

    status: int
    fields: Dict[str, str]
    body: Any


def request(method: str, path: str, fields: Dict[str, str], body: bytes = b"") -> bytes:
    """The bytes of a request."""
    lines = [f"{method} {path} HTTP/1.1", *(f"{name}: {it}" for name, it in fields.items())]
    return ("\r\n".join(lines) + "\r\n\r\n").encode() + body


def bytes_of(body: Body) -> bytes:
    """The bytes of a body, of which a table is sent as JSON."""
    if isinstance(body, bytes):
        return body
    return (body or "").encode() if body is None or isinstance(body, str) else json.dumps(body).encode()


class Orders:
    """The program, and a folder of the test's own in which it is run."""

    def __init__(self, program: str, folder: str, db: str = "lab.db"):
        self.program, self.folder, self.db = program, folder, db

    def path(self, name: str) -> str:
        return os.path.join(self.folder, name)

    def run(self, *words: str, given: bytes = b"", around: Optional[Dict[str, str]] = None) -> Ran:
        """Runs the program with these words, and more in its environment, if any."""
        ran = subprocess.run(
            [self.program, *words], cwd=self.folder, input=given, capture_output=True, check=False, timeout=120,
            env={**os.environ, **(around or {})},
        )
        return Ran(ran.returncode, ran.stdout.decode(), ran.stderr.decode())

    def prints(self, line: str, *words: str, given: bytes = b"") -> None:
        """Demands that an order ends well and prints a line."""
        assert self.run(*words, given=given) == Ran(0, f"{line}\n" if line else "", ""), words

    def init(self) -> None:
        self.prints("ready", "init", "--db", self.db)

    def fill(self, reservations: int, owner: str = "ann") -> None:
        """Puts a board that is away, and reservations for it, into an empty farm: a hundred bytes of a list each."""
        self.tell("/types", body={"name": "bbb"})
        self.tell("/boards", body={"name": "b1", "type": "bbb", "tags": []})
        rows = ((number, owner, 50, "name=b1", 0, 1060, "") for number in range(1, reservations + 1))
        with contextlib.closing(sqlite3.connect(self.path(self.db))) as file, file:
            file.executemany("INSERT INTO reservations VALUES (?, ?, ?, ?, ?, ?, ?)", rows)
            file.execute("UPDATE meta SET value = ? WHERE name = 'next'", (reservations + 1,))

    def once(
        self, method: str, path: str, user: str = "", body: Body = None, key: str = "", at: int = 1000
    ) -> Answer:
        """The answer to a request at a moment."""
        sent = bytes_of(body)
        fields = {"x-user": user, "x-key": key, "content-length": str(len(sent)) if sent else ""}
        asked = request(method, path, {name: it for name, it in fields.items() if it}, sent)
        ran = self.run("once", "--db", self.db, "--at", str(at), given=asked)
        head, _, said = ran.output.partition("\r\n\r\n")
        first, *rest = head.split("\r\n")
        return Answer(int(first.split(" ")[1]), dict(it.split(": ", 1) for it in rest), json.loads(said))

    def tell(
        self, path: str, user: str = "admin", body: Body = None, key: str = "", at: int = 1000
    ) -> Any:
        """What a command that has to be accepted is answered."""
        answer = self.once("POST", path, user, body, key, at)
        assert answer.status == 200, f"{user} POST {path}: {answer.body}"
        return answer.body

    def look(self, path: str, at: int = 1000) -> Any:
        answer = self.once("GET", path, at=at)
        assert answer.status == 200, f"GET {path}: {answer.body}"
        return answer.body
