"""One command, one commit: what each of the fourteen commands writes to the log, and syncs."""
from __future__ import annotations

import http.client
import json
import os
import re
import struct
import subprocess
from typing import Any, Iterator, Optional, Tuple

import libraries
import pytest
from ports import free_port
from recorded import entries_in
from served import STARTED, TOP

PAGE = 1024
HEADER, FRAME = 32, 24 + PAGE  # bytes of the log's head, and of a frame with its page
JOB = b"job_name = 'one'\ndevice_type = 'bbb'\n"
# A day with every command: who gives it, its path and its body.
DAY = [
    ("admin", "/types", {"name": "bbb"}),
    ("admin", "/boards", {"name": "b1", "type": "bbb", "tags": []}),
    ("admin", "/boards/b1/tags", {"tags": ["hdmi"]}),
    ("admin", "/boards/b1/health", {"health": "Good"}),
    ("ann", "/jobs", JOB),
    ("dispatcher", "/pass", None),
    ("dispatcher", "/jobs/1/start", None),
    ("ann", "/jobs/1/cancel", None),
    ("dispatcher", "/jobs/1/finish", {"outcome": "Complete"}),
    ("bob", "/reservations", {"tags": ["hdmi"]}),
    ("bob", "/reservations/2/refresh", None),
    ("dispatcher", "/pass", None),
    ("bob", "/reservations/2/acquire", None),
    ("bob", "/reservations/2/release", None),
    ("bob", "/reservations/2/cancel", None),
]


class Desk:
    """A program that serves a new farm, and writes down what it writes and syncs."""

    def __init__(self, program: str, folder: str):
        self.db, self.record = os.path.join(folder, "farm.db"), os.path.join(folder, "record")
        subprocess.run([program, "init", "--db", self.db], check=True, stdout=subprocess.DEVNULL)
        self.port = free_port()
        recorder = libraries.made(os.path.join(os.path.dirname(__file__), "record.c"), folder)
        self.process = subprocess.Popen(
            [program, "serve", "--db", self.db, "--port", str(self.port), "--max", "1000"],
            stdout=subprocess.PIPE, env={**os.environ, "LD_PRELOAD": recorder, "RECORD": self.record, "RECORDED": self.db},
        )
        STARTED.append(self.process)
        assert self.process.stdout is not None and self.process.stdout.readline()
        # (the first command makes the log longer, which is synced too)
        assert self.ask("admin", "/types", {"name": "first"})[0] == 200

    def ask(self, user: str, path: str, body: Any, key: Optional[str] = None) -> Tuple[int, Any]:
        line = http.client.HTTPConnection("127.0.0.1", self.port, timeout=60)
        fields = {"x-user": user, **({"x-key": key} if key else {})}
        sent = body if body is None or isinstance(body, bytes) else json.dumps(body).encode()
        try:
            line.request("POST", path, body=sent, headers=fields)
            answer = line.getresponse()
            return answer.status, json.loads(answer.read())
        finally:
            line.close()

    def commits(self) -> int:
        """How many frames of the log end a commit: those that name the pages of the file after it."""
        with open(f"{self.db}-wal", "rb") as file:
            log = file.read()
        salts, found = log[16:24], 0
        for at in range(HEADER, len(log) - FRAME + 1, FRAME):
            pages = struct.unpack(">I", log[at + 4 : at + 8])[0]
            if log[at + 8 : at + 16] != salts:
                break
            found += pages > 0
        return found

    def syncs(self) -> int:
        return sum(it.what == "s" for it in entries_in(self.record))


@pytest.fixture
def desk(program: str, folder: str) -> Iterator[Desk]:
    yield Desk(program, folder)


def test_each_command_commits_once_and_syncs_once(desk: Desk) -> None:
    for user, path, body in DAY:
        commits, syncs = desk.commits(), desk.syncs()
        status, said = desk.ask(user, path, body)
        assert status == 200, f"{path}: {said}"
        assert (desk.commits() - commits, desk.syncs() - syncs) == (1, 1), path


def test_under_a_key_too_and_never_where_it_is_repeated_or_refused(desk: Desk) -> None:
    for number, (user, path, body) in enumerate(DAY):
        commits, syncs = desk.commits(), desk.syncs()
        answer = desk.ask(user, path, body, f"k{number}")
        assert answer[0] == 200, f"{path}: {answer}"
        assert (desk.commits() - commits, desk.syncs() - syncs) == (1, 1), path
        assert desk.ask(user, path, body, f"k{number}") == answer, path
        assert (desk.commits() - commits, desk.syncs() - syncs) == (1, 1), f"{path} repeated"
    commits, syncs = desk.commits(), desk.syncs()
    assert desk.ask("admin", "/types", {"name": "bbb"})[0] == 409
    assert desk.ask("ann", "/types", {"name": "ddd"})[0] == 403
    assert (desk.commits(), desk.syncs()) == (commits, syncs)


def test_the_day_has_every_command() -> None:
    """The paths are those of docs/API.md."""
    with open(os.path.join(TOP, "docs/API.md"), encoding="utf-8") as file:
        routes = re.findall(r"(?m)^### `POST (\S+)`$", file.read())
    forms = {re.sub(r"/(\d+|b1)(?=/)", lambda it: "/{name}" if it[1] == "b1" else "/{n}", path) for _, path, _ in DAY}
    assert len(routes) == 14 and forms == set(routes)
