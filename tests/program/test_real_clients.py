"""Clients of the machine use a served farm: curl by single requests and many in a row, and streams of commands
under keys, in the midst of which the server is killed and starts again."""
from __future__ import annotations

import contextlib
import functools
import http.client
import os
import socket
import sqlite3
import subprocess
import threading
import time
from typing import Callable, Dict, List, Tuple

import pytest

from served import TOP, Farm, read, wait_until
from wants import wants

MakeFarm = Callable[..., Farm]
BOOT, MULTINODE = (read(os.path.join(TOP, "examples", it)) for it in ("boot.toml", "multinode.toml"))
QUEUE = (
    '{"queue":[{"boards":3,"kind":"group","number":2,"owner":"ann","priority":70},'
    '{"boards":1,"kind":"group","number":1,"owner":"ann","priority":50}]}'
)


@pytest.fixture
def farm(make_farm: MakeFarm) -> Farm:
    """The lab of examples/, served."""
    served = make_farm()
    served.kill()
    lab = os.path.join(TOP, "examples", "lab.toml")
    words = [served.program, "import", "--db", served.db, "--at", "1700000000", lab]
    assert subprocess.run(words, check=True, capture_output=True).stdout == b"accepted 15, kept 0\n"
    served.start()
    return served


def curl(farm: Farm, method: str, path: str, user: str = "", body: str = "", key: str = "") -> Tuple[int, str]:
    """The status and the body of an answer to curl; 0 where none came."""
    words = ["curl", "-sS", "-m", "60", "-X", method, "-H", "expect:", "-w", "\n%{http_code}"]
    for name, text in (("x-user", user), ("x-key", key)):
        words += ["-H", f"{name}: {text}"] if text else []
    words += ["--data-binary", "@-"] if body else []
    ran = subprocess.run(
        [*words, f"{farm.server}{path}"], input=body, capture_output=True, text=True, check=False
    )
    said, _, status = ran.stdout.rpartition("\n")
    return int(status or 0), said


def test_single_requests(farm: Farm) -> None:
    """curl's requests, each with the status and the body of docs/API.md."""
    wants("curl")
    assert curl(farm, "POST", "/types", "admin", '{"name":"bbb"}') == (200, '{"number":0}')
    assert curl(farm, "POST", "/types", "admin", '{"name":"bbb"}') == (409, '{"code":11,"text":"type exists"}')
    assert curl(farm, "POST", "/types", "ann", '{"name":"ccc"}') == (403, '{"code":3,"text":"forbidden"}')
    assert curl(farm, "GET", "/jobs/7") == (404, '{"code":20,"text":"no such job"}')
    assert curl(farm, "GET", "/nowhere") == (404, '{"code":52,"text":"no such route"}')
    assert curl(farm, "POST", "/types", "admin", "x" * 70000) == (413, '{"code":51,"text":"too large"}')
    assert curl(farm, "POST", "/jobs", "ann", BOOT) == (200, '{"number":1}')
    for _ in range(2):
        assert curl(farm, "POST", "/jobs", "ann", MULTINODE, "job-2") == (200, '{"number":2}')
    assert curl(farm, "GET", "/queue") == (200, QUEUE)


def test_many_in_a_row(farm: Farm) -> None:
    """One curl asks 200 times."""
    wants("curl")
    words = ["curl", "-sS", "-o", "/dev/null", "-w", "%{http_code}\n", f"{farm.server}/boards?[1-200]"]
    assert subprocess.run(words, check=True, capture_output=True).stdout == b"200\n" * 200


def test_beside_a_client_that_stalls(farm: Farm) -> None:
    """A client that sends a part of a request, and then nothing, keeps no other from its answer."""
    began = time.monotonic()
    with socket.create_connection(("127.0.0.1", farm.port)) as stalled:
        stalled.sendall(b"POST /ty")
        assert farm.ask("ann", "GET", "/status")[0] == 200
        # (it isn't answered yet: the other didn't wait for its end, which comes after ten seconds)
        stalled.setblocking(False)
        try:
            assert not stalled.recv(1) and time.monotonic() > began + 10
        except OSError as fault:
            assert isinstance(fault, BlockingIOError) or time.monotonic() > began + 10


def streamed(farm: Farm, life: int, answered: Dict[str, int], cut: List[str]) -> None:
    """Asks for reservations, each under a key of its own, until no answer comes."""
    while True:
        key = f"key-{life}-{len(answered)}"
        try:
            status, told = farm.ask("ann", "POST", "/reservations", {"tags": []}, key)
        except (OSError, ValueError, http.client.HTTPException):
            cut.append(key)
            return
        assert status == 200, told
        answered[key] = told["number"]


def has_more(answered: Dict[str, int], before: int) -> bool:
    return len(answered) > before


@pytest.mark.slow(10)
def test_kills_in_a_stream(farm: Farm) -> None:
    """Each command that was answered is done, none is done twice, those that weren't are sent again; and the
    reports and SQLite find the file whole."""
    answered: Dict[str, int] = {}
    cut: List[str] = []
    for life, rest in enumerate((0.3, 0.5, 0.2, 0.7, 0.4)):
        stream = threading.Thread(target=streamed, args=(farm, life, answered, cut))
        before = len(answered)
        stream.start()
        wait_until("an answer", functools.partial(has_more, answered, before))
        time.sleep(rest)
        farm.kill()
        stream.join()
        farm.start()
    assert answered and len(cut) == 5
    answered.update({key: farm.ask("ann", "POST", "/reservations", {"tags": []}, key)[1]["number"] for key in cut})
    for key, number in answered.items():
        assert farm.ask("ann", "POST", "/reservations", {"tags": []}, key) == (200, {"number": number})
    numbers = [it["number"] for it in farm.look("/reservations")["reservations"]]
    assert sorted(answered.values()) == numbers == list(range(1, len(answered) + 1))
    farm.kill()
    words = [farm.program, "report", "--db", farm.db, "reservations"]
    before = subprocess.run(words, check=True, capture_output=True).stdout
    assert len(before.splitlines()) == len(answered)
    with contextlib.closing(sqlite3.connect(farm.db)) as file:
        assert file.execute("pragma integrity_check").fetchall() == [("ok",)]
    assert subprocess.run(words, check=True, capture_output=True).stdout == before
