"""The Python package without a desk: its settings, and what it makes of answers."""
from __future__ import annotations

import concurrent.futures
import datetime
import itertools
import os
import pathlib
import socketserver
import threading
import time
import types
from typing import Any, Callable, Dict, List, Tuple, cast

import pytest

import fizgruk
from fizgruk import calls, models, settings
from fizgruk.calls import Desk
from fizgruk.client import past_of
from served import wait_until

OWN = settings.Settings("http://127.0.0.1:1/farm/", "ann", None, None, 30.0)
BOARD: Dict[str, Any] = {
    "name": "b1", "type": "bbb", "tags": ["hdmi"], "health": "Good", "state": "Idle", "holder": "none",
    "jobs_since": 0, "last_check": 0,
}
STATUS = dict.fromkeys(("clock", "count", "next", "collector", "types", "boards", "jobs", "reservations"), 0)


@pytest.fixture(autouse=True)
def home(tmp_path: pathlib.Path, monkeypatch: pytest.MonkeyPatch) -> pathlib.Path:
    """A home without settings, and an environment without any."""
    for name in [it for it in os.environ if it.startswith("DESK_")]:
        monkeypatch.delenv(name)
    monkeypatch.setenv("HOME", str(tmp_path))
    monkeypatch.delenv("XDG_CONFIG_HOME", raising=False)
    monkeypatch.setattr(settings, "SYSTEM_FILE", str(tmp_path / "system.ini"))
    return tmp_path


# ---- views


@pytest.mark.parametrize("more, told", [
    ({}, "the answer isn't a desk's: name is None"), ({"name": 3}, "name is 3"), ({"tags": "hdmi"}, "tags is 'hdmi'"),
    ({"jobs_since": True}, "jobs_since is True"), ({"last_check": "1"}, "last_check is '1'"),
    ({"holder": "eve"}, "holder is 'eve'"), ({"holder": 3}, "holder is 3"),
])
def test_view_that_is_no_desks(more: Dict[str, Any], told: str) -> None:
    """A field that isn't of its kind is told, and no view is made of it."""
    row = {**BOARD, **more} if more else {name: it for name, it in BOARD.items() if name != "name"}
    with pytest.raises(fizgruk.Unreachable, match=told):
        models.view_of(models.BoardView, row)


def test_view_of_a_later_desk() -> None:
    """Fields and words that a later desk has are no fault."""
    board = models.view_of(models.BoardView, {**BOARD, "health": "Warm", "shelf": 3})
    assert (board.health, board.tags) == ("Warm", ("hdmi",))
    with pytest.raises(fizgruk.Unreachable):
        models.view_of(models.BoardView, [BOARD])


def test_moments_and_holders() -> None:
    """A moment is in UTC, and none where it is 0; a holder is a kind and a number, and none where it is free."""
    board = models.view_of(models.BoardView, {**BOARD, "last_check": 86400, "holder": "job 12"})
    assert board.last_check == datetime.datetime(1970, 1, 2, tzinfo=datetime.timezone.utc)
    assert (board.holder, str(board.holder)) == (fizgruk.Holder("job", 12), "job 12")
    board = models.view_of(models.BoardView, BOARD)
    assert (board.last_check, board.holder) == (None, None)


def test_a_change_of_health() -> None:
    """A line of a board's past has what was before, and what is after."""
    row = {"kind": "health", "board": "b2", "from": "Good", "to": "Bad", "at": 86400, "reason": "by the admin"}
    at = datetime.datetime(1970, 1, 2, tzinfo=datetime.timezone.utc)
    assert past_of(row) == fizgruk.HealthChange("b2", "Good", "Bad", at, "by the admin")


def test_tags_of_boards() -> None:
    """A board fits where it has all tags, its name among them; a value is what stands behind its key."""
    board = models.view_of(models.BoardView, {**BOARD, "tags": ["hdmi", "power=pdu2", "power"]})
    wants: List[Tuple[Tuple[str, ...], bool]] = [
        ((), True), (("hdmi", "name=b1"), True), (("hdmi", "vga"), False), (("name=b2",), False),
    ]
    assert [board.fits(*tags) for tags, _ in wants] == [fits for _, fits in wants]
    held = fizgruk.Board("b1", "bbb", ("powered=pdu1", *board.tags, "pow"), 1)
    assert [held.value(it) for it in ("power", "hdmi", "pow")] == ["pdu2", None, None]


# ---- connections

FULL = b'HTTP/1.1 200 OK\r\ncontent-length: 12\r\n\r\n{"number":7}'
Say = Callable[[int], bytes]


class Raw(socketserver.ThreadingTCPServer):
    """A server that answers its requests with bytes, by their number from 0, and closes after what is cut; to
    nothing it says nothing, until it ends."""

    daemon_threads = True

    def __init__(self, say: Say):
        super().__init__(("127.0.0.1", 0), RawHandler)
        self.say, self.asked, self.is_over = say, itertools.count(), threading.Event()
        self.connections: List[object] = []
        threading.Thread(target=self.serve_forever, daemon=True).start()


class RawHandler(socketserver.StreamRequestHandler):
    def handle(self) -> None:
        server = cast(Raw, self.server)
        server.connections.append(self)
        while self.rfile.readline() not in (b"", b"\r\n"):
            while self.rfile.readline() not in (b"", b"\r\n"):
                pass
            said = server.say(next(server.asked))
            if not said:
                server.is_over.wait()
            self.wfile.write(said)
            if not said.endswith(b"}"):
                return


def raw(say: Say, timeout: float = 60.0, patience: float = 0.0) -> Tuple[Raw, Desk]:
    server = Raw(say)
    address = f"http://127.0.0.1:{server.server_address[1]}"
    return server, Desk(settings.Settings(address, "ann", None, None, timeout), patience)


@pytest.mark.parametrize("cut", [
    b"HTTP/1.1 200 OK\r\n", b"HTTP/1.1 200 OK\r\ncontent-length: 12\r\n\r\n{", b"HTTP", b"\r\n",
])
def test_answer_that_is_cut(cut: bytes, monkeypatch: pytest.MonkeyPatch) -> None:
    """An answer that is cut in its head or in its body is none, and the request is sent again."""
    slept: List[float] = []
    monkeypatch.setattr(calls, "time", types.SimpleNamespace(monotonic=time.monotonic, sleep=slept.append))
    server, made = raw(lambda number: cut if number == 0 else FULL, patience=15.0)
    assert made.tell("/jobs", b"", "k1") == {"number": 7}
    assert (len(server.connections), len(slept)) == (2, 1)


def test_silence_on_a_kept_connection() -> None:
    """A request that nobody answers in time isn't sent again over a new connection before its pause."""
    asked: List[int] = []

    def say(number: int) -> bytes:
        asked.append(number)
        return FULL if number == 0 else b""

    server, made = raw(say)
    assert made.look("/status") == {"number": 7}
    made.timeout = 0.3
    with pytest.raises(fizgruk.Unreachable, match="timed out"):
        made.look("/status")
    wait_until("that the second request is read", lambda: len(asked) > 1)
    assert (asked, len(server.connections)) == ([0, 1], 1)
    server.is_over.set()


def test_old_connection(monkeypatch: pytest.MonkeyPatch) -> None:
    """A connection that nobody used for long isn't used again."""
    server, made = raw(lambda _: FULL)
    for idle, connections in ((30.0, 1), (30.0, 1), (0.0, 2)):
        monkeypatch.setattr(calls, "LONGEST_IDLE", idle)
        made.look("/status")
        assert len(server.connections) == connections


def test_threads_at_once() -> None:
    """Several threads ask at once, each over a connection of its own, of which four are kept."""
    all_came = threading.Barrier(6)

    def say(number: int) -> bytes:
        if number < 6:
            all_came.wait(300)
        return FULL

    server, made = raw(say)
    with concurrent.futures.ThreadPoolExecutor(6) as pool:
        assert list(pool.map(lambda _: made.look("/status"), range(6))) == [{"number": 7}] * 6
    assert (len(server.connections), len(made._idle)) == (6, calls.MOST_IDLE)
    made.close()
    assert not made._idle
