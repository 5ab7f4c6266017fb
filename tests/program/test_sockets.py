"""Clients that wait, fail, say nothing, are slow or say too much use a served farm, and many of them at once."""
from __future__ import annotations

import asyncio
import contextlib
import functools
import json
import os
import resource
import select
import signal
import socket
import subprocess
import time
from typing import Any, Callable, Iterator, List, Optional, Set

import pytest

from libraries import made
from orders import Orders, request
from ports import free_port
from served import STARTED, TOP, wait_until
from wants import lacks

FIRST_TYPE = request("POST", "/types", {"x-user": "admin", "content-length": "14"}, b'{"name":"bbb"}')
LOOK = request("GET", "/status", {})
LIMIT = 10  # seconds that a client has for its request
STATUS = '{"boards":0,"clock":%s,"collector":0,"count":%d,"jobs":0,"next":1,"reservations":0,"types":%d}'


def answer(status: str, body: str) -> bytes:
    """The bytes of a whole answer."""
    return (
        f"HTTP/1.1 {status}\r\ncontent-type: application/json\r\n"
        f"content-length: {len(body)}\r\nconnection: close\r\n\r\n{body}"
    ).encode()


DONE = answer("200 OK", '{"number":0}')
EXISTS = answer("409 Conflict", '{"code":11,"text":"type exists"}')
BAD_REQUEST = answer("400 Bad Request", '{"code":50,"text":"bad request"}')
TOO_LARGE = answer("413 Content Too Large", '{"code":51,"text":"too large"}')
STORE_FAULT = answer("503 Service Unavailable", '{"code":60,"text":"store fault"}')


class Desk:
    """A program that serves a farm in a new file, to so many connections."""

    def __init__(self, orders: Orders, connections: int, limit: Optional[int], descriptors: Optional[int]):
        self.orders = orders

        def prepare() -> None:
            signal.signal(signal.SIGXFSZ, signal.SIG_IGN)
            if limit is not None:
                resource.setrlimit(resource.RLIMIT_FSIZE, (limit, limit))
            if descriptors is not None:
                resource.setrlimit(resource.RLIMIT_NOFILE, (descriptors, descriptors))

        while True:
            self.port = free_port()
            words = ["serve", "--db", orders.db, "--port", str(self.port), "--max", str(connections)]
            self.process = subprocess.Popen(
                [orders.program, *words], stdout=subprocess.PIPE, stderr=subprocess.PIPE, preexec_fn=prepare,
                restore_signals=False, cwd=orders.folder,
            )
            STARTED.append(self.process)
            assert self.process.stdout is not None
            if self.process.stdout.readline() == f"listening {self.port}\n".encode():
                return
            assert self.process.communicate()[1] == b"farm: 80 read fault\n"

    def client(self, sent: bytes = b"") -> socket.socket:
        """A client that has sent this and waits."""
        client = socket.create_connection(("127.0.0.1", self.port), timeout=300)
        client.sendall(sent)
        return client

    def ends(self, status: int = 0, told: bytes = b"") -> None:
        """Demands that the serving ends so, with nothing more on the output."""
        output, errors = self.process.communicate(timeout=300)
        assert (self.process.returncode, errors, output) == (status, told, b"")

    def count(self) -> int:
        return int(self.orders.look("/status", at=1)["count"])


Start = Callable[..., Desk]


@pytest.fixture
def start(orders: Orders) -> Start:
    """Serves a farm, with so many reservations, to so many connections."""

    def started(
        connections: int, limit: Optional[int] = None, descriptors: Optional[int] = None, reservations: int = 0
    ) -> Desk:
        for end in ("", "-wal"):
            with contextlib.suppress(FileNotFoundError):  # (what a try that took too long has left)
                os.remove(orders.path(orders.db + end))
        orders.init()
        if reservations:
            orders.fill(reservations)
        if limit is not None:  # (else the start, which copies the log into the file, would want more)
            assert orders.run("report", "--db", orders.db, "boards").status == 0
        return Desk(orders, connections, limit, descriptors)

    return started


def answered(client: socket.socket) -> bytes:
    """All that a client is answered, up to the end of its connection."""
    said = bytearray()
    with client:
        while some := client.recv(65536):
            said += some
        return bytes(said)


def let_go(client: socket.socket) -> None:
    """Demands that a client's connection ends without an answer."""
    with contextlib.suppress(ConnectionResetError):
        assert answered(client) == b""


def is_open(client: socket.socket) -> bool:
    """Whether a client waits still: neither an answer nor an end has come."""
    poll = select.poll()
    poll.register(client, select.POLLIN)
    return not poll.poll(0)


def is_open_in_time(client: socket.socket, began: float) -> bool:
    """Whether a client waits still, or may have been let go for its time's sake: it began then."""
    return is_open(client) or time.monotonic() > began + LIMIT


def in_time(test: Callable[..., None]) -> Callable[..., None]:
    """Tries a test again that failed once its clients may have been let go for their time's sake."""

    @functools.wraps(test)
    def tried(*words: Any, **more: Any) -> None:
        for left in (3, 2, 1, 0):
            began = time.monotonic()
            try:
                return test(*words, **more)
            except (AssertionError, ConnectionError):
                if not left or time.monotonic() < began + LIMIT:
                    raise
        return None

    return tried


@in_time
def test_silent_client(start: Start) -> None:
    """Whoever's request is there is answered, at the system's moment; a silent client keeps nobody waiting."""
    desk = start(3)
    before = int(time.time())
    silent, first = desk.client(), desk.client(FIRST_TYPE)
    assert answered(first) == DONE
    shown = answered(desk.client(LOOK))
    assert shown in [answer("200 OK", STATUS % (clock, 1, 1)) for clock in range(before, int(time.time()) + 1)]
    silent.sendall(FIRST_TYPE)
    assert answered(silent) == EXISTS
    desk.ends()


@in_time
def test_request_in_parts(start: Start) -> None:
    """A request that comes in three parts is answered once it is whole, and no other is kept from its answer."""
    desk = start(3)
    parts = desk.client(FIRST_TYPE[:10])
    assert answered(desk.client(FIRST_TYPE)) == DONE
    parts.sendall(FIRST_TYPE[10:60])
    assert answered(desk.client(FIRST_TYPE)) == EXISTS
    assert is_open(parts)
    parts.sendall(FIRST_TYPE[60:])
    assert answered(parts) == EXISTS
    desk.ends()


@in_time
def test_largest_request(start: Start) -> None:
    """A head and a body of the most bytes, whose last byte comes late, wait aside until it came."""
    desk = start(2)
    head = b"POST /jobs HTTP/1.1\r\nx-user: admin\r\ncontent-length: 65536\r\nx-filler: %s\r\n\r\n"
    filled = head % (b"x" * (8192 - len(head % b"")))
    assert len(filled) == 8192
    late = desk.client(filled + b"#" * 65535)
    assert answered(desk.client(FIRST_TYPE)) == DONE
    late.sendall(b"#")
    said = answered(late)
    assert said.startswith(b"HTTP/1.1 400 ") and b'{"code":70,' in said
    desk.ends()


def test_even_and_odd_second(start: Start) -> None:
    """Nobody is let go unheard by the moment: a client in an even second and one in an odd."""
    desk = start(2)
    for _ in range(2):
        time.sleep(1.05 - time.time() % 1)
        assert answered(desk.client(LOOK)).startswith(b"HTTP/1.1 200 ")
    desk.ends()


def test_nobody_is_served(start: Start) -> None:
    start(0).ends()


def test_two_of_three_are_served(start: Start) -> None:
    """As many clients are served as asked for, and no more."""
    desk = start(2)
    clients = [desk.client(FIRST_TYPE) for _ in range(3)]
    assert [answered(it) for it in clients[:2]] == [DONE, EXISTS]
    desk.ends()
    let_go(clients[2])
    assert desk.count() == 1


def test_clients_that_fail(start: Start) -> None:
    """Clients that say nothing, go away, end early or send no request don't keep a good one off."""
    desk = start(5)
    desk.client().close()
    reset = desk.client(FIRST_TYPE[:40])
    reset.setsockopt(socket.SOL_SOCKET, socket.SO_LINGER, b"\1\0\0\0\0\0\0\0")
    reset.close()
    cut = desk.client(FIRST_TYPE[:40])
    cut.shutdown(socket.SHUT_WR)
    wrong = desk.client(b"farm\r\n\r\n")
    good = desk.client(FIRST_TYPE)
    assert [answered(it) for it in (cut, wrong, good)] == [BAD_REQUEST, BAD_REQUEST, DONE]
    desk.ends()
    assert desk.count() == 1


def test_more_than_was_asked_for(start: Start) -> None:
    """A client that sends 100,000 bytes too many, more than are read for a request, gets its whole answer."""
    desk = start(2)
    head = b"POST /types HTTP/1.1\r\nx-user: admin\r\ncontent-length: %d\r\n\r\n"
    assert answered(desk.client(head % 65537 + b"x" * 100000)) == TOO_LARGE
    assert answered(desk.client(FIRST_TYPE + b"x" * 100000)) == DONE
    desk.ends()


def test_long_answer_to_more_than_was_asked_for(start: Start) -> None:
    """So does one that reads a list of two million bytes late."""
    desk = start(1, reservations=20_000)
    client = desk.client(request("GET", "/reservations", {}) + b"x" * 100000)
    time.sleep(0.5)
    head, _, body = answered(client).partition(b"\r\n\r\n")
    assert int(head.split(b"content-length: ")[1].split(b"\r\n")[0]) == len(body)
    desk.ends()


def test_own_address(start: Start) -> None:
    """Of what listens at its port, as the system lists it, all is at 127.0.0.1."""
    desk = start(1)

    def listening() -> List[str]:
        found = []
        for table in ("/proc/net/tcp", "/proc/net/tcp6"):
            with open(table, encoding="ascii") as file:
                rows = [line.split() for line in file][1:]
            found += [row[1] for row in rows if row[3] == "0A" and row[1].endswith(f":{desk.port:04X}")]
        return found

    # (the system may leave out a row, or tell it twice, while others' connections come and go)
    wait_until("it listens there alone", lambda: listening() == [f"0100007F:{desk.port:04X}"], 20)
    assert answered(desk.client(FIRST_TYPE)) == DONE
    desk.ends()


@in_time
def test_behind_line_ends(start: Start) -> None:
    """Behind line ends a request is answered, as many as there is room for in its head; a silent client that came
    earlier waits on."""
    desk = start(4)
    silent = desk.client()
    for ends in (b"\n" * 257, b"\r\n" * 4000):
        assert answered(desk.client(ends + LOOK)).startswith(b"HTTP/1.1 200 ")
    assert answered(desk.client(b"\n" * 8192 + LOOK)) == TOO_LARGE
    assert is_open(silent)
    silent.sendall(FIRST_TYPE)
    assert answered(silent) == DONE
    desk.ends()


@in_time
def test_end_behind_further_bytes(start: Start) -> None:
    """A client that waits, and whose last bytes and end come together, is answered at once. So is one that came
    before those bytes."""
    desk = start(3)
    cut = desk.client(FIRST_TYPE[:10])
    assert answered(desk.client(FIRST_TYPE)) == DONE
    desk.process.send_signal(signal.SIGSTOP)
    other = desk.client(LOOK)
    cut.sendall(FIRST_TYPE[10:20])
    cut.shutdown(socket.SHUT_WR)
    desk.process.send_signal(signal.SIGCONT)
    assert answered(cut) == BAD_REQUEST
    assert answered(other).startswith(b"HTTP/1.1 200 ")
    desk.ends()


@in_time
def test_first_come_first_served(start: Start) -> None:
    """Of two clients whose last bytes come while the desk is busy, the later's first, the one that came first is served
    first."""
    desk = start(3)
    first, second = (desk.client(FIRST_TYPE[:10]) for _ in range(2))
    assert answered(desk.client(LOOK)).startswith(b"HTTP/1.1 200 ")
    desk.process.send_signal(signal.SIGSTOP)
    second.sendall(FIRST_TYPE[10:])
    first.sendall(FIRST_TYPE[10:])
    desk.process.send_signal(signal.SIGCONT)
    assert [answered(it) for it in (first, second)] == [DONE, EXISTS]
    desk.ends()


@in_time
def test_answer_that_waits(start: Start) -> None:
    """A list of ten million bytes, more than the system holds for a client, waits aside for one that reads it late,
    and nobody waits with it: whoever comes behind is answered before a silent client is let go, or reads another
    such list whole. The serving ends once both are read."""
    desk = start(4, reservations=100_000)
    late, later = (desk.client(request("GET", "/reservations", {})) for _ in range(2))
    silent = desk.client()
    assert answered(desk.client(LOOK)).startswith(b"HTTP/1.1 200 ")
    assert is_open(silent)
    silent.sendall(LOOK)
    assert answered(silent).startswith(b"HTTP/1.1 200 ")
    assert desk.process.poll() is None
    for client in (later, late):
        head, _, body = answered(client).partition(b"\r\n\r\n")
        assert head.startswith(b"HTTP/1.1 200 ")
        assert int(head.split(b"content-length: ")[1].split(b"\r\n")[0]) == len(body)
    desk.ends()


def test_without_poll(orders: Orders, folder: str, monkeypatch: pytest.MonkeyPatch) -> None:
    """Where the system refuses what waiting for clients takes nobody is served, and that is printed at once."""
    monkeypatch.setenv("LD_PRELOAD", made(f"{TOP}/tests/faults/no_poll.c", folder))
    orders.init()
    ran = subprocess.run(
        [orders.program, "serve", "--db", orders.db, "--port", str(free_port()), "--max", "1"],
        cwd=orders.folder, stdout=subprocess.PIPE, stderr=subprocess.PIPE, check=False, timeout=60,
    )
    assert (ran.returncode, ran.stdout, ran.stderr) == (4, b"", b"farm: 80 read fault\n")


@pytest.mark.slow(20)
@in_time
def test_client_that_is_too_slow(start: Start) -> None:
    """A client that sends a byte now and then is let go, 10 seconds after it came at the soonest, and the next one
    is answered before."""
    desk = start(2)
    begun = time.monotonic()
    slow = desk.client(FIRST_TYPE[:40])
    assert answered(desk.client(FIRST_TYPE)) == DONE
    assert is_open(slow)
    for byte in FIRST_TYPE[40:]:
        if select.select([slow], [], [], 3)[0]:
            break
        with contextlib.suppress(ConnectionError):  # (it may be let go just now)
            slow.sendall(bytes([byte]))
    let_go(slow)
    assert time.monotonic() - begun >= 10
    desk.ends()
    assert desk.count() == 1


def test_descriptors_that_run_out(start: Start) -> None:
    """Sixty idle clients where the program may have forty descriptors: it serves on once some are free."""
    desk = start(2**63, descriptors=40)
    crowd = [desk.client() for _ in range(60)]
    time.sleep(0.5)
    assert desk.process.poll() is None
    for client in crowd:
        client.close()
    assert answered(desk.client(LOOK)).startswith(b"HTTP/1.1 200 ")


def test_store_that_fails(start: Start) -> None:
    """Where the files can't grow the command is answered 503 and 60, and the serving ends. (A log's head has 64 bytes'
    room, and no page.)"""
    desk = start(9, limit=64)
    silent, first = desk.client(), desk.client(FIRST_TYPE)
    assert answered(first) == STORE_FAULT
    desk.ends(4, b"farm: 60 store fault\n")
    let_go(silent)
    assert desk.count() in (0, 1)


# ---- crowds; how long an honest client waits beside them, crowds.py measures by hand


@pytest.fixture
def many_descriptors() -> Iterator[None]:
    """As many as a thousand clients take, here and in the programs that are started."""
    soft, hard = resource.getrlimit(resource.RLIMIT_NOFILE)
    if hard != resource.RLIM_INFINITY and hard < 2048:
        lacks("too few descriptors for a process")
    resource.setrlimit(resource.RLIMIT_NOFILE, (max(soft, 2048), hard))
    yield
    resource.setrlimit(resource.RLIMIT_NOFILE, (soft, hard))


@pytest.mark.usefixtures("many_descriptors")
@pytest.mark.parametrize("number", [1, 50, 1000, 1100])
def test_idle_crowd(number: int, start: Start) -> None:
    """Who asks beside idle clients, also beside more than there are places for, is answered before the newest of
    them is let go, again and again."""
    desk = start(2**63)
    crowd = [desk.client() for _ in range(number)]
    for _ in range(20):
        began, late = time.monotonic(), desk.client()
        assert answered(desk.client(LOOK)).startswith(b"HTTP/1.1 200 ")
        assert is_open_in_time(late, began)
        crowd.append(late)
    for client in crowd:
        client.close()


def test_crowd_that_drips(start: Start) -> None:
    """So is who asks beside two hundred clients that send a byte now and then."""
    desk = start(2**63)
    crowd = [desk.client(LOOK[:1]) for _ in range(200)]
    for byte in LOOK[1:12]:
        began, late = time.monotonic(), desk.client(LOOK[:1])
        for client in crowd:
            with contextlib.suppress(ConnectionError):
                client.sendall(bytes([byte]))
        assert answered(desk.client(LOOK)).startswith(b"HTTP/1.1 200 ")
        assert is_open_in_time(late, began)
        late.close()
    for client in crowd:
        client.close()


@pytest.mark.slow(30)
@pytest.mark.timeout(1800)
@pytest.mark.usefixtures("many_descriptors")
def test_busy_crowd(start: Start) -> None:
    """Five hundred clients at once, each with sixteen commands under keys of their own: each is done once, and
    who looks meanwhile is answered."""
    desk = start(2**63)
    for path, body in (("/types", {"name": "bbb"}), ("/boards", {"name": "b1", "type": "bbb", "tags": []})):
        assert answered(desk.client(post(path, "admin", body))) == DONE
    numbers: Set[int] = set()

    async def book(client: int) -> None:
        for turn in range(16):
            numbers.add((await ask(desk, post("/reservations", f"u{client}", {"tags": []}, f"k{turn}")))["number"])

    async def crowd() -> int:
        tasks = [asyncio.create_task(book(client)) for client in range(500)]
        looks = 0
        while not all(task.done() for task in tasks):
            await ask(desk, LOOK)
            looks += 1
        await asyncio.gather(*tasks)
        return looks

    assert asyncio.run(crowd()) > 1
    shown = answered(desk.client(LOOK)).partition(b"\r\n\r\n")[2]
    assert (json.loads(shown)["count"], numbers) == (8002, set(range(1, 8001)))


def post(path: str, user: str, body: Any, key: str = "") -> bytes:
    """The bytes of a command."""
    text = json.dumps(body).encode()
    fields = {"x-user": user, **({"x-key": key} if key else {}), "content-length": str(len(text))}
    return request("POST", path, fields, text)


async def ask(desk: Desk, sent: bytes) -> Any:
    """What a request is answered, which has to be accepted. Where this busy process was late with it, so that the desk may
    have let it go, it is sent again until it is answered: a look, or what has a key."""
    while True:
        said, began, late = b"", time.monotonic(), 0.0
        reader, writer = await asyncio.open_connection("127.0.0.1", desk.port)
        with contextlib.suppress(ConnectionError):
            writer.write(sent)
            late = time.monotonic() - began
            said = await reader.read()
        writer.close()
        head, _, body = said.partition(b"\r\n\r\n")
        if head.startswith(b"HTTP/1.1 200 ") or late < LIMIT / 2:
            assert head.startswith(b"HTTP/1.1 200 "), (late, head)
            return json.loads(body)
