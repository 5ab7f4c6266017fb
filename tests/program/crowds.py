#!/usr/bin/env python3
"""Serves an honest client beside many that are silent, slow or busy.

python3 tests/program/crowds.py bin/farm [--strict]

Each row serves a farm in a new file on a free port of 127.0.0.1 and prints how long the honest client waited
at worst. With --strict, for a quiet machine, that has to be under 0.1 s beside silent and slow clients, 0.2 s
beside more than there are places for and beside those that don't read their answers, and 0.5 s beside busy
ones; without it twenty times as much, which a program misses that waits for a silent one, for line ends or for
a free place.
No request of an honest client may fail, and no command be done twice. Ends with status 1 at the first thing
that isn't as it should be. Takes about a minute. It is run by hand: a loaded machine waits longer than it allows.
"""
import argparse
import asyncio
import contextlib
import json
import os
import resource
import socket
import sqlite3
import subprocess
import sys
import tempfile
import time
from typing import Any, Awaitable, Callable, Dict, List, NoReturn, Tuple

sys.path.append(os.path.join(os.path.dirname(os.path.realpath(__file__)), "../shared"))
from ports import free_port  # noqa: E402

LOOK = b"GET /status HTTP/1.1\r\n\r\n"
PATIENCE = 20
STREAMS = Tuple[asyncio.StreamReader, asyncio.StreamWriter]


def fail(why: str) -> NoReturn:
    print(f"crowds: {why}", file=sys.stderr)
    sys.exit(1)


def post(path: str, user: str, body: Dict[str, Any], key: str = "") -> bytes:
    """The bytes of a command."""
    text = json.dumps(body).encode()
    keyed = f"x-key: {key}\r\n" if key else ""
    head = f"POST {path} HTTP/1.1\r\nx-user: {user}\r\n{keyed}content-length: {len(text)}\r\n\r\n"
    return head.encode() + text


def fill(program: str, db: str, reservations: int) -> None:
    """Puts a board, and reservations for it, into an empty farm's file: a hundred bytes of a list each."""
    board = {"name": "b1", "type": "bbb", "tags": []}
    once = [program, "once", "--db", db, "--at", "1000"]
    for request in (post("/types", "admin", {"name": "bbb"}), post("/boards", "admin", board)):
        subprocess.run(once, input=request, check=True, stdout=subprocess.DEVNULL)
    rows = ((number, "ann", 50, "name=b1", 0, 1060, "") for number in range(1, reservations + 1))
    with contextlib.closing(sqlite3.connect(db)) as file, file:
        file.executemany("INSERT INTO reservations VALUES (?, ?, ?, ?, ?, ?, ?)", rows)
        file.execute("UPDATE meta SET value = ? WHERE name = 'next'", (reservations + 1,))


class Farm:
    """A program that serves a farm in a new file, with so many reservations for a board that is away."""

    def __init__(self, program: str, folder: str, reservations: int = 0) -> None:
        self.program, self.folder = program, folder
        self.db = os.path.join(tempfile.mkdtemp(dir=folder), "farm.db")
        subprocess.run([program, "init", "--db", self.db], check=True, stdout=subprocess.DEVNULL)
        if reservations:
            fill(program, self.db, reservations)
        self.port = free_port()
        words = [program, "serve", "--db", self.db, "--port", str(self.port), "--max", str(2**63)]
        self.process = subprocess.Popen(words, stdout=subprocess.PIPE)
        assert self.process.stdout is not None
        if self.process.stdout.readline() != f"listening {self.port}\n".encode():
            fail("the program doesn't serve")

    def connect(self) -> Awaitable[STREAMS]:
        return asyncio.open_connection("127.0.0.1", self.port)

    async def ask(self, request: bytes) -> Tuple[float, Any]:
        """Sends a request; gives how long its answer took, and what it says. Anything but 200 fails."""
        begun = time.monotonic()
        reader, writer = await self.connect()
        writer.write(request)
        answer = await reader.read()
        took = time.monotonic() - begun
        writer.close()
        head, _, body = answer.partition(b"\r\n\r\n")
        if not head.startswith(b"HTTP/1.1 200 "):
            fail(f"{request[:40]!r} was answered {answer[:200]!r}")
        return took, json.loads(body)

    async def furnish(self) -> None:
        await self.ask(post("/types", "admin", {"name": "bbb"}))
        await self.ask(post("/boards", "admin", {"name": "b1", "type": "bbb", "tags": []}))

    async def worst(self, seconds: float, pause: float = 0.01) -> float:
        """How long an honest client waits at worst, who looks at the farm again and again."""
        waits: List[float] = []
        until = time.monotonic() + seconds
        while time.monotonic() < until:
            waits.append((await self.ask(LOOK))[0])
            await asyncio.sleep(pause)
        return max(waits)

    def end(self) -> None:
        self.process.kill()
        self.process.wait()


async def beside_idle(farm: Farm, number: int, seconds: float = 2, pause: float = 0.01) -> float:
    crowd = [await farm.connect() for _ in range(number)]
    worst = await farm.worst(seconds, pause)
    for _, writer in crowd:
        writer.close()
    return worst


async def beside_one_idle(farm: Farm) -> float:
    return await beside_idle(farm, 1)


async def beside_fifty_idle(farm: Farm) -> float:
    return await beside_idle(farm, 50)


async def beside_a_thousand_idle(farm: Farm) -> float:
    return await beside_idle(farm, 1000)


async def without_a_pause(farm: Farm) -> float:
    """Some thousand requests: one of them comes while the program looks whether an idle client sent something."""
    return await beside_idle(farm, 6, 4, 0)


async def beside_slow_ones(farm: Farm) -> float:
    """Two hundred clients that send a byte a second."""

    async def drip(turn: int) -> None:
        _, writer = await farm.connect()
        await asyncio.sleep(turn / 200)
        with contextlib.suppress(ConnectionError):
            for byte in LOOK:
                writer.write(bytes([byte]))
                await writer.drain()
                await asyncio.sleep(1)

    crowd = [asyncio.create_task(drip(turn)) for turn in range(200)]
    worst = await farm.worst(5)
    for task in crowd:
        task.cancel()
    await asyncio.gather(*crowd, return_exceptions=True)
    return worst


async def beside_reopening_ones(farm: Farm) -> float:
    """Six clients that say nothing, and come again as soon as they are let go."""

    async def reopen() -> None:
        while True:
            reader, writer = await farm.connect()
            with contextlib.suppress(ConnectionError):
                await reader.read()
            writer.close()

    crowd = [asyncio.create_task(reopen()) for _ in range(6)]
    worst = await farm.worst(2)
    for task in crowd:
        task.cancel()
    await asyncio.gather(*crowd, return_exceptions=True)
    return worst


async def beside_busy_ones(farm: Farm) -> float:
    """Five hundred clients at once, each with sixteen commands under keys of their own."""
    await farm.furnish()
    before = (await farm.ask(LOOK))[1]["count"]
    numbers: List[int] = []

    async def book(client: int) -> None:
        for turn in range(16):
            request = post("/reservations", f"u{client}", {"tags": []}, f"k{turn}")
            numbers.append((await farm.ask(request))[1]["number"])

    crowd = [asyncio.create_task(book(client)) for client in range(500)]
    waits = [await farm.worst(0.5)]
    while not all(task.done() for task in crowd):
        waits.append(await farm.worst(0.2))
    await asyncio.gather(*crowd)
    done = (await farm.ask(LOOK))[1]["count"] - before
    if done != 8000 or len(set(numbers)) != 8000:
        fail(f"8,000 commands were done {done} times, with {len(set(numbers))} numbers")
    return max(waits)


async def quietly(talk: Awaitable[None]) -> None:
    """Lets a client of the crowd be cut off."""
    with contextlib.suppress(ConnectionError):
        await talk


async def beside(farm: Farm, crowd: List[Awaitable[None]], seconds: float, settled: float = 0.5) -> float:
    """How long an honest client waits at worst beside these, once they have begun."""
    tasks = [asyncio.create_task(quietly(talk)) for talk in crowd]
    await asyncio.sleep(settled)
    worst = await farm.worst(seconds)
    for task in tasks:
        task.cancel()
    await asyncio.gather(*tasks, return_exceptions=True)
    return worst


async def beside_line_ends(farm: Farm) -> float:
    """Three clients that send more line ends than a head may lie behind, then one each fifth of a second, and
    come again once they are let go."""

    async def drip() -> None:
        while True:
            _, writer = await farm.connect()
            with contextlib.suppress(ConnectionError):
                writer.write(b"\r\n" * 200)
                while True:
                    await writer.drain()
                    await asyncio.sleep(0.2)
                    writer.write(b"\n")

    return await beside(farm, [drip() for _ in range(3)], 3)


async def beside_more_than_places(farm: Farm) -> float:
    """1,100 clients that say nothing: more than there are places for."""
    return await beside_idle(farm, 1100)


FLOOD = """
import asyncio, contextlib, resource, sys
resource.setrlimit(resource.RLIMIT_NOFILE, (4096, max(4096, resource.getrlimit(resource.RLIMIT_NOFILE)[1])))
async def reopen():
    while True:
        with contextlib.suppress(OSError):
            reader, writer = await asyncio.open_connection("127.0.0.1", int(sys.argv[1]))
            await reader.read()
            writer.close()
async def flood():
    await asyncio.gather(*(reopen() for _ in range(3000)))
asyncio.run(flood())
"""


async def beside_a_flood(farm: Farm) -> float:
    """3,000 clients of another process that say nothing, and come again as soon as they are let go."""
    crowd = subprocess.Popen([sys.executable, "-c", FLOOD, str(farm.port)])
    try:
        await asyncio.sleep(3)
        return await farm.worst(3)
    finally:
        crowd.kill()
        crowd.wait()


async def beside_looks(farm: Farm) -> float:
    """A thousand clients that send a byte each 20 ms, behind as many line ends as may come before a head."""
    crowd = [await farm.connect() for _ in range(1000)]
    for _, writer in crowd:
        writer.write(b"\n" * 250)

    async def drip() -> None:
        for byte in b"GET /status HTTP/1.1\r\n" + b"a:b\n" * 1000:
            for _, writer in crowd:
                writer.write(bytes([byte]))
            await asyncio.sleep(0.02)

    return await beside(farm, [drip()], 3)


async def asking(port: int) -> socket.socket:
    """A client that asked for the list of reservations, and has little room for it."""
    loop = asyncio.get_running_loop()
    client = socket.socket()
    client.setsockopt(socket.SOL_SOCKET, socket.SO_RCVBUF, 4096)
    client.setblocking(False)
    await loop.sock_connect(client, ("127.0.0.1", port))
    await loop.sock_sendall(client, b"GET /reservations HTTP/1.1\r\n\r\n")
    return client


async def read_slowly(client: socket.socket) -> None:
    """Reads a little now and then."""
    while await asyncio.get_running_loop().sock_recv(client, 20_000):
        await asyncio.sleep(0.1)


async def beside_those_that_do_not_read(empty: Farm) -> float:
    """A farm as full as it may be, whose list has ten million bytes: forty clients ask for that and read nothing,
    twenty read a little of it now and then. Behind each that comes the honest one waits until that is answered."""
    farm = Farm(empty.program, empty.folder, 100_000)
    waits: List[float] = []
    clients: List[socket.socket] = []
    slow: List["asyncio.Task[None]"] = []
    try:
        for turn in range(60):
            clients.append(await asking(farm.port))
            if turn % 3 == 0:
                slow.append(asyncio.create_task(quietly(read_slowly(clients[-1]))))
            waits.append((await farm.ask(LOOK))[0])
        return max(*waits, await farm.worst(3))
    finally:
        for task in slow:
            task.cancel()
        await asyncio.gather(*slow, return_exceptions=True)
        for client in clients:
            client.close()
        farm.end()


ROWS: List[Tuple[str, float, Callable[[Farm], Awaitable[float]]]] = [
    ("one idle connection", 0.1, beside_one_idle),
    ("50 idle connections", 0.1, beside_fifty_idle),
    ("1,000 idle connections", 0.1, beside_a_thousand_idle),
    ("six idle ones, without a pause,", 0.1, without_a_pause),
    ("six that reopen", 0.1, beside_reopening_ones),
    ("200 that send a byte a second", 0.1, beside_slow_ones),
    ("500 with 16 commands each", 0.5, beside_busy_ones),
    ("three behind many line ends", 0.1, beside_line_ends),
    ("1,100 idle connections", 0.2, beside_more_than_places),
    ("3,000 that reopen", 0.2, beside_a_flood),
    ("1,000 that send a byte each 20 ms", 0.2, beside_looks),
    ("60 that don't read or read slowly", 0.2, beside_those_that_do_not_read),
]


def main() -> None:
    words = argparse.ArgumentParser(description="Serves an honest client beside crowds of others.")
    words.add_argument("program")
    words.add_argument("--strict", action="store_true", help="demand the waits of a quiet machine")
    given = words.parse_args()
    try:
        free_port()
        resource.setrlimit(resource.RLIMIT_NOFILE, (4096, max(4096, resource.getrlimit(resource.RLIMIT_NOFILE)[1])))
    except (OSError, ValueError):
        fail("there is no 127.0.0.1, or too few descriptors")
    with tempfile.TemporaryDirectory() as folder:
        for name, limit, row in ROWS:
            farm = Farm(os.path.realpath(given.program), folder)
            try:
                worst = asyncio.run(asyncio.wait_for(row(farm), 240))
            finally:
                farm.end()
            if worst >= (limit if given.strict else limit * PATIENCE):
                fail(f"beside {name} an honest client waited {worst:.2f} s")
            print(f"crowds: beside {name} an honest client waits {worst * 1000:.0f} ms at most", flush=True)


if __name__ == "__main__":
    main()
