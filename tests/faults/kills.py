#!/usr/bin/env python3
"""Kills a serving program again and again in the middle of its work: python3 tests/faults/kills.py bin/farm [KILLS]

A client sends keyed commands one after another; the program is killed (SIGKILL) after a time by chance, or
as soon as its log has grown, which is between a commit and its answer. The next start finds the farm; the
command that had no answer is sent again with its key. At each start SQLite finds the files whole, the count
of commands is that of the answered ones, or one more, and a command that had been answered is answered
alike. At the end each command was done once: as many jobs as were submitted, with numbers in their order.

KILLS kills, 2,000 where no number is given: some four minutes. test_by_chance.py asks for 100.
"""
from __future__ import annotations

import contextlib
import json
import os
import random
import shutil
import socket
import sqlite3
import subprocess
import sys
import tempfile
import threading
from typing import List, Optional, Set, Tuple

sys.path.append(os.path.join(os.path.dirname(os.path.realpath(__file__)), "../shared"))
from ports import free_port  # noqa: E402

Answer = Optional[Tuple[int, bytes]]


def conversation(port: int, sent: bytes) -> Answer:
    """The answer's status and body; nothing where the program was gone before its end."""
    try:
        with socket.create_connection(("127.0.0.1", port), timeout=100) as stream:
            stream.sendall(sent)
            answer = b""
            while more := stream.recv(65536):
                answer += more
    except OSError:
        return None
    head, end, body = answer.partition(b"\r\n\r\n")
    lengths = [line.split(b": ")[1] for line in head.split(b"\r\n") if line.startswith(b"content-length: ")]
    if not end or len(body) != int(lengths[0]):
        return None
    return int(head.split()[1]), body


def request(caller: str, path: str, body: str, key: str) -> bytes:
    return (
        f"POST {path} HTTP/1.1\r\nx-user: {caller}\r\nx-key: {key}\r\n"
        f"content-length: {len(body)}\r\n\r\n{body}"
    ).encode()


class Server:
    """A program that serves the farm of a file."""

    def __init__(self, farm: str, db: str, port: int):
        self.port = port
        words = [farm, "serve", "--db", db, "--port", str(self.port), "--max", "1000000"]
        self.log = f"{db}-wal"
        self.process = subprocess.Popen(words, stdout=subprocess.PIPE, stderr=subprocess.PIPE)
        assert self.process.stdout is not None
        assert self.process.stdout.readline() == f"listening {self.port}\n".encode()

    def kill_after(self, seconds: float) -> threading.Thread:
        """Kills it then, beside what goes on."""
        killer = threading.Timer(seconds, self.process.kill)
        killer.start()
        return killer

    def kill_when_log_grows(self, number: int) -> threading.Thread:
        """Kills it once its log has grown so many times."""

        def watch() -> None:
            for _ in range(number):
                length = self.length()
                while self.length() == length:
                    if self.process.poll() is not None:
                        return
            self.process.kill()

        killer = threading.Thread(target=watch)
        killer.start()
        return killer

    def length(self) -> Tuple[int, int]:
        try:
            found = os.stat(self.log)
            return found.st_size, found.st_mtime_ns
        except OSError:
            return 0, 0

    def end(self) -> None:
        self.process.kill()
        self.process.communicate()


def command(number: int) -> bytes:
    """The command of this number, which is done whatever was done before; every second one is a job."""
    if number % 2 == 0:
        text = 'job_name = "boot"\ndevice_type = "bbb"\n# ' + "x" * (number % 7 * 700)
        return request("ann", "/jobs", text, f"k{number}")
    tags = json.dumps({"tags": [f"turn={number}"]})
    return request("admin", "/boards/b1/tags", tags, f"k{number}")


def check_start(db: str, folder: str, server: Server, done: List[Answer], unsure: int) -> bool:
    """What stands once it has started again. Whether the command without an answer had been done."""
    copy = f"{folder}/copy.db"
    for end in ("", "-wal"):
        if os.path.exists(db + end):
            shutil.copy(db + end, copy + end)
    with contextlib.closing(sqlite3.connect(copy)) as conn:
        assert conn.execute("pragma integrity_check").fetchall() == [("ok",)], "SQLite finds the file damaged"
    for end in ("", "-wal", "-shm"):
        if os.path.exists(copy + end):
            os.remove(copy + end)
    count = count_of(server) - FIRST
    told = f"{len(done)} commands were answered, {unsure} sent beside, and the farm counts {count}"
    assert len(done) <= count <= len(done) + unsure, told
    numbers: Set[int] = {len(done) - 1, random.randrange(len(done))} if done else set()
    for number in numbers:
        assert conversation(server.port, command(number)) == done[number], f"command {number} isn't answered as before"
    return count > len(done)


def count_of(server: Server) -> int:
    answer = conversation(server.port, b"GET /status HTTP/1.1\r\n\r\n")
    assert answer and answer[0] == 200
    return int(json.loads(answer[1])["count"])


FIRST = 3


def send_until_killed(server: Server, done: List[Answer]) -> None:
    """Sends one command after another, until one isn't answered."""
    while True:
        answer = conversation(server.port, command(len(done)))
        if answer is None:
            return
        assert answer[0] == 200, f"command {len(done)} was answered {answer}"
        done.append(answer)


def main(farm: str, kills: int, folder: str) -> str:
    """Kills a program so often, with its farm in a folder. Says what came of it."""
    random.seed(20261124)
    db = f"{folder}/farm.db"
    subprocess.run([farm, "init", "--db", db], check=True, stdout=subprocess.DEVNULL)
    port = free_port()
    server = Server(farm, db, port)
    for path, body in [("/types", '{"name":"bbb"}'), ("/boards", '{"name":"b1","type":"bbb","tags":[]}'),
                       ("/boards/b1/health", '{"health":"Good"}')]:
        answer = conversation(server.port, request("admin", path, body, path.replace("/", ".")))
        assert answer and answer[0] == 200, path
    server.end()
    done: List[Answer] = []
    lost = unsure = 0
    for turn in range(kills):
        server = Server(farm, db, port)
        lost += check_start(db, folder, server, done, unsure)
        if turn % 2:
            killer = server.kill_after(random.random() * 0.03)
        else:
            killer = server.kill_when_log_grows(random.randrange(1, 12))
        send_until_killed(server, done)
        unsure = 1
        killer.join()
        server.end()
    server = Server(farm, db, port)
    check_start(db, folder, server, done, unsure)
    jobs = [json.loads(it[1])["number"] for number, it in enumerate(done) if it and number % 2 == 0]
    assert jobs == list(range(1, len(jobs) + 1)), "a job was submitted twice, or lost"
    server.end()
    return (
        f"{kills} kills, {len(done)} commands answered, {kills} not, of which {lost} had been done; "
        "none that was answered is lost, and none is done twice"
    )


if __name__ == "__main__":
    with tempfile.TemporaryDirectory() as room:
        print(main(os.path.realpath(sys.argv[1]), int(sys.argv[2]) if len(sys.argv) > 2 else 2000, room))
