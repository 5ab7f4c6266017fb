"""Growths of memory are refused to a program that serves a farm in a file (test_refused_memory.py).

A client sends a command, and the next one looks at the status; every so manyth growth from the first client on is
refused, one in each run, until one isn't the command's any more, and each of the others where none of these ended the
program in the middle. The commands are one that adds a type, and a pass that gives two boards to a job of two roles.

The client of the command hears what it would hear with ample memory, or the constant answer of code 1 or 60. After 60
the program has ended with that fault. After 1 it goes on, or it has ended with 1: then the growth was refused in the
middle of the command's change. In each case what was answered before is in the file, of the command all or nothing,
and nothing where the program ended with 1; and the command, sent again under its key, is answered as with ample
memory, and acts once. At least one growth of each command has to end the program with 1. For adding a type these are
growths of the machine's own step, since its row asks no memory of the store.
"""
import os
import random
import shutil
import socket
import subprocess
from typing import NamedTuple, Tuple

from ports import free_port
from served import STARTED

NO_MEMORY = b'{"code":1,"text":"no memory"}'
OK = b"200 OK"
STORE_FAULT = b'{"code":60,"text":"store fault"}'
JOB = b"""job_name = "two"
roles.client = {device_type = "bbb", count = 1}
roles.server = {device_type = "bbb", count = 1}
"""
# What was answered before: who asks, where, and the body.
BEFORE = (
    ("admin", "/types", b'{"name":"bbb"}'),
    ("admin", "/boards", b'{"name":"b1","type":"bbb","tags":["hdmi"]}'),
    ("admin", "/boards", b'{"name":"b2","type":"bbb"}'),
    ("admin", "/boards/b1/health", b'{"health":"Good"}'),
    ("admin", "/boards/b2/health", b'{"health":"Good"}'),
    ("ann", "/jobs", JOB),
)
# Each command: by its path, its body, and the view that shows its change.
COMMANDS = {"/types": (b'{"name":"ccc"}', "/types"), "/pass": (b"", "/boards")}


def post(who: str, path: str, body: bytes, key: str = "") -> bytes:
    """Returns the bytes of a command."""
    fields = f"x-user: {who}\r\n" + (f"x-key: {key}\r\n" if key else "")
    return f"POST {path} HTTP/1.1\r\n{fields}content-length: {len(body)}\r\n\r\n".encode() + body


def get(path: str) -> bytes:
    """Returns the bytes of a view's request."""
    return f"GET {path} HTTP/1.1\r\n\r\n".encode()


def body_of(answer: bytes) -> bytes:
    """Returns the body of an answer, which is empty where none came."""
    return answer.partition(b"\r\n\r\n")[2]


def ask(port: int, request: bytes) -> bytes:
    """Returns the answer to a request, which is empty where the program has ended."""
    try:
        with socket.create_connection(("127.0.0.1", port), timeout=100) as client:
            client.sendall(request)
            return b"".join(iter(lambda: client.recv(65536), b""))
    except OSError:
        return b""


class Run(NamedTuple):
    """How a run ended: the answers to the command and to the view, the exit status and what was told."""

    command: bytes
    view: bytes
    status: int
    told: bytes
    is_refused: bool


class Served:
    """A farm in a file, made anew for each run."""

    def __init__(self, program: str, library: str, folder: str):
        self.program, self.library, self.folder = program, library, folder
        self.db, self.flag = f"{folder}/farm.db", f"{folder}/refused"
        os.mkdir(f"{folder}/made")
        self.farm("init")
        for request in BEFORE:
            self.once(post(*request), OK)
        for file in ("farm.db", "farm.db-wal"):
            shutil.copy(f"{folder}/{file}", f"{folder}/made/{file}")

    def farm(self, *words: str, request: bytes = b"") -> bytes:
        """Returns what an order over the farm's file prints."""
        line = [self.program, words[0], "--db", self.db, *words[1:]]
        return subprocess.run(line, input=request, capture_output=True, check=False).stdout

    def once(self, request: bytes, wanted: bytes) -> bytes:
        """Returns the body of the answer to one request, whose status is wanted."""
        answer = self.farm("once", "--at", "1700000000", request=request)
        assert wanted in answer.partition(b"\r\n")[0], f"{request!r} was answered {answer!r}"
        return body_of(answer)

    def anew(self) -> None:
        """Puts the farm's file back."""
        for file in ("farm.db", "farm.db-wal"):
            shutil.copy(f"{self.folder}/made/{file}", f"{self.folder}/{file}")

    def start(self, number: int, connections: int) -> "subprocess.Popen[bytes]":
        """Starts the program on a free port, with a growth refused, and returns it once it listens."""
        if os.path.exists(self.flag):
            os.remove(self.flag)
        refusing = {"REFUSE": str(number), "REFUSED": self.flag, "LD_PRELOAD": self.library}
        while True:
            self.port = free_port()
            words = ["serve", "--db", self.db, "--port", str(self.port), "--max", str(connections)]
            program = subprocess.Popen(
                [self.program, *words], env={**os.environ, **refusing}, stdout=subprocess.PIPE, stderr=subprocess.PIPE
            )
            STARTED.append(program)
            assert program.stdout is not None
            if program.stdout.readline() or os.path.exists(self.flag):
                return program
            assert program.communicate()[1] == b"farm: 80 read fault\n"

    def first_growth(self) -> int:
        """Returns the number of the first growth for a client: those before it are there without one, too."""
        low, high = 0, 100000
        while low < high:
            middle = (low + high) // 2
            self.anew()
            self.start(middle + 1, 0).communicate()
            if os.path.exists(self.flag):
                low = middle + 1
            else:
                high = middle
        return low + 1

    def run(self, number: int, command: bytes) -> Run:
        """Serves a command and a view with a growth refused."""
        self.anew()
        program = self.start(number, 2)
        answer = ask(self.port, command)
        view = ask(self.port, get("/status"))
        told = program.communicate()[1]
        return Run(body_of(answer), body_of(view), program.returncode, told, os.path.exists(self.flag))


def closes(run: Run, due: bytes) -> bool:
    """Returns whether a run ended with 1 in the middle of the change; any end but those that may be fails."""
    ends = (run.status, run.told)
    if run.command == due or run.command == NO_MEMORY and ends == (0, b""):
        assert ends == (0, b"") and run.view, f"behind the answer {run.command!r} the program ended with {ends}"
        return False
    if run.command == STORE_FAULT and ends == (4, b"farm: 60 store fault\n") and not run.view:
        return False
    assert (run.command, run.view, ends) == (NO_MEMORY, b"", (5, b"farm: 1 no memory\n"))
    return True


class Command:
    """A command whose growths are refused: what its view shows before and after it, and its answer."""

    def __init__(self, served: Served, path: str, body: bytes, view: str):
        self.served, self.path, self.view = served, path, view
        self.request = post("admin", path, body, "k1")
        served.anew()
        self.before = served.once(get(view), OK)
        self.due = served.once(self.request, OK)
        self.after = served.once(get(view), OK)

    def refused(self, number: int) -> Tuple[bool, bool]:
        """Refuses a growth. Whether it was the command's, and whether the program ended in the middle of its change."""
        served, due = self.served, self.due
        run = served.run(number, self.request)
        is_closed = closes(run, due)
        rows = served.once(get(self.view), OK)
        may_be = [self.after] if run.command == due else [self.before] if is_closed else [self.before, self.after]
        assert rows in may_be, f"after growth {number} of {self.path}, answered {run.command!r}"
        if run.command != due:
            again = served.once(self.request, OK), served.once(get(self.view), OK)
            assert again == (due, self.after), f"{self.path}, sent again after growth {number}"
        # (a view that lacks memory is behind the last growth of the command)
        return run.is_refused and not (run.view == NO_MEMORY and run.command == due), is_closed

    def tried(self, first: int, every: int) -> Tuple[int, int, int]:
        """Refuses every so manyth growth from this one on. Behind which growth they end, how many were tried, and how
        many ended the program in the middle."""
        number, count, closed = first, 0, 0
        while True:
            is_its, is_closed = self.refused(number)
            if not is_its:
                return number, count, closed
            number, count, closed = number + every, count + 1, closed + is_closed


def try_command(path: str, served: Served, every: int) -> None:
    """Refuses every so manyth growth of a command, and the others where none ended the program in the middle."""
    command, first = Command(served, path, *COMMANDS[path]), served.first_growth()
    begins = [first + it for it in range(every)]
    random.shuffle(begins)
    count = closed = 0
    while begins and not closed:
        _, tried, closed = command.tried(begins.pop(), every)
        count += tried
    assert count and closed, f"{count} growths of {path} were refused, none in the middle of its change"
