"""A farm that a test of the tools serves, and the tools that it starts."""
from __future__ import annotations

import atexit
import ctypes
import http.client
import json
import os
import signal
import subprocess
import sys
import threading
import time
from typing import Any, Callable, Dict, List, Optional, Sequence, Tuple

from ports import free_port

TOP = os.path.realpath(os.path.join(os.path.dirname(__file__), "../.."))
TOOLS = os.path.join(TOP, "tools")
LIBRARY = os.path.join(TOP, "python/src")
MODULES = [TOOLS, LIBRARY]
NO_HOME = "/proc/none"  # a folder that nobody can make: a shell would, as root, and leave it to the others
PATIENCE = 240.0  # seconds for what comes within one on an idle machine
# Processes that are killed at the end of the test that started them, and those that last for the whole run.
STARTED: List["subprocess.Popen[Any]"] = []
LASTING: List["subprocess.Popen[Any]"] = []
# Calls a tool with each of these words, as a process each would, and prints what came of it.
CALLS = """\
import contextlib, io, json, os, runpy, sys
tool, calls, given = sys.argv[1], json.loads(sys.argv[2]), []
for more, words in calls:
    os.environ.update(more)
    sys.argv, status, output, errors = [tool, *words], None, io.StringIO(), io.StringIO()
    with contextlib.redirect_stdout(output), contextlib.redirect_stderr(errors):
        try:
            runpy.run_path(tool, run_name="__main__")
        except SystemExit as ended:
            status = ended.code
    given.append([status, output.getvalue(), errors.getvalue()])
print(json.dumps(given))
"""
Board = Tuple[str, str, Sequence[str]]
LIBC = ctypes.CDLL(None)
PR_SET_PDEATHSIG = 1


def ends_with_us() -> Optional[Callable[[], object]]:
    """What Popen calls in a child so that it ends with this process, also where that is killed. The kernel goes by the
    thread that started the child, so only what the main thread starts is tied so."""
    if threading.current_thread() is not threading.main_thread():
        return None
    return lambda: LIBC.prctl(PR_SET_PDEATHSIG, signal.SIGKILL)


def end_all(processes: Optional[List["subprocess.Popen[Any]"]] = None) -> None:
    """Kills those of the processes that still run, and waits for them."""
    for process in STARTED + LASTING if processes is None else processes:
        if process.poll() is None:
            process.kill()
            process.wait()


atexit.register(end_all)


def demand(what: str, wanted: object, found: object) -> None:
    """Ends the test where something isn't as it should be."""
    assert found == wanted, f"{what}: wanted {wanted!r}, got {found!r}"


def wait_until(what: str, call: Callable[[], Any], limit: float = PATIENCE) -> Any:
    """Waits until a call gives something true, and returns that. It asks less often the longer it waits."""
    until, pause = time.monotonic() + limit, 0.02
    while True:
        found = call()
        if found:
            return found
        assert time.monotonic() < until, f"{what}: not within {limit} s; it is {found!r}"
        time.sleep(pause)
        pause = min(pause * 1.2, 0.2)


def environment(**more: str) -> Dict[str, str]:
    """The environment without settings of the tools, and with a home that has none. The tools keep
    their bytecode, as a user's do, since they are started some hundred times."""
    left_out = ("DESK_", "DISPATCH_", "FARM_", "PYTHONDONTWRITEBYTECODE", "PYTHONUNBUFFERED", "PYTEST_")
    kept = {name: text for name, text in os.environ.items() if not name.startswith(left_out)}
    homes = {"HOME": NO_HOME, "XDG_CONFIG_HOME": NO_HOME, "COLUMNS": "80"}
    return {**kept, **homes, **more}


def calls_in_one(
    tool: str, calls: Sequence[Tuple[Dict[str, str], Sequence[str]]]
) -> List[Tuple[Optional[int], str, str]]:
    """What comes of calls of a tool, each of them more environment and the words: exit statuses, outputs
    and errors. One process makes them all, since a start costs more than most of what a tool does."""
    words = [sys.executable, "-c", CALLS, os.path.join(TOOLS, tool), json.dumps(calls)]
    ran = subprocess.run(
        words, capture_output=True, text=True, timeout=300, check=False, env=environment()
    )
    assert (ran.returncode, ran.stderr) == (0, ""), f"calls of {tool}"
    return [(it[0], it[1], it[2]) for it in json.loads(ran.stdout)]


class Asks:
    """Who asks the desk at a port of this machine."""

    port: int

    def ask(
        self, user: str, method: str, path: str, body: Any = None, key: Optional[str] = None
    ) -> Tuple[int, Any]:
        """The status and the body of an answer."""
        fields = {"x-user": user, **({"x-key": key} if key else {})}
        sent = body if body is None or isinstance(body, bytes) else json.dumps(body).encode()
        line = http.client.HTTPConnection("127.0.0.1", self.port, timeout=60)
        try:
            line.request(method, path, body=sent, headers=fields)
            answer = line.getresponse()
            return answer.status, json.loads(answer.read())
        finally:
            line.close()

    def tell(self, user: str, path: str, body: Any = None) -> Any:
        """Gives a command that has to be accepted."""
        status, said = self.ask(user, "POST", path, body)
        assert status == 200, f"{user} POST {path} {body}: {said}"
        return said


class Farm(Asks):
    """A farm in a new file, with Good boards of two types, served on a free port of 127.0.0.1."""

    def __init__(self, program: str, folder: str, boards: Sequence[Board]):
        """`boards` is a list of names, types and tags."""
        self.program = os.path.realpath(program)
        self.db = os.path.join(folder, "farm.db")
        self.port = free_port()
        self.process: "subprocess.Popen[bytes]"
        subprocess.run(
            [self.program, "init", "--db", self.db], check=True, stdout=subprocess.DEVNULL
        )
        self.start()
        for name in sorted({it[1] for it in boards}):
            self.tell("admin", "/types", {"name": name})
        for name, kind, tags in boards:
            self.tell("admin", "/boards", {"name": name, "type": kind, "tags": list(tags)})
            self.tell("admin", f"/boards/{name}/health", {"health": "Good"})

    @property
    def server(self) -> str:
        return f"http://127.0.0.1:{self.port}"

    def start(self) -> None:
        """Serves the farm, once its port is free."""
        while True:
            words = [
                self.program, "serve", "--db", self.db, "--port", str(self.port), "--max", "100000000"
            ]
            self.process = subprocess.Popen(
                words, stdout=subprocess.PIPE, stderr=subprocess.PIPE, preexec_fn=ends_with_us()
            )
            STARTED.append(self.process)
            assert self.process.stdout is not None
            if self.process.stdout.readline():
                return
            self.process.communicate()
            time.sleep(0.1)

    def kill(self) -> None:
        """Kills the serving at once."""
        self.process.kill()
        self.process.communicate()

    def tell_at(self, moment: float, user: str, path: str, body: Any = None, key: str = "") -> Any:
        """Gives a command at a moment, while the farm isn't served, that has to be accepted."""
        sent = body if isinstance(body, bytes) else json.dumps(body or {}).encode()
        own = f"x-key: {key}\r\n" if key else ""
        head = f"POST {path} HTTP/1.1\r\nx-user: {user}\r\n{own}content-length: {len(sent)}\r\n\r\n"
        words = [self.program, "once", "--db", self.db, "--at", str(int(moment))]
        ran = subprocess.run(words, input=head.encode() + sent, capture_output=True, check=False)
        assert ran.returncode == 0, f"{user} {path} at {moment}: {ran.stdout!r} {ran.stderr!r}"
        return json.loads(ran.stdout.partition(b"\r\n\r\n")[2])

    def look(self, path: str) -> Any:
        status, said = self.ask("ann", "GET", path)
        assert status == 200, f"GET {path}: {said}"
        return said

    def job(self, number: int) -> Any:
        return self.look(f"/jobs/{number}")

    def board(self, name: str) -> Any:
        return next(it for it in self.look("/boards")["boards"] if it["name"] == name)

    def reservation(self, number: int) -> Any:
        return next(
            it for it in self.look("/reservations")["reservations"] if it["number"] == number
        )

    def submit(self, run: str, kind: str = "bbb", user: str = "ann", more: str = "") -> int:
        """Submits a job of one board whose text has a line that the tests' command runs, and what
        is to stand behind it."""
        text = f"job_name = 'test'\ndevice_type = '{kind}'\nrun = '{run}'\n{more}"
        return int(self.tell(user, "/jobs", text.encode())["number"])


class Tool:
    """A tool that runs, with its output in files."""

    def __init__(self, words: Sequence[str], folder: str, **more: str):
        self.files = [os.path.join(folder, name) for name in ("output", "errors")]
        with open(self.files[0], "ab") as output, open(self.files[1], "ab") as errors:
            self.process = subprocess.Popen(
                [sys.executable, os.path.join(TOOLS, words[0]), *words[1:]],
                stdin=subprocess.DEVNULL,
                stdout=output,
                stderr=errors,
                env=environment(**more),
                preexec_fn=ends_with_us(),
            )
        STARTED.append(self.process)

    def output(self) -> str:
        return read(self.files[0])

    def errors(self) -> str:
        return read(self.files[1])

    def send(self, number: int) -> None:
        self.process.send_signal(number)

    def kill(self) -> None:
        self.send(signal.SIGKILL)
        self.process.wait()

    def ends(self, limit: float = PATIENCE) -> int:
        """The exit status, once it has ended."""
        return self.process.wait(timeout=limit)


def read(file: str) -> str:
    try:
        with open(file, encoding="utf-8") as text:
            return text.read()
    except FileNotFoundError:
        return ""
