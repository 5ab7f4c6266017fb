"""A served farm with a folder for its dispatchers, for the tests of farm-dispatch."""
from __future__ import annotations

import json
import os
import pathlib
import shutil
import signal
import subprocess
import sys
import tempfile
import time
from typing import Any, Callable, Dict, Iterator, List, Sequence

import pytest
from served import MODULES, PATIENCE, STARTED, Board, Farm, Tool, environment, read, wait_until

# Runs the line `run = '..'` of a job's text, and notes that it began and ended.
COMMAND = """#!/bin/sh
trap : TERM
echo "begin $FARM_JOB" >> "$RUNS"
run=$(sed -n "s/^run = '\\(.*\\)'$/\\1/p" "$FARM_JOB_FILE")
sh -c "${run:-true}"
status=$?
echo "end $FARM_JOB" >> "$RUNS"
exit $status
"""
AT_IT = "while true; do sleep 0.1; done"
BOARDS: List[Board] = [(f"b{place}", "bbb", ["serial"]) for place in range(1, 7)]
TWO = "job_name = 'two'\nrun = '{}'\n[roles.a]\ndevice_type = 'bbb'\ncount = 2\n"


class Lab:
    """A served farm, and a folder for its dispatcher."""

    def __init__(self, program: str, folder: str, boards: Sequence[Board] = BOARDS):
        self.folder = folder
        self.farm = Farm(program, self.folder, boards)
        self.command = os.path.join(self.folder, "command")
        self.runs = os.path.join(self.folder, "runs")
        self.place = os.path.join(self.folder, "dispatch")
        replace(self.command, COMMAND)
        # a name of its own, so that no other test's processes are taken for this one's
        self.sleep = os.path.join(self.folder, "sleep")
        os.symlink(shutil.which("sleep") or "", self.sleep)

    def dispatch(
        self, *words: str, command: Sequence[str] = (), every: str = "0.3", server: str = "",
        place: str = "", **more: str
    ) -> Tool:
        """A dispatcher that runs, with more in its environment."""
        head = ["farm-dispatch", "--server", server or self.farm.server, "--folder", place or self.place]
        all_words = [*head, "--every", every, *words, *(command or [self.command])]
        return Tool(all_words, self.folder, **{"RUNS": self.runs, **more})

    def patched(self, patch: str, every: str = "0.3") -> "subprocess.Popen[bytes]":
        """A dispatcher of which a few lines were changed, so that a moment lasts."""
        head = "import os, signal, sys, time\nfrom farm_dispatch import dispatcher, main as dispatch"
        code = f"import sys\nsys.path[:0] = {MODULES!r}\n{head}\n{patch}\nsys.exit(dispatch.main(sys.argv[1:]))\n"
        own = ["--server", self.farm.server, "--folder", self.place, "--every", every, self.command]
        with open(os.path.join(self.folder, "patched"), "ab") as told:
            tool = subprocess.Popen(
                [sys.executable, "-c", code, *own], stdout=told, stderr=told, stdin=subprocess.DEVNULL,
                env=environment(RUNS=self.runs),
            )
        STARTED.append(tool)
        return tool

    def finished(self, number: int, limit: float = PATIENCE) -> str:
        """The result of a job, once it is Finished."""
        wait_until(f"job {number} is Finished", lambda: self.farm.job(number)["state"] == "Finished", limit)
        return str(self.farm.job(number)["result"])

    def log(self, number: int) -> str:
        """What the site serves as a job's log."""
        return read(os.path.join(self.place, "logs", str(number)))

    def record(self, number: int) -> Dict[str, Any]:
        """What the dispatcher notes of a group that isn't settled."""
        return dict(json.loads(read(os.path.join(self.place, "open", str(number))) or "{}"))

    def settled(self, number: int) -> Dict[str, Any]:
        """A job's line of the history, once its group is settled."""
        wait_until(f"job {number} is settled", lambda: not os.path.exists(os.path.join(self.place, "open", str(number))))
        rows: List[Dict[str, Any]] = wait_until(f"job {number}'s line", lambda: [it for it in jobs_of(self) if it["job"] == number])
        return rows[-1]

    def begins(self, number: int) -> int:
        """How often the command was begun for a job."""
        return read(self.runs).split("\n").count(f"begin {number}")

    def passes(self) -> int:
        """How many passes the dispatchers of this lab have counted."""
        text = read(os.path.join(self.place, "passes.json"))
        return int(json.loads(text)["count"]) if text else 0

    def begun(self, number: int) -> None:
        wait_until(f"job {number} is begun", lambda: self.begins(number))

    def first_line(self, dispatcher: Tool) -> str:
        """A dispatcher's first line, once it is there."""
        return str(wait_until("its first line", dispatcher.output))

    def until(self, name: str) -> str:
        """What a job runs that ends once it is let."""
        return f"while ! test -e {self.folder}/{name}; do sleep 0.05; done"

    def sleeps(self, seconds: int) -> str:
        """What a job runs that sleeps for so long, in no shell."""
        return f"exec {self.sleep} {seconds}"

    def script(self, text: str, name: str = "script") -> str:
        """What a job runs that has quotes or lines."""
        replace(os.path.join(self.folder, name), f"#!/bin/sh\n{text}\n")
        return f"sh {self.folder}/{name}"

    def two(self, run: str = "true") -> List[int]:
        """The numbers of a group of two that is submitted."""
        first = int(self.farm.tell("ann", "/jobs", TWO.format(run).encode())["number"])
        return [first, first + 1]

    def let(self, name: str) -> None:
        with open(os.path.join(self.folder, name), "w", encoding="utf-8"):
            pass

    def sleepers(self, seconds: int) -> List[int]:
        """The processes of this lab that sleep for so many seconds."""
        words = f"{self.sleep}\0{seconds}\0"
        return [int(it) for it in os.listdir("/proc") if it.isdigit() and words in read_words(it)]

    def running(self, seconds: int) -> List[int]:
        """The same, once there is one: a job's begin is noted before its command starts."""
        found: List[int] = wait_until(f"sleep {seconds} runs", lambda: self.sleepers(seconds))
        return found

    def closes(self, dispatcher: Tool) -> None:
        """Tells a dispatcher to end, and kills the farm."""
        self.stops(dispatcher)
        self.farm.kill()

    def stops(self, dispatcher: Tool, wanted: int = 0, pause: float = 0) -> None:
        """Tells a dispatcher to end, so many seconds after it takes SIGTERM; it has this status then. Before, as
        Python has just begun, SIGTERM kills it as any process."""
        process = dispatcher.process
        wait_until("it takes SIGTERM, or has ended", lambda: process.poll() is not None or takes_sigterm(process.pid))
        time.sleep(pause)
        dispatcher.send(signal.SIGTERM)
        status = dispatcher.ends()
        said = f"{dispatcher.output()[-2000:]}{dispatcher.errors()[-2000:]}"
        assert status == wanted, f"the status after SIGTERM is {status}, and not {wanted}; it said:\n{said}"


MakeLab = Callable[..., Lab]


@pytest.fixture(name="make_lab")
def make_lab_fixture(program: str, tmp_path: pathlib.Path) -> Iterator[MakeLab]:
    """Makes labs of a test. A file of tests imports this and the next."""
    yield lambda boards=BOARDS: Lab(program, tempfile.mkdtemp(dir=tmp_path), boards)
    end_commands(str(tmp_path))


@pytest.fixture(name="lab")
def lab_fixture(make_lab: MakeLab) -> Lab:
    return make_lab()


def replace(file: str, text: str) -> None:
    """Puts an executable file in another's place at once."""
    with open(f"{file}.new", "w", encoding="utf-8") as script:
        script.write(text)
    os.chmod(f"{file}.new", 0o755)
    os.replace(f"{file}.new", file)


def takes_sigterm(process: int) -> bool:
    """Whether a process does something of its own at SIGTERM."""
    lines = read(f"/proc/{process}/status").splitlines()
    caught = next((int(it.split()[1], 16) for it in lines if it.startswith("SigCgt:")), 0)
    return bool(caught >> (signal.SIGTERM - 1) & 1)


def read_words(process: object) -> str:
    try:
        with open(f"/proc/{process}/cmdline", encoding="utf-8", errors="replace") as words:
            return words.read()
    except OSError:
        return ""


def end_commands(place: str) -> None:
    """Kills the commands, and what runs them, that a test that fails left."""
    for name in os.listdir("/proc"):
        if name.isdigit() and int(name) != os.getpid() and f"{place}/" in read_words(name):
            try:
                os.kill(int(name), signal.SIGKILL)
            except ProcessLookupError:
                pass


# ---- the history


def lines_of(lab: Lab) -> List[Dict[str, Any]]:
    """The whole lines of a lab's history."""
    text = read(os.path.join(lab.place, "history.jsonl"))
    return [json.loads(it) for it in text.split("\n")[:-1]]


def jobs_of(lab: Lab) -> List[Dict[str, Any]]:
    return [it for it in lines_of(lab) if it["kind"] == "job"]


def one_line_each(lab: Lab, numbers: Sequence[int], about: str = "") -> None:
    """Each of these jobs has one line, which says what the desk says."""
    wait_until(f"the lines of all jobs {about}", lambda: len(jobs_of(lab)) >= len(numbers))
    rows = jobs_of(lab)
    assert sorted(it["job"] for it in rows) == sorted(numbers), f"the jobs that have a line {about}"
    for row in rows:
        view = lab.farm.job(row["job"])
        said = (view["group"], view["owner"], [view["board"]], view["type"], view["result"])
        found = tuple(row[it] for it in ("group", "owner", "boards", "type", "outcome"))
        assert found == said, f"the line of job {row['job']} {about}"
