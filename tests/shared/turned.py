"""A farm whose turn to the next one is tried: its folder, a desk that two commands stop and start, and a turn that is
killed before any of its steps.

As a program: python3 turned.py MODULES FOLDER PROGRAM LAB PORT runs a whole turn, and then, for each step of it (of those
that only make the next farm for each fourth), one that is killed there, maybe a desk that begins as at the machine's next
start, and the turn again. It prints a line of JSON for each."""
from __future__ import annotations

import functools
import importlib
import json
import os
import shutil
import signal
import subprocess
import sys
import time
import traceback
from typing import Any, Callable, Dict, List, Tuple

STEPS = ("fsync", "rename", "replace", "link", "unlink", "rmdir", "mkdir")
STOP = """#!/bin/sh
[ -e {0}/pid ] || exit 0
kill "$(cat {0}/pid)" 2> /dev/null
while [ -e "/proc/$(cat {0}/pid)" ] && ! grep -q '^State:.Z' "/proc/$(cat {0}/pid)/status"; do sleep 0.02; done
rm {0}/pid
"""
START = """#!/bin/sh
[ ! -e {0}/pid ] || ! kill -0 "$(cat {0}/pid)" 2> /dev/null || exit 0
: > {0}/said
"{1}" serve --db {0}/home/lab.db --port {2} --max 100000 > {0}/said 2>&1 &
echo $! > {0}/pid
"""


class Home:
    """A farm's folder, with the commands that stop and start its desk."""

    def __init__(self, folder: str, program: str, port: int):
        self.folder, self.program, self.port = folder, program, port
        self.db = os.path.join(folder, "home", "lab.db")
        os.makedirs(os.path.dirname(self.db), 0o700, exist_ok=True)
        for name, text in (("stop", STOP), ("start", START)):
            file = os.path.join(folder, name)
            with open(file, "w", encoding="utf-8") as script:
                script.write(text.format(folder, program, port))
            os.chmod(file, 0o755)

    def order(self, *words: str) -> str:
        ran = subprocess.run(
            [self.program, words[0], "--db", self.db, *words[1:]], capture_output=True, text=True, check=True
        )
        return ran.stdout

    def call(self, name: str) -> None:
        subprocess.run([os.path.join(self.folder, name)], check=True, stdin=subprocess.DEVNULL)

    def words(self, file: str, *more: str) -> List[str]:
        """The words of a turn to a lab file."""
        stop, start = (os.path.join(self.folder, it) for it in ("stop", "start"))
        words = ["--next", file, "--db", self.db, "--program", self.program, "--stop", stop, "--start", start]
        return [*words, "--server", f"http://127.0.0.1:{self.port}", *more]

    def serves(self) -> bool:
        """Starts the desk as a machine does, and says whether it serves."""
        self.call("start")
        return self.listens()

    def listens(self) -> bool:
        """Whether the desk that was started serves, once it says so or ends."""
        until = time.monotonic() + 240
        while time.monotonic() < until:
            with open(os.path.join(self.folder, "said"), encoding="utf-8") as said:
                text = said.read()
            if text:
                return text.startswith("listening")
            time.sleep(0.02)
        raise AssertionError("the desk says nothing")

    def farms(self) -> Dict[str, Tuple[int, List[str]]]:
        """Each farm that there is: how many commands it has, and its boards."""
        found = {}
        for place, _, names in os.walk(os.path.dirname(self.db)):
            if "lab.db" in names and os.path.basename(place) != "next":
                found[os.path.basename(place)] = self.farm_in(place)
        return found

    def farm_in(self, place: str) -> Tuple[int, List[str]]:
        """What a copy of a farm has, so that nothing of it is touched."""
        copy = os.path.join(self.folder, "looked")
        shutil.rmtree(copy, ignore_errors=True)
        os.mkdir(copy)
        for name in ("lab.db", "lab.db-wal"):
            if os.path.exists(os.path.join(place, name)):
                shutil.copyfile(os.path.join(place, name), os.path.join(copy, name))
        said = []
        for path in ("status", "boards"):
            ran = subprocess.run(
                [self.program, "once", "--db", f"{copy}/lab.db", "--at", "0"],
                input=f"GET /{path} HTTP/1.1\r\n\r\n".encode(), capture_output=True, check=True,
            )
            said.append(json.loads(ran.stdout.partition(b"\r\n\r\n")[2]))
        boards = [f"{it['name']} {it['type']} {','.join(it['tags'])} {it['health']}" for it in said[1]["boards"]]
        return said[0]["count"], boards


# ---- as a program


def forked(words: List[str], folder: str, last: int) -> Tuple[int, int, List[str]]:
    """Runs a turn in a process of its own, killed before the step of this number: how it ended, and what its steps
    were."""
    notes = os.path.join(folder, "steps")
    child = os.fork()
    if not child:
        status = 70
        try:
            status = _turned(words, notes, last)
        except BaseException:  # pylint: disable=broad-except
            traceback.print_exc()
        finally:
            os._exit(status)
    _, how = os.waitpid(child, 0)
    with open(notes, encoding="utf-8") as lines:
        steps = lines.read().splitlines()
    return (-os.WTERMSIG(how) if os.WIFSIGNALED(how) else os.WEXITSTATUS(how)), len(steps), steps


def _turned(words: List[str], notes: str, last: int) -> int:
    from farm_import.from_desk import main  # (which was read before)

    seen = open(notes, "w", buffering=1, encoding="utf-8")  # pylint: disable=consider-using-with
    count = [0]

    def counted(name: str, call: Callable[..., Any]) -> Callable[..., Any]:
        @functools.wraps(call)
        def step(*given: Any, **more: Any) -> Any:
            count[0] += 1
            seen.write(f"{name} {given[0] if given else ''}\n".replace("\n", " ").strip() + "\n")
            if count[0] == last:
                os.kill(os.getpid(), signal.SIGKILL)
            return call(*given, **more)

        return step

    for name in STEPS:
        setattr(os, name, counted(name, getattr(os, name)))
    subprocess.run = counted("run", subprocess.run)
    return main(words)


def tried(home: Home, kept: str, lab: str, step: int) -> Dict[str, Any]:
    """A turn that is killed at a step, and what comes of it, each farm as it is then."""
    place = os.path.dirname(home.db)
    shutil.rmtree(place)
    shutil.copytree(kept, place)
    assert home.serves()
    how, _, steps = forked(home.words(lab), home.folder, step)
    if not step:
        found: Dict[str, Any] = {"steps": steps}
    else:
        found = {"how": how, "at": steps[-1], "killed": home.farms()}
        if step % 2:
            home.call("stop")  # the machine stopped, too, and begins
            found["served"] = home.serves()
        how, _, _ = forked(home.words(lab), home.folder, 0)
    return {**found, "again": how, "farms": home.farms(), "left": sorted(os.listdir(place)), "serves": home.serves()}


def program(modules: str, folder: str, farm: str, lab: str, port: str) -> None:
    sys.path[:0] = modules.split(":")
    importlib.import_module("farm_import.from_desk")
    home = Home(folder, farm, int(port))
    kept = os.path.join(folder, "kept")
    shutil.copytree(os.path.dirname(home.db), kept)
    whole = tried(home, kept, lab, 0)
    print(json.dumps(whole), flush=True)
    stops = next(it for it, step in enumerate(whole["steps"], 1) if "/stop'" in step)
    for step in [*range(1, stops - 3, 4), *range(stops - 3, len(whole["steps"]) + 1)]:
        print(json.dumps(tried(home, kept, lab, step)), flush=True)
    home.call("stop")


if __name__ == "__main__":
    program(*sys.argv[1:])
