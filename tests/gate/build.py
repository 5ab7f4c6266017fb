#!/usr/bin/env python3
"""build.py: proves the program's crates, lowest first and some side by side, builds the program and leaves it at bin/farm.

One line tells which crates it is at and how many are left. What an earlier call proved, and nothing has changed
since, isn't proved again. The status is 1 where a crate isn't proved; what the prover said is printed then.
"""
import os
import shutil
import subprocess
import sys
import tempfile
import threading

from toolchain import load_rt

PROGRAM = "farm"
rt = load_rt()


class Progress:
    """Which crates are being proved, and how many are left."""

    def __init__(self, number):
        self.left = number
        self.now = []
        self.lock = threading.Lock()

    def begin(self, name):
        with self.lock:
            self.now.append(name)
            self.show()

    def end(self, name):
        with self.lock:
            self.now.remove(name)
            self.left -= 1
            self.show()

    def show(self):
        line = f"{self.left} left: {', '.join(self.now)}"
        if sys.stdout.isatty():
            print(f"\r\033[K{line}", end="", flush=True)
        elif self.now:
            print(line, flush=True)


def prove(crate, jobs, progress):
    """Builds a library over what earlier calls proved. Returns whether it is there."""
    progress.begin(crate.name)
    with tempfile.TemporaryFile("w+", errors="replace") as crate.out:
        status = crate.build_rlib(["--jobs", str(jobs)], anew=False)
        if status:
            crate.out.seek(0)
            print(f"\n{crate.name} isn't proved:\n{crate.out.read()}")
    progress.end(crate.name)
    return not status


def libraries_built(libraries, progress):
    """Builds the libraries, each once those below it stand. Returns whether all are there."""
    tasks = {}
    for it in libraries:
        waits = [(dep.name, "proof") for dep in it.below()]
        call = lambda given, jobs, it=it, waits=waits: all(given[key] for key in waits) and prove(it, jobs, progress)
        tasks[it.name, "proof"] = (waits, it.count(rb"\n"), rt.need(it), call)
    return all(rt.in_lanes(tasks).values())


def program_built(crate, progress):
    """Proves and builds the program by rt run, which shows its help. Returns whether it is there."""
    progress.begin(crate.name)
    ran = subprocess.run(["rt", "run", "--", "--help"], cwd=crate.folder, stdout=subprocess.PIPE, stderr=subprocess.STDOUT, check=False)
    progress.end(crate.name)
    if ran.returncode:
        print(f"\n{ran.stdout.decode(errors='replace')}")
    return not ran.returncode


def main():
    crate = next(it for it in rt.rtlib.crates_below(os.getcwd()) if it.name == PROGRAM)
    # (each comes after those below it)
    libraries = sorted(crate.below(), key=lambda it: len(it.below()))
    held = rt.rtlib.lock(libraries)
    for it in libraries:
        os.makedirs(f"{it.folder}/out", exist_ok=True)
    progress = Progress(len(libraries) + 1)
    stands = libraries_built(libraries, progress)
    for it in held:
        os.close(it)
    if not stands or not program_built(crate, progress):
        return 1
    os.makedirs("bin", exist_ok=True)
    shutil.copy(f"{crate.folder}/out/{PROGRAM}", f"bin/{PROGRAM}")
    print(f"{chr(10) if sys.stdout.isatty() else ''}bin/{PROGRAM} is there")
    return 0


if __name__ == "__main__":
    sys.exit(main())
