#!/usr/bin/env python3
"""Runs a command and writes down the processor time that it took, by kind; or prints what was written.

usage: costs.py FILE KIND COMMAND..    runs the command, and adds its processor time to FILE under that kind
       costs.py FILE proofs COMMAND..  of rt, whose checks are told apart: proofs of libraries, of programs
                                       and of tests, builds, and wrong bodies; what is left is 'the rest'
       costs.py FILE                   prints a line a kind, in processor minutes, and the sum

The kinds of rt's checks are read from the words and folders of its processes, twice a second (Linux: /proc).
The status is the command's.
"""
import os
import re
import resource
import subprocess
import sys
import threading
import time

TICK = os.sysconf("SC_CLK_TCK")
SECONDS_BETWEEN = 0.5


def kind_of(words, folder):
    """The kind of a check of the prover by its words and the folder that it runs in; None for any other process."""
    if not words or os.path.basename(words[0]) != "rattle" or len(words) < 2:
        return None
    verb, flags = words[1], words[2:]
    if verb == "check" and re.search(r"/rt-edit-", folder):
        return "wrong bodies"
    if verb == "build" and "--crate-checked" in flags:
        return "builds of programs"
    if verb == "build" and "--test" in flags:
        return "proofs and builds of tests"
    if verb == "build":
        return "proofs of libraries"
    if verb == "check":
        return "proofs of programs"
    return None


def processes():
    """Each process: its parent, when it began, and the seconds that it and the children it waited for took."""
    found = {}
    for name in os.listdir("/proc"):
        if not name.isdigit():
            continue
        try:
            with open(f"/proc/{name}/stat", encoding="utf-8", errors="replace") as file:
                fields = file.read().rsplit(")", 1)[1].split()
        except OSError:
            continue
        found[int(name)] = (int(fields[1]), fields[19], sum(map(int, fields[11:15])) / TICK)
    return found


def words_of(process):
    with open(f"/proc/{process}/cmdline", encoding="utf-8", errors="replace") as file:
        return file.read().split("\0")


class Watch:
    """The seconds of each check that was seen below a process, by the check's kind."""

    def __init__(self, top):
        self.top = top
        self.seen = {}
        self.ended = threading.Event()

    def look(self):
        found = processes()
        children = {}
        for process, (parent, _, _) in found.items():
            children.setdefault(parent, []).append(process)
        self.walk(self.top, found, children)

    def walk(self, process, found, children):
        """Looks for checks at and below a process. The copies that a check makes of itself belong to it."""
        try:
            kind = kind_of(words_of(process), os.readlink(f"/proc/{process}/cwd"))
        except OSError:
            kind = None
        if kind:
            key = (process, found[process][1])
            seconds = self.seconds_below(process, found, children)
            self.seen[key] = (kind, max(seconds, self.seen.get(key, (kind, 0.0))[1]))
            return
        for child in children.get(process, []):
            self.walk(child, found, children)

    def seconds_below(self, process, found, children):
        below = sum(self.seconds_below(it, found, children) for it in children.get(process, []))
        return found[process][2] + below

    def run(self):
        while not self.ended.wait(SECONDS_BETWEEN):
            try:
                self.look()
            except KeyError:
                pass  # a process ended while it was looked at


def taken():
    """The seconds of all children that have ended."""
    used = resource.getrusage(resource.RUSAGE_CHILDREN)
    return used.ru_utime + used.ru_stime


def run(file, kind, command):
    begun = time.time()
    with subprocess.Popen(command) as started:
        watch = Watch(started.pid)
        watching = threading.Thread(target=watch.run, daemon=True)
        if kind == "proofs":
            watching.start()
        status = started.wait()
        watch.ended.set()
    sums = {}
    for found, seconds in watch.seen.values():
        sums[found] = sums.get(found, 0.0) + seconds
    rest = max(0.0, taken() - sum(sums.values()))
    sums["the rest" if kind == "proofs" else kind] = rest
    with open(file, "a", encoding="utf-8") as out:
        for name, seconds in sums.items():
            out.write(f"{seconds:.1f}\t{name}\n")
        out.write(f"{begun:.1f}\tbegun\n{time.time():.1f}\tended\n")
    return status if status >= 0 else 128 - status


def tell(file):
    sums, moments = {}, []
    with open(file, encoding="utf-8") as lines:
        for line in lines:
            seconds, name = line.rstrip("\n").split("\t")
            if name in ("begun", "ended"):
                moments.append(float(seconds))
            else:
                sums[name] = sums.get(name, 0.0) + float(seconds)
    clock = max(moments) - min(moments)  # (some commands run side by side)
    for name, seconds in sorted(sums.items(), key=lambda it: -it[1]):
        print(f"{seconds / 60:7.1f} processor minutes: {name}")
    print(f"{sum(sums.values()) / 60:7.1f} processor minutes in all, {clock / 60:.1f} minutes on the clock")


if __name__ == "__main__":
    if len(sys.argv) == 2:
        tell(sys.argv[1])
    else:
        sys.exit(run(sys.argv[1], sys.argv[2], sys.argv[3:]))
