#!/usr/bin/env python3
"""Measures the desk beside its peers and prints a table: the work, ours, the peer, how many times the peer ours is.

usage: table.py FARM BENCH READER FOLDER [SIZE [ROUNDS]]

FARM is the program (bin/farm), BENCH that of crates/farm_bench, READER that of kit_reader.rattle (reader.sh), all of
one kind of build. FOLDER is where farms are made. SIZE is the percentage of a full farm's rows, 100 where none is
given. What is told are callgrind's instructions; where it isn't there, medians of times over ROUNDS that alternate,
5 where none are given. Memory is the system's. Where a pass gives other boards than those in C, that ends it with 1.
"""
from __future__ import annotations

import os
import statistics
import subprocess
import sys
from collections.abc import Callable
from dataclasses import dataclass

import asked
from compare import compare_answers, least_times
from farms import (
    BOARDS, FEW, MANY, READS, REPLIES, clear, copy, fill, fill_full, finished_jobs, waiting_reservations,
)
from programs import (
    Served, built, counted, counted_server, desk, has_callgrind, lines, measured, memory_at_rest, waiting,
)

Values = dict[str, float]
TITLES = {
    "reserve": "Reserve", "reserve_keyed": "Reserve under a key", "start": "Start", "finish": "Finish",
    "pass_serves_64": "a pass that serves 64, one commit",
}
ONCE = ("pass_ends_64", "pass_serves_64")  # commands that are given once, and not 64 times
UNITS = {
    "instructions": ((1e9, " G"), (1e6, " M"), (1e3, " k")),
    "ns": ((1e9, " s"), (1e6, " ms"), (1e3, " us"), (1, " ns")),
    "bytes": ((1e6, " MB"),),
}


@dataclass(frozen=True)
class Line:
    """A measure beside its peer, in one unit."""

    work: str
    ours: float
    peer: str
    theirs: float
    unit: str

    def row(self) -> str:
        ours, theirs = amount(self.ours, self.unit), amount(self.theirs, self.unit)
        return f"| {self.work} | {ours} | {self.peer} | {theirs} | {self.ours / self.theirs:.2f} |"


def amount(value: float, unit: str) -> str:
    """A value in three digits, in the largest measure of its unit that it fills."""
    for size, name in UNITS[unit]:
        if value >= size:
            return f"{value / size:.{3 - len(str(int(value / size)))}f}{name}" if value < 1000 * size else f"{value / size:.0f}{name}"
    return f"{value:.0f}"


def shown(table: list[Line]) -> str:
    head = ["| Work | Ours | Peer | Its | Ratio |", "|---|---|---|---|---|"]
    return "\n".join([*head, *(it.row() for it in table)])


def each(phases: dict[str, int]) -> Values:
    """The instructions of one command, where a phase has 64 of most."""
    return {name: count / (1 if name in ONCE else BOARDS) for name, count in phases.items()}


def largest_growth(few: Values, many: Values) -> str:
    """Which command takes most times as much in one farm as in the other."""
    return max(few, key=lambda name: many[name] / few[name])


def medians(rounds: list[Values]) -> Values:
    return {name: statistics.median(it[name] for it in rounds) for name in rounds[0]}


class Meter:
    """Whether instructions are told, which need one round, or times, which take several that alternate."""

    def __init__(self, folder: str, rounds: int, counts: bool) -> None:
        self.folder = folder
        self.counts = counts
        self.rounds = 1 if counts else rounds
        self.unit = "instructions" if counts else "ns"

    def alternated(self, *measures: Callable[[], Values]) -> list[Values]:
        """The medians of each measure over the rounds."""
        rounds = [[measure() for measure in measures] for _ in range(self.rounds)]
        return [medians(list(it)) for it in zip(*rounds)]

    def whole(self, *words: str) -> Values:
        """What a program takes from its beginning to its end."""
        return {"": counted(self.folder, *words)[0] if self.counts else measured(*words)[0]}

    def one_pass(self, program: str, name: str) -> Values:
        """What a pass of 256 boards over 1,000 jobs that fit takes, without what stands before it. Where times are taken,
        `name` is how the program calls it; that of crates/farm_bench wants a word to take any."""
        if self.counts:
            without, with_it = (counted(self.folder, program, "pass", "fit", "1000", passes)[0] for passes in "01")
            return {"": with_it - without}
        if name == "fit-1000":
            return {"": dict(lines(program))[name]}
        ran = subprocess.run([program, "time"], stdout=subprocess.PIPE, check=True)
        return {"": next(nanos for it, nanos in least_times(ran.stdout.decode()) if it.startswith(name))}


def pass_lines(meter: Meter, bench: str) -> list[Line]:
    plain, good = built("pass", meter.folder), built("good", meter.folder)
    compare_answers(bench, plain, good)
    ours, of_plain, of_good = (it[""] for it in meter.alternated(
        lambda: meter.one_pass(bench, "1000 jobs, boards fit"),
        lambda: meter.one_pass(plain, "fit-1000"),
        lambda: meter.one_pass(good, "fit-1000")))
    work = "a pass: 256 boards, 1,000 jobs that fit"
    return [Line(work, ours, "`pass.c`", of_plain, meter.unit), Line(work, ours, "`good.c`", of_good, meter.unit)]


class Commands:
    """What each command to a farm of so many finished jobs takes, and its rows through the real library."""

    def __init__(self, meter: Meter, farm: str, finished: int) -> None:
        self.meter, self.farm, self.finished = meter, farm, finished
        self.served, self.peer = Served(meter.folder), built("peer", meter.folder, "-lsqlite3")
        self.filled, self.path = f"{meter.folder}/filled-{finished}.db", f"{meter.folder}/bench.db"
        fill(farm, self.filled, BOARDS, waiting_reservations(BOARDS), finished_jobs(BOARDS + 1, finished))

    def ours(self) -> Values:
        copy(self.filled, self.path)
        server = desk(self.farm, self.path)
        if self.meter.counts:
            return each(counted_server(self.served, self.meter.folder, server, asked.command_phases(self.finished, 2)))
        return dict(self.served.ask(server, asked.commands(self.finished)))

    def theirs(self) -> Values:
        copy(self.filled, self.path)
        if self.meter.counts:
            return each(counted(self.meter.folder, self.peer, self.path, "2")[1])
        return dict(lines(self.peer, self.path, str(asked.TURNS)))

    def clear(self) -> None:
        clear(self.filled)
        clear(self.path)


def command_lines(meter: Meter, farm: str, many: int) -> list[Line]:
    small, large = Commands(meter, farm, FEW), Commands(meter, farm, many)
    ours, theirs, there = meter.alternated(small.ours, small.theirs, large.ours)
    small.clear()
    large.clear()
    grown = largest_growth(ours, there)
    work = f"{grown}, which grows most of all commands: {many:,} jobs"
    return [
        *(Line(title, ours[name], "`peer.c`, its rows", theirs[name], meter.unit) for name, title in TITLES.items()),
        Line(work, there[grown], f"{FEW:,} jobs", ours[grown], meter.unit),
    ]


def opening_lines(meter: Meter, farm: str, reader: str, size: int) -> list[Line]:
    """A full farm is opened, or one with a percentage of its rows."""
    path = f"{meter.folder}/full.db"
    fill_full(farm, path, *(it * size // 100 for it in (MANY, MANY, REPLIES)))
    report, read = (farm, "report", "--db", path, "queue"), (reader, path, "read")
    ours, theirs, shell = (it[""] for it in meter.alternated(
        lambda: meter.whole(*report), lambda: meter.whole(*read), lambda: meter.whole("sqlite3", path, READS)))
    work, kit = "opening a full farm" if size == 100 else f"opening {size} % of a full farm", "the kit's open and one read"
    at_rest = memory_at_rest(Served(meter.folder).begin(desk(farm, path), 1))
    table = [
        Line(work, ours, kit, theirs, meter.unit),
        Line(work, ours, "the `sqlite3` shell's read", shell, meter.unit),
        Line(f"{work}: most memory", measured(*report)[1], kit, measured(*read)[1], "bytes"),
        Line(f"{work}: memory at rest", at_rest, kit, memory_at_rest(waiting(*read)), "bytes"),
    ]
    clear(path)
    return table


def main(words: list[str]) -> None:
    if len(words) not in (4, 5, 6):
        sys.exit(__doc__)
    farm, bench, reader, folder = (os.path.abspath(it) for it in words[:4])
    size, rounds = (int(it) for it in [*words[4:], *("100", "5")[len(words) - 4:]])
    meter = Meter(folder, rounds, has_callgrind())
    table = [*pass_lines(meter, bench), *command_lines(meter, farm, MANY * size // 100), *opening_lines(meter, farm, reader, size)]
    print(shown(table))


if __name__ == "__main__":
    main(sys.argv[1:])
