#!/usr/bin/env python3
"""Times the built program beside its peers, in rounds that alternate, and prints the medians over the
rounds, the least and the greatest in brackets, and how the program compares.

usage: compare.py commands FARM FOLDER ROUNDS   commands to `farm serve` on a file; echo.c, and the commits of peer.c
       compare.py views FARM FOLDER ROUNDS      views and refusals of `farm serve`; echo.c
       compare.py open FARM FOLDER ROUNDS       a farm of 99,000 jobs is opened; the sqlite3 shell reads the jobs
       compare.py waiting FARM FOLDER ROUNDS    commands to a farm in which 1,000 jobs wait, and 99,000
       compare.py full FARM FOLDER ROUNDS       a farm at its limits: opening, commands, passes, views; echo.c, the shell
       compare.py growth FARM FOLDER ROUNDS     how the same grow with the rows; bench/growth.svg, drawn by gnuplot
       compare.py migrate FARM FOLDER ROUNDS    a first edition's farm of 100,000 jobs is migrated; the same rows by peer.c
       compare.py passes BENCH FOLDER ROUNDS    passes in memory; the passes of pass.c and good.c

FARM is the program (bin/farm), BENCH that of crates/farm_bench, FOLDER a folder on the disk that is measured.
Each request goes over a connection of its own (client.c). Farms are made by `farm init` and filled by the real
SQLite. It needs cc, SQLite's header and library, and the sqlite3 shell; `growth` wants gnuplot.
"""
from __future__ import annotations

import os
import subprocess
import sys
import time

import asked
from asked import TURNS
from farms import (
    BOARDS, FEW, MANY, READS, REPLIES, clear, copy, fill, fill_full, finished_jobs,
    of_the_first_edition, running_jobs, waiting_jobs, waiting_reservations,
)
from programs import HERE, Pairs, Served, Table, built, desk, lines, measured, spread, timed


# Comparisons

def compare_commands(farm: str, folder: str, rounds: int) -> None:
    served, table = Served(folder), Table()
    peer, echo = built("peer", folder, "-lsqlite3"), built("echo", folder)
    full, path = f"{folder}/full.db", f"{folder}/bench.db"
    sizes = (FEW, MANY)
    for size in sizes:
        fill(farm, f"{full}.{size}", 64, waiting_reservations(BOARDS), finished_jobs(BOARDS + 1, size))
    for _ in range(rounds):
        for size in sizes:
            copy(f"{full}.{size}", path)
            table.add(lines(peer, path, str(TURNS)), f"{size} real ")
            copy(f"{full}.{size}", path)
            table.add(served.ask(desk(farm, path), asked.commands(size)), f"{size} desk ")
            table.add(served.ask([echo, "{port}", "{count}"], asked.commands(size), "echo"), f"{size} echo ")
    for size in sizes:
        print(f"{size} finished jobs")
        show_commands(table, size)
        clear(f"{full}.{size}")
    show_growth(table)
    clear(path)


def show_commands(table: Table, size: int) -> None:
    """Beside each command: what echo and commit allow, and how much more than the commit it takes without the socket."""
    for name in table.names(f"{size} desk "):
        of, echo, real = (f"{size} {it} {name}" for it in ("desk", "echo", "real"))
        each = list(zip(table.times[of], table.times[echo], table.times[real]))
        print(f"  {name}: {table.text(of)}, {1e9 / table.median(of):.0f} a second; echo {table.text(echo)}; real commit {table.text(real)};"
              f" of what both allow {spread([(b + c) / a for a, b, c in each])};"
              f" without echo, commits {spread([(a - b) / c for a, b, c in each])}")


def show_growth(table: Table) -> None:
    print(f"{MANY} to {FEW} finished jobs")
    for name in table.names(f"{FEW} desk "):
        ratios = [table.median(f"{MANY} {who} {name}") / table.median(f"{FEW} {who} {name}") for who in ("desk", "real")]
        print(f"  {name}: desk {ratios[0]:.2f}, real commit {ratios[1]:.2f}")


def compare_views(farm: str, folder: str, rounds: int) -> None:
    served, table = Served(folder), Table()
    echo, path, listed = built("echo", folder), f"{folder}/bench.db", asked.views()
    fill(farm, path, 256, waiting_jobs(1_000, "substr('aaabbbcccddd', i % 4 * 3 + 1, 3)"))
    for _ in range(rounds):
        table.add(served.ask(desk(farm, path), listed), "desk ")
        table.add(served.ask([echo, "{port}", "{count}"], listed, "echo"), "echo ")
    for name in table.names("desk "):
        each = [echo / desk for desk, echo in zip(table.times[f"desk {name}"], table.times[f"echo {name}"])]
        print(f"{name}: {table.text(f'desk {name}')}, {1e9 / table.median(f'desk {name}'):.0f} a second; echo {table.text(f'echo {name}')};"
              f" of what echo allows {spread(each)}")
    clear(path)


def compare_opening(farm: str, folder: str, rounds: int) -> None:
    table, path = Table(), f"{folder}/full.db"
    fill(farm, path, 64, finished_jobs(1, MANY))
    for _ in range(rounds):
        table.add([("shell", timed("sqlite3", path, "select * from jobs"))])
        table.add([("farm", timed(farm, "report", "--db", path, "queue"))])
    each = [a / b for a, b in zip(table.times["farm"], table.times["shell"])]
    print(f"a report of a farm of {MANY} finished jobs: {table.text('farm')}")
    print(f"the shell's select of the jobs: {table.text('shell')}; ratio {spread(each)}")
    clear(path)


def compare_full(farm: str, folder: str, rounds: int) -> None:
    """A farm of 99,000 finished jobs, as many canceled reservations, 299,000 kept replies and 256 boards, and a small one."""
    served, table, echo = Served(folder), Table(), built("echo", folder)
    full, small, queued, path = (f"{folder}/{it}.db" for it in ("full", "small", "queued", "bench"))
    free = fill_full(farm, full, MANY, MANY, REPLIES)
    few = fill_full(farm, small, FEW, FEW, FEW)
    fill(farm, queued, 256, waiting_jobs(99_999))
    most = 0
    queue = [asked.item("queue_99999", "GET /queue", "ann") for _ in range(5)]
    for _ in range(rounds):
        nanos, memory = measured("sqlite3", full, READS)
        table.add([("shell", nanos)])
        copy(full, path)
        nanos, memory = measured(farm, "report", "--db", path, "queue")
        table.add([("opening", nanos)])
        most = max(most, memory)
        table.add(served.ask(desk(farm, path), asked.idle_day(free)), "full ")
        copy(small, path)
        table.add(served.ask(desk(farm, path), asked.idle_day(few)), "small ")
        table.add(served.ask(desk(farm, queued), queue), "full ")
        table.add(served.ask([echo, "{port}", "{count}"], asked.views(), "echo"), "echo ")
    each = [a / b for a, b in zip(table.times["opening"], table.times["shell"])]
    print(f"opening: {table.text('opening')}, {most / 1e6:.0f} MB; the shell {table.text('shell')}; ratio {spread(each)}")
    for name in table.names("full "):
        beside = f"; on a small farm {table.text(f'small {name}')}" if f"small {name}" in table.times else ""
        print(f"{name}: {table.text(f'full {name}')}{beside}")
    for first, second in (("reserve_keyed", "reserve"), ("pass", "small pass")):
        second = second if second.startswith("small") else f"full {second}"
        each = [a / b for a, b in zip(table.times[f"full {first}"], table.times[second])]
        print(f"{first} to {second}: ratio {spread(each)}")
    print(f"echo: {table.text('echo status')}")
    for it in (full, small, queued, path):
        clear(it)


GROWN = ("opening", "reserve", "reserve_keyed", "pass", "boards_256", "reservations")


def compare_growth(farm: str, folder: str, rounds: int) -> None:
    """The same measures of farms with so many finished jobs, canceled reservations and kept replies, each; the picture
    is beside this file."""
    served, sizes, rows = Served(folder), (100, 1_000, 10_000, 99_000), []
    filled, path = f"{folder}/filled.db", f"{folder}/bench.db"
    for size in sizes:
        table, free = Table(), fill_full(farm, filled, size, size, size)
        for _ in range(rounds):
            copy(filled, path)
            table.add([("opening", measured(farm, "report", "--db", path, "queue")[0])])
            table.add(served.ask(desk(farm, path), asked.idle_day(free)))
        rows.append((size, [table.median(it) / 1e3 for it in GROWN]))
        print(f"{size}: " + ", ".join(f"{it} {table.text(it)}" for it in GROWN))
    clear(filled)
    clear(path)
    data = "\n".join(f"{size} " + " ".join(f"{it:.1f}" for it in times) for size, times in rows)
    plots = ", ".join(f"$data using 1:{at + 2} with linespoints title '{it}' noenhanced" for at, it in enumerate(GROWN))
    subprocess.run(["gnuplot"], check=True, input=f"""
$data << END
{data}
END
set terminal svg size 800,560 background 'white'
set output '{HERE}/growth.svg'
set title 'A farm of so many finished jobs, canceled reservations and kept replies, each'
set logscale xy
set xlabel 'rows of each'
set ylabel 'microseconds, median'
set key outside right
set grid
plot {plots}
""".encode())
    print(f"{HERE}/growth.svg is drawn")


def compare_waiting(farm: str, folder: str, rounds: int) -> None:
    served, table = Served(folder), Table()
    full, path = f"{folder}/full.db", f"{folder}/bench.db"
    for size in (FEW, MANY):
        fill(farm, f"{full}.{size}", 128, waiting_jobs(size))
    for _ in range(rounds):
        for size in (FEW, MANY):
            copy(f"{full}.{size}", path)
            table.add(served.ask(desk(farm, path), asked.claims(size + 1)), f"{size} ")
    for name in table.names(f"{FEW} "):
        each = [many / few for few, many in zip(table.times[f"{FEW} {name}"], table.times[f"{MANY} {name}"])]
        print(f"{name}: {table.text(f'{FEW} {name}')} with {FEW} waiting, {table.text(f'{MANY} {name}')} with {MANY}; ratio {spread(each)}")
    for size in (FEW, MANY):
        clear(f"{full}.{size}")
    clear(path)


def compare_migrating(farm: str, folder: str, rounds: int) -> None:
    """The whole program beside the peer: reading, testing and writing are in both of its times but the last."""
    table, peer, full, path = Table(), built("peer", folder, "-lsqlite3"), f"{folder}/full.db", f"{folder}/bench.db"
    left = 100_000 - MANY - BOARDS
    fill(farm, full, BOARDS, waiting_jobs(left), finished_jobs(left + 1, MANY), *running_jobs(left + MANY + 1), of_the_first_edition())
    for _ in range(rounds):
        copy(full, path)
        table.add([("shell", timed("sqlite3", path, "select * from jobs"))])
        start = time.perf_counter_ns()
        table.add(lines(peer, path, "raise"))
        table.add([("peer", time.perf_counter_ns() - start)])
        copy(full, path)
        table.add([("farm", timed(farm, "migrate", "--db", path))])
        log = os.path.getsize(f"{path}-wal") if os.path.exists(f"{path}-wal") else 0
        table.add([("report", timed(farm, "report", "--db", path, "queue"))])
    print(f"farm migrate, 100,000 jobs: {table.text('farm')}; the file has {os.path.getsize(full):,} bytes, its log then {log:,}")
    for name, what in (("peer", "peer.c, whole"), ("raise", "peer.c, its transaction"), ("report", "farm report queue, of the new farm"),
                       ("shell", "the shell's select of the jobs")):
        each = [a / b for a, b in zip(table.times["farm"], table.times[name])]
        print(f"{what}: {table.text(name)}; ratio {spread(each)}")
    clear(full)
    clear(path)


SHAPES = {"fit": "boards fit", "nofit": "no free board fits", "busy": "no board is free"}
CELLS = [(shape, count) for count in (1_000, 100_000) for shape in SHAPES]


def answers(program: str, shape: str, count: int) -> list[str]:
    """Which job got which board in a pass, a line each, in one order."""
    ran = subprocess.run([program, "answers", shape, str(count)], stdout=subprocess.PIPE, check=True)
    return sorted(ran.stdout.decode().splitlines())


def compare_answers(bench: str, plain: str, good: str) -> None:
    """Ends this program where the three passes don't give the same jobs the same boards in some cell."""
    for shape, count in CELLS:
        wanted = answers(plain, shape, count)
        for other in (good, bench):
            if answers(other, shape, count) != wanted:
                sys.exit(f"{other} gives other boards than {plain} in {shape}-{count}")


def least_times(said: str) -> Pairs:
    """What the program of crates/farm_bench prints, as pairs of a measure's name and its least in nanoseconds, as the
    programs in C give the least."""
    heading, found = "", []
    for line in said.splitlines():
        if not line.startswith("  "):
            heading = line
            continue
        what, nanos = line.strip().rsplit(": ", 1)
        found.append((f"{heading}, {what}", int(nanos.split("(")[1].split()[0])))
    return found


def compare_passes(bench: str, folder: str, rounds: int) -> None:
    table, plain, good = Table(), built("pass", folder), built("good", folder)
    compare_answers(bench, plain, good)
    for _ in range(rounds):
        table.add(lines(plain), "plain ")
        table.add(lines(good), "good ")
        table.add(least_times(subprocess.run([bench, "time"], stdout=subprocess.PIPE, check=True).stdout.decode()), "desk ")
    for name in table.names("desk "):
        print(f"{name}: {table.text(f'desk {name}')}")
    for shape, count in CELLS:
        name = next(it for it in table.times if it.startswith(f"desk {count} jobs, {SHAPES[shape]}"))
        for peer in ("plain", "good"):
            other = f"{peer} {shape}-{count}"
            each = [a / b for a, b in zip(table.times[name], table.times[other])]
            print(f"{count} jobs, {SHAPES[shape]}: {peer} C {table.text(other)}; ratio {spread(each)}")


def main(words: list[str]) -> None:
    comparisons = {
        "commands": compare_commands, "views": compare_views, "open": compare_opening,
        "waiting": compare_waiting, "migrate": compare_migrating, "passes": compare_passes,
        "full": compare_full, "growth": compare_growth,
    }
    try:
        what, program, folder, rounds = words
        comparison, count = comparisons[what], int(rounds)
    except (ValueError, KeyError):
        sys.exit(__doc__)
    comparison(os.path.abspath(program), folder, count)


if __name__ == "__main__":
    main(sys.argv[1:])
