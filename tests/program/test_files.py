"""What the program does with a farm's file beside the farm: how a new one is made, and what is said of a large one."""
from __future__ import annotations

import contextlib
import os
import pty
import shlex
import sqlite3
import stat
import subprocess
from typing import Dict, List

import libraries
from orders import STORE_FAULT, Orders
from ports import free_port
from recorded import entries_in, recorder
from served import TOP, wait_until


def test_new_file_is_on_the_disk_before_its_log(orders: Orders) -> None:
    """`init` syncs the first page of a file that it makes before it writes a log, which an open would take for none
    beside a file without a byte; its owner may write it, and all may read it."""
    record, file = orders.path("record"), orders.path(orders.db)
    ran = subprocess.run(
        [orders.program, "init", "--db", file], stdout=subprocess.PIPE, check=True, umask=0o022,
        env={**os.environ, "LD_PRELOAD": recorder(), "RECORD": record, "RECORDED": file},
    )
    assert ran.stdout == b"ready\n"
    done = [(it.what, os.path.basename(it.path)) for it in entries_in(record)]
    first_of_log = next(at for at, it in enumerate(done) if it[1] == f"{orders.db}-wal")
    before = done[:first_of_log]
    assert ("w", orders.db) in before and before[-1] == ("s", orders.db)
    assert stat.S_IMODE(os.stat(file).st_mode) == 0o644


def paused_at(place: str, file: str, command: str, folder: str) -> Dict[str, str]:
    """The environment of a program that runs a command right behind a write or a lock of a file (pause.c)."""
    library = libraries.made(f"{TOP}/tests/faults/pause.c", folder)
    return {"LD_PRELOAD": library, "PAUSED": file, "PAUSE_AT": place, "PAUSE": command}


def test_two_inits_at_once(orders: Orders) -> None:
    """An `init` that comes while another writes its first page is refused, locks nothing that the other needs, and the
    other is done, however slow the one that is refused is to end."""
    file, tried, done, ended = (orders.path(it) for it in (orders.db, "tried", "done", "ended"))
    slow = paused_at("l2", file, f"touch {tried} {done}; until [ -e {ended} ]; do sleep 0.1; done", orders.folder)
    second = orders.path("second")
    with open(second, "w", encoding="utf-8") as script:
        words = " ".join(f"{name}={shlex.quote(it)}" for name, it in slow.items())
        script.write(f"{words} {orders.program} init --db {file} > {second}.told 2>&1; touch {done} {second}.ended\n")
    meanwhile = f"sh {second} > {second}.log 2>&1 & until [ -e {done} ]; do sleep 0.1; done"
    first = orders.run("init", "--db", file, around=paused_at("w1", file, meanwhile, orders.folder))
    with open(ended, "w", encoding="utf-8"):
        wait_until("the second ends", lambda: os.path.exists(f"{second}.ended"))
    assert (first.status, first.output, first.errors) == (0, "ready\n", "")
    with open(f"{second}.told", encoding="utf-8") as told:
        assert told.read() == STORE_FAULT
    assert not os.path.exists(tried)


def serving(orders: Orders) -> List[str]:
    """The words of a serving that ends at once."""
    return ["serve", "--db", orders.db, "--port", str(free_port()), "--max", "0"]


def told_on_a_terminal(orders: Orders) -> str:
    """What a serving says on standard error where that is a terminal."""
    ours, its = pty.openpty()
    words = [orders.program, *serving(orders)]
    try:
        subprocess.run(words, cwd=orders.folder, stdout=subprocess.DEVNULL, stderr=its, check=True)
    finally:
        os.close(its)
    with os.fdopen(ours, "rb", buffering=0) as terminal:
        try:
            return (terminal.read(4096) or b"").decode()
        except OSError:  # (there is nothing to be read, and nobody else)
            return ""


def test_large_file(orders: Orders) -> None:
    """Whoever waits for a file of 16 MB or more at a terminal is told so, and nobody else."""
    orders.init()
    assert told_on_a_terminal(orders) == ""
    with contextlib.closing(sqlite3.connect(orders.path(orders.db))) as file, file:
        file.execute("CREATE TABLE filler (bytes)")
        file.execute("INSERT INTO filler VALUES (zeroblob(20000000))")
        file.execute("DROP TABLE filler")
    size = os.path.getsize(orders.path(orders.db)) // 1_000_000
    assert size >= 16
    said = told_on_a_terminal(orders)
    assert said == f"farm: opening {size} MB, which takes a few seconds\r\n"
    assert orders.run(*serving(orders)).errors == ""
