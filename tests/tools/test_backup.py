"""Copies of a farm, by farm-backup: beside a stream of commands and a desk that is killed (SIGKILL) and
started again, of files that are damaged or that are no farm; and of copies that are too many. (unit/backup/: of files that
move.)"""
from __future__ import annotations

import contextlib
import os
import pathlib
import random
import re
import shutil
import sqlite3
import subprocess
import sys
import tempfile
import time
from typing import Callable, List

import pytest
from desks import write
from recorded import recorded, synced
from served import PATIENCE, TOOLS, TOP, Board, Farm, environment, read, wait_until
from streamed import FIRST, Kills, Salts, Stream, Worker, backup, demand_prefix, quiet_farm, still_farm, words_of

Made = Callable[..., Farm]
BOARDS: List[Board] = [("b1", "bbb", [])]
IS_FULL = os.environ.get("FARM_FULL") == "1"  # an hour of copies, on a busy machine of four processors
FARMS, COPIES = (20, 50) if IS_FULL else (2, 12)
BESIDE = 40  # commands beside one copy at most, so that a slow machine's farm doesn't grow for ever
CARRIED = 3  # so often at least each farm's log begins anew beside its copies


def left_in(folder: str) -> List[str]:
    """The farms in a folder that no copy was made of."""
    return [it for it in os.listdir(folder) if it.startswith(".new-")]


# ---- copies of farms that change


@pytest.mark.slow(40)
@pytest.mark.timeout(2400)
@pytest.mark.parametrize("seed", range(FARMS))
def test_each_copy_has_a_prefix_of_the_commands_with_all_that_were_answered(
    make_farm: Made, folder: str, seed: int
) -> None:
    """While commands are sent, the desk is killed and started, and the log is carried into the file and
    begins anew, as its salts tell."""
    farm = make_farm(BOARDS)
    stream, kills, salts = Stream(farm), Kills(farm, random.Random(seed)), Salts(f"{farm.db}-wal")
    made = 0
    until = time.monotonic() + 300
    while made < COPIES or len(salts.seen) <= CARRIED and time.monotonic() < until:
        before = len(stream.answered)
        stream.most = before + BESIDE
        status, said, errors = backup(farm, folder, "--keep", "2", "--verbose")
        assert (status, [it for it in errors.splitlines() if "again" not in it]) == (0, [])
        demand_prefix(f"{said.strip()}/farm.db", before, len(stream.answered) + 1)
        made += 1
    for it in (stream, kills, salts):
        it.end()
    assert len(salts.seen) > CARRIED, "how often the log began anew"
    assert len([it for it in os.listdir(folder) if it.startswith("farm-")]) == 2, "what is kept"


# ---- one copy


def test_a_copy_of_a_farm_that_isnt_served(make_farm: Made, folder: str) -> None:
    farm = make_farm(BOARDS)
    commands = still_farm(farm)
    status, said, errors = backup(farm, folder)
    assert (status, errors) == (0, "")
    assert os.path.realpath(f"{folder}/latest") == said.strip()
    demand_prefix(f"{said.strip()}/farm.db", commands, commands)
    rights = [os.stat(it).st_mode & 0o777 for it in (said.strip(), f"{said.strip()}/farm.db")]
    assert rights == [0o700, os.stat(farm.db).st_mode & 0o777]


def test_a_copy_is_on_the_disk_before_it_gets_its_name(make_farm: Made, folder: str) -> None:
    """Both files and their names; then the copy's name and `latest`. (The program that checks a copy syncs files, too,
    so it isn't recorded.)"""
    farm = make_farm(BOARDS)
    still_farm(farm)
    to = f"{folder}/copies"
    program = write(folder, "farm", f'#!/bin/sh\nunset LD_PRELOAD\nexec {farm.program} "$@"\n', 0o755)
    entries = recorded(words_of(farm, "--program", program, to), to)
    files = [it for it in entries if "/.new-" in it.path]
    place = os.path.dirname(files[0].path)
    assert {os.path.dirname(it.path) for it in files if it.path != place} == {place}
    assert synced(files) == {f"{place}/farm.db", f"{place}/farm.db-wal", place}
    assert to in synced(entries)


def test_a_copy_of_a_farm_by_a_link_has_the_links_name(make_farm: Made, folder: str) -> None:
    farm = make_farm(BOARDS)
    commands = still_farm(farm)
    os.symlink(farm.db, f"{folder}/linked.db")
    said = backup(farm, f"{folder}/to", "--db", f"{folder}/linked.db")[1].strip()
    demand_prefix(f"{said}/linked.db", commands, commands)


@pytest.mark.parametrize("words, why", [
    (["--program", "/nonexistent/farm"], "can't be proved"),
    (["--program", "false"], "the copy is no farm, and is thrown away (nothing was said)"),
    (["--db", "/nonexistent/none.db"], "there is no /nonexistent/none.db: a farm is a file and its log"),
])
def test_what_cant_be_copied_or_proved_is_told_in_a_line(
    make_farm: Made, folder: str, words: List[str], why: str
) -> None:
    """And leaves the copies as they are."""
    farm = make_farm()
    assert backup(farm, folder)[0] == 0
    before = sorted(os.listdir(folder))
    status, said, errors = backup(farm, folder, *words)
    assert (status, said, errors.count("\n")) == (4, "", 1)
    assert why in errors
    assert sorted(os.listdir(folder)) == before


def test_a_copy_is_compared_with_the_desk_and_one_that_cant_be_is_kept(make_farm: Made, folder: str) -> None:
    farm = make_farm()
    status, said, errors = backup(farm, folder, "--server", farm.server, "--verbose")
    assert (status, errors) == (0, f"farm-backup: compared with the desk at {farm.server}: 0 commands\n")
    status, said, errors = backup(farm, folder, "--server", "http://127.0.0.1:1")
    assert (status, os.path.realpath(f"{folder}/latest"), errors.count("\n")) == (0, said.strip(), 1)


def test_a_disk_without_room_leaves_the_copies_as_they_are(make_farm: Made, folder: str) -> None:
    """(The limit is on the size of a file, so the file's end is one that no page has.)"""
    farm = make_farm(BOARDS)
    assert backup(farm, folder)[0] == 0
    before = sorted(os.listdir(folder))
    farm.kill()
    os.truncate(farm.db, 64 << 20)
    tool, *words = words_of(farm, folder)
    ran = subprocess.run(
        ["sh", "-c", 'ulimit -f 50000; exec "$@"', "sh", sys.executable, os.path.join(TOOLS, tool), *words],
        capture_output=True, text=True, timeout=120, check=False, env=environment(),
    )
    assert (ran.returncode, ran.stdout, ran.stderr.count("\n")) == (4, "", 1)
    assert sorted(os.listdir(folder)) == before


def test_a_log_that_is_damaged_is_told(make_farm: Made, folder: str) -> None:
    """A byte that is damaged hides the command that wrote it and all behind it from whoever opens the farm; but they
    stand there."""
    farm = make_farm(BOARDS)
    quiet_farm(farm)
    assert backup(farm, folder)[0] == 0
    with open(f"{farm.db}-wal", "r+b") as log:
        log.seek(log.read().index(b"turn=21"))
        log.write(b"u")
    latest = os.readlink(f"{folder}/latest")
    wanted = f"farm-backup: {farm.db}-wal is damaged: commands stand behind a frame whose sum is wrong\n"
    assert backup(farm, folder) == (4, "", wanted)
    assert (os.readlink(f"{folder}/latest"), left_in(folder)) == (latest, [])


def test_a_copy_with_fewer_commands_than_the_desk_is_thrown_away(make_farm: Made, folder: str) -> None:
    """The desk knows of damage to the last frame, which the log doesn't show; and of another farm's file."""
    farm = make_farm(BOARDS)
    commands = quiet_farm(farm)
    end = end_of(f"{farm.db}-wal")
    server = ["--server", farm.server]
    assert backup(farm, folder, *server)[0] == 0
    latest = os.readlink(f"{folder}/latest")
    with open(f"{farm.db}-wal", "r+b") as log:
        log.seek(end - 1)
        log.write(b"u")
    wanted = f"farm-backup: the copy has {FIRST + commands - 1} commands, and the desk had done {FIRST + commands}: "
    status, said, errors = backup(farm, folder, *server)
    assert (status, said, errors.startswith(wanted)) == (4, "", True)
    assert (os.readlink(f"{folder}/latest"), left_in(folder)) == (latest, [])


def end_of(log: str) -> int:
    """Where a log's last frame ends: those behind it have other salts."""
    text = pathlib.Path(log).read_bytes()
    size = 24 + int.from_bytes(text[8:12], "big")
    return max(at + size for at in range(32, len(text) - size + 1, size) if text[at + 8:at + 16] == text[16:24])


# ---- copies that are too many


def make_copies(to: str, *names: str) -> None:
    """Folders as copies are, each with a file."""
    for name in names:
        os.mkdir(f"{to}/{name}")
        write(f"{to}/{name}", "file", "")


def copies_in(to: str) -> List[str]:
    return sorted(it for it in os.listdir(to) if it.startswith(("farm", ".new")))


def copies_of(farm: Farm, to: str, *names: str) -> None:
    """Copies, each with one command more than the one before, that get these names."""
    for name in names:
        farm.tell("dispatcher", "/pass")
        os.rename(backup(farm, to)[1].strip(), f"{to}/{name}")


def test_keep_removes_the_oldest_copies_alone(make_farm: Made, folder: str) -> None:
    """By what they hold, since names are of a clock that may have been ahead. What isn't a copy stays; what was cut off
    is removed."""
    to, farm = f"{folder}/to", make_farm()
    ahead = ["farm-20990102T000000Z", "farm-20990101T000000Z"]
    copies_of(farm, to, *ahead, "farm-20200102T000000Z", "farm-20200101T000000Z", "farm-20200102T000000Z-10")
    make_copies(to, ".new-cut", "farm-notes")
    farm.tell("dispatcher", "/pass")
    status, said, errors = backup(farm, to, "--keep", "3")
    assert (status, errors) == (0, "")
    new = os.path.basename(said.strip())
    assert copies_in(to) == sorted([new, "farm-20200101T000000Z", "farm-20200102T000000Z-10", "farm-notes"])


def test_keep_leaves_what_isnt_an_earlier_copy_of_the_same_farm(make_farm: Made, folder: str) -> None:
    """Here one that has more commands than a farm that was restored, and one that can't be read."""
    to, farm = f"{folder}/to", make_farm()
    copies_of(farm, to, "farm-20200101T000000Z", "farm-20200102T000000Z")
    farm.ask("admin", "POST", "/types", {"name": "later"}, key="later")
    copies_of(farm, to, "farm-20200103T000000Z")
    make_copies(to, "farm-20200104T000000Z")
    farm.kill()
    for end in ("", "-wal"):
        os.unlink(f"{farm.db}{end}")
        shutil.copy(f"{to}/farm-20200102T000000Z/farm.db{end}", f"{farm.db}{end}")
    status, said, errors = backup(farm, to, "--keep", "1")
    assert status == 0
    stays = ["farm-20200103T000000Z", "farm-20200104T000000Z"]
    told = f"farm-backup: these stay, which aren't earlier copies of the same farm: {', '.join(stays)}\n"
    assert errors == told
    assert copies_in(to) == [*stays, os.path.basename(said.strip())]
    for _ in range(3):
        once(farm)
    assert backup(farm, to, "--keep", "1")[2] == told, "it has more commands by now, and not the other's last"


def once(farm: Farm) -> None:
    """A command for a farm that isn't served."""
    key = time.monotonic_ns()
    farm.tell_at(time.time(), "admin", "/types", {"name": f"t{key}"}, str(key))


def test_keep_leaves_each_copy_as_it_is(make_farm: Made, folder: str) -> None:
    """Also one whose log is empty, as that of a farm that was just made."""
    farm = make_farm()
    farm.kill()
    for end in ("", "-wal"):
        os.unlink(f"{farm.db}{end}")
    subprocess.run([farm.program, "init", "--db", farm.db], check=True, capture_output=True)
    for _ in range(3):
        assert backup(farm, folder, "--keep", "9")[::2] == (0, "")
        once(farm)
    files = {it: it.read_bytes() for it in pathlib.Path(folder).glob("farm-*/*")}
    assert len(files) == 6
    assert backup(farm, folder, "--keep", "9")[::2] == (0, "")
    assert all(it.read_bytes() == text for it, text in files.items())


def test_the_moment_of_the_last_copy_is_a_metric(make_farm: Made, folder: str) -> None:
    """That a copy which failed leaves as it is."""
    farm, to = make_farm(), ["--textfile", f"{folder}/backup.prom"]
    before = int(time.time())
    assert backup(farm, folder, *to)[0] == 0
    metric = read(f"{folder}/backup.prom")
    line = re.fullmatch(r"# TYPE (\w+) gauge\n(\w+) (\d+)\n", metric)
    assert line and line[1] == line[2] and before <= int(line[3]) <= time.time() + 1
    with open(os.path.join(TOP, "examples/alerts.yml"), encoding="utf-8") as rules:
        assert f"time() - {line[1]} >" in rules.read()
    assert backup(farm, folder, *to, "--program", "false")[0] == 4
    assert read(f"{folder}/backup.prom") == metric


# ---- a copy to look at


def test_a_served_farm_is_looked_at_in_one_command(make_farm: Made, folder: str) -> None:
    """By SQLite's shell, which can't open the farm itself then, also where it may write nothing; and by a report."""
    farm, to = make_farm(BOARDS), f"{folder}/now.db"
    assert backup(farm, "--now", "--to", to) == (0, "", "")
    assert os.listdir(folder) == ["now.db"]
    with contextlib.closing(sqlite3.connect(f"file:{to}?mode=ro&immutable=1", uri=True)) as conn:
        assert conn.execute("select name, health from boards").fetchall() == [("b1", 0)]
        assert conn.execute("pragma integrity_check").fetchall() == [("ok",)]
    words = [farm.program, "report", "--db", to, "boards"]
    wanted = subprocess.run(words, capture_output=True, text=True, check=True).stdout
    assert wanted.split()[:2] == ["Good", "Idle"]
    assert backup(farm, "--now", "--report", "boards") == (0, wanted, "")


@pytest.mark.parametrize("taken", ["now.db", "now.db-wal"])
def test_a_copy_to_look_at_overwrites_nothing(make_farm: Made, folder: str, taken: str) -> None:
    write(folder, taken, "kept")
    wanted = f"farm-backup: {folder}/{taken} is there: a copy overwrites nothing\n"
    assert backup(make_farm(), "--now", "--to", f"{folder}/now.db") == (4, "", wanted)
    assert (os.listdir(folder), read(f"{folder}/{taken}")) == ([taken], "kept")


def test_a_copy_to_look_at_lies_where_nobody_else_writes(make_farm: Made, folder: str) -> None:
    """A journal beside it, which anybody may put there, names a file that SQLite's shell removes."""
    os.chmod(folder, 0o1777)
    status, said, told = backup(make_farm(), "--now", "--to", f"{folder}/now.db")
    assert (status, said, os.listdir(folder)) == (4, "", []) and told.startswith(f"farm-backup: {folder}: others may write there")


# ---- a farm that grows fast


@pytest.mark.slow(30)
def test_a_farm_that_grows_fast_is_copied(make_farm: Made, folder: str) -> None:
    """Some hundred jobs of 60 kB a second: its log begins anew some times a second, so its file never stands still for as
    long as a disk takes to have a copy."""
    farm = make_farm(BOARDS)
    text = f"job_name = 'boot'\ndevice_type = 'bbb'\n# {'x' * 60000}".encode()

    class Sender(Worker):
        def step(self) -> None:
            farm.tell("ann", "/jobs", text)
            time.sleep(0.01)

    salts = Salts(f"{farm.db}-wal")
    senders = [Sender() for _ in range(2)]
    wait_until("a large farm", lambda: os.path.getsize(farm.db) > 30 << 20, 300)
    made, turned, until = 0, 0, time.monotonic() + PATIENCE
    while made < 3 or (not turned and time.monotonic() < until):
        before, turns = farm.look("/status")["count"], len(salts.seen)
        status, said, errors = backup(farm, f"{folder}/copies", "--verbose")
        assert (status, errors.count("no copy")) == (0, 0)
        assert count_in(f"{said.strip()}/farm.db") >= before
        made, turned = made + 1, turned + (len(salts.seen) > turns)
    assert turned, "its log began anew while a copy was made"
    for it in (*senders, salts):
        it.end()


def count_in(db: str) -> int:
    with tempfile.TemporaryDirectory() as place:
        for end in ("", "-wal"):
            shutil.copy(db + end, f"{place}/farm.db{end}")
        with contextlib.closing(sqlite3.connect(f"{place}/farm.db")) as conn:
            assert conn.execute("pragma integrity_check").fetchall() == [("ok",)]
            return int(conn.execute("select value from meta where name = 'count'").fetchone()[0])
