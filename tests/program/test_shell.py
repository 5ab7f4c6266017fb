"""A farm's file, as SQLite's own shell reads it."""
from __future__ import annotations

import os
import re
import subprocess

import pytest

from orders import Orders
from served import TOP, read
from wants import wants

COLUMNS = """\
select t.name, c.* from sqlite_schema t, pragma_table_info(t.name) c where t.type = 'table' order by t.name, c.cid;
"""
ROWS = """\
pragma integrity_check;
pragma page_size;
select name, unit, every from types order by name;
select name, kind, tags, health, state, holder, held_by, jobs_since, last_check from boards where name = 'bbb-03';
select number, owner, priority, tags, state, deadline, board from reservations;
select caller, ckey, kind, a, b, c from kept where caller = 'ann';
select caller, count(*) from kept where caller = 'admin';
select name, value from meta where name <> 'schema' order by name;
"""
FOUND = """\
ok
1024
beaglebone-black|1|24
qemu-aarch64|0|0
rpi4b|2|20
bbb-03|beaglebone-black|hdmi,outlet=3,power=pdu1,rack=1,serial,switch=sw1|3|0|0|0|0|0
1|ann|50|hdmi|0|1700000360|
ann|r1|9|1|0|0
admin|15
clock|1700000300
collector|0
count|16
next|2
"""
LONGER = "pragma journal_mode = delete; pragma page_size = 4096; vacuum; pragma journal_mode = wal"


@pytest.fixture
def lab(orders: Orders) -> Orders:
    """The example lab with one reservation, in a file."""
    wants("sqlite3")
    orders.init()
    lab = os.path.join(TOP, "examples", "lab.toml")
    orders.prints("accepted 15, kept 0", "import", "--db", "lab.db", "--at", "1700000000", lab)
    orders.tell("/reservations", "ann", {"tags": ["hdmi"]}, "r1", 1700000300)
    return orders


def shell(lab: Orders, db: str, text: str) -> str:
    """What SQLite's shell prints for statements over a file."""
    words = ["sqlite3", lab.path(db)]
    return subprocess.run(words, input=text, capture_output=True, text=True, check=True).stdout


def test_columns(lab: Orders) -> None:
    """The six tables have the columns of the statements in the transcript of the tables."""
    transcript = read(os.path.join(TOP, "crates", "farm_play", "data", "tables"))
    made = re.findall(r"^sql (CREATE TABLE .*\) STRICT)$", transcript, re.MULTILINE)[:6]
    assert len(made) == 6
    shell(lab, "made.db", ";\n".join(made))
    assert shell(lab, "lab.db", COLUMNS) == shell(lab, "made.db", COLUMNS)


def test_rows(lab: Orders) -> None:
    """The file is whole, its pages are of 1 KB, and the tables have what was put into them."""
    assert shell(lab, "lab.db", ROWS) == FOUND


def test_longer_pages(lab: Orders) -> None:
    """With other pages, as docs/daily-work.md gives them, the farm is the same, and takes commands."""
    before = lab.run("report", "--db", "lab.db", "boards")
    shell(lab, "lab.db", LONGER)
    assert shell(lab, "lab.db", "pragma page_size;") == "4096\n"
    assert lab.run("report", "--db", "lab.db", "boards") == before
    lab.tell("/types", body={"name": "ddd"}, at=1700000400)
