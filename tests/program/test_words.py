"""The program's words: those that it refuses, its help, and those that it takes, in any order and with
the smallest and largest values, as what it then does shows."""
from __future__ import annotations

import contextlib
import os
import re
import sqlite3
import subprocess
from typing import List

import pytest

from orders import Orders, request
from ports import free_port
from served import STARTED
from wants import wants

NO_UTF8 = "invalid UTF-8 was detected in one or more arguments"
REFUSED = [
    ("requires a subcommand", ""),
    ("unrecognized subcommand 'twice'", "twice"),
    ("unexpected argument '--memory'", "--memory"),
    ("required arguments were not provided", "once"),
    ("exactly one of '--memory' and '--db <FILE>'", "once --at 1"),
    ("exactly one of '--memory' and '--db <FILE>'", "once --memory --db f --at 1"),
    ("--db <FILE>", "init"),
    ("--db <FILE>", "migrate"),
    ("unexpected argument '--at' found", "migrate --db f --at 1"),
    ("unexpected argument 'f'", "migrate --db f f"),
    ("unrecognized subcommand 'upgrade'", "upgrade --db f"),
    ("<LAB>", "import --db f --at 1"),
    ("invalid value '0' for '--port <PORT>'", "serve --db f --port 0 --max 1"),
    ("invalid value '65536' for '--port <PORT>'", "serve --db f --port 65536 --max 1"),
    ("invalid value '841' for '--east <MINUTES>'", "report --db f --east 841 queue"),
    ("invalid value '841' for '--west <MINUTES>'", "report --db f --west 841 queue"),
    ("[possible values: queue", "report --db f nothing"),
    ("<WHICH>", "report --db f"),
    ("--at <SECONDS>", "once --memory"),
    ("a value is required for '--at <SECONDS>'", "once --memory --at"),
    ("invalid value 'x' for '--at <SECONDS>'", "once --memory --at x"),
    ("invalid value 'soon' for '--at <SECONDS>'", "once --memory --at soon"),
    ("unexpected argument '-1'", "once --memory --at -1"),
    ("invalid value '18446744073709551616'", "once --memory --at 18446744073709551616"),
    ("cannot be used multiple times", "once --memory --at 1 --at 2"),
    ("unexpected argument 'more'", "once --memory --at 1 more"),
    ("unexpected argument '--east'", "once --memory --at 1 --east 5"),
    ("unexpected argument '--version' found", "once --version"),
    # The byte 0xff stands in no UTF-8 text.
    (NO_UTF8, "\udcff"),
    (NO_UTF8, "init --db f\udcff"),
    (NO_UTF8, "once --memory --at 1\udcff"),
]
HELP = {
    "--help": "Usage: farm <COMMAND>",
    "-h": "Usage: farm <COMMAND>",
    "help": "Usage: farm <COMMAND>",
    "once --help": "Usage: farm once [OPTIONS] --at <SECONDS>",
    "help once": "Usage: farm once [OPTIONS] --at <SECONDS>",
    "init --help": "Usage: farm init --db <FILE>",
    "migrate --help": "Usage: farm migrate --db <FILE>",
    "import --help": "Usage: farm import --db <FILE> --at <SECONDS> <LAB>",
    "serve --help": "Usage: farm serve --db <FILE> --port <PORT> --max <CONNECTIONS>",
    "report --help": "Usage: farm report [OPTIONS] --db <FILE> <WHICH>",
}
PASS = request("POST", "/pass", {"x-user": "admin"})
STATUS = request("GET", "/status", {})
DONE = '{"checks":0,"expired":0,"served":0}'
BAD_MOMENT = '{"code":2,"text":"bad moment"}'


@pytest.mark.parametrize("told, words", REFUSED, ids=lambda it: ascii(it))
def test_refused(told: str, words: str, orders: Orders) -> None:
    """Refused words end with status 2, print nothing, make no file, and say what is wrong."""
    ran = orders.run(*words.split())
    assert (ran.status, ran.output) == (2, "")
    assert ran.errors.startswith("error: ") and told in ran.errors
    assert not os.listdir(orders.folder)


@pytest.mark.parametrize("words", HELP)
def test_help(words: str, orders: Orders) -> None:
    """Each order tells its usage."""
    ran = orders.run(*words.split())
    assert (ran.status, ran.errors) == (0, "")
    assert HELP[words] in ran.output


def test_help_says_what_it_is(orders: Orders) -> None:
    assert orders.run("--help").output.startswith("The desk of a board farm")


@pytest.mark.parametrize("word", ["--version", "-V"])
def test_version(word: str, orders: Orders) -> None:
    """The version is one line."""
    ran = orders.run(word)
    assert (ran.status, ran.errors) == (0, "")
    assert re.fullmatch(r"farm 2\.0[^\n]*\n", ran.output)


# A pass is taken at the last moment of a farm and not a second later, so the moment is read.
@pytest.mark.parametrize("words", [
    "--memory --at 1700000000", "--at 250000000000 --memory", "--memory --at=250000000000",
])
def test_moment(words: str, orders: Orders) -> None:
    ran = orders.run("once", *words.split(), given=PASS)
    assert (ran.status, ran.output.split("\r\n")[-1]) == (0, DONE)


@pytest.mark.parametrize("words", [
    "--memory --at 250000000001", "--at 250000000001 --memory", "--memory --at=250000000001",
    "--memory --at 18446744073709551615",
])
def test_moment_too_late(words: str, orders: Orders) -> None:
    ran = orders.run("once", *words.split(), given=PASS)
    assert (ran.status, ran.output.split("\r\n")[-1]) == (3, BAD_MOMENT)


def last_line(orders: Orders, given: bytes, *words: str) -> str:
    ran = orders.run(*words, given=given)
    assert (ran.status, ran.errors) == (0, "")
    return ran.output.splitlines()[-1]


def test_file_and_moments(orders: Orders) -> None:
    """init, import and once over a file take their words in any order; a moment before the farm's is the farm's."""
    status = '{"boards":%d,"clock":%d,"collector":0,"count":%d,"jobs":0,"next":1,"reservations":0,"types":%d}'
    orders.init()
    assert last_line(orders, PASS, "once", "--db", "lab.db", "--at", "0") == DONE
    assert last_line(orders, PASS, "once", "--at", "1700000000", "--db=lab.db") == DONE
    assert last_line(orders, STATUS, "once", "--db", "lab.db", "--at", "0") == status % (0, 1700000000, 2, 0)
    lab = orders.path("lab.toml")
    for text, words, said, found in [
        ("[types.bbb]\n", ("--db", "lab.db", "--at", "1700000010", lab), "accepted 1, kept 0", (0, 1700000010, 3, 1)),
        ('[types.ccc]\n[boards.b1]\ntype = "bbb"\n', (lab, "--at", "1700000020", "--db", "lab.db"),
         "accepted 2, kept 0", (1, 1700000020, 5, 2)),
    ]:
        with open(lab, "w", encoding="utf-8") as file:
            file.write(text)
        orders.prints(said, "import", *words)
        assert last_line(orders, STATUS, "once", "--db", "lab.db", "--at", "0") == status % found


def test_reports(orders: Orders) -> None:
    """A reservation whose deadline is 1700000080, at each offset."""
    orders.init()
    with open(orders.path("lab.toml"), "w", encoding="utf-8") as file:
        file.write('[types.bbb]\n[boards.b1]\ntype = "bbb"\n')
    orders.prints("accepted 2, kept 0", "import", "--db", "lab.db", "--at", "1700000020", "lab.toml")
    assert orders.tell("/reservations", "ann", {"tags": []}, at=0) == {"number": 1}
    queue = " 50         1 reservation 1 ann"
    orders.prints(queue, "report", "--db", "lab.db", "queue")
    orders.prints(queue, *"report queue --west 840 --east 1 --db lab.db".split())
    never = "Maintenance Idle     none                  never               b1 bbb"
    orders.prints(never, *"report --db lab.db --east 840 boards".split())
    for words, moment in [
        ("--db lab.db reservations", "2023-11-14 22:14:40"),
        ("--db lab.db --east 840 reservations", "2023-11-15 12:14:40"),
        ("--db lab.db --west 60 reservations", "2023-11-14 21:14:40"),
        ("reservations --west 840 --east 1 --db lab.db", "2023-11-14 08:15:40"),
    ]:
        orders.prints(f"        1 waiting    50 {moment} - ann", "report", *words.split())


@pytest.mark.parametrize("words", [
    "--db lab.db --port 1 --max 0", "--max 18446744073709551615 --port 65535 --db lab.db",
    "--db lab.db --port 8080 --max 3",
])
def test_served_ports(words: str, orders: Orders) -> None:
    """The first port and the last one, which may be taken or not ours, and the largest number of connections."""
    orders.init()
    process = started(orders, words.split())
    assert process.stdout is not None and process.stderr is not None
    port = re.findall(r"--port (\d+)", words)[0]
    assert (process.stdout.readline() or process.stderr.readline()) in (
        f"listening {port}\n".encode(), b"farm: 80 read fault\n",
    )


def test_most_boards(orders: Orders) -> None:
    """A pass over the largest lab: 256 boards of four types, all Good, and a reservation that one of them is for."""
    orders.init()
    with open(orders.path("lab.toml"), "w", encoding="utf-8") as file:
        file.writelines(f"[types.t{it}]\n" for it in range(4))
        file.writelines(f'[boards.b{it:03}]\ntype = "t{it % 4}"\n' for it in range(256))
    orders.prints("accepted 260, kept 0", *"import --db lab.db --at 1 lab.toml".split())
    with contextlib.closing(sqlite3.connect(orders.path(orders.db))) as lab, lab:
        lab.execute("UPDATE boards SET health = 0")
    orders.tell("/reservations", "ann", {"tags": ["name=b255"]})
    assert orders.tell("/pass", "dispatcher") == {"checks": 0, "expired": 0, "served": 1}


def started(orders: Orders, words: List[str]) -> "subprocess.Popen[bytes]":
    process = subprocess.Popen(
        [orders.program, "serve", *words], cwd=orders.folder, stdout=subprocess.PIPE, stderr=subprocess.PIPE
    )
    STARTED.append(process)
    return process


def test_three_connections(orders: Orders) -> None:
    """serve answers as many connections as --max says, and ends then."""
    wants("curl")
    orders.init()
    while True:
        port = free_port()
        process = started(orders, f"--db lab.db --port {port} --max 3".split())
        assert process.stdout is not None
        if process.stdout.readline() == f"listening {port}\n".encode():
            break
        # (only where another program took the port meanwhile)
        assert process.communicate(timeout=60)[1] == b"farm: 80 read fault\n"
    for _ in range(3):
        words = ["curl", "-sS", f"http://127.0.0.1:{port}/types"]
        assert subprocess.run(words, check=True, capture_output=True).stdout == b'{"types":[]}'
    assert process.wait(300) == 0
