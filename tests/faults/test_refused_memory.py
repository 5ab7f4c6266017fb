"""Growths of memory of the program are refused (refuse.c, preloaded), one in each run, counting upwards until a run
meets no refusal: every thirty-second, or sixteenth where the player plays, or eighth where it serves, of which the first is
taken by chance; or each one, where FARM_TEST_FULL=1.

Each run answers as it would with ample memory, or with 503 and code 1 (60 where the store's own growth was refused),
or ends with the line of that fault; and whatever was answered 200 is in the file. The Rattle program asks the C
library's functions for memory, which a preloaded library may stand before."""
from __future__ import annotations

import gzip
import hashlib
import os
import random
import tempfile
from typing import Callable, Dict, Iterator, List, NamedTuple, Tuple

import pytest

import refused_rows
import refused_serving
from orders import Orders, Ran, request
from served import TOP, read

pytestmark = pytest.mark.timeout(1200)  # (a loaded machine takes many times as long)

IS_FULL = os.environ.get("FARM_TEST_FULL") == "1"
EVERY, OF_ROWS, OF_SERVED = (1, 1, 1) if IS_FULL else (32, 16, 8)
FIRST_EDITION = os.path.join(TOP, "tests", "shared", "first_edition")
ADD_TYPE = request("POST", "/types", {"x-user": "admin", "x-key": "k1", "content-length": "14"}, b'{"name":"bbb"}')
STATUS = request("GET", "/status", {})


def answer(status: str, body: str) -> str:
    fields = f"content-type: application/json\r\ncontent-length: {len(body)}\r\nconnection: close\r\n"
    return f"HTTP/1.1 {status}\r\n{fields}\r\n{body}"


DONE = answer("200 OK", '{"number":0}')
FAULTS: Dict[Tuple[int, str], Tuple[str, ...]] = {
    (5, "farm: 1 no memory\n"): ("", answer("503 Service Unavailable", '{"code":1,"text":"no memory"}')),
    (4, "farm: 60 store fault\n"): ("", answer("503 Service Unavailable", '{"code":60,"text":"store fault"}')),
}


class Refused(NamedTuple):
    """A run in which a growth was refused, unless there weren't so many."""

    number: int
    is_refused: bool
    ran: Ran


class Refuser:
    """Runs the program with growths of memory refused."""

    def __init__(self, orders: Orders, library: str):
        self.orders, self.library = orders, library

    def run(self, number: int, words: str, given: bytes = b"") -> Refused:
        """The run of an order in which this growth is refused."""
        flag = self.orders.path(f"refused.{number}")
        around = {"REFUSE": str(number), "REFUSED": flag, "LD_PRELOAD": self.library}
        ran = self.orders.run(*words.split(), given=given, around=around)
        return Refused(number, os.path.exists(flag), ran)

    def runs(self, words: str, given: bytes, judge: Callable[[Refused], None], anew: Callable[[], None]) -> int:
        """Judges a run for each so manyth growth, over files that are made anew. How many growths there were."""
        number, judged = random.randrange(EVERY) + 1, set()
        while True:
            anew()
            run = self.run(number, words, given)
            # (the same end over the same files comes to the same)
            state = (run.ran, *((end, hashlib.sha256(held).digest()) for end, held in kept(self.orders)))
            if state not in judged:
                judge(run)
            judged.add(state)
            if not run.is_refused:
                assert number > EVERY, "no growth was refused"
                return number
            number += EVERY


@pytest.fixture
def folder() -> Iterator[str]:
    """A folder in memory, where there is one: nothing here is about what a disk keeps."""
    place = "/dev/shm" if os.access("/dev/shm", os.W_OK) else None
    with tempfile.TemporaryDirectory(dir=place) as room:
        yield room


@pytest.fixture
def refuser(program: str, folder: str, library: Callable[[str], str]) -> Refuser:
    return Refuser(Orders(program, folder), library("refuse"))


def demand_answer(run: Refused) -> None:
    """The command is done, or told as not done by an answer or by the line of the fault."""
    said = (run.ran.status, run.ran.errors)
    assert run.ran.output in (FAULTS.get(said, ()) if said != (0, "") else (DONE,)), run


def kept(orders: Orders) -> List[Tuple[str, bytes]]:
    """The files of a farm, if it is in files."""
    found = []
    for end in ("", "-wal"):
        if os.path.exists(orders.path(orders.db + end)):
            with open(orders.path(orders.db + end), "rb") as file:
                found.append((end, file.read()))
    return found


def put_back(orders: Orders, files: List[Tuple[str, bytes]]) -> None:
    for end, held in files:
        with open(orders.path(orders.db + end), "wb") as file:
            file.write(held)


def test_farm_in_memory(refuser: Refuser) -> None:
    """A request over a farm in memory."""
    refuser.runs("once --memory --at 1700000000", ADD_TYPE, demand_answer, lambda: None)


@pytest.mark.slow(5)
def test_farm_in_a_file(refuser: Refuser) -> None:
    """A request over a farm in a file: afterwards the command is in it or it isn't, and it is where that was
    answered. Sent again under its key, and once more, it is answered as if nothing had happened."""
    orders = refuser.orders
    orders.init()
    files = kept(orders)

    def judge(run: Refused) -> None:
        demand_answer(run)
        status = orders.look("/status")
        found = (status["count"], status["types"])
        assert found in ([(1, 1)] if run.ran.status == 0 else [(1, 1), (0, 0)]), run

    last = refuser.runs("once --db lab.db --at 1700000000", ADD_TYPE, judge, lambda: put_back(orders, files))
    put_back(orders, files)
    refuser.run(last // 2, "once --db lab.db --at 1700000000", ADD_TYPE)
    for moment in ("1700000002", "1700000003"):
        assert orders.run("once", "--db", "lab.db", "--at", moment, given=ADD_TYPE) == Ran(0, DONE, "")


@pytest.mark.slow(5)
def test_upgrade(refuser: Refuser) -> None:
    """An upgrade of a farm of the first edition is done, or ends with a fault's line; it is then done again, unless
    it was done, and shows what the first edition's program showed."""
    orders, files = refuser.orders, []
    for end in ("", "-wal"):
        with gzip.open(os.path.join(FIRST_EDITION, f"lab.db{end}.gz")) as packed:
            files.append((end, packed.read()))
    shown = read(os.path.join(FIRST_EDITION, "shown.txt"))
    boards = shown[shown.index("report boards\n") + len("report boards\n") : shown.index("report queue\n")]
    again, was_done = Ran(0, "migrated\n", ""), Ran(4, "", "farm: 64 new schema\n")
    may_be = {
        Ran(0, "migrated\n", ""): [was_done],
        **{Ran(status, "", told): [again, was_done] for status, told in FAULTS},
    }

    def judge(run: Refused) -> None:
        later = orders.run("migrate", "--db", "lab.db")
        assert later in may_be.get(run.ran, []), run
        assert orders.run("report", "--db", "lab.db", "boards") == Ran(0, boards, "")

    refuser.runs("migrate --db lab.db", b"", judge, lambda: put_back(orders, files))


@pytest.mark.slow(20)
@pytest.mark.parametrize("path", refused_serving.COMMANDS)
def test_served(path: str, program: str, folder: str, library: Callable[[str], str]) -> None:
    """A program that serves: the client of a command hears what it would with ample memory, or the answer of code 1
    or 60; a refusal in the middle of the change ends the program, and nothing of the command is in the file."""
    refused_serving.try_command(path, refused_serving.Served(program, library("refuse"), folder), OF_SERVED)


@pytest.mark.slow(20)
@pytest.mark.parametrize("file, name", refused_rows.ROWS)
def test_transcript(file: str, name: str, player: str, folder: str, library: Callable[[str], str]) -> None:
    """Rows of the player's, over a store in memory: through the keeper and in the files the farm is that before
    the command, or that after it, and a keeper that is closed answers nothing else."""
    refused_rows.try_row(file, name, player, library("refuse"), folder, OF_ROWS)
