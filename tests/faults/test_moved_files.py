"""A farm's files are moved, removed, replaced or cut while a program serves it, as an admin might by mistake.

The next command isn't told as done, since what is written then is lost, and the program ends with status 4 and
the line of the fault. Where the files are only read, or left alone, it goes on."""
from __future__ import annotations

import os
import pathlib
import shutil
import subprocess
from typing import Callable, Dict

import pytest

from orders import Orders
from served import Farm

MakeFarm = Callable[..., Farm]
# So many commands are done first, which makes the log longer than that of a new farm.
FEW = 20
# After so many commands the log was copied into the file, and begun anew.
MANY = 3000


@pytest.fixture
def farm(make_farm: MakeFarm, folder: str) -> Farm:
    """A served farm of a folder of its own, with some types."""
    place = os.path.join(folder, "lab")
    os.mkdir(place)
    served = make_farm(place=place)
    for number in range(FEW):
        served.tell("admin", "/types", {"name": f"t{number}"})
    return served


@pytest.fixture
def other(program: str, tmp_path_factory: pytest.TempPathFactory) -> str:
    """The file of another farm, which is new."""
    place = str(tmp_path_factory.mktemp("other"))
    Orders(program, place, "farm.db").init()
    return os.path.join(place, "farm.db")


def copy_over(source: str, target: str) -> None:
    """Writes a file's bytes into another, which stays the file that it is."""
    with open(source, "rb") as read, open(target, "r+b") as written:
        written.truncate()
        shutil.copyfileobj(read, written)


def copy_both_over(db: str, other: str) -> None:
    for end in ("", "-wal"):
        copy_over(other + end, db + end)


# What is done to a farm's two files; `other` is another farm's file.
TAKEN: Dict[str, Callable[[str, str], object]] = {
    "the file is moved away": lambda db, other: os.rename(db, f"{db}.old"),
    "the log is moved away": lambda db, other: os.rename(f"{db}-wal", f"{db}.old"),
    "the folder is moved away": lambda db, other: os.rename(os.path.dirname(db), f"{os.path.dirname(db)}.old"),
    "the file is removed": lambda db, other: os.remove(db),
    "the log is removed": lambda db, other: os.remove(f"{db}-wal"),
    "the file is replaced by another farm's": lambda db, other: os.rename(other, db),
    "the log is replaced by another farm's": lambda db, other: os.rename(f"{other}-wal", f"{db}-wal"),
    "the file is cut to nothing": lambda db, other: os.truncate(db, 0),
    "the log is cut to nothing": lambda db, other: os.truncate(f"{db}-wal", 0),
    "both are overwritten with a new farm's": copy_both_over,
}


@pytest.mark.parametrize("what", TAKEN)
def test_taken(what: str, farm: Farm, other: str) -> None:
    """The next command is refused unread, and the serving ends with the fault."""
    TAKEN[what](farm.db, other)
    assert farm.ask("admin", "POST", "/types", {"name": "after"}) == (503, {"code": 60, "text": "store fault"})
    output, errors = farm.process.communicate(timeout=60)
    assert (farm.process.returncode, output, errors) == (4, b"", b"farm: 60 store fault\n")


def demand_goes_on(farm: Farm, folder: str) -> None:
    """The next commands are done, and are in the file once the program is gone."""
    for name in ("after", "later"):
        farm.tell("admin", "/types", {"name": name})
    assert farm.process.poll() is None
    farm.kill()
    assert Orders(farm.program, folder, farm.db).look("/status")["types"] == FEW + 2


def test_copied(farm: Farm, folder: str) -> None:
    """The serving goes on where the files are copied."""
    for end in ("", "-wal"):
        shutil.copy2(farm.db + end, folder)
    demand_goes_on(farm, folder)


def test_second_program(farm: Farm, folder: str) -> None:
    """The serving goes on where a second program was refused."""
    words = [farm.program, "report", "--db", farm.db, "queue"]
    assert subprocess.run(words, capture_output=True, check=False).returncode == 4
    demand_goes_on(farm, folder)


@pytest.mark.slow(15)
@pytest.mark.timeout(1800)
def test_carried_log(farm: Farm, folder: str) -> None:
    """The serving goes on where it has carried the log into the file itself."""
    before = os.stat(farm.db).st_mtime_ns
    farm.tell("admin", "/boards", {"name": "b1", "type": "t0"})
    for number in range(MANY):
        farm.tell("admin", "/boards/b1/tags", {"tags": [f"n{number}"]})
    assert os.stat(farm.db).st_mtime_ns != before
    demand_goes_on(farm, folder)


def test_link(make_farm: MakeFarm, folder: str) -> None:
    """The serving goes on where the path is a link, whether or not something else is done."""
    away = pathlib.Path(folder, "away")
    away.mkdir()
    away.joinpath("farm.db").touch()
    os.symlink("away/farm.db", os.path.join(folder, "farm.db"))
    farm = make_farm(place=folder)
    assert away.joinpath("farm.db-wal").exists()
    for number in range(FEW):
        farm.tell("admin", "/types", {"name": f"t{number}"})
    demand_goes_on(farm, folder)
