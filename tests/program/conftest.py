"""What the tests of the program share: its orders over a farm's file, in a folder of the test's own, and its packages."""
from __future__ import annotations

import fcntl
import os
import pathlib
import subprocess

import pytest

from orders import Orders
from served import TOP
from wants import lacks


@pytest.fixture
def orders(program: str, folder: str) -> Orders:
    return Orders(program, folder)


@pytest.fixture(scope="session")
def packages(program: str, tmp_path_factory: pytest.TempPathFactory) -> str:
    """The folder that has the packages of the program, and nothing else. They are built once for all processes of a run."""
    place = tmp_path_factory.getbasetemp()
    if "PYTEST_XDIST_WORKER" in os.environ:
        place = place.parent
    folder, said = place / "packages", place / "packages.said"
    with open(place / "packages.lock", "wb") as lock:
        fcntl.flock(lock, fcntl.LOCK_EX)
        if not said.exists():
            _build(program, folder, said)
    told = said.read_text(encoding="utf-8")
    if "not built, since" in told:
        lacks(told.strip())
    assert "can't be built" not in told, told
    return str(folder)


def _build(program: str, folder: pathlib.Path, said: pathlib.Path) -> None:
    folder.mkdir()
    words = ["sh", os.path.join(TOP, "packaging", "build.sh"), program, str(folder)]
    # (which is how they are packed, and packing them tightly takes as long as all the rest)
    packs = {"DPKG_DEB_COMPRESSOR_TYPE": "gzip", "DPKG_DEB_COMPRESSOR_LEVEL": "1"}
    ran = subprocess.run(
        words, stdout=subprocess.PIPE, stderr=subprocess.STDOUT, text=True, check=False, env={**os.environ, **packs}
    )
    said.write_text(ran.stdout, encoding="utf-8")
