"""What kills.py and power_cuts.py show, a little of it; by hand they run longer."""
from __future__ import annotations

from typing import Callable

import pytest

import kills
import power_cuts

pytestmark = pytest.mark.timeout(1200)  # (a loaded machine takes many times as long)


@pytest.mark.slow(30)
def test_kills(program: str, folder: str) -> None:
    """A serving program is killed again and again: what was answered is kept, and what wasn't is done once."""
    kills.main(program, 100, folder)


@pytest.mark.slow(30)
def test_power_cuts(program: str, library: Callable[[str], str]) -> None:
    """The power is cut at places by chance: each farm that is left is the one after some command, no fewer than
    had been answered."""
    assert power_cuts.main(program, library("record"), 100, 20261124, 10) >= 100
