"""What the tests of faults share: the folder of the scripts that are run longer by hand, and preloaded libraries."""
from __future__ import annotations

import os
import sys
from typing import Callable

import pytest

import libraries

FOLDER = os.path.dirname(os.path.abspath(__file__))
sys.path.append(FOLDER)


@pytest.fixture(scope="session")
def library(tmp_path_factory: pytest.TempPathFactory) -> Callable[[str], str]:
    """The preloaded library of a source of this folder, by its name."""

    def made(name: str) -> str:
        return libraries.made(os.path.join(FOLDER, f"{name}.c"), str(tmp_path_factory.mktemp(name)))

    return made
