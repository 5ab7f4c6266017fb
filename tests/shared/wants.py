"""What a test wants of the machine: it skips, and says why, where that is missing."""
from __future__ import annotations

import functools
import importlib.util
import shutil
import subprocess
import sys
from typing import NoReturn, Optional

import pytest

DEBIANS = "/usr/bin/python3"
HAS = "import sys, importlib.util as it; sys.exit(not all(it.find_spec(m) for m in sys.argv[1:]))"


NO_PACKAGE = "which no package gives"


def lacks(what: str) -> NoReturn:
    """Skips the test since the machine lacks something that can't be installed, as a right or a part of the kernel;
    FARM_STRICT=1 lets that pass."""
    pytest.skip(f"{what}, {NO_PACKAGE}")


def wants(*programs: str) -> None:
    """Skips the test unless all these programs are there."""
    missing = [it for it in programs if shutil.which(it, path=None) is None and not shutil.which(it, path="/usr/sbin:/sbin")]
    if missing:
        pytest.skip(f"there is no {', no '.join(missing)}")


def wants_modules(*modules: str) -> None:
    """Skips the test unless this Python has all these modules."""
    missing = [it for it in modules if importlib.util.find_spec(it) is None]
    if missing:
        pytest.skip(f"this Python has no {', no '.join(missing)}")


@functools.lru_cache(None)
def python_with(*modules: str) -> Optional[str]:
    """An interpreter that has these modules, this one or Debian's, or None."""
    for it in (sys.executable, DEBIANS):
        words = [it, "-c", HAS, *modules]
        if shutil.which(it) and subprocess.run(words, check=False, stdin=subprocess.DEVNULL).returncode == 0:
            return it
    return None


def wants_python_with(*modules: str) -> str:
    """An interpreter that has these modules; skips the test where there is none."""
    found = python_with(*modules)
    if found is None:
        pytest.skip(f"no Python here has {' and '.join(modules)}")
    return found
