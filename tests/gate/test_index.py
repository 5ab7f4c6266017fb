"""The index of tests/README.md has each file by its first line."""
from __future__ import annotations

import os
import subprocess
import sys

from served import TOP


def test_the_index_is_as_the_files_say() -> None:
    ran = subprocess.run([sys.executable, os.path.join(TOP, "tests/gate/index.py"), "--check"], check=False)
    assert ran.returncode == 0, "python3 tests/gate/index.py writes it anew"
