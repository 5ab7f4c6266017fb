"""The patch that makes a next version of the tables still applies; tests/gate/next_version.py tries what it makes,
by hand."""
from __future__ import annotations

import os
import subprocess

from served import TOP
from wants import wants


def test_the_patch_applies() -> None:
    wants("git")
    words = ["git", "apply", "--check", "tests/next/location.patch"]
    around = {**os.environ, "GIT_CEILING_DIRECTORIES": os.path.dirname(TOP)}
    ran = subprocess.run(words, cwd=TOP, env=around, capture_output=True, text=True, check=False)
    assert (ran.returncode, ran.stderr) == (0, "")
