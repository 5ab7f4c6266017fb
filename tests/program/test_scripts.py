"""The scripts of this folder that stay such: each ends with what it left out, and how many of its parts it showed."""
from __future__ import annotations

import os
import re
import subprocess
from typing import Callable

import pytest

from served import environment

pytestmark = pytest.mark.timeout(1200)  # (a loaded machine takes many times as long)

FOLDER = os.path.dirname(os.path.abspath(__file__))
SECONDS = {"mistakes.sh": 10, "package.sh": 30, "statuses.sh": 10, "upgrade.sh": 20}


@pytest.mark.parametrize("name", [pytest.param(it, marks=pytest.mark.slow(SECONDS[it])) for it in SECONDS])
def test_script(name: str, program: str, request: pytest.FixtureRequest, record_property: Callable[[str, object], None]) -> None:
    words = ["sh", os.path.join(FOLDER, name), program]
    if name == "package.sh":
        words.append(request.getfixturevalue("packages"))
    ran = subprocess.run(
        words, stdin=subprocess.DEVNULL, stdout=subprocess.PIPE, stderr=subprocess.STDOUT, text=True, check=False,
        env=environment(),
    )
    assert ran.returncode == 0, ran.stdout[-2000:]
    *said, last = ran.stdout.splitlines()
    counts = re.fullmatch(r"(\d+) passed, 0 failed, (\d+) skipped", last)
    assert counts, ran.stdout[-2000:]
    left_out = re.findall(r"([^(]+ \([^)]*\))(?:, |$)", said[-1].partition("not tried: ")[2])
    assert len(left_out) == int(counts.group(2)), said[-1]
    if counts.group(1) == "0":
        pytest.skip(", ".join(left_out))
    for it in left_out:
        record_property("not tried", f"{name}: {it}")
