"""The bugs of tests/bugs and the wrong bodies of tests/edge can still be put in, and their tests are there; bugs.py
and edge.py try them, by hand."""
from __future__ import annotations

import bugs
import edge
import pytest

BUGS = [*bugs.all_bugs(), *edge.all_bodies()]


@pytest.mark.parametrize("bug", BUGS, ids=[it.name for it in BUGS])
def test_the_bug_applies(bug: bugs.Bug) -> None:
    text = (bugs.TOP / bug.file).read_text(encoding="utf-8")
    assert bugs.with_bug(bug, text) != text
    assert bugs.test_is_there(bug), bug.test
