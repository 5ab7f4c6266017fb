#!/usr/bin/env python3
"""Puts bugs into the tools, the Python package and the page, and looks whether the tests see them:
python3 tests/gate/bugs.py PROGRAM [NAME ..]

tests/bugs/NAME.edit is a bug: a line 'file: PATH', a line 'test: FILE::NAME' (below tests/) of the test
that has to fail for it, a line 'why: WORDS', and pairs of lines 'old: TEXT' and 'new: TEXT', of which each
old text stands once in the file. A line 'late: yes' says that the test was written since none saw the
bug. Each is put into a copy of the project, in which the test is run, which passes without it.
Prints a line a bug; the last is 'N passed, M failed, 0 skipped', where a bug that no test sees failed.
"""
from __future__ import annotations

import concurrent.futures
import os
import pathlib
import re
import shutil
import subprocess
import sys
import tempfile
from typing import Dict, List, NamedTuple, Tuple

TOP = pathlib.Path(__file__).resolve().parents[2]
BUGS = TOP / "tests/bugs"
PARTS = ("tools", "python", "tests", "docs", "examples", "bench", "packaging")


class BadBug(Exception):
    """A file that says no bug, and why."""


class Bug(NamedTuple):
    name: str
    file: str
    test: str
    why: str
    late: bool
    pairs: List[Tuple[str, str]]
    alone: bool = False


def bug_of(path: pathlib.Path) -> Bug:
    """The bug that a file says."""
    said: Dict[str, str] = {}
    pairs: List[Tuple[str, str]] = []
    old = None
    for line in path.read_text(encoding="utf-8").splitlines():
        kind, _, text = line.partition(": ") if ": " in line else (line.rstrip(":"), "", "")
        if kind == "old":
            old = text
        elif kind == "new" and old is not None:
            pairs.append((old, text))
            old = None
        elif kind in ("file", "test", "why", "late", "alone"):
            said[kind] = text
        elif line.strip():
            raise BadBug(f"{path.name}: what is {line!r}?")
    if not pairs or old is not None or not {"file", "test", "why"} <= said.keys():
        raise BadBug(f"{path.name}: it wants file, test, why, and pairs of old and new")
    marks = {it: said.get(it) == "yes" for it in ("late", "alone")}
    return Bug(path.stem, said["file"], said["test"], said["why"], pairs=pairs, **marks)


def with_bug(bug: Bug, text: str) -> str:
    """A file's text with the bug in it."""
    for old, new in bug.pairs:
        if text.count(old) != 1:
            raise BadBug(f"{bug.name}: {old!r} stands {text.count(old)} times in {bug.file}")
        text = text.replace(old, new)
    return text


def test_is_there(bug: Bug) -> bool:
    """Whether the test that a bug names is there."""
    file, _, name = bug.test.partition("::")
    path = TOP / "tests" / file
    head = re.escape(name.split("[")[0].split("::")[-1])
    return path.is_file() and bool(re.search(rf"(?m)^\s*def {head}\(", path.read_text(encoding="utf-8")))


def all_bugs() -> List[Bug]:
    return [bug_of(it) for it in sorted(BUGS.glob("*.edit"))]


def python_with_pytest() -> str:
    """This interpreter where it has pytest, or else Debian's."""
    words = [sys.executable, "-c", "import pytest"]
    return "/usr/bin/python3" if subprocess.run(words, stderr=subprocess.DEVNULL, check=False).returncode else sys.executable


def is_seen(bug: Bug, program: str) -> bool:
    """Whether the bug's test fails with it. Raises BadBug where it doesn't even run, or fails without it."""
    with tempfile.TemporaryDirectory() as folder:
        os.chmod(folder, 0o755)  # accounts of tests' labs read the copy
        copy = pathlib.Path(folder, "project")
        for part in PARTS:
            shutil.copytree(TOP / part, copy / part, symlinks=True, ignore=shutil.ignore_patterns("__pycache__"))
        words = ["-m", "pytest", "-q", f"tests/{bug.test}", "--farm", program]

        def ends() -> int:
            ran = subprocess.run(
                [python_with_pytest(), *words], cwd=copy, stdin=subprocess.DEVNULL, stdout=subprocess.DEVNULL,
                stderr=subprocess.DEVNULL, check=False,
            )
            return ran.returncode

        if ends() != 0:
            raise BadBug(f"{bug.name}: {bug.test} doesn't pass without it")
        file = copy / bug.file
        file.write_text(with_bug(bug, file.read_text(encoding="utf-8")), encoding="utf-8")
        status = ends()
        if status not in (0, 1):
            raise BadBug(f"{bug.name}: pytest ends with status {status}")
        return status == 1


def tried(bug: Bug, program: str) -> Tuple[bool, str]:
    try:
        seen = is_seen(bug, program)
    except BadBug as fault:
        return False, str(fault)
    late = ", a test that was written for it" if bug.late else ""
    return seen, f"{bug.name}: {'seen by' if seen else 'NOT SEEN by'} {bug.test}{late} ({bug.why})"


def main() -> int:
    program, names = os.path.realpath(sys.argv[1]), sys.argv[2:]
    bugs = [it for it in all_bugs() if not names or it.name in names]
    passed = 0
    with concurrent.futures.ThreadPoolExecutor(os.cpu_count()) as pool:
        for seen, line in pool.map(lambda it: tried(it, program), bugs):
            passed += seen
            print(line, flush=True)
    print(f"{passed} passed, {len(bugs) - passed} failed, 0 skipped")
    return 0 if passed == len(bugs) else 1


if __name__ == "__main__":
    sys.exit(main())
