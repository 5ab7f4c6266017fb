"""What linters say of the files of the project: nothing."""
from __future__ import annotations

import os
import pathlib
import subprocess

import pytest
from served import TOP
from wants import wants, wants_python_with

SHELLS = ("#!/bin/sh", "#!/bin/bash", "#!/usr/bin/env bash")
# What mypy reads, all at once. (Of tests/gate these are what the others import.)
TYPED = (
    "tools/farm_access", "tools/farm_backup", "tools/farm_dispatch", "tools/farm_door", "tools/farm_import",
    "tools/farm_metrics", "tools/farm_page", "tools/farm_watch", "python/src/fizgruk", "tests/unit", "tests/tools",
    "tests/by_hand/lab_days.py", "tests/by_hand/lab_week", "tests/by_hand/page_pictures.py", "tests/by_hand/racks_kills.py",
    "tests/security", "tests/gate/counted.py", "tests/gate/functions.py", "tests/gate/next_version.py",
    "tests/gate/toolchain.py", "tests/gate/waves.py", "tests/gate/waves_test.py",
)
# Where the tests find what they import, as pytest.ini says. (Modules of other folders are named by these, so that two may
# have one name.)
IMPORTED = ("tools", "python/src", "bench", "tests/shared", "tests/tools", "tests/gate", "tests/by_hand")


def files_of_the_project() -> list[pathlib.Path]:
    """The files that git keeps, and new ones that it doesn't ignore; in a copy without git all of them."""
    words = ["git", "-C", TOP, "ls-files", "-co", "--exclude-standard"]
    try:
        listed = subprocess.run(words, capture_output=True, text=True, check=True).stdout.splitlines()
    except (OSError, subprocess.CalledProcessError):
        listed = [str(it.relative_to(TOP)) for it in pathlib.Path(TOP).rglob("*") if not {"out", "__pycache__"} & set(it.parts)]
    return [it for it in (pathlib.Path(TOP, name) for name in listed) if it.is_file()]


def first_line(file: pathlib.Path) -> str:
    with open(file, "rb") as opened:
        return opened.readline(200).decode(errors="replace").rstrip("\n")


def said(*words: object, **more: str) -> str:
    """What a linter prints, with more in its environment, where it ends with another status than 0."""
    ran = subprocess.run(
        [str(it) for it in words], cwd=TOP, stdin=subprocess.DEVNULL, stdout=subprocess.PIPE,
        stderr=subprocess.STDOUT, text=True, check=False, env={**os.environ, **more},
    )
    return ran.stdout if ran.returncode else ""


def test_flake8_finds_nothing_in_python() -> None:
    python = wants_python_with("flake8")
    files = [it for it in files_of_the_project() if it.suffix == ".py" or "python3" in first_line(it)]
    assert len(files) > 50
    assert said(python, "-m", "flake8", *files) == ""


def test_shellcheck_finds_nothing_in_shell_scripts() -> None:
    wants("shellcheck")
    files = [it for it in files_of_the_project() if it.suffix == ".sh" or first_line(it) in SHELLS]
    assert len(files) > 10
    assert said("shellcheck", "--severity=warning", *files) == ""


@pytest.mark.slow(40)
@pytest.mark.timeout(3600)
def test_mypy_finds_no_wrong_type() -> None:
    python = wants_python_with("mypy")
    path = ":".join(os.path.join(TOP, it) for it in IMPORTED)
    words = ["--strict", "--namespace-packages", "--explicit-package-bases", "--cache-dir", os.devnull]
    assert said(python, "-m", "mypy", *words, *TYPED, MYPYPATH=path) == ""
