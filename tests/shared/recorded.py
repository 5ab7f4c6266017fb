"""What a tool writes and syncs: each write, change of length, sync and removal of a file (tests/faults/record.c,
preloaded into it)."""
from __future__ import annotations

import atexit
import functools
import os
import shutil
import struct
import subprocess
import sys
import tempfile
from typing import List, NamedTuple, Sequence, Set

import libraries
from served import TOOLS, TOP, environment

NUMBERS = struct.Struct("=3Q")


class Entry(NamedTuple):
    """A part of a record: 'w' a write, 't' a change of length, 's' a sync or 'u' a removal of a path."""

    what: str
    path: str
    offset: int
    data: bytes


@functools.lru_cache(None)
def recorder() -> str:
    """The path of the library that writes the record; skips the test where it can't be made."""
    folder = tempfile.mkdtemp()
    atexit.register(shutil.rmtree, folder, ignore_errors=True)
    return libraries.made(f"{TOP}/tests/faults/record.c", folder)


def entries_in(record: str) -> List[Entry]:
    """The entries of a record, in their order."""
    with open(record, "rb") as file:
        held = file.read()
    found, at = [], 0
    while at < len(held):
        what = held[at : at + 1].decode()
        length, offset, count = NUMBERS.unpack_from(held, at + 1)
        path = at + 1 + NUMBERS.size
        data = path + length
        at = data + (count if what == "w" else 0)
        found.append(Entry(what, held[path:data].decode(), offset, held[data:at]))
    return found


def recorded(words: Sequence[str], prefix: str) -> List[Entry]:
    """What a tool, or Python with a program (`-c TEXT ..`), writes to files whose paths begin so. It has
    to end with 0."""
    command = list(words) if words[0] == "-c" else [os.path.join(TOOLS, words[0]), *words[1:]]
    with tempfile.TemporaryDirectory() as folder:
        record = os.path.join(folder, "record")
        more = {"LD_PRELOAD": recorder(), "RECORD": record, "RECORDED": prefix}
        ran = subprocess.run(
            [sys.executable, *command], capture_output=True, text=True, timeout=120, check=False,
            env={**environment(), **more},
        )
        assert ran.returncode == 0, ran.stderr
        return entries_in(record)


def synced(entries: Sequence[Entry]) -> Set[str]:
    """The paths that were synced, and not written since."""
    found: Set[str] = set()
    for it in entries:
        if it.what == "s":
            found.add(it.path)
        else:
            found.discard(it.path)
    return found
