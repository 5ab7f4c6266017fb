"""Commands of accounts beside root, which may not enter what root may."""
from __future__ import annotations

import os
import pathlib
from typing import List

import pytest
from served import TOP

# In a namespace of mounts of its own the closed folder $1 has nothing but the project $2, and may be entered.
OPENED = """\
set -e
mount --bind "$2" /mnt
mount -t tmpfs -o mode=755 tmpfs "$1"
mkdir -p "$2"
mount --bind /mnt "$2"
umount /mnt
shift 2
exec "$@"
"""


def that_sees_the_project(*words: str) -> List[str]:
    """A command of root's, which then becomes another account's and is to read the project, also where this lies in a
    folder that only root may enter, as in /root."""
    if not is_open(pathlib.Path(TOP, "tests", "pytest.ini"), pathlib.Path(TOP)):
        pytest.skip(f"accounts beside root may not read {TOP}: chmod -R go+rX {TOP}")
    closed = [it for it in reversed(pathlib.Path(TOP).parents) if not is_open(it)]
    return ["unshare", "--mount", "sh", "-c", OPENED, "sh", str(closed[0]), TOP, *words] if closed else list(words)


def is_open(*places: pathlib.Path) -> bool:
    """Whether everybody may enter these folders, and read these files."""
    return all(os.stat(it).st_mode & (0o001 if it.is_dir() else 0o004) for it in places)
