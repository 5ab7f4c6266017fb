"""What emulated boards and machines boot: a kernel, which is that of a package that tests/gate/unpack.sh unpacked, one that is
named by FARM_TEST_KERNEL, or this machine's own, where it may be read; and an initramfs with busybox's shell."""
from __future__ import annotations

import glob
import os
import pathlib
import shutil
import subprocess

import pytest

PACKAGE = "linux-image-cloud-amd64"


def unpacked() -> pathlib.Path:
    """Where the package's files are, if they are there: boot/vmlinuz-.., lib/modules/.."""
    caches = os.environ.get("XDG_CACHE_HOME") or os.path.expanduser("~/.cache")
    return pathlib.Path(os.environ.get("FARM_TEST_CACHE") or os.path.join(caches, "fizgruk-tests")) / PACKAGE


def kernel() -> str:
    """The path of a kernel; skips the test where there is none."""
    named = os.environ.get("FARM_TEST_KERNEL")
    places = [str(unpacked() / "boot"), "/boot"]
    found = [named] if named else [it for place in places for it in sorted(glob.glob(f"{place}/vmlinuz-*"), reverse=True)]
    readable = [it for it in found if os.access(it, os.R_OK)]
    if not readable:
        pytest.skip("there is no kernel that may be read, unpacked (tests/gate/unpack.sh), in /boot or named by FARM_TEST_KERNEL")
    return readable[0]


def make_initramfs(folder: str, init: str, file: str) -> None:
    """Makes a file of this text of a first program, in a folder for what is in it."""
    for name in ("bin", "proc", "sys", "dev"):
        os.makedirs(os.path.join(folder, name))
    shutil.copy(str(shutil.which("busybox")), os.path.join(folder, "bin"))
    first = pathlib.Path(folder, "init")
    first.write_text(init, encoding="utf-8")
    first.chmod(0o755)
    subprocess.run(["sh", "-c", 'find . | cpio -o -H newc --quiet | gzip -1 > "$0"', file], cwd=folder, check=True)
