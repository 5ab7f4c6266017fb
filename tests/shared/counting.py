"""How `make coverage` (tests/gate/coverage.sh) counts also what begins without the tests' environment: with one of its own,
behind an sshd, or in a machine of its own. Where nothing is counted all of this is empty."""
from __future__ import annotations

import contextlib
import os
import signal
import site
from typing import Dict

SETTINGS = os.environ.get("COVERAGE_PROCESS_START", "")
FOLDER = os.path.dirname(SETTINGS)
# What is in the environment of a process that counts, as env takes it.
AROUND = [f"{it}={os.environ[it]}" for it in ("COVERAGE_PROCESS_START", "PYTHONUSERBASE") if SETTINGS]
THERE = "/counted"  # where a machine of its own has the folder
UNITS = "[Service]\nReadWritePaths=-{0}/counts\n"


def lines(folder: str = FOLDER, settings: str = SETTINGS) -> str:
    """The lines by which a program in Python begins to count."""
    lines = f"import sys\nsys.path.append({folder!r})\nimport counted\nsys.path.pop()\ncounted.begin({settings!r})\n"
    return lines if settings else ""


def files_of_a_machine() -> Dict[str, str]:
    """The files by which all programs in Python of a machine count, and each unit may keep what it counted."""
    if not SETTINGS:
        return {}
    with open(SETTINGS, encoding="utf-8") as file:
        settings = file.read().replace(FOLDER, THERE)
    return {
        "/etc/counted": settings,
        os.path.join(site.getsitepackages()[0], "usercustomize.py"): lines(THERE, "/etc/counted"),
        "/etc/systemd/system/service.d/counted.conf": UNITS.format(THERE),
    }


def keep(group: str) -> None:
    """Lets all processes of a cgroup keep what they counted, before they are killed."""
    if not SETTINGS:
        return
    from counted import ask

    for it in filter(str.isdigit, os.listdir("/proc")):
        with contextlib.suppress(OSError), open(f"/proc/{it}/cgroup", encoding="utf-8") as file:
            if f"/{group}/" in file.read():
                ask(int(it), signal.SIGKILL)
