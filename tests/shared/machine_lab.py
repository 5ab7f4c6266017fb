"""A machine of its own whose desk has boards, and whose dispatcher runs the jobs that are submitted."""
from __future__ import annotations

import contextlib
import json
import os
import re
import time
from typing import Any, Iterator, List

from machine import Machine
from served import PATIENCE, TOP

BOARDS = ("b1", "b2", "b3")
PLACE = "/var/lib/farm-dispatch"
# Runs the text `run` of a job.
COMMAND = """#!/usr/bin/python3
import os, tomllib
with open(os.environ["FARM_JOB_FILE"], "rb") as text:
    os.execv("/bin/sh", ["sh", "-c", tomllib.load(text).get("run", "true")])
"""
PASSWORD = "/etc/farm/dispatch.password"
MORE = "/etc/systemd/system/farm-job-.service.d"


class MachineLab:
    """A machine whose desk has boards and whose dispatcher runs jobs."""

    def __init__(self, machine: Machine):
        self.machine = machine
        machine.serve()
        machine.write("/etc/farm/run-job", COMMAND, 0o755)
        machine.write(PASSWORD, "open sesame\n", 0o600)
        machine.run("chown", "farm-dispatch", PASSWORD)
        self.tell("admin", "/types", {"name": "bbb"})
        for name in BOARDS:
            self.tell("admin", "/boards", {"name": name, "type": "bbb", "tags": []})
            self.tell("admin", f"/boards/{name}/health", {"health": "Good"})
        machine.run("systemctl", "start", "farm-dispatch")

    def tell(self, user: str, path: str, body: Any = None) -> Any:
        sent = ["--data-binary", body if isinstance(body, str) else json.dumps(body)] if body is not None else ["-X", "POST"]
        return json.loads(self.machine.run(*self.machine.curl(user, path, *sent)).stdout)

    def look(self, path: str) -> Any:
        return json.loads(self.machine.run(*self.machine.curl("ann", path)).stdout)

    def submit(self, run: str, more: str = "") -> int:
        text = f"job_name = 'test'\ndevice_type = 'bbb'\nrun = '''\n{run}\n'''\n{more}"
        return int(self.tell("ann", "/jobs", text)["number"])

    def finished(self, number: int, limit: float = PATIENCE) -> str:
        until, pause = time.monotonic() + limit, 0.1
        while True:
            view = self.look(f"/jobs/{number}")
            if view["state"] == "Finished":
                return str(view["result"])
            assert time.monotonic() < until, f"job {number} is {view['state']}: {self.machine.journal('farm-dispatch')}"
            time.sleep(pause)
            pause = min(pause * 1.2, 0.5)

    def folder(self, number: int, name: str = "") -> str:
        """A file in a job's own folder, while it is there."""
        found = self.machine.wait("its folder", "sh", "-c", f"ls -d /var/lib/private/farm-job/farm-job-*-{number}-*")
        return os.path.join(found.strip(), name)

    def log(self, number: int) -> str:
        return self.machine.run("cat", f"{PLACE}/logs/{number}").stdout

    def said(self, number: int, words: str) -> None:
        self.machine.wait(f"job {number} says {words}", "grep", words, f"{PLACE}/logs/{number}")

    def ran(self, run: str, more: str = "") -> str:
        """What a job says that ends well."""
        number = self.submit(run, more)
        assert self.finished(number) == "Complete", self.log(number)
        return self.log(number)

    def processes(self, words: str) -> List[str]:
        return self.machine.run("pgrep", "-f", words, check=False).stdout.split()

    @contextlib.contextmanager
    def jobs_with(self, *needs: str) -> Iterator[None]:
        """Gives jobs what docs/setting-up.md adds to their unit for these needs."""
        self.machine.write(f"{MORE}/test.conf", "".join(["[Service]\n", *map(lines_for, needs)]))
        self.machine.run("systemctl", "daemon-reload")
        try:
            yield
        finally:
            self.machine.run("rm", f"{MORE}/test.conf")
            self.machine.run("systemctl", "daemon-reload")


def lines_for(need: str) -> str:
    """The lines below a comment in docs/setting-up.md that names a need of jobs."""
    with open(os.path.join(TOP, "docs/setting-up.md"), encoding="utf-8") as text:
        found = re.findall(rf"^    # [^\n]*{need}[^\n]*\n((?:    \w+=[^\n]*\n)+)", text.read(), re.MULTILINE)
    assert len(found) == 1, found
    return re.sub("^    ", "", str(found[0]), flags=re.MULTILINE)
