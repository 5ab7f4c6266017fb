"""The example's site with its farm-door before a farm."""
from __future__ import annotations

import os
import subprocess
import sys
import tempfile
from typing import Any, Callable, Dict, List, Sequence, Tuple

from nginx_site import Site, write
from served import STARTED, TOOLS, TOP, Farm, ends_with_us, environment, read

WORDS = {
    "ann": "open sesame", "bob": "b", "ann.admin": "a", "dispatcher": "pass on", "dispatcher-2": "c", "dispatcher-3": "d",
}
RULES = """[limits]
open_reservations = 3
open_jobs = 4
jobs_an_hour = 6
[limits.few]
open_reservations = 1
[teams]
few = ["dispatcher-2", "dispatcher-3"]
[admins]
logins = ["ann.admin"]
"""
RESERVE = ("-d", '{"tags":[]}')
JOB = ("--data-binary", "job_name = 'x'\ndevice_type = 'bbb'\n")
HOOK = "# include /etc/nginx/farm-door.conf;"


class Door:
    """A site with its farm-door."""

    def __init__(
        self, farm: Farm, make_site: Callable[..., Site], folder: str, rules: str, login: str = "", changes: Sequence[Tuple[str, str]] = ()
    ):
        """`login` is what says who asks, where no password does; `changes` are the site's."""
        self.farm, self.folder = farm, folder
        self.room = tempfile.mkdtemp(prefix="door")  # (a socket's path is short)
        self.socket = os.path.join(self.room, "socket")
        write(folder, "door.toml", rules, 0o644)
        text = read(os.path.join(TOP, "examples", "nginx-door.conf")).replace("/run/farm-door/socket", self.socket)
        text = text.replace("/var/log/farm/audit.log", f"{folder}/audit.log")
        text = text.replace("/var/log/nginx/access.log farm_asked", f"{folder}/asked.log asked")
        changes = [*changes, (HOOK, f"include {folder}/nginx-door.conf;")]
        if login:
            text = text.replace("set $farm_name $remote_user;", f"set $farm_name {login};")
            changes.append(("auth_basic $farm_realm;", "auth_basic off;"))
        write(folder, "nginx-door.conf", text, 0o644)
        self.start()
        self.site = make_site(farm, *changes)

    def start(self) -> None:
        words = ["--rules", f"{self.folder}/door.toml", "--socket", self.socket, "--state", f"{self.folder}/kept.db"]
        with open(f"{self.folder}/door.log", "ab") as log:
            self.process = subprocess.Popen(
                [sys.executable, os.path.join(TOOLS, "farm-door"), *words, "--server", self.farm.server, "--group", "root"],
                stdout=subprocess.PIPE, stderr=log, env=environment(), preexec_fn=ends_with_us(),
            )
        STARTED.append(self.process)
        assert self.process.stdout is not None and self.process.stdout.readline()

    def kill(self) -> None:
        self.process.kill()
        self.process.communicate()

    def told(self, *words: str, user: str = "ann") -> Tuple[int, Any]:
        status, _, said = self.site.said(*words, user=user)
        return status, said

    def by_token(self, token: str, *words: str) -> Tuple[int, Any]:
        status, _, said = self.site.said("-H", f"authorization: Bearer {token}", *words, user="")
        return status, said

    def owners(self) -> List[str]:
        return [it["owner"] for it in self.farm.look("/reservations")["reservations"]]


def limit(text: str) -> Tuple[int, Dict[str, Any]]:
    return 429, {"code": 429, "text": text}
