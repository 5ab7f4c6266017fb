"""A lab on several machines: the desk's and others that run jobs, each with a systemd of its own (machine.py), joined by a
bridge, with an sshd each by which the desk's dispatcher reaches them as docs/setting-up.md says."""
from __future__ import annotations

import json
import os
import secrets
import shutil
import subprocess
from typing import Any, Dict, List, Sequence


from machine import Machine
from served import PATIENCE, STARTED
from wants import wants

PLACE = "/var/lib/farm-dispatch"
NAMES = ("rack1", "rack2")
# Runs the line `run = '..'` of a job's text, and notes in a file of all jobs that it was begun, and whether a process of an
# earlier job lives that had its board: all processes of a job have the board's lock open.
COMMAND = """#!/bin/bash
echo "$FARM_JOB $INVOCATION_ID $FARM_BOARDS" >> /var/begun/jobs
exec 9>> "/var/begun/lock-$FARM_BOARD"
flock -n 9 || echo "$FARM_JOB beside another on $FARM_BOARD" >> /var/begun/faults
run=$(sed -n "s/^run = '\\(.*\\)'$/\\1/p" job.toml)
exec bash -c "${run:-true}"
"""
LAB = "[Service]\nReadWritePaths=/var/begun\nUMask=0000\n"
SSHD = """\
Port 22
HostKey /etc/ssh/lab_key
PermitRootLogin forced-commands-only
PasswordAuthentication no
MaxSessions 50
MaxStartups 100
ClientAliveInterval 5
ClientAliveCountMax 2
UsePAM no
PidFile none
"""
SETTINGS = "Host *\n  IdentityFile ~/.ssh/id\n  UserKnownHostsFile ~/.ssh/known\n  StrictHostKeyChecking yes\n"


class Racks:
    """The machines, with three boards each: rack1-1 hangs at rack1, desk-1 at the desk's own."""

    def __init__(self, folder: str, program: str, names: Sequence[str] = NAMES):
        wants("sshd", "ssh-keygen")
        self.folder, self.program = folder, program
        self.key, self.host_key = (self._key(it) for it in ("id", "host"))
        self.desk = self.boot("desk")
        self.racks: Dict[str, Machine] = {}
        try:
            self.desk.run("sh", "-c", "ip link add br0 type bridge && ip addr add 10.9.0.1/24 dev br0 && ip link set br0 up")
            for place, name in enumerate(names, 2):
                self.join(name, place)
            self._set_up_dispatcher()
            self.desk.serve()
            self.tell("admin", "/types", {"name": "bbb"})
            for name in ("desk", *names):
                for it in (1, 2, 3):
                    self.board(f"{name}-{it}", [] if name == "desk" else [f"worker={name}"])
        except BaseException:
            self.end()
            raise

    def _key(self, name: str) -> str:
        file = os.path.join(self.folder, name)
        subprocess.run(["ssh-keygen", "-qN", "", "-t", "ed25519", "-f", file], check=True)
        return file

    def boot(self, name: str) -> Machine:
        place = os.path.join(self.folder, name)
        os.makedirs(place)
        found = Machine(place, self.program)
        STARTED.remove(found.process)  # (it may last longer than a test)
        boot = "cat /proc/sys/kernel/random/uuid > /run/boot && mount --bind /run/boot /proc/sys/kernel/random/boot_id"
        identity = os.path.join(self.folder, f"{name}.machine-id")
        if not os.path.exists(identity):
            with open(identity, "w", encoding="ascii") as file:
                file.write(f"{secrets.token_hex(16)}\n")
        found.write("/etc/machine-id", text_of(identity))
        found.run("sh", "-c", f"hostname {name}; {boot}")
        found.run("sh", "-c", "mkdir -p /var/begun && chmod 777 /var/begun; cd /var/begun && touch jobs faults && chmod 666 *")
        found.write("/etc/farm/run-job", COMMAND, 0o755)
        found.write("/etc/farm/check-board", "#!/bin/sh\ntrue\n", 0o755)
        found.write("/etc/systemd/system/farm-job-.service.d/lab.conf", LAB)
        found.run("systemctl", "daemon-reload")
        return found

    def join(self, name: str, place: int) -> Machine:
        """Boots a machine that runs jobs, and joins it to the desk's."""
        found = self.racks[name] = self.boot(name)
        around = ["nsenter", "-t", str(self.desk.first), "-n", "ip", "link"]
        self.desk.run("ip", "link", "del", name, check=False)
        subprocess.run([*around, "add", name, "type", "veth", "peer", "name", f"p{name}"], check=True)
        subprocess.run([*around, "set", f"p{name}", "netns", str(found.first)], check=True)
        self.desk.run("sh", "-c", f"ip link set {name} master br0 && ip link set {name} up")
        address = f"ip addr add 10.9.0.{place}/24 dev eth0 && ip link set eth0 up"
        found.run("sh", "-c", f"ip link set p{name} name eth0 && {address}")
        found.write("/etc/ssh/lab_key", text_of(self.host_key), 0o600)
        found.write("/etc/ssh/lab_config", SSHD)
        allowed = f'restrict,command="/usr/local/lib/farm-tools/farm-worker" {text_of(f"{self.key}.pub")}'
        found.write("/root/.ssh/authorized_keys", allowed, 0o600)
        found.run("sh", "-c", "chmod 700 /root /root/.ssh; mkdir -p /run/sshd; systemctl start farm-worker.service")
        sshd = ["systemd-run", "-q", "--unit=lab-sshd", "-p", "KillMode=process"]
        found.run(*sshd, "/usr/sbin/sshd", "-D", "-e", "-f", "/etc/ssh/lab_config")
        return found

    def again(self, name: str) -> None:
        """Boots a machine that was ended, with nothing of what it had but its identity."""
        place = 2 + list(self.racks).index(name)
        shutil.rmtree(os.path.join(self.folder, name))
        self.join(name, place)

    def _set_up_dispatcher(self) -> None:
        desk, ssh = self.desk, f"{PLACE}/.ssh"
        host = text_of(f"{self.host_key}.pub")
        desk.write(f"{ssh}/id", text_of(self.key), 0o600)
        desk.write(f"{ssh}/known", "".join(f"10.9.0.{it} {host}" for it in range(2, 2 + len(self.racks))))
        desk.write(f"{ssh}/config", SETTINGS)
        rows = "".join(f"{name} = 'root@10.9.0.{place}'\n" for place, name in enumerate(self.racks, 2))
        desk.write("/etc/farm/workers.toml", f"[workers]\n{rows}")
        own = "[Service]\nExecStart=\nExecStart=/usr/local/bin/farm-dispatch --every 1 --grace 3\nRestartSec=0.1\n"
        own += f"StandardOutput=append:{PLACE}/said\nStandardError=append:{PLACE}/said\n"
        desk.write("/etc/systemd/system/farm-dispatch.service.d/lab.conf", own)
        desk.run("sh", "-c", f"chown -R farm-dispatch:farm-dispatch {PLACE}; systemctl daemon-reload")
        desk.run("systemctl", "start", "farm-worker.socket", "farm-worker.service")

    def machines(self) -> Dict[str, Machine]:
        return {"desk": self.desk, **self.racks}

    def cut(self, name: str, is_up: bool = False) -> None:
        """Cuts a machine's network, or joins it again."""
        self.desk.run("ip", "link", "set", name, "up" if is_up else "down")

    # ---- the desk

    def tell(self, user: str, path: str, body: Any = None) -> Dict[str, Any]:
        text = body if isinstance(body, str) else json.dumps(body)
        sent = ["--data-binary", text] if body is not None else ["-X", "POST"]
        return dict(json.loads(self.desk.run(*self.desk.curl(user, path, *sent)).stdout))

    def look(self, path: str) -> Dict[str, Any]:
        return dict(json.loads(self.desk.run(*self.desk.curl("ann", path)).stdout))

    def board(self, name: str, tags: List[str]) -> None:
        self.tell("admin", "/boards", {"name": name, "type": "bbb", "tags": tags})
        self.tell("admin", f"/boards/{name}/health", {"health": "Good"})

    def submit(self, run: str, rack: str = "", more: str = "") -> int:
        tag = f"tags = ['worker={rack}']\n" if rack and rack != "desk" else ""
        tag = "tags = ['name=desk-1']\n" if rack == "desk" else tag
        return int(self.tell("ann", "/jobs", f"job_name = 'test'\ndevice_type = 'bbb'\n{tag}run = '{run}'\n{more}")["number"])

    def state(self, number: int) -> str:
        view = self.look(f"/jobs/{number}")
        return str(view["result"] if view["state"] == "Finished" else view["state"])

    def finished(self, number: int, limit: float = PATIENCE) -> str:
        words = " ".join(self.desk.curl("ann", f"/jobs/{number}")).replace("x-user: ann", "'x-user: ann'")
        self.desk.wait(f"job {number} is Finished", "sh", "-c", f"{words} | grep Finished", limit=limit)
        return self.state(number)

    # ---- the dispatcher

    def dispatch(self) -> None:
        self.desk.run("systemctl", "start", "farm-dispatch")

    def kill(self) -> None:
        self.desk.run("systemctl", "kill", "-s", "KILL", "farm-dispatch", check=False)

    def file(self, name: str) -> str:
        return self.desk.run("cat", f"{PLACE}/{name}", check=False).stdout

    def log(self, number: int) -> str:
        return self.file(f"logs/{number}")

    def said(self, number: int, text: str) -> None:
        self.desk.wait(f"{text} in the log of job {number}", "grep", "-F", text, f"{PLACE}/logs/{number}")

    def history(self) -> List[Dict[str, Any]]:
        return [it for it in map(json.loads, self.file("history.jsonl").splitlines()) if it["kind"] == "job"]

    def journal(self) -> str:
        return self.file("said")

    def begun(self) -> Dict[int, List[str]]:
        """Where each job's command was begun, once for each time."""
        found: Dict[int, List[str]] = {}
        for name, it in self.machines().items():
            for line in it.run("cat", "/var/begun/jobs").stdout.splitlines():
                found.setdefault(int(line.split()[0]), []).append(name)
        return found

    def left(self) -> Dict[str, str]:
        """What is left of jobs on each machine."""
        script = (
            "ls /run/farm-jobs/marks /run/farm-jobs/in /var/lib/farm-worker/log /var/lib/private/farm-job /var/lib/farm-job"
            " 2> /dev/null | grep farm-job- || :; systemctl list-units --all --plain --no-legend 'farm-job-*.service';"
            " pgrep -fa '^sleep 777' || :"
        )
        return {name: it.run("sh", "-c", script).stdout.strip() for name, it in self.machines().items()}

    def settled(self) -> None:
        """Waits until no group is open, and nothing is left of one."""
        self.desk.wait("no group is open", "sh", "-c", f"[ -z \"$(ls {PLACE}/open)\" ] && echo none")
        assert not any(self.left().values()), self.left()

    def end(self) -> None:
        for it in (*getattr(self, "racks", {}).values(), self.desk):
            it.end()


def text_of(file: str) -> str:
    with open(file, encoding="ascii") as opened:
        return opened.read()
