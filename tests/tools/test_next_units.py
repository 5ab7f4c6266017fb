"""farm-from-desk --next under a systemd: what ran is stopped and begins again over the next farm, also where the turn
or the machine was stopped in it; and what the dispatcher and the watcher make of it."""
from __future__ import annotations

import json
from typing import Iterator, List

import pytest
from machine import Machine
from machine_lab import MachineLab
from served import STARTED, wait_until

pytestmark = [pytest.mark.xdist_group("packages"), pytest.mark.slow(40)]
FILE, HOME = "/root/next.toml", "/var/lib/farm"
# farm-from-desk as it is installed, killed before a step.
KILLED = """\
import os, sys
sys.path.insert(0, "/usr/local/lib/farm-tools")
from farm_import import from_desk, turn
setattr(turn.stopped, "STEP", lambda *_: os.kill(os.getpid(), 9))
sys.exit(from_desk.main(sys.argv[1:]))
"""


@pytest.fixture(scope="module")
def lab(program: str, tmp_path_factory: pytest.TempPathFactory) -> Iterator[MachineLab]:
    """A lab that has a watcher, too."""
    machine = Machine(str(tmp_path_factory.mktemp("machine")), program)
    STARTED.remove(machine.process)
    made = MachineLab(machine)
    machine.write("/etc/farm/watch.toml", '[webhook]\nurl = "http://127.0.0.1:9/"\n[board]\nfree = true\n')
    machine.run("systemctl", "start", "farm-watch")
    yield made
    machine.end()


def edited(lab: MachineLab, old: str, new: str) -> None:
    """The next farm's file, with a board that is named otherwise."""
    lab.machine.run("farm-from-desk", "--output", FILE, check=False)
    lab.machine.run("sed", "-i", f"s/{old}/{new}/", FILE)


def units(lab: MachineLab) -> List[str]:
    return [lab.machine.status(it) for it in ("farm", "farm-dispatch", "farm-watch")]


def boards(lab: MachineLab) -> List[str]:
    return [f"{it['name']} {it['health']}" for it in lab.look("/boards")["boards"]]


def outcomes(lab: MachineLab, job: int) -> List[str]:
    """How the jobs of this number ended, as the history has it; it gets a row after the desk was told."""
    rows = [json.loads(it) for it in lab.machine.run("cat", "/var/lib/farm-dispatch/history.jsonl").stdout.splitlines()]
    return [str(it["outcome"]) for it in rows if it["kind"] == "job" and it["job"] == job]


def killed(lab: MachineLab, step: str) -> None:
    """A turn that is killed before this step of the files."""
    ran = lab.machine.run("/usr/bin/python3", "-c", KILLED.replace("STEP", step), "--next", FILE, check=False)
    assert ran.returncode == 137 or ran.returncode == -9, ran.stderr


def test_the_desk_and_the_dispatcher_begin_again_however_soon(lab: MachineLab) -> None:
    """So do the rule of the desk's port and the socket of jobs, which they require: systemd refuses what begins too often."""
    for _ in range(8):
        lab.machine.run("systemctl", "stop", "farm", "farm-dispatch")
        lab.machine.run("systemctl", "start", "farm", "farm-dispatch")
    assert units(lab) == ["active"] * 3
    lab.machine.wait("the desk", *lab.machine.curl("root", "/status"))


def test_the_turn_in_a_lab_whose_units_run(lab: MachineLab) -> None:
    """Job 1 of the next farm is another than job 1 of the old one: history has both."""
    assert "first" in lab.ran("echo first")
    number = lab.submit("sleep 600")
    lab.machine.wait("a job that runs", "sh", "-c", f"{' '.join(lab.machine.curl('ann', f'/jobs/{number}'))} | grep Running")
    edited(lab, "b3", "b-three")
    ran = lab.machine.run("farm-from-desk", "--next", FILE, check=False)
    assert ran.returncode == 1 and f"job {number} of ann has it" in ran.stderr
    assert units(lab) == ["active"] * 3 and boards(lab) == ["b1 Good", "b2 Good", "b3 Good"]
    lab.tell("ann", f"/jobs/{number}/cancel")
    assert lab.finished(number) == "Canceled"
    old = lab.look("/status")["count"]
    ran = lab.machine.run("farm-from-desk", "--next", FILE)
    assert ran.stdout.splitlines()[-1] == f"{HOME}/lab.db is the farm of {FILE}; the old one is in {HOME}/old-1"
    assert units(lab) == ["active"] * 3
    assert boards(lab) == ["b-three Good", "b1 Good", "b2 Good"]
    assert lab.machine.run("stat", "-c", "%U %a", HOME, f"{HOME}/lab.db", f"{HOME}/old-1").stdout.splitlines() == [
        "farm 700", "farm 600", "farm 700"
    ]
    report = lab.machine.run("farm", "report", "--db", f"{HOME}/old-1/lab.db", "boards", user="farm").stdout
    assert "b3 bbb" in report and old > 0
    assert lab.submit("echo second") == 1 and lab.finished(1) == "Complete" and "second" in lab.log(1)
    wait_until("both jobs 1 are in the history", lambda: outcomes(lab, 1) == ["Complete", "Complete"])


@pytest.mark.parametrize("step, serves", [("set_aside", True), ("put_in_place", False)])
def test_a_machine_that_stops_in_the_turn_serves_one_farm_or_none(lab: MachineLab, step: str, serves: bool) -> None:
    """It begins with the units that are enabled, and the turn is run again."""
    before = boards(lab)
    edited(lab, "boards.b2[a-z_-]*", f"boards.b2-{step}")
    killed(lab, step)
    assert units(lab) == ["inactive"] * 3
    lab.machine.run("systemctl", "start", "--no-block", "farm", "farm-dispatch", "farm-watch")
    if serves:
        lab.machine.wait("the desk", *lab.machine.curl("root", "/status"))
        assert boards(lab) == before
        assert lab.finished(lab.submit("true")) == "Complete"
    else:
        lab.machine.wait("its fault", "sh", "-c", "journalctl -q -u farm | grep '60 store fault'")
        assert lab.machine.asked("root", "root", "/status") == 7
    lab.machine.run("farm-from-desk", "--next", FILE)
    assert units(lab) == ["active"] * 3
    assert boards(lab) == sorted(f"b2-{step} Good" if it.startswith("b2") else it for it in before)
    assert lab.machine.run("sh", "-c", f"ls {HOME} | grep next || :").stdout == ""


def test_links_and_records_of_the_farms_account_lead_root_nowhere(lab: MachineLab) -> None:
    """Whoever has the farm's account may write its folder: a record that names a folder of root's for the old farm, or
    a link in the file's place, gains nothing."""
    edited(lab, "b1", "b-one")
    forge = (
        f"mark=$(sha256sum /tmp/next.toml | cut -d' ' -f1); mkdir {HOME}/next; cp {HOME}/lab.db {HOME}/next/; "
        f"echo '{{\"mark\":\"'$mark'\",\"aside\":\"../../../etc\",\"units\":[],\"began\":1}}' > {HOME}/next/turn.json"
    )
    lab.machine.run("sh", "-c", f"cp {FILE} /tmp/next.toml; chmod 644 /tmp/next.toml")
    lab.machine.run("sh", "-c", forge, user="farm")
    ran = lab.machine.run("farm-from-desk", "--next", FILE, check=False)
    assert ran.returncode != 0
    assert lab.machine.run("sh", "-c", "ls /etc | grep lab.db || :").stdout == ""
    lab.machine.run("sh", "-c", f"rm -r {HOME}/next", user="farm")
    lab.machine.run("systemctl", "start", "farm", "farm-dispatch", "farm-watch")
    lab.machine.wait("the desk", *lab.machine.curl("root", "/status"))
    lab.machine.run("farm-from-desk", "--next", FILE)
    assert "b-one Good" in boards(lab)
