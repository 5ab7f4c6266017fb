"""The units: how much systemd-analyze(1) finds open in each, and that each does its work so, under a systemd."""
from __future__ import annotations

import glob
import os
import pathlib
import re
import subprocess

import pytest

from machine import Machine
from machine_lab import MachineLab
from served import TOP
from wants import wants

UNITS = sorted(glob.glob(os.path.join(TOP, "examples", "*.service")))
MOST = 2.0
WATCH = """[desk]
server = "http://127.0.0.1:880"
user = "admin"
[webhook]
url = "http://127.0.0.1:8901/"
[job]
ended = true
"""
# Answers a post, and keeps its body.
HOOK = """import http.server
class Hook(http.server.BaseHTTPRequestHandler):
    def do_POST(self):
        open("/tmp/hook", "ab").write(self.rfile.read(int(self.headers["content-length"])))
        self.send_response(200)
        self.end_headers()
http.server.HTTPServer(("127.0.0.1", 8901), Hook).serve_forever()
"""
PROM = "/var/lib/prometheus/node-exporter/fizgruk.prom"


@pytest.mark.parametrize("unit", UNITS, ids=os.path.basename)
def test_a_unit_is_open_by_no_more_than(unit: str) -> None:
    wants("systemd-analyze")
    words = ["systemd-analyze", "security", "--offline=true", "--no-pager", unit]
    said = subprocess.run(words, capture_output=True, text=True, check=False).stdout
    found = re.search(r"Overall exposure level for \S+: ([0-9.]+)", said)
    assert found, said
    assert float(found.group(1)) <= MOST, said


def test_a_job_is_open_by_no_more_than(tmp_path: pathlib.Path) -> None:
    """What farm-job-.service.d makes of each unit of a job."""
    wants("systemd-analyze")
    with open(os.path.join(TOP, "examples", "farm-job-.service.d", "farm.conf"), encoding="utf-8") as text:
        (tmp_path / "farm-job-x.service").write_text(f"{text.read()}ExecStart=/bin/true\n")
    test_a_unit_is_open_by_no_more_than(str(tmp_path / "farm-job-x.service"))


@pytest.fixture(scope="module")
def lab(machine: Machine) -> MachineLab:
    """A lab whose dispatcher has a history."""
    made = MachineLab(machine)
    made.ran("true")
    return made


@pytest.mark.xdist_group("machine")
@pytest.mark.parametrize(
    "user, may", [("nobody", False), ("ann", False), ("farm-watch", False), ("www-data", True), ("farm-metrics", True)]
)
def test_who_reads_a_job_s_log_beside_the_site_s_password(lab: MachineLab, user: str, may: bool) -> None:
    wants("setfacl")
    lab.machine.run("systemctl", "restart", "farm-dispatch")
    assert (lab.machine.run("cat", "/var/lib/farm-dispatch/logs/1", user=user, check=False).returncode == 0) == may


@pytest.mark.xdist_group("machine")
def test_a_job_leaves_room_for_the_desk(lab: MachineLab) -> None:
    """However many processes it begins, and however much they take."""
    unit = os.path.basename(lab.folder(lab.submit("sleep 5")).rstrip("/"))
    processes, memory = (lab.machine.run("systemctl", "show", "-P", it, unit).stdout.strip() for it in ("TasksMax", "MemoryMax"))
    assert processes.isdigit() and memory.isdigit(), "no number is no limit"
    assert int(processes) <= 2000 and int(memory) < os.sysconf("SC_PAGE_SIZE") * os.sysconf("SC_PHYS_PAGES")


@pytest.mark.xdist_group("machine")
def test_the_metrics_are_written_by_an_account_of_their_own(lab: MachineLab) -> None:
    lab.machine.run("mkdir", "-p", os.path.dirname(PROM))
    start = f"systemctl start farm-metrics; grep 'fizgruk_up 1.0' {PROM}"
    lab.machine.wait("it sees the desk, which it asks for five seconds", "sh", "-c", start)
    text = lab.machine.run("cat", PROM, user="nobody").stdout
    assert "fizgruk_up 1.0\n" in text and re.search("fizgruk_passes_total [1-9]", text)
    assert lab.machine.run("stat", "-L", "-c", "%U", PROM).stdout == "farm-metrics\n"


@pytest.mark.xdist_group("machine")
@pytest.mark.parametrize("script", [
    "mkfifo history.jsonl", "ln -s /etc/shadow history.jsonl", "truncate -s 40G history.jsonl",
    "ln -s /dev/zero passes.json", "mkfifo passes.json", "truncate -s 40G passes.json",
    "python3 -c 'print(\"[\" * 900000)' > passes.json", "python3 -c 'print(\"[\" * 60000)' > history.jsonl",
])
def test_what_a_stranger_put_in_the_dispatchers_folder_holds_up_no_metrics(lab: MachineLab, script: str) -> None:
    """With the dispatcher stopped, since it would write over it."""
    lab.machine.run("mkdir", "-p", os.path.dirname(PROM))
    lab.machine.run("systemctl", "stop", "farm-dispatch")
    name = script.split()[-1] if ">" not in script else script.rsplit("> ", 1)[1]
    move = f"cd /var/lib/farm-dispatch && mv {name} kept && {script}"
    lab.machine.run("sh", "-c", move)
    try:
        lab.machine.run("rm", "-f", "/var/lib/farm-metrics/fizgruk.prom")
        lab.machine.run("timeout", "200", "systemctl", "start", "farm-metrics", check=False)
        assert "fizgruk_up 1.0\n" in lab.machine.run("cat", PROM).stdout
    finally:
        lab.machine.run("sh", "-c", f"cd /var/lib/farm-dispatch && rm -f {name} && mv kept {name}")
        lab.machine.run("systemctl", "reset-failed", "farm-metrics", check=False)
        lab.machine.run("systemctl", "start", "farm-dispatch")


@pytest.mark.xdist_group("machine")
def test_the_door_answers_nginx_alone(lab: MachineLab) -> None:
    lab.machine.run("systemctl", "start", "farm-door")
    ask = ["curl", "-s", "-o", "/dev/null", "-w", "%{http_code}", "--unix-socket", "/run/farm-door/socket"]
    who = [*ask, "-H", "x-what: who", "http://door/"]
    named = [*who, "-H", "x-login: ann"]
    lab.machine.wait("it answers", *named)
    assert lab.machine.run(*named, user="www-data").stdout == "200"
    assert lab.machine.run(*who, user="www-data").stdout == "401"
    assert lab.machine.run(*named, user="ann", check=False).returncode == 7
    command = [*ask, "-H", "x-what: command", "-H", "x-login: ann", "-d", '{"tags":[]}', "http://door/reservations"]
    before = len(lab.look("/reservations")["reservations"])
    lab.machine.wait("it sees the desk", "sh", "-c", f"[ \"$({' '.join(map(repr, command))})\" = 200 ] && echo yes")
    assert len(lab.look("/reservations")["reservations"]) == before + 1
    assert lab.machine.run("stat", "-c", "%a %U %G", "/run/farm-door/socket").stdout == "660 farm-door www-data\n"


@pytest.mark.xdist_group("machine")
def test_the_watcher_tells_by_a_webhook(lab: MachineLab) -> None:
    lab.machine.write("/etc/farm/watch.toml", WATCH)
    lab.machine.write("/tmp/hook.py", HOOK)
    lab.machine.run("systemd-run", "--unit=hook", "python3", "/tmp/hook.py")
    lab.machine.run("systemctl", "start", "farm-watch")
    lab.machine.wait("it looks", "sh", "-c", "journalctl -q -o cat -u farm-watch | grep '^sees 3 boards'")
    number = lab.submit("true")
    assert f"job {number} " in lab.machine.wait("the post", "cat", "/tmp/hook")
    assert lab.machine.status("farm-watch") == "active"
    lab.machine.run("systemctl", "stop", "farm-watch", "hook")
