"""A lab on three machines, each with a systemd of its own: what jobs get there, machines that are killed, cut off or booted
again, farms that are older or the next, kills of everything, and what the dispatcher's key may do."""
from __future__ import annotations

import json
import random
import re
import time
from typing import Any, Dict, Iterator

import pytest
from racks import PLACE, Racks
from racks_kills import over_kills

pytestmark = [pytest.mark.slow(300), pytest.mark.xdist_group("racks")]
WORKER = "/usr/local/lib/farm-tools/farm-worker"
STOLEN, THERE = f"ssh -F {PLACE}/.ssh/config", "root@10.9.0.2"  # by the dispatcher's key


@pytest.fixture(name="lab", scope="module")
def lab_fixture(program: str, tmp_path_factory: pytest.TempPathFactory) -> Iterator[Racks]:
    lab = Racks(str(tmp_path_factory.mktemp("racks")), program)
    lab.dispatch()
    yield lab
    lab.end()


def workers(lab: Racks) -> Dict[str, Dict[str, Any]]:
    """What is told of the machines, by their names."""
    return {it["name"]: it for it in json.loads(lab.file("workers.json"))["workers"]}


def told(lab: Racks, name: str, answers: bool) -> Dict[str, Any]:
    """What is told of a machine, once it is that it answers, or that it doesn't."""
    text = f'"name":"{name}","answers":{str(answers).lower()}'
    lab.desk.wait(text, "grep", text, f"{PLACE}/workers.json")
    return workers(lab)[name]


def test_jobs_on_each_machine(lab: Racks) -> None:
    """Each runs where its board hangs, under an account of its own, and its log and what it left come to the desk's."""
    jobs = {name: lab.submit("mkdir out; echo $(hostname) > out/where; id -u; echo $FARM_MACHINES", name) for name in lab.machines()}
    for name, number in jobs.items():
        assert lab.finished(number) == "Complete", lab.log(number)
        uid, machine = lab.log(number).split()
        assert machine == name and int(uid) >= 61184  # (the accounts that systemd makes)
    lab.settled()
    for name, number in jobs.items():
        assert lab.file(f"artifacts/{number}/1") == f"{name}\n"
        row = next(it for it in lab.history() if it["job"] == number)
        assert (row["worker"], row["artifacts"]["files"]) == (name, 1)
    group = "job_name = 'two'\nrun = 'echo $FARM_BOARDS on $FARM_MACHINES'\n"
    for name in ("rack1", "rack2"):
        group += f"[roles.{name}]\ndevice_type = 'bbb'\ncount = 1\ntags = ['worker={name}']\n"
    first = int(lab.tell("ann", "/jobs", group)["number"])
    assert [lab.finished(it) for it in (first, first + 1)] == ["Complete"] * 2
    boards = " ".join(lab.look(f"/jobs/{it}")["board"] for it in (first, first + 1))
    assert lab.log(first) == lab.log(first + 1) == f"{boards} on rack1 rack2\n"
    assert lab.begun()[first] == ["rack1"]


def test_a_log_is_served_while_its_job_runs_and_a_cancel_reaches_it(lab: Racks) -> None:
    number = lab.submit('echo began; trap "echo told" TERM; setsid sleep 777 & while true; do sleep 0.1; done', "rack1")
    lab.said(number, "began")
    lab.tell("ann", f"/jobs/{number}/cancel")
    assert lab.finished(number) == "Canceled"
    assert "told\n" in lab.log(number)
    lab.settled()
    assert lab.history()[-1]["reason"] == "signal 9", "what didn't end by SIGTERM"


def test_limits_of_a_machine(lab: Racks) -> None:
    """Of time, and of the folder and its log, which the machine looks after while no dispatcher does."""
    late = lab.submit("sleep 777", "rack1", "[timeouts]\njob = '2 seconds'\n")
    assert lab.finished(late) == "Incomplete"
    assert "time limit of 2 seconds" in lab.log(late)
    lab.desk.write("/etc/farm/desk.ini", "[dispatch]\nfolder_limit = 20 MB\nlog_limit = 1 MB\n")
    lab.desk.run("systemctl", "restart", "farm-dispatch")
    large = lab.submit("head -c 30000000 /dev/zero > x & head -c 30000000 /dev/zero > y; sleep 777", "rack1")
    long = lab.submit("echo first; yes | head -c 5000000; echo last; sleep 8", "rack2")
    assert lab.finished(large) == "Incomplete"
    assert "folder limit" in lab.log(large)
    assert lab.finished(long) == "Complete"
    lab.settled()
    said = lab.log(long)
    assert said.startswith("first\ny\n") and "last\n" in said and "a log's limit is 1,000,000 bytes" in said
    assert 1_000_000 <= len(said) < 1_001_000
    lab.desk.run("sh", "-c", "rm /etc/farm/desk.ini; systemctl restart farm-dispatch")


def test_a_machine_that_is_cut_off(lab: Racks) -> None:
    """Nobody else waits for it; it is told, its boards get no new jobs, and what runs there goes on and is told when it is
    back."""
    number = lab.submit("echo began; sleep 6; echo whole", "rack1")
    lab.said(number, "began")
    lab.cut("rack1")
    row = told(lab, "rack1", False)
    assert row["reason"] and row["since"] <= time.time()
    lab.desk.wait("ssh's reason", "grep", "ssh: connect to host", f"{PLACE}/workers.json")
    since = time.monotonic()
    assert lab.finished(lab.submit("true", "rack2")) == "Complete"
    assert time.monotonic() - since < 60
    waits = lab.submit("true", "rack1")
    health = "curl -sS -H 'x-user: ann' http://127.0.0.1:880/boards | tr '{' '\\n' | grep rack1 | grep -c Maintenance | grep 3"
    lab.desk.wait("its boards are in maintenance", "sh", "-c", health)
    assert lab.state(number) == "Running", "what runs there isn't given up"
    assert lab.state(waits) in ("Submitted", "Scheduled")
    lab.cut("rack1", True)
    assert lab.finished(number) == "Complete" and lab.log(number) == "began\nwhole\n"
    assert lab.finished(waits) == "Complete"
    told(lab, "rack1", True)
    assert {it["health"] for it in lab.look("/boards")["boards"]} == {"Good"}
    reasons = [it.get("reason") for it in map(json.loads, lab.file("history.jsonl").splitlines()) if it["kind"] == "health"]
    assert reasons.count("worker rack1 doesn't answer") == reasons.count("worker rack1 answers again") == 3


def test_a_machine_that_is_killed_and_booted_again(lab: Racks) -> None:
    """Its job's board is held while it is off; then the job is Infra, with the reason, and what it said is kept."""
    number = lab.submit("echo before; sleep 777", "rack2")
    lab.said(number, "before")
    lab.racks["rack2"].end()
    told(lab, "rack2", False)
    board = lab.look(f"/jobs/{number}")["board"]
    assert next(it for it in lab.look("/boards")["boards"] if it["name"] == board)["holder"] == f"job {number}"
    lab.again("rack2")
    assert lab.finished(number) == "Infra"
    lab.settled()
    assert lab.history()[-1]["reason"] == "lost: the machine was restarted"
    assert lab.log(number).startswith("before\n")
    told(lab, "rack2", True)
    for it in (1, 2, 3):
        lab.tell("admin", f"/boards/rack2-{it}/health", {"health": "Good"})
    assert lab.finished(lab.submit("true", "rack2")) == "Complete"


def test_an_older_farm(lab: Racks) -> None:
    """A farm that is restored gives a number again while a job of that number runs: this one is ended before its board is
    given on, and the next has its own unit, log and line."""
    lab.settled()
    lab.desk.run("sh", "-c", "systemctl stop farm; cp -a /var/lib/farm /var/lib/farm.before")
    lab.desk.serve()
    number = lab.submit("echo first; setsid sleep 777 & sleep 777", "rack1")
    lab.said(number, "first")
    lab.desk.run("sh", "-c", "systemctl stop farm; rm -rf /var/lib/farm; mv /var/lib/farm.before /var/lib/farm")
    lab.desk.serve()
    assert lab.submit("echo second; pgrep -c sleep", "rack1") == number
    assert lab.finished(number) in ("Complete", "Incomplete")
    assert lab.log(number) == "second\n0\n", "nothing of the first lives, and nothing of it is in the log"
    lab.settled()
    rows = [it for it in lab.history() if it["job"] == number]
    assert len({it["unit"] for it in rows}) == len(rows) == 2
    assert rows[0]["reason"] == "finished by somebody else" or rows[0]["outcome"] == "Infra"


def test_kills_of_everything(lab: Racks) -> None:
    assert over_kills(lab, 12, random.randrange(10**6), 200)


@pytest.mark.parametrize("line, wanted", [
    ("id", ""), ("look", ""), ("close sshd", ""), ("close lab-sshd", ""), ("log ../../../etc/shadow 0", ""),
    ("log farm-job-../../../../etc/shadow 0", ""), ("forget farm-job-/etc", ""), ("log farm-job-x -1", ""),
    ("begin farm-job-x none job 1 1 1 1 1 1 1 1", "otherlife\n"), ("out farm-job-x 1;id", ""), ("watch", ""),
    ("begin farm-job-$(id) none job 1 1 1 1", ""), ("pre farm-job-x", ""),
])
def test_a_stolen_key_has_the_scripts_words_alone(lab: Racks, line: str, wanted: str) -> None:
    """Whatever ssh is told to run."""
    for words in ("farm-worker", "id", "") if line == "id" else (f"'{line}'",):
        said = lab.desk.run("sh", "-c", f"echo '{line}' | timeout 120 {STOLEN} -T {THERE} {words}", user="farm-dispatch", check=False)
        assert said.stdout == wanted, words
    assert lab.racks["rack1"].status("lab-sshd") == "active"


@pytest.mark.parametrize("words", ["", "farm-worker", "sh"])
def test_a_stolen_key_has_no_terminal(lab: Racks, words: str) -> None:
    """ssh(1) gives up where none is given to it. Another client may go on, as ssh does over a connection that is there: it
    comes to the script, as without."""
    alone = lab.desk.run("sh", "-c", f"echo look 0 | {STOLEN} -tt {THERE} {words}", user="farm-dispatch", check=False)
    assert (alone.returncode, alone.stdout) == (255, "") and "PTY allocation request failed" in alone.stderr
    shared = f"{STOLEN} -S /tmp/stolen"
    lab.desk.run("sh", "-c", f"{shared} -MfN {THERE} < /dev/null > /dev/null 2>&1", user="farm-dispatch")
    try:
        for line, status in (("look 0", 0), ("id", 2)):
            ran = lab.desk.run("sh", "-c", f"echo {line} | {shared} -tt {THERE} {words}", user="farm-dispatch", check=False)
            assert ran.returncode == status and "PTY allocation request failed" in ran.stderr, ran
            assert re.fullmatch(r"life \S+\nnow \d+\nend\n" if status == 0 else "", ran.stdout), ran
    finally:
        lab.desk.run("sh", "-c", f"{shared} -O exit {THERE}", user="farm-dispatch", check=False)


@pytest.mark.parametrize("words, told", [
    ("-N -R 9999:127.0.0.1:880", "forwarding"), ("-N -R /tmp/stolen.there:127.0.0.1:22", "forwarding failed"),
    ("-W 127.0.0.1:22", "administratively prohibited"),
])
def test_a_stolen_key_forwards_nothing(lab: Racks, words: str, told: str) -> None:
    run = f"timeout 120 {STOLEN} -o ExitOnForwardFailure=yes {words} {THERE} < /dev/null"
    ran = lab.desk.run("sh", "-c", run, user="farm-dispatch", check=False)
    assert ran.returncode == 255 and ran.stdout == "" and told in ran.stderr, ran


def test_a_stolen_key_reaches_no_socket_there(lab: Racks) -> None:
    """As systemd's, which does for root what it is asked; this one would answer."""
    rack, here = lab.racks["rack1"], "/tmp/stolen.here"
    ask = "import socket; s = socket.socket(1); s.connect('{}'); s.sendall(b'look 0\\n'); s.shutdown(1); print(s.recv(99))"
    rack.run("systemctl", "start", "farm-worker.socket")
    assert "life " in rack.run("python3", "-c", ask.format("/run/farm-worker.socket")).stdout
    script = f"""timeout 100 {STOLEN} -N -L {here}:/run/farm-worker.socket {THERE} 2>&1 &
timeout 100 sh -c 'until [ -S {here} ]; do sleep 0.1; done'
timeout 100 python3 -c "{ask.format(here)}" 2>&1
kill $!"""
    said = lab.desk.run("sh", "-c", script, user="farm-dispatch", check=False).stdout
    assert "open failed" in said and "life " not in said, said


def test_a_stolen_key_fetches_no_files_and_says_no_environment(lab: Racks) -> None:
    """As root a job's environment would reach what systemd starts before it."""
    sftp = f"{STOLEN} -s {THERE} sftp < /dev/null"
    assert lab.desk.run("sh", "-c", sftp, user="farm-dispatch", check=False).stdout == ""
    rack = lab.racks["rack1"]
    life = next(it for it in rack.run("sh", "-c", f"echo look 0 | {WORKER}").stdout.splitlines() if it.startswith("life ")).split()[1]
    for env in ('LD_PRELOAD="/tmp/x"', 'FARM_X="a"\nLD_PRELOAD="/x"', 'FARM_X="a\\"', "FARM_X=a"):
        body = f"begin farm-job-x {life} job 60 1 1000 1000 1 1 1 {len(env) + 1}\\nabc{env}\\n"
        script = f"printf '{body}' | {WORKER}; echo $?; systemctl is-active farm-job-x; ls /run/farm-jobs/in"
        assert rack.run("sh", "-c", script, check=False).stdout.split()[:2] == ["2", "inactive"], env


def test_check_says_of_each_machine_whether_it_answers(lab: Racks) -> None:
    said = lab.desk.run("farm-dispatch", "--check", user="farm-dispatch").stdout
    ids = {name: it.run("cat", "/etc/machine-id").stdout.strip() for name, it in lab.machines().items()}
    assert said.splitlines() == [
        f"desk: /run/farm-worker.socket answers, as machine {ids['desk']}",
        f"rack1: root@10.9.0.2 answers, as machine {ids['rack1']}", f"rack2: root@10.9.0.3 answers, as machine {ids['rack2']}",
    ]
    lab.racks["rack2"].run("chmod", "-x", "/etc/farm/run-job")
    lab.cut("rack1")
    ran = lab.desk.run("farm-dispatch", "--check", user="farm-dispatch", check=False)
    lab.racks["rack2"].run("chmod", "+x", "/etc/farm/run-job")
    lab.cut("rack1", True)
    assert ran.returncode == 1
    assert "rack1: root@10.9.0.2 doesn't answer: " in ran.stdout
    assert "but /etc/farm/run-job: no such command, or not executable" in ran.stdout
