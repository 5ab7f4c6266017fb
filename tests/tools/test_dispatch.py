"""What farm-dispatch does with jobs of a served farm, in a try by hand: what a job gets, groups, cancels, dispatchers and desks
that are killed or don't answer, commands that can't be started, time limits, misspelt settings and wrong clocks. test_racks.py
has machines with a systemd, and what must never happen twice."""
from __future__ import annotations

import json
import os
import pathlib
import subprocess
import sys
import tempfile
import time
from typing import List

import pytest
from answering import Proxy
from dispatch_lab import AT_IT, BOARDS, TWO, Lab, MakeLab, replace
from dispatch_lab import lab_fixture, make_lab_fixture  # noqa: F401
from served import MODULES, TOP, Tool, environment, read, wait_until
from wants import wants


def test_what_a_job_gets(lab: Lab) -> None:
    """Its text, its boards and its log are there, and nothing by which the desk is reached."""
    number = lab.farm.submit("echo said; echo told >&2; env; cat boards boards.json; cat job.toml")
    dispatcher = lab.dispatch(every="0.5", DISPATCH_USER="dispatcher", DISPATCH_KEEP_LOGS="2 days")
    assert lab.finished(number) == "Complete"
    log = lab.log(number)
    name = lab.farm.job(number)["board"]
    folder = log.partition("FARM_FOLDER=")[2].split("\n")[0]
    wanted = [
        "said", "told", f"{name} bbb - {number}", f"FARM_JOB={number}", "FARM_KIND=ordinary", "FARM_OWNER=ann",
        "FARM_PRIORITY=50", f"FARM_BOARD={name}", f"FARM_BOARDS={name}", "FARM_TYPES=bbb", "FARM_ROLES=-",
        "FARM_MACHINES=desk", f"FARM_JOB_FILE={folder}/job.toml", f"FARM_BOARDS_FILE={folder}/boards", f"PWD={folder}",
        *lab.farm.job(number)["text"].splitlines(),
    ]
    assert [it for it in wanted if it not in log.split("\n")] == [], "lines that the log lacks"
    assert "DISPATCH_" not in log
    row = json.loads(log[log.index("\n[\n") : log.index("\n]\n") + 2])[0]
    assert (row["name"], row["tags"], row["job"]) == (name, ["serial"], number), "a board's row"
    lab.settled(number)
    assert not os.path.exists(folder), "a job's folder goes with it"
    told = f"passes every 0.5 s at {lab.farm.server}, jobs in {os.path.realpath(lab.place)}"
    assert dispatcher.output().split("; ")[0] == told, "its first line"
    lab.closes(dispatcher)


def test_passes_after_a_finish(make_lab: MakeLab) -> None:
    """Four jobs of one board run one after another, each after the pass at an end."""
    lab = make_lab(BOARDS[:1])
    numbers = [lab.farm.submit("true") for _ in range(4)]
    dispatcher = lab.dispatch(every="1000")
    for number in numbers:
        assert lab.finished(number) == "Complete", f"the result of job {number}"
    children = f"/proc/{dispatcher.process.pid}/task/{dispatcher.process.pid}/children"
    wait_until("one process is left at most", lambda: len(read(children).split()) <= 1)
    wait_until("the passes: the first, and one after each end", lambda: lab.passes() == 5)
    assert os.stat(f"{lab.place}/passes.json").st_mode & 0o777 == 0o644, "the rights of their count"
    lab.closes(dispatcher)


def test_group(make_lab: MakeLab) -> None:
    """A group of three runs as one process, and each member is finished."""
    lab = make_lab([("a1", "aaa", []), *BOARDS])
    text = b"""job_name = 'group'
run = 'echo $FARM_BOARDS $FARM_TYPES $FARM_ROLES'
[roles.client]
device_type = 'bbb'
count = 2
[roles.server]
device_type = 'aaa'
count = 1
"""
    number = lab.farm.tell("ann", "/jobs", text)["number"]
    dispatcher = lab.dispatch()
    for member in range(number, number + 3):
        assert lab.finished(member) == "Complete", f"the result of {member}"
    assert lab.log(number) == "b1 b2 a1 bbb bbb aaa client client server\n", "its log"
    assert lab.begins(number) == 1, "how often it was begun"
    lab.closes(dispatcher)


def test_cancels(lab: Lab) -> None:
    """A canceled job's command gets SIGTERM, then SIGKILL, and so does what it left in its group."""
    quiet = lab.farm.submit(lab.sleeps(100))
    dispatcher = lab.dispatch("--grace", "300")
    lab.begun(quiet)
    lab.running(100)
    lab.farm.tell("ann", f"/jobs/{quiet}/cancel")
    assert lab.finished(quiet) == "Canceled", "the one that ends"
    assert lab.settled(quiet)["reason"] == "status 143", "how it ended"
    lab.stops(dispatcher)
    stubborn = lab.farm.submit(f"trap : TERM; {lab.sleep} 101 & {AT_IT}")
    dispatcher = lab.dispatch("--grace", "4")
    lab.begun(stubborn)
    lab.running(101)
    lab.farm.tell("ann", f"/jobs/{stubborn}/cancel")
    assert lab.finished(stubborn) == "Canceled", "the one that doesn't"
    assert lab.settled(stubborn)["reason"] == "signal 9", "how it ended"
    wait_until("what it left is gone", lambda: not lab.sleepers(101))
    lab.closes(dispatcher)


def test_two_at_once(lab: Lab) -> None:
    """Of two dispatchers on a folder one runs, and the other says so, with status 4. Of two dispatchers that begin
    at once on a folder one has it, until it is killed."""
    both = [lab.dispatch(), lab.dispatch()]
    last = wait_until("one ends", lambda: [it for it in both if it.process.poll() is not None])
    assert [it.ends() for it in last] == [4], "its status"
    told = f"farm-dispatch: {lab.place} is in use by another farm-dispatch\n"
    assert last[0].errors() == told, "what it tells"
    next(it for it in both if it not in last).kill()
    dispatcher = lab.dispatch()
    number = lab.farm.submit("true")
    assert lab.finished(number) == "Complete", "the next one's job"
    assert lab.begins(number) == 1, "how often it was begun"
    assert os.stat(os.path.join(lab.place, "lock")).st_mode & 0o007 == 0, "no login takes the lock"
    lab.closes(dispatcher)


def test_jobs_end_with_it(lab: Lab) -> None:
    """It says so in its first line. Where it is killed, its jobs are as well, at the latest when the next one begins, and
    are Infra; told to end it ends them, and the next one tells it."""
    numbers = [lab.farm.submit(it) for it in (f"{lab.sleep} 102 & {lab.sleep} 103", lab.sleeps(104))]
    dispatcher = lab.dispatch()
    assert "by hand: jobs are plain processes of this account, are ended with farm-dispatch" in lab.first_line(dispatcher)
    for it in (102, 103, 104):
        lab.running(it)
    dispatcher.kill()
    dispatcher = lab.dispatch()
    for number in numbers:
        assert lab.finished(number) == "Infra"
        assert lab.settled(number)["reason"] == "lost: the dispatcher that ran it has ended"
    assert [lab.sleepers(it) for it in (102, 103, 104)] == [[], [], []]
    number = lab.farm.submit(f"{lab.sleep} 105 & {lab.sleep} 106")
    lab.running(106)
    lab.stops(dispatcher)
    assert lab.sleepers(105) + lab.sleepers(106) == []
    dispatcher = lab.dispatch()
    assert lab.finished(number) == "Infra"
    assert lab.begins(number) == 1
    lab.closes(dispatcher)


def test_a_desk_that_lets_it_in_no_more_ends_no_dispatcher(lab: Lab) -> None:
    """As where a proxy's file of passwords is written: a 401 of some seconds. What runs goes on, and is told."""
    shut: List[int] = []
    proxy = Proxy(lab.farm, lambda method, path, key: (401, b"{}") if shut else None)
    number = lab.farm.submit(lab.until("open"))
    dispatcher = lab.dispatch(server=proxy.server)
    lab.begun(number)
    shut.append(1)
    wait_until("it is told", lambda: "refuses" in dispatcher.errors())
    lab.let("open")
    wait_until("its command's end", lambda: f"end {number}" in read(lab.runs))
    time.sleep(2)
    assert dispatcher.process.poll() is None, dispatcher.errors()
    shut.clear()
    assert lab.finished(number) == "Complete"
    wait_until("it goes on", lambda: "it goes on" in dispatcher.errors())
    assert lab.finished(lab.farm.submit("true")) == "Complete"
    lab.closes(dispatcher)


def test_second_stop() -> None:
    """A second signal, as of who presses Ctrl-C twice, changes nothing."""
    code = """\
import os, signal
from farm_dispatch import main as dispatch
dispatch.checked = lambda *words: os.kill(os.getpid(), signal.SIGINT)
status = dispatch.main(["--folder", ".", "--check"])
os.kill(os.getpid(), signal.SIGTERM)
raise SystemExit(status)
"""
    path = environment(PYTHONPATH=":".join(MODULES))
    ran = subprocess.run([sys.executable, "-c", code], env=path, capture_output=True, text=True, check=False)
    assert (ran.returncode, ran.stderr) == (0, "")


def test_told_to_end_at_any_moment(lab: Lab) -> None:
    """A dispatcher that is told to end as soon as it is there, or at any moment later, ends with 0, and each job is begun
    once at most."""
    numbers = []
    for pause in (0, 0, 0.05, 0.1, 0.2, 0.5):
        numbers += [lab.farm.submit(it) for it in ("true", "sleep 0.1")]
        dispatcher = lab.dispatch(every="0.1")
        lab.stops(dispatcher, pause=pause)
    dispatcher = lab.dispatch()
    for number in numbers:
        assert lab.finished(number) in ("Complete", "Infra"), number
        assert lab.begins(number) <= 1, number
    lab.closes(dispatcher)


# ---- commands that can't be started


def test_unstartable_scripts(lab: Lab) -> None:
    """A script that isn't executable finishes no job and condemns no board; it is told once, status 5."""
    lab.farm.tell("admin", "/types", {"name": "checked", "check": "jobs", "every": 20})
    lab.farm.tell("admin", "/boards", {"name": "c1", "type": "checked"})
    check = os.path.join(lab.folder, "check")
    replace(check, "#!/bin/sh\ntrue\n")
    dispatcher = lab.dispatch("--check-board", check)
    assert lab.finished(lab.farm.submit("true")) == "Complete", "a job before"
    os.chmod(check, 0o644)
    lab.farm.tell("admin", "/boards/c1/health", {"health": "Unknown"})
    number = lab.farm.submit("true")
    wait_until("it tells it", lambda: "not executable" in dispatcher.errors())
    count = lab.farm.look("/status")["count"]
    time.sleep(3)
    assert lab.farm.look("/status")["count"] == count, "passes while it stands"
    assert (lab.farm.job(number)["result"], lab.farm.board("c1")["health"]) == ("", "Unknown")
    assert dispatcher.errors().count("not executable") == 1, "how often it is told"
    lab.stops(dispatcher, 5)
    dispatcher = lab.dispatch("--check-board", check)
    wait_until("the next tells it", lambda: dispatcher.errors().count("not executable") == 2)
    os.chmod(check, 0o755)
    assert (lab.finished(number), lab.begins(number)) == ("Complete", 1), "once it is mended"
    wait_until("c1 is Good", lambda: lab.farm.board("c1")["health"] == "Good")
    wait_until("it tells that it goes on", lambda: "it goes on" in dispatcher.errors())
    lab.closes(dispatcher)


# ---- time limits


@pytest.mark.slow(20)
def test_time_limits(lab: Lab) -> None:
    """A time limit ends a job by SIGTERM, SIGKILL after the grace; it is Incomplete, as told. (unit/test_limits.py: how long
    it is.)"""
    stubborn = f"trap : TERM; {lab.sleep} 201 & {AT_IT}"
    over = "farm-dispatch: time limit of 9 seconds, status 143\n"
    # What each runs, its limit, how it ends, and what its log has.
    rows = [
        (lab.sleeps(202), 'job = "9 seconds"', "time limit of 9 seconds, status 143", over),
        (stubborn, "job = { seconds = 9 }", "time limit of 9 seconds, signal 9", ""),
        (lab.sleeps(204), 'job = "3 days"', "time limit of 30 seconds, status 143", "is 3 days: "),
        (lab.sleeps(205), 'job = "soon"', "time limit of 10 seconds (the default), status 143", "timeouts.job can't be read: 'soon'"),
    ]
    numbers = [lab.farm.submit(run, more=f"[timeouts]\n{limit}\n") for run, limit, _, _ in rows]
    two = f"{TWO.format(lab.sleeps(206))}[timeouts]\njob = {{ minutes = 0, seconds = 9 }}\n"
    first = lab.farm.tell("ann", "/jobs", two.encode())["number"]
    dispatcher = lab.dispatch("--grace", "20", "--limit", "10", DISPATCH_MOST="30 seconds")
    rows += [("", "", "time limit of 9 seconds, status 143", over)] * 2
    for number, (_, _, ended, line) in zip([*numbers, first, first + 1], rows):
        assert lab.finished(number) == "Incomplete", f"the result of {number}"
        assert lab.settled(number)["reason"] == ended, f"how {number} ended"
        assert line in lab.log(number), f"the log of {number}"
    assert lab.sleepers(201) == [], "what the stubborn one left"
    lab.closes(dispatcher)


# ---- settings and clocks


def test_settings_that_there_arent(folder: str) -> None:
    """It tells them, with what may be meant, and ends with 2."""
    tell(f"{folder}/desk.ini", "[dispatch]\nserber = x\n")
    tool = Tool(["farm-dispatch", "--folder", folder, "--config", f"{folder}/desk.ini", "true"], folder)
    assert tool.ends() == 2 and "serber in [dispatch] is no setting: is server meant?" in tool.errors()


def test_clocks(lab: Lab) -> None:
    """Nothing is asked before this machine's clock is set, where `timedatectl` can tell that; --clock any asks. A farm's clock
    that is ahead is told once, here by an import with a moment of three days later. (unit/test_clocks.py: when.)"""
    lab.farm.kill()
    lab_file, said = (os.path.join(lab.folder, it) for it in ("lab.toml", "said"))
    tell(lab_file, "[types.ddd]\n")
    at = str(int(time.time()) + 3 * 86400 + 3000)
    words = [lab.farm.program, "import", "--db", lab.farm.db, "--at", at, lab_file]
    subprocess.run(words, check=True, stdout=subprocess.DEVNULL)
    lab.farm.start()
    replace(os.path.join(lab.folder, "timedatectl"), f"#!/bin/sh\ncat {said}\n")
    own = {"PATH": f"{lab.folder}:{os.environ['PATH']}"}
    tell(said, "NTP=yes\nNTPSynchronized=no\n")
    number, count = lab.farm.submit("true"), lab.farm.look("/status")["count"]
    dispatcher = lab.dispatch(**own)
    wait_until("it is told", lambda: "hasn't set the clock yet" in dispatcher.errors())
    time.sleep(1)
    assert lab.farm.look("/status")["count"] == count, "what was asked of the desk"
    tell(said, "NTP=yes\nNTPSynchronized=yes\n")
    assert lab.finished(number) == "Complete", "a job, once it is set"
    told = "the farm's clock is 3 days ahead of this machine's: leases won't end until then"
    wait_until("it is told", lambda: dispatcher.errors().count(told) == 1)
    lab.stops(dispatcher)
    tell(said, "NTP=yes\nNTPSynchronized=no\n")
    os.unlink(os.path.join(lab.place, "synchronized"))
    dispatcher = lab.dispatch("--clock", "any", **own)
    assert lab.finished(lab.farm.submit("true")) == "Complete", "one where nobody waits for it"
    lab.closes(dispatcher)


def tell(file: str, text: str) -> None:
    with open(f"{file}.new", "w", encoding="utf-8") as opened:
        opened.write(text)
    os.replace(f"{file}.new", file)  # (it is read at any moment)


def test_unit(tmp_path: pathlib.Path) -> None:
    """Systemd finds no fault with the units, and the dispatcher's never gives up, but at 2. What systemd says of units,
    which then name programs that are there."""
    names = ("farm-dispatch.service", "farm-worker.socket", "farm-worker@.service", "farm-worker.service")
    texts = {it: read(os.path.join(TOP, "examples", it)) for it in (*names, "farm.service", "farm-port.service")}
    wanted = ["StartLimitIntervalSec=0", "Restart=always", "RestartPreventExitStatus=2"]
    assert [it for it in wanted if it not in texts["farm-dispatch.service"].split("\n")] == [], "lines that the unit lacks"
    socket = texts["farm-worker.socket"].split("\n")
    assert {"ListenStream=/run/farm-worker.socket", "SocketUser=farm-dispatch", "SocketMode=0600"} <= set(socket)
    wants("systemd-analyze")
    folder = tempfile.mkdtemp(dir=tmp_path)
    for name, text in texts.items():
        text = text.replace("/usr/local/bin/", "/bin/true ").replace("/usr/local/lib/farm-tools/", "/bin/true ")
        tell(os.path.join(folder, name), text.replace("=-/bin/true", "=/bin/true"))
    words = ["systemd-analyze", "verify", "--man=no", *(os.path.join(folder, it) for it in names if "@" not in it)]
    ran = subprocess.run(words, capture_output=True, text=True, check=False)
    assert (ran.returncode, ran.stderr) == (0, ""), "what systemd says of the units"
