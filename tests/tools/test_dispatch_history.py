"""The history that farm-dispatch keeps: a line a job, a line a change of health, the newest lines, and the logs that a proxy
serves. (A line a job over any kill: unit/test_runs.py.)"""
from __future__ import annotations

import json
import os
import tempfile
import time
from typing import Any, Dict, List, Set

from dispatch_lab import Lab, jobs_of, lines_of, one_line_each
from dispatch_lab import lab_fixture, make_lab_fixture  # noqa: F401
from served import Farm, read, wait_until

JOB_FIELDS = [
    "kind", "job", "group", "owner", "boards", "type", "name", "submitted", "began", "ended",
    "outcome", "reason", "unit", "worker",
]


def healths_of(lab: Lab) -> List[Dict[str, Any]]:
    return [it for it in lines_of(lab) if it["kind"] == "health"]


def newest_of(lab: Lab) -> Any:
    return json.loads(read(os.path.join(lab.place, "history.json")))


def are_newest(lab: Lab, kind: str, rows: List[Dict[str, Any]]) -> None:
    """Waits until these lines are told as the newest, the last of them first."""
    wait_until(f"the newest {kind}", lambda: newest_of(lab)[kind] == rows[::-1])


def test_what_a_line_says(lab: Lab) -> None:
    """A line says whose a job was, on which board, when, how it ended and why."""
    before = int(time.time())
    dispatcher = lab.dispatch()
    ends = {
        "true": ("Complete", ""),
        "exit 3": ("Incomplete", "status 3"),
        "kill -40 $PPID": ("Infra", "signal 40"),  # (a realtime one has no name of its own)
    }
    numbers = {lab.farm.submit(run): run for run in ends}
    canceled = lab.farm.submit(lab.sleeps(100))
    lab.begun(canceled)
    lab.farm.tell("ann", f"/jobs/{canceled}/cancel")
    pair = lab.two()
    one_line_each(lab, [*numbers, canceled, *pair])
    rows = {it["job"]: it for it in jobs_of(lab)}
    for number, run in numbers.items():
        row = rows[number]
        assert list(row) == JOB_FIELDS, f"the fields of {run}"
        assert (row["outcome"], row["reason"]) == ends[run], f"how {run} ended"
        assert row["name"] == "test", f"the name of {run}"
        times = [before, row["began"], row["ended"], int(time.time())]
        assert times == sorted(times), f"the moments of {run}, {times}"
    assert rows[canceled]["outcome"] == "Canceled", "the canceled one"
    assert [rows[it]["group"] for it in pair] == [pair[0]] * 2, "the group of two"
    late = lab.farm.submit("sleep 0.5")
    wait_until("its line", lambda: [it for it in jobs_of(lab) if it["job"] == late])
    row = jobs_of(lab)[-1]
    assert before <= row["submitted"] <= row["began"], "when it was submitted"
    are_newest(lab, "jobs", jobs_of(lab))
    assert before <= newest_of(lab)["at"] <= time.time(), "its moment"
    for name in ("history.jsonl", "history.json"):
        mode = os.stat(os.path.join(lab.place, name)).st_mode & 0o777
        assert mode == 0o644, f"who may read {name}"
    lab.closes(dispatcher)


def test_changes_of_health(lab: Lab) -> None:
    """Each change of a board's health is told once, with the job that made it. A check that hangs is ended by the default."""
    lab.farm.tell("admin", "/types", {"name": "checked", "check": "jobs", "every": 20})
    for name in ("c1", "c2"):
        lab.farm.tell("admin", "/boards", {"name": name, "type": "checked"})
    check = f"sh -c 'echo $FARM_KIND $FARM_TYPES; test $FARM_BOARD = c1 || exec {lab.sleep} 207'"
    with open(os.path.join(lab.folder, "desk.ini"), "w", encoding="utf-8") as file:
        file.write("[dispatch]\nlimit = 2 seconds\n")
    dispatcher = lab.dispatch("--check-board", check, "--config", file.name)
    wait_until("the first look", lambda: os.path.exists(os.path.join(lab.place, "healths.json")))
    assert healths_of(lab) == [], "lines before there is a change"
    for name in ("c1", "c2"):
        lab.farm.tell("admin", f"/boards/{name}/health", {"health": "Unknown"})
    wait_until("c1 is Good", lambda: last_of(lab, "c1") == "Good")
    wait_until("c2 is Bad", lambda: last_of(lab, "c2") == "Bad")
    number = lab.farm.submit("exit 75")
    board = wait_until("its board", lambda: lab.farm.job(number)["board"])
    wait_until(f"{board} is Unknown", lambda: last_of(lab, board) == "Unknown")
    reasons = [(it["board"], it["to"], it["reason"]) for it in healths_of(lab)]
    wait_until("the checks' lines", lambda: len(checks_of(lab)) == 2)
    checks = {it["boards"][0]: it for it in checks_of(lab)}
    assert [it["owner"] for it in checks.values()] == ["admin"] * 2, "the checks' owners"
    assert [it["submitted"] for it in checks.values()] == [None] * 2, "when checks were submitted"
    assert checks["c1"]["reason"] == "" and checks["c2"]["reason"] == "time limit of 2 seconds (the default), status 143"
    assert lab.log(checks["c1"]["job"]) == "check checked\n"
    wanted = [
        ("c1", "Good", f"health check {checks['c1']['job']} ended Complete"),
        ("c2", "Bad", f"health check {checks['c2']['job']} ended Incomplete"),
        (board, "Unknown", f"job {number} ended Infra"),
    ]
    assert [it for it in wanted if it not in reasons] == [], "changes that aren't told"
    lab.farm.tell("admin", f"/boards/{board}/health", {"health": "Maintenance"})
    wait_until("what the admin did is told", lambda: healths_of(lab)[-1]["reason"] == "by the admin")
    assert (healths_of(lab)[-1]["from"], last_of(lab, board)) == ("Unknown", "Maintenance")
    are_newest(lab, "boards", healths_of(lab))
    lab.closes(dispatcher)


def checks_of(lab: Lab) -> List[Dict[str, Any]]:
    return [it for it in jobs_of(lab) if it["name"] == "health check"]


def last_of(lab: Lab, board: str) -> str:
    """The health that the last line of a board tells, or nothing."""
    return str(([it["to"] for it in healths_of(lab) if it["board"] == board] or [""])[-1])


def test_served_logs(lab: Lab) -> None:
    """Each job's log has its number in logs/, and what it left in artifacts/, until it is old and the job has ended; what a kill
    left half made goes too."""
    dispatcher = lab.dispatch("--keep-logs", "1 hour")
    one = lab.farm.submit("echo said; echo told >&2; mkdir out; echo left > out/file")
    pair = lab.two()
    running = lab.farm.submit(f"echo begun; {lab.until('open')}")
    for number in (one, *pair):
        assert lab.finished(number) == "Complete", f"job {number}"
    assert read(log_of(lab, one)) == "said\ntold\n", "a job's log"
    assert [read(log_of(lab, it)) for it in pair] == ["", ""], "that of each of two"
    wait_until("one that goes on", lambda: read(log_of(lab, running)) == "begun\n")
    assert logs_in(lab) == {str(it) for it in (one, *pair, running)}, "those that are there"
    assert os.stat(log_of(lab, one)).st_mode & 0o777 == 0o644, "who may read it"
    assert os.stat(os.path.join(lab.place, "logs")).st_mode & 0o777 == 0o711, "who may list them"
    lab.settled(one)
    dispatcher.kill()
    artifacts = os.path.join(lab.place, "artifacts")
    assert os.listdir(artifacts) == [str(one)]
    for file in (log_of(lab, one), log_of(lab, running), f"{artifacts}/{one}"):
        os.utime(file, (time.time() - 3700,) * 2)
    lab.let("dispatch/logs/97.new")
    for name in ("old-98-0123456789abcdef", "new-99"):
        os.mkdir(f"{artifacts}/{name}")
    dispatcher = lab.dispatch("--keep-logs", "1 hour")
    left = {str(it) for it in (*pair, running)}
    wait_until("what is old is gone", lambda: logs_in(lab) == left and not os.listdir(artifacts))
    assert lab.finished(running) == "Infra", "the one that was ended with its dispatcher"
    lab.closes(dispatcher)


def test_another_farm(lab: Lab) -> None:
    """Another farm's jobs have their own lines and logs under the numbers of the one before. The next farm gives
    the numbers of the one before again, on the same dispatcher's folder."""
    dispatcher = lab.dispatch()
    first, second = lab.farm.submit("echo old"), lab.farm.submit("echo old")
    for number in (first, second):
        assert lab.finished(number) == "Complete", f"job {number}"
    one_line_each(lab, [first, second])
    before = jobs_of(lab)
    lab.closes(dispatcher)
    lab.farm = Farm(lab.farm.program, tempfile.mkdtemp(dir=lab.folder), [("b1", "bbb", [])])
    lab.farm.tell("admin", "/boards/b1/health", {"health": "Maintenance"})
    assert lab.farm.submit("echo new") == first, "the next farm's first number"
    dispatcher = lab.dispatch()
    wait_until("the log of a number that is still to come is gone", lambda: logs_in(lab) == {"1"})
    lab.farm.tell("admin", "/boards/b1/health", {"health": "Good"})
    assert lab.finished(first) == "Complete", "its job"
    wait_until("its line", lambda: len(jobs_of(lab)) == 3)
    assert jobs_of(lab)[:2] == before, "the lines before"
    assert read(log_of(lab, first)) == "new\n", "its log"
    lab.closes(dispatcher)


def log_of(lab: Lab, number: int) -> str:
    return os.path.join(lab.place, "logs", str(number))


def logs_in(lab: Lab) -> Set[str]:
    return set(os.listdir(os.path.join(lab.place, "logs")))


def present_of(lab: Lab, name: str) -> Any:
    text = read(os.path.join(lab.place, name))
    return json.loads(text) if text else {}


def holds_of(lab: Lab) -> Dict[str, int]:
    return {it["board"]: it["since"] for it in present_of(lab, "running.json")["holds"]}


def test_what_runs_what_waits_and_since_when_people_hold_boards_is_told(lab: Lab) -> None:
    """A hold keeps its begin over the dispatcher's death, and of one that came meanwhile nothing is told."""
    begun = int(time.time())
    for name in ("b3", "b4", "b5", "b6"):
        lab.farm.tell("admin", f"/boards/{name}/health", {"health": "Maintenance"})
    dispatcher = lab.dispatch("--limit", "1 hour", every="0.1")
    wait_until("it has looked", lambda: "at" in present_of(lab, "waiting.json"))
    number = lab.farm.submit(f"{lab.sleep} 100")
    wait_until("it runs", lambda: [it["began"] for it in present_of(lab, "running.json")["jobs"]] not in ([], [None]))
    held = lab.farm.tell("bob", "/reservations", {"tags": []})["number"]
    wait_until("bob's hold", lambda: holds_of(lab))
    waits = lab.farm.submit("true", more="tags = ['serial']\n")
    wait_until("the next one", lambda: present_of(lab, "waiting.json")["groups"])
    run = present_of(lab, "running.json")["jobs"][0]
    assert begun <= run.pop("began") <= time.time()
    assert run == {"job": number, "group": number, "owner": "ann", "board": "b1", "type": "bbb", "name": "test",
                   "limit": 3600}
    claim = present_of(lab, "waiting.json")["groups"][0]
    assert begun <= claim.pop("submitted") <= time.time()
    assert claim == {"group": waits, "name": "test", "wants": [{"type": "bbb", "tags": ["serial"]}]}
    since = holds_of(lab)
    assert begun <= since["b2"] <= time.time()
    lab.farm.tell("bob", f"/reservations/{held}/acquire")
    dispatcher.kill()
    lab.farm.tell("eve", "/reservations", {"tags": ["name=b5"]})
    for name in ("b3", "b5"):  # the job that waits takes b3
        lab.farm.tell("admin", f"/boards/{name}/health", {"health": "Good"})
    lab.farm.tell("dispatcher", "/pass")
    assert lab.farm.board("b5")["holder"].startswith("reservation ")
    os.unlink(os.path.join(lab.place, "waiting.json"))
    lab.dispatch("--limit", "1 hour", every="0.1")
    wait_until("it looks again", lambda: present_of(lab, "waiting.json"))
    lab.farm.tell("dan", "/reservations", {"tags": ["name=b4"]})
    lab.farm.tell("admin", "/boards/b4/health", {"health": "Good"})
    wait_until("dan's hold", lambda: "b4" in holds_of(lab))
    assert (set(holds_of(lab)), holds_of(lab)["b2"]) == ({"b2", "b4"}, since["b2"])
