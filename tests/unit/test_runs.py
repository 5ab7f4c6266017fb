"""The steps of a group on a machine, over a desk and a machine that say what a test wants: what is begun, told, closed and
left alone, whatever was killed before, and who waits for whom."""
from __future__ import annotations

import argparse
import io
import json
import os
import pathlib
import select
import time
from typing import Any, BinaryIO, Dict, List, Optional, Set, Tuple

import pytest
from farm_dispatch import dispatcher as dispatchers, runs as runs_module
from farm_dispatch.dispatcher import Dispatcher
from farm_dispatch.record import Record
from farm_dispatch.workers import Away, Look, look_of, outcome_of, words_of, worker_of
from fizgruk.errors import Code, Refused, Unreachable
from fizgruk.records import History

OPTIONS = argparse.Namespace(
    grace=1, infra=75, keep_logs=86400, limit=60, most=60, log_limit=10**6, folder_limit=10**9, artifact_count=10,
    artifact_limit=1000, artifacts_limit=1000, command=[], workers="/etc/farm/workers.toml", every=1,
)
WRONG, FULL = Refused(409, Code.WRONG_JOB_STATE, "wrong state"), Refused(409, 4, "full")  # (by its number in docs/API.md)


class Desk:
    """A desk with one job on each board, which keeps the replies to keys."""

    server = "http://desk"

    def __init__(self) -> None:
        self.states: Dict[int, str] = {1: "Scheduled"}
        self.owner = "ann"
        self.text = "job_name = 'x'"
        self.said: List[Tuple[str, Optional[str]]] = []
        self.kept: Set[str] = set()
        self.refuses: Dict[str, Refused] = {}
        self.silent = False
        self.tags: Dict[int, List[str]] = {}
        self.healths: Dict[str, str] = {}
        self.on: Dict[int, int] = {}  # jobs whose boards have other numbers
        self.loses = ""  # the answer to one such command

    def look(self, path: str) -> Dict[str, Any]:
        if self.silent:
            raise Unreachable("silent", self.server)
        if path == "/status":
            return {"next": 9, "count": len(self.said), "clock": time.time()}
        if path == "/queue":
            return {"queue": []}
        if path == "/boards":
            return {"boards": list({self.on.get(it, it): self.board(it) for it in sorted(self.states)}.values())}
        number = int(path.rpartition("/")[2])
        if number not in self.states:
            raise Refused(404, Code.NO_SUCH_JOB, "no such job")
        state = self.states[number]
        return {
            "number": number, "group": number, "state": state.partition(" ")[0], "kind": "ordinary",
            "board": f"b{self.on.get(number, number)}", "type": "bbb", "role": "", "text": self.text, "owner": self.owner, "priority": 50,
            "result": state.partition(" ")[2],
        }

    def board(self, number: int) -> Dict[str, Any]:
        is_held = self.states[number].split()[0] in ("Scheduled", "Running", "Canceling")
        holder, name = f"job {number}" if is_held else "none", f"b{self.on.get(number, number)}"
        health = self.healths.get(name, "Good")
        return {"name": name, "type": "bbb", "tags": self.tags.get(number, []), "health": health, "holder": holder}

    def tell(self, path: str, body: Any = None, key: Optional[str] = None) -> Dict[str, Any]:
        if self.silent:
            raise Unreachable("silent", self.server)
        what, refusal = path.rpartition("/")[2], self.refuses.get(path.rpartition("/")[2])
        if key and key in self.kept:
            return {}
        if refusal and (key or refusal is not FULL):
            raise refusal
        self.said.append((path, (body or {}).get("outcome")))
        number = int(path.split("/")[2])
        if what == "start" and self.states.get(number) != "Scheduled":
            raise WRONG
        if what == "finish" and self.states.get(number, "").split()[0] not in ("Running", "Canceling"):
            raise WRONG
        is_canceled = self.states.get(number) == "Canceling"
        self.states[number] = "Running" if what == "start" else f"Finished {'Canceled' if is_canceled else body['outcome']}"
        self.kept |= {key} if key else set()
        if self.loses == what:
            self.loses = ""
            raise Unreachable("no answer", self.server)
        return {}

    def nudge(self, path: str) -> None:
        self.said.append((path, None))


class Machine:
    """A machine that does what it is asked, and whose jobs a test ends."""

    lost = "the machine was restarted"

    def __init__(self, name: str = "desk") -> None:
        self.name, self.life = name, "m1/l1"
        self.units: Dict[str, str] = {}
        self.marks: Set[str] = set()
        self.ended: Dict[str, Tuple[str, int]] = {}
        self.logs: Dict[str, bytes] = {}
        self.lives: Set[str] = set()
        self.old: Set[str] = set()
        self.begun: Set[str] = set()
        self.calls: List[str] = []
        self.away = ""
        self.lacks = ""
        self.dies_at = ""

    def _called(self, verb: str) -> None:
        self.calls.append(verb)
        if self.away:
            raise Away(self.away)

    def look(self, identity: str) -> Look:
        if self.away:
            raise Away(self.away)
        sizes = {unit: len(it) for unit, it in self.logs.items()}
        begun, units, lives = set(self.begun), set(self.units), set(self.lives)
        return Look(self.life, self.marks | self.old, begun, units, lives, dict(self.ended), sizes, self.lacks)

    def begin(self, unit: str, words: str, files: Dict[str, str]) -> str:
        self._called("begin")
        if words.split()[0] != self.life:
            return "otherlife"
        if unit in self.marks | self.old:
            return "begun"
        self.marks.add(unit)
        self.begun.add(unit)
        self.units[unit] = files["env"]
        if self.dies_at == "begin":
            self.dies_at = ""
            raise Away("its answer was cut")
        return "ok"

    def ends(self, how: str = "success exited 0") -> None:
        for unit in list(self.units):
            del self.units[unit]
            self.ended[unit] = how, 0

    def close(self, unit: str) -> None:
        self._called("close")
        if unit in self.units:
            del self.units[unit]
            self.ended[unit] = "signal killed TERM", 0
        elif unit not in self.marks | self.old:
            self.marks.add(unit)
            self.ended[unit] = "never", 0

    def log(self, unit: str, begin: int) -> bytes:
        self._called("log")
        return self.logs[unit][begin:]

    def listed(self, unit: str) -> bytes:
        return b"end\0"

    def out(self, unit: str, names: List[str]) -> BinaryIO:
        return io.BytesIO()

    def forget(self, unit: str) -> bool:
        self._called("forget")
        self.marks.discard(unit)
        self.old.add(unit)
        return True

    def wait(self, look: Look, identity: str, seconds: float, woken: int) -> None:
        select.select([woken], [], [], seconds)

    def folder_of(self, unit: str) -> str:
        return f"/work/{unit}"

    def close_all(self) -> None:
        """(Nothing runs by hand.)"""


class Lab:
    """A dispatcher whose turns a test takes."""

    def __init__(self, place: pathlib.Path) -> None:
        self.place, self.desk, self.machine = place, Desk(), Machine()
        self.machines: List[Machine] = [self.machine]
        self.begin()

    def begin(self) -> None:
        """A dispatcher begins, as after a kill."""
        self.dispatcher = Dispatcher(self.desk, str(self.place), OPTIONS, self.machines)  # type: ignore[arg-type]
        self.runs = self.dispatcher.runs["desk"]
        for it in self.dispatcher.runs.values():
            it.start = lambda: None  # type: ignore[assignment]

    def turn(self, count: int = 1) -> None:
        for _ in range(count):
            self.dispatcher._give(self.desk.look("/boards")["boards"])
            for it in self.dispatcher.runs.values():
                it.turn()
            for future in [wait for it in self.dispatcher.runs.values() for wait in it.collectors.waits.values()]:
                future.exception(timeout=60)

    def may_pass(self) -> bool:
        """Whether a pass that is due is made."""
        before = len(self.desk.said)
        self.dispatcher.round(True)
        return ("/pass", None) in self.desk.said[before:]

    def may_set_healths(self, patch: pytest.MonkeyPatch) -> List[Tuple[str, str, str]]:
        """What it sets, from now on."""
        told: List[Tuple[str, str, str]] = []

        def set_health(*words: str) -> bool:
            told.append(words)  # type: ignore[arg-type]
            self.desk.healths[words[0]] = words[1]
            return True

        patch.setattr(self.dispatcher, "own", True)
        patch.setattr(self.dispatcher, "set_health", set_health)
        return told

    def record(self, number: int = 1) -> Record:
        return Record(str(self.place), number)

    def lines(self) -> List[Dict[str, Any]]:
        text = (self.place / "history.jsonl").read_text()
        return [it for it in map(json.loads, text.splitlines()) if it["kind"] == "job"]

    def paths(self) -> List[str]:
        return [path for path, _ in self.desk.said]


@pytest.fixture(name="lab")
def lab_fixture(tmp_path: pathlib.Path) -> Lab:
    return Lab(tmp_path)


def test_a_group_is_started_begun_told_and_forgotten(lab: Lab) -> None:
    lab.turn()
    unit = lab.record().unit
    assert lab.desk.states[1] == "Running" and list(lab.machine.units) == [unit]
    assert 'FARM_FOLDER="/work/%s"' % unit in lab.machine.units[unit]
    lab.machine.logs[unit] = b"said\n"
    lab.turn()
    assert (lab.place / "logs" / "1").read_bytes() == b"said\n", "while it runs"
    lab.machine.logs[unit] += b"more\n"
    lab.machine.ends()
    lab.turn(3)
    assert lab.desk.states[1] == "Finished Complete"
    assert (lab.place / "logs" / "1").read_bytes() == b"said\nmore\n"
    assert lab.machine.calls.count("begin") == 1 and lab.machine.old == {unit}
    assert os.listdir(lab.place / "open") == []
    row, = lab.lines()
    assert (row["unit"], row["worker"], row["outcome"], row["reason"]) == (unit, "desk", "Complete", "")


@pytest.mark.parametrize("how, words, result", [
    ("success exited 0", "status 0", "Complete"), ("exit-code exited 3", "status 3", "Incomplete"),
    ("exit-code exited 75", "status 75", "Infra"), ("signal killed KILL", "signal 9", "Infra"),
    ("timeout killed TERM", "time limit of 1 minute (the default), signal 15", "Incomplete"),
    ("timeout exited 0", "time limit of 1 minute (the default), status 0", "Incomplete"),
    ("folder-limit killed TERM", "folder limit, signal 15", "Incomplete"),
    ("memory-limit killed KILL", "memory limit, signal 9", "Incomplete"),
    ("oom-kill killed KILL", "signal 9, out of memory", "Infra"), ("core-dump dumped SEGV", "signal 11", "Infra"),
    ("exit-code exited 203", "not started: it can't be executed", "Infra"), ("never", "not begun", "Infra"),
    ("never - -", "not begun", "Infra"),
    ("lost: the machine was restarted", "lost: the machine was restarted", "Infra"),
])
def test_how_a_command_ended_says_its_outcome(how: str, words: str, result: str) -> None:
    assert words_of(how, "1 minute (the default)") == words
    assert outcome_of(words, 75) == result


@pytest.mark.parametrize("step", range(14))
def test_killed_behind_any_step_it_is_begun_once_and_told(lab: Lab, step: int, monkeypatch: pytest.MonkeyPatch) -> None:
    """The dispatcher ends behind each file, each line and each call, and the next one begins."""
    class Killed(BaseException):
        pass

    left = [step]

    def counted(was: Any) -> Any:
        def call(*words: Any, **more: Any) -> Any:
            said = was(*words, **more)
            left[0] -= 1
            if left[0] == -1:
                raise Killed
            return said
        return call

    with monkeypatch.context() as patch:
        for kind, names in (
            (Record, ("note", "drop")), (Desk, ("tell",)), (Machine, ("begin", "close", "forget")), (History, ("add_jobs",)),
        ):
            for name in names:
                patch.setattr(kind, name, counted(getattr(kind, name)))
        for _ in range(6):
            try:
                lab.turn()
                lab.machine.ends()
            except Killed:
                lab.begin()
    lab.machine.ends()
    lab.turn(4)
    assert lab.desk.states[1] == "Finished Complete"
    assert (len(lab.machine.old), len(lab.lines())) == (1, 1)
    assert os.listdir(lab.place / "open") == []
    assert [it for it in lab.desk.said if it[0].endswith("start")] == [("/jobs/1/start", None)]


def test_an_answer_that_is_lost_begins_nothing_twice(lab: Lab) -> None:
    lab.machine.dies_at = "begin"
    lab.turn(3)
    assert lab.machine.calls.count("begin") == 1 and len(lab.machine.units) == 1


def test_what_the_desk_did_without_an_answer_is_done_once(lab: Lab) -> None:
    for what in ("start", "finish"):
        lab.desk.loses = what
        with pytest.raises(Unreachable):
            lab.turn()
        lab.turn(2)
        lab.machine.ends()
    assert lab.desk.said == [("/jobs/1/start", None), ("/jobs/1/finish", "Complete")]
    assert lab.machine.calls.count("begin") == len(lab.lines()) == 1


@pytest.mark.parametrize("text", ["", "{", "[]", '{"unit": 1}', '{"unit": "x", "worker": "desk", "life": "", "about": {}}'])
def test_a_damaged_record_keeps_nobody_waiting(lab: Lab, text: str) -> None:
    (lab.place / "open" / "1").write_text(text)
    lab.begin()
    lab.turn()
    assert lab.desk.states[1] == "Running" and list(lab.machine.units) == [lab.record().unit]


def test_a_line_that_cant_be_written_is_written_later(lab: Lab, capsys: pytest.CaptureFixture[str]) -> None:
    lab.turn()
    lab.machine.ends()
    file = lab.place / "history.jsonl"
    file.unlink(missing_ok=True)
    file.mkdir()
    lab.turn(2)
    assert lab.desk.states[1] == "Finished Complete" and "job 1: IsADirectoryError: [Errno 21] " in capsys.readouterr().out
    file.rmdir()
    lab.begin()
    lab.turn(2)
    assert len(lab.lines()) == 1


def test_a_log_whose_end_was_cut_is_asked_for_again(lab: Lab) -> None:
    """A call that is killed over a socket is an answer that ends sooner."""
    lab.turn()
    whole, cuts = lab.machine.log, [0, 0, 0]
    lab.machine.logs = {it: b"said\nmore\n" for it in lab.machine.units}
    lab.machine.ends()
    lab.machine.log = lambda unit, begin: whole(unit, begin)[: cuts.pop() if cuts else None]  # type: ignore[assignment]
    lab.turn(3)
    assert lab.desk.states[1] == "Finished Complete" and cuts == []
    assert (lab.place / "logs" / "1").read_bytes() == b"said\nmore\n"


@pytest.mark.parametrize("left", [b"", b"x\n"])
def test_what_is_served_of_a_log_stays_where_the_job_cuts_it(lab: Lab, left: bytes) -> None:
    """By ftruncate(2), since its output is open to it for writing."""
    lab.turn()
    lab.machine.logs = {it: b"said\n" for it in lab.machine.units}
    lab.turn()
    lab.machine.logs = {it: left for it in lab.machine.units}
    lab.machine.ends("timeout killed TERM")
    lab.turn(3)
    said = (lab.place / "logs" / "1").read_bytes()
    assert said == b"said\nfarm-dispatch: time limit of 1 minute (the default), signal 15\n"


def test_one_that_somebody_else_started_is_left_alone(lab: Lab, capsys: pytest.CaptureFixture[str]) -> None:
    lab.desk.states[1] = "Running"
    lab.turn(2)
    assert lab.machine.calls == [] and not lab.record()
    assert capsys.readouterr().out.count("job 1 was started by somebody else, and is left alone") == 1


def test_of_an_older_line_with_its_number_nothing_is_told(lab: Lab) -> None:
    """The line names a unit of which this farm keeps no start."""
    lab.turn()
    lab.machine.ends()
    lab.turn(3)
    lab.desk.kept.clear()
    lab.desk.states[1] = "Running"
    lab.begin()
    lab.turn(2)
    assert lab.desk.states[1] == "Running"
    assert len(lab.lines()) == 1 and not lab.record()


def test_of_an_older_farm_that_has_it_running_still_it_is_told_again(lab: Lab) -> None:
    lab.turn()
    lab.machine.ends("exit-code exited 3")
    lab.turn(3)
    lab.desk.states[1] = "Running"
    lab.desk.kept = {it for it in lab.desk.kept if it.startswith("start-")}
    lab.begin()
    lab.turn(2)
    assert lab.desk.states[1] == "Finished Incomplete" and len(lab.lines()) == 1
    assert lab.machine.calls.count("begin") == 1


def test_an_older_farm_has_it_begun_again_once_the_first_is_gone(lab: Lab) -> None:
    lab.turn()
    first = lab.record().unit
    lab.desk.states[1] = "Scheduled"
    lab.desk.kept.clear()
    lab.machine.close = lambda unit: lab.machine.calls.append("close")  # type: ignore[assignment]
    lab.turn(2)
    assert lab.desk.states[1] == "Scheduled" and "close" in lab.machine.calls and lab.record().unit == first
    lab.machine.ends("signal killed TERM")
    lab.turn(3)
    assert lab.desk.states[1] == "Running"
    assert [it for it in lab.machine.units if it != first] == [lab.record().unit]
    assert [it["unit"] for it in lab.lines()] == [first]


def test_the_next_farms_job_of_its_number_is_left_alone_and_what_runs_ended(lab: Lab) -> None:
    lab.turn()
    lab.desk.kept.clear()
    lab.desk.owner = "zoe"
    lab.begin()
    lab.turn(3)
    assert lab.desk.states[1] == "Running" and lab.machine.units == {}
    assert not [it for it in lab.paths() if it.endswith("finish")]


def test_no_board_is_given_on_while_something_of_another_job_lives_on_it(lab: Lab) -> None:
    """As of one that an admin finished: not by a pass, and not to a job that got it already."""
    lab.turn()
    lab.machine.close = lambda unit: lab.machine.calls.append("close")  # type: ignore[assignment]
    lab.desk.states, lab.desk.on = {1: "Finished Complete", 2: "Scheduled"}, {2: 1}
    lab.turn(2)
    assert lab.desk.states[2] == "Scheduled" and not lab.may_pass()
    lab.machine.ends("signal killed TERM")
    lab.turn(3)
    assert lab.desk.states[2] == "Running" and lab.may_pass()


def test_a_record_that_is_lost_is_made_again(lab: Lab) -> None:
    lab.turn()
    unit = lab.record().unit
    os.unlink(lab.place / "open" / "1")
    lab.begin()
    lab.turn()
    assert lab.record().unit == unit
    lab.machine.ends()
    lab.turn(3)
    assert lab.desk.states[1] == "Finished Complete" and len(lab.lines()) == 1


def begin_unit(lab: Lab, name: str) -> str:
    """A unit of this dispatcher's of which it has no record."""
    unit = f"farm-job-{lab.dispatcher.identity}-{name}"
    lab.machine.units[unit] = ""
    lab.machine.marks.add(unit)
    lab.machine.begun.add(unit)
    return unit


def test_each_unit_of_a_number_is_asked_for(lab: Lab, capsys: pytest.CaptureFixture[str]) -> None:
    """An older farm's unit comes first by its name. What isn't the job's unit is ended, and the job goes on."""
    lab.turn()
    unit = lab.record().unit
    first = begin_unit(lab, "1-00000000")
    os.unlink(lab.place / "open" / "1")
    lab.begin()
    lab.turn(2)
    assert lab.record().unit == unit and list(lab.machine.units) == [unit]
    assert lab.machine.ended == {first: ("signal killed TERM", 0)}
    lab.machine.ends()
    lab.turn(3)
    assert lab.desk.states[1] == "Finished Complete" and "left alone" not in capsys.readouterr().out


def test_a_job_that_was_left_alone_is_asked_for_when_its_unit_is_seen(lab: Lab) -> None:
    """As where another dispatcher with a copy of this folder has started it, and begins it then."""
    lab.desk.states[1] = "Running"
    lab.turn(2)
    unit = begin_unit(lab, "1-aa")
    lab.desk.kept.add(f"start-{unit}")
    lab.turn()
    assert lab.record().unit == unit and lab.machine.calls == []


@pytest.mark.parametrize("name", ["1-aa", "7-aa"])
def test_a_unit_without_a_record_is_ended_before_a_job_begins(lab: Lab, name: str) -> None:
    """Its record is lost, and the farm is older: the job is Scheduled again, or there is none of its number."""
    unit = begin_unit(lab, name)
    lab.machine.close = lambda unit: lab.machine.calls.append(unit)  # type: ignore[assignment]
    lab.turn(2)
    assert lab.machine.calls == [unit] * 2 and lab.desk.states[1] == "Scheduled" and not lab.may_pass()
    lab.machine.ends("signal killed TERM")
    lab.turn()
    assert lab.desk.states[1] == "Running" and lab.record().unit != unit and lab.may_pass()


def test_a_unit_without_a_record_is_ended_before_what_was_started_begins(lab: Lab) -> None:
    """Also one that was started before a kill, and isn't begun yet; and that holds all of its boards still."""
    begin = lab.machine.begin
    lab.machine.begin = lambda *words: "refused"  # type: ignore[assignment]
    lab.turn()
    assert lab.desk.states[1] == "Running"
    lab.machine.begin = begin  # type: ignore[assignment]
    begin_unit(lab, "1-00000000")
    was, lab.desk.board = lab.desk.board, lambda number: {**was(number), "holder": "none"}  # type: ignore[assignment]
    lab.runs.turn()
    lab.runs.turn()
    assert lab.machine.units == {} and "begin" not in lab.machine.calls
    lab.desk.board = was  # type: ignore[assignment]
    lab.turn()
    assert list(lab.machine.units) == [lab.record().unit]


def test_no_board_is_given_back_before_what_else_may_have_it_has_ended(lab: Lab) -> None:
    lab.turn()
    mine = lab.record().unit
    other = begin_unit(lab, "7-aa")
    lab.machine.close = lambda unit: lab.machine.calls.append(unit)  # type: ignore[assignment]
    del lab.machine.units[mine]
    lab.machine.ended[mine] = "success exited 0", 0
    lab.turn(2)
    assert lab.desk.states[1] == "Running" and other in lab.machine.calls
    lab.machine.ends()
    lab.turn()
    assert lab.desk.states[1] == "Finished Complete"


def test_what_an_older_folders_record_names_may_live(lab: Lab) -> None:
    """It was copied before the start, and its unit was begun since. In the older farm a job that comes first has its board."""
    lab.desk.states = {2: "Scheduled"}
    lab.turn()
    said = {key: it for key, it in lab.record(2).items() if key in ("unit", "worker", "life", "about", "kind")}
    (lab.place / "open" / "2").write_text(json.dumps(said))
    lab.desk.states, lab.desk.on = {1: "Scheduled"}, {1: 2}
    lab.machine.close = lambda unit: lab.machine.calls.append(unit)  # type: ignore[assignment]
    lab.begin()
    lab.turn(2)
    assert lab.desk.states[1] == "Scheduled" and said["unit"] in lab.machine.calls
    lab.machine.ends("signal killed TERM")
    lab.turn()
    assert lab.desk.states[1] == "Running"


def hold_back(lab: Lab, patch: pytest.MonkeyPatch) -> Machine:
    """A second machine, at which board b2 hangs, under a dispatcher that may set healths and waits for nothing that lives."""
    rack = Machine("rack1")
    lab.machines.append(rack)
    lab.desk.tags = {2: ["worker=rack1"]}
    lab.begin()
    lab.may_set_healths(patch)
    patch.setattr(dispatchers, "OUT_AFTER", -1.0)
    return rack


def test_a_unit_that_nobody_knows_holds_up_its_machines_boards_alone(lab: Lab, monkeypatch: pytest.MonkeyPatch) -> None:
    """As of a machine that somebody else has taken: it names a unit of this dispatcher's, and never ends it."""
    rack = hold_back(lab, monkeypatch)
    lab.desk.states = {1: "Scheduled", 2: "Scheduled"}
    unit = f"farm-job-{lab.dispatcher.identity}-7-aa"
    rack.units[unit], rack.close = "", rack.calls.append  # type: ignore[assignment]
    lab.turn(2)
    assert lab.desk.states == {1: "Running", 2: "Scheduled"} and unit in rack.calls
    assert lab.may_pass() and lab.desk.healths == {"b2": "Maintenance"}
    lab.machine.ends()
    lab.turn(3)
    assert lab.desk.states == {1: "Finished Complete", 2: "Scheduled"}
    rack.units.clear()
    lab.turn(2)
    assert lab.may_pass() and lab.desk.healths == {"b2": "Good"} and lab.desk.states[2] == "Running"


def test_units_without_end_that_nobody_knows_fill_nothing(lab: Lab, capsys: pytest.CaptureFixture[str]) -> None:
    """Each turn has others, of numbers that no job has."""
    for turn in range(3):
        names = [f"farm-job-{lab.dispatcher.identity}-{number}-{turn}" for number in (*range(100, 1100), 10**30)]
        lab.machine.units = dict.fromkeys(names, "")
        lab.machine.calls.clear()
        lab.runs.turn()
        assert len(lab.machine.calls) == runs_module.MOST_STRAYS
    assert len(capsys.readouterr().out.splitlines()) < 4 * runs_module.MOST_STRAYS
    for number in range(5000):
        lab.dispatcher.tell_once(f"something else, {number}")
    assert lab.dispatcher.tell_once.cache_info().currsize <= 1000
    assert lab.runs.faulty == {}


def test_a_job_that_an_admin_finished_and_that_never_ends_holds_up_its_board_alone(
    lab: Lab, monkeypatch: pytest.MonkeyPatch
) -> None:
    rack = hold_back(lab, monkeypatch)
    lab.desk.states = {1: "Finished Complete", 2: "Scheduled"}
    lab.turn()
    rack.close = rack.calls.append  # type: ignore[assignment]
    lab.desk.states[2] = "Finished Complete"
    lab.turn()
    assert lab.may_pass() and lab.desk.healths == {"b2": "Maintenance"}
    rack.ends()
    lab.turn(2)
    assert lab.may_pass() and lab.desk.healths == {"b2": "Good"}


def test_a_job_that_is_run_again_passes_no_board_on_that_something_lives_on(lab: Lab, monkeypatch: pytest.MonkeyPatch) -> None:
    rack = hold_back(lab, monkeypatch)
    lab.desk.states, lab.desk.text = {1: "Scheduled", 2: "Finished Complete"}, "retry = 1\n"
    again = argparse.Namespace(tell=lambda *words: {"number": 9})
    monkeypatch.setattr(lab.dispatcher, "as_user", lambda user: again)
    lab.turn()
    unit = f"farm-job-{lab.dispatcher.identity}-7-aa"
    rack.units[unit], rack.close = "", rack.calls.append  # type: ignore[assignment]
    lab.turn()
    lab.machine.ends("exit-code exited 75")
    lab.turn(2)
    assert lab.desk.states[1] == "Finished Infra" and "run again as job 9" in (lab.place / "logs" / "1").read_text()
    assert ("/pass", None) not in lab.desk.said


def test_no_pass_is_made_before_boards_are_out_of_use(lab: Lab, monkeypatch: pytest.MonkeyPatch) -> None:
    """As where the dispatcher may not say it: a person does."""
    rack = hold_back(lab, monkeypatch)
    lab.desk.states = {1: "Finished Complete", 2: "Finished Complete"}
    rack.units[f"farm-job-{lab.dispatcher.identity}-7-aa"] = ""
    rack.close = rack.calls.append  # type: ignore[assignment]
    monkeypatch.setattr(lab.dispatcher, "set_health", lambda *words: False)
    lab.turn()
    assert not lab.may_pass() and not lab.may_pass()
    lab.desk.healths["b2"] = "Maintenance"
    assert lab.may_pass()


def test_an_older_folders_record_isnt_taken_over(lab: Lab) -> None:
    """It was copied before the start, and its unit was begun since: of an older farm that has the job Scheduled it is ended,
    and another unit begins."""
    lab.turn()
    unit = lab.record().unit
    said = {key: it for key, it in lab.record().items() if key in ("unit", "worker", "life", "about", "kind")}
    (lab.place / "open" / "1").write_text(json.dumps(said))
    lab.desk.states[1] = "Scheduled"
    lab.desk.kept.clear()
    lab.begin()
    lab.turn(4)
    assert lab.desk.states[1] == "Running" and lab.record().unit != unit
    assert [it["unit"] for it in lab.lines()] == [unit] and list(lab.machine.units) == [lab.record().unit]


@pytest.mark.parametrize("life, reason", [("m1/l2", "lost: the machine was restarted"), ("m2/l1", None)])
def test_a_machine_that_was_restarted_lost_its_job_and_another_is_not_it(lab: Lab, life: str, reason: Optional[str]) -> None:
    """What was fetched of its log stays."""
    lab.turn()
    lab.machine.logs = {it: b"before\n" for it in lab.machine.units}
    lab.turn()
    lab.machine.units.clear()
    lab.machine.marks.clear()
    lab.machine.logs.clear()
    lab.machine.life = life
    lab.turn(3)
    assert (lab.place / "logs" / "1").read_text() == "before\n" + (f"farm-dispatch: {reason}\n" if reason else "")
    if reason is None:
        assert lab.desk.states[1] == "Running"
    else:
        assert (lab.desk.states[1], lab.lines()[0]["reason"]) == ("Finished Infra", reason)
    assert lab.machine.calls.count("begin") == 1


def test_a_unit_that_somebody_took_away_is_lost(lab: Lab) -> None:
    lab.turn()
    lab.machine.units.clear()
    lab.turn(3)
    assert (lab.desk.states[1], lab.lines()[0]["reason"]) == ("Finished Infra", "lost: its unit is gone")
    assert lab.machine.calls.count("begin") == 1


def test_one_that_was_closed_halfway_never_began(lab: Lab) -> None:
    """A close was killed behind its mkdir: there is a mark, and no command began."""
    lab.machine.begin = lambda *words: "refused"  # type: ignore[assignment]
    lab.turn()
    lab.machine.marks.add(lab.record().unit)
    lab.turn(3)
    assert (lab.desk.states[1], lab.lines()[0]["reason"]) == ("Finished Infra", "not begun")


def test_an_end_counts_where_its_mark_was_seen_before(lab: Lab) -> None:
    """A late begin may begin and end between a look's marks and its ends: what its unit left may live still."""
    lab.machine.begin = lambda *words: "refused"  # type: ignore[assignment]
    lab.turn()
    unit = lab.record().unit
    lab.machine.ended[unit] = "success exited 0", 0
    lab.turn()
    assert lab.desk.states[1] == "Running"
    lab.machine.marks.add(unit)
    lab.turn(2)
    assert lab.desk.states[1] == "Finished Complete"


def test_an_older_folder_gets_the_end_of_what_was_forgotten(lab: Lab) -> None:
    """Its farm is as old: there the job runs still, and the history has no line of it."""
    lab.turn()
    folder = lab.place / "open" / "1"
    before = folder.read_bytes()
    lab.machine.ends("exit-code exited 3")
    lab.turn(3)
    assert lab.machine.old == {json.loads(before)["unit"]} and not folder.exists()
    folder.write_bytes(before)
    (lab.place / "history.jsonl").unlink()
    lab.desk.states[1] = "Running"
    lab.desk.kept = {it for it in lab.desk.kept if it.startswith("start-")}
    lab.begin()
    lab.turn(3)
    assert (lab.desk.states[1], lab.lines()[0]["reason"]) == ("Finished Incomplete", "status 3")
    assert lab.machine.calls.count("begin") == 1 and os.listdir(lab.place / "open") == []


def test_a_machine_that_is_away_loses_nothing_and_gets_nothing(lab: Lab) -> None:
    lab.turn()
    lab.machine.away = "ssh: connect to host rack2 port 22: No route to host"
    lab.desk.states[2] = "Scheduled"
    lab.turn(2)
    assert lab.desk.states == {1: "Running", 2: "Scheduled"}
    row, = lab.dispatcher._workers([])
    assert (row["name"], row["answers"], row["reason"]) == ("desk", False, lab.machine.away)
    assert abs(row["since"] - time.time()) < 60
    lab.machine.away = ""
    lab.machine.ends()
    lab.turn(3)
    assert lab.desk.states == {1: "Finished Complete", 2: "Running"}


def test_one_that_is_canceled_before_it_began_never_begins(lab: Lab) -> None:
    lab.machine.lacks = "/etc/farm/run-job: no such command"
    lab.turn()
    assert lab.desk.states[1] == "Scheduled", "where no command can be started nothing is"
    lab.machine.lacks = ""
    lab.machine.begin = lambda *words: "refused"  # type: ignore[assignment]
    lab.turn()
    lab.desk.states[1] = "Canceling"
    lab.turn(4)
    assert (lab.desk.states[1], lab.lines()[0]["reason"]) == ("Finished Canceled", "not begun")


def test_one_that_is_canceled_is_told_to_end_and_its_grace_is_no_limit(lab: Lab) -> None:
    lab.turn()
    lab.desk.states[1] = "Canceling"

    def close(unit: str) -> None:
        lab.machine.units.pop(unit, None)
        lab.machine.ended.setdefault(unit, ("timeout killed KILL", 0))

    lab.machine.close = close  # type: ignore[assignment]
    lab.turn(4)
    assert (lab.desk.states[1], lab.lines()[0]["reason"]) == ("Finished Canceled", "signal 9")


def test_boards_of_what_cant_be_killed_become_bad_before_they_are_given_on(lab: Lab, monkeypatch: pytest.MonkeyPatch) -> None:
    lab.turn()
    set_to = lab.may_set_healths(monkeypatch)
    lab.machine.ends("signal killed KILL")
    lab.machine.lives = {lab.record().unit}
    lab.turn(2)
    assert (lab.desk.states[1], set_to) == ("Running", [])
    monkeypatch.setattr(runs_module, "KILLS_AFTER", 0.0)
    lab.turn(2)
    assert set_to == [("b1", "Bad", "a process of job 1 can't be killed")]
    assert lab.desk.states[1] == "Finished Infra"


def test_a_full_desk_is_told_without_a_key(lab: Lab) -> None:
    lab.desk.refuses = {"start": FULL, "finish": FULL}
    lab.turn()
    assert (lab.desk.states[1], lab.record().get("unkeyed")) == ("Running", True)
    lab.begin()
    lab.machine.ends()
    lab.turn(3)
    assert lab.desk.states[1] == "Finished Complete" and lab.machine.calls.count("begin") == 1


def test_a_fault_of_its_own_ends_a_group_and_no_other(lab: Lab, monkeypatch: pytest.MonkeyPatch) -> None:
    lab.desk.states[2] = "Scheduled"
    lab.turn()
    was, lab.runs._fetch = lab.runs._fetch, lambda record: None  # type: ignore[assignment]

    def fetch(record: Record) -> None:
        if record.number == 1 and not record.get("broken"):
            raise KeyError("odd")
        was(record)

    monkeypatch.setattr(lab.runs, "_fetch", fetch)
    lab.turn()
    monkeypatch.setattr(runs_module, "STAYS", 0.0)
    lab.turn(4)
    assert lab.desk.states == {1: "Finished Infra", 2: "Running"}
    assert lab.lines()[0]["reason"].startswith("a fault of farm-dispatch: KeyError: 'odd'")


def test_nothing_passes_while_no_machine_can_run_a_job(lab: Lab) -> None:
    lab.machine.lacks = "/etc/farm/run-job: no such command"
    lab.turn()
    lab.dispatcher.round(True)
    assert lab.dispatcher.fault() == lab.machine.lacks and lab.desk.said == []
    lab.machine.lacks = ""
    lab.turn()
    lab.dispatcher.round(False)
    assert ("/pass", None) in lab.desk.said, "the one that was due comes once one can"


def test_a_slow_machine_delays_no_other(lab: Lab) -> None:
    """Each has a thread and its own jobs: what hangs at one isn't waited for by the others."""
    rack = Machine("rack1")
    lab.machines.append(rack)
    lab.desk.states = {1: "Scheduled", 2: "Scheduled"}
    lab.desk.tags = {1: ["worker=rack1"]}
    lab.begin()

    def hangs(identity: str) -> Look:
        time.sleep(1000)
        raise Away("it hung")

    rack.look = hangs  # type: ignore[assignment]
    del lab.dispatcher.runs["rack1"].start, lab.dispatcher.runs["desk"].start
    until = time.monotonic() + 60
    while not lab.desk.states[2].startswith("Running") and time.monotonic() < until:
        lab.dispatcher.round(False)
        time.sleep(0.02)
    assert lab.desk.states == {1: "Scheduled", 2: "Running"}
    lab.dispatcher.is_over = True


def test_boards_of_a_machine_that_doesnt_answer_get_no_new_jobs(lab: Lab, monkeypatch: pytest.MonkeyPatch) -> None:
    """They are set to Maintenance, and get back what they had; what an admin says meanwhile stays."""
    lab.desk.states = {1: "Finished Complete", 2: "Finished Complete", 3: "Finished Complete"}
    lab.desk.healths = {"b2": "Bad", "b3": "Unknown"}
    monkeypatch.setattr(dispatchers, "AWAY_AFTER", -1.0)
    lab.may_set_healths(monkeypatch)
    lab.turn()
    lab.machine.away = "silent"
    lab.turn()
    lab.dispatcher.round(False)
    assert lab.desk.healths == {"b1": "Maintenance", "b2": "Bad", "b3": "Maintenance"}
    lab.desk.healths["b3"] = "Retired"
    lab.machine.away = ""
    lab.turn()
    lab.dispatcher.round(False)
    assert lab.desk.healths == {"b1": "Good", "b2": "Bad", "b3": "Retired"}
    assert json.loads((lab.place / "away.json").read_text()) == {}


def test_a_worker_that_nobody_set_up_is_told(lab: Lab) -> None:
    lab.turn()
    lab.desk.tags = {1: ["worker=rack9"]}
    rows = lab.dispatcher._workers(lab.desk.look("/boards")["boards"])
    assert [(it["name"], it["answers"], it["reason"]) for it in rows] == [
        ("desk", True, ""), ("rack9", False, "/etc/farm/workers.toml doesn't name it"),
    ]


@pytest.mark.parametrize("tags, name", [([], "desk"), (["worker"], "desk"), (["worker=rack2", "x"], "rack2"), (["worker="], "desk")])
def test_a_board_names_its_machine(tags: List[str], name: str) -> None:
    assert worker_of({"tags": tags}) == name


WHOLE = (
    "life m/l\nmarks u1\nold u0\nunit u2\nlives u2\nbegun u1 i1\nended u1 exit-code exited 3\nended u0 never\nnow 100\n"
    "at u1/ended 40.5\nsize u1 7\nend\n"
)


def test_an_answer_says_what_a_machine_has() -> None:
    found = look_of(WHOLE)
    ended = {"u1": ("exit-code exited 3", 60), "u0": ("never", 0)}
    assert found == Look("m/l", {"u1", "u0"}, {"u1"}, {"u2"}, {"u2"}, ended, {"u1": 7}, "")
    assert look_of("life m/l\nlacks no run-job\nnow 1\nend\n").lacks == "no run-job"


def test_no_word_of_a_machine_is_longer_than_it_may_be() -> None:
    """The history keeps for ever how a job ended, and workers.json says what a machine lacks."""
    found = look_of(f"life m/l\nlacks {'x' * 10_000_000}\nended u1 exit-code exited {'3' * 10_000_000}\nnow 1\nend\n")
    assert len(found.lacks) < 1000 and len(found.ended["u1"][0]) < 1000


@pytest.mark.parametrize("said", ["", "end\n", WHOLE[:-5], WHOLE[:-4], "life\nend\n", "life m/l\nend\n", "life m/l\nnow x\nend\n",
                                  "life m/l\nnow 1\nsize u\nend\n", "Welcome!\nlife m/l\nnow 1\nend\n"])
def test_an_answer_that_isnt_whole_is_none(said: str) -> None:
    with pytest.raises(Away):
        look_of(said)
