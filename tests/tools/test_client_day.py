"""A user's day with the client: who has a board, what a job waits for, names in the place of numbers, wrong words,
narrow terminals. What the dispatcher tells of the present stands in a folder of the test's own."""
from __future__ import annotations

import functools
import json
import os
import pathlib
import re
import subprocess
import sys
import time
from typing import Any, Callable, Dict, Iterator, List, Tuple

import pytest
from answering import Answering
from beside_root import is_open
from desks import (
    DESK, GROUP, JOB, around, at_a_terminal, at_ease, desk, number_of, passes, prints, rest_of, waiting_tool, write,
)
from fizgruk import notes
from ports import free_port
from served import PATIENCE, Farm, Tool, read, wait_until

MINUTE = 60
NO_ROUTE = {"code": 52, "text": "no such route"}
Row = Dict[str, Any]


def has_said(tool: Tool, text: str) -> bool:
    """Whether a tool has told this as a line's end."""
    return f"{text}\n" in tool.errors()


def shows(folder: str, **lists: Any) -> Dict[str, str]:
    """The setting of a dispatcher's folder that tells this: lists of docs/farm-dispatch.8's files."""
    now = int(time.time())
    files = {
        "running.json": {"at": now, "jobs": lists.get("jobs", []), "holds": lists.get("holds", [])},
        "waiting.json": {"at": now, "groups": lists.get("groups", [])},
        "workers.json": {"at": now, "workers": lists.get("workers", [])},
    }
    for name, said in files.items():
        write(folder, name, json.dumps(said))
    write(folder, "history.jsonl", "")
    return {"DESK_HISTORY": folder}


def running(farm: Farm, number: int, began: int, name: str = "boot") -> Row:
    """A row of running.json, of a job that began so many seconds ago and may run for an hour."""
    job = farm.job(number)
    return {"job": number, "group": job["group"], "owner": job["owner"], "board": job["board"], "type": job["type"],
            "name": name, "began": int(time.time()) - began, "limit": 3600}


def silent(name: str, seconds: int) -> Row:
    """A row of workers.json, of one that doesn't answer."""
    return {"name": name, "answers": False, "since": int(time.time()) - seconds, "reason": "No route to host"}


def facts(said: str) -> Dict[str, str]:
    """What is said line by line, by its keys."""
    found = [re.fullmatch(r"([a-z]+): +(\S.*)", line) for line in said.splitlines()]
    assert all(found), said
    return {it[1]: it[2] for it in found if it}


def at_terminal(farm: Farm, *words: str, width: int = 80, status: int = 0) -> List[str]:
    """The lines that the client shows at a terminal of this width."""
    process, line = at_a_terminal(farm, *words, width=width)
    text = rest_of(line)
    assert process.wait(timeout=PATIENCE) == status, text
    return at_ease(text.decode().replace("\r\n", "\n")).splitlines()


# ---- one board, one job


def test_who_has_a_board_and_since_when(farm: Farm, folder: str) -> None:
    number = farm.tell("ann", "/reservations", {"tags": ["hdmi"]})["number"]
    farm.submit("true", user="bob", more="tags = ['name=b2']\n")
    passes(farm)
    holder = facts(desk(farm, "boards", "b1")[1])["holder"]
    assert holder == "ann, reservation 1", "since when is the dispatcher's to say"
    farm.tell("dispatcher", "/jobs/2/start")
    since = int(time.time()) - 12 * MINUTE
    holds = [{"board": "b1", "reservation": number, "since": since}, {"board": "b9", "reservation": 7, "since": 5}]
    more = shows(folder, holds=holds, jobs=[running(farm, 2, 6 * MINUTE)])
    status, said, errors = desk(farm, "boards", "name=b1", **more)
    assert (status, errors) == (0, "")
    assert list(facts(said).items()) == [
        ("name", "b1"), ("type", "bbb"), ("health", "Good"), ("state", "Reserved"),
        ("holder", "ann, reservation 1, 12 minutes"), ("checked", "-"), ("tags", "hdmi serial"),
    ]
    assert facts(desk(farm, "boards", "b2", **more)[1])["holder"] == "bob, job 2, 6 minutes of 60 at most"
    assert facts(desk(farm, "boards", "c1", **more)[1])["holder"] == "-"
    others = shows(folder, holds=[{"board": "b2", "reservation": number, "since": since}])
    assert facts(desk(farm, "boards", "b1", **others)[1])["holder"] == "ann, reservation 1", "another farm's"


def test_an_open_job_says_its_name_and_how_long_it_runs_or_why_it_waits(farm: Farm, folder: str) -> None:
    prints(farm, "1\n", "submit", "-", given=JOB + "tags = ['hdmi']\n")
    passes(farm)
    farm.tell("dispatcher", "/jobs/1/start")
    prints(farm, "2\n", "submit", "-", given=JOB + "tags = ['hdmi']\n", user="bob")
    more = shows(folder, jobs=[running(farm, 1, 6 * MINUTE, "nightly\x1b[2J")])
    found = facts(desk(farm, "jobs", "1", **more)[1])
    began = time.strftime("%Y-%m-%d %H:", time.localtime(time.time() - 6 * MINUTE))
    assert found["began"].startswith(began)
    assert (found["name"], found["runs"], found["reason"]) == ("nightly?[2J", "6 minutes of 60 at most", "-")
    found = facts(desk(farm, "jobs", "2", **more)[1])
    assert (found["name"], found["state"], found["began"], found["took"]) == ("one", "Submitted", "-", "-")
    assert found["reason"] == "place 1 of 1 in the queue: 1 board fits, held by job 1 of ann"
    line = desk(farm, "jobs", "1", "2", **more)[1].splitlines()[2]
    assert " one " in line and line.endswith(f" {found['reason']}"), "in a pipe it is whole"


# ---- many jobs


LISTED = ["/boards", "/history.json", "/queue"]  # what holds boards, what ended, and what waits
OF_WHAT_RUNS = ["/running.json", "/status", "/workers.json"]


def full(now: int) -> Dict[str, Row]:
    """256 boards with a job each, and 2,000 groups that wait."""
    numbers = range(1, 257)
    boards = [{"name": f"b{it}", "type": "bbb", "tags": [], "health": "Good", "state": "Running", "holder": f"job {it}",
               "jobs_since": 0, "last_check": 0} for it in numbers]
    queue = [{"number": it, "kind": "group", "owner": "ann", "priority": 50, "boards": 1} for it in range(300, 2300)]
    jobs = [{"job": it, "group": it, "owner": "bob", "board": f"b{it}", "type": "bbb", "name": "boot", "began": now - 60,
             "limit": 3600} for it in numbers]
    groups = [{"group": it["number"], "name": "nightly", "submitted": now, "wants": [{"type": "bbb", "tags": []}]}
              for it in queue]
    job: Row = {
        "number": 1, "group": 1, "kind": "ordinary", "state": "Running", "result": "", "board": "b1", "type": "bbb", "tags": [],
        "role": "", "owner": "bob", "priority": 50, "text": JOB,
    }
    return {
        "/boards": {"boards": boards}, "/queue": {"queue": queue}, "/types": {"types": []},
        "/reservations": {"reservations": []}, "/history.json": {"at": now, "jobs": [], "boards": []},
        "/status": {"clock": now, "count": 9, "next": 3000, "collector": 0, "types": 1, "boards": 256, "jobs": 2300,
                    "reservations": 0},
        "/running.json": {"at": now, "jobs": jobs, "holds": []}, "/waiting.json": {"at": now, "groups": groups},
        **{f"/jobs/{it}": {**job, "number": it, "group": it} for it in numbers},
        **{f"/jobs/{it}": {**job, "number": it, "group": it, "state": "Submitted"} for it in range(300, 2300)},
    }


class Crowd(Answering):
    """A site of a farm whose boards are all held by jobs, and its dispatcher's files."""

    def __init__(self) -> None:
        self.views = full(int(time.time()))
        super().__init__(lambda path: (200, self.views[path]) if path in self.views else (404, NO_ROUTE))


@pytest.fixture
def crowd() -> Iterator[Crowd]:
    with Crowd() as made:
        yield made


def asking(crowd: Crowd, *words: str) -> Tuple[List[List[str]], str, List[str]]:
    """The lines that the client prints but for the head, what it tells, and what it asked for."""
    crowd.asked.clear()
    status, said, errors = desk(crowd.url, *words)
    assert status == 0, errors
    return [line.split() for line in said.splitlines()[1:]], errors, sorted(crowd.asked)


def test_a_big_farms_jobs_are_asked_for_at_once_and_the_newest_are_shown(crowd: Crowd) -> None:
    rows, errors, asked = asking(crowd, "jobs")
    assert [it[0] for it in rows] == [str(it) for it in range(2299, 2249, -1)]
    assert errors == "desk: more are open than these 50: --limit\n"
    assert asked == sorted([*LISTED, *OF_WHAT_RUNS, "/waiting.json"]), "each once, whatever the farm's size"
    assert rows[0][8:] == "256 boards fit: 256 held (job 1 of bob, job 2 of bob, job 3 of bob, job 4 of bob, 252 more)".split()
    rows, errors, asked = asking(crowd, "--user", "bob", "jobs", "--mine", "--limit", "300")
    assert [it[0] for it in rows] == [str(it) for it in range(256, 0, -1)] and errors == ""
    assert rows[0][1:5] == ["Running", "bob", "bbb", "b256"] and re.search(r" 0:0[1-5]:\d\d boot", " ".join(rows[0]))
    assert asked == sorted([*LISTED, *OF_WHAT_RUNS]), "nothing of his waits"


def test_of_jobs_that_arent_open_nothing_more_is_asked(crowd: Crowd) -> None:
    """What one waits for, is called, and runs on is asked where a row has that; the clock too, where a job is open."""
    crowd.views["/queue"]["queue"], of_two = [], {**crowd.views["/queue"]["queue"][0], "boards": 2}
    for it in crowd.views["/boards"]["boards"]:
        it["holder"] = "none"
    assert asking(crowd, "jobs") == ([], "", LISTED)
    crowd.views["/queue"]["queue"] = [of_two]
    assert asking(crowd, "jobs")[2].count("/status") == 1, "for who collects, and for the clock"
    assert asking(crowd, "queue")[2].count("/status") == 1


def test_without_the_dispatchers_word_as_many_jobs_are_asked_for_as_are_shown(crowd: Crowd) -> None:
    for name in ("/running.json", "/waiting.json"):
        del crowd.views[name]
    rows, errors, asked = asking(crowd, "jobs", "--limit", "20")
    assert (len(rows), errors) == (20, "desk: more are open than these 20: --limit\n")
    of_jobs = [it for it in asked if it.startswith("/jobs/")]
    assert len(of_jobs) == len(set(of_jobs)) == 20 + 1 + 4, "one more than are shown, and four that have boards, for why they wait"


def test_files_that_arent_the_dispatchers_say_nothing(farm: Farm, folder: str) -> None:
    """Of rows that aren't as they should be, of no JSON, of lists of others and of numbers without end nothing is told."""
    prints(farm, "1\n", "submit", "-", given=JOB)
    passes(farm)
    farm.tell("dispatcher", "/jobs/1/start")
    good = running(farm, 1, 60)
    more = shows(folder)
    for text in (
        "", "[", "[]", '{"jobs": 5, "holds": {}, "groups": "x", "workers": null}', '{"jobs": [5, null, {}, []]}',
        json.dumps({"jobs": [{**good, "name": 5}], "workers": [{"name": "desk", "answers": 0, "since": 5}]}),
        json.dumps({"jobs": [{**good, "began": -10**400}], "workers": [{**silent("desk", 5), "since": 10**400}]}),
        json.dumps({"workers": [silent("\x1b[2J", 200)], "groups": [{"group": 1, "name": "x", "submitted": 1, "wants": [5]}]}),
    ):
        for name in ("running.json", "waiting.json", "workers.json"):
            write(folder, name, text)
        for words in (["jobs", "1"], ["jobs"], ["queue"], ["boards", "b1"]):
            status, said, errors = desk(farm, *words, **more)
            assert (status, errors) == (0, ""), (text, words)
            assert "at most" not in said and "worker" not in said


# ---- workers


def test_a_worker_that_doesnt_answer_is_said_of_its_boards_and_of_what_waits_for_them(
    make_farm: Callable[..., Farm], folder: str
) -> None:
    farm = make_farm([("r1", "rpi", ["worker=rack2"]), ("b1", "bbb", [])])
    prints(farm, "1\n", "submit", "-", given=JOB.replace("bbb", "rpi"))
    passes(farm)
    farm.tell("dispatcher", "/jobs/1/start")
    prints(farm, "2\n", "submit", "-", given=JOB.replace("bbb", "rpi"))
    more = shows(folder, workers=[silent("rack2", 200), {**silent("rack3", 90), "answers": True}])
    said = "worker rack2 has not answered for 3 minutes"
    assert facts(desk(farm, "boards", "r1", **more)[1])["worker"] == said
    assert "worker" not in desk(farm, "boards", "b1", **more)[1]
    assert desk(farm, "queue", **more)[1].endswith(f" 1 board fits, held by job 1 of ann; {said}\n")
    for number, state in ((1, f"job 1 is Running: {said}"), (2, f"held by job 1 of ann; {said}")):
        tool = waiting_tool(farm, folder, "wait", str(number), "--every", "0.1", **more)
        wait_until("it is said", functools.partial(has_said, tool, state))
    more = shows(folder, workers=[silent("desk", 0)])
    assert facts(desk(farm, "boards", "b1", **more)[1])["worker"] == "worker desk has not answered for less than a minute"
    free = [line.split()[0] for line in desk(farm, "boards", "--free", **more)[1].splitlines()[1:]]
    assert free == [], "r1 is held, and b1's worker doesn't answer"


# ---- wrong names, and what chooses boards


@pytest.mark.parametrize("words, told", [
    (["boards", "nosuch"], "no board has the tag, the type or the name nosuch"),
    (["boards", "hdmi", "name=b9"], "no board has the tag, the type or the name b9"),
    (["boards", "nosuch", "--free", "--json"], "no board has the tag, the type or the name nosuch"),
    (["queue", "nosuch"], "there is no type nosuch"),
    (["queue", "nosuch", "--json"], "there is no type nosuch"),
])
def test_a_wrong_name_is_told_with_the_status_3(farm: Farm, words: List[str], told: str) -> None:
    assert desk(farm, *words) == (3, "", f"desk: {told}\n")


@pytest.mark.parametrize("words, names", [
    ("bbb", "b1 b2"), ("bbb hdmi", "b1"), ("ccc hdmi", ""), ("--free", "b1 c1"), ("bbb --free", "b1"), ("hdmi --free", "b1"),
    ("serial hdmi", "b1"), ("ccc", "c1"), ("name=c1 hdmi", ""),
])
def test_boards_are_chosen_by_type_tag_and_whether_they_are_free(farm: Farm, words: str, names: str) -> None:
    farm.tell("ann", "/reservations", {"tags": ["name=b2"]})
    passes(farm)
    status, said, errors = desk(farm, "boards", *words.split())
    assert (status, errors) == (0, "")
    assert [line.split()[0] for line in said.splitlines()[1:]] == names.split()


def test_a_type_that_nothing_waits_for_is_no_wrong_name(farm: Farm) -> None:
    prints(farm, "PLACE NUMBER KIND PRIORITY BOARDS OWNER TYPE WAITED NAME REASON\n", "queue", "ccc")
    assert desk(farm, "boards", "b1", "b2")[1].count("\n\nname: ") == 1, "two names are two boards"


# ---- tables


def test_tables_fit_the_terminal_and_are_whole_elsewhere(make_farm: Callable[..., Farm], folder: str) -> None:
    tags = [f"a-tag-of-some-length={it}" for it in range(9)]
    farm = make_farm([("beaglebone-black-01", "beaglebone-black", tags), ("b2", "beaglebone-black", [])])
    name = "a job whose name is as long as names may be"
    text = f"job_name = '{name}'\ndevice_type = 'beaglebone-black'\ntags = {tags}\n"
    for number in (1, 2):
        prints(farm, f"{number}\n", "submit", "-", given=text)
    passes(farm)
    prints(farm, "3\n", "reserve", *tags)
    for words in (["boards"], ["queue"], ["jobs", "1", "2"], ["reservations"], ["jobs", "--history", folder]):
        more = ["--history", folder] if "--history" in words else []
        shows(folder)
        words = [*more, *[it for it in words if it not in more]]
        for width in (80, 120, 200):
            lines = at_terminal(farm, *words, width=width)
            assert max(map(len, lines)) <= width, (words, width)
        assert any(re.search(r"\S\.\.( |$)", it) for it in at_terminal(farm, *words)[1:]), words
        wide = at_terminal(farm, *words, "--wide", width=80)
        assert [re.sub(r"\d+ s", "", it) for it in wide] == re.sub(r"\d+ s", "", desk(farm, *words)[1]).splitlines(), words
    assert "\x1b" not in "".join(at_terminal(farm, "boards"))


# ---- a board's name in the place of a number


def test_a_board_that_one_doesnt_hold_isnt_given_back(farm: Farm) -> None:
    farm.tell("ann", "/reservations", {"tags": ["hdmi"]})
    farm.submit("true", more="tags = ['name=b2']\n")
    passes(farm)
    for words, told in (
        (["cancel-reservation", "b1"], "refused: 3 forbidden: asked as bob: reservation 1 is ann's"),
        (["release", "b2"], "board b2 is held by job 2 of ann: desk cancel 2 ends it"),
        (["extend", "c1"], "nobody holds board c1"),
        (["release", "b9"], "there is no board b9"),
        (["release", "2"], "refused: 30 no such reservation: 2 is a job: desk cancel 2"),
        (["cancel", "1"], "refused: 20 no such job: 1 is a reservation: desk cancel-reservation 1"),
    ):
        assert desk(farm, *words, user="bob") == (3, "", f"desk: {told}\n")
    assert farm.reservation(1)["state"] == "allocated"


# ---- mistyped words


@pytest.mark.parametrize("words, told", [
    (["bords"], "there is no command bords: is boards meant?"),
    (["frobnicate"], "there is no command frobnicate: 'desk --help' lists them"),
    (["help", "submitt"], "there is no command submitt: is submit meant?"),
])
def test_a_mistyped_command_gets_the_nearest_one(words: List[str], told: str) -> None:
    status, said, errors = desk("http://127.0.0.1:1", *words)
    assert (status, said) == (2, "") and errors.endswith(f"desk: error: {told}\n") and len(errors) < 300


@pytest.mark.parametrize("words, command, told", [
    (["jobs", "--mien"], "jobs", "there is no option --mien: is --mine meant?"),
    (["boards", "hdmi", "--nowhere"], "boards", "there is no option --nowhere"),
    (["cancel", "1", "--sever", "x"], "cancel", "there is no option --sever"),
    (["types", "bbb"], "types", "there is no argument bbb"),
])
def test_a_mistyped_option_is_told_with_its_commands_usage(words: List[str], command: str, told: str) -> None:
    status, said, errors = desk("http://127.0.0.1:1", *words)
    assert (status, said) == (2, "")
    assert errors.startswith(f"usage: desk {command} [--json]") and errors.endswith(f"desk {command}: error: {told}\n")


# ---- several at once, and reasons


def test_several_jobs_are_canceled_and_all_of_ones_own(farm: Farm) -> None:
    for user in ("ann", "ann", "bob", "ann"):
        farm.submit("true", user=user)
    farm.tell("ann", "/jobs", GROUP.encode())
    passes(farm)
    told = "desk: job 3: refused: 3 forbidden: asked as ann\ndesk: job 99: refused: 20 no such job\n"
    assert desk(farm, "cancel", "1", "3", "99", "2") == (3, "", told)
    assert [farm.job(it)["result"] for it in (1, 2, 3)] == ["Canceled", "Canceled", ""]
    prints(farm, "4\n5\n", "cancel", "--mine")
    prints(farm, "", "cancel", "--mine")
    assert [farm.job(it)["result"] for it in (3, 4, 5, 6)] == ["", "Canceled", "Canceled", "Canceled"]
    assert desk(farm, "cancel")[0] == desk(farm, "cancel", "1", "--mine")[0] == 2


def test_a_job_is_submitted_and_followed_to_its_end(farm: Farm, folder: str) -> None:
    more = shows(folder)
    os.mkdir(os.path.join(folder, "logs"))
    tool = waiting_tool(farm, folder, "submit", write(folder, "boot.toml", JOB), "--follow", "--every", "0.1", **more)
    told = "desk: job 1 is Submitted, and has no log yet\n"
    wait_until("it waits", lambda: told in tool.errors())
    assert desk(farm, "log", "1", **more) == (3, "", told)
    passes(farm)
    farm.tell("dispatcher", "/jobs/1/start")
    for text, wanted in (("it boots\na part", "1\nit boots\na part"), ("it boots\na part of it\n", "1\nit boots\na part of it\n")):
        write(folder, "logs/1", text)
        wait_until("its log", lambda: tool.output() == wanted)  # noqa: B023
    farm.tell("dispatcher", "/jobs/1/finish", {"outcome": "Incomplete"})
    assert (tool.ends(), tool.output()) == (1, "1\nit boots\na part of it\n1 Incomplete b1\n")
    for words in (["log", "1"], ["log", "1", "--follow"]):
        prints(farm, "it boots\na part of it\n", *words, **more)


def test_where_no_log_is_served_the_end_is_waited_for(farm: Farm, folder: str) -> None:
    tool = waiting_tool(farm, folder, "submit", write(folder, "boot.toml", JOB), "--follow", "--every", "0.1")
    number_of(tool)
    passes(farm)
    farm.tell("dispatcher", "/jobs/1/start")
    farm.tell("dispatcher", "/jobs/1/finish", {"outcome": "Complete"})
    assert (tool.ends(), tool.output()) == (0, "1\n1 Complete b1\n")
    assert "serves no history" in tool.errors()


NOTES = """\
# of the lab
[boards.b1]
place = "rack 2"  # left

[boards.b2]
comment = \"\"\"
two
lines\"\"\"
"""


def test_why_a_board_is_bad_is_noted_in_the_labs_file(farm: Farm, folder: str) -> None:
    file = write(folder, "notes.toml", NOTES, 0o640)
    more = {"DISPATCH_NOTES": file}
    told = 'no "boot" since\u00e9 \\ the flood'
    prints(farm, "", "health", "b1", "c1", "Bad", "--reason", told, user="admin", **more)
    assert (farm.board("b1")["health"], farm.board("c1")["health"]) == ("Bad", "Bad")
    said = read(file)
    found = notes.notes_in(said)
    assert found["b1"] == {"place": "rack 2", "reason": told} and found["c1"] == {"reason": told}
    assert found["b2"] == {"comment": "two\nlines"} and "# of the lab" in said and "# left" in said
    assert os.stat(file).st_mode & 0o777 == 0o640
    prints(farm, "", "health", "b1", "Good", "--reason", "", user="admin", **more)
    prints(farm, "", "health", "c1", "Maintenance", "--reason", "looked at", user="admin", **more)
    found = notes.notes_in(read(file))
    assert (found["b1"], found["c1"]) == ({"place": "rack 2"}, {"reason": "looked at"})


def test_a_reason_that_cant_be_noted_is_told(farm: Farm, folder: str) -> None:
    """A board without a name in the file, a file in another form, and none on this machine."""
    inline = 'boards = {b1 = {place = "rack 2"}}\n'
    file = write(folder, "notes.toml", inline)
    status, said, errors = desk(farm, "health", "b1", "Bad", "--reason", "x", user="admin", DISPATCH_NOTES=file)
    assert (status, said) == (3, "") and errors.startswith("desk: the reason isn't noted: ")
    assert read(file) == inline
    none = f"desk: the reason stands in the site's audit alone: this machine has no {folder}/none\n"
    found = desk(farm, "health", "b1", "Good", "--reason", "x", user="admin", DISPATCH_NOTES=f"{folder}/none")
    assert found == (0, "", none)
    assert farm.board("b1")["health"] == "Good"


def test_a_reservation_wants_a_tag_or_the_word_for_any(farm: Farm) -> None:
    status, said, errors = desk(farm, "reserve")
    assert (status, said) == (2, "") and "give a tag of the board" in errors and "--any" in errors
    assert farm.look("/reservations")["reservations"] == []
    assert desk(farm, "reserve", "hdmi", "--any")[0] == 2
    prints(farm, "1\n", "reserve", "--any")


# ---- sentences, and no traces


def test_faults_are_told_in_sentences(farm: Farm, crowd: Crowd) -> None:
    server = f"http://127.0.0.1:{free_port()}"
    errors = desk(server, "queue")[2].splitlines()
    assert errors == [f"desk: waiting for the desk at {server}: connection refused",
                      f"desk: no answer from the desk at {server}: connection refused"]
    del crowd.views["/types"]
    assert desk(crowd.url, "types") == (3, "", f"desk: refused: {crowd.url} has no /types\n")
    assert desk(farm, "tokens")[2] == "desk: refused: tokens are a site's that has farm-door(8)\n"


def test_an_account_without_a_name_is_told_to_say_who_asks(farm: Farm) -> None:
    words = ["setpriv", "--reuid", "54321", "--clear-groups", sys.executable, DESK]
    surroundings = {it: text for it, text in around(farm).items() if it not in ("DESK_USER", "USER", "LOGNAME", "HOME")}
    if os.getuid() != 0 or not is_open(*pathlib.Path(os.path.realpath(DESK)).parents):
        pytest.skip("root alone can be another account, which has to see the checkout")
    ran = subprocess.run([*words, "queue"], env=surroundings, capture_output=True, text=True, check=False)
    told = "desk: who asks isn't said, and this account has no name: --user NAME\n"
    assert (ran.returncode, ran.stdout, ran.stderr) == (4, "", told)
    ran = subprocess.run([*words, "--user", "ann", "--json", "queue"], env=surroundings, capture_output=True, text=True, check=False)
    assert (ran.returncode, ran.stdout) == (0, '{"queue":[]}\n')


@pytest.mark.parametrize("words, status", [
    (["submit", "FILE", "--key", "n\u00e4chtlich"], 2),
    (["submit", "FILE", "--key", "\udcff"], 2),
    (["jobs", "9" * 400], 2), (["cancel", "9" * 5000], 2), (["release", "9" * 400], 2), (["queue", "--limit", "9" * 400], 2),
    (["reserve", "hdmi", "--priority", "9" * 400], 2), (["reserve", "hdmi", "--priority", "9" * 5000], 2),
    (["reserve", "hdmi", "--wait", "--every", "9" * 400], 2), (["usage", "--since", "9" * 400 + "d"], 2),
    (["--timeout", "9" * 400, "queue"], 4), (["--timeout", "9" * 5000, "queue"], 4),
])
def test_words_that_are_no_words_of_the_desks_are_no_traces(farm: Farm, folder: str, words: List[str], status: int) -> None:
    file = write(folder, "boot.toml", JOB)
    found, said, errors = desk(farm, *[file if it == "FILE" else it for it in words])
    assert (found, said) == (status, "") and "Traceback" not in errors and errors.count("\n") <= 4
    assert status == 4 or max(map(len, errors.splitlines())) < 300, "what is told is no longer than a few lines"


@pytest.mark.parametrize("text", [
    f"[timeouts]\njob = {{hours = {'9' * 400}}}\n", f"timeouts.job = '{'9' * 400} hours'\n", f"timeouts.job = {'9' * 400}\n",
    f"priority = {'9' * 400}\n", f"x = {'9' * 5000}\n", f"x = 1e{'9' * 400}\n",
])
def test_a_number_of_many_digits_in_a_job_file_is_no_trace(farm: Farm, text: str) -> None:
    status, _, errors = desk(farm, "submit", "-", given=f"{text if text[0] in 'px' else ''}{JOB}{text if text[0] not in 'px' else ''}")
    assert status in (0, 3) and "Traceback" not in errors and len(errors) < 1000


def test_a_desk_whose_numbers_have_many_digits_is_no_desk(crowd: Crowd) -> None:
    for path, name in (("/status", "clock"), ("/status", "count")):
        crowd.views[path] = {**crowd.views[path], name: 10**400}
    crowd.views["/boards"]["boards"][0]["last_check"] = 10**400
    crowd.views["/running.json"]["jobs"][0]["began"] = 10**400
    for words in (["boards"], ["boards", "b1"], ["queue"], ["jobs", "1"], ["wait", "300"]):
        status, _, errors = desk(crowd.url, *words)
        assert status in (0, 4) and "Traceback" not in errors, words


def test_a_closed_input_is_told(farm: Farm) -> None:
    for words, status in ((["submit", "-"], 4), (["boards"], 0), (["import", "-"], 4)):
        line = ["sh", "-c", 'exec "$@" <&-', "sh", sys.executable, DESK, *words]
        ran = subprocess.run(line, env=around(farm), capture_output=True, text=True, check=False)
        told = "desk: there is no input: it is closed\n" if status else ""
        assert (ran.returncode, at_ease(ran.stderr)) == (status, told)
