"""Jobs that ended, logs, a board's past, what was used, and a job's text once more, from the folder of a dispatcher
on this machine."""
from __future__ import annotations

import json
import os
import shutil
import time
from typing import Any, Dict, List, Sequence, Tuple

import pytest
from answering import Answering
from desks import GROUP, JOB, desk, passes, prints, write
from served import Farm

NOW = int(time.time())
HOUR, DAY = 3600, 86400
Row = Dict[str, Any]


def job_line(
    number: int, owner: str = "ann", boards: Sequence[str] = ("b1",), kind: str = "bbb", name: str = "boot", **more: Any
) -> Row:
    """A line of the history, as docs/farm-dispatch.8 has it; times are before now."""
    waited, held, ago = more.get("waited"), more.get("held", 60), more.get("ago", HOUR)
    return {
        "kind": "job", "job": number, "group": more.get("group", number), "owner": owner,
        "boards": list(boards), "type": kind, "name": name,
        "submitted": None if waited is None else NOW - ago - held - waited,
        "began": NOW - ago - held, "ended": NOW - ago,
        "outcome": more.get("outcome", "Complete"), "reason": more.get("reason", ""),
    }


def health_line(board: str, before: str, after: str, reason: str, ago: int = HOUR) -> Row:
    return {"kind": "health", "board": board, "from": before, "to": after, "at": NOW - ago, "reason": reason}


def past_of(folder: str, *rows: Any, tail: str = "") -> str:
    """A dispatcher's folder with these lines."""
    os.makedirs(os.path.join(folder, "logs"), exist_ok=True)
    write(folder, "history.jsonl", "".join(f"{json.dumps(it)}\n" for it in rows) + tail)
    return folder


def cells(said: str) -> List[List[str]]:
    """The words of each line that is printed."""
    return [line.split() for line in said.splitlines()]


# ---- jobs


def test_open_jobs_and_those_that_ended_are_listed_the_newest_first(farm: Farm, folder: str) -> None:
    """Open jobs by the desk, ended ones by the history."""
    past = past_of(
        folder,
        job_line(901, "zoe", ago=2 * DAY),
        job_line(902, boards=["c1"], kind="ccc", name="x\x1b[31m", outcome="Infra", reason="status 75", held=3723),
        {"kind": "job"}, [], "text", {"kind": "later", "job": 5},
        tail='{"kind":"job","job":903,"ow',
    )
    farm.submit("true")
    passes(farm)
    farm.tell("dispatcher", "/jobs/1/start")
    prints(farm, "2\n", "submit", "-", given=GROUP)
    prints(farm, "4\n", "submit", "-", given=JOB.replace("one", "theirs"), user="bob")
    status, said, errors = desk(farm, "--history", past, "jobs")
    began = time.strftime("%Y-%m-%d %H:%M", time.localtime(NOW - HOUR - 3723)).split()
    earlier = time.strftime("%Y-%m-%d %H:%M", time.localtime(NOW - 2 * DAY - 60)).split()
    assert (status, errors) == (0, "")
    assert cells(said) == [
        ["NUMBER", "STATE", "OWNER", "TYPE", "BOARD", "BEGAN", "TOOK", "NAME", "REASON"],
        ["4", "Submitted", "bob", "bbb", "-", "-", "-", "theirs", "-"],
        ["2", "Submitted", "ann", "bbb", "-", "-", "-", "two",
         *"of 2 boards (bbb) only 1 free: b1 is held by job 1 of ann".split()],
        ["1", "Running", "ann", "bbb", "b1", "-", "-", "test", "-"],
        ["902", "Infra", "ann", "ccc", "c1", *began, "1:02:03", "x?[31m", "status", "75"],
        ["901", "Complete", "zoe", "bbb", "b1", *earlier, "0:01:00", "boot", "-"],
    ]
    mine = cells(desk(farm, "--history", past, "jobs", "--mine")[1])
    assert [it[0] for it in mine[1:]] == ["2", "1", "902"]
    both = json.loads(desk(farm, "jobs", "--last", "1", "--json", DESK_HISTORY=past)[1])
    assert both == {"ended": [job_line(
        902, boards=["c1"], kind="ccc", name="x\x1b[31m", outcome="Infra", reason="status 75", held=3723,
    )], "open": [farm.job(4), farm.job(2), farm.job(1)]}


def test_some_jobs_are_shown_with_their_past(farm: Farm, folder: str) -> None:
    """Of those that ended the history has name, times and reason, also where that is long; a desk by itself has none."""
    farm.submit("true")
    passes(farm)
    farm.tell("dispatcher", "/jobs/1/start")
    farm.tell("dispatcher", "/jobs/1/finish", {"outcome": "Infra"})
    prints(farm, "2\n", "submit", "-", given=JOB)
    line = job_line(1, name="boot", outcome="Infra", reason="status 75", held=3723)
    past = past_of(folder, line, *(job_line(place) for place in range(1000, 1400)))
    began = time.strftime("%Y-%m-%d %H:%M", time.localtime(line["began"])).split()
    status, said, errors = desk(farm, "--history", past, "jobs", "1", "2")
    assert (status, errors) == (0, "")
    head, first, second = cells(said)
    assert head[-5:] == ["TAGS", "BEGAN", "TOOK", "NAME", "REASON"]
    assert first == ["1", "1", "ordinary", "Finished", "Infra", "b1", "bbb", "-", "50", "ann", "-", *began, "1:02:03", "boot",
                     "status", "75"]
    assert second[-10:] == ["-", "-", "one", "place", "1", "of", "1", "in", "the", "queue"]
    found = json.loads(desk(farm, "--history", past, "jobs", "1", "--json")[1])
    assert found == {"jobs": [farm.job(1)], "ended": [line]}
    status, said, errors = desk(farm, "jobs", "1")
    assert (status, [it[-1] for it in cells(said)[:6]]) == (0, ["1", "1", "ordinary", "Finished", "Infra", "b1"])
    assert errors.startswith("desk: times and reasons aren't shown: http://127.0.0.1:")
    assert desk(farm, "jobs", "2")[2] == ""


def test_a_desk_that_serves_no_history_is_told_with_where_to_ask(farm: Farm, folder: str) -> None:
    none = f"{farm.server} serves no history: ask through the proxy "
    none += "(examples/nginx.conf), or on the dispatcher's machine with --history FOLDER\n"
    farm.submit("true")
    status, said, errors = desk(farm, "jobs", "--mine")
    assert (status, cells(said)[1][0], errors) == (0, "1", f"desk: only open jobs are shown: {none}")
    for words in (["log", "1"], ["usage"], ["history", "b1"]):
        assert desk(farm, *words) == (3, "", f"desk: refused: {none}")
    missing = os.path.join(folder, "nowhere")
    told = f"desk: {missing} has no history: {missing}/history.jsonl isn't there\n"
    assert desk(farm, "--history", missing, "usage") == (4, "", told)


# ---- logs


@pytest.mark.parametrize("words", [[], ["--follow"]])
def test_why_there_is_no_log(farm: Farm, folder: str, words: Sequence[str]) -> None:
    past = {"DESK_HISTORY": past_of(folder)}
    assert desk(farm, "log", "77", *words, **past) == (3, "", "desk: there is no job 77\n")
    farm.submit("true")
    farm.tell("ann", "/jobs/1/cancel")
    told = "desk: job 1 has no log: it never began, or its log is too old to be kept\n"
    assert desk(farm, "log", "1", *words, **past) == (3, "", told)


def test_a_log_is_followed_over_a_proxy_that_answers_502_each_byte_printed_once() -> None:
    """A job that has ended by the fourth look. The proxy doesn't reach what it serves for a moment, and takes no part of a
    log's bytes."""
    def says(path: str) -> Tuple[int, object]:
        times = proxy.asked.count(path)
        if path == "/jobs/1":
            return 200, {"state": "Running" if times < 4 else "Finished"}
        if path == "/logs/1":
            return 502 if times in (1, 3) else 200, {"log": "all of it"}
        return 404, {}

    with Answering(says) as proxy:
        found = desk(proxy.url, "log", "1", "--follow", "--every", "0.1")
    told = "desk: no answer from the desk, which is asked again: 502 Bad Gateway\n"
    assert found == (0, '{"log": "all of it"}', told)


# ---- boards


def test_a_boards_jobs_and_changes_of_health_are_shown_with_the_reasons(farm: Farm, folder: str) -> None:
    past = past_of(
        folder,
        job_line(11, ago=5 * HOUR),
        job_line(12, "zoe", boards=["b2"], ago=4 * HOUR),
        health_line("b2", "Good", "Unknown", "job 12 ended Infra"),
        job_line(13, "admin", name="health check", outcome="Incomplete", reason="status 1", ago=2 * HOUR, held=5),
        health_line("b1", "Good", "Bad", "health check 13 ended Incomplete"),
    )
    moments = [time.strftime("%Y-%m-%d %H:%M", time.localtime(NOW - it * HOUR)) for it in (1, 2, 5)]
    prints(farm, f"""\
MOMENT           WHAT              OWNER TOOK    ABOUT
{moments[0]} Good to Bad       -     -       health check 13 ended Incomplete
{moments[1]} job 13 Incomplete admin 0:00:05 health check: status 1
{moments[2]} job 11 Complete   ann   0:01:00 boot
""", "--history", past, "history", "b1")
    said = desk(farm, "--history", past, "history", "b1", "--last", "1", "--json")[1]
    assert json.loads(said) == {"history": [health_line("b1", "Good", "Bad", "health check 13 ended Incomplete")]}
    assert len(cells(desk(farm, "--history", past, "history", "c1")[1])) == 1
    assert desk(farm, "--history", past, "history", "x9") == (3, "", "desk: there is no board x9\n")


# ---- usage


def used(folder: str) -> str:
    """Jobs of ann's wait 10, 50 and 100 s; zoe held b2 for two hours, as farm-watch says beside the dispatcher's folder."""
    shown = os.path.join(folder, "farm-watch", "shown")
    os.makedirs(shown)
    hold = {
        "kind": "hold", "key": "x", "reservation": 9, "owner": "zoe", "board": "b2", "type": "bbb",
        "began": NOW - 4 * HOUR, "ended": NOW - 2 * HOUR, "reason": "",
    }
    write(shown, "holds.jsonl", f"{json.dumps(hold)}\n" + json.dumps({**hold, "kind": "other"}) + '\n{"kind":"ho')
    return past_of(
        os.path.join(folder, "farm-dispatch"),
        job_line(1, held=50 * HOUR, ago=31 * DAY),
        job_line(2, "zoe", boards=["b2"], held=3 * HOUR, outcome="Incomplete", ago=2 * DAY),
        job_line(3, "zoe", boards=["c1"], kind="ccc", held=DAY, outcome="Infra", ago=29 * DAY + DAY // 2),
        *(job_line(10 + it, held=HOUR, waited=it, ago=DAY) for it in (100, 10, 50)),
        job_line(30, boards=["b1", "b2"], held=HOUR, outcome="Canceled", ago=DAY),
        health_line("b1", "Good", "Bad", ""),
    )


def test_usage_by_board_by_type_and_as_json(farm: Farm, folder: str) -> None:
    past = used(folder)
    prints(farm, """\
BOARD JOBS COMPLETE INCOMPLETE INFRA CANCELED HOURS HOLDS HELD WAITED  NINTH
b2       2        0          1     0        1 4.0       1 2.0  -       -
b1       4        3          0     0        1 4.0       0 0.0  0:00:50 0:01:40
""", "--history", past, "usage", "--by", "board", "--since", "3d")
    said = json.loads(desk(farm, "--history", past, "usage", "--json")[1])
    assert said["by"] == "owner" and 0 <= said["until"] - said["since"] - 30 * DAY <= 1
    ann = next(it for it in said["usage"] if it["name"] == "ann")
    assert [ann[it] for it in ("jobs", "canceled", "waited_median", "waited_ninth")] == [4, 1, 50, 100]
    aside = shutil.copy(os.path.join(past, "history.jsonl"), os.path.join(past, "older.jsonl"))
    types = cells(desk(farm, "--history", aside, "usage", "--by", "type", "--since", "2020-01-01")[1])
    assert [[it[0], it[1], it[6]] for it in types[1:]] == [["bbb", "6", "58.0"], ["ccc", "1", "24.0"]]
    assert len(cells(desk(farm, "--history", past, "usage", "--since", "1m")[1])) == 1


# ---- resubmitting


def test_a_jobs_text_is_submitted_again_by_anybody_of_any_member_of_its_group(farm: Farm) -> None:
    prints(farm, "1\n", "submit", "-", given=GROUP)
    prints(farm, "3\n", "resubmit", "2", user="bob")
    assert (farm.job(3)["text"], farm.job(3)["owner"]) == (GROUP, "bob")
    prints(farm, "5\n", "resubmit", "3")
    assert desk(farm, "resubmit", "999") == (3, "", "desk: refused: 20 no such job\n")


def test_a_health_check_has_no_text_that_could_be_submitted_again(farm: Farm) -> None:
    farm.tell("admin", "/types", {"name": "checked", "check": "jobs", "every": 20})
    farm.tell("admin", "/boards", {"name": "k1", "type": "checked"})
    farm.tell("admin", "/boards/k1/health", {"health": "Unknown"})
    passes(farm)
    check = farm.board("k1")["holder"].split()[1]
    told = f"desk: job {check} is a health check, which has no text\n"
    assert desk(farm, "resubmit", check) == (3, "", told)
