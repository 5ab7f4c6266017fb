"""What the status page tells of the past: boards' history, jobs that ended, their logs, since when a
board is held; and that the rows of the next farm aren't taken for those of the one before."""
from __future__ import annotations

import time
from typing import Any, Callable, List

import pytest

from browser import Page
from pages import (
    BOARDS, PHONE, SHOWN, STATE, Lab, choose, click, facts_of, names, past, record, seen, tell_at, text_of, until,
)
from served import Farm, wait_until

pytestmark = pytest.mark.xdist_group("page2")


def with_a_past(lab: Lab) -> List[Any]:
    """Serves three jobs that ended, the newest five minutes ago."""
    lab.date = now = int(time.time())
    jobs = [
        record(900, "ann", "b1", now - 330),
        record(899, "bob", "b1", now - 7300, "Infra", "lost"),
        record(898, "bob", "b2", now - 9000, "Incomplete"),
    ]
    past(lab, *jobs)
    return jobs


def log(opened: Page) -> str:
    return str(text_of(opened, "#log"))


def log_said(opened: Page) -> str:
    return str(text_of(opened, "#log-said"))


def test_where_no_history_is_served_the_page_says_so(lab: Lab) -> None:
    assert lab.look()["quiet"] == "No history and no logs are served here."


def test_ended_jobs_are_shown_found_and_ones_own(lab: Lab) -> None:
    with_a_past(lab)
    opened = lab.opened()
    shown = opened.ask(SHOWN)
    assert shown["quiet"] == ""
    assert shown["ended"][0] == ["900", "test 900", "ann", "b1", "Complete", "5 min ago", "90 s", ""]
    assert names(shown, "ended") == ["900", "899", "898"]
    choose(opened, "infra")
    assert names(opened.ask(SHOWN), "ended") == ["899"]
    choose(opened, "")
    opened.ask("mine.click()")
    assert names(opened.ask(SHOWN), "ended") == ["900"]


def test_a_board_tells_its_history_newest_first_and_what_is_new(lab: Lab) -> None:
    jobs = with_a_past(lab)
    opened = lab.opened()
    click(opened, "boards", "b1", "b1")
    assert [row[1:] for row in opened.ask(SHOWN)["board-history"]] == [
        ["job 900", "ann", "Complete", "test 900"],
        ["health", "", "Good to Bad", "no prompt"],
        ["job 899", "bob", "Infra", "test 899: lost"],
    ]
    assert facts_of(opened, "board")["Health"] == "Good"
    assert opened.poor_texts() == set()
    past(lab, record(901, "ann", "b1", int(time.time())), *jobs)
    wait_until("what is new", lambda: "901" in str(text_of(opened, "#board-history")))


def running(lab: Lab) -> int:
    """A job that runs on c1."""
    number = lab.farm.submit("true", "ccc")
    lab.passes()
    lab.farm.tell("dispatcher", f"/jobs/{number}/start")
    past(lab)
    return number


def test_a_jobs_log_is_shown_at_a_click_and_followed_while_it_runs(lab: Lab) -> None:
    number = running(lab)
    path = f"/logs/{number}"
    opened = lab.opened()
    click(opened, "boards", "c1", f"job {number}")
    wait_until("no log", lambda: log_said(opened) == "no log yet")
    lab.files[path] = b"\x1b[1;32mU-Boot\x1b[0m\r\nboots\n"
    wait_until("the log", lambda: log(opened) == "U-Boot\nboots\n")
    assert text_of(opened, "#log .green") == "U-Boot"
    assert log_said(opened) == ""
    opened.ask("void (window.kept = document.getElementById('log').firstChild)")
    lab.files[path] += b"login:"
    wait_until("more of it", lambda: log(opened) == "U-Boot\nboots\nlogin:")
    assert opened.ask("kept === document.getElementById('log').firstChild"), "it isn't added"
    lab.farm.tell("dispatcher", f"/jobs/{number}/finish", {"outcome": "Incomplete"})
    wait_until("its end", lambda: facts_of(opened, "job")["State"] == "Finished, Incomplete")
    wait_until("its log's end is read", lambda: bool(opened.ask(STATE.format("Boolean(state.openedJob.isDone)"))))
    lab.asked.clear()
    lab.looks_twice()
    assert lab.times_asked(path) == 0, "it is asked for again"


def test_of_a_long_log_the_end_is_shown_and_all_of_it_by_a_link(lab: Lab) -> None:
    number = running(lab)
    lab.files[f"/logs/{number}"] = b"x" * 300_000 + b"end"
    opened = lab.opened()
    click(opened, "boards", "c1", f"job {number}")
    wait_until("its end", lambda: log(opened).endswith("end"))
    assert (len(log(opened)), log_said(opened)) == (200_000, "the end of it")
    assert opened.ask("new URL(document.getElementById('whole-log').href).pathname") == f"/logs/{number}"


def test_a_log_that_isnt_kept_any_more_is_told(lab: Lab) -> None:
    number = running(lab)
    lab.farm.tell("dispatcher", f"/jobs/{number}/finish", {"outcome": "Incomplete"})
    opened = lab.opened()
    opened.ask(f"void (location.hash = '#/jobs/{number}')")
    wait_until("one that is gone", lambda: log_said(opened) == "no log is kept of it")


def test_a_board_tells_since_when_it_is_held_as_far_as_that_is_known(make_lab: Callable[..., Lab]) -> None:
    now = time.time()
    lab = make_lab(at=now - 7600)
    number = tell_at(lab.farm, now - 7500, "bob", "/reservations", {"tags": ["hdmi"]})
    tell_at(lab.farm, now - 7500, "dispatcher", "/pass")
    tell_at(lab.farm, now - 7450, "bob", f"/reservations/{number}/acquire")
    lab.farm.start()
    before = lab.farm.submit("true", "ccc")
    lab.passes()
    opened = lab.open()
    held = [[row[it] for it in (0, 4, 5)] for row in seen(opened)["boards"]]
    assert held[0] == ["b1", f"bob reservation {number}", "> 2 h"], "its lease was set then, first or last"
    assert held[2] == ["c1", f"ann job {before} test", ""], "a job that was there"
    later = lab.farm.submit("true", "bbb")
    lab.passes()
    shown = until(opened, "a job that came", lambda it: f"job {later}" in it["boards"][1][4])
    assert shown["boards"][1][5] == "< 1 min"
    opened.close()
    opened = lab.opened()
    later_on = "Promise.all([import('/page/state.js'), import('/page/again.js')]).then(([{state}, {draw}]) =>"
    shown = opened.ask(f"{later_on} (state.offset += 9000000, draw(), {SHOWN}))")
    assert [it[5] for it in shown["boards"]] == ["> 4 h", "2 h", "> 2 h"], "two and a half hours later"


def test_where_the_next_farm_begins_the_page_forgets_the_one_before(
    lab: Lab, make_farm: Callable[..., Farm]
) -> None:
    """A farm that is full is followed by another, whose numbers begin at 1 again."""
    lab.reserve("ann", "hdmi")
    lab.farm.submit("true", "ccc", "eve")
    lab.reserve("ann", "hdmi")
    lab.passes()
    opened = lab.opened()
    assert [it[4] for it in opened.ask(SHOWN)["boards"]] == ["ann reservation 1", "", "eve job 2 test"]
    lab.farm.kill()
    lab.farm = make_farm(BOARDS)
    lab.reserve("bob", "hdmi")
    lab.farm.submit("true", "ccc", "fay")
    lab.passes()
    held = ["bob reservation 1", "", "fay job 2 test"]
    until(opened, "who holds them then", lambda it: [row[4] for row in it["boards"]] == held)


@pytest.mark.parametrize("late", [0, 1])
def test_on_a_phone_nothing_moves_while_it_looks(lab: Lab, late: int) -> None:
    """Also where the history, and what is known of reservations, come so many seconds after the desk's views."""
    lab.delays.update({"/history.json": late, "/reservations": late})
    lab.reserve("ann", "hdmi")
    lab.passes()
    past(lab, record(900, "ann", "b1", int(time.time()) - 300))
    watch = """window.shift = 0; new PerformanceObserver(list => {
      for (const it of list.getEntries()) shift += it.value;
    }).observe({type: "layout-shift", buffered: true});"""
    opened = lab.opened(wide=PHONE, high=844, before=watch)
    lab.looks_twice()
    assert opened.ask("shift") < 0.05
