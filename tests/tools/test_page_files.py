"""What the status page shows of files beside the desk's views (what jobs left, what their tests said, notes of boards, other
labs, holds that people had), and how it tells that a reservation has come."""
from __future__ import annotations

import json
import os
import time
from typing import Any, Callable, List

import pytest

from pages import BOARDS, HOUR, HURRY, SHOWN, Lab, click, facts_of, past, record, text_of, until
from served import read, wait_until

pytestmark = pytest.mark.xdist_group("page3")
TESTS = {"passed": 12, "failed": 1, "errors": 0, "skipped": 2, "names": ["usb.speed"]}
COUNTS = "12 passed, 1 failed, 2 skipped"


def put(lab: Lab, path: str, told: Any) -> None:
    lab.files[path] = json.dumps(told).encode()


def test_what_a_job_left_is_listed_and_saved(lab: Lab, folder: str) -> None:
    row = {**record(900, "ann", "b1", int(time.time()) - 60), "artifacts": {"files": 2, "bytes": 1244, "left_out": 1}}
    past(lab, row)
    files = [{"number": 1, "name": "boot/console.log", "size": 1234}, {"number": 2, "name": "junit.xml", "size": 10}]
    put(lab, "/artifacts/900/index.json", {
        "group": 900, "files": files, "left_out": [{"name": "passwd", "why": "a link"}],
    })
    lab.files["/artifacts/900/1"] = b"<script>document.title = 1</script>"
    opened = lab.opened("/#/jobs/900")
    listed = "[...document.querySelectorAll('#artifacts li')].map(it => [it.textContent, it.firstChild.pathname])"
    wait_until("the list", lambda: bool(opened.ask(listed)))
    assert opened.ask(listed) == [
        ["boot/console.log 1.2 kB", "/artifacts/900/1"], ["junit.xml 10 bytes", "/artifacts/900/2"],
    ]
    assert text_of(opened, "#artifacts p") == "passwd isn't kept: a link"
    saves = {"behavior": "allow", "downloadPath": folder, "browserContextId": lab.visit.context}
    opened.browser.do("Browser.setDownloadBehavior", **saves)
    opened.ask("document.querySelector('#artifacts a').click()")
    file = os.path.join(folder, "console.log")
    wait_until("it is saved", lambda: os.path.exists(file) and read(file) == "<script>document.title = 1</script>")
    assert text_of(opened, "dialog:modal h2") == "Job 900: test 900", "the page is still there"


def test_what_a_jobs_tests_said_stands_in_the_history_and_at_the_job(lab: Lab) -> None:
    now = int(time.time())
    past(lab, {**record(900, "ann", "b1", now - 60, "Incomplete", "status 1"), "tests": TESTS}, record(899, "ann", "b2", now - 90))
    opened = lab.opened()
    shown = opened.ask(SHOWN)
    assert [row[-1] for row in shown["ended"]] == [f"{COUNTS}; status 1", ""]
    click(opened, "boards", "b1", "b1")
    assert [row[-1] for row in opened.ask(SHOWN)["board-history"]] == [f"test 900: {COUNTS}; status 1", "no prompt"]
    opened.ask("void (location.hash = '#/jobs/900')")
    wait_until("the job", lambda: "Tests" in facts_of(opened, "job"))
    facts = facts_of(opened, "job")
    assert (facts["Tests"], facts["Failed"], facts["Reason"]) == (COUNTS, "usb.speed", "status 1")
    opened.ask("void (location.hash = '#/jobs/899')")
    wait_until("another", lambda: text_of(opened, "#job-title") == "Job 899: test 899")
    assert not {"Tests", "Failed"} & set(facts_of(opened, "job"))


def test_notes_of_a_board_are_texts_and_a_link_to_a_site(lab: Lab) -> None:
    wiki = "https://wiki.lab.example/b1?a=1"
    put(lab, "/notes.json", {"boards": {
        "b1": {"place": "rack 3", "owner": "bob", "comment": "hdmi is <b>loose</b>", "wiki": wiki},
        "b2": {"place": ["rack"], "wiki": "javascript:alert(1)"},
    }})
    opened = lab.opened("/#/boards/b1")
    wait_until("its notes", lambda: "Place" in facts_of(opened, "board"))
    facts = facts_of(opened, "board")
    assert [facts[it] for it in ("Place", "Cared for by", "Comment", "Wiki")] == ["rack 3", "bob", "hdmi is <b>loose</b>", wiki]
    link = "(it => it && [it.href, it.rel, it.target])(document.querySelector('#board dd a'))"
    assert opened.ask(link) == [wiki, "noreferrer noopener", "_blank"]
    opened.ask("void (location.hash = '#/boards/b2')")
    wait_until("another board", lambda: text_of(opened, "#board-title") == "b2")
    assert not {"Place", "Wiki", "Comment"} & set(facts_of(opened, "board"))
    assert opened.ask(link) is None


def test_other_labs_have_a_menu(lab: Lab) -> None:
    berlin, paris = {"name": "berlin", "address": "/"}, {"name": "paris", "address": "https://paris.lab.example/"}
    put(lab, "/labs.json", {"labs": [berlin, paris, {"name": "x", "address": "javascript:alert(1)"}]})
    opened = lab.opened()
    links = "[...document.querySelectorAll('#labs a')].map(it => [it.textContent, it.href, it.getAttribute('aria-current')])"
    assert opened.ask(links) == [
        ["berlin", opened.ask("location.origin") + "/", "page"], ["paris", "https://paris.lab.example/", None],
    ]
    assert opened.ask("document.getElementById('labs').checkVisibility()")
    assert opened.ask("document.title") == "berlin - Board farm"
    put(lab, "/labs.json", {"labs": [berlin]})
    assert not lab.opened().ask("document.getElementById('labs').checkVisibility()"), "a lab alone needs none"


def test_usage_counts_holds_of_people_where_they_are_kept(lab: Lab) -> None:
    now = int(time.time())
    run = {**record(1, "ann", "b1", now - 60), "began": now - 60 - 2 * HOUR}
    held = {"kind": "hold", "key": "k", "reservation": 7, "owner": "bob", "board": "b2", "type": "bbb", "reason": "",
            "began": now - 60 - 3 * HOUR, "ended": now - 60}
    lab.files["/history.jsonl"] = json.dumps(run).encode()
    past(lab, run)
    sums = "[...document.querySelectorAll('#usage-sums li')].map(it => it.textContent)"
    opened = lab.opened("/#/usage")
    wait_until("jobs alone", lambda: bool(opened.ask(sums) == ["ann: 2.0 hours"]))
    assert text_of(opened, "#usage-said") == "Holds of people aren't counted: farm-watch keeps none here."
    lab.files["/holds.jsonl"] = f"{json.dumps(held)}\n".encode()
    opened = lab.opened("/#/usage")
    wait_until("with holds", lambda: bool(opened.ask(sums) == ["bob: 3.0 hours, 3.0 held", "ann: 2.0 hours"]))
    assert text_of(opened, "#usage-said") == ""
    assert opened.ask("document.querySelector('#usage h3').innerText") == "Hours of boards in jobs and held by people, a day"
    opened.ask("void (it => { it.value = 'board'; it.dispatchEvent(new Event('change')); })(document.getElementById('usage-by'))")
    assert opened.ask(sums) == ["b2: 3.0 hours, 3.0 held", "b1: 2.0 hours"]
    drawn = "document.querySelector('#usage-days svg').getAttribute('aria-label')"
    assert opened.ask(drawn).startswith("hours by day: ")
    opened.ask("void (location.hash = '#/boards/b2')")
    row = ["held", "bob", "", "reservation 7: 3 hours"]
    until(opened, "its history", lambda it: [line[1:] for line in it["board-history"]] == [row])


# Notifications are noted in place of being shown; whether they may be shown is the browser's own word.
NOTED = """window.noted = []; window.Notification = new Proxy(Notification, {
  construct(target, [title, {body}]) { noted.push([title, body]); return {}; }});"""
SIGHT = "(Object.defineProperty(document, 'hidden', {{value: {}, configurable: true}}), undefined)"


def test_a_reservation_that_comes_is_told_out_of_sight_and_in_the_title(lab: Lab) -> None:
    lab.visit.browser.do("Browser.grantPermissions", permissions=["notifications"], browserContextId=lab.visit.context)
    opened = lab.opened(before=HURRY + NOTED)
    reserves = "takes.checked = true; tags.value = '{}'; reserve.requestSubmit()"

    def comes(number: int, board: str) -> None:
        opened.ask(reserves.format(f"name={board}"))
        until(opened, "it waits", lambda it: len(it["reservations"]) == number)
        lab.passes()
        wait_until("it is taken", lambda: bool(lab.farm.reservation(number)["state"] == "acquired"))

    boards: List[str] = [name for name, _, _ in BOARDS]
    comes(1, boards[0])
    until(opened, "it is told", lambda it: it["news"] == f"{boards[0]} is yours")
    lab.looks_twice()
    assert opened.ask(SHOWN)["news"] == f"{boards[0]} is yours", "a look that finds it offered doesn't say that it is to be taken"
    assert opened.ask("noted") == [], "in sight"
    opened.ask(SIGHT.format("true"))
    comes(2, boards[1])
    wait_until("it is told", lambda: bool(opened.ask("noted") == [["Board farm", f"{boards[1]} is yours"]]))
    wait_until("its title", lambda: bool(opened.ask("document.title") == f"({boards[1]} is yours) 127.0.0.1 - Board farm"))
    opened.ask(SIGHT.format("false"))
    wait_until("it is seen", lambda: bool(opened.ask("document.title") == "127.0.0.1 - Board farm"))


# ---- workers


def test_a_worker_that_doesn_t_answer_is_told_at_its_boards_and_jobs(make_lab: Callable[..., Lab]) -> None:
    lab = make_lab([("b1", "bbb", ["worker=rack2"]), ("b2", "bbb", ["worker=rack2"]), ("c1", "ccc", [])])
    runs = lab.farm.submit("true", "bbb", "bob")
    lab.passes()
    lab.farm.submit("true", "bbb", "bob", more="tags = ['name=b2']\n")
    told = "worker rack2 has not answered for 3 minutes"
    away = {"name": "rack2", "answers": False, "since": int(time.time()) - 190, "reason": "no route to host"}
    put(lab, "/workers.json", {"at": int(time.time()), "workers": [{**away, "name": "desk", "answers": True}, away]})
    opened = lab.opened()
    shown = until(opened, "it is told", lambda it: told in it["warned"])
    assert f"{told}: no route to host" in shown["warned"]
    assert [row[3].partition(", ")[2] for row in shown["boards"]] == ["no answer"] * 2 + [""]
    assert [row[6] for row in shown["queue"]] == ["1 board fits, on worker rack2, which doesn't answer"]
    opened.ask("void (location.hash = '#/boards/b1')")
    wait_until("at the board", lambda: facts_of(opened, "board").get("Worker", "").startswith(told))
    opened.ask(f"void (location.hash = '#/jobs/{runs}')")
    wait_until("at the job", lambda: facts_of(opened, "job").get("Worker", "").startswith(told))
    assert opened.poor_texts() == set()
    put(lab, "/workers.json", {"at": 1, "workers": [{**away, "answers": True}]})
    until(opened, "it answers", lambda it: told not in it["warned"] and "answer" not in str(it["boards"]))
    put(lab, "/workers.json", ["rack2"])
    lab.looks_twice()
    assert opened.ask(SHOWN)["said"].startswith("as of")
