"""What a user does with the status page, in a headless Chromium: finds what is his or her own, sorts,
groups, reserves a board, takes it, extends it, gives it back, cancels, by mouse and by keyboard, also
where answers are lost and commands refused; an admin sets healths."""
from __future__ import annotations

import json
import re
import time
import urllib.parse
from typing import Callable, List, Optional

import pytest

from browser import Visit
from nginx_site import WORDS, Site
from pages import (
    BOARDS, BUTTON, HEAD, SHOWN, STATE, Lab, Shown, answer, buttons, choose, click, facts_of, names, seen, sort_by, tell_at,
    text_of, until,
)
from served import Farm, wait_until

pytestmark = pytest.mark.xdist_group("page3")
NOBODY_KNOWS = "no answer: nobody knows whether it was done"

# ---- finding


def test_mine_shows_what_is_the_viewers_by_the_address_too(lab: Lab) -> None:
    number = lab.farm.submit("true", "ccc", "ann")
    other = lab.reserve("bob", "hdmi")
    lab.passes()
    waits = lab.reserve("ann", "hdmi")
    opened = lab.opened()
    shown = opened.ask(SHOWN)
    assert shown["who"] == "ann"
    assert [len(shown[it]) for it in ("boards", "queue", "reservations")] == [3, 1, 2]
    marked = "[...document.querySelectorAll('tr.mine')].map(it => it.cells[0].textContent)"
    assert opened.ask(marked) == ["c1", "1", str(waits)]
    opened.ask("mine.click()")
    shown = opened.ask(SHOWN)
    assert [(it[0], it[4]) for it in shown["boards"]] == [("c1", f"ann job {number} test")]
    assert [it[1] for it in shown["queue"]] == [f"reservation {waits}"]
    assert names(shown, "reservations") == [str(waits)]
    assert shown["counts"]["boards"] == "(1 of 3)"
    assert opened.ask("location.search") == "?mine"
    choose(opened, "hdmi")
    shown = opened.ask(SHOWN)
    assert (shown["boards"], len(shown["reservations"])) == ([], 1), "hers that have a word"
    shown = lab.look("/?mine&q=hdmi")
    assert (shown["boards"], len(shown["reservations"])) == ([], 1), "by its address"
    lab.user = "bob"
    shown = lab.look("/?mine")
    assert (names(shown), names(shown, "reservations")) == (["b1"], [str(other)]), "bob's"


def test_a_click_on_a_head_sorts_then_the_other_way_round_then_no_more(lab: Lab) -> None:
    for name in ("b10", "a1"):
        lab.farm.tell("admin", "/boards", {"name": name, "type": "bbb", "tags": []})
    lab.set_health(b2="Bad", b10="Good")
    opened = lab.opened("/?flat")
    head = HEAD.format(table="boards", text="Board")
    for way, wanted in [
        (None, ["a1", "b1", "b10", "b2", "c1"]),
        ("ascending", ["a1", "b1", "b2", "b10", "c1"]),
        ("descending", ["c1", "b10", "b2", "b1", "a1"]),
        (None, ["a1", "b1", "b10", "b2", "c1"]),
    ]:
        assert names(opened.ask(SHOWN)) == wanted, way
        assert opened.ask(f"{head}.getAttribute('aria-sort')") == way
        sort_by(opened, "boards", "Board")
    sort_by(opened, "boards", "Health")
    assert opened.ask("document.querySelectorAll('#boards [aria-sort]').length") == 1
    assert names(opened.ask(SHOWN)) == ["b2", "b1", "b10", "c1", "a1"]
    lab.set_health(b2="Good")
    until(opened, "a new look", lambda it: names(it) == ["b1", "b10", "b2", "c1", "a1"])


def test_boards_stand_by_type_with_counts_and_a_type_can_be_closed(lab: Lab) -> None:
    for name in ("b3", "b4"):
        lab.farm.tell("admin", "/boards", {"name": name, "type": "bbb", "tags": []})
    lab.set_health(b2="Bad", b3="Retired", b4="Retired")
    lab.reserve("bob", "name=b1")
    lab.passes()
    opened = lab.opened()
    assert opened.ask(SHOWN)["groups"] == [
        ["bbb", "4 boards", "1 held 1 bad 2 retired"],
        ["ccc", "1 board", "1 free"],
    ]
    opener = "document.querySelector('#boards tr.group button')"
    opened.ask(f"{opener}.focus()")
    opened.key("Enter", 13, "\r")
    assert names(opened.ask(SHOWN)) == ["c1"]
    assert opened.ask(f"{opener}.getAttribute('aria-expanded')") == "false"
    assert opened.ask(f"document.activeElement === {opener}"), "where the focus is"
    choose(opened, "hdmi")
    assert names(opened.ask(SHOWN)) == ["b1"], "words look into it"
    choose(opened, "")
    assert names(opened.ask(SHOWN)) == ["c1"]
    opened.key("Enter", 13, "\r")
    assert len(opened.ask(SHOWN)["boards"]) == 5
    opened.ask("grouping.click()")
    shown = opened.ask(SHOWN)
    assert (shown["groups"], len(shown["boards"])) == ([], 5)
    assert opened.ask("location.search") == "?flat"
    assert opened.ask("document.querySelector('td.type').checkVisibility()")


def test_an_unknown_board_of_a_type_with_a_check_isnt_free(lab: Lab) -> None:
    lab.farm.tell("admin", "/types", {"name": "ddd", "check": "jobs", "every": 3})
    for name, kind in (("b3", "bbb"), ("d1", "ddd"), ("d2", "ddd")):
        lab.farm.tell("admin", "/boards", {"name": name, "type": kind, "tags": ["usb"]})
    lab.set_health(b3="Unknown", d1="Unknown", d2="Good")
    opened = lab.opened()
    shown = opened.ask(SHOWN)
    assert shown["groups"][0] == ["bbb", "3 boards", "3 free"]
    assert shown["groups"][2] == ["ddd", "2 boards", "1 free 1 to be checked"]
    assert [buttons(shown, "boards", it) for it in ("b3", "d1", "d2")] == ["Reserve", "", "Reserve"]
    opened.ask("tags.value = 'usb'; tags.dispatchEvent(new Event('input')); tags.focus()")
    assert opened.ask("fits.textContent") == "3 boards fit, 2 free"


def test_keys_go_from_row_to_row_and_open_dialogs(lab: Lab) -> None:
    opened = lab.opened()
    for key, focused in (("j", "bbb"), ("j", "b1"), ("k", "bbb"), ("j", "b1")):
        opened.key(key, ord(key.upper()), key)
        assert focused in opened.ask("document.activeElement.textContent")
    for key, number, text, title in (("Enter", 13, "\r", "b1"), ("?", 191, "?", "Keys"), ("n", 78, "n", "Submit a job")):
        opened.key(key, number, text)
        wait_until(title, lambda: text_of(opened, "dialog:modal h2") == title)  # noqa: B023
        opened.key("Escape", 27)
        wait_until("closed", lambda: text_of(opened, "dialog:modal h2") is None)


def test_slash_goes_to_the_search_and_escape_leaves_search_and_dialogs(lab: Lab) -> None:
    opened = lab.opened("/?q=b1")
    opened.key("/", 191, "/")
    assert opened.ask("document.activeElement.id") == "filter"
    opened.key("/", 191, "/")
    assert "/" in opened.ask("filter.value"), "a / in a word"
    opened.key("Escape", 27)
    assert (opened.ask("filter.value"), len(opened.ask(SHOWN)["boards"])) == ("", 3)
    opened.key("Escape", 27)
    assert opened.ask("document.activeElement.tagName") == "BODY"
    opened.ask(BUTTON.format(table="boards", row="b1", text="b1") + ".focus()")
    opened.key("Enter", 13, "\r")
    assert text_of(opened, "dialog:modal h2") == "b1"
    opened.key("/", 191, "/")
    assert opened.ask("document.activeElement.id") != "filter", "/ in a dialog"
    opened.key("Escape", 27)
    wait_until("it is closed", lambda: not opened.ask("document.querySelector('dialog:modal')"))
    assert opened.ask("document.activeElement.textContent") == "b1", "the focus comes back"


def test_a_click_beside_a_dialog_closes_it_and_one_within_does_not(lab: Lab) -> None:
    opened = lab.opened()
    click(opened, "boards", "b1", "b1")
    left = opened.ask("board.getBoundingClientRect().left")
    opened.click_at(left + 4, 500)
    assert text_of(opened, "dialog:modal h2") == "b1"
    opened.click_at(left - 4, 500)
    wait_until("it is closed", lambda: text_of(opened, "dialog:modal h2") is None)


# ---- commands


def test_a_board_is_reserved_by_tags_which_are_offered_and_counted(lab: Lab) -> None:
    opened = lab.opened()
    assert buttons(opened.ask(SHOWN), "boards", "b2") == "Reserve"
    assert opened.ask(BUTTON.format(table="boards", row="b2", text="Reserve") + ".ariaLabel") == "Reserve b2"
    opened.ask("tags.focus()")
    opened.do("Input.insertText", text="serial hd")
    assert opened.ask("[...completions.children].map(it => it.value)") == ["serial hdmi"]
    assert opened.ask("fits.textContent") == "0 boards fit, 0 free"
    opened.do("Input.insertText", text="mi")
    assert opened.ask("fits.textContent") == "1 board fits, 1 free"
    opened.key("Enter", 13, "\r")
    shown = until(opened, "it is reserved", lambda it: it["reservations"])
    path, used, body = lab.given.pop()
    assert (path, json.loads(body)) == ("/reservations", {"tags": ["serial", "hdmi"]})
    assert re.fullmatch(r"[0-9a-f]{32}", str(used)), "its key"
    assert lab.farm.reservation(1)["owner"] == "ann"
    assert buttons(shown, "reservations", "1") == "Extend Cancel"
    wait_until("the field is empty again", lambda: bool(opened.ask("tags.value") == ""))


def test_a_board_is_taken_extended_and_given_back_by_keys(lab: Lab) -> None:
    number = str(lab.reserve("ann", "hdmi"))
    opened = lab.opened()
    lab.passes()
    shown = until(opened, "it is allocated", lambda it: it["reservations"][0][1] == "allocated")
    assert buttons(shown, "reservations", number) == "Take Extend Cancel"
    assert buttons(shown, "boards", "b1") == "Take Extend Cancel"
    told = f"reservation {number} has b1: take it within a minute"
    until(opened, "the change is told", lambda it: it["news"] == told)
    opened.ask(BUTTON.format(table="boards", row="b1", text="Take") + ".focus()")
    assert opened.ask("document.activeElement.ariaLabel") == f"Take reservation {number}"
    opened.key("Enter", 13, "\r")
    until(opened, "it is acquired", lambda it: it["reservations"][0][1] == "acquired" and (
        buttons(it, "boards", "b1") == "Extend Give back"))
    row = "document.activeElement.closest('tr').cells[0].textContent"
    assert opened.ask(row) == "b1", "the focus stays in the row"
    click(opened, "reservations", number, "Extend")
    until(opened, "it is told", lambda it: it["news"] == f"reservation {number} is extended")
    assert [it[0] for it in lab.given] == [f"/reservations/{number}/{it}" for it in ("acquire", "refresh")]
    click(opened, "reservations", number, "Give back")
    assert text_of(opened, "dialog:modal p") == "Give back b1? Others may get it at once."
    assert opened.ask("document.activeElement.textContent") == "No", "what Enter would do"
    opened.key("Escape", 27)
    wait_until("the question is gone", lambda: text_of(opened, "dialog:modal p") is None)
    assert len(lab.given) == 2, "no further command"
    click(opened, "reservations", number, "Give back")
    opened.key("Tab", 9)
    opened.key("Enter", 13, "\r")
    shown = until(opened, "it is given back", lambda it: not it["reservations"] and it["news"] == "b1 is given back")
    assert buttons(shown, "boards", "b1") == "Reserve"
    assert len({it[1] for it in lab.given}) == 3, "each command has a key of its own"


def test_a_command_without_an_answer_is_sent_again_under_its_key(lab: Lab) -> None:
    opened = lab.opened()
    lab.troubles = [0, 503]
    click(opened, "boards", "b2", "Reserve")
    until(opened, "it is reserved", lambda it: len(it["reservations"]) == 1)
    wait_until("the answer", lambda: bool(opened.ask(STATE.format("state.told.size")) == 0))
    assert (len(lab.given), len({it[1] for it in lab.given})) == (3, 1), "how often it was sent, under how many keys"
    assert len(lab.farm.look("/reservations")["reservations"]) == 1, "done once"


@pytest.mark.slow(20)
def test_a_command_without_any_answer_can_be_sent_again_under_its_key(lab: Lab) -> None:
    number = str(lab.reserve("ann", "hdmi"))
    opened = lab.opened()
    lab.troubles = [0] * 1000
    click(opened, "reservations", number, "Extend")
    shown = until(opened, "it is given up", lambda it: "nobody knows" in str(it["reservations"]))
    assert NOBODY_KNOWS in buttons(shown, "reservations", number)
    lab.troubles = []
    sent = len(lab.given)
    assert sent > 3
    click(opened, "reservations", number, "Send again")
    until(opened, "an answer", lambda it: it["news"] == f"reservation {number} is extended")
    assert (len(lab.given), len({it[1] for it in lab.given})) == (sent + 1, 1)
    assert buttons(opened.ask(SHOWN), "reservations", number) == "Extend Cancel", "nothing is told beside it"


def test_a_refusal_is_told_in_words_beside_the_row(make_lab: Callable[..., Lab]) -> None:
    now = time.time()
    lab = make_lab(at=now - 100)
    number = str(tell_at(lab.farm, now - 70, "ann", "/reservations", {"tags": ["hdmi"]}))
    tell_at(lab.farm, now - 68, "dispatcher", "/pass")
    lab.farm.start()
    opened = lab.open()
    until(opened, "its lease is over", lambda it: "over" in str(it["reservations"]))
    click(opened, "reservations", number, "Take")
    told = "refused: reservation expired (reserve again)"
    shown = until(opened, "a refusal", lambda it: told in str(it["reservations"]))
    assert buttons(shown, "reservations", number) == f"Take Extend Cancel {told}"
    assert buttons(shown, "boards", "b1") == "Take Extend Cancel", "not beside its board"
    assert shown["news"] == f"Take reservation {number}: {told}"
    opened.ask("tags.value = 'vga'; reserve.requestSubmit()")
    told = "refused: no such boards (no boards that aren't Retired have all these tags)"
    wait_until("a refusal", lambda: text_of(opened, "#reserve-told") == told)
    assert opened.ask("tags.value") == "vga", "the words stay"
    assert len(lab.given) == 2, "neither is sent again"
    assert opened.poor_texts() == set()


def test_what_is_told_beside_a_row_goes_after_two_minutes(lab: Lab) -> None:
    opened = lab.opened()
    opened.ask("tags.value = 'vga'; reserve.requestSubmit()")
    wait_until("a refusal", lambda: str(text_of(opened, "#reserve-told")).startswith("refused: no such boards"))
    opened.ask("void (Date.now = (real => () => real() + 121000)(Date.now))")
    wait_until("it is gone", lambda: text_of(opened, "#reserve-told") == "")


def submit_group(lab: Lab, user: str) -> int:
    """Submits a group of one board of c1's type."""
    return int(lab.farm.tell(user, "/jobs", GROUP)["number"])


GROUP = b"job_name = 'two'\n[roles.a]\ndevice_type = 'ccc'\ncount = 1\n"


def test_ones_own_group_is_canceled_in_the_queue(lab: Lab) -> None:
    _, second, others = (submit_group(lab, it) for it in ("ann", "ann", "bob"))
    lab.passes()
    opened = lab.opened()
    assert [it[-1] for it in opened.ask(SHOWN)["queue"]] == ["Cancel", ""], "ann's and bob's"
    click(opened, "queue", "1", "Cancel")
    answer(opened, "Cancel")
    told = f"group {second} is canceled"
    until(opened, "it is canceled", lambda it: len(it["queue"]) == 1 and it["news"] == told)
    assert lab.farm.job(second)["result"] == "Canceled"
    assert lab.farm.job(others)["state"] == "Submitted"


def test_ones_own_job_is_canceled_where_it_is_shown(lab: Lab) -> None:
    first = submit_group(lab, "ann")
    lab.passes()
    opened = lab.opened()
    click(opened, "boards", "c1", f"job {first}")
    wait_until("its facts", lambda: "State" in facts_of(opened, "job"))
    facts = facts_of(opened, "job")
    assert [facts[it] for it in ("Owner", "State", "Board", "Type")] == ["ann", "Scheduled", "c1", "ccc"]
    assert text_of(opened, "#job h2") == f"Job {first}: two"
    assert text_of(opened, "#job-text pre") == GROUP.decode()
    opened.ask("document.querySelector('#job .actions button').click()")
    answer(opened, "Cancel")
    wait_until("it is canceled", lambda: facts_of(opened, "job")["State"] == "Finished, Canceled")
    assert text_of(opened, "#job .actions button") is None, "no more to do"


def what_can_be_done(shown: Shown) -> List[str]:
    return [buttons(shown, "boards", it) for it in ("c1", "b1")]


def test_others_can_do_nothing_and_an_admin_ends_others_work(lab: Lab) -> None:
    number = lab.farm.submit("true", "ccc", "bob")
    held = lab.reserve("bob", "hdmi")
    lab.passes()
    lab.user = "admin"
    assert what_can_be_done(lab.look()) == ["Cancel", "Extend Cancel"], "who takes it is its owner"
    lab.farm.tell("bob", f"/reservations/{held}/acquire")
    lab.user = "ann"
    assert what_can_be_done(lab.look()) == ["", ""]
    lab.user = "admin"
    opened = lab.opened()
    assert what_can_be_done(opened.ask(SHOWN)) == ["Cancel", "Extend Give back"]
    click(opened, "boards", "c1", "Cancel")
    assert text_of(opened, "#question p") == f"Cancel bob's job {number}? All jobs of its group end."
    answer(opened, "Cancel")
    wait_until("bob's job", lambda: bool(lab.farm.job(number)["result"] == "Canceled"))


def test_an_admin_sets_healths(lab: Lab) -> None:
    lab.user = "admin"
    opened = lab.opened()
    click(opened, "boards", "b2", "b2")
    health = "[...document.querySelectorAll('#health button')]"
    assert opened.ask(f"{health}.map(it => it.textContent)") == ["Unknown", "Bad", "Maintenance", "Retired"]
    opened.ask(f"{health}[1].click()")
    wait_until("it is Bad", lambda: facts_of(opened, "board")["Health"] == "Bad")
    wait_until("it is answered", lambda: bool(opened.ask(STATE.format("state.told.size")) == 0))
    assert lab.farm.board("b2")["health"] == "Bad"
    opened.ask(f"{health}[3].click()")
    assert text_of(opened, "#question p") == "Retire b2? That is for good."
    answer(opened, "No")
    assert lab.farm.board("b2")["health"] == "Bad"
    opened.ask(f"{health}[0].click()")
    wait_until("it is Good", lambda: facts_of(opened, "board")["Health"] == "Good")


@pytest.mark.parametrize("user, quiet", [
    ("dispatcher", "No history"), (None, "Who looks isn't told here (/whoami), so nothing can be done from this page."),
])
def test_the_dispatcher_and_who_isnt_known_only_look(lab: Lab, user: Optional[str], quiet: str) -> None:
    lab.reserve("ann", "hdmi")
    lab.user = user
    shown = lab.look()
    assert {it[-1] for it in shown["boards"] + shown["reservations"]} == {""}
    assert shown["quiet"].startswith(quiet)


# ---- behind nginx


def test_behind_nginx_the_page_knows_who_logged_in_and_its_commands_are_taken(
    make_farm: Callable[..., Farm], make_site: Callable[..., Site], visit: Visit
) -> None:
    farm = make_farm(BOARDS)
    site = make_site(farm)
    assert site.curl("-f", "/whoami") == 22, "without a password"
    assert site.curl("-f", "-u", "ann:pass on", "/whoami") == 22, "with another's"
    login = f"ann:{urllib.parse.quote(WORDS['ann'])}@"
    opened = visit.open(site.server.replace("https://", f"https://{login}"))
    assert seen(opened)["who"] == "ann"
    click(opened, "boards", "b2", "Reserve")
    until(opened, "it is reserved", lambda it: it["reservations"])
    found = farm.reservation(1)
    assert (found["owner"], found["tags"]) == ("ann", ["name=b2"])
