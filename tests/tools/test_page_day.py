"""A user's day with the status page, by mouse, and a second person's by the keyboard alone; at each width, in each
state, with texts of strangers, on a slow line."""
from __future__ import annotations

import contextlib
import json
import re
import time
from typing import Callable, Iterator, Tuple

import pytest

import page_pictures
from browser import Browser, Page
from pages import (
    SHOWN, STATE, TRIPS, Lab, buttons, choose, click, facts_of, full_farm, full_present, past, record, seen, tell_at,
    text_of, until,
)
from served import wait_until

pytestmark = pytest.mark.xdist_group("page2")
WIDTHS = (320, 360, 390, 480, 640, 705, 768, 820, 900, 961, 1024, 1025, 1280, 1600, 2560)
TALLEST = 140
# The tallest row, and what reaches beyond the window and isn't in a part that can be moved aside.
LAID_OUT = """(() => {
  const rows = [...document.querySelectorAll("main tbody tr")];
  const reaches = [...document.querySelectorAll("body *")].filter(it => it.checkVisibility()
    && it.getBoundingClientRect().right > innerWidth + 1 && !it.closest(".unseen, thead"));
  return [document.documentElement.scrollWidth, Math.max(...rows.map(it => it.offsetHeight)),
    reaches.map(it => it.outerHTML.slice(0, 80))];
})()"""


@pytest.fixture(name="example", scope="module")
def example_fixture(program: str, browser: Browser, tmp_path_factory: pytest.TempPathFactory) -> Iterator[Lab]:
    """The example lab in use, as ann sees it."""
    lab = page_pictures.in_use(program, str(tmp_path_factory.mktemp("example")), browser)
    yield lab
    lab.end()
    lab.farm.kill()


def test_at_each_width_nothing_reaches_beyond_it_and_no_row_is_tall(example: Lab) -> None:
    opened = example.opened()
    for wide in WIDTHS:
        opened.resize(wide, 6000)  # (a row out of sight isn't laid out)

        def fits(wide: int = wide) -> bool:
            needed, tallest, reaches = opened.ask(LAID_OUT)
            return bool(needed == wide and tallest <= TALLEST and not reaches)

        wait_until(f"it fits {wide}", fits)
    opened.close()


def test_what_runs_and_what_waits_is_told_of_each(example: Lab) -> None:
    opened = example.opened()
    shown = opened.ask(SHOWN)
    assert shown["queue"][0][:5] == ["1", "group 14", "ci", "rpi4b", "100"]
    assert shown["queue"][0][6].startswith("4 boards fit: 1 Bad, 3 held (job 12 of ann, reservation 5 of bob")
    assert shown["queue"][2][6] == "can't be served: rpi4b-03 is Bad"
    since = {row[0]: row[5] for row in shown["boards"]}
    assert since["rpi4b-02"] == "5 h" and re.fullmatch(r"\d\d min", since["qemu-01"])
    choose(opened, "nightly")
    assert [row[1] for row in opened.ask(SHOWN)["queue"]] == ["group 14", "group 15", "group 16"]
    opened.ask("void (location.hash = '#/jobs/15')")
    place = "place 2 of 4 in the queue: 4 boards fit"
    wait_until("why it waits", lambda: facts_of(opened, "job").get("Waits", "").startswith(place))
    opened.ask("void (location.hash = '#/jobs/7')")
    runs = r"\d\d minutes of 60 minutes at most"
    wait_until("how long it runs", lambda: bool(re.fullmatch(runs, facts_of(opened, "job").get("Runs for", ""))))
    opened.close()


LINKS = """[...document.querySelectorAll('dialog:modal dd a')].map(it => [it.textContent.trim(), it.getAttribute('href')])"""


def test_boards_jobs_and_members_of_a_group_lead_to_each_other(example: Lab) -> None:
    """Group 10 is of three jobs, of which each has a board."""
    opened = example.opened("/#/jobs/12")
    wait_until("its board and the others", lambda: [it for it, _ in opened.ask(LINKS)] == ["rpi4b-01", "10", "11"])
    opened.ask("document.querySelectorAll('dialog:modal dd a')[2].click()")
    wait_until("another", lambda: ["12", "#/jobs/12"] in opened.ask(LINKS))
    assert str(text_of(opened, "#job-title")).startswith("Job 11")
    opened.ask("document.querySelector('dialog:modal dd a').click()")
    wait_until("its board", lambda: ["job 11", "#/jobs/11"] in opened.ask(LINKS))
    assert text_of(opened, "#board-title") == "bbb-04"
    opened.close()


def test_a_job_that_isnt_there_is_told(example: Lab) -> None:
    opened = example.opened("/#/jobs/9999")
    wait_until("it is told", lambda: text_of(opened, "#job-title") == "There is no job 9999")
    seen_of = "[...document.querySelectorAll('#job > *')].filter(it => it.checkVisibility()).map(it => it.className)"
    assert opened.ask(seen_of) == ["top"]
    opened.ask("void (location.hash = '#/jobs/42')")
    wait_until("an earlier one", lambda: text_of(opened, "#job-title") == "Job 42: kernel next")
    assert len(opened.ask(seen_of)) > 3
    opened.close()


def test_back_and_forward_go_from_one_to_the_next(example: Lab) -> None:
    opened = example.opened("/?q=rpi4b#/boards/rpi4b-02")
    title = "document.querySelector('dialog:modal h2')?.textContent || ''"
    wait_until("by its address", lambda: bool(opened.ask(title) == "rpi4b-02"))
    opened.ask("void (location.hash = '#/jobs/42')")
    wait_until("a job", lambda: bool(opened.ask(title).startswith("Job 42")))
    opened.ask("history.back()")
    wait_until("back", lambda: bool(opened.ask(title) == "rpi4b-02"))
    opened.ask("history.forward()")
    wait_until("forward", lambda: bool(opened.ask(title).startswith("Job 42")))
    opened.key("Escape", 27)
    wait_until("closed", lambda: bool(opened.ask(title) == ""))
    assert opened.ask("[location.search, location.hash]") == ["?q=rpi4b", ""]
    opened.ask("document.querySelector('#boards a.owner').click()")
    assert opened.ask("[decodeURIComponent(location.search), filter.value]") == ['?q="ann"', '"ann"'], "all of an owner"
    opened.close()


def test_a_grid_shows_all_boards_free_ones_or_ones_own(example: Lab) -> None:
    opened = example.opened("/?grid")
    tiles = "[...document.querySelectorAll('#tiles a')].map(it => [it.textContent, it.className.split(' ').pop()])"
    shown = dict(opened.ask(tiles))
    assert len(shown) == 12
    assert [shown[it] for it in ("qemu-04", "rpi4b-02", "qemu-01", "rpi4b-03", "bbb-02")] == [
        "free", "held", "running", "bad", "in-Maintenance"]
    opened.ask("free.click()")
    # (the lease of qemu-03 is over, and it is free too, where the machine takes half a minute to come here)
    assert [it for it in opened.ask(tiles) if it[0] != "qemu-03"] == [["qemu-04", "free"]]
    assert opened.poor_texts() == set()
    opened.close()


def test_256_boards_are_one_screen(lab: Lab) -> None:
    lab.files.update(full_farm(int(time.time())))
    shown = lab.look()
    assert (shown["boards"], len(shown["groups"])) == ([], 8), "of many boards the types are seen at first"
    opened = lab.opened("/?grid", wide=1280, high=1000)
    assert opened.ask("document.querySelectorAll('#tiles a').length") == 256
    assert opened.ask("document.getElementById('tiles').offsetHeight") < 900
    cut = "[...document.querySelectorAll('#tiles a')].filter(it => it.scrollWidth > it.clientWidth).length"
    assert opened.ask(cut) == 0, "names that are cut"
    opened.ask("grid.click()")
    stops = "[...document.querySelectorAll('a, button, input')].filter(it => it.checkVisibility() && it.tabIndex >= 0)"
    assert opened.ask(f"{stops}.length") < 300


# ---- reserving


def test_two_quick_clicks_make_one_reservation(lab: Lab) -> None:
    opened = lab.opened()
    opened.ask("void (Date.now = (at => () => at)(Date.now()))")  # (all is quick, however slow the machine is)
    opened.ask("tags.value = 'hdmi'; reserve.requestSubmit(); reserve.requestSubmit()")
    until(opened, "it is reserved", lambda it: it["reservations"])
    opened.ask("tags.value = 'hdmi'; reserve.requestSubmit()")
    click(opened, "boards", "b2", "Reserve")
    wait_until("the second board", lambda: len(lab.given) > 1)
    until(opened, "it can be ended where it was asked for", lambda it: buttons(it, "boards", "b2") == "Extend Cancel")
    assert [json.loads(it[2])["tags"] for it in lab.given] == [["hdmi"], ["name=b2"]]
    opened.ask("reserve.requestSubmit()")
    assert text_of(opened, "#question p") == "Reserve any board, of whatever type?"


def test_a_reservation_of_the_page_lives_over_a_reload_and_out_of_sight_and_is_taken(make_lab: Callable[..., Lab]) -> None:
    lab = make_lab()
    number = lab.reserve("bob", "hdmi")
    lab.passes()
    lab.farm.tell("bob", f"/reservations/{number}/acquire")  # (so that no lease of it ends)
    lab.reserve("ann", "hdmi", priority="low")
    opened = lab.opened()
    opened.ask("tags.value = 'hdmi'; reserve.requestSubmit()")
    until(opened, "it waits", lambda it: len(it["reservations"]) == 3)
    kept = STATE.format("state.reserved.size")
    wait_until("it is kept", lambda: bool(opened.ask(kept) == 1))
    opened.ask("window.isOld = true; location.reload()")

    def knows_it() -> bool:
        with contextlib.suppress(OSError):  # where the page goes away while it is asked
            return bool(opened.ask(f"window.isOld ? 0 : {kept}") == 1)
        return False

    wait_until("it is there again", knows_it)
    seen(opened)
    assert [path for path, _, _ in lab.given if "refresh" in path] == [], "before half of its lease is over"
    deadline = int(lab.farm.reservation(3)["deadline"])
    lab.date = deadline - 20
    wait_until("it is extended", lambda: int(lab.farm.reservation(3)["deadline"]) > deadline)
    lab.looks_twice()
    extended = [it for it in lab.given if "refresh" in it[0]]
    assert extended == [("/reservations/3/refresh", None, "")], "once, without a key, and no other one"
    lab.date = None
    lab.farm.tell("bob", f"/reservations/{number}/cancel")
    lab.passes()
    wait_until("it is taken", lambda: bool(lab.farm.reservation(3)["state"] == "acquired"))


@pytest.mark.parametrize("trouble", [0, 503], ids=["lost", "nobody knows"])
def test_a_take_whose_answer_is_lost_is_told(lab: Lab, trouble: int) -> None:
    """The browser itself sends again what got no answer: under the same key, since a second take would be refused."""
    opened = lab.opened()
    opened.ask("takes.checked = true; tags.value = 'name=b1'; reserve.requestSubmit()")
    until(opened, "it waits", lambda it: it["reservations"])
    lab.troubles.append(trouble)
    lab.passes()
    until(opened, "it is told", lambda it: it["news"] == "b1 is yours")
    takes = [key for path, key, _ in lab.given if path == "/reservations/1/acquire"]
    assert takes and all(takes) and len(set(takes)) == 1, takes
    assert not lab.troubles and lab.farm.reservation(1)["state"] == "acquired"


def test_without_the_tick_a_board_is_only_reserved(lab: Lab) -> None:
    opened = lab.opened()
    opened.ask("takes.click(); tags.value = 'hdmi'; reserve.requestSubmit()")
    until(opened, "it is reserved", lambda it: it["reservations"])
    lab.passes()
    until(opened, "it is offered", lambda it: buttons(it, "boards", "b1") == "Take Extend Cancel")
    lab.looks_twice()
    assert lab.farm.reservation(1)["state"] == "allocated"


# ---- submitting, usage, further back


def test_a_job_is_submitted_and_its_faults_are_told_by_line(lab: Lab) -> None:
    opened = lab.opened("/#/submit")
    send = "document.getElementById('submit-form').requestSubmit()"
    field = "document.getElementById('job-file').value"
    for text, told in [
        ("job_name = 'x'\\ndevice_type = 'ddd'", "refused: line 2, column 1: no such type: ddd"),
        ("job_name = 'x'\\ndevice_type = 'bbb'\\ntimeouts.job = '15 parsecs'", "nothing is submitted: line 3, column 10: "),
    ]:
        opened.ask(f"{field} = \"{text}\"; {send}")
        wait_until(told, lambda: str(text_of(opened, "#faults")).startswith(told))  # noqa: B023
    opened.ask(f"{field} = \"job_name = 'mine'\\ndevice_type = 'bbb'\"; {send}")
    wait_until("its job is open", lambda: text_of(opened, "#job-title") == "Job 1: mine")
    assert opened.ask("location.hash") == "#/jobs/1"
    opened.ask("document.getElementById('again').click()")
    wait_until("its text again", lambda: "mine" in str(opened.ask(field)))
    opened.ask(send)
    wait_until("another job", lambda: opened.ask("location.hash") == "#/jobs/2")
    assert lab.farm.job(2)["text"] == lab.farm.job(1)["text"]


def test_a_boards_history_goes_further_back_on_demand(lab: Lab) -> None:
    now = int(time.time())
    past(lab, record(900, "ann", "b1", now - 300))
    old = [record(it, "bob", "b2", now - 90000 + it) for it in range(1, 30)]
    lab.files["/history.jsonl"] = "".join(f"{json.dumps(it)}\n" for it in old).encode()
    opened = lab.opened("/#/boards/b2")
    wait_until("what is told at once", lambda: str(text_of(opened, "#older-said")).startswith("Of the farm's last 1 jobs"))
    assert opened.ask(SHOWN)["board-history"] == []
    opened.ask("document.getElementById('older').click()")
    wait_until("its own", lambda: len(opened.ask(SHOWN)["board-history"]) == 20)
    assert text_of(opened, "#older-said") == "all that there is"
    assert opened.ask(SHOWN)["board-history"][0][1] == "job 29"


# ---- states


NAMED = ("button", "textbox", "searchbox", "link", "checkbox", "dialog", "combobox", "table", "img")


@pytest.mark.parametrize("address, wanted", [
    ("/", ("table", "Queue (4)")), ("/?grid", ("link", "qemu-04: free")), ("/#/boards/rpi4b-02", ("dialog", "rpi4b-02")),
    ("/#/jobs/42", ("dialog", "Job 42: kernel next")), ("/#/jobs/15", ("dialog", "Job 15: nightly")),
    ("/#/jobs/7", ("dialog", "Job 7: boot ann")), ("/#/submit", ("dialog", "Submit a job")),
    ("/#/usage", ("dialog", "Usage of the last 14 days")), ("/#/keys", ("dialog", "Keys")),
])
def test_in_each_state_all_has_a_name_and_contrast(example: Lab, address: str, wanted: Tuple[str, str]) -> None:
    opened = example.opened(address)
    wait_until(f"there is {wanted}", lambda: wanted in opened.accessible())
    has_names_and_contrast(opened)
    opened.close()


def has_names_and_contrast(opened: Page) -> None:
    assert [it for it in opened.accessible() if it[0] in NAMED and not it[1]] == [], "what has no name"
    assert opened.poor_texts() == set()


def test_a_fault_of_the_page_is_told_as_that(lab: Lab) -> None:
    opened = lab.opened()
    lab.files["/queue"] = b'{"queue":[{"kind":"reservation"}],"x":1}'
    lab.files["/boards"] = b'{"boards":[{"name":"b1"}]}'
    until(opened, "a fault", lambda it: it["said"].startswith("a fault of this page: TypeError"))


def test_a_farm_without_boards_says_how_they_come(make_lab: Callable[..., Lab]) -> None:
    lab = make_lab([], user=None)
    opened = lab.opened()
    assert opened.ask(SHOWN)["text"]["boards"].startswith("no boards yet: an admin adds them")
    has_names_and_contrast(opened)


HOSTILE = '<img src=x onerror="document.title=1"><b>bold</b>'


def test_long_and_hostile_texts_stay_in_their_rows(make_lab: Callable[..., Lab]) -> None:
    lab = make_lab(at=time.time())
    number = tell_at(lab.farm, time.time(), "ann", "/jobs", (
        f'job_name = "\\u202eabc {HOSTILE.replace(chr(34), "")}{"n" * 20000}"\ndevice_type = "ccc"\n').encode())
    tell_at(lab.farm, time.time(), "dispatcher", "/pass")
    lab.farm.start()
    past(lab, record(900, "ann", "b1", int(time.time()), reason=f"{HOSTILE} {'r' * 5000}"))
    opened = lab.opened(wide=390)
    shown = opened.ask(SHOWN)
    assert shown["boards"][2][4].startswith(f"ann job {number} \u27e8U+202E\u27e9abc <img src=x")
    assert opened.ask("[document.querySelector('main img, main b'), document.title]") == [None, "127.0.0.1 - Board farm"]
    assert opened.ask("document.documentElement.scrollHeight") < 3000
    assert opened.ask("document.documentElement.scrollWidth") == 390
    more = "document.querySelector('#ended button.more')"
    assert opened.ask(f"{more}.parentElement.textContent.length") < 250
    opened.ask(f"{more}.click()")
    assert opened.ask(f"{more}.parentElement.textContent.length") > 5000, "the rest on demand"


# ---- a slow line


FIRST_LOOK = ("queue", "boards", "status", "types", "whoami", "running.json", "workers.json", "waiting.json", "history.json",
              "access.json", "notes.json", "labs.json")


def test_on_a_slow_line_boards_come_in_three_round_trips_and_owners_in_five(lab: Lab) -> None:
    """The page, its files, and the views; owners with them, by one file for all."""
    views = full_farm(int(time.time()))
    lab.files.update({**views, **full_present(views), "/waiting.json": b'{"at":1,"groups":[]}'})
    opened = lab.opened("/?flat", before=TRIPS)
    assert [row[4] for row in opened.ask(SHOWN)["boards"][:2]] == ["bob job 1 boot", "ann reservation 2"]
    trips = opened.ask("trips")
    assert {path: trips.pop(f"/{path}") for path in FIRST_LOOK} == dict.fromkeys(FIRST_LOOK, 3)
    assert trips.pop("/reservations") == 4
    assert sorted(trips) == [f"/jobs/{it}" for it in range(1000, 1005)], "those that wait"


# ---- a day by the keyboard alone
