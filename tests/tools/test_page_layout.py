"""How the status page lies in its window, in a headless Chromium: at each width, at 200 % zoom, on a phone before a big farm,
in print, and with the colours of a user's own."""
from __future__ import annotations

import json
import time
import types
from typing import Iterator, cast

import pytest

from browser import Browser
from pages import PHONE, SHOWN, Lab, full_farm, full_present
from served import Farm, wait_until

pytestmark = pytest.mark.xdist_group("page1")
# Waits until what was asked for is laid out.
LAID_OUT = "new Promise(done => requestAnimationFrame(() => requestAnimationFrame(() => setTimeout(done))))"
# 1920, 1440 and 1280 points at 200 % zoom have half of that.
SIZES = ((320, 568), (640, 360), (704, 800), (705, 800), (720, 450), (960, 540), (1279, 720), (1920, 1080))


@pytest.fixture(name="big")
def big_fixture(browser: Browser) -> Iterator[Lab]:
    """256 boards, 3,000 claims, 51 reservations of ann's, and 200 jobs that ended, as files: no desk is asked."""
    lab = Lab(browser, cast(Farm, types.SimpleNamespace(port=1)), "ann")
    views = full_farm(int(time.time()))
    lab.files.update({**views, **full_present(views)})
    yield lab
    lab.end()


# ---- the bar on top

# How far the bar reaches over what has the focus.
COVERED = """(() => { const bar = document.getElementById("tools").getBoundingClientRect();
  const box = document.activeElement.getBoundingClientRect();
  return [document.activeElement.textContent, Math.ceil(Math.min(bar.bottom, box.bottom) - Math.max(bar.top, box.top)),
    box.top >= -1 && box.bottom <= innerHeight + 1]; })()"""


def test_the_bar_covers_no_heading_that_was_gone_to_and_no_row_that_has_the_focus(big: Lab) -> None:
    opened = big.opened("/?flat")
    for size in SIZES:
        opened.resize(*size)
        for place in range(4):
            opened.ask(f"document.querySelectorAll('#tools nav button')[{place}].click(); {LAID_OUT}")
            text, over, is_seen = opened.ask(COVERED)
            assert over <= 0 and is_seen, (size, text, over)
        opened.ask("document.querySelectorAll('#boards .owner, #boards th .link')[30].focus()")
        for key in "jj" + "k" * 10:
            opened.key(key, ord(key.upper()), key)
            text, over, is_seen = opened.ask(f"{LAID_OUT}.then(() => {COVERED})")
            assert over <= 0 and is_seen, (size, text, over)


# ---- a phone before a big farm

PHONES = (320, 360, PHONE)
TOP_OF = "(it => it && it.checkVisibility() ? Math.round(it.getBoundingClientRect().top) : null)(document.querySelector({!r}))"


@pytest.mark.parametrize("wide, high", [(320, 568), (PHONE, 844)])
def test_on_a_phone_grid_and_free_lead_to_the_boards(big: Lab, wide: int, high: int) -> None:
    opened = big.opened(wide=wide, high=high)
    opened.ask(f"scrollTo(0, 5000); grid.click(); {LAID_OUT}")
    assert opened.ask("[innerWidth, document.querySelectorAll('#tiles a').length]") == [wide, 256]
    assert 0 <= opened.ask(TOP_OF.format("#tiles")) < high
    opened.ask(f"scrollTo(0, 0); {LAID_OUT}")
    assert opened.ask(TOP_OF.format("#tiles")) < high, "on the first screen"
    opened.ask(f"grid.click(); scrollTo(0, 5000); document.getElementById('free').click(); {LAID_OUT}")
    assert 0 <= opened.ask(TOP_OF.format("#boards table")) < high


def test_on_a_phone_reservations_of_others_fold(big: Lab) -> None:
    rows = "[...document.querySelectorAll('#reservations tbody tr')].map(it => [it.className, it.cells[0].innerText.trim()])"
    big.user = "bob"
    opened = big.opened(wide=PHONE)
    assert opened.ask(rows) == [["group", "Of others51 reservations"]]
    opened.ask("document.querySelector('#reservations tr.group button').click()")
    assert len(opened.ask(rows)) == 51, "the first fifty"
    opened.ask("document.querySelector('#reservations tr.group button').click()")
    opened.ask("filter.value = '\"board-006\"'; filter.dispatchEvent(new Event('input'))")
    assert len(opened.ask(rows)) == 2, "one that is looked for"
    big.user = "ann"
    assert len(big.opened(wide=PHONE).ask(rows)) == 50, "one's own"
    big.user = "bob"
    assert len(big.opened(wide=1280).ask(rows)) == 50, "where there is room"


# The tallest row of each table, and boards whose buttons don't stand behind their state.
ROWS = """[Object.fromEntries([...document.querySelectorAll("main [id]:has(> table)")].map(
    it => [it.id, Math.max(...[...it.querySelectorAll("tbody tr")].map(row => row.offsetHeight))])),
  [...document.querySelectorAll("#boards tbody tr:not(.group)")].filter(it => it.querySelector("button:not(.tag)"))
    .filter(it => { const [state, last] = [it.cells[3], it.cells[7]].map(cell => cell.getBoundingClientRect());
      return last.bottom <= state.top || (last.top < state.bottom && last.left < state.right); }).length]"""


def test_on_a_phone_no_row_is_tall_and_a_board_s_state_stands_before_its_buttons(big: Lab) -> None:
    """Boards with the tags of the example's, each held by ann, by a job with a long name, or by nobody."""
    boards = json.loads(big.files["/boards"])
    for place, it in enumerate(boards["boards"]):
        it["tags"] = ["camera=imx219", "gigabit", f"outlet={place % 8}", "power=pdu2", "rack=2", "serial", "switch=sw2", "wifi"]
    big.files["/boards"] = json.dumps(boards).encode()
    held = json.loads(big.files["/reservations"])
    for it in held["reservations"]:
        it["tags"] = ["camera=imx219", "gigabit", "power=pdu2", "wifi"]
    big.files["/reservations"] = json.dumps(held).encode()
    running = json.loads(big.files["/running.json"])
    for it in running["jobs"]:
        it.update(owner="ann", name="kernel-next-arm64 boot and usb")
    big.files["/running.json"] = json.dumps(running).encode()
    opened = big.opened("/?flat", wide=PHONE)
    for wide in PHONES:
        opened.resize(wide, 40000)  # (a row out of sight isn't laid out)
        tallest, wrong = opened.ask(f"{LAID_OUT}.then(() => {ROWS})")
        assert max(tallest.values()) <= 140, (wide, tallest)
        assert wrong == 0, wide


# ---- at rest

def test_a_look_that_finds_nothing_new_makes_nothing_anew(big: Lab) -> None:
    opened = big.opened("/?flat")
    big.date = int(time.time())  # (so that nobody's age is a minute more)
    opened.ask("void (Date.now = (at => () => at)(Date.now()))")
    big.looks_twice()
    opened.ask("""void (window.touched = 0, window.stringy = JSON.parse, JSON.parse = (...all) => (touched++, stringy(...all)),
      new MutationObserver(all => touched += all.length).observe(document.querySelector("main"),
        {subtree: true, childList: true, characterData: true, attributes: true}))""")
    rows = "import('/page/state.js').then(({state}) => window.rows === (window.rows = state.rows))"
    opened.ask(rows)
    big.looks_twice()
    assert opened.ask(rows), "its rows are made anew"
    assert opened.ask("touched") == 0, "what is read or drawn anew"
    boards = json.loads(big.files["/boards"])
    boards["boards"][7]["health"] = "Maintenance"
    big.files["/boards"] = json.dumps(boards).encode()
    wait_until("what is new", lambda: opened.ask(SHOWN)["boards"][7][2] == "Maintenance")


# ---- eyes, fingers, paper

ADDRESSES = ("/?flat", "/?grid", "/#/boards/board-003", "/#/jobs/4", "/#/submit", "/#/usage", "/#/keys")
# What can be clicked, of a box with a label the label; a row out of sight isn't laid out.
SMALL = """[...(document.querySelector("dialog:modal") || document).querySelectorAll("a, button, input, select, summary, textarea")]
  .map(it => it.type === "checkbox" ? it.closest("label") : it).filter(it => it.checkVisibility())
  .map(it => [it.outerHTML.slice(0, 60), it.getBoundingClientRect()])
  .filter(([, box]) => box.width && (box.height < 23.9 || box.width < 23.9)).map(([text, box]) => [text, box.width, box.height])"""


def test_what_is_clicked_has_24_points(big: Lab) -> None:
    for address in ADDRESSES:
        opened = big.opened(address)
        for wide in (390, 1280):
            opened.resize(wide, 900)
            assert opened.ask(f"{LAID_OUT}.then(() => {SMALL})") == [], (address, wide)
        opened.close()


def test_the_grid_has_a_legend_that_needs_no_colours(big: Lab) -> None:
    opened = big.opened("/?grid")
    marks = "Object.fromEntries([...document.querySelectorAll({!r})].map(it => [it.className, getComputedStyle(it, '::before').content]))"
    legend = opened.ask(marks.format("#boards-title ~ .summary .tile"))
    assert list(legend) == ["tile free", "tile held", "tile running", "tile bad"]
    assert len(set(legend.values())) == 4
    assert opened.ask(marks.format("#tiles li .tile")) == {f"link {kind}": mark for kind, mark in legend.items()}


def test_with_a_user_s_own_colours_what_is_pressed_shows(big: Lab) -> None:
    opened = big.opened()
    opened.do("Emulation.setEmulatedMedia", features=[{"name": "forced-colors", "value": "active"}])
    ground = "getComputedStyle(document.getElementById({!r})).backgroundColor"
    pressed, other = (opened.ask(ground.format(it)) for it in ("grouping", "grid"))
    assert pressed != other
    mine = "[...document.querySelectorAll('#reservations tr')].map(it => getComputedStyle(it.cells[0]).borderLeftWidth)"
    assert opened.ask(mine)[1] != opened.ask(mine)[0], "a row of one's own"


def test_on_paper_there_are_no_buttons_and_no_row_is_cut(big: Lab) -> None:
    """What sorts, filters and folds stands there as the text that it has."""
    opened = big.opened("/?flat")
    opened.do("Emulation.setEmulatedMedia", media="print")
    clicked = "[...document.querySelectorAll('button, input, textarea, select')].filter(it => it.checkVisibility())"
    assert opened.ask(f"{clicked}.filter(it => !it.matches('thead button, .tag, tr.group button')).length") == 0
    cut = """[...document.querySelectorAll("tbody tr")].filter(it => getComputedStyle(it).breakInside !== "avoid"
      || getComputedStyle(it).contentVisibility !== "visible").length"""
    assert opened.ask(cut) == 0
    assert opened.ask("getComputedStyle(document.querySelector('table')).overflow") == "visible"
