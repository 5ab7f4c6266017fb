#!/usr/bin/env python3
"""Times the status page with 256 boards and 3,000 waiting claims, in a headless Chromium: python3 bench/page.py bin/farm

First what it draws anew, as a flat table and as a grid: the least of several of each, in milliseconds of the processor's
time at script, styles and layout, so other work of the machine isn't in it. On a screen of 60 frames a second a redraw
beyond 50 is seen as a stutter. Then a first look, through the example's site and a slow line (slow_line.py): when all
boards are seen and when each holder's owner is, the median of several, and after how many round trips, beside the
connection's own: counted, so other work isn't in them, either. Ends with status 1 where a redraw takes more than 50, or
with a dispatcher boards take more than three round trips, or owners more than five. It wants nginx, openssl and curl.
"""
from __future__ import annotations

import base64
import os
import shutil
import statistics
import sys
import tempfile
import time
from typing import Dict, List, NamedTuple, Optional

sys.path.insert(0, os.path.join(os.path.dirname(os.path.abspath(__file__)), "../tests/shared"))
from browser import Browser  # noqa: E402
from nginx_site import WORDS, Site  # noqa: E402
from pages import HEAD, TRIPS, Lab, full_farm, full_present  # noqa: E402
from served import Farm, wait_until  # noqa: E402
from slow_line import SlowLine  # noqa: E402

LONGEST_REDRAW = 50
ROUNDS, LOOKS = 7, 3
# What of the page's modules is worked with.
MODULES = """Promise.all(["state", "rows", "again", "search"].map(it => import(`/page/${it}.js`))).then(
  ([{state}, {makeRows}, {draw}, {choose}]) => void (window.page = {makeRows, draw, choose,
    get farm() { return state.farm; }, set farm(it) { state.farm = it; }}))"""
# What is drawn anew, each with the farm as it was before the first of them.
REDRAWS = [
    ("the same again", "page.makeRows(); page.draw()"),
    ("a second later", "page.draw()"),
    (
        "all boards changed",
        """page.farm.boards = page.farm.boards.map(it => ({...it, health: "Unknown",
          tags: [...it.tags, "new-" + performance.now()]})); page.makeRows(); page.draw()""",
    ),
    ("two thousand claims gone", "page.farm.queue = page.farm.queue.slice(2000); page.makeRows(); page.draw()"),
    ("a search", "page.choose('user-7')"),
    ("the search's end", "page.choose('')"),
]
SORTED = ("sorted", HEAD.format(table="queue", text="Owner") + ".querySelector('button').click()")
VIEWS = {"flat": "#boards tbody tr:not(.group)", "grid": "#tiles a"}

TRIP, RATE = 0.8, 30_000.0
MOST_TRIPS = {"boards": 3, "owners": 5}
# Notes when all boards are there, and when the owner of each that is held is, and how many round trips that took.
WATCHES = TRIPS + """window.came = {};
const look = () => {
  const rows = [...document.querySelectorAll("#boards tbody tr:not(.group)")];
  const held = rows.map(it => it.querySelector(".owner")).filter(it => it);
  if (rows.length === 256) came.boards ??= [performance.now(), come];
  if (came.boards && held.length && held.every(it => it.textContent)) came.owners ??= [performance.now(), come];
  if (!came.owners) requestAnimationFrame(look);
};
requestAnimationFrame(look);"""
SET_UP = "performance.getEntriesByType('navigation')[0].requestStart"


def redraws(lab: Lab, view: str) -> Dict[str, float]:
    """The least cost of each redraw, with the boards in one view."""
    opened = lab.opened(f"/?{view}", before="", wide=1280, high=1000)
    assert opened.ask(f"document.querySelectorAll('{VIEWS[view]}').length") == 256, "all boards are drawn"
    opened.ask(MODULES)
    opened.ask("void (window.kept = {...page.farm})")
    least = {name: float("inf") for name, _ in (*REDRAWS, SORTED)}
    for _ in range(ROUNDS):
        for name, what in (*REDRAWS, SORTED):
            least[name] = min(least[name], opened.cost(what))
        opened.ask("void (page.farm = {...kept}, page.makeRows(), page.draw())")
    opened.close()
    return least


class Look(NamedTuple):
    """When a first look had its connection, all boards and all owners, in seconds; and after how many round trips."""

    set_up: float
    boards: float
    owners: float
    trips_boards: float
    trips_owners: float


def first_look(browser: Browser, site: Site, rate: Optional[float]) -> Look:
    """A first look of a browser that has nothing of the site but its user's password."""
    line, visit = SlowLine(site.port, TRIP, rate), browser.visit()
    opened = visit.open("about:blank#", before=WATCHES)
    word = base64.b64encode(f"ann:{WORDS['ann']}".encode()).decode()
    opened.do("Network.enable")
    opened.do("Network.setExtraHTTPHeaders", headers={"authorization": f"Basic {word}"})
    opened.go(f"https://localhost:{line.port}/?flat")
    came = wait_until("all owners", lambda: opened.ask("window.came?.owners && came"), 600)
    set_up = opened.ask(SET_UP)
    visit.end()
    line.end()
    (boards, of_boards), (owners, of_owners) = came["boards"], came["owners"]
    return Look(set_up / 1000, boards / 1000, owners / 1000, of_boards, of_owners)


def looks(browser: Browser, site: Site, rate: Optional[float]) -> Look:
    """The medians of several first looks."""
    all_looks: List[Look] = [first_look(browser, site, rate) for _ in range(LOOKS)]
    return Look(*(statistics.median(it) for it in zip(*all_looks)))


def slow_looks(browser: Browser, lab: Lab, folder: str) -> Dict[str, Look]:
    """First looks at what the lab has behind the example's site, where the desk alone is there, and where its dispatcher
    tells what runs and what waits."""
    place = os.path.join(folder, "site")
    os.makedirs(f"{place}/dispatch")
    # (what stands for the desk here answers as the full farm's would)
    lab.farm.port = lab.door.server_address[1]
    site = Site(lab.farm, place)
    alone = looks(browser, site, RATE)
    for path, body in full_present(lab.files).items():
        with open(f"{place}/dispatch{path}", "wb") as file:
            file.write(body)
    late = looks(browser, site, None)
    return {"the desk alone": alone, "with a dispatcher": looks(browser, site, RATE), "any bytes a second": late}


def tell(name: str, look: Look) -> bool:
    """Prints a first look; returns whether boards and owners came within their round trips."""
    print(f"{name:20} connection {look.set_up:.1f} s, boards {look.boards:.1f} s ({look.trips_boards:.0f} round trips), "
          f"owners {look.owners:.1f} s ({look.trips_owners:.0f})", flush=True)
    return look.trips_boards <= MOST_TRIPS["boards"] and look.trips_owners <= MOST_TRIPS["owners"]


def main() -> None:
    folder = tempfile.mkdtemp()
    program, is_quick, is_met = os.path.realpath(sys.argv[1]), True, True
    try:
        browser = Browser(folder)
        lab = Lab(browser, Farm(program, folder, []), "ann")
        lab.files.update(full_farm(int(time.time())))
        for view in VIEWS:
            for name, cost in redraws(lab, view).items():
                print(f"{view} {name:24} {cost:6.1f} ms", flush=True)
                is_quick &= cost <= LONGEST_REDRAW
        met = {name: tell(name, look) for name, look in slow_looks(browser, lab, folder).items()}
        is_met = met["with a dispatcher"]
        lab.end()
        browser.end()
    finally:
        # (Chromium may still write)
        shutil.rmtree(folder, ignore_errors=True)
    sys.exit(not (is_quick and is_met))


if __name__ == "__main__":
    main()
