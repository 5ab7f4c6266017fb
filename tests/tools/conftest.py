"""A farm of three boards, a browser, labs with a status page, and the site of the example before a farm."""
from __future__ import annotations

import time
from typing import Callable, Iterator, List, Optional, Sequence

import pytest

import desks
from browser import Browser, browser_fixture, visit_fixture  # noqa: F401
from nginx_site import make_site_fixture  # noqa: F401
from pages import BOARDS, HOUR, Lab, begin_at
from served import Board, Farm
from watched import Labs, watched_farms


@pytest.fixture
def farm(make_farm: Callable[..., Farm]) -> Farm:
    """A farm of three boards, of which b1 alone has hdmi."""
    return make_farm(desks.BOARDS)


@pytest.fixture
def make_lab(make_farm: Callable[..., Farm], browser: Browser) -> Iterator[Callable[..., Lab]]:
    """Makes a lab of these boards, looked at by ann or another user; where `at` is said, its boards are
    added then, and its farm isn't served yet."""
    made: List[Lab] = []

    def make(boards: Sequence[Board] = BOARDS, user: Optional[str] = "ann", at: float = 0) -> Lab:
        made.append(Lab(browser, make_farm([] if at else boards), user))
        if at:
            begin_at(made[-1].farm, at, boards)
        return made[-1]

    yield make
    for lab in made:
        lab.end()


@pytest.fixture
def lab(make_lab: Callable[..., Lab]) -> Lab:
    """A lab of ann's whose clock is an hour ahead, and so stands: no lease of it ends."""
    made = make_lab(at=time.time() + HOUR)
    made.farm.start()
    return made


@pytest.fixture
def watched(program: str, folder: str) -> Iterator[Labs]:
    """Makes farms that farm-watch looks at."""
    with watched_farms(program, folder) as make:
        yield make
