"""Machines of the tests of attacks: one with a systemd of its own, and the example's site before a farm."""
from __future__ import annotations

import shutil
from typing import Any, Callable, Iterator, List

import pytest

from door_site import RULES, WORDS, Door
from machine import Machine, booted
from nginx_site import Site, make_site_fixture  # noqa: F401
from served import Farm


@pytest.fixture(scope="module")
def machine(program: str, tmp_path_factory: pytest.TempPathFactory) -> Iterator[Machine]:
    """A machine with a systemd of its own and a desk that is set up, for the tests of a file."""
    yield from booted(program, tmp_path_factory)


@pytest.fixture
def make_door(
    make_farm: Callable[..., Farm], make_site: Callable[..., Site], folder: str, monkeypatch: pytest.MonkeyPatch
) -> Iterator[Callable[..., Door]]:
    """Makes a site with a farm-door of these rules, before a farm of two boards."""
    made: List[Door] = []
    monkeypatch.setattr("nginx_site.WORDS", WORDS)

    def make(rules: str = RULES, login: str = "", *changes: Any) -> Door:
        farm = make_farm([("b1", "bbb", []), ("b2", "bbb", [])])
        made.append(Door(farm, make_site, folder, rules, login, changes))
        return made[-1]

    yield make
    for it in made:
        shutil.rmtree(it.room)


@pytest.fixture
def door(make_door: Callable[..., Door]) -> Door:
    return make_door()
