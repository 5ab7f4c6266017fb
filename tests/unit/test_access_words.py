"""The words of a session, keys, and the steps of power."""
from __future__ import annotations

import os
import pathlib

import pytest

from farm_access import door, site
from farm_access.site import BadWay, Refusal

KEY = "ssh-ed25519 AAAAC3NzaC1lZDI1NTE5AAAAIGFubg=="
OTHER = "ssh-ed25519 AAAAC3NzaC1lZDI1NTE5AAAAIGJvYg=="


@pytest.mark.parametrize("text, wanted", [
    ("b1", ("b1", "ways", [], False)),
    ("b1 console", ("b1", "console", [], False)),
    ("b1 console --as-admin", ("b1", "console", [], True)),
    ("b1 flash --as-admin x", ("b1", "flash", ["--as-admin", "x"], False)),
    ("b1 power cycle", ("b1", "power", ["cycle"], False)),
])
def test_words(text: str, wanted: object) -> None:
    found = door.wanted_of(text)
    assert (found.board, found.way, list(found.words), found.as_admin) == wanted


@pytest.mark.parametrize("text", [
    "", " b1", "b1 ", "b1  x", "b1\tx", "b1;x", "b1 $x", "b1 'x'", "b1 x\n", "--as-admin", "a/b",
    "b1 " + "x" * 201,
])
def test_no_words(text: str) -> None:
    with pytest.raises(Refusal):
        door.wanted_of(text)


@pytest.fixture
def folder(tmp_path: pathlib.Path) -> str:
    (tmp_path / "ann").write_text(f"# ann's\n\n{KEY} ann@laptop\n")
    (tmp_path / "bob").write_text(f'command="sh" {KEY}\n{OTHER}\n')
    (tmp_path / "a b").write_text(f"{KEY}\n")
    os.symlink(tmp_path / "ann", tmp_path / "mallory")
    return str(tmp_path)


@pytest.mark.parametrize("said, person", [
    (f"publickey {KEY}\n", "ann"),
    (f"publickey {OTHER}\n", "bob"),
    (f"publickey {KEY}\npublickey {OTHER}\n", ""),
    ("password\n", ""),
    ("", ""),
])
def test_who_sshd_says_it_is(folder: str, said: str, person: str) -> None:
    """A key is that of the files' own lines: not of a link, of a file that is named as nobody, nor behind options."""
    assert site.person_of(folder, said) == person


PDU: dict[str, object] = {"pdudaemon": "http://127.0.0.1:16421", "host": "bench", "port": "3", "settle": 1}


def test_a_cycle_of_pdudaemon_s_has_a_pause_behind_each_call() -> None:
    """It answers before it acts."""
    path = "/power/control/{}?hostname=bench&port=3"
    assert site.steps_of("cycle", PDU) == site.Steps("127.0.0.1:16421", (path.format("off"), path.format("on")), 1.0)


def test_a_cycle_of_commands_is_off_and_on_or_its_own() -> None:
    commands: dict[str, object] = {"on": ["relay", "1 2"], "off": ["relay", "0"]}
    assert site.steps_of("cycle", commands).command == ("/bin/sh", "-ec", "relay 0\nsleep 2.0\nrelay '1 2'")
    assert site.steps_of("cycle", dict(commands, cycle=["reset"])).command == ("reset",)


OTHERS: list[tuple[str, dict[str, object]]] = [
    ("../on", PDU), ("status", PDU), ("on", {**PDU, "port": "{outlet}"}), ("off", {"on": ["x"]}),
]


@pytest.mark.parametrize("verb, told", OTHERS)
def test_no_power(verb: str, told: dict[str, object]) -> None:
    with pytest.raises(BadWay):
        site.steps_of(verb, told)


def test_a_console_is_given_less_than_its_line_takes() -> None:
    assert site.rate_of({"device": "/dev/x", "baud": 9600}) < 960
    assert site.rate_of({"tcp": "a:1"}) < 11520
    assert site.rate_of({"tcp": "a:1", "rate": 100}) == 100
