"""access.toml: which ways a board has, and what is no such file."""
from __future__ import annotations

import os
import pathlib

import pytest

from farm_access import site
from fizgruk.words import BadFile

WHOLE = """\
admins = ["eve"]
[[ways]]
boards = "*"
console = { tcp = "127.0.0.1:{port}" }
flash = ["/usr/bin/flash", "{board}", "{flasher}"]
[[ways]]
boards = "bbb-*"
console = { device = "/dev/{board}", baud = 9600 }
"""


def read(folder: pathlib.Path, text: str) -> site.Site:
    file = folder / "access.toml"
    file.write_text(text)
    return site.read_file(str(file))


def test_tags_stand_in_ways_and_the_later_table_wins(tmp_path: pathlib.Path) -> None:
    found = read(tmp_path, WHOLE)
    assert found.ways_of("rpi-1", {"port": "7001"})["console"] == {"tcp": "127.0.0.1:7001"}
    ways = found.ways_of("bbb-1", {"port": "7001", "flasher": "usb3"})
    assert ways["console"] == {"device": "/dev/bbb-1", "baud": 9600}
    assert ways["flash"] == ["/usr/bin/flash", "bbb-1", "usb3"]


def test_a_tag_s_value_is_no_pattern_of_its_own(tmp_path: pathlib.Path) -> None:
    ways = read(tmp_path, WHOLE).ways_of("rpi-1", {"flasher": "{port}", "port": "1"})
    assert ways["flash"][2] == "{port}"
    with pytest.raises(site.BadWay, match="no tag port"):
        site.whole(ways["flash"], "flash")


def test_a_way_that_lacks_a_tag_is_refused_and_says_which(tmp_path: pathlib.Path) -> None:
    way = read(tmp_path, WHOLE).ways_of("rpi-1", {})["console"]
    with pytest.raises(site.BadWay, match=r"console: this board has no tag port=\.\."):
        site.whole(way, "console")


@pytest.mark.parametrize("text, why", [
    ("desk =", "no TOML"),
    ("folders = 'x'", "folders in the file is no setting"),
    ("folder = '/run/x'", "folder in the file is no setting"),
    ("user = 1", "user isn't a text"),
    ("admins = 'eve'", "admins isn't an array of names"),
    ("admins = ['a b']", "admins isn't an array of names"),
    ("ways = 1", "ways isn't an array of tables"),
    ("[[ways]]\nboards = 1", "boards isn't a text"),
    ("[[ways]]\nFlash = ['x']", "no name of a way"),
    ("[[ways]]\nways = ['x']", "no name of a way"),
    ("[[ways]]\nflash = 'x y'", "flash isn't an array of texts"),
    ("[[ways]]\ntidy = ['x']", "no name of a way"),
    ("[[ways]]\ndevices = '/dev/x'", "devices isn't an array of texts"),
    ("[[ways]]\nflash = []", "flash isn't an array of texts"),
    ("[[ways]]\nconsole = ['tio']", "console isn't a table"),
    ("[[ways]]\nconsole = { }", "console has one of tcp, unix, device"),
    ("[[ways]]\nconsole = { tcp = 'a:1', unix = '/x' }", "console has one of tcp, unix, device"),
    ("[[ways]]\nconsole = { tcp = 'a:1', rate = 0 }", "rate isn't a number"),
    ("[[ways]]\nconsole = { tcp = 'a:1', speed = 9600 }", "speed in console is no setting"),
    ("[[ways]]\npower = { host = 'x' }", "either pdudaemon"),
    ("[[ways]]\npower = { pdudaemon = 'x' }", "no address"),
    ("[[ways]]\ntcp = { host = 'x', ports = [70000] }", "ports isn't an array of ports"),
    ("[[ways]]\ntcp = { host = 'x', ports = [true] }", "ports isn't an array of ports"),
])
def test_what_is_no_such_file_is_said(tmp_path: pathlib.Path, text: str, why: str) -> None:
    with pytest.raises(BadFile, match=why):
        read(tmp_path, text)


def test_no_file_and_a_pipe_are_said(tmp_path: pathlib.Path) -> None:
    with pytest.raises(BadFile, match="there is no"):
        site.read_file(str(tmp_path / "none"))
    os.mkfifo(tmp_path / "pipe")
    with pytest.raises(BadFile, match="is no file"):
        site.read_file(str(tmp_path / "pipe"))
