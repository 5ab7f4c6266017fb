"""A hostile log, and other texts of others, on the terminal of whoever looks at them."""
from __future__ import annotations

import os
import pty
import subprocess
import sys
from typing import Callable

import pytest

from desks import at_ease
from served import TOOLS, Farm, environment

HOSTILE = b"begin\n\x1b]52;c;cm0gLXJm\x07\x1b]0;root\x07\xc2\x9b2J\x1b[31mred\x1b[0m\x1b[6n\rover\nend\n"


@pytest.fixture
def farm(make_farm: Callable[..., Farm]) -> Farm:
    return make_farm([("b1", "bbb", [])])


def at_terminal(farm: Farm, *words: str) -> bytes:
    """What a terminal gets of a client's outputs."""
    ours, theirs = pty.openpty()
    around = environment(DESK_SERVER=farm.server, DESK_USER="ann", TERM="xterm")
    with subprocess.Popen(
        [sys.executable, os.path.join(TOOLS, "desk"), *words], stdin=subprocess.DEVNULL, stdout=theirs, stderr=theirs, env=around
    ) as process:
        os.close(theirs)
        said = b""
        while True:
            try:
                more = os.read(ours, 65536)
            except OSError:
                break
            if not more:
                break
            said += more
        process.wait(60)
    os.close(ours)
    return said.replace(b"\r\n", b"\n")


@pytest.fixture
def history(farm: Farm, folder: str) -> str:
    """A dispatcher's folder with the log of job 1."""
    farm.submit("true")
    os.mkdir(f"{folder}/logs")
    with open(f"{folder}/history.jsonl", "wb"), open(f"{folder}/logs/1", "wb") as log:
        log.write(HOSTILE)
    return folder


def test_a_log_does_nothing_to_a_terminal(farm: Farm, history: str) -> None:
    farm.tell("dispatcher", "/pass")
    farm.tell("dispatcher", "/jobs/1/start")
    farm.tell("dispatcher", "/jobs/1/finish", {"outcome": "Complete"})
    for more in ((), ("--follow", "--every", "0.2")):
        said = at_ease(at_terminal(farm, "--history", history, "log", "1", *more).decode())
        assert said.endswith("begin\n\u241b]52;c;cm0gLXJm\u2407\u241b]0;root\u2407\\x9b2Jred\nover\nend\n"), said
        assert not {"\x1b", "\x07", "\x9b", "\r"} & set(said)


def test_raw_and_a_pipe_get_all_of_a_log(farm: Farm, history: str) -> None:
    assert at_terminal(farm, "--history", history, "log", "1", "--raw").endswith(HOSTILE)
    words = [sys.executable, os.path.join(TOOLS, "desk"), "--history", history, "log", "1"]
    around = environment(DESK_SERVER=farm.server, DESK_USER="ann")
    assert subprocess.run(words, capture_output=True, check=True, env=around).stdout == HOSTILE


def test_a_jobs_text_and_its_name_do_nothing_to_a_terminal(farm: Farm) -> None:
    text = 'job_name = "a\\u001b]0;root\\u0007\\u009b"\ndevice_type = "bbb"\n# \x9b2J\u202e\n'
    farm.tell("ann", "/jobs", text.encode())
    for words in (("jobs", "1", "--text"), ("queue",), ("jobs",), ("--json", "jobs", "1")):
        said = at_terminal(farm, *words).decode()
        assert not {"\x1b", "\x07", "\x9b", "\u202e"} & set(said), (words, said)
