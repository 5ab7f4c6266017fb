"""The ways to a board as people take them: `desk console`, `power`, `ssh`, `ways`, and the Python package's Board."""
from __future__ import annotations

import json
import subprocess
from typing import Any, List

import pytest

import access_lab
from access_lab import ECHO, PLACE, Lab, echoed, lab_fixture, until
from machine import PORT
from served import PATIENCE, wait_until

__all__ = ["lab_fixture"]
pytestmark = [pytest.mark.xdist_group("machine"), pytest.mark.slow(60)]
NOT_YOURS = 5
SERVER = f"http://127.0.0.1:{PORT}"
# (ssh is told by its own configuration which key is ann's, as a person's is)
SSH = f"""\
Host *
 IdentityFile {PLACE}/people/ann
 BatchMode yes
 StrictHostKeyChecking no
 LogLevel ERROR
 UserKnownHostsFile /root/known
"""
# Runs lines of Python that hold a board by the package, and prints what they leave in `said`.
PROGRAM = """\
import json, sys
sys.path.insert(0, "/usr/local/lib/farm-tools")
import fizgruk
from fizgruk import ways
said = []
client = fizgruk.Client({server!r}, "ann")
{lines}
print(json.dumps(said))
"""


def desk_words(lab: Lab, *words: str) -> List[str]:
    lab.machine.write("/root/.ssh/config", SSH)
    around = ["DESK_ACCESS=ssh://board@127.0.0.1:2222", "XDG_CONFIG_HOME=/nowhere"]
    return ["env", *around, "desk", "--server", SERVER, "--user", "ann", *words]


def desk(lab: Lab, *words: str, said: bytes = b"") -> access_lab.Tried:
    return lab.try_words(desk_words(lab, *words), said=said)


def begun(lab: Lab, *words: str) -> "subprocess.Popen[bytes]":
    """A desk that goes on."""
    return lab.begun(*desk_words(lab, *words))


def package(lab: Lab, lines: str) -> Any:
    """What lines of Python leave in `said`."""
    text = PROGRAM.format(server=SERVER, lines=lines)
    tried = lab.try_words([*desk_words(lab)[:3], "/usr/bin/python3", "-c", text], PATIENCE)
    assert tried.status == 0, tried.errors
    return json.loads(tried.output)


def test_ways_and_power_and_console(lab: Lab) -> None:
    lab.reserve("ann", "b1")
    assert desk(lab, "ways", "b1").output.decode().splitlines()[0] == "console"
    assert desk(lab, "power", "b1", "cycle").status == 0
    wait_until("both", lambda: lab.read(f"{PLACE}/power").splitlines()[-2:] == ["3 off", "3 on"])
    line = begun(lab, "console", "b1")
    assert echoed(line, b"hello") == b"hello"
    line.kill()
    assert desk(lab, "console", "b1", "--log").output == b"hello"


def test_ssh_goes_to_the_board_s_own_port(lab: Lab) -> None:
    """What echoes at it is no sshd, which ssh(1) says."""
    lab.reserve("ann", "b1")
    lab.machine.write("/etc/farm/access.toml", access_lab.WAYS.replace(f"ports = [{ECHO}]", f"ports = [{ECHO}, 22]"))
    tried = desk(lab, "ssh", "b1", "true")
    lab.machine.write("/etc/farm/access.toml", access_lab.WAYS)
    assert tried.status == 255 and "127.0.0.1:22: " in tried.errors, tried


def test_a_board_that_isn_t_yours(lab: Lab) -> None:
    lab.reserve("bob", "b1")
    for words in (("console", "b1"), ("power", "b1", "on"), ("ssh", "b1", "true")):
        tried = desk(lab, *words)
        assert tried.status == (255 if words[0] == "ssh" else NOT_YOURS) and "b1 isn't yours now" in tried.errors, tried


def test_desk_with_says_the_board_as_jobs_have_it(lab: Lab) -> None:
    line = begun(lab, "with", "name=b2", "--", "sh", "-c", "echo $FARM_BOARD $BOARD")
    assert line.stdout
    until(lambda: lab.tell("dispatcher", "/pass") and line.poll() is not None)
    assert line.stdout.read() == b"b2 b2\n"


HELD = """\
import re, threading, time, urllib.request
def passes():
    while True:
        asked = urllib.request.Request({server!r} + "/pass", data=b"", headers={{"x-user": "dispatcher"}})
        urllib.request.urlopen(asked).read()
        time.sleep(0.2)
threading.Thread(target=passes, daemon=True).start()
with client.board("name=b1") as board:
    with board.console() as console:
        console.send_line("first second")
        said.append(console.expect("none", re.compile("sec.nd"), timeout=100))
        said.append(console.before)
        try:
            console.expect("never", timeout=0.5)
        except fizgruk.TimedOut:
            said.append("timed out")
    board.power.cycle()
    said.append(board.name)
"""


def test_a_console_of_the_package_sends_and_expects(lab: Lab) -> None:
    assert package(lab, HELD.format(server=SERVER)) == [1, "first ", "timed out", "b1"]


def test_ways_of_a_board_that_isn_t_held_are_refused(lab: Lab) -> None:
    said = package(lab, """\
to = ways.destination()
try:
    ways.Power("b1", to).on()
except ways.NoWay as fault:
    said.append(str(fault))""")
    assert said == ["farm-access: b1 isn't yours now: `desk reserve name=b1`"]
