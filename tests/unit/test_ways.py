"""The words by which ssh(1) goes to boards, and what a console says to who waits for it."""
from __future__ import annotations

import os
import pathlib
import re
import signal
from typing import Callable

import pytest

from fizgruk import ways
from fizgruk.errors import FizgrukError, HoldLost, TimedOut


@pytest.fixture(autouse=True)
def no_settings(monkeypatch: pytest.MonkeyPatch) -> None:
    monkeypatch.setenv("XDG_CONFIG_HOME", "/nowhere")
    for name in ("DESK_ACCESS", "DESK_SERVER", "DESK_CONFIG"):
        monkeypatch.delenv(name, raising=False)


@pytest.mark.parametrize("access, server, to", [
    (None, "https://lab.example/desk", "ssh://board@lab.example:2222"),
    (None, "http://[::1]:8080", "ssh://board@[::1]:2222"),
    ("lab-boards", "https://lab.example", "lab-boards"),
])
def test_where_ssh_goes(access: str, server: str, to: str) -> None:
    assert ways.destination(access, server) == to


def test_the_environment_says_where_ssh_goes(monkeypatch: pytest.MonkeyPatch) -> None:
    monkeypatch.setenv("DESK_ACCESS", "ssh://board@other:22")
    assert ways.destination(None, "https://lab.example") == "ssh://board@other:22"


def test_no_name_is_an_option_of_ssh() -> None:
    assert ways.words_of("-oProxyCommand=sh", "b1", "console") == ["ssh", "-T", "--", "-oProxyCommand=sh", "b1", "console"]
    words = ways.ssh_words("lab", "b1", ["uname", "-a"], user="-x")
    assert words[words.index("--") :] == ["--", "-x@b1", "uname", "-a"]


def test_the_way_to_a_board_s_sshd_is_farm_access() -> None:
    words = ways.ssh_words("ssh://board@lab%x:2222", "b1", [])
    assert words[2] == "ProxyCommand=ssh -T -- ssh://board@lab%%x:2222 b1 tcp 22"


def console(said: bytes, over: bool = False) -> ways.Console:
    made = ways.Console("b1", "lab")
    made._process = object()  # type: ignore[assignment]
    made._said, made._is_over = said, over
    return made


def test_the_first_of_what_is_sought_is_found_and_cut_off() -> None:
    it = console(b"boot\r\nlogin: password: ")
    assert it.expect("password: ", re.compile("log.n: ")) == 1
    assert it.before == "boot\r\n"
    assert it.expect("password: ", re.compile("log.n: ")) == 0
    assert it.before == ""


def test_a_dot_in_a_text_is_a_dot() -> None:
    with pytest.raises(TimedOut, match="'axb'"):
        console(b"axb").expect("a.b", timeout=0)


def test_what_is_no_text_is_passed_over() -> None:
    it = console(b"\xff\xfe$ \xff")
    assert it.expect("$ ") == 0
    assert it._said == b"\xff"


def test_what_farm_access_says_is_a_loss_or_no_way() -> None:
    assert isinstance(ways.fault_of(6, "b1: reservation 1 has ended"), HoldLost)
    fault = ways.fault_of(5, "b1\x1b[2J isn't yours\r\n")
    assert isinstance(fault, ways.NoWay) and str(fault) == "b1 [2J isn't yours"


# ---- an ssh that says and does what a test tells it


@pytest.fixture
def ssh(tmp_path: pathlib.Path, monkeypatch: pytest.MonkeyPatch) -> Callable[[str], ways.Ways]:
    """A board's ways by an ssh that is this script."""

    def made(script: str) -> ways.Ways:
        file = tmp_path / "ssh"
        file.write_text(f"#!/bin/sh\n{script}\n")
        file.chmod(0o755)
        monkeypatch.setenv("PATH", str(tmp_path), prepend=os.pathsep)
        board = ways.Ways()
        board.name, board.to = "b1", "lab"
        return board

    return made


def test_power_is_switched_by_words_of_its_own(ssh: Callable[[str], ways.Ways]) -> None:
    power = ssh('echo "$*"').power
    assert power.status() == "-T -n -- lab b1 power status"
    power.on()
    power.off()


@pytest.mark.parametrize("script, kind, said", [
    ("echo 'b1: reservation 1 has ended' >&2; exit 6", HoldLost, "b1: reservation 1 has ended"),
    ("echo \"b1 isn't yours now\" >&2; exit 5", ways.NoWay, "b1 isn't yours now"),
    ("exit 255", ways.NoWay, "status 255"),
])
def test_what_ssh_ends_with_is_told(ssh: Callable[[str], ways.Ways], script: str, kind: type, said: str) -> None:
    """By power, and by a console to who waits for it and then to who types."""
    board = ssh(script)
    with pytest.raises(kind, match=f"^{said}$"):
        board.power.cycle()
    with board.console() as it:
        with pytest.raises(kind, match=f"^{said}$"):
            it.expect("login: ", timeout=100)
        with pytest.raises(kind, match=f"^{said}$"):
            it.send_line("root")


def test_without_ssh_there_is_no_way(monkeypatch: pytest.MonkeyPatch) -> None:
    monkeypatch.setenv("PATH", "/nowhere")
    with pytest.raises(ways.NoWay, match="^ssh: "):
        ways.Power("b1", "lab").on()


def test_a_command_on_the_board_has_a_time(ssh: Callable[[str], ways.Ways]) -> None:
    ran = ssh('shift 13; echo "$*"; exit 3').ssh("uname", "-a")
    assert (ran.returncode, ran.stdout) == (3, "root@b1 uname -a\n")
    with pytest.raises(TimedOut, match="^uname: not within 0.1 s$"):
        ssh("exec sleep 60").ssh("uname", timeout=0.1)


def test_a_console_is_used_within_a_with(ssh: Callable[[str], ways.Ways]) -> None:
    it = ssh("exec cat").console()
    with pytest.raises(FizgrukError, match="within a with"):
        it.send("x")
    with pytest.raises(FizgrukError, match="within a with"):
        it.expect("x")
    with it:
        it.send(b"x")
        assert it.expect("x", timeout=100) == 0
    it.close()


def test_a_console_that_doesnt_end_is_killed(ssh: Callable[[str], ways.Ways], monkeypatch: pytest.MonkeyPatch) -> None:
    """Also one that says nothing any more, and goes on."""
    monkeypatch.setattr(ways, "ENDS_WITHIN", 0.1)
    with ssh("trap '' TERM; exec 1>&-; while :; do sleep 0.05; done").console() as it:
        with pytest.raises(ways.NoWay, match="^the console of b1 doesn't answer$"):
            it.expect("x", timeout=100)
        process = it._process
    assert process is not None and process.returncode == -signal.SIGKILL
