"""farm-access before real sshd, ser2net and pdudaemon, by its units under a systemd: who gets to which board, what
strangers get, and what odd moments do. Boards keep each byte that reaches them."""
from __future__ import annotations

import json
import os
import re
import signal
import subprocess
import sys
import threading
import time
from typing import Any, Callable, Iterator

import pytest

import access_lab
from access_lab import ECHO, PLACE, SHARED, Lab, echoed, kill, lab_fixture, until
from machine import PORT
from ports import free_port
from served import PATIENCE

__all__ = ["lab_fixture"]
pytestmark = [pytest.mark.xdist_group("machine"), pytest.mark.slow(120)]
BAD_WORDS, FAULT, NOT_YOURS, LOST, NO_SSH = 2, 4, 5, 6, 255
# Seconds from a hold's end within which nothing of it is left: two, where a machine isn't busy with other tests
# (access_handovers.py measures that).
OUT = 60.0
WAYS = ["console", "env", "gone", "nasty", "power on|off|cycle", "say", "shell", "sleep", f"tcp {ECHO}"]


@pytest.fixture
def held(lab: Lab) -> Callable[..., int]:
    """Has a board acquired by a person."""
    return lambda person="ann", board="b1": lab.reserve(person, board)


@pytest.fixture
def configured(lab: Lab) -> Iterator[Callable[[str], None]]:
    """Writes another access.toml for a while."""

    def write(text: str) -> None:
        lab.machine.write("/etc/farm/access.toml", text)
        lab.machine.run("systemctl", "restart", "farm-access-guard")

    yield write
    write(access_lab.WAYS)


# ---- who is let in


LET_IN = (
    ("bob", "b1 say x", NOT_YOURS, ""), ("bob", "b1 power on", NOT_YOURS, ""), ("eve", "b1 say x", NOT_YOURS, ""),
    ("eve", "b1 say x --as-admin", 0, "x\n"), ("bob", "b1 say x --as-admin", NOT_YOURS, ""),
    ("ann", "b1 say x --help", 0, "x --help\n"), ("ann", "b9 say x", NOT_YOURS, ""), ("ann", "b2 say x", NOT_YOURS, ""),
    ("stranger", "b1 say x", NO_SSH, ""),
)


def test_who_is_let_in(lab: Lab, held: Callable[..., int]) -> None:
    """Whom it isn't is told who has the board."""
    number, before = held(), lab.text("b1")
    tried = lab.session("bob", "b1", "console", said=b"intruder")
    assert (tried.status, tried.output) == (NOT_YOURS, b"")
    assert tried.errors == f"farm-access: b1 isn't yours now: reservation {number} has it"
    assert lab.text("b1") == before
    for person, words, status, said in LET_IN:
        tried = lab.session(person, words)
        assert (tried.status, tried.output.decode()) == (status, said), (person, words, tried)


def test_an_admin_at_a_free_board_is_out_once_somebody_has_it(lab: Lab, held: Callable[..., int]) -> None:
    line = lab.begin("eve", "b1", "sleep", "--as-admin")
    lab.running("b1", "sleep")
    held()
    assert line.wait(OUT) == LOST


def test_an_admin_at_a_free_board_isnt_tidied_away(lab: Lab) -> None:
    """As where the guard asked for it as nobody was there."""
    line = lab.begin("eve", "b1", "sleep", "--as-admin")
    lab.running("b1", "sleep")
    assert lab.try_words(["farm-access", "tidy", "b1"]).status == 0
    lab.running("b1", "sleep")
    assert line.poll() is None
    line.kill()


def test_a_key_of_two_people_and_one_taken_away_are_nobody_s(lab: Lab, held: Callable[..., int]) -> None:
    """Also over a connection that was made before."""
    held()
    key, statuses = "/etc/farm/keys/ann", []
    for words in ("true", f"mv {key} /root/ann", f"mv /root/ann {key}; cp {key} /etc/farm/keys/mallory", "rm /etc/farm/keys/mallory"):
        lab.machine.run("sh", "-c", words)
        statuses.append(lab.session("ann", "b1", "say", "x", options=SHARED).status)
    assert statuses == [0, NOT_YOURS, NOT_YOURS, 0]


# ---- strangers' words and options


STRANGE = [
    "b1;sh", "b1 say $(id)", "b1 say `id`", "b1 say x;id", "b1 say x|id", "b1 say x\nid", "../b1", "b1/../b1 console",
    "b1 -oProxyCommand=id", "b1 after", "b1 console x", "b1 console --watch x", "b1 tcp 22", "b1 tcp -1",
    "b1 tcp 99999999999999999999", "b1 power ../on", "", "b1 say \x1b[2J", "b1  say", "b1 say " + "x" * 3000, "sh",
    "b1 lacking", "scp -t /tmp", "internal-sftp", "/usr/lib/openssh/sftp-server", "rsync --server . /", "b1 --as-admin x", "b1 status",
    "b1 env x", "b1 devices", "b1 tidy",
]


def test_strange_words_run_nothing(lab: Lab, held: Callable[..., int]) -> None:
    held()
    before = lab.text("b1")
    for words in STRANGE:
        tried = lab.session("ann", words, options=SHARED)
        assert tried.status in (BAD_WORDS, NOT_YOURS) and tried.output == b"", (words, tried)
        assert re.fullmatch("farm-access: [ -~]+", tried.errors), (words, tried)
    assert lab.text("b1") == before


def test_a_forged_name_is_no_account(lab: Lab, held: Callable[..., int]) -> None:
    held()
    for account in ("bob", "root", "daemon"):
        assert lab.try_words(lab.ssh("ann", "b1", "say", "x", account=account)).status == NO_SSH, account


def test_a_client_s_environment_reaches_nothing(lab: Lab, held: Callable[..., int]) -> None:
    held()
    forged = "SetEnv=SSH_USER_AUTH=/etc/passwd LD_PRELOAD=/tmp/x.so PATH=/tmp FARM_PERSON=ann FARM_FOLDER=/tmp"
    refused = lab.session("bob", "b1", "say", "x", options=["-o", forged])
    tried = lab.session("ann", "b1", "env", options=["-o", forged])
    names = {it.partition("=")[0] for it in tried.output.decode().splitlines()}
    assert refused.status == NOT_YOURS
    assert names <= {"PATH", "HOME", "TERM", "FARM_BOARD", "FARM_HOLD", "FARM_PERSON"}
    assert "PATH=/usr/local/bin:/usr/bin:/bin" in tried.output.decode().splitlines()


def test_nothing_is_forwarded(lab: Lab, held: Callable[..., int]) -> None:
    held()
    desk, fails = f"127.0.0.1:{PORT}", ["-N", "-o", "ExitOnForwardFailure=yes"]
    for options in (["-W", desk], [*fails, "-R", f"{free_port()}:{desk}"], [*fails, "-w", "0:0"]):
        tried = lab.session("ann", options=options)
        assert (tried.status, tried.output) == (NO_SSH, b""), options


@pytest.mark.parametrize("option", ["-L", "-D"])
def test_a_port_at_the_client_leads_nowhere(lab: Lab, held: Callable[..., int], option: str) -> None:
    held()
    port = free_port()
    place = f"{port}:127.0.0.1:{PORT}" if option == "-L" else str(port)
    lab.begin("ann", options=["-N", option, place])
    desk = f"http://127.0.0.1:{PORT}/status"
    proxy = ["-x", f"socks5h://127.0.0.1:{port}", desk] if option == "-D" else [f"http://127.0.0.1:{port}/status"]
    lab.machine.wait("ssh", "sh", "-c", f"ss -ltn | grep :{port}")
    said = lab.machine.run("curl", "-s", "-m", "5", "--noproxy", "", *proxy, check=False)
    assert (said.returncode != 0, said.stdout) == (True, "")


def test_no_file_is_copied(lab: Lab, held: Callable[..., int]) -> None:
    held()
    mark, place, options = "/root/copied", "board@127.0.0.1:", ["-P", "2222", *lab.ssh("ann")[5:-1]]
    sent, got = ["/etc/hostname", f"{place}{mark}"], [f"{place}/etc/passwd", mark]
    for words in (["scp", "-O", *options, *sent], ["scp", *options, *sent], ["sftp", *options, *got]):
        assert lab.try_words(words).status != 0 and not os.path.exists(lab.there(mark)), words


def test_no_subsystem_and_no_shell_on_a_terminal(lab: Lab, held: Callable[..., int]) -> None:
    held()
    assert lab.session("ann", "sftp", options=["-s"]).status == NO_SSH
    assert lab.session("ann", options=["-tt"]).status == BAD_WORDS


def test_sshd_takes_its_configuration(lab: Lab) -> None:
    """The one that the project ships."""
    tried = lab.try_words(["/usr/sbin/sshd", "-T", "-f", "/etc/farm/farm-access-sshd.conf"])
    said = tried.output.decode().splitlines()
    assert tried.status == 0, tried.errors
    for line in (
        "allowtcpforwarding no", "allowstreamlocalforwarding no", "allowagentforwarding no", "x11forwarding no",
        "permittunnel no", "disableforwarding yes", "passwordauthentication no", "kbdinteractiveauthentication no",
        "permituserenvironment no", "authorizedkeysfile none", "exposeauthinfo yes", "usepam no",
        "logingracetime 20", "persourcemaxstartups 10",
    ):
        assert line in said
    assert not [it for it in said if it.startswith(("acceptenv", "subsystem"))]


# ---- ways


def test_a_port_of_the_board_s_answers(lab: Lab, held: Callable[..., int]) -> None:
    held()
    assert lab.session("ann", "b1", "tcp", str(ECHO), said=b"hello\n").output == b"echo hello\n"


def test_ways_are_told_and_what_lacks_a_tag_is_none(lab: Lab) -> None:
    assert lab.session("bob", "b2", "ways").output.decode().splitlines() == WAYS


def test_a_console_s_bytes_are_kept_for_the_owner(lab: Lab, held: Callable[..., int]) -> None:
    held("ann", "b2")
    odd = b"zwei \xff\x00 \xc3\xa4\r\n"
    line = lab.begin("ann", "b2", "console")
    assert echoed(line, odd) == odd
    line.kill()
    another = lab.session("bob", "b2", "console", "--log")
    assert (another.status, another.output) == (NOT_YOURS, b"")
    for words in (("ann", "b2", "console", "--log"), ("eve", "b2", "console", "--log", "--as-admin")):
        assert lab.session(*words).output.endswith(odd), words


def test_a_second_session_watches_the_console(lab: Lab, held: Callable[..., int]) -> None:
    number = held("ann", "b2")
    first = lab.begin("ann", "b2", "console")
    assert echoed(first, b"one") == b"one"
    busy = lab.session("ann", "b2", "console")
    assert busy.status == NOT_YOURS and "--watch" in busy.errors
    second = lab.begin("ann", "b2", "console", "--watch")
    assert second.stdout and second.stdout.read(3) == b"one"
    assert echoed(first, b"two") == second.stdout.read(3) == b"two"
    lab.cancel("ann", number)
    assert (first.wait(OUT), second.wait(OUT)) == (LOST, LOST)


def test_each_use_is_written_down(lab: Lab, held: Callable[..., int]) -> None:
    number = held()
    lab.session("ann", "b1", "say", "written")
    lab.session("eve", "b1", "say", "too", "--as-admin")
    rows = [(it["person"], it["words"], it["hold"], it["status"]) for it in lab.uses() if "hold" in it and it["person"]][-2:]
    hold = f"reservation {number}"
    assert rows == [("ann", "b1 say written", hold, 0), ("eve", "b1 say too --as-admin", hold, 0)]


def checked(lab: Lab, *boards: str) -> "tuple[dict[str, str], int]":
    tried = lab.try_words(["farm-access", "check", *boards])
    assert ": " in tried.output.decode(), tried
    return dict(it.split(": ", 1) for it in tried.output.decode().splitlines()), tried.status or 0


def test_check_says_which_way_answers_and_what_does_not(
    lab: Lab, held: Callable[..., int], configured: Callable[[str], None]
) -> None:
    """Each part of the site, each way of a board, and a board that there isn't."""
    lab.machine.run("nft", f"add element inet farm_boards ports {{ {access_lab.PDU}, {ECHO} }}")
    said, status = checked(lab, "b1", "b2")
    assert (said["b1 power"], said["b1 console"], said["b2 tcp"], said["keys"]) == ("answers", "answers", "answers", "of 3"), said
    assert said["b2 lacking"] == "it has no tag flasher=.." and status == 1
    text = access_lab.WAYS
    for was, now in ((f":{access_lab.PDU}", ":1"), (f"[{ECHO}]", "[1]"), ("/dev/boards/{board}\" }", "/etc/passwd\" }")):
        text = text.replace(was, now)
    configured(text.replace('say = ["/bin/echo"', 'say = ["/no/such/command"'))
    lab.machine.write("/etc/farm/keys/mallory", 'command="sh" ssh-ed25519 AAAA\n')
    said, status = checked(lab, "b1", "b2", "b9")
    lab.machine.run("rm", "/etc/farm/keys/mallory")
    assert (status, said["b9"], said["b1 console"]) == (1, "there is no such board", "answers")
    assert said["keys of mallory"].startswith("a line isn't TYPE KEY")
    for way, why in (
        ("b1 power", "pdudaemon: .*refused"), ("b1 tcp", "127.0.0.1:1: .*refused"), ("b2 console", "/etc/passwd: "),
        ("b1 say", "/no/such/command: "),
    ):
        assert re.match(why, said[way]), (way, said)
    number = held()
    lab.begin("ann", "b1", "sleep")
    lab.running("b1", "sleep")
    assert checked(lab, "b1")[0]["b1"] == f"in use by reservation {number}, so it isn't tried"
    lab.machine.run("systemctl", "stop", "farm-access-jobs.socket", "farm-access")
    assert "systemctl start farm-access-guard" in checked(lab, "b2")[0]["door"]
    lab.machine.run("systemctl", "start", "farm-access-jobs.socket", "farm-access")


def test_check_says_who_else_can_open_a_way_and_what_mends_it(lab: Lab) -> None:
    lab.machine.run("nft", f"add element inet farm_boards ports {{ {access_lab.PDU}, {ECHO} }}")
    assert " can open " not in str(checked(lab, "b3")) and " can reach " not in str(checked(lab, "b3"))
    device = os.readlink(lab.there("/dev/boards/b3"))
    opens = "chmod 755 /run/ser2net; chmod 666 /run/ser2net/b1; nft flush set inet farm_boards ports"
    lab.machine.run("sh", "-c", f"chgrp dialout {device}; {opens}")
    said, status = checked(lab, "b1", "b3")
    lab.machine.run("sh", "-c", f"chgrp farm-hold {device}; chmod 700 /run/ser2net; chmod 600 /run/ser2net/b1")
    assert status == 1
    assert said["b3 console"] == 'the group dialout can open /dev/boards/b3: a rule of udev\'s gives it to root alone, by MODE="0600"'
    assert 'GROUP="farm-hold", MODE="0660"' in said["b3 devices"]
    assert said["b1 console"].startswith("everybody can open /run/ser2net/b1: its folder is root's, with mode 0700")
    assert said["b1 power"].endswith(f"boards.nft: add element inet farm_boards ports {{ {access_lab.PDU} }}")
    assert said["b1 tcp"].endswith(f"boards.nft: add element inet farm_boards ports {{ {ECHO} }}")


def test_a_way_that_doesnt_answer_says_so(lab: Lab, held: Callable[..., int]) -> None:
    held("ann", "b2")
    lab.machine.run("mv", "/dev/boards/b2", "/dev/boards/gone")
    console = lab.session("ann", "b2", "console")
    lab.machine.run("mv", "/dev/boards/gone", "/dev/boards/b2")
    assert (console.status, console.output) == (FAULT, b"")
    assert console.errors.startswith("farm-access: ") and "No such file" in console.errors, console
    lab.machine.run("systemctl", "stop", "pdus")
    power = lab.session("ann", "b2", "power", "on")
    lab.pdus()
    assert power.status == FAULT and power.errors.startswith("farm-access: pdudaemon: "), power
    assert lab.session("ann", "b2", "tcp", "1").status == BAD_WORDS, "no port of the board's"
    assert lab.session("ann", "b2", "power", "status").status == BAD_WORDS, "pdudaemon has none"
    gone = lab.session("ann", "b2", "gone")
    assert (gone.status, gone.errors) == (127, "farm-access: /no/such/command: No such file or directory")


# ---- odd moments


def writer(lab: Lab, person: str = "ann", board: str = "b2") -> "subprocess.Popen[bytes]":
    """A session whose processes went away from it and write to the board without end."""
    before = len(lab.got(board))
    line = lab.begin(person, board, "nasty", "mark", "0.03")
    until(lambda: len(lab.got(board)) > before + 3)
    assert len(lab.got(board)) > before + 3, lab.machine.journal("farm-access")[-800:]
    return line


def still_writes(lab: Lab, moment: float) -> bool:
    """Whether b2 gets bytes after a moment."""
    until(lambda: lab.got("b2")[-1].at > moment)
    return lab.got("b2")[-1].at > moment


def ends_in_time(lab: Lab, number: int) -> None:
    """Ends a hold: soon nothing of it is left, and no byte comes."""
    since = time.time()
    lab.cancel("ann", number)
    took = until(lambda: not lab.units())
    last = lab.got("b2")[-1].at - since
    assert took < OUT and last < OUT, (took, last, lab.units())
    count = len(lab.got("b2"))
    time.sleep(0.3)
    assert len(lab.got("b2")) == count


@pytest.mark.parametrize("how", ["cancel", "release"])
def test_a_hold_s_end_ends_all(lab: Lab, held: Callable[..., int], how: str) -> None:
    number = held("ann", "b2")
    line = writer(lab)
    if how == "release":
        lab.tell("ann", f"/reservations/{number}/release")
    else:
        ends_in_time(lab, number)
    assert line.wait(OUT) == LOST
    assert line.stderr and b"has ended" in line.stderr.read()
    assert not lab.units()


@pytest.mark.parametrize("what", ["STOP unit", "KILL unit", "STOP client", "KILL sshd", "KILL door", "STOP door", "KILL guard"])
def test_what_is_stopped_or_killed_ends_too(lab: Lab, held: Callable[..., int], what: str) -> None:
    number = held("ann", "b2")
    line = writer(lab)
    kind, _, who = what.partition(" ")
    sent = signal.SIGSTOP if kind == "STOP" else signal.SIGKILL
    unit = lab.running("b2", "nasty")
    if who == "unit":
        for pid in lab.pids_of(unit)[:1]:
            kill(pid, sent)
    elif who == "client":
        line.send_signal(sent)
    elif who == "sshd":
        lab.machine.run("pkill", "-KILL", "-f", "sshd: board")
    else:
        lab.machine.run("systemctl", "kill", f"--signal={kind}", "farm-access" if who == "door" else "farm-access-guard")
    if kind == "KILL" and who in ("unit", "sshd", "door"):
        assert until(lambda: not lab.units()) < OUT, "its end ends the unit"
    ends_in_time(lab, number)
    lab.machine.run("systemctl", "kill", "--signal=CONT", "farm-access")


def test_who_comes_next_ends_what_is_left_where_there_is_no_guard(lab: Lab, held: Callable[..., int]) -> None:
    lab.machine.run("systemctl", "stop", "farm-access-guard")
    try:
        number = held("ann", "b2")
        writer(lab)
        lab.machine.run("systemctl", "kill", "--signal=STOP", "farm-access")
        lab.machine.run("systemctl", "kill", "--signal=CONT", "--kill-who=main", "farm-access")
        lab.cancel("ann", number)
        held("bob", "b2")
        assert lab.session("bob", "b2", "say", "x").output == b"x\n"
        assert not lab.units()
    finally:
        lab.machine.run("systemctl", "start", "farm-access-guard")


def test_while_the_desk_hangs_or_is_down_a_session_goes_on_and_none_begins(lab: Lab, held: Callable[..., int]) -> None:
    number = held("ann", "b2")
    writer(lab)
    lab.machine.run("systemctl", "kill", "--signal=STOP", "farm")
    hangs = still_writes(lab, time.time() + 3)
    lab.machine.run("systemctl", "kill", "--signal=CONT", "farm")
    lab.machine.run("systemctl", "stop", "farm")
    goes_on = still_writes(lab, time.time() + 3)
    tried = lab.session("ann", "b2", "say", "x")
    begun = lab.begin("ann", "b2", "say", "x")
    time.sleep(2)
    is_there = begun.poll() is None
    lab.machine.serve()
    assert hangs and goes_on
    assert (tried.status, tried.output) == (FAULT, b"")
    assert (begun.communicate(timeout=120)[0], is_there) == (b"x\n", True), "one waits for a desk that starts"
    ends_in_time(lab, number)


def test_a_shared_connection_ends_its_sessions_not_itself(lab: Lab, held: Callable[..., int]) -> None:
    number = held("ann", "b2")
    lab.begin("ann", "b2", "sleep", options=SHARED)
    lab.running("b2", "sleep")
    assert lab.session("ann", "b2", "say", "x", options=SHARED).output == b"x\n"
    lab.cancel("ann", number)
    assert until(lambda: not lab.units()) < OUT
    assert lab.session("ann", "b2", "say", "x", options=SHARED).status == NOT_YOURS


def test_a_console_on_a_terminal_ends_with_its_hold(lab: Lab, held: Callable[..., int]) -> None:
    number = held("ann", "b1")
    before = len(lab.text("b1"))
    line = lab.begin("ann", "b1", "console", options=["-tt"])
    assert line.stdin

    def typed(said: bytes, seconds: float) -> bool:
        assert line.stdin
        line.stdin.write(said)
        line.stdin.flush()
        until(lambda: lab.text("b1")[before:].endswith(said), seconds)
        return lab.text("b1")[before:].endswith(said)

    until(lambda: typed(b".", 1))  # (what is typed before it has begun isn't for the board)
    assert typed(b"\x03typed\r", PATIENCE)
    lab.cancel("ann", number)
    assert line.wait(OUT) == LOST


def test_ctrl_c_reaches_a_way_of_the_lab_s_own(lab: Lab, held: Callable[..., int]) -> None:
    held("ann", "b2")
    line = lab.begin("ann", "b2", "sleep", options=["-tt"])
    lab.running("b2", "sleep")
    echoed(line, b"\x03")
    assert line.wait(OUT) == 128 + signal.SIGINT


def test_after_runs_between_two_holds_and_where_it_fails_nobody_gets_in(lab: Lab, held: Callable[..., int]) -> None:
    def count() -> int:
        return lab.text("b3").count(b"<after>")

    first = held("ann", "b3")
    assert lab.session("ann", "b3", "say", "x").status == 0
    before = count()
    assert lab.session("ann", "b3", "say", "x").status == 0
    assert count() == before
    lab.cancel("ann", first)
    until(lambda: count() > before)
    assert count() == before + 1
    second = held("ann", "b3")
    assert lab.session("ann", "b3", "say", "x").status == 0
    since = time.time()
    lab.machine.write(f"{PLACE}/fails", "")
    lab.cancel("ann", second)
    held("bob", "b3")
    shut = lab.session("bob", "b3", "say", "x")
    until(lambda: shown_of(lab, "b3").get("shut"))
    shut_since = shown_of(lab, "b3")["shut"]
    lab.machine.run("rm", f"{PLACE}/fails")
    opened = lab.session("bob", "b3", "say", "x")
    assert (shut.status, shut.output) == (FAULT, b"") and "b3 is shut" in shut.errors
    assert opened.output == b"x\n"
    assert "b3: it is shut" in lab.machine.journal("farm-access-guard")
    assert since - 60 < shut_since <= time.time()
    until(lambda: "shut" not in shown_of(lab, "b3"))
    assert "shut" not in shown_of(lab, "b3")


def test_root_tidies_a_board_and_nothing_else(lab: Lab) -> None:
    assert lab.try_words(["farm-access", "tidy", "b2"]).status == 0
    assert lab.try_words(["farm-access", "way", "b2", "say", "x"]).status == BAD_WORDS


def test_of_a_long_paste_nothing_comes_after_the_hold_since_consoles_are_paced(lab: Lab, configured: Callable[[str], None]) -> None:
    """The board takes 11,500 bytes a second, and what waits in ser2net would come later: some 30,000 bytes."""
    configured(access_lab.WAYS.replace("rate = 4000", "rate = 1000"))
    number = lab.reserve("ann", "b1")
    before = len(lab.text("b1"))
    line = lab.begin("ann", "b1", "console")
    threading.Thread(target=paste, args=(line, b"x" * 300_000), daemon=True).start()
    until(lambda: len(lab.text("b1")) > before + 500)
    lab.cancel("ann", number)
    until(lambda: not lab.units())
    before = len(lab.text("b1"))
    until(lambda: time.time() > lab.got("b1")[-1].at + 2)
    assert len(lab.text("b1")) - before < 8000


def paste(line: "subprocess.Popen[bytes]", text: bytes) -> None:
    assert line.stdin
    try:
        line.stdin.write(text)
        line.stdin.flush()
    except OSError:
        pass  # the session has ended


@pytest.mark.slow(90)
@pytest.mark.parametrize("without", ["", "take"])
def test_handovers_under_kills_mix_no_bytes_and_without_a_take_they_do(program: str, without: str) -> None:
    """A few, by the script that makes hundreds; on a busy machine ends take longer than on an idle one. (Where nobody
    cleans up behind others what a hold left writes on.)"""
    script = os.path.join(os.path.dirname(os.path.abspath(__file__)), "access_handovers.py")
    more = ["--without", without, "--kills", "none,STOP ssh"] if without else []
    words = [sys.executable, script, "--farm", program, "--within", "30", *more, "9"]
    ran = subprocess.run(words, capture_output=True, text=True, check=False)
    assert ran.returncode == (1 if without else 0), ran.stdout + ran.stderr
    if without:
        assert any(int(it) for it in re.findall('"mixes": ([0-9]+)', ran.stdout)), ran.stdout


def shown_of(lab: Lab, board: str) -> Any:
    return json.loads(lab.read("/var/lib/farm-access/shown/access.json"))["boards"][board]


def test_the_guard_tells_the_page_which_ways_there_are_and_who_is_there(lab: Lab, held: Callable[..., int]) -> None:
    held("ann", "b2")
    line = lab.begin("ann", "b2", "sleep")
    lab.running("b2", "sleep")
    until(lambda: shown_of(lab, "b2")["sessions"])
    assert [(it["person"], it["way"]) for it in shown_of(lab, "b2")["sessions"]] == [("ann", "sleep")]
    assert shown_of(lab, "b2")["ways"] == WAYS
    line.kill()
    until(lambda: not shown_of(lab, "b2")["sessions"])
    assert not shown_of(lab, "b2")["sessions"]
