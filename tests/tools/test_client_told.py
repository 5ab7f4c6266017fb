"""What the client tells of clocks, waits, states and its own words, and what signals do to it."""
from __future__ import annotations

import os
import re
import signal
import tempfile
import time
from typing import Callable, Optional, Sequence

import pytest
from desks import (
    GROUP, JOB, Ran, at_a_terminal, at_ease, desk, number_of, passes, prints, read_until, tell_at, waiting_tool,
    waits, write,
)
from served import PATIENCE, Farm, Tool, read, wait_until

SIGNALS = (signal.SIGINT, signal.SIGTERM, signal.SIGHUP, signal.SIGQUIT)
EACH_SIGNAL = pytest.mark.parametrize("number", SIGNALS, ids=[it.name for it in SIGNALS])


# ---- the desk's clock (tests/unit/test_clocks.py has more of it, without a server)


def telling(farm: Farm, *words: str) -> Ran:
    """What a view comes to, once something is told of the clock (which isn't looked at for longer than five seconds)."""
    def told() -> Optional[Ran]:
        ran = desk(farm, *words)
        return ran if ran[2] else None

    found: Ran = wait_until("what is told", told)
    return found


@pytest.mark.parametrize("view", ["queue", "boards", "reservations"])
def test_a_clock_that_stands_still_is_a_dispatcher_that_doesnt_pass(make_farm: Callable[..., Farm], view: str) -> None:
    farm = make_farm()
    tell_at(farm, time.time() - 3600, "admin", "/types", b'{"name":"bbb"}')
    told = telling(farm, view)[2]
    assert re.fullmatch(r"desk: no pass for 1 hour( \d+ minutes?)?: is farm-dispatch running\?\n", told)
    tell_at(farm, time.time(), "dispatcher", "/pass")
    prints(farm, '{"queue":[]}\n', "--json", "queue")


def test_a_farms_clock_that_is_ahead_is_told(farm: Farm) -> None:
    tell_at(farm, time.time() + 3 * 86400 + 7200, "dispatcher", "/pass")
    told = "desk: the farm's clock is 3 days 1 hour ahead of this machine's: leases won't end until then\n"
    assert telling(farm, "--json", "queue") == (0, '{"queue":[]}\n', told)


# ---- signals


def with_hdmi(farm: Farm, folder: str, *command: str) -> Tool:
    """A `desk with` whose command has begun."""
    tool = waiting_tool(farm, folder, "with", "hdmi", "--every", "0.1", "--", *command)
    waits(tool)
    passes(farm)
    wait_until("it runs", lambda: "begun" in tool.output())
    return tool


def test_a_command_runs_with_a_board_that_is_given_back(farm: Farm, folder: str) -> None:
    tool = with_hdmi(farm, folder, "sh", "-c", 'echo begun $BOARD $BOARD_TYPE "$BOARD_TAGS" $RESERVATION; exit 7')
    assert (tool.ends(), tool.output()) == (7, "begun b1 bbb hdmi serial 1\n")
    assert (farm.board("b1")["holder"], farm.reservation(1)["state"]) == ("none", "canceled")


@EACH_SIGNAL
def test_a_signal_that_ends_the_command_gives_the_board_back(farm: Farm, folder: str, number: signal.Signals) -> None:
    tool = with_hdmi(farm, folder, "sh", "-c", "ulimit -c 0; echo begun; exec sleep 300")
    tool.send(number)
    assert (tool.ends(), farm.board("b1")["holder"]) == (128 + number, "none")


@EACH_SIGNAL
def test_a_signal_reaches_the_command_which_ends_as_it_likes(farm: Farm, folder: str, number: signal.Signals) -> None:
    loop = "echo begun; while :; do sleep 0.1; done"
    tool = with_hdmi(farm, folder, "sh", "-c", f"trap 'echo told; exit 9' {number.name[3:]}; {loop}")
    tool.send(number)
    assert (tool.ends(), tool.output(), farm.board("b1")["holder"]) == (9, "begun\ntold\n", "none")


@EACH_SIGNAL
def test_a_signal_while_it_waits_leaves_no_reservation(farm: Farm, folder: str, number: signal.Signals) -> None:
    tool = waiting_tool(farm, folder, "with", "hdmi", "--every", "0.1", "--", "true")
    waits(tool)
    tool.send(number)
    assert (tool.ends(), farm.look("/queue")["queue"]) == (128 + number, [])


@pytest.mark.parametrize("key, status", [(b"\x1c", 131), (b"\x03", 130), (None, 129)], ids=["quit", "interrupt", "end"])
def test_a_terminals_keys_and_its_end_give_the_board_back(farm: Farm, key: Optional[bytes], status: int) -> None:
    command = ["sh", "-c", "ulimit -c 0; echo begun; exec sleep 300"]
    process, line = at_a_terminal(farm, "with", "hdmi", "--every", "0.1", "--", *command)
    read_until(line, b"in the queue")
    passes(farm)
    read_until(line, b"begun")
    press(line, key)
    assert (process.wait(timeout=PATIENCE), farm.board("b1")["holder"]) == (status, "none")


@pytest.mark.parametrize("words", [["with", "hdmi", "--", "true"], ["reserve", "hdmi", "--wait"]])
def test_a_terminals_end_ends_what_waits(farm: Farm, words: Sequence[str]) -> None:
    process, line = at_a_terminal(farm, *words)
    read_until(line, b"in the queue")
    press(line, None)
    assert (process.wait(timeout=PATIENCE), farm.look("/queue")["queue"]) == (129, [])


def press(line: int, key: Optional[bytes]) -> None:
    """Presses a key of a terminal; None ends the terminal."""
    if key:
        os.write(line, key)
    else:
        os.close(line)


def test_an_interrupt_at_the_very_beginning_ends_it_without_a_word(farm: Farm, folder: str) -> None:
    """Ctrl-C comes while the client still reads its modules: one of them takes its time."""
    place = tempfile.mkdtemp(dir=folder)
    mark = os.path.join(place, "here")
    write(place, "argparse.py", f"open({mark!r}, 'w').close()\nimport time\ntime.sleep(300)\n")
    tool = waiting_tool(farm, folder, "queue", PYTHONPATH=place)
    wait_until("the module", lambda: os.path.exists(mark))
    tool.send(signal.SIGINT)
    assert (tool.ends(), tool.errors()) == (-signal.SIGINT, "")


def test_a_wait_for_a_job_that_is_interrupted_says_that_the_job_goes_on(farm: Farm, folder: str) -> None:
    tool = waiting_tool(farm, folder, "submit", write(folder, "one.toml", JOB), "--wait", "--every", "0.1")
    number = number_of(tool)
    again = waiting_tool(farm, folder, "wait", str(number), "--every", "0.1")
    for each in (tool, again):
        waits(each)
        each.send(signal.SIGINT)
        assert each.ends() == 130
        assert each.errors().endswith(f"desk: job {number} goes on; desk cancel {number} ends it\n")
    assert farm.job(number)["state"] == "Submitted"


# ---- a board that is lost

# A command that waits for its child, which does something at first: each writes its number into a file.
CHILD = 'echo begun; sh -c "%s; echo \\$\\$ > %s/child; while :; do sleep 0.1; done" & echo $$ > %s/own; wait'


def lost_with(farm: Farm, folder: str, *command: str) -> Tool:
    """A `desk with` whose board an admin takes away."""
    tool = with_hdmi(farm, folder, *command)
    farm.tell("admin", "/reservations/1/cancel")
    return tool


def is_running(folder: str, name: str) -> bool:
    """Whether a process runs that wrote its number there."""
    try:
        with open(f"/proc/{int(read(os.path.join(folder, name)))}/stat", encoding="utf-8") as stat:
            return stat.read().rpartition(")")[2].split()[0] != "Z"
    except (OSError, ValueError):
        return False


def test_a_board_that_is_lost_ends_the_command_and_its_children(farm: Farm, folder: str) -> None:
    tool = with_hdmi(farm, folder, "sh", "-c", CHILD % (":", folder, folder))
    wait_until("its child", lambda: is_running(folder, "child") and is_running(folder, "own"))
    farm.tell("admin", "/reservations/1/cancel")
    assert tool.ends() == 125
    assert tool.errors().endswith("desk: board b1 is lost: reservation 1 is canceled: the command is ended\n")
    assert not is_running(folder, "own") and not is_running(folder, "child")
    assert farm.reservation(1)["state"] == "canceled"


@pytest.mark.slow(15)
def test_what_takes_no_notice_is_killed_where_its_board_is_lost(farm: Farm, folder: str) -> None:
    told = os.path.join(folder, "told")
    tool = with_hdmi(farm, folder, "sh", "-c", CHILD % (f"trap 'echo > {told}' TERM", folder, folder))
    wait_until("its child", lambda: is_running(folder, "child"))
    farm.tell("admin", "/reservations/1/cancel")
    assert tool.ends() == 125
    wait_until("the end of both", lambda: not is_running(folder, "own") and not is_running(folder, "child"))
    assert os.path.exists(told), "it was told before"


def test_a_board_that_is_lost_just_before_the_command_ends_is_told_too(farm: Farm, folder: str) -> None:
    """Its end comes before the next look, or the look before its end."""
    end = os.path.join(folder, "end")
    loop = f"trap 'exit 0' TERM; echo begun; until [ -e {end} ]; do sleep 0.1; done"
    tool = lost_with(farm, folder, "sh", "-c", loop)
    write(folder, "end", "")
    assert tool.ends() == 125
    assert re.search(r"desk: board b1 is lost: reservation 1 (had ended before the command|is canceled: the c.*)\n$",
                     tool.errors())


@pytest.mark.slow(10)
def test_while_the_desk_is_away_no_board_is_lost(farm: Farm, folder: str) -> None:
    end = os.path.join(folder, "end")
    tool = with_hdmi(farm, folder, "sh", "-c", f"echo begun; until [ -e {end} ]; do sleep 0.1; done; exit 5")
    farm.kill()
    time.sleep(5)  # two looks at least
    farm.start()
    time.sleep(3)
    assert (tool.process.poll(), farm.board("b1")["holder"]) == (None, "reservation 1")
    write(folder, "end", "")
    assert (tool.ends(), "lost" in tool.errors(), farm.board("b1")["holder"]) == (5, False, "none")


# ---- why it waits (tests/unit/test_wants.py has more reasons, without a server)


def test_what_goes_over_several_lines_of_a_terminal_is_erased_whole(farm: Farm) -> None:
    farm.tell("admin", "/boards/b2/health", {"health": "Maintenance"})
    process, line = at_a_terminal(farm, "reserve", "name=b2", "--wait", "--every", "0.2", width=40)
    # reservation 1 is waiting, place 1 of 1 in the queue: 1 board fits, in Maintenance; none can
    # come (0 s): more than 80 letters, up to 120
    read_until(line, rb" s\)")
    read_until(line, rb"\r\x1b\[2A\x1b\[J")
    press(line, b"\x03")
    assert process.wait(timeout=PATIENCE) == 130


def test_claims_that_no_boards_can_come_for_are_marked_in_the_queue_and_in_waits(farm: Farm, folder: str) -> None:
    farm.tell("admin", "/boards/b2/health", {"health": "Maintenance"})
    tool = waiting_tool(farm, folder, "submit", write(folder, "pair.toml", GROUP), "--wait", "--every", "0.1")
    lack = "of 2 boards (bbb) only 1 can come: b2 is in Maintenance"
    wait_until("why it waits", lambda: f"job 1 is Submitted, place 1 of 1 in the queue: {lack}\n" in tool.errors())
    passes(farm)
    wait_until("why it collects", lambda: f"job 1 is Scheduling, place 1 of 1 in the queue: {lack}\n" in tool.errors())
    prints(farm, "3\n", "reserve", "name=b2")
    prints(farm, "4\n", "reserve", "name=c1", "--priority", "low")
    prints(farm, f"""\
PLACE NUMBER KIND        PRIORITY BOARDS OWNER TYPE WAITED NAME REASON
    1      1 group             50      2 ann   bbb  -      two  collects boards; {lack}
    2      3 reservation       50      1 ann   -    -      -    1 board fits, in Maintenance; none can come
    3      4 reservation        0      1 ann   -    -      -    -
""", "queue")
    prints(farm, "", "cancel-reservation", "3")
    farm.tell("admin", "/boards/b2/health", {"health": "Good"})
    passes(farm)
    wait_until("its end of waiting", lambda: "job 1 is Scheduled\n" in tool.errors())


# ---- refusals

ONE, MANY = "job_name = 'x'\n", "job_name = 'x'\n[roles.a]\n"
KIND = "device_type = 'bbb'\n"
PRIORITIES = "is none of low, medium, high and 0 to 100"


@pytest.mark.parametrize("text, code, why", [
    ("x", 70, "no TOML"),
    (KIND, 70, "there is no job_name, or it is empty"),
    (ONE, 70, "it has neither device_type nor roles"),
    (f"{ONE}{KIND}[roles.a]", 70, "it has both device_type and roles"),
    (f"{ONE}device_type = 'b b'", 5, "device_type 'b b' isn't a name of 1 to 48 letters, digits, '-', '_', '.'"),
    (f"{ONE}{KIND}tags = 'hdmi'", 70, "tags isn't an array of texts"),
    (f"{ONE}{KIND}tags = ['=x']", 6, "'=x' isn't a tag"),
    (f"{ONE}{KIND}tags = {['a'] * 17}", 7, "there are 17 tags, and 16 at most are taken"),
    (f"{ONE}{KIND}priority = 101", 23, f"priority 101 {PRIORITIES}"),
    (f"{ONE}tags = []\n[roles.a]", 70, "tags stand beside roles, and belong into each role"),
    (f"{MANY}{KIND}", 70, "role a: there is no count"),
    (f"{MANY}count = 1", 70, "role a: there is no device_type"),
    (f"{MANY}{KIND}count = 5", 7, "role a: count is 5, and is 1 to 4"),
    (f"{MANY}{KIND}count = 3\n[roles.b]\n{KIND}count = 2", 7, "its roles want 5 boards"),
    (f"{ONE}roles = {{}}", 7, "its roles want 0 boards"),
    (f"{ONE}{KIND}[a.b]\nx = 1\n[a]\nb.c = 2\n", 70, "no TOML"),
])
def test_what_is_wrong_with_a_job_file_that_the_desk_refuses_is_told(
    farm: Farm, text: str, code: int, why: str
) -> None:
    status, output, errors = desk(farm, "submit", "-", given=text)
    assert (status, output, errors.count("\n")) == (3, "", 1)
    assert re.match(rf"desk: refused: {code} bad [a-z ]+: {re.escape(why)}", errors)


@pytest.mark.parametrize("text, told", [
    (JOB.replace("bbb", "ddd"), "10 no such type: ddd"),
    (f"{GROUP}[roles.b]\ndevice_type = 'ddd'\ncount = 1\n", "10 no such type: ddd"),
    (f"{JOB}tags = ['serial', 'vga', 'usb']", "22 no such boards: no bbb has the tags vga usb"),
    (f"{JOB}tags = ['name=c1']", "22 no such boards: no bbb has the tag name=c1"),
    (f"{JOB}tags = ['hdmi', 'name=b2']", "22 no such boards: no bbb has all of hdmi name=b2"),
    (GROUP.replace("2", "3"), "22 no such boards: of 3 boards (bbb) there are 2"),
    (f"{JOB}# {'x' * 65536}", "51 too large: it has more than 65,536 bytes"),
])
def test_a_refusal_names_the_type_the_tag_or_the_limit(farm: Farm, text: str, told: str) -> None:
    assert desk(farm, "submit", "-", given=text) == (3, "", f"desk: refused: {told}\n")


def test_a_type_without_boards_is_told(farm: Farm) -> None:
    farm.tell("admin", "/types", {"name": "ddd"})
    told = "desk: refused: 22 no such boards: there is no board of the type ddd\n"
    assert desk(farm, "submit", "-", given=JOB.replace("bbb", "ddd")) == (3, "", told)
    assert desk(farm, "reserve", "usb") == (3, "", "desk: refused: 22 no such boards: no board has the tag usb\n")


@pytest.mark.parametrize("text, why", [
    ("timeouts.job = 'soon'", "timeouts.job can't be read: 'soon' isn't like '1 hour 30 minutes' (at line 3, column 10)"),
    ("timeouts.job = 90", "timeouts.job can't be read: 90 has no unit (at line 3, column 10)"),
    ("[timeouts]\njob = {minute = 3}",
     "timeouts.job can't be read: 'minute' is none of days, hours, minutes, seconds (at line 4, column 1)"),
    ("timeouts = {\n  job = '0 hours',\n}", "timeouts.job can't be read: '0 hours' is no time (at line 4, column 3)"),
    ("timeouts = '1 hour'", "timeouts isn't a table (at line 3, column 1)"),
])
def test_a_time_limit_that_is_none_isnt_submitted(farm: Farm, text: str, why: str) -> None:
    assert desk(farm, "submit", "-", given=f"{JOB}{text}\n") == (3, "", f"desk: nothing is submitted: {why}\n")
    assert farm.look("/status")["jobs"] == 0
    number = farm.tell("ann", "/jobs", f"{JOB}{text}\n".encode())["number"]
    assert desk(farm, "resubmit", str(number)) == (3, "", f"desk: nothing is submitted: {why}\n")


@pytest.mark.parametrize("text", ["[timeouts]\njob = '1 hour'", "timeouts = {\n job = {minutes = 90},\n}", "[timeouts]\nx = 1"])
def test_a_time_limit_is_submitted(farm: Farm, text: str) -> None:
    prints(farm, "1\n", "submit", "-", given=f"{JOB}{text}\n")


def test_a_command_in_the_wrong_state_says_which_and_a_forbidden_one_who_asked(farm: Farm) -> None:
    prints(farm, "1\n", "submit", "-", given=JOB)
    assert desk(farm, "cancel", "1", user="bob") == (3, "", "desk: refused: 3 forbidden: asked as bob\n")
    prints(farm, "", "cancel", "1")
    told = "desk: refused: 21 wrong job state: job 1 is Finished (Canceled)\n"
    assert desk(farm, "cancel", "1") == (3, "", told)
    assert desk(farm, "wait", "1") == (1, "1 Canceled -\n", ""), "which had no board"
    prints(farm, "2\n", "reserve", "hdmi")
    assert desk(farm, "cancel-reservation", "2", user="bob") == (
        3, "", "desk: refused: 3 forbidden: asked as bob: reservation 2 is ann's\n"
    )
    told = "desk: refused: 32 wrong reservation state: reservation 2 is waiting\n"
    assert desk(farm, "release", "2") == (3, "", told)


def test_of_several_jobs_those_that_are_there_are_shown_and_the_others_told(farm: Farm) -> None:
    prints(farm, "1\n", "submit", "-", given=JOB)
    rows = desk(farm, "jobs", "1")[1]
    told = "desk: job 99999: refused: 20 no such job\n"
    assert desk(farm, "jobs", "99999", "1") == (3, rows, told)
    assert desk(farm, "jobs", "--text", "1", "99999") == (3, JOB, told)


def test_a_desk_that_gives_no_answer_at_first_is_told_before_it_answers(farm: Farm, folder: str) -> None:
    passes(farm)
    farm.kill()
    tool = waiting_tool(farm, folder, "--json", "queue")
    wait_until("what it tells", lambda: tool.errors().startswith(f"desk: waiting for the desk at {farm.server}: "))
    farm.start()
    assert (tool.ends(), tool.output(), at_ease(tool.errors()).count("\n")) == (0, '{"queue":[]}\n', 1)
