"""Holds: the names of their slices, what goes on in the desk's view, a job's unit, what units may, and who else can open
a file."""
from __future__ import annotations

import grp
import os
import pathlib
import re
import socket
from typing import Any, Optional

import pytest

from farm_access import check, door, guard, holds, site
from farm_access.holds import BoardSeen
from fizgruk import calls


@pytest.mark.parametrize("board, hold, name", [
    ("b1", "reservation 7", "farm-hold-b1-r7.slice"),
    ("b1", "job 12", "farm-hold-b1-j12.slice"),
    ("b1", "admin", "farm-hold-b1-admin.slice"),
    ("bbb-1", "job 12", "farm-hold-bbb:1-j12.slice"),
    ("a" * 48, "reservation 99999", f"farm-hold-{'a' * 48}-r99999.slice"),
])
def test_a_hold_has_a_slice_of_its_own(board: str, hold: str, name: str) -> None:
    assert holds.slice_of(board, hold) == name
    assert re.fullmatch(r"[A-Za-z0-9:_.\\-]{1,255}", name), "what a unit's name may have"


def test_boards_of_names_that_begin_alike_share_no_slice() -> None:
    """'-' parts a slice from that above it: without another sign board a-r1 would be below board a."""
    assert holds.folder_of("a-r1") != f"{holds.folder_of('a')}/{holds.slice_of('a', 'reservation 1')}"
    assert not holds.slice_of("a-b", "job 1").startswith("farm-hold-a-")


def test_what_goes_on_is_the_holds_of_a_view_and_admins_at_free_boards() -> None:
    seen = {it.name: it for it in (
        BoardSeen("b1", "reservation 7", "reservation 7", {}), BoardSeen("b2", "", "none", {}), BoardSeen("b3", "", "reservation 9", {}),
    )}
    assert guard.right_of(seen) == {"farm-hold-b1-r7.slice", "farm-hold-b2-admin.slice"}
    assert not seen["b3"].is_held_by("reservation 9"), "what isn't acquired yet is no hold"


@pytest.mark.parametrize("text, number", [
    ("0::/farm.slice/farm-job.slice/farm-job-ab12-7-cd34.service\n", 7),
    ("9:name=systemd:/\n0::/farm.slice/farm-job.slice/farm-job-ab12-7-cd34.service\n", 7),
    ("0::/farm.slice/farm-job.slice/farm-job-ab12-7-cd34.service/below\n", 7),
    ("0::/user.slice/farm.slice/farm-job.slice/farm-job-ab12-7-cd34.service\n", 0),
    ("0::/farm.slice/farm-job.slice/farm-job-ab12-7-cd34.service.d\n", 0),
    ("0::/farm.slice/farm-job.slice/farm-job-7-cd34.service\n", 0),
    ("0::/system.slice/farm-job-ab12-7-cd34.service\n", 0),
    ("0::/\n", 0),
])
def test_a_job_is_known_by_its_unit(text: str, number: int) -> None:
    found = door.JOB.search(text)
    assert (int(found.group(1)) if found else 0) == number


def test_a_process_of_another_account_is_not_who_asked(monkeypatch: pytest.MonkeyPatch) -> None:
    """As where its number was that of who asked, and ended."""
    monkeypatch.setattr(door, "JOB", re.compile("^()", re.MULTILINE))
    monkeypatch.setattr(door, "int", lambda _: 7, raising=False)
    assert door.job_of(os.getpid(), os.getuid()) == 7
    assert door.job_of(os.getpid(), os.getuid() + 1) == 0
    assert door.job_of(2**22 + 1, 0) == 0


def test_a_command_has_its_own_board_s_devices_sockets_and_addresses() -> None:
    found = holds.rights_of_command(["/dev/boards/b1", "/run/qemu/b1.qmp"], ["192.168.7.2"])
    assert "DeviceAllow=/dev/boards/b1 rw" in found and "BindPaths=/run/qemu/b1.qmp" in found
    assert "IPAddressDeny=any" in found and "IPAddressAllow=192.168.7.2" in found
    assert "PrivateNetwork=yes" not in found and "PrivateNetwork=yes" in holds.rights_of_command([], [])
    assert "DevicePolicy=strict" in holds.ALWAYS and "TemporaryFileSystem=/run:ro" in holds.ALWAYS


@pytest.mark.parametrize("name, told", [
    ("farm-way-console-ann-e5-1700000000-ab12.service", {"person": "ann", "way": "console", "since": 1700000000, "key": "e5"}),
    ("/x/farm-way-my:way-ann:b-e5-1-ab12.service", {"person": "ann-b", "way": "my-way", "since": 1, "key": "e5"}),
    ("farm-way-console---1700000000-ab12.service", {}),
    ("other.service", {}),
])
def test_a_unit_s_name_says_who_is_there(name: str, told: object) -> None:
    assert holds.told_of(name) == told


def test_what_of_a_tag_stands_in_no_path() -> None:
    """A tag is of who may retag boards at the desk, and what it names root opens."""
    assert all(door.TAG.fullmatch(it) for it in ("3", "192.168.7.2", "fe80::1", "BITFT_1"))
    assert not any(door.TAG.fullmatch(it) for it in ("..", ".", "../x", "a/b", "-o", ""))


@pytest.mark.parametrize("device, mode, folder, others", [
    (True, 0o600, 0o755, ""),
    (False, 0o777, 0o700, ""),
    (False, 0o770, 0o755, "the group daemon"),
    (False, 0o770, 0o700, ""),
    (False, 0o777, 0o755, "everybody"),
    (False, 0o700, 0o755, ""),
])
def test_who_else_can_open_a_file(
    tmp_path: pathlib.Path, monkeypatch: pytest.MonkeyPatch, device: bool, mode: int, folder: int, others: str
) -> None:
    """A device of root's, or a console server's socket in a folder."""
    if os.getuid():
        pytest.skip("no right to give files away")

    class Group:
        gr_gid = 64999

    class Daemon:
        gr_gid, gr_name = 1, "daemon"

    monkeypatch.setattr(grp, "getgrnam", lambda _: Group)
    monkeypatch.setattr(grp, "getgrall", lambda: [Daemon])
    for it in (tmp_path, *tmp_path.parents):
        if str(it) != "/":
            monkeypatch.setitem(MODES, str(it), 0o40755)
    place = tmp_path / "place"
    place.mkdir()
    file = place / "x"
    with socket.socket(socket.AF_UNIX) as there:
        there.bind(str(file))
    os.chown(file, 0, 1 if not device else 0)
    os.chmod(file, mode)
    MODES[str(place)] = 0o40000 | folder
    usual = os.stat

    def stat(path: Any, **more: Any) -> Any:
        found = usual(path, **more)
        return os.stat_result((MODES[str(path)], *found[1:])) if str(path) in MODES else found

    monkeypatch.setattr(os, "stat", stat)
    assert check.who_else(str(file)) == others


MODES: "dict[str, int]" = {}


@pytest.mark.parametrize("said", [{}, {"boards": None}, {"boards": [{}]}, {"boards": [1]}])
def test_another_programs_answer_says_nothing_of_holds(monkeypatch: pytest.MonkeyPatch, said: Any) -> None:
    """As where it answers at the desk's port."""
    monkeypatch.setattr(calls.Desk, "look", lambda *_: said)
    lookout = holds.Lookout(site.Site({"server": "http://127.0.0.1:9"}, (), ()))
    with pytest.raises(holds.NoDesk):
        lookout.boards()


class Answering:
    """A desk whose answers come late or never."""

    def __init__(self, fault: Optional[Exception]):
        self.fault, self.asked = fault, 0

    def __call__(self) -> str:
        self.asked += 1
        if self.fault and self.asked == 1:
            raise self.fault
        return "told"


def test_a_desk_that_just_starts_is_asked_again(monkeypatch: pytest.MonkeyPatch) -> None:
    monkeypatch.setattr(holds, "AGAIN", 0.0)
    assert holds.asked_again(Answering(holds.NoDesk("refused"))) == "told"
    monkeypatch.setattr(holds, "BEGINS_WITHIN", -1.0)
    with pytest.raises(holds.NoDesk):
        holds.asked_again(Answering(holds.NoDesk("no answer")))
