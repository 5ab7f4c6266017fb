"""Whether a command can be started, as far as its file tells."""
from __future__ import annotations

import os
import pathlib

import pytest
from fizgruk._tools import commands


def script(folder: pathlib.Path, head: str, mode: int = 0o755) -> str:
    file = folder / "command"
    file.write_bytes(head.encode())
    file.chmod(mode)
    return str(file)


@pytest.mark.parametrize("head", [
    "#!/bin/sh\n", "#! /bin/sh -e\n", "#!/usr/bin/env sh\n", "#!/usr/bin/env -S sh -e\n", "#!/usr/bin/env -i sh\n",
    "#!/usr/bin/env A=1 sh\n", "#!/usr/bin/env\n", "#!\n", "\x7fELF",
])
def test_nothing_is_seen_against_a_command_that_can_be_started(tmp_path: pathlib.Path, head: str) -> None:
    assert commands.fault_of([script(tmp_path, head)]) is None


@pytest.mark.parametrize("head, told", [
    ("#!/no/shell\n", "'/no/shell'"), ("#!/bin/sh\r\n", "'/bin/sh\\r'"), ("#!/bin\n", "'/bin'"),
    ("#!/usr/bin/env no-such-command\n", "'no-such-command'"), ("#!/usr/bin/env\t-S no-such-command -e\n", "'no-such-command'"),
])
def test_an_interpreter_that_isnt_there_is_named(tmp_path: pathlib.Path, head: str, told: str) -> None:
    command = script(tmp_path, head)
    assert commands.fault_of([command]) == f"{command}: its interpreter {told} can't be started"


@pytest.mark.parametrize("head", ["no script\n", "", "\n#!/bin/sh\n"])
def test_what_the_system_cant_run_is_told(tmp_path: pathlib.Path, head: str) -> None:
    command = script(tmp_path, head)
    assert commands.fault_of([command]) == f"{command}: no line #! names its interpreter"


def test_a_command_that_isnt_there_is_told_from_one_that_isnt_executable(tmp_path: pathlib.Path) -> None:
    command = script(tmp_path, "#!/bin/sh\n", 0o644)
    assert commands.fault_of([command]) == f"{command}: not executable"
    os.unlink(command)
    assert commands.fault_of([command, "word"]) == f"{command}: no such command"
    assert commands.fault_of(["no-such-command"]) == "no-such-command: no such command"


def test_a_program_that_may_be_run_and_not_read_is_left_to_its_start(
    tmp_path: pathlib.Path, monkeypatch: pytest.MonkeyPatch
) -> None:
    command = script(tmp_path, "#!/no/shell\n")

    def refused(*_: object) -> None:
        raise PermissionError(13, "Permission denied")

    monkeypatch.setattr("builtins.open", refused)
    assert commands.fault_of([command]) is None
