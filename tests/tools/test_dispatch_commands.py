"""How the example commands of farm-dispatch tell a fault of the lab (75, Infra) from one of the job (1, Incomplete),
and how they check a board: with labgrid and LAVA's dispatcher as they are installed."""
from __future__ import annotations

import os
import pathlib
import subprocess
from typing import Dict, Optional, Tuple

import pytest
from served import TOP, environment
from wants import wants, wants_python_with

POWER = """targets:
  main:
    resources:
      NetworkSerialPort: {{host: 127.0.0.1, port: 1, protocol: raw}}
      RawSerialPort: {{port: /nonexistent/tty, speed: 115200}}
    drivers:
      ExternalPowerDriver: {{cmd_on: {on}, cmd_off: {off}}}
"""
SERIAL = """targets:
  main:
    resources:
      RawSerialPort: {port: /nonexistent/tty, speed: 115200}
    drivers:
      SerialDriver: {}
      ExternalPowerDriver: {cmd_on: 'true', cmd_off: 'true'}
"""
# A board whose console says something once it was switched on.
SAYS = """targets:
  main:
    drivers:
      ExternalConsoleDriver: {{cmd: '{cmd}'}}
      ExternalPowerDriver: {{cmd_on: 'true', cmd_off: 'touch {folder}/off'}}
"""
ON = "def test_on(target):\n    target.get_driver('ExternalPowerDriver').on()\n"
OFF_AT_END = "import pytest\n@pytest.fixture\ndef on(target):\n    yield\n    target.get_driver('ExternalPowerDriver').off()\n" \
             "def test_on(on):\n    pass\n"
OPENS = "def test_opens(target):\n    target.get_driver('SerialDriver')\n"
OWN = "import subprocess\ndef test_own(target):\n    subprocess.run(['false'], check=True)\n"
OWN_FILE = "def test_own(target):\n    open('/nonexistent/file')\n"


def ran(folder: str, command: str, text: str, *words: str, **more: str) -> "subprocess.CompletedProcess[str]":
    """What comes of an example command for a text in a folder, which has the board's files too, where no words say another."""
    with open(os.path.join(folder, "job.toml"), "w", encoding="utf-8") as file:
        file.write(text)
    around = {"FARM_BOARDS": "b1", "FARM_BOARD": "b1", "FARM_TYPES": "bbb", "FARM_JOB": "7", "FARM_KIND": "ordinary",
              "FARM_FOLDER": folder, "FARM_JOB_FILE": os.path.join(folder, "job.toml"), "FARM_OWNER": "ann",
              "FARM_BOARDS_FILE": os.path.join(folder, "boards"), **more}
    return subprocess.run(
        [os.path.join(TOP, "examples", command), *(words or [folder])], capture_output=True, text=True, timeout=200, check=False,
        env=environment(PATH="/usr/bin:/bin:/usr/sbin:/sbin", **around), cwd=folder, stdin=subprocess.DEVNULL,
    )


def run(folder: str, command: str, text: str, **more: str) -> Tuple[int, str]:
    """The status and the output of an example command."""
    found = ran(folder, command, text, **more)
    return found.returncode, found.stdout + found.stderr


EMPTY = "targets: {main: {drivers: {}}}\n"
UP = "import pytest\n@pytest.fixture\ndef up():\n    raise {}\ndef test(up): pass\n"
PASSES = "def test(): pass"
# A board's file, and a test of a job that has a variable of labgrid's.
ROWS: Dict[str, Tuple[str, str, int]] = {
    "a power command fails in a test": (POWER.format(on="'false'", off="'true'"), ON, 75),
    "a power command fails after a test": (POWER.format(on="'true'", off="'false'"), OFF_AT_END, 75),
    "a power command isn't there": (POWER.format(on="/nonexistent/power", off="'true'"), ON, 75),
    "a serial port can't be opened in a test": (SERIAL, OPENS, 75),
    "a command of the test's own fails": (POWER.format(on="'true'", off="'true'"), OWN, 1),
    "a file of the test's own isn't there": (POWER.format(on="'true'", off="'true'"), OWN_FILE, 1),
    "a test has its board's name": (EMPTY, "import os\ndef test(target): assert os.environ['LG_PLACE'] == 'b1'", 0),
    "a test is no Python": (EMPTY, "def test(:", 1),
    "there is no test": (EMPTY, "", 1),
    "a fixture fails": (EMPTY, UP.format("ValueError"), 1),
    "a fixture gets no connection": (EMPTY, UP.format("ConnectionRefusedError"), 75),
    "a board lacks a driver": (EMPTY, "def test(target): target.get_driver('ShellDriver')", 75),
    "a board lacks a resource": (EMPTY, "def test(target): target.get_resource('RemotePlace')", 75),
    "pytest is ended": (EMPTY, "import pytest\ndef test(): pytest.exit('as labgrid, without its place')", 75),
    "a board's file is no YAML": ("targets: {", PASSES, 75),
    "a board's file names no variable": ("images: {kernel: !template $LG_NONE}", PASSES, 75),
    "an image of the board isn't there": ("images: {kernel: gone}", PASSES, 75),
    "an image of the job's isn't there": ("images: {kernel: !template $LG_KERNEL}", PASSES, 75),
}


@pytest.mark.parametrize("row", ROWS)
def test_labgrids_faults(tmp_path: pathlib.Path, row: str) -> None:
    """What labgrid's drivers meet in any phase, and what a board lacks, is the lab's fault; what a test meets itself is the
    job's."""
    wants_python_with("labgrid", "pytest")
    board, test, status = ROWS[row]
    (tmp_path / "b1.yaml").write_text(board)
    said = run(str(tmp_path), "run-job-labgrid", f"[labgrid]\nvariables.LG_KERNEL = '/gone'\ntest = '''\n{test}'''\n")
    assert said[0] == status, said[1]


def test_a_job_sets_no_variable_but_labgrids(tmp_path: pathlib.Path) -> None:
    wants_python_with("labgrid", "pytest")
    (tmp_path / "b1.yaml").write_text(EMPTY)
    said = run(str(tmp_path), "run-job-labgrid", f"[labgrid]\nvariables.OTHER = 'x'\ntest = '{PASSES}'\n")
    assert said[0] == 1, said[1]


@pytest.mark.parametrize("cmd, own, status", [
    ("sh -c \"echo U-Boot; sleep 9\"", None, 0), ("sleep 9", "test.timeout", 1), ("true", "def test_no():\n    assert 0\n", 1),
])
def test_labgrids_check(tmp_path: pathlib.Path, cmd: str, own: Optional[str], status: int) -> None:
    """A health check wants a console that says something after a power cycle, or what the lab's own check wants; the
    board is switched off."""
    wants_python_with("labgrid", "pytest")
    (tmp_path / "env.yaml").write_text(SAYS.format(cmd=cmd, folder=tmp_path))
    if own == "test.timeout":
        source = open(os.path.join(TOP, "examples", "run-job-labgrid"), encoding="utf-8").read()
        own = source.partition("CHECK = '''")[2].partition("'''")[0].replace("timeout=60", "timeout=1")
    if own:
        (tmp_path / "b1.check.py").write_text(own)
    said = run(str(tmp_path), "run-job-labgrid", "", FARM_KIND="check")
    assert said[0] == status, said[1]
    assert os.path.exists(tmp_path / "off") or "test_no" in said[1]


def test_lavas_check(tmp_path: pathlib.Path) -> None:
    """A health check runs the board's own LAVA job, or that of all; without one it is a fault of the lab."""
    wants("lava-run")
    (tmp_path / "b1.yaml").write_text("device_type: bbb\n")
    status, said = run(str(tmp_path), "run-job-lava", "", FARM_KIND="check")
    assert (status, "there is neither" in said) == (75, True), said
    (tmp_path / "check.yaml").write_text("job_name: of all\nactions: 3\n")
    status, said = run(str(tmp_path), "run-job-lava", "", FARM_KIND="check")
    assert (status, "it has no list of actions" in said) == (1, True), said
    (tmp_path / "b1.check.yaml").write_text("job_name: own\nactions: []\n")
    status, said = run(str(tmp_path), "run-job-lava", "", FARM_KIND="check")
    assert (tmp_path / "definition.yaml").read_text() == "job_name: own\nactions: []\n"
    assert status in (1, 75), said


def test_shells_power(tmp_path: pathlib.Path) -> None:
    """run-job powers its boards on and off, and tells a power command that fails as a fault of the lab."""
    (tmp_path / "boards").write_text("b1 bbb - 7\n")
    status, said = run(str(tmp_path), "run-job", "boot = 'x'\n")
    assert (status, said.count("power on b1"), said.count("power off b1")) == (0, 1, 1), said


@pytest.mark.parametrize("fails, ends", (("on b2", "none"), ("off b1", "none"), ("off b1", "on b2")))
def test_shells_power_that_fails(tmp_path: pathlib.Path, fails: str, ends: str) -> None:
    """In each phase, as also once the job was told to end, a power command that fails is a fault of the lab."""
    drives = f'#!/bin/sh\n[ "$1 $2" != "{ends}" ] || kill -TERM $PPID\n[ "$1 $2" != "{fails}" ]\n'
    (tmp_path / "drive").write_text(drives)
    example = pathlib.Path(TOP, "examples", "run-job").read_text(encoding="utf-8")
    assert example.count('echo "power $1 $2"') == 1
    (tmp_path / "run-job").write_text(example.replace('echo "power $1 $2"', f'{tmp_path}/drive "$1" "$2"'))
    for name in ("drive", "run-job"):
        (tmp_path / name).chmod(0o755)
    (tmp_path / "boards").write_text("b1 bbb - 7\nb2 bbb - 8\n")
    status, said = run(str(tmp_path), str(tmp_path / "run-job"), "boot = 'x'\n", FARM_BOARDS="b1 b2")
    power, board = fails.split()
    assert (status, f"run-job: power {power} of {board} failed\n" in said) == (75, True), said
    assert ("told to end" in said) == (ends != "none")
