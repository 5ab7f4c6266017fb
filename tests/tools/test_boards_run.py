"""farm-dispatch runs jobs on a board that boots, by labgrid and by LAVA's dispatcher.

The board is emulated: qemu, a kernel (kernels.py), and an initramfs with busybox's shell. The dispatcher is the one by hand,
without units. lava-run works as root alone, and keeps what jobs deploy in one folder of the machine, below which each job
has a name of its own.
"""
from __future__ import annotations

import contextlib
import functools
import glob
import json
import os
import runpy
import shutil
import signal
import subprocess
from typing import Dict, Iterator, List, Sequence, Tuple

import pytest

import dispatch_lab
import served
from kernels import kernel, make_initramfs
from served import TOP, read, wait_until
from test_dispatch_commands import ran
from wants import DEBIANS, lacks, wants

PROMPT = "board:/# "
# A board's first program: a shell on the console, or the end, by which the kernel panics.
INIT = f"""#!/bin/busybox sh
/bin/busybox --install -s /bin
export PATH=/bin
mount -t proc proc /proc
mount -t sysfs sys /sys
mount -t devtmpfs dev /dev
exec < /dev/console > /dev/console 2>&1
grep -q falls /proc/cmdline && exit 1
echo 'the board is up'
export PS1='{PROMPT}'
exec setsid cttyhack sh
"""
# labgrid's environment file of the board.
ENVIRONMENT = f"""\
targets:
  main:
    drivers:
      QEMUDriver:
        qemu_bin: qemu
        machine: q35
        cpu: max
        memory: 256M
        kernel: kernel
        boot_args: !template "console=ttyS0 no_timer_check quiet $LG_APPEND"
        extra_args: '-name @NAME@ -net none -initrd @INITRAMFS@'
      ShellDriver:
        prompt: '{PROMPT}'
        login_prompt: 'no login is asked for'
        username: root
        login_timeout: 300
      ShellStrategy: {{}}
tools:
  qemu: @QEMU@
images:
  kernel: !template $LG_KERNEL
"""
LABGRID_BOOTS = """
def test_boots(strategy, target):
    strategy.transition("shell")
    assert target.get_driver("ShellDriver").run_check("uname -s") == ["Linux"]
"""
LABGRID_WATCHES = f"""
def test_boots(target):
    target.get_driver("PowerProtocol").on()
    console = target.get_driver("ConsoleProtocol")
    found, *_ = console.expect(["{PROMPT}", "Kernel panic"], timeout=300)
    assert found == 0, "the kernel panics"
"""
LABGRID_STAYS = LABGRID_BOOTS + "    import time; time.sleep(600)\n"
# LAVA's device file of the board, and a job.
DEVICE = """\
device_info: {}
available_architectures: [amd64]
actions:
  deploy: {methods: {image: {}}}
  boot:
    methods:
      qemu:
        parameters:
          command: @QEMU@
          options: [-name @NAME@, -machine q35, -cpu max, -m 256M, -nographic, -net none]
constants:
  boot_retry: 1
  failure_retry: 1
  kernel-start-message: 'Linux version [0-9]'
timeouts: {actions: {}, connections: {}}
"""
LAVA = """
job_name: boots
context: {arch: amd64}
timeouts:
  job: {minutes: 10}
  action: {minutes: 5}
  connection: {minutes: 5}
actions:
- deploy:
    to: tmpfs
    images:
      kernel:
        image_arg: -kernel {kernel} -append "console=ttyS0 no_timer_check loglevel=6 @APPEND@"
        url: file://@KERNEL@
      initrd:
        image_arg: -initrd {initrd}
        url: file://@INITRAMFS@
- boot:
    method: qemu
    prompts: ['@WAITED@']
"""


def write(file: str, text: str, mode: int = 0o644) -> None:
    with open(file, "w", encoding="utf-8") as opened:
        opened.write(text)
    os.chmod(file, mode)


class Board:
    """What the emulated board is made of."""

    def __init__(self, folder: str):
        wants("qemu-system-x86_64", "busybox", "cpio")
        self.kernel = kernel()
        self.initramfs = os.path.join(folder, "initramfs.gz")
        self.qemu = str(shutil.which("qemu-system-x86_64"))
        # of its own, by which its processes are found
        self.name = f"board-{os.getpid()}-{os.path.basename(folder)}"
        make_initramfs(os.path.join(folder, "root"), INIT, self.initramfs)

    def fill(self, text: str) -> str:
        """A text with the board's files in the places of their names."""
        text = text.replace("@KERNEL@", self.kernel).replace("@INITRAMFS@", self.initramfs)
        return text.replace("@QEMU@", self.qemu).replace("@NAME@", self.name)

    def processes(self) -> List[str]:
        """The emulators that run."""
        return [it for it in os.listdir("/proc") if it.isdigit() and self.runs_as(it)]

    def runs_as(self, process: str) -> bool:
        try:
            with open(f"/proc/{process}/cmdline", "rb") as words:
                return f"\0-name\0{self.name}\0".encode() in words.read()
        except OSError:
            return False


@pytest.fixture(name="board")
def board_fixture(folder: str) -> Iterator[Board]:
    place = os.path.join(folder, "board")
    os.mkdir(place)
    made = Board(place)
    yield made
    for process in made.processes():
        with contextlib.suppress(ProcessLookupError):
            os.kill(int(process), signal.SIGKILL)


# ---- ways to drive the board


def job_of(way: str, board: Board, panics: bool) -> str:
    """The text of a job whose board panics, or stays up until it is canceled."""
    append = "falls" if panics else ""
    if way == "lava":
        return lava_job(board, append, PROMPT if panics else "never said")
    return labgrid_job(board, LABGRID_WATCHES if panics else LABGRID_STAYS, append)


def labgrid_job(board: Board, test: str, append: str = "") -> str:
    variables = f'{{ LG_KERNEL = "{board.kernel}", LG_APPEND = "{append}" }}'
    return f"[labgrid]\nvariables = {variables}\ntest = '''{test}'''\n"


def lava_job(board: Board, append: str = "", waited: str = PROMPT) -> str:
    job = board.fill(LAVA.replace("@APPEND@", append).replace("@WAITED@", waited))
    return f"[lava]\ndefinition = '''{job}'''\n"


FILES = {"labgrid": ("env.yaml", ENVIRONMENT), "lava": ("q1.yaml", DEVICE)}  # of the board
each_way = pytest.mark.parametrize("way", ["labgrid", "lava"])


@functools.lru_cache(None)
def runs_python(line: str) -> bool:
    """Whether Debian's Python, which the commands name, runs a line."""
    words = [DEBIANS, "-c", line]
    return os.path.exists(DEBIANS) and subprocess.run(words, check=False, capture_output=True).returncode == 0


def wants_way(way: str) -> None:
    """Skips the test unless what drives the board by this way is there."""
    if way == "labgrid" and not runs_python("import labgrid, tomllib"):
        pytest.skip("Debian's Python has no labgrid")
    if way == "lava":
        wants("lava-run")
        if os.geteuid() != 0:
            lacks("no right of root, which lava-run wants")


class Lab(dispatch_lab.Lab):
    """A farm whose dispatcher drives the board by a way."""

    def __init__(self, way: str, board: Board, program: str, folder: str, boards: Sequence[served.Board] = (("q1", "qemu", []),)):
        wants_way(way)
        super().__init__(program, folder, boards)
        self.board, self.way, self.of_board = board, way, os.path.join(folder, "of_board")
        os.mkdir(self.of_board)

    def begin(self, files: Dict[str, str]) -> None:
        """Starts the dispatcher with these files of the board."""
        for name, text in files.items():
            write(os.path.join(self.of_board, name), self.board.fill(text))
        command = os.path.join(TOP, "examples", f"run-job-{self.way}")
        self.dispatcher = self.dispatch("--grace", "60", every="1", command=[command, self.of_board])

    def submit(self, text: str) -> None:
        self.begin(dict([FILES[self.way]]))
        whole = f"job_name = 'boots'\ndevice_type = 'qemu'\n{text}[timeouts]\njob = '15 minutes'\n"
        assert self.farm.tell("ann", "/jobs", whole.encode())["number"] == 1

    def work(self) -> str:
        """The job's folder, while it is there."""
        (found,) = glob.glob(os.path.join(self.place, "jobs", "farm-job-*-1-*", "work"))
        return found

    def is_up(self) -> bool:
        """Whether the console says so, in the log or in labgrid's file, while the job runs."""
        files = glob.glob(os.path.join(self.place, "jobs", "*", "work", "out", "console_*"))
        return any("the board is up" in text for text in (self.log(1), *map(read, files)))

    def ends(self) -> str:
        """The job's result, once it has ended and no emulator runs."""
        result = self.finished(1, 900)
        assert not self.board.processes()
        return result


@pytest.fixture
def lab(way: str, board: Board, program: str, folder: str) -> Lab:
    return Lab(way, board, program, folder)


@pytest.mark.slow(40)
@pytest.mark.timeout(1000)
@each_way
def test_panic(way: str, lab: Lab) -> None:
    """A panic is Incomplete; the log says so, without what a terminal alone reads."""
    lab.submit(job_of(way, lab.board, True))
    assert lab.ends() == "Incomplete", lab.log(1)
    assert "Kernel panic" in lab.log(1)
    assert "\x1b" not in lab.log(1)


@pytest.mark.slow(40)
@pytest.mark.timeout(1000)
@each_way
def test_cancel(way: str, lab: Lab) -> None:
    """A cancel while the board is up ends the emulator, and needs no grace."""
    lab.submit(job_of(way, lab.board, False))
    wait_until("the board is up", lab.is_up, 600)
    assert len(lab.board.processes()) == 1
    if way == "lava":
        assert deployed_in(lab.work()) == 1
    lab.farm.tell("ann", "/jobs/1/cancel")
    assert lab.ends() == "Canceled"
    assert "SIGKILL" not in lab.log(1)
    lab.dispatcher.send(signal.SIGTERM)
    assert lab.dispatcher.ends() == 0


def deployed_in(folder: str) -> int:
    """How many folders of the machine are those that LAVA uses for the job of a folder."""
    prefix = read(os.path.join(folder, "dispatcher.yaml")).split(": ")[1].strip()
    return os.listdir("/var/lib/lava/dispatcher/tmp").count(f"{prefix}1")


@pytest.mark.usefixtures("debians_python")
def test_lava_folders(folder: str) -> None:
    """Jobs of one number, as of two desks at one machine, have a folder each below LAVA's, whether they are units or not."""
    prefix_of = runpy.run_path(os.path.join(TOP, "examples", "run-job-lava"))["prefix_of"]
    units = (f"farm-job-{it}-1-{it}" for it in ("ab12", "cd34"))
    places = [place for it in units for place in (f"{folder}/{it}", f"{folder}/jobs/{it}/work")]
    assert len({prefix_of(it) for it in places}) == 4


# ---- health checks


def check_of(way: str, board: Board) -> Dict[str, str]:
    """The files of a board that is checked; labgrid's by what run-job-labgrid does where a lab has no check of its own, but
    for how long it waits."""
    if way == "labgrid":
        check = runpy.run_path(os.path.join(TOP, "examples", "run-job-labgrid"))["CHECK"].replace("timeout=60", "timeout=300")
        text = ENVIRONMENT.replace("!template $LG_KERNEL", board.kernel).replace(" $LG_APPEND", "")
        return {"env.yaml": text, "check.py": check}
    return {"q1.yaml": DEVICE, "q1.check.yaml": LAVA.replace("@APPEND@", "").replace("@WAITED@", PROMPT)}


@pytest.mark.slow(40)
@pytest.mark.timeout(1000)
@each_way
def test_check(way: str, board: Board, program: str, folder: str) -> None:
    """A health check makes a board that boots Good. (test_dispatch_commands.py: one that says nothing.)"""
    lab = Lab(way, board, program, folder, ())
    lab.farm.tell("admin", "/types", {"name": "qemu", "check": "jobs", "every": 20})
    lab.farm.tell("admin", "/boards", {"name": "q1", "type": "qemu", "tags": []})
    lab.farm.tell("admin", "/boards/q1/health", {"health": "Unknown"})
    lab.begin(check_of(way, board))
    wait_until("the check ends", lambda: lab.farm.board("q1")["health"] != "Unknown", 900)
    assert (lab.farm.board("q1")["health"], lab.ends()) == ("Good", "Complete"), lab.log(1)


# ---- the commands without a dispatcher, nor a board that boots


def status_of(way: str, folder: str, text: str, boards: str = "q1", *options: str) -> int:
    """The status of a command for a text; the folder has the files of the board."""
    place = os.path.join(folder, "job")
    os.makedirs(place, exist_ok=True)
    found = ran(place, f"run-job-{way}", text, *options, folder, FARM_BOARDS=boards)
    assert found.stderr == ""
    return found.returncode


@pytest.fixture
def debians_python() -> None:
    if not runs_python("import tomllib"):
        pytest.skip("there is no Python of Debian's with tomllib")


@pytest.mark.usefixtures("debians_python")
@pytest.mark.parametrize("way, table", [("labgrid", "test = ''"), ("lava", "definition = ''")])
def test_what_isnt_asked(way: str, table: str, folder: str) -> None:
    """Without a file of the board it is Infra, and a text without a job Incomplete."""
    text = f"[{way}]\n{table}\n"
    assert status_of(way, folder, text) == 75
    write(os.path.join(folder, "q1.yaml"), "")
    assert status_of(way, folder, text, "q1 q2") == 1
    other, number = f"[{way}]\nother = 'x'", f"[{way}]\n{table[:-2]}1"
    bad = ("", "= no TOML", f"{way} = 3", other, number)
    assert {it: status_of(way, folder, it) for it in bad} == dict.fromkeys(bad, 1)


@pytest.mark.usefixtures("debians_python")
@pytest.mark.parametrize("way, text", [("labgrid", "[labgrid]\ntest = ''\n"), ("lava", "[lava]\ndefinition = 'actions: []'\n")])
def test_no_ways_without_farm_access(way: str, text: str, folder: str) -> None:
    write(os.path.join(folder, "device.yaml"), "{}")
    assert status_of(way, folder, text, "q1", "--ways") == 75


@pytest.mark.usefixtures("debians_python")
def test_lava_has_a_board_s_ways_in_the_place_of_its_device_s_own(folder: str, monkeypatch: pytest.MonkeyPatch) -> None:
    monkeypatch.setattr("shutil.which", lambda _: "/usr/bin/farm-access")
    other = {"connect": "telnet lab 7002", "tags": ["logs"]}
    connections = {"uart0": {"connect": "telnet lab 7001", "tags": ["primary", "telnet"]}, "uart1": other}
    device = os.path.join(folder, "of_lab.yaml")
    write(device, json.dumps({"commands": {"connections": connections, "hard_reset": "x", "pre_os_command": "usb"}}))
    by_ways = runpy.run_path(os.path.join(TOP, "examples", "run-job-lava"))["by_ways"]
    assert json.loads(read(by_ways(device, "q1", folder)))["commands"] == {
        "connections": {"way": {"connect": "farm-access way q1 console", "tags": ["primary"]}, "uart1": other},
        "hard_reset": "farm-access way q1 power cycle", "power_on": "farm-access way q1 power on",
        "power_off": "farm-access way q1 power off", "pre_os_command": "usb",
    }


@pytest.mark.slow(10)
@pytest.mark.parametrize("of_device, of_job, status", [
    (("", ""), ("job_name: boots", "job_name: [boots"), 1),
    (("", ""), ("actions:", "acts:"), 1),
    (("", ""), ("- boot:", "- dance:"), 1),
    (("constants:", "others:"), ("", ""), 75),
    ((DEVICE, "no: [YAML"), ("", ""), 75),
    (("", ""), ("file://", "file:///gone"), 75),
])
def test_lava_status(
    of_device: Tuple[str, str], of_job: Tuple[str, str], status: int, board: Board, folder: str
) -> None:
    """What lava-run finds wrong: a job's error is Incomplete, a device file's and an image that isn't there Infra."""
    wants_way("lava")
    write(os.path.join(folder, "q1.yaml"), board.fill(DEVICE.replace(*of_device)))
    assert status_of("lava", folder, lava_job(board).replace(*of_job)) == status
