"""docs/boards.md: each file and each command of it, the hardware aside; its emulated board by a real qemu."""
from __future__ import annotations

import json
import os
import re
import shutil
import socket
import subprocess
from typing import Any, Dict, Iterator, List

import pytest

import access_lab
from access_lab import UNITS, Lab, lab_fixture, until
from farm_access import site
from fizgruk import toml_text
from kernels import kernel, make_initramfs
from machine_lab import lines_for
from ports import free_port
from served import STARTED, TOOLS, TOP, wait_until
from test_access_desk import begun, desk
from test_access_jobs import dispatching, ended
from test_boards_run import wants_way
from wants import wants

__all__ = ["lab_fixture"]
pytestmark = [pytest.mark.xdist_group("machine"), pytest.mark.slow(90)]
GUIDE = os.path.join(TOP, "docs/boards.md")
BOOTS = 540.0  # seconds for a board that boots, an emulated one beside a load too: some 30 on an idle machine
PYTHON = "/usr/bin/python3"
# What changes the machine, or wants its hardware: tests/program/package.sh and packaging/ install the package, and the
# rest is what each Debian has.
NOT_HERE = (
    "apt-get install ", "install -m 644 ann.pub ", "systemctl ", "udevadm control ", "farm-access check bbb-1", "farm-access check rpi-1",
)
# What the tests here run, by what runs it.
RUN_HERE = {
    "farm-access check": "test_check_says_of_each_board_which_way_answers",
    "farm-access check virt-1": "test_an_emulated_board_from_reserve_to_its_prompt",
    "desk reserve name=bbb-1 --acquire": "test_desk_takes_the_guide_s_words",
    "desk console bbb-1": "test_desk_takes_the_guide_s_words",
    "desk power bbb-1 cycle": "test_desk_takes_the_guide_s_words",
    "desk ssh bbb-1 uname -a": "test_desk_takes_the_guide_s_words",
    "desk console --reserve virtual": "test_an_emulated_board_from_reserve_to_its_prompt",
    "farm-access way b1 console": "test_jobs_go_by_the_guide_s_words",
    "farm-access way b1 power cycle": "test_jobs_go_by_the_guide_s_words",
}
INIT = """\
#!/bin/busybox sh
/bin/busybox --install -s /bin
mount -t proc proc /proc
mount -t devtmpfs dev /dev
exec < /dev/console > /dev/console 2>&1
export PS1='the-board# '
exec setsid cttyhack sh
"""
# What boots the board by its ways; labgrid's has its shell reckon.
DRIVERS = {
    "labgrid": """[labgrid]
test = \'\'\'
from labgrid.protocol import ConsoleProtocol, PowerProtocol

def test_board(target):
    console = target.get_driver(ConsoleProtocol)
    target.get_driver(PowerProtocol).cycle()
    console.expect("the-board# ", timeout=480)
    console.sendline("echo $((6 * 7))")
    console.expect("\\n42", timeout=200)
\'\'\'
""",
    "lava": """[lava]
definition = \'\'\'
job_name: boots
timeouts: {job: {minutes: 9}, action: {minutes: 8}, connection: {minutes: 8}}
actions:
- boot: {method: minimal, prompts: ['the-board#']}
\'\'\'
""",
}
DEVICE = """\
device_info: {}
available_architectures: [amd64]
actions:
  deploy: {connections: {serial: {}}, methods: {}}
  boot: {connections: {serial: {}}, methods: {minimal: {}}}
commands: {connect: telnet lab 7001, hard_reset: /bin/false}
constants: {boot_retry: 1, failure_retry: 1, kernel-start-message: '', spawn_maxread: 4092, default-shell-prompt: '#'}
timeouts: {actions: {}, connections: {}}
"""


def guide() -> str:
    with open(GUIDE, encoding="utf-8") as file:
        return file.read()


def blocks(kind: str) -> List[str]:
    """The files of this kind in the guide."""
    return re.findall(rf"^```{kind}\n(.*?)^```$", guide(), re.DOTALL | re.MULTILINE)


def commands() -> List[str]:
    text = re.sub(r"^```.*?^```$", "", guide(), flags=re.DOTALL | re.MULTILINE)
    return [it[4:] for it in text.splitlines() if it.startswith("    ")]


def read_site(tmp_path: Any) -> site.Site:
    file = tmp_path / "access.toml"
    file.write_text(blocks("toml")[0])
    return site.read_file(str(file))


# ---- words and files


def test_each_command_is_run_by_a_test_or_wants_the_machine() -> None:
    names = globals()
    for it in commands():
        assert it in RUN_HERE or it.startswith(NOT_HERE), it
    assert all(it in names for it in RUN_HERE.values())
    assert set(RUN_HERE) <= set(commands())


def test_desk_takes_the_guide_s_words() -> None:
    """They are words of desk: what it can't reach it says as such, with another status than that of bad words."""
    for it in commands():
        if it.startswith("desk ") and "--reserve" not in it:
            words = [PYTHON, os.path.join(TOOLS, "desk"), "--server", "http://127.0.0.1:9", "--access", "ssh://board@127.0.0.1:9"]
            ran = subprocess.run([*words, *it.split()[1:]], capture_output=True, text=True, check=False, timeout=60)
            assert ran.returncode in (4, 255), (it, ran)


def test_the_ways_of_the_guide_s_boards(tmp_path: Any) -> None:
    found = read_site(tmp_path)
    boards = toml_text.tree_of(blocks("toml")[1])["boards"]
    ways: Dict[str, Any] = {}
    for name, board in boards.items():
        tags = dict(it.split("=", 1) for it in board["tags"] if "=" in it)
        ways[name] = found.ways_of(name, tags)
        lacking = [it for it, way in ways[name].items() if site.lacks(way)]
        assert lacking == (["tcp"] if name == "virt-1" else []), name
    assert ways["bbb-1"]["console"] == {"device": "/dev/boards/bbb-1"}
    assert ways["bbb-1"]["devices"] == ["/dev/boards/bbb-1-relay"]
    assert ways["bbb-1"]["power"]["off"] == ["/usr/bin/usbrelay", "BITFT_1=0"] == ways["bbb-1"]["after"]
    assert ways["rpi-1"]["power"] == {"pdudaemon": "http://127.0.0.1:16421", "host": "bench", "port": "3"}
    assert ways["virt-1"]["console"] == {"unix": "/run/qemu-virt-1/console"}


def test_the_desk_takes_the_guide_s_lab_file(program: str, tmp_path: Any) -> None:
    (tmp_path / "lab.toml").write_text(blocks("toml")[1])
    db = ["--db", str(tmp_path / "lab.db")]
    subprocess.run([program, "init", *db], check=True, stdout=subprocess.DEVNULL)
    ran = subprocess.run([program, "import", *db, "--at", "1", str(tmp_path / "lab.toml")], capture_output=True, text=True, check=True)
    assert ran.stdout == "accepted 6, kept 0\n"


def answers(port: int) -> bool:
    with socket.socket() as line:
        return line.connect_ex(("127.0.0.1", port)) == 0


def test_pdudaemon_takes_its_file(tmp_path: Any) -> None:
    wants("pdudaemon")
    told = json.loads(blocks("json")[0])
    told["daemon"]["port"] = free_port()
    (tmp_path / "pdudaemon.conf").write_text(json.dumps(told))
    process = subprocess.Popen(["pdudaemon", "--conf", str(tmp_path / "pdudaemon.conf")], stderr=subprocess.DEVNULL)
    STARTED.append(process)
    wait_until("pdudaemon", lambda: answers(told["daemon"]["port"]))
    assert process.poll() is None


def test_udev_s_rules_have_known_keys() -> None:
    """udevadm of Debian 12 has no verify; each key is one that udev(7) has, compared or set as it may be."""
    rule = re.compile(r'(SUBSYSTEM|KERNELS|ATTRS\{\w+\})==".+?"|SYMLINK\+=".+?"|(GROUP|MODE)=".+?"')
    lines = blocks("udev")[0].splitlines()
    assert len(lines) == 2
    for line in lines:
        assert all(rule.fullmatch(it) for it in line.split(", ")), line


def test_the_firewall_takes_its_rules(lab: Lab) -> None:
    """Behind those of the package."""
    lab.machine.write("/etc/farm/port.d/boards.nft", blocks("nft")[0])
    lab.machine.run("systemctl", "reload", "farm-port")
    ruled = lab.machine.run("nft", "list", "table", "inet", "farm_boards").stdout
    lab.machine.run("rm", "/etc/farm/port.d/boards.nft")
    lab.machine.run("systemctl", "reload", "farm-port")
    assert "192.168.7.0/24" in ruled and "16421" in ruled


def test_units_are_as_systemd_reads_them(tmp_path: Any) -> None:
    wants("systemd-analyze")
    (unit,) = blocks("ini")
    (tmp_path / "virt@.service").write_text(unit.replace("Group=farm-hold\n", ""))
    (tmp_path / "virt@virt-1.service").symlink_to(tmp_path / "virt@.service")
    words = ["systemd-analyze", "--man=no", "verify", str(tmp_path / "virt@virt-1.service")]
    ran = subprocess.run(words, capture_output=True, text=True, check=False)
    assert "virt@" not in ran.stderr, ran.stderr


def test_jobs_go_by_the_guide_s_words(lab: Lab) -> None:
    number = lab.submit("b1")
    for it in commands():
        if it.startswith("farm-access way"):
            assert lab.try_words(lab.job(number, *it.split()), said=b"").status == 0, it


# ---- the emulated board


@pytest.fixture(name="virtual")
def virtual_fixture(lab: Lab, tmp_path_factory: pytest.TempPathFactory) -> Iterator[Lab]:
    """The lab with the guide's access.toml, and an emulated board of its own as the guide has it."""
    wants("qemu-system-x86_64", "busybox", "cpio")
    machine = lab.machine
    if "virt-1" not in [it["name"] for it in lab.look("/boards")["boards"]]:
        lab.tell("admin", "/types", {"name": "virtual"})
        lab.tell("admin", "/boards", {"name": "virt-1", "type": "virtual", "tags": ["virtual"]})
        lab.tell("admin", "/boards/virt-1/health", {"health": "Good"})
        machine.run("mkdir", "-p", "/srv/virt")
        images = lab.there("/srv/virt")
        shutil.copy(kernel(), f"{images}/kernel")
        make_initramfs(str(tmp_path_factory.mktemp("virt")), INIT, f"{images}/initramfs")
        machine.run("chmod", "644", "/srv/virt/kernel", "/srv/virt/initramfs")
        with open(os.path.join(TOP, "examples/qemu-power"), encoding="utf-8") as file:
            machine.write("/usr/local/bin/qemu-power", file.read(), 0o755)
        machine.write("/etc/systemd/system/virt@.service", blocks("ini")[0])
    machine.write("/etc/farm/access.toml", blocks("toml")[0])
    machine.run("systemctl", "daemon-reload")
    machine.run("systemctl", "restart", *UNITS, "virt@virt-1")
    machine.wait("its console", "ls", "/run/qemu-virt-1/qmp")
    yield lab
    machine.run("systemctl", "stop", "virt@virt-1")
    machine.write("/etc/farm/access.toml", access_lab.WAYS)
    machine.run("systemctl", "restart", *UNITS)


def test_check_says_of_each_board_which_way_answers(virtual: Lab) -> None:
    """b1 is no board of the guide's: it has its consoles."""
    ran = virtual.try_words(["farm-access", "check", "virt-1", "b1"])
    said = ran.output.decode().splitlines()
    assert ran.status == 1
    assert "virt-1 console: answers" in said and "virt-1 power: answers" in said and "virt-1 devices: answers" in said, said
    assert "virt-1 tcp: it has no tag address=.." in said
    assert "b1 console: answers" in said


def test_an_emulated_board_from_reserve_to_its_prompt(virtual: Lab) -> None:
    lab = virtual
    line = begun(lab, "console", "--reserve", "virtual")
    assert line.stdin and line.stdout
    until(lambda: lab.tell("dispatcher", "/pass") and lab.board("virt-1")["state"] == "Running")
    assert desk(lab, "power", "virt-1", "on").status == 0
    os.set_blocking(line.stdout.fileno(), False)
    said = b""

    def prompts() -> bool:
        nonlocal said
        assert line.stdin and line.stdout
        said += line.stdout.read(65536) or b""
        return b"the-board# " in said

    until(prompts, BOOTS)
    assert b"the-board# " in said, said[-500:]
    line.stdin.write(b"echo $((6 * 7))\r")
    line.stdin.flush()
    until(lambda: prompts() and b"\n42" in said)
    assert b"\n42" in said, said[-300:]
    assert desk(lab, "power", "virt-1", "status").output == b"on\n"
    lab.machine.run("pkill", "-TERM", "-f", "desk .*--reserve")
    line.wait(100)
    until(lambda: lab.board("virt-1")["holder"] == "none")
    assert lab.board("virt-1")["holder"] == "none"


@pytest.mark.parametrize("way", DRIVERS)
def test_what_drives_boards_boots_an_emulated_one_by_its_ways(virtual: Lab, way: str) -> None:
    """By the dispatcher, with run-job-labgrid and run-job-lava."""
    wants_way(way)
    with open(os.path.join(TOP, f"examples/run-job-{way}"), encoding="utf-8") as file:
        virtual.machine.write("/etc/farm/driver", file.read(), 0o755)
    virtual.machine.write("/etc/farm/boards/device.yaml", DEVICE)
    with dispatching(virtual, "#!/bin/sh\nexec /etc/farm/driver --ways /etc/farm/boards\n", lines_for("LAVA") if way == "lava" else ""):
        asked = f"job_name = 'test'\ndevice_type = 'virtual'\ntags = ['name=virt-1']\n{DRIVERS[way]}"
        result, log = ended(virtual, int(virtual.tell("ann", "/jobs", asked)["number"]), 580)
    assert result == "Complete" and "the-board# " in log, log
    if way == "lava":  # (which switches it off at its end)
        words = [PYTHON, "/usr/local/bin/qemu-power", "/run/qemu-virt-1/qmp", "status"]
        assert virtual.try_words(words).output == b"off\n"
