"""What drives boards does so under a job's account: labgrid, and LAVA's dispatcher, which works as root alone, with what
docs/setting-up.md adds to the unit. The board is emulated, by translated code."""
from __future__ import annotations

import subprocess

import pytest

from machine import Machine
from machine_lab import PLACE, MachineLab
from test_boards_run import DEVICE, ENVIRONMENT, LABGRID_BOOTS, Board, labgrid_job, lava_job, wants_way
from test_boards_run import board_fixture  # noqa: F401

pytestmark = [pytest.mark.xdist_group("machine"), pytest.mark.slow(40)]
IMAGES = "/srv/images"
# lava-run asks which way the machine reaches others.
NETWORK = """ip link add lan type bridge && ip addr add 192.0.2.2/24 dev lan && ip link set lan up
ip route add default via 192.0.2.1"""


@pytest.fixture(scope="module")
def lab(machine: Machine) -> MachineLab:
    """A lab of one board that is Good."""
    made = MachineLab(machine)
    for name in ("b2", "b3"):
        made.tell("admin", f"/boards/{name}/health", {"health": "Maintenance"})
    return made


def put(machine: Machine, board: Board) -> None:
    """Brings what the board boots to where a job's account reads it."""
    board.kernel = put_file(machine, board.kernel, "vmlinuz")
    board.initramfs = put_file(machine, board.initramfs, "initramfs.gz")


def put_file(machine: Machine, file: str, name: str) -> str:
    place = f"{IMAGES}/{name}"
    with subprocess.Popen(["cat", file], stdout=subprocess.PIPE) as read:
        machine.run("sh", "-c", f"mkdir -p {IMAGES} && cat > {place}", stdin=read.stdout)
    return place


def boots(lab: MachineLab, way: str, job: str) -> None:
    """Runs a job by this way, whose board comes up."""
    lab.machine.run("install", f"/tmp/source/examples/run-job-{way}", "/etc/farm/run-job")
    text = f"job_name = 'boots'\ndevice_type = 'bbb'\n{job}[timeouts]\njob = '15 minutes'\n"
    number = int(lab.tell("ann", "/jobs", text)["number"])
    assert lab.finished(number, 500) == "Complete", lab.log(number)
    assert "the board is up" in lab.log(number)
    lab.machine.wait("it is settled", "sh", "-c", f"[ ! -e {PLACE}/open/{number} ] && echo settled")
    places = "/var/lib/private/farm-job /var/lib/farm-worker/log /run/farm-jobs/in"
    none = f'[ -z "$(find {places} -mindepth 1 ! -name .gone)" ] && echo none'
    lab.machine.wait("nothing of its account's is left", "sh", "-c", none)
    owners = lab.machine.run("find", PLACE, "-printf", "%u\n").stdout.split()
    assert set(owners) == {"farm-dispatch"}


def test_labgrid_boots_a_board_under_a_jobs_account(lab: MachineLab, board: Board) -> None:
    wants_way("labgrid")
    put(lab.machine, board)
    lab.machine.write("/etc/farm/labgrid/b1.yaml", board.fill(ENVIRONMENT))
    boots(lab, "labgrid", labgrid_job(board, LABGRID_BOOTS))


def test_lavas_dispatcher_boots_a_board_under_a_jobs_account(lab: MachineLab, board: Board) -> None:
    wants_way("lava")
    put(lab.machine, board)
    lab.machine.run("sh", "-c", NETWORK)
    lab.machine.write("/etc/farm/lava/b1.yaml", board.fill(DEVICE))
    with lab.jobs_with("LAVA"):
        boots(lab, "lava", lava_job(board))
