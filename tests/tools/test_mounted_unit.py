"""The units where the farm's folder is to be mounted (/etc/fstab): an absent mount never starts the desk over what
lies below it, an older farm or none. The device is a folder, in whose place a file, which can't be mounted, is its absence."""
from __future__ import annotations

import pytest
from machine import Machine, machine_fixture  # noqa: F401

pytestmark = [pytest.mark.xdist_group("packages"), pytest.mark.slow(30)]
HOME, DEVICE = "/var/lib/farm", "/srv/device"
FSTAB = "/srv/device /var/lib/farm none bind,noauto 0 0\n"
TYPE = ("-d", '{"name":"mounted"}')


def goes_away(machine: Machine) -> None:
    """The machine stops at once, and the device isn't there as it begins again, with the units that are enabled."""
    machine.run("systemctl", "kill", "-s", "KILL", "farm")
    machine.run("sh", "-c", f"umount -l {HOME} && mv {DEVICE} {DEVICE}-away && touch {DEVICE}")


def demand_refused(machine: Machine, unit: str) -> None:
    ran = machine.run("systemctl", "start", unit, check=False)
    assert ran.returncode and "A dependency job" in ran.stderr
    assert machine.asked("root", "root", "/status") == 7


def test_an_absent_mount_never_starts_what_lies_below(machine: Machine) -> None:
    """Not by a start, nor by the boot after a power cut, nor as the desk is begun again; once it is there it is the farm."""
    machine.run("cp", "-a", HOME, DEVICE)
    machine.write("/etc/fstab", FSTAB)
    machine.run("systemctl", "daemon-reload")
    machine.serve()
    machine.run(*machine.curl("admin", "/types", *TYPE))
    assert machine.run("mountpoint", "-q", HOME, check=False).returncode == 0
    machine.run("systemctl", "enable", "farm", "farm-dispatch")
    goes_away(machine)
    assert machine.run("ls", HOME).stdout.split() == ["lab.db", "lab.db-wal"], "an older farm lies below"
    machine.wait("that it isn't begun again", "sh", "-c", "journalctl -u farm | grep 'Dependency failed'")
    for unit in ("farm", "farm-dispatch"):
        demand_refused(machine, unit)
    machine.run("systemctl", "start", "multi-user.target")
    assert machine.status("farm") != "active" and machine.asked("root", "root", "/status") == 7
    machine.run("sh", "-c", f"rm {DEVICE} && mv {DEVICE}-away {DEVICE}")
    machine.serve()
    assert "mounted" in machine.run(*machine.curl("root", "/types")).stdout
    machine.run("systemctl", "start", "farm-dispatch")
    assert machine.status("farm-dispatch") == "active"
