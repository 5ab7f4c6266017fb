"""The unit of farm-backup under a systemd: the nightly copy, and its metric where node_exporter is."""
from __future__ import annotations

import pytest
from machine import Machine, machine_fixture  # noqa: F401

pytestmark = [pytest.mark.xdist_group("packages"), pytest.mark.slow(30)]
METRICS = "/var/lib/prometheus/node-exporter"


def test_the_nightly_copy_is_made(machine: Machine) -> None:
    machine.serve()
    machine.run("systemctl", "start", "farm-backup")
    machine.run("mkdir", "-p", METRICS)
    machine.run("systemctl", "start", "farm-backup")
    assert "compared" not in machine.journal("farm-backup"), "the desk is asked"
    listed = machine.run("ls", "/var/lib/farm-backup", "/var/lib/farm-backup/latest/").stdout.split()
    assert [it for it in listed if it.startswith("lab.db")] == ["lab.db", "lab.db-wal"]
    assert len([it for it in listed if it.startswith("farm-")]) == 2
    assert "fizgruk_backup_last" in machine.run("cat", f"{METRICS}/fizgruk-backup.prom", user="nobody").stdout
    assert machine.run("ls", "/var/lib/farm-backup", user="nobody", check=False).returncode
    assert machine.run("cat", "/var/lib/farm-backup/latest/lab.db", user="nobody", check=False).returncode
