"""A nightly job by a systemd timer, with a key of its day: run again on the same day it is the same job."""
from __future__ import annotations

import json
from typing import Any

import pytest
from machine import PORT, Machine, machine_fixture  # noqa: F401

pytestmark = [pytest.mark.xdist_group("packages"), pytest.mark.slow(60)]
# Without the site, whose certificate and passwords other tests have: the desk itself, asked by an account that may.
HERE = f"""\
[Service]
User=farm-dispatch
Environment=DESK_SERVER=http://127.0.0.1:{PORT} DESK_PASSWORD_FILE= PATH=/srv/clock:/usr/bin:/bin
"""
TURNED = "[Timer]\nOnCalendar=\nRandomizedDelaySec=0\nOnActiveSec=1\n"


def set_day(machine: Machine, day: str) -> None:
    """What `date` says there."""
    machine.write("/srv/clock/date", f"#!/bin/sh\n[ \"$1\" = +%F ] && echo {day}\n", 0o755)


def jobs(machine: Machine) -> Any:
    return json.loads(machine.run(*machine.curl("ann", "/status")).stdout)["jobs"]


def test_a_timers_job_is_submitted_once_a_day(machine: Machine) -> None:
    machine.serve()
    for path, body in (
        ("/types", '{"name":"bbb"}'), ("/boards", '{"name":"b1","type":"bbb"}'),
        ("/boards/b1/health", '{"health":"Good"}'),
    ):
        machine.run(*machine.curl("admin", path, "-d", body))
    machine.write("/etc/farm/run-job", "#!/bin/sh\nexit 0\n", 0o755)
    machine.run("systemctl", "start", "farm-dispatch")
    machine.write("/etc/farm/nightly.toml", 'job_name = "nightly"\ndevice_type = "bbb"\n')
    machine.write("/etc/systemd/system/nightly-job.service.d/here.conf", HERE)
    machine.write("/etc/systemd/system/nightly-job.timer.d/here.conf", TURNED)
    machine.run("systemctl", "daemon-reload")
    set_day(machine, "2026-11-28")
    machine.run("systemctl", "enable", "--now", "nightly-job.timer")
    machine.wait("the timer's job", "sh", "-c", "journalctl -q -u nightly-job | grep -o 'Complete'")
    assert jobs(machine) == 1
    machine.run("systemctl", "start", "nightly-job")
    assert jobs(machine) == 1, "the same day"
    set_day(machine, "2026-11-29")
    machine.run("systemctl", "start", "nightly-job")
    assert jobs(machine) == 2, "the next day"
    machine.write("/etc/farm/run-job", "#!/bin/sh\nexit 1\n", 0o755)
    set_day(machine, "2026-11-30")
    assert machine.run("systemctl", "start", "nightly-job", check=False).returncode != 0, "a job that fails is told"
    assert jobs(machine) == 3
