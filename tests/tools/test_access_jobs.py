"""Jobs go to their boards by the same ways as people, and reach no others. (test_boards_guide.py: those of labgrid and of
LAVA's dispatcher.) Where the dispatcher isn't at work a job's unit is begun as farm-worker begins it (`Lab.job`)."""
from __future__ import annotations

import contextlib
import re
from typing import Iterator, List, Tuple

import pytest

from access_lab import Lab, lab_fixture, until
from machine_lab import COMMAND
from served import PATIENCE

__all__ = ["lab_fixture"]
pytestmark = [pytest.mark.xdist_group("machine"), pytest.mark.slow(60)]
NOT_YOURS = 5
MORE = "/etc/systemd/system/farm-job-.service.d/lab.conf"
WAY = ("farm-access", "way")


@contextlib.contextmanager
def dispatching(lab: Lab, run_job: str, more: str = "") -> Iterator[None]:
    """The dispatcher by its units, as the package has them, which runs this command for jobs; `more` is for their units."""
    lab.machine.write("/etc/farm/run-job", run_job, 0o755)
    lab.machine.write(MORE, f"[Service]\n{more}")
    units = ("farm-worker.socket", "farm-worker", "farm-dispatch")
    lab.machine.run("systemctl", "daemon-reload")
    lab.machine.run("systemctl", "start", *units)
    try:
        yield
    finally:
        lab.machine.run("systemctl", "stop", *units)
        lab.machine.run("rm", MORE)
        lab.machine.run("systemctl", "daemon-reload")


def ended(lab: Lab, number: int, seconds: float = PATIENCE) -> Tuple[str, str]:
    """A job's result, once it has ended, and its log."""
    until(lambda: lab.look(f"/jobs/{number}")["state"] == "Finished", seconds)
    log = lab.read(f"/var/lib/farm-dispatch/logs/{number}")
    return str(lab.look(f"/jobs/{number}")["result"]), log


def test_a_job_that_the_dispatcher_started_goes_to_its_own_boards_alone(lab: Lab) -> None:
    """All of its group's, under the number of the first one, also of a child that left its session; and the kernel has its
    unit below farm.slice."""
    lab.reserve("ann", "b1")
    roles = "".join(f"[roles.{it}]\ncount = 1\ndevice_type = 'bbb'\ntags = ['name={it}']\n" for it in ("b2", "b3"))
    each = "for it in b1 b2 b3; do setsid -fw farm-access way $it say $it; done; grep ^0:: /proc/self/cgroup; echo $FARM_JOB $FARM_BOARDS"
    with dispatching(lab, COMMAND):
        number = int(lab.tell("ann", "/jobs", f"job_name = 'g'\nrun = '{each}; sleep 600'\n{roles}")["number"])
        until(lambda: "b2 b3" in lab.machine.run("cat", f"/var/lib/farm-dispatch/logs/{number}", check=False).stdout)
        others = [
            lab.try_words(["runuser", "-u", it, "--", *WAY, "b2", "say", "x"]) for it in ("farm-dispatch", "nobody")
        ]
        lab.tell("ann", f"/jobs/{number}/cancel")
        log = ended(lab, number)[1].replace("\r", "").splitlines()
    assert log[:3] == ["farm-access: b1 is no board of this job's", "b2", "b3"]
    assert re.fullmatch(rf"0::/farm\.slice/farm-job\.slice/farm-job-[0-9a-f]{{16}}-{number}-[0-9a-f]{{8}}\.service", log[3]), log
    assert log[4] == f"{number} b2 b3"
    assert [(it.status, it.output) for it in others] == [(NOT_YOURS, b"")] * 2
    used = [(it["job"], it["hold"]) for it in lab.uses() if it.get("words") == "b3 say b3" and it["status"] == 0]
    assert used == [(number, f"job {number + 1}")]


def test_a_job_s_ways_are_its_own_boards_alone(lab: Lab) -> None:
    lab.reserve("ann", "b1")
    number = lab.submit("b2")
    script = "farm-access way b2 say one; farm-access way b1 say two; echo =$?; farm-access way b2 say --as-admin; echo =$?;" \
        " farm-access way b2 gone; echo =$?; farm-access way b2 ways | head -1"
    ran = lab.try_words(lab.job(number, "/bin/sh", "-c", script))
    assert ran.output.decode().splitlines() == ["one", "=5", "=5", "=127", "console"]
    assert ran.errors.replace("\r", "").splitlines() == [
        "farm-access: b1 is no board of this job's", "farm-access: b2 is no board of this job's",
        "farm-access: /no/such/command: No such file or directory",
    ]


def test_what_is_in_no_job_s_unit_is_no_job(lab: Lab) -> None:
    """Nor is a job whose number another has by now, or whose boards were given on."""
    number = lab.submit("b2")

    def job(of: int = number) -> List[str]:
        return lab.job(of, *WAY, "b2", "say", "x")

    others: List[List[str]] = [
        ["runuser", "-u", "nobody", "--", *WAY, "b2", "say", "x"],
        [it.replace("--slice=farm-job.slice", "--slice=other.slice") for it in job()],
        [it.replace("farm-job-ab12", "farm-other-ab12") for it in job()],
        job(number + 1),
    ]
    for words in others:
        tried = lab.try_words(words)
        assert (tried.status, tried.output) == (NOT_YOURS, b""), (words, tried)
    assert lab.try_words(job()).output == b"x\n"
    lab.finish(number)
    lab.reserve("ann", "b2")
    assert lab.try_words(job()).status == NOT_YOURS


def test_a_job_s_console_ends_as_it_is_told_and_with_who_reads_it(lab: Lab) -> None:
    begins = "farm-access way b2 console < /dev/zero"
    told = f"mkfifo seen; (head -c 9; touch up; exec cat) < seen > /dev/null & {begins} > seen & console=$!"
    told = f"{told}; until [ -e up ]; do sleep 0.1; done; kill $console; wait $console; echo =$?"
    number = lab.submit("b2")
    ran = lab.try_words(lab.job(number, "/bin/sh", "-c", f"{told}; {begins} | head -c 9 > /dev/null; echo ended"))
    assert ran.output.split() == [b"=4", b"ended"]
    assert until(lambda: not lab.units("b2")) < 60
