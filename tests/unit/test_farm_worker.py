"""farm-worker's words over folders of a test's own, with a systemctl and a systemd-run that note what they are asked."""
from __future__ import annotations

import contextlib
import json
import os
import pathlib
import signal
import subprocess
import time
from typing import Iterator, List

import pytest
from served import wait_until

SCRIPT = pathlib.Path(__file__).resolve().parents[2] / "tools" / "farm-worker"
UNIT = "farm-job-x-1-aa"
FILES = [b"job_name = 'x'\n", b"b1 bbb - 1\n", b"[]\n", b'FARM_JOB="1"\n']


class Worker:
    """The script of a machine, whose units a test's file `loaded` says."""

    def __init__(self, place: pathlib.Path) -> None:
        self.place, self.run, self.script = place, place / "run", place / "farm-worker"
        text = SCRIPT.read_text(encoding="utf-8").replace("PATH=", f"PATH={place}/bin:", 1)
        for was, now in (("/run/farm-jobs", "run"), ("/var/lib", "lib"), ("/etc/farm", "etc"), ("/sys/fs/cgroup", "cgroup")):
            text = text.replace(was, f"{place}/{now}")
        self._put("farm-worker", text)
        self._put("bin/systemctl", f'case $1 in show) [ -e {place}/loaded ] && echo loaded || echo not-found ;; stop) echo "$@" '
                                   f'>> {place}/asked ;; esac\n')
        self._put("bin/systemd-run", f'echo "$@" >> {place}/asked\n')
        self._put("etc/run-job", "")

    def _put(self, name: str, text: str) -> None:
        file = self.place / name
        file.parent.mkdir(exist_ok=True)
        file.write_text(text if text.startswith("#!") else f"#!/bin/sh\n{text}", encoding="utf-8")
        file.chmod(0o755)

    def call(self, line: str, body: bytes = b"") -> "subprocess.CompletedProcess[bytes]":
        said = line.encode() + b"\n" + body
        return subprocess.run(["sh", str(self.script)], input=said, capture_output=True, timeout=60, check=False)

    def unit(self, verb: str, **more: str) -> int:
        """What the unit itself calls, before and behind its command, as systemd.exec(5) says it."""
        more = {"INVOCATION_ID": "i1", "SERVICE_RESULT": "success", "USER": "_du1", **more}
        (self.place / "lib" / "farm-job" / UNIT).mkdir(parents=True, exist_ok=True)
        words = ["sh", str(self.script), verb, UNIT]
        return subprocess.run(words, env={**os.environ, **more}, capture_output=True, timeout=60, check=False).returncode

    def rows(self) -> List[str]:
        said = self.call("look x").stdout.decode().splitlines()
        assert said[-1] == "end"
        order = ["marks", "old", "begun", "ended"]
        return sorted((it for it in said if it.split()[0] in order), key=lambda row: order.index(row.split()[0]))

    def begin(self, files: List[bytes], cut: int = 0) -> "subprocess.CompletedProcess[bytes]":
        life = self.call("look x").stdout.split()[1].decode()
        body = b"".join(files)
        sizes = " ".join(str(len(it)) for it in files)
        return self.call(f"begin {UNIT} {life} job 60 1 1000 1000 {sizes}", body[: len(body) - cut])

    def asked(self) -> List[str]:
        file = self.place / "asked"
        return file.read_text().splitlines() if file.exists() else []


@pytest.fixture(name="worker")
def worker_fixture(tmp_path: pathlib.Path) -> Worker:
    return Worker(tmp_path)


def test_what_is_whole_is_begun(worker: Worker) -> None:
    assert worker.begin(FILES).stdout == b"ok\n" and len(worker.asked()) == 1
    names = ("job.toml", "boards", "boards.json", "env")
    assert [(worker.run / "in" / UNIT / it).read_bytes() for it in names] == FILES


@pytest.mark.parametrize("cut", [1, 12, 17, 40])
def test_what_was_cut_is_not(worker: Worker, cut: int) -> None:
    """As where ssh is killed while the files are sent: the script sees an end of its input."""
    assert worker.begin(FILES, cut).returncode == 2
    assert worker.asked() == [] and os.listdir(worker.run / "in") == []


def test_how_it_ended_is_told_after_it_was_forgotten(worker: Worker) -> None:
    worker.begin(FILES)
    assert worker.unit("pre") == 0 and worker.unit("pre") != 0
    assert worker.unit("post", EXIT_CODE="exited", EXIT_STATUS="0") == 0
    assert sorted(os.listdir(worker.run / "in" / UNIT)) == ["env", "limits", "names"]
    ends = [f"begun {UNIT} i1", f"ended {UNIT} success exited 0"]
    assert worker.rows() == [f"marks {UNIT}", *ends]
    (worker.place / "loaded").touch()
    assert worker.call(f"forget {UNIT}").stdout == b"lives\n"
    (worker.place / "loaded").unlink()
    for _ in range(2):
        assert worker.call(f"forget {UNIT}").stdout == b"ok\n"
        assert worker.rows() == [f"old {UNIT}", *ends]
    assert worker.call(f"close {UNIT}").stdout == b"ok\n"
    assert worker.begin(FILES).stdout == b"begun\n"
    assert worker.unit("pre") != 0 and worker.rows() == [f"old {UNIT}", *ends]
    assert os.listdir(worker.run / "in") == [] and worker.call("wait x 0 300").stdout == b"end\n"


def test_what_was_closed_never_begins(worker: Worker) -> None:
    worker.call(f"close {UNIT}")
    assert worker.rows() == [f"marks {UNIT}", f"ended {UNIT} never"]
    assert worker.begin(FILES).stdout == b"begun\n" and worker.unit("pre") != 0


def test_a_unit_whose_close_was_killed_halfway_never_began(worker: Worker) -> None:
    """There is its mark, and nothing in it: what fails then is no end of its command."""
    worker.begin(FILES)
    (worker.run / "marks" / UNIT).mkdir()
    assert worker.rows() == [f"marks {UNIT}"] and worker.unit("pre") != 0
    worker.unit("post", SERVICE_RESULT="exit-code")
    assert worker.rows()[1].split()[:3] == ["ended", UNIT, "never"]


def test_an_end_is_noted_by_the_shell_alone(worker: Worker) -> None:
    """systemd gives `post` no longer than the grace, which is short where a machine is slow: what it starts comes later."""
    worker.begin(FILES)
    worker.unit("pre")
    for it in ("cat", "grep", "mv", "rm", "dd", "chmod"):
        worker._put(f"bin/{it}", "kill -KILL $PPID\n")
    assert worker.unit("post", EXIT_CODE="exited", EXIT_STATUS="3", SERVICE_RESULT="exit-code") == -9
    for it in ("cat", "grep", "mv", "rm", "dd", "chmod"):
        (worker.place / "bin" / it).unlink()
    assert worker.rows()[-1] == f"ended {UNIT} exit-code exited 3"


def test_an_end_of_which_nothing_was_written_wakes_nobody(worker: Worker) -> None:
    """As where there was no room for it: else who waits for one more asks again at once, for ever."""
    (worker.run / "marks" / "farm-job-x-1-aa").mkdir(parents=True)
    (worker.run / "marks" / "farm-job-x-1-aa" / "ended").touch()
    since = time.monotonic()
    assert worker.call("wait x 0 1").stdout == b"end\n" and time.monotonic() - since > 0.9


@pytest.mark.parametrize("events, why", [("oom 0", "signal"), ("oom 1", "memory-limit"), ("oom_kill 1", "signal")])
def test_what_its_own_limit_of_memory_ended(worker: Worker, events: str, why: str) -> None:
    worker.begin(FILES)
    worker.unit("pre")
    group = worker.place / "cgroup" / "unified" / "farm.slice" / "farm-job.slice" / f"{UNIT}.service"
    group.mkdir(parents=True)
    (group / "memory.events").write_text(f"low 0\nmax 9\n{events}\n")
    worker.unit("post", EXIT_CODE="killed", EXIT_STATUS="KILL", SERVICE_RESULT="signal")
    assert worker.rows()[-1] == f"ended {UNIT} {why} killed KILL"


def test_files_of_a_job_are_its_own(worker: Worker) -> None:
    worker.begin(FILES)
    modes = {it: (worker.run / "in" / UNIT / it).stat().st_mode & 0o777 for it in ("", "env", "job.toml")}
    assert modes == {"": 0o700, "env": 0o600, "job.toml": 0o644}
    assert (worker.run / "in").stat().st_mode & 0o777 == 0o711


def test_the_names_of_its_account_are_there_for_it(worker: Worker) -> None:
    """Also where a lab's drop-in has another umask."""
    worker.begin(FILES)
    before = os.umask(0o077)
    assert worker.unit("pre") == 0
    os.umask(before)
    names, own = worker.run / "in" / UNIT / "names", (worker.place / "lib" / "farm-job" / UNIT).stat()
    read = {it.name: json.loads(it.read_text()) for it in names.iterdir() if it.stat().st_mode & 0o777 == 0o644}
    assert read["_du1.user"] == read[f"{own.st_uid}.user"] and read["_du1.group"] == read[f"{own.st_gid}.group"]
    assert (read["_du1.user"]["uid"], read["_du1.group"]["gid"]) == (own.st_uid, own.st_gid) and len(read) == 4


def test_a_look_of_which_a_part_is_killed_is_no_answer(worker: Worker) -> None:
    """Else what ended would count as lost, or what lives as gone."""
    assert worker.call("look x").stdout.endswith(b"\nend\n")
    worker._put("bin/grep", "kill -KILL $$\n")
    assert not worker.call("look x").stdout.endswith(b"\nend\n")


@contextlib.contextmanager
def watched(worker: Worker) -> Iterator[None]:
    """farm-worker.service runs, and is killed with all that it began."""
    with subprocess.Popen(["sh", str(worker.script), "watch"], start_new_session=True) as watch:
        try:
            yield
        finally:
            os.killpg(watch.pid, signal.SIGKILL)


def test_a_folder_that_takes_long_to_remove_holds_nothing_up(worker: Worker) -> None:
    """One removal runs at a time, however often the unit is forgotten, and one that was cut short goes on."""
    folder, removals = worker.place / "lib" / "private" / "farm-job" / "farm-job-x-2-bb", worker.place / "removals"
    (folder / "out").mkdir(parents=True)
    worker._put("bin/rm", f"""case $2 in */private/farm-job/*) [ ! -e "$2" ] || {{ echo "$2" >> {removals}; exec sleep 300; }} ;; esac
exec /bin/rm "$@"
""")
    with watched(worker):
        assert worker.call(f"forget {folder.name}").stdout == b"ok\n" and not folder.exists()
        wait_until("its removal", removals.exists)
        assert worker.call(f"forget {folder.name}").stdout == worker.begin(FILES).stdout == b"ok\n"
        time.sleep(7)
        assert len(removals.read_text().splitlines()) == 1
    (worker.place / "bin" / "rm").unlink()
    with watched(worker):
        wait_until("it is gone", lambda: not list(folder.parent.glob(".gone/*")))


def test_what_systemd_has_no_time_to_end_the_kernel_ends(worker: Worker) -> None:
    group = worker.place / "cgroup" / "unified" / "farm.slice" / "farm-job.slice" / f"{UNIT}.service"
    group.mkdir(parents=True)
    (group / "cgroup.events").write_text("populated 1\n")
    (worker.place / "loaded").touch()
    assert worker.call(f"close {UNIT}").stdout == b"ok\n" and not (group / "cgroup.kill").exists()
    worker._put("bin/systemctl", "exec sleep 300\n")
    assert worker.call(f"close {UNIT}").stdout == b"ok\n" and (group / "cgroup.kill").read_text() == "1\n"
