"""What a worker's root, who may answer anything, makes of the dispatcher: its disk, its memory and its journal."""
from __future__ import annotations

import os
import pathlib
from typing import Callable, List

import pytest
from farm_dispatch.workers import Away, Call, Worker, look_of

MakeWorker = Callable[[str], Worker]


@pytest.fixture(name="make_worker")
def make_worker_fixture(tmp_path: pathlib.Path, monkeypatch: pytest.MonkeyPatch) -> MakeWorker:
    """Makes a worker of which ssh, in whose place this script stands, says what it answers."""
    def make(script: str) -> Worker:
        (tmp_path / "ssh").write_text(f"#!/bin/sh\ncat > /dev/null\n{script}\n")
        (tmp_path / "ssh").chmod(0o755)
        monkeypatch.setenv("PATH", f"{tmp_path}:{os.environ['PATH']}")
        return Worker("rack", "root@rack", str(tmp_path))
    return make


@pytest.mark.parametrize("script", ["yes 'refused' | head -c 100000000 >&2; exit 3", "echo 'refused' >&2; exit 255"])
def test_what_a_worker_says_to_stderr_fills_no_disk(make_worker: MakeWorker, script: str, monkeypatch: pytest.MonkeyPatch) -> None:
    """And its last line is told, of what isn't too long."""
    sizes: List[int] = []
    was = Call.close

    def close(call: Call) -> None:
        sizes.append(os.fstat(call.errors.fileno()).st_size)
        was(call)

    monkeypatch.setattr(Call, "close", close)
    with pytest.raises(Away, match="^refused$"):
        make_worker(script).close("farm-job-x-1-aa")
    assert 0 < sizes[0] < 2_000_000


def test_how_a_begin_went_is_told_in_few_words(make_worker: MakeWorker) -> None:
    worker = make_worker("yes $$ | head -c 10000000")
    told = {worker.begin("farm-job-x-1-aa", "m/l job 60 1 1000 1000", {}) for _ in range(20)}
    assert len(told) == 20 and max(map(len, told)) < 1000


def test_a_look_has_no_more_rows_than_a_machine_s() -> None:
    with pytest.raises(Away):
        look_of("life m/l\n" + "x\n" * 1_000_000 + "now 1\nend\n")
