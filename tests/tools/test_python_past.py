"""The Python package over a desk and its dispatcher: jobs that are run and canceled, logs, what was and what was used; and the
same from asyncio."""
from __future__ import annotations

import asyncio
import datetime
import os
import time
from typing import List

import pytest

import fizgruk
from desks import JOB
from dispatch_lab import Lab, MakeLab, lab_fixture, make_lab_fixture  # noqa: F401
from fizgruk.aio import AsyncClient
from python_front import Passer, client_of, no_settings_fixture, rows, states  # noqa: F401
from served import Farm, wait_until

RUN = "job_name = 'boot'\ndevice_type = 'bbb'\nrun = '{}'\n"


# ---- jobs, logs and the past


def test_a_job_is_run_and_its_log_and_its_past_are_there(lab: Lab) -> None:
    """One is run, one more is made of its text, and both are in the history and in what was used."""
    began = time.time()
    lab.dispatch()
    ann = client_of(lab.farm.server, history=lab.place)
    first = ann.run(RUN.format('echo "$FARM_JOB says" ä'), 300, every=0.1)
    assert [(it.number, it.result) for it in first] == [(1, "Complete")]
    assert ann.log(1) == "1 says ä\n"
    second = ann.resubmit(1)
    assert (second, "".join(ann.follow(second, 300, every=0.1))) == (2, "2 says ä\n")
    wait_until("both are in the history", lambda: len(ann.history()) == 2)
    last = ann.history()[0]
    assert isinstance(last, fizgruk.PastJob)
    assert (last.job, last.owner, last.name, last.outcome, last.type) == (2, "ann", "boot", "Complete", "bbb")
    assert last.began is not None and last.ended is not None
    assert began - 1 <= last.began.timestamp() <= last.ended.timestamp() <= time.time()
    assert [it.boards for it in ann.history(last.boards[0]) if isinstance(it, fizgruk.PastJob)][0] == last.boards
    use = ann.usage()
    assert [(it.name, it.jobs, it.complete, it.incomplete) for it in use] == [("ann", 2, 2, 0)]
    assert [it.name for it in ann.usage(datetime.timedelta(hours=1), "type")] == ["bbb"]
    tomorrow = datetime.datetime.now(datetime.timezone.utc) + datetime.timedelta(days=1)
    assert ann.usage(tomorrow) == []


# ---- a job that nobody waits for


def test_a_job_is_canceled_where_its_waiter_is_interrupted(farm: Farm) -> None:
    """By an exception of what is told, by its timeout; without `run` or `cancel` it goes on."""
    ann = client_of(farm.server)

    def interrupt(_: str) -> None:
        raise KeyboardInterrupt

    with pytest.raises(KeyboardInterrupt):
        ann.run(JOB, tell=interrupt)
    with pytest.raises(fizgruk.TimedOut, match="^job 2 hasn't ended within 0.2 s: job 2 is Submitted, place 1 of 1 in the"):
        ann.run(JOB, 0.2, every=0.1)
    assert [ann.job(it).result for it in (1, 2)] == ["Canceled", "Canceled"]
    number = ann.submit(JOB)
    with pytest.raises(KeyboardInterrupt):
        ann.wait_for_job(number, tell=interrupt)
    assert ann.job(number).state == "Submitted"
    with pytest.raises(KeyboardInterrupt):
        ann.wait_for_job(number, tell=interrupt, cancel=True)
    assert ann.job(number).result == "Canceled"


# ---- asyncio


def test_asyncio_runs_jobs_and_holds_boards(lab: Lab) -> None:
    """What one thread of a program does one after another several tasks do at once."""

    async def work() -> List[str]:
        async with AsyncClient(lab.farm.server, "ann", history=lab.place) as ann:
            done = await asyncio.gather(*(ann.run(RUN.format("echo it"), 300, every=0.1) for _ in range(3)))
            assert [it[0].result for it in done] == ["Complete"] * 3
            assert await ann.log(1) == "it\n"
            assert "".join([it async for it in ann.follow(2)]) == "it\n"
            async with ann.board("name=b3", every=0.1) as board, ann.board("name=b4", every=0.1) as other:
                return [board.name, other.name, *(str(it.holder) for it in await ann.boards("name=b3"))]

    lab.dispatch()
    assert asyncio.run(work()) == ["b3", "b4", "reservation 4"]
    assert [it["state"] for it in lab.farm.look("/reservations")["reservations"]] == ["canceled"] * 2


def test_a_task_that_is_canceled_gives_back_what_it_waits_for(farm: Farm) -> None:
    async def work() -> None:
        ann = AsyncClient(farm.server, "ann")
        tasks = [asyncio.ensure_future(ann.board("hdmi").__aenter__()), asyncio.ensure_future(ann.run(JOB))]
        while len(await ann.queue()) < 2:
            await asyncio.sleep(0.05)
        for it in tasks:
            it.cancel()
        for it in tasks:
            with pytest.raises(asyncio.CancelledError):
                await it

    asyncio.run(work())
    assert states(farm) == ["canceled"]
    assert client_of(farm.server).job(2 if rows(farm)[0]["number"] == 1 else 1).result == "Canceled"


def test_more_tasks_than_a_pool_has_threads_share_a_board(farm: Farm) -> None:
    """Those who wait don't keep the one who has it from giving it back."""
    done: List[str] = []

    async def one(ann: AsyncClient) -> None:
        async with ann.board("hdmi", every=0.05) as board:
            done.append(board.name)

    async def work() -> None:
        ann = AsyncClient(farm.server, "ann")
        await asyncio.wait_for(asyncio.gather(*(one(ann) for _ in range(count))), 200)

    count = (os.cpu_count() or 1) + 8
    with Passer(farm):
        asyncio.run(work())
    assert done == ["b1"] * count


def test_a_board_that_is_lost_cancels_its_task(farm: Farm) -> None:
    """The block ends at once, with HoldLost; the task itself goes on."""
    ends: List[str] = []

    async def work() -> str:
        ann = AsyncClient(farm.server, "ann")
        with pytest.raises(fizgruk.HoldLost, match="^board b1 is lost: reservation 1 is canceled$"):
            async with ann.board("hdmi", every=0.1):
                farm.tell("admin", "/reservations/1/cancel")
                try:
                    await asyncio.sleep(600)
                finally:
                    ends.append("at once")
        return (await ann.boards("hdmi"))[0].state

    with Passer(farm):
        assert (asyncio.run(work()), ends) == ("Idle", ["at once"])


def test_names_are_those_of_the_client() -> None:
    names = {it for it in vars(fizgruk.Client) if not it.startswith("_")}
    assert {it for it in vars(AsyncClient) if not it.startswith("_")} == names - {"of_patience"}
