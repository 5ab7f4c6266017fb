"""Jobs that are run again elsewhere, once, where they ended as Infra."""
from __future__ import annotations

import time
from typing import Any, List, Optional

from answering import Proxy
from dispatch_lab import Lab, MakeLab, jobs_of
from dispatch_lab import lab_fixture, make_lab_fixture  # noqa: F401
from farm_dispatch.dispatcher import text_again
from served import wait_until


def test_retry(make_lab: MakeLab) -> None:
    """A job that ends as Infra and asks for it is run again as a new job of its owner, elsewhere and once; one that
    ends otherwise, is canceled or doesn't ask isn't."""
    lab = make_lab([(f"b{it}", "bbb", []) for it in range(1, 10)])
    again = lab.farm.submit("exit 75", user="zoe", more="retry = 1  # once\n")
    others = [lab.farm.submit(run, more=more) for run, more in (
        ("exit 75", ""), ("exit 3", "retry = 1\n"), ("true", "retry = 1\n"), ("exit 75", "retry = 2\n"))]
    canceled = lab.farm.submit(lab.sleeps(305), more="retry = 1\n")
    dispatcher = lab.dispatch()
    lab.running(305)
    lab.farm.tell("ann", f"/jobs/{canceled}/cancel")
    for number in (again, *others, canceled):
        lab.finished(number)
    told = f"job {again}: it is run again as job "
    wait_until("it is told", lambda: told in dispatcher.output())
    second = int(dispatcher.output().partition(told)[2].split()[0])
    assert lab.finished(second) == "Infra"
    wait_until("all have their lines", lambda: len(jobs_of(lab)) == len(others) + 3)
    passes = lab.passes()
    wait_until("three more passes", lambda: lab.passes() >= passes + 3)
    first, new = lab.farm.job(again), lab.farm.job(second)
    assert (new["owner"], new["text"]) == ("zoe", first["text"].replace("retry = 1", "retry = 0"))
    assert new["board"] != first["board"]
    assert lab.farm.look("/status")["next"] == second + 1, "that nothing else was submitted"
    assert f"farm-dispatch: it is run again as job {second}" in lab.log(again)
    lab.closes(dispatcher)


def test_retry_over_kills(lab: Lab) -> None:
    """So is one whose dispatcher is killed right after it was submitted again."""
    number = lab.farm.submit("exit 75", more="retry = 1\n")
    submitted: List[Optional[str]] = []

    def hook(method: str, path: str, key: Optional[str]) -> Any:
        if (method, path) != ("POST", "/jobs"):
            return None
        submitted.append(key)
        if len(submitted) == 1:
            lab.farm.ask("ann", "POST", "/jobs", lab.farm.job(number)["text"].replace("= 1", "= 0").encode(), key)
            first.kill()
            return 503, b"{}"
        return None

    proxy = Proxy(lab.farm, hook)
    first = lab.dispatch(server=proxy.server)
    wait_until("it is dead", lambda: first.process.poll() is not None)
    last = lab.dispatch(server=proxy.server)
    assert lab.finished(number) == "Infra"
    lab.settled(number)
    assert submitted == [submitted[0]] * 2 and submitted[0]
    assert lab.farm.look("/status")["next"] == number + 2, "one new job"
    assert lab.finished(number + 1) == "Infra"
    lab.closes(last)


def test_texts_again() -> None:
    """A text asks for it by `retry = 1` alone, at its top, and changes in nothing else."""
    head = "job_name = 'x'\ndevice_type = 'b'\n"
    assert text_again(f"{head}retry = 1\n") == f"{head}retry = 0\n"
    assert text_again(f"{head}  retry=1 # once\n[a]\nretry = 1\n") == f"{head}  retry=0 # once\n[a]\nretry = 1\n"
    hidden = f"{head}text = '''\nretry = 1\n'''\nretry = 1\n"
    assert text_again(hidden) == f"{head}text = '''\nretry = 1\n'''\nretry = 0\n"
    for text in ("", "retry = 0", "retry = 2", "retry = true", "retry = '1'", "retry = 1.0", "[a]\nretry = 1", "retry = 1 1"):
        assert text_again(head + text) is None, text


def test_a_long_text_keeps_nobody_waiting() -> None:
    """A text of 40 kB with thousands of lines that look like the one that asks for it, which stands behind them."""
    hidden = "retry = 1\n" * 4000
    since = time.process_time()
    assert text_again(f"text = '''\n{hidden}'''\nretry = 1\n") == f"text = '''\n{hidden}'''\nretry = 0\n"
    assert time.process_time() - since < 2
