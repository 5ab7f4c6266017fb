"""What jobs left, from their command to whoever fetches it: kept once their boards are given back, over kills, listed and
fetched by `desk` and from Python, with the counts of their tests in the history."""
from __future__ import annotations

import asyncio
import json
import os
import pathlib
from typing import Any, Dict, List

import pytest

import fizgruk
from desks import desk
from dispatch_lab import Lab, jobs_of
from dispatch_lab import lab_fixture, make_lab_fixture  # noqa: F401
from fizgruk.aio import AsyncClient
from python_front import client_of
from served import wait_until

LEAVES = """
mkdir -p "$FARM_FOLDER/out/boot"
cd "$FARM_FOLDER/out"
printf 'said\\033[2J' > boot/console.log
ln -s /etc/passwd passwd
cat > junit.xml << XML
<testsuites><testsuite><testcase classname="usb" name="plug"/><testcase classname="usb" name="speed"><failure/></testcase>
<testcase classname="hdmi" name="edid"><skipped/></testcase></testsuite></testsuites>
XML
exit ${STATUS:-0}
"""
TESTS = {"passed": 1, "failed": 1, "errors": 0, "skipped": 1, "names": ["usb.speed"]}
SLOW = "from farm_dispatch import artifacts\nartifacts.Collectors._kept = lambda *words: time.sleep(1000)"


@pytest.fixture(autouse=True)
def no_settings(monkeypatch: pytest.MonkeyPatch) -> None:
    for name in [it for it in os.environ if it.startswith("DESK_")]:
        monkeypatch.delenv(name)


def line_of(lab: Lab, number: int) -> Dict[str, Any]:
    """A job's line of the history, once it is there."""
    lines: List[Dict[str, Any]] = wait_until(
        f"the line of {number}", lambda: [it for it in jobs_of(lab) if it["job"] == number]
    )
    assert len(lines) == 1
    return lines[0]


def kept(lab: Lab) -> List[str]:
    return sorted(os.listdir(os.path.join(lab.place, "artifacts")))


def test_what_a_job_left_is_listed_printed_and_fetched(lab: Lab, tmp_path: pathlib.Path) -> None:
    """By each member of its group; the tests are in its line, and in what `desk jobs` shows."""
    lab.dispatch()
    pair = lab.two(lab.script(f"STATUS=3\n{LEAVES}"))
    row = line_of(lab, pair[0])
    assert (row["outcome"], row["reason"], row["tests"]) == ("Incomplete", "status 3", TESTS)
    size = row["artifacts"]["bytes"] - 8
    assert row["artifacts"] == {"files": 2, "bytes": 8 + size, "left_out": 1}
    assert {it: line_of(lab, pair[1])[it] for it in ("tests", "artifacts")} == {it: row[it] for it in ("tests", "artifacts")}
    past = ("--history", lab.place)
    for number in pair:
        status, said, errors = desk(lab.farm, *past, "artifacts", str(number))
        assert (status, said.split()) == (0, ["SIZE", "NAME", str(size), "junit.xml", "8", "boot/console.log"])
        assert errors == "desk: not kept: passwd (a link)\ndesk: junit.xml: 1 passed, 1 failed, 1 skipped\n"
    assert desk(lab.farm, *past, "artifacts", "1", "boot/console.log") == (0, "said\x1b[2J", "")
    to = str(tmp_path / "to")
    status, said, _ = desk(lab.farm, *past, "artifacts", "1", "--to", to)
    assert (status, sorted(said.split())) == (0, [f"{to}/boot/console.log", f"{to}/junit.xml"])
    assert (tmp_path / "to/boot/console.log").read_text() == "said\x1b[2J"
    assert desk(lab.farm, *past, "artifacts", "1", "junit.xml", "--to", to) == (0, f"{to}/junit.xml\n", "")
    listed = json.loads(desk(lab.farm, *past, "--json", "artifacts", "1")[1])
    assert (listed["group"], listed["tests"]) == (1, TESTS)
    shown = desk(lab.farm, *past, "jobs", "1", "2")[1].splitlines()
    assert shown[1].endswith("1 passed, 1 failed, 1 skipped") and shown[3:] == [
        "job 1 failed: usb.speed", "job 2 failed: usb.speed",
    ]


def test_what_isnt_there_is_told(lab: Lab) -> None:
    lab.dispatch()
    nothing = lab.farm.submit("true")
    left = lab.farm.submit(lab.script(LEAVES))
    assert "artifacts" not in line_of(lab, nothing) and "tests" not in line_of(lab, nothing)
    line_of(lab, left)
    runs = lab.farm.submit(lab.sleeps(1000))
    lab.begun(runs)
    past = ("--history", lab.place, "artifacts")
    for words, told in (
        (["9"], "there is no job 9"),
        ([str(nothing)], f"job {nothing} has no artifacts: it left none, or they are too old to be kept, or aren't kept yet"),
        ([str(runs)], f"job {runs} is Running: what it leaves is kept once it has ended"),
        ([str(left), "../junit.xml"], f"job {left} left no ../junit.xml, or it isn't kept"),
    ):
        assert desk(lab.farm, *past, *words) == (3, "", f"desk: {told}\n")
    os.unlink(os.path.join(lab.place, "artifacts", str(left), "1"))
    assert desk(lab.farm, *past, str(left), "junit.xml")[::2] == (
        3, f"desk: junit.xml of job {left} isn't kept any longer\n"
    )


def test_python_lists_and_fetches_it(lab: Lab) -> None:
    lab.dispatch()
    number = lab.farm.submit(lab.script(LEAVES))
    line_of(lab, number)
    ann = client_of(lab.farm.server, history=lab.place)
    assert [(it.name, it.number) for it in ann.artifacts(number)] == [("junit.xml", 1), ("boot/console.log", 2)]
    assert ann.artifact(number, "boot/console.log") == b"said\x1b[2J"
    last = ann.history()[0]
    assert isinstance(last, fizgruk.PastJob) and last.tests and last.artifacts
    assert (last.tests.passed, last.tests.failed, last.tests.names) == (1, 1, ("usb.speed",))
    assert (last.artifacts.files, last.artifacts.left_out) == (2, 1)
    with pytest.raises(fizgruk.NoArtifact):
        ann.artifact(number, "nothing")

    async def both() -> Any:
        async with AsyncClient(lab.farm.server, "ann", history=lab.place) as client:
            return [it.size for it in await client.artifacts(number)][1], await client.artifact(number, "boot/console.log")

    assert asyncio.run(both()) == (8, b"said\x1b[2J")


def test_the_boards_are_given_back_before_and_a_kill_is_made_up_for(lab: Lab) -> None:
    """The collector lasts, and so the next job runs meanwhile; the dispatcher is killed with it, and the next one keeps
    what was left, and writes the line once."""
    dispatcher = lab.patched(SLOW)
    number = lab.farm.submit(lab.script(LEAVES))
    assert lab.finished(number) == "Complete"
    for _ in range(7):
        assert lab.finished(lab.farm.submit("true")) == "Complete"
    assert (kept(lab), [it["job"] for it in jobs_of(lab) if it["job"] == number]) == ([], [])
    assert lab.record(number)["told"]
    dispatcher.kill()
    dispatcher.wait()
    lab.dispatch()
    assert line_of(lab, number)["tests"] == TESTS
    lab.settled(number)
    assert kept(lab) == ["1"]
