"""What must never happen twice, in tries by hand: several dispatchers of one farm, folders that are copied, lost or damaged,
answers that come late or never, and farms that give a number again. test_racks.py has the same over machines and kills."""
from __future__ import annotations

import os
import shutil
from typing import Optional

import pytest
from answering import Proxy
from dispatch_lab import BOARDS, Lab, MakeLab, one_line_each
from dispatch_lab import lab_fixture, make_lab_fixture  # noqa: F401
from served import read


def test_two_dispatchers(lab: Lab) -> None:
    """Of several on one farm, each with a folder of its own, one begins a job."""
    numbers = [lab.farm.submit("sleep 0.2") for _ in range(12)]
    tools = [lab.dispatch(place=f"{lab.place}-{it}", every="0.1") for it in range(3)]
    for number in numbers:
        assert lab.finished(number) == "Complete"
        assert lab.begins(number) == 1
    for tool in tools:
        tool.kill()


def test_a_copied_folder_begins_nothing_again(lab: Lab) -> None:
    """It has the same name and the same records, as where a machine's image is started twice."""
    number = lab.farm.submit(lab.until("open"))
    dispatcher = lab.dispatch()
    lab.begun(number)
    shutil.copytree(lab.place, f"{lab.place}-copy", ignore=shutil.ignore_patterns("jobs", "lock"))
    other = lab.dispatch(place=f"{lab.place}-copy")
    more = [lab.farm.submit("true") for _ in range(4)]
    for it in more:
        lab.finished(it)
        assert lab.begins(it) <= 1
    assert lab.begins(number) == 1
    other.kill()
    lab.let("open")
    lab.finished(number)
    assert lab.begins(number) == 1
    dispatcher.kill()


def test_a_record_that_goes_while_others_read_it(lab: Lab) -> None:
    """On a slow disk a group's record goes while the next groups are given to their machines: it names its jobs to its end."""
    dispatcher = lab.patched(
        """
from fizgruk._tools import disk
sync, give = disk.sync_folder, dispatcher.Dispatcher._give
def slowly(folder):
    if folder.endswith("/open") and sys._getframe(1).f_code.co_name == "drop":
        time.sleep(2)
    sync(folder)
def later(self, lab):
    time.sleep(0.5)
    give(self, lab)
disk.sync_folder, dispatcher.Dispatcher._give = slowly, later
""",
        every="0.1",
    )
    number, beside = lab.farm.submit("true"), lab.farm.submit(lab.until("open"))
    assert lab.finished(number) == "Complete"
    lab.settled(number)
    lab.let("open")
    assert lab.finished(beside, 20) == "Complete"
    assert dispatcher.poll() is None, read(os.path.join(lab.folder, "patched"))
    dispatcher.kill()


@pytest.mark.parametrize("tag", ["", "serial"])
def test_pass_between_two_looks(make_lab: MakeLab, tag: str) -> None:
    """A group whose second member gets its board between two looks gets its command with both."""
    lab = make_lab(BOARDS[:2])
    if tag:
        lab.farm.tell("admin", "/boards/b2/tags", {"tags": [tag]})
    held = lab.farm.tell("ann", "/reservations", {"tags": ["name=b2"]})["number"]
    lab.farm.tell("admin", "/pass")
    lab.farm.tell("ann", f"/reservations/{held}/acquire")
    group = lab.two("echo $FARM_BOARDS")
    lab.farm.tell("admin", "/pass")

    def hook(method: str, path: str, key: Optional[str]) -> None:
        if path == f"/jobs/{group[0]}" and lab.farm.board("b2")["holder"] == f"reservation {held}":
            lab.farm.tell("ann", f"/reservations/{held}/cancel")
            lab.farm.tell("admin", "/pass")

    dispatcher = lab.dispatch(server=Proxy(lab.farm, hook).server)
    assert [lab.finished(it) for it in group] == ["Complete", "Complete"]
    assert (lab.log(group[0]), lab.begins(group[0])) == ("b1 b2\n", 1)
    lab.closes(dispatcher)


def test_a_kill_between_the_ends_of_a_group(lab: Lab) -> None:
    """Of a group of two the desk was told one job's end when the dispatcher was killed: the next tells the other's."""
    first, second = lab.two()
    dispatcher = lab.patched(
        f"""
from fizgruk import calls
tell = calls.Desk.tell
def told(self, path, *words, **more):
    if path == "/jobs/{second}/finish":
        os.kill(os.getpid(), signal.SIGKILL)
    return tell(self, path, *words, **more)
calls.Desk.tell = told
"""
    )
    assert lab.finished(first) == "Complete"
    dispatcher.wait(timeout=20)
    assert lab.farm.job(second)["state"] == "Running"
    tool = lab.dispatch()
    assert lab.finished(second) == "Complete"
    assert lab.begins(first) == 1
    one_line_each(lab, [first, second])
    lab.closes(tool)


def test_one_job_of_a_group_is_finished_by_hand(lab: Lab) -> None:
    """What runs is ended before that job's board is given on, and so is the other job, which nobody forgets."""
    first, second = lab.two(lab.sleeps(302))
    tool = lab.dispatch()
    lab.running(302)
    lab.farm.tell("admin", f"/jobs/{first}/finish", {"outcome": "Complete"})
    assert lab.finished(second) == "Incomplete"
    assert lab.sleepers(302) == []
    assert lab.settled(first)["outcome"] == "Complete"
    lab.closes(tool)
