"""Jobs that leave behind whatever they can: what stands in their folders, and logs without end."""
from __future__ import annotations

from dispatch_lab import Lab, jobs_of
from dispatch_lab import lab_fixture, make_lab_fixture  # noqa: F401
from served import wait_until

NAMES = ("boards.json", "boards", "job.toml", "log", "../log", "../process", "out")
# What a job makes of each of these names in its own folder.
WAYS = {
    "an empty array": "rm -rf {0}; echo '[]' > {0}",
    "no UTF-8": "rm -rf {0}; printf '\\377\\376' > {0}",
    "a folder": "rm -rf {0}; mkdir {0}; touch {0}/file",
    "a pipe": "rm -rf {0}; mkfifo {0}",
    "a link to a device": "rm -rf {0}; ln -s /dev/zero {0}",
    "a link to itself": "rm -rf {0}; ln -s {0} {0}",
    "nothing": "rm -rf {0}",
    "lies": "rm -rf {0}; echo 'status 0' > {0}",
    "a large file": "rm -rf {0}; truncate -s 3G {0}",
    "a folder that is gone": 'cd /; rm -rf "$FARM_FOLDER"',
}


def test_hostile_folders(lab: Lab) -> None:
    """Whatever a job makes of the files in its folder, it is what its status says, and nothing else waits."""
    scripts = ["\n".join([*(way.format(f'"$FARM_FOLDER/{it}"') for it in NAMES), "exit 3"]) for way in WAYS.values()]
    numbers = [lab.farm.submit(lab.script(text, f"script{at}")) for at, text in enumerate(scripts)]
    dispatcher = lab.dispatch()
    assert dict(zip(WAYS, map(lab.finished, numbers))) == dict.fromkeys(WAYS, "Incomplete")
    dispatcher.kill()
    dispatcher = lab.dispatch()
    assert lab.finished(lab.farm.submit("true")) == "Complete", "one of the next dispatcher"
    wait_until("their lines", lambda: len(jobs_of(lab)) == len(WAYS) + 1)
    rows = {it["job"]: (it["outcome"], it["reason"]) for it in jobs_of(lab)}
    assert {rows[it] for it in numbers} == {("Incomplete", "status 3")}
    lab.closes(dispatcher)


def test_endless_log(lab: Lab) -> None:
    """A job that says something without end is ended by its time limit. Of its log the head and the tail are kept, and what was
    cut is told between them."""
    number = lab.farm.submit(lab.script("echo head; exec yes x"), more="[timeouts]\njob = '2 seconds'\n")
    dispatcher = lab.dispatch("--log-limit", "1 MB")
    assert lab.finished(number) == "Incomplete"
    log = lab.log(number)
    cut, end = [it for it in log.split("\n") if it.startswith("farm-dispatch: ")]
    assert cut.endswith(" bytes of the log aren't kept: a log's limit is 1,000,000 bytes")
    assert end == "farm-dispatch: time limit of 2 seconds, status 143"
    assert log.startswith("head\nx\n") and 1_000_000 <= len(log) <= 1_000_400
    lab.closes(dispatcher)
