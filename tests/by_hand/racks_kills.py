#!/usr/bin/env python3
"""Jobs on three machines over kills of everything, by hand: /usr/bin/python3 tests/by_hand/racks_kills.py bin/farm [JOBS]

Kills (-9) the dispatcher, its calls to machines (ssh, farm-worker, systemd-run) and the desk, and cuts networks, over jobs of
which some leave children, go on after SIGTERM, or fail. Then it demands: each command was begun once at most, each job has
ended as it had to, and has one line in the history and its log; nothing of a job lived when the next one began on its board;
nothing is left on any machine. test_racks.py does the same with fewer jobs."""
from __future__ import annotations

import collections
import os
import random
import re
import sys
import tempfile
import time
from typing import Dict, Set, Tuple

HERE = os.path.dirname(os.path.abspath(__file__))
sys.path[:0] = [os.path.join(HERE, it) for it in (".", "../shared", "../../tools", "../../python/src")]
from racks import PLACE, Racks  # noqa: E402

# What jobs do, how they end, and what their logs have.
KINDS: Tuple[Tuple[str, str, str], ...] = (
    ("echo hi $FARM_JOB; sleep 0.2", "Complete", "hi {}\n"),
    ("echo out; exit 3", "Incomplete", "out\n"),
    ("setsid sleep 777 & echo forked", "Complete", "forked\n"),
    ("sleep 0.5; exit 75", "Infra", ""),
    ("for i in 1 2 3 4 5; do echo line $i; sleep 0.1; done", "Complete", "line 1\nline 2\nline 3\nline 4\nline 5\n"),
    ("mkdir out; echo kept > out/a; echo kept", "Complete", "kept\n"),
)
CALLS = ("ssh -T", "farm-worker", "systemd-run --quiet")
# Kills what has a text among its words, and tells the words.
KILLS = 'for it in $(pgrep -f "$0"); do [ $it = $$ ] || { tr "\\0" " " < /proc/$it/cmdline; echo; kill -KILL $it; }; done 2>&1'
# A unit's own script, which notes that its command begins, or how it ended: of a job that loses this nobody knows its end.
NOTES = re.compile("farm-worker (?:pre|post) farm-job-[0-9a-f]+-([0-9]+)-")


def over_kills(lab: Racks, count: int, seed: int, limit: float) -> Dict[str, int]:
    """Runs so many jobs over kills. Returns how many there were of each kind."""
    dice, kinds = random.Random(seed), {}
    for place in range(count):
        run, result, said = KINDS[place % len(KINDS)]
        kinds[lab.submit(run)] = (result, said)
    kills: Dict[str, int] = collections.Counter()
    lost: Set[int] = set()
    until = time.monotonic() + limit
    while time.monotonic() < until and lab.look("/queue")["queue"]:
        time.sleep(dice.uniform(0.3, 6))
        way, kind = dice.random(), "the desk"
        if way < 0.5:
            kind = "the dispatcher"
            lab.kill()
        elif way < 0.85:
            kind = dice.choice(CALLS)
            machine = dice.choice(list(lab.machines().values()))
            lost |= {int(it) for it in NOTES.findall(machine.run("sh", "-c", KILLS, kind, check=False).stdout)}
        elif way < 0.95:
            name, kind = dice.choice(list(lab.racks)), "a network"
            lab.cut(name)
            time.sleep(dice.uniform(0.5, 8))
            lab.cut(name, True)
        else:
            lab.desk.run("systemctl", "kill", "-s", "KILL", "farm", check=False)
            lab.desk.serve()
        kills[kind] += 1
    check(lab, kinds, lost, seed)
    return kills


def check(lab: Racks, kinds: Dict[int, Tuple[str, str]], lost: Set[int], seed: int) -> None:
    for number in kinds:
        lab.finished(number, 300)
    lab.settled()
    rows, begun = {it["job"]: it for it in lab.history()}, lab.begun()
    for number, (result, said) in kinds.items():
        found = lab.state(number), lab.log(number), len(begun.get(number, []))
        if number in lost and found[0] == "Infra":
            assert found[2] <= 1, (rows[number], found, seed)
            print(f"job {number}, whose own script was killed: {rows[number]['reason']}")
        else:
            assert (found[0], found[2]) == (result, 1), (rows[number], found, lost, seed, lab.journal()[-3000:])
            assert found[1].startswith(said.format(number)), (rows[number], found, seed)
    faults = {name: it.run("cat", "/var/begun/faults").stdout for name, it in lab.machines().items()}
    assert set(faults.values()) == {""}, (faults, seed)
    assert sorted(it["job"] for it in lab.history() if it["job"] in kinds) == sorted(kinds), seed
    assert {it["holder"] for it in lab.look("/boards")["boards"]} == {"none"}
    kept = [it for it, (_, said) in kinds.items() if said == "kept\n"]
    names = lab.desk.run("ls", f"{PLACE}/artifacts").stdout.split()
    assert [it for it in kinds if str(it) in names] == kept, seed


def main() -> None:
    count = int(sys.argv[2]) if len(sys.argv) > 2 else 300
    with tempfile.TemporaryDirectory() as folder:
        lab = Racks(folder, os.path.abspath(sys.argv[1]))
        try:
            lab.dispatch()
            seed, since = random.randrange(10**6), time.monotonic()
            kills = over_kills(lab, count, seed, 3600)
            told = ", ".join(f"{it} {times} times" for it, times in sorted(kills.items()))
            print(f"{count} jobs over {sum(kills.values())} kills in {time.monotonic() - since:.0f} s (seed {seed}): nothing is wrong")
            print(f"killed: {told}")
        finally:
            lab.end()


if __name__ == "__main__":
    main()
