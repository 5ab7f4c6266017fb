"""Demands: each job that began has one line and its outcome, and its command ran once with all its boards; each command
that was answered is answered alike once more."""
from __future__ import annotations

import collections
import re
from typing import Dict, List, NamedTuple, Sequence, Set, Tuple

from lab_week.lab import Command, Lab, Submitted
from lab_week.texts import MEANS, Row
from served import read

NOTE = re.compile(r"(begin|end) (\d+) (\d+\.\d+) (\S.*)")
Notes = Tuple[List[float], List[float], Set[str]]  # when a job's command began and ended, and its boards


def notes_of(file: str) -> Dict[int, Notes]:
    """The begins and ends that commands noted: of each number its begins, ends and boards; none of another."""
    found: Dict[int, Notes] = collections.defaultdict(lambda: ([], [], set()))
    for line in read(file).splitlines():
        it = NOTE.fullmatch(line)
        if it:
            begun, ended, boards = found[int(it[2])]
            (begun if it[1] == "begin" else ended).append(float(it[3]))
            boards.update(it[4].split())
    return found


class Jobs(NamedTuple):
    """What is known of jobs: those of the desk, what was submitted and canceled, what commands noted, and the history."""

    views: Sequence[Row]
    submitted: Dict[int, Submitted]
    canceled: Set[int]
    notes: Dict[int, Notes]
    lines: Sequence[Row]
    kills: Sequence[Tuple[float, float]]  # of the dispatcher, with which what it runs by hand ends

    def lost(self) -> Set[int]:
        """The groups that ended with their dispatcher."""
        return {it["group"] for it in self.lines if it["reason"].startswith("lost: ") and any(
            before <= it["ended"] + 1 and (it["submitted"] or 0) <= after for before, after in self.kills)}

    def faults(self) -> List[str]:
        """Each job's line, outcome, and runs of its command."""
        groups: Dict[int, List[Row]] = collections.defaultdict(list)
        count, found = collections.Counter(it["job"] for it in self.lines), []
        outcomes = {it["job"]: it["outcome"] for it in self.lines}
        for job in self.views:
            groups[job["group"]].append(job)
            found += self.faults_of(job, count[job["number"]], outcomes.get(job["number"], ""))
        if set(count) - {it["number"] for it in self.views}:
            found.append("the history has jobs that the desk hasn't")
        for number in self.submitted:
            found += self.faults_of_group(number, groups.get(number, []))
        return found

    def faults_of(self, job: Row, lines: int, outcome: str) -> List[str]:
        begun, found, number = self.notes[job["group"]][0], [], job["number"]
        least = 1 if job["result"] != "Canceled" or begun else 0
        if job["state"] != "Finished" or not least <= lines <= 1:
            found.append(f"job {number} is {job['state']} and has {lines} lines")
        if lines and outcome != job["result"]:
            found.append(f"job {number} is {job['result']}, in the history {outcome}")
        least = 0 if job["result"] == "Canceled" or job["group"] in self.lost() else 1
        if not least <= len(begun) <= 1:
            found.append(f"group {job['group']}'s command began {len(begun)} times")
        return found

    def faults_of_group(self, number: int, members: Sequence[Row]) -> List[str]:
        """A group is there whole, ended as its command meant, and began with all its boards."""
        job, results, found = self.submitted[number], {it["result"] for it in members}, []
        wanted = {"Canceled"} if number in self.canceled else {"Infra" if number in self.lost() else MEANS[job.ends]}
        if len(members) != job.boards or results != wanted:
            found.append(f"group {number}: {len(members)} of {job.boards} members, {results} for {wanted}")
        if {it["owner"] for it in members} != {job.owner}:
            found.append(f"group {number} isn't {job.owner}'s")
        begun, _, boards = self.notes[number]
        if begun and (boards != {it["board"] for it in members} or len(boards) != job.boards):
            found.append(f"group {number} began with the boards {sorted(boards)}")
        rows = {(it["began"], it["ended"]) for it in self.lines if it["group"] == number}
        if len(rows) > 1:
            found.append(f"the members of group {number} began at different moments")
        return found

    def waits(self) -> List[float]:
        """How long what was submitted waited for its command's begin."""
        begun = ((self.notes[number][0], job.answered) for number, job in self.submitted.items())
        return sorted(moments[0] - answered for moments, answered in begun if moments)


def jobs_of(lab: Lab) -> Jobs:
    found = []
    for number in range(lab.first, lab.look("/status")["next"]):
        status, job = lab.ask("ann", "GET", f"/jobs/{number}")
        if status == 200:
            found.append(job)
    return Jobs(found, lab.submitted, lab.canceled, notes_of(lab.runs), lab.job_lines(), lab.killed["dispatcher"])


# ---- commands, once more


def faults_of_all_keys(lab: Lab) -> List[str]:
    """Sends all again, while no dispatcher runs, to a desk that was killed: each command is
    answered as it was, and none is done again."""
    lab.farm.kill()
    lab.farm.start()
    count = lab.look("/status")["count"]
    found = faults_of_keys(lab, [*lab.commands, *dispatched(lab)])
    return found + ["what was sent again was done again"] * (lab.look("/status")["count"] != count)


def faults_of_keys(lab: Lab, commands: Sequence[Command]) -> List[str]:
    found = []
    for it in commands:
        answer = lab.ask(it.user, "POST", it.path, it.body, it.key)
        if answer != (200, it.said):
            found.append(f"{it.user} {it.path} under {it.key} was answered {it.said}, and is answered {answer}")
    return found


def dispatched(lab: Lab) -> List[Command]:
    """The starts and ends that the dispatcher told, of jobs that weren't canceled."""
    found = []
    for row in lab.job_lines():
        if row["outcome"] != "Canceled":
            group, job, unit = row["group"], row["job"], row["unit"]
            found.append(Command("dispatcher", f"/jobs/{group}/start", None, f"start-{unit}", 0, 0, {"number": group}))
            found.append(Command("dispatcher", f"/jobs/{job}/finish", {"outcome": row["outcome"]}, f"finish-{unit}-{job}",
                                 0, 0, {"number": job}))
    return found
