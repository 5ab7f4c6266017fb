"""Demands: what each job left is kept and listed as it was, within the bounds, and its tests are in the history. Of a job that
was canceled, or lost, the bounds alone are demanded."""
from __future__ import annotations

import json
import os
from typing import Dict, List, NamedTuple, Sequence, Set

from lab_week.lab import Lab, Submitted
from lab_week.leaving import ALL, COUNT, KINDS, ONE, Left
from lab_week.of_jobs import Jobs
from lab_week.texts import Row
from served import read


class Kept(NamedTuple):
    """What is kept of a group: its list, and the files by the names there; beside these there is nothing."""

    listed: Row
    files: Dict[str, bytes]


class Artifacts(NamedTuple):
    """What is known of what jobs left: who noted that all is left, what is kept, and what the history says."""

    submitted: Dict[int, Submitted]
    began: Set[int]
    noted: Set[int]
    stopped: Set[int]  # which were canceled, or lost
    kept: Dict[int, Kept]
    lines: Sequence[Row]

    def faults(self) -> List[str]:
        found = [f"{it} is kept of no job" for it in self.kept.keys() - self.began]
        for number in self.submitted.keys() & self.began:
            found += [f"of what group {number} left: {it}" for it in self.faults_of(number)]
        return found

    def faults_of(self, number: int) -> List[str]:
        left, kept = KINDS[self.submitted[number].leaves], self.kept.get(number)
        rows = [it for it in self.lines if it["group"] == number]
        if kept is None:
            said = [f"the history has {it}" for it in rows if "artifacts" in it or "tests" in it]
            return ["nothing is kept"] * (bool(left.kept or left.why) and number not in self.stopped) + said
        if number in self.stopped:
            return faults_of_bounds(kept)
        if number not in self.noted:
            return ["it noted nothing"]
        return faults_of_bounds(kept) + faults_of_kept(number, left, kept) + faults_of_counts(left, kept.listed, rows)


def faults_of_bounds(kept: Kept) -> List[str]:
    sizes = [len(it) for it in kept.files.values()]
    return [f"files of {sizes} bytes are kept"] * (len(sizes) > COUNT or sum(sizes) > ALL or max(sizes, default=0) > ONE)


def faults_of_kept(number: int, left: Left, kept: Kept) -> List[str]:
    """Each file is kept as it was, or is named as left out, and why."""
    why = {it["name"]: it["why"] for it in kept.listed["left_out"]}
    found = [f"{name} isn't what was left" for name, said in kept.files.items()
             if name not in left.sizes or said != left.text(number, name)]
    if set(kept.files) | set(why) != set(left.sizes) | set(left.why) or len(kept.files) != left.kept:
        found.append(f"kept are {sorted(kept.files)}, and not {sorted(why)}, of {left}")
    return found + [f"{it} isn't kept since {text}" for it, text in why.items() if left.why.get(it, "beyond") not in text]


def faults_of_counts(left: Left, index: Row, rows: Sequence[Row]) -> List[str]:
    """The list and the history say how much is kept, and which tests a junit.xml had."""
    wanted = {"files": left.kept, "bytes": sum(it["size"] for it in index["files"]), "left_out": len(index["left_out"])}
    found = [f"the history has {it.get('artifacts')} for {wanted}" for it in rows if it.get("artifacts") != wanted]
    return found + [f"the tests are {it.get('tests')}" for it in (index, *rows) if it.get("tests") != left.tests]


def kept_in(place: str) -> Kept:
    index, found = json.loads(read(f"{place}/index.json")), {}
    for it in index["files"]:
        with open(f"{place}/{it['number']}", "rb") as file:
            found[it["name"]] = file.read()
    if len(os.listdir(place)) != len(found) + 1 or any(len(found[it["name"]]) != it["size"] for it in index["files"]):
        found["(what is in no list)"] = b"x"
    return Kept(index, found)


def seen(lab: Lab, jobs: Jobs) -> Artifacts:
    began = {number for number, (begun, _, _) in jobs.notes.items() if begun}
    folder = f"{lab.dispatch_folder}/artifacts"
    kept = {int(it): kept_in(f"{folder}/{it}") for it in os.listdir(folder)}
    noted, stopped = set(map(int, read(lab.left_notes).split())), lab.canceled | jobs.lost()
    return Artifacts(dict(lab.submitted), began, noted, stopped, kept, jobs.lines)
