"""Demands: no board was held twice, and `desk usage` counts what people held, beside jobs.

A hold's line has to be there where farm-watch looked at the boards, in a look that it kept, while its owner had the board by
his own notes; it may be there or not where no such look fell into it, as where it was shorter than two looks. Nothing else
may be there. Begins and ends are late by as long as until such a look, or a begin is when the board was offered (farm-watch(8),
Holds)."""
from __future__ import annotations

import collections
import json
import math
from typing import Any, Dict, List, NamedTuple, Sequence, Tuple

from lab_week.lab import Held, Lab
from lab_week.looks import Look, whole_looks
from lab_week.of_jobs import notes_of
from lab_week.texts import Row
from served import read

SECOND = 1.0  # lines have whole seconds
ROUNDED = 18.0  # seconds by which an hour's hundredth is rounded


class Bounds(NamedTuple):
    """Between which moments a line has to say that a hold began and ended, and whether it has to be there."""

    began: Tuple[float, float]
    ended: Tuple[float, float]
    is_due: bool


def faults_of_holders(held: Sequence[Held], runs: str) -> List[str]:
    """By what commands and people noted, no board was used by two at once."""
    used: Dict[str, List[Tuple[float, float, str]]] = collections.defaultdict(list)
    for it in held:
        used[it.hold.board].append((it.hold.since, it.let, it.whose))
    for number, (begun, ended, boards) in notes_of(runs).items():
        for board in boards:
            used[board] += [(one, other, f"job {number}") for one, other in zip(begun, ended)]
    found = []
    for board, spans in used.items():
        spans.sort()
        found += [f"{board} was held twice: {one}, {other}" for one, other in zip(spans, spans[1:]) if other[0] < one[1]]
    return found


# ---- lines of holds


def lines_in(lab: Lab) -> List[Row]:
    return [json.loads(it) for it in read(f"{lab.watch_folder}/shown/holds.jsonl").splitlines()]


def bounds_of(it: Held, looks: List[Look]) -> Bounds:
    hold = it.hold
    first = next((look.kept for look in looks if look.begin >= hold.since), math.inf)
    last = next((look.kept for look in looks if look.begin >= it.gone), math.inf)
    is_due = any(hold.since <= look.begin and look.end <= it.let for look in looks)
    return Bounds((hold.before - SECOND, first + SECOND), (it.let - SECOND, last + SECOND), is_due)


def is_of(line: Row, it: Held, bounds: Bounds) -> bool:
    same = (line["owner"], line["board"]) == (it.owner, it.hold.board)
    if it.hold.number:
        return bool(same and line["reservation"] == it.hold.number)
    return bool(same and line["began"] <= bounds.ended[1] and line["ended"] >= bounds.began[0])


def faults_of_lines(held: Sequence[Held], looks: List[Look], lines: Sequence[Row]) -> List[str]:
    """Each hold that was noted has a line, if it has to, once and as it was; and each line is one of these."""
    left, found = list(lines), []
    for it in held:
        bounds = bounds_of(it, looks)
        own = [line for line in left if is_of(line, it, bounds)]
        left = [line for line in left if line not in own]
        if len(own) > 1 or bounds.is_due and not own:
            found.append(f"{it.whose} of {it.owner} on {it.hold.board} has {len(own)} lines")
        for line in own:
            if not (within(line["began"], bounds.began) and within(line["ended"], bounds.ended)):
                found.append(f"{line} isn't within {bounds}")
            if line["reason"].startswith("ended by farm-watch") != it.is_forgotten:
                found.append(f"{line} has another reason")
    return found + [f"{line} is nobody's hold" for line in left]


def within(moment: float, bounds: Tuple[float, float]) -> bool:
    return bounds[0] <= moment <= bounds[1]


# ---- what is told of them


def used_by(lab: Lab, by: str) -> List[Row]:
    rows: List[Row] = json.loads(lab.desk("ann", "--json", "usage", "--since", "2d", "--by", by))["usage"]
    return rows


def faults_of_usage(held: Sequence[Held], looks: List[Look], jobs: Sequence[Row], by: str, rows: Sequence[Row]) -> List[str]:
    """What `desk usage` says of owners or boards that people's notes don't, nor the history's lines of jobs."""
    counted = {it["name"]: it for it in rows}
    ended = {name for it in jobs for name in ([it["owner"]] if by == "owner" else it["boards"])}
    noted: Dict[str, List[Held]] = collections.defaultdict(list)
    for it in held:
        noted[it.owner if by == "owner" else it.hold.board].append(it)
    found = []
    for name in {*counted, *ended, *noted}:
        row = counted.get(name, {"jobs": 0, "holds": 0, "held": 0.0})
        found += [f"usage of {name}: {it}" for it in _of_row(row, noted[name], looks)]
        if row["jobs"] != count_of(jobs, by, name):
            found.append(f"usage of {name}: {row['jobs']} jobs, and the history has {count_of(jobs, by, name)}")
    return found


def count_of(jobs: Sequence[Row], by: str, name: str) -> int:
    return sum(it["owner"] == name if by == "owner" else name in it["boards"] for it in jobs)


def _of_row(row: Row, noted: Sequence[Held], looks: List[Look]) -> List[str]:
    """Whether so many holds of so many hours are those that were noted, without some of those that needn't be seen."""
    bounds = [bounds_of(it, looks) for it in noted]
    due = [it for it in bounds if it.is_due]
    least = sum(max(0.0, it.ended[0] - it.began[1]) for it in due) - ROUNDED
    most = sum(it.ended[1] - it.began[0] for it in bounds) + ROUNDED
    seconds, found = 3600 * row["held"], []
    if not len(due) <= row["holds"] <= len(noted):
        found.append(f"{row['holds']} holds, and {len(due)} to {len(noted)} were noted")
    if not least <= seconds <= most:
        found.append(f"{seconds:.0f} s, and {least:.0f} to {most:.0f} were noted")
    return found


def looks_of(lab: Lab) -> List[Look]:
    return whole_looks(lab.door.noted, lab.killed["watcher"])


class Judged(NamedTuple):
    """What is known of holds at some moment."""

    held: Sequence[Held]
    looks: List[Look]
    lines: Sequence[Row]
    jobs: Sequence[Row]
    usage: Dict[str, Sequence[Row]]

    def faults(self) -> List[str]:
        found = faults_of_lines(self.held, self.looks, self.lines)
        for by, rows in self.usage.items():
            found += faults_of_usage(self.held, self.looks, self.jobs, by, rows)
        return found


def judged(lab: Lab) -> Judged:
    usage: Dict[str, Any] = {by: used_by(lab, by) for by in ("owner", "board")}
    return Judged(lab.held, looks_of(lab), lines_in(lab), lab.job_lines(), usage)
