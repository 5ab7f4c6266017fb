"""The week in figures."""
from __future__ import annotations

import collections
from typing import Counter, List, Tuple

from lab_week import of_holds, of_messages
from lab_week.lab import Lab
from lab_week.of_jobs import Jobs

Rows = List[Tuple[str, str]]


def counted(counter: Counter[str]) -> str:
    return ", ".join(f"{count} {name}" for name, count in sorted(counter.items()))


def of_work(lab: Lab, jobs: Jobs, holds: of_holds.Judged) -> Rows:
    """What people and their jobs did."""
    groups = sum(it.boards > 1 for it in lab.submitted.values())
    outcomes = collections.Counter(it["outcome"] for it in jobs.lines)
    left = [it["artifacts"] for it in jobs.lines if "artifacts" in it and it["job"] == it["group"]]
    waits = jobs.waits()
    return [
        ("submissions", f"{len(lab.submitted)}, of which {groups} are groups; {len(lab.canceled)} canceled"),
        ("jobs that began", f"{len(jobs.lines)}: {counted(outcomes)}"),
        ("artifacts", f"{sum(it['files'] for it in left)} files of {len(left)} groups, {sum(it['left_out'] for it in left)} left out"),
        ("reservations", f"{len(lab.reservations)}, {len(lab.forgotten)} ended by farm-watch"),
        ("holds", f"{len(lab.held)} noted, {len(holds.lines)} counted"),
        ("nightly jobs", f"{len(lab.nights)} nights, {sum(map(len, lab.nights))} calls"),
        ("waits", f"{waits[len(waits) // 2]:.1f} s at the median, {waits[len(waits) * 9 // 10]:.1f} s at the ninth of ten"),
    ]


def of_tools(lab: Lab, commands: int, told: of_messages.Told) -> Rows:
    """What the tools did."""
    events = collections.Counter(it["event"] for it in told.messages)
    again = len(lab.hook.posted) + len(lab.mailbox.texts()) - len(told.messages) - len(told.mails)
    return [
        ("kills", f"{sum(lab.kills.values())}: {counted(lab.kills)}"),
        ("commands", f"{commands}, {len(lab.commands)} of people by keys"),
        ("events told", f"{sum(events.values())} by each way: {counted(events)}; {again} came again"),
        ("copies", f"{len(lab.copies)}, and {len(lab.nightly)} nightly, each the farm after a prefix"),
        *([("the site", lab.site.told()), ("tokens", f"{counted(lab.tokens)}; {len(lab.by_token)} jobs by them")] if lab.site else []),
    ]
