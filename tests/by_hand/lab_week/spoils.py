"""Whether each demand of the week can fail: each is made once more of what was found, with one fault in it, that it has to
find."""
from __future__ import annotations

import collections
from typing import Any, Callable, Dict, Iterator, List, Sequence, Tuple

from desks import write
from lab_week import of_artifacts, of_copies, of_holds, of_jobs, of_messages, of_metrics, of_site
from lab_week.lab import Lab
from lab_week.nights import faults_of_nights
from served import read

Spoiled = Tuple[str, Callable[[], List[str]]]  # which fault, and what a demand says of it


def each(it: Any, changes: Dict[str, Dict[str, Any]]) -> Iterator[Spoiled]:
    """What is known, with these changes one after another."""
    for name, change in changes.items():
        yield name, it._replace(**change).faults


def of_artifacts_kept(it: of_artifacts.Artifacts) -> Iterator[Spoiled]:
    """Of a group that left files, some of which aren't kept, and tests."""
    number = next(job for job in it.noted if it.submitted[job].leaves == "room")
    listed, files = it.kept[number]

    def lines(**change: Any) -> Dict[str, Any]:
        return {"lines": [{**row, **change} if row["group"] == number else row for row in it.lines]}

    def kept(**change: Any) -> Dict[str, Any]:
        return {"kept": {**it.kept, number: it.kept[number]._replace(**change)}}

    rest = {job: one for job, one in it.kept.items() if job != number}
    yield from each(it, {
        "a history without a job's tests": lines(tests=None),
        "a history with a test more": lines(tests={**listed["tests"], "passed": 99}),
        "a history with a file less": lines(artifacts={"files": 0, "bytes": 0, "left_out": 0}),
        "a byte of an artifact is another": kept(files={**files, "part0": b"?" + files["part0"][1:]}),
        "an artifact is dropped": kept(files={"part0": files["part0"]}),
        "a left-out one isn't named": kept(listed={**listed, "left_out": []}),
        "a job's artifacts are another's": {"kept": {**rest, 99999: it.kept[number]}},
    })


def of_holds_counted(it: of_holds.Judged) -> Iterator[Spoiled]:
    """Of a hold that has to be counted."""
    due = next(one for one in it.held if one.hold.number and of_holds.bounds_of(one, it.looks).is_due)
    own = next(one for one in it.lines if one["reservation"] == due.hold.number)
    rest = [one for one in it.lines if one is not own]
    changes: Dict[str, Dict[str, Any]] = {
        "a hold isn't counted": {"lines": rest},
        "a hold is counted twice": {"lines": [*it.lines, own]},
        "a hold is counted with a minute more": {"lines": [*rest, {**own, "ended": own["ended"] + 60}]},
        "a hold is another's": {"lines": [*rest, {**own, "owner": "zoe"}]},
        "a hold that nobody had": {"lines": [*it.lines, {**own, "reservation": 99999, "owner": "zoe"}]},
    }
    for by, rows in it.usage.items():
        for column, more in (("holds", len(it.held)), ("held", 1), ("jobs", 1)):
            first = {**rows[0], column: rows[0][column] + more}
            changes[f"usage by {by} has other {column}"] = {"usage": {**it.usage, by: [first, *rows[1:]]}}
    yield from each(it, changes)


def of_messages_told(it: of_messages.Told) -> Iterator[Spoiled]:
    post = next(one for one in it.messages if one["event"] == "job-ended")
    yield from each(it, {
        "a post is lost": {"messages": [one for one in it.messages if one is not post]},
        "a mail is lost": {"mails": it.mails[1:]},
        "a post comes twice": {"messages": [*it.messages, post]},
        "a mail comes twice": {"mails": [*it.mails, it.mails[0]]},
        "a hold that was ended isn't told": {"forgotten": [*it.forgotten, 99999]},
    })


def of_jobs_run(it: of_jobs.Jobs) -> Iterator[Spoiled]:
    job = next(one for one in it.lines if one["outcome"] == "Complete" and one["job"] in it.submitted)
    number, begun = job["job"], it.notes[job["job"]]
    rest = [one for one in it.lines if one is not job]
    again = {**it.notes, number: ([*begun[0], begun[0][0]], begun[1], begun[2])}
    yield from each(it, {
        "a job has no line": {"lines": rest},
        "a job has two lines": {"lines": [*it.lines, job]},
        "a job has another outcome": {"lines": [*rest, {**job, "outcome": "Infra"}]},
        "a command runs twice": {"notes": collections.defaultdict(lambda: ([], [], set()), again)},
        "a job is another's": {"submitted": {**it.submitted, number: it.submitted[number]._replace(owner="zoe")}},
    })


def of_the_nights(lab: Lab, jobs: Sequence[Dict[str, Any]], there: Sequence[str]) -> Iterator[Spoiled]:
    two, more = [[lab.nights[0][0], (0, "99999\n")], *lab.nights[1:]], [*jobs, {"owner": "nightly", "number": 99999}]
    yield "a night made two jobs", lambda: faults_of_nights(two, jobs)
    yield "the desk has a nightly job more", lambda: faults_of_nights(lab.nights, more)
    yield "a night is left out", lambda: faults_of_nights(lab.nights[1:], jobs)
    yield "a copy that is kept is gone", lambda: of_copies.faults_of_keeping(there[:-1], lab.nightly[:-1])
    yield "an old copy is kept", lambda: of_copies.faults_of_keeping([*there, "farm-1"], lab.nightly)


def of_figures(lab: Lab) -> Iterator[Spoiled]:
    """farm-metrics over a history that lacks a job, and over one that has a job twice."""
    lines = read(f"{lab.dispatch_folder}/history.jsonl").splitlines(keepends=True)
    place = next(at for at, it in enumerate(lines) if '"outcome"' in it)
    # (each in a file of its own, as farm-metrics goes on where it was in one that it knows)
    less = write(lab.room, "less.jsonl", "".join(lines[:place] + lines[place + 1:]))
    more = write(lab.room, "more.jsonl", "".join([*lines, lines[place]]))
    yield "farm-metrics misses a job", lambda: of_metrics.faults(lab, quiet=True, history=less)
    yield "farm-metrics counts a job twice", lambda: of_metrics.faults(lab, quiet=True, history=more)


def of_what_goes_by_site(audit: of_site.Audit) -> Iterator[Spoiled]:
    line = next(it for it in audit.lines if it["status"] == 200 and it["key"].startswith("days-"))
    rest = [it for it in audit.lines if it is not line]
    yield from each(audit, {
        "the audit lacks a command": {"lines": rest},
        "the audit has a command twice": {"lines": [*audit.lines, line]},
        **{f"the audit has another {key}": {"lines": [*rest, {**line, key: text}]}
           for key, text in (("login", "zoe"), ("number", "99999"), ("body", "?"), ("command", "POST /pass"))},
        "the audit lacks a token": {"tokens": audit.tokens + collections.Counter(made=1)},
        "a job by a token isn't in the audit": {"by_token": [*audit.by_token, 99999]},
    })


def of_prefixes(found: Sequence[of_copies.Prefix], commands: Sequence[Any]) -> Iterator[Spoiled]:
    """Of the last copies: it lost a command, or a job."""
    for it in found[-4:]:
        one = next(one for one in commands if one.answered < it.due)
        lost = {"kept": it.rows["kept"] - {(one.user, one.key)}, "jobs": set(sorted(it.rows["jobs"])[1:])}
        for table, rows in lost.items():
            bad = it._replace(rows={**it.rows, table: rows})
            yield f"{it.name} lost one of {table}", lambda bad=bad: bad.faults(commands, found[0].rows)  # type: ignore[misc]


def of_commands(lab: Lab) -> Iterator[Spoiled]:
    """A command that was answered otherwise, and one that the farm never had."""
    job = next(one for one in lab.commands if one.path == "/jobs")
    cancel = next(one for one in lab.commands if one.path.startswith("/reservations/") and one.path.endswith("/cancel"))
    yield "a command was answered otherwise", lambda: of_jobs.faults_of_keys(lab, [job._replace(said={"number": 99999})])
    # (which is refused, since nobody has that reservation any more)
    yield "a command is lost", lambda: of_jobs.faults_of_keys(lab, [cancel._replace(key="days-lost")])


def of_holders(lab: Lab) -> Iterator[Spoiled]:
    one = max(lab.held, key=lambda it: it.let - it.hold.since)
    yield "a board was held twice", lambda: of_holds.faults_of_holders([*lab.held, one], lab.runs)
