"""Demands: each event is told once by each way.

Events are compared by whom they are told, when they were and their subject. What came again under its message's name is
dropped before."""
from __future__ import annotations

import collections
import email.message
import time
from typing import Any, Counter, Dict, List, NamedTuple, Sequence, Set, Tuple

from lab_week.lab import Lab

ADMINS = "lab@lab.example"
Event = Tuple[str, str, str]  # to whom, when, and its subject
Row = Dict[str, Any]


def moment(at: float) -> str:
    return time.strftime("%Y-%m-%d %H:%M:%S %Z", time.localtime(at)).strip()


def event_of(row: Row) -> Event:
    return f"{row['owner']}@lab.example" if row["owner"] else ADMINS, moment(row["at"]), row["subject"]


def mailed(mail: email.message.EmailMessage) -> Event:
    """The event of a mail."""
    subject = " ".join(mail["subject"].split()).partition("farm: ")[2]
    return mail["to"], moment(mail["date"].datetime.timestamp()), subject


class Told(NamedTuple):
    """What was told by both ways, and what has to be."""

    messages: Sequence[Row]
    mails: Sequence[email.message.EmailMessage]
    jobs: Set[int]  # whose ends are told
    forgotten: Sequence[int]

    def counts(self) -> Tuple[Counter[Event], Counter[Event]]:
        """How often each event was told by the webhook, and by mail."""
        return (collections.Counter(map(event_of, self.messages)),
                collections.Counter(map(mailed, self.mails)))

    def faults(self) -> List[str]:
        hook, mail = self.counts()
        found = [f"{it} was told {count} times by the webhook" for it, count in hook.items() if count > 1]
        found += [f"{it} was told {count} times by mail" for it, count in mail.items() if count > 1]
        found += [f"{it} was told by one way alone" for it in set(hook) ^ set(mail)]
        ended = collections.Counter(it["job"] for it in self.messages if it["event"] == "job-ended")
        if ended != collections.Counter(dict.fromkeys(self.jobs, 1)):
            found.append(f"jobs whose end was told otherwise than once: {set(ended) ^ self.jobs}")
        holds = sorted(it["reservation"] for it in self.messages if it["event"] == "hold-ended")
        if holds != sorted(self.forgotten):
            found.append(f"holds that were ended: {holds}, for {sorted(self.forgotten)}")
        return found


def told(lab: Lab) -> Told:
    return Told(lab.hook.messages(), lab.mailbox.mails(), set(lab.submitted), lab.forgotten)


def are_known(it: Told) -> bool:
    """Whether both ways told the same events, and each job's end."""
    hook, mail = it.counts()
    return set(hook) == set(mail) and it.jobs <= {row["job"] for row in it.messages if row["event"] == "job-ended"}
