"""Demands: what the site let through is in its audit once, under the login that asked."""
from __future__ import annotations

import collections
import json
import re
from typing import Counter, Dict, List, NamedTuple, Optional, Sequence, Set

from lab_week.lab import Command, Lab
from lab_week.pipelines import BY_TOKEN
from lab_week.texts import ADMINS, PIPELINE, Row
from served import read

OWN = re.compile(r"days-[0-9]+")  # the keys of the people of the week
FRESH = re.compile(r"[0-9a-f]{32}|nightly-2026-12-[0-9]{2}|token-[0-9]+-job|(type|board)[.][a-z0-9-]+")  # of `desk`
UNKNOWN = (502, 503, 504)  # of these nobody knows whether it was done


class Audit(NamedTuple):
    """The audit's lines, and what is known of what was let through."""

    lines: Sequence[Row]
    commands: Dict[str, Command]  # by their keys
    logins: Dict[str, str]
    tokens: Counter[str]
    by_token: Sequence[int]

    def faults(self) -> List[str]:
        done = [it for it in self.lines if it["status"] == 200]
        found = [f"the audit has {it}" for it in self.lines if it["status"] not in (200, *UNKNOWN)]
        count = collections.Counter((it["login"], it["key"]) for it in done if it["key"])
        found += [f"the audit has {it} {times} times" for it, times in count.items() if times > 1 and OWN.fullmatch(it[1])]
        keys = {it["key"]: it for it in done}
        for key, login in self.logins.items():
            found += self._faults_of(key, login, keys.get(key))
        found += [f"the audit has the key {it}, which nobody sent" for it in keys
                  if it and it not in self.logins and not FRESH.fullmatch(it)]
        return found + self._faults_of_tokens(done)

    def _faults_of(self, key: str, login: str, line: Optional[Row]) -> List[str]:
        it = self.commands[key]
        wanted = (login, f"POST {it.path}", f"{it.said['number']}" if it.said.get("number") is not None else "")
        if line is None or (line["login"], line["command"], line["number"]) != wanted:
            return [f"the audit has {line} for {wanted} under {key}"]
        body = "" if it.path == "/jobs" or it.body is None else json.dumps(it.body)
        return [f"the audit has {line} with another body than {body}"] if line["body"] != body else []

    def _faults_of_tokens(self, done: Sequence[Row]) -> List[str]:
        """Tokens were made and ended as often as that is there, and each job by one has its name; admins are named."""
        own = [it for it in done if it["login"] == PIPELINE]
        made = sum(it["command"] == "POST /tokens" for it in own)
        ended = sum(re.fullmatch(r"POST /tokens/[0-9]+/end", it["command"]) is not None for it in own)
        found = []
        if (made, ended) != (self.tokens["made"], self.tokens["ended"]) or not made:
            found.append(f"the audit has {made} tokens made and {ended} ended of {dict(self.tokens)}")
        numbers = {int(it["number"]) for it in done if it["command"] == "POST /jobs" and BY_TOKEN.fullmatch(it["login"])}
        if numbers != set(self.by_token):
            found.append(f"the audit has the jobs {sorted(numbers)} by tokens, which were {sorted(self.by_token)}")
        named: Set[str] = {it["login"] for it in done}
        return found + [f"the audit never names {it}" for it in ADMINS if it not in named]


def audit_of(lab: Lab) -> Audit:
    assert lab.site
    lab.site.door.site.settle()
    lines = [json.loads(it) for it in read(f"{lab.room}/site/audit.log").splitlines()]
    return Audit(lines, {it.key: it for it in lab.commands}, dict(lab.logins), lab.tokens, lab.by_token)
