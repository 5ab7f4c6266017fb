#!/usr/bin/env python3
"""generated.py PLAYER [SEED]: lists of commands by chance, played beside a machine written out plainly.

200 lists of 60 commands each are made over labs of two to four types and up to six boards, with
groups, reservations with tags, checks, cancels, leases that end, and a pass now and then. What is
to be answered, and which boards, jobs, reservations, queue and status then stand, is computed here,
from the text of docs/MACHINE.md alone: at each pass all claims are sorted anew, the group that
collected is taken first, and for each every list of free boards is tried in order of names. The
transcripts are played by the player that `crates/farm_play` built; each list has to be as computed,
byte by byte. Rows are spelled in short, with all that is computed here; what else a row has is in the file
of the kinds of rows (crates/farm_play/data/rows).
"""
from __future__ import annotations

import itertools
import json
import os
import random
import shutil
import subprocess
import sys
import tempfile
from typing import Any, Callable, Dict, List, Optional, Sequence, Tuple

LISTS, COMMANDS = 200, 60
ROWS = os.path.join(os.path.dirname(os.path.realpath(__file__)), "../../crates/farm_play/data/rows")
GOOD, UNKNOWN, BAD, MAINTENANCE = "Good", "Unknown", "Bad", "Maintenance"
WAITS = ("Submitted", "Scheduling")


Want = Tuple[Any, List[str]]  # a type, or None, and tags
Row = Dict[str, Any]
Claim = Tuple[int, int, str, str, List[Want]]


class Lab:
    """The machine, as plain tables and plain loops."""

    def __init__(self) -> None:
        self.types: Dict[str, Tuple[str, int]] = {}
        self.boards: Dict[str, Row] = {}
        self.jobs: Dict[int, Row] = {}
        self.leases: Dict[int, Row] = {}
        self.clock, self.collector, self.count, self.next = 0, 0, 0, 1

    # ---- what a claim may be given

    def serves(self, board: Row) -> bool:
        check = self.types[board["type"]]
        return bool(board["health"] == GOOD) or (board["health"] == UNKNOWN and check[0] == "none")

    def is_free(self, board: Row) -> bool:
        return board["holder"] == "none" and self.serves(board)

    @staticmethod
    def fits(board: Row, want: Want) -> bool:
        kind, tags = want
        own = board["tags"] + ["name=" + board["name"]]
        return (kind is None or board["type"] == kind) and all(tag in own for tag in tags)

    def least(self, wants: List[Want], test: Callable[[Row], bool]) -> Optional[Tuple[str, ...]]:
        names = sorted(name for name, board in self.boards.items() if test(board))
        for some in itertools.permutations(names, len(wants)):
            if all(self.fits(self.boards[name], want) for name, want in zip(some, wants)):
                return some
        return None

    # ---- who waits

    def members(self, group: int) -> List[Row]:
        return [self.jobs[n] for n in sorted(self.jobs) if self.jobs[n]["group"] == group]

    def claims(self) -> List[Claim]:
        found: List[Claim] = []
        for number, lease in self.leases.items():
            if lease["state"] == "waiting":
                found.append((-lease["priority"], number, "reservation", lease["owner"], [(None, lease["tags"])]))
        for number, job in self.jobs.items():
            group = self.members(number)
            if job["group"] == number and all(one["state"] in WAITS for one in group):
                found.append((-job["priority"], number, "group", job["owner"], [one["want"] for one in group]))
        return sorted(found, key=lambda claim: claim[:2])

    # ---- boards in hands

    def hold(self, name: str, holder: str, state: str) -> None:
        self.boards[name]["holder"], self.boards[name]["state"] = holder, state

    def free(self, holder: str) -> None:
        for board in self.boards.values():
            if board["holder"] == holder:
                board["holder"], board["state"] = "none", "Idle"

    def turn(self, holder: str, state: str) -> None:
        for board in self.boards.values():
            if board["holder"] == holder:
                board["state"] = state

    # ---- the pass

    def is_due(self, board: Row) -> bool:
        kind, every = self.types[board["type"]]
        if board["holder"] != "none" or kind == "none":
            return False
        if board["health"] == UNKNOWN:
            return True
        if board["health"] != GOOD:
            return False
        if kind == "hours":
            return bool(3600 * every <= self.clock - board["last_check"])
        return bool(every <= board["jobs_since"])

    def give_back(self) -> None:
        for job in self.members(self.collector):
            if job["state"] == "Scheduling":
                job["state"], job["board"] = "Submitted", ""
                self.free("job %d" % job["number"])
        self.collector = 0

    def collect(self, group: int) -> None:
        for job in self.members(group):
            for name in sorted(self.boards):
                if self.is_free(self.boards[name]) and self.fits(self.boards[name], job["want"]):
                    job["state"], job["board"] = "Scheduling", name
                    self.hold(name, "job %d" % job["number"], "Reserved")
                    break
        self.collector = group

    def taken(self, first: int) -> List[Claim]:
        """The claims: that of a group first, if it is one, and then the others in their order."""
        return sorted(self.claims(), key=lambda claim: claim[1] != first or claim[2] != "group")

    def run_pass(self) -> Dict[str, int]:
        first, ended = self.collector, 0
        self.give_back()
        for number, lease in self.leases.items():
            if lease["state"] in ("waiting", "allocated") and lease["deadline"] <= self.clock:
                lease["state"] = "expired"
                self.free("reservation %d" % number)
                ended += 1
        checks = 0
        for name in sorted(self.boards):
            if self.is_due(self.boards[name]):
                number = self.next
                self.jobs[number] = {
                    "number": number, "group": number, "checking": True, "owner": "admin", "priority": 100,
                    "want": (self.boards[name]["type"], []), "state": "Scheduled", "board": name,
                    "role": "", "text": "",
                }
                self.hold(name, "job %d" % number, "Reserved")
                self.next += 1
                checks += 1
        served = 0
        for _, number, kind, _, wants in self.taken(first):
            some = self.least(wants, self.is_free)
            if some is None:
                if self.collector == 0 and len(wants) > 1:
                    self.collect(number)
                continue
            served += 1
            if kind == "group":
                for job, name in zip(self.members(number), some):
                    job["state"], job["board"] = "Scheduled", name
                    self.hold(name, "job %d" % job["number"], "Reserved")
            else:
                lease = self.leases[number]
                lease["state"], lease["board"], lease["deadline"] = "allocated", some[0], self.clock + 60
                self.hold(some[0], "reservation %d" % number, "Reserved")
        return {"checks": checks, "expired": ended, "served": served}

    # ---- the other commands

    def submit(self, owner: str, priority: int, wants: List[Want], text: str) -> int:
        group = self.next
        for at, want in enumerate(wants):
            self.jobs[group + at] = {
                "number": group + at, "group": group, "checking": False, "owner": owner, "priority": priority,
                "want": want, "state": "Submitted", "board": "",
                "role": "r%d" % at if len(wants) > 1 else "", "text": "" if at else text,
            }
        self.next += len(wants)
        return group

    def reserve(self, owner: str, priority: int, tags: List[str]) -> int:
        number = self.next
        self.leases[number] = {
            "owner": owner, "priority": priority, "tags": tags, "state": "waiting",
            "deadline": self.clock + 60, "board": "",
        }
        self.next += 1
        return number

    def cancel(self, number: int) -> int:
        for job in self.members(self.jobs[number]["group"]):
            if job["state"] in WAITS or job["state"] == "Scheduled":
                job["state"] = "Finished"
                self.free("job %d" % job["number"])
            elif job["state"] == "Running":
                job["state"] = "Canceling"
        if self.collector == self.jobs[number]["group"]:
            self.collector = 0
        return int(self.jobs[number]["group"])

    def start(self, number: int) -> int:
        for job in self.members(self.jobs[number]["group"]):
            job["state"] = "Running"
            self.turn("job %d" % job["number"], "Running")
        return int(self.jobs[number]["group"])

    def finish(self, number: int, outcome: str) -> int:
        job = self.jobs[number]
        if job["state"] == "Canceling":
            outcome = "Canceled"
        job["state"] = "Finished"
        for board in self.boards.values():
            if board["holder"] == "job %d" % number:
                if job["checking"]:
                    self.grade_check(board, outcome)
                else:
                    board["jobs_since"] += 1
                    if outcome == "Infra" and board["health"] in (GOOD, UNKNOWN):
                        board["health"] = UNKNOWN
        self.free("job %d" % number)
        return number

    def grade_check(self, board: Row, outcome: str) -> None:
        if outcome == "Complete":
            board["jobs_since"], board["last_check"] = 0, self.clock
        if outcome != "Canceled" and board["health"] in (GOOD, UNKNOWN):
            board["health"] = GOOD if outcome == "Complete" else BAD

    # ---- what is shown

    def shown(self) -> List[Tuple[str, str]]:
        boards = ",".join(in_short("board", self.boards[name]) for name in sorted(self.boards))
        queue = [
            {"boards": len(wants), "kind": kind, "number": number, "owner": owner, "priority": -priority}
            for priority, number, kind, owner, wants in self.claims()
        ]
        leases = ",".join(in_short("reservation", dict(self.leases[n], number=n)) for n in sorted(self.leases))
        status = {
            "boards": len(self.boards), "clock": self.clock, "collector": self.collector, "count": self.count,
            "jobs": len(self.jobs), "next": self.next, "reservations": len(self.leases), "types": len(self.types),
        }
        jobs = [("/jobs/%d" % number, self.job_shown(job)) for number, job in sorted(self.jobs.items())
                if job["state"] != "Finished"]
        return [("/boards", '{"boards":[%s]}' % boards), ("/queue", spelled({"queue": queue})),
                ("/reservations", '{"reservations":[%s]}' % leases), ("/status", spelled(status))] + jobs

    @staticmethod
    def job_shown(job: Row) -> str:
        kind, tags = job["want"]
        shown = {key: job[key] for key in ("board", "group", "number", "owner", "priority", "role", "state", "text")}
        shown.update(kind="check" if job["checking"] else "ordinary", result="", tags=tags, type=kind)
        return in_short("job", shown)


class Commands:
    """A list of commands by chance, as lines of a transcript."""

    def __init__(self, chance: random.Random, name: str):
        self.chance, self.lab = chance, Lab()
        self.lines = ["# A list by chance.", "== " + name]
        self.now = 10

    def ask(self, who: str, path: str, body: Optional[Row], answer: Row, text: Sequence[str] = ()) -> None:
        self.lab.count += 1
        self.lines.append("> %s POST %s%s" % (who, path, " " + spelled(body) if body else ""))
        if text:
            self.lines += ["| " + line for line in text]
        self.lines.append("< 200 " + spelled(answer))

    def look(self) -> None:
        for path, view in self.lab.shown():
            self.lines += ["> - GET " + path, "<= 200 " + view]

    def at(self, seconds: int) -> None:
        self.now += seconds
        self.lab.clock = self.now
        self.lines.append("at %d" % self.now)

    def build(self) -> None:
        chance, lab = self.chance, self.lab
        self.at(0)
        for name in ["aaa", "bbb", "ccc", "ddd"][: chance.randint(2, 4)]:
            check = chance.choice([("none", 0), ("none", 0), ("hours", 1), ("jobs", 2)])
            lab.types[name] = check
            body: Row = {"name": name}
            if check[0] != "none":
                body.update(check=check[0], every=check[1])
            self.ask("admin", "/types", body, {"number": 0})
        for at in range(chance.randint(2, 6)):
            kind = chance.choice(sorted(lab.types))
            tags = sorted(chance.sample(["hdmi", "usb"], chance.randint(0, 2)))
            name = "%s%d" % (kind[0], at)
            lab.boards[name] = {
                "name": name, "type": kind, "tags": tags, "health": MAINTENANCE, "holder": "none",
                "state": "Idle", "jobs_since": 0, "last_check": 0,
            }
            self.ask("admin", "/boards", {"name": name, "tags": tags, "type": kind}, {"number": 0})
            if chance.random() < 0.8:
                self.health(name, GOOD)

    def health(self, name: str, health: str) -> None:
        self.lab.boards[name]["health"] = health
        self.ask("admin", "/boards/%s/health" % name, {"health": health}, {"number": 0})

    # ---- commands that are accepted as the lab stands

    def submit(self) -> bool:
        lab, chance = self.lab, self.chance
        wants: List[Want] = []
        priority = chance.choice([10, 50, 50, 60, 90])
        count = chance.choice([1, 1, 1, 2, 2, 3])
        for at in range(count):
            tags: List[str] = chance.choice([[], [], [], ["hdmi"], ["usb"]])
            wants.append((chance.choice(sorted(lab.types)), tags))
        if lab.least(wants, lambda board: True) is None:
            return False
        text = ['job_name = "made"', "priority = %d" % priority]
        for at, (kind, tags) in enumerate(wants):
            if count > 1:
                text.append("[roles.r%d]" % at)
            text.append('device_type = "%s"' % kind)
            if count > 1:
                text.append("count = 1")
            if tags:
                text.append("tags = [%s]" % ", ".join('"%s"' % tag for tag in tags))
        answer = {"number": lab.submit("ann", priority, wants, "\n".join(text) + "\n")}
        self.ask("ann", "/jobs", None, answer, text)
        return True

    def reserve(self) -> bool:
        lab, chance = self.lab, self.chance
        tags: List[str] = chance.choice([[], [], ["hdmi"], ["name=" + chance.choice(sorted(lab.boards))]])
        if lab.least([(None, tags)], lambda board: True) is None:
            return False
        priority = chance.choice([10, 40, 50, 95])
        answer = {"number": lab.reserve("bob", priority, tags)}
        self.ask("bob", "/reservations", {"priority": priority, "tags": tags}, answer)
        return True

    def pass_now(self) -> bool:
        self.ask("dispatcher", "/pass", None, self.lab.run_pass())
        self.look()
        return True

    def of_jobs(self, states: Sequence[str]) -> List[int]:
        return [n for n, job in self.lab.jobs.items() if job["state"] in states]

    def start(self) -> bool:
        numbers = self.of_jobs(["Scheduled"])
        if not numbers:
            return False
        number = self.chance.choice(numbers)
        self.ask("dispatcher", "/jobs/%d/start" % number, None, {"number": self.lab.start(number)})
        return True

    def finish(self) -> bool:
        numbers = self.of_jobs(["Running", "Canceling"])
        if not numbers:
            return False
        number = self.chance.choice(numbers)
        outcome = self.chance.choice(["Complete", "Complete", "Incomplete", "Infra"])
        answer = {"number": self.lab.finish(number, outcome)}
        self.ask("dispatcher", "/jobs/%d/finish" % number, {"outcome": outcome}, answer)
        return True

    def cancel(self) -> bool:
        numbers = self.of_jobs([*WAITS, "Scheduled", "Running"])
        if not numbers:
            return False
        number = self.chance.choice(numbers)
        self.ask("admin", "/jobs/%d/cancel" % number, None, {"number": self.lab.cancel(number)})
        return True

    def of_leases(self, states: Sequence[str]) -> List[int]:
        lab = self.lab
        return [n for n, lease in lab.leases.items()
                if lease["state"] in states and (lease["state"] == "acquired" or lab.clock < lease["deadline"])]

    def lease(self) -> bool:
        lab, chance = self.lab, self.chance
        verb = chance.choice(["acquire", "release", "refresh", "cancel"])
        states = {"acquire": ["allocated"], "release": ["acquired"]}.get(verb, ["waiting", "allocated", "acquired"])
        numbers = self.of_leases(states)
        if not numbers:
            return False
        number = chance.choice(numbers)
        lease, holder = lab.leases[number], "reservation %d" % number
        if verb == "acquire":
            lease["state"] = "acquired"
            lab.turn(holder, "Running")
        elif verb == "release":
            lease["state"], lease["deadline"] = "allocated", lab.clock + 60
            lab.turn(holder, "Reserved")
        elif verb == "refresh":
            lease["deadline"] = lab.clock + 60
        else:
            lease["state"] = "canceled"
            lab.free(holder)
        self.ask("bob", "/reservations/%d/%s" % (number, verb), None, {"number": number})
        return True

    def change_health(self) -> bool:
        name = self.chance.choice(sorted(self.lab.boards))
        self.health(name, self.chance.choice([GOOD, GOOD, GOOD, UNKNOWN, BAD, MAINTENANCE]))
        return True

    def made(self) -> List[str]:
        self.build()
        commands = [self.submit] * 5 + [self.reserve] * 3 + [self.pass_now] * 4 + [self.start] * 3 \
            + [self.finish] * 4 + [self.cancel] * 2 + [self.lease] * 4 + [self.change_health] * 3
        done = 0
        while done < COMMANDS:
            if self.chance.random() < 0.5:
                self.at(self.chance.choice([1, 5, 20, 45, 3600]))
            done += self.chance.choice(commands)()
        self.pass_now()
        return self.lines


def spelled(value: Any) -> str:
    return json.dumps(value, sort_keys=True, separators=(",", ":"))


def in_short(kind: str, row: Row) -> str:
    """A row as transcripts spell it in short, each value without its quotes or brackets."""
    values = [(key, value if isinstance(value, int) else spelled(value)[1:-1]) for key, value in row.items()]
    return "(%s; %s)" % (kind, "; ".join("%s=%s" % it for it in values))


def main(player: str, seed: int) -> str:
    """Plays all lists. Says what is wrong, or nothing."""
    chance = random.Random(seed)
    names = ["list_%03d" % at for at in range(LISTS)]
    with tempfile.TemporaryDirectory() as folder:
        for at in range(0, LISTS, 10):
            lines: List[str] = []
            for name in names[at:at + 10]:
                lines += Commands(chance, name).made() + [""]
            with open(os.path.join(folder, "lists_%02d" % (at // 10)), "w", encoding="utf-8") as file:
                file.write("\n".join(lines) + "\n")
        words = [player, ROWS] + sorted(os.listdir(folder))
        said = subprocess.run(words, cwd=folder, capture_output=True, text=True, check=False)
        told = said.stdout.split("\n")
        wrong = [line for line in told if line and not line.endswith(": ok")]
        if not wrong and [line[:-4] for line in told if line] == names:
            return ""
        keep = tempfile.mkdtemp(prefix="generated-")
        shutil.copytree(folder, os.path.join(keep, "lists"))
        return f"not as computed; the transcripts are kept in {keep}\n" + ("\n".join(wrong[:10]) or said.stderr[-500:])


if __name__ == "__main__":
    fault = main(os.path.abspath(sys.argv[1]), int(sys.argv[2]) if len(sys.argv) > 2 else 22)
    print(fault or f"{LISTS} lists of {COMMANDS} commands, each answer and each farm after a pass as computed plainly")
    sys.exit(1 if fault else 0)
