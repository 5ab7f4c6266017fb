"""Handovers of three boards between two people and jobs, under kills of everything:

    access_handovers.py [--farm PROGRAM] [--seed N] [--within SECONDS] [--kills WORDS] [--without take] COUNT

Each party writes marked bytes without pause, in letters of its own with the hold's number in them. b1 is behind ser2net, as
slow as a serial line, and its sessions are consoles; those of b2 and b3 are commands that go away from their session and
write to the device. Meanwhile one of what takes part is killed or stopped: the door's main process, its children, the
guard, the opener, the unit, systemd-run, sshd's child, the client, ssh, the desk, or all at once; or the board is released
and acquired again. It prints a line a board and a last one, and the status is 0 where no byte of two parties is mixed, none
comes later than --within after its hold's end (of those whose guard was stopped it is said), and nothing is left.
With --without take nobody cleans up behind others and the guard is stopped, and the status has to be 1.
"""
from __future__ import annotations

import argparse
import json
import os
import pathlib
import random
import re
import subprocess
import sys
import tempfile
import threading
import time
from typing import Any, Dict, List, Sequence, Tuple

HERE = os.path.dirname(os.path.abspath(__file__))
sys.path[:0] = [HERE, os.path.join(HERE, "../shared"), os.path.join(HERE, "../../tools")]
import access_lab  # noqa: E402
from access_lab import Lab, kill  # noqa: E402
from machine import Machine  # noqa: E402
from served import STARTED  # noqa: E402

LETTERS = {"ann": ("k", "abcdefghij"), "bob": ("K", "ABCDEFGHIJ"), "job": ("Z", "0123456789")}
KILLS = (
    "none", "KILL unit", "STOP unit", "KILL systemd-run", "KILL door", "KILL doors", "STOP doors", "KILL guard", "STOP guard",
    "KILL opener", "KILL sshd", "KILL client", "STOP client", "KILL ssh", "STOP ssh", "desk", "flap", "all",
)
# Without the look behind others, and what is done between.
WITHOUT = "import farm_access.holds as it\nit.clean = lambda *_: None\n"
TEXT = "job_name = 'j'\ndevice_type = 'bbb'\ntags = ['name={}']\n"


def mark_of(party: str, hold: int) -> str:
    head, digits = LETTERS[party]
    return head + "".join(digits[int(it)] for it in f"{hold:04}")


def meant(text: bytes) -> List[Tuple[int, int]]:
    """The holds whose whole marks stand in a text, with their places."""
    found = []
    for head, digits in LETTERS.values():
        for it in re.finditer(f"{re.escape(head)}([{digits}]{{4}})".encode(), text):
            found.append((it.start(), int("".join(str(digits.index(chr(x))) for x in it.group(1)))))
    return sorted(found)


class Trial:
    """What all boards of a run share."""

    def __init__(self, lab: Lab, within: float, words: Sequence[str]):
        self.lab, self.within, self.words = lab, within, words
        self.down: List[Tuple[float, float]] = []  # from when to when the desk was down
        self.kills: Dict[str, int] = {}
        self.late: List[str] = []
        self.turn = threading.Lock()

    def down_after(self, moment: float) -> float:
        return sum(max(0.0, until - max(since, moment)) for since, until in self.down if until > moment)

    def restart_desk(self, pause: float) -> None:
        with self.turn:
            since = time.time()
            self.lab.machine.run("sh", "-c", f"systemctl kill --signal=KILL farm; sleep {pause}; systemctl restart farm")
            ask = self.lab.machine.curl("ann", "/status")
            access_lab.until(lambda: self.lab.machine.run(*ask, check=False).returncode == 0)
            self.down.append((since, time.time()))


class Board(threading.Thread):
    """The handovers of one board."""

    def __init__(self, name: str, trial: Trial, count: int, seed: int):
        super().__init__()
        self.board, self.trial, self.lab, self.count = name, trial, trial.lab, count
        self.random = random.Random(f"{seed}{name}")
        self.ends: Dict[int, Tuple[float, str, str]] = {}
        self.waits: List[threading.Thread] = []

    def run(self) -> None:
        for hold in range(1, self.count + 1):
            party = self.random.choice(["ann", "bob", "job"])
            number = self.job() if party == "job" else self.lab.reserve(party, self.board)
            mark = mark_of(party, hold)
            begun = [self.session(party, number, mark) for _ in range(self.random.choice([1, 1, 2]))]
            access_lab.until(lambda it=mark: self.writes(party, number, it, begun), 45)  # type: ignore[misc]
            time.sleep(self.random.uniform(0, 1.0))
            what = self.random.choice(self.trial.words)
            self.harm(what, party, number)
            time.sleep(self.random.uniform(0, 1.0))
            if party == "job":
                self.lab.finish(number)
            else:
                self.lab.cancel(party, number)
            self.ends[hold] = (time.time(), what, party)
            self.waits.append(threading.Thread(target=self.later, args=(party, number, hold, begun)))
            self.waits[-1].start()
        for it in self.waits:
            it.join()

    def writes(self, party: str, number: int, mark: str, begun: List["subprocess.Popen[bytes]"]) -> bool:
        """Whether a session's bytes came; one that a kill for another board hit begins again."""
        if all(it.poll() is not None for it in begun):
            begun.append(self.session(party, number, mark))
        return mark.encode() in self.lab.text(self.board)[-100_000:]

    def job(self) -> int:
        number = int(self.lab.tell("carl", "/jobs", TEXT.format(self.board))["number"])
        while "number" not in self.lab.tell("dispatcher", f"/jobs/{number}/start"):
            self.lab.tell("dispatcher", "/pass")
            time.sleep(0.05)
        return number

    def session(self, party: str, number: int, mark: str) -> "subprocess.Popen[bytes]":
        way = ["console"] if self.board == "b1" else ["nasty", mark * 4, "0.03"]
        typed = f"while :; do printf %s {mark * 50}; done | " if self.board == "b1" else ""
        of_job = self.lab.job(number, "/bin/sh", "-c", f"{typed}farm-access way {self.board} {' '.join(way)}")
        words = of_job if party == "job" else self.lab.ssh(party, self.board, *way)
        begun = subprocess.Popen(
            self.lab.within(*words), stdin=subprocess.PIPE, stdout=subprocess.DEVNULL, stderr=subprocess.DEVNULL
        )
        STARTED.append(begun)
        if self.board == "b1" and party != "job":
            threading.Thread(target=feed, args=(begun, mark.encode() * 50), daemon=True).start()
        return begun

    def unit(self, party: str, number: int) -> str:
        return f"farm-hold-{self.board}-{'j' if party == 'job' else 'r'}{number}.slice"

    def left(self, party: str, number: int) -> List[int]:
        """The processes of a hold."""
        return [pid for it in self.lab.units(self.board) if f"/{self.unit(party, number)}/" in it for pid in self.lab.pids_of(it)]

    def harm(self, what: str, party: str, number: int) -> None:
        trial, lab = self.trial, self.lab
        trial.kills[what] = trial.kills.get(what, 0) + 1
        number_of, _, who = what.partition(" ")

        def send(*words: str) -> None:
            lab.machine.run(*words, check=False)

        words = {
            "systemd-run": ["pkill", f"-{number_of}", "-f", f"slice={self.unit(party, number)}"],
            "door": ["systemctl", "kill", f"--signal={number_of}", "--kill-who=main", "farm-access"],
            "doors": ["sh", "-c", f"pkill -{number_of} -P $(systemctl show -P MainPID farm-access) -f 'farm-access door'"],
            "guard": ["systemctl", "kill", f"--signal={number_of}", "farm-access-guard"],
            "opener": ["systemctl", "kill", f"--signal={number_of}", "farm-access-opener"],
            "sshd": ["sh", "-c", f"kill -{number_of} $(pgrep -f 'sshd: board' | shuf -n 1)"],
            "client": ["sh", "-c", f"kill -{number_of} $(pgrep -f 'farm-access (session|way)' | shuf -n 1)"],
        }
        if who == "unit":
            for it in self.random.sample(self.left(party, number)[:3], 1) if self.left(party, number) else []:
                send_to(it, number_of)
        elif who == "ssh":
            for process in [it for it in STARTED if it.poll() is None and f"people/{party}" in str(it.args)][-1:]:
                send_to(process.pid, number_of)
        elif who in words:
            send(*words[who])
        elif what == "flap" and party != "job":
            lab.tell(party, f"/reservations/{number}/release")
            lab.tell(party, f"/reservations/{number}/acquire")
        elif what == "desk":
            trial.restart_desk(self.random.uniform(0.2, 1.5))
        elif what == "all":
            units = "systemctl kill --signal=KILL farm-access farm-access-guard farm-access-opener"
            kills = f"echo 1 > {access_lab.GROUPS}/farm-hold-{self.board}.slice/cgroup.kill"
            send("sh", "-c", f"{units}; pkill -KILL -f 'farm-access |sshd: board'; {kills}")

    def later(self, party: str, number: int, hold: int, begun: List["subprocess.Popen[bytes]"]) -> None:
        """So many seconds of a running desk after a hold's end nothing of it lives."""
        end = self.ends[hold][0]
        while time.time() < end + self.trial.within + self.trial.down_after(end):
            time.sleep(0.02)
        if self.left(party, number):
            self.trial.late.append(f"{self.board} {hold} {self.ends[hold][1:]}")
        for it in begun:
            it.kill()


def send_to(pid: int, name: str) -> None:
    kill(pid, 9 if name == "KILL" else 19)


def feed(process: "subprocess.Popen[bytes]", text: bytes) -> None:
    assert process.stdin
    try:
        while True:
            process.stdin.write(text)
            process.stdin.flush()
    except (OSError, ValueError):
        pass


def last_of_row(board: Board, hold: int) -> int:
    """The last of the holds that the same party had one after the other: a session that a person began late in one
    may be the next one's."""
    while hold + 1 in board.ends and board.ends[hold + 1][2] == board.ends[hold][2]:
        hold += 1
    return hold


def judged(board: Board) -> Dict[str, Any]:
    rows = board.lab.got(board.board)
    text, times, place = b"".join(it.said for it in rows), [], 0
    for row in rows:
        times.append((place, row.at))
        place += len(row.said)
    mixes, last, index = [], 0, 0
    seen: Dict[int, float] = {}
    for place, hold in meant(text):
        while index + 1 < len(times) and times[index + 1][0] <= place:
            index += 1
        seen[hold] = times[index][1]
        if any(board.ends[it][2] != board.ends[hold][2] for it in range(hold + 1, last + 1)):
            mixes.append((hold, last))
        last = max(last, hold)
    ends = {it: board.ends[last_of_row(board, it)] for it in seen}
    over = {it: seen[it] - ends[it][0] - board.trial.down_after(ends[it][0]) for it in seen}
    at_ease = [over[it] for it in over if "guard" not in ends[it][1]]
    return {
        "board": board.board, "bytes": len(text), "holds": len(board.ends), "with bytes": len(seen),
        "mixes": len(mixes), "worst end": round(max(at_ease, default=0), 2), "worst end of all": round(max(over.values(), default=0), 2),
        "late": [(it, round(over[it], 2), ends[it][1]) for it in over if over[it] > board.trial.within],
    }


def told(lab: Lab, trial: Trial, boards: List[Board]) -> bool:
    """Prints what came out. Returns whether all is well."""
    access_lab.until(lambda: not lab.units(), 15)
    rows = [judged(it) for it in boards]
    for row in rows:
        print(json.dumps(row))
    left = {"units": len(lab.units()), "nasty": len(lab.machine.run("pgrep", "-f", "access_nasty", check=False).stdout.split())}
    print(json.dumps({"kills": trial.kills, "late": trial.late, "left": left}), flush=True)
    is_ended = all(it["worst end"] <= trial.within and it["mixes"] == 0 and it["with bytes"] for it in rows)
    return is_ended and not any("guard" not in it for it in trial.late) and not any(left.values())


def main() -> int:
    parser = argparse.ArgumentParser(usage=__doc__)
    parser.add_argument("--farm", default=os.path.join(HERE, "../../bin/farm"))
    parser.add_argument("--seed", type=int, default=1)
    parser.add_argument("--within", type=float, default=2.0)
    parser.add_argument("--kills", type=lambda it: it.split(","), default=KILLS)
    parser.add_argument("--without", choices=["take"])
    parser.add_argument("count", type=int)
    options = parser.parse_args()
    with tempfile.TemporaryDirectory() as place:
        machine = Machine(str(pathlib.Path(place)), options.farm)
        try:
            lab = Lab(machine)
            if options.without:
                file = "/usr/local/lib/farm-tools/farm_access/door.py"
                assert "\nclass WayUse:" in lab.read(file)
                machine.write(file, lab.read(file).replace("\nclass WayUse:", f"\n{WITHOUT}\nclass WayUse:"))
                machine.run("systemctl", "restart", "farm-access")
                machine.run("systemctl", "stop", "farm-access-guard")
            trial = Trial(lab, options.within, options.kills)
            each = [options.count // 3 + (it < options.count % 3) for it in range(3)]
            boards = [Board(it, trial, count, options.seed) for it, count in zip(access_lab.BOARDS, each) if count]
            for it in boards:
                it.start()
            for it in boards:
                it.join()
            return 0 if told(lab, trial, boards) else 1
        finally:
            machine.end()


if __name__ == "__main__":
    sys.exit(main())
