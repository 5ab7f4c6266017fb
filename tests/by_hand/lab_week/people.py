"""People of the week: each is a thread that works until the week is over."""
from __future__ import annotations

import random
import time
from typing import Dict, List, Optional, Sequence, Tuple

from lab_week.lab import Held, Hold, Lab, Submitted
from lab_week.leaving import KINDS
from lab_week.texts import END, GONE, LATE, MEANS, text_of, wants
from served import PATIENCE, read

REFUSED = 3
OF_ITSELF = 125  # `desk with` didn't run its command, or lost its board
NO_ANSWER = ("no answer", "503", "502", "504", "has expired")


def submit(lab: Lab, user: str, boards: int, dice: random.Random) -> Optional[int]:
    """Submits a job of so many boards, and notes it."""
    ends, leaves = dice.choices(list(MEANS), [84, 8, 4, 4])[0], dice.choice(list(KINDS))
    said = lab.command(user, "/jobs", text_of(boards, ends, leaves, dice).encode())
    if not said:
        return None
    lab.submitted[said["number"]] = Submitted(user, boards, ends, leaves, time.time())
    return int(said["number"])


def submits(lab: Lab, user: str, plan: Sequence[Tuple[float, int]], dice: random.Random) -> None:
    """Submits jobs at the moments of a plan, and cancels one in ten a while later."""
    cancels: List[Tuple[float, int]] = []
    begin = time.monotonic()
    for moment, boards in sorted(plan):
        while time.monotonic() < begin + moment:
            time.sleep(0.05)
            cancels = cancel_due(lab, user, cancels)
        number = submit(lab, user, boards, dice)
        if number and dice.random() < 0.1:
            cancels.append((time.monotonic() + dice.uniform(0, 4), number))
    while cancels:
        time.sleep(0.1)
        cancels = cancel_due(lab, user, cancels)


def cancel_due(lab: Lab, user: str, cancels: List[Tuple[float, int]]) -> List[Tuple[float, int]]:
    """Cancels what is due, and returns the rest. What has ended is refused with 21."""
    now = time.monotonic()
    for moment, number in cancels:
        if moment <= now and lab.command(user, f"/jobs/{number}/cancel", refused=[21]):
            lab.canceled.add(number)
    return [it for it in cancels if it[0] > now]


class Claim:
    """A reservation that waits for its board."""

    def __init__(self, lab: Lab, number: int):
        self.lab, self.number, self.before = lab, number, time.time()

    def board(self) -> Optional[str]:
        """The board that is offered to it."""
        now = time.time()
        rows = self.lab.look("/boards")["boards"]
        found = next((it["name"] for it in rows if it["holder"] == f"reservation {self.number}"), None)
        self.before = self.before if found else now
        return found

    def waits(self, user: str) -> Optional[str]:
        """The board, once it is offered."""
        for _ in range(8):
            board: Optional[str] = self.lab.waits(15, self.board)
            if board:
                return board
            if not self.lab.command(user, f"/reservations/{self.number}/refresh", refused=GONE):
                return None
        self.lab.command(user, f"/reservations/{self.number}/cancel", refused=GONE)
        return None


def gets(lab: Lab, user: str, tags: List[str], dice: random.Random) -> Optional[Hold]:
    """Reserves, waits and acquires."""
    body = {"tags": tags, "priority": dice.choice(["low", "medium", "high"])}
    claim = Claim(lab, lab.command(user, "/reservations", body)["number"])
    lab.reservations.append(claim.number)
    board = claim.waits(user)
    if not board or not lab.command(user, f"/reservations/{claim.number}/acquire", refused=GONE):
        return None
    return Hold(claim.number, board, claim.before, time.time())


def gives_back(lab: Lab, user: str, hold: Hold, *ways: str) -> None:
    """Gives a board back, which nobody took away meanwhile."""
    let, gone = time.time(), 0.0
    for way in ways:
        said = lab.command(user, f"/reservations/{hold.number}/{way}", refused=GONE)
        gone = gone or time.time()
        if not said:
            notes_end(lab, user, hold)
            return
    lab.held.append(Held(user, hold, let, gone))


def notes_end(lab: Lab, user: str, hold: Hold) -> None:
    """Notes that farm-watch ended a hold, as its owner forgot it, or came too late on a slow machine."""
    number = hold.number
    lab.forgotten.append(number)
    message = lab.waits(END + PATIENCE, lambda: lab.told("hold-ended", "reservation", number))
    if not message:
        lab.wrong(f"reservation {number} is held for {time.time() - hold.since:.0f} s, or gone, and its end isn't told")
        return
    # (it was told in the second in which it was ended, or later)
    lab.held.append(Held(user, hold, message["at"] - 1, time.time(), True))


def holds(lab: Lab, user: str, dice: random.Random) -> None:
    """Holds a board for some seconds, again and again."""
    while lab.left() > 10:
        hold = gets(lab, user, wants(dice), dice)
        if hold:
            time.sleep(dice.uniform(1, 8))
            gives_back(lab, user, hold, *dice.choice([["cancel"], ["release", "cancel"]]))
        time.sleep(dice.uniform(0, 5))


def forgets(lab: Lab, user: str, dice: random.Random) -> None:
    """Holds boards until farm-watch ends that."""
    while lab.left() > END + 10:
        hold = gets(lab, user, ["serial"], dice)
        if hold:
            notes_end(lab, user, hold)
            if not lab.told("hold-reminder", "reservation", hold.number):
                lab.wrong(f"reservation {hold.number} was ended, and its owner not reminded")


def extends(lab: Lab, user: str, dice: random.Random) -> None:
    """Holds boards for longer than they would be ended after, extended at the reminder."""
    while lab.left() > END + 30:
        hold = gets(lab, user, ["serial"], dice)
        if not hold:
            continue
        number = hold.number
        if not lab.waits(END, lambda: lab.told("hold-reminder", "reservation", number)):
            lab.wrong(f"the owner of reservation {number} isn't reminded")
        ran = lab.ran(user, "extend", str(number))
        if ran.returncode == REFUSED and f"reservation {number} is canceled" in ran.stderr:
            notes_end(lab, user, hold)
            continue
        if ran.returncode:
            lab.desk(user, "extend", str(number))
        time.sleep(max(5.0, hold.since + END + 15 - time.time()))
        gives_back(lab, user, hold, "cancel")


def runs_with(lab: Lab, user: str, dice: random.Random) -> None:
    """A script that runs commands with boards by the client, whose command says which board it had, and when. Where the
    desk gave no answer for long it comes again later."""
    place, noted = f"{lab.withs}-{user}", 0
    while lab.left() > 20:
        asked = time.time()
        ran = lab.ran(user, "with", *wants(dice), "--", lab.with_file, WITHS=place)
        gone = time.time()
        if ran.returncode and not (ran.returncode == OF_ITSELF and any(it in ran.stderr for it in NO_ANSWER)):
            lab.wrong(f"{user}: desk with: status {ran.returncode}: {ran.stderr}")
        lines = [it.split() for it in read(place).splitlines()]
        if len(lines) == noted + 2:
            board, begin, end = lines[-1][3], float(lines[-2][2]), float(lines[-1][2])
            lab.held.append(Held(user, Hold(0, board, asked, begin), end, gone))
        noted = len(lines)
        time.sleep(dice.uniform(3, 12))


class Admin:
    """Mends what went Bad, takes boards out for seconds, imports two boards."""

    def __init__(self, lab: Lab, user: str, dice: random.Random):
        self.lab, self.user, self.dice = lab, user, dice
        self.out: Dict[str, Tuple[float, str]] = {}

    def set(self, board: str, health: str) -> None:
        self.lab.command(self.user, f"/boards/{board}/health", {"health": health})

    def mends(self) -> None:
        for it in self.lab.look("/boards")["boards"]:
            if it["health"] == "Bad":
                self.out[it["name"]] = (time.monotonic() + 8, "Unknown")
                self.set(it["name"], "Maintenance")
        for board in [it for it, (until, _) in self.out.items() if until < time.monotonic()]:
            self.set(board, self.out.pop(board)[1])

    def takes_out(self) -> None:
        good = [it["name"] for it in self.lab.look("/boards")["boards"]
                if it["health"] == "Good" and it["name"] not in self.out]
        if good:
            board = self.dice.choice(good)
            self.out[board] = (time.monotonic() + self.dice.uniform(2, 6), "Good")
            self.set(board, "Maintenance")

    def imports(self) -> None:
        self.lab.desk(self.user, "import", f"{self.lab.room}/late.toml")
        for board in LATE:
            self.set(board, "Good")

    def works(self) -> None:
        imported, lab = False, self.lab
        due, import_at = time.monotonic() + 10, lab.over - 0.66 * lab.left()
        while not lab.drained.is_set():
            time.sleep(1)
            self.mends()
            if due < time.monotonic() and lab.left() > 10:
                due = time.monotonic() + self.dice.uniform(5, 25)
                self.takes_out()
            if not imported and import_at < time.monotonic():
                imported = True
                self.imports()


def administers(lab: Lab, user: str, dice: random.Random) -> None:
    Admin(lab, user, dice).works()


def plans_of(seconds: float, dice: random.Random) -> List[List[Tuple[float, int]]]:
    """When four people submit what: a hundred single jobs and a hundred groups, of which eighty
    come in two bursts."""
    sizes = [1] * 100 + [dice.choice([2, 2, 3, 4]) for _ in range(100)]
    dice.shuffle(sizes)
    moments = [dice.uniform(0, seconds - 20) for _ in range(120)]
    moments += [seconds * part + dice.uniform(0, 3) for part in (0.3, 0.7) for _ in range(40)]
    both = list(zip(moments, sizes))
    return [both[it::4] for it in range(4)]


SUBMITTERS = ("ann", "bob", "cid", "dan")
OTHERS = [*((it, holds) for it in ("eva", "fay", "gus", "hal")), ("ida", forgets), ("jon", extends), ("kim", runs_with),
          ("leo", runs_with)]
