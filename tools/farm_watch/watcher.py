"""Looks at a desk again and again, and says what has happened since the look before.

What was seen is kept with the events that follow from it, so the next look goes on from there, also
that of another process. A look asks for the status, the queue and the boards, and for single jobs;
the view of all reservations, which grows with the farm's age, only once a hold is due.
"""
import time
from typing import Any, Callable, Dict, List, NamedTuple, Optional

from farm_watch.holds import Holds
from farm_watch.rules import Rules
from farm_watch.store import Seen, Store, nothing
from farm_watch.tell import Events
from fizgruk import calls, records
from fizgruk.errors import Refused, Unreachable

MOST_JOBS = 200  # jobs that a look asks for one by one; the next look goes on
HISTORY = records.NEWEST  # why jobs ended, which the proxy may serve beside the desk
ABSENT = 600.0  # where it isn't served it is left for so many seconds


class LabLook(NamedTuple):
    """What a desk showed, in the order in which it was asked: what leaves the queue in between is
    seen in both places."""

    status: Dict[str, Any]
    queue: List[Dict[str, Any]]
    boards: List[Dict[str, Any]]

    def held(self, kind: str) -> Dict[int, Dict[str, Any]]:
        """The boards that jobs or reservations hold, by the number of these."""
        return calls.held_in(self.boards, kind)

    def claims(self, kind: str) -> Dict[int, Dict[str, Any]]:
        return {it["number"]: it for it in self.queue if it["kind"] == kind}


class Watcher:
    """Watches one desk."""

    def __init__(self, desk: calls.Desk, store: Store, rules: Rules, tell: Callable[[str], None], place: str):
        """`tell` is called with a trouble that is nobody's event; `place` is the folder."""
        self.desk = desk
        self.store = store
        self.rules = rules
        self.holds = Holds(desk, store, rules, place, tell)
        self.left = 0
        self.has_looked = False
        self.past: Optional[List[Dict[str, Any]]] = None  # the newest jobs that ended, once a look asked for them
        self.absent_until = 0.0

    def round(self) -> None:
        """Looks once, and keeps what has happened."""
        self.left, self.past = MOST_JOBS, None
        look = LabLook(self.desk.look("/status"), *(calls.rows_of(self.desk, it) for it in ("queue", "boards")))
        seen = self._seen_before(look)
        waited, events = seen["waiting"], Events(self.rules, seen["farm"]["number"])
        self._reservations(seen, look, events)
        self._new_jobs(seen, look)
        self._jobs(seen, look, events)
        now = max(time.time(), look.status["clock"])
        self.holds.note(waited, seen, look.held("reservation"), now)
        self.store.keep(seen, events.found)
        self.holds.write(seen)
        self.holds.care(Events(self.rules, seen["farm"]["number"]), now)
        if not self.has_looked:
            self.has_looked, jobs, waiting = True, len(seen["groups"]), len(seen["waiting"])
            print(f"sees {len(look.boards)} boards, {jobs} jobs that haven't ended, {waiting} reservations that wait", flush=True)

    def _seen_before(self, look: LabLook) -> Seen:
        """What was seen before, or at the first look at a farm, which begins its numbers anew, what is open already."""
        seen = self.store.seen()
        farm, status = seen["farm"], look.status
        if "next" in farm and status["next"] >= farm["next"] and status["count"] >= farm["count"]:
            return seen
        began: Seen = {
            **nothing(),
            "held": seen["held"],
            "farm": {
                "number": farm.get("number", 0) + 1, "next": status["next"], "count": status["count"],
                "looked": farm.get("looked", 0),
            },
        }
        for number in look.held("job"):
            members = calls.members_of(self.desk, number)
            if members[0]["kind"] != "check":
                began["groups"][str(members[0]["number"])] = [members[0]["owner"], len(members), False]
        return began

    # ---- jobs

    def may_ask(self, jobs: int) -> bool:
        """Whether so many jobs more may be asked for in this look; if so they are counted."""
        if self.left < jobs:
            return False
        self.left -= jobs
        return True

    def _new_jobs(self, seen: Seen, look: LabLook) -> None:
        """Takes up the jobs that wait, and those whose numbers were given since the look before: also one that has ended
        already is found so."""
        claims, farm = look.claims("group"), seen["farm"]
        seen["groups"].update({str(it): [row["owner"], row["boards"], True] for it, row in claims.items()})
        others = {it + place for it, row in claims.items() for place in range(row["boards"])}
        others |= {**look.claims("reservation"), **look.held("reservation")}.keys()
        number = farm["next"]
        while number < look.status["next"] and (number in others or self.may_ask(1)):
            if number not in others:
                self._take_up(seen, number)
            number += 1
        if number < look.status["next"]:
            self.left = 0  # nor is a group asked for of which a part isn't known yet
        if number != farm["next"]:  # (the count isn't noted each time that it moves)
            seen["farm"] = {**farm, "next": number, "count": look.status["count"]}

    def _take_up(self, seen: Seen, number: int) -> None:
        """Takes up a job's group. A health check is told by its board."""
        job = calls.job_of(self.desk, number)
        if job is None or job["kind"] == "check":
            return
        group = str(job["group"])
        owner, size, waits = seen["groups"].get(group, [job["owner"], 0, False])
        size = max(size, number - job["group"] + 1)
        seen["groups"][group] = [owner, size, waits]

    def _jobs(self, seen: Seen, look: LabLook, events: Events) -> None:
        """Looks after the open groups: those that neither wait nor hold a board have ended."""
        queued, held = look.claims("group"), look.held("job")
        for key, (owner, size, waits) in list(seen["groups"].items()):
            group = int(key)
            boards = [held[it] for it in range(group, group + size) if it in held]
            if group in queued:
                continue
            if boards and waits:
                events.board_free("group", group, owner, boards)
                seen["groups"][key] = [owner, size, False]
            elif not boards and self.may_ask(size):
                members = [calls.job_of(self.desk, it) for it in range(group, group + size)]
                found = [it for it in members if it is not None and it["group"] == group]
                if all(it["state"] == "Finished" for it in found):
                    del seen["groups"][key]
                    if events.is_told(found):
                        events.job_ended(found, self._reason(found))

    def _reason(self, members: List[Dict[str, Any]]) -> str:
        """Why a job of these members ended: of the first that isn't Complete, or nothing where that
        isn't told. Another farm's job of the same number is told apart by owner and outcome."""
        if self.past is None:
            self.past = self._newest()
        job = next((it for it in members if it["result"] != "Complete"), members[0])
        wanted = (job["number"], job["owner"], job["result"])
        for row in self.past:
            found = row.get("reason")
            if (row.get("job"), row.get("owner"), row.get("outcome")) == wanted:
                return " ".join(found.split()) if isinstance(found, str) else ""
        return ""

    def _newest(self) -> List[Dict[str, Any]]:
        """The newest jobs that ended; none where they aren't served, which isn't asked again for a while."""
        try:
            return calls.rows_of(self.desk, HISTORY) if time.monotonic() >= self.absent_until else []
        except (Refused, Unreachable):
            self.absent_until = time.monotonic() + ABSENT
            return []

    # ---- reservations

    def _reservations(self, seen: Seen, look: LabLook, events: Events) -> None:
        """Tells the reservations that waited and were given a board."""
        queued, held = look.claims("reservation"), look.held("reservation")
        for key, owner in seen["waiting"].items():
            number = int(key)
            if number not in queued and number in held:
                events.board_free("reservation", number, owner, [held[number]])
        seen["waiting"] = {str(it): row["owner"] for it, row in queued.items()}
