"""Holds: acquired reservations, of which their owners are reminded, which are ended, and which are written down.

A hold's age counts from its deadline less a lease: from the moment at which its reservation was
given its board, released or refreshed last. The desk shows deadlines in its view of all
reservations alone, so that is asked for only once a hold is due by what is known of it; a refresh
since then only moves that on. A hold that was reminded of may have been refreshed since, too.

The holds that have ended are a line each in DIR/shown/holds.jsonl, which the site serves and `desk usage` counts.

What is held is kept with what else was seen, and a hold that has ended until its line is on the disk; after a kill between,
the line is found there, and isn't added again.
Whose a reservation is the desk says of those that wait, and else only of all that ever were: it is asked for these once a
minute at most, where a hold has ended that wasn't seen waiting.
"""
import collections
import os
import time
from typing import Any, Callable, Dict, Optional, Set

from farm_watch.rules import Rules
from farm_watch.store import Seen, Store
from farm_watch.tell import Events
from fizgruk import calls, limits, records
from fizgruk.errors import Code, Refused, Unreachable

LEASE = 60
RECENT = 60.0  # seconds within which a hold that is gone has ended now, and one that is new has begun
RETRY = 600.0
IS_ENDED = (Code.RESERVATION_EXPIRED, Code.WRONG_RESERVATION_STATE, Code.NO_SUCH_RESERVATION)
SHOWN = "shown"
FILE = "holds.jsonl"
ASKS = 60.0  # and between two questions for all reservations
TAIL = 1_000_000  # bytes of the last lines, which any that is to be added again is among
# What is kept of a hold, by its farm and number, and once it has ended also by when it began: `began` is 0 before it is
# acquired, `ended` 0 before that; `since` when its age counts from, None where that isn't known, and `reminded` for which
# of these moments its owner was.
Hold = Dict[str, Any]
OF_LISTS = ("board", "type", "owner", "began", "ended", "reason")  # as an earlier version kept it


def hold_of(board: calls.Row, owner: str) -> Hold:
    return {
        "board": board["name"], "type": board["type"], "owner": owner, "began": 0, "ended": 0, "reason": "", "since": None,
        "reminded": None,
    }


class Holds:
    """The holds of one desk."""

    def __init__(self, desk: calls.Desk, store: Store, rules: Rules, place: str, tell: Callable[[str], None]):
        self.desk, self.store, self.rules, self.tell = desk, store, rules, tell
        self.file = os.path.join(place, SHOWN, FILE)
        self.looked: Optional[float] = None
        self.asked = time.monotonic() - ASKS
        self.later: Dict[str, float] = {}  # until when a hold that can't be ended is left
        self.shown: Dict[str, float] = {}  # when the desk showed a hold's deadline last
        # the last holds that are written down
        rows = collections.deque(records.rows_of(self.file, TAIL), maxlen=5000)
        self.known: Set[str] = {it["key"] for it in rows if it["kind"] == "hold"}

    # ---- who holds what

    def note(self, waited: Dict[str, str], seen: Seen, held: Dict[int, calls.Row], now: float) -> None:
        """Notes the boards that reservations have, of which those that `waited` have these owners. A hold lasts as long
        as its reservation is acquired."""
        moment, farm, looked = time.monotonic(), seen["farm"]["number"], seen["farm"].get("looked", 0)
        since = int(now) if self.looked is not None and moment - self.looked < RECENT else None
        self.looked = moment
        gone = {key: _as_kept_now(it) for key, it in seen["held"].items() if key != "looked"}
        found: Dict[str, Hold] = {}
        for number, board in held.items():
            key, is_acquired = f"{farm}.{number}", board["state"] == "Running"
            hold = gone.pop(key, None) or hold_of(board, waited.get(str(number), ""))
            if hold["began"] and not is_acquired:  # it was released, and may be acquired again
                gone[key], hold = hold, hold_of(board, hold["owner"])
            elif is_acquired and not hold["began"]:
                hold = {**hold, "began": int(now), "since": since}
            found[key] = hold
        ended = int(now) if 0 <= now - looked < RECENT + RECENT else looked
        for key, hold in gone.items():
            if hold["ended"]:
                found[key] = hold
            elif hold["began"]:
                found[f"{key}.{hold['began']}"] = {**hold, "ended": max(ended, hold["began"])}
        self._name(found, farm)
        seen["held"] = found
        if not 0 <= now - looked < RECENT:
            seen["farm"] = {**seen["farm"], "looked": int(now)}

    def _name(self, found: Dict[str, Hold], farm: int) -> None:
        """Asks whose the holds were that have ended and of which nobody knows it. What another farm had is nobody's any
        more."""
        nameless = [key for key, it in found.items() if it["ended"] and not it["owner"]]
        if not nameless or time.monotonic() < self.asked + ASKS:
            return
        self.asked = time.monotonic()
        try:
            owners = {f"{farm}.{it['number']}": it["owner"] for it in calls.rows_of(self.desk, "reservations")}
        except (Refused, Unreachable) as fault:
            self.tell(f"nobody knows whose holds have ended: {fault}")
            return
        for key in nameless:
            hold = found.pop(key)
            if key.rpartition(".")[0] in owners:
                found[key] = {**hold, "owner": owners[key.rpartition(".")[0]]}

    # ---- those that have ended

    def _line(self, key: str, hold: Hold) -> Dict[str, Any]:
        kept = {it: hold[it] for it in ("owner", "board", "type", "began", "ended", "reason")}
        return {"kind": "hold", "key": f"{self.store.mark}-{key}", "reservation": int(key.split(".")[1]), **kept}

    def write(self, seen: Seen) -> None:
        """Writes down what has ended, once it is known whose it was, and keeps it no longer. What can't be written is
        told, and stays."""
        done = {key: it for key, it in seen["held"].items() if it["ended"] and it["owner"]}
        rows = [self._line(*it) for it in done.items()]
        if not rows:
            return
        try:
            os.makedirs(os.path.dirname(self.file), exist_ok=True)
            os.chmod(os.path.dirname(self.file), 0o755)
            records.append(self.file, [it for it in rows if it["key"] not in self.known])
        except OSError as fault:
            self.tell(f"{self.file} can't be written: {fault.strerror}")
            return
        self.known = {it["key"] for it in rows}
        seen["held"] = {key: it for key, it in seen["held"].items() if key not in done}
        self.store.keep(seen, [])

    # ---- those that are due

    def care(self, events: Events, now: float) -> None:
        """Reminds of the holds that are due, and ends those that are. Which may be ended is kept
        before, so that one that was ended is told also where this process was killed then."""
        seen = self.store.seen()
        farm = seen["farm"]["number"]
        mine = {key.split(".")[1]: it for key, it in seen["held"].items() if key.startswith(f"{farm}.") and not it["ended"]}
        self.later = {number: it for number, it in self.later.items() if number in mine}
        self.shown = {number: it for number, it in self.shown.items() if number in mine}
        due = {number for number, hold in mine.items() if hold["began"] and self._is_due(number, hold, now)}
        if self.rules.end is not None:
            seen["endings"].update(dict.fromkeys(due, True))
        due |= seen["endings"].keys()
        if not due:
            return
        self.store.keep(seen, [])
        rows = {str(it["number"]): it for it in self.desk.look("/reservations")["reservations"]}
        for number in sorted(due, key=int):
            began_to_end = seen["endings"].pop(number, False)
            if number in rows:
                self._settle(seen, f"{farm}.{number}", rows[number], began_to_end, events, now)
        self.store.keep(seen, events.found)

    def _is_due(self, number: str, hold: Hold, now: float) -> bool:
        """Whether a hold has to be looked at: by what is known of it something is to be done."""
        since, remind, end = hold["since"], self.rules.remind, self.rules.end
        if not (remind or end) or self.later.get(number, 0.0) > time.monotonic():
            return False
        if since is None or (end and since + end <= now):
            return True
        if remind is None:
            return False
        # (one that was reminded of may have been refreshed since its deadline was shown: then its age counts from that, so
        # it isn't due again before that long has passed once more)
        counts = self.shown.get(number, since + remind) if hold["reminded"] == since else since
        return bool(counts + remind <= now)

    def _settle(
        self, seen: Seen, key: str, row: Dict[str, Any], began_to_end: bool, events: Events, now: float
    ) -> None:
        """Does with a hold what its row asks for now."""
        is_acquired, since = row["state"] == "acquired", row.get("deadline", 0) - LEASE
        remind, end = self.rules.remind, self.rules.end
        hold = seen["held"].get(key)
        if hold and is_acquired:
            self.shown[str(row["number"])] = now
            hold = {**hold, "owner": row["owner"], "since": since, "began": min(hold["began"], since)}
            seen["held"][key] = hold
        if end and since + end <= now and (is_acquired or (began_to_end and row["state"] == "canceled")):
            if self._end(str(row["number"])):
                if hold:
                    reason = f"ended by farm-watch after {limits.words_of(now - since)}"
                    seen["held"][key] = {**hold, "reason": reason}
                events.hold_ended(row, since, now)
        elif hold and is_acquired and remind and hold["reminded"] != since and since + remind <= now:
            seen["held"][key] = {**hold, "reminded": since}
            events.hold_reminder(row, since, now)

    def _end(self, number: str) -> bool:
        """Ends a reservation, under a key of its own: returns whether it was ended by this, now or
        before."""
        try:
            calls.tell_with_room(self.desk, f"/reservations/{number}/cancel", None, f"watch-end-{number}")
        except Refused as refusal:
            if refusal.code not in IS_ENDED:
                self.later[number] = time.monotonic() + RETRY
                self.tell(f"reservation {number} can't be ended: refused: {refusal}")
            return False
        return True


def _as_kept_now(hold: Any) -> Hold:
    """A hold as it was kept, also by an earlier version."""
    return {"since": None, "reminded": None, **(dict(zip(OF_LISTS, hold)) if isinstance(hold, list) else hold)}
