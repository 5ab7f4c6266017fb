"""What claims want, which boards fit, and why they don't get them."""
import functools
import itertools
import time
from typing import Callable, Dict, List, NamedTuple, Optional, Sequence, Set, Tuple

from fizgruk import calls, present
from fizgruk.calls import Row
from fizgruk.errors import Refused, Unreachable

# The healths of boards that nobody gets, as they are told.
OUT = {"Retired": "Retired", "Bad": "Bad", "Maintenance": "in Maintenance"}
MOST_NAMED = 4
QUEUED = ("Submitted", "Scheduling")  # the states of jobs that are in the queue


class Want(NamedTuple):
    """One board of a type, or of any where it is empty, that has all of these tags."""

    kind: str
    tags: Tuple[str, ...]


def want_of_job(view: Row) -> Want:
    return Want(view["type"], tuple(view["tags"]))


def want_of_reservation(row: Row) -> Want:
    return Want("", tuple(row["tags"]))


def fits(board: Row, want: Want) -> bool:
    """Whether a board has a want's type and tags, the one of its name among them."""
    tags = {*board["tags"], f"name={board['name']}"}
    return want.kind in ("", board["type"]) and set(want.tags) <= tags


def fitting(boards: List[Row], wants: Sequence[Want]) -> List[Row]:
    """The boards that fit one of these wants or more."""
    return [it for it in boards if any(fits(it, want) for want in wants)]


def described(want: Want) -> str:
    return " ".join([want.kind or "board", *(["with"] if want.tags else []), *want.tags])


def of_boards(wants: Sequence[Want], what: str) -> str:
    """What is told of several wants together."""
    return f"of {len(wants)} boards ({'; '.join(dict.fromkeys(map(described, wants)))}) {what}"


def listed(boards: List[Row], text_of: Callable[[Row], str]) -> str:
    """A text of each of the first few boards, and how many more there are."""
    texts = [text_of(it) for it in boards[:MOST_NAMED]]
    more = [f"{len(boards) - MOST_NAMED} more"] if len(boards) > MOST_NAMED else []
    return ", ".join(texts + more)


class Lab:
    """A desk's boards at one moment, and what is asked about them once it is needed."""

    def __init__(
        self, desk: calls.Looker, checked: Optional[Set[str]] = None, owners: Optional[Dict[str, str]] = None,
        now: Optional[present.Present] = None,
    ):
        """`checked` are the types that have a check, where they are known; `owners` is filled, and kept by the caller;
        `now` is what the dispatcher tells, of which nothing is asked without it."""
        self.desk = desk
        self.checked = checked
        self.owners = {} if owners is None else owners
        self.now = now
        self.boards: List[Row] = desk.look("/boards")["boards"]

    @functools.cached_property
    def silent(self) -> Dict[str, str]:
        """What is told of each worker that doesn't answer."""
        return self.now.silent() if self.now else {}

    def has_check(self, kind: str) -> bool:
        """Whether the boards of a type are checked."""
        if self.checked is None:
            self.checked = checked_types(self.desk)
        return kind in self.checked

    def held_by(self, holder: str) -> Optional[Row]:
        """The board that `job 3` or `reservation 4` holds, or None."""
        return next((it for it in self.boards if it["holder"] == holder), None)

    def reason(self, wants: List[Want]) -> str:
        """Why these wants wait; nothing where boards for them are free."""
        lack = self.lack(wants)
        if len(wants) == 1:
            why = [self.waits(wants[0]), "none can come" if lack else ""]
        else:
            why = [lack or self.taken(wants)]
        silence = self.silence(fitting(self.boards, wants)) if any(why) else ""
        return "; ".join(filter(None, [*why, silence]))

    def silence(self, boards: List[Row]) -> str:
        """Which workers of these boards, but for those that are out of use, don't answer."""
        names = dict.fromkeys(present.worker_of(it) for it in boards if it["health"] not in OUT)
        return "; ".join(self.silent[it] for it in names if it in self.silent)

    def taken(self, wants: List[Want]) -> str:
        """Which of these wants no free boards meet, and why the boards that fit aren't free; nothing where such
        boards meet them all."""
        free = self.free()
        short = short_of(wants, free)
        if short is None:
            return ""
        if len(short) == 1:
            return self.waits(short[0])
        others = [it for it in fitting(self.boards, short) if it not in free]
        taken = listed(others, lambda it: f"{it['name']} is {self.state_and_holder(it)}")
        return of_boards(short, f"only {len(fitting(free, short))} free: {taken}")

    def free(self) -> List[Row]:
        return [it for it in self.boards if not self.state(it)]

    def waits(self, want: Want) -> str:
        """How many boards fit a want, and why none of them is free; nothing where one is."""
        boards = fitting(self.boards, [want])
        states = [self.state(it) for it in boards]
        if not boards:
            return "no board fits"
        if "" in states:
            return ""
        if len(boards) == 1:
            return f"1 board fits, {self.state_and_holder(boards[0])}"
        held = [it for it, state in zip(boards, states) if state == "held"]
        counts = [
            f"{states.count(it)} {it}" + (f" ({self.holders(held)})" if it == "held" else "")
            for it in sorted(set(states))
        ]
        return f"{len(boards)} boards fit: {', '.join(counts)}"

    def state(self, board: Row) -> str:
        """Why nobody gets a board, or nothing where it is free."""
        if board["health"] in OUT:
            return OUT[board["health"]]
        if board["holder"] != "none":
            return "held"
        if board["health"] == "Unknown" and self.has_check(board["type"]):
            return "Unknown until it is checked"
        return "without its worker" if present.worker_of(board) in self.silent else ""

    def state_and_holder(self, board: Row) -> str:
        state = self.state(board)
        return f"held by {self.holders([board])}" if state == "held" else state

    def holders(self, boards: List[Row]) -> str:
        """Those who hold these boards, with the owners of the first few."""
        return listed(boards, lambda it: f"{it['holder']} of {self.owner(it['holder'])}")

    def owner(self, holder: str) -> str:
        """Whose a holder is: `job 3` or `reservation 4`."""
        if holder not in self.owners:
            kind, number = holder.split()
            board = self.held_by(holder)
            if kind == "job":
                run = self.now.row_of(present.JOBS, int(number), board["name"]) if self.now and board else None
                self.owners[holder] = (run or self.desk.look(f"/jobs/{number}"))["owner"]
            else:
                for row in self.desk.look("/reservations")["reservations"]:
                    self.owners[f"reservation {row['number']}"] = row["owner"]
        return self.owners.get(holder, "nobody")

    def is_met(self, wants: List[Want]) -> bool:
        """Whether free boards meet these wants."""
        return short_of(wants, self.free()) is None

    def lack(self, wants: List[Want]) -> str:
        """Which of these wants can't be met by boards that aren't Retired, Bad or in Maintenance,
        or nothing where such boards meet them all."""
        able = [it for it in self.boards if it["health"] not in OUT]
        short = short_of(wants, able)
        if short is None:
            return ""
        out = [it for it in fitting(self.boards, short) if it["health"] in OUT]
        why = listed(out, lambda it: f"{it['name']} is {OUT[it['health']]}") or "no other board fits"
        if len(short) == 1:
            return f"no {described(short[0])} can come: {why}"
        return of_boards(short, f"only {len(fitting(able, short))} can come: {why}")


def short_of(wants: List[Want], boards: List[Row]) -> Optional[Tuple[Want, ...]]:
    """Some of these wants, as few as can be, that fewer of these boards fit than they are, or None
    where there are none such: then all are met, each by a board of its own (Hall's theorem)."""
    for size in range(1, len(wants) + 1):
        for some in itertools.combinations(wants, size):
            if len(fitting(boards, some)) < size:
                return some
    return None


def why_none(desk: calls.Looker, wants: List[Want]) -> str:
    """Why the desk refuses wants (22): of the boards that aren't Retired, held or free, no list
    meets them."""
    boards = [it for it in desk.look("/boards")["boards"] if it["health"] != "Retired"]
    short = short_of(wants, boards)
    if short is None:
        return ""  # there are by now
    if len(short) > 1:
        return of_boards(short, f"there are {len(fitting(boards, short))}")
    return _lacking_tags(short[0], boards)


def explained(desk: calls.Looker, refusal: Refused, wants: List[Want]) -> Refused:
    """A refusal of wants (22), and why, as far as the desk says it."""
    try:
        why = why_none(desk, wants)
    except (Unreachable, Refused):
        why = ""
    return refusal.about(why) if why else refusal


def _lacking_tags(want: Want, boards: List[Row]) -> str:
    """Which tags of a want no board of its type has, or that none has all of them."""
    what = want.kind or "board"
    boards = [it for it in boards if want.kind in ("", it["type"])]
    lacks = [it for it in want.tags if not any(fits(board, Want("", (it,))) for board in boards)]
    if not boards:
        return f"there is no board of the type {want.kind}" if want.kind else "there is no board"
    if lacks:
        return f"no {what} has the tag{'s' if len(lacks) > 1 else ''} {' '.join(lacks)}"
    return f"no {what} has all of {' '.join(want.tags)}"


def checked_types(desk: calls.Looker) -> Set[str]:
    """The names of the types that have a check."""
    return {it["name"] for it in desk.look("/types")["types"] if it["check"] != "none"}


# ---- the queue


def place_of(desk: calls.Looker, kind: str, number: int) -> str:
    """Where a claim stands, as `place 2 of 5 in the queue`, or nothing where it isn't there."""
    queue = calls.rows_of(desk, "queue")
    for place, claim in enumerate(queue, 1):
        if (claim["kind"], claim["number"]) == (kind, number):
            return f"place {place} of {len(queue)} in the queue"
    return ""


# Of so many claims, and for so many seconds, the desk is asked what they want where the dispatcher doesn't tell it, a call
# a job; of the group that collects in any case.
MOST_ASKED, LONGEST_ASKED = 50, 3.0


class Claims:
    """What claims of the queue want, and why they wait: as the dispatcher tells it, or the desk where that doesn't."""

    def __init__(self, desk: calls.Looker):
        self.desk = calls.Remembered(desk)
        self.now = present.Present(self.desk)
        self.status: Row = {}  # where it was looked at

    @functools.cached_property
    def lab(self) -> Lab:
        return Lab(self.desk, now=self.now)

    @property
    def groups(self) -> Dict[int, Row]:
        """The groups that the dispatcher tells of."""
        return self.now.rows(present.GROUPS)

    def is_known(self, claim: Row) -> bool:
        """Whether the dispatcher tells what a group wants; of a group of another size it is another farm's word."""
        return bool(len(self.groups.get(claim["number"], {}).get("wants", ())) == claim["boards"])

    def members(self, claim: Row) -> List[Row]:
        """What the members of a group want, which have consecutive numbers; none of a reservation."""
        if claim["kind"] != "group":
            return []
        if self.is_known(claim):
            return list(self.groups[claim["number"]]["wants"])
        return [self.desk.look(f"/jobs/{claim['number'] + it}") for it in range(claim["boards"])]

    def kinds(self, claim: Row) -> List[str]:
        """The types of the boards that a claim wants; a reservation wants boards of any."""
        return list(dict.fromkeys(str(it["type"]) for it in self.members(claim)))

    def wants(self, claim: Row) -> List[Want]:
        if claim["kind"] == "group":
            return [want_of_job(it) for it in self.members(claim)]
        rows = self.desk.look("/reservations")["reservations"]
        return [want_of_reservation(it) for it in rows if it["number"] == claim["number"]]

    def reasons(self, queue: List[Row]) -> Dict[int, str]:
        """Why claims wait, by their numbers, and that one collects boards."""
        # (one of a single board collects none; a desk of the first edition has no collector)
        if any(it["boards"] > 1 for it in queue):
            self.status = self.desk.look("/status")
        collector = self.status.get("collector", 0)
        until = time.monotonic() + LONGEST_ASKED
        reasons = {}
        for place, claim in enumerate(queue):
            collects = claim["number"] == collector
            may_ask = place < MOST_ASKED and time.monotonic() <= until
            if collects or may_ask or claim["kind"] == "reservation" or self.is_known(claim):
                wanted = self.wants(claim)
                why = [*(["collects boards"] if collects else []), self.lab.reason(wanted) if wanted else ""]
                reasons[claim["number"]] = "; ".join(filter(None, why))
        return reasons
