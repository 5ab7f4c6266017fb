"""What the desk's views and commands answer, field by field as docs/API.md has them.

A text that the wire leaves empty, as the board of a job that has none, is empty here too; a moment
that it has as 0 is None. Moments are in UTC.
"""
import dataclasses
import datetime
import functools
import reprlib
from typing import Any, Callable, Dict, Literal, NamedTuple, Optional, Tuple, TypeVar, cast

from fizgruk.errors import Unreachable
from fizgruk.ways import Ways

Check = Literal["none", "hours", "jobs"]
Health = Literal["Good", "Bad", "Unknown", "Maintenance", "Retired"]
BoardState = Literal["Idle", "Reserved", "Running"]
JobKind = Literal["ordinary", "check"]
JobState = Literal["Submitted", "Scheduling", "Scheduled", "Running", "Canceling", "Finished"]
Outcome = Literal["Complete", "Incomplete", "Infra"]
Result = Literal["", "Complete", "Incomplete", "Infra", "Canceled"]
ReservationState = Literal["waiting", "allocated", "acquired", "expired", "canceled"]
ClaimKind = Literal["group", "reservation"]
Tags = Tuple[str, ...]
Moment = Optional[datetime.datetime]


class Holder(NamedTuple):
    """Who holds a board: a job or a reservation."""

    kind: Literal["job", "reservation"]
    number: int

    def __str__(self) -> str:
        return f"{self.kind} {self.number}"


Held = Optional[Holder]


@dataclasses.dataclass(frozen=True)
class TypeView:
    """A kind of board, and how often its boards are checked."""

    name: str
    check: Check
    every: int


@dataclasses.dataclass(frozen=True)
class BoardView:
    """A board as everybody sees it. `holder` is None where it is free, and `last_check` where there
    was none."""

    name: str
    type: str
    tags: Tags
    health: Health
    state: BoardState
    holder: Held
    jobs_since: int
    last_check: Moment

    def fits(self, *tags: str) -> bool:
        """Whether it has all of these tags, `name=` and its name among them."""
        return set(tags) <= {*self.tags, f"name={self.name}"}


@dataclasses.dataclass(frozen=True)
class JobView:
    """A job, which is a member of its group: a job of one board is a group of one."""

    number: int
    group: int
    kind: JobKind
    state: JobState
    result: Result
    board: str
    type: str
    tags: Tags
    role: str
    owner: str
    priority: int
    text: str


@dataclasses.dataclass(frozen=True)
class ReservationView:
    """A reservation. `deadline` ends one that waits or is allocated."""

    number: int
    state: ReservationState
    board: str
    tags: Tags
    owner: str
    priority: int
    deadline: Moment


@dataclasses.dataclass(frozen=True)
class Claim:
    """What waits in the queue, and for how many boards."""

    number: int
    kind: ClaimKind
    owner: str
    priority: int
    boards: int


@dataclasses.dataclass(frozen=True)
class Status:
    """The farm in numbers."""

    clock: Moment
    count: int
    next: int
    collector: int
    types: int
    boards: int
    jobs: int
    reservations: int


@dataclasses.dataclass(frozen=True)
class PassCounts:
    """What a pass did: checks made, reservations that ended, claims that got their boards."""

    checks: int
    expired: int
    served: int


@dataclasses.dataclass(frozen=True)
class Results:
    """The counts of a job's junit.xml, and the names of the first tests that failed or had an error."""

    passed: int
    failed: int
    errors: int
    skipped: int
    names: Tags


@dataclasses.dataclass(frozen=True)
class Left:
    """What a job left in `out` of its folder: files that are kept, their bytes, and how many weren't kept."""

    files: int
    bytes: int
    left_out: int


@dataclasses.dataclass(frozen=True)
class PastJob:
    """A job that ended, as the dispatcher's history has it. `submitted` is None where nobody knows, `tests` and
    `artifacts` where it left none."""

    job: int
    group: int
    owner: str
    boards: Tags
    type: str
    name: str
    submitted: Moment
    began: Moment
    ended: Moment
    outcome: Result
    reason: str
    tests: Optional[Results] = None
    artifacts: Optional[Left] = None


@dataclasses.dataclass(frozen=True)
class HealthChange:
    """A change of a board's health that the dispatcher saw."""

    board: str
    before: str
    after: str
    at: Moment
    reason: str


@dataclasses.dataclass(frozen=True)
class Use:
    """What an owner used, or of a board or a type was used, by jobs that ended, and by people's holds
    (`holds`, of `held` hours), where farm-watch keeps these. Waits, in seconds, are None where it isn't
    known when jobs were submitted; `waited_ninth` is longer than nine of ten."""

    name: str
    jobs: int
    complete: int
    incomplete: int
    infra: int
    canceled: int
    hours: float
    holds: int
    held: float
    waited_median: Optional[int]
    waited_ninth: Optional[int]


@dataclasses.dataclass(frozen=True)
class Board(Ways):
    """A board that is yours, and the reservation that holds it."""

    name: str
    type: str
    tags: Tags
    reservation: int
    to: str = dataclasses.field(default="", compare=False, repr=False)  # where ssh(1) goes for it

    def value(self, key: str) -> Optional[str]:
        """What stands behind `key=` in its tags, as `pdu2` of `power=pdu2`."""
        for tag in self.tags:
            if tag.startswith(f"{key}="):
                return tag[len(key) + 1 :]
        return None


View = TypeVar("View")
# Views within a view, which may not be there.
MAYBE: Dict[object, Callable[..., Any]] = {Optional[Results]: Results, Optional[Left]: Left}


def view_of(kind: Callable[..., View], told: Any) -> View:
    """What the desk told, as a view of this kind. Fields that the view hasn't are left out, so that
    a later desk may tell more; words are taken as they come."""
    fault = fault_of(kind, told, True)
    if fault:
        raise Unreachable(f"the answer isn't a desk's: {fault}")
    return kind(**{name: value_of(told.get(name), field) for name, field, _ in _plain_kinds(kind)})


@functools.lru_cache(maxsize=None)
def _plain_kinds(kind: Callable[..., object]) -> Tuple[Tuple[str, Any, Optional[type]], ...]:
    """The fields of a view, their kinds, and what Python has for those of a plain one."""
    others = (Tags, Held, Moment, *MAYBE)
    return tuple(
        (it.name, it.type, None if it.type in others else int if it.type is int else str)
        for it in dataclasses.fields(cast(Any, kind))
    )


def fault_of(kind: Callable[..., object], told: object, is_whole: bool = False) -> str:
    """What isn't of its kind in a view, if anything. What it lacks is a fault of a whole one alone."""
    if not isinstance(told, dict):
        return f"a row is {reprlib.repr(told)}"
    for name, field, plain in _plain_kinds(kind):
        value = told.get(name)
        if type(value) is plain or not (is_whole or name in told):
            continue
        try:
            value_of(value, field)
        except (ValueError, Unreachable):
            return f"{name} is {reprlib.repr(value)}"
    return ""


def value_of(value: object, kind: object) -> object:
    """What the wire has, as a field of this kind. Raises ValueError where it is none."""
    if kind is Tags:
        if isinstance(value, list) and all(isinstance(it, str) for it in value):
            return tuple(value)
    elif kind is Held:
        return holder_of(value)
    elif kind in MAYBE:
        return None if value is None else view_of(MAYBE[kind], value)
    elif kind in (int, Moment) and isinstance(value, int) and not isinstance(value, bool):
        return moment_of(value) if kind is Moment else value
    elif kind is Moment and value is None:
        return None
    elif kind not in (int, Moment) and isinstance(value, str):
        return value
    raise ValueError


def moment_of(seconds: int) -> Moment:
    """A moment in seconds since 1970, where 0 is none."""
    try:
        return datetime.datetime.fromtimestamp(seconds, datetime.timezone.utc) if seconds else None
    except (OverflowError, OSError) as fault:
        raise ValueError from fault


def holder_of(value: object) -> Held:
    """Who holds a board, by `none`, `job 3` or `reservation 4`."""
    kind, _, number = value.partition(" ") if isinstance(value, str) else ("", "", "")
    if kind in ("job", "reservation") and number.isdecimal():
        return Holder(cast(Any, kind), int(number))
    if value == "none":
        return None
    raise ValueError
