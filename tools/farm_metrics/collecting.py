"""What is counted of a farm: by the desk's views that don't grow with the farm's age, and by the
lines that the dispatcher's history has got since they were counted last."""
import json
import os
import threading
import time
from typing import Any, Dict, Iterable, List, Optional, Sequence, Tuple

from prometheus_client.core import CounterMetricFamily, GaugeMetricFamily, Metric
from prometheus_client.registry import Collector

from fizgruk import calls, present
from fizgruk._tools import disk, passes, service
from fizgruk.errors import Refused, Unreachable
from fizgruk.words import HEALTHS, MOST_BOARDS, MOST_JOBS, MOST_RESERVATIONS, MOST_TYPES

STATES = ("Idle", "Reserved", "Running")
KINDS = ("group", "reservation")
OUTCOMES = ("Complete", "Incomplete", "Infra", "Canceled")
# What is read of the dispatcher's files, which others may have written: a look reads so many bytes, of which no line
# is longer.
MOST_AT_ONCE, LONGEST_LINE, LONGEST_STATE = 64_000_000, 65_536, 64_000_000
MOST_OUTCOMES, LONGEST_OUTCOME, OTHER = 20, 48, "other"
LOST = "nothing is kept for the next time"
# How many rows a farm takes, of the tables whose rows the desk counts.
LIMITS = {"types": MOST_TYPES, "boards": MOST_BOARDS, "jobs": MOST_JOBS, "reservations": MOST_RESERVATIONS}


class FarmCollector(Collector):
    """Counts, and keeps what the next count needs: since when a claim is seen, and how far the
    history was read."""

    def __init__(
        self, desk: calls.Desk, history: str, counted: str, state: Optional[str], access: str, told: service.Troubles
    ):
        """`history` and `counted` are the dispatcher's files of jobs that ended and of passes, `access` is
        farm-access's file of boards, `state` the file that keeps what the next process needs, and `told` tells what is in
        the way."""
        self.desk, self.counted, self.access, self.state, self.told = desk, counted, access, state, told
        found = disk.object_in(state, LONGEST_STATE) if state else {}
        self.count = int(found.get("count", 0))
        self.seen: Dict[str, float] = dict(found.get("seen", {}))
        self.history = JobCounts(history, found.get("history", {}))
        self.no_answer = f"no answer from the desk at {desk.server}"
        self.troubles: Dict[str, str] = {}  # what isn't counted or kept, and why
        self.lock = threading.Lock()

    def collect(self) -> List[Metric]:
        """All metrics, as of now, for one client after another."""
        with self.lock:
            self.troubles = {}
            families = [*self._of_the_desk(), *self._passes(), *self._jobs(), *self._workers(), *self._shut()]
            self._keep()
            self.told.are(*(f"{about}: {why}" for about, why in self.troubles.items()))
            return families

    def has_failed(self) -> bool:
        """Whether nothing is known of the desk, or of this count to the next process."""
        return not self.troubles.keys().isdisjoint((self.no_answer, LOST))

    def _of_the_desk(self) -> List[Metric]:
        try:
            status = self.desk.look("/status")
            boards = self.desk.look("/boards")["boards"]
            queue = self.desk.look("/queue")["queue"]
        except (Unreachable, Refused) as fault:
            self.troubles[self.no_answer] = getattr(fault, "trouble", str(fault))
            return [_up(0)]
        bad = [it["name"] for it in boards if it["health"] == "Bad"]
        named = _named("fizgruk_board_bad", "Boards that are Bad.", bad)
        return [_up(1), boards_of(boards), *named, *self._claims(status, queue), *_of_status(status)]

    def _claims(self, status: Dict[str, int], queue: List[Dict[str, Any]]) -> List[Metric]:
        """The claims that wait, and since when the oldest is seen: the desk doesn't tell when one
        was made, but numbers grow."""
        now = time.time()
        former = self.seen if status["count"] >= self.count else {}  # else it is the next farm
        self.count = status["count"]
        self.seen = {str(it["number"]): former.get(str(it["number"]), now) for it in queue}
        since = self.seen[min(self.seen, key=int)] if queue else now
        waiting = [([kind], sum(it["kind"] == kind for it in queue)) for kind in KINDS]
        about = "Claims that wait for boards."
        age = "Seconds since the oldest claim that waits was first seen here."
        return [
            gauges("fizgruk_claims_waiting", about, ["kind"], waiting),
            GaugeMetricFamily("fizgruk_oldest_claim_age_seconds", age, max(0.0, now - since)),
        ]

    def _workers(self) -> List[Metric]:
        """Which workers answer, as the dispatcher tells it beside its history; nothing where it tells none."""
        shown = present.Present(self.desk, os.path.dirname(self.history.file) or ".")
        found = sorted(shown.rows(present.ALL_WORKERS).values(), key=lambda it: str(it["name"]))[:MOST_BOARDS]
        rows = [([str(it["name"])], float(it["answers"])) for it in found]
        return [gauges("fizgruk_worker_up", "Whether a worker answers the dispatcher.", ["worker"], rows)] if rows else []

    def _shut(self) -> List[Metric]:
        """Which boards farm-access keeps shut; nothing where there is none, or no farm-access."""
        boards = disk.object_in(self.access, LONGEST_STATE).get("boards")
        rows = boards.items() if isinstance(boards, dict) else ()
        shut = sorted(name for name, it in rows if isinstance(it, dict) and it.get("shut"))[:MOST_BOARDS]
        return _named("fizgruk_board_shut", "Boards that farm-access keeps shut.", shut)

    def _passes(self) -> List[Metric]:
        """How many passes there were, and since when there is none; without the dispatcher's file, why there is nothing."""
        name, about = "fizgruk_passes_total", "Passes that the dispatcher asked for."
        try:
            found = passes.passes_in(self.counted)
        except FileNotFoundError:
            return [CounterMetricFamily(name, f"{about} None are counted: no {self.counted}.")]
        except (OSError, ValueError) as fault:
            self.troubles["passes aren't counted"] = str(fault)
            return []
        age = max(0.0, time.time() - found.at)
        last = "Seconds since the last of them."
        return [
            CounterMetricFamily(name, about, found.count),
            GaugeMetricFamily("fizgruk_last_pass_age_seconds", last, age),
        ]

    def _jobs(self) -> List[Metric]:
        try:
            self.history.read()
        except FileNotFoundError:
            pass
        except OSError as fault:
            self.troubles["jobs aren't counted"] = str(fault)
        return self.history.families()

    def _keep(self) -> None:
        kept = {"count": self.count, "seen": self.seen, "history": self.history.state()}
        try:
            if self.state is not None:
                disk.write_whole(self.state, json.dumps(kept), 0o600)
        except OSError as fault:
            self.troubles[LOST] = str(fault)


class JobCounts:
    """How many jobs ended how, by the dispatcher's history."""

    def __init__(self, file: str, state: Dict[str, Any]):
        self.file = file
        self.inode = int(state.get("inode", 0))
        self.offset = int(state.get("offset", 0))
        self.outcomes: Dict[str, int] = dict(state.get("outcomes", {}))

    def state(self) -> Dict[str, Any]:
        return {"inode": self.inode, "offset": self.offset, "outcomes": self.outcomes}

    def families(self) -> List[Metric]:
        """What there is to tell; nothing where there is no history."""
        if not self.inode:
            return []
        names = [*OUTCOMES, *sorted(self.outcomes.keys() - set(OUTCOMES))]
        family = CounterMetricFamily("fizgruk_jobs_ended_total", "Jobs that ended.", labels=["outcome"])
        for name in names:
            family.add_metric([name], self.outcomes.get(name, 0))
        return [family]

    def read(self) -> None:
        """Counts the whole lines that are new; a file that is another one, or was cut, is read from
        its beginning."""
        with open(disk.opened_file(self.file), "rb") as lines:
            found = os.fstat(lines.fileno())
            if found.st_ino != self.inode or found.st_size < self.offset:
                self.inode, self.offset = found.st_ino, 0
            lines.seek(self.offset)
            until = self.offset + MOST_AT_ONCE
            while self.offset < until:
                line = lines.readline(LONGEST_LINE)
                if len(line) == LONGEST_LINE:
                    raise OSError(f"{self.file} has a line of {LONGEST_LINE:,} bytes or more")
                if not line.endswith(b"\n"):
                    break
                self.offset += len(line)
                self._count(_outcome_of(line))

    def _count(self, outcome: str) -> None:
        """Counts a job; of outcomes that aren't the desk's a few have their own names."""
        if not outcome:
            return
        if outcome not in OUTCOMES and outcome not in self.outcomes and len(self.outcomes) >= MOST_OUTCOMES:
            outcome = OTHER
        self.outcomes[outcome] = self.outcomes.get(outcome, 0) + 1


def _outcome_of(line: bytes) -> str:
    """How a job ended of which a line is; nothing of other lines."""
    row = disk.object_of(line)
    return str(row.get("outcome", ""))[:LONGEST_OUTCOME] if row.get("kind") == "job" else ""


# ---- by the desk's views


def _up(value: int) -> Metric:
    return GaugeMetricFamily("fizgruk_up", "Whether the desk answers.", value)


def _named(name: str, about: str, boards: Sequence[str]) -> List[Metric]:
    """A metric that has these boards alone; nothing where there are none."""
    return [gauges(name, about, ["board"], [([it], 1) for it in boards])] if boards else []


def boards_of(boards: List[Dict[str, Any]]) -> Metric:
    """How many boards there are of each type, health and state."""
    counts = {
        (kind, health, state): 0
        for kind in sorted({it["type"] for it in boards})
        for health in HEALTHS
        for state in STATES
    }
    for it in boards:
        key = (it["type"], it["health"], it["state"])
        counts[key] = counts.get(key, 0) + 1
    return gauges("fizgruk_boards", "Boards.", ["type", "health", "state"], counts.items())


def _of_status(status: Dict[str, int]) -> List[Metric]:
    rows = [([it], status[it]) for it in LIMITS]
    limits = [([it], most) for it, most in LIMITS.items()]
    age = "Seconds since the last command; below 0 the farm's clock is ahead."
    collects = "Number of the group that collects boards, 0 while none does."
    return [
        GaugeMetricFamily("fizgruk_collecting_group", collects, status["collector"]),
        CounterMetricFamily(
            "fizgruk_commands_total", "Commands that were accepted.", status["count"]
        ),
        GaugeMetricFamily("fizgruk_last_command_age_seconds", age, time.time() - status["clock"]),
        gauges("fizgruk_rows", "Rows that the farm has.", ["table"], rows),
        gauges("fizgruk_rows_limit", "Rows that the farm can have.", ["table"], limits),
    ]


def gauges(
    name: str, about: str, labels: Sequence[str], samples: Iterable[Tuple[Sequence[str], float]]
) -> Metric:
    """A metric with a value for each of its labels."""
    family = GaugeMetricFamily(name, about, labels=labels)
    for values, value in samples:
        family.add_metric(values, value)
    return family
