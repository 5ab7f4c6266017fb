"""Growths of memory of four rows are refused, every so manyth, one in each run (test_refused_memory.py).

The player of transcripts (crates/farm_play) plays the first type, a pass on an empty farm, a check that goes first
and a lease that ends, over a store of two files in memory. Behind each command the farm is looked at through its
keeper, and once more in what the files hold after a crash. Up to the growth that is refused each answer is what the
row says, and so it may go on. Else the command is answered with code 1 or 60. After 60 the keeper is closed; after 1
it is closed, or the farm and the tables agree. A closed one answers every request with 61. What the files hold is the
farm before the command, or the one after it where the keeper wasn't closed by 1. The player's own growths beside a
command's (its lines, the writer that is answered into) are told apart, and not counted.
"""
import collections
import concurrent.futures
import os
import random
import re
import struct
import subprocess
import tempfile
import typing
from typing import Any, Dict, Iterable, List, Optional, Tuple

DATA = os.path.join(os.path.dirname(os.path.realpath(__file__)), "../../crates/farm_play/data")
ROWS = [
    ("types", "first_type"), ("jobs", "pass_on_empty_farm"), ("checks", "check_goes_first"), ("leases", "lease_ends"),
]
LOOKS = ["/status", "/types", "/boards", "/reservations", "/queue", "/jobs/1", "/jobs/2"]
NO_MEMORY, STORE_FAULT, CLOSED = (
    f'503 {{"code":{code},"text":"{text}"}}' for code, text in ((1, "no memory"), (60, "store fault"), (61, "closed"))
)
Ask = List[Any]  # the lines of a request, and its answer
Growth = Tuple[int, int]  # its number, and the place of its command
STEP = re.compile(rb"^\[[0-9]+\] ", re.MULTILINE)
ANSWER = re.compile(rb"\nHTTP/1\.1 ([0-9]{3}) [^\r\n]*\r\n(?:[^\r\n]+\r\n)*\r\n([{][^\n]*[}])\n(?!ended )")


def asked_in(file: str, name: str) -> List[Ask]:
    """The requests of a transcript, behind those that go before it: each with its lines and its answer."""
    asks: List[Ask] = []
    is_found, moment = False, ""
    for line in open(f"{DATA}/{file}", encoding="utf-8").read().split("\n"):
        if line.startswith("== "):
            is_found = line == f"== {name}"
        elif not is_found or not line or line.startswith(("#", "count", "=", "<= ")):
            continue
        elif line.startswith("after "):
            asks += asked_in("setups", line[6:])
        elif line.startswith("at "):
            moment = line
        elif line.startswith("< "):
            asks[-1][1] = line[2:]
        elif line.startswith("<< "):
            asks[-1][1] = " ".join([line.split()[2], line.split(r"\r\n\r\n")[1]])
        elif line.startswith(("> ", ">> ")):
            asks.append([[moment, line], None])
        else:
            asks[-1][0].append(line)
    return asks


Sums = typing.Counter[str]


class Run:
    """What a run showed, step by step: the answers, or what else a step gave."""

    def __init__(self, given: bytes, counts: List[Tuple[int, int]]):
        parts = STEP.split(given)[1:]
        found = [ANSWER.search(part) for part in parts]
        self.answers = [f"{it[1].decode()} {it[2].decode()}" if it else None for it in found]
        # (how many growths there were when a step was shown)
        self.counts: List[int] = []
        places, at = [it.start() for it in STEP.finditer(given)], 0
        for count, length in counts:
            while len(self.counts) < len(places) and places[len(self.counts)] < at + length:
                self.counts.append(count)
            at += length


class Row:
    """A row's commands, and the farm after each of them."""

    def __init__(self, file: str, name: str, player: str, library: str, folder: str):
        self.name, self.player, self.library = name, player, library
        self.folder = tempfile.mkdtemp(dir=folder)
        self.asks = [ask for ask in asked_in(file, name) if " POST " in ask[0][1]]
        # what each look shows before the first command and after each
        self.farms: List[List[Optional[str]]] = [[None] * len(LOOKS) for _ in range(len(self.asks) + 1)]
        for place in range(len(self.farms)):
            for at in range(len(LOOKS)):
                self.learn(place, at)

    def looks(self, place: int, old: int) -> List[str]:
        """The lines of looks at the farm after so many commands: what it shows, or showed before the last."""
        lines = []
        for at, path in enumerate(LOOKS):
            lines.append(f"> - GET {path}")
            farms = {self.farms[place][at], self.farms[old][at], CLOSED}
            lines += "\nor\n".join(f"< {it}" for it in sorted(filter(None, farms))).split("\n")
        return lines

    def lines(self, until: int) -> List[str]:
        """The transcript up to that command: each command with looks through the keeper and in the files."""
        lines = [f"== {self.name}"]
        for place in range(until + 1):
            if place:
                lines += self.asks[place - 1][0]
                lines += f"< {self.asks[place - 1][1]}\nor\n< {NO_MEMORY}\nor\n< {STORE_FAULT}".split("\n")
            looks = self.looks(place, max(place - 1, 0))
            lines += looks
            if place:
                lines += ["crash", "= stopped", "or", "open", "= open", *looks]
        return lines

    def learn(self, place: int, at: int) -> None:
        """Learns what a look shows: the step that is shown last, since nothing else is known to be wanted."""
        lines = self.lines(place)
        looks = self.looks(place, max(place - 1, 0))
        end = lines.index("crash", len(lines) - 2 * len(looks) - 3) if place else len(lines)
        head = end - len(looks) + looks.index(f"> - GET {LOOKS[at]}")
        path = f"{self.folder}/learnt"
        open(path, "w", encoding="utf-8").write("\n".join([*lines[: head + 1], "<< ?"]) + "\n")
        run = self.play(path, {})
        assert run.answers and run.answers[-1], f"{self.name}: a look shows nothing: {run.answers}"
        self.farms[place][at] = run.answers[-1]

    def play(self, path: str, more: Dict[str, str]) -> Run:
        environment = {**os.environ, **more}
        with tempfile.NamedTemporaryFile(dir=self.folder) as notes:
            environment["COUNTED"] = notes.name
            environment["LD_PRELOAD"] = self.library
            ran = subprocess.run([self.player, "show", path], env=environment, capture_output=True, check=False)
            pairs = notes.read()
        return Run(ran.stdout, [(it[0], it[1]) for it in struct.iter_unpack("<qq", pairs)])

    def steps(self) -> List[int]:
        """How many steps there are, and which of them are commands."""
        each = 2 * len(LOOKS) + 3
        return [len(LOOKS) + each * place for place in range(len(self.asks))]

    def judge(self, run: Run, place: int) -> str:
        """Whether a run's command was answered as with ample memory, with 1, with 60, or lost by the player."""
        at = self.steps()[place]
        if len(run.answers) <= at or run.answers[at] is None:
            return "the player's own"
        told, due = run.answers[at], self.asks[place][1]
        kept = run.answers[at + 1 : at + 1 + len(LOOKS)]
        held = run.answers[at + 3 + len(LOOKS) : at + 3 + 2 * len(LOOKS)]
        old, new = self.farms[place], self.farms[place + 1]
        is_closed = kept == [CLOSED] * len(LOOKS)
        is_well = {
            due: (kept, held) == (new, new),
            NO_MEMORY: held == old if is_closed else kept == held and held in (old, new),
            STORE_FAULT: is_closed and held in (old, new),
        }.get(told, False)
        assert is_well, (
            f"{self.name}: {self.asks[place][0]} was answered {told}; the keeper shows {kept}, the files {held}"
        )
        return {due: "as with ample memory", NO_MEMORY: "1, closed" if is_closed else "1"}.get(told, "60")

    def try_growth(self, number: int, place: int) -> str:
        return self.judge(self.play(self.path, {"REFUSE": str(number)}), place)

    def tried(self, pool: concurrent.futures.Executor, growths: Iterable[Growth]) -> Sums:
        """Refuses these growths, each with the place of its command. How many there were, by what came of them."""
        kinds = pool.map(lambda growth: self.try_growth(*growth), growths)
        return collections.Counter(kinds)

    def growths(self) -> List[Growth]:
        """The growths of each command, with its place."""
        self.path = f"{self.folder}/whole"
        open(self.path, "w", encoding="utf-8").write("\n".join(self.lines(len(self.asks))) + "\n")
        counts = self.play(self.path, {}).counts
        return [
            (number, place) for place, at in enumerate(self.steps())
            for number in range(counts[at - 1] + 1, counts[at] + 1)
        ]


def has_each_kind(name: str, sums: Sums) -> bool:
    """Whether growths of the machine and of the store were refused. (A pass on an empty farm wants no memory of the
    machine.)"""
    return bool(sums["60"]) and bool(sums["1, closed"] or name == "pass_on_empty_farm")


def try_row(file: str, name: str, player: str, library: str, folder: str, every: int) -> None:
    """Refuses every so manyth growth of a row's commands, and the others where these were of too few kinds."""
    row = Row(file, name, player, library, folder)
    growths, begins = row.growths(), list(range(every))
    random.shuffle(begins)
    sums: Sums = collections.Counter()
    with concurrent.futures.ThreadPoolExecutor(os.cpu_count()) as pool:
        while begins and not has_each_kind(name, sums):
            sums += row.tried(pool, growths[begins.pop()::every])
    assert has_each_kind(name, sums), f"{name}: no growth of the machine or of the store was refused: {sums}"
