"""What a group of jobs left in `out` of its folder, as farm-dispatch keeps it: artifacts/GROUP, whose files have numbers
for names, so that no job says how a file is named there, and index.json, which has each number's name."""
import dataclasses
import json
from typing import Any, Dict, List

from fizgruk.models import Results, view_of

FOLDER, INDEX = "artifacts", "index.json"
MOST_FILES = 10_000
LONGEST_NAME = 400  # bytes of a path
MOST_INDEX = 8_000_000  # bytes, which none of so many files has


class BadIndex(ValueError):
    """A list of artifacts isn't one that farm-dispatch wrote."""


@dataclasses.dataclass(frozen=True)
class Artifact:
    """A file that a job left: its path below `out`, its bytes, and its number among those of its group."""

    name: str
    size: int
    number: int


def is_name(name: object) -> bool:
    """Whether a text is a path of a file below a folder, in letters that can be shown."""
    if not isinstance(name, str) or not name.isprintable():
        return False
    is_short = len(name.encode(errors="replace")) <= LONGEST_NAME
    return is_short and all(it not in ("", ".", "..") for it in name.split("/"))


def shown(name: str, longest: int) -> str:
    """A stranger's name as it is told: with a mark for what can't be shown, and cut."""
    text = "".join(it if it.isprintable() else "?" for it in name)
    return text if len(text) <= longest else f"{text[: longest - 2]}.."


def index_of(said: bytes) -> Dict[str, Any]:
    """What an index says, whose files have names and numbers as they should."""
    try:
        index = json.loads(said)
        numbers = [it[key] for it in index["files"] for key in ("number", "size")]
        names = [it["name"] for it in index["files"]]
        left = [it[key] for it in index["left_out"] for key in ("name", "why")]
    except (ValueError, TypeError, KeyError, RecursionError) as fault:
        raise BadIndex("it is no list of artifacts") from fault
    are_numbers = all(type(it) is int and it >= 0 for it in [*numbers, index.get("more_left_out", 0)])
    if not are_numbers or not all(map(is_name, names)) or len(set(names)) != len(names):
        raise BadIndex("it names what is no artifact")
    if len(names) > MOST_FILES or not all(isinstance(it, str) for it in left):
        raise BadIndex("it is no list of artifacts")
    return dict(index)


def files_of(index: Dict[str, Any]) -> List[Artifact]:
    return [Artifact(it["name"], it["size"], it["number"]) for it in index["files"]]


def counts_in_words(tests: Dict[str, Any]) -> str:
    """The counts of tests, without those that are 0."""
    counts = view_of(Results, tests)
    named = {"passed": counts.passed, "failed": counts.failed, "errors": counts.errors, "skipped": counts.skipped}
    return ", ".join(f"{it} {name}" for name, it in named.items() if it) or "no tests"
