"""The limits of a farm (docs/MACHINE.md), and the words of job and lab files, and whether a text is one: the same rules
as the desk's."""
import contextlib
import re
from typing import Any, Dict, Iterable, Iterator, List, Optional, Tuple

HEALTHS = ("Good", "Bad", "Unknown", "Maintenance", "Retired")
NAME, TAG_KEY, TAG_VALUE = 48, 32, 64
MOST_TAGS, MOST_TYPES, MOST_BOARDS, MOST_OF_A_TYPE = 16, 64, 256, 64
MOST_JOBS, MOST_RESERVATIONS = 100_000, 100_000
HIGHEST_PRIORITY, MOST_WANTS, LONGEST_EVERY = 100, 4, 10000
LONGEST_JOB_FILE, LONGEST_LAB_FILE = 65536, 1048576

LETTER = "[A-Za-z0-9_.-]"
NAMES = re.compile(f"{LETTER}{{1,{NAME}}}")
TAGS = re.compile(f"{LETTER}{{1,{TAG_KEY}}}(={LETTER}{{1,{TAG_VALUE}}})?")


def nearest(word: str, known: Iterable[str]) -> Optional[str]:
    """The known word that a misspelt one may mean, if one is near."""
    import difflib  # (which a tool that has its words right begins without)

    return next(iter(difflib.get_close_matches(word, list(known), 1)), None)


class BadFile(Exception):
    """A rule that a file breaks; `path` are the keys under which it does, where they are known."""

    path: Tuple[str, ...] = ()


@contextlib.contextmanager
def at(*path: str) -> Iterator[None]:
    """Says of a rule that is broken within it under which keys that is."""
    try:
        yield
    except BadFile as fault:
        fault.path = (*path, *fault.path)
        raise


def table_of(value: object, what: str) -> Dict[str, Any]:
    if not isinstance(value, dict):
        raise BadFile(f"{what} isn't a table")
    return value


def name_of(value: object, what: str) -> str:
    if value is None:
        raise BadFile(f"there is no {what}")
    if not isinstance(value, str):
        raise BadFile(f"{what} isn't a text")
    if not NAMES.fullmatch(value):
        letters = "letters, digits, '-', '_', '.'"
        raise BadFile(f"{what} {value!r} isn't a name of 1 to {NAME} {letters}")
    return value


def board_name_of(value: object, what: str) -> str:
    """The name of a board that is to be added. The desk takes `.` and `..` too, but what stands between it and its
    users takes an address with these for another one."""
    name = name_of(value, what)
    if name in (".", ".."):
        raise BadFile(f"{what} {name!r} would lead its address elsewhere")
    return name


def whole_of(value: object, what: str) -> int:
    if value is None:
        raise BadFile(f"there is no {what}")
    if not isinstance(value, int) or isinstance(value, bool):
        raise BadFile(f"{what} isn't a whole number")
    return value


def tags_of(value: object) -> List[str]:
    """Tags under the key `tags`; absent means none."""
    if value is None:
        return []
    if not isinstance(value, list) or not all(isinstance(it, str) for it in value):
        raise BadFile("tags isn't an array of texts")
    if len(value) > MOST_TAGS:
        raise BadFile(f"there are {len(value)} tags, and {MOST_TAGS} at most are taken")
    for it in value:
        if not TAGS.fullmatch(it):
            raise BadFile(f"{it!r} isn't a tag: a key, or key=value")
    return value
