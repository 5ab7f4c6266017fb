"""Times and sizes, as they are written and told; how long a job may run: `[timeouts] job` of its text, written as LAVA
writes it, or the dispatcher's default, and never longer than the dispatcher's most; and how far a farm's clock is ahead."""
import dataclasses
import re
import reprlib
import time
from typing import Any, Dict, List, Optional, Tuple

from fizgruk import toml_text

UNITS = {"days": 86400, "hours": 3600, "minutes": 60, "seconds": 1}
PART = re.compile(r"([0-9]+(?:\.[0-9]+)?) *(day|hour|minute|second)s?(?: *,? *|$)")
SHORT_UNITS = {"w": 7 * 86400, "d": 86400, "h": 3600, "m": 60, "s": 1}
LONGEST = 1e9
SIZES = {"kB": 1000, "MB": 1000**2, "GB": 1000**3, "TB": 1000**4}
SIZE = re.compile(r"([0-9]+(?:\.[0-9]+)?) *(kB|MB|GB|TB)?")
LARGEST = 10**15
AHEAD = 60  # seconds by which a farm's clock is ahead that aren't told yet
NO_END = "leases won't end until then"


class BadTime(ValueError):
    """A text or a table that is no time."""


@dataclasses.dataclass(frozen=True)
class Limit:
    """For how many seconds a job may run, whether that is the default, and what its log is told of
    it."""

    seconds: float
    is_default: bool = False
    remarks: Tuple[str, ...] = ()

    def words(self) -> str:
        return words_of(self.seconds) + (" (the default)" if self.is_default else "")


def time_of(said: object) -> float:
    """The seconds of a time: a table of days, hours, minutes and seconds, as LAVA has it, or these
    as a text, `1 hour 30 minutes`."""
    if isinstance(said, dict):
        seconds = sum(_number_of(unit, count) * UNITS[unit] for unit, count in said.items())
    elif isinstance(said, str):
        seconds = sum(float(count) * UNITS[f"{unit}s"] for count, unit in _parts_of(said))
    else:
        raise BadTime(f"{said!r} has no unit")
    if not 0 < seconds <= LONGEST:
        raise BadTime(f"{said!r} is no time")
    return seconds


def short_time_of(text: str, units: str) -> Optional[float]:
    """The seconds of a short text as `4h` or `1h30m`, in these units, or None where it is none."""
    parts = re.findall(rf"([0-9]{{1,6}}(?:\.[0-9]+)?)([{units}])", text)
    if not parts or "".join(count + unit for count, unit in parts) != text:
        return None
    return sum(float(count) * SHORT_UNITS[unit] for count, unit in parts)


def _number_of(unit: object, count: object) -> float:
    if unit not in UNITS:
        raise BadTime(f"{unit!r} is none of {', '.join(UNITS)}")
    if isinstance(count, bool) or not isinstance(count, (int, float)) or not 0 <= count <= LONGEST:
        raise BadTime(f"{reprlib.repr(count)} is no number of {unit}")
    return count


def _parts_of(text: str) -> List[Tuple[str, str]]:
    """The numbers and units of a text that is such pairs alone."""
    place = 0
    found: List[Tuple[str, str]] = []
    while place < len(text):
        part = PART.match(text, place)
        if part is None:
            raise BadTime(f"{text!r} isn't like '1 hour 30 minutes'")
        found.append((part[1], part[2]))
        place = part.end()
    return found


def size_of(text: str) -> int:
    """The bytes of a size: a number of them, or `100 MB`."""
    match = SIZE.fullmatch(text.strip())
    if match is None:
        raise BadTime(f"{text!r} isn't like '100 MB'")
    size = float(match[1]) * SIZES.get(match[2] or "", 1)
    if not 1 <= size <= LARGEST:
        raise BadTime(f"{text!r} is no size")
    return int(size)


def size_words(size: int) -> str:
    """A size in words: `100 MB`."""
    unit = max((it for it in SIZES.items() if it[1] <= size), key=lambda it: it[1], default=None)
    return f"{size / unit[1]:g} {unit[0]}" if unit else f"{size} bytes"


def words_of(seconds: float) -> str:
    """A time in words, in its two largest units: `1 hour 30 minutes`."""
    left, parts = int(seconds), []
    for unit, length in UNITS.items():
        count, left = divmod(left, length)
        parts.append(f"{count:,} {unit if count != 1 else unit[:-1]}" if count else "")
    first = next((place for place, it in enumerate(parts) if it), None)
    if first is None:
        return f"{seconds:g} seconds"
    return " ".join(it for it in parts[first : first + 2] if it)


def clock_ahead(status: Dict[str, Any], meaning: str) -> str:
    """That a farm's clock, which each command moves and which never falls back, is by its status ahead of this machine's,
    and what that means; nothing where it isn't by more than a minute."""
    seconds = status["clock"] - time.time()
    if seconds <= AHEAD:
        return ""
    return f"the farm's clock is {words_of(seconds)} ahead of this machine's: {meaning}"


def limit_of(text: str, default: float, most: float) -> Limit:
    """A job's limit by its text, of which a health check has none."""
    try:
        asked = _asked(text)
    except BadTime as fault:
        told = f"{fault}: the time limit is {words_of(default)}, the default"
        return Limit(default, True, (told,))
    if asked is None:
        return Limit(default, True)
    if asked > most:
        told = f"timeouts.job is {words_of(asked)}: the limit is {words_of(most)}, the most here"
        return Limit(most, False, (told,))
    return Limit(asked)


def _asked(text: str) -> Optional[float]:
    """The seconds that a job's text names, or None where it names none."""
    if not text.strip():
        return None
    try:
        table = toml_text.tree_of(text)
    except toml_text.NotToml as fault:
        raise BadTime(f"the job's text can't be read for its timeouts ({fault})") from fault
    if "timeouts" not in table:
        return None
    timeouts = table["timeouts"]
    if not isinstance(timeouts, dict):
        raise BadTime("timeouts is no table")
    if "job" not in timeouts:
        raise BadTime("timeouts has no 'job'")
    try:
        return time_of(timeouts["job"])
    except BadTime as fault:
        raise BadTime(f"timeouts.job can't be read: {fault}") from fault
