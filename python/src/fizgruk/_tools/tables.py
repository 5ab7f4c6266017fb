"""Views of the desk as lines of text."""
import functools
import time
from typing import Any, Callable, Dict, List, Mapping, Sequence, Tuple

from fizgruk import limits

Column = Tuple[str, Callable[[Dict[str, Any]], Any]]  # its title, and what a row has there
LEASED = ("waiting", "allocated")
ENDED = ("expired", "canceled")
WIDEST = 60  # a job's name, or a reason
# Where lines are wider than the terminal, columns are left out, in this order, until there is room for the others with
# these texts cut; the first two columns are never cut.
LEFT_OUT = ("CHECKED", "KIND", "ROLE", "GROUP", "PRIORITY", "BOARDS", "TOOK", "TYPE", "BEGAN", "RESULT", "TESTS", "TAGS")
CUT = ("TAGS", "NAME", "REASON", "TESTS", "ABOUT", "COMMAND", "BODY")
SHORTEST = 16  # letters to which they are cut
SHORT = 120  # seconds that are shown as such


def of(*keys: str) -> List[Column]:
    """Columns of what rows have under these keys, which are their titles too."""
    return [(it.upper(), functools.partial(_shown, it)) for it in keys]


def _shown(key: str, row: Mapping[str, Any]) -> Any:
    value = row[key]
    return " ".join(value) if isinstance(value, list) else value


def time_left(reservation: Dict[str, Any], now: float) -> str:
    """For how long a lease still runs by this machine's clock; an acquired reservation has no
    end."""
    if reservation["state"] not in LEASED:
        return "-"
    left = max(0, reservation["deadline"] - int(now))
    return f"{left} s" if left < SHORT else limits.words_of(left)


def check_of(row: Dict[str, Any]) -> str:
    """How often a type's boards are checked: `every 24 hours`."""
    if row["check"] == "none":
        return "-"
    unit = row["check"] if row["every"] != 1 else row["check"][:-1]
    return f"every {row['every']:,} {unit}"


def moment(seconds: int) -> str:
    """A moment by this machine's calendar."""
    return time.strftime("%Y-%m-%d %H:%M", time.localtime(seconds))


def span(seconds: int) -> str:
    """A span of time in hours, minutes and seconds: `1:02:03`."""
    return f"{seconds // 3600}:{seconds // 60 % 60:02}:{seconds % 60:02}"


def printable(text: str, widest: int = WIDEST) -> str:
    """A text of somebody else's as it is shown on a terminal."""
    shown = "".join(it if it.isprintable() else "?" for it in text)
    return shown if len(shown) <= widest else f"{shown[: widest - 2]}.."


BOARDS = [
    *of("name", "type", "health", "state"),
    ("HOLDER", lambda it: it["holder"].replace("none", "-")),
    ("CHECKED", lambda it: moment(it["last_check"]) if it["last_check"] else "-"),
    *of("tags"),
]
TYPES = [*of("name"), ("CHECK", check_of)]
QUEUE = [
    *of("place", "number", "kind", "priority", "boards", "owner", "type", "waited"),
    ("NAME", lambda it: printable(it["name"])),
    *of("reason"),
]
JOBS = of("number", "group", "kind", "state", "result", "board", "type", "role", "priority", "owner", "tags")
RESERVATIONS = [
    *of("number", "state"),
    ("LEFT", lambda it: time_left(it, time.time())),
    *of("board", "priority", "owner", "tags"),
]


def lines_of(rows: Sequence[Dict[str, Any]], columns: Sequence[Column], width: int = 0) -> List[str]:
    """A line of titles and a line a row, none of them wider than a terminal of this width, where one is said; numbers
    stand at the right of their column."""
    table = []
    for title, call in columns:
        cells = [call(row) for row in rows]
        texts = [title, *(str(it) or "-" for it in cells)]
        wide = max(map(len, texts))
        is_number = bool(cells) and isinstance(cells[0], int)
        table.append([it.rjust(wide) if is_number else it.ljust(wide) for it in texts])
    return [" ".join(line).rstrip() for line in zip(*(fitted(table, width) if width else table))]


def fitted(table: List[List[str]], width: int) -> List[List[str]]:
    """The columns of a table, as far as a terminal has room for them."""
    titles = [column[0].strip() for column in table]
    widths = {title: len(column[0]) for title, column in zip(titles, table)}
    may_cut = {it: min(widths[it], SHORTEST) for it in titles[2:] if it in CUT}
    for title in LEFT_OUT:
        if sum({**widths, **may_cut}.values()) + len(widths) - 1 > width:
            widths.pop(title, None)
            may_cut.pop(title, None)
    while sum(widths.values()) + len(widths) - 1 > width and any(widths[it] > may_cut[it] for it in may_cut):
        widths[max(may_cut, key=lambda it: widths[it] - may_cut[it])] -= 1
    return [
        [cut(text, widths[title]) for text in column] for title, column in zip(titles, table) if title in widths
    ]


def cut(text: str, width: int) -> str:
    """A cell that isn't wider than its column."""
    short = text.rstrip()
    return (short if len(short) <= width else f"{short[: width - 2]}..").ljust(width)


def facts_of(row: Mapping[str, Any]) -> str:
    """A line for each of a row's keys, or more, of which the later are indented."""
    width = max(map(len, row)) + 2
    return "".join(
        f"{f'{key}:':{width}}{_shown(key, row) or '-'}".replace("\n", f"\n{' ' * width}") + "\n" for key in row
    )
