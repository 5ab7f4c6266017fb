"""The lab of the next farm, as an edited lab file has it, beside the farm that is there: what is wrong
with the file, what would change, and what is in the way."""
import hashlib
from typing import Any, Dict, List, NamedTuple, Tuple

from farm_import import lab_file
from fizgruk import calls, toml_text
from fizgruk._tools import lab_text, tables
from fizgruk.words import HEALTHS, LONGEST_LAB_FILE, BadFile

FIRST_HEALTH = "Maintenance"  # that a farm gives a new board
# What a desk shows of a type and of a board: what the next farm is given, and what is of the farm that is there.
COLUMNS = {
    "types": frozenset(("name", "check", "every")),
    "boards": frozenset(("name", "type", "tags", "health", "state", "holder", "jobs_since", "last_check")),
}
Rows = Dict[str, Dict[str, Any]]


class NextLab(NamedTuple):
    """Types and boards by their names, and the healths that the file says."""

    text: str
    types: Rows
    boards: Rows
    healths: Dict[str, str]

    def mark(self) -> str:
        """What tells this text from others."""
        return hashlib.sha256(self.text.encode()).hexdigest()


def lab_of(file: str) -> Tuple[NextLab, List[str]]:
    """The lab that a file has, which is whole, and what of the file counts for nothing. Raises
    Unreadable."""
    with open(file, "rb") as opened:
        data = opened.read(LONGEST_LAB_FILE + 1)
    try:
        if len(data) > LONGEST_LAB_FILE:
            raise BadFile(f"it has more than {LONGEST_LAB_FILE:,} bytes")
        lab = _lab_in(data.decode())
        return lab, lab_text.warnings_of(lab.text, ("health",))
    except (BadFile, UnicodeDecodeError) as fault:
        raise lab_file.Unreadable(f"{file} is no lab file: {fault}") from fault


def _lab_in(text: str) -> NextLab:
    found: Dict[str, Rows] = {"types": {}, "boards": {}}
    for each in lab_text.additions_of(text):
        found[each.section][each.name] = each.body
    lab = NextLab(text, found["types"], found["boards"], {})
    rows = toml_text.tree_of(text).get("boards", {})
    for name, board in lab.boards.items():
        try:
            if board["type"] not in lab.types:
                raise BadFile(f"there is no type {board['type']}")
            if "health" in rows[name]:
                lab.healths[name] = health_of(rows[name]["health"])
        except BadFile as fault:
            line = toml_text.line_of(text, ("boards", name))
            raise BadFile(f"line {line}: board {name}: {fault}") from fault
    _demand_room(lab)
    return lab


def health_of(value: object) -> str:
    if value not in HEALTHS:
        raise BadFile(f"health is none of {', '.join(HEALTHS)}")
    return str(value)


def _demand_room(lab: NextLab) -> None:
    if not lab.boards:
        raise BadFile("it has no boards")
    kinds = [it["type"] for it in lab.boards.values()]
    for what in lab_text.beyond_limits(len(lab.types), kinds):
        raise BadFile(what)


# ---- beside the farm that is there


def healths_of(lab: NextLab, desk: calls.Looker) -> Dict[str, str]:
    """The health that each board begins with: the file's, or the one it has; a new one is in
    Maintenance."""
    there = {str(it["name"]): str(it["health"]) for it in calls.rows_of(desk, "boards")}
    return {it: lab.healths.get(it, there.get(it, FIRST_HEALTH)) for it in lab.boards}


def changes_of(lab: NextLab, desk: calls.Looker) -> List[str]:
    """What is otherwise in the next farm, a line each."""
    lines = []
    for view, rows in (("types", lab.types), ("boards", lab.boards)):
        what, here = view[:-1], {it: words_of(view, row) for it, row in rows.items()}
        there = {it["name"]: words_of(view, it) for it in calls.rows_of(desk, view)}
        lines += [f"{what} {it}: it is left out" for it in sorted(there.keys() - here.keys())]
        lines += [f"{what} {it}: it is new" for it in sorted(here.keys() - there.keys())]
        changed = sorted(it for it in here.keys() & there.keys() if here[it] != there[it])
        lines += [f"{what} {it}: {there[it]} becomes {here[it]}" for it in changed]
    return lines


def words_of(view: str, row: Dict[str, Any]) -> str:
    """A type's check, or a board's type and tags, as an import counts them."""
    if view == "types":
        return tables.check_of({"check": "none", "every": 0, **row})
    return " ".join([row["type"], *sorted(set(row["tags"]))])


def faults_of(lab: NextLab, desk: calls.Looker) -> List[str]:
    """What is in the way whatever the admin says: jobs that have boards, and healths that the file
    has as they were."""
    rows = calls.rows_of(desk, "boards")
    lines = [
        f"{view}: the desk shows {', '.join(more)}, which would be lost: this tool is older than it"
        for view, known in COLUMNS.items()
        for more in [sorted({key for it in calls.rows_of(desk, view) for key in it} - known)]
        if more
    ]
    lines += [
        f"board {it['name']}: {it['holder']}{_owner_of(desk, it['holder'])} has it"
        for it in rows
        if it["holder"].startswith("job ")
    ]
    return lines + [
        f"board {it['name']}: the desk has it {it['health']}, and the file {lab.healths[it['name']]}"
        for it in rows
        if lab.healths.get(it["name"], it["health"]) != it["health"]
    ]


def lost_of(desk: calls.Looker) -> List[str]:
    """What people have and wait for, which isn't carried over."""
    lines = [
        f"board {it['name']}: {it['holder']}{_owner_of(desk, it['holder'])} has it"
        for it in calls.rows_of(desk, "boards")
        if it["holder"].startswith("reservation ")
    ]
    return lines + [
        f"queue: {it['kind'].replace('group', 'job')} {it['number']} of {it['owner']} waits"
        for it in calls.rows_of(desk, "queue")
    ]


def _owner_of(desk: calls.Looker, holder: str) -> str:
    """Whose a holder is, with a word before it."""
    kind, _, number = holder.partition(" ")
    if kind == "job":
        job = calls.job_of(desk, int(number))
        return f" of {job['owner']}" if job else ""  # (it has ended meanwhile)
    rows = calls.rows_of(desk, "reservations")
    owners = [it["owner"] for it in rows if str(it["number"]) == number]
    return f" of {owners[0]}" if owners else ""
