"""Which rule a job file breaks that the desk refused without a word on it."""
from typing import Any, Dict, List, Optional

from fizgruk import calls, limits, toml_text, wants, words
from fizgruk.errors import BadJobFile, Code, Refused, Unreachable
from fizgruk.wants import Want
from fizgruk.words import HIGHEST_PRIORITY, LONGEST_JOB_FILE, MOST_WANTS, BadFile, at

PRIORITIES = ("low", "medium", "high")
# What the desk refuses for a rule that the file breaks.
BROKEN = (Code.BAD_NAME, Code.BAD_TAG, Code.BAD_COUNT, Code.BAD_PRIORITY, Code.BAD_JOB_FILE)


def fault_of(data: bytes) -> Optional[str]:
    """The first rule that a job file breaks, in the desk's order, or None where none is found."""
    if len(data) > LONGEST_JOB_FILE:
        return f"it has more than {LONGEST_JOB_FILE:,} bytes"
    try:
        text = toml_text.text_of(data)
        read(toml_text.tree_of(text))
        return None
    except BadFile as fault:
        where = toml_text.told_at(text, fault.path) if fault.path else ""
        return f"{fault}{where}"


def name_of(text: str) -> str:
    """The name that a job's text has, or nothing."""
    try:
        name = toml_text.tree_of(text).get("job_name")
    except toml_text.NotToml:
        return ""
    return name if isinstance(name, str) else ""


def limit_fault_of(data: bytes) -> Optional[str]:
    """Why the time limit that a job file asks for can't be one, of which the desk knows nothing;
    None where it asks for none, or can't be read."""
    try:
        text = toml_text.text_of(data)
        timeouts = toml_text.tree_of(text).get("timeouts", {})
        if not isinstance(timeouts, dict):
            return f"timeouts isn't a table{toml_text.told_at(text, ['timeouts'])}"
        if "job" in timeouts:
            limits.time_of(timeouts["job"])
    except limits.BadTime as fault:
        where = toml_text.told_at(text, ["timeouts", "job"])
        return f"timeouts.job can't be read: {fault}{where}"
    except toml_text.NotToml:
        pass  # the desk refuses it
    return None


def submitted(desk: calls.Desk, data: bytes, key: str) -> calls.Row:
    """What the desk answers where it takes a job file. Raises BadJobFile where nothing is submitted, and a refusal with what
    is known of why."""
    fault = limit_fault_of(data)
    if fault:
        raise BadJobFile(fault)
    try:
        said = desk.tell("/jobs", data, key)
    except Refused as refusal:
        raise why_refused(desk, refusal, data)
    calls.number_of(desk, said)
    return said


def wants_of(data: bytes) -> List[Want]:
    """The boards that a job file which follows the rules asks for."""
    return wants_in(toml_text.tree_of(data.decode()))


def wants_in(tree: Dict[str, Any]) -> List[Want]:
    if "roles" not in tree:
        return [Want(tree["device_type"], tuple(tree.get("tags", ())))]
    roles = tree["roles"].values()
    return [Want(it["device_type"], tuple(it.get("tags", ()))) for it in roles for _ in range(it["count"])]


def why_refused(desk: calls.Looker, refusal: Refused, data: bytes) -> Refused:
    """A refusal of a job file, and what is known of why."""
    if refusal.code in BROKEN or refusal.status == calls.TOO_LARGE:
        fault = fault_of(data)
        return refusal.about(fault) if fault else refusal
    if refusal.code == Code.NO_SUCH_BOARDS:
        return wants.explained(desk, refusal, wants_of(data))
    if refusal.code == Code.NO_SUCH_TYPE:
        try:
            there = {it["name"] for it in desk.look("/types")["types"]}
        except (Unreachable, Refused):
            return refusal
        lacks = dict.fromkeys(it.kind for it in wants_of(data) if it.kind not in there)
        return refusal.about(" ".join(lacks)) if lacks else refusal
    return refusal


def read(tree: Dict[str, Any]) -> None:
    """Goes through a job file's keys."""
    title = tree.get("job_name")
    with at("job_name"):
        if title is None or title == "":
            raise BadFile("there is no job_name, or it is empty")
        if not isinstance(title, str):
            raise BadFile("job_name isn't a text")
    with at("priority"):
        read_priority(tree.get("priority", "medium"))
    if "device_type" in tree:
        with at("roles"):
            if "roles" in tree:
                raise BadFile("it has both device_type and roles")
        read_kind_and_tags(tree)
    elif "roles" in tree:
        with at("tags"):
            if "tags" in tree:
                raise BadFile("tags stand beside roles, and belong into each role")
        with at("roles"):
            read_roles(words.table_of(tree["roles"], "roles"))
    else:
        raise BadFile("it has neither device_type nor roles")


def read_kind_and_tags(table: Dict[str, Any]) -> None:
    with at("device_type"):
        words.name_of(table.get("device_type"), "device_type")
    with at("tags"):
        words.tags_of(table.get("tags"))


def read_priority(value: object) -> None:
    if isinstance(value, str):
        good = value in PRIORITIES
    elif isinstance(value, (int, float)) and not isinstance(value, bool):
        good = isinstance(value, int) and 0 <= value <= HIGHEST_PRIORITY
    else:
        raise BadFile("priority is neither a whole number nor a text")
    if not good:
        named = ", ".join(PRIORITIES)
        raise BadFile(f"priority {value!r} is none of {named} and 0 to {HIGHEST_PRIORITY}")


def read_roles(roles: Dict[str, Any]) -> None:
    boards = 0
    for name, role in sorted(roles.items(), key=lambda it: it[0].encode()):
        try:
            with at(name):
                boards += read_role(name, role)
        except BadFile as fault:
            fault.args = (f"role {name}: {fault}",)
            raise
    if not 1 <= boards <= MOST_WANTS:
        raise BadFile(f"its roles want {boards} boards, and 1 to {MOST_WANTS} are given")


def read_role(name: str, role: Dict[str, Any]) -> int:
    """Goes through a role's keys. Returns how many boards it wants."""
    words.name_of(name, "the role's name")
    words.table_of(role, "it")
    with at("device_type"):
        words.name_of(role.get("device_type"), "device_type")
    with at("count"):
        count = words.whole_of(role.get("count"), "count")
        if not 1 <= count <= MOST_WANTS:
            raise BadFile(f"count is {count}, and is 1 to {MOST_WANTS}")
    read_kind_and_tags(role)
    return count
