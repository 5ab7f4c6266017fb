"""The file of rules: limits of users and teams, and who is an admin; and what the body of a command asks for, as far as
limits go: for how many boards, and with which priority."""
import dataclasses
import json
from typing import Any, Callable, Dict, FrozenSet, Iterable, List, NamedTuple, Tuple

from fizgruk import job_file, toml_text
from fizgruk._tools import disk
from fizgruk.words import HIGHEST_PRIORITY, MOST_WANTS, NAMES, BadFile

LONGEST = 1_048_576
# Each limit, and the most that it can be.
WORDS = {
    "open_reservations": 1_000_000, "open_jobs": 1_000_000, "jobs_an_hour": 1_000_000, "commands_an_hour": 1_000_000,
    "highest_priority": HIGHEST_PRIORITY,
}
UNLIMITED = ("admin", "dispatcher")
JOBS, RESERVATIONS, OTHERS = "job", "reservation", "other"  # kinds of commands
OPEN = {JOBS: "open_jobs", RESERVATIONS: "open_reservations"}  # the limit of what is open of a kind
USUAL = "medium"
NAMED = dict(zip(job_file.PRIORITIES, (0, 50, HIGHEST_PRIORITY)))


@dataclasses.dataclass(frozen=True)
class Limits:
    """How much may be open, and asked for, at most, and how far ahead of others. A lab of twenty meets none of these."""

    open_reservations: int = 20
    open_jobs: int = 1000
    jobs_an_hour: int = 1000
    commands_an_hour: int = 2000
    highest_priority: int = HIGHEST_PRIORITY


@dataclasses.dataclass(frozen=True)
class Group:
    """A user, or a team, whose members' requests count together."""

    name: str
    members: FrozenSet[str]
    limits: Limits


@dataclasses.dataclass(frozen=True)
class DoorRules:
    """The limits of all, those of some users and teams, which users are a team, and the logins that are the desk's
    admin."""

    limits: Limits
    own: Dict[str, Limits]
    teams: Dict[str, FrozenSet[str]]
    admins: FrozenSet[str]

    def groups_of(self, user: str) -> List[Group]:
        """What a user's requests count for: the user, and each team with limits."""
        found = [Group(user, frozenset((user,)), self.own.get(user, self.limits))]
        for name, members in self.teams.items():
            if user in members and name in self.own:
                found.append(Group(f"team {name}", members, self.own[name]))
        return found

    def is_unlimited(self, user: str) -> bool:
        return user in UNLIMITED or user in self.admins


def rules_in(file: str) -> DoorRules:
    """The rules of a file; the usual ones where there is none. Raises BadFile where it says what it can't."""
    text = disk.text_in(file, LONGEST)
    try:
        tree = toml_text.tree_of(text or "")
    except toml_text.NotToml as fault:
        raise BadFile(f"{file}: {fault}") from fault
    _knows(tree, ("limits", "teams", "admins"), "the file")
    limits = _table(tree, "limits")
    own = {name: it for name, it in limits.items() if isinstance(it, dict)}
    usual = _limits_of({name: it for name, it in limits.items() if name not in own}, Limits(), "limits")
    teams = {_name(name): frozenset(_names(it, f"teams.{name}")) for name, it in _table(tree, "teams").items()}
    admins = _table(tree, "admins")
    _knows(admins, ("logins",), "[admins]")
    each = {_name(name): _limits_of(it, usual, f"limits.{name}") for name, it in own.items()}
    return DoorRules(usual, each, teams, frozenset(_names(admins.get("logins", []), "admins.logins")))


def _limits_of(table: Dict[str, Any], usual: Limits, what: str) -> Limits:
    _knows(table, WORDS, f"[{what}]")
    for word, value in table.items():
        if type(value) is not int or not 0 <= value <= WORDS[word]:
            raise BadFile(f"{what}.{word} is no number from 0 to {WORDS[word]:,}")
    return dataclasses.replace(usual, **table)


def _table(tree: Dict[str, Any], name: str) -> Dict[str, Any]:
    found = tree.get(name, {})
    if not isinstance(found, dict):
        raise BadFile(f"{name} is no table")
    return found


def _knows(table: Dict[str, Any], words: Iterable[str], what: str) -> None:
    for word in table:
        if word not in words:
            raise BadFile(f"{what} has no key {word!r}: there are {', '.join(words)}")


def _name(text: str) -> str:
    if not NAMES.fullmatch(text):
        raise BadFile(f"{text!r} is no name")
    return text


def _names(value: Any, what: str) -> List[str]:
    if not isinstance(value, list) or not all(isinstance(it, str) for it in value):
        raise BadFile(f"{what} is no list of names")
    return [_name(it) for it in value]


# ---- what is asked for


class Wish(NamedTuple):
    """What is asked for. `fault` is why that can't be told: then it is the most that there is, since the desk may read
    what this Python doesn't, as the time 23:59:60."""

    boards: int
    priority: int
    fault: str = ""


def of_job(body: bytes) -> Wish:
    try:
        tree = toml_text.tree_of(body.decode())
        job_file.read(tree)
    except (UnicodeDecodeError, toml_text.NotToml, BadFile) as fault:
        return Wish(MOST_WANTS, HIGHEST_PRIORITY, " ".join(str(fault).split()))
    return Wish(len(job_file.wants_in(tree)), priority_of(tree.get("priority", USUAL)))


def of_reservation(body: bytes) -> Wish:
    try:
        said = json.loads(body, object_pairs_hook=_once)
        return Wish(1, priority_of(said.get("priority", USUAL)))
    except (ValueError, AttributeError, RecursionError, BadFile) as fault:
        return Wish(1, HIGHEST_PRIORITY, " ".join(str(fault).split()))


def priority_of(value: object) -> int:
    job_file.read_priority(value)
    return NAMED[value] if isinstance(value, str) else int(str(value))


def _once(pairs: List[Tuple[str, Any]]) -> Dict[str, Any]:
    """An object; of a key that is there twice another reader may take the other value."""
    found = dict(pairs)
    if len(found) < len(pairs):
        raise ValueError("a key is there twice")
    return found


WISHES: Dict[str, Callable[[bytes], Wish]] = {JOBS: of_job, RESERVATIONS: of_reservation}
