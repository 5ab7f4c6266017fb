"""What the admin writes: access.toml, the ways to boards, and the folder of keys, a file a person with OpenSSH's public
keys in it."""
import dataclasses
import fnmatch
import hashlib
import os
import re
import shlex
import urllib.parse
from typing import Any, Callable, Dict, List, Mapping, NamedTuple, Sequence, Tuple

from fizgruk import settings, toml_text
from fizgruk._tools import disk
from fizgruk.errors import BadSettings
from fizgruk.words import NAMES, BadFile

FILE = "/etc/farm/access.toml"
MOST = 1_048_576
HOLE = re.compile(r"\{([A-Za-z0-9_.-]+)\}")
WAY = re.compile(r"[a-z][a-z0-9_-]{0,31}")
OF_DESK = {"desk": "server", "user": "user", "password_file": "password_file", "ca_file": "ca_file"}
KEYS = "/etc/farm/keys"
KEY_TYPE, KEY = re.compile(r"[a-z0-9@.-]{1,64}"), re.compile(r"[A-Za-z0-9+/]{16,}={0,2}")
MOST_KEYS = 65536
VERBS, SETTLE = ("on", "off", "cycle", "status"), 2.0
RATE, BITS_A_BYTE, SLACK = 9000, 10, 0.8
# What each table may have, and of which kind that is.
NUMBER, TEXT, COMMAND, PORTS = "a number", "a text", "an array of texts", "an array of ports"
PEOPLE, WAYS = "an array of names", "an array of tables, [[ways]]"
KINDS: Dict[str, Callable[[Any], bool]] = {
    NUMBER: lambda it: type(it) in (int, float) and 0 < it <= 1e9,
    TEXT: lambda it: isinstance(it, str),
    COMMAND: lambda it: isinstance(it, list) and bool(it) and all(isinstance(each, str) for each in it),
    PORTS: lambda it: isinstance(it, list) and all(type(each) is int and 0 < each < 65536 for each in it),
    PEOPLE: lambda it: isinstance(it, list) and all(isinstance(each, str) and NAMES.fullmatch(each) for each in it),
    WAYS: lambda it: isinstance(it, list) and all(isinstance(each, dict) for each in it),
}
IN_FILE = {**dict.fromkeys(OF_DESK, TEXT), "admins": PEOPLE, "ways": WAYS}
CONSOLES = ("tcp", "unix", "device")
TABLES = {
    "console": {**dict.fromkeys(CONSOLES, TEXT), "baud": NUMBER, "rate": NUMBER},
    "power": {**dict.fromkeys(("pdudaemon", "host", "port"), TEXT), "settle": NUMBER, **dict.fromkeys(VERBS, COMMAND)},
    "tcp": {"host": TEXT, "ports": PORTS},
}
AFTER, DEVICES, NETWORK = "after", "devices", "network"
NO_WAYS = (AFTER, DEVICES, NETWORK)  # what a table has beside its ways
# Words of a session that are no ways.
TAKEN = ("ways", "boards", "sh", "tidy")
Ways = Dict[str, Any]


class Refusal(Exception):
    """What ends a use, with a status."""

    status = 4


class BadWay(Refusal):
    """A way that access.toml hasn't for a board, or that lacks a tag of it, or no words of a session."""

    status = 2


class NotYours(Refusal):
    """The board isn't theirs who ask, or another session has its console."""

    status = 5


class Lost(Refusal):
    """The hold has ended."""

    status = 6


@dataclasses.dataclass(frozen=True)
class Site:
    """What access.toml says. `ways` are its tables, each with the pattern of its boards."""

    desk: Mapping[str, str]
    admins: Tuple[str, ...]
    ways: Tuple[Tuple[str, Ways], ...]
    keys: str = KEYS

    def ways_of(self, board: str, tags: Mapping[str, str]) -> Ways:
        """A board's ways, with its tags in them; of two of one name the later in the file."""
        found: Ways = {}
        for pattern, ways in self.ways:
            if fnmatch.fnmatchcase(board, pattern):
                found.update(ways)
        values = {**tags, "board": board}
        return {name: _filled(way, values) for name, way in found.items()}


def read_file(file: str) -> Site:
    """The site that a file describes. Raises BadFile where it says what it can't."""
    try:
        text = disk.text_in(os.path.realpath(file), MOST)
        if text is None:
            raise BadFile("there is no such file")
        return _site_of(toml_text.tree_of(text))
    except (disk.Strange, toml_text.NotToml, BadFile) as fault:
        raise BadFile(f"{file}: {fault}") from fault


def _site_of(told: Dict[str, Any]) -> Site:
    _check(told, IN_FILE, "the file")
    desk = {word: told[name] for name, word in OF_DESK.items() if name in told}
    return Site(desk, tuple(told.get("admins", [])), tuple(map(_ways_of, told.get("ways", []))))


def _check(told: Any, kinds: Mapping[str, str], where: str) -> None:
    if not isinstance(told, dict):
        raise BadFile(f"{where} isn't a table")
    for word, value in told.items():
        if word not in kinds:
            raise BadFile(f"{word} in {where} is no setting: there are {', '.join(kinds)}")
        if not KINDS[kinds[word]](value):
            raise BadFile(f"{where}: {word} isn't {kinds[word]}")


def _ways_of(table: Ways) -> Tuple[str, Ways]:
    pattern = table.pop("boards", "*")
    if not isinstance(pattern, str):
        raise BadFile("boards isn't a text, as 'bbb-*' is one")
    for name, way in table.items():
        if not WAY.fullmatch(name) or name in TAKEN:
            raise BadFile(f"{name!r} is no name of a way: small letters, and none of its own words")
        if name in TABLES:
            _check(way, TABLES[name], name)
        elif not KINDS[COMMAND](way):
            raise BadFile(f"{name} isn't {COMMAND}")
    if "console" in table and sum(it in table["console"] for it in CONSOLES) != 1:
        raise BadFile(f"console has one of {', '.join(CONSOLES)}")
    power = table.get("power", {"on": []})
    if ("pdudaemon" in power) == ("on" in power):
        raise BadFile("power has either pdudaemon, with host and port, or on and off")
    try:
        settings.address_of(power.get("pdudaemon", "http://127.0.0.1"))
    except BadSettings as fault:
        raise BadFile(f"power: {fault}") from fault
    return pattern, table


def _filled(way: Any, values: Mapping[str, str]) -> Any:
    """A way with a board's tags in it. What the board lacks stays, and is refused in use."""
    if isinstance(way, str):
        return HOLE.sub(lambda hole: values.get(hole.group(1), hole.group(0)), way)
    if isinstance(way, list):
        return [_filled(it, values) for it in way]
    if isinstance(way, dict):
        return {key: _filled(it, values) for key, it in way.items()}
    return way


def lacks(way: Any) -> List[str]:
    """The tags that a board lacks for a way."""
    return sorted(set(HOLE.findall(str(way))))


def whole(way: Any, name: str) -> Any:
    """A way, or a part of one, where the board lacks no tag for it."""
    if way is None:
        raise BadWay(f"access.toml has no {name} for this board")
    if lacks(way):
        raise BadWay(f"{name}: this board has no tag {', '.join(f'{it}=..' for it in lacks(way))}")
    return way


# ---- consoles and power


def rate_of(console: Mapping[str, Any]) -> float:
    """How many bytes a second a console is given: fewer than its line takes, since what waits in a
    console server reaches the board later, whoever has it then."""
    baud = console.get("baud")
    return float(console.get("rate", baud / BITS_A_BYTE * SLACK if baud else RATE))


class Steps(NamedTuple):
    """What a verb does: the paths that are asked of pdudaemon at an address, each with a pause behind it, since that
    answers before it acts; or a command."""

    address: str = ""
    paths: Tuple[str, ...] = ()
    pause: float = 0.0
    command: Tuple[str, ...] = ()


def steps_of(verb: str, power: Mapping[str, Any]) -> Steps:
    if verb not in VERBS:
        raise BadWay(f"power has {', '.join(VERBS)}")
    if verb in power:
        return Steps(command=tuple(whole(power[verb], f"power {verb}")))
    if verb == "status":
        raise BadWay("access.toml has no command for this board's power status")
    parts = ("off", "on") if verb == "cycle" else (verb,)
    pause = float(power.get("settle", SETTLE))
    if "pdudaemon" not in power:
        commands = [shlex.join(whole(power.get(it), f"power {it}")) for it in parts]
        return Steps(command=("/bin/sh", "-ec", f"\nsleep {pause}\n".join(commands)))
    words = {"hostname": whole(power.get("host"), "power's host"), "port": whole(power.get("port"), "power's port")}
    at = urllib.parse.urlsplit(power["pdudaemon"])
    path = f"{at.path.rstrip('/')}/power/control/{{}}?{urllib.parse.urlencode(words)}"
    return Steps(f"{at.hostname}:{at.port or 80}", tuple(path.format(it) for it in parts), pause)


# ---- keys


def names_in(folder: str) -> List[str]:
    return sorted(it for it in os.listdir(folder) if NAMES.fullmatch(it)) if os.path.isdir(folder) else []


def keys_in(folder: str, name: str) -> List[List[str]]:
    """The words of a person's lines; none where the file is no file of its own."""
    try:
        text = disk.text_in(os.path.join(folder, name), MOST_KEYS) or ""
    except disk.Strange:
        return []
    lines = (it.split() for it in text.splitlines())
    return [it for it in lines if len(it) >= 2 and not it[0].startswith("#")]


def key_of(auth: str) -> List[str]:
    """The words of the key that sshd took (what its ExposeAuthInfo says)."""
    taken = [it.split()[1:3] for it in auth.splitlines() if it.startswith("publickey ")]
    return taken[0] if len(taken) == 1 else []


def person_of(folder: str, auth: str) -> str:
    """Whose the key is that sshd took, as the keys are now: a connection may be older than a change of them. Nothing
    where it is nobody's, or of two. A line with options in front of a key is none."""
    key = key_of(auth)
    found = [name for name in names_in(folder) if any(it[:2] == key for it in keys_in(folder, name))]
    return found[0] if len(found) == 1 else ""


def mark_of(key: Sequence[str]) -> str:
    """A short mark of a key, which stands in the names of units."""
    return hashlib.sha256(" ".join(key[:2]).encode()).hexdigest()[:16]
