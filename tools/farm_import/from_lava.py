"""farm-from-lava: a lab file from the device dictionaries and device types of a LAVA server."""
import argparse
import os
import re
from typing import Any, Dict, List, Optional, Sequence, Tuple

from farm_import import lab_file
from farm_import.lab_file import LabFile, Unreadable, basic
from fizgruk import job_file, limits
from fizgruk._tools import parsers
from fizgruk.words import HIGHEST_PRIORITY, LONGEST_JOB_FILE, MOST_WANTS, NAME

PROGRAM = "farm-from-lava"
ABOUT = """\
Reads FOLDER, which LAVA's server has in /etc/lava-server/dispatcher-config, and writes a lab file \
that 'farm import' takes: a board for each device, a type for each device type, and a check every \
24 hours (--hours) for each type that has a health check.
With --job it reads a LAVA job definition, and writes a job file that 'desk submit' takes: name, \
type, tags, priority, roles and the job's timeout as the desk and farm-dispatch(8) read them, and the \
definition as it is, which run-job-lava hands to LAVA's dispatcher with all that it deploys, boots and \
tests."""
FAULT = "FOLDER, a file or what is to be written can't be used, or what is read isn't of its kind."
SUFFIX = ".jinja2"
PARTS = re.compile(r"{%-?\s*(\w+)\s*(.*?)\s*-?%}|{{.*?}}", re.DOTALL)
COMMENT = re.compile(r"{#.*?#}", re.DOTALL)
MULTINODE = "lava-multinode"
LARGEST = 1_048_576
# What the definition keeps, and LAVA's dispatcher reads; and what somebody else did in LAVA.
KEPT = ("job_name", "actions", "environment", "reboot_to_fastboot")
SERVERS = {
    "context": "a device file is rendered before, without it",
    "metadata": "nothing is found by it",
    "secrets": "everybody who may look at the desk reads them in the job's text",
    "notify": "farm-watch tells of a job's end",
}
# What isn't in a text that stands between three apostrophes.
NOT_LITERAL = re.compile(r"'''|[\0-\x08\x0b-\x1f\x7f]")


def main(words: Optional[Sequence[str]] = None) -> int:
    return lab_file.run(PROGRAM, lambda: options_of(words), lab_of)


def parser_of() -> parsers.Parser:
    parser = lab_file.parser_of(PROGRAM, ABOUT, lab_file.statuses_of(FAULT))
    parser.forms = (
        f"{PROGRAM} [--output FILE] [--hours N] [--tags FILE] [--verbose] FOLDER",
        f"{PROGRAM} [--output FILE] --job FILE",
    )
    parser.option("folder", "FOLDER", "The server's dispatcher-config.", nargs="?")
    parser.option("--job", "FILE", """\
A LAVA job definition, YAML, of which a job file is made. What is lost is told once.""")
    about = "Between two checks of a board, 1 to 10000 (default %(default)s)."
    hours = parsers.whole(1, 10_000)
    parser.option("--hours", "N", about, type=hours, default=24)
    parser.option("--tags", "FILE", """\
The devices' tags, which stand in LAVA's database: a line 'DEVICE TAG ..' for each device that has
some.""")
    return parser


def options_of(words: Optional[Sequence[str]]) -> argparse.Namespace:
    parser = parser_of()
    options = parser.parse_args(words)
    if (options.folder is None) == (options.job is None):
        parser.error("give one of FOLDER and --job")
    return options


def lab_of(options: argparse.Namespace) -> LabFile:
    """The lab of a server's folder, or the job file of a definition."""
    if options.job is not None:
        return job_of(options.job)
    lab = LabFile()
    tags = tags_of(options.tags)
    devices = files_of(options.folder, "devices", SUFFIX)
    if devices is None:
        raise Unreadable(f"{options.folder} has no folder devices")
    types: Dict[str, str] = {}
    for name in files_of(options.folder, "device-types", SUFFIX) or []:
        if not name.startswith("base"):
            where = f"device-types/{name}{SUFFIX}"
            types[name] = lab.add_type(where, name)
            lab.note(where, "what it says isn't carried over, but for its name", True)
    for name in devices:
        carry(lab, options.folder, name, tags.pop(name, []), types)
    for name in files_of(options.folder, "health-checks", ".yaml") or []:
        carry_check(lab, name, types, options.hours)
    note_database(lab, options, tags)
    return lab


def note_database(lab: LabFile, options: argparse.Namespace, left: Dict[str, List[str]]) -> None:
    """Notes what stands in LAVA's database: tags that nobody gave or that are `left`, and what no
    farm has."""
    if options.tags is None:
        rest = "tags, which stand in LAVA's database, aren't carried over: give --tags"
        lab.note(options.folder, rest)
    for name in left:
        lab.note(str(options.tags), f"tags of {name} aren't carried over: there is no such device")
    rest = "what stands in LAVA's database alone isn't carried over: owners, workers, permissions"
    lab.note(options.folder, rest, True)


def files_of(folder: str, part: str, suffix: str) -> Optional[List[str]]:
    """The names of the files of a part, without their suffix, in order; None where there is no such
    folder."""
    try:
        names = os.listdir(os.path.join(folder, part))
    except FileNotFoundError:
        return None
    return sorted(it[: -len(suffix)] for it in names if it.endswith(suffix))


def carry(lab: LabFile, folder: str, name: str, tags: List[str], types: Dict[str, str]) -> None:
    """Makes a device a board, and notes each setting of its dictionary."""
    where = f"devices/{name}{SUFFIX}"
    kind, notes = dictionary_of(os.path.join(folder, where))
    if kind is None:
        lab.note(where, f"device {name} isn't carried over: it extends no device type")
        return
    if kind not in types:
        types[kind] = lab.add_type(where, kind)
    lab.add_board(where, name, types[kind], tags)
    for line, what in notes:
        lab.note(f"{where}:{line}", f"{what} isn't carried over", True)


def dictionary_of(file: str) -> Tuple[Optional[str], List[Tuple[int, str]]]:
    """The type that a device dictionary extends, or None, and what else it says: line and text of
    each part."""
    with open(file, encoding="utf-8") as opened:
        text = COMMENT.sub(lambda it: "\n" * it.group().count("\n"), opened.read())
    kind: Optional[str] = None
    notes = []
    for part in PARTS.finditer(text):
        word, rest = part.group(1), part.group(2) or ""
        extended = re.fullmatch("""['"]([^'"]+?)(?:[.]jinja2)?['"]""", rest) if word == "extends" else None
        if extended and kind is None:
            kind = extended.group(1)
        elif word != "endset":
            said = " ".join(
                rest.partition("=")[0].split()
            ) if word == "set" else " ".join(part.group().split())
            notes.append((text.count("\n", 0, part.start()) + 1, said))
    return kind, notes


def carry_check(lab: LabFile, name: str, types: Dict[str, str], every: int) -> None:
    where = f"health-checks/{name}.yaml"
    if name not in types:
        lab.note(where, "it isn't carried over: no device is of this type")
        return
    lab.types[types[name]] = ("hours", every)
    lab.note(where, "its job isn't carried over: see farm-dispatch --check", True)
    lab.note(where, f"how often isn't carried over: it is every {every} hours", True)


def tags_of(file: Optional[str]) -> Dict[str, List[str]]:
    """The tags of each device that a file of them names."""
    tags: Dict[str, List[str]] = {}
    if file is not None:
        with open(file, encoding="utf-8") as lines:
            for line in lines:
                words = line.split()
                if words:
                    tags.setdefault(words[0], []).extend(words[1:])
    return tags


# ---- a job definition as a job file of the desk's: what the desk and farm-dispatch read stands at the top, and the
# definition, as it was written, where run-job-lava looks for it


class Job(LabFile):
    """The job file, and what couldn't be carried over, each once."""

    def __init__(self, file: str):
        super().__init__()
        self.file = file
        self.roles: List[str] = []
        self.definition = ""

    def text(self) -> str:
        lines = [*self.head, *self.roles, "", "[lava]", f"definition = {long_text(self.definition)}", ""]
        return "\n".join(lines)

    def lose(self, what: str, why: str) -> None:
        """Notes what is lost, once."""
        if not any(it.startswith(f"{self.file}: {what} ") for it, _ in self.notes):
            self.note(self.file, f"{what} isn't carried over: {why}")

    # ---- words

    def name(self, what: str, value: object) -> str:
        """A value as a name that the desk takes."""
        if not isinstance(value, str) or not value:
            raise Unreadable(f"{self.file} is no LAVA job: {what} isn't a text")
        return self.word(self.file, what, value, NAME)

    def tags(self, value: object) -> str:
        """Tags as an array."""
        if value is None:
            return "[]"
        if not isinstance(value, list) or not all(isinstance(it, str) for it in value):
            raise Unreadable(f"{self.file} is no LAVA job: tags isn't a list of texts")
        taken = sorted({it for it in (self.tag(self.file, tag) for tag in value) if it})
        return f"[{', '.join(basic(it) for it in taken)}]"


def job_of(file: str) -> Job:
    """The job file of a LAVA job definition in YAML. Raises Unreadable."""
    with open(file, "rb") as opened:
        data = opened.read(LARGEST + 1)
    job = Job(file)
    job.definition, tree = _tree_of(file, data)
    _carry_head(job, tree)
    _carry_wants(job, tree)
    _carry_timeouts(job, tree)
    for key in tree:
        if key in SERVERS:
            job.lose(key, SERVERS[key])
        elif key not in (*KEPT, "device_type", "tags", "priority", "visibility", "timeouts", "protocols"):
            job.lose(str(key), "it is no key of a LAVA job")
    _demand_taken(file, job.text())
    return job


def _tree_of(file: str, data: bytes) -> Tuple[str, Dict[str, Any]]:
    if len(data) > LARGEST:
        raise Unreadable(f"{file} has more than {LARGEST:,} bytes")
    try:
        definition = data.decode()
    except UnicodeDecodeError as fault:
        raise Unreadable(f"{file} isn't YAML: {fault}") from fault
    tree = lab_file.yaml_of(file, definition, "SafeLoader")
    if not isinstance(tree, dict) or not isinstance(tree.get("actions"), list):
        raise Unreadable(f"{file} is no LAVA job: it has no list of actions")
    return definition.replace("\r\n", "\n"), tree


def _carry_head(job: Job, tree: Dict[str, Any]) -> None:
    """The name, the priority and who may see it."""
    title = tree.get("job_name")
    if not isinstance(title, str) or not title:
        raise Unreadable(f"{job.file} is no LAVA job: it has no job_name")
    job.head.append(f"job_name = {basic(title)}")
    priority = tree.get("priority", "medium")
    if priority in job_file.PRIORITIES:
        job.head.append(f"priority = {basic(priority)}")
    elif type(priority) is int and 0 <= priority <= HIGHEST_PRIORITY:
        job.head.append(f"priority = {priority}")
    else:
        job.lose(f"priority {priority!r}", "it is none of low, medium, high and 0 to 100")
    if tree.get("visibility", "public") != "public":
        job.lose("visibility", "everybody who may look at the desk sees the job, its text and its log")


def _carry_wants(job: Job, tree: Dict[str, Any]) -> None:
    """The board that is wanted, or those of the roles."""
    protocols = tree.get("protocols") or {}
    protocols = protocols if isinstance(protocols, dict) else {}
    for name in protocols:
        if name != MULTINODE:
            job.lose(f"protocol {name}", "run-job-lava has none of LAVA's server's")
    multinode = protocols.get(MULTINODE)
    if multinode is None:
        job.head.append(f"device_type = {basic(job.name('device_type', tree.get('device_type')))}")
        job.head.append(f"tags = {job.tags(tree.get('tags'))}")
        return
    roles = multinode.get("roles") if isinstance(multinode, dict) else None
    if not isinstance(roles, dict) or not all(isinstance(it, dict) for it in roles.values()):
        raise Unreadable(f"{job.file} is no LAVA job: protocols.{MULTINODE} has no roles")
    for name, role in roles.items():
        _carry_role(job, name, role)
    boards = sum(it["count"] for it in roles.values() if "device_type" in it)
    if not 1 <= boards <= MOST_WANTS:
        raise Unreadable(f"{job.file} wants {boards} boards, and a job has 1 to {MOST_WANTS}")
    job.note(job.file, "run-job-lava runs jobs of one board: a command of the lab's own runs this group")
    if "timeout" in multinode:
        job.lose(f"{MULTINODE}.timeout", "a group starts with all its boards")


def _carry_role(job: Job, name: object, role: Dict[str, Any]) -> None:
    where = f"role {name}"
    count = role.get("count")
    if type(count) is not int or count < 0:
        raise Unreadable(f"{job.file} is no LAVA job: the count of {where} is no number")
    if "device_type" not in role:
        return job.lose(where, "it is a connection to another role's board, and wants none")
    if not count:
        return job.lose(where, "it wants no board")
    kind = basic(job.name(f"device_type of {where}", role["device_type"]))
    lines = [f"device_type = {kind}", f"count = {count}", f"tags = {job.tags(role.get('tags'))}"]
    job.roles += ["", f"[roles.{basic(job.name('role', name))}]", *lines]
    for key in role:
        if key not in ("device_type", "count", "tags"):
            job.lose(f"{key} of {where}", "a role has device_type, count and tags")
    return None


def _carry_timeouts(job: Job, tree: Dict[str, Any]) -> None:
    """How long it may run; other timeouts are LAVA's dispatcher's, and in the definition."""
    timeouts = tree.get("timeouts")
    timeouts = timeouts if isinstance(timeouts, dict) else {}
    if "queue" in timeouts:
        job.lose("timeouts.queue", "a job waits until it is canceled")
    said = timeouts.get("job")
    try:
        seconds = limits.time_of({k: v for k, v in said.items() if k != "skip"} if isinstance(said, dict) else said)
    except limits.BadTime:
        return job.note(job.file, "timeouts.job is no time: the limit is farm-dispatch's")
    job.roles += ["", "[timeouts]", f"job = {basic(_words_of(seconds))}"]
    return None


def _words_of(seconds: float) -> str:
    """A time of which nothing is lost, in its largest unit that has a whole number."""
    for unit, length in limits.UNITS.items():
        if seconds % length == 0:
            count = int(seconds // length)
            return f"{count} {unit if count != 1 else unit[:-1]}"
    return f"{seconds:f} seconds"


# ---- TOML


def long_text(text: str) -> str:
    """A text of many lines."""
    if NOT_LITERAL.search(text) or text.endswith("'"):
        return basic(text)
    return f"'''\n{text}'''"


def _demand_taken(file: str, text: str) -> None:
    """Demands that the desk takes the job file."""
    try:
        data = text.encode()
    except UnicodeEncodeError as fault:
        raise Unreadable(f"{file} has letters that are none") from fault
    if len(data) > LONGEST_JOB_FILE:
        raise Unreadable(f"{file} is too long: a job file has {LONGEST_JOB_FILE:,} bytes at most")
    wrong: Optional[str] = job_file.fault_of(data) or job_file.limit_fault_of(data)
    if wrong:
        raise Unreadable(f"{file} becomes no job file: {wrong}")
