"""farm-dispatch: passes, and runs the jobs that got their boards."""
import argparse
import contextlib
import os
import shlex
import subprocess
import time
from typing import Any, Callable, Dict, List, NoReturn, Optional, Sequence, Tuple

from farm_dispatch.dispatcher import Dispatcher
from farm_dispatch.published import Notes
from farm_dispatch.workers import DESK, SOCKET, Away, Hand, Worker, destinations_in
from fizgruk import calls, limits
from fizgruk._tools import asking, disk, parsers, service
from fizgruk._tools.service import FAULT, Teller
from fizgruk.artifacts import MOST_FILES
from fizgruk.errors import BadSettings

MINUTE, HOUR = 60, 3600
seconds, count_of = parsers.decimal(0.001, 1e9), parsers.whole(1, 10**9 - 1)
tell = Teller("farm-dispatch")
AWAY, NOT_STARTED = 1, 5
STANDS = "a command can't be started ({}): until it can, nothing is started, no pass made, and no job finished by it"
UNSYNCHRONIZED = """this machine's time service runs and hasn't set the clock yet: nothing is asked of the desk until it has, \
since a farm's clock never falls back (--clock any: ask all the same)"""
LOCK, LOCKED_WITHIN, SET, BOOT = "lock", 2.0, "synchronized", "/proc/sys/kernel/random/boot_id"
BY_HAND = """by hand: jobs are plain processes of this account, are ended with farm-dispatch, and what leaves its process \
group lives on"""


def time_of(text: str) -> float:
    """A time in seconds: a number of them, or `1 hour 30 minutes`."""
    try:
        return seconds(text)
    except ValueError:
        return limits.time_of(text)


# How the value of a setting is read, by its word, and what isn't one.
KINDS: Dict[str, Tuple[Callable[[str], Any], str]] = {
    "TIME": (time_of, "no time, as '90 minutes' is one"), "SIZE": (limits.size_of, "no size, as '100 MB' is one"),
    "COUNT": (count_of, "no count, as 500 is one"), "FILE": (str, ""),
    "WORD": ({"synchronized": True, "any": False}.__getitem__, "neither synchronized nor any"),
}
# What options, environment and files may set: its value's word, its default, and what it is.
MORE = {
    "limit": ("TIME", "1 hour", """The time limit of a job that names none, and of a health check; a TIME is a number of \
seconds, or a text as '1 hour 30 minutes'"""),
    "most": ("TIME", "1 day", "The longest time limit that a job is granted"),
    "keep_logs": ("TIME", "30 days", "For how long a job's log and artifacts are kept, after the last that was added to them"),
    "log_limit": ("SIZE", "100 MB", """The bytes that are kept of what a job says, its head and its tail; a SIZE is a \
number, or a text as '100 MB'"""),
    "folder_limit": ("SIZE", "10 GB", "How large a job's folder may become before the job is ended, as by its time limit"),
    "artifacts_limit": ("SIZE", "500 MB", """The bytes that are kept of what a job left in 'out' of its folder, as long as \
its log: a file that is beyond them isn't kept"""),
    "artifact_limit": ("SIZE", "100 MB", "The most bytes that a file of these may have"),
    "artifact_count": ("COUNT", "1000", "The most files of these, 10,000 at most"),
    "workers": ("FILE", "/etc/farm/workers.toml", """The machines beside this one that run jobs: its table [workers] has of \
each its name, as in the tag worker=NAME of boards, and where ssh(1) goes for it, as 'root@rack2.lab.example'"""),
    "notes": ("FILE", "/etc/farm/notes.toml", "The lab's notes of boards, which DIR/notes.json shows, where the file is there"),
    "clock": ("WORD", "synchronized", """'synchronized': where timedatectl(1) says that a time service runs, the desk is asked \
once it has set this machine's clock; 'any': at once, as where that reaches no server, or the desk is on another machine"""),
}
ABOUT = """\
Calls the desk's pass every few seconds, and at once after a job has ended. It starts each job and each health check that \
a pass gave its boards, has its command run on the machine at which its first board hangs, as a unit of systemd's, one a \
group, and tells the desk how it ended: Complete for status 0, Infra for 75 (--infra) and for a signal, Incomplete for any \
other status and where a limit of time, memory or of its folder ended it. The command of a job that is canceled, or whose \
time limit is over, is sent SIGTERM, and SIGKILL after the grace.
One dispatcher runs for a desk, on its machine. It may be killed at any moment: commands go on, and the next one on the \
same folder takes them up. Each group's command is begun once at most, and its boards are given on when nothing lives of \
what it started.
The command is /etc/farm/run-job of its machine, for health checks /etc/farm/check-board; farm-dispatch(8) says what it gets. \
All that it says goes to DIR/logs/NUMBER, and what it leaves in the folder 'out' is kept as long.
With COMMAND it is a try by hand, without systemd and other machines: jobs are plain children, and are ended with it."""
STATUSES = (
    ("0", "It was ended by SIGTERM or SIGINT; with --check: each machine answers."),
    ("1", "With --check: one doesn't, or can't run jobs."), ("2", "Bad words, or a setting that there isn't."),
    ("4", "Bad settings, or DIR can't be used, or it is another dispatcher's."),
    ("5", "It was ended by SIGTERM or SIGINT while no command could be started."),
)


class Clocks:
    """What a dispatcher knows of its farm's clock, and of the machine's, which its time service sets."""

    def __init__(self, desk: calls.Desk, place: str, is_watched: bool):
        """`place` is the dispatcher's folder; `is_watched` says whether the machine's clock has to be set before the desk is
        asked."""
        self.desk, self.note, self.is_set = desk, os.path.join(place, SET), not is_watched
        self.due = time.monotonic()

    def is_machine_set(self) -> bool:
        """Whether this machine's clock is set, as far as the system can tell. Once it was, it is until the machine begins
        anew, also where its time service loses its servers."""
        if not self.is_set:
            boot = (disk.text_in(BOOT) or "").strip()
            if not boot or boot != (disk.text_in(self.note) or "").strip():
                properties = time_service()
                if "NTP=yes" in properties and "NTPSynchronized=no" in properties:
                    return False
                if "NTPSynchronized=yes" in properties:
                    with contextlib.suppress(OSError):  # it is asked again then
                        disk.write_whole(self.note, f"{boot}\n")
            self.is_set = True
        return True

    def warning(self) -> str:
        """What is to be told of the farm's clock, which is looked at once a minute; at most once an hour there is
        something."""
        if time.monotonic() < self.due:
            return ""
        found = limits.clock_ahead(self.desk.look("/status"), limits.NO_END)
        self.due = time.monotonic() + (HOUR if found else MINUTE)
        return found


def time_service() -> List[str]:
    """What the system says of this machine's time service and clock: nothing where it can't tell."""
    words = ["timedatectl", "show", "--property=NTP", "--property=NTPSynchronized"]
    with contextlib.suppress(OSError, subprocess.SubprocessError):
        return subprocess.run(words, stdin=subprocess.DEVNULL, capture_output=True, text=True, timeout=60, check=False).stdout.split()
    return []


def main(words: Optional[Sequence[str]] = None) -> int:
    return service.run(tell, lambda: status_of(options_of(words)), ValueError)


def status_of(options: argparse.Namespace) -> int:
    """Does what the options ask for. Returns the exit status."""
    own = asking.settings_of("dispatch", options, "dispatcher")
    desk = calls.Desk(own, patience=0)
    use(options, asking.values_of("dispatch", options))
    place = os.path.realpath(options.folder)
    if options.check:
        return checked(workers_of(options, place))
    os.makedirs(place, mode=0o711, exist_ok=True)
    # (the process that a killed dispatcher just made may have it for a moment)
    lock = disk.take_lock_in_time(os.path.join(place, LOCK), LOCKED_WITHIN)
    if lock is None:
        return tell.told(FAULT, f"{place} is in use by another farm-dispatch")
    workers, by_hand = workers_of(options, place), f"; {BY_HAND}" if options.command else ""
    print(f"passes every {options.every:g} s at {desk.server}, jobs in {place}{by_hand}", flush=True)
    dispatcher = Dispatcher(desk, place, options, workers, own)
    try:
        serve(dispatcher, Clocks(desk, place, options.clock), Notes(place, options.notes, tell))
    except service.Interrupted:
        dispatcher.end()
        return NOT_STARTED if dispatcher.fault() else 0


def serve(dispatcher: Dispatcher, clocks: Clocks, notes: Notes) -> NoReturn:
    """Passes and gives jobs to the machines until a signal comes."""
    due, troubles = time.monotonic(), service.Troubles(tell)

    def one(passes: bool) -> str:
        """A round, where this machine's clock is set. Returns what is in its way."""
        if passes:
            notes.look()
        if not clocks.is_machine_set():
            return UNSYNCHRONIZED
        dispatcher.round(passes)
        warning, fault = clocks.warning(), dispatcher.fault()
        if warning:
            tell(warning)
        return STANDS.format(fault) if fault else ""

    while True:
        passes = time.monotonic() >= due
        troubles.are(service.hindrance(lambda: one(passes)))
        if passes:
            due = time.monotonic() + dispatcher.options.every
        service.check()
        dispatcher.woken.wait(max(0.0, due - time.monotonic()))
        dispatcher.woken.clear()


def workers_of(options: argparse.Namespace, place: str) -> List[Worker]:
    """The machines that run jobs: this one, where its socket is, and those of the file; or this one by hand."""
    if options.command:
        return [Hand(place, options.command, options.check_board or options.command)]
    lines = os.environ.get("RUNTIME_DIRECTORY", place).partition(":")[0]
    others = destinations_in(options.workers)
    ways = {**({DESK: SOCKET} if os.path.exists(SOCKET) or not others else {}), **others}
    return [Worker(name, way, lines) for name, way in ways.items()]


def checked(workers: Sequence[Worker]) -> int:
    """Says of each machine whether it answers, and as what."""
    status = 0
    for it in workers:
        try:
            look = it.look("0")
            said, lacks = f"answers, as machine {look.life.partition('/')[0]}", look.lacks and f", but {look.lacks}"
        except Away as fault:
            said, lacks = "doesn't answer", f": {fault}"
        print(f"{it.name}: {it.way} {said}{lacks}")
        status = AWAY if lacks else status
    return status


def parser_of() -> parsers.Parser:
    parser = parsers.parser_of("farm-dispatch", ABOUT, STATUSES)
    for word, metavar, default, kind, about in (
        ("--folder", "DIR", "/var/lib/farm-dispatch", str, """Where logs, artifacts, the history and what isn't finished \
stand (default %(default)s). It must keep what it has over a restart of the machine."""),
        ("--every", "SECONDS", 5, seconds, """Between two passes (default %(default)s). The status page and desk(1) warn \
where the desk's clock is more than 30 seconds old."""),
        ("--grace", "SECONDS", 30, seconds, "Between SIGTERM and SIGKILL, once a command is told to end (default %(default)s)."),
        ("--infra", "STATUS", 75, int, "The exit status that means a fault of the lab (default %(default)s)."),
        ("--check-board", "WORDS", None, shlex.split, """By hand: the command for health checks with its arguments, in one \
word (default COMMAND)."""),
    ):
        parser.option(word, metavar, about, default=default, type=kind)
    parser.flag("--check", "Only says of each machine that runs jobs whether it answers, and as what.")
    group = asking.add_options(parser, "dispatch", "default dispatcher")
    for name, (metavar, default, about) in MORE.items():
        group.add_argument(f"--{name.replace('_', '-')}", metavar=metavar, help=f"{about} (default {default}).")
    about = "By hand: what is run for a job, the script itself, without a shell or env(1) in front."
    parser.option("command", "COMMAND", about, nargs="?")
    parser.option("arguments", "ARGUMENT", "What the command gets as its arguments.", nargs=argparse.REMAINDER)
    return parser


def options_of(words: Optional[Sequence[str]]) -> argparse.Namespace:
    options: argparse.Namespace = parser_of().parse_args(words)
    options.command = [options.command, *options.arguments] if options.command else []
    options.check_board = options.check_board or []
    for words_of_it in (options.command, options.check_board):
        words_of_it[:1] = [os.path.abspath(it) if "/" in it else it for it in words_of_it[:1]]  # (it runs in a job's folder)
    return options


def use(options: argparse.Namespace, more: Dict[str, Optional[str]]) -> None:
    """Puts the settings that options, environment or files may have into the options."""
    for name, (kind, default, _) in MORE.items():
        (of, isnt), text = KINDS[kind], more[name] or default
        try:
            setattr(options, name, of(text))
        except (KeyError, ValueError) as fault:
            raise BadSettings(f"{name}: {text!r} is {isnt}") from fault
    options.limit = min(options.limit, options.most)
    options.artifact_count = min(options.artifact_count, MOST_FILES)
