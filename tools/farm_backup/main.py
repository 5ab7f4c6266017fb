"""farm-backup: copies of a farm while its desk serves."""
import argparse
import os
import shutil
import subprocess
import tempfile
import time
from typing import Callable, Optional, Sequence

from farm_backup import copying
from fizgruk import calls, settings
from fizgruk._tools import disk, parsers, service
from fizgruk._tools.farm_file import FarmFile
from fizgruk._tools.service import FAULT, Teller
from fizgruk.errors import BadSettings, Refused, Unreachable

PROGRAM = "farm-backup"
tell = Teller(PROGRAM)
DB = "/var/lib/farm/lab.db"
LATEST = "latest"
METRIC = "fizgruk_backup_last_success_timestamp_seconds"
TOPICS = ("queue", "boards", "reservations")
ANSWER = 10.0  # seconds that a desk has for its answer
ABOUT = """\
Copies the two files of a farm while its desk serves, and prints the name of the folder that the \
copy is in, DIR/farm-YYYYMMDDTHHMMSSZ (UTC). DIR/latest leads to the newest. The copy is the \
farm after some command; every command that was answered before the copying began is in it. It is \
checked by 'farm report' before it gets its name."""
STATUSES = (
    ("0", "The copy is there."),
    ("2", "Bad words."),
    (
        "4",
        "There is no copy that is a farm, or DIR can't be used, or is in use by another "
        "farm-backup. Standard error has the reason in a line. What was in DIR before is there "
        "still.",
    ),
)
# The options that go with --now, and those that go with copies in a folder.
LOOKS, COPIES = ("to", "report"), ("keep", "server", "textfile")


def main(words: Optional[Sequence[str]] = None) -> int:
    ended = "ended by a signal: run it again"
    return service.run(tell, lambda: status_of(options_of(words)), copying.NoCopy, ended=ended)


def status_of(options: argparse.Namespace) -> int:
    """Does what the options ask for. Returns the exit status."""
    farm = FarmFile(options.db, options.program)
    if options.now:
        return copy_to(farm, options) if options.to else report(farm, options)
    folder = os.path.realpath(options.folder)
    os.makedirs(folder, mode=0o700, exist_ok=True)
    lock = copying.take_folder(folder)
    if lock is None:
        return tell.told(FAULT, f"{folder} is in use by another farm-backup")
    return back_up(farm, folder, options)


def parser_of() -> parsers.Parser:
    parser = parsers.parser_of(PROGRAM, ABOUT, STATUSES)
    parser.forms = (
        f"{PROGRAM} [--db FILE] [--keep N] [--server URL] [--textfile PATH] [--program FILE] "
        "[--verbose] DIR",
        f"{PROGRAM} --now --to FILE [--db FILE] [--program FILE] [--verbose]",
        f"{PROGRAM} --now --report TOPIC [--db FILE] [--program FILE] [--verbose]",
    )
    parser.option("--db", "FILE", "The farm's file (default %(default)s).", default=DB)
    _add_copies(parser)
    _add_looks(parser)
    about = "The program that checks a copy (default %(default)s, as the shell finds it)."
    parser.option("--program", "FILE", about, default="farm")
    about = "Tell on standard error why a copy is made again, and with which desk it is compared."
    parser.flag("--verbose", about)
    parser.option("folder", "DIR", "Where the copies are.", nargs="?")
    return parser


def _add_copies(parser: parsers.Parser) -> None:
    parser.option("--keep", "N", """\
Once the new copy has its name, remove all but the newest N, by what they hold; without it none \
is.""", type=parsers.whole(1, 1_000_000))
    parser.option("--server", "URL", """\
Ask the desk there before the copying how many commands it has done, and throw the copy away where
it has fewer. Where no answer comes this is told, and the copy is kept.""", type=_server)
    parser.option("--textfile", "PATH", f"""\
Once the new copy has its name, write when it was begun, as {METRIC}, into this file of
node_exporter's textfile folder, by a rename. A copy that failed leaves the file as it is.""")


def _add_looks(parser: parsers.Parser) -> None:
    parser.flag("--now", "Copy once, for one who looks at the farm while its desk serves.")
    parser.option("--to", "FILE", """\
Where the copy is, as one file that 'farm report' and SQLite's shell open; none may be there.""")
    about = """\
Print a report over the copy, which is removed then: 'queue', 'boards' or 'reservations'."""
    parser.option("--report", "TOPIC", about, choices=TOPICS)


def options_of(words: Optional[Sequence[str]]) -> argparse.Namespace:
    parser = parser_of()
    options = parser.parse_args(words)
    for name in COPIES if options.now else LOOKS:
        if getattr(options, name):
            parser.error(f"--{name} is for {'copies alone' if options.now else '--now'}")
    if (options.folder is None) != options.now:
        parser.error("--now has no DIR" if options.now else "there is no DIR")
    if options.now and (options.to is None) == (options.report is None):
        parser.error("--now wants one of --to and --report")
    return options


def _server(text: str) -> str:
    try:
        settings.address_of(text)
    except BadSettings as fault:
        raise argparse.ArgumentTypeError(str(fault)) from fault
    return text


def back_up(farm: FarmFile, folder: str, options: argparse.Namespace) -> int:
    """Makes one copy, names it, and removes the oldest."""
    answered = answered_at(options.server) if options.server else None
    moment = time.time()
    with copying.new_copy(farm, folder, teller_of(options)) as copy:
        if answered is not None:
            compare(copy, answered)
            teller_of(options)(f"compared with the desk at {options.server}: {answered} commands")
        name = copying.free_name(folder, copying.name_of(moment))
        os.rename(copy.home, os.path.join(folder, name))
    copying.link(name, os.path.join(folder, LATEST))
    if options.textfile:
        disk.write_whole(options.textfile, f"# TYPE {METRIC} gauge\n{METRIC} {moment:.0f}\n")
    if options.keep:
        remove_old(farm, folder, name, options.keep)
    print(os.path.join(folder, name), flush=True)
    return 0


def teller_of(options: argparse.Namespace) -> Callable[[str], object]:
    """What tells that a copy is made again, where that is wanted."""
    if options.verbose:
        return tell
    return str


def remove_old(farm: FarmFile, folder: str, new: str, keep: int) -> None:
    """Removes the oldest copies, by what they hold: names tell moments, and a clock may have been
    ahead. One that isn't an earlier farm of the new one's history stays."""
    old, others = copying.earlier(farm, folder, new)
    for name in old[: max(0, len(old) - keep + 1)]:
        shutil.rmtree(os.path.join(folder, name))
    if others:
        tell(f"these stay, which aren't earlier copies of the same farm: {', '.join(others)}")


def answered_at(server: str) -> Optional[int]:
    """How many commands a desk has done; None, which is told, where it gives no answer."""
    desk = calls.Desk(settings.Settings(server, PROGRAM, None, None, ANSWER), patience=0)
    try:
        return int(desk.look("/status")["count"])
    except Unreachable as fault:
        tell(f"the copy isn't compared with the desk at {fault}")
    except Refused as refusal:
        tell(f"the copy isn't compared with the desk at {server}: {refusal}")
    return None


def compare(copy: FarmFile, answered: int) -> None:
    """A log that is damaged ends before its damage, and the farm without the rest is a farm, too:
    only the desk, which has it all, tells."""
    count = copying.count_of(copy)
    if count < answered:
        raise copying.NoCopy(
            f"the copy has {count} commands, and the desk had done {answered}: it is thrown away, "
            "since it is another farm's, or the log is damaged"
        )


# ---- a copy to look at while the desk serves


def copy_to(farm: FarmFile, options: argparse.Namespace) -> int:
    """Makes a checked copy in one new file. Returns the exit status."""
    for name in (options.to, f"{options.to}-wal"):
        if os.path.lexists(name):
            raise copying.NoCopy(f"{name} is there: a copy overwrites nothing")
    folder = os.path.dirname(os.path.realpath(options.to))
    about = os.stat(folder)
    if about.st_uid not in (0, os.geteuid()) or about.st_mode & 0o022:
        # (SQLite's shell does what a log or journal says that lies beside a file, to which this belongs or not)
        raise copying.NoCopy(f"{folder}: others may write there, and what they put beside a copy would be taken for its own")
    with copying.new_copy(farm, folder, teller_of(options)) as copy:
        copy.put_in_one()
        os.link(copy.db, options.to)  # (which fails where a file came meanwhile)
    disk.sync_folder(folder)
    return 0


def report(farm: FarmFile, options: argparse.Namespace) -> int:
    """Prints a report over a copy, which is removed then. Returns its status."""
    with tempfile.TemporaryDirectory(prefix="farm-") as place:
        copy = copying.copied(farm, place, teller_of(options))
        try:
            ran = subprocess.run([farm.program, "report", "--db", copy.db, options.report], check=False)
        except OSError as fault:
            raise copying.NoCopy(f"there is no report: {fault}") from fault
    return ran.returncode
