"""farm-from-desk: a lab file from a desk's boards, for the farm that comes after it."""
import argparse
from typing import Dict, Optional, Sequence

from farm_import import lab_file, next_lab, stopped, turn
from fizgruk import calls, limits, toml_text
from fizgruk._tools import asking, lab_text, parsers, service
from fizgruk._tools.service import FAULT, Teller
from fizgruk.errors import Refused, Unreachable
from fizgruk.words import BadFile

PROGRAM = "farm-from-desk"
tell = Teller(PROGRAM)
ABOUT = """\
Asks a desk for its types, boards and queue, and writes a lab file that 'farm import' takes, to \
begin the next farm with: each type with its check, and each board with its tags. A line 'health' \
stands with each board, which 'farm import' passes over.
With --next it makes the next farm from such a file, which may be edited: boards and types added, \
left out, named otherwise, with other checks. On the desk's machine it checks the file, and that no \
job has a board, makes the next farm with the boards' health beside the old one, stops what serves \
it and looks again, sets the old farm aside in 'old-N', and starts all again over the next one. \
Stopped anywhere, it is run again with the same file and goes on."""
STATUSES = (
    ("0", "Nothing that matters was left out, or the next farm serves."),
    (
        "1",
        f"{lab_file.LEFT_OUT} --next: something is in the way, which standard error says, a line "
        "each; the old farm serves on.",
    ),
    ("2", "Bad words, or a setting that there isn't."),
    ("3", "Refused by the desk."),
    (
        "4",
        "No answer from the desk, bad settings, or a file that can't be read or written. --next: it "
        "is to be run again.",
    ),
)
HEAD = """\
The types and boards of {server}, for the farm that comes after it. Edit this, and on the desk's
machine, as root:
    farm-from-desk --next THIS"""
PATIENCE = 15
DB = "/var/lib/farm/lab.db"
# What goes with --next alone.
OF_NEXT = ("check", "let_go", "db", "program", "stop", "start")
REFUSED = 3


def main(words: Optional[Sequence[str]] = None) -> int:
    ended = "ended by a signal: run it again"
    return service.run(tell, lambda: status_of(options_of(words)), lab_file.Unreadable, UnicodeDecodeError, ended=ended)


def status_of(options: argparse.Namespace) -> int:
    """Does what the options ask for. Returns the exit status."""
    desk = calls.Desk(asking.settings_of("desk", options, "admin"), PATIENCE)
    try:
        if options.next is not None:
            return next_farm(desk, options)
        warn_of_clock(desk)
        return lab_file.write(tell, lab_of(desk, options.own_file), options)
    except Refused as refusal:
        return tell.told(REFUSED, f"refused: {refusal}")
    except Unreachable as fault:
        return tell.told(FAULT, f"no answer from the desk at {fault}")
    except turn.InTheWay as found:
        for line in found.lines:
            tell(line)
        return tell.told(lab_file.NOT_CARRIED, "nothing is done: this is in the way")
    except (turn.NotDone, stopped.NoFarm) as fault:
        return tell.told(FAULT, f"{fault}: run it again, once that is mended")


def parser_of() -> parsers.Parser:
    parser = lab_file.parser_of(PROGRAM, ABOUT, STATUSES)
    parser.forms = (
        f"{PROGRAM} [--output FILE] [--lab FILE] [--verbose] [settings]",
        f"{PROGRAM} --next FILE [--check] [--let-go] [--db FILE] [--program FILE] [--stop WORDS] "
        "[--start WORDS] [settings]",
    )
    parser.option("--lab", "FILE", """\
The lab's own file, to be compared with the desk: the written file and standard error name its lines
that say something else of a type or a board.""", dest="own_file")
    _add_next(parser)
    asking.add_options(parser, "desk", "default admin")
    return parser


def _add_next(parser: parsers.Parser) -> None:
    about = """\
Make the next farm of this lab file, and let the desk serve it. A board without a health in the file
has the one that it has at the desk; a new one is in Maintenance. Where the file names another health
than the desk, nothing is begun."""
    parser.option("--next", "FILE", about)
    about = "Check whether it can be done, say what would be otherwise, and change nothing."
    parser.flag("--check", about)
    about = """\
Begin also where people have boards, or something waits, all of which isn't carried over. (A job that
has a board is never let go: wait for its end, or 'desk cancel' it.)"""
    parser.flag("--let-go", about)
    parser.option("--db", "FILE", f"The farm's file (default {DB}).")
    about = "The program that makes it (default farm, as the shell finds it)."
    parser.option("--program", "FILE", about)
    parser.option("--stop", "WORDS", """\
The command that stops the desk, farm-dispatch(8) and farm-watch(8), where they aren't systemd's
units; it is run without a shell, and may come twice.""")
    parser.option("--start", "WORDS", "The command that starts them again, and ends.")


def options_of(words: Optional[Sequence[str]]) -> argparse.Namespace:
    parser = parser_of()
    options = parser.parse_args(words)
    for name in OF_NEXT:
        if getattr(options, name) and options.next is None:
            parser.error(f"--{name.replace('_', '-')} is for --next")
    if (options.stop is None) != (options.start is None):
        parser.error("--stop and --start go together")
    return options


# ---- writing


def lab_of(desk: calls.Desk, own_file: Optional[str]) -> lab_file.LabFile:
    """The lab of a desk; what waits or is held is told, and where the lab's own file differs."""
    lab = lab_file.LabFile()
    lab.head = HEAD.format(server=desk.server).splitlines()
    for row in desk.look("/types")["types"]:
        lab.add_type("types", row["name"], row["check"], row["every"])
    for row in desk.look("/boards")["boards"]:
        where = f"board {row['name']}"
        if row["health"] == "Retired":
            lab.note(where, "it isn't carried over: it is Retired", True)
            continue
        lab.add_board(where, row["name"], row["type"], row["tags"], row["health"])
        if row["holder"] != "none":
            lab.note(where, f"{row['holder']}, which has it, isn't carried over")
    for row in desk.look("/queue")["queue"]:
        lab.note("queue", f"{row['kind']} {row['number']} of {row['owner']} isn't carried over")
    if own_file is not None:
        compare(lab, own_file)
    return lab


def warn_of_clock(desk: calls.Looker) -> None:
    """Says where the farm's clock is ahead of this machine's: a farm's clock never falls back."""
    ahead = limits.clock_ahead(desk.look("/status"), "begin the next farm")
    if ahead:
        tell(ahead)


# ---- the lab's own file


def compare(lab: lab_file.LabFile, file: str) -> None:
    """Remarks and notes each type and board of which the lab's own file says something else. Its
    import changes none of them: the next farm keeps the reply to each name that is there."""
    with open(file, encoding="utf-8") as opened:
        text = opened.read()
    try:
        own = {(it.section, it.name): next_lab.words_of(it.section, it.body) for it in lab_text.additions_of(text)}
    except BadFile as fault:
        raise lab_file.Unreadable(f"{file} is no lab file: {fault}") from fault
    here = {("types", name): next_lab.words_of("types", {"check": it[0], "every": it[1]}) for name, it in lab.types.items()}
    here.update({("boards", name): next_lab.words_of("boards", {"type": it[0], "tags": it[1]}) for name, it in lab.boards.items()})
    for key in sorted(here.keys() & own.keys()):
        if own[key] != here[key]:
            where = f"{file}:{toml_text.line_of(text, key)}"
            lab.remarks[key] = f"{where} has {own[key]}: its import leaves what stands here"
            what = f"it has {own[key]}, and the desk {here[key]}: an import changes nothing"
            lab.note(where, f"{key[0][:-1]} {key[1]}: {what}")


# ---- the next farm


def next_farm(desk: calls.Desk, options: argparse.Namespace) -> int:
    """Makes the next farm, or goes on where that was stopped. Returns the exit status."""
    lab, ignored = next_lab.lab_of(options.next)
    services = turn.Services(options.stop, options.start)
    farm = stopped.StoppedFarm(options.db or DB, options.program or "farm")
    it = turn.Turn(farm, desk, services)
    with stopped.as_owner_of(options.db or DB), it.alone():
        record = it.record()
        if record and it.has_set_aside(record):
            if record.mark != lab.mark():
                copy = f"{it.next.home}/{turn.LAB}"
                raise turn.NotDone(f"a turn to another file isn't done, which is {copy}")
        else:
            done = it.done_lately(lab)
            if done:
                print(f"{farm.db} is the farm of {options.next} since {done}: nothing is done")
                return lab_file.CARRIED
            for line in ignored:
                tell(f"{options.next}: {line}")
            healths = checked(it, lab, options.let_go)
            if options.check:
                return lab_file.CARRIED
            if record is None or record.mark != lab.mark():
                record = it.prepare(lab, healths, record)
        it.go_on(lab, record, options.let_go)
    print(f"{farm.db} is the farm of {options.next}; the old one is in {it.aside(record)}", flush=True)
    return lab_file.CARRIED


def checked(it: turn.Turn, lab: next_lab.NextLab, may_lose: bool) -> Dict[str, str]:
    """The boards' healths, where nothing is in the way; what would be otherwise is printed."""
    it.demand_room()
    look = it.looker()
    warn_of_clock(look)
    faults, lost = next_lab.faults_of(lab, look), next_lab.lost_of(look)
    for line in next_lab.changes_of(lab, look):
        print(line, flush=True)
    if faults or (lost and not may_lose):
        raise turn.InTheWay(faults + ([] if may_lose else [f"{it} (--let-go)" for it in lost]))
    for line in lost:
        tell(f"{line}, and isn't carried over")
    return next_lab.healths_of(lab, look)
