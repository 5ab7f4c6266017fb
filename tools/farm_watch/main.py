"""farm-watch: tells by mail and webhook what happens at the desk, and ends holds."""
import argparse
import functools
import os
import sqlite3
import time
from typing import Dict, List, Optional, Sequence

from farm_watch import tell as ways
from farm_watch.rules import Rules, read_file
from farm_watch.store import Delivery, Store
from farm_watch.watcher import Watcher
from fizgruk import calls, limits
from fizgruk._tools import asking, disk, parsers, service
from fizgruk._tools.service import FAULT, Teller
from fizgruk.errors import Refused

BAD, REFUSED = 2, 3
tell = Teller("farm-watch")
FILE, FOLDER = "/etc/farm/watch.toml", "/var/lib/farm-watch"
LONGEST_EVERY = LONGEST_CALL = 5.0
ABOUT = """\
Looks at the desk every five seconds, and tells what FILE has rules for, by mail and by \
a webhook: a hold that is old, or was ended for its age; a job that has ended; a reservation that \
waited and got a board. Each event is told once, by each way that its rule names; what isn't taken is tried again.
It may be killed at any moment, and goes on from its last look; what happened meanwhile is told \
then. At its first look at a farm it tells of jobs only what happens from then on."""
STATUSES = (
    ("0", "It was ended by SIGTERM or SIGINT; with --check or --try, all is well."),
    ("2", "Bad words, a setting that there isn't, or FILE says what it can't."),
    ("3", "The desk, or the proxy in front of it, doesn't let it in."),
    (
        "4",
        "FILE can't be read, DIR can't be used or is in use by another farm-watch, bad settings, "
        "or a message of --try wasn't taken.",
    ),
)


def main(words: Optional[Sequence[str]] = None) -> int:
    return service.run(tell, lambda: status_of(parser_of().parse_args(words)), bad_file=BAD)


def status_of(options: argparse.Namespace) -> int:
    """Does what the options ask for. Returns the exit status."""
    rules = read_file(options.file)
    if options.check:
        print(f"{options.file}: {summary(rules)}")
        return 0
    return try_ways(rules) if options.try_ways else watch(options, rules)


def parser_of() -> parsers.Parser:
    parser = parsers.parser_of("farm-watch", ABOUT, STATUSES)
    parser.forms = (
        "farm-watch [--folder DIR] [--every SECONDS] [settings] [FILE]",
        "farm-watch --check [FILE]",
        "farm-watch --try [FILE]",
    )
    parser.option("--folder", "DIR", """\
Where it keeps what it has seen and told, in watch.db (default %(default)s). Events are kept for 90
days. Without this file it begins as at its first look.""", default=FOLDER)
    about = "Between two looks, 5 at most (default 5)."
    every = parsers.decimal(0.05, LONGEST_EVERY)
    parser.option("--every", "SECONDS", about, type=every, default=LONGEST_EVERY)
    parser.flag("--check", "Read FILE, and print its rules.")
    about = "Send the admins a word by each way, and say who took it."
    parser.flag("--try", about, dest="try_ways")
    asking.add_options(
        parser,
        "watch",
        "default admin, as it has to be where holds are ended",
        " '[desk]' of FILE,",
        "How long a network call to the desk may wait, 5 at most (default 5).",
    )
    parser.option("file", "FILE", "The rules (default %(default)s).", nargs="?", default=FILE)
    return parser


def summary(rules: Rules) -> str:
    """What a file has rules for, and how it is told."""
    named = {
        "hold.remind": rules.remind and limits.words_of(rules.remind),
        "hold.end": rules.end and limits.words_of(rules.end),
        "job.ended": " ".join(rules.outcomes),
        "board.free": " ".join(rules.free),
    }
    parts = [
        f"{name} ({value}) by {' and '.join(rules.by[name.split('.')[0]])}"
        for name, value in named.items()
        if value
    ]
    return "; ".join(parts)


def try_ways(rules: Rules) -> int:
    """Tells the admins a word by each way."""
    status = 0
    text = "farm-watch can tell this by this way."
    body = {"event": "try", "at": int(time.time()), "owner": "", "subject": "a try", "text": text}
    for name, way in ways.ways_of(rules).items():
        ident = f"try-{calls.fresh_key()[:12]}"
        try:
            to = way(Delivery(0, ident, 1, int(time.time()), body))
            print(f"{name}: {f'told {to}' if to else 'there is no address of an admin'}")
        except ways.Undelivered as fault:
            status = tell.told(FAULT, f"{name}: {fault}")
    return status


def use_table(options: argparse.Namespace, table: Dict[str, str]) -> None:
    """Lets the file's [desk] stand for options that aren't given, and aren't in the environment."""
    for word, value in table.items():
        if getattr(options, word) is None and f"WATCH_{word.upper()}" not in os.environ:
            setattr(options, word, value)


def watch(options: argparse.Namespace, rules: Rules) -> int:
    """Watches until a signal comes. Returns the exit status."""
    use_table(options, rules.desk)
    desk = calls.Desk(asking.settings_of("watch", options, "admin"), patience=0)
    desk.timeout = min(desk.timeout, LONGEST_CALL)
    place = os.path.realpath(options.folder)
    # (the proxy goes through it to what is shown; all else in it is this account's alone)
    os.umask(0o077)
    disk.made_for_all(place)
    lock = disk.take_lock(os.path.join(place, "lock"))
    if lock is None:
        return tell.told(FAULT, f"{place} is in use by another farm-watch")
    file = os.path.join(place, "watch.db")
    try:
        store = Store(file)
        os.chmod(file, 0o600)
    except sqlite3.Error as fault:
        return tell.told(FAULT, f"{file}: {fault}")
    tellers = [ways.Messenger(store, name, way, tell.once) for name, way in ways.ways_of(rules).items()]
    for teller in tellers:
        teller.start()
    print(f"looks every {options.every:g} s at {desk.server}: {summary(rules)}", flush=True)
    try:
        watcher = Watcher(desk, store, rules, tell.once, place)
        service.rounds(tell, options.every, functools.partial(look, watcher, tellers))
    finally:
        for teller in tellers:
            teller.end()


def look(watcher: Watcher, tellers: List[ways.Messenger]) -> str:
    """Looks at the desk once, and lets what it saw be told. Returns what is in its way; a desk that doesn't let it in
    ends it."""
    try:
        watcher.round()
    except Refused as refusal:
        if refusal.status in (401, 403):
            text = f"the desk at {watcher.desk.server} refuses: {refusal}"
            raise SystemExit(tell.told(REFUSED, text)) from refusal
        raise
    except sqlite3.Error as fault:
        return f"what was seen can't be kept: {fault}"
    finally:
        for teller in tellers:
            teller.wake.set()
    return ""
