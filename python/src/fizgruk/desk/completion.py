"""Completion of the command's words by argcomplete (python3-argcomplete): its commands and options as
its parser has them, and what the desk shows.

What a desk shows is a stranger's, and a shell makes of a word what it likes: only what is a number,
or a name or a tag as the desk takes it, or names with a slash between, is handed to the shell.
"""
import argparse
import contextlib
import importlib
import os
import re
import sys
from typing import Callable, Dict, Iterable, List, Sequence, Set

from fizgruk import calls, history, settings, wants, words
from fizgruk._tools import parsers, tables
from fizgruk.desk import orders, past_jobs, views
from fizgruk.errors import FizgrukError
from fizgruk.words import HEALTHS

LONGEST = "3"  # seconds for which a call may hold up the shell, where no setting says it
WORD = re.compile(f"[0-9]+|{words.NAMES.pattern}(/{words.NAMES.pattern})*|{words.TAGS.pattern}")
Offer = Callable[[calls.Desk, argparse.Namespace], Iterable[object]]


def offer(parser: parsers.Parser) -> None:
    """Completes the words that a shell asks about, and ends the process; does nothing otherwise."""
    if "_ARGCOMPLETE" not in os.environ:
        return
    try:
        argcomplete = importlib.import_module("argcomplete")
    except ImportError:
        sys.exit(1)
    line = os.environ["COMP_LINE"][: int(os.environ["COMP_POINT"])]
    inner = re.fullmatch(r".*\swith\s(?:.*\s)?--\s+(.*\s)?(\S*)", line)
    if inner:
        # (what stands behind the command the shell completes by itself, by names of files)
        with os.fdopen(8, "w") as told:
            separator = os.environ.get("_ARGCOMPLETE_IFS", "\013")
            told.write(separator.join([] if inner[1] else programs(inner[2])))
        os._exit(0)
    for command in parsers.commands_of(parser):
        for it in parsers.arguments_of(command):
            place = str(it.metavar)
            given = OFFERS.get(f"{command.prog.split()[-1]} {place}") or OFFERS.get(place)
            if given:
                it.completer = completer_of(given)  # type: ignore[attr-defined]
    for it in [*parsers.settings_of(parser), *(
        it for command in parsers.commands_of(parser) for it in command._actions
    )]:
        if it.dest in BY_OPTION:
            it.completer = BY_OPTION[it.dest]  # type: ignore[attr-defined]
    argcomplete.autocomplete(parser, always_complete_options=False)


def completer_of(given: Offer) -> Callable[..., List[str]]:
    """What argcomplete asks for an argument's words: none where the desk gives no answer."""

    def completer(prefix: str, parsed_args: argparse.Namespace, **_: object) -> List[str]:
        try:
            found = {str(it) for it in given(desk_of(parsed_args), parsed_args)}
        except (FizgrukError, OSError):
            return []
        return sorted(it for it in found if it.startswith(prefix) and WORD.fullmatch(it))

    return completer


def desk_of(options: argparse.Namespace) -> calls.Desk:
    """The desk that the words, the environment and files name, which is waited for a moment."""
    given = vars(options)
    timeout = settings.values_of(given, "desk", settings.refuse)["timeout"] or LONGEST
    return calls.Desk(settings.read_settings({**given, "timeout": timeout}), 0)


def labs_of(prefix: str, parsed_args: argparse.Namespace, **_: object) -> List[str]:
    """The labs of the settings."""
    try:
        found = settings.labs_of({"config": getattr(parsed_args, "config", None)})
    except FizgrukError:
        return []
    return [it for it in found if it.startswith(prefix)]


def programs(begin: str) -> List[str]:
    """The programs that a shell finds, whose names begin so."""
    found: Set[str] = set()
    for folder in os.environ.get("PATH", "").split(os.pathsep):
        try:
            found.update(it for it in os.listdir(folder) if it.startswith(begin))
        except OSError:
            continue
    return sorted(it for it in found if WORD.fullmatch(it))


# ---- what is offered


def names_of(view: str) -> Offer:
    return lambda desk, options: [it["name"] for it in calls.rows_of(desk, view)]


def own_tags_of(desk: calls.Desk, _: argparse.Namespace) -> List[object]:
    return [tag for it in calls.rows_of(desk, "boards") for tag in it["tags"]]


def tags_of(desk: calls.Desk, options: argparse.Namespace) -> List[object]:
    names = [f"name={it}" for it in names_of("boards")(desk, options)]
    return [*own_tags_of(desk, options), *names]


def own_of(desk: calls.Desk) -> List[calls.Row]:
    """The user's reservations that haven't ended."""
    rows = calls.rows_of(desk, "reservations")
    return [it for it in rows if it["owner"] == desk.user and it["state"] not in tables.ENDED]


def open_jobs_of(desk: calls.Desk, _: argparse.Namespace) -> List[object]:
    return [it["number"] for it in past_jobs.open_jobs(wants.Claims(desk), desk.user)]


def tokens_of(desk: calls.Desk, _: argparse.Namespace) -> List[object]:
    return [it["name"] for it in orders.own_tokens(desk)]


def jobs_of(desk: calls.Desk, options: argparse.Namespace) -> List[object]:
    found = open_jobs_of(desk, options)
    with contextlib.suppress(FizgrukError):  # there may be no history
        found += [it["job"] for it in history.past_of(desk).jobs(views.LAST, desk.user)]
    return found


def files_left_by(desk: calls.Desk, options: argparse.Namespace) -> List[object]:
    """The names of what a job left."""
    left = history.Artifacts(desk, history.past_of(desk), options.number)
    return [it.name for it in left.files]


# By argument, or by command and argument.
OFFERS: Dict[str, Offer] = {
    "TAG": tags_of,
    "BOARD": names_of("boards"),
    "HEALTH": lambda desk, options: [*HEALTHS, *names_of("boards")(desk, options)],
    "TYPE": names_of("types"),
    "N": lambda desk, options: [it["number"] for it in own_of(desk)],
    "HOLD": lambda desk, options: [text for it in own_of(desk) for text in (it["number"], it["board"]) if text],
    "NAME": lambda desk, options: (),
    "TOKEN": tokens_of,
    "WORD": lambda desk, options: [
        *tags_of(desk, options), *names_of("types")(desk, options), *names_of("boards")(desk, options),
    ],
    "tags TAG": own_tags_of,
    "add-board TAG": own_tags_of,
    "cancel N": open_jobs_of,
    "jobs N": jobs_of,
    "log N": jobs_of,
    "artifacts N": jobs_of,
    "ARTIFACT": files_left_by,
    "resubmit N": jobs_of,
}


def fixed(*texts: str) -> Callable[..., Sequence[str]]:
    """What argcomplete asks for where always these are offered."""
    return lambda **_: texts


BY_OPTION: Dict[str, Callable[..., Sequence[str]]] = {
    "lab": labs_of, "priority": fixed("low", "medium", "high"), "server": fixed(settings.SERVER, "https://"),
    **{it: fixed() for it in ("user", "timeout", "every", "last", "limit", "since")},
}
