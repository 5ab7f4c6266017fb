"""What an admin tells the desk: types, boards, their tags and health, and a lab file."""
import argparse
import os
import stat
import sys
from typing import Any, Dict, List, Set, Tuple

from fizgruk import calls, notes, settings, toml_text
from fizgruk._tools import disk
from fizgruk._tools.lab_text import Addition, additions_of, warnings_of
from fizgruk.desk import ENDED, REFUSED, tell, views
from fizgruk.errors import Code, Refused
from fizgruk.words import HEALTHS, LONGEST_LAB_FILE, BadFile

RETIRED = "Retired"


def health_called(text: str) -> str:
    """A health, in letters of any case."""
    for health in HEALTHS:
        if health.lower() == text.lower():
            return health
    raise argparse.ArgumentTypeError(f"{text} is none of {', '.join(HEALTHS)}")


def set_health(desk: calls.Desk, options: argparse.Namespace) -> int:
    """Sets the health of one board after another; one that is refused keeps none of the others."""
    if options.health == RETIRED and not options.yes and not is_confirmed(options.boards):
        tell("nothing is done")
        return ENDED
    reason = {} if options.reason is None else {"reason": options.reason}
    status, done = 0, []
    for board in options.boards:
        try:
            give(desk, options, f"/boards/{calls.part(board)}/health", {"health": options.health, **reason})
            done.append(board)
        except Refused as refusal:
            if refusal.status == calls.NOT_LET_IN or refusal.code == Code.FORBIDDEN:
                raise
            tell(f"board {board}: refused: {refusal}")
            status = REFUSED
    return note_reason(options, done) or status if reason else status


def note_reason(options: argparse.Namespace, boards: List[str]) -> int:
    """Notes why boards have their health in the lab's file of notes, where that is on this machine."""
    said = settings.values_of({"config": options.config}, "dispatch", options.bad_words)
    file = os.path.realpath(said["notes"] or notes.LAB_FILE)
    if not os.path.isfile(file):
        tell(f"the reason stands in the site's audit alone: this machine has no {file}")
        return 0
    text = views.bytes_of(file).decode(errors="replace")
    try:
        for board in boards:
            text = notes.with_reason(text, board, options.reason)
    except BadFile as fault:
        return tell.told(REFUSED, f"the reason isn't noted: {file}: {fault}")
    disk.write_whole(file, text, stat.S_IMODE(os.stat(file).st_mode))
    return 0


def is_confirmed(boards: List[str]) -> bool:
    """Whether whoever sits at a terminal wants boards to be Retired; elsewhere nobody is asked."""
    if not all(it is not None and it.isatty() for it in (sys.stdin, sys.stderr)):
        return True
    question = f"desk: {' '.join(boards)} can never be used again: Retired all the same? [y/N] "
    print(question, end="", file=sys.stderr, flush=True)
    return sys.stdin.readline().strip().lower() in ("y", "yes")


def set_tags(desk: calls.Desk, options: argparse.Namespace) -> int:
    if bool(options.tags) == options.none:
        options.parser.error("give its tags, or --none")
    return give(desk, options, f"/boards/{calls.part(options.board)}/tags", {"tags": options.tags})


def add_type(desk: calls.Desk, options: argparse.Namespace) -> int:
    has_check = options.check not in (None, "none")
    if has_check != (options.every is not None):
        options.parser.error("--check and --every belong together")
    body = {"check": options.check, "every": options.every} if has_check else {}
    return give(desk, options, "/types", {"name": options.name, **body})


def add_board(desk: calls.Desk, options: argparse.Namespace) -> int:
    if options.name in (".", ".."):
        return tell.told(REFUSED, f"no board can be named {options.name}: its address would lead elsewhere")
    body = {"name": options.name, "type": options.type, "tags": options.tags}
    try:
        return give(desk, options, "/boards", body)
    except Refused as refusal:
        raise refusal.about(options.type) if refusal.code == Code.NO_SUCH_TYPE else refusal


def give(desk: calls.Desk, options: argparse.Namespace, path: str, body: Dict[str, Any]) -> int:
    """Gives one command under a fresh key."""
    return views.answer(options, desk.tell(path, body, calls.fresh_key()))


# ---- a lab file's types and boards, added over HTTP as `farm import` adds them


def import_lab(desk: calls.Desk, options: argparse.Namespace) -> int:
    """Adds what a lab file lists and no earlier import added, up to the first refusal. Returns the
    exit status."""
    data = views.bytes_of(options.file)
    try:
        if len(data) > LONGEST_LAB_FILE:
            raise BadFile(f"it has more than {LONGEST_LAB_FILE:,} bytes")
        text = toml_text.text_of(data)
        additions = additions_of(text)
    except BadFile as fault:
        return told(options.file, f"bad lab file: {fault}")
    for warning in warnings_of(text):
        told(options.file, warning)
    accepted = kept = 0
    there = names_at(desk)
    for each in additions:
        try:
            desk.tell(f"/{each.section}", each.body, each.key())
        except Refused as refusal:
            line = toml_text.line_of(text, (each.section, each.name))
            before = f"before it: accepted {accepted}, kept {kept}"
            return told(options.file, f"line {line}: {each.told()}: {why(refusal, each)}; {before}")
        if (each.section, each.name) in there:
            kept += 1
        else:
            accepted += 1
    return views.answer(options, {"accepted": accepted, "kept": kept}, f"accepted {accepted}, kept {kept}")


def told(file: str, text: str) -> int:
    tell(f"{file}: {text}")
    return REFUSED


def names_at(desk: calls.Desk) -> Set[Tuple[str, str]]:
    """The types and boards that are there. One of these can't be added again, so an answer of 200
    for it is a kept reply; nothing is ever removed, so one for another name is a new row."""
    return {
        (section, row["name"]) for section in ("types", "boards") for row in desk.look(
            f"/{section}"
        )[section]
    }


def why(refusal: Refused, each: Addition) -> str:
    if refusal.code == Code.NO_SUCH_TYPE:
        return f"{refusal}: {each.body['type']}"
    if refusal.code in (Code.TYPE_EXISTS, Code.BOARD_EXISTS):
        return f"{refusal}, and no import added it"
    return str(refusal)
