"""desk: the desk of a board farm, from a terminal or a script."""
import argparse
import os
import sys
from typing import Optional, Sequence, TextIO

from fizgruk import calls
from fizgruk._tools import asking, service, terminal
from fizgruk.desk import ENDED, FAULT, REFUSED, Lacking, completion, holding, tell, views, waiting
from fizgruk.desk.commands import parser_of
from fizgruk.errors import (
    BadJobFile, BadSettings, NoArtifact, NoLog, NoText, Refused, ReservationEnded, Unreachable, sentence_of,
)

PATIENCE = 15


def main(words: Optional[Sequence[str]] = None) -> int:
    terminal.guard()
    try:
        options = options_of(sys.argv[1:] if words is None else words)
        service.catch_signals()
        status = status_of(options)
        service.ignore_signals()  # nothing is left to be interrupted
        return status
    except (SystemExit, BrokenPipeError) as end:
        return after_help(end)
    except service.Interrupted as it:
        let_go(sys.stdout)
        return it.status
    finally:
        let_go(sys.stderr)


def after_help(end: BaseException) -> int:
    """The exit status where words are bad, or help was printed, of which a reader may have
    enough."""
    try:
        print(end="", flush=True)
        status = end.code if isinstance(end, SystemExit) else 0
        return status if isinstance(status, int) else 0
    except OSError as fault:
        let_go(sys.stdout)
        return 0 if isinstance(fault, BrokenPipeError) else tell.told(FAULT, sentence_of(fault))


def status_of(options: argparse.Namespace) -> int:
    """Does what the options ask for. Returns the exit status."""
    fault_status = holding.OF_ITSELF if options.does is holding.run_with_board else FAULT
    try:
        if getattr(options, "all_labs", False):
            return views.show_boards_of_labs(options)
        desk = calls.Desk(asking.settings_of("desk", options, options.asks_as), PATIENCE)
        if options.verbose:
            tell(f"the desk is at {desk.server}, asked as {desk.user}")
        desk.tell_trouble = lambda trouble: tell.once(f"waiting for the desk at {desk.server}: {trouble}")
        options.clock = waiting.FarmClock(desk)
        status: int = options.does(desk, options)
        if status == 0 and not options.clock.has_looked:
            options.clock.look()
        print(end="", flush=True)
        return status
    except Refused as refusal:
        return tell.told(REFUSED, f"refused: {refusal}")
    except (Lacking, NoArtifact, NoLog, NoText) as lack:
        return tell.told(REFUSED, str(lack))
    except BadJobFile as fault:
        return tell.told(REFUSED, f"nothing is submitted: {fault}")
    except ReservationEnded as end:
        return tell.told(ENDED, str(end))
    except Unreachable as fault:
        return tell.told(fault_status, f"no answer from the desk at {fault}")
    except BrokenPipeError:
        let_go(sys.stdout)
        return 0 if options.shows else fault_status
    except (BadSettings, OSError) as fault:
        let_go(sys.stdout)
        return tell.told(fault_status, sentence_of(fault))


def let_go(stream: Optional[TextIO]) -> None:
    """Drops what nobody takes of an output. Python would try it once more at its end, and end with
    120."""
    if stream is None:
        return  # the client was started without it
    try:
        stream.flush()
    except OSError:
        os.dup2(os.open(os.devnull, os.O_WRONLY), stream.fileno())


def options_of(words: Sequence[str]) -> argparse.Namespace:
    """The options of these words. What stands behind `--` is the command of `with`."""
    command: Sequence[str] = ()
    if "--" in words and "with" in words[: words.index("--")]:
        words, command = words[: words.index("--")], words[words.index("--") + 1 :]
    parser = parser_of()
    completion.offer(parser)
    if words[:1] in (["help"], ("help",)):
        parser.short = "" if words[1:] == ["all"] else parser.short
        words = [*(it for it in words[1:2] if it != "all"), "--help"]
    options: argparse.Namespace = parser.parse_args(words)
    if getattr(options, "all_labs", False) and (options.lab or options.server):
        parser.error("--all-labs goes without --lab and --server")
    if options.does is holding.run_with_board:
        if not command:
            parser.error("with: give a command behind --")
        options.words = command
    return options
