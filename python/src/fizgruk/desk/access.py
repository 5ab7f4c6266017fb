"""The ways to a board from a terminal: its console, its power, its network, by farm-access."""
import argparse
import os
import sys
from typing import List, Sequence

from fizgruk import calls, ways
from fizgruk.desk import holding

AS_ADMIN, WATCH, LOG = "--as-admin", "--watch", "--log"
VERBS = ("on", "off", "cycle", "status")
# ssh(1) itself ends a session at a line's begin.
HOW_TO_LEAVE = "the console of {} (Enter ~. leaves it)"


def show_console(desk: calls.Desk, options: argparse.Namespace) -> int:
    to = destination_of(desk)
    terminal = ["-t"] if sys.stdin and sys.stdin.isatty() and not options.log else ["-T"]
    if options.reserve:
        if options.watch or options.log or options.as_admin:
            options.parser.error("--reserve goes without the others")
        options.tags = options.words
        # (which board it is, is in the environment of what `desk with` runs)
        options.words = ["sh", "-c", 'exec "$@" "$BOARD" console', "sh", "ssh", *terminal, "--", to]
        return holding.run_with_board(desk, options)
    if len(options.words) != 1 or (options.watch and options.log):
        options.parser.error("give one board, and one of --watch and --log at most")
    more = [WATCH] * options.watch + [LOG] * options.log + [AS_ADMIN] * options.as_admin
    board = options.words[0]
    if terminal == ["-t"]:
        print(f"desk: {HOW_TO_LEAVE.format(board)}", file=sys.stderr, flush=True)
    return become(ways.words_of(to, board, "console", *more, options=terminal))


def switch_power(desk: calls.Desk, options: argparse.Namespace) -> int:
    more = [AS_ADMIN] * options.as_admin
    words = ["power", options.verb, *more]
    return become(ways.words_of(destination_of(desk), options.board, *words))


def enter_board(desk: calls.Desk, options: argparse.Namespace) -> int:
    user, at, board = options.board.rpartition("@")
    words: Sequence[str] = options.words[1:] if options.words[:1] == ["--"] else options.words
    user = user if at else "root"
    return become(ways.ssh_words(destination_of(desk), board, words, user))


def show_ways(desk: calls.Desk, options: argparse.Namespace) -> int:
    return become(ways.words_of(destination_of(desk), options.board, "ways"))


def destination_of(desk: calls.Desk) -> str:
    return ways.way_of(desk.access, desk.server)


def become(words: List[str]) -> int:
    """Becomes ssh(1), whose status is that of farm-access(8)."""
    print(end="", flush=True)
    os.execvp(words[0], words)
