"""farm-access: a board's console, power and network for who holds it, behind OpenSSH."""
import argparse
from typing import Any, Dict, Optional, Sequence

from farm_access import client, site
from fizgruk._tools import parsers
from fizgruk._tools.service import Teller
from fizgruk.errors import BadSettings
from fizgruk.words import BadFile

end = Teller("farm-access").told
SESSION, WAY, DOOR, GUARD, TIDY, CHECK = "session", "way", "door", "guard", "tidy", "check"
ABOUT = """\
Lets people and jobs to the boards that they hold, and to no others: to a board's console, its power, ports \
of its address, and a lab's own commands, which FILE has. People come by an sshd of its own, \
which runs 'farm-access session' whatever is asked of it, and nobody gets a shell. All that begins at a board is a unit \
of systemd's with an account of its own in a slice of the hold. It begins once nothing of the hold before is left, and \
ends with its hold, within two seconds, with all that it started; while the desk is down what is there goes on and \
nothing begins.
A board's ways are the tables '[[ways]]' of FILE that its name fits; '{TAG}' in a text is the value \
of the board's tag 'TAG=VALUE', and '{board}' its name. A session's words are 'BOARD ways', \
'BOARD console', 'BOARD console --watch', 'BOARD console --log', 'BOARD power on', 'off', 'cycle' \
or 'status', 'BOARD tcp PORT', and 'BOARD NAME ..' for a way of the lab's; an admin of FILE who \
doesn't hold the board says '--as-admin' behind them, which is written down as all uses are."""
STATUSES = (
    ("0", "Done; of a session, the status of what ran, or 0 where the board ended the line."),
    ("1", "Of 'check': a way doesn't answer, or is open to somebody else."),
    ("2", "Bad words, or FILE says what it can't."),
    ("4", "The desk gives no answer, or a way none, or the board is shut."),
    ("5", "The board isn't yours now, or another session has its console."),
    ("6", "The hold has ended."),
)
COMMANDS = {
    SESSION: "Serve one session, as sshd's ForceCommand. The words are those that sshd was told.",
    WAY: "Serve a session's words within a job of farm-dispatch(8): 'farm-access way b1 console'.",
    DOOR: "Let in who holds a board: a unit of systemd's, which has its sockets.",
    GUARD: "End what outlives its hold, and have it cleaned up where nobody comes.",
    TIDY: "Clean up behind a board's last hold, where it has ended, as root.",
    CHECK: """\
Say for each board which way answers, and whom else on the machine a device, a relay or an address is open to, as root. \
A board that is in use isn't tried.""",
}


def parser_of() -> parsers.Parser:
    parser = parsers.parser_of("farm-access", ABOUT, STATUSES)
    parser.option("--file", "FILE", "The ways (default %(default)s).", default=site.FILE)
    commands = parser.add_subparsers(dest="command", metavar="COMMAND", required=True)
    made: Dict[str, parsers.Parser] = {}
    for name, text in COMMANDS.items():
        more: Dict[str, Any] = {"about": text}  # which the class of these parsers takes
        made[name] = commands.add_parser(name, help=parsers.first_sentence(text), **more)
    made[TIDY].option("board", "BOARD", "The board.")
    made[CHECK].option("boards", "BOARD", "The boards (default: all of them).", nargs="*")
    about = "A session's words, the board first."
    made[WAY].option("words", "WORD", about, nargs=argparse.REMAINDER)
    made[WAY].forms = ("farm-access way BOARD WORD ..",)
    return parser


def main(words: Optional[Sequence[str]] = None) -> int:
    options = parser_of().parse_args(words)
    site.FILE = options.file
    try:
        if options.command == SESSION:
            return client.session()
        if options.command in (WAY, TIDY):
            words = options.words if options.command == WAY else [options.board, TIDY]
            return client.ask(client.JOBS, " ".join(words))
        # (what runs beside boards needs none of these)
        from farm_access import check, door, guard

        if options.command == DOOR:
            door.serve()
        if options.command == GUARD:
            guard.HoldGuard().run()
        return check.check(site.read_file(site.FILE), options.boards)
    except (BadFile, BadSettings) as fault:
        return end(site.BadWay.status, str(fault))
