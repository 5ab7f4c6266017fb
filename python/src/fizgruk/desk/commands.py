"""The commands of desk: the name of each, what does it, what its --help and docs/desk.1 say of it, and
its options and arguments. The first sentence stands in the list of `desk --help`."""
import argparse
from typing import Any, Callable, Dict, Union

from fizgruk._tools import asking, parsers
from fizgruk._tools.lab_text import CHECKS
from fizgruk._tools.parsers import Parser, one_of
from fizgruk.desk import access, admin, audit, holding, orders, past_jobs, views
from fizgruk.history import BY
from fizgruk.words import HEALTHS, LONGEST_EVERY

Part = Callable[[Parser], None]  # adds an option or an argument
NUMBER = parsers.whole(1, 10**9 - 1)


def key_of(text: str) -> str:
    """A key, as far as it can be sent: the desk says what else is none."""
    if text.isascii() and text.isprintable():
        return text
    raise argparse.ArgumentTypeError(f"{ascii(text)} is no key of letters, digits and '-', '_' and '.'")


def priority(text: str) -> Union[int, str]:
    """A word, or a number, of which the desk says whether it is a priority."""
    return parsers.whole(0, 10**9)(text) if text.isascii() and text.isdigit() else text


def hold_of(text: str) -> Union[int, str]:
    """A reservation's number, or a board's name."""
    return NUMBER(text) if text.isascii() and text.isdigit() else text


ABOUT = """\
Speaks with the desk of a board farm, at its address or through the proxy in front of it. Each \
command is sent under a fresh key (those of an import under keys made of the names), and again \
under the same key where no answer came, so that it is done once. A refresh, which does no harm \
when it is done twice, has no key. Where no answer comes at first it says so on standard error, \
and tries again for a quarter of a minute. At a terminal a table is no wider than that: columns are left \
out and texts cut, unless --wide stands behind the command.
It warns on standard error where no pass has come for more than 30 seconds: where the desk's \
clock, which every accepted command moves, is so old beside this machine's; while it waits, where \
nothing but its own commands moved that clock for so long, or where free boards meet its claim for \
so long. It warns too where that clock is more than a minute ahead of this machine's."""

SHORT = """\
The lab:       boards types queue reservations jobs history usage audit
Jobs:          submit wait log artifacts cancel resubmit
Boards:        reserve acquire extend release refresh cancel-reservation with
At your board: console power ssh ways
Tokens:        tokens add-token end-token
Of an admin:   health tags add-type add-board import

  desk boards --free               what is free
  desk reserve hdmi --acquire      a board with the tag hdmi, once there is one
  desk console BOARD               its console
  desk cancel-reservation BOARD    gives it back
  desk submit boot.toml --follow   a job, what it says, and how it ended
  desk queue                       what waits, and why
  desk jobs --mine                 your jobs

'desk help COMMAND' tells of a command, 'desk help all' of all commands, of the
settings and of exit statuses.
"""

STATUSES = (
    ("0", "Done; a job that was waited for ended Complete; or who reads what is shown, as 'head', had enough of it."),
    ("1", "A job that was waited for ended otherwise, or a reservation before it had a board; or boards weren't to be \
Retired."),
    ("2", "Bad words, or a setting that there isn't."),
    ("3", "Refused by the desk, or in part: standard error has its code and text, and what is known beside; or a lab \
file that can't be taken; or there is no such log, artifact or board."),
    ("4", "No answer from the desk, or bad settings, or a file that can't be read, or an output that can't be written."),
    ("125", "Of 'with': no board for the command, or the board was lost before its end, or couldn't be given back."),
    ("126", "Of 'with': the command can't be run."),
    ("127", "Of 'with': there is no such command."),
    ("255", "Of 'console', 'power', 'ssh' and 'ways': ssh(1) doesn't get there; their other statuses are those of \
farm-access(8), 5 where the board isn't yours and 6 where it is lost."),
    ("128+N", "Ended by signal N: 130 by SIGINT, 143 by SIGTERM, 129 by SIGHUP, 131 by SIGQUIT."),
)
AWAITS_END = """\
Wait until all members of its group have ended, and print 'NUMBER RESULT BOARD' of each. \
Interrupted, it says that the job goes on."""
AWAITS_BOARD = """\
Wait until a pass gives it a board, refresh the reservation meanwhile, tell on standard error its \
place in the queue, and why no board comes where none that fits is free, and print the board."""
OF_A_KEY = """\
Submit it once under this key, of 1 to 64 letters, digits and '-', '_' and '.': called again with it,
at another time or with another text, this prints the same number."""
OF_SEVERAL = """\
The lab of several, for each of which the file of settings has a section '[lab NAME]' with settings of \
its own in the place of '[desk]'. The option goes before the environment, and without --server; the \
setting 'lab' of '[desk]' is that of who names none."""
WIDE = "Show all, also where that is wider than the terminal."
OF_HISTORY = """\
Where farm-dispatch(8) keeps its history on this machine, as /var/lib/farm-dispatch, or a file of
its lines that was put aside; without it, the server is asked."""
OF_AUDIT = f"""\
The site's file of them, or one that was put aside and unpacked (default {audit.FILE})."""


class Command:
    """A command. `shows` says that a reader may have enough of what it prints, as `head`; `has_json`,
    that there is something to be printed as JSON: else that option is taken, and not told of."""

    def __init__(
        self, name: str, does: Callable[..., int], about: str, *parts: Part, has_json: bool = True,
        tail: str = "", **defaults: Any,
    ) -> None:
        self.name, self.about, self.parts = name, about, parts
        self.has_json, self.tail = has_json, tail
        self.defaults: Dict[str, Any] = {"does": does, **defaults}


def option(*words: str, **more: Any) -> Part:
    """An option that has a value, or an argument."""
    return lambda parser: parser.option(*words, **more)


def flag(*words: str, **more: Any) -> Part:
    return lambda parser: parser.flag(*words, **more)


def last(about: str) -> Part:
    return option("--last", "N", f"{about}, at most (default {views.LAST}).", type=NUMBER)


A_JOB = option("number", "N", "A job's number.", type=NUMBER)
A_RESERVATION = option("hold", "HOLD", "A reservation's number, or the board that it has.", type=hold_of)
A_BOARD = option("board", "BOARD", "The board's name.")
TAGS = option("tags", "TAG", "A tag of the board; 'name=BOARD' is that board.", nargs="*")
OWN_TAGS = option("tags", "TAG", "A tag of the board.", nargs="*")
PRIORITY = option(
    "--priority", "P", "Its place in the queue: 'low', 'medium', 'high', or 0 to 100 (default 50).",
    type=priority,
)
EVERY = option(
    "--every", "SECONDS", "Between two looks, while it waits (default %(default)s).",
    type=parsers.decimal(0.05, 60), default=2,
)
MINE = flag("--mine", "Those of the user alone.")
FOLLOW = flag("--follow", "Print its log as it comes, and then what --wait prints.")
AS_ADMIN = flag(access.AS_ADMIN, "Go there as an admin of the lab, whoever holds it; it is written down.")

COMMANDS = (
    Command("boards", views.show_boards, """\
Show the boards, or those that have all of these tags and are of the type; or a board by its name, line by \
line: who has it and since when, as far as farm-dispatch(8) saw that, and what the lab has noted of it. 'CHECKED' \
is when the last health check of a board ended. A word that no board has ends it with 3. With --all-labs a lab \
that gives no answer is told, and the exit status is 4 then, or 3 where it refuses, also though the boards of the \
others are shown; with --json there is an object for each lab.""",
            option("words", "WORD", "A tag, a type, or a board's name, which is also told as 'name=BOARD'.", nargs="*"),
            flag("--free", "Those that nobody has and that would be given to who asks."),
            flag("--all-labs",
                 "Ask all labs of the settings at once; their names stand before their boards."),
            shows=True),
    Command("types", views.show_types,
            "Show the types, and after how many hours or jobs their boards are checked.",
            shows=True),
    Command("queue", views.show_queue, """\
Show what waits for boards, in the order in which it is served. 'WAITED' is for how long, where \
farm-dispatch(8) saw when it was submitted, and its folder or the proxy says so. 'REASON' says why a claim \
waits: who has the boards that fit, or that none can come, since those that fit are Retired, Bad or in \
Maintenance; that a group collects boards; and that the worker of a board doesn't answer. What a group wants is \
asked of the desk where the dispatcher doesn't tell it, for the first fifty claims, in three seconds at most. A \
type that there isn't ends it with 3.""",
            option("type", "TYPE", "Those that want a board of this type; reservations want none.",
                   nargs="?", default=""),
            MINE,
            option("--limit", "N", f"How many, at most (default {views.LAST}; with --json all).",
                   type=NUMBER),
            shows=True),
    Command("reservations", views.show_reservations, """\
Show the reservations that haven't ended. 'LEFT' is how long a lease still runs by this machine's \
clock: more than a minute where the farm's is ahead.""",
            flag("--all", "Those that have ended too."), MINE, shows=True),
    Command("jobs", past_jobs.show_some_or_all, """\
Show the newest jobs that are open, and the last that ended. A group that waits has one line, and 'REASON' says \
why, as 'queue' does. With numbers it \
shows those of them that there are, and tells the others: their name, when they began, and how long they took and \
why they ended so, or how long they may run, or where in the queue they stand and why they wait; the counts of \
their 'junit.xml', with the first tests that failed below. One job has a line for each of these. What the \
dispatcher doesn't tell of open jobs is asked of the desk, a call a job; so is each of them with --json. Where no job \
is open the clock isn't looked at.""",
            flag("--text", "Print the texts that were submitted."), MINE,
            option("--limit", "N", f"How many of those that are open, at most (default {views.LAST}).", type=NUMBER),
            last("How many of those that ended"),
            option("numbers", "N", "A job's number.", nargs="*", type=NUMBER), shows=True),
    Command("submit", orders.submit_job, """\
Submit a job file, and print the job's number. Where the desk refuses it, it says which rule the \
file breaks, which type there isn't, or which tag no board has. Where its 'timeouts.job' is no \
time, of which the desk knows nothing, nothing is submitted.""",
            option("file", "FILE", "The job file, or - for the input."),
            option("--key", "KEY", OF_A_KEY, type=key_of), flag("--wait", AWAITS_END), FOLLOW, EVERY),
    Command("cancel", orders.cancel_jobs, """\
Cancel jobs and their groups. Of several each one that is refused is told, and the others are canceled.""",
            option("numbers", "N", "A job's number.", nargs="*", type=NUMBER),
            flag("--mine", "Cancel all jobs of the user that are open, and print the numbers of their groups.")),
    Command("resubmit", orders.resubmit_job, """\
Submit a job's text again, and print the new number. It may be anybody's job; its text is the one \
that the desk keeps.""", A_JOB, flag("--wait", AWAITS_END), FOLLOW, EVERY),
    Command("log", past_jobs.show_log, "Print what a job's command said, as it stands in its log.",
            A_JOB,
            flag("--follow", "Print also what it says from then on, until the job has ended."),
            flag("--raw",
                 "On a terminal, print its escapes too, by which it may do there what it likes."),
            EVERY, has_json=False, shows=True),
    Command("artifacts", past_jobs.show_artifacts, """\
List what a job's group left in 'out' of its folder, which is kept as long as its log. What isn't kept \
of it is told on standard error, with the counts of its 'junit.xml'. With ARTIFACT it prints that one's \
bytes, at a terminal without escapes.""",
            A_JOB,
            option("name", "ARTIFACT", "Print this one of them, as 'boot/console.log'.",
                   nargs="?", default=""),
            option("--to", "DIR",
                   "Write them, or the one, into this folder, and print each one's path."), shows=True),
    Command("history", past_jobs.show_history, """\
Show a board's jobs, and how its health changed and why, the newest first.""",
            A_BOARD, last("How many of the jobs and changes"), shows=True),
    Command("audit", audit.show_audit, """\
Show who did what with a board, the newest last: the commands that the site handed on and the desk \
accepted, by their login, their address, their words and the number that was answered. It reads a \
file of the site's machine, \
which root and the group adm may read.""",
            A_BOARD, last("How many commands"),
            option("--file", "FILE", OF_AUDIT),
            shows=True),
    Command("usage", past_jobs.show_usage, """\
Show what jobs used, how they ended and how long they waited, and what people held. A line has how many jobs ended since \
WHEN, and how; the hours for which they held boards since then; and how long they waited from \
their submission to their begin: half of them no longer than 'WAITED', nine of ten no longer than \
'NINTH'. Jobs that were submitted while nobody looked, and health checks, count in neither. Checks \
are the admin's jobs. 'HOLDS' has how many holds of people ended since WHEN, 'HELD' the hours for which \
they held boards since then, as farm-watch(8) saw them; where it keeps none this is told.""",
            option("--since", "WHEN",
                   "A span, as 30d, 12h, 90m or 2w, or a date, as 2026-11-30 (default %(default)s).",
                   type=past_jobs.moment_of, default="30d"),
            option("--by", one_of(BY),
                   "What has a line each: owners, boards or types (default %(default)s).",
                   choices=BY, default="owner"),
            shows=True),
    Command("reserve", orders.reserve_board, """\
Reserve a board that has all these tags, and print the reservation's number. One that was given a \
board has to be acquired within a minute. Where this waits and is interrupted, the reservation is \
canceled.""",
            TAGS, flag("--any", "Reserve any board, where no tag is given."),
            PRIORITY, flag("--wait", AWAITS_BOARD), EVERY,
            flag("--acquire", "Wait, and then acquire the board.")),
    Command("wait", orders.wait_for, """\
Wait for a job's end as 'submit --wait' does, or for a reservation's board as 'reserve --wait' \
does.""",
            option("number", "N", "The number of a job or a reservation.", type=NUMBER), EVERY, follow=False),
    Command("acquire", orders.change_reservation,
            "Acquire the board that a reservation was given, and print its name.",
            A_RESERVATION, action="acquire"),
    Command("release", orders.change_reservation,
            "Release an acquired board, which the reservation keeps for a minute, as it says then.",
            A_RESERVATION, action="release"),
    Command("refresh", orders.change_reservation, "Let a reservation live for a minute from now.",
            A_RESERVATION, action="refresh"),
    Command("extend", orders.change_reservation, """\
Keep an acquired board for longer. The age of the hold begins anew, where farm-watch(8) reminds of \
holds or ends them.""", A_RESERVATION, action="refresh"),
    Command("cancel-reservation", orders.change_reservation,
            "End a reservation, and give its board back.",
            A_RESERVATION, action="cancel"),
    Command("with", holding.run_with_board, """\
Run a command with a board, and give the board back. It reserves, waits, acquires, and runs \
COMMAND with 'BOARD' (and 'FARM_BOARD', as jobs have it), 'BOARD_TYPE', 'BOARD_TAGS' and \
'RESERVATION' in its environment. When that \
has ended, or a signal came, the board is given back. SIGINT, SIGTERM, SIGHUP and SIGQUIT are \
handed on to the command. (Killed by SIGKILL it can't give the board back: 'desk \
cancel-reservation'.) Every two seconds it looks whether the reservation still holds the board. \
Where an admin or farm-watch(8) has ended it, it says so, sends SIGTERM to the command and to what \
descends from it, SIGKILL to what still runs ten seconds later, and ends with 125. While the desk \
is away no hold changes, and the command goes on. The exit status is that of the command, 128 and \
the number of the signal that killed it, or 125 to 127 as below.""",
            TAGS, PRIORITY, EVERY, has_json=False, tail="-- COMMAND [ARGUMENT ..]"),
    Command("console", access.show_console, """\
Go to the console of a board that you hold. At a terminal 'Enter ~.' leaves it, as any session of \
ssh(1). With --reserve it reserves a board, waits, acquires it, and gives it back at the end, as \
'with' does. Where the board is lost it ends within two seconds.""",
            option("words", "BOARD", "The board; with --reserve, the tags that it has to have.",
                   nargs="*"),
            flag("--reserve",
                 "Reserve a board with these tags, wait for it, acquire it, and give it back at the end."),
            flag(access.WATCH, "Only look at what another session of yours has there."),
            flag(access.LOG, "Print what the console said in your last hold, for a day."),
            AS_ADMIN, has_json=False, priority=None, every=2.0),
    Command("power", access.switch_power, """\
Switch the power of a board that you hold, and return once that is done.""",
            A_BOARD,
            option("verb", "VERB",
                   "'on', 'off', 'cycle', or 'status' where the lab has a command for it.",
                   choices=access.VERBS),
            AS_ADMIN, has_json=False),
    Command("ssh", access.enter_board, """\
Go by ssh(1) to the sshd of a board that you hold, as root or another user.""",
            option("board", "BOARD",
                   "The board, behind a user's name and @ where that isn't root."),
            option("words", "WORD", "What runs there; without it, a shell.",
                   nargs=argparse.REMAINDER),
            has_json=False),
    Command("ways", access.show_ways, "Show which ways the lab has to a board.",
            A_BOARD, has_json=False),
    Command("tokens", orders.show_tokens, """\
Show your tokens that haven't ended. A token stands for your password where a program asks, as in \
a pipeline: its text stands in the file that 'password_file' names. It is for a site with \
farm-door(8).""", shows=True),
    Command("add-token", orders.add_token, """\
Make a token, and print its text, which is shown this once. Where no answer comes, end it, and \
make another.""", option("name", "NAME", "The token's name, which no other of yours has.")),
    Command("end-token", orders.end_token,
            "End one of your tokens, which lets nobody in from then on.",
            option("name", "TOKEN", "The token's name.")),
    Command("health", admin.set_health, """\
Set the health of boards, as an admin. A board that is refused is told, and the others have it. At \
a terminal it asks once before boards are Retired, which is for good.""",
            option("boards", "BOARD", "A board's name.", nargs="+"),
            option("health", "HEALTH",
                   f"{', '.join(HEALTHS[:-1])}, or {admin.RETIRED}, which is for good.",
                   type=admin.health_called),
            option("--reason", "TEXT", """\
Why, for the site's audit, and for the lab's notes of these boards where this machine has their file; '' takes it out \
of these."""),
            flag("--yes",
                 f"Ask nothing before boards are {admin.RETIRED}, at a terminal too."),
            asks_as="admin"),
    Command("tags", admin.set_tags,
            "Give a board these tags in the place of those it has, as an admin.",
            A_BOARD, OWN_TAGS, flag("--none", "It has no tags from now on."), asks_as="admin"),
    Command("add-type", admin.add_type, """\
Add a type, as an admin. Its boards are checked each N hours or jobs, or never.""",
            option("name", "NAME", "The type's name."),
            option("--check", one_of(CHECKS),
                   "What its checks are counted by, with --every (default none).", choices=CHECKS),
            option("--every", "N",
                   f"How many hours or jobs lie between two checks, 1 to {LONGEST_EVERY}.",
                   type=parsers.whole(1, LONGEST_EVERY)),
            asks_as="admin"),
    Command("add-board", admin.add_board,
            "Add a board, as an admin. It is in Maintenance until its health is set.",
            option("name", "NAME", "The board's name."), option("type", "TYPE", "Its type."), OWN_TAGS,
            asks_as="admin"),
    Command("import", admin.import_lab, """\
Add the types and boards of a lab file, as an admin. It does so as 'farm import' does, under the \
same keys, while the desk serves: what either of them added, the other keeps. It prints 'accepted \
A, kept K', as 'farm import' does; kept are those of the file's types and boards that were there \
when it began. Each key that the desk will ignore is told, with its line; so is a file without \
types and boards. Where the file has a fault nothing is added, and its line is named. It ends \
at the first type or board that the desk refuses, and names its line in the file; a type or a \
board that is there and that no import added is refused so.""",
            option("file", "FILE", "The lab file, or - for the input."), asks_as="admin"),
)


def parser_of() -> Parser:
    parser = parsers.parser_of("desk", ABOUT, STATUSES)
    group = asking.add_options(
        parser,
        "desk",
        "without it, admin for an admin's commands, else the user of the server in ~/.netrc, or of "
        "the login",
    )
    group.add_argument("--lab", metavar="NAME", help=OF_SEVERAL)
    group.add_argument("--history", metavar="FOLDER", help=OF_HISTORY)
    about = "Where ssh(1) goes for boards (default 'ssh://board@HOST:2222', the server's host)."
    group.add_argument("--access", metavar="DESTINATION", help=about)
    about = "Print what the desk answered, as JSON, an object a line; also behind the command."
    parser.flag("--json", about)
    about = "Say on standard error which desk is asked, and as whom."
    parser.add_argument("-v", "--verbose", action="store_true", help=about)
    parser.short = SHORT
    parser.set_defaults(asks_as=None, shows=False)
    added = parser.add_subparsers(metavar="COMMAND", required=True)
    for it in COMMANDS:
        more: Dict[str, Any] = {"about": it.about}  # which the class of these parsers takes
        one: Parser = added.add_parser(it.name, help=parsers.first_sentence(it.about), **more)
        one.tail = it.tail
        about = "Print what the desk answered, as JSON." if it.has_json else argparse.SUPPRESS
        one.flag("--json", about, default=argparse.SUPPRESS)
        if it.has_json and it.defaults.get("shows"):
            one.flag("--wide", WIDE)
        for add in it.parts:
            add(one)
        one.set_defaults(parser=one, **it.defaults)
    return parser
