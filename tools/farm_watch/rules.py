"""watch.toml: what farm-watch tells, whom and how. What the file can't say is refused, with its
line and with what is allowed."""
import dataclasses
import email.errors
import email.headerregistry
import json
import urllib.parse
from typing import Any, Callable, Dict, List, Optional, Tuple

from fizgruk import limits, settings, toml_text
from fizgruk.words import BadFile, name_of

CHANNELS = ("mail", "webhook")
OUTCOMES = ("Complete", "Incomplete", "Infra", "Canceled")
SHORTEST_HOLD, LONGEST_HOLD = 60, 365 * 86400
OWNER = "{owner}"
SENDMAIL = "/usr/sbin/sendmail"  # where the file names none
# What an earlier version told, and Prometheus does now: tables, and a key of [board].
ALARMS = ("pass", "full", "room", "bad")
ALARM = "it is an alarm of Prometheus now (examples/alerts.yml)"


@dataclasses.dataclass(frozen=True)
class Mail:
    """How mail is sent: from whom, to which address of an owner and of the admins, by which
    command."""

    sender: str
    to: str = ""
    admin: Tuple[str, ...] = ()
    sendmail: str = SENDMAIL
    owners: Dict[str, str] = dataclasses.field(default_factory=dict)

    def address_of(self, owner: str) -> str:
        """An owner's address; nothing where the owner wants no mail or has no address."""
        return self.owners.get(owner, self.to.replace(OWNER, owner))


@dataclasses.dataclass(frozen=True)
class Webhook:
    """Where each message is posted."""

    url: str
    ca_file: Optional[str] = None


@dataclasses.dataclass(frozen=True)
class Rules:
    """What a file says. A rule that isn't there is None, empty or False."""

    desk: Dict[str, str]
    mail: Optional[Mail]
    webhook: Optional[Webhook]
    remind: Optional[float]
    end: Optional[float]
    outcomes: Tuple[str, ...]
    free: Tuple[str, ...]
    by: Dict[str, Tuple[str, ...]]


# ---- values: each reader says what is allowed

Reader = Callable[[Any], Any]


def reader(what: str, read: Reader) -> Reader:
    """What reads a value, and says of another what it isn't."""

    def value_of(value: Any) -> Any:
        try:
            found = read(value)
        except (ValueError, TypeError, LookupError, AttributeError, email.errors.MessageError):
            found = None
        if found is None:
            raise BadFile(f"{value!r} {what}")
        return found

    return value_of


def where(is_good: Reader) -> Reader:
    """A value as it is, where it is good."""
    return lambda value: value if is_good(value) else None


def some_of(known: Tuple[str, ...], head: str) -> Reader:
    """A list of some of these words, in their order."""
    named = ", ".join(f'"{it}"' for it in known)
    are_known = where(lambda value: isinstance(value, list) and value and set(value) <= set(known))
    return reader(
        f"is none of these: {head} {named}", lambda value: tuple(it for it in known if it in are_known(value))
    )


def seconds_of(value: Any) -> float:
    """The seconds of a time: `4h`, `1h30m`, or as a job file has it."""
    if not isinstance(value, str):
        raise limits.BadTime(f"{value!r} has no unit")
    short = limits.short_time_of(value, "dhms")
    return limits.time_of(value) if short is None else short


def hold_of(value: Any) -> float:
    """How old a hold is."""
    TIME(value)
    return seconds_of(SPAN(value))


def outcomes_of(value: Any) -> Tuple[str, ...]:
    found: Tuple[str, ...] = {True: OUTCOMES, False: ()}[value] if isinstance(value, bool) else SOME_OUTCOMES(value)
    return found


def is_address_of_mail(value: Any) -> bool:
    found = email.headerregistry.Address(addr_spec=value)
    return bool(found.username and found.domain and value.isascii())


def is_url(value: Any) -> bool:
    address = urllib.parse.urlsplit(value)
    return bool(address.scheme in ("http", "https") and address.hostname and address.port != 0)


def pattern_of(value: Any) -> str:
    """An owner's address, in which {owner} stands for the name."""
    address_of(PATTERN(value).replace(OWNER, "ann"))
    return str(value)


text_of = reader('is no text, as ".." is one', where(lambda it: isinstance(it, str) and it))
address_of = reader('is no address of mail, as "ann@lab.example" is one', where(is_address_of_mail))
url_of = reader('is no address, as "https://chat.lab.example/hook" is one', where(is_url))
PATTERN = reader(f'has no {OWNER}, as "{OWNER}@lab.example" has', where(lambda it: OWNER in text_of(it)))
TIME = reader('is no time, as "4h" or "90 minutes" is one', seconds_of)
SPAN = reader(
    f"isn't within {limits.words_of(SHORTEST_HOLD)} to {limits.words_of(LONGEST_HOLD)}",
    where(lambda it: SHORTEST_HOLD <= seconds_of(it) <= LONGEST_HOLD),
)
SOME_OUTCOMES = some_of(OUTCOMES, "true, false or a list of")
# Whose claims count, as the file says it in JSON's words.
CLAIMS = {"true": ("reservation",), "false": (), '"all"': ("reservation", "group")}
BY = {"by": some_of(CHANNELS, "a list of")}
# The tables of a file, the keys of each, and how their values are read.
TABLES: Dict[str, Dict[str, Reader]] = {
    "desk": {word: text_of for word in settings.WORDS},
    "mail": {
        "from": address_of, "to": pattern_of,
        "admin": lambda value: tuple(map(address_of, value if isinstance(value, list) else [value])),
        "sendmail": reader('is no path from / on, as "/usr/sbin/sendmail" is one', where(lambda it: it.startswith("/"))),
    },
    "owners": {},  # (any names; the address of one who wants no mail is empty)
    "webhook": {"url": url_of, "ca_file": text_of},
    "hold": {"remind": hold_of, "end": hold_of, **BY},
    "job": {"ended": outcomes_of, **BY},
    "board": {"free": reader('is none of true, false, "all"', lambda it: CLAIMS[json.dumps(it)]), **BY},
}
# What a table can't be without.
NEEDED = {"mail": ("from", "from is missing: whom the mail comes from"), "webhook": ("url", "url is missing")}
EVENTS = (("hold", "remind"), ("hold", "end"), ("job", "ended"), ("board", "free"))
RULES = ("hold", "job", "board")


# ---- the file


def read_file(file: str) -> Rules:
    """The rules of a file. A fault is told as BadFile, behind the file's name and its line."""
    try:
        with open(file, "rb") as opened:
            text = toml_text.text_of(opened.read())
        return RulesReader(text, toml_text.tree_of(text)).rules()
    except BadFile as fault:
        raise BadFile(f"{file}: {fault}") from fault


class RulesReader:
    """Reads the tables of one file."""

    def __init__(self, text: str, tree: Dict[str, Any]):
        self.text = text
        self.tree = tree

    def fault(self, path: Tuple[str, ...], what: object) -> BadFile:
        """What is wrong with what stands under this path, with its line."""
        where = f"[{path[0]}]" + (f" {path[1]}" if len(path) > 1 else "")
        return BadFile(f"line {toml_text.line_of(self.text, path)}: {where}: {what}")

    def rules(self) -> Rules:
        for name in self.tree:
            if name not in TABLES:
                known = [f"[{it}]" for it in TABLES]
                raise self.fault((name,), ALARM if name in ALARMS else f"no such table: {settings.meant(f'[{name}]', known)}")
        found = {name: self.table(name) for name in TABLES}
        hold, job, board, mail = found["hold"], found["job"], found["board"], found["mail"]
        rules = Rules(
            desk=found["desk"],
            mail=Mail(sender=mail.pop("from"), owners=found["owners"], **mail) if mail else None,
            webhook=Webhook(**found["webhook"]) if found["webhook"] else None,
            remind=hold.get("remind"),
            end=hold.get("end"),
            outcomes=job.get("ended", ()),
            free=board.get("free", ()),
            by={name: self.channels(name, found[name]) for name in RULES},
        )
        self.demand_sense(rules, [it for it in EVENTS if found[it[0]].get(it[1])])
        return rules

    def table(self, name: str) -> Dict[str, Any]:
        """The values of a table; none where it isn't there."""
        given = self.tree.get(name, {})
        if not isinstance(given, dict):
            raise self.fault((name,), "it isn't a table")
        known, found = TABLES[name], {}
        for key, value in given.items():
            if key not in known and name != "owners":
                raise self.fault((name, key), ALARM if key in ALARMS else f"no such key: {settings.meant(key, list(known))}")
            try:
                if name == "owners":
                    name_of(key, "the owner's name")
                found[key] = "" if name == "owners" and value == "" else known.get(key, address_of)(value)
            except BadFile as fault:
                raise self.fault((name, key), fault) from fault
        if name in self.tree and name in NEEDED and NEEDED[name][0] not in found:
            raise self.fault((name,), NEEDED[name][1])
        return found

    def channels(self, name: str, table: Dict[str, Any]) -> Tuple[str, ...]:
        """By which channels a table's rules are told: all that there are, where `by` names none."""
        there = tuple(it for it in CHANNELS if it in self.tree)
        by: Tuple[str, ...] = table.get("by", there)
        for channel in by:
            if channel not in there:
                raise self.fault((name, "by"), f"there is no table [{channel}]")
        return by

    def demand_sense(self, rules: Rules, given: List[Tuple[str, str]]) -> None:
        """Refuses rules that could tell nobody anything."""
        if not (rules.mail or rules.webhook):
            raise BadFile("there is neither [mail] nor [webhook], so nobody can be told")
        if not given:
            raise BadFile(f"it has no rule: nothing of {', '.join(f'[{it}]' for it in RULES)}")
        if rules.remind and rules.end and rules.remind >= rules.end:
            raise self.fault(("hold", "remind"), "it isn't less than end")
        mail = rules.mail
        for path in [it for it in given if mail and "mail" in rules.by[it[0]]]:
            if mail and not (mail.to or mail.owners):
                raise self.fault(path, "its mail goes to owners, and [mail] has no to")
