"""Where the desk is and who asks: what is given, else the environment, else the files of settings,
and ~/.netrc.

A file may have a section for each of several labs, [lab NAME], which stands in the place of [desk]
where that lab is named. What names a lab goes before what is less near: given to a call, before the
environment, and in the environment, before the files."""
import configparser
import dataclasses
import getpass
import netrc
import os
import re
import stat
import urllib.parse
from typing import Any, Callable, Dict, List, Mapping, NamedTuple, Optional, Sequence, Tuple

from fizgruk.errors import BadSettings, sentence_of
from fizgruk.words import NAMES, nearest

SYSTEM_FILE, OWN_FILE = "/etc/farm/desk.ini", "~/.config/farm/desk.ini"
SERVER = "http://127.0.0.1:880"
NO_LOGIN = "a server's address has no user and no password in it: they are settings of their own"
LOOPBACK = ("127.0.0.1", "localhost", "::1")
SECONDS = "30"
WORDS = ("server", "user", "password_file", "ca_file", "timeout")
OF_LAB = (*WORDS, "history", "access")
OF_DISPATCH = (
    "limit", "most", "clock", "keep_logs", "log_limit", "folder_limit", "artifacts_limit",
    "artifact_limit", "artifact_count", "workers", "notes",
)
# The sections of a file, each with its settings.
SECTIONS = {"desk": (*OF_LAB, "lab"), "dispatch": (*WORDS, *OF_DISPATCH), "watch": WORDS}
LAB = re.compile(r"lab +(\S+)")  # the name of a lab's section
LAB_FORM = "[lab NAME]"
BadWords = Callable[[str], None]  # raises that a setting is misspelt
Given = Mapping[str, Any]  # what goes before all else; `config` names the file of settings


@dataclasses.dataclass(frozen=True)
class Settings:
    """An address, a user, and how many seconds a network call may wait; the dispatcher's folder, where that is
    on this machine, and where ssh(1) goes for boards, where that is said."""

    server: str
    user: str
    password: Optional[str]
    ca_file: Optional[str]
    timeout: float
    history: Optional[str] = None
    access: Optional[str] = None


def refuse(text: str) -> None:
    raise BadSettings(text)


def read_settings(
    given: Given, section: str = "desk", user: Optional[str] = None, bad_words: BadWords = refuse
) -> Settings:
    """The settings of calls. `user` is who asks where nothing names one; without it, the name in
    ~/.netrc or of the login."""
    found = values_of(given, section, bad_words)
    server = found["server"] or SERVER
    address = address_of(server)
    login, password = _password_of(found["password_file"], address.hostname or "")
    asks = found["user"] or user or login or _login()
    if not NAMES.fullmatch(asks):
        raise BadSettings(f"{asks!r} is no name of a user")
    if login is not None and login != asks:
        password = None
    if password is not None and address.scheme == "http" and address.hostname not in LOOPBACK:
        raise BadSettings(f"a password isn't sent to {server}, which has no TLS")
    ca_file = os.path.expanduser(found["ca_file"]) if found["ca_file"] else None
    seconds = _seconds(found["timeout"] or SECONDS)
    return Settings(server, asks, password, ca_file, seconds, found.get("history"), found.get("access"))


def values_of(given: Given, section: str, bad_words: BadWords) -> Dict[str, Optional[str]]:
    """What is said for each setting of a section: what is given goes before the environment
    (SECTION_SERVER), and files last. `bad_words` tells of a setting that there isn't."""
    words = SECTIONS[section]
    around = _environment_of(section, words, bad_words)
    parts = _parts_of_files(given.get("config") or around.get("config"))
    for it in parts:
        if it.name not in SECTIONS and it.lab is None:
            known = [*(f"[{name}]" for name in SECTIONS), LAB_FORM]
            bad_words(f"{it.file}: [{it.name}] is no section: {meant(f'[{it.name}]', known)}")
    said = _said_in([it for it in parts if it.name == section], words, bad_words)
    if section == "desk":
        if given.get("lab") and given.get("server"):
            bad_words("a lab and a server don't go together: a lab has its own")
        lab = given.get("lab") or around.get("lab") or said.get("lab")
        if lab:
            if given.get("lab"):
                around = {}  # what it names may be another lab's
            said = {**_of_lab(parts, lab, bad_words), "lab": lab}
    return {word: given.get(word) or around.get(word) or said.get(word) for word in words}


def labs_of(given: Given) -> List[str]:
    """The labs that the files of settings have a section for, in their order."""
    around = _environment_of("desk", SECTIONS["desk"], refuse)
    parts = _parts_of_files(given.get("config") or around.get("config"))
    return list(dict.fromkeys(it.lab for it in parts if it.lab is not None))


def _of_lab(parts: "List[Part]", lab: str, bad_words: BadWords) -> Dict[str, str]:
    """What the sections of a lab say."""
    own = [it for it in parts if it.lab == lab]
    if not own:
        known = [it.lab for it in parts if it.lab is not None]
        which = meant(lab, known) if known else f"there is no section {LAB_FORM}"
        raise BadSettings(f"the settings have no lab {lab}: {which}")
    found = _said_in(own, OF_LAB, bad_words)
    if "server" not in found:
        raise BadSettings(f"[lab {lab}] has no server")
    return found


def _environment_of(section: str, words: Sequence[str], bad_words: BadWords) -> Dict[str, str]:
    """The settings in the environment."""
    head = f"{section.upper()}_"
    known = [word.upper() for word in (*words, "config")]
    found = {}
    for name in sorted(it for it in os.environ if it.startswith(head)):
        word = name[len(head) :]
        if word not in known:
            bad_words(f"{name} in the environment is no setting: {meant(word, known, head)}")
        found[word.lower()] = os.environ[name]
    return found


class Part(NamedTuple):
    """A section of a file of settings, and which lab's it is, if one's."""

    file: str
    name: str
    lab: Optional[str]
    said: Dict[str, str]


def _parts_of_files(named: Optional[str]) -> List[Part]:
    """The sections of the named file, or of the system's and the user's, of which the later goes first."""
    own = os.environ.get("XDG_CONFIG_HOME") or os.path.expanduser("~/.config")
    found: List[Part] = []
    for file in [named] if named else [SYSTEM_FILE, os.path.join(own, "farm", "desk.ini")]:
        read = configparser.ConfigParser(interpolation=None)
        try:
            done = read.read(file, encoding="utf-8")
        except (configparser.Error, OSError, UnicodeDecodeError) as fault:
            raise BadSettings(f"settings: {' '.join(str(fault).split())}") from fault
        if named and not done:
            raise BadSettings(f"{named} can't be read")
        for name in read.sections():
            lab = LAB.fullmatch(name)
            found.append(Part(file, name, lab[1] if lab and NAMES.fullmatch(lab[1]) else None, dict(read[name])))
    return found


def _said_in(parts: List[Part], words: Sequence[str], bad_words: BadWords) -> Dict[str, str]:
    """What sections say together, which may have these settings."""
    found: Dict[str, str] = {}
    for it in parts:
        for word in it.said:
            if word not in words:
                bad_words(f"{it.file}: {word} in [{it.name}] is no setting: {meant(word, words)}")
        found.update(it.said)
    return found


def meant(word: str, known: Sequence[str], head: str = "") -> str:
    """What a misspelt word may mean. `head` stands before each in what is told."""
    near = nearest(word, known)
    if near:
        return f"is {head}{near} meant?"
    return f"there are {', '.join(head + it for it in known)}"


def access_of(given: Given) -> Optional[str]:
    """Where ssh(1) goes for boards, if that is said."""
    return values_of(given, "desk", refuse)["access"]


def address_of(server: str) -> urllib.parse.SplitResult:
    """A server's address, part by part. One with a user in it isn't taken, nor told: it may have a
    password, and others see words and messages."""
    try:
        address = urllib.parse.urlsplit(server)
        if "@" in address.netloc:
            raise BadSettings(NO_LOGIN)
        if address.scheme in ("http", "https") and address.hostname and address.port != 0:
            return address
    except ValueError:
        pass
    raise BadSettings(f"{server} is no address of a server, as {SERVER} is one")


def _login() -> str:
    try:
        return getpass.getuser()
    except (KeyError, OSError) as fault:  # (an account of a number alone, as in a container)
        raise BadSettings("who asks isn't said, and this account has no name: --user NAME") from fault


def _password_of(file: Optional[str], host: str) -> Tuple[Optional[str], Optional[str]]:
    """Whom a password belongs to, where ~/.netrc says so, and the password."""
    if file:
        return None, _first_line(os.path.expanduser(file))
    own = os.path.expanduser("~/.netrc")
    try:
        entry = netrc.netrc(own).authenticators(host)  # (which looks at the modes of no file that is named)
        others = stat.S_IMODE(os.stat(own).st_mode) & 0o077
    except FileNotFoundError:
        return None, None
    except (netrc.NetrcParseError, OSError, UnicodeDecodeError) as fault:
        raise BadSettings(f"~/.netrc: {' '.join(sentence_of(fault).split())}") from fault
    if entry and others:
        raise BadSettings(f"{own} holds a password of {host}, and others may read it: chmod 600")
    return (entry[0], entry[2]) if entry else (None, None)


def _first_line(file: str) -> str:
    try:
        with open(file, encoding="utf-8") as text:
            if stat.S_IMODE(os.fstat(text.fileno()).st_mode) & 0o077:
                raise BadSettings(f"{file} holds a password, and others may read it: chmod 600")
            return text.readline().rstrip("\r\n")
    except (OSError, UnicodeDecodeError) as fault:
        raise BadSettings(f"{file} can't be read: {sentence_of(fault)}") from fault


def _seconds(text: str) -> float:
    try:
        seconds = float(text)
    except ValueError:
        seconds = 0
    if not 0 < seconds <= 3600:
        raise BadSettings(f"{text} is no number of seconds from 0 to 3600")
    return seconds
