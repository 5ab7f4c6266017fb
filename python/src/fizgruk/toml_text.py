"""TOML texts, read as the desk reads them, by version 1.1, which Python's own reader doesn't (3.9 has none), with where
each key stands. A moment is given as Moment, since no file of the desk's has one that counts."""
import contextlib
import datetime
import functools
import re
from typing import Any, Callable, Dict, List, Match, NamedTuple, Optional, Pattern, Sequence, Set, Tuple, Union

from fizgruk.words import BadFile

CONTROL = re.compile("[\0-\b\v-\x1f\x7f]")
BLANK = re.compile(r"(?:[ \t\n]|#[^\n]*)*")
SPACE = re.compile(r"[ \t]*")
LINE_END = re.compile(r"[ \t]*(?:#[^\n]*)?(?:\n|\Z)")
BARE = re.compile(r"[A-Za-z0-9_-]+")
LONG_BASIC = re.compile(r'"""\n?((?:[^\\]|\\.)*?"{0,2})"""(?!")', re.DOTALL)
BASIC = re.compile(r'"((?:[^"\\\n]|\\.)*)"')
LONG_LITERAL = re.compile(r"'''\n?(.*?'{0,2})'''(?!')", re.DOTALL)
LITERAL = re.compile(r"'([^'\n]*)'")
ESCAPE = re.compile(
    r"\\(?:(?:x([0-9A-Fa-f]{2})|u([0-9A-Fa-f]{4})|U([0-9A-Fa-f]{8}))|([ \t]*\n\s*)|(.))", re.DOTALL
)
ESCAPED = {"e": "\x1b", "b": "\b", "t": "\t", "n": "\n", "f": "\f", "r": "\r", '"': '"', "\\": "\\"}
TIME = r"(?:[01]\d|2[0-3]):[0-5]\d(?::[0-5]\d(?:\.\d+)?)?"
MOMENT = re.compile(rf"\d{{4}}-\d\d-\d\d(?:[Tt ]{TIME}(?:[Zz]|[+-]\d\d:\d\d)?)?(?![\d:])|{TIME}")
BASED = re.compile(r"0x[0-9A-Fa-f](?:_?[0-9A-Fa-f])*|0o[0-7](?:_?[0-7])*|0b[01](?:_?[01])*")
DIGITS = r"\d(?:_?\d)*"
NUMBER = re.compile(rf"[+-]?(?:inf|nan|(?:0|[1-9](?:_?\d)*)(\.{DIGITS})?([eE][+-]?{DIGITS})?)(?![\w.])")


Path = Tuple[str, ...]
ELEMENT = "[]"  # the key of all that an array has, in a path
MOST_PARTS = 80  # of a key with dots, as many as the desk takes
LONGEST_PLACED = 16  # keys of a path whose place is known: no file of the desk's goes deeper


class Moment(NamedTuple):
    """A date, a time, or both, as they are written."""

    text: str


def loads(text: str) -> Dict[str, Any]:
    """The tables of a text. Raises ValueError where it isn't TOML."""
    return Reader(text).document()


class Reader:
    """Reads a text from its beginning on."""

    def __init__(self, text: str):
        self.text = text.replace("\r\n", "\n")
        self.at = 0
        self.places: Dict[Path, int] = {}  # where the keys of a path stand first
        self.begun = 0  # where the line, or the lines of one value, began that is read
        self.headed: Set[int] = set()  # tables that a line of their own named
        self.dotted: Set[int] = set()  # tables that a key with dots made
        self.closed: Set[int] = set()  # tables and arrays that stand as values

    def fault(self, what: str) -> ValueError:
        return ValueError(f"{what} (at line {self.text.count(chr(10), 0, self.at) + 1})")

    def take(self, pattern: Pattern[str]) -> Optional[Match[str]]:
        """The match of a pattern that stands here, which is passed over, or None."""
        found = pattern.match(self.text, self.at)
        if found:
            self.at = found.end()
        return found

    def passed(self, word: str) -> bool:
        if not self.text.startswith(word, self.at):
            return False
        self.at += len(word)
        return True

    def demand(self, word: str) -> None:
        self.take(SPACE)
        if not self.passed(word):
            raise self.fault(f"{word!r} is missing")

    # ---- lines

    def document(self) -> Dict[str, Any]:
        control = CONTROL.search(self.text)
        if control:
            self.at = control.start()
            raise self.fault("a byte stands there that no text has")
        root: Dict[str, Any] = {}
        table = root
        path: Path = ()
        while True:
            self.take(BLANK)
            self.begun = self.at
            if self.at == len(self.text):
                return root
            if self.passed("[["):
                keys = self.keys()
                self.demand("]]")
                table, path = self.added_to_array(root, keys), (*keys, ELEMENT)
            elif self.passed("["):
                path = self.keys()
                self.demand("]")
                table = self.headed_table(root, path)
            else:
                self.pair(table, path)
            if not self.take(LINE_END):
                raise self.fault("something stands behind the end of a line")

    def keys(self, above: Path = ()) -> Path:
        """The keys that stand here, with dots between, in the table of a path."""
        found: Path = ()
        while True:
            self.take(SPACE)
            at, bare = self.at, self.take(BARE)
            found += (bare.group() if bare else self.quoted_key(),)
            if len(found) > MOST_PARTS:
                raise self.fault(f"a key has more than {MOST_PARTS} parts")
            if len(above) + len(found) <= LONGEST_PLACED:
                self.places.setdefault(above + found, at)
            self.take(SPACE)
            if not self.passed("."):
                return found

    def quoted_key(self) -> str:
        for pattern, read in self.quoted()[1::2]:
            key = self.take(pattern)
            if key:
                return read(key.group(1))
        raise self.fault("a key is missing")

    def inner(self, table: Dict[str, Any], key: str) -> Dict[str, Any]:
        """The table under a key, the last of an array of tables; a new one where none is."""
        found = table.setdefault(key, {})
        if isinstance(found, list) and found and id(found) not in self.closed:
            found = found[-1]
        if not isinstance(found, dict) or id(found) in self.closed:
            raise self.fault(f"{key} is a value already")
        return found

    def headed_table(self, root: Dict[str, Any], keys: Path) -> Dict[str, Any]:
        found = self.above(root, keys).setdefault(keys[-1], {})
        known = (self.headed, self.dotted, self.closed)
        if not isinstance(found, dict) or any(id(found) in it for it in known):
            raise self.fault(f"{'.'.join(keys)} is there already")
        self.headed.add(id(found))
        return found

    def added_to_array(self, root: Dict[str, Any], keys: Path) -> Dict[str, Any]:
        found = self.above(root, keys).setdefault(keys[-1], [])
        if not isinstance(found, list) or id(found) in self.closed:
            raise self.fault(f"{'.'.join(keys)} is no array of tables")
        added: Dict[str, Any] = {}
        found.append(added)
        return added

    def above(self, root: Dict[str, Any], keys: Path) -> Dict[str, Any]:
        """The table that has the last of these keys."""
        return functools.reduce(self.inner, keys[:-1], root)

    def pair(self, table: Dict[str, Any], above: Path) -> None:
        keys = self.keys(above)
        self.demand("=")
        for key in keys[:-1]:
            table = self.inner(table, key)
            if id(table) in self.headed:
                raise self.fault(f"{key} has a line of its own")
            self.dotted.add(id(table))
        if keys[-1] in table:
            raise self.fault(f"{keys[-1]} is there already")
        table[keys[-1]] = self.value(above + keys)

    # ---- values

    def quoted(self) -> List[Tuple[Pattern[str], Callable[[str], str]]]:
        """The ways to quote a text, a long one before a short one, and how each is read."""
        return [(LONG_BASIC, self.unescaped), (BASIC, self.unescaped), (LONG_LITERAL, str), (LITERAL, str)]

    def value(self, path: Path) -> Any:
        self.take(SPACE)
        for pattern, read in self.quoted():
            found = self.take(pattern)
            if found:
                return read(found.group(1))
        if self.passed("["):
            return self.array((*path, ELEMENT))
        if self.passed("{"):
            return self.inline_table(path)
        for word, value in (("true", True), ("false", False)):
            if self.passed(word):
                return value
        return self.number()

    def number(self) -> Union[int, float, Moment]:
        moment = self.take(MOMENT)
        if moment:
            return self.moment(moment.group())
        based = self.take(BASED)
        if based:
            return int(based.group().replace("_", ""), 0)
        found = self.take(NUMBER)
        if not found:
            raise self.fault("a value is missing")
        digits = found.group().replace("_", "")
        return int(digits) if re.fullmatch(r"[+-]?\d+", digits) else float(digits)

    def moment(self, text: str) -> Moment:
        try:
            if text[4] == "-":
                datetime.date(int(text[:4]), int(text[5:7]), int(text[8:10]))
        except ValueError as fault:
            raise self.fault(f"{text} is no moment") from fault
        return Moment(text)

    def array(self, path: Path) -> List[Any]:
        found: List[Any] = []
        self.closed.add(id(found))
        while True:
            self.take(BLANK)
            if self.passed("]"):
                return found
            found.append(self.value(path))
            self.take(BLANK)
            if not self.passed(","):
                self.demand("]")
                return found

    def inline_table(self, path: Path) -> Dict[str, Any]:
        found: Dict[str, Any] = {}
        while True:
            self.take(BLANK)
            if self.passed("}"):
                break
            self.pair(found, path)
            self.take(BLANK)
            if not self.passed(","):
                self.demand("}")
                break
        self.close(found)
        return found

    def close(self, table: Dict[str, Any]) -> None:
        self.closed.add(id(table))
        for it in table.values():
            if isinstance(it, dict):
                self.close(it)

    def unescaped(self, text: str) -> str:
        def meaning(found: Match[str]) -> str:
            code = found.group(1) or found.group(2) or found.group(3)
            if code:
                return self.character(int(code, 16))
            if found.group(4) is not None:
                return ""
            if found.group(5) not in ESCAPED:
                raise self.fault(f"there is no \\{found.group(5)}")
            return ESCAPED[found.group(5)]

        return ESCAPE.sub(meaning, text)

    def character(self, code: int) -> str:
        if 0xD800 <= code < 0xE000 or code > 0x10FFFF:
            raise self.fault(f"there is no character {code:#x}")
        return chr(code)


class NotToml(BadFile):
    """A text isn't TOML."""


def text_of(data: bytes) -> str:
    """The text of a file, which is to be TOML."""
    try:
        return data.decode()
    except UnicodeDecodeError as fault:
        raise NotToml(f"it isn't UTF-8 at byte {fault.start}") from fault


def tree_of(text: str) -> Dict[str, Any]:
    """The tables of a text."""
    try:
        return loads(text)
    except (ValueError, RecursionError) as fault:
        raise NotToml(f"no TOML: {fault}") from fault


def line_of(text: str, path: Sequence[str]) -> int:
    """The line of a TOML text, counted from 1, in which what stands under the keys of this path
    begins. Where the text isn't TOML, that is the first line behind what is."""
    reader = _read(text)
    return _line(reader, reader.places.get(tuple(path), reader.begun))


def told_at(text: str, path: Sequence[str]) -> str:
    """Where in a TOML text the last of these keys stands, or the last of those that are there:
    ` (at line 3, column 1)`."""
    reader = _read(text)
    there = [tuple(path[:it]) for it in range(len(path), 0, -1)]
    at = next((reader.places[it] for it in there if it in reader.places), None)
    if at is None:
        return ""
    column = at - reader.text.rfind("\n", 0, at)
    return f" (at line {_line(reader, at)}, column {column})"


@functools.lru_cache(maxsize=1)
def _read(text: str) -> Reader:
    """The reader, which knows places, after a text."""
    reader = Reader(text)
    with contextlib.suppress(ValueError, RecursionError):
        reader.document()
    return reader


def _line(reader: Reader, at: int) -> int:
    return reader.text.count("\n", 0, at) + 1
