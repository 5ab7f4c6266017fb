"""A lab file that is written from what another system knows of its boards, and what couldn't be
carried over."""
import argparse
import json
import re
import sys
from typing import Any, Callable, Dict, Iterable, List, Optional, TextIO, Tuple, Union

from fizgruk._tools import disk, lab_text, parsers, service
from fizgruk.words import MOST_TAGS, NAME, TAG_KEY, TAG_VALUE

CARRIED, NOT_CARRIED = 0, 1
LEFT_OUT = "The lab file is written, and standard error says what was left out, a line each."


class Unreadable(Exception):
    """What is to be read isn't of its kind."""


def statuses_of(fault: str) -> parsers.Statuses:
    """The exit statuses of a program that writes a lab file; `fault` says when it can't."""
    done = "Nothing that matters was left out."
    return (("0", done), ("1", LEFT_OUT), ("2", "Bad words."), ("4", fault))


def parser_of(program: str, about: str, statuses: parsers.Statuses) -> parsers.Parser:
    """The parser of a program that writes a lab file, with the options that each has."""
    parser = parsers.parser_of(program, about, statuses)
    parser.option("--output", "FILE", "The lab file; without it, the output.")
    parser.flag("--verbose", "Tell also what is left out of every file.")
    return parser


def run(
    program: str, options_of: Callable[[], argparse.Namespace], lab_of: Callable[[argparse.Namespace], "LabFile"]
) -> int:
    """Does the work of a program that writes the lab file that `lab_of` gives for its options. Returns the exit status."""
    tell = service.Teller(program)

    def work() -> int:
        options = options_of()
        return write(tell, lab_of(options), options)

    return service.run(tell, work, Unreadable, UnicodeDecodeError, ended="ended by a signal")


class LabFile:
    """Types and boards in the words that the desk takes. Whatever doesn't fit is noted, as `WHERE:
    WHAT`."""

    def __init__(self) -> None:
        self.types: Dict[str, Tuple[str, int]] = {}
        self.boards: Dict[str, Tuple[str, List[str], Optional[str]]] = {}
        # What couldn't be carried over, and whether every file of its kind has the like.
        self.notes: List[Tuple[str, bool]] = []
        # Lines of comment: at the head of the file, and over a type or a board ("types", its name).
        self.head: List[str] = []
        self.remarks: Dict[Tuple[str, str], str] = {}

    def note(self, where: str, what: str, is_usual: bool = False) -> None:
        self.notes.append((f"{where}: {what}", is_usual))

    def add_type(self, where: str, name: str, check: str = "none", every: int = 0) -> str:
        """Adds a type with its check, where it isn't there already. Returns its name in the lab
        file."""
        word = self.word(where, "type", name, NAME)
        self.types.setdefault(word, (check, every))
        return word

    def add_board(self, where: str, name: str, kind: str, tags: Iterable[str], health: Optional[str] = None) -> None:
        """Adds a board of a type that was added, with its tags as texts `key` or `key=value`, and
        its health, which `farm import` passes over."""
        word = self.word(where, "board", name, NAME)
        if word in (".", ".."):
            self.note(where, f"board {name} isn't carried over: its address would lead elsewhere")
            return
        if word in self.boards:
            self.note(where, f"board {name} isn't carried over: there is a {word} already")
            return
        kept = sorted(it for it in {self.tag(where, it) for it in tags} if it is not None)
        for tag in kept[MOST_TAGS:]:
            self.note(where, f"tag {tag} isn't carried over: a board has {MOST_TAGS} tags at most")
        self.boards[word] = (kind, kept[:MOST_TAGS], health)

    def text(self) -> str:
        """The lab file."""
        lines = [f"# {it}" for it in self.head] + ([""] if self.head else [])
        for name, (check, every) in sorted(self.types.items()):
            lines += [*self._remark("types", name), f"[types.{key_of(name)}]"]
            lines += [f'check = "{check}"', f"every = {every}"] if check != "none" else []
            lines += [""]
        for name, (kind, tags, health) in sorted(self.boards.items()):
            listed = ", ".join(f'"{it}"' for it in tags)
            lines += [*self._remark("boards", name), f"[boards.{key_of(name)}]"]
            lines += [f'type = "{kind}"', f"tags = [{listed}]"]
            lines += [f'health = "{health}"', ""] if health else [""]
        return "\n".join(lines)

    def _remark(self, kind: str, name: str) -> List[str]:
        remark = self.remarks.get((kind, name))
        return [f"# {remark}"] if remark else []

    def note_limits(self) -> None:
        """Notes what a farm has no room for, where `farm import` will stop."""
        kinds = [board[0] for board in self.boards.values()]
        for what in lab_text.beyond_limits(len(self.types), kinds):
            self.note("lab file", what)

    def word(self, where: str, what: str, text: str, longest: int) -> str:
        """A text as a word of the desk's."""
        word = re.sub("[^A-Za-z0-9_.-]", "-", text)[:longest] or "-"
        if word != text:
            self.note(where, f"{what} {text!r} isn't carried over as it is: it is {word}")
        return word

    def tag(self, where: str, text: str) -> Optional[str]:
        """A tag as the desk takes it, or None where it takes none such."""
        key, equals, value = text.partition("=")
        if key == "name":
            self.note(where, f"tag {text} isn't carried over: a board's name is its tag of this key")
            return None
        if equals and not value:
            self.note(where, f"tag {text} isn't carried over as it is: it is {key}")
        word = self.word(where, "tag", key, TAG_KEY)
        if not value:
            return word
        return f"{word}={self.word(where, f'value of tag {key}', value, TAG_VALUE)}"


def yaml_of(file: str, source: Union[str, TextIO], loader: str) -> Any:
    """What the text of a file says in YAML, by one of PyYAML's loaders. Raises Unreadable."""
    try:
        import yaml
    except ImportError as fault:
        raise Unreadable("PyYAML isn't there (python3-yaml)") from fault
    try:
        return yaml.load(source, Loader=getattr(yaml, loader))
    except (yaml.YAMLError, ValueError, RecursionError) as fault:
        raise Unreadable(f"{file} isn't YAML: {' '.join(str(fault).split())}") from fault


def basic(text: str) -> str:
    """A text in quotes: JSON's are TOML's, but for one letter."""
    return json.dumps(text, ensure_ascii=False).replace("\x7f", "\\u007f")


def key_of(name: str) -> str:
    """A name as a key."""
    return name if re.fullmatch("[A-Za-z0-9_-]+", name) else f'"{name}"'


def write(tell: Callable[[str], None], lab: LabFile, options: argparse.Namespace) -> int:
    """Writes a lab file to a file, or the output, and tells what wasn't carried over. Returns the
    exit status."""
    lab.note_limits()
    if options.output is None:
        sys.stdout.write(lab.text())
        sys.stdout.flush()
    else:
        disk.write_whole(options.output, lab.text())
    for text, is_usual in lab.notes:
        if options.verbose or not is_usual:
            tell(text)
    return CARRIED if all(is_usual for _, is_usual in lab.notes) else NOT_CARRIED
