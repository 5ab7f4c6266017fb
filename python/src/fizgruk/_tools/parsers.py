"""A tool's parser, the one source of its options, commands and exit statuses: --help prints them,
and docs/manual.py writes them into the tool's man page.

In a text 'words' in quotes are typed or shown as they stand, and a word in capitals is the value
that an option or an argument names so."""
import argparse
import contextlib
import re
import shutil
import sys
import textwrap
from typing import Any, Callable, List, NoReturn, Optional, Sequence, Tuple

from fizgruk import __version__
from fizgruk.words import nearest

NARROWEST, WIDEST = 40, 100
Statuses = Sequence[Tuple[str, str]]
GAP = "\0"  # a space that no line ends at


class Parser(argparse.ArgumentParser):
    """The parser of a tool or of a command: its help fits the terminal, and its usage is made of
    its options. `forms` are given where the options don't all go together; `tail` stands behind the
    usage."""

    def __init__(self, about: str, statuses: Statuses = (), **more: Any) -> None:
        super().__init__(add_help=False, formatter_class=_Formatter, **more)
        self.about, self.statuses = about, statuses
        self._positionals.title = "arguments"
        self.forms: Sequence[str] = ()
        self.tail = ""
        self.section = ""
        self.settings: Optional[argparse._ArgumentGroup] = None
        self.settings_about = ""
        self.short = ""  # what --help prints in the place of all, where that is more than a screen
        self.add_argument("-h", "--help", action="help", help="Show this help.")

    def option(self, name: str, value: str, about: str, **more: Any) -> None:
        """Adds an option that has a value, or an argument."""
        self.add_argument(name, metavar=value, help=about, **more)

    def flag(self, name: str, about: str, **more: Any) -> None:
        """Adds an option that has no value."""
        self.add_argument(name, action="store_true", help=about, **more)

    def add_settings(self, section: str, about: str) -> argparse._ArgumentGroup:
        """Adds the group of options that are settings of this section too."""
        self.section, self.settings_about = section, about
        self.settings = self.add_argument_group("settings")
        return self.settings

    def _print_message(self, message: str, file: Any = None) -> None:
        """Prints help, or what is wrong with the words, which isn't told where nobody is there."""
        try:
            super()._print_message(message, file)
        except OSError:
            if file is not sys.stderr:
                raise

    def format_usage(self) -> str:
        self._lay_out()
        return super().format_usage()

    def format_help(self) -> str:
        self._lay_out()
        return super().format_help()

    def print_help(self, file: Any = None) -> None:
        if self.short:
            self._print_message(f"{self.format_usage()}\n{self.short}", file or sys.stdout)
        else:
            super().print_help(file)

    def parse_args(  # type: ignore[override]
        self, args: Optional[Sequence[str]] = None, namespace: Optional[argparse.Namespace] = None
    ) -> argparse.Namespace:
        """The options; a word that is none is told by the command that it was given to."""
        found, rest = self.parse_known_args(args, namespace)
        if rest:
            one: Parser = getattr(found, "parser", self)
            known = [name for it in (*options_of(one), *settings_of(one)) for name in it.option_strings]
            near = nearest(rest[0], known)
            what = "option" if rest[0].startswith("-") else "argument"
            one.error(f"there is no {what} {rest[0]}" + (f": is {near} meant?" if near else ""))
        return found

    def error(self, message: str) -> NoReturn:
        """Ends the tool; of a word without end its begin is told."""
        super().error(re.sub(r"\S{100,}", lambda it: f"{it[0][:40]}..", message))

    def _check_value(self, action: argparse.Action, value: Any) -> None:
        if isinstance(action, argparse._SubParsersAction) and value not in action.choices:
            near = nearest(value, action.choices)
            which = f"is {near} meant?" if near else f"'{self.prog} --help' lists them"
            self.error(f"there is no command {value}: {which}")
        super()._check_value(action, value)

    def _lay_out(self) -> None:
        """Puts the texts into lines of the terminal's width."""
        self.usage = "\n       ".join(_wrapped_form(it) for it in forms_of(self))
        self.description = filled(self.about)
        self.epilog = _listed(self.statuses)
        if self.settings:
            self.settings.description = filled(self.settings_about, 2)


def parser_of(program: str, about: str, statuses: Statuses) -> Parser:
    """The parser of a tool."""
    parser = Parser(about, statuses, prog=program)
    version = f"{program} {__version__}"
    parser.add_argument("--version", action="version", version=version, help="Show the version.")
    return parser


def one_of(choices: Sequence[str]) -> str:
    """How the value of an option is called that is one of these words."""
    return f"{{{'|'.join(choices)}}}"


class NoNumber(argparse.ArgumentTypeError, ValueError):
    """A word is no number of a span."""


def whole(least: int, most: int) -> Callable[[str], int]:
    """What reads a word that is a whole number of this span."""

    def number(text: str) -> int:
        if text.isascii() and text.isdigit() and len(text) < 20 and least <= int(text) <= most:
            return int(text)
        raise NoNumber(f"{text} is no number from {least:,} to {most:,}")

    return number


def decimal(least: float, most: float) -> Callable[[str], float]:
    """What reads a word that is a number of this span."""

    def number(text: str) -> float:
        with contextlib.suppress(ValueError):
            if least <= float(text) <= most:
                return float(text)
        raise NoNumber(f"{text} is no number from {least:g} to {most:g}")

    return number


# ---- what a parser has


def commands_of(parser: argparse.ArgumentParser) -> List[Parser]:
    """The parsers of a tool's commands."""
    return [
        command
        for action in parser._actions
        if isinstance(action, argparse._SubParsersAction)
        for command in action.choices.values()
    ]


def arguments_of(parser: argparse.ArgumentParser) -> List[argparse.Action]:
    """What stands without an option's name, but for a command."""
    return [
        it
        for it in parser._actions
        if not it.option_strings and not isinstance(it, argparse._SubParsersAction)
    ]


def options_of(parser: Parser) -> List[argparse.Action]:
    """The options that are no settings, but for those that help leaves out."""
    left = settings_of(parser)
    left += [it for it in parser._actions if it.help == argparse.SUPPRESS]
    return [it for it in parser._actions if it.option_strings and it not in left]


def settings_of(parser: Parser) -> List[argparse.Action]:
    return list(parser.settings._group_actions) if parser.settings else []


def forms_of(parser: Parser) -> List[str]:
    """The ways to call it: --help and --version, which end it, aren't in them."""
    if parser.forms:
        return list(parser.forms)
    words = [parser.prog]
    ends = ("help", "version")
    words += [f"[{named(it)}]" for it in options_of(parser) if it.dest not in ends]
    words += ["[settings]"] if parser.settings else []
    words += [argument_form(it) for it in arguments_of(parser)]
    words += ["COMMAND .."] if commands_of(parser) else []
    words += [parser.tail] if parser.tail else []
    return [" ".join(words)]


def named(option: argparse.Action) -> str:
    """An option's name with its value's."""
    name = option.option_strings[-1]
    return name if option.nargs == 0 else f"{name} {option.metavar}"


def argument_form(argument: argparse.Action) -> str:
    patterns = {"*": "[{} ..]", argparse.REMAINDER: "[{} ..]", "+": "{} ..", "?": "[{}]"}
    return patterns.get(str(argument.nargs), "{}").format(argument.metavar)


def text_of(action: argparse.Action) -> str:
    """The help of an option or an argument, with its default."""
    return (action.help or "") % vars(action)


def first_sentence(text: str) -> str:
    return text.split("\n")[0].split(". ")[0].rstrip(".") + "."


# ---- lines


class _Formatter(argparse.RawDescriptionHelpFormatter):
    """Lines of this width, none of which ends within a path or an option."""

    def __init__(self, prog: str, **more: Any) -> None:
        super().__init__(prog, width=width(), **more)

    def _split_lines(self, text: str, width: int) -> List[str]:
        return textwrap.wrap(text, width, break_on_hyphens=False)


def width() -> int:
    """How wide a line is: as the terminal, at most a hundred letters."""
    return max(NARROWEST, min(WIDEST, shutil.get_terminal_size().columns) - 2)


def filled(text: str, less: int = 0) -> str:
    """A text's paragraphs, each of which is one line of it, as lines of this width."""
    return "\n\n".join(_wrapped(it, width() - less) for it in text.split("\n") if it)


def _wrapped(text: str, wide: int, first: str = "", later: str = "") -> str:
    return textwrap.fill(text, wide, initial_indent=first, subsequent_indent=later, break_on_hyphens=False)


def _wrapped_form(form: str) -> str:
    """A form in lines, none of which ends between an option and its value."""
    depth, joined = 0, ""
    for letter in form:
        depth += {"[": 1, "]": -1}.get(letter, 0)
        joined += GAP if depth and letter == " " else letter
    return _wrapped(joined, width() - len("usage: "), later=" " * 11).replace(GAP, " ")


def _listed(statuses: Statuses) -> Optional[str]:
    if not statuses:
        return None
    lines = [
        _wrapped(text, width(), f"  {status}".ljust(8), " " * 8) for status, text in statuses
    ]
    return "\n".join(["exit status:", *lines])
