#!/usr/bin/env python3
"""Writes into each tool's man page what its --help says: python3 docs/manual.py [--check] [FOLDER]

A man page has prose of its own, and parts between `.\\" begin NAME` and `.\\" end NAME`, which are
written here from the tool's parser: its synopsis, description, commands, options and exit statuses
(python/src/fizgruk/_tools/parsers.py says how such a text is marked). So an option is described once, in the
tool, and this is run after that was changed. With --check nothing is written: status 1 names the
first line of each page that isn't as it would be written. FOLDER has the pages; this one, else.
"""
import argparse
import importlib
import os
import re
import sys
from typing import Dict, Iterator, Optional, Set

HERE = os.path.dirname(os.path.abspath(__file__))
sys.path[:0] = [os.path.join(os.path.dirname(HERE), it) for it in ("tools", "python/src")]
from fizgruk._tools import parsers  # noqa: E402

# The man pages, and the modules that have their parsers.
PAGES = {
    "desk.1": "fizgruk.desk.commands",
    "farm-access.8": "farm_access.main",
    "farm-backup.8": "farm_backup.main",
    "farm-dispatch.8": "farm_dispatch.main",
    "farm-from-desk.1": "farm_import.from_desk",
    "farm-from-labgrid.1": "farm_import.from_labgrid",
    "farm-from-lava.1": "farm_import.from_lava",
    "farm-metrics.8": "farm_metrics.main",
    "farm-page.1": "farm_page.main",
    "farm-watch.8": "farm_watch.main",
}
# What each command has, and the page says once.
OF_EACH_COMMAND = ("help", "json", "wide")
PART = re.compile(r'(\.\\" begin (.+)\n)(?:.*\n)*?(\.\\" end \2\n)')
WORD = re.compile(
    r"(?<!\w)'(?P<quoted>[^']+)'(?!\w)|(?P<option>--[a-z][a-z-]*)"
    r"|(?P<page>[a-z][a-z-]*)\((?P<of>\d)\)|(?P<value>\b[A-Z]+\b)"
)
FORM_WORD = re.compile(r"\[(?P<any>settings)\]|(?P<literal>[-a-z]*[a-z]|--)|(?P<value>[A-Z]+)")


class BadPage(Exception):
    """A page's own source isn't as it should be."""


# ---- words


def escaped(text: str) -> str:
    """A text as troff prints it, letter by letter."""
    return text.replace("\\", "\\e").replace("-", "\\-").replace("~", "\\(ti")


def bold(text: str) -> str:
    return f"\\fB{escaped(text)}\\fP"


def italic(text: str) -> str:
    return f"\\fI{escaped(text)}\\fP"


def values_of(*readers: parsers.Parser) -> Set[str]:
    """The words by which these parsers' values are named."""
    return {
        word
        for reader in readers
        for text in (*parsers.forms_of(reader), *map(parsers.named, parsers.settings_of(reader)))
        for word in re.findall(r"\b[A-Z]+\b", text)
    }


def marked(text: str, values: Set[str]) -> str:
    """A text in the fonts of a man page, a sentence a line."""
    lines = []
    for sentence in re.split(r"(?<=[.)]) (?=[A-Z(])", " ".join(text.split())):
        line, done = "", 0
        for word in WORD.finditer(sentence):
            line += escaped(sentence[done : word.start()]) + word_marked(word, values)
            done = word.end()
        line += escaped(sentence[done:])
        lines.append(f"\\&{line}" if line[:1] in (".", "'") else line)
    return "\n".join(lines)


def word_marked(word: "re.Match[str]", values: Set[str]) -> str:
    if word["quoted"]:
        return bold(word["quoted"])
    if word["option"]:
        return bold(word["option"])
    if word["page"]:
        return f"{bold(word['page'])}({word['of']})"
    return italic(word["value"]) if word["value"] in values else escaped(word["value"])


def form_marked(form: str) -> str:
    """A way to call a tool, or an option with its value, in the fonts of a man page."""

    def mark(word: "re.Match[str]") -> str:
        if word["any"]:
            return f"[{italic(word['any'])}]"
        return bold(word["literal"]) if word["literal"] else italic(word["value"])

    return FORM_WORD.sub(mark, form)


# ---- parts


def item(head: str, text: str, values: Set[str]) -> Iterator[str]:
    if not text:
        raise BadPage(f"{head} has no text in the tool")
    yield ".TP"
    yield head
    yield marked(text, values)


def synopsis(tool: parsers.Parser) -> Iterator[str]:
    forms = list(parsers.forms_of(tool))
    for command in parsers.commands_of(tool):
        forms += [it.replace(" [--json]", "").replace(" [--wide]", "") for it in parsers.forms_of(command)]
    yield ".nh\n.ad l"
    for form in (*forms, f"{tool.prog} {{--help|--version}}"):
        yield form_marked(unbroken(form))
        yield ".br"
    yield ".ad b\n.hy"


def unbroken(form: str) -> str:
    """A form whose lines end between its brackets alone."""
    return re.sub(r"\[[^]]*\]", lambda it: it[0].replace(" ", "\\~"), form)


def description(tool: parsers.Parser) -> Iterator[str]:
    paragraphs = [it for it in tool.about.split("\n") if it]
    yield "\n.PP\n".join(marked(it, values_of(tool)) for it in paragraphs)


def commands(tool: parsers.Parser, of_an_admin: bool) -> Iterator[str]:
    for command in parsers.commands_of(tool):
        if (command.get_default("asks_as") == "admin") == of_an_admin:
            yield from command_items(command, command.prog.split()[-1], values_of(tool, command))


def command_items(command: parsers.Parser, name: str, values: Set[str]) -> Iterator[str]:
    arguments = parsers.arguments_of(command)
    words = [form_marked(parsers.argument_form(it)) for it in arguments]
    tail = [form_marked(command.tail)] if command.tail else []
    yield from item(" ".join([bold(name), *words, *tail]), command.about, values)
    yield ".RS"
    for argument in arguments:
        yield from item(italic(str(argument.metavar)), parsers.text_of(argument), values)
    for option in parsers.options_of(command):
        if option.dest not in OF_EACH_COMMAND:
            head = form_marked(parsers.named(option))
            yield from item(head, parsers.text_of(option), values)
    yield ".RE"


def options(tool: parsers.Parser) -> Iterator[str]:
    values = values_of(tool)
    for argument in parsers.arguments_of(tool):
        yield from item(italic(str(argument.metavar)), parsers.text_of(argument), values)
    for option in parsers.options_of(tool):
        short = [f"{bold(it)}, " for it in option.option_strings[:-1]]
        head = "".join(short) + form_marked(parsers.named(option))
        yield from item(head, parsers.text_of(option), values)
    if tool.settings:
        yield ".PP"
        yield marked(tool.settings_about, values)
    for option in parsers.settings_of(tool):
        names = [form_marked(parsers.named(option)), f"{tool.section}_{option.dest}".upper()]
        names += [option.dest] if option.dest != "config" else []
        yield from item(", ".join(names), parsers.text_of(option), values)


def statuses(tool: parsers.Parser) -> Iterator[str]:
    for status, text in tool.statuses:
        yield from item(bold(status), text, values_of(tool))


def parts_of(tool: parsers.Parser) -> Dict[str, Iterator[str]]:
    """The parts of a tool's man page by their names."""
    parts = {
        "synopsis": synopsis(tool),
        "description": description(tool),
        "options": options(tool),
        "statuses": statuses(tool),
    }
    if parsers.commands_of(tool):
        parts["commands"] = commands(tool, of_an_admin=False)
    if tool.prog == "desk":
        parts["commands of an admin"] = commands(tool, of_an_admin=True)
    return parts


# ---- pages


def written(page: str, text: str) -> str:
    """A page with the parts that its tool's parser gives."""
    tool = importlib.import_module(PAGES[page]).parser_of()
    parts = {name: "\n".join(lines) for name, lines in parts_of(tool).items()}
    found = [it[2] for it in PART.finditer(text)]
    if sorted(found) != sorted(parts):
        raise BadPage(f"it has the parts {sorted(found)}, and should have {sorted(parts)}")
    return PART.sub(lambda it: f"{it[1]}{parts[it[2]]}\n{it[3]}", text)


def difference(old: str, new: str) -> Optional[str]:
    """Where two texts begin to differ, and what should stand there."""
    before, after = old.split("\n"), new.split("\n")
    for at, line in enumerate(after):
        if before[at : at + 1] != [line]:
            return f"line {at + 1} should be '{line}'"
    return None if len(before) == len(after) else f"it should end at line {len(after)}"


def main() -> int:
    reader = argparse.ArgumentParser(description="Writes the tools' man pages from their parsers.")
    reader.add_argument("--check", action="store_true", help="write nothing, and tell what differs")
    reader.add_argument("folder", nargs="?", default=HERE, help="where the pages are")
    given = reader.parse_args()
    status = 0
    for page in PAGES:
        file = os.path.join(given.folder, page)
        with open(file, encoding="utf-8") as source:
            text = source.read()
        try:
            new = written(page, text)
        except BadPage as fault:
            print(f"{file}: {fault}")
            status = 1
            continue
        if given.check and new != text:
            print(f"{file}: {difference(text, new)}: python3 docs/manual.py writes it")
            status = 1
        elif new != text:
            with open(file, "w", encoding="utf-8") as target:
                target.write(new)
    return status


if __name__ == "__main__":
    sys.exit(main())
