"""The tools' --help, man pages and completion say the same.

Each option, argument, command and exit status that a tool's --help names has a text of its own, the same in the man
page, which docs/manual.py --check finds as it would write it. --help fits the terminal, and no page has a fault that
man or groff warns of.
"""
from __future__ import annotations

import functools
import os
import pathlib
import re
import shutil
import subprocess
import sys
from typing import Dict, List, Sequence, Tuple

import pytest
from completed import completed
from served import TOOLS, TOP, calls_in_one, environment

pytestmark = pytest.mark.xdist_group("manual")  # one process asks for each help once
DOCS = os.path.join(TOP, "docs")
COMMANDS = [
    "boards", "types", "queue", "reservations", "jobs", "submit", "cancel", "resubmit", "log", "artifacts",
    "history", "audit", "usage", "reserve", "wait", "acquire", "release", "refresh", "extend", "cancel-reservation",
    "with", "console", "power", "ssh", "ways", "tokens", "add-token", "end-token", "health", "tags", "add-type", "add-board", "import",
]
# The tools and their commands.
PAGES: Dict[str, List[str]] = {
    "desk.1": COMMANDS,
    "farm-access.8": ["session", "way", "door", "guard", "tidy", "check"],
    "farm-backup.8": [],
    "farm-dispatch.8": [],
    "farm-from-desk.1": [],
    "farm-from-labgrid.1": [],
    "farm-from-lava.1": [],
    "farm-metrics.8": [],
    "farm-page.1": [],
    "farm-watch.8": [],
}
# A help of a terminal this wide has lines of a hundred letters.
WIDE, WIDEST = 300, 100
# What each command of desk has, and the page says once.
OF_EACH_COMMAND = {"-h, --help", "--json", "--wide"}
OPTION = r"(?:-[a-z], )?--[a-z-]+(?: [A-Z]+| \{[a-z|]+\})?"
HELP_ITEM = re.compile(rf"  ({OPTION}|[A-Z]+|\d\S*)(?: +(\S.*))?|    ([a-z][a-z-]*)(?:  +(\S.*))?")
EACH_PAGE = pytest.mark.parametrize("page", PAGES)


def run(*words: str, **more: str) -> "subprocess.CompletedProcess[str]":
    return subprocess.run(words, capture_output=True, text=True, check=False, env=environment(**more))


def name_of(page: str) -> str:
    return page.rsplit(".", 1)[0]


# ---- help


def help_of(page: str, *command: str, columns: int = WIDE) -> str:
    """The help of a tool or of a command of it."""
    return helps_of(page)[columns, command]


@functools.lru_cache(None)
def helps_of(page: str) -> Dict[Tuple[int, Tuple[str, ...]], str]:
    """The helps of a tool and of its commands, in both widths."""
    commands: List[Tuple[str, ...]] = [(), *((it,) for it in PAGES[page])]
    asked = [(columns, it) for columns in (80, WIDE) for it in commands]
    calls = [({"COLUMNS": str(columns)}, words_of(page, command)) for columns, command in asked]
    found = {}
    for key, (status, said, errors) in zip(asked, calls_in_one(name_of(page), calls)):
        assert (status, errors) == (0, ""), f"{page} {key[1]} --help"
        found[key] = said
    return found


def words_of(page: str, command: Sequence[str] = ()) -> List[str]:
    """By which words all help is printed; `desk --help` is short."""
    return [*command, "--help"] if page != "desk.1" or command else ["help", "all"]


def plain(text: str) -> str:
    """A text without its line ends, and without quotes around words that are typed as they are."""
    return re.sub(r"(?<!\w)'([^']+)'(?!\w)", r"\1", " ".join(text.split()))


def items_of_help(said: str) -> Dict[str, str]:
    """What help lists, by what stands before each text."""
    found: Dict[str, str] = {}
    head = None
    for line in said.split("\n"):
        item = HELP_ITEM.fullmatch(line)
        if item and (item[1] or item[3]):
            head = item[1] or item[3]
            found[head] = item[2] or item[4] or ""
        elif head and line.startswith(" " * 8):
            found[head] += f" {line.strip()}"
        else:
            head = None
    return {head: plain(text) for head, text in found.items()}


def about_of_help(said: str) -> List[str]:
    """The paragraphs between usage and lists."""
    paragraphs = said.split("\n\n")[1:]
    end = next(at for at, it in enumerate(paragraphs) if re.match(r"[a-z ]+:\n", it))
    return [plain(it) for it in paragraphs[:end]]


# ---- pages


def section_of(page: str, head: str) -> str:
    """A section of a man page, as it is read."""
    text = re.sub(r'\\f[BIRP]|^\.\\".*\n', "", pathlib.Path(DOCS, page).read_text("utf-8"), flags=re.MULTILINE)
    for written, meant in (("\\-", "-"), ("\\(ti", "~"), ("\\&", ""), ("\\~", " ")):
        text = text.replace(written, meant)
    found = re.search(rf"^\.SH {head}\n((?:(?!\.SH ).*\n)*)", text, re.MULTILINE)
    assert found, f"{page} has no {head}"
    return found[1]


def items_of_page(text: str) -> Dict[str, str]:
    """What a part of a page lists; of a setting's names the option's is taken."""
    found: Dict[str, str] = {}
    for item in re.finditer(r"^\.TP\n(.+)\n((?:[^.].*\n)*)", text, re.MULTILINE):
        head = re.sub(r"(, [A-Z_]+)(, [a-z_]+)?$", "", item[1])
        assert head not in found, f"{head} stands twice"
        found[head] = plain(item[2])
    return found


def paragraphs_of_page(text: str) -> List[str]:
    return [plain(it) for it in re.split(r"^\.[PT]P\n", text, flags=re.MULTILINE)]


# ---- tests


@EACH_PAGE
def test_help_is_printed_as_by_a_process_of_its_own(page: str) -> None:
    alone = run(sys.executable, os.path.join(TOOLS, name_of(page)), *words_of(page), COLUMNS="80")
    assert (alone.returncode, alone.stdout, alone.stderr) == (0, help_of(page, columns=80), "")


@EACH_PAGE
def test_help_of_tools_and_of_commands_fits_the_terminal(page: str) -> None:
    for (columns, command), said in helps_of(page).items():
        longest = max(len(it) for it in said.split("\n"))
        assert longest <= min(columns, WIDEST), f"{page} {command} at {columns}"


@EACH_PAGE
def test_each_option_argument_and_status_has_a_text_of_its_own_the_same_in_the_man_page(page: str) -> None:
    said = items_of_help(help_of(page))
    statuses = {head: it for head, it in said.items() if head[0].isdigit()}
    assert {"0", "2", "4"} <= set(statuses)
    assert items_of_page(section_of(page, "EXIT STATUS")) == statuses
    wanted = {head: it for head, it in said.items() if re.match(r"-|[A-Z]", head)}
    if PAGES[page]:
        wanted.pop("COMMAND")
    assert [head for head, it in wanted.items() if len(it) < 8] == []
    assert len(wanted) == len(set(wanted.values())) > 2
    assert items_of_page(section_of(page, "OPTIONS")) == wanted


@EACH_PAGE
def test_synopsis_and_description_are_the_same_in_help_and_the_man_page(page: str) -> None:
    synopsis, about = section_of(page, "SYNOPSIS"), about_of_help(help_of(page))
    assert about and paragraphs_of_page(section_of(page, "DESCRIPTION"))[: len(about)] == about
    commands: List[List[str]] = [[], *([it] for it in PAGES[page])]
    for words in commands:
        usage = help_of(page, *words).split("\n\n")[0]
        for form in re.sub(r"\n {8,}", " ", usage).split("\n"):
            form = re.sub(r"^usage: | {7}", "", form)
            form = form.replace(" [--json]", "").replace(" [--wide]", "") if words else form
            assert f"{form}\n" in synopsis


def test_help_of_desk_is_a_screen_that_names_each_command_in_its_group() -> None:
    """Also where a word is `help`; what is longer is a command's own, or `desk help all`."""
    said = [run(sys.executable, os.path.join(TOOLS, "desk"), *words, COLUMNS="80").stdout for words in (["--help"], ["help"])]
    lines = said[0].splitlines()
    assert said[0] == said[1] and len(lines) <= 24 and max(map(len, lines)) <= 80
    groups = [it.partition(":")[2] for it in lines if re.match("[A-Z][a-z ]+: ", it)]
    assert len(groups) > 3 and sorted(" ".join(groups).split()) == sorted(COMMANDS)
    assert run(sys.executable, os.path.join(TOOLS, "desk"), "help", "wait").stdout == help_of("desk.1", "wait", columns=80)


def test_each_command_of_desk_has_a_text_and_its_options_in_both() -> None:
    said = items_of_help(help_of("desk.1"))
    assert [it for it in said if it[0].islower()] == COMMANDS
    text = section_of("desk.1", "COMMANDS") + section_of("desk.1", "COMMANDS OF AN ADMIN")
    block = r"^\.TP\n([a-z-]+)\b.*\n((?:(?!\.R).*\n)*)\.RS\n((?:(?!\.R).*\n)*)\.RE$"
    blocks = re.findall(block, text, re.MULTILINE)
    assert [it[0] for it in blocks] == COMMANDS
    assert len({it[1] for it in blocks}) == len(COMMANDS)
    for name, about, lists in blocks:
        own = help_of("desk.1", name)
        assert about_of_help(own) == [plain(about)]
        assert plain(about).startswith(said[name])
        wanted = {head: it for head, it in items_of_help(own).items() if head not in OF_EACH_COMMAND}
        assert items_of_page(lists) == wanted, name


# ---- docs/manual.py


@pytest.fixture
def copy(folder: str) -> str:
    """A copy of tools and pages."""
    for name in ("docs", "python", "tools"):
        shutil.copytree(os.path.join(TOP, name), os.path.join(folder, name), symlinks=True, ignore=shutil.ignore_patterns("__pycache__"))
    return folder


def checks(copy: str, wanted: int, *told: str) -> None:
    """Demands that --check tells of so many pages, in these words."""
    ran = run(sys.executable, os.path.join(copy, "docs", "manual.py"), "--check")
    assert (ran.returncode, ran.stderr, ran.stdout.count("\n")) == (wanted, "", len(told))
    for it in told:
        assert it in ran.stdout


def test_pages_that_arent_as_the_tools_say_are_found_and_written(copy: str) -> None:
    checks(copy, 0)
    pages = {it: pathlib.Path(copy, "docs", it) for it in PAGES}
    texts = {it: page.read_text("utf-8") for it, page in pages.items()}
    for it, page in pages.items():
        page.write_text(texts[it].replace("Bad words", "Odd words"), "utf-8")
    checks(copy, 1, *(f"{page}: line " for page in PAGES))
    assert run(sys.executable, os.path.join(copy, "docs", "manual.py")).returncode == 0
    assert {it: page.read_text("utf-8") for it, page in pages.items()} == texts


@pytest.mark.parametrize("file, old, new, told", [
    ("docs/farm-backup.8", "holds up nobody", "holds nobody up", []),  # prose is left alone
    ("docs/farm-backup.8", '.\\" end options\n', "", ["farm-backup.8: it has the parts"]),
    ("tools/farm_import/from_lava.py", "dispatcher-config.", "folder.", ["farm-from-lava.1: line "]),
    ("tools/farm_import/from_lava.py", '"The server\'s dispatcher-config."', '""', ["FOLDER\\fP has no text"]),
])
def test_what_is_told_of_a_change(copy: str, file: str, old: str, new: str, told: Sequence[str]) -> None:
    changed = pathlib.Path(copy, file)
    text = changed.read_text("utf-8")
    assert old in text
    changed.write_text(text.replace(old, new), "utf-8")
    checks(copy, 1 if told else 0, *told)


# ---- what man and bash make of it


@pytest.fixture(scope="module")
def warner(tmp_path_factory: pytest.TempPathFactory) -> List[str]:
    """What man or groff is called by that tells of faults."""
    bad = tmp_path_factory.mktemp("page") / "bad.1"
    bad.write_text(".TH BAD 1\n.SH NAME\nbad \\- has a fault\n.FAULT\n\\[fault]\n", "utf-8")
    for words in (["man", "--warnings", "-l"], ["groff", "-t", "-man", "-ww", "-Tutf8"]):
        if shutil.which(words[0]) and run(*words, str(bad), LC_ALL="C.UTF-8").stderr:
            return words
    pytest.skip("neither man nor groff tells of a page's faults")


@pytest.mark.parametrize("page", [*PAGES, "farm.1"])
def test_no_page_has_a_fault_that_man_warns_of(warner: List[str], page: str) -> None:
    ran = run(*warner, os.path.join(DOCS, page), LC_ALL="C.UTF-8", MANWIDTH="80")
    assert (ran.returncode, ran.stderr) == (0, "")


@pytest.mark.parametrize("words", [[], *([it] for it in COMMANDS)], ids=" ".join)
def test_bash_completes_the_options_of_help_and_no_others(words: Sequence[str], folder: str) -> None:
    said = completed(folder, " ".join(["desk", *words, "--"]))
    options = [re.match(r"(?:-[a-z], )?(--[a-z-]+)", it) for it in items_of_help(help_of("desk.1", *words))]
    assert said - {"--"} == {it[1] for it in options if it}
