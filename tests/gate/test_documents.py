"""The documents lead to what there is: their links, the chapters of others that they name, and the commands of desk."""
from __future__ import annotations

import pathlib
import re
from typing import Dict, Iterator, List, Set, Tuple

import pytest
from fizgruk._tools import parsers
from fizgruk.desk.commands import parser_of

TOP = pathlib.Path(__file__).resolve().parents[2]
FOLDERS = (".", "docs", "bench", "tests")
ALL = [file for at in FOLDERS for file in sorted((TOP / at).glob("*.md"))]
# What tells admins and users where to read on.
TOLD_IN = ("docs/*.[18]", "examples/*", "packaging/debian/*inst", "packaging/debian/changelog")
TELLING = [it for at in TOLD_IN for it in sorted(TOP.glob(at)) if it.is_file()]
DOCUMENTS = {file.name: file for file in ALL if file.name != "README.md"}
SCRIPTS = {it.name for kind in ("py", "sh") for it in TOP.glob(f"[!.]*/**/*.{kind}")}
# As in `setting-up.md (The site)` and `docs/setting-up.md, Who did what`.
NAMED = re.compile(r"\b([A-Za-z-]+\.md)(?:\]\([^)]*\))?(?:,\s+(?:under\s+)?\"?| \(\"?)([A-Z][A-Za-z]*(?:\s+[A-Za-z]+)*)")
WORDS = re.compile(r"(?:`|^ {4}|\| )desk ([a-z][a-z-]*)", re.MULTILINE)


def of_each(files: List[pathlib.Path]) -> pytest.MarkDecorator:
    return pytest.mark.parametrize("file", files, ids=lambda it: str(it.relative_to(TOP)))


def chapters(file: pathlib.Path) -> List[str]:
    return re.findall(r"^#+ (.*)$", file.read_text(encoding="utf-8"), re.MULTILINE)


def anchors(file: pathlib.Path) -> Set[str]:
    """The names by which links lead to chapters of a document."""
    return {re.sub(r"[^\w -]", "", it.lower()).replace(" ", "-") for it in chapters(file)}


def links(file: pathlib.Path) -> Iterator[Tuple[pathlib.Path, str]]:
    """Where the document's links lead: the files, and the places in them."""
    text = re.sub(r"^```(?s:.*?)^```|^ {4}.*$", "", file.read_text(encoding="utf-8"), flags=re.MULTILINE)
    for there in re.findall(r"\]\(([^)\s]+)\)", text):
        path, _, place = there.partition("#")
        if not re.match("[a-z]+:", path):
            yield (file.parent / path).resolve() if path else file, place


@of_each(ALL)
def test_links_lead_somewhere(file: pathlib.Path) -> None:
    assert [str(it) for it, _ in links(file) if not it.exists()] == []
    assert [f"{it.name}#{place}" for it, place in links(file) if place and place not in anchors(it)] == []


@of_each([*ALL, *TELLING])
def test_named_documents_and_chapters_are_there(file: pathlib.Path) -> None:
    text = file.read_text(encoding="utf-8")
    assert set(re.findall(r"\b[A-Za-z-]+\.md\b", text)) - {*DOCUMENTS, "README.md"} == set()
    known: Dict[str, List[str]] = {name: chapters(it) for name, it in DOCUMENTS.items()}
    named = [(name, " ".join(said.split())) for name, said in NAMED.findall(text)]
    assert [it for it in named if it[0] in known and not any(it[1].startswith(there) for there in known[it[0]])] == []


@of_each(ALL)
def test_named_tests_and_scripts_are_there(file: pathlib.Path) -> None:
    named = set(re.findall(r"(?<![\w*<-])(test_\w+\.py|[a-z_]+\.sh)\b", file.read_text(encoding="utf-8")))
    assert named - SCRIPTS - {"test_X.py"} == set()


@of_each(ALL)
def test_commands_of_desk_are_there(file: pathlib.Path) -> None:
    """A command that a document promises is one of desk's."""
    there = {it.prog.split()[-1] for it in parsers.commands_of(parser_of())} | {"help"}
    assert {it for it in WORDS.findall(file.read_text(encoding="utf-8"))} - there == set()


@of_each(ALL)
def test_a_long_document_has_contents(file: pathlib.Path) -> None:
    """One of more than 200 lines leads to its chapters from its beginning, but where a script writes most of it."""
    text = file.read_text(encoding="utf-8")
    if text.count("\n") > 200 and file.name != "LIBRARY.md" and "<!-- index -->" not in text:
        contents = text.partition("\n## ")[0]
        assert [it for it in re.findall(r"^## (.*)$", text, re.MULTILINE) if f"[{it}](#" not in contents] == []
