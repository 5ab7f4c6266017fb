"""What node, eslint and TypeScript's checker say of the status page's modules: nothing; and what their own tests of
what needs no browser say (tests/page/*.test.mjs, by node's runner).

Debian's eslint is of an age before `a?.b`, which the parser that it comes with knows: so its rules against
unused expressions and outdated values, which take some of these for faults, are left out of eslint.json."""
from __future__ import annotations

import os
import pathlib
import re
import shutil
import subprocess
from typing import Dict, List, Set

import pytest
from served import TOOLS, TOP
from wants import wants

PAGE = pathlib.Path(TOOLS, "page")
MODULES = sorted(PAGE.glob("*.js"))
TESTS = sorted(pathlib.Path(TOP, "tests", "page").glob("*.test.js"))
# (it is no module, and asked for where it is needed)
WORKER = "keeper"
RULES = pathlib.Path(TOP, "tests", "gate", "eslint.json")
# (the usual format wants parts that Debian's package doesn't bring)
ESLINT = ("eslint", "--no-eslintrc", "--format", "unix")


def said(folder: pathlib.Path, *words: object) -> str:
    """What a program prints in a folder, where it ends with another status than 0. A node that isn't Debian's
    is told where the parts of Debian's eslint are."""
    ran = subprocess.run(
        [*map(str, words)], cwd=folder, env={**os.environ, "NODE_PATH": "/usr/share/nodejs"},
        stdin=subprocess.DEVNULL, stdout=subprocess.PIPE, stderr=subprocess.STDOUT, text=True, check=False,
    )
    return ran.stdout if ran.returncode else ""


@pytest.fixture(name="folder")
def folder_fixture(tmp_path: pathlib.Path) -> pathlib.Path:
    """A copy of the page's modules."""
    for module in (*MODULES, *TESTS):
        shutil.copy(module, tmp_path)
    (tmp_path / "package.json").write_text('{"type": "module"}\n', encoding="utf-8")
    return tmp_path


def sources_of(module: pathlib.Path) -> Set[str]:
    return set(re.findall(r'from "\./(\w+)\.js";', module.read_text(encoding="utf-8")))


def test_the_page_has_one_script_and_no_handlers_in_its_elements() -> None:
    page = (PAGE / "farm.html").read_text(encoding="utf-8")
    assert re.findall(r"<script[^>]*>[^<]*", page) == ['<script type="module" src="page/farm.js">']
    assert re.findall(r"<style| style=", page) == []
    assert re.findall(r"<[^>]* on[a-z]+=", page) == []


def test_the_page_asks_for_all_its_modules_at_once() -> None:
    """Else a module comes a round trip after the one that imports it."""
    page = (PAGE / "farm.html").read_text(encoding="utf-8")
    asked = re.findall(r'<link rel="modulepreload" href="page/(\w+)\.js">', page)
    assert asked == [it.stem for it in MODULES if it.stem != WORKER]


def test_no_module_needs_itself() -> None:
    """Imports go one way, so a module's values are there before another's beginning asks for them."""
    needs: Dict[str, Set[str]] = {it.stem: sources_of(it) for it in MODULES}
    order: List[str] = []
    while needs:
        ready = sorted(it for it, more in needs.items() if not more & needs.keys())
        assert ready, f"these need each other: {sorted(needs)}"
        order += ready
        needs = {it: more for it, more in needs.items() if it not in ready}
    assert order[-1] == "farm"


def test_node_takes_the_modules_and_their_tests_pass(folder: pathlib.Path) -> None:
    """What needs no browser is tried by node alone."""
    wants("node")
    assert said(folder, "node", "--input-type=module", "--eval", READS, *(it.name for it in MODULES)) == ""
    assert len(TESTS) > 3
    assert said(folder, "node", "--test", *(it.name for it in TESTS)) == ""


# Reads modules as node does before it runs them.
READS = """
import vm from "vm"; import fs from "fs";
for (const it of process.argv.slice(1)) new vm.Script("(async () => {" + fs.readFileSync(it, "utf8")
  .replace(/^import [^;]*;$/gms, "").replace(/^export /gm, "") + "})", {filename: it});
"""


def test_eslint_finds_nothing_in_the_modules(folder: pathlib.Path) -> None:
    wants("eslint", "node")
    names = [it.name for it in MODULES]
    assert said(folder, *ESLINT, "--max-warnings", "0", "--config", RULES, *names) == ""


TYPES = ("--noEmit", "--allowJs", "--checkJs", "--target", "es2022", "--module", "es2022", "--moduleResolution", "node",
         "--lib", "es2022,dom,dom.iterable")


def test_types_fit(folder: pathlib.Path) -> None:
    """What the modules say of their types in comments holds, as far as TypeScript's checker sees it."""
    wants("tsc")
    assert said(folder, "tsc", *TYPES, "farm.js") == ""


FAULTS = {
    "no-undef": "setText(who, state?.farm && sayd);",
    "no-unused-vars": "const spare = state?.farm;",
    "eqeqeq": "if (state.farm == 1) showFitting();",
    "no-shadow": "for (const who of state.rows) fillTold(who);",
}


def test_eslint_finds_faults_in_a_module(folder: pathlib.Path) -> None:
    """Faults in the middle of the script, where optional links stand around them, are seen."""
    wants("eslint", "node")
    module, place = folder / "drawing.js", "function drawAround() {\n"
    text = module.read_text(encoding="utf-8")
    assert text.count(place) == 1
    lines = "".join(f"  {it}\n" for it in FAULTS.values())
    module.write_text(text.replace(place, place + lines), encoding="utf-8")
    found = said(folder, *ESLINT, "--config", RULES, module.name)
    assert re.findall(r"\[Error/([a-z-]+)\]$", found, re.MULTILINE) == list(FAULTS), found
