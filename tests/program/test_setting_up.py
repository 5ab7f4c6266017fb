"""docs/setting-up.md by hand and then the day by curl of docs/API.md, from an empty folder, and a lab file that the
program's user can't reach."""
from __future__ import annotations

import os
import pathlib
import re
import shutil
import subprocess
import tempfile
from typing import Iterator, List

import pytest

from machine import Machine
from orders import Orders, Ran
from ports import free_port
from served import TOP, environment, read
from wants import lacks, wants

PAGE, DAY = (read(os.path.join(TOP, "docs", it)) for it in ("setting-up.md", "API.md"))
# Commands that ask the desk, and change nothing else of the machine. Nothing but these is ever run.
FOLLOWED = re.compile(r"farm (init|import|serve) --db lab\.db |ask |ask\(\)|at=http|for board in | +ask |done$|again")
# What a script of the page begins with: its program, and how a printed line is compared.
BEGIN = """\
set -eu
farm() { "$PROGRAM" "$@"; }
same() { [ "$(cat said)" = "$1" ] || { echo "'$2' prints $(cat said)"; exit 1; }; }
trap 'kill $server' EXIT
"""
SERVES = """\
: > said
"$PROGRAM" {words} > said & server=$!
until [ -s said ]; do sleep 0.1; done
"""


def commands() -> List[str]:
    """The page's commands by hand, and those of the day by curl, that ask the desk."""
    text = PAGE[PAGE.index("\n## By hand") : PAGE.index("\nAs services, from the source")] + DAY[DAY.index("\n## A day by curl") :]
    lines = [line[4:] for line in text.splitlines() if line.startswith("    ")]
    followed_lines = [line for line in lines if FOLLOWED.match(line)]
    assert [line for line in lines if "# prints: " in line and line not in followed_lines] == []
    return followed_lines


def followed(line: str) -> str:
    """A command as the script has it, which prints what stands behind `# prints:`."""
    words, is_told, said = re.sub(" *# prints: ", "# prints: ", line).partition("# prints: ")
    if not is_told:
        return f"{line}\n"
    begin = SERVES.format(words=words[5:]) if words.startswith("farm serve") else f"{words} > said\n"
    return f"{begin}same '{said}' {words.split()[0]}\n"


def test_page(program: str, folder: str) -> None:
    """Each command runs in the page's order, none is refused, and each prints what its comment says."""
    wants("curl")
    os.symlink(os.path.join(TOP, "examples"), os.path.join(folder, "examples"))
    script = BEGIN + "".join(map(followed, commands()))
    assert script.count("\nsame ") >= 10 and SERVES[:8] in script
    ran = subprocess.run(
        ["sh", "-c", script.replace("8080", str(free_port()))], cwd=folder, capture_output=True, text=True, check=False,
        timeout=500, env=environment(PROGRAM=program),
    )
    assert ran.returncode == 0, ran.stdout + ran.stderr
    assert '"code"' not in ran.stdout


class Source(Machine):
    """A machine that has the source, with a built program, in /tmp/source, and nothing of it is installed."""

    def _set_up(self, program: str) -> None:
        parts = ["-C", TOP, "tools", "python", "examples", "-C", os.path.dirname(program), os.path.basename(program)]
        with subprocess.Popen(["tar", "-ch", "--exclude=__pycache__", *parts], stdout=subprocess.PIPE) as packed:
            self.run("sh", "-c", "mkdir -p /tmp/source && tar -xC /tmp/source", stdin=packed.stdout)
        self.run("install", "-D", f"/tmp/source/{os.path.basename(program)}", "/tmp/source/bin/farm")


@pytest.mark.slow(20)
@pytest.mark.xdist_group("packages")
def test_services_from_the_source_begin_by_the_page_alone(program: str, folder: str) -> None:
    """Its block is run line by line, in its own order, under a systemd; then the desk answers."""
    block = PAGE[PAGE.index("\nAs services, from the source"): PAGE.index("\n## The site")]
    lines = [line[4:] for line in block.splitlines() if line.startswith("    ")]
    assert lines[-1] == "systemctl enable --now farm farm-dispatch" and len(lines) > 10
    assert not re.search("(?i)before|after|first", block), "the block says its own order"
    machine = Source(folder, program)
    try:
        machine.run("sh", "-euc", "\n".join(["cd /tmp/source", *lines]))
        machine.wait("the desk", "desk", "--user", "ann", "boards")
        machine.wait("the dispatcher", "sh", "-c", "systemctl is-active farm-dispatch")
        machine.wait("a pass", "sh", "-c", f"{' '.join(machine.curl('root', '/status'))} | grep '\"count\":[1-9]'")
    finally:
        machine.end()


@pytest.fixture
def closed(program: str) -> Iterator[Orders]:
    """The orders of a copy of the program, run by nobody in a folder of nobody's; root's closed folder beside it has
    a lab file."""
    wants("setpriv")
    if os.getuid() != 0:
        lacks("no right to run the program as nobody")
    with tempfile.TemporaryDirectory() as room:
        os.chmod(room, 0o755)
        copy, own, away = (os.path.join(room, it) for it in ("farm", "open", "closed"))
        shutil.copy(program, copy)
        os.mkdir(own)
        os.chown(own, 65534, 65534)
        os.mkdir(away, 0o700)
        shutil.copy(os.path.join(TOP, "examples", "lab.toml"), away)
        yield Orders(copy, own)


def imported(closed: Orders, named: str) -> Ran:
    """An import by nobody, whose standard input root's shell opens."""
    nobody = "setpriv --reuid=65534 --regid=65534 --clear-groups"
    script = f'{nobody} "$0" init --db lab.db > said\n{nobody} "$0" import --db lab.db --at 1 "$1" < ../closed/lab.toml'
    words = ["sh", "-c", script, closed.program, named]
    ran = subprocess.run(words, cwd=closed.folder, capture_output=True, text=True, check=False)
    return Ran(ran.returncode, ran.stdout, ran.stderr)


@pytest.mark.parametrize("mode, named, ran", [
    (0o644, "../closed/lab.toml", Ran(4, "", "farm: 80 read fault\n")),
    (0o644, "/dev/stdin", Ran(0, "accepted 15, kept 0\n", "")),
    (0o600, "/dev/stdin", Ran(4, "", "farm: 80 read fault\n")),
])
def test_lab_file_out_of_reach(mode: int, named: str, ran: Ran, closed: Orders) -> None:
    """A lab file in a folder that the service's user can't enter is imported by way of the shell, if it may be read."""
    pathlib.Path(closed.folder, "../closed/lab.toml").chmod(mode)
    assert imported(closed, named) == ran


def test_page_imports_through_the_shell() -> None:
    assert re.search("^    runuser -u farm -- farm import .* /dev/stdin < lab.toml$", PAGE, re.MULTILINE)
