"""docs/moving.md: its words are those of desk, lavacli and labgrid-client, none of which it leaves out; and LAVA's job
definitions become job files that the desk takes and run-job-lava reads (farm-from-lava --job)."""
from __future__ import annotations

import argparse
import importlib
import os
import pkgutil
import re
import runpy
import subprocess
import sys
from typing import Any, Callable, Iterator, List, Tuple

import pytest
from fizgruk import toml_text
from fizgruk._tools import parsers
from fizgruk.desk.commands import parser_of
from served import TOOLS, TOP, Farm, environment, read
from wants import wants_modules

PAGE = read(os.path.join(TOP, "docs", "moving.md"))
DEFINITIONS = re.findall(r"```yaml\n(.*?)```", PAGE, re.DOTALL)
OF_LAVA, OF_LABGRID = PAGE.split("\n## From labgrid\n")
SIMPLE = "job_name: j\ndevice_type: qemu\nvisibility: public\ntimeouts: {job: {minutes: 5}}\nactions: []\n"


def quoted(text: str) -> List[str]:
    """The words in a text that are typed."""
    return re.findall(r"`([^`]+)`", re.sub(r"```.*?```", "", text, flags=re.DOTALL))


def table(text: str) -> List[Tuple[str, str]]:
    """The rows of a part's table of words: theirs and ours."""
    lines = text[text.rindex("|---|---|"):].splitlines()[1:]
    rows = [line.strip("|").split(" | ") for line in lines if line.startswith("|")]
    return [(it[0], it[1]) for it in rows]


# ---- words


def test_words_of_desk() -> None:
    """Each is a command of desk, with options that it has."""
    commands = {it.prog.split()[-1]: it for it in parsers.commands_of(parser_of())}
    named = set()
    for _, ours in [*table(OF_LAVA), *table(OF_LABGRID)]:
        for words in (it.split() for it in quoted(ours) if it.startswith("desk ")):
            named.add(words[1])
            known = {name for it in commands[words[1]]._actions for name in it.option_strings}
            assert {it for it in words if re.match("--[a-z]", it)} <= known, words
    assert {"submit", "jobs", "reserve", "with", "wait", "log", "boards", "health"} <= named


def commands_of_lavacli() -> Iterator[str]:
    """Each command with its group."""
    folder = importlib.import_module("lavacli.commands")
    for module in pkgutil.iter_modules(folder.__path__):
        parser = argparse.ArgumentParser(prog=module.name.replace("_", "-"))
        importlib.import_module(f"lavacli.commands.{module.name}").configure_parser(parser, (2023, 1))
        yield from _leaves(parser)


def _leaves(parser: argparse.ArgumentParser) -> Iterator[str]:
    groups = [it for it in parser._actions if isinstance(it, argparse._SubParsersAction)]
    if not groups:
        yield parser.prog.split(" job_id")[0]
    for group in groups:
        for each in group.choices.values():
            yield from _leaves(each)


def test_no_command_of_lavacli_is_left_out_and_none_is_made_up() -> None:
    wants_modules("lavacli")
    commands = list(commands_of_lavacli())
    assert len(commands) > 50
    named = {re.sub(r" --.*", "", it) for it in quoted(OF_LAVA[OF_LAVA.index("| lavacli | desk |"):])}
    left_out = [it for it in commands if not {it, it.split()[0], " ".join(it.split()[:2])} & named]
    assert [it for it in left_out if not it.startswith("system methods") and it not in SAYS_WHAT_IT_IS] == []
    groups = {it.split()[0] for it in commands}
    theirs = [re.sub(r" --.*", "", it) for their, _ in table(OF_LAVA) for it in quoted(their)]
    assert [it for it in theirs if not any(at == it or at.startswith(f"{it} ") for at in commands)] == []
    assert groups


# What tells of the server's own program.
SAYS_WHAT_IT_IS = ("system active", "system api", "system version")


def test_no_command_of_labgrids_client_is_left_out_and_none_is_made_up() -> None:
    wants_modules("labgrid")
    words = [sys.executable, "-m", "labgrid.remote.client", "--help"]
    said = subprocess.run(words, capture_output=True, text=True, check=True, env=environment()).stdout
    commands = re.findall(r"^    ([a-z][a-z-]+)(?: \(\w+\))? ", said[said.index("available subcommands"):], re.MULTILINE)
    assert len(commands) > 35
    named = {it.split()[0] for it in quoted(OF_LABGRID[OF_LABGRID.index("| labgrid-client | desk |"):])}
    assert [it for it in commands if it not in named] == []
    theirs = {it.split()[0] for their, _ in table(OF_LABGRID) for it in quoted(their)}
    assert theirs - {*commands, "-x", "-p", "LG_CROSSBAR"} == set()


def test_the_pages_loop_writes_the_tags_that_lava_has(folder: str) -> None:
    """With a lavacli that prints tags as the real one does (devices.py, handle_tags)."""
    loop = PAGE[PAGE.index("    for it in /etc/lava-server"): PAGE.index(" > tags.txt")] + " > tags.txt"
    os.makedirs(os.path.join(folder, "bin"))
    os.makedirs(os.path.join(folder, "devices"))
    for name in ("q1", "q2"):
        with open(os.path.join(folder, "devices", f"{name}.jinja2"), "w", encoding="utf-8") as device:
            device.write('{% extends "qemu.jinja2" %}')
    fake = os.path.join(folder, "bin", "lavacli")
    with open(fake, "w", encoding="utf-8") as script:
        script.write('#!/bin/sh\n[ "$*" = "devices tags list --json q1" ] && echo \'["kvm", "usb"]\' || echo "[]"\n')
    os.chmod(fake, 0o755)
    script_of = loop.replace("/etc/lava-server/dispatcher-config", folder)
    path = f"{os.path.dirname(fake)}:{os.environ['PATH']}"
    subprocess.run(["sh", "-euc", script_of], cwd=folder, check=True, env=environment(PATH=path))
    words = [sys.executable, os.path.join(TOOLS, "farm-from-lava"), folder, "--tags", os.path.join(folder, "tags.txt")]
    said = subprocess.run(words, capture_output=True, text=True, check=True, env=environment()).stdout
    assert re.findall("^tags = .*$", said, re.MULTILINE) == ['tags = ["kvm", "usb"]', "tags = []"]


# ---- jobs


def converted(folder: str, definition: str, *more: str) -> Tuple[int, str, List[str]]:
    """What a definition comes to: the status, the job file, and what is told, without where."""
    file = os.path.join(folder, "job.yaml")
    with open(file, "w", encoding="utf-8", newline="") as text:
        text.write(definition)
    words = [sys.executable, os.path.join(TOOLS, "farm-from-lava"), "--job", file, *more]
    ran = subprocess.run(words, capture_output=True, text=True, check=False, env=environment())
    return ran.returncode, ran.stdout, [it.split(f"{file}: ")[-1] for it in ran.stderr.splitlines()]


def read_by_run_job_lava(folder: str, text: str) -> Any:
    file = os.path.join(folder, "job.toml")
    with open(file, "w", encoding="utf-8", newline="") as job:
        job.write(text)
    return runpy.run_path(os.path.join(TOP, "examples", "run-job-lava"))["definition_of"](file)


def test_the_pages_definitions_become_job_files(make_farm: Callable[..., Farm], folder: str) -> None:
    """The desk takes them, and run-job-lava reads what LAVA would have got."""
    wants_modules("yaml", "tomllib")
    farm = make_farm([("q1", "qemu", ["kvm"]), ("q2", "qemu", [])])
    one, two = DEFINITIONS
    status, text, told = converted(folder, one)
    assert (status, told) == (0, [])
    page = re.findall(r"(?:^    .*\n|^\n)+", PAGE[PAGE.index('    job_name = "boot'):], re.MULTILINE)[0]
    wanted = "\n".join(it[4:] for it in page.splitlines()).strip("\n")
    assert text == wanted.replace("..'''", one + "'''") + "\n"
    status, other, told = converted(folder, two)
    assert (status, told) == (1, [
        "essential of role server isn't carried over: a role has device_type, count and tags",
        "run-job-lava runs jobs of one board: a command of the lab's own runs this group",
    ])
    for number, (definition, job) in enumerate([(one, text), (two, other)], 1):
        assert farm.tell("ann", "/jobs", job.encode()) == {"number": number}
        assert read_by_run_job_lava(folder, job) == definition
    first, client, server = (farm.job(it) for it in (1, 2, 3))
    assert [first[it] for it in ("type", "tags", "priority")] == ["qemu", ["kvm"], 100]
    assert [(it["role"], it["tags"]) for it in (client, server)] == [("client", ["kvm"]), ("server", [])]
    assert toml_text.tree_of(other)["timeouts"] == {"job": "1 hour"}


LOST = """\
job_name: "all'''of it"
device_type: "qemu x86"
visibility: {group: [kernel]}
priority: 101
tags: ["a b", "name=x"]
context: {arch: arm64}
metadata: {a: b}
secrets: {TOKEN: x}
notify: {criteria: {status: finished}}
environment: {A: b}
timeouts: {job: {hours: 1, minutes: 30}, queue: {hours: 1}, action: {minutes: 3}}
protocols: {lava-lxc: {name: n, distribution: d, release: r}}
reporter: ann
actions:
- deploy: {to: tmpfs}
"""


def test_what_is_lost_is_told_once(folder: str) -> None:
    wants_modules("yaml", "tomllib")
    status, text, told = converted(folder, LOST)
    heads = [
        "priority 101", "visibility", "device_type 'qemu x86'", "tag 'a b'", "tag name=x", "protocol lava-lxc",
        "timeouts.queue", "context", "metadata", "secrets", "notify", "reporter",
    ]
    assert status == 1 and sorted(it.partition(" isn't carried over")[0] for it in told) == sorted(heads)
    tree = toml_text.tree_of(text)
    assert (tree["job_name"], tree["device_type"], tree["tags"]) == ("all'''of it", "qemu-x86", ["a-b"])
    assert tree["timeouts"] == {"job": "90 minutes"} and "priority" not in tree
    assert read_by_run_job_lava(folder, text) == LOST


def multinode(roles: str, more: str = "") -> str:
    return SIMPLE.replace("device_type: qemu", f"protocols: {{lava-multinode: {{roles: {roles}{more}}}}}")


def role(count: object) -> str:
    return multinode(f"{{a: {{device_type: q, count: {count}}}}}")


def test_what_roles_lose_is_told(folder: str) -> None:
    wants_modules("yaml", "tomllib")
    roles = "{a: {device_type: q, count: 2}, b: {count: 1}, c: {device_type: q, count: 0}}"
    status, text, told = converted(folder, multinode(roles, ", timeout: {minutes: 1}").replace("actions", "priority: 7\nactions"))
    tree = toml_text.tree_of(text)
    assert (status, tree["priority"], tree["roles"]) == (1, 7, {"a": {"device_type": "q", "count": 2, "tags": []}})
    assert [it.partition(" isn't carried over: ")[::2] for it in told if "carried" in it] == [
        ("role b", "it is a connection to another role's board, and wants none"), ("role c", "it wants no board"),
        ("lava-multinode.timeout", "a group starts with all its boards"),
    ]


@pytest.mark.parametrize("definition, told", [
    ("a: [", "isn't YAML"),
    ("a: !!python/object/apply:os.system [true]", "isn't YAML"),
    ("- a\n", "it has no list of actions"),
    ("actions: 3\n", "it has no list of actions"),
    (SIMPLE.replace("job_name: j", "job_name: 3"), "it has no job_name"),
    (SIMPLE.replace("device_type: qemu", ""), "device_type isn't a text"),
    (SIMPLE + "tags: usb\n", "tags isn't a list of texts"),
    (SIMPLE + "tags: [" + ",".join(f"t{it}" for it in range(17)) + "]\n", "becomes no job file: there are 17 tags"),
    (role(5), "wants 5 boards, and a job has 1 to 4"),
    (role(0), "wants 0 boards"),
    (role("two"), "the count of role a is no number"),
    (multinode("3"), "protocols.lava-multinode has no roles"),
    (SIMPLE + "#" * 65_536, "is too long: a job file has 65,536 bytes at most"),
    ("x" * 1_048_577, "has more than 1,048,576 bytes"),
    ("job_name: \"\\ud800\"\ndevice_type: q\nactions: []\n", "letters"),
])
def test_what_becomes_no_job_file(folder: str, definition: str, told: str) -> None:
    wants_modules("yaml")
    status, said, errors = converted(folder, definition)
    assert (status, said, len(errors)) == (4, "", 1) and told in errors[0]


def test_a_job_without_a_time_and_one_of_a_windows_editor(folder: str) -> None:
    wants_modules("yaml", "tomllib")
    status, text, told = converted(folder, SIMPLE.replace("timeouts: {job: {minutes: 5}}\n", ""))
    assert (status, told) == (1, ["timeouts.job is no time: the limit is farm-dispatch's"])
    assert converted(folder, SIMPLE.replace("\n", "\r\n"))[:2] == converted(folder, SIMPLE)[:2]
    output = os.path.join(folder, "job.toml")
    assert converted(folder, SIMPLE, "--output", output) == (0, "", [])
    assert read(output) == converted(folder, SIMPLE)[1]
