"""Lab files from places of labgrid, devices of LAVA and boards of a desk: the lab file and the lines of what couldn't
be carried over, byte by byte, and what the program imports of it. (tests/unit/importers/test_lab_file.py: the limits.)"""
from __future__ import annotations

import os
import shutil
import subprocess
import sys
import tempfile
import time
from typing import Callable, Tuple

import lab_texts
import pytest
from served import TOOLS, Farm, environment, read
from wants import wants_modules

# As labgrid's coordinator writes its places.
PLACES = """\
bbb 1:
  acquired: null
  acquired_resources: []
  aliases:
  - beagle
  allowed: []
  changed: 1700000100.5
  comment: next to the
    window
  created: 1700000000.25
  matches:
  - cls: '*'
    exporter: exporter1
    group: bbb-1
    name: null
    rename: null
  - cls: NetworkPowerPort
    exporter: '*'
    group: pdu
    name: outlet1
    rename: power
  reservation: null
  tags:
    board: beaglebone-black
    name: beagle
    rack: 01
    empty: ''
rpi.lab:
  acquired: host/ann
  acquired_resources:
  - exporter1/rpi/NetworkSerialPort/serial
  aliases: []
  allowed:
  - host/bob
  comment: ''
  matches: []
  reservation: ABCDEFGHIJ
  tags: {}
"""
LAB_OF_PLACES = """\
[types.beaglebone-black]

[types.place]

[boards.bbb-1]
type = "beaglebone-black"
tags = ["board=beaglebone-black", "empty", "rack=01"]

[boards."rpi.lab"]
type = "place"
tags = []
"""
NOTES_OF_PLACES = """\
place bbb 1: board 'bbb 1' isn't carried over as it is: it is bbb-1
place bbb 1: tag name=beagle isn't carried over: a board's name is its tag of this key
place bbb 1: tag empty= isn't carried over as it is: it is empty
place bbb 1: alias beagle isn't carried over
place bbb 1: comment 'next to the window' isn't carried over
~ place bbb 1: match exporter1/bbb-1/* isn't carried over
~ place bbb 1: match */pdu/NetworkPowerPort/outlet1 -> power isn't carried over
~ place bbb 1: changed 1700000100.5 isn't carried over
~ place bbb 1: created 1700000000.25 isn't carried over
place rpi.lab: it has no tag board: its type is place
place rpi.lab: acquired host/ann isn't carried over: the board is nobody's
place rpi.lab: reservation ABCDEFGHIJ isn't carried over: the board is nobody's
place rpi.lab: allowed host/bob isn't carried over: a board is its holder's alone
"""
SIMPLE_PLACE = """\
b1:
  acquired: null
  changed: 1700000100.5
  created: 1700000000.25
  matches:
  - cls: '*'
    exporter: exporter1
    group: b1
    name: null
    rename: null
  tags:
    kind: bbb
"""
# As a LAVA server has its devices.
DEVICES = {
    "devices/bbb-01.jinja2": """\
{# the first
   board #}
{% extends 'beaglebone-black.jinja2' %}
{% set connection_command = 'telnet ser2net 7001' %}
{%- set power_on_command = '/usr/bin/pdu --port 1 on' -%}
{% set device_info = [
  {'board_id': '0123'}] %}
""",
    "devices/qemu.lab.jinja2": '{% extends "qemu.jinja2" %}\n',
    "devices/broken.jinja2": "{% set mac_addr = '00:00:00:00:00:01' %}\n",
    "devices/README": "nothing\n",
    "device-types/base-uboot.jinja2": "{% extends 'base.jinja2' %}\n",
    "device-types/beaglebone-black.jinja2": "{% extends 'base-uboot.jinja2' %}\n",
    "health-checks/beaglebone-black.yaml": "job_name: health\n",
    "health-checks/x86.yaml": "job_name: health\n",
    "tags": "bbb-01 usb\ngone a\nbbb-01 hdmi hdmi\n\n",
}
LAB_OF_DEVICES = """\
[types.beaglebone-black]
check = "hours"
every = 12

[types.qemu]

[boards.bbb-01]
type = "beaglebone-black"
tags = ["hdmi", "usb"]

[boards."qemu.lab"]
type = "qemu"
tags = []
"""
NOTES_OF_DEVICES = """\
~ device-types/beaglebone-black.jinja2: what it says isn't carried over, but for its name
~ devices/bbb-01.jinja2:4: connection_command isn't carried over
~ devices/bbb-01.jinja2:5: power_on_command isn't carried over
~ devices/bbb-01.jinja2:6: device_info isn't carried over
devices/broken.jinja2: device broken isn't carried over: it extends no device type
~ health-checks/beaglebone-black.yaml: its job isn't carried over: see farm-dispatch --check
~ health-checks/beaglebone-black.yaml: how often isn't carried over: it is every 12 hours
health-checks/x86.yaml: it isn't carried over: no device is of this type
FOLDER/tags: tags of gone aren't carried over: there is no such device
~ FOLDER: what stands in LAVA's database alone isn't carried over: owners, workers, permissions
"""


# What a farm's boards come to.
LAB_OF_DESK = """\
# The types and boards of SERVER, for the farm that comes after it. Edit this, and on the desk's
# machine, as root:
#     farm-from-desk --next THIS

""" + lab_texts.written(
    gap="\n",
    types={"bbb": {}, "rpi": {"check": "jobs", "every": 20}},
    boards={
        "b1": {"type": "bbb", "tags": ["hdmi", "rack=1"], "health": "Good"},
        "b2": {"type": "bbb", "tags": [], "health": "Maintenance"},
        "r.1": {"type": "rpi", "tags": [], "health": "Unknown"},
    },
)
# The lab's own file, of which the desk has b1 with other tags and rpi with another check.
OWN_LAB = """\
# ours
[types.bbb]
check = "none"

[types."rpi"]
check = "hours"
every = 24
[boards.b1]
type = "bbb"
tags = ["rack=1"]
[boards]
b2 = { type = "bbb" }
"r.1" = {
  type = "bbb", # as TOML 1.1 has it
}
[boards.other]
type = "rpi"
"""
REMARKS = {
    "[types.rpi]": "OWN:5 has every 24 hours",
    "[boards.b1]": "OWN:8 has bbb rack=1",
    '[boards."r.1"]': "OWN:13 has bbb",
}
NOTES_OF_OWN_LAB = """\
OWN:8: board b1: it has bbb rack=1, and the desk bbb hdmi rack=1: an import changes nothing
OWN:13: board r.1: it has bbb, and the desk rpi: an import changes nothing
OWN:5: type rpi: it has every 24 hours, and the desk every 20 jobs: an import changes nothing
"""
NOTES_OF_DESK = """\
board b1: reservation 1, which has it, isn't carried over
~ board b3: it isn't carried over: it is Retired
queue: reservation 2 of bob isn't carried over
"""


Ran = Tuple[int, str, str]  # status, output and errors


def run(*words: str) -> Ran:
    """What a tool comes to."""
    ran = subprocess.run(
        [sys.executable, os.path.join(TOOLS, words[0]), *words[1:]], capture_output=True, text=True, check=False,
        env=environment(),
    )
    return ran.returncode, ran.stdout, ran.stderr


def refused(ran: Ran) -> Tuple[int, int]:
    """The status, and how many lines were told."""
    return ran[0], ran[2].count("\n")


def notes(tool: str, text: str, verbose: bool = False) -> str:
    """Lines of what couldn't be carried over, as a tool tells them; those behind `~` are told by --verbose alone."""
    lines = [it for it in text.splitlines() if verbose or not it.startswith("~ ")]
    return "".join(f"{tool}: {it[2:] if it.startswith('~ ') else it}\n" for it in lines)


def write(folder: str, name: str, text: str) -> str:
    file = os.path.join(folder, name)
    os.makedirs(os.path.dirname(file), exist_ok=True)
    with open(file, "w", encoding="utf-8") as opened:
        opened.write(text)
    return file


def imported(program: str, folder: str, lab: str) -> str:
    """What the program prints where it imports a lab file into a new farm."""
    file = os.path.join(folder, "farm.db")
    subprocess.run([program, "init", "--db", file], check=True, capture_output=True)
    return import_of(program, file, lab)


def import_of(program: str, file: str, lab: str) -> str:
    """What the program prints where it imports a lab file into a farm."""
    words = [program, "import", "--db", file, "--at", "1700000000", lab]
    ran = subprocess.run(words, capture_output=True, text=True, check=False)
    return ran.stdout + ran.stderr


# ---- LAVA


def test_devices_of_lava_become_boards_and_their_types_types(program: str, folder: str) -> None:
    for name, text in DEVICES.items():
        write(folder, name, text)
    words = ["farm-from-lava", folder, "--hours", "12", "--tags", f"{folder}/tags"]
    text = NOTES_OF_DEVICES.replace("FOLDER", folder)
    told, all_told = (notes(words[0], text, verbose) for verbose in (False, True))
    assert run(*words) == (1, LAB_OF_DEVICES, told)
    assert run(*words, "--verbose") == (1, LAB_OF_DEVICES, all_told)
    lab = os.path.join(folder, "lab.toml")
    assert run(*words, "--output", lab) == (1, "", told)
    assert read(lab) == LAB_OF_DEVICES
    assert imported(program, folder, lab) == "accepted 4, kept 0\n"


def test_what_isnt_a_folder_of_lava(folder: str) -> None:
    os.mkdir(os.path.join(folder, "devices"))
    for wrong in ([f"{folder}/none"], [folder, "--tags", f"{folder}/none"], [f"{folder}/devices"]):
        status, output, errors = run("farm-from-lava", *wrong)
        assert (status, output, errors.count("\n")) == (4, "", 1), wrong


@pytest.mark.parametrize("words", [
    "farm-from-lava", "farm-from-lava FOLDER --hours 0", "farm-from-lava FOLDER --hours 10001", "farm-from-lava --job x FOLDER",
    "farm-from-labgrid", "farm-from-desk --check", "farm-from-desk --let-go", "farm-from-desk --db x",
    "farm-from-desk --next x --stop x", "farm-from-desk --next x --start x",
])
def test_bad_words_end_it_with_2(words: str) -> None:
    assert run(*words.split())[0] == 2


def test_devices_of_which_nothing_is_lost_are_carried_over_with_status_0(folder: str) -> None:
    """Nothing that a desk would have."""
    write(folder, "devices/b1.jinja2", "{% extends 'bbb.jinja2' %}{% set power_on = 'x' %}")
    words = ["farm-from-lava", folder]
    tags = f"{folder}: tags, which stand in LAVA's database, aren't carried over: give --tags\n"
    assert run(*words)[::2] == (1, f"farm-from-lava: {tags}")
    words += ["--tags", write(folder, "tags", "")]
    assert run(*words)[::2] == (0, "")
    assert refused(run(*words, "--verbose")) == (0, 2)


# ---- labgrid


def test_places_of_labgrid_become_boards_and_a_tag_their_type(program: str, folder: str) -> None:
    wants_modules("yaml")
    places = write(folder, "places.yaml", PLACES)
    told, all_told = (notes("farm-from-labgrid", NOTES_OF_PLACES, verbose) for verbose in (False, True))
    assert run("farm-from-labgrid", places) == (1, LAB_OF_PLACES, told)
    assert run("farm-from-labgrid", "--verbose", places) == (1, LAB_OF_PLACES, all_told)
    lab = os.path.join(folder, "lab.toml")
    assert run("farm-from-labgrid", places, "--output", lab) == (1, "", told)
    assert imported(program, folder, lab) == "accepted 4, kept 0\n"


def test_places_of_which_nothing_is_lost(folder: str) -> None:
    wants_modules("yaml")
    simple = write(folder, "simple.yaml", SIMPLE_PLACE)
    wanted = '[types.bbb]\n\n[boards.b1]\ntype = "bbb"\ntags = ["kind=bbb"]\n'
    assert run("farm-from-labgrid", simple, "--type-tag", "kind") == (0, wanted, "")
    assert refused(run("farm-from-labgrid", simple)) == (1, 1)
    assert refused(run("farm-from-labgrid", simple, "--type", "place")) == (0, 0)
    assert run("farm-from-labgrid", write(folder, "empty.yaml", "{}\n")) == (0, "", "")


@pytest.mark.parametrize("text, why", [
    ("- a\n", "has no places by their names"), ("{", "isn't YAML"), ("b1:\n  tags: [a]\n", "its tags aren't words by their keys"),
    ("b1: 3\n", "'b1' has nothing that a place has; the coordinator's is places.yaml"),
    ("b1:\n  tags: {}\nb2:\n  uart0:\n    cls: RawSerialPort\n", "'b2' has nothing that a place has"),
    ("targets:\n  main:\n    resources: []\n", "'targets' has nothing that a place has"),
])
def test_a_file_that_holds_no_places(folder: str, text: str, why: str) -> None:
    """Such as an exporter's resources, and a client's environment; or that isn't there."""
    wants_modules("yaml")
    assert run("farm-from-labgrid", f"{folder}/none")[0] == 4
    status, output, errors = run("farm-from-labgrid", write(folder, "wrong.yaml", text))
    assert (status, output, errors.count("\n")) == (4, "", 1) and why in errors


# ---- a desk


@pytest.fixture
def farm(make_farm: Callable[..., Farm]) -> Farm:
    """A served farm with a board of each health, one that is held, and one that waits."""
    farm = make_farm([("b1", "bbb", ["rack=1", "hdmi"]), ("b2", "bbb", [])])
    farm.tell("admin", "/types", {"name": "rpi", "check": "jobs", "every": 20})
    farm.tell("admin", "/boards", {"name": "r.1", "type": "rpi"})
    farm.tell("admin", "/boards", {"name": "b3", "type": "bbb"})
    farm.tell("ann", "/reservations", {"tags": ["name=b1"]})
    farm.tell("dispatcher", "/pass")
    farm.tell("bob", "/reservations", {"tags": ["name=b1"]})
    for board, health in [("b2", "Maintenance"), ("r.1", "Unknown"), ("b3", "Retired")]:
        farm.tell("admin", f"/boards/{board}/health", {"health": health})
    return farm


def test_boards_of_a_desk_become_boards_of_the_next_with_their_tags_and_health(farm: Farm, folder: str) -> None:
    lab = os.path.join(folder, "lab.toml")
    words = ["farm-from-desk", "--server", farm.server]
    told, wanted = notes(words[0], NOTES_OF_DESK), LAB_OF_DESK.replace("SERVER", farm.server)
    assert run(*words) == (1, wanted, told)
    assert run(*words, "--output", lab) == (1, "", told)
    own = write(folder, "own.toml", OWN_LAB)
    farm.kill()
    assert import_of(farm.program, farm.db, own) == "farm: 11 type exists at 1\n"  # by hand, not by an import
    assert imported(farm.program, tempfile.mkdtemp(dir=folder), lab) == "accepted 5, kept 0\n"
    next_folder = tempfile.mkdtemp(dir=folder)
    assert imported(farm.program, next_folder, lab) == "accepted 5, kept 0\n"
    farm.db = os.path.join(next_folder, "farm.db")
    copy = shutil.copytree(next_folder, f"{next_folder}-copy")
    assert import_of(farm.program, os.path.join(copy, "farm.db"), own) == "accepted 1, kept 5\n"
    farm.start()
    assert refused(run(*words)) == (0, 0)


def test_the_labs_own_file_beside_a_desk(farm: Farm, folder: str) -> None:
    """The written file and the errors name its lines."""
    own = write(folder, "own.toml", OWN_LAB)
    words = ["farm-from-desk", "--server", farm.server, "--lab"]
    wanted = LAB_OF_DESK.replace("SERVER", farm.server)
    for header, remark in REMARKS.items():
        remark = f"# {remark.replace('OWN', own)}: its import leaves what stands here"
        wanted = wanted.replace(f"\n{header}\n", f"\n{remark}\n{header}\n")
    told = notes(words[0], NOTES_OF_DESK + NOTES_OF_OWN_LAB.replace("OWN", own))
    assert run(*words, own) == (1, wanted, told)
    for text in ("[types", "[boards.b1]\ntags = []\n", "types = 3\n"):
        assert refused(run(*words, write(folder, "wrong.toml", text))) == (4, 1), text


def test_a_farm_whose_clock_ran_ahead_is_told_of(make_farm: Callable[..., Farm], folder: str) -> None:
    """Nothing in it ends."""
    farm = make_farm()
    farm.kill()
    lab = write(folder, "own.toml", '[types.bbb]\n[boards.b1]\ntype = "bbb"\n')
    at = str(int(time.time()) + 3 * 86400 + 3600)
    subprocess.run([farm.program, "import", "--db", farm.db, "--at", at, lab], check=True, capture_output=True)
    farm.start()
    status, _, errors = run("farm-from-desk", "--server", farm.server, "--output", lab)
    assert (status, errors) == (0, "farm-from-desk: the farm's clock is 3 days ahead of this machine's: begin the next farm\n")
