"""The files of examples/: the lab is imported, the job files are submitted, and the views show what
was read of them."""
from __future__ import annotations

import os
from typing import Any, List

import pytest

from orders import Orders
from served import TOP, read

EXAMPLES = os.path.join(TOP, "examples")
LAB = os.path.join(EXAMPLES, "lab.toml")
BOOT, MULTINODE = (read(os.path.join(EXAMPLES, it)) for it in ("boot.toml", "multinode.toml"))
NUMBERS = range(1, 5)
# The boards in the order of their names, each with its type and its tags in theirs.
BOARDS = """\
bbb-01 beaglebone-black outlet=1 power=pdu1 rack=1 serial switch=sw1
bbb-02 beaglebone-black outlet=2 power=pdu1 rack=1 serial switch=sw1
bbb-03 beaglebone-black hdmi outlet=3 power=pdu1 rack=1 serial switch=sw1
bbb-04 beaglebone-black can outlet=4 power=pdu1 rack=1 serial switch=sw1
qemu-01 qemu-aarch64 virtual
qemu-02 qemu-aarch64 virtual
qemu-03 qemu-aarch64 kvm virtual
qemu-04 qemu-aarch64 kvm virtual
rpi4b-01 rpi4b gigabit outlet=1 power=pdu2 rack=2 sdmux serial switch=sw1
rpi4b-02 rpi4b gigabit hdmi outlet=2 power=pdu2 rack=2 sdmux serial switch=sw1
rpi4b-03 rpi4b gigabit outlet=3 power=pdu2 rack=2 serial switch=sw2 wifi
rpi4b-04 rpi4b camera=imx219 gigabit outlet=4 power=pdu2 rack=2 serial switch=sw2 wifi
"""
NEW = {"health": "Maintenance", "state": "Idle", "holder": "none", "jobs_since": 0, "last_check": 0}


@pytest.fixture
def lab(orders: Orders) -> Orders:
    """The lab of examples/, imported."""
    orders.init()
    orders.prints("accepted 15, kept 0", "import", "--db", "lab.db", "--at", "7", LAB)
    return orders


def values(row: Any, *names: str) -> List[Any]:
    return [row[it] for it in names]


def test_lab(lab: Orders) -> None:
    """Types and boards are those of lab.toml, each board new."""
    types = lab.look("/types")["types"]
    assert [values(it, "name", "check", "every") for it in types] == [
        ["beaglebone-black", "hours", 24], ["qemu-aarch64", "none", 0], ["rpi4b", "jobs", 20],
    ]
    boards = lab.look("/boards")["boards"]
    assert "".join(f"{it['name']} {it['type']} {' '.join(it['tags'])}\n" for it in boards) == BOARDS
    assert [{name: it[name] for name in NEW} for it in boards] == [NEW] * 12


def test_second_import(lab: Orders) -> None:
    """A second import keeps all that is there."""
    lab.prints("accepted 0, kept 15", "import", "--db", "lab.db", "--at", "8", LAB)


def test_jobs(lab: Orders) -> None:
    """A job file's views show what it asks for: its text stands in the first of its group."""
    assert lab.tell("/jobs", "ann", BOOT) == {"number": 1}
    assert lab.tell("/jobs", "ann", MULTINODE) == {"number": 2}
    names = ("group", "owner", "priority", "role", "type", "tags", "text")
    jobs = [lab.look(f"/jobs/{it}") for it in NUMBERS]
    assert [values(it, *names) for it in jobs] == [
        [1, "ann", 50, "", "beaglebone-black", ["power=pdu1", "serial"], BOOT],
        [2, "ann", 70, "client", "beaglebone-black", ["switch=sw1"], MULTINODE],
        [2, "ann", 70, "client", "beaglebone-black", ["switch=sw1"], ""],
        [2, "ann", 70, "server", "rpi4b", ["gigabit", "switch=sw1"], ""],
    ]
    states = ("number", "kind", "state", "result", "board")
    assert [values(it, *states) for it in jobs] == [[it, "ordinary", "Submitted", "", ""] for it in NUMBERS]
    answer = lab.once("GET", "/jobs/5")
    assert (answer.status, answer.body) == (404, {"code": 20, "text": "no such job"})
