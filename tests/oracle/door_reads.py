"""What farm-door reads in a job's text beside what the desk reads in it: a text that the desk takes is never a job of more
boards, or of a higher priority, than farm-door counts.

    python3 tests/oracle/door_reads.py --farm bin/farm [--texts 100000] [--seed 1]

It makes texts by chance, of whole lines and of lines that were changed at some bytes, hands each to a served desk, and
compares what the desk then shows with what farm-door counted. The last line is 'N texts, T taken, D differ to a user's gain'.
"""
from __future__ import annotations

import argparse
import http.client
import json
import pathlib
import random
import sys
import tempfile
from typing import Any, List, Tuple

HERE = pathlib.Path(__file__).resolve().parent
sys.path[:0] = [str(HERE.parent / it) for it in ("shared", "../tools", "../python/src")]

from farm_door import rules  # noqa: E402
from served import Farm, end_all  # noqa: E402

BOARDS = [(f"b{it}", "bbb", ["serial"]) for it in range(8)]
LINES = [
    "job_name = 'x'", 'job_name = "\\u0078"', "device_type = 'bbb'", "priority = 100", "priority = 'high'", "priority = 7",
    "'priority' = 99", "tags = ['serial']", "[roles.a]", "[roles.b]", "[roles.'a b']", "count = 2", "count = 3", "count = 0x2",
    "roles.a = {device_type = 'bbb', count = 3}", "roles.c.device_type = 'bbb'", "roles.c.count = 4", "x = 23:59:60",
    "x = 0000-01-01", "x = 1979-05-27T00:00:60Z", "x = 1979-05-27 07:32:00", "x = 9223372036854775808", "x = 1e400", "x = nan",
    "x = '''\n'''", 'y = """\n\\\n  z"""', "# a comment", "[timeouts]", "job = '5 minutes'", "[[actions]]", "test = {a = 1, b = [1,\n2]}",
    "x.y.z = 1", "[x]", "[[roles]]", "\ufeff", "y = [\n1, # c\n]", "z = {a = 1\n}", "z = {a = 1,}", "e = '\\e'", 'e = "\\e"', 'e = "\\x41"',
    "x = 07:32", "x = 1979-05-27T07:32Z", "\u00e9 = 1",
]
BYTES = b"\x00\t\n\r \"'#,.=[]{}\\-+_:0159aexZ\x7f\x80\xff\xc3\xa9"


def text_of(dice: random.Random) -> bytes:
    """A job's text, which may be none."""
    lines = ["job_name = 'x'", "device_type = 'bbb'"] if dice.random() < 0.7 else []
    if dice.random() < 0.4:
        lines = ["job_name = 'x'", "[roles.a]", "device_type = 'bbb'", f"count = {dice.randint(1, 4)}"]
    for _ in range(dice.randint(0, 4)):
        lines.insert(dice.randint(0, len(lines)), dice.choice(LINES))
    said = bytearray("\n".join(lines).encode() + b"\n")
    for _ in range(dice.choice((0, 0, 0, 1, 1, 2))):
        place = dice.randrange(len(said))
        said[place : place + dice.randint(0, 1)] = bytes((dice.choice(BYTES),))
    return bytes(said)


class Desk:
    """A served desk, over one connection at a time."""

    def __init__(self, farm: Farm):
        self.port = farm.port

    def ask(self, method: str, path: str, body: bytes = b"") -> Tuple[int, Any]:
        line = http.client.HTTPConnection("127.0.0.1", self.port, timeout=60)
        line.request(method, path, body=body, headers={"x-user": "ann"})
        answer = line.getresponse()
        status, said = answer.status, json.loads(answer.read())
        line.close()
        return status, said

    def taken(self, text: bytes) -> Tuple[int, int]:
        """The boards and the priority of the job that a text is; 0 boards where the desk refuses it."""
        status, said = self.ask("POST", "/jobs", text)
        if status != 200:
            return 0, 0
        claim = next(it for it in self.ask("GET", "/queue")[1]["queue"] if it["number"] == said["number"])
        self.ask("POST", f"/jobs/{said['number']}/cancel")
        return claim["boards"], claim["priority"]


def compared(program: str, texts: int, seed: int) -> Tuple[int, List[str]]:
    """How many texts the desk took, and those of which a user would gain."""
    dice = random.Random(seed)
    with tempfile.TemporaryDirectory() as folder:
        desk, taken, gains = Desk(Farm(program, folder, BOARDS)), 0, []
        for _ in range(texts):
            text = text_of(dice)
            boards, priority = desk.taken(text)
            taken += boards > 0
            wish = rules.of_job(text)
            if boards > wish.boards or (boards and priority > wish.priority):
                gains.append(f"{text!r}: the desk has {boards} boards at {priority}, farm-door {wish}")
        end_all()
    return taken, gains


def main() -> int:
    parser = argparse.ArgumentParser(description=__doc__.splitlines()[0])
    parser.add_argument("--farm", default="bin/farm")
    parser.add_argument("--texts", type=int, default=100_000)
    parser.add_argument("--seed", type=int, default=1)
    options = parser.parse_args()
    taken, gains = compared(options.farm, options.texts, options.seed)
    for it in gains[:20]:
        print(it)
    print(f"{options.texts} texts, {taken} taken, {len(gains)} differ to a user's gain")
    return 1 if gains else 0


if __name__ == "__main__":
    sys.exit(main())
