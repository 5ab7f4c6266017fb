"""What the lab of the week is given: its boards and types, the commands that run, rules, notes, and texts of jobs."""
from __future__ import annotations

import random
from typing import Any, Dict, List, Sequence

from lab_week import leaving

TYPES = {"bbb": ("hours", 1), "rpi": ("jobs", 8), "qemu": ("none", 0)}
EARLY = [*(f"bbb-0{it}" for it in range(1, 5)), *(f"qemu-0{it}" for it in range(1, 5)),
         *(f"rpi-0{it}" for it in range(1, 5))]
LATE = ["bbb-05", "rpi-05"]
MEANS = {"0": "Complete", "3": "Incomplete", "75": "Infra", "signal": "Infra"}
ADMINS = ("ann.admin", "carl.admin")
PIPELINE, NIGHTLY = "pia", "nightly"
PEOPLE = ("ann", "bob", "cid", "dan", "eva", "fay", "gus", "hal", "ida", "jon", "kim", "leo", "admin", "dispatcher",
          *ADMINS, PIPELINE, NIGHTLY)
REMIND, END = 60, 120  # seconds of a hold; the shortest that farm-watch takes are 60
NIGHTS = 7
KEEP = 3  # nightly copies
GONE = (31, 32)  # refusals of a reservation that ended meanwhile
# Notes when it began and ended, with its boards; leaves what its text says, takes so long, and ends as its text says.
COMMAND = """#!/bin/sh
note() { echo "$1 $FARM_JOB $(date +%s.%N) $FARM_BOARDS" >> "$RUNS"; }
done_now() { trap "" TERM; note end; }
trap 'done_now; exit 1' TERM
note begin
takes=$(sed -n 's/^takes = //p' "$FARM_JOB_FILE")
ends=$(sed -n "s/^ends = '\\(.*\\)'$/\\1/p" "$FARM_JOB_FILE")
leaves=$(sed -n "s/^leaves = '\\(.*\\)'$/\\1/p" "$FARM_JOB_FILE")
""" + leaving.COMMAND + """sleep "${takes:-0.3}" &
wait
done_now
[ "$ends" = signal ] && kill -9 $$
[ "$FARM_KIND" = check ] && exit $((FARM_JOB % 5 == 0))
exit "$ends"
"""
WITH = """#!/bin/sh
echo "begin 0 $(date +%s.%N) $BOARD" >> "$WITHS"
sleep 2
echo "end 0 $(date +%s.%N) $BOARD" >> "$WITHS"
"""
DATE = """#!/bin/sh
# The day of the week that is played.
cat "{room}/day"
"""
WATCH = """
[desk]
server = '{server}'
[mail]
from = 'farm@lab.example'
to = '{{owner}}@lab.example'
admin = 'lab@lab.example'
sendmail = '{sendmail}'
[webhook]
url = '{url}'
[hold]
remind = '{remind}s'
end = '{end}s'
[job]
ended = true
[board]
free = true
"""
DOOR = f"""
[limits]
open_reservations = 20
open_jobs = 1000
jobs_an_hour = 1000
highest_priority = 100
[admins]
logins = ["{ADMINS[0]}", "{ADMINS[1]}"]
"""


def lab_file(boards: Sequence[str]) -> str:
    types = [f"[types.{name}]\n" + (f"check = '{unit}'\nevery = {every}\n" if every else "")
             for name, (unit, every) in TYPES.items()]
    rows = [f"[boards.{it}]\ntype = '{it[:-3]}'\ntags = ['serial', 'rack={it[-1]}']\n"
            for it in boards]
    return "\n".join([*types, *rows])


def text_of(boards: int, ends: str, leaves: str, dice: random.Random) -> str:
    """A job file of so many boards, of one role or of two."""
    head = (f"job_name = 'days'\npriority = '{dice.choice(['low', 'medium', 'high'])}'\n"
            f"takes = {dice.uniform(0.1, 2):.2f}\nends = '{ends}'\nleaves = '{leaves}'\n")
    if boards == 1:
        return f"{head}device_type = '{dice.choice(list(TYPES))}'\n"
    client = dice.randint(1, min(3, boards - 1))
    kinds = dice.sample(list(TYPES), 2)
    roles = zip(("client", "server"), kinds, (client, boards - client))
    return head + "".join(f"[roles.{role}]\ndevice_type = '{kind}'\ncount = {count}\n"
                          for role, kind, count in roles)


def wants(dice: random.Random) -> List[str]:
    return [dice.choice(["serial", "rack=1", "rack=2", f"name={dice.choice(EARLY)}"])]


Row = Dict[str, Any]
