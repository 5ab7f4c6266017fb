"""The nights of the week: the nightly job, which comes twice, and the nightly copy."""
from __future__ import annotations

import os
import random
import re
import subprocess
import sys
import time
from typing import List, Sequence, Tuple

from desks import DESK, write
from lab_week import texts
from lab_week.beside import backup
from lab_week.lab import QUEUED, Copy, Lab, Submitted
from served import PATIENCE, TOP, environment, read

LEAVES = "tests"
NO_ANSWER = 4


def nights(lab: Lab, dice: random.Random) -> None:
    """Each day of the week ends by one."""
    length = (lab.over - lab.begun - 25) / texts.NIGHTS
    write(lab.room, "nightly.toml", texts.text_of(1, "0", LEAVES, dice))
    for day in range(texts.NIGHTS):
        time.sleep(max(0.0, lab.begun + (day + 0.8) * length - time.monotonic()))
        write(lab.room, "day", f"2026-12-{day + 1:02}\n")
        runs_nightly_job(lab)
        begin = time.time()
        ran = backup(lab, "--keep", f"{texts.KEEP}", f"{lab.room}/nightly")
        if ran.returncode:
            lab.wrong(f"farm-backup ended with status {ran.returncode}: {ran.stderr}")
        lab.nightly.append(Copy(f"{ran.stdout.strip()}/farm.db", begin, time.time()))


def line_of_the_unit(lab: Lab) -> List[str]:
    """The command of examples/nightly-job.service, over the lab's files."""
    line = next(it for it in read(os.path.join(TOP, "examples/nightly-job.service")).splitlines() if it.startswith("ExecStart="))
    found = re.fullmatch(r"ExecStart=/bin/sh -c '(.*)'", line)
    assert found, line
    text = found.group(1).replace("%%", "%")
    for old, new in (("/usr/local/bin/desk", f"{sys.executable} {DESK}"), ("/etc/farm/nightly.toml", f"{lab.room}/nightly.toml")):
        assert old in text
        text = text.replace(old, new)
    return ["/bin/sh", "-c", text]


def runs_nightly_job(lab: Lab) -> None:
    """Runs it twice side by side, as a timer that comes twice; where the desk gave no answer in its time, again."""
    around = environment(**{**lab.settings(texts.NIGHTLY), "PATH": f"{lab.room}/bin:{os.environ['PATH']}"})
    words, until = line_of_the_unit(lab), time.monotonic() + PATIENCE
    both = [subprocess.Popen(words, env=around, stdout=subprocess.PIPE, stderr=subprocess.PIPE, text=True) for _ in range(2)]
    came: List[Tuple[int, str]] = []
    for process in both:
        said, errors = process.communicate(timeout=QUEUED)
        status = process.returncode
        while status == NO_ANSWER and time.monotonic() < until:
            again = subprocess.run(words, env=around, capture_output=True, text=True, check=False)
            status, said, errors = again.returncode, again.stdout, again.stderr
        came.append((status, said))
        if status != (0 if "Complete" in said else 1):
            lab.wrong(f"the nightly job ended with status {status}: {errors}")
    lab.nights.append(came)
    number = int(came[0][1].split()[0])
    lab.submitted[number] = Submitted(texts.NIGHTLY, 1, "0", LEAVES, time.time())


def faults_of_nights(came: Sequence[Sequence[Tuple[int, str]]], jobs: Sequence[texts.Row]) -> List[str]:
    """The nightly job's command, which came twice a night, made one job of its user each night. `jobs` are the desk's."""
    found = [f"a night's job came to {it}" for it in came if len(it) != 2 or len(set(it)) != 1]
    numbers = sorted(int(it[0][1].split()[0]) for it in came)
    own = sorted(it["number"] for it in jobs if it["owner"] == texts.NIGHTLY)
    if numbers != own or len(own) != texts.NIGHTS:
        found.append(f"{len(came)} nights made the jobs {numbers}, and the desk has {own}")
    return found
