"""A pipeline that asks by tokens, through the site."""
from __future__ import annotations

import json
import random
import re
import subprocess
import time

from desks import write
from lab_week.lab import Lab, Submitted
from lab_week.leaving import KINDS
from lab_week.texts import text_of
from served import PATIENCE

BY_TOKEN = re.compile(r"(\S+) \(token [0-9]+ ci-[0-9]+\)")
REFUSED, NO_ANSWER = 3, 4


def asks_by_tokens(lab: Lab, user: str, dice: random.Random) -> None:
    """Makes a token, submits a job by it, and ends it, after which it stands for nothing."""
    turn = 0
    while lab.left() > 30:
        turn += 1
        ran = lab.ran(user, "add-token", f"ci-{turn}")
        file = write(lab.room, f"token-{turn}", ran.stdout, 0o600)
        if ran.returncode == 0:
            lab.tokens["made"] += 1
            uses(lab, user, file, dice)
        elif ran.returncode != NO_ANSWER:
            lab.wrong(f"{user}: desk add-token: {ran.returncode} {ran.stderr}")
        if ends(lab, user, f"ci-{turn}") and ran.returncode == 0:
            after = answered(lab, user, "boards", DESK_PASSWORD_FILE=file)
            if after.returncode != REFUSED or "401" not in after.stderr:
                lab.wrong(f"{user}'s token that was ended is answered: {after.returncode} {after.stderr}")
        time.sleep(dice.uniform(5, 15))


def answered(lab: Lab, user: str, *words: str, **more: str) -> "subprocess.CompletedProcess[str]":
    """What the client comes to, called again where it got no answer in its time."""
    until = time.monotonic() + PATIENCE
    while True:
        ran = lab.ran(user, *words, **more)
        if ran.returncode != NO_ANSWER or time.monotonic() > until:
            return ran


def uses(lab: Lab, user: str, file: str, dice: random.Random) -> None:
    leaves, name = dice.choice(list(KINDS)), file.rpartition("/")[2]
    job = write(lab.room, f"{name}.toml", text_of(1, "0", leaves, dice))
    ran = answered(lab, user, "submit", job, "--key", f"{name}-job", DESK_PASSWORD_FILE=file)
    if ran.returncode:
        lab.wrong(f"{user}: desk submit by a token: {ran.returncode} {ran.stderr}")
        return
    number = int(ran.stdout.split()[0])
    lab.submitted[number] = Submitted(user, 1, "0", leaves, time.time())
    lab.by_token.append(number)


def ends(lab: Lab, user: str, name: str) -> bool:
    """Ends a token, if there is one; a token that was made and never told too."""
    until = time.monotonic() + PATIENCE
    while time.monotonic() < until:
        ran = lab.ran(user, "--json", "tokens")
        if ran.returncode == 0 and name not in [it["name"] for it in json.loads(ran.stdout)["tokens"]]:
            return True
        if ran.returncode == 0:
            lab.tokens["ended"] += lab.ran(user, "end-token", name).returncode == 0
    lab.wrong(f"{user}'s token {name} isn't ended")
    return False
