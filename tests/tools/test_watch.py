"""What farm-watch tells of a served farm: the end of a group, holds that are reminded of and ended, and what people held;
its words and its unit."""
from __future__ import annotations

import json
import os
import subprocess
import sys
import time
from typing import List, Optional, Tuple

import pytest
from desks import GROUP, write
from served import TOOLS, TOP, environment, read, wait_until
from watched import HOUR, Labs, Watched

WATCH = os.path.join(TOOLS, "farm-watch")
MAIL = "[mail]\nfrom = 'farm@lab.example'\nto = '{owner}@lab.example'\nadmin = 'l@lab.example'\n"
JOBS = "[job]\nended = true\n"


def at(owner: str) -> str:
    return f"{owner}@lab.example"


def watch(*words: str, **more: str) -> Tuple[int, str, str]:
    """What farm-watch comes to: its status, output and errors."""
    ran = subprocess.run(
        [sys.executable, WATCH, *words], capture_output=True, text=True, timeout=60, check=False,
        env=environment(**more),
    )
    return ran.returncode, ran.stdout, ran.stderr


def content_to(lab: Watched, owner: str) -> str:
    """The text of the mail to an owner."""
    return str(next(it for it in lab.mailbox.mails() if it["to"] == at(owner)).get_content())


def test_what_people_held_is_written_down(watched: Labs) -> None:
    """The folder lets others through to that alone. (test_proxy.py: it is counted by the client.)"""
    lab = watched("[board]\nfree = true\n")
    lab.start()
    number = lab.holds("bob")
    lab.looked(2)
    lab.farm.tell("bob", f"/reservations/{number}/cancel")
    shown = os.path.join(lab.place, "shown", "holds.jsonl")
    row = json.loads(wait_until("its line", lambda: read(shown)))
    assert (row["owner"], row["board"], row["reservation"]) == ("bob", "b1", number)
    modes = {it: os.stat(os.path.join(lab.place, it)).st_mode & 0o777 for it in ("", "shown", "watch.db", "shown/holds.jsonl")}
    assert modes == {"": 0o711, "shown": 0o755, "watch.db": 0o600, "shown/holds.jsonl": 0o644}


# ---- jobs


def test_a_message_says_what_happened_to_people_and_programs(watched: Labs) -> None:
    """A group of two that has ended, by the webhook and by mail."""
    lab = watched(JOBS)
    lab.start()
    group = lab.farm.tell("cat", "/jobs", GROUP.encode())["number"]
    lab.passes()
    lab.starts(group)
    lab.finishes(group)
    lab.finishes(group + 1, "Incomplete")
    (said,) = wait_until("the message", lab.hook.messages)
    facts = [said[it] for it in ("event", "job", "title", "results", "boards", "owner")]
    assert facts == ["job-ended", group, "two", ["Complete", "Incomplete"], ["b1", "b2"], "cat"]
    assert said["text"].split("\n")[0] == f"cat: job {group} (two) has ended: Complete, Incomplete"
    path, fields, _ = lab.hook.posted[0]
    assert (path, fields["content-type"]) == ("/hook?room=1", "application/json")
    assert fields["idempotency-key"] == said["id"]
    (mail,) = wait_until("the mail", lab.mailbox.mails)
    fields_of_mail = [mail[it] for it in ("from", "to", "auto-submitted", "x-farm-event")]
    assert fields_of_mail == ["farm@lab.example", at("cat"), "auto-generated", "job-ended"]
    assert mail.get_content().splitlines() == [
        "NUMBER RESULT     BOARD TYPE ROLE",
        f"{group:6} Complete   b1    bbb  a",
        f"{group + 1:6} Incomplete b2    bbb  a",
    ]


# ---- holds


def test_an_old_hold_is_reminded_of_and_one_beyond_its_time_is_ended(watched: Labs) -> None:
    """One that was extended is neither."""
    now = time.time()
    lab = watched("[hold]\nremind = '4h'\nend = '12h'\n", boards=[])
    over, old, extended, fresh = lab.held_since([
        (now - 13 * HOUR, "ann", "h1"),
        (now - 5 * HOUR, "bob", "h2"),
        (now - 5 * HOUR + 1, "cat", "h3"),
        (now - 3 * HOUR, "dan", "h4"),
    ])
    desk = [sys.executable, os.path.join(TOOLS, "desk"), "--user", "cat", "extend", str(extended)]
    subprocess.run(desk, env=environment(DESK_SERVER=lab.farm.server), check=True)
    lab.start()
    told = [
        (at("ann"), f"farm: reservation {over} was ended: you had held h1 for 13 hours"),
        (at("bob"), f"farm: you have held h2 for 5 hours (reservation {old})"),
    ]
    lab.mails(told)
    states = [lab.farm.reservation(it)["state"] for it in (over, old, extended, fresh)]
    assert states == ["canceled", "acquired", "acquired", "acquired"]
    assert lab.farm.board("h1")["holder"] == "none"
    assert f"desk extend {old} " in content_to(lab, "bob")
    begin = lab.farm.reservation(old)["deadline"] - 60
    end = time.strftime("%Y-%m-%d %H:%M:%S", time.localtime(begin + 12 * HOUR))
    assert f"It is ended at {end}" in content_to(lab, "bob")


# ---- the file, words, the unit


@pytest.mark.parametrize("text, status, told", [
    (f"{MAIL}[hold]\nremnd = '4h'\n", 2, "line 6: [hold] remnd: no such key: is remind meant?"),
    ("", 2, "there is neither [mail] nor [webhook], so nobody can be told"),
])
def test_a_fault_of_a_file_ends_it_with_2(folder: str, text: str, status: int, told: str) -> None:
    file = write(folder, "watch.toml", text)
    wanted = (status, "", f"farm-watch: {file}: {told}\n")
    assert watch("--check", file) == wanted
    assert watch("--folder", folder, file) == wanted


def test_a_file_that_isnt_there_ends_it_with_4() -> None:
    status, said, told = watch("/nonexistent/watch.toml")
    assert (status, said, told.count("\n")) == (4, "", 1)


def test_check_tells_the_rules(folder: str) -> None:
    file = write(folder, "good.toml", f"{MAIL}{JOBS}[hold]\nremind = '1h30m'\n")
    told = "hold.remind (1 hour 30 minutes) by mail; "
    told += "job.ended (Complete Incomplete Infra Canceled) by mail"
    assert watch("--check", file) == (0, f"{file}: {told}\n", "")
    assert watch("--check", os.path.join(TOP, "examples", "watch.toml"))[::2] == (0, "")


@pytest.mark.parametrize("words", [["--every", "6"], ["--every", "0"], ["--nowhere"], ["good.toml", "more"]])
def test_bad_words_end_it_with_2(words: List[str]) -> None:
    assert watch(*words)[0] == 2


def test_settings_of_the_environment_are_read(folder: str) -> None:
    file = write(folder, "good.toml", f"{MAIL}{JOBS}")
    assert watch(file, WATCH_SERVRE="x")[0] == 2, "a variable that is no setting"
    assert watch(file, WATCH_SERVER="ftp://x")[0] == 4, "a bad server"


def test_its_folder_is_its_own(watched: Labs) -> None:
    lab = watched(JOBS)
    lab.start()
    place = os.path.realpath(lab.place)
    told = f"farm-watch: {place} is in use by another farm-watch\n"
    assert watch(*lab.words()[1:]) == (4, "", told)
    lab.stop()
    write(lab.place, "watch.db", "no database" * 100)
    told = f"farm-watch: {place}/watch.db: file is not a database\n"
    assert watch(*lab.words()[1:]) == (4, "", told)


def test_try_tells_the_admins_a_word_by_each_way(watched: Labs) -> None:
    lab = watched(JOBS)
    taken = "mail: told lab@lab.example\n"

    def tried() -> Tuple[int, str, str]:
        """What a try comes to, once the webhook answers within its seconds."""
        def once() -> Optional[Tuple[int, str, str]]:
            ran = watch("--try", *lab.words()[1:])
            return None if "127.0.0.1: no answer" in ran[2] else ran
        found: Tuple[int, str, str] = wait_until("a try in time", once)
        return found

    assert tried() == (0, f"{taken}webhook: told 127.0.0.1\n", "")
    assert set(lab.mailbox.told()) == {("lab@lab.example", "farm: a try")}
    lab.hook.answer = 500
    told = "farm-watch: webhook: 127.0.0.1: answered 500\n"
    assert tried() == (4, taken, told)


def test_the_unit_begins_again_but_at_2_and_3() -> None:
    wanted = {"StartLimitIntervalSec=0", "Restart=always", "RestartPreventExitStatus=2 3",
              "KillMode=mixed", "ProtectSystem=strict", "StateDirectory=farm-watch"}
    assert wanted <= set(read(os.path.join(TOP, "examples", "farm-watch.service")).split("\n"))
