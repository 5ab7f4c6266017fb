"""Messages of farm-watch that aren't taken at once, and one that it is at when it is stopped. (What a kill leaves:
unit/watch/test_watcher.py.)"""
from __future__ import annotations

import os
import re
import signal
from typing import Pattern

from served import wait_until
from watched import Labs

JOBS = "[job]\nended = true\n"


def ended(number: int) -> str:
    return f"job {number} (test) has ended: Complete"


def tried_again(what: str, number: int) -> Pattern[str]:
    """What is told of a webhook; its first try may have had no answer in time on a machine that is busy."""
    return re.compile(rf"webhook: 127\.0\.0\.1: {what}: '{re.escape(ended(number))}' is tried again in \d+ seconds\n")


def test_what_isnt_taken_is_tried_again_the_same_to_the_byte(watched: Labs) -> None:
    """Neither way holds up the other; what was refused comes later, also by another process."""
    lab = watched(JOBS)
    lab.start()
    lab.mailbox.refuse(True)
    lab.hook.answer = 500
    first = lab.runs()
    wait_until("a refused mail", lambda: lab.mailbox.texts("refused"))
    again = f"'{ended(first)}' is tried again in 5 seconds\n"
    told = f"farm-watch: mail: {lab.mailbox.sendmail} ended with status 75: no room today: {again}"
    wait_until("it is told", lambda: told in lab.tool.errors())
    of_hook = tried_again("answered 500", first)
    wait_until("it is told", lambda: of_hook.search(lab.tool.errors()))
    lab.hook.answer = 200
    second = lab.runs(user="bob")
    wait_until("the second, by the webhook", lambda: ("bob", ended(second)) in lab.hook.told())
    assert lab.mailbox.told() == [], "mails, while none are taken"
    lab.tool.kill()
    lab.mailbox.refuse(False)
    lab.start()
    lab.mails([("ann@lab.example", f"farm: {ended(first)}"), ("bob@lab.example", f"farm: {ended(second)}")])
    wait_until("the first, by the webhook", lambda: len(lab.hook.told()) == 2)
    assert set(lab.mailbox.texts("refused")) <= set(lab.mailbox.texts())


def test_a_message_that_it_is_at_when_it_is_stopped_is_told_once(watched: Labs) -> None:
    """SIGTERM while sendmail has a message."""
    lab = watched(JOBS, hook=False)
    slow = lab.mailbox.sendmail
    with open(slow, encoding="utf-8") as file:
        text = file.read()
    with open(slow, "w", encoding="utf-8") as file:
        file.write(text.replace("set -e\n", 'set -e\nhere=$(dirname "$0")\ntouch "$here/begun"\n'
                                'while [ ! -e "$here/go" ]; do sleep 0.1; done\n', 1))
    lab.start()
    number = lab.runs()
    wait_until("sendmail", lambda: os.path.exists(os.path.join(lab.mailbox.folder, "begun")))
    lab.tool.send(signal.SIGTERM)
    with open(os.path.join(lab.mailbox.folder, "go"), "w", encoding="utf-8"):
        pass
    assert lab.tool.ends() == 0
    lab.start()
    lab.looked(3)
    lab.mails([("ann@lab.example", f"farm: {ended(number)}")])
    assert len(lab.mailbox.texts()) == 1, "how often it was brought"
