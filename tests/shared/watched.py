"""Farms that farm-watch looks at, a sendmail and a webhook of the tests' own, and a door in front of a desk."""
from __future__ import annotations

import contextlib
import email
import email.message
import email.policy
import http.server
import json
import os
import re
import signal
import tempfile
import threading
from typing import Any, Callable, Dict, Iterator, List, Optional, Sequence, Tuple

from answering import Proxy
from desks import write
from served import Board, Farm, Tool, read, wait_until

HOUR = 3600
# What farm-watch tells where the desk takes longer than its five seconds for an answer.
SLOW = re.compile(r"farm-watch: (no answer from the desk at \S+: timed out|it goes on)\n")
BOARDS: Sequence[Board] = [("b1", "bbb", ["hdmi"]), ("b2", "bbb", []), ("b3", "ccc", [])]
SENDMAIL = """#!/bin/sh
# A sendmail that keeps what it is given, or refuses it.
set -e
here=$(dirname "$0")
new=$(mktemp "$here/new.XXXXXX")
echo "$*" > "$new"
cat >> "$new"
if [ -e "$here/refuse" ]; then
    echo "no room today" >&2
    mv "$new" "$here/refused.${new##*.}"
    exit 75
fi
mv "$new" "$here/mail.${new##*.}"
"""


def reply(handler: http.server.BaseHTTPRequestHandler, status: int, body: bytes) -> None:
    """Answers a request, where its client lives still."""
    try:
        handler.send_response(status)
        handler.send_header("content-length", str(len(body)))
        handler.end_headers()
        handler.wfile.write(body)
    except OSError:
        pass


def hours(subject: str) -> str:
    """A subject without the minutes of an age, which a slow machine adds."""
    return re.sub(r"( hours) [0-9]+ minutes?", r"\1", subject)


class Mailbox:
    """A sendmail, and the mails that it took."""

    def __init__(self, folder: str):
        self.folder = tempfile.mkdtemp(dir=folder)
        self.sendmail = write(self.folder, "sendmail", SENDMAIL, 0o755)
        self.brought: Dict[str, str] = {}  # texts by the files' names
        self.taken: Dict[str, str] = {}  # mails by their Message-ID
        self.read: Dict[str, email.message.EmailMessage] = {}  # messages by the texts that were brought

    def refuse(self, refuses: bool) -> None:
        """Lets it refuse mails, or take them again."""
        if refuses:
            write(self.folder, "refuse", "")
        else:
            os.unlink(os.path.join(self.folder, "refuse"))

    def texts(self, kind: str = "mail") -> List[str]:
        """What was brought, each time. (A file has its name once it is whole, and isn't read again.)"""
        for name in os.listdir(self.folder):
            if name.startswith(f"{kind}.") and name not in self.brought:
                self.brought[name] = read(os.path.join(self.folder, name))
        return [text for name, text in self.brought.items() if name.startswith(f"{kind}.")]

    def mails(self) -> List[email.message.EmailMessage]:
        """Those that were taken, by their Message-ID: one that came again is dropped, and has to be
        the same to the byte."""
        for text in self.texts():
            if text in self.read:
                continue
            words, _, mail = text.partition("\n")
            assert words == "-t -i"
            message = email.message_from_string(mail, policy=email.policy.default)
            assert isinstance(message, email.message.EmailMessage)
            assert self.taken.setdefault(message["message-id"], mail) == mail, "a mail that came again is another one"
            self.read[text] = message
        return list(self.read.values())

    def told(self, kind: Optional[str] = None) -> List[Tuple[str, str]]:
        """Whom which subjects went to, in order; of ages the hours alone."""
        return sorted(
            (it["to"], hours(it["subject"].strip()))  # (a long one stands on a line of its own)
            for it in self.mails()
            if kind in (None, it["x-farm-event"])
        )


class Hook:
    """A webhook, and what was posted to it."""

    def __init__(self) -> None:
        self.posted: List[Tuple[str, Dict[str, str], bytes]] = []
        self.answer = 200
        hook = self

        class Handler(http.server.BaseHTTPRequestHandler):
            def do_POST(self) -> None:
                body = self.rfile.read(int(self.headers["content-length"]))
                hook.take(self, body)

            def log_message(self, *_: object) -> None:
                pass

        self.server = http.server.ThreadingHTTPServer(("127.0.0.1", 0), Handler)
        self.server.daemon_threads = True
        self.url = f"http://127.0.0.1:{self.server.server_port}/hook?room=1"
        threading.Thread(target=self.server.serve_forever, daemon=True).start()

    def take(self, handler: http.server.BaseHTTPRequestHandler, body: bytes) -> None:
        if self.answer == 200:
            self.posted.append((handler.path, dict(handler.headers.items()), body))
        reply(handler, self.answer, b"")

    def messages(self) -> List[Any]:
        """What was taken, by its id: one that came again is dropped, and has to be the same."""
        found: Dict[str, bytes] = {}
        for _, _, body in list(self.posted):
            said = json.loads(body)
            assert found.setdefault(said["id"], body) == body, "a message that came again is another one"
        return [json.loads(body) for body in found.values()]

    def told(self, kind: Optional[str] = None) -> List[Tuple[str, str]]:
        return sorted(
            (it["owner"], hours(it["subject"]))
            for it in self.messages()
            if kind in (None, it["event"])
        )


class Door(Proxy):
    """What stands in front of a desk, and counts the looks."""

    def __init__(self, farm: Farm):
        self.looks = 0
        super().__init__(farm, self.count)

    def count(self, method: str, path: str, key: Optional[str]) -> None:
        self.looks += path == "/status"


class Watched:
    """A farm, its rules, and who is told."""

    def __init__(self, program: str, room: str, rules: str, boards: Sequence[Board] = BOARDS,
                 mail: bool = True, hook: bool = True):
        self.folder = tempfile.mkdtemp(dir=room)
        self.farm = Farm(program, self.folder, list(boards))
        self.door = Door(self.farm)
        self.mailbox = Mailbox(self.folder)
        self.hook = Hook()
        self.place = os.path.join(self.folder, "watch")
        self.write_rules(rules, mail, hook)
        self.tool: Tool

    def write_rules(self, rules: str, mail: bool = True, hook: bool = True) -> None:
        heads = [
            f"[desk]\nserver = '{self.door.server}'\n",
            "[mail]\nfrom = 'farm@lab.example'\nto = '{owner}@lab.example'\n"
            f"admin = 'lab@lab.example'\nsendmail = '{self.mailbox.sendmail}'\n" if mail else "",
            f"[webhook]\nurl = '{self.hook.url}'\n" if hook else "",
        ]
        self.file = write(self.folder, "watch.toml", "".join(heads) + rules)

    def words(self, *more: str) -> List[str]:
        return ["farm-watch", "--every", "0.2", "--folder", self.place, *more, self.file]

    def start(self, *more: str) -> None:
        """Watches. Returns once it has looked."""
        seen = read(os.path.join(self.folder, "output")).count("sees ")
        self.tool = Tool(self.words(*more), self.folder)
        wait_until("a first look", lambda: self.tool.output().count("sees ") > seen)

    def errors(self) -> str:
        """What it tells on a machine that isn't as slow as that."""
        return SLOW.sub("", self.tool.errors())

    def looked(self, count: int = 1) -> None:
        """Waits for whole looks that begin from now on."""
        begun = self.door.looks
        wait_until("looks", lambda: self.door.looks > begun + count)

    def stop(self) -> None:
        self.tool.send(signal.SIGTERM)
        assert self.tool.ends() == 0

    def end(self) -> None:
        """Ends what runs still; farm-watch ends with status 0."""
        if hasattr(self, "tool") and self.tool.process.poll() is None:
            self.stop()
        self.farm.kill()
        for it in (self.door.served, self.hook.server):
            it.shutdown()
            it.server_close()

    def mails(self, wanted: Sequence[Tuple[str, str]], kind: Optional[str] = None) -> None:
        """Waits until these mails are there: no more, and none of them twice."""
        wait_until(f"the mails {wanted}", lambda: self.mailbox.told(kind) == sorted(wanted))

    # ---- what happens at the farm

    def passes(self) -> Any:
        return self.farm.tell("dispatcher", "/pass")

    def starts(self, number: int) -> None:
        self.farm.tell("dispatcher", f"/jobs/{number}/start")

    def finishes(self, number: int, outcome: str = "Complete") -> None:
        self.farm.tell("dispatcher", f"/jobs/{number}/finish", {"outcome": outcome})

    def runs(self, outcome: str = "Complete", user: str = "ann") -> int:
        """A job that is submitted, and has ended when this returns."""
        number = self.farm.submit("true", user=user)
        self.passes()
        self.starts(number)
        self.finishes(number, outcome)
        return number

    def reserves(self, user: str = "ann", board: str = "b1") -> int:
        return int(self.farm.tell(user, "/reservations", {"tags": [f"name={board}"]})["number"])

    def holds(self, user: str = "ann", board: str = "b1") -> int:
        number = self.reserves(user, board)
        self.passes()
        self.farm.tell(user, f"/reservations/{number}/acquire")
        return number

    def held_since(self, moments: Sequence[Tuple[float, str, str]]) -> List[int]:
        """A farm whose boards have been held since these moments of the past, by these users: the
        numbers of the reservations. Its clock hasn't got beyond the last of them."""
        self.farm.kill()
        numbers: List[int] = []
        first = moments[0][0]
        self.farm.tell_at(first, "admin", "/types", {"name": "old"})
        for _, _, board in moments:
            self.farm.tell_at(first, "admin", "/boards", {"name": board, "type": "old"})
            self.farm.tell_at(first, "admin", f"/boards/{board}/health", {"health": "Good"})
        for moment, user, board in moments:
            number = self.farm.tell_at(moment, user, "/reservations", {"tags": [f"name={board}"]})["number"]
            self.farm.tell_at(moment, "dispatcher", "/pass")
            self.farm.tell_at(moment, user, f"/reservations/{number}/acquire")
            numbers.append(number)
        self.farm.start()
        return numbers


Labs = Callable[..., Watched]


@contextlib.contextmanager
def watched_farms(program: str, room: str) -> Iterator[Labs]:
    """Makes farms that are watched, by their rules and what else is wanted of them, and ends them."""
    made: List[Watched] = []

    def make(rules: str, **more: Any) -> Watched:
        made.append(Watched(program, room, rules, **more))
        return made[-1]

    yield make
    for it in made:
        it.end()
