"""What farm-watch tells, and how: the events, each of which is named, worded and addressed, and the ways, mail by the mail
server of this machine or sendmail, and posts to a webhook. Each way has a thread of its own, so neither holds up the
other, nor the looks at the desk."""
import asyncio
import contextlib
import email.message
import email.utils
import functools
import json
import smtplib
import socket
import sqlite3
import ssl
import subprocess
import tempfile
import threading
import time
import urllib.parse
from typing import Any, Callable, Dict, List, Optional, Sequence

from farm_watch.rules import SENDMAIL, Mail, Rules, Webhook
from farm_watch.store import Delivery, Event, Store, wait_after
from fizgruk import __version__, job_file, limits
from fizgruk._tools import tables

LONGEST_TITLE = 60
ENDED = tables.of("number", "result", "board", "type", "role")
WEBHOOK_WAITS, SENDMAIL_WAITS = 5.0, 60.0
MAIL_SERVER = ("127.0.0.1", 25)
LOOKS = 1.0
ENDS_IN = 15.0


# ---- events


class Events:
    """Makes the events of one look at a farm, and gathers those that somebody is to be told."""

    def __init__(self, rules: Rules, farm: int):
        """`farm` counts the farms that were watched: each begins its numbers at 1."""
        self.rules = rules
        self.farm = farm
        self.found: List[Event] = []

    def _add(self, table: str, kind: str, name: object, owner: str, subject: str,
             lines: Sequence[str], **facts: Any) -> None:
        mail, at = self.rules.mail, int(time.time())
        ways = [it for it in self.rules.by[table] if it != "mail" or (mail and mail.address_of(owner))]
        body = {"event": kind, "at": at, "owner": owner, "subject": subject, "text": "\n".join(lines), **facts}
        if ways:
            self.found.append(Event(f"{self.farm}.{kind}.{name}", at, ways, body))

    def hold_reminder(self, row: Dict[str, Any], begin: int, now: float) -> None:
        number, board = row["number"], row["board"]
        end = self.rules.end
        self._add(
            "hold", "hold-reminder", f"{number}.{begin}", row["owner"],
            f"you have held {board} for {limits.words_of(now - begin)} (reservation {number})",
            [
                f"Reservation {number} holds the board {board} since {moment(begin)}.",
                *([f"It is ended at {moment(begin + end)}, unless it is extended."] if end else []),
                "",
                f"    desk extend {number}                # to keep it for longer",
                f"    desk cancel-reservation {number}    # to give it back",
            ],
            reservation=number, board=board, since=begin,
            **({"end": int(begin + end)} if end else {}),
        )

    def hold_ended(self, row: Dict[str, Any], begin: int, now: float) -> None:
        number, board, end = row["number"], row["board"], self.rules.end
        limit = f"after {limits.words_of(end)} " if end else ""
        self._add(
            "hold", "hold-ended", number, row["owner"],
            f"reservation {number} was ended: you had held {board} for "
            f"{limits.words_of(now - begin)}",
            [
                f"Reservation {number} held the board {board} since {moment(begin)}.",
                f"A hold is ended {limit}where it isn't extended, so the board was given back.",
            ],
            reservation=number, board=board, since=begin,
        )

    def is_told(self, members: List[Dict[str, Any]]) -> bool:
        """Whether the end of a job of these members is told."""
        return any(it["result"] in self.rules.outcomes for it in members)

    def job_ended(self, members: List[Dict[str, Any]], reason: str) -> None:
        first = members[0]
        number, results = first["number"], [it["result"] for it in members]
        title = title_of(first["text"])
        named = f"job {number} ({title})" if title else f"job {number}"
        self._add(
            "job", "job-ended", number, first["owner"],
            f"{named} has ended: {', '.join(results)}",
            [*tables.lines_of(members, ENDED), *(["", f"Reason: {reason}"] if reason else [])],
            job=number, title=title, type=first["type"], results=results, reason=reason,
            boards=[it["board"] for it in members],
        )

    def board_free(self, kind: str, number: int, owner: str, boards: List[Dict[str, Any]]) -> None:
        """A claim that waited was given its boards."""
        if kind not in self.rules.free:
            return
        names = [it["name"] for it in boards]
        if kind == "group":
            named, then = f"job {number}", "It begins by itself."
        else:
            is_acquired = boards[0]["state"] == "Running"
            named = f"reservation {number}"
            then = "It is acquired." if is_acquired else f"Within a minute: desk acquire {number}"
        what = "board" if len(names) == 1 else "boards"
        verb = "came free and was" if len(names) == 1 else "came free and were"
        self._add(
            "board", "board-free", number, owner, f"{named} has got {', '.join(names)}",
            [f"The {what} {', '.join(names)} {verb} given to {named}, which waited.", then],
            claim=kind, number=number, boards=names,
        )


def moment(at: float) -> str:
    """A moment in this machine's zone."""
    return time.strftime("%Y-%m-%d %H:%M:%S %Z", time.localtime(at)).strip()


def title_of(text: str) -> str:
    """The job_name of a job's text, in one line."""
    words = job_file.name_of(text)
    short = " ".join("".join(it if it.isprintable() else " " for it in words).split())
    return short if len(short) <= LONGEST_TITLE else f"{short[:LONGEST_TITLE - 2]}.."


# ---- ways


class Undelivered(Exception):
    """A message wasn't taken."""


# A way of telling takes a message, and returns to whom it went, nothing where it goes to nobody.
Way = Callable[[Delivery], str]


def ways_of(rules: Rules) -> Dict[str, Way]:
    """The ways that a file's rules have."""
    ways: Dict[str, Way] = {}
    if rules.mail is not None:
        ways["mail"] = functools.partial(send_mail, rules.mail)
    if rules.webhook is not None:
        ways["webhook"] = functools.partial(post, rules.webhook)
    return ways


# ---- mail


def send_mail(mail: Mail, it: Delivery) -> str:
    """Hands a message to the mail server of this machine, where one listens, or to sendmail, which the file may name.
    At each try it is the same to the byte."""
    owner = it.body["owner"]
    to = ", ".join(mail.admin) if not owner else mail.address_of(owner)
    if not to:
        return ""
    message = email.message.EmailMessage()
    message["From"] = mail.sender
    message["To"] = to
    message["Subject"] = f"farm: {it.body['subject']}"
    message["Date"] = email.utils.formatdate(it.at)
    message["Message-ID"] = f"<{it.ident}@{mail.sender.rpartition('@')[2]}>"
    message["Auto-Submitted"] = "auto-generated"
    message["X-Farm-Event"] = it.body["event"]
    message.set_content(f"{it.body['text']}\n")
    refused = _posted(message) if mail.sendmail == SENDMAIL else None
    if refused is None:
        _hand_over(mail.sendmail, message.as_bytes())
        return to
    taken = [it for it in to.split(", ") if it not in refused]
    return "; ".join([", ".join(taken), *(f"{it} was refused: {why}" for it, why in refused.items())])


def _posted(message: email.message.EmailMessage) -> Optional[Dict[str, str]]:
    """Hands a message to the mail server of this machine: the addresses that it refused while it took others, and why;
    None where no server listens. It needs no other account, as the sendmail of most servers does, which the unit
    doesn't let it have."""
    try:
        with smtplib.SMTP(*MAIL_SERVER, local_hostname=socket.gethostname(), timeout=SENDMAIL_WAITS) as line:
            refused = line.send_message(message)
    except ConnectionRefusedError:
        return None
    except (OSError, smtplib.SMTPException, ValueError) as fault:
        said = " ".join(str(fault).split())[:200]
        raise Undelivered(f"the mail server of this machine: {said or type(fault).__name__}") from fault
    return {it: f"{code} {' '.join(text.decode(errors='replace').split())[:200]}" for it, (code, text) in refused.items()}


def _hand_over(command: str, text: bytes) -> None:
    """In a session of its own, so that a signal to farm-watch's group doesn't end it; from a file,
    so that it has the whole message also where farm-watch is killed meanwhile."""
    try:
        with tempfile.TemporaryFile() as file:
            file.write(text)
            file.seek(0)
            ran = subprocess.run(
                [command, "-t", "-i"],
                stdin=file,
                stdout=subprocess.DEVNULL,
                stderr=subprocess.PIPE,
                timeout=SENDMAIL_WAITS,
                check=False,
                start_new_session=True,
            )
    except (OSError, subprocess.SubprocessError) as fault:
        raise Undelivered(str(fault)) from fault
    if ran.returncode:
        said = " ".join(ran.stderr.decode(errors="replace").split())[:200]
        raise Undelivered(f"{command} ended with status {ran.returncode}: {said or 'no word'}")


# ---- webhook


def post(webhook: Webhook, it: Delivery) -> str:
    """Posts a message as JSON, within five seconds. At each try it is the same to the byte. Its
    text is whole by itself, since chats show that alone."""
    address = urllib.parse.urlsplit(webhook.url)
    host = address.hostname or ""
    owner = f"{it.body['owner']}: " if it.body["owner"] else ""
    text = f"{owner}{it.body['subject']}\n{it.body['text']}"
    body = json.dumps({"id": it.ident, **it.body, "text": text}, ensure_ascii=False).encode()
    try:
        context = ssl.create_default_context(cafile=webhook.ca_file) if address.scheme == "https" else None
    except OSError as fault:
        raise Undelivered(f"{webhook.ca_file}: {fault}") from fault
    try:
        status = asyncio.run(asyncio.wait_for(_status_of(address, context, it.ident, body), WEBHOOK_WAITS))
    except (OSError, ValueError, asyncio.TimeoutError) as fault:
        why = "no answer" if isinstance(fault, asyncio.TimeoutError) else str(fault) or type(fault).__name__
        raise Undelivered(f"{host}: {why}") from fault
    if not 200 <= status < 300:
        raise Undelivered(f"{host}: answered {status}")
    return host


async def _status_of(
    address: urllib.parse.SplitResult, context: Optional[ssl.SSLContext], ident: str, body: bytes
) -> int:
    """The status of the answer to a post, of which no more is read."""
    port = address.port or (443 if context else 80)
    lines, line = await asyncio.open_connection(address.hostname, port, ssl=context)
    try:
        head = [
            f"POST {urllib.parse.urlunsplit(('', '', address.path or '/', address.query, ''))} HTTP/1.1",
            f"host: {address.netloc.rpartition('@')[2]}", "content-type: application/json", f"content-length: {len(body)}",
            f"user-agent: farm-watch/{__version__}", f"idempotency-key: {ident}", "connection: close", "", "",
        ]
        line.write("\r\n".join(head).encode("ascii") + body)
        await line.drain()
        words = (await lines.readline()).split()
        if len(words) < 2 or not words[1].isdigit():
            raise ValueError("its answer isn't HTTP")
        return int(words[1])
    finally:
        line.close()


# ---- the threads


class Messenger(threading.Thread):
    """Tells what is due on one way, one message after another. A message that isn't taken is tried
    again later, after a wait that doubles each time, and the next is told meanwhile."""

    def __init__(self, store: Store, name: str, way: Way, told: Callable[[str], None]):
        super().__init__(name=name, daemon=True)
        self.store = store
        self.way = way
        self.told = told
        self.wake = threading.Event()
        self.is_to_end = False
        self.done: Optional[Delivery] = None  # told, and not noted yet

    def run(self) -> None:
        while not self.is_to_end:
            try:
                is_idle = not self._one()
            except sqlite3.Error as fault:
                self.told(f"what is told by {self.name} can't be noted: {fault}")
                is_idle = True
            if is_idle:
                self.wake.wait(LOOKS)
                self.wake.clear()

    def end(self) -> None:
        """Ends it after the message that is being told."""
        self.is_to_end = True
        self.wake.set()
        self.join(ENDS_IN)

    def _one(self) -> bool:
        """Tells what is due. Returns whether there was something."""
        self._note()
        it = self.store.take(self.name)
        if it is None:
            return False
        try:
            to = self.way(it)
        except Exception as fault:  # whatever it is, it keeps no other message waiting
            self._failed(it, str(fault) or type(fault).__name__)
            return True
        self.done = it
        self._note()
        if to:
            with contextlib.suppress(OSError):  # nobody reads it
                print(f"told by {self.name} to {to}: {it.body['subject']}", flush=True)
        return True

    def _note(self) -> None:
        """Notes that a message is told. Where that fails nothing more is told until it is noted."""
        if self.done is not None:
            self.store.done(self.done, self.name)
            self.done = None

    def _failed(self, it: Delivery, why: str) -> None:
        again = self.store.fail(it, self.name)
        wait = limits.words_of(wait_after(it.tries))
        then = f"tried again in {wait}" if again else "given up"
        self.told(f"{self.name}: {why}: '{it.body['subject']}' is {then}")
