"""The desk of the week, its tools, and all that is known of them from outside."""
from __future__ import annotations

import collections
import contextlib
import http.client
import itertools
import json
import os
import signal
import subprocess
import sys
import threading
import time
from typing import Any, Callable, Counter, Dict, List, NamedTuple, Optional, Sequence, Set, Tuple, Union

from desks import DESK, write
from lab_week import leaving, texts
from lab_week.looks import Looks
from lab_week.texts import EARLY, LATE, PEOPLE, Row
from people_site import PeopleSite
from served import PATIENCE, Farm, Tool, environment, read, wait_until
from watched import Hook, Mailbox

QUEUED = 4 * PATIENCE  # seconds for what waits in the queue, too
TOOLS = ("dispatcher", "watcher")


class Command(NamedTuple):
    """A command that was accepted, and the moments at which it was sent first and answered."""

    user: str
    path: str
    body: object
    key: str
    sent: float
    answered: float
    said: Dict[str, Any]


class Submitted(NamedTuple):
    """A job or group that was submitted: its boards, how its command ends, and what it leaves."""

    owner: str
    boards: int
    ends: str
    leaves: str
    answered: float


class Hold(NamedTuple):
    """A board that somebody has: a moment at which nobody had offered it yet, and when its acquisition was answered."""

    number: int
    board: str
    before: float
    since: float


class Held(NamedTuple):
    """A hold that has ended: when that was asked for (or happened at the earliest), and was answered."""

    owner: str
    hold: Hold
    let: float
    gone: float
    is_forgotten: bool = False

    @property
    def whose(self) -> str:
        return f"reservation {self.hold.number}"


class Copy(NamedTuple):
    """A copy of the farm: its file, when it was begun, and when it was there."""

    db: str
    begin: float
    end: float


class Lab:
    """A farm with its tools and people."""

    def __init__(self, program: str, room: str, seconds: int, has_site: bool = False) -> None:
        self.room = room
        self.deviations: List[str] = []
        self.site: Optional[PeopleSite] = None
        self.drained = threading.Event()
        self.counts = itertools.count()
        self.note_nothing()
        self.runs, self.withs, self.left_notes = (f"{room}/{it}" for it in ("runs", "withs", "left"))
        # (the history's folder and the holds' stand side by side, as `desk usage` looks for them)
        self.dispatch_folder, self.watch_folder = f"{room}/site/dispatch", f"{room}/site/farm-watch"
        for name in ("one", "site", "bin", *TOOLS):
            os.mkdir(f"{room}/{name}")
        self.mailbox, self.hook = Mailbox(room), Hook()
        self.farm = aged_farm(program, f"{room}/one", seconds)
        self.first = self.look("/status")["next"]
        self.door = Looks(self.farm)
        self.write_files()
        if has_site:
            moved = (f"{room}/site/watch/shown", f"{self.watch_folder}/shown")
            self.site = PeopleSite(self.farm, f"{room}/site", PEOPLE, texts.DOOR, [moved])
        self.tools: Dict[str, Tool] = {}
        for name in TOOLS:
            self.start(name)
        # (what ended before its first look isn't told)
        wait_until("a first look", lambda: "sees " in self.tools["watcher"].output())
        self.begun = time.monotonic()
        self.over = self.begun + seconds

    def note_nothing(self) -> None:
        """What is noted while people work, and of what goes on beside them."""
        self.commands: List[Command] = []
        self.logins: Dict[str, str] = {}  # by the keys of the commands that the site let through
        self.submitted: Dict[int, Submitted] = {}
        self.canceled: Set[int] = set()
        self.reservations: List[int] = []
        self.forgotten: List[int] = []
        self.held: List[Held] = []
        self.kills: Counter[str] = collections.Counter()
        self.killed: Dict[str, List[Tuple[float, float]]] = collections.defaultdict(list)  # before and after each kill
        self.copies: List[Copy] = []
        self.nightly: List[Copy] = []
        self.nights: List[List[Tuple[int, str]]] = []  # of each night what the nightly job's command came to
        self.tokens: Counter[str] = collections.Counter()
        self.by_token: List[int] = []

    def write_files(self) -> None:
        self.command_file = write(self.room, "command", texts.COMMAND, 0o755)
        self.with_file = write(self.room, "with", texts.WITH, 0o755)
        write(self.room, "late.toml", texts.lab_file(EARLY + LATE))
        write(f"{self.room}/bin", "date", texts.DATE.format(room=self.room), 0o755)
        self.rules_file = write(self.room, "watch.toml", texts.WATCH.format(
            server=self.door.address, sendmail=self.mailbox.sendmail, url=self.hook.url, remind=texts.REMIND, end=texts.END))

    # ---- what runs

    def words_of(self, name: str) -> List[str]:
        dispatch = ["--folder", self.dispatch_folder, "--every", "1", *leaving.BOUNDS]
        return {
            "dispatcher": ["farm-dispatch", "--server", self.farm.server, *dispatch, self.command_file],
            "watcher": ["farm-watch", "--every", "1", "--folder", self.watch_folder, self.rules_file],
        }[name]

    def start(self, name: str) -> None:
        self.tools[name] = Tool(self.words_of(name), f"{self.room}/{name}", RUNS=self.runs, LEFT=self.left_notes)

    def stop(self, name: str) -> None:
        """Ends a tool as systemd does."""
        tool = self.tools[name]
        tool.send(signal.SIGTERM)
        status = tool.ends()
        # (Python that has just begun is killed by it, as any process)
        if status not in (0, -signal.SIGTERM):
            self.wrong(f"the {name} ended with status {status}: {tool.errors()[-500:]}")

    def kill(self, name: str) -> None:
        self.kills[name] += 1
        before = time.time()
        if name == "desk":
            self.farm.kill()
            self.farm.start()
        elif name == "door" and self.site:
            self.site.door.kill()
            self.site.door.start()
        else:
            status = self.tools[name].process.poll()
            if status is not None:
                self.wrong(f"the {name} ended by itself with status {status}: {self.tools[name].errors()[-500:]}")
            self.tools[name].kill()
            self.killed[name].append((before, time.time()))
            self.start(name)

    # ---- what people do

    def wrong(self, what: str) -> None:
        self.deviations.append(what)
        print(f"lab_days: {what}", file=sys.stderr, flush=True)

    def left(self) -> float:
        return self.over - time.monotonic()

    def login_of(self, user: str) -> str:
        """By which login somebody asks: the admin, through the site, by those that the door's rules name."""
        return texts.ADMINS[next(self.counts) % 2] if user == "admin" and self.goes_by_site(user) else user

    def goes_by_site(self, user: str) -> bool:
        return self.site is not None and user in PEOPLE and not self.drained.is_set()

    def ask(self, user: str, method: str, path: str, body: object = None, key: Optional[str] = None) -> Tuple[int, Any]:
        """An answer, asked for again until it comes."""
        until = time.monotonic() + PATIENCE
        while True:
            is_by_site = self.site is not None and self.goes_by_site(user)
            way: Union[PeopleSite, Farm] = self.site if self.site and is_by_site else self.farm
            name = "admin" if user in texts.ADMINS and not is_by_site else user
            with contextlib.suppress(OSError, ValueError, http.client.HTTPException):
                status, said = way.ask(name, method, path, body, key)
                if status != 503:
                    return status, said
            if time.monotonic() > until:
                raise TimeoutError(f"no answer to {method} {path} for {PATIENCE:g} s")
            time.sleep(0.05)

    def look(self, path: str) -> Any:
        return self.ask("ann", "GET", path)[1]

    def command(self, user: str, path: str, body: object = None, refused: Sequence[int] = ()) -> Any:
        """Gives a command under a fresh key. Returns what it was answered, None where it was
        refused, as by these codes it may be."""
        key, sent = f"days-{next(self.counts)}", time.time()
        login, is_by_site = self.login_of(user), self.goes_by_site(user)
        status, said = self.ask(login, "POST", path, body, key)
        if status == 200:
            self.commands.append(Command(user, path, body, key, sent, time.time(), said))
            if is_by_site:
                self.logins[key] = login
            return said
        if said["code"] not in refused:
            self.wrong(f"{login} POST {path} {body}: refused: {said}")
        return None

    def ran(self, user: str, *words: str, given: str = "", **more: str) -> "subprocess.CompletedProcess[str]":
        """What the client comes to."""
        return subprocess.run(
            [sys.executable, DESK, *words], capture_output=True, text=True, timeout=QUEUED, check=False,
            input=given, env=environment(**{**self.settings(user), **more}),
        )

    def desk(self, user: str, *words: str, **more: str) -> str:
        """Runs the client, which has to end well; again where it got no answer in its time. Returns what it prints."""
        until = time.monotonic() + PATIENCE
        ran = self.ran(user, *words, **more)
        while ran.returncode == 4 and time.monotonic() < until:
            ran = self.ran(user, *words, **more)
        if ran.returncode:
            self.wrong(f"{user}: desk {' '.join(words)}: status {ran.returncode}: {ran.stderr}")
        return ran.stdout

    def settings(self, user: str) -> Dict[str, str]:
        """The settings by which the client asks as a person."""
        if self.site:
            return self.site.door.site.settings(texts.ADMINS[0] if user == "admin" else user)
        return {"DESK_SERVER": self.farm.server, "DESK_USER": user, "DESK_HISTORY": self.dispatch_folder}

    def told(self, event: str, field: str, value: object) -> Any:
        """What the webhook was told of an event at once, if it was."""
        return next((it for it in self.hook.messages()
                     if it["event"] == event and it[field] == value), None)

    def waits(self, seconds: float, call: Callable[[], Any]) -> Any:
        """What a call gives, once it gives something, within so long."""
        until = time.monotonic() + seconds
        while time.monotonic() < until:
            found = call()
            if found:
                return found
            time.sleep(0.4)
        return None

    def history(self) -> List[Row]:
        text = read(f"{self.dispatch_folder}/history.jsonl")
        return [json.loads(it) for it in text.split("\n")[:-1]]

    def job_lines(self) -> List[Row]:
        return [it for it in self.history() if it["kind"] == "job"]


# ---- a farm before it is served


def aged_farm(program: str, place: str, seconds: int) -> Farm:
    """A farm whose boards were checked an hour ago, less some part of the week."""
    farm = Farm(program, place, [])
    farm.kill()
    begin = int(time.time()) - 3600 + int(0.4 * seconds)
    file = write(place, "early.toml", texts.lab_file(EARLY))
    subprocess.run([program, "import", "--db", farm.db, "--at", str(begin), file],
                   check=True, capture_output=True)
    for place_of, board in enumerate(EARLY):
        moment = begin + 10 * place_of
        at(farm, moment, "admin", f"/boards/{board}/health", {"health": "Good"})
        if at(farm, moment, "dispatcher", "/pass")["checks"]:
            number = at(farm, moment, "admin", "/status", method="GET")["next"] - 1
            at(farm, moment, "dispatcher", f"/jobs/{number}/start")
            at(farm, moment, "dispatcher", f"/jobs/{number}/finish", {"outcome": "Complete"})
    farm.start()
    return farm


def at(farm: Farm, moment: int, user: str, path: str, body: object = None, method: str = "POST") -> Any:
    """Gives a command at a moment to a farm that isn't served."""
    sent = json.dumps(body).encode() if body else b""
    head = f"{method} {path} HTTP/1.1\r\nx-user: {user}\r\ncontent-length: {len(sent)}\r\n\r\n"
    ran = subprocess.run([farm.program, "once", "--db", farm.db, "--at", str(moment)],
                         input=head.encode() + sent, check=True, capture_output=True)
    return json.loads(ran.stdout.partition(b"\r\n\r\n")[2])
