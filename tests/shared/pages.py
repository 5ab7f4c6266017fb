"""What the tests of the status page share: a door that stands in the proxy's place, a farm behind
it, what a page shows, and how it is worked with."""
from __future__ import annotations

import http.client
import http.server
import json
import os
import re
import threading
import time
import urllib.parse
from typing import Any, Callable, Dict, List, Optional, Sequence, Tuple

from browser import Browser, Page
from served import TOOLS, Board, Farm, wait_until

BOARDS: List[Board] = [("b1", "bbb", ["hdmi", "serial"]), ("b2", "bbb", ["serial"]), ("c1", "ccc", [])]
HOUR = 3600
PHONE = 390
PAGE = os.path.join(TOOLS, "page", "farm.html")
# The page's files, by their paths, each with its name and its kind.
KINDS = {".css": "text/css; charset=utf-8", ".js": "text/javascript; charset=utf-8"}
FILES = {
    "/": ("farm.html", "text/html; charset=utf-8"),
    **{
        f"/page/{name}": (name, KINDS[os.path.splitext(name)[1]])
        for name in sorted(os.listdir(os.path.dirname(PAGE))) if name.endswith(tuple(KINDS))
    },
}
# Lets a page look every half second instead of every five.
HURRY = """(real => window.setTimeout = (call, wait, ...more) =>
  real(call, wait === 5000 ? 500 : wait, ...more))(window.setTimeout);"""
# Notes for each path how many answers one after the other the first request for it waited for, and how many have come; the
# page and its files are two more.
TRIPS = """window.trips = {}; window.come = 2; (real => {
  window.fetch = (address, ...more) => {
    const trip = come + 1;
    trips[new URL(address).pathname] ??= trip;
    return real(address, ...more).then(it => (come = Math.max(come, trip), it));
  };
})(window.fetch);"""
# What a page shows: the cells of each table's rows, how many there are, and what it says. What an
# earlier page said is found where this one says it.
SHOWN = """(() => {
  const words = cell => {
    const tags = [...cell.querySelectorAll(".tag")].map(it => it.textContent);
    const parts = cell.querySelectorAll(".told, button:not(.tag), a.link, .owner, .owner ~ *");
    return tags.length ? tags.join(" ") : parts.length
      ? [...parts].map(it => it.textContent.trim()).filter(it => it).join(" ")
      : cell.textContent.trim();
  };
  const text = name => (document.getElementById(name) || {textContent: ""}).textContent.trim();
  const found = {said: text("said"), warned: text("warnings"), counts: {}, text: {}, groups: []};
  const first = what => (document.querySelector(what) || {textContent: ""}).textContent;
  found.news = first(".news").replace(/^.*?M: /, "");
  found.who = text("who");
  found.quiet = first("footer");
  for (const name of ["boards", "queue", "reservations", "ended", "board-history"]) {
    found[name] = [...document.querySelectorAll(`#${name} tbody tr:not(.group)`)].map(
      row => [...row.cells].map(words));
    found.counts[name] = text(name + "-count");
    found.text[name] = text(name);
  }
  found.groups = [...document.querySelectorAll("#boards tr.group th")].map(
    it => [...it.children].map(part => [...part.children].map(use => use.textContent).join(" ")
      || part.textContent).filter(text => text));
  return found;
})()"""
Shown = Dict[str, Any]
# Something of what the page's script knows, or what is done with it.
STATE = "import('/page/state.js').then(({{state}}) => {})"


class Door(http.server.BaseHTTPRequestHandler):
    """Gives the page at /, who looks, and what the dispatcher keeps, and hands every other request
    on to the desk: as examples/nginx.conf does."""

    protocol_version = "HTTP/1.1"

    @property
    def lab(self) -> "Lab":
        assert isinstance(self.server, Server)
        return self.server.lab

    def do_GET(self) -> None:
        lab, path = self.lab, urllib.parse.urlsplit(self.path).path
        if path in FILES:
            name, kind = FILES[path]
            with open(os.path.join(os.path.dirname(PAGE), name), "rb") as text:
                self.answer(200, kind, text.read())
            return
        lab.asked.append((path, time.monotonic()))
        lab.may_answer.wait()
        time.sleep(lab.delays.get(path, 0))
        if path in lab.files:
            self.give_file(path, lab.files[path])
        elif path == "/whoami" and lab.user:
            self.answer(200, "text/plain", lab.user.encode())
        elif path in ("/whoami", "/history.json", "/access.json") or path.startswith("/logs/"):
            self.answer(404, "application/json", b'{"code":52,"text":"no such route"}')
        else:
            self.hand_on("GET", path)

    def do_POST(self) -> None:
        lab, body = self.lab, self.rfile.read(int(self.headers["content-length"] or 0))
        lab.given.append((self.path, self.headers["x-key"], body.decode()))
        fields = {"x-user": lab.user, "x-key": self.headers["x-key"]}
        self.hand_on("POST", self.path, body, {name: text for name, text in fields.items() if text})

    def hand_on(
        self, method: str, path: str, body: Optional[bytes] = None, fields: Optional[Dict[str, str]] = None
    ) -> None:
        lab = self.lab
        try:
            line = http.client.HTTPConnection("127.0.0.1", lab.farm.port, timeout=60)
            line.request(method, path, body=body, headers=fields or {})
            answer = line.getresponse()
            status, said = answer.status, answer.read()
        except OSError:
            status, said = 502, b"Bad Gateway"
        if method == "POST" and lab.troubles:
            status = lab.troubles.pop(0)
            if not status:
                self.close_connection = True
                return
        self.answer(status, "text/html" if status == 502 else "application/json", said)

    def give_file(self, path: str, body: bytes) -> None:
        """A file, or its end where that is asked for. What isn't a file's name stands for the desk's answer."""
        kind = "text/plain" if "." in path or path.startswith(("/logs/", "/artifacts/")) else "application/json"
        asked = re.fullmatch(r"bytes=-(\d+)", self.headers["range"] or "")
        if not asked or not body:
            self.answer(200, kind, body)
            return
        begin = max(0, len(body) - int(asked.group(1)))
        self.answer(206, kind, body[begin:], f"bytes {begin}-{len(body) - 1}/{len(body)}")

    def answer(self, status: int, kind: str, body: bytes, content_range: str = "") -> None:
        self.send_response(status)
        self.send_header("content-type", kind)
        self.send_header("content-length", str(len(body)))
        if content_range:
            self.send_header("content-range", content_range)
        self.end_headers()
        self.wfile.write(body)

    def date_time_string(self, timestamp: Optional[int] = None) -> str:
        return super().date_time_string(self.lab.date if timestamp is None else timestamp)

    def log_message(self, format: str, *args: Any) -> None:  # pylint: disable=redefined-builtin
        pass


class Server(http.server.ThreadingHTTPServer):
    def __init__(self, lab: "Lab"):
        self.lab = lab
        super().__init__(("127.0.0.1", 0), Door)
        threading.Thread(target=self.serve_forever, args=(0.05,), daemon=True).start()


class Lab:
    """A served farm, and a door to it that gives the page too."""

    def __init__(self, browser: Browser, farm: Farm, user: Optional[str] = None):
        self.farm, self.user = farm, user
        # paths that were asked for, each with when; commands that were given: path, key, body
        self.asked: List[Tuple[str, float]] = []
        self.given: List[Tuple[str, Optional[str], str]] = []
        # files beside the page, by path; what becomes of the next answers to commands: each a status
        # that comes in their place, or 0 where they are lost
        self.files: Dict[str, bytes] = {}
        self.troubles: List[int] = []
        # how many seconds the answers to looks take more, by path
        self.delays: Dict[str, float] = {}
        # the date of answers, where it isn't the time
        self.date: Optional[int] = None
        self.may_answer = threading.Event()
        self.may_answer.set()
        self.door, self.visit = Server(self), browser.visit()

    def open(self, path: str = "/", before: str = HURRY, **size: int) -> Page:
        """A page that looks at the farm."""
        return self.visit.open(f"http://127.0.0.1:{self.door.server_address[1]}{path}", before=before, **size)

    def opened(self, path: str = "/", **more: Any) -> Page:
        """A page that has looked."""
        opened = self.open(path, **more)
        seen(opened)
        return opened

    def look(self, path: str = "/") -> Shown:
        """What the page shows once it has looked."""
        opened = self.open(path)
        shown = seen(opened)
        opened.close()
        return shown

    def times_asked(self, path: str) -> int:
        return sum(it == path for it, _ in self.asked)

    def looks_twice(self) -> None:
        """Waits until a page has looked, and has begun to look again."""
        before = self.times_asked("/status")
        wait_until("two more looks", lambda: self.times_asked("/status") >= before + 2)

    def reserve(self, user: str, *tags: str, **more: str) -> int:
        """Makes a reservation, and returns its number."""
        return int(self.farm.tell(user, "/reservations", {"tags": list(tags), **more})["number"])

    def passes(self) -> None:
        self.farm.tell("dispatcher", "/pass")

    def set_health(self, **boards: str) -> None:
        for name, health in boards.items():
            self.farm.tell("admin", f"/boards/{name}/health", {"health": health})

    def end(self) -> None:
        self.may_answer.set()
        self.visit.end()
        self.door.shutdown()
        self.door.server_close()


def seen(opened: Page) -> Shown:
    """What a page shows once it has looked for the first time."""
    return until(opened, "it has looked", lambda it: "as of" in it["said"])


def until(opened: Page, what: str, test: Callable[[Shown], object]) -> Shown:
    """What a page shows once that passes a test."""

    def shown() -> Shown:
        found: Shown = opened.ask(SHOWN)
        return found if test(found) else {}

    there: Shown = wait_until(what, shown)
    return there


def names(shown: Shown, table: str = "boards") -> List[str]:
    return [row[0] for row in shown[table]]


def tell_at(farm: Farm, moment: float, user: str, path: str, body: Any = None) -> int:
    """Gives a command at a moment of its own, while the farm isn't served. Returns its number."""
    return int(farm.tell_at(moment, user, path, body).get("number", 0))


def begin_at(farm: Farm, moment: float, boards: Sequence[Board] = BOARDS) -> None:
    """Adds Good boards to a farm at a moment, and leaves it unserved."""
    farm.kill()
    for kind in sorted({it[1] for it in boards}):
        tell_at(farm, moment, "admin", "/types", {"name": kind})
    for name, kind, tags in boards:
        tell_at(farm, moment, "admin", "/boards", {"name": name, "type": kind, "tags": list(tags)})
        tell_at(farm, moment, "admin", f"/boards/{name}/health", {"health": "Good"})


# ---- working with it

# A row's button, and what is in a dialog.
BUTTON = """[...[...document.querySelectorAll("#{table} tbody tr:not(.group)")]
  .find(it => it.cells[0].textContent.trim() === "{row}").querySelectorAll("button, a")]
  .find(it => it.textContent === "{text}")"""
HEAD = """[...document.querySelectorAll("#{table} thead th")].find(
  it => it.textContent.trim() === "{text}")"""
FACTS = """(id => Object.fromEntries([...document.querySelectorAll(`#${id} dt`)].map(
  it => [it.textContent, it.nextElementSibling.textContent.trim()])))"""


def choose(opened: Page, words: str) -> None:
    """Types words into the search."""
    opened.ask(f"filter.value = {words!r}; void filter.dispatchEvent(new Event('input'))")


def click(opened: Page, table: str, row: str, text: str) -> None:
    opened.ask(BUTTON.format(table=table, row=row, text=text) + ".click()")


def sort_by(opened: Page, table: str, text: str) -> None:
    opened.ask(HEAD.format(table=table, text=text) + ".querySelector('button').click()")


def text_of(opened: Page, selector: str) -> Optional[str]:
    """The text of the first element of this kind, and nothing where there is none."""
    text: Optional[str] = opened.ask(f"(document.querySelector({selector!r}) || {{}}).textContent")
    return text


def facts_of(opened: Page, dialog: str) -> Dict[str, str]:
    """The facts that a dialog shows, by their terms."""
    facts: Dict[str, str] = opened.ask(f"{FACTS}('{dialog}')")
    return facts


def answer(opened: Page, text: str) -> None:
    """Answers the question that is open."""
    found = f"find(it => it.textContent === '{text}')"
    opened.ask(f"[...document.querySelectorAll('#question button')].{found}.click()")


def buttons(shown: Shown, table: str, row: str) -> str:
    """What can be done with a row, and what is told beside it."""
    return str(next(it[-1] for it in shown[table] if it[0] == row))


# ---- the past


def record(
    number: int, owner: str, board: str, ended: int, outcome: str = "Complete", reason: str = ""
) -> Dict[str, Any]:
    """A job that ended after 90 s, as the dispatcher's history has it."""
    return {
        "kind": "job", "job": number, "group": number, "owner": owner, "boards": [board],
        "type": "bbb", "name": f"test {number}", "submitted": None, "began": ended - 90,
        "ended": ended, "outcome": outcome, "reason": reason,
    }


def past(lab: Lab, *jobs: Dict[str, Any]) -> None:
    """Serves a history of these jobs, and of a board that went Bad."""
    changes = [{"kind": "health", "board": "b1", "from": "Good", "to": "Bad",
                "at": int(time.time()) - 5000, "reason": "no prompt"}]
    told = {"at": int(time.time()), "jobs": list(jobs), "boards": changes}
    lab.files["/history.json"] = json.dumps(told).encode()


# ---- a full farm


def full_farm(now: int) -> Dict[str, bytes]:
    """What a desk of 256 boards and 3,000 waiting claims answers, by path."""
    boards, held = [], []
    for place in range(256):
        holder = f"job {place + 1}" if place % 3 == 0 else "none"
        if place % 5 == 1:
            holder = f"reservation {place + 1}"
            held.append({
                "board": f"board-{place:03}", "deadline": 1_700_000_000, "number": place + 1,
                "owner": "ann", "priority": 50, "state": "acquired", "tags": ["serial"],
            })
        boards.append({
            "health": "Bad" if place % 17 == 2 else "Good", "holder": holder, "jobs_since": 3,
            "last_check": 0, "name": f"board-{place:03}", "type": f"type-{place % 8}",
            "state": "Idle" if holder == "none" else "Running",
            "tags": ["gigabit", f"outlet={place % 8}", f"power=pdu{place // 8}", "serial"],
        })
    job = {"board": "", "group": 1, "kind": "ordinary", "number": 1, "owner": "bob", "priority": 50,
           "result": "", "role": "", "state": "Running", "tags": [], "text": "job_name = 'boot'",
           "type": "type-0"}
    held_by = [int(str(it["holder"])[4:]) for it in boards if str(it["holder"]).startswith("job ")]
    views = {
        "types": {"types": [{"check": "none", "every": 0, "name": f"type-{it}"} for it in range(8)]},
        "boards": {"boards": boards},
        "queue": {"queue": [{"boards": 1, "kind": "group", "number": 1000 + it, "owner": f"user-{it % 40}",
                             "priority": 50} for it in range(3000)]},
        "status": {"boards": 256, "clock": now, "collector": 0, "count": 9000, "jobs": 4000, "next": 4000,
                   "reservations": 300, "types": 8},
        "reservations": {"reservations": held},
        **{f"jobs/{number}": job for number in (*held_by, *range(1000, 1005))},
    }
    return {f"/{path}": json.dumps(body).encode() for path, body in views.items()}


def full_present(views: Dict[str, bytes]) -> Dict[str, bytes]:
    """What its dispatcher keeps beside these views: what runs, what waits, and the last jobs that ended."""
    boards, queue = json.loads(views["/boards"])["boards"], json.loads(views["/queue"])["queue"]
    now = int(json.loads(views["/status"])["clock"])
    jobs = [
        {"job": int(it["holder"][4:]), "group": int(it["holder"][4:]), "owner": "bob", "board": it["name"],
         "type": it["type"], "name": "boot", "began": now - 600, "limit": 3600}
        for it in boards if it["holder"].startswith("job ")
    ]
    holds = [{"board": it["name"], "reservation": int(it["holder"][12:]), "since": now - 900}
             for it in boards if it["holder"].startswith("reservation ")]
    groups = [{"group": it["number"], "name": f"nightly {it['number'] % 7}", "submitted": now - it["number"],
               "wants": [{"type": f"type-{it['number'] % 8}", "tags": ["serial"]}]} for it in queue]
    ended = [record(900 - it, f"user-{it % 40}", f"board-{it:03}", now - 60 * it) for it in range(200)]
    told = {
        "/running.json": {"at": now, "jobs": jobs, "holds": holds},
        "/waiting.json": {"at": now, "groups": groups},
        "/history.json": {"at": now, "jobs": ended, "boards": []},
    }
    return {path: json.dumps(body).encode() for path, body in told.items()}
