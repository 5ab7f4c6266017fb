"""What farm-watch asks of the desk, noted with its moments, so that it is known which holds it must have seen."""
from __future__ import annotations

import http.client
import http.server
import json
import threading
import time
from typing import List, NamedTuple, Sequence, Tuple

from served import Farm
from watched import reply

GONE = 0  # the status of what got no answer


class Asked(NamedTuple):
    """A request: what for, when it came and was answered, and how."""

    path: str
    begin: float
    end: float
    status: int


class Looks:
    """Stands before the desk, and notes what is asked."""

    def __init__(self, farm: Farm):
        self.noted: List[Asked] = []
        looks = self

        class Handler(http.server.BaseHTTPRequestHandler):
            def do_GET(self) -> None:
                looks.pass_on(self, farm)

            do_POST = do_GET

            def log_message(self, *_: object) -> None:
                pass

        self.served = http.server.ThreadingHTTPServer(("127.0.0.1", 0), Handler)
        threading.Thread(target=self.served.serve_forever, daemon=True).start()
        self.address = f"http://127.0.0.1:{self.served.server_port}"

    def pass_on(self, handler: http.server.BaseHTTPRequestHandler, farm: Farm) -> None:
        begin = time.time()
        try:
            status, said = farm.ask(handler.headers["x-user"], handler.command, handler.path, key=handler.headers["x-key"])
        except (OSError, http.client.HTTPException, ValueError):
            status = GONE
        self.noted.append(Asked(handler.path, begin, time.time(), status))
        if status != GONE:
            reply(handler, status, json.dumps(said).encode())


class Look(NamedTuple):
    """When farm-watch asked for the boards and had its answer, and by when what it saw was kept."""

    begin: float
    end: float
    kept: float


def whole_looks(noted: Sequence[Asked], kills: Sequence[Tuple[float, float]]) -> List[Look]:
    """The looks of farm-watch that it kept: all of these was answered, and it lived until the next. Others may be kept,
    too. `kills` are the moments before and after each of its kills."""
    begins = [place for place, it in enumerate(noted) if it.path == "/status"]
    found = []
    for one, other in zip(begins, begins[1:]):
        asked = noted[one:other]
        is_answered = all(it.status == 200 or it.path == "/history.json" and it.status != GONE for it in asked)
        lives = not any(begin <= noted[other].begin and end >= noted[one].begin for begin, end in kills)
        boards = [Look(it.begin, it.end, noted[other].begin) for it in asked if it.path == "/boards"]
        if is_answered and lives and boards:
            found.append(boards[0])
    return found
