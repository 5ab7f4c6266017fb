"""The example's site with its farm-door before a farm, as many people ask through it who have a password each."""
from __future__ import annotations

import http.client
import json
import os
import shutil
import statistics
import threading
import time
from typing import Any, Dict, List, Optional, Sequence, Tuple

import nginx_site
from door_site import Door
from nginx_site import Site
from served import TOP, Farm, read

TOO_MANY = 429
UNKNOWN = (502, 503, 504)


class PeopleSite:
    """The site as it is packaged, with farm-door's usual limits or others; each thread keeps its connections."""

    def __init__(self, farm: Farm, folder: str, people: Sequence[str], rules: str = "", changes: Sequence[Tuple[str, str]] = ()):
        """`rules` are farm-door's, `changes` the site's."""
        nginx_site.WORDS = {it: f"word of {it}" for it in people}
        rules = rules or read(os.path.join(TOP, "examples/door.toml"))
        self.door = Door(farm, lambda made, *more: Site(made, folder, more), folder, rules, changes=changes)
        self.kept = threading.local()
        self.times: Dict[str, List[float]] = {"GET": [], "POST": []}

    def ask(self, user: str, method: str, path: str, body: Any = None, key: Optional[str] = None) -> Tuple[int, Any]:
        """The status and the body of an answer; OSError where nobody knows whether it was done, or it may be later."""
        status, said = self.answer(user, method, path, body, key)
        if status == TOO_MANY:
            raise OSError(f"{status}")
        return status, said

    def answer(self, user: str, method: str, path: str, body: Any = None, key: Optional[str] = None) -> Tuple[int, Any]:
        """The same, with what is refused for a limit."""
        lines = self.kept.__dict__.setdefault("lines", {})
        line, fields = lines.get(user) or lines.setdefault(user, self.door.site.connection(user))
        sent = body if body is None or isinstance(body, bytes) else json.dumps(body).encode()
        began = time.perf_counter()
        try:
            line.request(method, path, body=sent, headers={**fields, **({"x-key": key} if key else {})})
            answer = line.getresponse()
            status, said = answer.status, json.loads(answer.read())
        except (OSError, ValueError, http.client.HTTPException):
            line.close()
            raise
        if status in UNKNOWN:
            raise OSError(f"{status}")
        self.times[method].append(1000 * (time.perf_counter() - began))
        return status, said

    def end(self) -> None:
        self.door.kill()
        self.door.site.process.kill()
        self.door.site.process.wait()
        shutil.rmtree(self.door.room)

    def told(self) -> str:
        """Of looks and of commands how many there were, and their times in milliseconds."""
        found = []
        for name, times in self.times.items():
            parts = statistics.quantiles(times, n=100, method="inclusive")
            found.append(f"{len(times)} {name}: median {parts[49]:.1f} ms, 99th of a hundred {parts[98]:.1f} ms")
        return "; ".join(found)
