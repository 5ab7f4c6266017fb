"""What the tests of the Python package share: passes, and a server in front of the desk that keeps
connections and loses answers."""
from __future__ import annotations

import http.client
import http.server
import os
import threading
from types import TracebackType
from typing import Any, Dict, List, Optional, Tuple, Type, cast

import pytest

import fizgruk
from served import TOP, Farm

SOURCES = os.path.join(TOP, "python")
SRC = os.path.join(SOURCES, "src")
# The path of modules by which a program finds the package, before what else is on it.
PATH = os.pathsep.join(filter(None, [SRC, os.environ.get("PYTHONPATH")]))


def client_of(server: str, user: str = "ann", **more: Any) -> fizgruk.Client:
    return fizgruk.Client(server, user, **more)


def rows(farm: Farm) -> List[Any]:
    """The reservations, of which the newest is the last."""
    return list(farm.look("/reservations")["reservations"])


def states(farm: Farm) -> List[str]:
    return [it["state"] for it in rows(farm)]


class Passer:
    """Within its `with` a farm's pass is called again and again."""

    def __init__(self, farm: Farm, every: float = 0.1):
        self.farm, self.every = farm, every
        self.is_over = threading.Event()
        self.thread = threading.Thread(target=self._pass_on, daemon=True)

    def _pass_on(self) -> None:
        while not self.is_over.wait(self.every):
            try:
                self.farm.ask("dispatcher", "POST", "/pass")
            except (OSError, ValueError, http.client.HTTPException):
                pass  # the farm is away for now

    def __enter__(self) -> Passer:
        self.thread.start()
        return self

    def __exit__(
        self, kind: Optional[Type[BaseException]], fault: Optional[BaseException], trace: Optional[TracebackType]
    ) -> None:
        self.is_over.set()
        self.thread.join()


class Handler(http.server.BaseHTTPRequestHandler):
    protocol_version = "HTTP/1.1"

    @property
    def front(self) -> Front:
        return cast(Front, self.server)

    def setup(self) -> None:
        super().setup()
        with self.front.lock:
            self.front.connections += 1

    def do_GET(self) -> None:
        self.hand_on()

    def do_POST(self) -> None:
        self.hand_on()

    def hand_on(self) -> None:
        front = self.front
        body = self.rfile.read(int(self.headers.get("content-length", 0)))
        front.asked.append((self.command, self.path, dict(self.headers)))
        kind = front.next_trouble(self.path)
        if kind.isdigit():
            self.answer(int(kind), b"<html>a proxy's word</html>")
            return
        line = http.client.HTTPConnection("127.0.0.1", front.farm.port, timeout=30)
        try:
            fields = {it: self.headers[it] for it in ("x-user", "x-key") if it in self.headers}
            line.request(self.command, self.path, body=body, headers=fields)
            said = line.getresponse()
            status, told = said.status, said.read()
        except (OSError, http.client.HTTPException):
            status, told = 502, b"<html>Bad Gateway</html>"
        finally:
            line.close()
        if kind == "lost":
            self.close_connection = True
            return
        self.answer(status, told)
        if kind == "closed":
            self.close_connection = True

    def answer(self, status: int, body: bytes) -> None:
        self.send_response(status)
        self.send_header("content-type", "application/json")
        self.send_header("content-length", str(len(body)))
        self.end_headers()
        self.wfile.write(body)

    def log_message(self, *_: Any) -> None:
        pass


class Front(http.server.ThreadingHTTPServer):
    """A server in front of a farm's desk that keeps connections, as nginx does."""

    daemon_threads = True

    def __init__(self, farm: Farm):
        super().__init__(("127.0.0.1", 0), Handler)
        self.farm = farm
        self.lock = threading.Lock()
        self.connections = 0
        self.asked: List[Tuple[str, str, Dict[str, str]]] = []
        self.troubles: List[Tuple[str, str]] = []
        threading.Thread(target=self.serve_forever, daemon=True).start()

    @property
    def url(self) -> str:
        return f"http://127.0.0.1:{self.server_address[1]}"

    def trouble(self, *kinds: str, path: str = "") -> None:
        """Lets the next requests of paths with this end be answered with a proxy's status ("502"), be
        done and not answered ("lost"), or answered and the connection then closed without a word
        ("closed")."""
        with self.lock:
            self.troubles = [(kind, path) for kind in kinds]

    def next_trouble(self, path: str) -> str:
        with self.lock:
            if self.troubles and path.endswith(self.troubles[0][1]):
                return self.troubles.pop(0)[0]
        return ""

    def paths(self) -> List[str]:
        """What was asked so far."""
        return [f"{method} {path}" for method, path, _ in self.asked]

    def keys(self, path: str) -> List[Optional[str]]:
        """The keys of the commands to a path."""
        return [it[2].get("x-key") for it in self.asked if it[:2] == ("POST", path)]


# ---- fixtures, which a file of tests imports


@pytest.fixture(name="no_settings", autouse=True)
def no_settings_fixture(monkeypatch: pytest.MonkeyPatch) -> None:
    """The tests' own process has no settings, and no home that has some."""
    for name in [it for it in os.environ if it.startswith("DESK_")]:
        monkeypatch.delenv(name)
    for name in ("HOME", "XDG_CONFIG_HOME"):
        monkeypatch.setenv(name, "/nonexistent")
