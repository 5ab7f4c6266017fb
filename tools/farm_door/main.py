"""farm-door: tells nginx who asks, and hands users' commands on to the desk where no limit is met."""
import argparse
import grp
import http.client
import http.server
import json
import os
import re
import socketserver
import threading
from typing import List, Optional, Sequence, Tuple

from farm_door.counts import EVERY, Counts, Denied, Ledger
from farm_door.door import DeskPort, Door, UserCommand
from farm_door.rules import rules_in
from fizgruk import calls, settings
from fizgruk._tools import service

tell = service.Teller("farm-door")
ABOUT = "Tells nginx at a socket who asks, and hands commands on to the desk where no limit of their user's is met."
STALLED = 10  # seconds that nginx has for a request
LONGEST_BODY = 65536
LENGTH = re.compile("[0-9]{1,9}")
TARGET = re.compile("/[!-~]*")
Fields = Sequence[Tuple[str, str]]
JSON: Fields = (("content-type", "application/json"),)


def main(words: Optional[Sequence[str]] = None) -> int:
    return service.run(tell, lambda: answer(parser_of().parse_args(words)), ValueError, KeyError)


def parser_of() -> argparse.ArgumentParser:
    parser = argparse.ArgumentParser("farm-door", description=ABOUT)
    parser.add_argument("--rules", default="/etc/farm/door.toml", help="the file of rules (default %(default)s)")
    parser.add_argument("--socket", default="/run/farm-door/socket", help="where it listens (default %(default)s)")
    parser.add_argument("--group", default="www-data", help="the group that may ask, nginx's (default %(default)s)")
    parser.add_argument("--state", default="/var/lib/farm-door/kept.db", help="what it keeps (default %(default)s)")
    parser.add_argument("--server", default=settings.SERVER, help="the desk's address (default %(default)s)")
    return parser


def answer(options: argparse.Namespace) -> int:
    """Answers nginx until a signal comes. Returns the exit status."""
    counts = Counts(calls.Desk(settings.Settings(options.server, "door", None, None, 5.0), patience=0))
    door = Door(rules_in(options.rules), Ledger(options.state), counts, DeskPort(options.server))
    threading.Thread(target=service.rounds, args=[tell, EVERY, counts.look], daemon=True).start()
    serve(door, options.socket, options.group)
    return 0


# ---- the socket at which nginx asks: a request a connection, of which nothing is left for another


class NginxRequest(http.server.BaseHTTPRequestHandler):
    """One request of nginx's, whose field `x-what` says for what it is."""

    server: "Server"
    timeout = STALLED

    def do_POST(self) -> None:
        try:
            self._answer()
        except Denied as refused:
            self._refuse(refused.status, str(refused))
        except OSError:
            pass  # nginx is gone
        except Exception as fault:  # pylint: disable=broad-except
            tell(f"{type(fault).__name__}: {fault}")
            self._refuse(500, http.client.responses[500])

    do_GET = do_PUT = do_DELETE = do_PATCH = do_OPTIONS = do_POST

    def _answer(self) -> None:
        what = self._field("x-what")
        if what == "who":
            user, token = self.server.door.who(self._field("x-login"), self._field("x-bearer"))
            self._send(200, b"", [("x-farm-user", user), ("x-farm-token", token)])
        elif what == "command":
            answer = self.server.door.command(self._command())
            self._send(answer.status, answer.body, [*answer.fields, ("x-farm-number", answer.number)])
        elif what == "tokens":
            said = self.server.door.tokens(self._field("x-login"), self.command, self._path(), self._body())
            self._send(200, json.dumps(said).encode(), [*JSON, ("x-farm-number", str(said.get("number", "")))])
        else:
            raise Denied(400)

    # ---- what is asked

    def _command(self) -> UserCommand:
        keys: List[str] = self.headers.get_all("x-key") or []
        return UserCommand(self._field("x-login"), self.command, self._path(), keys, self._body())

    def _field(self, name: str) -> str:
        found = self.headers.get_all(name) or [""]
        if len(found) > 1:
            raise Denied(400)
        return str(found[0])

    def _path(self) -> str:
        """What the desk goes by, which takes a path as it is written, without what stands behind a `?`."""
        if not TARGET.fullmatch(self.path):
            raise Denied(404)
        return self.path.partition("?")[0]

    def _body(self) -> bytes:
        """As many bytes as the one field says that counts them."""
        if "transfer-encoding" in self.headers:
            raise Denied(501)
        said = self._field("content-length") or "0"
        if not LENGTH.fullmatch(said):
            raise Denied(400)
        length = int(said)
        if length > LONGEST_BODY:
            raise Denied(413)
        body = self.rfile.read(length)
        if len(body) < length:
            raise ConnectionAbortedError
        return body

    # ---- what is answered

    def _refuse(self, status: int, text: str) -> None:
        try:
            self._send(status, json.dumps({"code": status, "text": text}).encode(), JSON)
        except OSError:
            pass  # nginx is gone

    def _send(self, status: int, body: bytes, fields: Fields) -> None:
        self.close_connection = True
        self.send_response_only(status)
        for name, text in [*fields, ("content-length", str(len(body))), ("connection", "close")]:
            if text:
                self.send_header(name, text)
        self.end_headers()
        self.wfile.write(body)

    def send_error(self, code: int, message: Optional[str] = None, explain: Optional[str] = None) -> None:
        """What is no request that can be read."""
        del message, explain
        self._refuse(code, http.client.responses.get(code, ""))

    def log_message(self, *_: object) -> None:
        """Says nothing of a request."""


class Server(socketserver.ThreadingMixIn, socketserver.UnixStreamServer):
    """Answers at a socket, each request in a thread."""

    daemon_threads = True
    request_queue_size = 512

    def __init__(self, place: str, door: Door):
        self.door = door
        super().__init__(place, NginxRequest)


def serve(door: Door, place: str, group: str) -> None:
    """Answers for ever."""
    if os.path.lexists(place):
        os.unlink(place)
    before = os.umask(0o117)
    with Server(place, door) as server:
        os.umask(before)
        os.chown(place, -1, grp.getgrnam(group).gr_gid)
        print(f"listening {place}", flush=True)
        server.serve_forever()
