"""farm-page: the status page of a desk on one's own machine, for a try. As examples/nginx.conf does, it takes commands of
its own page alone, and lets the page run its own files."""
import argparse
import http.client
import http.server
import json
import os
import re
import stat
import urllib.parse
from typing import Dict, Optional, Sequence

from fizgruk import records
from fizgruk._tools import asking, parsers, service
from fizgruk._tools.service import FAULT, Teller
from fizgruk.settings import LOOPBACK

PROGRAM = "farm-page"
tell = Teller(PROGRAM)
ABOUT = """\
Serves the status page at http://127.0.0.1:PORT/, and hands what it asks on to a desk of this \
machine, as one user. It is for a try: whoever is logged in on this machine can reach it, as a \
desk that is served by hand, and asks in that user's name. A lab has the site of nginx, with TLS \
and passwords, so farm-page takes no desk of another machine."""
STATUSES = (
    ("0", "It was ended by a signal."),
    ("2", "Bad words, or a setting that there isn't."),
    ("4", "Bad settings, a desk of another machine, or a port that can't be used."),
)
PAGE = os.path.join(os.path.dirname(os.path.dirname(os.path.abspath(__file__))), "page")
OF_FOLDER = re.compile(r"(history\.jsonl?|numbers|(running|waiting|workers|notes)\.json|logs/[1-9][0-9]*"
                       r"|artifacts/[1-9][0-9]*/([1-9][0-9]*|index\.json))")
# What other tools keep for the page, beside the dispatcher's folder.
BESIDE = {records.HOLDS: records.OF_HOLDS, "access.json": "farm-access/shown/access.json"}
KINDS = {".html": "text/html", ".css": "text/css", ".js": "text/javascript", ".json": "application/json"}
MOST_SENT, STALLED = 65_536, 60  # bytes of a command, seconds that a client has for its request
HEAD = {
    "content-security-policy": "default-src 'none'; script-src 'self'; style-src 'self'; connect-src 'self'; "
    "img-src data:; base-uri 'none'; form-action 'none'; frame-ancestors 'none'",
    "x-content-type-options": "nosniff", "x-frame-options": "DENY", "referrer-policy": "no-referrer",
}


class PageRequest(http.server.BaseHTTPRequestHandler):
    """One client's requests; a class of its own has the desk, who asks it, and the dispatcher's folder."""

    protocol_version, timeout = "HTTP/1.1", STALLED
    desk, user, folder = urllib.parse.urlsplit(""), "", ""

    def do_GET(self) -> None:
        """A file of the page or of the dispatcher's, who asks, or what the desk says."""
        path = urllib.parse.urlsplit(self.path).path[1:]
        if not self._is_own("host", ""):
            self._refuse(403, "asked under another name")
        elif path == "whoami":
            self._answer(200, self.user.encode(), "text/plain")
        elif path == "" or re.fullmatch(r"page/[a-z]+\.(css|js)", path):
            self._give(os.path.join(PAGE, os.path.basename(path) or "farm.html"))
        elif path in BESIDE and self.folder:
            self._give(os.path.join(os.path.dirname(self.folder), BESIDE[path]))
        elif path in BESIDE or OF_FOLDER.fullmatch(path):
            self._give(os.path.join(self.folder, path) if self.folder else "")
        else:
            self._hand_on(None)

    def do_POST(self) -> None:
        """A command of the page, or of who says nothing of where it comes from, as curl."""
        is_own = "origin" not in self.headers or self._is_own("origin", "http://")
        size = self.headers["content-length"] or "0"
        if not (self._is_own("host", "") and is_own and self.headers["sec-fetch-site"] in (None, "same-origin", "none")):
            self._refuse(403, "asked by another page")
        elif not size.isdigit() or int(size) > MOST_SENT:
            self._refuse(413, "too large")
        else:
            self._hand_on(self.rfile.read(int(size)))

    def _is_own(self, field: str, begin: str) -> bool:
        """Whether a field has a name of this machine: another may be led here by a foreign page."""
        assert isinstance(self.server, http.server.HTTPServer)
        return self.headers[field] in [f"{begin}{it}:{self.server.server_port}" for it in ("127.0.0.1", "localhost")]

    def _hand_on(self, body: Optional[bytes]) -> None:
        """Asks the desk in the user's name, whatever name the client brings."""
        fields = {"x-user": self.user, **({"x-key": self.headers["x-key"]} if self.headers["x-key"] else {})}
        line = http.client.HTTPConnection(self.desk.hostname or "", self.desk.port or 80, timeout=STALLED)
        try:
            line.request(self.command, self.path, body=body, headers=fields)
            answer = line.getresponse()
            self._answer(answer.status, answer.read())
        except (OSError, http.client.HTTPException):
            self._refuse(502, "Bad Gateway")
        finally:
            line.close()

    def _give(self, file: str) -> None:
        """A file, or its end where that is asked for, or that it is as it was; none by a link."""
        try:
            opened = open(file, "rb", opener=lambda name, flags: os.open(name, flags | os.O_NOFOLLOW | os.O_NONBLOCK))
        except OSError:
            return self._refuse(404, "no such route")
        with opened:
            about, begin = os.fstat(opened.fileno()), 0
            tag, end = f'"{about.st_mtime_ns:x}-{about.st_size:x}"', about.st_size
            asked = re.fullmatch(r"bytes=(\d{0,15})-(\d{0,15})", self.headers["range"] or "")
            fields = {"cache-control": "no-cache", "etag": tag}
            if asked:
                begin = int(asked[1]) if asked[1] else max(0, end - int(asked[2] or 0))
                end = min(end, int(asked[2]) + 1) if asked[1] and asked[2] else end
                fields["content-range"] = f"bytes {begin}-{end - 1}/{about.st_size}"
            if not stat.S_ISREG(about.st_mode):
                return self._refuse(404, "no such route")
            if asked and begin >= end:
                return self._refuse(416, "Requested Range Not Satisfiable")
            if not asked and self.headers["if-none-match"] == tag:
                return self._head(304, "text/plain", end, fields)
            kind = KINDS.get(os.path.splitext(file)[1], "text/plain") + "; charset=utf-8"
            if re.search(r"/artifacts/\d+/\d+$", file):
                kind, fields["content-disposition"] = "application/octet-stream", "attachment"
            opened.seek(begin)
            self._head(206 if asked else 200, kind, end - begin, fields)
            for place in range(begin, end, MOST_SENT):  # what is added meanwhile isn't told
                self.wfile.write(opened.read(min(MOST_SENT, end - place)))

    def _refuse(self, status: int, text: str) -> None:
        self.close_connection = True
        self._answer(status, json.dumps({"code": status, "text": text}).encode())

    def _answer(self, status: int, body: bytes, kind: str = "application/json") -> None:
        self._head(status, kind, len(body), {"cache-control": "no-store"})
        self.wfile.write(body)

    def _head(self, status: int, kind: str, size: int, more: Dict[str, str]) -> None:
        self.send_response(status)
        for name, text in {"content-type": kind, "content-length": str(size), **HEAD, **more}.items():
            self.send_header(name, text)
        self.end_headers()

    def log_message(self, format: str, *args: object) -> None:  # pylint: disable=redefined-builtin
        """Nothing is told of requests."""


def main(words: Optional[Sequence[str]] = None) -> int:
    return service.run(tell, lambda: serve(parser_of().parse_args(words)))


def serve(options: argparse.Namespace) -> int:
    """Serves the page until a signal comes. Returns the exit status."""
    settings = asking.settings_of("desk", options)
    desk = urllib.parse.urlsplit(settings.server)
    if desk.scheme != "http" or desk.hostname not in LOOPBACK:
        return tell.told(FAULT, f"{settings.server} isn't a desk of this machine")
    folder = os.path.abspath(options.folder) if options.folder else ""
    asks = type("Asks", (PageRequest,), {"desk": desk, "user": settings.user, "folder": folder})
    with http.server.ThreadingHTTPServer(("127.0.0.1", options.port), asks) as server:
        print(f"http://127.0.0.1:{server.server_port}/ as {settings.user}", flush=True)
        server.serve_forever()
    return 0


def parser_of() -> parsers.Parser:
    parser = parsers.parser_of(PROGRAM, ABOUT, STATUSES)
    about = "Listen at this port of 127.0.0.1 (default %(default)s); 0 takes a port that is free."
    parser.option("--port", "PORT", about, type=parsers.whole(0, 65535), default=8888)
    about = "The folder of farm-dispatch: what it keeps is shown too, and what farm-watch and farm-access keep beside it."
    parser.option("--folder", "DIR", about)
    asking.add_options(parser, "desk", "default the login's name")
    return parser
