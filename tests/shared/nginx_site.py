"""The site of examples/nginx.conf before a farm: TLS, passwords, who asks, the page, history and logs."""
from __future__ import annotations

import base64
import contextlib
import functools
import http.client
import http.server
import json
import os
import shutil
import socket
import ssl
import subprocess
import tempfile
import threading
from typing import Any, Callable, Dict, Iterator, List, Optional, Sequence, Tuple

import pytest

from desks import starter
from ports import free_port
from served import STARTED, TOOLS, TOP, Farm, ends_with_us, environment, read, wait_until
from wants import wants

NEEDED = ("nginx", "openssl", "curl")
NGINX = shutil.which("nginx") or shutil.which("nginx", path="/usr/sbin:/sbin")
WORDS = {"admin": "over all", "ann": "open sesame", "dispatcher": "pass on"}
AROUND = """\
user root;
worker_processes 1;
error_log {folder}/error.log;
pid {folder}/nginx.pid;
events {{}}
http {{
    log_format asked '$msec $status $request_method $request_uri $upstream_addr';
    access_log {folder}/asked.log asked;
    # (as Debian's nginx.conf has it)
    ssl_protocols TLSv1.2 TLSv1.3;
    client_body_temp_path {folder}/body;
    proxy_temp_path {folder}/proxy;
    fastcgi_temp_path {folder}/fastcgi;
    uwsgi_temp_path {folder}/uwsgi;
    scgi_temp_path {folder}/scgi;
{site}
}}
"""

# A process that asks may stand still on a busy machine for longer than the example gives it.
HEADS = ("client_header_timeout 5s", "client_header_timeout 60s")


class Site:
    """The example's site before a served farm, with the passwords of ann and of dispatcher. It skips
    the test where nginx, openssl or curl is missing."""

    def __init__(self, farm: Farm, folder: str, changes: Sequence[Tuple[str, str]] = ()):
        """`changes` are texts of the site, each with what stands in its place here."""
        wants(*NEEDED)
        self.folder, self.port = folder, free_port()
        self.server = f"https://localhost:{self.port}"
        self.certificate = os.path.join(folder, "farm.pem")
        for name, text in certified().items():
            write(folder, name, text, 0o600)
        lines = []
        for name, word in WORDS.items():
            lines.append(f"{name}:{hashed(word)}\n")
            write(folder, name, f"{word}\n", 0o600)
        write(folder, "farm.htpasswd", "".join(lines), 0o644)
        write(folder, "nginx.conf", AROUND.format(folder=folder, site=self.text(farm, changes)), 0o644)
        words = [str(NGINX), "-p", folder, "-c", f"{folder}/nginx.conf", "-g", "daemon off; master_process off;"]
        self.process = subprocess.Popen(
            words, stdout=subprocess.DEVNULL, stderr=subprocess.DEVNULL, preexec_fn=ends_with_us()
        )
        STARTED.append(self.process)
        wait_until("nginx listens", lambda: self.curl("-o", "/dev/null", "/") != 7)

    def text(self, farm: Farm, changes: Sequence[Tuple[str, str]]) -> str:
        """The example's site in this folder."""
        with open(os.path.join(TOP, "examples", "nginx.conf"), encoding="utf-8") as text:
            site = text.read()
        for old, new in [
            ("listen 443 ssl", f"listen 127.0.0.1:{self.port} ssl"),
            ("farm.lab.example", "localhost"),
            ("http://127.0.0.1:880", farm.server),
            ("/etc/ssl/certs/farm.pem", self.certificate),
            ("/etc/ssl/private/farm.key", f"{self.folder}/farm.key"),
            ("/etc/nginx/farm.htpasswd", f"{self.folder}/farm.htpasswd"),
            ("/usr/local/lib/farm-tools", TOOLS),
            ("/var/cache/farm-views", f"{self.folder}/views"),
            ("/var/lib/farm-dispatch", f"{self.folder}/dispatch"),
            ("/var/lib/farm-watch", f"{self.folder}/watch"),
            ("/var/log/nginx/access.log farm_asked", f"{self.folder}/asked.log asked"),
            ("/var/log/nginx/farm-guesses.log", f"{self.folder}/guesses.log"),
            ("/var/log/farm/audit.log", f"{self.folder}/audit.log"),
            HEADS,
            ("keepalive_timeout 20s", "keepalive_timeout 300s"),
            *changes,
        ]:
            assert old in site, f"the example has no {old}"
            site = site.replace(old, new)
        return site

    def settle(self) -> None:
        """Has one more request answered: nginx, which is one process, has then logged all that it answered before."""
        assert self.curl("-o", "/dev/null", "/") == 0

    def logged(self, name: str = "audit.log") -> str:
        """What a log has of all that was answered until now."""
        self.settle()
        return read(f"{self.folder}/{name}")

    def asked_of_desk(self, since: float = 0) -> List[str]:
        """What was asked of the desk since a moment: a list of methods and paths."""
        self.settle()
        with open(f"{self.folder}/asked.log", encoding="utf-8") as lines:
            rows = [line.split() for line in lines]
        return [f"{row[2]} {row[3]}" for row in rows if float(row[0]) >= since and row[4] != "-"]

    def connection(self, user: str = "ann") -> Tuple[http.client.HTTPSConnection, Dict[str, str]]:
        """A connection, and the fields that a user's requests have."""
        word = base64.b64encode(f"{user}:{WORDS[user]}".encode()).decode()
        trusted = ssl.create_default_context(cafile=self.certificate)
        line = http.client.HTTPSConnection("localhost", self.port, timeout=60, context=trusted)
        return line, {"authorization": f"Basic {word}"}

    def curl(self, *words: str) -> int:
        """What curl ends with; the last of its words is a path."""
        return self._curled(words).returncode

    def said(self, *words: str, user: str = "ann") -> Tuple[int, str, Any]:
        """The status, the kind and the JSON of an answer; the last of curl's words is a path."""
        ran = self._curled(["-w", "\n%{http_code} %{content_type}", *login(user), *words])
        body, _, end = ran.stdout.rpartition(b"\n")
        status, _, kind = end.decode().partition(" ")
        return int(status), kind, json.loads(body)

    def got(self, path: str, *words: str, user: str = "ann") -> Tuple[int, Dict[str, str], bytes]:
        """The status, the fields of the head and the body of an answer, whatever the path is."""
        ran = self._curled(["-i", "--path-as-is", "--http1.1", *words, *login(user), path])
        head, _, body = ran.stdout.partition(b"\r\n\r\n")
        lines = head.decode().split("\r\n")
        fields = dict(line.lower().split(": ", 1) for line in lines[1:])
        return int(lines[0].split()[1]), fields, body

    def _curled(self, words: Sequence[str]) -> "subprocess.CompletedProcess[bytes]":
        head = ["curl", "-s", "--cacert", self.certificate, *words[:-1]]
        return subprocess.run([*head, self.server + words[-1]], capture_output=True, check=False)

    def settings(self, user: str = "ann", prefix: str = "DESK") -> Dict[str, str]:
        """The settings by which a tool asks here as this user."""
        return {
            f"{prefix}_SERVER": self.server,
            f"{prefix}_USER": user,
            f"{prefix}_CA_FILE": self.certificate,
            f"{prefix}_PASSWORD_FILE": os.path.join(self.folder, user),
        }

    def desk(self, *words: str, given: str = "", **more: str) -> Tuple[int, str, str]:
        """What the client comes to: its status, output and errors."""
        return starter().call(words, environment(**{**self.settings(), **more}), given)


def raw(site: Site, request: bytes, wait: float = 20) -> bytes:
    """What a connection gets for these bytes until it is closed, or nothing more comes."""
    with line_to(site) as line:
        line.settimeout(wait)
        line.sendall(request)
        said = b""
        try:
            while True:
                more = line.recv(65536)
                if not more:
                    return said
                said += more
        except TimeoutError:
            return said + b"(open)"


def line_to(site: Site) -> ssl.SSLSocket:
    trusted = ssl.create_default_context(cafile=site.certificate)
    return trusted.wrap_socket(socket.create_connection(("127.0.0.1", site.port)), server_hostname="localhost")


@contextlib.contextmanager
def page_beside(site: Site, body: str, is_at_host: bool = True) -> Iterator[str]:
    """Serves a page at another port of the site's own host, by TLS, or at another site. Gives its address."""

    class Page(http.server.BaseHTTPRequestHandler):
        def do_GET(self) -> None:
            self.send_response(200)
            self.send_header("content-type", "text/html")
            self.send_header("content-length", str(len(body)))
            self.end_headers()
            self.wfile.write(body.encode())

        def log_message(self, *_: object) -> None:
            pass

    with http.server.ThreadingHTTPServer(("127.0.0.1", 0), Page) as server:
        if is_at_host:
            trusted = ssl.create_default_context(ssl.Purpose.CLIENT_AUTH)
            trusted.load_cert_chain(site.certificate, f"{site.folder}/farm.key")
            server.socket = trusted.wrap_socket(server.socket, server_side=True)
        threading.Thread(target=server.serve_forever, daemon=True).start()
        yield f"{'https://localhost' if is_at_host else 'http://127.0.0.1'}:{server.server_address[1]}/"
        server.shutdown()


def login(user: Optional[str]) -> List[str]:
    """The words by which curl asks as a user."""
    return ["-u", f"{user}:{WORDS[user]}"] if user else []


@functools.lru_cache(None)
def certified() -> Dict[str, str]:
    """The files of a certificate of localhost's, which all sites of a process have."""
    name = ["-subj", "/CN=localhost", "-addext", "subjectAltName=DNS:localhost"]
    key = ["-newkey", "ec", "-pkeyopt", "ec_paramgen_curve:prime256v1", "-nodes"]
    with tempfile.TemporaryDirectory() as folder:
        openssl("req", "-x509", *name, *key, "-keyout", f"{folder}/farm.key", "-out", f"{folder}/farm.pem")
        return {it: read(f"{folder}/{it}") for it in ("farm.key", "farm.pem")}


@functools.lru_cache(None)
def hashed(word: str) -> str:
    """A password as nginx's file has it."""
    return openssl("passwd", "-apr1", word).strip()


def openssl(*words: str) -> str:
    return subprocess.run(["openssl", *words], capture_output=True, text=True, check=True).stdout


def write(folder: str, name: str, text: str, mode: int) -> str:
    """The path of a new file of this text and mode."""
    file = os.path.join(folder, name)
    with open(file, "w", encoding="utf-8") as opened:
        opened.write(text)
    os.chmod(file, mode)
    return file


# ---- fixtures, which a file of tests or a conftest imports

MakeSite = Callable[..., Site]


@pytest.fixture(name="make_site")
def make_site_fixture(folder: str) -> MakeSite:
    """Makes the example's site before a farm, in the test's folder."""

    def make(farm: Farm, *changes: Any) -> Site:
        return Site(farm, folder, changes)

    return make


@pytest.fixture(name="farm")
def farm_fixture(make_farm: Callable[..., Farm]) -> Farm:
    """A farm of one board, for the site."""
    return make_farm([("b1", "bbb", ["rack=3"])])


@pytest.fixture(name="site")
def site_fixture(farm: Farm, make_site: MakeSite) -> Site:
    return make_site(farm)
