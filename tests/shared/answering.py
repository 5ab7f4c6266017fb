"""A server in the place of a desk, or of its site, which answers in JSON what a test says, and one between it and a tool."""
from __future__ import annotations

import http.client
import http.server
import json
import threading
from typing import Any, Callable, List, Optional, Tuple, cast

from served import Farm

Says = Callable[[str], Tuple[int, object]]  # the status and the object that a path is answered


class Handler(http.server.BaseHTTPRequestHandler):
    protocol_version = "HTTP/1.1"

    def do_GET(self) -> None:
        self.rfile.read(int(self.headers.get("content-length", 0)))
        server = cast(Answering, self.server)
        server.asked.append(self.path)
        status, said = server.says(self.path)
        body = json.dumps(said).encode()
        self.send_response(status)
        self.send_header("content-length", str(len(body)))
        self.end_headers()
        self.wfile.write(body)

    do_POST = do_GET

    def log_message(self, *_: Any) -> None:
        pass


class Answering(http.server.ThreadingHTTPServer):
    """Such a server, within its `with`; it notes what it is asked."""

    daemon_threads = True

    def __init__(self, says: Says):
        super().__init__(("127.0.0.1", 0), Handler)
        self.says = says
        self.asked: List[str] = []
        self.url = f"http://127.0.0.1:{self.server_port}"
        threading.Thread(target=self.serve_forever, daemon=True).start()

    def __exit__(self, *_: object) -> None:
        self.shutdown()
        self.server_close()


Hook = Callable[[str, str, Optional[str]], Optional[Tuple[int, bytes]]]


class Proxy:
    """Stands between a tool and the desk; the hook is given method, path and key, and may wait, do something first, or give
    an answer of its own."""

    def __init__(self, farm: Farm, hook: Hook):
        class Handler(http.server.BaseHTTPRequestHandler):
            def log_message(self, format: str, *words: Any) -> None:
                pass

            def do(self) -> None:
                body = self.rfile.read(int(self.headers.get("content-length") or 0))
                said = hook(self.command, self.path, self.headers.get("x-key"))
                try:
                    if said is None:
                        line = http.client.HTTPConnection("127.0.0.1", farm.port, timeout=60)
                        fields = {it: self.headers[it] for it in ("x-user", "x-key") if it in self.headers}
                        line.request(self.command, self.path, body or None, fields)
                        answer = line.getresponse()
                        said = answer.status, answer.read()
                    self.send_response(said[0])
                    self.send_header("content-length", str(len(said[1])))
                    self.end_headers()
                    self.wfile.write(said[1])
                except (OSError, http.client.HTTPException):
                    pass  # the desk or the tool was killed

            do_GET = do_POST = do

        self.served = http.server.ThreadingHTTPServer(("127.0.0.1", 0), Handler)
        threading.Thread(target=self.served.serve_forever, daemon=True).start()
        self.server = f"http://127.0.0.1:{self.served.server_port}"
