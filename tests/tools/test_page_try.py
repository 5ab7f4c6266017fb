"""farm-page, the status page of a desk on one's own machine: what a newcomer sees, and what it refuses."""
from __future__ import annotations

import contextlib
import http.client
import json
import os
import re
import socket
from typing import Any, Callable, Dict, Optional, Tuple

import pytest

from browser import Browser
from nginx_site import write
from pages import BOARDS, click, seen, until
from served import TOOLS, Farm, Tool, calls_in_one, read, wait_until

pytestmark = pytest.mark.xdist_group("page1")


@pytest.fixture(name="farm")
def farm_fixture(make_farm: Callable[..., Farm]) -> Farm:
    return make_farm(BOARDS)


@pytest.fixture(name="place")
def place_fixture(folder: str) -> str:
    """A dispatcher's folder, with a log, and with a link to a file of somebody else."""
    for name in ("jobs/logs", "farm-watch/shown", "farm-access/shown"):
        os.makedirs(f"{folder}/{name}")
    files = {"history.json": '{"at":1,"jobs":[],"boards":[]}', "logs/1": "one\ntwo\n", "healths.json": "{}"}
    for name, text in files.items():
        write(f"{folder}/jobs", name, text, 0o644)
    os.symlink("/etc/passwd", f"{folder}/jobs/logs/2")
    return f"{folder}/jobs"


@pytest.fixture(name="port")
def port_fixture(farm: Farm, place: str, start_tool: Callable[..., Tool]) -> int:
    """The port at which the page of a farm is served for ann."""
    words = ["farm-page", "--server", farm.server, "--user", "ann", "--port", "0", "--folder", place]
    tool = start_tool(*words)
    line = wait_until("it listens", lambda: re.match(r"http://127\.0\.0\.1:(\d+)/ as ann\n", tool.output()))
    return int(line.group(1))


def ask(
    port: int, method: str, path: str, body: Optional[str] = None, **fields: str
) -> Tuple[int, Dict[str, str], bytes]:
    """The status, the fields and the body of an answer."""
    with contextlib.closing(http.client.HTTPConnection("127.0.0.1", port, timeout=60)) as line:
        line.request(method, path, body=body, headers={name.replace("_", "-"): it for name, it in fields.items()})
        answer = line.getresponse()
        return answer.status, {name.lower(): it for name, it in answer.getheaders()}, answer.read()


def test_a_newcomer_sees_the_boards_and_reserves_one(farm: Farm, port: int, browser: Browser) -> None:
    visit = browser.visit()
    opened = visit.open(f"http://127.0.0.1:{port}/")
    shown = seen(opened)
    assert (shown["who"], len(shown["boards"]), shown["quiet"]) == ("ann", 3, "")
    click(opened, "boards", "b2", "Reserve")
    until(opened, "it is reserved", lambda it: it["reservations"])
    assert farm.reservation(1)["owner"] == "ann"
    visit.end()


def test_it_shows_what_a_dispatcher_keeps_for_all_and_nothing_else(port: int) -> None:
    assert ask(port, "GET", "/history.json")[::2] == (200, b'{"at":1,"jobs":[],"boards":[]}')
    status, fields, body = ask(port, "GET", "/logs/1", range="bytes=-4")
    assert (status, fields["content-range"], body) == (206, "bytes 4-7/8", b"two\n")
    assert fields["content-type"] == "text/plain; charset=utf-8"
    assert ask(port, "GET", "/logs/1", range="bytes=9-")[0] == 416
    assert ask(port, "GET", "/logs/1", range="bytes=1-2")[::2] == (206, b"ne")
    for path in ("/logs/2", "/logs/3", "/healths.json", "/logs/../healths.json", "/page/..%2fdesk", "/page/farm.html"):
        assert ask(port, "GET", path)[0] == 404, path
    fields = ask(port, "GET", "/page/farm.js")[1]
    assert fields["content-type"] == "text/javascript; charset=utf-8"
    assert "script-src 'self'" in fields["content-security-policy"]


# What other tools keep, by its path: where that is beside the dispatcher's folder, and its kind.
KEPT = {
    "/holds.jsonl": ("farm-watch/shown/holds.jsonl", "text/plain; charset=utf-8"),
    "/access.json": ("farm-access/shown/access.json", "application/json; charset=utf-8"),
    "/workers.json": ("jobs/workers.json", "application/json; charset=utf-8"),
}


@pytest.mark.parametrize("path", KEPT)
def test_it_serves_what_the_site_does_where_it_is_there(path: str, place: str, port: int) -> None:
    assert ask(port, "GET", path)[::2] == (404, b'{"code": 404, "text": "no such route"}')
    name, kind = KEPT[path]
    write(os.path.dirname(place), name, '{"kept":1}\n', 0o644)
    status, fields, body = ask(port, "GET", path)
    assert (status, body, fields["content-type"]) == (200, b'{"kept":1}\n', kind)
    assert fields["cache-control"] == "no-cache"
    os.rename(f"{place}/../{name}", f"{place}/elsewhere")
    os.symlink(f"{place}/elsewhere", f"{place}/../{name}")
    assert ask(port, "GET", path)[0] == 404, "by a link"


def test_what_hasn_t_changed_isn_t_sent_again(place: str, port: int) -> None:
    """As the site answers: 304, and all of it once it has changed."""
    status, fields, _ = ask(port, "GET", "/history.json")
    assert (status, fields["cache-control"]) == (200, "no-cache")
    same = ask(port, "GET", "/history.json", if_none_match=fields["etag"])
    assert (same[0], same[1]["etag"], same[2]) == (304, fields["etag"], b"")
    assert ask(port, "GET", "/page/farm.js", if_none_match=ask(port, "GET", "/page/farm.js")[1]["etag"])[0] == 304
    write(place, "history.json", '{"at":2,"jobs":[],"boards":[]}', 0o644)
    assert ask(port, "GET", "/history.json", if_none_match=fields["etag"])[::2] == (200, b'{"at":2,"jobs":[],"boards":[]}')


RESERVES = json.dumps({"tags": []})
FOREIGN: Any = [
    {"origin": "http://lab.example"}, {"sec_fetch_site": "cross-site"}, {"sec_fetch_site": "same-site"},
    {"host": "lab.example"}, {"origin": "null"},
]


@pytest.mark.parametrize("fields", FOREIGN)
def test_it_takes_no_command_of_a_foreign_page(farm: Farm, port: int, fields: Dict[str, str]) -> None:
    assert ask(port, "POST", "/reservations", RESERVES, **fields)[0] == 403
    assert farm.look("/reservations")["reservations"] == []


def test_it_asks_in_its_user_s_name_alone(farm: Farm, port: int) -> None:
    assert ask(port, "POST", "/reservations", RESERVES, x_user="admin", origin=f"http://127.0.0.1:{port}")[0] == 200
    assert farm.reservation(1)["owner"] == "ann"
    assert ask(port, "GET", "/queue", host="lab.example")[0] == 403, "led here by a foreign name"


def test_a_desk_that_is_down_is_told(farm: Farm, port: int) -> None:
    farm.kill()
    assert ask(port, "GET", "/queue")[::2] == (502, b'{"code": 502, "text": "Bad Gateway"}')
    assert read(os.path.join(TOOLS, "page", "farm.html")).encode() == ask(port, "GET", "/")[2]


def test_what_cant_be_served_is_told() -> None:
    """Bad words, a desk of another machine, and a port that somebody has."""
    with socket.create_server(("127.0.0.1", 0)) as taken:
        port = str(taken.getsockname()[1])
        rows = [
            (["--port", "70000"], 2, "70000 is no number from 0 to 65,535"), (["--port", "http"], 2, "http"),
            (["--server", "https://farm.lab.example"], 4, "https://farm.lab.example isn't a desk of this machine"),
            (["--server", "https://127.0.0.1"], 4, "https://127.0.0.1 isn't a desk of this machine"),
            (["--server", "http://127.0.0.1:1", "--user", "ann", "--port", port], 4, "Address already in use"),
        ]
        ran = calls_in_one("farm-page", [({}, words) for words, _, _ in rows])
    for (words, status, why), (ended, said, errors) in zip(rows, ran):
        assert (ended, said) == (status, "") and why in errors, (words, errors)
