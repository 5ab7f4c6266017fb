"""The site of examples/nginx.conf under attack: frames, scripts that aren't its own, foreign origins, passwords that are
guessed, heads and bodies that never end, commands without end, and what nginx itself answers."""
from __future__ import annotations

import json
import os
import re
import signal
import time
import urllib.parse
from typing import Callable, List

import pytest

from browser import Visit, browser_fixture, visit_fixture  # noqa: F401
from nginx_site import HEADS, WORDS, Site, farm_fixture, line_to, page_beside, raw, site_fixture  # noqa: F401
from served import TOOLS, Farm, read, wait_until

JSON = "application/json"
RESERVE = ("-d", '{"tags":[]}')


def reserved(farm: Farm) -> int:
    """How many reservations ever were."""
    return len(farm.look("/reservations")["reservations"])


def with_login(site: Site) -> str:
    return site.server.replace("https://", f"https://ann:{urllib.parse.quote(WORDS['ann'])}@")


# ---- the page in a browser

@pytest.mark.xdist_group("page2")
def test_no_page_of_another_port_has_the_page_in_its_frame(farm: Farm, site: Site, visit: Visit) -> None:
    """In a browser that keeps the login, with real clicks all over what is seen of it."""
    own = visit.open(with_login(site))
    wait_until("the page", lambda: "as of" in own.ask("document.getElementById('said').textContent"))
    with page_beside(site, f'<!DOCTYPE html><iframe src="{site.server}/" width="900" height="800"></iframe>') as place:
        foreign = visit.open(place, 900, 800)
        time.sleep(1)
        frames = foreign.do("Page.getFrameTree")["frameTree"]["childFrames"]
        assert [it["frame"]["url"].partition(":")[0] for it in frames] == ["chrome-error"]
        for y in range(20, 800, 30):
            for x in (40, 200, 400, 600, 800):
                foreign.click_at(x, y)
    assert reserved(farm) == 0


@pytest.mark.xdist_group("page2")
def test_a_script_that_came_into_the_page_doesnt_run(site: Site, visit: Visit) -> None:
    own = visit.open(with_login(site))
    wait_until("the page", lambda: "as of" in own.ask("document.getElementById('said').textContent"))
    add = "document.body.append(Object.assign(document.createElement({!r}), {}))"
    own.ask(f"void {add.format('script', '{textContent: `window.ran = 1`}')}")
    own.ask("void document.body.insertAdjacentHTML('beforeend', `<img src='data:,' onerror='window.ran = 2'>`)")
    own.ask(f"void {add.format('script', '{src: `data:text/javascript,window.ran=3`}')}")
    time.sleep(0.5)
    assert own.ask("window.ran === undefined")
    styled = "document.body.insertAdjacentHTML('beforeend', `<p id=x style='color: rgb(1, 2, 3)'>x</p>`)"
    own.ask(f"void {styled}")
    assert own.ask("getComputedStyle(document.getElementById('x')).color") != "rgb(1, 2, 3)"


@pytest.mark.xdist_group("page2")
def test_page_has_its_own_policy(farm: Farm, make_site: Callable[..., Site], visit: Visit) -> None:
    """The same where the site says none."""
    site = make_site(farm, ("add_header content-security-policy", "add_header x-no-policy"))
    test_a_script_that_came_into_the_page_doesnt_run(site, visit)


# ---- what every answer says

POLICY = "default-src 'none'; script-src 'self'; style-src 'self'; connect-src 'self'"


def test_each_answer_forbids_frames_and_foreign_scripts_and_says_no_version(kept_files: None, site: Site) -> None:
    del kept_files
    for path, user, status in (
        ("/", "ann", 200), ("/page/farm.js", "ann", 200), ("/queue", "ann", 200), ("/whoami", "ann", 200),
        ("/logs/1", "ann", 200), ("/history.json", "ann", 200),
        ("/workers.json", "ann", 200), ("/queue", "", 401), ("/no/such", "ann", 404),
        ("/logs/2", "ann", 404),
    ):
        got, fields, _ = site.got(path, user=user)
        assert got == status, path
        policy = fields["content-security-policy"]
        assert policy.startswith(POLICY) and "frame-ancestors 'none'" in policy and "unsafe" not in policy, path
        assert fields["x-frame-options"] == "deny", path
        assert fields["strict-transport-security"] == "max-age=31536000", path
        assert fields["x-content-type-options"] == "nosniff", path
        assert fields["server"] == "nginx", path


@pytest.fixture
def kept_files(site: Site) -> None:
    """A log and a history, as the dispatcher keeps them."""
    os.makedirs(f"{site.folder}/dispatch/logs")
    for name in ("logs/1", "history.json", "workers.json"):
        with open(f"{site.folder}/dispatch/{name}", "w", encoding="utf-8") as file:
            file.write("{}")


def test_what_a_job_left_is_saved_and_shown_as_no_page_of_the_site(site: Site) -> None:
    """Whatever is in it, and nothing else of its folder is served, nor what a link leads to."""
    folder = f"{site.folder}/dispatch/artifacts/7"
    os.makedirs(folder)
    page = "<!DOCTYPE html><script>alert(document.domain)</script>"
    for name in ("1", "index.json", "x.html", "01", "../secret"):
        with open(f"{folder}/{name}", "w", encoding="utf-8") as file:
            file.write(page)
    os.symlink("../secret", f"{folder}/2")
    os.symlink("7", f"{site.folder}/dispatch/artifacts/8")
    for name, kind in (("1", "application/octet-stream"), ("index.json", "application/json")):
        status, fields, body = site.got(f"/artifacts/7/{name}")
        assert (status, fields["content-type"], body.decode()) == (200, kind, page)
        assert fields["content-disposition"] == "attachment"
        assert fields["content-security-policy"] == "default-src 'none'; sandbox"
        assert (fields["x-content-type-options"], fields["x-frame-options"]) == ("nosniff", "deny")
        assert fields["cache-control"] == "no-cache"
        assert site.got(f"/artifacts/7/{name}", user="")[0] == 401
        assert site.got(f"/artifacts/7/{name}", "-X", "DELETE")[0] == 405
    for path in (
        "/artifacts/7/x.html", "/artifacts/7/01", "/artifacts/7/2", "/artifacts/8/1", "/artifacts/7/../secret",
        "/artifacts/7/%2e%2e/secret", "/artifacts/7/..%2fsecret", "/artifacts/7/", "/artifacts/", "/artifacts/secret",
        "/artifacts/7/1/", "/artifacts/7/1%00", "/artifacts/7/9", "/artifacts/07/1",
    ):
        status, _, body = site.got(path)
        assert status in (400, 403, 404) and b"alert" not in body, path
    assert "content-disposition" not in site.got("/logs/1")[1]


def test_the_pages_files_are_served_to_those_who_have_a_password(site: Site) -> None:
    for name, kind in (("farm.css", "text/css"), ("farm.js", "text/javascript")):
        status, fields, body = site.got(f"/page/{name}")
        assert (status, fields["content-type"], fields["cache-control"]) == (200, f"{kind}; charset=utf-8", "no-cache"), name
        assert body.decode() == read(f"{TOOLS}/page/{name}")
        assert site.got(f"/page/{name}", user="")[0] == 401, name


REFUSED = (
    ("POST /jobs HTTP/1.1", "transfer-encoding: gzip\r\n", 501), ("TRACE / HTTP/1.1", "", 405), ("GET / HTTP/9.9", "", 505),
    ("GET /\x01 HTTP/1.1", "", 400), ("GET / HTTP/1.1", "transfer-encoding: chunked\r\ncontent-length: 3\r\n", 400),
)


def test_what_nginx_refuses_itself_is_told_in_json(site: Site) -> None:
    for line, fields, status in REFUSED:
        said = raw(site, f"{line}\r\nhost: localhost\r\nconnection: close\r\n{fields}\r\n".encode("latin-1"))
        head, _, body = said.partition(b"\r\n\r\n")
        assert head.split()[1] == str(status).encode() and json.loads(body)["code"] == status, said
        assert b"nginx/" not in head and b"<html" not in body


def test_a_lab_that_shuts_its_logs_serves_none(farm: Farm, make_site: Callable[..., Site]) -> None:
    """As docs/SECURITY.md says it."""
    site = make_site(farm, ("numbers|logs/[1-9][0-9]*)$ {", "numbers)$ {"))
    os.makedirs(f"{site.folder}/dispatch/logs")
    for name in ("logs/1", "history.json"):
        with open(f"{site.folder}/dispatch/{name}", "w", encoding="utf-8") as file:
            file.write("{}")
    assert site.got("/logs/1")[0] == 404 and site.got("/history.json")[0] == 200


# ---- whose page a command is from

def origin(site: Site, text: str) -> List[str]:
    text = text.replace("PORT", str(site.port))
    return [word for it in text.split("|") for word in ("-H", it)]


def test_what_is_refused_by_the_site_alone_fills_no_log(site: Site) -> None:
    """Who has no password has a short line where it is a guess, and none else."""
    long = "x" * 1200
    refused = (
        ("-X", "POST", "-H", "origin: https://else.example", f"/reservations?{long}"), ("-H", f"referer: {long}", "/boards"),
        ("-u", f"ann:{long}", "/boards"), ("-X", "BREW", f"/{long}"), ("-X", "POST", "-H", "transfer-encoding: foo", f"/{long}"),
        (f"/{'x' * 4000}",), ("-H", f"x-long: {'x' * 4000}", "/boards"),
    )
    logs = ("asked.log", "audit.log", "guesses.log", "error.log")
    sizes = [len(site.logged(name)) for name in logs]
    assert [site.got(words[-1], *words[:-1], user="")[0] for words in refused] == [403, 401, 401, 401, 501, 414, 400]
    assert raw(site, f"GET /{long} HTTP/9.9\r\nhost: localhost\r\n\r\n".encode()).startswith(b"HTTP/1.1 505 ")
    assert site.got("/labs.json")[0] == 404
    grown = [len(site.logged(name)) - it for name, it in zip(logs, sizes)]
    # (of `settle`, of who has a password, and of the guess there are lines)
    assert grown[0] < 400 and grown[1] == 0 and 0 < grown[2] < 100 and grown[3] < 250


def test_what_is_asked_with_a_password_has_a_short_line(farm: Farm, make_site: Callable[..., Site]) -> None:
    site = make_site(farm, ("asked.log asked", "asked.log farm_asked"))
    before = len(site.logged("asked.log"))
    long = '%22"' * 400
    assert site.got(f"/queue?{long}", "-H", f"referer: {long}", "-A", long)[0] == 200
    assert len(site.logged("asked.log")) - before < 900


def test_a_foreign_name_that_leads_to_the_site_is_a_foreign_origin(farm: Farm, site: Site) -> None:
    """As where a page's name is led to the site's address: host and origin are the same then."""
    for fields in (
        "Host: evil.example|Origin: https://evil.example", "Host: evil.example:PORT|Origin: https://evil.example:PORT",
        "Host: localhost|Origin: https://evil.example", "Host: 127.0.0.1:PORT|Origin: https://127.0.0.1:PORT",
    ):
        assert site.said(*origin(site, fields), *RESERVE, "/reservations")[0] == 403, fields
    assert reserved(farm) == 0
    assert site.said(*origin(site, "Origin: https://localhost:PORT"), *RESERVE, "/reservations")[0] == 200


def test_at_the_usual_port_the_sites_origin_has_none(farm: Farm, make_site: Callable[..., Site]) -> None:
    site = make_site(farm, ("https://$server_name:$server_port", "https://$server_name:443"))
    assert site.said(*origin(site, "Origin: https://localhost"), *RESERVE, "/reservations")[0] == 200
    assert site.said(*origin(site, "Origin: https://localhost.evil"), *RESERVE, "/reservations")[0] == 403
    assert site.said(*origin(site, "Origin: http://localhost"), *RESERVE, "/reservations")[0] == 403


# ---- who takes all

def test_a_wrong_password_waits_and_a_right_one_doesnt(site: Site) -> None:
    began = time.monotonic()
    for _ in range(3):
        assert site.said("/queue", user="")[0] == 401
        assert site.got("/queue", "-u", "ann:guess", user="")[0] == 401
    assert time.monotonic() - began > 5, "six guesses"


def test_one_address_has_so_many_connections(farm: Farm, make_site: Callable[..., Site]) -> None:
    """With fewer of them, and guesses that wait long, so that these are all there at once."""
    site = make_site(farm, ("farm_connections 200", "farm_connections 4"), ("auth_delay 1s", "auth_delay 5s"))

    def is_refused() -> bool:
        """Whether a fifth is, while four are there (which on a slow machine may have had their answers)."""
        lines = [line_to(site) for _ in range(4)]
        for line in lines:
            line.sendall(b"GET /queue HTTP/1.1\r\nhost: localhost\r\n\r\n")
        time.sleep(0.5)
        status = site.said("/queue")[0]
        for line in lines:
            line.close()
        return bool(status == 429)

    wait_until("the fifth is refused", is_refused)
    assert "limiting" not in read(f"{site.folder}/error.log")


def test_one_user_has_so_many_views_under_way(farm: Farm, site: Site) -> None:
    """The desk stands still meanwhile; then all have their answers, and another's view, which waited with them."""
    os.kill(farm.process.pid, signal.SIGSTOP)
    views = [site.connection() for _ in range(20)] + [site.connection("admin")]
    try:
        for line, fields in views:
            line.request("GET", "/queue", headers=fields)
        assert site.said("-m", "20", "/queue")[:2] == (429, JSON)
    finally:
        os.kill(farm.process.pid, signal.SIGCONT)
    assert [line.getresponse().status for line, _ in views] == [200] * 21
    assert site.said("/queue")[0] == 200


def test_one_users_commands_without_end_are_refused_and_anothers_and_looks_are_not(
    farm: Farm, make_site: Callable[..., Site]
) -> None:
    """A site that takes fewer, so that few commands are many."""
    site = make_site(farm, ("rate=2r/s", "rate=1r/m"), ("burst=150 delay=100", "burst=6 delay=6"))
    statuses = [site.said(*RESERVE, "/reservations")[0] for _ in range(12)]
    assert statuses == [200] * 7 + [429] * 5
    assert site.said(*RESERVE, "/reservations")[2] == {"code": 429, "text": "Too Many Requests"}
    assert reserved(farm) == 7
    assert [site.said("/queue")[0] for _ in range(10)] == [200] * 10, "her looks"
    told = [site.said("-X", "POST", "/pass", user="dispatcher")[0] for _ in range(20)]
    assert told == [200] * 20, "the dispatcher's commands, of the same address"


def test_a_wrong_password_uses_up_nothing_of_whose_name_it_is(farm: Farm, make_site: Callable[..., Site]) -> None:
    site = make_site(farm, ("rate=2r/s", "rate=1r/m"), ("burst=150 delay=100", "burst=2 delay=2"), ("auth_delay 1s", "auth_delay 0"))
    for _ in range(10):
        assert site.got("/reservations", "-u", "ann:guess", *RESERVE, user="")[0] == 401
    assert site.said(*RESERVE, "/reservations")[0] == 200


# ---- heads and bodies that never end

@pytest.fixture(name="hasty")
def hasty_fixture(farm: Farm, make_site: Callable[..., Site]) -> Site:
    """A site with the example's own time for a head."""
    return make_site(farm, (HEADS[1], HEADS[0]))


@pytest.mark.slow(12)
def test_a_head_that_doesnt_end_is_closed_within_seconds(hasty: Site) -> None:
    began = time.monotonic()
    with line_to(hasty) as silent:
        silent.settimeout(50)
        assert not raw(hasty, b"GET /queue HTTP/1.1\r\nhost: local", 50).endswith(b"(open)")
        assert silent.recv(1) == b"" and time.monotonic() - began < 40


@pytest.mark.slow(12)
def test_a_body_that_doesnt_come_is_closed_within_seconds(site: Site) -> None:
    _, fields = site.connection()
    head = f"POST /jobs HTTP/1.1\r\nhost: localhost\r\nauthorization: {fields['authorization']}\r\ncontent-length: 9\r\n\r\n"
    said = raw(site, head.encode() + b"x", 50)
    assert not said.endswith(b"(open)")
    assert re.match(rb"(HTTP/1.1 408 |$)", said), said


@pytest.mark.slow(12)
def test_many_half_heads_shut_nobody_out_for_long(hasty: Site) -> None:
    """All the places that this nginx has: each head had a minute before."""
    lines = []
    for _ in range(600):
        try:
            line = line_to(hasty)
            line.sendall(b"GET /queue HTTP/1.1\r\nhost: local")
        except OSError:
            break  # nobody has a place any more
        lines.append(line)
    assert len(lines) > 400
    try:
        wait_until("an answer", lambda: hasty.curl("-m", "10", "-o", "/dev/null", "/") == 0, 45)
    finally:
        for line in lines:
            line.close()
