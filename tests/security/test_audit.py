"""Who did what: the line that the site writes of each accepted command, and what `desk audit` shows of a board."""
from __future__ import annotations

import json
import os
import signal
import subprocess
import time
from typing import Any, Callable, Dict, List

import pytest

from nginx_site import Site, site_fixture, write  # noqa: F401
from served import TOP, Farm, read, wait_until
from wants import wants

RESERVE = '{"tags":["name=b1"]}'


@pytest.fixture
def farm(make_farm: Callable[..., Farm]) -> Farm:
    return make_farm([("b1", "bbb", []), ("b2", "bbb", [])])


def lines_of(site: Site, name: str = "audit.log") -> List[Dict[str, Any]]:
    return [json.loads(it) for it in site.logged(name).splitlines()]


def told(site: Site, *words: str, user: str = "ann") -> int:
    return int(site.said(*words, user=user)[0])


def test_each_accepted_command_has_a_line_and_nothing_else_has(site: Site) -> None:
    began = time.time()
    assert told(site, "-H", "x-key: k1", "-d", RESERVE, "/reservations") == 200
    assert told(site, "-X", "POST", "/reservations/1/cancel") == 200
    assert told(site, "-d", "job_name = 'x'\ndevice_type = 'bbb'\n# secret", "/jobs") == 200
    for words in (
        ["/queue"], ["-d", RESERVE, "/reservations/9/cancel"], ["-d", "{}", "/boards/b1/health"],
        ["-H", "Origin: https://evil.example", "-d", RESERVE, "/reservations"],
    ):
        told(site, *words)
    told(site, "-X", "POST", "/pass", user="dispatcher")
    site.got("/reservations", "-u", "ann:guess", "-d", RESERVE, user="")
    rows = lines_of(site)
    assert [it["command"] for it in rows] == ["POST /reservations", "POST /reservations/1/cancel", "POST /jobs"]
    assert [(it["login"], it["from"], it["status"]) for it in rows] == [("ann", "127.0.0.1", 200)] * 3
    assert [(it["body"], it["key"]) for it in rows] == [(RESERVE, "k1"), ("", ""), ("", "")]
    assert "secret" not in site.logged()
    at = time.mktime(time.strptime(rows[0]["at"][:19], "%Y-%m-%dT%H:%M:%S"))
    assert began - 2 <= at <= time.time() + 2


def test_a_path_is_in_its_line_as_it_was_asked(farm: Farm, site: Site) -> None:
    """A desk takes a board that is named `..`, which nginx takes for another address."""
    farm.tell("admin", "/boards", {"name": "..", "type": "bbb", "tags": []})
    told(site, "--path-as-is", "-d", '{"health":"Good"}', "/boards/../health", user="admin")
    assert told(site, "-d", RESERVE, "/reservations?x=1") in (200, 404)
    commands = [it["command"] for it in lines_of(site)]
    assert all(it in ("POST /boards/../health", "POST /reservations?x=1") for it in commands)
    audit = site.desk("--json", "audit", "..", "--file", f"{site.folder}/audit.log")
    assert len(json.loads(audit[1])["audit"]) == commands.count("POST /boards/../health") == 1


def test_a_body_is_one_line_whatever_is_in_it(site: Site) -> None:
    bodies = ('{"tags":["name=b1"],\n"x":"\\u0022"}', '{"tags":["name=b1"]}\r\n\t', '{"tags":["name=b1"],"é":"\\u0000"}')
    taken = [it for it in bodies if told(site, "--data-binary", it, "/reservations") == 200]
    assert [it["body"].encode() for it in lines_of(site)] == [it.encode() for it in taken]


def test_the_longest_body_is_in_its_line(site: Site) -> None:
    """That of a board of sixteen tags, but for a job's text (docs/API.md)."""
    tags = [f"{number:032}={'v' * 64}" for number in range(16)]
    body = json.dumps({"name": "b" * 48, "type": "bbb", "tags": tags}, indent=4)
    assert told(site, "--data-binary", body, "/boards", user="admin") == 200
    assert [it["body"] for it in lines_of(site)] == [body]


FRAMINGS = [
    ("--http1.1",), ("--http1.1", "-H", "transfer-encoding: chunked"), ("--http2",), ("--http2", "-H", "content-length:"),
]


def test_the_audit_grows_by_no_long_body(farm: Farm, site: Site) -> None:
    """However a client says its length; a job's text, which isn't in the audit, may be long."""
    write(site.folder, "long", RESERVE + " " * 5000, 0o644)
    write(site.folder, "job", "job_name = 'x'\ndevice_type = 'bbb'\n#" + "x" * 60_000, 0o644)
    for count, framing in enumerate(FRAMINGS):
        for path in ("/reservations", "/jobs/1/cancel", "/reservations/../reservations", "/jobs/"):
            assert told(site, *framing, "--path-as-is", "--data-binary", f"@{site.folder}/long", path) == 413, (framing, path)
        assert farm.look("/reservations")["reservations"] == [] and len(lines_of(site)) == count, framing
        assert told(site, *framing, "--data-binary", f"@{site.folder}/job", "/jobs") == 200, framing
    assert len(lines_of(site)) == len(FRAMINGS) and len(site.logged()) < 2000


def test_who_doesnt_wait_for_an_answer_has_a_line(farm: Farm, site: Site) -> None:
    """A command that was done, though nobody took its answer."""
    line, fields = site.connection()
    os.kill(farm.process.pid, signal.SIGSTOP)
    try:
        line.request("POST", "/reservations", body=RESERVE, headers=fields)
        time.sleep(0.5)
        line.close()
        time.sleep(0.5)
    finally:
        os.kill(farm.process.pid, signal.SIGCONT)
    wait_until("it is done", lambda: len(farm.look("/reservations")["reservations"]) == 1)
    assert wait_until("its line", lambda: lines_of(site))[0]["body"] == RESERVE


def test_a_command_that_got_no_answer_has_a_line(farm: Farm, site: Site) -> None:
    """Nobody knows whether it was done."""
    os.kill(farm.process.pid, signal.SIGSTOP)
    line, fields = site.connection()
    line.request("POST", "/reservations", body=RESERVE, headers={**fields, "x-key": "k1"})
    time.sleep(1)
    farm.kill()
    answer = line.getresponse()
    assert (answer.status, json.loads(answer.read())) == (502, {"code": 502, "text": "Bad Gateway"})
    assert [(it["command"], it["body"], it["key"], it["status"]) for it in lines_of(site)] == [("POST /reservations", RESERVE, "k1", 502)]


def test_a_command_is_in_the_log_of_requests_too(site: Site) -> None:
    told(site, "-d", RESERVE, "/reservations")
    assert "POST /reservations" in site.asked_of_desk()


def test_desk_audit_shows_what_concerns_a_board(farm: Farm, site: Site) -> None:
    for words in (["-d", RESERVE, "/reservations"], ["-d", '{"tags":["name=b2"]}', "/reservations"]):
        assert told(site, *words) == 200
    farm.tell("dispatcher", "/pass")
    for number in (1, 2):
        assert told(site, "-X", "POST", f"/reservations/{number}/acquire") == 200
    write(site.folder, "audit.log", site.logged() + "no line\n[]\n" + "[" * 5000 + "\n", 0o644)
    shown = site.desk("--json", "audit", "b1", "--file", f"{site.folder}/audit.log")
    assert shown[0] == 0, shown
    assert [it["command"] for it in json.loads(shown[1])["audit"]] == ["POST /reservations", "POST /reservations/1/acquire"]
    lines = site.desk("audit", "b2", "--last", "1", "--file", f"{site.folder}/audit.log")[1].splitlines()
    assert len(lines) == 2 and lines[1].split()[1:5] == ["ann", "127.0.0.1", "POST", "/reservations/2/acquire"]
    os.mkfifo(f"{site.folder}/pipe")
    assert site.desk("audit", "b1", "--file", f"{site.folder}/pipe")[0] == 4


def test_logrotate_puts_it_aside_and_loses_no_line(site: Site) -> None:
    wants("logrotate")
    text = read(os.path.join(TOP, "packaging", "debian", "fizgruk-farm.logrotate"))
    text = text.replace("/var/log/farm/audit.log", f"{site.folder}/audit.log").replace("/run/nginx.pid", f"{site.folder}/nginx.pid")
    rules = write(site.folder, "rotate", text.replace("create 0640 root adm", "create 0640 root root"), 0o644)
    os.chmod(site.folder, 0o755)
    for number in range(1, 4):
        assert told(site, "-d", RESERVE, "/reservations") == 200
        subprocess.run(["logrotate", "--force", "--state", f"{site.folder}/state", rules], check=True, capture_output=True)
        wait_until("a new file", lambda: os.path.exists(f"{site.folder}/audit.log"))
        time.sleep(0.3)
        assert site.process.poll() is None and signal.SIGUSR1
    assert told(site, "-d", RESERVE, "/reservations") == 200
    site.settle()
    kept = [f"{site.folder}/{it}" for it in os.listdir(site.folder) if it.startswith("audit.log")]
    count = sum(len(subprocess.run(["zcat", "-f", it], check=True, capture_output=True).stdout.splitlines()) for it in kept)
    assert count == 4 and len(kept) == 4
    assert len(lines_of(site)) == 1
