"""Commands on their way through farm-door: priorities, what was answered, repetitions, kills, and hostile framings."""
from __future__ import annotations

import contextlib
import json
import os
import signal
import socket
import sqlite3
import subprocess
import threading
import time
from typing import Any, Callable, Dict, List, Tuple

import pytest

from door_site import JOB, RESERVE, Door, limit
from farm_door.rules import WISHES
from served import wait_until

CALM = """[limits]
highest_priority = 50
[limits.bob]
highest_priority = 100
[teams]
slow = ["dispatcher-2"]
[limits.slow]
highest_priority = 0
"""
JOB_OF = "job_name = 'x'\ndevice_type = 'bbb'\n"


def rows_of(door: Door) -> List[Dict[str, Any]]:
    return [json.loads(it) for it in door.site.logged().splitlines()]


def reserve(door: Door, body: str, *words: str, user: str = "ann") -> Tuple[int, Any]:
    return door.told(*words, "--data-binary", body, "/reservations", user=user)


# ---- the highest priority

def priority_in(body: bytes, kind: str) -> int:
    """The priority that farm-door reads in a body."""
    return WISHES[kind](body).priority


def test_a_user_has_a_highest_priority(make_door: Callable[..., Door]) -> None:
    door = make_door(CALM)
    refused = (403, {"code": 403, "text": "the limit of ann is priority 50"})
    for priority in ('"low"', '"medium"', "0", "50"):
        assert reserve(door, f'{{"tags":[],"priority":{priority}}}')[0] == 200, priority
        assert door.told("--data-binary", f"{JOB_OF}priority = {priority}", "/jobs")[0] == 200, priority
    for priority in ('"high"', "51", "100"):
        assert reserve(door, f'{{"tags":[],"priority":{priority}}}') == refused, priority
        assert door.told("--data-binary", f"{JOB_OF}priority = {priority}", "/jobs") == refused, priority
    assert reserve(door, '{"tags":[],"priority":"high"}', user="bob")[0] == 200
    of_team = "the limit of team slow is priority 0"
    assert reserve(door, '{"tags":[]}', user="dispatcher-2") == (403, {"code": 403, "text": of_team})
    priorities = sorted(it["priority"] for it in door.farm.look("/queue")["queue"])
    assert priorities == [0, 0, 0, 0, 50, 50, 50, 50, 100]


HIDDEN_JOBS = [
    "'priority' = 100", '"priority" = "high"', '"\\u0070riority" = 100', "priority = 0x64", "priority = 1_0_0", "priority = +100",
    "priority = 0b1100100", 'priority = """high"""', 'priority = "\\x68igh"', "priority = 50\npriority = 100", "priority = 1e2",
    "priority = [100]",
]
HIDDEN_RESERVATIONS = [
    '{"priority":"high"}', '{"\\u0070riority":100}', '{"priority":50,"priority":100}', '{"priority":100,"priority":50}',
    '{"priority":"\\u0068igh"}', '{"priority":1e2}', '{"priority":100.0}', '{"priority":null}', '{"priority":true}',
    '\ufeff{"priority":100}', '[{"priority":100}]', '{"priority":100', "", '{"priority":' + "1" * 5000 + "}", "[" * 60000,
]


@pytest.mark.parametrize("line", HIDDEN_JOBS)
def test_no_writing_of_a_jobs_priority_hides_it(line: str) -> None:
    for text in (f"{JOB_OF}{line}\n", f"{line}\r\n{JOB_OF}"):
        assert priority_in(text.encode(), "job") == 100, text


@pytest.mark.parametrize("body", HIDDEN_RESERVATIONS, ids=range(len(HIDDEN_RESERVATIONS)))
def test_no_writing_of_a_reservations_priority_hides_it(body: str) -> None:
    assert priority_in(body.encode(), "reservation") == 100


@pytest.mark.parametrize("body", [
    b"\xff\xfe", b"job_name = '\xff'", b"", b"x", b"[" * 60000, b"a." * 30000 + b"a = 1", b"a = " + b"[" * 60000,
], ids=range(7))
def test_what_cant_be_read_counts_as_the_highest(body: bytes) -> None:
    assert priority_in(body, "job") == priority_in(body, "reservation") == 100


def test_what_the_desk_reads_and_the_door_doesnt_counts_as_four_boards(make_door: Callable[..., Door]) -> None:
    """The most that a job can want, or a job of four boards would count as one."""
    door = make_door("[limits]\nopen_jobs = 3\n")
    for line in ("x = 23:59:60", "x = 0000-01-01", "x = 1979-05-27T00:00:60Z"):
        assert door.told("--data-binary", f"{JOB_OF}{line}\n", "/jobs") == limit("the limit of ann is 3 open jobs"), line
    assert door.told("--data-binary", f"{JOB_OF}x = 23:59:59\n", "/jobs")[0] == 200


def test_a_key_has_as_many_parts_as_the_desk_takes(make_door: Callable[..., Door]) -> None:
    door = make_door(CALM)
    for parts, status, of_desk in ((80, 200, 200), (81, 403, 400)):
        body = f"{JOB_OF}{'.'.join(['a'] * parts)} = 1"
        assert door.told("--data-binary", body, "/jobs")[0] == status
        assert door.told("--data-binary", body, "/jobs", user="bob")[0] == of_desk


def test_what_a_priority_cant_be_read_in_is_told(make_door: Callable[..., Door]) -> None:
    door = make_door(CALM)
    for body, fault in (("job_name = 'x'\npriority = 'higher'", "priority 'higher' is none of"), ("job_name = ", "no TOML: ")):
        status, said = door.told("--data-binary", body, "/jobs")
        assert status == 403 and said["text"].startswith(f"the limit of ann is priority 50, and none can be read: {fault}")
    assert door.told("--data-binary", "job_name = ", "/jobs", user="bob")[1]["code"] == 70, "without a limit the desk says it"


# ---- what was answered

def test_the_audit_has_what_was_answered(door: Door) -> None:
    token = door.told("-d", '{"name":"ci"}', "/tokens")[1]["token"]
    assert reserve(door, '{"tags":[]}')[1] == {"number": 1}
    assert door.told(*JOB, "/jobs")[1] == {"number": 2}
    assert door.by_token(token, *RESERVE, "/reservations")[1] == {"number": 3}
    assert door.told("-d", '{"health":"Bad"}', "/boards/b1/health", user="ann.admin")[0] == 200
    assert door.told("-X", "POST", "/tokens/1/end")[0] == 200
    assert door.told("-X", "POST", "/reservations/9/cancel")[0] == 404
    assert [(it["login"], it["command"], it["number"]) for it in rows_of(door)] == [
        ("ann", "POST /tokens", "1"), ("ann", "POST /reservations", "1"), ("ann", "POST /jobs", "2"),
        ("ann (token 1 ci)", "POST /reservations", "3"), ("ann.admin", "POST /boards/b1/health", "0"), ("ann", "POST /tokens/1/end", "1"),
    ]
    assert token not in door.site.logged()
    fields = door.site.got("/reservations", *RESERVE)[1]
    assert not [it for it in fields if it.startswith("x-farm")]


def test_a_jobs_submission_is_shown_with_its_board(door: Door) -> None:
    assert door.told(*JOB, "/jobs")[1] == {"number": 1}
    door.farm.tell("dispatcher", "/pass")
    door.site.settle()
    shown = door.site.desk("--json", "audit", "b1", "--file", f"{door.folder}/audit.log")
    assert [it["command"] for it in json.loads(shown[1])["audit"]] == ["POST /jobs"], shown
    assert json.loads(door.site.desk("--json", "audit", "b2", "--file", f"{door.folder}/audit.log")[1]) == {"audit": []}


def test_who_doesnt_wait_for_an_answer_is_in_the_audit_too(door: Door) -> None:
    line, fields = door.site.connection()
    line.connect()
    os.kill(door.farm.process.pid, signal.SIGSTOP)
    try:
        line.request("POST", "/reservations", body='{"tags":["name=b2"]}', headers=fields)
        time.sleep(1)
        line.close()
        time.sleep(0.5)
    finally:
        os.kill(door.farm.process.pid, signal.SIGCONT)
    wait_until("it is done", lambda: door.owners() == ["ann"])
    row = wait_until("its line", lambda: rows_of(door))[0]
    assert (row["command"], row["body"], row["number"]) == ("POST /reservations", '{"tags":["name=b2"]}', "1")


def direct(door: Door, *words: str) -> Tuple[int, Any, bytes]:
    """The status, the methods and the body of what the desk itself answers to curl's words."""
    head = ["curl", "-s", "-i", "-H", "x-user: ann", *words[:-1], door.farm.server + words[-1]]
    told = subprocess.run(head, capture_output=True, check=True).stdout
    fields, _, body = told.partition(b"\r\n\r\n")
    lines = fields.decode().lower().split("\r\n")
    return int(lines[0].split()[1]), dict(it.split(": ", 1) for it in lines[1:]).get("allow"), body


def test_what_the_desk_answers_comes_as_it_is(door: Door) -> None:
    for words in (
        ["-X", "DELETE", "/queue"], ["-X", "PUT", "-d", "x", "/jobs"], ["-d", "{}", "/no/such"], ["-d", "[", "/reservations"],
        ["-H", "x-key: a", "-H", "x-key: b", "-d", "{}", "/reservations"], ["-H", "x-key: a b", "-d", "{}", "/reservations"],
        ["--data-binary", "x", "/jobs"], ["-X", "POST", "/jobs/7/cancel"], ["-d", '{"tags":[]}', "/reservations/"],
    ):
        told = door.site.got(words[-1], *words[:-1])
        desk = direct(door, *words)
        assert told[0] >= 400 and (told[0], told[1].get("allow"), told[2]) == desk, words


# ---- repetitions, and kills

def test_a_repetition_is_one_command_also_at_the_limit(door: Door) -> None:
    told = [reserve(door, '{"tags":[]}', "-H", f"x-key: k{it}") for it in range(3)]
    again = [reserve(door, '{"tags":[]}', "-H", f"x-key: k{it}") for it in range(3)]
    assert [it[0] for it in told] == [200] * 3 and again == told
    assert reserve(door, '{"tags":[]}', "-H", "x-key: k3") == limit("the limit of ann is 3 open reservations")
    door.kill()
    door.start()
    assert [reserve(door, '{"tags":[]}', "-H", f"x-key: k{it}") for it in range(3)] == told, "a kill loses no key"
    assert reserve(door, '{"tags":[]}', "-H", "x-key: k3", user="bob")[0] == 200, "another's key"
    assert sorted(door.owners()) == ["ann"] * 3 + ["bob"]


def test_what_the_desk_refuses_counts_for_nothing(door: Door) -> None:
    bad = ("--data-binary", "job_name = 'x'\ndevice_type = 'none'")
    for key in ("same", *(f"k{it}" for it in range(7))):
        assert door.told("-H", f"x-key: {key}", *bad, "/jobs")[1]["code"] == 10
    assert [door.told("-H", "x-key: same", *JOB, "/jobs")[0]] + [door.told(*JOB, "/jobs")[0] for _ in range(4)] == [200] * 4 + [429]


def test_a_desk_that_is_away_counts_for_nothing(door: Door) -> None:
    door.farm.kill()
    for _ in range(4):
        assert reserve(door, '{"tags":[]}') == (502, {"code": 502, "text": "Bad Gateway"})
    door.farm.start()
    assert [reserve(door, '{"tags":[]}')[0] for _ in range(4)] == [200, 200, 200, 429]


def test_killed_between_a_command_and_its_answer_nothing_is_lost(door: Door) -> None:
    """The desk does the command, and nobody was told: the repetition finds it."""
    said: List[Tuple[int, Any]] = []
    os.kill(door.farm.process.pid, signal.SIGSTOP)
    try:
        asks = threading.Thread(target=lambda: said.append(reserve(door, '{"tags":[]}', "-H", "x-key: k1")))
        asks.start()
        wait_until("it is noted", lambda: _passed(door) == 1)
        time.sleep(1)
        door.kill()
        asks.join()
    finally:
        os.kill(door.farm.process.pid, signal.SIGCONT)
    assert said[0][0] in (502, 503, 504)
    door.start()
    assert reserve(door, '{"tags":[]}', "-H", "x-key: k1")[0] == 200
    assert door.owners() == ["ann"]
    # (one more where the door was so late that it was killed before it had asked)
    assert [reserve(door, '{"tags":[]}')[0] for _ in range(4)] in ([200, 200, 429, 429], [200, 200, 200, 429])


def _passed(door: Door) -> int:
    with contextlib.closing(sqlite3.connect(f"{door.folder}/kept.db")) as conn:
        return int(conn.execute("select count(*) from passed").fetchone()[0])


def test_many_bodies_at_once_dont_mix(make_door: Callable[..., Door]) -> None:
    """Each job has the text that was sent for its number."""
    door = make_door("")
    found: List[bool] = []

    def submit(user: str, first: int) -> None:
        line, fields = door.site.connection(user)
        for number in range(first, first + 20):
            text = f"{JOB_OF}# {number} " + chr(97 + number % 26) * (number * 251 % 40000)
            line.request("POST", "/jobs", body=text.encode(), headers=fields)
            told = json.loads(line.getresponse().read())
            found.append(door.farm.look(f"/jobs/{told['number']}")["text"] == text)
        line.close()

    users = ("ann", "bob", "dispatcher-2", "dispatcher-3")
    threads = [threading.Thread(target=submit, args=(it, 20 * at)) for at, it in enumerate(users)]
    for it in threads:
        it.start()
    for it in threads:
        it.join()
    assert found == [True] * 80


def test_a_users_tokens_command_no_more_often_than_the_user(make_door: Callable[..., Door]) -> None:
    door = make_door("", "", ("rate=2r/s", "rate=1r/m"), ("burst=150 delay=100", "burst=6 delay=6"))
    tokens = [door.told("-d", f'{{"name":"t{it}"}}', "/tokens")[1]["token"] for it in range(2)]
    statuses = [door.by_token(tokens[it % 2], *RESERVE, "/reservations")[0] for it in range(10)]
    assert statuses == [200] * 5 + [429] * 5
    assert door.told(*RESERVE, "/reservations")[0] == 429 and door.told(*RESERVE, "/reservations", user="bob")[0] == 200


# ---- framings, and fields that aren't a client's to say

def raw(door: Door, head: str, body: bytes = b"", is_closed: bool = True) -> bytes:
    """What the door says at its socket, as nginx would ask it."""
    with socket.socket(socket.AF_UNIX) as line:
        line.settimeout(30)
        line.connect(door.socket)
        line.sendall(head.replace("\n", "\r\n").encode("latin-1") + b"\r\n" + body)
        if is_closed:
            line.shutdown(socket.SHUT_WR)
        said = b""
        while True:
            more = line.recv(65536)
            if not more:
                return said
            said += more


HEAD = "POST /reservations HTTP/1.0\nx-what: command\nx-login: ann\n"
NEXT = b'POST /reservations HTTP/1.0\r\nx-what: command\r\nx-login: admin\r\ncontent-length: 11\r\n\r\n{"tags":[]}'


FRAMINGS = [
    ("content-length: 11\ncontent-length: 11\n", 400), ("content-length: 11\ncontent-length: 0\n", 400), ("content-length: +11\n", 400),
    ("content-length: 0x0b\n", 400), ("content-length: 11, 11\n", 400), ("content-length: -1\n", 400), ("content-length: 1 1\n", 400),
    ("content-length: \u00b9\u00b9\n", 400), ("transfer-encoding: chunked\n", 501),
    ("transfer-encoding: chunked\ncontent-length: 11\n", 501),
    ("transfer-encoding: x\n", 501), ("content-length: 65537\n", 413),
    ("content-length: 11\nx-login: admin\n", 400), ("content-length: 11\nx-what: who\n", 400), ("content-length: 99\n", 0),
]


def test_of_two_framings_or_names_none_is_taken(door: Door) -> None:
    for fields, status in FRAMINGS:
        said = raw(door, HEAD + fields, b'{"tags":[]}')
        assert said.split()[1:2] == ([str(status).encode()] if status else []), (fields, said)
    assert door.owners() == []


def test_what_stands_behind_a_body_is_no_request(door: Door) -> None:
    assert b" 200 " in raw(door, HEAD + "content-length: 11\nconnection: keep-alive\n", b'{"tags":[]}' + NEXT)
    assert raw(door, HEAD + f"content-length: {len(NEXT)}\n", NEXT).split()[1] == b"400", "the desk's, to a body that is none"
    assert door.owners() == ["ann"]


NEVER_ASKED = [
    ("GET / HTTP/1.0\n", 400), ("POST /reservations HTTP/1.0\nx-what: command\n", 401), ("FOO / HTTP/1.0\n", 501), ("x\n", 400),
    ("POST /reservations HTTP/1.0\nx-what: command\nx-login: a;b\n", 401),
    ("POST /reservations HTTP/1.0\nx-what: command\nx-login: ann (token 1 x) y\n", 401),
    ("POST reservations HTTP/1.0\nx-what: command\n", 404),
    ("POST /\u00e9 HTTP/1.0\nx-what: command\nx-login: ann\n", 404),
    ("POST / HTTP/1.0\nx-what: command\nx-login: ann\nx-key: \x01\x7f\n", 50),
]


def test_what_nginx_never_asks_is_refused(door: Door) -> None:
    """By the door, or by the desk (50)."""
    for head, code in NEVER_ASKED:
        assert json.loads(raw(door, head).rpartition(b"\r\n\r\n")[2])["code"] == code, head
    assert door.owners() == []


CLAIMS = [
    ["x-user: admin"], ["x-login: admin"], ["x-login: ann.admin"], ["x-what: tokens"], ["x-what: who"], ["x-farm-user: admin"],
    ["X_Login: admin"], ["x-login: admin", "x-user: admin", "x-what: command"],
    ["x-login: ann.admin", "x-farm-user: admin"],
]


def test_a_client_says_nothing_in_nginxs_name(make_door: Callable[..., Door]) -> None:
    door = make_door("")
    for fields in CLAIMS:
        words = [word for it in fields for word in ("-H", it)]
        assert reserve(door, '{"tags":[]}', *words)[0] == 200
        assert door.told(*words, "-d", '{"health":"Bad"}', "/boards/b1/health")[0] == 403
    assert set(door.owners()) == {"ann"} == {it["login"] for it in rows_of(door)}


def test_a_body_in_pieces_is_one_command(door: Door) -> None:
    """nginx takes it whole, and hands it on with its length."""
    smuggled = '{"tags":[]}\r\n0\r\n\r\n' + NEXT.decode()
    assert reserve(door, '{"tags":[]}', "-H", "transfer-encoding: chunked")[0] == 200
    assert reserve(door, smuggled, "-H", "transfer-encoding: chunked")[0] == 400
    assert door.owners() == ["ann"]
