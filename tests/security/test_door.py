"""farm-door behind the example's site: limits of users and teams, several admins, tokens, and that nothing gets through
where it gives no answer."""
from __future__ import annotations

import http.server
import json
import os
import re
import socketserver
import sqlite3
import threading
import time
from typing import Any, Callable, List, Sequence, Tuple, Type

import pytest

from door_site import JOB, RESERVE, RULES, Door, limit
from nginx_site import write
from served import wait_until


def test_a_user_has_so_many_reservations_open_and_more_where_some_end(door: Door) -> None:
    assert [door.told(*RESERVE, "/reservations")[0] for _ in range(3)] == [200] * 3
    assert door.told(*RESERVE, "/reservations") == limit("the limit of ann is 3 open reservations")
    assert door.told(*RESERVE, "/reservations", user="bob")[0] == 200, "another user"
    door.farm.tell("dispatcher", "/pass")
    time.sleep(5)
    assert door.told(*RESERVE, "/reservations")[0] == 429, "what holds a board is open too"
    assert door.told("-X", "POST", "/reservations/1/cancel")[0] == 200
    wait_until("it is seen", lambda: door.told(*RESERVE, "/reservations")[0] == 200)
    assert door.told(*RESERVE, "/reservations")[0] == 429


def test_a_user_has_so_many_jobs_open_and_so_many_an_hour(door: Door) -> None:
    assert [door.told(*JOB, "/jobs")[0] for _ in range(4)] == [200] * 4
    assert door.told(*JOB, "/jobs") == limit("the limit of ann is 4 open jobs")
    for number in (1, 2, 3, 4):
        assert door.told("-X", "POST", f"/jobs/{number}/cancel")[0] == 200
    for _ in range(2):
        wait_until("they are seen to have ended", lambda: door.told(*JOB, "/jobs")[0] == 200)
    assert is_of_an_hour(door.told(*JOB, "/jobs"), "6 jobs")
    door.kill()
    door.start()
    assert is_of_an_hour(door.told(*JOB, "/jobs"), "6 jobs"), "a kill loses nothing"
    assert door.told(*RESERVE, "/reservations")[0] == 200


def is_of_an_hour(said: Tuple[int, Any], what: str) -> bool:
    """Whether a limit of an hour is told with the time at which one more is let through, which is within an hour."""
    found = re.fullmatch(rf"the limit of ann is {what} an hour; again at ([0-9]{{2}}):([0-9]{{2}}):([0-9]{{2}}) \S+", said[1]["text"])
    assert said[0] == 429 and found, said
    now, (hour, minute, second) = time.localtime(), map(int, found.groups())
    waits = (hour * 3600 + minute * 60 + second) - (now.tm_hour * 3600 + now.tm_min * 60 + now.tm_sec)
    return 3600 - 600 < waits % 86400 <= 3601


def test_a_user_leaves_so_many_rows_and_kept_replies_an_hour_under_any_key(make_door: Callable[..., Door]) -> None:
    """Reserving and canceling again and again, and keys of commands that are no jobs, would fill a farm for good."""
    door = make_door(RULES.replace("[limits]", "[limits]\ncommands_an_hour = 6", 1))

    def keyed(key: str, *words: str) -> Tuple[int, Any]:
        return door.told("-H", f"x-key: {key}", *words)

    assert door.told(*RESERVE, "/reservations")[0] == 200
    assert keyed("a", "-X", "POST", "/reservations/1/cancel")[0] == 200
    assert keyed("b", *RESERVE, "/reservations")[0] == 200
    assert [keyed("b", *RESERVE, "/reservations") for _ in range(9)] == [(200, {"number": 2})] * 9, "a repetition counts once"
    assert keyed("c", "-X", "POST", "/reservations/9/cancel")[0] == 404, "what is refused doesn't count"
    assert door.told("-X", "POST", "/reservations/2/refresh")[0] == 200, "what leaves nothing doesn't either"
    assert [keyed(it, "-X", "POST", "/reservations/2/refresh")[0] for it in "def"] == [200] * 3
    for words in (("-H", "x-key: g", "-X", "POST", "/reservations/2/refresh"), (*RESERVE, "/reservations"), (*JOB, "/jobs")):
        assert is_of_an_hour(door.told(*words), "6 commands")
    assert door.told("-X", "POST", "/reservations/2/cancel")[0] == 200, "what is one's own may always be given back"
    assert door.told(*RESERVE, "/reservations", user="bob")[0] == 200, "another user"


def test_an_owner_has_a_hundred_tokens_at_most(door: Door) -> None:
    from farm_door import counts

    tokens = counts.Ledger(f"{door.folder}/kept.db")
    for it in range(99):
        tokens.make("ann", f"t{it}")
    assert door.told("-d", '{"name":"hundredth"}', "/tokens")[0] == 200
    assert door.told("-d", '{"name":"more"}', "/tokens") == (
        403, {"code": 403, "text": "the limit is 100 tokens that haven't ended"})
    assert door.told("-X", "POST", "/tokens/1/end")[0] == 200
    assert door.told("-d", '{"name":"more"}', "/tokens")[0] == 200


def test_the_members_of_a_team_share_its_limit(door: Door) -> None:
    assert door.told(*RESERVE, "/reservations", user="dispatcher-2")[0] == 200
    assert door.told(*RESERVE, "/reservations", user="dispatcher-3") == limit("the limit of team few is 1 open reservations")


def test_many_at_once_are_no_more(door: Door) -> None:
    statuses: List[int] = []

    def ask() -> None:
        own, more = door.site.connection()
        for _ in range(5):
            own.request("POST", "/reservations", body='{"tags":[]}', headers=more)
            answer = own.getresponse()
            answer.read()
            statuses.append(answer.status)
        own.close()

    threads = [threading.Thread(target=ask) for _ in range(8)]
    for it in threads:
        it.start()
    for it in threads:
        it.join()
    assert sorted(statuses) == [200] * 3 + [429] * 37
    assert door.owners() == ["ann"] * 3


def test_an_admin_of_several_is_admin_to_the_desk_and_himself_in_the_audit(door: Door) -> None:
    health = ("-d", '{"health":"Bad"}', "/boards/b1/health")
    assert door.told(*health)[0] == 403 and door.told(*health) == (403, {"code": 3, "text": "forbidden"})
    assert door.told(*health, user="ann.admin")[0] == 200
    assert '"login":"ann.admin"' in door.site.logged()
    assert door.site.got("/whoami", user="ann.admin")[2] == b"admin"
    assert [door.told(*RESERVE, "/reservations", user="ann.admin")[0] for _ in range(5)] == [200] * 5


def test_a_token_stands_for_its_owner_until_it_is_ended(door: Door) -> None:
    status, made = door.told("-d", '{"name":"nightly"}', "/tokens")
    assert (status, made["number"], made["name"]) == (200, 1, "nightly")
    token = made["token"]
    assert door.by_token(token, *RESERVE, "/reservations")[0] == 200 and door.owners() == ["ann"]
    assert '"login":"ann (token 1 nightly)"' in door.site.logged()
    assert door.by_token(token, "/queue")[0] == 200
    admins = door.told("-d", '{"name":"ci"}', "/tokens", user="ann.admin")[1]["token"]
    assert door.by_token(admins, "-d", '{"health":"Bad"}', "/boards/b1/health")[0] == 403, "an admin's token is no admin's"
    assert door.site.got("/whoami", "-H", f"authorization: Bearer {token}", user="")[2] == b"ann"
    assert [it["name"] for it in door.told("/tokens")[1]["tokens"]] == ["nightly"]
    assert token not in str(door.told("/tokens")) and door.told("/tokens", user="bob")[1] == {"tokens": []}
    assert door.by_token(token, "-d", '{"name":"more"}', "/tokens")[0] == 401, "a token makes none"
    assert door.told("-X", "POST", "/tokens/1/end", user="bob")[0] == 404
    door.kill()
    door.start()
    assert door.by_token(token, "/queue")[0] == 200
    files = [it for it in os.listdir(door.folder) if it.startswith("kept.db")]
    kept = b""
    for name in files:
        with open(f"{door.folder}/{name}", "rb") as file:
            kept += file.read()
    assert b"nightly" in kept and token.encode() not in kept
    assert door.told("-X", "POST", "/tokens/1/end")[0] == 200
    assert door.by_token(token, "/queue")[0] == 401


def test_the_client_makes_shows_and_ends_tokens(door: Door) -> None:
    status, token, errors = door.site.desk("add-token", "nightly")
    assert (status, errors) == (0, "") and token.startswith("farm_token_")
    assert door.site.desk("add-token", "nightly") == (3, "", "desk: refused: 409 you have a token of that name\n")
    assert door.site.desk("add-token", "a b") == (3, "", "desk: refused: 400 no name of a token\n")
    made = json.loads(door.site.desk("--json", "add-token", "other")[1])
    assert (made["number"], made["name"]) == (2, "other")
    lines = door.site.desk("tokens")[1].splitlines()
    assert [it.split()[:2] for it in lines] == [["NUMBER", "NAME"], ["1", "nightly"], ["2", "other"]]
    assert token.strip() not in door.site.desk("--json", "tokens")[1]
    file = write(door.folder, "token", token, 0o600)
    said = door.site.desk("tokens", DESK_PASSWORD_FILE=file)
    assert said[0] == 3 and "a token makes, shows and ends none" in said[2]
    assert door.site.desk("reserve", "--any", DESK_PASSWORD_FILE=file) == (0, "1\n", "") and door.owners() == ["ann"]
    assert door.site.desk("end-token", "nightly") == (0, "", "")
    assert door.site.desk("end-token", "nightly") == (3, "", "desk: you have no token nightly\n")
    assert door.site.desk("reserve", "--any", DESK_PASSWORD_FILE=file)[0] == 3
    assert [it["name"] for it in json.loads(door.site.desk("tokens", "--json")[1])["tokens"]] == ["other"]
    status, output, errors = door.site.desk("add-token", "x", DESK_SERVER=door.farm.server, DESK_PASSWORD_FILE="", DESK_USER="ann")
    assert (status, output) == (3, "") and "tokens are a site's that has farm-door(8)" in errors, errors


NO_TOKENS: Sequence[Sequence[str]] = (
    ["authorization: Bearer x"], ["authorization: Bearer farm_token_x"], ["authorization: Bearer "], ["authorization: bearer a b"],
    ["x-login: ann"], ["authorization: Bearer x", "x-login: ann", "x-farm-user: admin"], ["x-bearer: Bearer x"], [],
)


def test_what_is_no_token_is_let_in_nowhere(make_door: Callable[..., Door]) -> None:
    door = make_door(RULES, "", ("auth_delay 1s", "auth_delay 0"))
    for fields in NO_TOKENS:
        words = [word for it in fields for word in ("-H", it)]
        for path in ("/queue", "/", "/page/farm.js", "/history.json", "/logs/1", "/whoami", "/tokens"):
            assert door.site.got(path, *words, user="")[0] == 401, (fields, path)
        assert door.site.said(*words, *RESERVE, "/reservations", user="")[0] == 401, fields
    assert door.owners() == []


def test_where_it_gives_no_answer_no_command_is_let_through_and_looks_go_on(door: Door) -> None:
    token = door.told("-d", '{"name":"ci"}', "/tokens")[1]["token"]
    door.kill()
    away = (503, {"code": 503, "text": "farm-door gives no answer"})
    cancel, remove = ["-X", "POST", "/reservations/1/cancel"], ["-X", "DELETE", "/queue"]
    for words in (cancel, remove, [*RESERVE, "/reservations"], ["-d", "{}", "/tokens"]):
        assert door.told(*words) == away, words
    assert door.by_token(token, "/queue") == away, "whose token it is nobody knows"
    assert door.site.got("/whoami")[0] == 503
    for path in ("/queue", "/boards", "/status", "/reservations?x=1"):
        assert door.told(path)[0] == 200, path
    for path in ("/", "/page/farm.js"):
        assert door.site.got(path)[0] == 200, path
    for login in ("ann:guess", "ann.admin:guess"):
        assert door.site.got("/queue", "-u", login, user="")[0] == 401, login
    assert door.owners() == []
    door.start()
    assert door.told(*RESERVE, "/reservations")[0] == 200


def test_where_the_desk_gives_it_no_answer_what_has_a_limit_isnt_let_through(
    door: Door, monkeypatch: pytest.MonkeyPatch
) -> None:
    from farm_door import counts, door as doors, rules

    monkeypatch.setattr(counts, "TOO_OLD", 0.0)
    monkeypatch.setattr(counts, "FIRST_LOOK", 0.0)
    known = counts.Counts(None)  # type: ignore[arg-type]
    asked = doors.Door(rules.rules_in("/nowhere/door.toml"), counts.Ledger(":memory:"), known, doors.DeskPort(door.farm.server))

    def gives(user: str, path: str, body: bytes) -> int:
        return asked.command(doors.UserCommand(user, "POST", path, (), body)).status

    job = b"job_name = 'x'\ndevice_type = 'bbb'"
    with pytest.raises(counts.Denied, match="your limits can't be told") as refused:
        gives("ann", "/jobs", job)
    assert refused.value.status == 503
    assert gives("ann", "/jobs/1/cancel", b"") == 404 and gives("admin", "/jobs", job) == 200


def test_another_proxy_may_say_who_asks(make_door: Callable[..., Door]) -> None:
    """As one for OIDC or LDAP in front of the site, by its field (docs/setting-up.md, Limits of users)."""
    door = make_door(RULES, "$http_x_forwarded_user")

    def by(name: str, *words: str) -> Tuple[int, str, Any]:
        return door.site.said(*(["-H", f"x-forwarded-user: {name}"] if name else []), *words, user="")

    assert [by("carl", *RESERVE, "/reservations")[0] for _ in range(4)] == [200, 200, 200, 429]
    assert door.owners() == ["carl"] * 3 and '"login":"carl"' in door.site.logged()
    assert by("carl", "-d", '{"name":"ci"}', "/tokens")[0] == 200
    for name in ("", "a b", "x" * 49, "ann;admin"):
        assert by(name, "/queue")[0] == 401, name


def test_a_foreign_page_makes_no_token(door: Door) -> None:
    assert door.told("-H", "Origin: https://evil.example", "-d", '{"name":"x"}', "/tokens")[0] == 403
    assert door.told("/tokens")[1] == {"tokens": []}


NO_NAMES = ("", "[]", "{}", '{"name":1}', '{"name":"a b"}', '{"name":"' + "x" * 49 + '"}', "[" * 5000, '{"name":"a"}' + " " * 5000)


def test_what_is_no_name_of_a_token_makes_none(door: Door) -> None:
    for body in NO_NAMES:
        assert door.told("--data-binary", body, "/tokens")[0] in (400, 413), body
    assert sqlite3.connect(f"{door.folder}/kept.db").execute("select count(*) from tokens").fetchone() == (0,)


def test_a_command_takes_five_milliseconds_more_at_most_in_processor_time(make_door: Callable[..., Door]) -> None:
    """Of farm-door's, over eighty commands of a user's; looks by a password take none."""
    door = make_door("[limits]\nopen_reservations = 1000\n")
    line, fields = door.site.connection()

    def spent() -> float:
        """But for what the looks at the desk took, which the first thread that it started does."""
        def ticks(place: str) -> int:
            with open(f"{place}/stat", encoding="ascii") as stat:
                parts = stat.read().rpartition(")")[2].split()
            return int(parts[11]) + int(parts[12])

        own = f"/proc/{door.process.pid}"
        looks = os.listdir(f"{own}/task")[1]  # (they stand in the order in which they began)
        return (ticks(own) - ticks(f"{own}/task/{looks}")) / os.sysconf("SC_CLK_TCK")

    before = spent()
    for _ in range(80):
        line.request("POST", "/reservations", body='{"tags":[]}', headers=fields)
        assert line.getresponse().read().startswith(b'{"number":')
    line.close()
    assert (spent() - before) / 80 < 0.005


# ---- connections of nginx


def keeping(asked: List[List[str]]) -> Type[http.server.BaseHTTPRequestHandler]:
    """What answers all, closes no connection by itself, and notes the requests of each with their word for it."""

    class Keeping(http.server.BaseHTTPRequestHandler):
        protocol_version = "HTTP/1.1"

        def setup(self) -> None:
            super().setup()
            asked.append([])
            self.own = asked[-1]

        def do_POST(self) -> None:
            self.rfile.read(int(self.headers.get("content-length") or 0))
            self.own.append(f"{self.path} {self.headers.get('connection')}")
            self.send_response(200)
            for name, said in (("x-farm-user", "ann"), ("content-length", "2")):
                self.send_header(name, said)
            self.end_headers()
            self.wfile.write(b"{}")

        do_GET = do_POST

        def log_message(self, *_: object) -> None:
            pass

    return Keeping


def test_nginx_keeps_no_connection_behind_it(door: Door) -> None:
    """What is kept, another may be closing while a command goes into it."""
    asked: List[List[str]] = []
    door.kill()
    os.unlink(door.socket)
    door.farm.kill()
    desk = http.server.ThreadingHTTPServer(("127.0.0.1", door.farm.port), keeping(asked))
    servers: List[socketserver.BaseServer] = [desk, socketserver.ThreadingUnixStreamServer(door.socket, keeping(asked))]
    for server in servers:
        threading.Thread(target=server.serve_forever, daemon=True).start()
    for _ in range(2):
        assert [door.told(*it)[0] for it in (["/boards"], [*RESERVE, "/reservations"], ["/tokens"])] == [200] * 3
        assert door.site.got("/whoami")[0] == 200
    for server in servers:
        server.shutdown()
        server.server_close()
    assert sorted(asked) == sorted(2 * [["/boards close"], ["/reservations close"], ["/tokens close"], ["/ close"]])
