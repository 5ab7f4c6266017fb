"""The site of examples/nginx.conf before a farm: TLS, names and passwords, the status page, foreign
pages' commands, many viewers, clients that ask without end, long jobs, history and logs, and a desk
that is away. Its addresses and files are put into the test's folder."""
from __future__ import annotations

import gzip
import json
import os
import re
import socket
import ssl
import threading
import time
from typing import Callable, List, Sequence, Set, Tuple

import pytest

from nginx_site import WORDS, Site, farm_fixture, site_fixture, write  # noqa: F401
from served import TOOLS, Farm, Tool, read, wait_until

JSON = "application/json"
FORBIDDEN = {"code": 403, "text": "Forbidden"}
SHARED = ("-H", "cache-control: max-age=1")
RESERVE = ("-d", '{"tags":[]}')


def reservations(farm: Farm) -> List[Tuple[str, List[str]]]:
    """The owners and tags of all reservations that ever were."""
    return [(it["owner"], it["tags"]) for it in farm.look("/reservations")["reservations"]]


def test_who_asks_is_whom_the_password_belongs_to(farm: Farm, site: Site) -> None:
    assert site.desk("reserve", "--any") == (0, "1\n", "")
    assert farm.reservation(1)["owner"] == "ann"
    assert site.desk("cancel-reservation", "1") == (0, "", "")
    status, _, errors = site.desk("queue", DESK_CA_FILE="")
    assert (status, errors.count("\n")) == (4, 1), "a certificate that nobody knows isn't tried again"


def test_a_wrong_password_and_none_are_refused(site: Site) -> None:
    refused = "desk: refused: 401 Unauthorized: asked as ann, {} a password\n"
    other = os.path.join(site.folder, "dispatcher")
    assert site.desk("queue", DESK_PASSWORD_FILE=other) == (3, "", refused.format("with"))
    assert site.desk("queue", DESK_PASSWORD_FILE="") == (3, "", refused.format("without"))


def test_a_password_is_taken_from_netrc(site: Site) -> None:
    write(site.folder, ".netrc", f'machine localhost login ann password "{WORDS["ann"]}"\n', 0o600)
    own = {"HOME": site.folder, "DESK_PASSWORD_FILE": "", "DESK_USER": ""}
    assert site.desk("--json", "queue", **own) == (0, '{"queue":[]}\n', "")


def test_a_name_that_a_client_sends_itself_is_lost(farm: Farm, site: Site) -> None:
    status, _, said = site.said("-H", "x-user: admin", *RESERVE, "/reservations")
    assert status == 200
    assert farm.reservation(said["number"])["owner"] == "ann"


def test_the_status_page_stands_at_the_top_for_those_who_have_a_password(site: Site) -> None:
    with open(os.path.join(TOOLS, "page", "farm.html"), "rb") as wanted:
        assert site.got("/")[2] == wanted.read()
    assert site.got("/", user="")[0] == 401
    status, fields, body = site.got("/whoami")
    assert (status, body, fields["cache-control"]) == (200, b"ann", "no-store")


def test_a_job_of_65536_bytes_goes_through_and_a_longer_one_is_refused(farm: Farm, site: Site) -> None:
    text = "job_name = 'long'\ndevice_type = 'bbb'\n#".ljust(65_536, "x")
    number = int(site.desk("submit", "-", given=text)[1])
    assert farm.job(number)["text"] == text
    status, _, errors = site.desk("submit", "-", given=f"{text}x")
    assert (status, errors[:26]) == (3, "desk: refused: 413 Request")


def dispatcher(site: Site, start_tool: Callable[..., Tool]) -> Tool:
    words = ["farm-dispatch", "--folder", f"{site.folder}/dispatch", "--every", "0.3", "true"]
    return start_tool(*words, **site.settings("dispatcher", "DISPATCH"))


@pytest.fixture
def kept(farm: Farm, site: Site, start_tool: Callable[..., Tool]) -> str:
    """The dispatcher's folder, which has the history and the log of job 1: it ran it from behind the proxy."""
    number = farm.submit("true")
    tool = dispatcher(site, start_tool)
    folder = f"{site.folder}/dispatch"
    wait_until("the job is in the history", lambda: '"outcome":"Complete"' in read(f"{folder}/history.json"))
    tool.kill()
    write(f"{folder}/logs", str(number), "said\nmore\n", 0o644)
    return folder


def test_history_and_logs_are_served_to_those_who_have_a_password(kept: str, site: Site) -> None:
    for path in ("/logs/1", "/history.json", "/history.jsonl", "/numbers"):
        status, fields, body = site.got(path)
        with open(kept + path, "rb") as file:
            assert (status, body) == (200, file.read()), path
        kind = [fields[it] for it in ("content-type", "x-content-type-options", "cache-control")]
        assert kind == ["text/plain; charset=utf-8", "nosniff", "no-cache"], path
        assert site.got(path, "-I")[0] == 200, path
        for words in (["-X", "DELETE"], ["-d", "x"], ["-X", "PUT", "-d", "x"]):
            assert site.got(path, *words)[0] == 405, (path, words)
        assert site.got(path, user="")[0] == 401, path
        assert site.got(path, "-H", f"if-none-match: {fields['etag']}")[0] in (200, 304), path
    status, _, body = site.got("/logs/1", "-H", "range: bytes=5-")
    assert (status, body) == (206, b"more\n")
    assert site.got("/logs/1", "-H", "range: bytes=10-")[0] == 416
    rows = json.loads(site.got("/history.json")[2])["jobs"]
    assert (rows[0]["owner"], rows[0]["outcome"]) == ("ann", "Complete")


def test_texts_come_compressed_to_who_takes_them_and_what_jobs_left_doesnt(farm: Farm, site: Site) -> None:
    for _ in range(20):
        farm.submit("true")
    folder = f"{site.folder}/dispatch"
    for name in ("artifacts/1", "logs"):
        os.makedirs(f"{folder}/{name}")
    for name in ("running.json", "logs/1", "artifacts/1/1"):
        write(folder, name, "much " * 1000, 0o644)
    takes = ("-H", "accept-encoding: gzip")
    for path in ("/", "/page/looks.js", "/page/farm.css", "/queue", "/running.json"):
        fields, body = site.got(path, *takes)[1:]
        assert (fields.get("content-encoding"), fields["vary"]) == ("gzip", "accept-encoding"), path
        plain = site.got(path)
        assert "content-encoding" not in plain[1] and gzip.decompress(body) == plain[2], path
    for path in ("/whoami", "/artifacts/1/1", "/logs/1"):
        assert "content-encoding" not in site.got(path, *takes)[1], path


def test_a_browser_gets_all_over_one_connection(site: Site) -> None:
    """By HTTP/2, which it offers as it opens it."""
    offers = ssl.create_default_context(cafile=site.certificate)
    offers.set_alpn_protocols(["h2", "http/1.1"])
    with offers.wrap_socket(socket.create_connection(("127.0.0.1", site.port)), server_hostname="localhost") as line:
        assert line.selected_alpn_protocol() == "h2"


def test_nothing_else_of_the_dispatchers_folder_is_served(site: Site) -> None:
    folder = f"{site.folder}/dispatch"
    for name in ("logs", "jobs/1"):
        os.makedirs(f"{folder}/{name}")
    for name in ("secret", "healths.json", "lock", "numbers.new", "jobs/1/job.toml", "history.json", "logs/01", "logs/1"):
        write(folder, name, "secret", 0o644)
    os.symlink(f"{folder}/secret", f"{folder}/logs/900")
    for path in (
        "/logs/", "/logs", "/logs/901", "/logs/900", "/logs/0", "/logs/01", "/logs/../secret", "/logs/%2e%2e/secret",
        "/logs/..%2fsecret", "/logs//secret", "/logs/1/../../secret", "/logs/1/", "/logs/1%00", "/secret",
        "/healths.json", "/lock", "/numbers.new", "/logs/../jobs/1/job.toml", "/jobs/1/job.toml",
        "/history.json/../secret",
    ):
        status, _, body = site.got(path)
        assert status in (400, 403, 404) and b"secret" not in body, path


def test_the_client_finds_history_and_logs_beside_the_desk(kept: str, farm: Farm, site: Site) -> None:
    del kept
    row = json.loads(site.got("/history.json")[2])["jobs"][0]
    assert site.desk("log", "1") == (0, "said\nmore\n", "")
    assert site.desk("log", "1", "--follow") == (0, "said\nmore\n", "")
    assert site.desk("log", "901") == (3, "", "desk: there is no job 901\n")
    assert json.loads(site.desk("--json", "jobs")[1])["ended"][0] == row
    assert json.loads(site.desk("--json", "history", "b1")[1])["history"][0] == row
    used = json.loads(site.desk("--json", "usage")[1])["usage"]
    assert [(it["name"], it["complete"]) for it in used] == [("ann", 1)]
    number = farm.submit("true", user="bob")
    write(f"{site.folder}/dispatch", "numbers", f"{number + 1} {int(time.time()) - 90} {int(time.time()) - 91}\n", 0o644)
    head, row = site.desk("queue")[1].splitlines()[:2]
    waited = row.split()[head.split().index("WAITED")]
    assert re.fullmatch("0:0[1-9]:..", waited), waited
    again = int(site.desk("resubmit", "1")[1])
    assert farm.job(again)["text"] == farm.job(1)["text"]


def test_holds_of_people_are_served_and_counted(kept: str, site: Site) -> None:
    del kept
    assert site.got("/holds.jsonl")[0] == 404
    assert site.desk("usage")[2] == "desk: holds of people aren't counted: farm-watch keeps none here\n"
    os.makedirs(f"{site.folder}/watch/shown")
    row = {
        "kind": "hold", "key": "x", "reservation": 9, "owner": "zoe", "board": "b2", "type": "bbb",
        "began": int(time.time()) - 7200, "ended": int(time.time()) - 3600, "reason": "",
    }
    write(f"{site.folder}/watch", "watch.db", "secret", 0o644)
    write(f"{site.folder}/watch/shown", "holds.jsonl", f"{json.dumps(row)}\n", 0o644)
    status, fields, body = site.got("/holds.jsonl")
    assert (status, json.loads(body), fields["content-type"]) == (200, row, "text/plain; charset=utf-8")
    assert (fields["x-content-type-options"], fields["cache-control"]) == ("nosniff", "no-cache")
    assert site.got("/holds.jsonl", user="")[0] == 401 and site.got("/holds.jsonl", "-X", "PUT", "-d", "x")[0] == 405
    for path in ("/watch.db", "/holds.jsonl/../watch.db", "/holds.jsonl/", "/shown/holds.jsonl"):
        status, _, body = site.got(path)
        assert status in (400, 403, 404) and b"secret" not in body, path
    said = json.loads(site.desk("--json", "usage")[1])["usage"]
    assert [(it["name"], it["holds"], it["held"]) for it in said] == [("zoe", 1, 1.0), ("ann", 0, 0.0)]


def test_the_client_finds_what_a_job_left_beside_the_desk(kept: str, site: Site) -> None:
    assert site.desk("artifacts", "1")[0] == 3, "it left nothing"
    os.mkdir(f"{kept}/artifacts/1")
    index = {"group": 1, "at": 1, "files": [{"number": 1, "name": "a/\xe4 b", "size": 5}], "left_out": [], "more_left_out": 0}
    write(f"{kept}/artifacts/1", "index.json", json.dumps(index), 0o644)
    write(f"{kept}/artifacts/1", "1", "said\n", 0o644)
    assert site.desk("artifacts", "1") == (0, "SIZE NAME\n   5 a/\xe4 b\n", "")
    assert site.desk("artifacts", "1", "a/\xe4 b") == (0, "said\n", "")
    to = f"{site.folder}/to"
    assert site.desk("artifacts", "1", "--to", to) == (0, f"{to}/a/\xe4 b\n", "")
    assert read(f"{to}/a/\xe4 b") == "said\n"
    write(f"{kept}/artifacts/1", "1", "cut", 0o644)
    status, _, errors = site.desk("artifacts", "1", "a/\xe4 b", "--to", f"{to}2")
    assert status == 4 and "was cut" in errors and not os.path.exists(f"{to}2/a/\xe4 b")
    write(f"{kept}/artifacts/1", "index.json", json.dumps({**index, "files": [{"number": 1, "name": "../up", "size": 3}]}), 0o644)
    status, said, errors = site.desk("artifacts", "1", "--to", f"{to}3")
    assert (status, said) == (4, "") and "names what is no artifact" in errors and not os.path.exists(f"{to}3")


def test_the_client_follows_a_log_from_before_it_is_there(
    kept: str, farm: Farm, site: Site, start_tool: Callable[..., Tool]
) -> None:
    # (a pass of the dispatcher that was killed may still be on its way through nginx, and would give the job the board)
    farm.tell("admin", "/boards/b1/health", {"health": "Maintenance"})
    number = farm.submit("true")
    tool = start_tool("desk", "log", str(number), "--follow", "--every", "0.2", **site.settings())
    told = f"job {number} is Submitted, and has no log yet"
    wait_until("it waits", lambda: told in tool.errors())
    write(f"{kept}/logs", str(number), "first\n", 0o644)
    wait_until("its begin", lambda: tool.output() == "first\n")
    with open(f"{kept}/logs/{number}", "a", encoding="utf-8") as log:
        log.write("second\n")
    wait_until("what is added", lambda: tool.output() == "first\nsecond\n")
    farm.tell("ann", f"/jobs/{number}/cancel")
    assert (tool.ends(), tool.output()) == (0, "first\nsecond\n")


def test_what_nginx_refuses_is_told_in_json_with_its_status_for_the_code(farm: Farm, site: Site) -> None:
    large = write(site.folder, "large", "x" * 65_537, 0o600)
    assert site.said("/queue", user="") == (401, JSON, {"code": 401, "text": "Unauthorized"})
    told = {"code": 413, "text": "Request Entity Too Large"}
    assert site.said("--data-binary", f"@{large}", "/jobs") == (413, JSON, told)
    # (by HTTP/2 such a head ends the connection)
    assert site.said("--http1.1", "-H", f"x-long: {'x' * 40_000}", "/queue") == (400, JSON, {"code": 400, "text": "Bad Request"})
    assert site.said("/refused-by-door/x") == (404, JSON, {"code": 52, "text": "no such route"}), "the desk's own"
    farm.kill()
    assert site.said("/queue") == (502, JSON, {"code": 502, "text": "Bad Gateway"})


# ---- foreign pages


def fields_of(site: Site, fields: Sequence[str]) -> List[str]:
    """Curl's words for these fields, in which SITE and PORT are the site's."""
    return [word for it in fields for word in ("-H", it.replace("SITE", site.server).replace("PORT", str(site.port)))]


def test_a_command_that_a_foreign_page_sends_is_refused(farm: Farm, site: Site) -> None:
    for fields in (
        ["Sec-Fetch-Site: cross-site"],
        ["Sec-Fetch-Site: same-site"],
        ["Origin: null"],
        ["Origin: https://evil.example"],
        ["Origin: http://localhost:PORT"],
        ["Origin: https://localhost"],
        ["Origin: https://localhost:PORT0"],
        ["Origin: SITE.evil.example"],
        ["Origin: https://evil.example SITE"],
        ["Sec-Fetch-Site: same-origin", "Origin: https://evil.example"],
        ["Sec-Fetch-Site: cross-site", "Origin: SITE"],
    ):
        words = fields_of(site, fields)
        assert site.said(*words, *RESERVE, "/reservations") == (403, JSON, FORBIDDEN), fields
        assert site.said(*words, "-X", "DELETE", "/reservations") == (403, JSON, FORBIDDEN), fields
        assert site.said(*words, "/queue")[0] == 200, f"a look with {fields}"
        assert site.said(*words, *RESERVE, "/jobs", user="")[0] == 403, f"without a password, {fields}"
    assert reservations(farm) == []


def test_a_command_of_the_sites_own_page_and_of_a_tool_is_taken(farm: Farm, site: Site) -> None:
    taken: List[List[str]] = [[], ["Sec-Fetch-Site: none"], ["Sec-Fetch-Site: same-origin", "Origin: SITE"]]
    for fields in taken:
        assert site.said(*fields_of(site, fields), *RESERVE, "/reservations")[0] == 200, fields
    assert reservations(farm) == [("ann", [])] * 3


# ---- many clients


def ask_until(site: Site, path: str, ends: threading.Event, answers: Set[int]) -> None:
    """Asks for a path without a pause, as a page does, and notes the answers' statuses."""
    line, fields = site.connection()
    while not ends.is_set():
        line.request("GET", path, headers={**fields, "cache-control": "max-age=1"})
        answer = line.getresponse()
        answer.read()
        answers.add(answer.status)
    line.close()


@pytest.mark.slow(8)
def test_many_viewers_cost_the_desk_one_look_a_second_and_a_tool_gets_its_own(farm: Farm, site: Site) -> None:
    begun, ends, answers = time.time(), threading.Event(), set[int]()
    paths = ["/reservations"] * 10 + ["/boards?again"] * 3 + ["/boards"] * 3
    viewers = [threading.Thread(target=ask_until, args=(site, path, ends, answers)) for path in paths]
    for it in viewers:
        it.start()
    for number in range(1, 6):
        time.sleep(1)
        farm.tell("ann", "/reservations", {"tags": []})
        assert len(site.said("/reservations")[2]["reservations"]) == number, "a tool gets no older answer"
    ends.set()
    for it in viewers:
        it.join()
    seconds = int(time.time()) - int(begun) + 1
    asked = site.asked_of_desk()
    assert answers == {200}
    for path, own in (("GET /reservations", 5), ("GET /boards", 0)):
        looks = sum(it.startswith(path) for it in asked) - own
        assert 2 <= looks <= seconds, f"{path}: {looks} looks in {seconds} s"


def test_a_shared_answer_wants_a_password_a_get_and_its_path(farm: Farm, site: Site) -> None:
    assert site.said(*SHARED, "/boards")[0] == 200
    assert site.said(*SHARED, "/boards", user="")[0] == 401
    assert site.said(*SHARED, "/%62oards")[0] == 404
    assert site.got("/boards", *SHARED, "-I")[0] == 405
    numbers = {site.said(*SHARED, *RESERVE, "/reservations")[2]["number"] for _ in range(3)}
    assert numbers == {1, 2, 3}, "each command is done"
    assert len(reservations(farm)) == 3


def test_a_shared_fault_isnt_kept(farm: Farm, make_site: Callable[..., Site]) -> None:
    """All is asked as if it were in one second."""
    site = make_site(farm, ("$path_of_view $time_iso8601", "$path_of_view"))
    farm.kill()
    assert site.said(*SHARED, "/boards")[0] == 502
    farm.start()
    assert site.said(*SHARED, "/boards")[0] == 200


def test_a_hundred_clients_of_one_address_and_many_requests_in_a_row_are_answered(site: Site) -> None:
    """As a dispatcher of many boards or a script asks, or many users behind one address."""
    statuses: List[int] = []

    def ask_on(times: int) -> None:
        line, fields = site.connection("dispatcher")
        for _ in range(times):
            line.request("GET", "/status", headers=fields)
            answer = line.getresponse()
            answer.read()
            statuses.append(answer.status)
        line.close()

    threads = [threading.Thread(target=ask_on, args=(6,)) for _ in range(100)]
    for it in threads:
        it.start()
    for it in threads:
        it.join()
    ask_on(300)
    assert (len(statuses), set(statuses)) == (900, {200})


def test_a_client_that_asks_without_end_is_refused_with_429_told_in_json(
    farm: Farm, make_site: Callable[..., Site]
) -> None:
    """A site that takes less, so that few requests are a flood."""
    site = make_site(farm, ("rate=100r/s", "rate=1r/m"), ("burst=1000 delay=100", "burst=5 delay=5"))
    assert [site.said("/status")[0] for _ in range(5)] == [200] * 5, "some"
    told = (429, JSON, {"code": 429, "text": "Too Many Requests"})
    assert told in [site.said("/status") for _ in range(3)]


def test_the_client_asks_again_where_the_desk_is_away_and_then_ends_with_status_4(farm: Farm, site: Site) -> None:
    farm.kill()
    said = f"desk: waiting for the desk at {site.server}: 502 Bad Gateway\n"
    said += f"desk: no answer from the desk at {site.server}: 502 Bad Gateway\n"
    assert site.desk("queue") == (4, "", said)
    farm.start()
    assert site.desk("queue")[0] == 0
