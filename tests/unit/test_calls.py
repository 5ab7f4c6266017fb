"""What the tools make of a desk's answers, and of none: by a connection that says what the test wants."""
from __future__ import annotations

import http.client
import json
import pathlib
import ssl
import types
from typing import Any, Callable, Dict, Iterator, List, Optional, Tuple

import pytest
from fizgruk import calls, history, settings
from fizgruk.desk import views
from fizgruk.errors import Code, NoArtifact, NoLog, Refused, Unreachable

SERVER = "http://desk.example:81/farm/"
PLAIN = settings.Settings(SERVER, "ann", None, None, 30.0)


class Answer:
    """An answer of one status, whose body comes in pieces, and behind which the server closes."""

    will_close = True

    def __init__(self, status: int, *pieces: bytes, reason: str = "OK", length: Optional[int] = None) -> None:
        self.status, self.reason = status, reason
        self.pieces = list(pieces)
        whole = sum(map(len, pieces)) if length is None else length
        self.fields = {"content-length": str(whole)} if whole >= 0 else {}

    def getheader(self, name: str) -> Optional[str]:
        return self.fields.get(name)

    def read(self, most: int = -1) -> bytes:
        if most < 0:
            return b"".join(self.pieces)
        return self.pieces.pop(0) if self.pieces else b""


class Line:
    """Connections in the place of http.client's: each gives the next answer, or raises the next fault."""

    sock = None

    def __init__(self, monkeypatch: pytest.MonkeyPatch) -> None:
        self.answers: List[Any] = []
        self.asked: List[Tuple[str, str, Optional[bytes], Dict[str, str]]] = []
        self.made: List[Tuple[str, str, Optional[int]]] = []
        self.closed = 0
        self.slept: List[float] = []
        self.now = 0.0
        monkeypatch.setattr(calls, "time", types.SimpleNamespace(monotonic=lambda: self.now, sleep=self.sleep))
        names: Dict[str, Any] = {"HTTPConnection": self.make, "HTTPSConnection": self.make_secure}
        monkeypatch.setattr(calls, "http", types.SimpleNamespace(
            client=types.SimpleNamespace(**{**vars(http.client), **names})))

    def sleep(self, seconds: float) -> None:
        self.slept.append(seconds)
        self.now += seconds

    def make(self, host: str, port: Optional[int], timeout: float) -> "Line":
        self.made.append(("http", host, port))
        return self

    def make_secure(self, host: str, port: Optional[int], timeout: float, context: ssl.SSLContext) -> "Line":
        assert context.verify_mode == ssl.CERT_REQUIRED and context.check_hostname
        self.made.append(("https", host, port))
        return self

    def request(self, method: str, path: str, body: Optional[bytes] = None, headers: Optional[Dict[str, str]] = None) -> None:
        self.asked.append((method, path, body, dict(headers or {})))

    def getresponse(self) -> Answer:
        it = self.answers.pop(0)
        if isinstance(it, Exception):
            raise it
        assert isinstance(it, Answer)
        return it

    def close(self) -> None:
        self.closed += 1


@pytest.fixture
def line(monkeypatch: pytest.MonkeyPatch) -> Line:
    return Line(monkeypatch)


def desk_of(own: settings.Settings = PLAIN, patience: float = 0) -> calls.Desk:
    return calls.Desk(own, patience)


# ---- how a desk is asked


def test_a_call_goes_to_the_desks_place_as_its_user(line: Line) -> None:
    line.answers = [Answer(200, b'{"a":1}')]
    assert desk_of().look("/boards") == {"a": 1}
    assert line.made == [("http", "desk.example", 81)] and line.closed == 1
    assert line.asked == [("GET", "/farm/boards", None, {"x-user": "ann"})]


def test_a_server_with_tls_is_checked_and_gets_the_password(line: Line) -> None:
    line.answers = [Answer(200, b"{}")]
    own = settings.Settings("https://desk.example", "ann", "secret", None, 30.0)
    desk = desk_of(own)
    desk.tell("/pass", {"a": 1})
    assert line.made == [("https", "desk.example", None)]
    assert line.asked == [("POST", "/pass", b'{"a": 1}', {"x-user": "ann", "authorization": "Basic YW5uOnNlY3JldA=="})]
    assert desk.asked_as() == "asked as ann, with a password"


def test_certificates_that_arent_there_are_told_before_a_call() -> None:
    own = settings.Settings("https://desk.example", "ann", None, "/not/there.pem", 30.0)
    with pytest.raises(FileNotFoundError):
        desk_of(own)


# ---- no answer


def test_a_call_under_a_key_is_sent_again_and_its_first_trouble_is_told(line: Line) -> None:
    """Where nobody knows whether it was done. The pauses double up to five seconds."""
    told: List[str] = []
    line.answers = [
        ConnectionRefusedError("refused"), Answer(502, reason="Bad Gateway"), TimeoutError(), Answer(503, b'{"code":1}'),
        Answer(504), http.client.IncompleteRead(b""), ssl.SSLEOFError("cut"), Answer(200, b"{}"),
    ]
    desk = desk_of(patience=30)
    desk.tell_trouble = told.append
    assert desk.tell("/jobs", b"text", "one") == {}
    assert told == ["refused"]
    assert line.slept == pytest.approx([0.2, 0.4, 0.8, 1.6, 3.2, 5, 5])
    assert {it[3]["x-key"] for it in line.asked} == {"one"} and len(line.asked) == 8


@pytest.mark.parametrize("key", ["one", None])
def test_what_a_proxy_lets_wait_is_sent_again_without_a_key_too(line: Line, key: Optional[str]) -> None:
    """What it refuses since too much is asked (429) was never done; in the end it is refused."""
    line.answers = [*[Answer(429, b"<html>", reason="Too Many Requests")] * 2, Answer(200, b'{"number":7}')]
    assert desk_of(patience=15).tell("/jobs", b"", key) == {"number": 7}
    assert len(line.asked) == 3 and line.slept == [0.2, 0.4]
    line.answers = [Answer(429, reason="Too Many Requests") for _ in range(9)]
    with pytest.raises(Refused, match="^429 Too Many Requests$"):
        desk_of(patience=1).tell("/jobs", b"", key)
    assert len(line.asked) == 6


def test_a_call_without_a_key_is_sent_once(line: Line) -> None:
    line.answers = [ConnectionResetError("reset")]
    with pytest.raises(Unreachable, match=f"^{SERVER}: reset$"):
        desk_of(patience=10).tell("/jobs", b"text")
    assert line.slept == []


@pytest.mark.parametrize("answer, told", [
    (ConnectionResetError("reset"), "reset"), (Answer(502, b"<html>", reason="Bad Gateway"), "502 Bad Gateway"),
])
def test_patience_ends(line: Line, answer: Any, told: str) -> None:
    line.answers = [answer] * 100
    with pytest.raises(Unreachable, match=f"^{SERVER}: {told}$"):
        desk_of(patience=20).look("/boards")
    assert line.slept == pytest.approx([0.2, 0.4, 0.8, 1.6, 3.2, 5, 5])


@pytest.mark.parametrize("fault", [ssl.SSLCertVerificationError("not trusted"), ssl.SSLError("no TLS")])
def test_a_certificate_that_doesnt_fit_is_no_reason_to_try_again(line: Line, fault: ssl.SSLError) -> None:
    line.answers = [fault]
    with pytest.raises(Unreachable):
        desk_of(patience=10).look("/boards")
    assert line.slept == [] and line.closed == 1


@pytest.mark.parametrize("answer, told", [
    (Answer(200, b"<html>"), "the answer isn't a desk's"), (Answer(200, b"[]"), "the answer isn't a desk's"),
    (Answer(204), "the answer isn't a desk's"), (Answer(200, b"{}", length=-1), "the answer was cut in its head"),
    (Answer(200, b"[" * 100_000), "the answer isn't a desk's"), (Answer(200, b"7"), "the answer isn't a desk's"),
    (Answer(200, b""), "the answer isn't a desk's"),
])
def test_what_no_desk_says_is_no_answer(line: Line, answer: Answer, told: str) -> None:
    line.answers = [answer]
    with pytest.raises(Unreachable, match=f"^{SERVER}: {told}$"):
        desk_of().look("/boards")


def test_what_lacks_what_a_desks_has_is_no_answer(line: Line) -> None:
    line.answers = [Answer(200, b'{"boards":[{"name":"b1"}]}')]
    said = desk_of().look("/boards")
    assert said == {"boards": [{"name": "b1"}]} and said["boards"][0].get("holder") is None
    for row, name in ((said, "jobs"), (said["boards"][0], "holder")):
        with pytest.raises(Unreachable, match=f"^{SERVER}: the answer isn't a desk's: it lacks {name}$") as fault:
            assert row[name]
        assert isinstance(fault.value, KeyError)


@pytest.mark.parametrize("path, told, fault", [
    ("/boards", {"boards": {}}, "boards is {}"), ("/boards", {"boards": [3]}, "a row is 3"),
    ("/boards", {"boards": [{"tags": ["hdmi"], "holder": "none"}, {"holder": "job x"}]}, "holder is 'job x'"),
    ("/boards", {"boards": [{"tags": [1]}]}, r"tags is \[1\]"), ("/types", {"types": [{"every": None}]}, "every is None"),
    ("/queue", {"queue": [{"boards": "2"}]}, "boards is '2'"),
    ("/reservations", {"reservations": [{"deadline": 10**30}]}, "deadline is 10+"),
    ("/jobs/3", {"number": "3"}, "number is '3'"), ("/status", {"clock": "x" * 99}, r"clock is 'x+\.\.\.x+'"),
    ("/history.json", {"jobs": [{"tests": 7}]}, "tests is 7"),
])
def test_a_view_whose_fields_are_of_other_kinds_is_no_answer(
    line: Line, path: str, told: Dict[str, Any], fault: str,
) -> None:
    line.answers = [Answer(200, json.dumps(told).encode())]
    with pytest.raises(Unreachable, match=f"^{SERVER}: the answer isn't a desk's: {fault}$"):
        desk_of().look(path)


@pytest.mark.parametrize("path, told", [
    ("/boards", {"boards": [{"name": "b1", "shelf": [3]}], "queue": 7}), ("/status", {"boards": 3, "uptime": "long"}),
    ("/jobs/3", {"number": 3, "boards": 7}), ("/notes.json", {"boards": 7}), ("/history.json", {"jobs": [{"submitted": None}]}),
])
def test_what_a_later_desk_tells_too_is_no_fault(line: Line, path: str, told: Dict[str, Any]) -> None:
    line.answers = [Answer(200, json.dumps(told).encode())]
    assert desk_of().look(path) == told


@pytest.mark.parametrize("answer, told", [
    (Answer(409, b'{"code":4,"text":"full"}'), "4 full"), (Answer(400, b'{"code":"x"}', reason="Bad"), "400 Bad"),
    (Answer(401, b"<html>", reason="Unauthorized"), "401 Unauthorized: asked as ann, without a password"),
    (Answer(403, b'{"code":3,"text":"not yours"}'), "3 not yours: asked as ann"),
    (Answer(302, b"", reason="Found"), "302 Found"), (Answer(500, b"[]", reason="Fault"), "500 Fault"),
    (Answer(404, b"[" * 100_000, reason="Not Found"), "404 Not Found"),
])
def test_a_refusal_says_why_and_who_asked(line: Line, answer: Answer, told: str) -> None:
    line.answers = [answer]
    with pytest.raises(Refused) as refused:
        desk_of().look("/boards")
    it = refused.value
    assert str(it) == told and it.status == answer.status and told.startswith(f"{it.code} {it.text}")


# ---- a file beside the desk


def streamed(line: Line, answer: Any, begin: int = 0) -> bytes:
    line.answers = [answer]
    return b"".join(desk_of().stream("/logs/1", begin))


def test_a_file_is_read_from_a_place_on_also_where_the_proxy_gives_the_whole(line: Line) -> None:
    assert streamed(line, Answer(200, b"abc", b"def")) == b"abcdef"
    assert streamed(line, Answer(206, b"c", b"def"), 2) == b"cdef"
    assert streamed(line, Answer(200, b"abc", b"def"), 4) == b"ef"
    assert streamed(line, Answer(200, b"abc", b"def"), -4) == b"abcdef", "more than was asked for does no harm"
    assert [it[3].get("range") for it in line.asked] == [None, "bytes=2-", "bytes=4-", "bytes=-4"]
    assert line.closed == 4


def test_beyond_a_files_end_there_is_nothing(line: Line) -> None:
    assert streamed(line, Answer(416, b"no such range"), 6) == b""
    assert line.closed == 1


@pytest.mark.parametrize("answer, told", [
    (Answer(200, b"abc", length=6), "the answer was cut"), (Answer(503, reason="Unavailable"), "503 Unavailable"),
    (ConnectionResetError(), "ConnectionResetError"), (Answer(204), "the answer isn't a desk's"),
])
def test_a_file_that_doesnt_come_whole_is_no_answer(line: Line, answer: Any, told: str) -> None:
    with pytest.raises(Unreachable, match=f"^{SERVER}: {told}$"):
        streamed(line, answer)
    assert line.closed == 1


# ---- the history beside a desk


class Served(calls.Desk):
    """A desk beside which these files are served, or refused."""

    def __init__(self, **files: Any) -> None:
        super().__init__(PLAIN, 0)
        self.files = {f"/{name.replace('_', '.')}": said for name, said in files.items()}
        self.begins: List[int] = []

    def look(self, path: str) -> Dict[str, Any]:
        said = self.files.get(path, {})
        if isinstance(said, Exception):
            raise said
        return dict(said)

    def stream(self, path: str, begin: int = 0) -> Iterator[bytes]:
        self.begins.append(begin)
        said = self.files[path.replace("/logs/", "/")]
        if isinstance(said, Exception):
            raise said
        yield from said


def test_the_lines_of_a_history_are_whole_however_they_come() -> None:
    pieces = [b'{"kind":"health","board":"b1","at":1,"from":"Good","to":"Bad","reason":"', b'x"}\nno line\n{"kind":"hea']
    desk = Served(history_jsonl=pieces)
    rows = list(history.Past(desk).rows(500))
    assert [it["reason"] for it in rows] == ["x"], "a line that is cut, or none, is left out"
    assert desk.begins == [-500]


@pytest.mark.parametrize("refusal, told", [
    (Refused(404, Code.NO_SUCH_ROUTE, "no such route"),
     "http://desk.example:81/farm/ serves no history: ask through the proxy (examples/nginx.conf), or "
     "on the dispatcher's machine with --history FOLDER"),
    (Refused(403, 0, "Forbidden"), "403 Forbidden"),
])
def test_a_desk_without_a_history_says_where_there_is_one(refusal: Refused, told: str) -> None:
    past = history.Past(Served(**{"history_json": refusal, "history_jsonl": refusal, "7": refusal}))
    asks: List[Callable[[], object]] = [past.newest, lambda: list(past.rows()), lambda: list(past.log(7, 0))]
    for ask in asks:
        refusal.args = (refusal.args[0].split(": ")[0],)
        with pytest.raises(Refused) as refused:
            ask()
        assert str(refused.value) == told


def test_a_log_that_isnt_served_is_told_from_a_history_that_isnt() -> None:
    past = history.Past(Served(**{"7": Refused(404, 0, "Not Found")}))
    with pytest.raises(NoLog):
        list(past.log(7, 0))


@pytest.mark.parametrize("healths", [0, 5000])
@pytest.mark.parametrize("count, owner, first", [
    (1, None, 1000), (50, None, 951), (200, None, 801), (250, None, 751), (3, "zoe", 700), (2000, "ann", 1),
])
def test_as_many_jobs_as_are_asked_for(tmp_path: pathlib.Path, count: int, owner: Optional[str], first: int, healths: int) -> None:
    """Of the newest lines, and where these have too few, of many; in a folder also where changes of healths alone are at
    the history's end."""
    common = {"kind": "job", "group": 1, "boards": ["b1"], "type": "bbb", "name": "", "submitted": None, "began": 1, "ended": 2,
              "outcome": "Complete", "reason": ""}
    rows = [{**common, "job": it, "owner": "zoe" if it % 100 == 0 and it < 901 else "ann"} for it in range(1, 1001)]
    health = {"kind": "health", "board": "b1", "from": "Good", "to": "Bad", "at": 1, "reason": "by the admin" * 10}
    lines = b"".join(json.dumps(it).encode() + b"\n" for it in [*rows, *[health] * healths])
    (tmp_path / "history.jsonl").write_bytes(lines)
    wanted = [it["job"] for it in rows if owner in (None, it["owner"])][::-1][:count]
    served = Served(history_json={"jobs": rows[:-201:-1]}, history_jsonl=[lines])
    for past in (history.Past(served), history.Past(history.Folder(str(tmp_path)))):
        assert [it["job"] for it in past.jobs(count, owner)] == wanted
    assert wanted[-1] == first


def test_when_numbers_were_given_is_known_by_whole_lines() -> None:
    """Of a long file its last bytes come, of which the first line may be a part: `12 5 1` of `112 5 1`."""
    short = history.Past(Served(numbers=[b"2 100 99\n3 101 100\n4 102"])).moments()
    assert [it.next for it in short] == [2, 3]
    line = b"999999 1800000000 1799999999\n"
    pieces = [b"12 5 1\n", line * -(-history.NUMBERS // len(line))]
    assert [it.next for it in history.Past(Served(numbers=pieces)).moments()] == [999999]
    assert history.Past(Served(numbers=Unreachable("gone"))).moments() == []


@pytest.mark.parametrize("pieces, told", [
    ([b"ab", b"c"], ""), ([b"ab"], "out.log was cut"), ([], "out.log was cut"), ([b"abc", b"d"], "there are more than 3 bytes"),
    (Refused(404, 0, "Not Found"), "out.log of job 8 isn't kept any longer"),
])
def test_an_artifact_has_as_many_bytes_as_the_list_says(pieces: Any, told: str) -> None:
    index = b'{"files":[{"name":"out.log","size":3,"number":1}],"left_out":[]}'
    view = {"number": 8, "group": 7, "state": "Finished"}
    desk = Served(**{"jobs/8": view, "artifacts/7/index.json": [index], "artifacts/7/1": pieces})
    left = history.Artifacts(desk, history.Past(desk), 8)
    if not told:
        assert b"".join(left.bytes_of(left.of("out.log"))) == b"abc"
        return
    with pytest.raises((Unreachable, NoArtifact), match=f"^{told}$"):
        list(left.bytes_of(left.of("out.log")))
    with pytest.raises(NoArtifact, match="^job 8 left no x, or it isn't kept$"):
        left.of("x")


# ---- what a client tells of jobs


@pytest.mark.parametrize("view, name", [
    ({"kind": "check"}, "health check"), ({"text": "job_name = 'boot'"}, "boot"), ({"text": "no TOML"}, ""), ({}, ""),
])
def test_a_job_that_is_open_has_its_texts_name(view: Dict[str, Any], name: str) -> None:
    assert views.name_of(view) == name


def test_a_desk_that_refuses_a_view_isnt_taken_for_one_without_the_job() -> None:
    desk = Served(**{"jobs/7": Refused(404, Code.NO_SUCH_JOB, "no such job"), "jobs/8": Refused(401, 0, "no")})
    assert calls.job_of(desk, 7) is None
    with pytest.raises(Refused, match="401"):
        calls.job_of(desk, 8)


def test_a_desk_that_doesnt_let_it_in_has_no_members() -> None:
    desk = Served(**{"jobs/7": {"group": 7, "number": 7, "role": "a"}, "jobs/8": Refused(401, 0, "no")})
    with pytest.raises(Refused, match="401"):
        calls.members_of(desk, 7)


def test_a_command_without_a_key_never_goes_over_a_kept_connection(line: Line) -> None:
    """Where that ends before the answer, nobody knows whether the command was done."""
    desk = desk_of()
    kept = Answer(200, b"{}")
    kept.will_close = False
    line.answers += [kept, Answer(200, b'{"number":1}')]
    desk.look("/status")
    desk.tell("/jobs", b"x")
    assert len(line.made) == 2, "a connection of its own"
    again = Answer(200, b"{}")
    again.will_close = False
    line.answers += [again, ConnectionResetError("reset"), Answer(200, b'{"number":2}')]
    desk.look("/status")
    assert desk.tell("/jobs", b"x", "key") == {"number": 2}
    assert [it[0] for it in line.asked].count("POST") == 3, "under its key it goes out again"
