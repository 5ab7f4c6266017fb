"""docs/openapi.json is what docs/openapi.py prints, with the routes of docs/API.md, and what the program answers.

A day of a lab goes through `farm once`, each route accepted and refused. Each answer's status, fields and body
have to be those that the document says, each body that is accepted one that it allows, and each route, status
and code of the document has to be seen, but for those of LEFT_OUT. Where python3-jsonschema is there it has to
agree with each schema and each answer."""
from __future__ import annotations

import importlib.util
import json
import os
import re
import resource
import shutil
import signal
import subprocess
import sys
from typing import Any, Callable, Dict, List, Optional, Set, Tuple

import pytest

from fizgruk import __version__
from orders import Body, Orders, bytes_of, request
from served import TOP, read

pytestmark = pytest.mark.timeout(1200)  # (a loaded machine takes many times as long)

jsonschema: Any = importlib.import_module("jsonschema") if importlib.util.find_spec("jsonschema") else None

# Codes that no request by itself brings about; 4 (full) only farms of hundreds of thousands of
# rows answer, but for types and boards. So no view is seen with status 503.
LEFT_OUT = {1, 61}
FULL, SEEN_FULL = 4, ("POST /types", "POST /boards")
METHODS = ("GET", "POST", "PUT", "DELETE", "PATCH", "HEAD")
HEAD = {"content-type": "application/json", "connection": "close"}
LATE = 250_000_000_001


TEXT = read(os.path.join(TOP, "docs", "openapi.json"))
DOCUMENT = json.loads(TEXT)
Schema = Dict[str, Any]

# ---- schemas

KINDS = {"object": dict, "array": list, "string": str, "integer": int}
SAID = ("description", "examples")


def resolved(part: Schema) -> Schema:
    """A part of the document, or the part that it refers to."""
    while "$ref" in part and part["$ref"].count("/") == 3:
        found = DOCUMENT
        for name in part["$ref"].split("/")[1:]:
            found = found[name]
        part = {**found, **{name: it for name, it in part.items() if name != "$ref"}}
    return part


def fault_of(value: Any, schema: Schema) -> Optional[str]:
    """The first rule of a schema that a value breaks, or None. A rule that isn't known here is a
    fault of the test."""
    if "$ref" in schema:
        beside = {name: it for name, it in schema.items() if name != "$ref"}
        return fault_of(value, resolved({"$ref": schema["$ref"]})) or fault_of(value, beside)
    for rule in sorted(schema, key=lambda it: it != "type"):
        assert rule in RULES or rule in SAID, f"the rule {rule} isn't known here"
        if rule in RULES and not RULES[rule](value, schema[rule], schema):
            return f"{value!r} breaks {rule} {schema[rule]!r}"
    return None


def fits(value: Any, schema: Schema) -> bool:
    return fault_of(value, schema) is None


RULES: Dict[str, Callable[[Any, Any, Schema], bool]] = {
    "type": lambda it, of, _: isinstance(it, KINDS[of]) and not isinstance(it, bool),
    "enum": lambda it, of, _: bool(it in of),
    "pattern": lambda it, of, _: re.search(of.replace("$", r"\Z"), it) is not None,
    "minimum": lambda it, of, _: bool(it >= of),
    "maximum": lambda it, of, _: bool(it <= of),
    "maxLength": lambda it, of, _: bool(len(it) <= of),
    "maxItems": lambda it, of, _: bool(len(it) <= of),
    "items": lambda it, of, _: all(fits(each, of) for each in it),
    "oneOf": lambda it, of, _: sum(fits(it, each) for each in of) == 1,
    "required": lambda it, of, _: set(of) <= set(it),
    "properties": lambda it, of, _: all(fits(it[name], of[name]) for name in of if name in it),
    "additionalProperties": lambda it, of, schema: bool(of) or set(it) <= set(schema["properties"]),
}


def demand_fits(what: str, wanted: bool, value: Any, schema: Schema) -> None:
    """Demands that a value fits a schema, or that it doesn't; jsonschema has to say the same."""
    fault = fault_of(value, schema)
    assert (fault is None) == wanted, f"{what}: whether it fits its schema ({fault})"
    if jsonschema:
        whole = {**schema, "components": DOCUMENT["components"]}
        assert jsonschema.Draft202012Validator(whole).is_valid(value) == wanted, f"{what} by jsonschema"


# ---- the document by itself


def operations() -> Dict[str, Any]:
    """Each route's operation."""
    return {
        f"{method.upper()} {path}": operation
        for path, methods in DOCUMENT["paths"].items()
        for method, operation in methods.items()
    }


def test_document_is_printed() -> None:
    """It is what docs/openapi.py prints, and has the tools' version."""
    words = [sys.executable, os.path.join(TOP, "docs", "openapi.py")]
    assert subprocess.run(words, capture_output=True, text=True, check=True).stdout == TEXT
    assert DOCUMENT["info"]["version"] == __version__


def test_routes() -> None:
    """Its routes are those of docs/API.md, each with a name of its own."""
    headings = re.findall(r"^### `(.*)`$", read(os.path.join(TOP, "docs", "API.md")), re.MULTILINE)
    assert sorted(operations()) == sorted(headings)
    names = [it["operationId"] for it in operations().values()]
    assert len(set(names)) == len(names)


@pytest.mark.parametrize("name", DOCUMENT["components"]["schemas"])
def test_schema(name: str) -> None:
    """Each schema is one, and its examples fit it."""
    schema = DOCUMENT["components"]["schemas"][name]
    if jsonschema:
        jsonschema.Draft202012Validator.check_schema(schema)
    for it in schema["examples"]:
        demand_fits(f"the example of {name}", True, it, schema)


@pytest.mark.parametrize("route", operations())
def test_operation(route: str) -> None:
    """Each operation has the parameters of its route, a command the caller and the key, and an example that fits."""
    operation = operations()[route]
    asked = [resolved(it) for it in operation["parameters"]]
    assert [it["name"] for it in asked if it["in"] == "path"] == re.findall("{([a-z]+)}", route)
    fields = ["x-user", "x-key"] if route.startswith("POST") else []
    assert [it["name"] for it in asked if it["in"] == "header"] == fields
    content = operation["responses"]["200"]["content"]["application/json"]
    demand_fits(f"{route}: its example", True, content["example"], content["schema"])


# ---- requests

Told = Tuple[str, Dict[str, str], Any]


ROOM = 64  # bytes of a file: the head of a log, and no page


def fill() -> None:
    """Lets a process write no page more, as on a full disk."""
    signal.signal(signal.SIGXFSZ, signal.SIG_IGN)
    resource.setrlimit(resource.RLIMIT_FSIZE, (ROOM, ROOM))


class Lab(Orders):
    """A farm in a file, what is asked of it, and what was seen."""

    def __init__(self, program: str, folder: str):
        super().__init__(program, folder)
        self.now = 1000
        self.seen: Set[Tuple[str, str, int]] = set()
        self.init()

    def exchange(
        self, method: str, path: str, fields: Dict[str, Any], body: bytes = b"", at: Optional[int] = None,
        db: str = "", is_full: bool = False,
    ) -> Told:
        """The status, the fields and the body of an answer. Where the disk is full no page can be written."""
        words = [self.program, "once", "--db", db or self.db, "--at", str(at or self.now)]
        ran = subprocess.run(
            words, input=request(method, path, fields, body), capture_output=True, check=False, cwd=self.folder,
            preexec_fn=fill if is_full else None,
        )
        head, _, said = ran.stdout.partition(b"\r\n\r\n")
        first, *rest = head.decode().split("\r\n")
        assert first.split(" ")[0] == "HTTP/1.1", f"{method} {path}"
        return first.split(" ")[1], dict(it.split(": ", 1) for it in rest), json.loads(said)

    def demand_told(self, what: str, answer: Told, route: str) -> int:
        """Demands that an answer is one that the document has for a route. Returns its code, 0
        where it isn't a refusal."""
        status, fields, said = answer
        responses = operations()[route]["responses"]
        assert status in responses, f"{what}: the status isn't in the document"
        content = resolved(responses[status])["content"]["application/json"]
        length = str(len(json.dumps(said, separators=(",", ":"), ensure_ascii=False).encode()))
        assert fields == {**HEAD, "content-length": length}, what
        demand_fits(f"{what}: the answer {said}", True, said, content["schema"])
        if status != "200":
            assert said in [it["value"] for it in content["examples"].values()], what
        code = 0 if status == "200" else int(said["code"])
        self.seen.add((route, status, code))
        return code

    def asks(
        self, user: str, asked: str, body: Body = None, code: int = 0, schema_fits: bool = True,
        key: str = "", db: str = "",
    ) -> Any:
        """Sends a request of a user, and demands how it is answered: by a code, 0 where it is
        accepted. `schema_fits` says whether the document allows the body. Returns the answer's
        body."""
        method, path = asked.split(" ")
        route = route_of(method, path)
        sent = bytes_of(body)
        fields = {"x-user": user} if method == "POST" else {}
        if sent:
            fields["content-length"] = str(len(sent))
            (kind,) = operations()[route]["requestBody"]["content"].values()
            demand_fits(f"{asked} {body!r}: the body", schema_fits, body, kind["schema"])
        fields.update({"x-key": key} if key else {})
        if code == 0 and method == "POST" and (route, "503", 60) not in self.seen:
            self.demand_fault(route, asked, fields, sent)
        answer = self.exchange(method, path, fields, sent, db=db)
        found = self.demand_told(f"{asked} {body!r} of {user}", answer, route)
        assert found == code, f"{asked} {body!r} of {user}: {answer[2]}"
        self.now += 1
        return answer[2]

    def demand_fault(self, route: str, asked: str, fields: Dict[str, str], sent: bytes) -> None:
        """Gives a command that would be accepted to a copy of the farm on a disk that is full. (Its log is in its file
        before, which an order does as it opens them, or there would be no farm to give it to.)"""
        for end in ("", "-wal"):
            shutil.copyfile(self.path(self.db + end), self.path("copy.db" + end))
        assert self.run("report", "--db", "copy.db", "boards").status == 0
        method, path = asked.split(" ")
        answer = self.exchange(method, path, fields, sent, db="copy.db", is_full=True)
        assert self.demand_told(asked, answer, route) == 60, f"{asked} on a full disk"

    def pass_at(self, seconds: int = 0) -> None:
        """Calls a pass so many seconds later."""
        self.now += seconds
        self.asks("dispatcher", "POST /pass")


def route_of(method: str, path: str) -> str:
    """The route of the document that a request is of."""
    found = [it for it in operations() if re.fullmatch(re.sub("{[a-z]+}", "[^/]+", it), f"{method} {path}")]
    assert found, f"{method} {path} isn't in the document"
    return found[0]


# ---- a day


def types_and_boards(lab: Lab) -> None:
    lab.asks("admin", "POST /types", {"name": "bbb"}, key="of-types")
    lab.asks("admin", "POST /types", {"name": "rpi", "check": "jobs", "every": 20})
    lab.asks("admin", "POST /types", {"name": "nuc", "check": "hours", "every": 24})
    lab.asks("admin", "POST /types", {"name": "bbb"}, 11)
    lab.asks("admin", "POST /types", {"name": "b b"}, 5, False)
    lab.asks("admin", "POST /types", {"check": "none"}, 50, False)
    lab.asks("admin", "POST /types", {"name": "x", "check": "weeks", "every": 1}, 50, False)
    lab.asks("admin", "POST /types", {"name": "x", "check": "jobs", "every": 10_001}, 50, False)
    lab.asks("ann", "POST /types", {"name": "x"}, 3)
    lab.asks("", "GET /types")
    board = {"name": "b1", "type": "bbb", "tags": ["serial", "hdmi"]}
    lab.asks("admin", "POST /boards", board, key="of-boards")
    lab.asks("admin", "POST /boards", {"name": "b2", "type": "bbb"})
    lab.asks("admin", "POST /boards", {"name": "r1", "type": "rpi"})
    lab.asks("admin", "POST /boards", {"name": "b1", "type": "bbb"}, 13)
    lab.asks("admin", "POST /boards", {"name": "b3", "type": "x86"}, 10)
    lab.asks("admin", "POST /boards", {"name": "b3", "type": "b b"}, 5, False)
    lab.asks("admin", "POST /boards", {"name": "b3", "type": "bbb", "tags": ["name=b1"]}, 6, False)
    lab.asks("admin", "POST /boards", {"name": "b3", "type": "bbb", "tags": ["a"] * 17}, 7, False)
    lab.asks("ann", "POST /boards", {"name": "b3", "type": "bbb"}, 3)
    lab.asks("admin", "POST /boards/b1/tags", {"tags": ["hdmi", "power=pdu1"]})
    lab.asks("admin", "POST /boards/b9/tags", {"tags": []}, 12)
    lab.asks("admin", "POST /boards/b1/tags", {"tags": ["a b"]}, 6, False)
    lab.asks("admin", "POST /boards/b1/tags", {"tags": ["a"] * 17}, 7, False)
    lab.asks("admin", "POST /boards/b!1/tags", {"tags": []}, 5)
    lab.asks("ann", "POST /boards/b1/tags", {"tags": []}, 3)
    for name, health in (("b1", "Good"), ("b2", "Good"), ("r1", "Unknown")):
        lab.asks("admin", f"POST /boards/{name}/health", {"health": health})
    lab.asks("admin", "POST /boards/b9/health", {"health": "Good"}, 12)
    lab.asks("admin", "POST /boards/b1/health", {"health": "Fine"}, 50, False)
    lab.asks("ann", "POST /boards/b1/health", {"health": "Good"}, 3)
    lab.asks("", "GET /boards")


def jobs(lab: Lab) -> None:
    one = "job_name = 'one'\ndevice_type = 'bbb'\n"
    number = lab.asks("ann", "POST /jobs", one + "tags = ['hdmi']\n")["number"]
    roles = "job_name = 'two'\n[roles.a]\ndevice_type = 'bbb'\ncount = 2\n"
    two = lab.asks("ann", "POST /jobs", roles)["number"]
    for code, text in [
        (70, "job_name ="),
        (23, f"{one}priority = 101\n"),
        (5, one.replace("bbb", "b b")),
        (6, f"{one}tags = ['a b']\n"),
        (7, f"{one}tags = {['a'] * 17}\n"),
        (10, one.replace("bbb", "x86")),
        (22, f"{one}tags = ['vga']\n"),
    ]:
        lab.asks("ann", "POST /jobs", text, code)
    lab.asks("dispatcher", "POST /jobs", one, 3)
    lab.asks("", "GET /queue")
    lab.asks("", f"GET /jobs/{number}")
    lab.asks("", "GET /jobs/99", code=20)
    lab.asks("ann", "POST /pass", code=3)
    lab.pass_at()
    lab.asks("", f"GET /jobs/{two}")
    for verb, body in (("start", None), ("finish", {"outcome": "Complete"})):
        lab.asks("ann", f"POST /jobs/{number}/{verb}", body, 3)
        lab.asks("dispatcher", f"POST /jobs/99/{verb}", body, 20)
        lab.asks("dispatcher", f"POST /jobs/{number}/{verb}", body)
        lab.asks("dispatcher", f"POST /jobs/{number}/{verb}", body, 21)
        lab.asks("", f"GET /jobs/{number}")
    lab.asks("dispatcher", f"POST /jobs/{number}/finish", {"outcome": "Canceled"}, 50, False)
    lab.asks("bob", f"POST /jobs/{two}/cancel", code=3)
    lab.asks("ann", f"POST /jobs/{two}/cancel")
    lab.asks("ann", f"POST /jobs/{two}/cancel", code=21)
    lab.asks("ann", "POST /jobs/99/cancel", code=20)
    lab.asks("", f"GET /jobs/{two}")
    check = next(it for it in lab.asks("", "GET /boards")["boards"] if it["name"] == "r1")
    kind = lab.asks("", f"GET /jobs/{check['holder'].split()[1]}")["kind"]
    assert kind == "check"


def reservations(lab: Lab) -> None:
    number = lab.asks("ann", "POST /reservations", {"tags": ["hdmi"], "priority": "high"})["number"]
    refused: List[Tuple[int, Schema, bool]] = [
        (22, {"tags": ["vga"]}, True),
        (23, {"tags": [], "priority": 101}, False),
        (6, {"tags": ["a b"]}, False),
        (7, {"tags": ["a"] * 17}, False),
        (50, {"priority": 1}, False),
    ]
    for code, body, schema_fits in refused:
        lab.asks("ann", "POST /reservations", body, code, schema_fits)
    lab.asks("dispatcher", "POST /reservations", {"tags": []}, 3)
    path = f"POST /reservations/{number}"
    lab.asks("ann", f"{path}/acquire", code=32)
    lab.asks("ann", f"{path}/release", code=32)
    lab.asks("ann", f"{path}/refresh")
    lab.asks("", "GET /queue")
    lab.pass_at()
    lab.asks("", "GET /reservations")
    lab.asks("ann", f"{path}/acquire")
    lab.asks("", "GET /boards")
    lab.asks("admin", "POST /boards/b1/health", {"health": "Retired"}, 14)
    lab.asks("ann", f"{path}/release")
    lab.asks("ann", f"{path}/cancel")


def ended_reservations(lab: Lab) -> None:
    late = lab.asks("ann", "POST /reservations", {"tags": [], "priority": 7})["number"]
    lab.now += 60
    for verb in ("acquire", "release", "refresh", "cancel"):
        lab.asks("ann", f"POST /reservations/99/{verb}", code=30)
        lab.asks("bob", f"POST /reservations/{late}/{verb}", code=3)
        lab.asks("ann", f"POST /reservations/{late}/{verb}", code=31)
    for verb in ("refresh", "cancel"):
        early = lab.asks("ann", "POST /reservations", {"tags": []})["number"]
        lab.asks("ann", f"POST /reservations/{early}/cancel")
        lab.asks("ann", f"POST /reservations/{early}/{verb}", code=32)
    lab.pass_at()
    lab.asks("", "GET /reservations")
    lab.asks("admin", "POST /boards/b2/health", {"health": "Retired"})
    lab.asks("admin", "POST /boards/b2/health", {"health": "Good"}, 15)
    lab.asks("admin", "POST /boards/b2/tags", {"tags": []}, 15)
    lab.asks("", "GET /status")


# A body for each route that wants one, which is read before what these rows are refused for.
BODIES = {
    "POST /types": '{"name":"x"}',
    "POST /boards": '{"name":"x","type":"bbb"}',
    "POST /boards/{name}/tags": '{"tags":[]}',
    "POST /boards/{name}/health": '{"health":"Good"}',
    "POST /jobs": "job_name = 'one'\ndevice_type = 'bbb'\n",
    "POST /jobs/{n}/finish": '{"outcome":"Complete"}',
    "POST /reservations": '{"tags":[]}',
}


def every_route(lab: Lab) -> None:
    """What each route refuses."""
    for route in operations():
        method, path = re.sub("{n}", "1", route.replace("{name}", "b1")).split(" ")
        body = BODIES.get(route, "").encode()
        own = {"x-user": "admin", "content-length": len(body)}
        own = own if method == "POST" else {}
        used = "of-types" if route != "POST /types" else "of-boards"
        rows: List[Tuple[int, Schema]] = [(51, {"content-length": 65_537}), (54, {"transfer-encoding": "chunked"})]
        rows += [(50, {"content-length": "x"})]
        if method == "POST":
            rows += [(5, {"x-user": "a b"}), (41, {"x-key": "a b"}), (40, {"x-key": used})]
            rows += [(2, {"x-key": "late"})]
        for code, fields in rows:
            at = LATE if code == 2 else None
            answer = lab.exchange(method, path, {**own, **fields}, body, at)
            assert lab.demand_told(f"{route} with {fields}", answer, route) == code, fields
        if method == "POST":
            answer = lab.exchange(method, path, {"content-length": len(body)}, body)
            assert lab.demand_told(f"{route} of nobody", answer, route) == 50
        if "{n}" in route:
            answer = lab.exchange(method, path.replace("1", "01"), own, body)
            assert lab.demand_told(f"{route} 01", answer, route) == 50


def other_routes(lab: Lab) -> None:
    """What isn't in the document is refused as it says."""
    responses = DOCUMENT["components"]["responses"]
    for path, methods in DOCUMENT["paths"].items():
        there = [it.upper() for it in sorted(methods)]
        place = path.replace("{name}", "b1").replace("{n}", "1")
        for method in sorted(set(METHODS) - set(there)):
            status, fields, said = lab.exchange(method, place, {"x-user": "ann"})
            assert (status, fields["allow"]) == ("405", ", ".join(there)), f"{method} {path}"
            demand_refusal(said, responses["WrongMethod"])
    status, _, said = lab.exchange("POST", "/nowhere", {"x-user": "ann"})
    assert status == "404"
    demand_refusal(said, responses["NoSuchRoute"])


def demand_refusal(said: Any, response: Schema) -> None:
    content = response["content"]["application/json"]
    demand_fits(said, True, said, content["schema"])
    assert [it["value"] for it in content["examples"].values()] == [said]


def full_farm(lab: Lab) -> None:
    """A farm that has as many types, and boards of a type, as it may."""
    lines = [f"[types.t{it}]" for it in range(64)]
    lines += [f'[boards.b{it}]\ntype = "t0"' for it in range(64)]
    with open(lab.path("full.toml"), "w", encoding="utf-8") as text:
        text.write("\n".join(lines) + "\n")
    lab.prints("ready", "init", "--db", "full.db")
    lab.prints("accepted 128, kept 0", "import", "--db", "full.db", "--at", "10", "full.toml")
    lab.asks("admin", "POST /types", {"name": "t64"}, FULL, db="full.db")
    lab.asks("admin", "POST /boards", {"name": "b64", "type": "t0"}, FULL, db="full.db")


def demand_all_seen(lab: Lab) -> None:
    """Each status and code of each route is seen, but for those that are left out."""
    wanted: Set[Tuple[str, str, int]] = set()
    for route, operation in operations().items():
        for status, response in operation["responses"].items():
            content = resolved(response)["content"]["application/json"]
            codes = [it["value"]["code"] for it in content.get("examples", {}).values()]
            wanted |= {(route, status, it) for it in codes or [0]}
    left_out = {it for it in wanted if it[2] in LEFT_OUT}
    left_out |= {it for it in wanted if it[2] == FULL and it[0] not in SEEN_FULL}
    assert sorted(lab.seen - wanted) == [], "seen, and not in the document"
    assert sorted(wanted - lab.seen - left_out) == [], "in the document, and not seen"


@pytest.mark.slow(60)
def test_day(program: str, folder: str, record_property: Callable[[str, object], None]) -> None:
    """Each route, status and code of the document is seen in a lab's day, and answered as it says."""
    if not jsonschema:
        record_property("not tried", "a second opinion on openapi.json's schemas (this Python has no jsonschema)")
    lab = Lab(program, folder)
    for part in (
        types_and_boards, jobs, reservations, ended_reservations, every_route, other_routes, full_farm,
    ):
        part(lab)
    demand_all_seen(lab)
