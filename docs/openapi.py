#!/usr/bin/env python3
"""Writes docs/openapi.json, the wire for programs: python3 docs/openapi.py > docs/openapi.json

The tables below have what only they say: which schema each route takes and answers, and how far a
field's values go. The fields of answers are those of the Python package's views
(python/src/fizgruk/models.py); the routes' texts, their refusals, the codes and the examples those of
docs/API.md, read from there. tests/program/test_openapi.py demands that the file is what this prints, and
what a built program answers.
"""
import dataclasses
import json
import os
import re
import sys
from typing import Literal, get_args, get_origin

HERE = os.path.dirname(os.path.abspath(__file__))
sys.path.insert(0, os.path.join(HERE, "..", "python", "src"))

from fizgruk import models  # noqa: E402
ABOUT = """\
The wire of a board farm's desk, as docs/API.md has it in words and bytes; docs/MACHINE.md says what
the commands mean. A path that isn't here is answered by the response NoSuchRoute, another method of
a path by WrongMethod. After a 503, and where no answer came, nobody knows whether a command was
done: it is sent again with its key."""

# ---- routes: name, summary, body, answer

ROUTES = {
    "POST /types": ("addType", "Add a type", "NewType", "Number"),
    "GET /types": ("types", "The types", None, "Types"),
    "POST /boards": ("addBoard", "Add a board", "NewBoard", "Number"),
    "POST /boards/{name}/tags": ("setTags", "Set a board's tags", "NewTags", "Number"),
    "POST /boards/{name}/health": ("setHealth", "Set a board's health", "NewHealth", "Number"),
    "GET /boards": ("boards", "The boards", None, "Boards"),
    "POST /jobs": ("submit", "Submit a job file", "JobFile", "Number"),
    "GET /queue": ("queue", "What waits for boards", None, "Queue"),
    "POST /pass": ("callPass", "Give boards to what waits", None, "PassCounts"),
    "POST /jobs/{n}/start": ("startJob", "Start a job's group", None, "Number"),
    "POST /jobs/{n}/finish": ("finishJob", "Say how a job ended", "End", "Number"),
    "POST /jobs/{n}/cancel": ("cancelJob", "Cancel a job's group", None, "Number"),
    "GET /jobs/{n}": ("job", "A job", None, "Job"),
    "POST /reservations": ("reserve", "Reserve a board", "NewReservation", "Number"),
    "POST /reservations/{n}/refresh": ("refresh", "Refresh a reservation", None, "Number"),
    "GET /reservations": ("reservations", "The reservations", None, "Reservations"),
    "POST /reservations/{n}/acquire": ("acquire", "Acquire the board", None, "Number"),
    "POST /reservations/{n}/release": ("release", "Release the board", None, "Number"),
    "POST /reservations/{n}/cancel": ("cancelReservation", "End a reservation", None, "Number"),
    "GET /status": ("status", "The farm in numbers", None, "Status"),
}

# ---- refusals: of every request, of every command, and of what a body has

OF_ALL = (1, 50, 51, 54, 61)
OF_COMMANDS = (2, 3, 4, 5, 40, 41, 60)
OF_FIELDS = {"tags": (6, 7), "priority": (23,)}
OF_ROUTES, OF_METHODS = 52, 53

# ---- schemas


def ref(name):
    return {"$ref": f"#/components/schemas/{name}"}


def words(kind):
    """One of the words of a view's field."""
    return {"type": "string", "enum": list(get_args(kind))}


def kind_of(field):
    """What a view says of a field."""
    if get_origin(field.type) is Literal:
        return words(field.type)
    return {
        int: COUNT, str: {"type": "string"}, models.Tags: ref("Tags"), models.Moment: ref("Moment"),
        models.Held: {"type": "string"},
    }[field.type]


def row(**fields):
    """An answer's object, which has exactly these fields."""
    return {**body(**fields), "required": sorted(fields), "additionalProperties": False}


def view(kind, **narrower):
    """An answer's object with the fields of a view, of which some are narrower than it says."""
    return row(**{it.name: kind_of(it) for it in dataclasses.fields(kind)} | narrower)


def body(**fields):
    """A request's object; other fields are ignored. A field with a bar behind it may be absent."""
    return {
        "type": "object",
        "properties": {it.rstrip("_"): fields[it] for it in sorted(fields)},
        "required": [it for it in sorted(fields) if not it.endswith("_")],
    }


def rows(field, name):
    return row(**{field: {"type": "array", "items": ref(name)}})


LETTER = "[A-Za-z0-9_.-]"
COUNT = {"type": "integer", "minimum": 0}
NUMBER = {"type": "integer", "minimum": 1, "maximum": 999_999_999}
PRIORITY = {"type": "integer", "minimum": 0, "maximum": 100}
NAME_OR_NOTHING = {"type": "string", "pattern": f"^{LETTER}{{0,48}}$"}

SCHEMAS = {
    "Name": {"type": "string", "pattern": f"^{LETTER}{{1,48}}$"},
    "Key": {"type": "string", "pattern": f"^{LETTER}{{1,64}}$"},
    "Tag": {"type": "string", "pattern": f"^{LETTER}{{1,32}}(={LETTER}{{1,64}})?$"},
    "Tags": {"type": "array", "items": ref("Tag"), "maxItems": 16},
    "BoardTag": {
        "type": "string", "pattern": f"^(?!name(=|$)){LETTER}{{1,32}}(={LETTER}{{1,64}})?$"
    },
    "BoardTags": {"type": "array", "items": ref("BoardTag"), "maxItems": 16},
    "Priority": {
        "oneOf": [
            PRIORITY,
            {"type": "string", "enum": ["low", "medium", "high"]},
        ]
    },
    "Moment": {
        "type": "integer", "minimum": 0, "maximum": 250_000_000_000,
        "description": "seconds since 1970-01-01 00:00:00 UTC",
    },
    "NewType": body(
        name=ref("Name"),
        check_=words(models.Check),
        every_={
            "type": "integer", "minimum": 1, "maximum": 10_000,
            "description": "needed where check is hours or jobs",
        },
    ),
    "NewBoard": body(name=ref("Name"), type=ref("Name"), tags_=ref("BoardTags")),
    "NewTags": body(tags=ref("BoardTags")),
    "NewHealth": body(health=words(models.Health)),
    "JobFile": {
        "type": "string", "maxLength": 65_536,
        "description": "TOML with job_name, device_type and tags, or roles, and priority",
    },
    "End": body(outcome=words(models.Outcome)),
    "NewReservation": body(tags=ref("Tags"), priority_=ref("Priority")),
    "Number": row(number=COUNT),
    "PassCounts": view(models.PassCounts),
    "Refusal": row(code={"type": "integer"}, text={"type": "string"}),
    "Type": view(models.TypeView, name=ref("Name")),
    "Types": rows("types", "Type"),
    "Board": view(
        models.BoardView,
        name=ref("Name"),
        type=ref("Name"),
        tags=ref("BoardTags"),
        holder={"type": "string", "pattern": "^(none|(job|reservation) [1-9][0-9]{0,8})$"},
        last_check=ref("Moment"),
    ),
    "Boards": rows("boards", "Board"),
    "Job": view(
        models.JobView,
        number=NUMBER,
        group=NUMBER,
        board=NAME_OR_NOTHING,
        type=ref("Name"),
        role=NAME_OR_NOTHING,
        owner=ref("Name"),
        priority=PRIORITY,
    ),
    "Claim": view(
        models.Claim,
        number=NUMBER,
        owner=ref("Name"),
        priority=PRIORITY,
        boards={"type": "integer", "minimum": 1, "maximum": 4},
    ),
    "Queue": rows("queue", "Claim"),
    "Reservation": view(
        models.ReservationView,
        number=NUMBER,
        board=NAME_OR_NOTHING,
        owner=ref("Name"),
        priority=PRIORITY,
        deadline=ref("Moment"),
    ),
    "Reservations": rows("reservations", "Reservation"),
    "Status": view(models.Status, clock=ref("Moment"), next=NUMBER),
}

# What the examples of docs/API.md don't show by themselves.
SHOWN = {
    "Name": "bbb-01",
    "Key": "nightly-1",
    "Tag": "power=pdu1",
    "Tags": ["hdmi", "power=pdu1"],
    "BoardTag": "power=pdu1",
    "BoardTags": ["hdmi", "power=pdu1"],
    "Priority": "high",
    "Moment": 1_700_000_000,
    "Refusal": {"code": 22, "text": "no such boards"},
}

# ---- docs/API.md


def page():
    with open(os.path.join(HERE, "API.md"), encoding="utf-8") as text:
        return text.read()


def texts_of(text):
    """What stands below the heading of each route, up to its first example."""
    parts = re.findall(r"^### `(.*)`\n((?:.+\n|\n(?! {4}at |#))*)", text, re.MULTILINE)
    return {route: " ".join(said.split()) for route, said in parts}


def refusals_of(text):
    """The status and the text of each code."""
    found = re.findall(r"^\| (\d+) \| (\d+) \| ([a-z ]+) \|", text, re.MULTILINE)
    return {int(code): (status, said) for code, status, said in found}


def examples_of(text):
    """Of each route the body of the first request that is accepted, and that of its answer."""
    found = {}
    for part in text.split("\n    at ")[1:]:
        lines = [it[4:] for it in part.split("\n") if it.startswith(("    >", "    <"))]
        asked = "\n".join(it[2:] for it in lines if it[0] == ">")
        answered = "\n".join(it[2:] for it in lines if it[0] == "<")
        route = route_of(asked.split(" HTTP")[0])
        if route and answered.startswith("HTTP/1.1 200 "):
            pair = (asked.partition("\n\n")[2], json.loads(answered.partition("\n\n")[2]))
            found.setdefault(route, pair)
    return found


def route_of(asked):
    """The route that a request's method and path are of, if there is one."""
    for route in ROUTES:
        if re.fullmatch(re.sub("{[a-z]+}", LETTER + "+", route), asked):
            return route
    return None


# ---- the document


def codes_of(route, said):
    """The codes that a route may be refused by."""
    own = re.search(r"Refused by ([^.]*)\.", said)
    codes = {int(it) for it in re.findall(r"\d+", own.group(1))} if own else set()
    codes |= {*OF_ALL, *(OF_COMMANDS if route.startswith("POST") else ())}
    name = ROUTES[route][2]
    for field in SCHEMAS[name].get("properties", {}) if name else ():
        codes |= set(OF_FIELDS.get(field, ()))
    return codes


def refusal(codes, refusals):
    """The response of refusals of one status."""
    told = [(code, refusals[code][1]) for code in codes]
    return {
        "description": "; ".join(f"{code} {text}" for code, text in told),
        "content": {
            "application/json": {
                "schema": {**ref("Refusal"), "properties": {"code": {"enum": list(codes)}}},
                "examples": {
                    text.replace(" ", "-"): {"value": {"code": code, "text": text}}
                    for code, text in told
                },
            }
        },
    }


def parameters_of(route):
    """The path's parameter, and the fields of a command."""
    found = []
    if "{name}" in route:
        found.append({"name": "name", "in": "path", "required": True, "schema": ref("Name")})
    if "{n}" in route:
        found.append({"name": "n", "in": "path", "required": True, "schema": NUMBER})
    if route.startswith("POST"):
        found += [{"$ref": f"#/components/parameters/{it}"} for it in ("User", "Key")]
    return found


def operation_of(route, said, example, responses, refusals):
    """A route's operation. The responses of refusals are added to those of the document."""
    name, summary, given, answer = ROUTES[route]
    asked, answered = example
    operation = {
        "operationId": name,
        "summary": summary,
        "description": said,
        "parameters": parameters_of(route),
    }
    if given:
        kind = "application/toml" if given == "JobFile" else "application/json"
        shown = asked if given == "JobFile" else json.loads(asked)
        operation["requestBody"] = {
            "required": True, "content": {kind: {"schema": ref(given), "example": shown}}
        }
    content = {"application/json": {"schema": ref(answer), "example": answered}}
    told = {"200": {"description": "it is done" if given else "the answer", "content": content}}
    codes = codes_of(route, said)
    for status in sorted({refusals[it][0] for it in codes}):
        those = sorted(it for it in codes if refusals[it][0] == status)
        key = f"Refused{status}By" + "And".join(map(str, those))
        responses[key] = refusal(those, refusals)
        told[status] = {"$ref": f"#/components/responses/{key}"}
    return {**operation, "responses": told}


def schemas_of(examples):
    """The schemas, each with an example."""
    shown = dict(SHOWN)
    for route, (asked, answered) in examples.items():
        _, _, given, answer = ROUTES[route]
        if given:
            shown.setdefault(given, asked if given == "JobFile" else json.loads(asked))
        shown.setdefault(answer, answered)
        for it in answered.values():
            if isinstance(it, list):
                shown.setdefault(answer[:-1] if answer != "Queue" else "Claim", it[0])
    return {name: {**schema, "examples": [shown[name]]} for name, schema in SCHEMAS.items()}


def components_of(responses, schemas):
    """What the operations refer to."""
    login = {"type": "http", "scheme": "basic", "description": "checked by the proxy alone"}
    user = {
        "name": "x-user", "in": "header", "required": True, "schema": ref("Name"),
        "description": "who asks; the proxy sets it from the login",
    }
    key = {
        "name": "x-key", "in": "header", "schema": ref("Key"),
        "description": "the command is done once under it, and answered alike later",
    }
    return {
        "securitySchemes": {"login": login},
        "parameters": {"User": user, "Key": key},
        "responses": dict(sorted(responses.items())),
        "schemas": schemas,
    }


def document():
    text = page()
    texts, refusals, examples = texts_of(text), refusals_of(text), examples_of(text)
    allow = {"allow": {"description": "the path's methods", "schema": {"type": "string"}}}
    responses = {
        "NoSuchRoute": refusal([OF_ROUTES], refusals),
        "WrongMethod": {**refusal([OF_METHODS], refusals), "headers": allow},
    }
    paths = {}
    for route in ROUTES:
        method, path = route.split(" ")
        operation = operation_of(route, texts[route], examples[route], responses, refusals)
        paths.setdefault(path, {})[method.lower()] = operation
    return {
        "openapi": "3.1.0",
        "info": {"title": "Fizgruk", "version": "2.0", "description": " ".join(ABOUT.split())},
        "servers": [
            {"url": "http://127.0.0.1:880", "description": "the desk itself"},
            {"url": "https://farm.lab.example", "description": "the proxy in front of it"},
        ],
        "security": [{}, {"login": []}],
        "paths": paths,
        "components": components_of(responses, schemas_of(examples)),
    }


if __name__ == "__main__":
    print(json.dumps(document(), indent=1, ensure_ascii=False))
