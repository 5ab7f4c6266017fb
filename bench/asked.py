"""The lists of requests that servers are asked, in the form of client.c."""
from __future__ import annotations

from collections.abc import Iterator

from farms import BOARDS, JOB_FILE, TAGS

TURNS = 4
TURN_NUMBERS = 3 * BOARDS  # jobs and reservations that a turn makes
TIMES = 200
RESERVATION = '{"tags":["k01","k07"]}'
Phases = list[tuple[str, list[bytes]]]


def item(name: str, line: str, caller: str, body: str = "", status: int = 200, key: str | None = None) -> bytes:
    """A request of a client's list; '-' is one that isn't timed."""
    head = f"{line} HTTP/1.1\r\nx-user: {caller}\r\n" + (f"x-key: {key}\r\n" if key else "")
    request = f"{head}content-length: {len(body)}\r\n\r\n{body}"
    return f"{name} {status} {len(request)}\n{request}".encode()


def key_of(number: int) -> str:
    return f"key-{number:08}"


def reserve(number: int | None = None) -> bytes:
    """A reservation, under a key where its number is given."""
    if number is None:
        return item("reserve", "POST /reservations", "ann", RESERVATION)
    return item("reserve_keyed", "POST /reservations", "ann", RESERVATION, key=key_of(number))


def cancel_reservation(name: str, number: int) -> bytes:
    return item(name, f"POST /reservations/{number}/cancel", "ann")


def added_boards() -> Phases:
    tags = ",".join(f'"{it}"' for it in TAGS)
    names = [f"extra-{place:04}" for place in range(BOARDS)]
    return [
        ("add_board", [item("add_board", "POST /boards", "admin", f'{{"name":"{it}","type":"bbb","tags":[{tags}]}}') for it in names]),
        ("-", [item("-", f"POST /boards/{it}/health", "admin", '{"health":"Good"}') for it in names]),
    ]


def turn(first: int) -> Phases:
    """Jobs are submitted, served, started and finished; reservations are made without and with a key, and canceled.
    Numbers begin at `first`."""
    numbers = range(first, first + BOARDS)
    reserved, keyed = (range(first + BOARDS * it, first + BOARDS * (it + 1)) for it in (1, 2))
    return [
        ("submit_keyed", [item("submit_keyed", "POST /jobs", "ann", JOB_FILE, key=key_of(it)) for it in numbers]),
        ("pass_serves_64", [item("pass_serves_64", "POST /pass", "dispatcher")]),
        ("start", [item("start", f"POST /jobs/{it}/start", "dispatcher") for it in numbers]),
        ("finish", [item("finish", f"POST /jobs/{it}/finish", "dispatcher", '{"outcome":"Complete"}') for it in numbers]),
        ("reserve", [reserve() for _ in numbers]),
        ("-", [cancel_reservation("-", it) for it in reserved]),
        ("reserve_keyed", [reserve(it) for it in keyed]),
        ("-", [cancel_reservation("-", it) for it in keyed]),
    ]


def command_phases(finished: int, turns: int = TURNS) -> Phases:
    """Commands to a farm of so many finished jobs, behind 64 reservations that end at the first pass."""
    phases = [*added_boards(), ("pass_ends_64", [item("pass_ends_64", "POST /pass", "dispatcher")])]
    for place in range(turns):
        phases += turn(1 + BOARDS + finished + TURN_NUMBERS * place)
    return phases


def commands(finished: int) -> list[bytes]:
    return [it for _, listed in command_phases(finished) for it in listed]


def views() -> list[bytes]:
    asked = [
        ("status", "GET /status", 200),
        ("no_such_route", "GET /nowhere", 404),
        ("no_such_job", "POST /jobs/999999999/cancel", 404),
        ("boards_256", "GET /boards", 200),
        ("queue_1000", "GET /queue", 200),
    ]
    return [item(name, line, "ann", status=status) for name, line, status in asked for _ in range(TIMES)]


def claims(first: int) -> list[bytes]:
    """Jobs and reservations are made and canceled, one by one. Numbers begin at `first`."""
    listed = []
    for number in range(first, first + 2 * TIMES, 2):
        listed += [
            item("submit", "POST /jobs", "ann", JOB_FILE),
            reserve(),
            item("refresh", f"POST /reservations/{number + 1}/refresh", "ann"),
            item("cancel", f"POST /jobs/{number}/cancel", "ann"),
            cancel_reservation("cancel_reservation", number + 1),
        ]
    return listed


def pairs_of_reserves(free: int) -> Iterator[bytes]:
    for number in range(free, free + 2 * TIMES, 2):
        yield reserve()
        yield reserve(number)
        yield cancel_reservation("-", number)
        yield cancel_reservation("-", number + 1)


def idle_day(free: int) -> list[bytes]:
    """What is asked of a farm in which nobody waits: passes with nothing to do, reservations made with and without a
    key, its views. `free` is the next number."""
    return [
        item("first_pass", "POST /pass", "dispatcher"),
        *(item("pass", "POST /pass", "dispatcher") for _ in range(TIMES)),
        *pairs_of_reserves(free),
        *(item("boards_256", "GET /boards", "ann") for _ in range(TIMES)),
        *(item("reservations", "GET /reservations", "ann") for _ in range(5)),
    ]
