"""The examples of docs/API.md: each route and each refusal has one, and each is answered as printed."""
from __future__ import annotations

import os
import re
from typing import Dict, List, Tuple

from orders import Orders
from served import TOP, read

# Codes that no request by itself brings about, as the page says.
LEFT_OUT = {"1", "4", "60", "61"}
PAGE = read(os.path.join(TOP, "docs", "API.md"))


def examples() -> List[Tuple[str, List[str], List[str]]]:
    """The examples of the page: the moment, the lines of the request, those of the answer.

    An answer without fields, as all but the first have it, gets those that each answer has.
    """
    found: List[Tuple[str, List[str], List[str]]] = []
    for line in PAGE.splitlines():
        if line.startswith("    at "):
            found.append((line[7:], [], []))
        elif line[:5] in ("    >", "    <"):
            _, asked, answer = found[-1]
            (asked if line[4] == ">" else answer).append(line[6:])
    for _, _, answer in found:
        if answer[1] == "":
            answer[1:1] = fields_of("\n".join(answer[2:]))
    return found


def fields_of(body: str) -> List[str]:
    """The fields of the head of each answer."""
    return ["content-type: application/json", f"content-length: {len(body.encode())}", "connection: close"]


def bytes_of(lines: List[str]) -> bytes:
    """Lines of a head end with CRLF, those of a body but its last with a line feed."""
    end = lines.index("")
    head = "".join(f"{it}\r\n" for it in lines[: end + 1])
    return (head + "\n".join(lines[end + 1 :])).encode()


def is_done(answer: List[str]) -> bool:
    return answer[0] == "HTTP/1.1 200 OK"


def test_examples_are_answered(orders: Orders) -> None:
    """Each example, one after another over one file, is answered byte by byte as the page prints it."""
    orders.init()
    for moment, asked, answer in examples():
        ran = orders.run("once", "--db", "lab.db", "--at", moment, given=bytes_of(asked))
        assert ran.output == bytes_of(answer).decode(), f"at {moment} {asked[0]}"
        assert ran.status == (0 if is_done(answer) else 3), f"at {moment} {asked[0]}"


def test_each_route_is_shown() -> None:
    """Each route that has a heading has an example that is accepted."""
    accepted = [asked[0] for _, asked, answer in examples() if is_done(answer)]
    for route in re.findall("^### `(.*)`$", PAGE, re.MULTILINE):
        form = re.sub("{[a-z]+}", "[A-Za-z0-9_.-]+", route) + " HTTP/1.1"
        assert any(re.fullmatch(form, it) for it in accepted), route


def test_each_refusal_is_shown() -> None:
    """Each row of the table of refusals, but those that the page leaves out, has an example."""
    table = dict(re.findall(r"^\| (\d+) \| (\d+ \| [a-z ]+) \|", PAGE, re.MULTILINE))
    shown: Dict[str, str] = {}
    for _, _, answer in examples():
        code = re.fullmatch('{"code":([0-9]+),"text":"(.*)"}', answer[-1])
        if code:
            shown[code.group(1)] = f"{answer[0].split()[1]} | {code.group(2)}"
    assert shown == {it: row for it, row in table.items() if it not in LEFT_OUT}
