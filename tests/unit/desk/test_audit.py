"""Which lines of the site's audit concern a board."""
from __future__ import annotations

import argparse
import json
import pathlib
from typing import Any, Dict, List

import pytest
from fake_desk import FakeDesk
from fizgruk.desk import audit
from fizgruk.errors import Code, Refused

NO_JOB = Refused(404, Code.NO_SUCH_JOB, "no such job")


def line(command: str, body: Any = "", **more: Any) -> Dict[str, Any]:
    text = body if isinstance(body, str) else json.dumps(body)
    return {"at": "2026-12-01T09:00:00+00:00", "login": "ann", "from": "::1", "command": command, "body": text, **more}


def shown(rows: List[Any], place: pathlib.Path, capsys: pytest.CaptureFixture[str], last: int = 50) -> List[int]:
    """The places of the lines that are shown of board b1."""
    file = place / "audit.log"
    file.write_text("".join(f"{it if isinstance(it, str) else json.dumps({**it, 'place': at})}\n" for at, it in enumerate(rows)))
    desk: Any = FakeDesk(
        jobs={3: {"board": "b1"}, 4: {"board": "b2"}, 5: NO_JOB},
        reservations=[{"number": 7, "board": "b1"}, {"number": 8, "board": ""}],
    )
    assert audit.show_audit(desk, argparse.Namespace(board="b1", last=last, file=str(file), json=True)) == 0
    return [it["place"] for it in json.loads(capsys.readouterr().out)["audit"]]


@pytest.mark.parametrize("row, is_shown", [
    (line("POST /boards/b1/health", {"health": "Bad"}), True),
    (line("POST /boards/b1/health?x=1", {"health": "Bad"}), True),
    (line("POST /boards/b10/health", {"health": "Bad"}), False),
    (line("POST /jobs/3/cancel"), True), (line("POST /jobs/3/cancel?/boards/b2/"), True),
    (line("POST /jobs/4/cancel"), False), (line("POST /jobs/4/cancel?/boards/b1/health"), False),
    (line("POST /jobs/5/cancel"), False), (line(f"POST /jobs/{'3' * 20}/cancel"), False),
    (line("POST /reservations/7/release"), True), (line("POST /reservations/8/release"), False),
    (line("POST /jobs", "job_name = 'x'", number="3"), True), (line("POST /jobs?x=1", "job_name = 'x'", number="3"), True),
    (line("POST /jobs", "job_name = 'x'", number="4"), False), (line("POST /jobs", "", number=3), False),
    (line("POST /reservations?x", {"tags": []}, number="7"), True), (line("POST /reservations", {"tags": []}, number="-"), False),
    (line("POST /reservations", {"tags": ["name=b1"]}), True), (line("POST /reservations", {"tags": "name=b1"}), False),
    (line("POST /boards", {"name": "b1", "type": "bbb"}), True), (line("POST /boards", {"name": "b2"}), False),
    ("{", False), ('"b1"', False), ({"command": "POST /boards/b1/health"}, False), (line("POST /boards/b1/health", at=5), False),
])
def test_a_line_concerns_a_board(row: Any, is_shown: bool, tmp_path: pathlib.Path, capsys: pytest.CaptureFixture[str]) -> None:
    """By its path, by its body, or by the job or reservation that it is a command to, or made; what stands behind a `?`
    counts for nothing, and what is no line of the site's is passed over."""
    assert shown([row], tmp_path, capsys) == ([0] if is_shown else [])


def test_the_last_lines_are_shown_the_newest_last(tmp_path: pathlib.Path, capsys: pytest.CaptureFixture[str]) -> None:
    rows = [line(f"POST /boards/b{1 + at % 2}/health") for at in range(10)]
    assert shown(rows, tmp_path, capsys, last=3) == [4, 6, 8]
