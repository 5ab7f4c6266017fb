"""What the client answers a program, and what it says of a refusal, by a desk that the test sets."""
from __future__ import annotations

import argparse
import json
import sys
import types
from typing import Any, Callable, Dict

import pytest
from fake_desk import FakeDesk
from fizgruk import history
from fizgruk.desk import holding, orders, past_jobs, waiting as desk_waiting
from fizgruk.errors import Refused

NO = Refused(401, 0, "no")
NO_FILES: Dict[str, Any] = {f"{it}.json": {} for it in ("running", "waiting", "workers")}


def called(command: Callable[..., int], desk: FakeDesk, **options: Any) -> int:
    clock = types.SimpleNamespace(look=lambda: None, note_own=lambda: None)
    given: Dict[str, Any] = {"json": True, "number": 7, "numbers": [7], "hold": 7, "wait": False, "follow": False, "mine": False}
    return command(desk, argparse.Namespace(**{**given, "clock": clock, **options}))


def test_a_programs_answers_are_objects(capsys: pytest.CaptureFixture[str], monkeypatch: pytest.MonkeyPatch) -> None:
    assert called(orders.cancel_jobs, FakeDesk()) == 0
    assert called(orders.change_reservation, FakeDesk(), action="release") == 0
    monkeypatch.setattr(holding, "wait_for_board", lambda *_: {"name": "b1"})
    desk: Any = FakeDesk()
    reservation: Any = types.SimpleNamespace(desk=desk, tags=[], acquire=lambda _: None)
    options = argparse.Namespace(json=True, acquire=True, clock=None, every=2)
    assert orders.await_board(reservation, 7, options) == 0
    assert [json.loads(it) for it in capsys.readouterr().out.splitlines()] == [
        {"number": 7}, {"number": 7}, {"board": "b1", "number": 7}]


@pytest.mark.parametrize("command, options", [
    (orders.cancel_jobs, {}), (orders.change_reservation, {"action": "acquire"}), (orders.wait_for, {}),
])
def test_a_refusal_that_isnt_the_states_is_told_as_it_is(command: Callable[..., int], options: Dict[str, Any]) -> None:
    with pytest.raises(Refused, match="^401 no$"):
        called(command, FakeDesk(NO, jobs=NO), **options)


def test_a_desk_that_doesnt_let_it_in_shows_no_jobs(monkeypatch: pytest.MonkeyPatch) -> None:
    def fails(*_: object) -> None:
        raise NO

    monkeypatch.setattr(history, "past_of", fails)
    desk = FakeDesk(queue={"queue": []}, boards={"boards": []}, **NO_FILES)
    with pytest.raises(Refused, match="401"):
        called(past_jobs.list_jobs, desk, mine=False, last=None, limit=None)


def test_how_wide_a_line_is_where_there_is_no_terminal(monkeypatch: pytest.MonkeyPatch) -> None:
    monkeypatch.setattr(sys, "stderr", types.SimpleNamespace(fileno=lambda: -1))
    assert desk_waiting.columns() == desk_waiting.WIDTH
