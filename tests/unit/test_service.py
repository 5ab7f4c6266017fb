"""What the tools do in one way (fizgruk._tools.service): signals, exit statuses, troubles that are told once, rounds, and
the file that starts each."""
from __future__ import annotations

import os
import pathlib
import signal
import sys
import types
from typing import Any, Callable, Dict, List, Optional

import pytest
from fizgruk import _tools
from fizgruk._tools import service
from fizgruk.errors import BadSettings, Refused, Unreachable
from fizgruk.words import BadFile
from served import TOOLS


def test_signals_come_once(monkeypatch: pytest.MonkeyPatch) -> None:
    """One that is ignored, as by nohup, stays so; behind the first none is raised."""
    set_to: Dict[int, Any] = {}
    kept = {it: 1 if it == signal.SIGHUP else 0 for it in service.SIGNALS}
    fake = types.SimpleNamespace(SIG_IGN=1, getsignal=kept.get, signal=set_to.__setitem__)
    monkeypatch.setattr(service, "signal", fake)
    monkeypatch.setattr(service, "CAME", [])
    service.catch_signals()
    assert set_to == {it: service.interrupt for it in service.SIGNALS if it != signal.SIGHUP}
    service.check()
    with pytest.raises(service.Interrupted) as came:
        service.interrupt(15, None)
    assert came.value.status == 143 and set(set_to.values()) == {1}
    with pytest.raises(service.Interrupted) as again:
        service.check()
    assert again.value.status == 143


# ---- what is told


def test_a_trouble_is_told_again_only_after_another(capsys: pytest.CaptureFixture[str]) -> None:
    tell = service.Teller("tool")
    for it in ("a", "a", "b", "a"):
        tell.once(it)
    assert capsys.readouterr().err == "tool: a\ntool: b\ntool: a\n"


def test_a_trouble_that_nobody_can_be_told_of_ends_nothing(monkeypatch: pytest.MonkeyPatch) -> None:
    class Closed:
        def write(self, text: str) -> None:
            raise OSError("closed")

    monkeypatch.setattr(sys, "stderr", Closed())
    service.Teller("tool").once("a")


def test_troubles_are_told_while_they_are_new_and_their_end_once() -> None:
    told: List[str] = []
    troubles = service.Troubles(told.append)
    for found in ((), ("a", "b"), ("b", ""), ("b", "a"), ("",), ()):
        troubles.are(*found)
    assert told == ["a", "b", "a", "it goes on"]


# ---- what is done


def raising(fault: Optional[BaseException]) -> Callable[[], Any]:
    def work() -> int:
        if fault:
            raise fault
        return 7

    return work


@pytest.mark.parametrize("fault, more, status, told", [
    (None, {}, 7, ""),
    (service.Interrupted(15), {}, 0, ""),
    (service.Interrupted(15), {"ended": "stopped"}, 4, "tool: stopped\n"),
    (BadFile("line 1"), {}, 4, "tool: line 1\n"),
    (BadFile("line 1"), {"bad_file": 2}, 2, "tool: line 1\n"),
    (BadSettings("no user"), {}, 4, "tool: no user\n"),
    (OSError("no room"), {}, 4, "tool: no room\n"),
    (KeyError("x"), {}, 4, "tool: 'x'\n"),
])
def test_how_a_tool_ends(
    monkeypatch: pytest.MonkeyPatch, capsys: pytest.CaptureFixture[str], fault: Optional[BaseException],
    more: Dict[str, Any], status: int, told: str,
) -> None:
    monkeypatch.setattr(service, "catch_signals", lambda: None)
    assert service.run(service.Teller("tool"), raising(fault), KeyError, **more) == status
    assert capsys.readouterr().err == told


def test_a_fault_of_the_tools_own_stays_one(monkeypatch: pytest.MonkeyPatch) -> None:
    monkeypatch.setattr(service, "catch_signals", lambda: None)
    with pytest.raises(ZeroDivisionError):
        service.run(service.Teller("tool"), raising(ZeroDivisionError()))


@pytest.mark.parametrize("fault, text", [
    (Refused(409, 4, "full"), "the desk refuses: 4 full"),
    (Unreachable("refused", "http://desk"), "no answer from the desk at http://desk: refused"),
    (OSError("no room"), "no room"),
])
def test_what_is_in_the_way_of_a_round(fault: Exception, text: str) -> None:
    assert service.hindrance(raising(fault)) == text
    assert service.hindrance(lambda: "the disk is full") == "the disk is full"


def test_rounds_begin_as_often_as_is_said_and_end_by_a_signal(monkeypatch: pytest.MonkeyPatch) -> None:
    """One that took longer is followed at once; a signal that Python dropped is seen after its round."""
    took, now = [1.0, 7.0, 0.0], [100.0]
    slept: List[float] = []

    def work() -> str:
        now[0] += took.pop(0)
        if not took:
            service.CAME.append(15)
        return ""

    monkeypatch.setattr(service, "CAME", [])
    monkeypatch.setattr(service, "time", types.SimpleNamespace(monotonic=lambda: now[0], sleep=slept.append))
    with pytest.raises(service.Interrupted):
        service.rounds(lambda text: None, 5.0, work)
    assert slept == [4.0, 0.0]


# ---- what starts each


def test_each_tool_is_started_by_the_same_file() -> None:
    files = [it for it in pathlib.Path(TOOLS).iterdir() if it.is_file() and it.name != "farm-worker"]
    assert len({it.read_text(encoding="utf-8") for it in files}) == 1
    assert all(os.access(it, os.X_OK) for it in files)
    assert {it.name for it in files} >= {it.partition(" ")[0] for it in _tools.BEGINS}


@pytest.mark.parametrize("words, module, function", [
    (["farm-watch"], "farm_watch.main", "main"), (["farm-from-lava", "x"], "farm_import.from_lava", "main"),
    (["farm-access", "session"], "farm_access.client", "session"), (["farm-access", "door"], "farm_access.main", "main"),
])
def test_where_a_tool_begins(monkeypatch: pytest.MonkeyPatch, words: List[str], module: str, function: str) -> None:
    found: List[str] = []

    def imported(name: str) -> object:
        found.append(name)
        return types.SimpleNamespace(**{function: lambda: 3})

    monkeypatch.setattr(sys, "argv", words)
    monkeypatch.setattr(_tools, "signal", types.SimpleNamespace(SIGINT=2, getsignal=lambda _: None, default_int_handler=1))
    monkeypatch.setattr(_tools, "importlib", types.SimpleNamespace(import_module=imported))
    assert _tools.start(words[0]) == 3
    assert found == [module]
