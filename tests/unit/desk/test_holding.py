"""A command with a board: it is given back whatever comes."""
from __future__ import annotations

import argparse
import contextlib
import os
import signal
import subprocess
import types
from typing import Any, List, Optional

import pytest
from fake_desk import FakeDesk
from fizgruk._tools import service
from fizgruk.desk import holding
from fizgruk.holding import Reservation


class Held:
    """Runs of a command with a board, whose reservation has this number; what is given back is noted."""

    def __init__(self, monkeypatch: pytest.MonkeyPatch) -> None:
        self.back: List[object] = []
        self.is_given, self.number = True, 7
        monkeypatch.setattr(holding, "is_given_back", self.give_back)
        blocks: Any = types.SimpleNamespace(SIG_BLOCK=0, pthread_sigmask=lambda how, signals: set())
        monkeypatch.setattr(holding, "signal", blocks)
        self.monkeypatch = monkeypatch

    def give_back(self, _: Reservation) -> bool:
        self.back.append(True)
        return self.is_given

    def runs(self, comes: Any, number: Optional[int] = 7) -> int:
        """The status where this comes of the run."""

        def ran(reservation: Reservation, options: argparse.Namespace) -> int:
            reservation.number = number
            if isinstance(comes, BaseException):
                raise comes
            return int(comes)

        self.monkeypatch.setattr(holding, "ran_with", ran)
        desk: Any = FakeDesk()
        return holding.run_with_board(desk, argparse.Namespace(words=["true"], tags=[], priority=None))


@pytest.mark.parametrize("comes, number, status, back", [
    (3, 7, 3, 1), (125, None, 125, 0), (service.Interrupted(2), None, 130, 1), (service.Interrupted(15), 7, 143, 1),
    (ValueError(), 7, None, 1), (ValueError(), None, None, 0),
])
def test_a_board_is_given_back_whatever_comes(
    monkeypatch: pytest.MonkeyPatch, comes: Any, number: Optional[int], status: Optional[int], back: int
) -> None:
    """A fault of the client's own too, which is raised."""
    held = Held(monkeypatch)
    raised: Any = pytest.raises(ValueError) if status is None else contextlib.nullcontext()
    with raised:
        assert held.runs(comes, number) == status
    assert len(held.back) == back


def test_a_process_that_has_the_number_of_one_that_ended_is_left_alone() -> None:
    child = subprocess.Popen(["sleep", "60"])
    try:
        own = (child.pid, holding.living_now()[child.pid].began)
        assert holding.living_of(child, {(os.getpid(), "0"), own}) == {own}
    finally:
        child.kill()
        child.wait()


def test_a_board_that_isnt_given_back_is_the_clients_own_fault(monkeypatch: pytest.MonkeyPatch) -> None:
    held = Held(monkeypatch)
    held.is_given = False
    assert held.runs(0) == 125


KERNEL, USER = 0x80, 0  # codes of signals that the system sends, and that somebody sends


@pytest.mark.parametrize("number, code, is_sent", [
    (signal.SIGINT, KERNEL, False), (signal.SIGQUIT, KERNEL, False), (signal.SIGINT, USER, True), (signal.SIGQUIT, USER, True),
    (signal.SIGHUP, KERNEL, True), (signal.SIGTERM, USER, True), (signal.SIGCHLD, KERNEL, False),
])
def test_what_a_terminals_keys_send_the_command_has_already(
    monkeypatch: pytest.MonkeyPatch, number: signal.Signals, code: int, is_sent: bool
) -> None:
    """Its group gets them; all others are handed on, the terminal's hangup among them."""
    ends: List[Optional[int]] = [None, 0]
    sent: List[int] = []
    child: Any = types.SimpleNamespace(poll=lambda: ends.pop(0), send_signal=sent.append)
    monkeypatch.setattr(signal, "sigwaitinfo", lambda _: types.SimpleNamespace(si_signo=number, si_code=code))
    watch: Any = types.SimpleNamespace(lost="")
    holding.wait_for_end(child, watch)
    assert sent == ([number] if is_sent else [])
