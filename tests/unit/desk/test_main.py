"""How the client ends that is interrupted, or whose outputs aren't there."""
from __future__ import annotations

import argparse
import io
import os
import pathlib

import pytest
from fizgruk._tools import service
from fizgruk.desk import main as client


class Closed(io.StringIO):
    """An output that nobody reads any more, which is this file of the process."""

    def __init__(self, place: int) -> None:
        super().__init__()
        self.place = place

    def fileno(self) -> int:
        return self.place

    def flush(self) -> None:
        raise BrokenPipeError


def test_a_client_that_is_interrupted_ends_as_the_signal_says(monkeypatch: pytest.MonkeyPatch) -> None:
    def comes(options: argparse.Namespace) -> int:
        raise service.Interrupted(15)

    monkeypatch.setattr(client, "status_of", comes)
    monkeypatch.setattr(service, "catch_signals", lambda: None)
    assert client.main(["boards"]) == 143


def test_outputs_that_arent_there_are_let_go(tmp_path: pathlib.Path) -> None:
    client.let_go(None)
    with open(tmp_path / "file", "w", encoding="ascii") as file:
        client.let_go(Closed(file.fileno()))
        os.write(file.fileno(), b"dropped")
    assert (tmp_path / "file").read_text() == "", "what is written from then on goes nowhere"
