"""docs/LIBRARY.md has each library's public names as the sources have them."""
from __future__ import annotations

import pathlib
import sys

import pytest

sys.path.append(str(pathlib.Path(__file__).resolve().parent))
import surface  # noqa: E402


def test_public_names(capsys: pytest.CaptureFixture[str]) -> None:
    differs = surface.differs(surface.names(surface.libraries()))
    assert not differs, capsys.readouterr().out
