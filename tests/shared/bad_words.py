"""What a tool tells of bad words."""
from __future__ import annotations

from typing import Callable, Sequence

import pytest


def refused(capsys: pytest.CaptureFixture[str], call: Callable[[Sequence[str]], object], *words: str) -> str:
    """What is told of bad words, which end a tool with 2."""
    with pytest.raises(SystemExit) as ended:
        call(words)
    assert ended.value.code == 2
    return capsys.readouterr().err.splitlines()[-1]
