"""Words of farm-backup that don't go together."""
from __future__ import annotations

from typing import Sequence

import pytest
from bad_words import refused
from farm_backup import main as backup


@pytest.mark.parametrize("words, told", [
    (("--now", "--to", "file", "--keep", "3"), "--keep is for copies alone"),
    (("--now", "--to", "file", "--server", "http://desk"), "--server is for copies alone"),
    (("--to", "file", "to"), "--to is for --now"), (("--report", "queue", "to"), "--report is for --now"), ((), "there is no DIR"),
    (("--now", "--to", "file", "to"), "--now has no DIR"), (("--now",), "--now wants one of --to and --report"),
    (("--now", "--report", "all"), "argument --report: invalid choice"), (("--now", "--to", "a", "--report", "queue"), "--now wants one"),
    (("--keep", "0", "to"), "argument --keep: 0 is no number from 1"), (("--server", "desk", "to"), "desk is no address of a server"),
])
def test_bad_words_of_a_backup_are_told(capsys: pytest.CaptureFixture[str], words: Sequence[str], told: str) -> None:
    assert told in refused(capsys, backup.options_of, *words)
