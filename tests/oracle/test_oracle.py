"""What generated.py and malformed.py show; by hand they run with other seeds, and longer."""
from __future__ import annotations

import pytest

import door_reads
import generated
import malformed

pytestmark = pytest.mark.timeout(1200)  # (a loaded machine takes many times as long)


@pytest.mark.slow(10)
def test_generated_commands(player: str) -> None:
    """Lists of commands by chance are answered as a machine that is written out plainly says."""
    assert generated.main(player, 22) == ""


@pytest.mark.slow(15)
def test_malformed_requests(program: str, folder: str) -> None:
    """Requests by chance, most of them malformed, are answered as the documents say, and those that are refused
    change nothing."""
    malformed.main(program, 5000, 20261124, folder)


@pytest.mark.slow(10)
def test_a_job_is_never_more_to_the_desk_than_to_the_door(program: str) -> None:
    """A text that farm-door reads otherwise than the desk, or not at all, lets no user have more than the limits."""
    taken, gains = door_reads.compared(program, 600, 20261201)
    assert taken > 60 and gains == []
