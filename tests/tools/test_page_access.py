"""The status page where the lab has farm-access: the ways of a board that one holds, and who is connected."""
from __future__ import annotations

import json
import time
from typing import Any, Dict, Optional

import pytest

from pages import Lab, facts_of as facts_in
from served import wait_until

WAYS = ["console", "flash", "power on|off|cycle", "tcp 22|80"]


def told(lab: Lab, sessions: Any = ()) -> None:
    boards = {"b1": {"ways": WAYS, "sessions": list(sessions)}, "b2": {"ways": ["tcp 80"], "sessions": []}}
    lab.files["/access.json"] = json.dumps({"boards": boards}).encode()


def facts_of(lab: Lab, board: str, holder: str, is_acquired: bool = True) -> Dict[str, str]:
    """What is told of a board that somebody holds."""
    number = lab.reserve(holder, f"name={board}")
    lab.passes()
    if is_acquired:
        lab.farm.tell(holder, f"/reservations/{number}/acquire")
    opened = lab.opened(f"/#/boards/{board}")
    wait_until("it is open", lambda: bool(facts_in(opened, "board")))
    return facts_in(opened, "board")


@pytest.mark.parametrize("board, is_acquired, ways", [
    ("b1", True, "desk console b1\ndesk power b1 cycle\ndesk ssh b1"), ("b1", False, None), ("b2", True, None)])
def test_a_board_that_one_holds_shows_the_commands_to_copy(lab: Lab, board: str, is_acquired: bool, ways: Optional[str]) -> None:
    """b2's one way is a port that is no ssh's."""
    told(lab)
    facts = facts_of(lab, board, "ann", is_acquired)
    assert (facts.get("Ways"), facts.get("Connected")) == (ways, None)


def test_another_s_board_shows_who_is_connected_and_no_commands(lab: Lab) -> None:
    told(lab, [{"person": "bob", "way": "console", "since": int(time.time())}])
    facts = facts_of(lab, "b1", "bob")
    assert facts["Connected"].startswith("bob: console, since ") and "Ways" not in facts


def test_where_there_is_no_farm_access_nothing_is_shown(lab: Lab) -> None:
    assert not {"Ways", "Connected"} & set(facts_of(lab, "b1", "ann"))
