"""What the dispatcher publishes of groups, by a desk that is set by hand."""
from __future__ import annotations

import json
import pathlib
from typing import Any, Dict

from fake_desk import FakeDesk
from farm_dispatch.published import RUNNING, Published


class Group(Dict[str, Any]):
    """What is known of group 7, a job of ann's on b1 that began at the moment 1,000."""

    number, unit = 7, "farm-job-x"

    def __init__(self, **more: Any) -> None:
        members = [{"job": 7, "board": "b1", "type": "bbb"}]
        super().__init__(about={"owner": "ann", "name": "boot", "members": members}, began=1000, limit=60, **more)


def published_of(folder: pathlib.Path, *groups: Any) -> Published:
    desk: Any = FakeDesk(status={"next": 7}, jobs={"number": 7, "owner": "ann", "board": "b1", "result": "Complete"})
    return Published(desk, str(folder), dict(enumerate(groups)))


def test_a_job_whose_end_was_told_runs_no_more(tmp_path: pathlib.Path) -> None:
    """Its group is open still, as what it left is kept."""
    published_of(tmp_path, Group(), Group(told=True)).show_running()
    (row,) = json.loads((tmp_path / RUNNING).read_text())["jobs"]
    assert (row["job"], row["owner"], row["board"], row["began"], row["limit"]) == (7, "ann", "b1", 1000, 60)


def test_what_began_before_its_number_was_seen_wasnt_submitted_later(tmp_path: pathlib.Path) -> None:
    published = published_of(tmp_path)
    published.look()
    published.desk.views["status"]["next"] = 8  # type: ignore[attr-defined]
    published.look()
    record: Any = Group(ended="", ended_at=2000)
    published.record(record, "Complete")
    (row,) = [json.loads(it) for it in pathlib.Path(published.history.lines).read_text().splitlines()]
    assert (row["submitted"], row["began"], row["ended"]) == (1000, 1000, 2000)
