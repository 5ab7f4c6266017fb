"""What farm-metrics counts and keeps: the history's lines, the claims' ages, and what it is without a desk."""
from __future__ import annotations

import json
import pathlib
from typing import Dict, List, Optional

import pytest
from fake_desk import FakeDesk
from hand_clock import NOW, Clock
from farm_metrics import collecting
from farm_metrics.collecting import FarmCollector, JobCounts, boards_of
from fizgruk._tools import service
from fizgruk.errors import Unreachable

SAID: List[str] = []


@pytest.fixture
def clock(monkeypatch: pytest.MonkeyPatch) -> Clock:
    set_by_hand = Clock()
    monkeypatch.setattr(collecting, "time", set_by_hand)
    return set_by_hand


def line(outcome: str) -> str:
    return json.dumps({"kind": "job", "outcome": outcome}) + "\n"


def counted(history: JobCounts) -> Dict[str, int]:
    history.read()
    return history.outcomes


# ---- the history


def test_lines_are_counted_once_and_a_part_of_one_when_it_is_whole(tmp_path: pathlib.Path) -> None:
    file = tmp_path / "history.jsonl"
    history = JobCounts(str(file), {})
    with pytest.raises(FileNotFoundError):
        history.read()
    assert history.families() == []
    file.write_text(line("Complete") + "x\n[1]\n" + line("Infra")[:9])
    assert counted(history) == {"Complete": 1}
    file.write_text(line("Complete") + "x\n[1]\n" + line("Infra"))
    assert counted(history) == counted(JobCounts(str(file), history.state())) == {"Complete": 1, "Infra": 1}


def test_a_history_that_was_cut_is_read_from_its_beginning(tmp_path: pathlib.Path) -> None:
    """As logrotate's copytruncate leaves it."""
    file = tmp_path / "history.jsonl"
    file.write_text(line("Complete") * 3)
    history = JobCounts(str(file), {})
    assert counted(history) == {"Complete": 3}
    with open(file, "r+", encoding="utf-8") as opened:
        opened.truncate(0)
        opened.write(line("Infra"))
    assert counted(history) == {"Complete": 3, "Infra": 1}


def test_a_history_that_another_took_the_place_of_is_read_from_its_beginning(tmp_path: pathlib.Path) -> None:
    file, new = tmp_path / "history.jsonl", tmp_path / "new"
    file.write_text(line("Complete"))
    history = JobCounts(str(file), {})
    assert counted(history) == {"Complete": 1}
    new.write_text(line("Infra") * 3)
    new.replace(file)
    assert counted(history) == {"Complete": 1, "Infra": 3}


def test_outcomes_stand_in_their_order_and_others_behind_them(tmp_path: pathlib.Path) -> None:
    file = tmp_path / "history.jsonl"
    file.write_text("".join(map(line, ("z", "Infra", "a"))))
    history = JobCounts(str(file), {})
    history.read()
    (family,) = history.families()
    found = [(it.labels["outcome"], it.value) for it in family.samples]
    assert found == [("Complete", 0), ("Incomplete", 0), ("Infra", 1), ("Canceled", 0), ("a", 1), ("z", 1)]


# ---- the desk's views


def desk_of(count: Optional[int], *queue: int) -> FakeDesk:
    """A desk of a queue and a count of commands; None gives no answer."""
    if count is None:
        return FakeDesk(status=Unreachable("refused"))
    status = {it: 1 for it in ("types", "boards", "jobs", "reservations", "collector")}
    claims = [{"kind": "group", "number": it} for it in queue]
    return FakeDesk(status={**status, "count": count, "clock": NOW - 7}, boards=[], queue=claims)


def collector(tmp_path: pathlib.Path, desk: FakeDesk) -> FarmCollector:
    none = str(tmp_path / "none")
    files = (none, none, str(tmp_path / "state"), str(tmp_path / "access.json"))
    return FarmCollector(desk, *files, service.Troubles(SAID.append))  # type: ignore[arg-type]


def values(found: FarmCollector) -> Dict[str, List[float]]:
    return {it.name[len("fizgruk_") :]: [sample.value for sample in it.samples] for it in found.collect()}


def age(found: FarmCollector) -> float:
    return values(found)["oldest_claim_age_seconds"][0]


def test_a_claims_age_counts_from_when_it_was_seen_first(tmp_path: pathlib.Path, clock: Clock) -> None:
    """The oldest is the one of the least number: 9 before 10."""
    assert age(collector(tmp_path, desk_of(5, 10))) == 0
    clock.at += 30
    assert age(collector(tmp_path, desk_of(6, 10, 9))) == 0
    clock.at += 30
    assert age(collector(tmp_path, desk_of(7, 10, 9))) == 30
    assert age(collector(tmp_path, desk_of(8, 10))) == 60
    assert age(collector(tmp_path, desk_of(9))) == 0


def test_each_trouble_is_told_once_and_their_end(tmp_path: pathlib.Path, clock: Clock) -> None:
    """Of the desk, of the dispatcher's files, and of what is kept for the next time."""
    found, desk = collector(tmp_path, desk_of(None)), "no answer from the desk at http://desk: refused"

    def told() -> List[str]:
        SAID.clear()
        found.collect()
        return list(SAID)

    assert told() == [desk] and told() == [] and found.has_failed()
    for name in ("passes", "history", "kept"):
        (tmp_path / name).mkdir()
    found.counted, found.history.file, found.state = (str(tmp_path / it) for it in ("passes", "history", "kept"))
    whys = [f"{about}: " for about in ("passes aren't counted", "jobs aren't counted", "nothing is kept for the next time")]
    said = told()
    assert len(said) == 3 and all(it.startswith(why) and "irectory" in it for it, why in zip(said, whys)), said
    found.desk = desk_of(5)  # type: ignore[assignment]
    assert told() == [] and found.has_failed()
    found.state = str(tmp_path / "state")
    assert told() == [] and not found.has_failed(), "jobs and passes that aren't counted are no fault of the desk's"
    found.counted = found.history.file = str(tmp_path / "none")
    assert told() == ["it goes on"] and told() == []


def test_the_next_farms_claims_are_new(tmp_path: pathlib.Path, clock: Clock) -> None:
    """It has done fewer commands."""
    assert age(collector(tmp_path, desk_of(5, 3))) == 0
    clock.at += 30
    assert age(collector(tmp_path, desk_of(5, 3))) == 30
    assert age(collector(tmp_path, desk_of(4, 3))) == 0


def test_a_clock_that_was_set_back_makes_no_age_below_0(tmp_path: pathlib.Path, clock: Clock) -> None:
    assert age(collector(tmp_path, desk_of(5, 3))) == 0
    clock.at -= 3600
    assert age(collector(tmp_path, desk_of(5, 3))) == 0


def test_while_the_desk_gives_no_answer_what_is_known_is_kept(tmp_path: pathlib.Path, clock: Clock) -> None:
    age(collector(tmp_path, desk_of(5, 3)))
    clock.at += 30
    gone = collector(tmp_path, desk_of(None))
    assert values(gone) == {"up": [0], "passes": []}
    assert gone.troubles == {"no answer from the desk at http://desk": "refused"} and gone.has_failed()
    assert age(collector(tmp_path, desk_of(5, 3))) == 30


@pytest.mark.parametrize("text", ["", "x", "[]", "null"])
def test_a_state_that_is_none_is_begun_anew(tmp_path: pathlib.Path, clock: Clock, text: str) -> None:
    (tmp_path / "state").write_text(text)
    assert age(collector(tmp_path, desk_of(5, 3))) == 0


def test_since_the_last_command(tmp_path: pathlib.Path, clock: Clock) -> None:
    assert values(collector(tmp_path, desk_of(5)))["last_command_age_seconds"] == [7]


def test_boards_are_counted_by_type_health_and_state() -> None:
    row = {"type": "b", "health": "Good", "state": "Idle"}
    family = boards_of([row, row, {**row, "state": "Running"}, {**row, "type": "a", "health": "New"}])
    found = {tuple(it.labels.values()): it.value for it in family.samples if it.value}
    assert found == {("b", "Good", "Idle"): 2, ("b", "Good", "Running"): 1, ("a", "New", "Idle"): 1}
    assert [it.labels["type"] for it in family.samples][:15] == ["a"] * 15, "in order"
    assert len(family.samples) == 2 * 5 * 3 + 1


@pytest.mark.parametrize("text, shut", [
    ('{"boards":{"b1":{"ways":[]},"b2":{"shut":1700000000},"b10":{"shut":1}}}', ["b10", "b2"]), ('{"boards":{"b1":{}}}', []),
    ('{"boards":[]}', []), ('{"boards":{"b1":7}}', []), ("[1", []), ("{}", []),
])
def test_boards_that_are_shut_are_told_and_a_file_that_says_something_else_tells_none(
    tmp_path: pathlib.Path, text: str, shut: List[str]
) -> None:
    (tmp_path / "access.json").write_text(text)
    families = collector(tmp_path, desk_of(None)).collect()
    found = [it for family in families if family.name == "fizgruk_board_shut" for it in family.samples]
    assert [(it.labels["board"], it.value) for it in found] == [(it, 1) for it in shut]
