"""Which boards fit a claim, and what is told where it doesn't get them."""
from __future__ import annotations

from typing import Any, Dict, List, Sequence, cast

import pytest
from fake_desk import FakeDesk
from fizgruk import calls, wants
from fizgruk.wants import Want

Row = Dict[str, Any]


def board(name: str, kind: str = "bbb", health: str = "Good", holder: str = "none", tags: Sequence[str] = ()) -> Row:
    return {"name": name, "type": kind, "health": health, "holder": holder, "tags": list(tags)}


def views(*boards: Row, **more: Any) -> calls.Desk:
    return cast(calls.Desk, FakeDesk(boards=list(boards), **more))


def lab_of(*boards: Row, checked: Sequence[str] = (), **more: Any) -> wants.Lab:
    return wants.Lab(views(*boards, **more), set(checked), {})


ANY = Want("", ())
BBB = Want("bbb", ())


@pytest.mark.parametrize("want, fits", [
    (ANY, True),
    (BBB, True),
    (Want("ccc", ()), False),
    (Want("", ("hdmi",)), True),
    (Want("", ("hdmi", "usb")), True),
    (Want("", ("hdmi", "serial")), False),
    (Want("", ("name=b1",)), True),
    (Want("", ("name=b2",)), False),
    (Want("ccc", ("hdmi",)), False),
])
def test_a_board_fits_by_its_type_and_all_tags(want: Want, fits: bool) -> None:
    assert wants.fits(board("b1", tags=["hdmi", "usb"]), want) is fits


@pytest.mark.parametrize("boards, told", [
    ([], "no board fits; none can come"),
    ([board("b1")], ""),
    ([board("b1"), board("b2", health="Bad")], ""),
    ([board("b1", health="Maintenance")], "1 board fits, in Maintenance; none can come"),
    ([board("b1", health="Retired")], "1 board fits, Retired; none can come"),
    ([board("b1", holder="job 7")], "1 board fits, held by job 7 of cat"),
    ([board("b1", health="Bad", holder="job 7")], "1 board fits, Bad; none can come"),
    ([board("b1", health="Unknown")], "1 board fits, Unknown until it is checked"),
    ([board("x1", "free", health="Unknown")], ""),
    ([board("b1", holder="job 7"), board("b2", holder="reservation 9")],
     "2 boards fit: 2 held (job 7 of cat, reservation 9 of bob)"),
    ([board("b1", holder="job 7"), board("b2", health="Bad"), board("b3", health="Bad")],
     "3 boards fit: 2 Bad, 1 held (job 7 of cat)"),
    ([board(f"b{it}", holder="job 7") for it in range(6)],
     "6 boards fit: 6 held (job 7 of cat, job 7 of cat, job 7 of cat, job 7 of cat, 2 more)"),
])
def test_why_one_board_is_waited_for(boards: List[Row], told: str) -> None:
    lab = lab_of(*boards, checked=["bbb"], jobs={7: {"owner": "cat"}},
                 reservations=[{"number": 9, "owner": "bob"}])
    assert lab.reason([ANY]) == told


def test_an_owner_is_asked_for_once() -> None:
    desk = FakeDesk(boards=[board("b1", holder="job 7")], jobs={7: {"owner": "cat"}}, reservations=[])
    owners: Dict[str, str] = {}
    for _ in range(3):
        lab = wants.Lab(cast(calls.Desk, desk), set(), owners)
        assert lab.reason([ANY]) == "1 board fits, held by job 7 of cat"
    assert desk.asked.count("/jobs/7") == 1


def test_a_holder_that_ended_meanwhile_is_nobodys() -> None:
    assert lab_of(reservations=[]).owner("reservation 3") == "nobody"


@pytest.mark.parametrize("boards, wanted, told", [
    ([board("b1"), board("b2")], [BBB, BBB], ""),
    ([board("b1"), board("b2", holder="job 1")], [BBB, BBB], ""),
    ([board("b1")], [BBB, BBB], "of 2 boards (bbb) only 1 can come: no other board fits"),
    ([board("b1"), board("b2", health="Bad")], [BBB, BBB], "of 2 boards (bbb) only 1 can come: b2 is Bad"),
    ([board("b1"), board("c1", "ccc")], [BBB, Want("ccc", ())], ""),
    ([board("b1")], [BBB, Want("ccc", ("hdmi",))], "no ccc with hdmi can come: no other board fits"),
    # both want the board that is b1, though two boards are there
    ([board("b1", tags=["hdmi"]), board("b2")], [Want("bbb", ("hdmi",)), Want("bbb", ("name=b1",))],
     "of 2 boards (bbb with hdmi; bbb with name=b1) only 1 can come: no other board fits"),
    # each alone and each two of them are met, and not all three
    ([board("b1"), board("b2")], [BBB, BBB, ANY], "of 3 boards (bbb; board) only 2 can come: no other board fits"),
])
def test_a_group_that_no_boards_can_come_for(boards: List[Row], wanted: List[Want], told: str) -> None:
    assert lab_of(*boards).lack(wanted) == told
    if told:
        assert lab_of(*boards).reason(wanted) == told


@pytest.mark.parametrize("boards, wanted, told", [
    ([board("b1"), board("b2")], [BBB, BBB], ""),
    ([board("b1"), board("b2", holder="job 1")], [BBB, BBB], "of 2 boards (bbb) only 1 free: b2 is held by job 1 of ann"),
    ([board("b1", holder="job 1"), board("b2", holder="job 1")], [BBB, BBB], "2 boards fit: 2 held (job 1 of ann, job 1 of ann)"),
    ([board("b1", holder="job 1"), board("c1", "ccc")], [Want("ccc", ()), BBB], "1 board fits, held by job 1 of ann"),
])
def test_why_a_group_waits_that_boards_may_come_for(boards: List[Row], wanted: List[Want], told: str) -> None:
    assert lab_of(*boards, jobs={1: {"owner": "ann"}}).reason(wanted) == told


@pytest.mark.parametrize("boards, told", [
    ([board("b1", tags=["worker=rack2"])], "1 board fits, without its worker; rack2 is silent"),
    ([board("b1", holder="job 1"), board("b2", tags=["worker=rack2"])],
     "2 boards fit: 1 held (job 1 of ann), 1 without its worker; rack2 is silent"),
    ([board("b1"), board("b2", tags=["worker=rack2"])], ""),
    ([board("b1", tags=["worker", "workers=x", "worker-of=x", "worker=rack2"])], "1 board fits, without its worker; rack2 is silent"),
    ([board("b1", holder="job 1", tags=["worker=rack2"])], "1 board fits, held by job 1 of ann; rack2 is silent"),
    ([board("b1", holder="job 1"), board("b2", health="Bad", tags=["worker=rack2"])],
     "2 boards fit: 1 Bad, 1 held (job 1 of ann)"),
])
def test_a_worker_that_doesnt_answer_is_told_where_it_concerns_a_claim(boards: List[Row], told: str) -> None:
    lab = wants.Lab(views(*boards, jobs={1: {"owner": "ann"}}), set(), {})
    lab.silent = {"rack2": "rack2 is silent", "x": "x is silent"}
    assert lab.reason([BBB]) == told
    assert lab.is_met([BBB]) is (told == "")


@pytest.mark.parametrize("boards, met", [
    ([board("b1"), board("b2")], True),
    ([board("b1"), board("b2", holder="job 1")], False),
    ([board("b1"), board("b2", health="Maintenance")], False),
    ([board("b1"), board("b2", health="Unknown")], False),
    ([board("b1"), board("c1", "ccc")], False),
])
def test_wants_are_met_by_free_boards(boards: List[Row], met: bool) -> None:
    assert lab_of(*boards, checked=["bbb"]).is_met([BBB, BBB]) is met


def test_types_with_a_check() -> None:
    rows = [{"name": "bbb", "check": "hours"}, {"name": "ccc", "check": "none"}, {"name": "rpi", "check": "jobs"}]
    assert wants.checked_types(views(types=rows)) == {"bbb", "rpi"}


def job(kind: str = "bbb", *tags: str) -> Row:
    return {"type": kind, "tags": list(tags)}


def claim(number: int, kind: str = "group", boards: int = 1) -> Row:
    return {"number": number, "kind": kind, "boards": boards}


def claims_at(desk: calls.Desk, **files: Any) -> wants.Claims:
    """Claims of a desk whose dispatcher shows these files alone."""
    found = wants.Claims(desk)
    found.now.said = {f"{it}.json": files.get(it, {}) for it in ("running", "waiting", "workers")}
    return found


def test_reasons_of_a_queue() -> None:
    queue = [claim(1, boards=2), claim(3, "reservation"), claim(4, "reservation"), claim(5)]
    desk = views(
        board("b1"), board("b2", health="Bad"), status={"collector": 1},
        jobs={1: job(), 2: job(), 5: job("ccc")},
        reservations=[{"number": 3, "tags": ["name=b2"], "owner": "ann"}, {"number": 4, "tags": [], "owner": "ann"}],
        types=[],
    )
    assert claims_at(desk).reasons(queue) == {
        1: "collects boards; of 2 boards (bbb) only 1 can come: b2 is Bad",
        3: "1 board fits, Bad; none can come",
        4: "",
        5: "no board fits; none can come",
    }
    assert claims_at(desk).reasons([]) == {}


def test_what_the_dispatcher_tells_isnt_asked_of_the_desk() -> None:
    """Its word on a group of another size is another farm's, and on a job that has another board."""
    desk = FakeDesk(boards=[board("b1", holder="job 9")], status={"collector": 0}, jobs={1: job("ccc"), 9: {"owner": "bob"}}, types=[])
    groups = [{"group": it, "name": "", "submitted": None, "wants": [job()] * it} for it in (1, 2)]
    runs = {"job": 9, "owner": "ann", "board": "b1", "name": "", "began": None, "limit": 1}
    shown = claims_at(cast(calls.Desk, desk), waiting={"groups": groups}, running={"jobs": [runs]})
    assert shown.reasons([claim(1)]) == {1: "1 board fits, held by job 9 of ann"}
    assert not any(it.startswith("/jobs/") for it in desk.asked)
    other = claims_at(cast(calls.Desk, desk), waiting={"groups": [{**groups[1], "group": 1}]}, running={"jobs": [{**runs, "board": "b2"}]})
    assert other.reasons([claim(1)]) == {1: "no board fits; none can come"}


def test_of_a_long_queue_the_first_fifty_and_the_collector_are_asked_about() -> None:
    queue = [claim(it, boards=2 if it == 77 else 1) for it in range(1, 81)]
    desk = views(status={"collector": 77}, jobs={it: job() for it in range(1, 81)}, types=[])
    assert list(claims_at(desk).reasons(queue)) == [*range(1, 51), 77]


def test_a_desk_of_the_first_edition_names_no_collector() -> None:
    desk = views(board("b1"), status={}, jobs={1: job()}, types=[])
    assert claims_at(desk).reasons([claim(1)]) == {1: ""}
