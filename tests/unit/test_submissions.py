"""When jobs were submitted, by looks at the number that is given next and by a clock that is set by hand."""
from __future__ import annotations

import pathlib

import pytest
from fizgruk import submissions
from fizgruk.submissions import NumberLook, Submissions
from hand_clock import NOW, Clock


@pytest.fixture
def clock(monkeypatch: pytest.MonkeyPatch) -> Clock:
    set_by_hand = Clock()
    set_by_hand.at += 0.9
    monkeypatch.setattr(submissions, "time", set_by_hand)
    return set_by_hand


@pytest.fixture
def place(tmp_path: pathlib.Path) -> str:
    return str(tmp_path)


def looks(found: Submissions, clock: Clock, *steps: "tuple[int, int]") -> None:
    """Looks, after so many seconds each, that find these numbers to be given next."""
    for after, following in steps:
        clock.at += after
        assert not found.note(following)


def test_a_number_was_given_when_the_look_that_found_it_was(place: str, clock: Clock) -> None:
    found = Submissions(place)
    looks(found, clock, (0, 5), (10, 8), (10, 8), (10, 9))
    assert [found.moment_of(it) for it in (5, 7, 8)] == [NOW + 10, NOW + 10, NOW + 30]


def test_what_the_first_look_finds_was_given_nobody_knows_when(place: str, clock: Clock) -> None:
    found = Submissions(place)
    looks(found, clock, (0, 5))
    assert [found.moment_of(it) for it in (1, 4, 5)] == [None, None, None]


@pytest.mark.parametrize("between, is_known", [(60, True), (61, False)])
def test_after_a_minute_without_a_look_nobody_knows(place: str, clock: Clock, between: int, is_known: bool) -> None:
    found = Submissions(place)
    looks(found, clock, (0, 5), (between, 6))
    assert found.moment_of(5) == (NOW + between if is_known else None)


def test_a_look_that_finds_nothing_new_counts_too(place: str, clock: Clock) -> None:
    found = Submissions(place)
    looks(found, clock, (0, 5), (50, 5), (50, 6))
    assert found.moment_of(5) == NOW + 100


def test_the_next_process_knows_what_the_last_one_did(place: str, clock: Clock) -> None:
    """But not what was given while nobody looked."""
    looks(Submissions(place), clock, (0, 5), (10, 6))
    found = Submissions(place)
    looks(found, clock, (10, 8))
    assert [found.moment_of(it) for it in (5, 6, 7)] == [NOW + 10, None, None]
    assert [found.has_seen(it) for it in (7, 8)] == [True, False]


def test_nothing_is_seen_before_a_look(place: str, clock: Clock) -> None:
    assert not Submissions(place).has_seen(0)


def test_an_earlier_copy_of_the_farm_gives_numbers_again(place: str, clock: Clock) -> None:
    found = Submissions(place)
    looks(found, clock, (0, 5), (10, 7), (10, 9))
    clock.at += 10
    assert found.note(7)
    assert [found.has_seen(it) for it in (6, 7, 8)] == [True, False, False]
    looks(found, clock, (10, 9))
    assert [found.moment_of(it) for it in (6, 8)] == [NOW + 10, NOW + 40]
    assert Submissions(place).looks == found.looks


def test_a_line_that_is_none_is_passed_over(place: str, clock: Clock) -> None:
    text = "5 100 0\nfive 100 0\n7 110 100\n6 120 110\n8 130\n9 -1 0\n10 130 120 1\n11 140 130\n12 150 14"
    pathlib.Path(place, "numbers").write_text(text)
    assert Submissions(place).looks == [NumberLook(5, 100, 0), NumberLook(7, 110, 100), NumberLook(11, 140, 130)]


def test_a_file_that_cant_be_written_is_done_without(tmp_path: pathlib.Path, clock: Clock) -> None:
    found = Submissions(str(tmp_path / "nowhere"))
    looks(found, clock, (0, 5), (10, 6))
    assert found.moment_of(5) == NOW + 10


def test_the_oldest_looks_are_dropped(place: str, clock: Clock, monkeypatch: pytest.MonkeyPatch) -> None:
    monkeypatch.setattr(submissions, "MOST", 4)
    found = Submissions(place)
    looks(found, clock, *((1, it) for it in range(1, 6)))
    assert [it.next for it in found.looks] == [4, 5]
    assert Submissions(place).looks == found.looks
