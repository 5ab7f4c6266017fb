"""What farm-watch keeps: what was seen and its events in one commit, and deliveries over a clock that moves."""
from __future__ import annotations

import os
import sqlite3
import tempfile
from typing import Any, Iterator, List, Tuple

import pytest
from hand_clock import NOW, Clock
from farm_watch import store as watch_store
from farm_watch.store import DAY, Delivery, Event, Store, nothing, wait_after


@pytest.fixture
def clock(monkeypatch: pytest.MonkeyPatch) -> Clock:
    set_by_hand = Clock()
    monkeypatch.setattr(watch_store, "time", set_by_hand)
    return set_by_hand


@pytest.fixture
def file() -> Iterator[str]:
    """(in memory, where that is: each commit is synced)"""
    with tempfile.TemporaryDirectory(dir="/dev/shm" if os.path.isdir("/dev/shm") else None) as folder:
        yield f"{folder}/watch.db"


def event(name: str, at: int = NOW, ways: Tuple[str, ...] = ("mail",)) -> Event:
    body = {"event": "try", "at": at, "owner": "ann", "subject": f"subject of {name}", "text": "text", "fact": name}
    return Event(name, at, ways, body)


def keep(store: Store, *events: Event) -> None:
    store.keep(store.seen(), list(events))


def taken(store: Store, way: str = "mail") -> List[str]:
    """The facts of what is due."""
    found: List[str] = []
    while True:
        it = store.take(way)
        if it is None:
            return found
        found.append(it.body["fact"])


def take(store: Store) -> Delivery:
    it = store.take("mail")
    assert it is not None
    return it


def test_what_was_seen_is_there_for_the_next_process(file: str, clock: Clock) -> None:
    seen = nothing()
    seen["groups"], seen["held"] = {"1": ["ann", 1, True]}, {"1.7": {"board": "b1", "owner": "ann", "since": None}}
    Store(file).keep(seen, [])
    assert Store(file).seen() == seen


def test_what_is_gone_is_gone_for_the_next_process(file: str, clock: Clock) -> None:
    store, seen = Store(file), nothing()
    store.keep({**seen, "groups": {"b1": "Good", "b2": "Bad"}}, [])
    store.keep({**seen, "groups": {"b2": "Good"}}, [])
    assert Store(file).seen()["groups"] == {"b2": "Good"}


def test_what_was_seen_and_its_events_are_kept_together_or_not_at_all(
    file: str, clock: Clock, monkeypatch: pytest.MonkeyPatch
) -> None:
    def fails(*_: object) -> None:
        raise sqlite3.OperationalError("disk is full")

    store = Store(file)
    with monkeypatch.context() as patch:
        patch.setattr(watch_store, "_add", fails)
        with pytest.raises(sqlite3.OperationalError):
            store.keep({**nothing(), "groups": {"b1": "Bad"}}, [event("b1")])
    assert store.seen() == nothing() == Store(file).seen()


def test_an_event_is_told_once_a_way_however_often_it_is_kept(file: str, clock: Clock) -> None:
    store = Store(file)
    for _ in range(2):
        keep(store, event("one", ways=("mail", "webhook")))
    for way in ("mail", "webhook"):
        it = store.take(way)
        assert it is not None
        store.done(it, way)
    clock.at += DAY
    assert (taken(store), taken(store, "webhook")) == ([], [])
    keep(Store(file), event("one"))
    assert taken(Store(file)) == []


def test_a_delivery_has_the_same_id_at_each_try_and_no_other_has_it(file: str, clock: Clock) -> None:
    store = Store(file)
    keep(store, event("one"), event("two"))
    first, other = take(store), take(store)
    clock.at += 6
    again = take(Store(file))
    assert (again.ident, again.tries, again.at) == (first.ident, 2, NOW)
    assert other.ident != first.ident


def test_another_files_events_have_other_ids(file: str, clock: Clock) -> None:
    stores = [Store(file), Store(f"{file}.other")]
    for store in stores:
        keep(store, event("one"))
    assert take(stores[0]).ident != take(stores[1]).ident


def test_what_fails_is_tried_again_after_a_wait_that_doubles(file: str, clock: Clock) -> None:
    """Up to an hour."""
    store = Store(file)
    keep(store, event("one"))
    for wait in (5, 10, 20, 40, 80, 160, 320, 640, 1280, 2560, 3600, 3600):
        assert store.fail(take(store), "mail")
        clock.at += wait - 1
        assert store.take("mail") is None
        clock.at += 1
    assert [wait_after(it) for it in (1, 2, 11, 100)] == [5.0, 10.0, 3600.0, 3600.0]


def test_what_wasnt_tried_yet_goes_first(file: str, clock: Clock) -> None:
    store = Store(file)
    keep(store, event("old"))
    store.fail(take(store), "mail")
    clock.at += 10
    keep(store, event("fresh"))
    assert taken(store) == ["fresh", "old"]


def test_after_a_start_what_isnt_told_is_tried_at_once(file: str, clock: Clock) -> None:
    store = Store(file)
    keep(store, event("one"))
    store.fail(take(store), "mail")
    assert taken(Store(file)) == ["one"]


@pytest.mark.parametrize("back", [2 * 3600, DAY, 400 * DAY])
def test_a_clock_that_was_set_back_holds_nothing_up(file: str, clock: Clock, back: float) -> None:
    """What was to be tried again within the hour, by a clock that was ahead, is tried at once."""
    store = Store(file)
    keep(store, event("one"))
    store.fail(take(store), "mail")
    clock.at -= back
    assert taken(store) == ["one"]
    assert taken(store) == [], "it waits by the clock as it is now"
    clock.at += 11
    assert taken(store) == ["one"]


def test_a_delivery_is_given_up_after_five_days(file: str, clock: Clock) -> None:
    store = Store(file)
    keep(store, event("one"))
    clock.at += 5 * DAY
    assert store.fail(take(store), "mail")
    clock.at += 2 * 3600
    assert not store.fail(take(store), "mail")
    clock.at += DAY
    assert store.take("mail") is None


def test_events_are_kept_for_ninety_days(file: str, clock: Clock) -> None:
    """So long one that is seen again isn't told again."""
    store = Store(file)
    keep(store, event("one"))
    assert taken(store) == ["one"]
    clock.at += 90 * DAY
    keep(store, event("one", at=int(clock.at)))
    assert len(rows_of(store, "events")) == 1
    clock.at += 1
    keep(store, event("two", at=int(clock.at)))
    assert [it[1] for it in rows_of(store, "events")] == ["two"] and len(rows_of(store, "deliveries")) == 1


def rows_of(store: Store, table: str) -> List[Any]:
    return store.line.execute(f"SELECT * FROM {table}").fetchall()
