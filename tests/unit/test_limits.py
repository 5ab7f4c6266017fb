"""How long a job may run, by the table `timeouts` of its text."""
from __future__ import annotations

import pytest
from fizgruk import limits
from fizgruk.limits import Limit

HOUR = 3600


@pytest.mark.parametrize("said, seconds", [
    ({"hours": 1, "minutes": 30}, 1.5 * HOUR),
    ({"days": 2}, 48 * HOUR),
    ({"minutes": 0.5}, 30),
    ({"seconds": 0, "minutes": 1}, 60),
    ("1 hour 30 minutes", 1.5 * HOUR),
    ("1 hours, 30 minute", 1.5 * HOUR),
    ("90minutes", 1.5 * HOUR),
    ("2 days,1 hour", 49 * HOUR),
    ("0.5 seconds", 0.5),
])
def test_a_time(said: object, seconds: float) -> None:
    assert limits.time_of(said) == seconds


@pytest.mark.parametrize("said", [
    5, 5.0, True, None, [], "", "5", "5 weeks", "five minutes", "1 hour and 30 minutes", "-1 hour", "0 seconds",
    {}, {"weeks": 1}, {"hours": "1"}, {"hours": True}, {"hours": -1}, {"hours": float("nan")},
    {"hours": float("inf")}, {"minutes": 0}, {"days": 1e9}, "1e9 days", {1: 1},
])
def test_no_time(said: object) -> None:
    with pytest.raises(limits.BadTime):
        limits.time_of(said)


@pytest.mark.parametrize("seconds, told", [
    (1, "1 second"), (59, "59 seconds"), (60, "1 minute"), (5400, "1 hour 30 minutes"), (86400, "1 day"),
    (2 * 86400 + 3661, "2 days 1 hour"), (3601, "1 hour"), (1e9, "11,574 days 1 hour"), (0.5, "0.5 seconds"),
])
def test_a_time_in_words(seconds: float, told: str) -> None:
    assert limits.words_of(seconds) == told


def limit_of(text: str) -> Limit:
    return limits.limit_of(text, default=HOUR, most=2 * HOUR)


@pytest.mark.parametrize("text", ["", " \n", "job_name = 'x'\n"])
def test_a_job_that_names_no_time_has_the_default(text: str) -> None:
    assert limit_of(text) == Limit(HOUR, True)
    assert limit_of(text).words() == "1 hour (the default)"


def test_a_job_has_the_time_that_it_names() -> None:
    assert limit_of("[timeouts]\njob = '90 minutes'\naction = 'anything'\n") == Limit(1.5 * HOUR)
    assert limit_of("[timeouts]\njob = {hours = 2}\n") == Limit(2 * HOUR)
    assert limit_of("[timeouts]\njob = {hours = 2}\n").words() == "2 hours"


def test_a_job_that_names_more_has_the_most() -> None:
    found = limit_of("[timeouts]\njob = {hours = 2, minutes = 1}\n")
    assert (found.seconds, found.is_default) == (2 * HOUR, False)
    assert found.remarks == ("timeouts.job is 2 hours 1 minute: the limit is 2 hours, the most here",)


@pytest.mark.parametrize("text", [
    "[timeouts]\njob = 5\n", "[timeouts]\nall = '1 hour'\n", "timeouts = 5\n", "[timeouts\n",
    "[timeouts]\njob = '0 hours'\n",
])
def test_a_table_that_cant_be_read_leaves_the_default_and_a_remark(text: str) -> None:
    found = limit_of(text)
    assert (found.seconds, found.is_default, len(found.remarks)) == (HOUR, True, 1)
    assert found.remarks[0].endswith(": the time limit is 1 hour, the default")


def test_a_table_is_read_as_the_desk_reads_it() -> None:
    """By TOML 1.1, in which an inline table goes over several lines and may end with a comma."""
    assert limit_of("timeouts = {\n  job = {\n    minutes = 90, # long\n  },\n}\n") == Limit(1.5 * HOUR)
