"""What the scripts of bench/ compute of what programs and callgrind say, and the requests that they send."""
from __future__ import annotations

import re

import asked
import compare
import farms
import programs
import pytest
import table
import through_site

DUMP = """# callgrind format
version: 1
creator: callgrind-3.19.0
pid: 19174
cmd: ./t
part: 1

desc: I1 cache:
desc: Trigger: {trigger}
positions: line
events: Ir
summary: {instructions}

fn=(0) below main
0 4
totals: {instructions}
"""


def dump(trigger: str, instructions: int) -> str:
    return DUMP.format(trigger=trigger, instructions=instructions)


def test_instructions_are_the_sum_that_callgrind_tells() -> None:
    assert programs.totals(dump("Program termination", 1_272_249)) == 1_272_249


def test_a_file_without_a_sum_is_refused() -> None:
    with pytest.raises(ValueError):
        programs.totals("events: Ir\n")


def test_dumps_are_told_apart_by_their_names_and_the_last_counts() -> None:
    dumps = [dump("dump reserve", 10), dump("Client Request: start", 7), dump("dump reserve", 20), dump("Program termination", 5)]
    assert programs.by_reason(dumps) == {"reserve": 20, "start": 7}


def test_memory_is_what_the_system_says_in_kilobytes() -> None:
    assert programs.memory_now("Name:\tfarm\nVmHWM:\t  900 kB\nVmRSS:\t     512 kB\n") == 512 * 1024


@pytest.mark.parametrize(("value", "unit", "text"), [
    (0, "instructions", "0"), (999, "instructions", "999"), (1_000, "instructions", "1.00 k"),
    (346_123, "instructions", "346 k"), (11_900_000, "instructions", "11.9 M"), (17.3e9, "instructions", "17.3 G"),
    (324e6, "bytes", "324 MB"), (1.2e9, "bytes", "1200 MB"), (2_500, "ns", "2.50 us"), (450, "ns", "450 ns"),
])
def test_amounts_have_three_digits(value: float, unit: str, text: str) -> None:
    assert table.amount(value, unit) == text


def test_a_line_tells_how_many_times_the_peer_ours_is() -> None:
    line = table.Line("Reserve", 346_000, "`peer.c`", 56_000, "instructions")
    assert line.row() == "| Reserve | 346 k | `peer.c` | 56.0 k | 6.18 |"


def test_a_phase_of_64_is_told_by_the_command_and_a_pass_whole() -> None:
    phases = {"reserve": 6_400, "pass_serves_64": 6_400}
    assert table.each(phases) == {"reserve": 100, "pass_serves_64": 6_400}


def test_growth_is_told_of_the_command_that_grows_most() -> None:
    assert table.largest_growth({"start": 100, "reserve": 10}, {"start": 101, "reserve": 11}) == "reserve"


def test_rounds_are_told_by_their_medians() -> None:
    assert table.medians([{"a": 1, "b": 9}, {"a": 5, "b": 8}, {"a": 2, "b": 7}]) == {"a": 2, "b": 8}


def test_rounds_alternate_and_instructions_need_one() -> None:
    order: list[str] = []

    def measure(name: str) -> table.Values:
        order.append(name)
        return {"": len(order)}

    found = table.Meter("", 3, False).alternated(lambda: measure("a"), lambda: measure("b"))
    assert order == ["a", "b"] * 3
    assert found == [{"": 3}, {"": 4}]
    assert table.Meter("", 3, True).rounds == 1


def test_times_of_passes_are_the_least_under_their_headings() -> None:
    said = "1000 jobs\n  boards fit, 0 ended, 256 served: 460 ns (450 to 500)\n20 jobs\n  boards fit: 9 ns (8 to 9)\n"
    assert compare.least_times(said) == [("1000 jobs, boards fit, 0 ended, 256 served", 450), ("20 jobs, boards fit", 8)]


def request_of(item: bytes) -> tuple[str, str]:
    """An item's request line without its protocol, and its key; its length has to be the request's."""
    head, request = item.split(b"\n", 1)
    assert int(head.split()[2]) == len(request)
    key = re.search(rb"x-key: (\S+)", request)
    return request.split(b" HTTP/1.1")[0].decode(), key.group(1).decode() if key else ""


def test_each_command_names_a_row_that_an_earlier_one_made() -> None:
    free, made, keys = 1 + farms.BOARDS + 10, {"jobs": set[int](), "reservations": set[int]()}, set[str]()
    for line, key in map(request_of, asked.commands(10)):
        kind, number = line.split("/")[1], re.search(r"/(\d+)/", line)
        if number:
            assert int(number.group(1)) in made[kind]
        elif kind in made:
            made[kind].add(free)
            free += 1
        assert key not in keys or not key
        keys.add(key)
    assert free == 1 + farms.BOARDS + 10 + asked.TURNS * asked.TURN_NUMBERS


def test_phases_have_64_of_each_command_but_the_passes() -> None:
    for name, listed in asked.command_phases(10, 1):
        assert len(listed) == (1 if name in table.ONCE else farms.BOARDS)


def test_each_table_is_read_in_order_of_its_key() -> None:
    assert farms.READS.count("ORDER BY") == 6
    assert "kept ORDER BY caller, ckey" in farms.READS


def test_a_line_of_the_site_has_medians_and_how_much_longer_they_are() -> None:
    alone, door = [float(it) for it in range(1, 102)], [it + 2.5 for it in range(1, 102)]
    line = through_site.rows({"GET /": alone}, {"GET /": door})[-1]
    assert line == "| `GET /` | 51.0 (100.0) | 53.5 (102.5) | +2.5 (+2.5) |"
