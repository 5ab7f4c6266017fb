"""Which rule a job file breaks, beside those of test_client_told.py, which the desk itself refuses."""
from __future__ import annotations

import pytest
from fizgruk import job_file

HEAD = "job_name = 'x'\n"
KIND = "device_type = 'bbb'\n"
ONE = HEAD + KIND
ROLE = f"{HEAD}[roles.a]\n{KIND}"
MIDDLE = "is none of low, medium, high and 0 to 100"


@pytest.mark.parametrize("text", [
    ONE,
    f"{ONE}tags = []\npriority = 0\n",
    f"{ONE}priority = 100\n",
    *(f"{ONE}priority = '{it}'\n" for it in ("low", "medium", "high")),
    f"{ROLE}count = 4\n",
    f"{ROLE}count = 3\ntags = ['hdmi']\n[roles.b]\n{KIND}count = 1\n",
    f"{ONE}anything = {{ else = 1 }}\n",
    f"{ONE}{'#' * (65536 - len(ONE))}",
])
def test_a_job_file(text: str) -> None:
    assert job_file.fault_of(text.encode()) is None


@pytest.mark.parametrize("text, why", [
    (f"{ONE}{'#' * (65537 - len(ONE))}", "it has more than 65,536 bytes"),
    (f"job_name = ''\n{KIND}", "there is no job_name, or it is empty"),
    (f"job_name = 3\n{KIND}", "job_name isn't a text"),
    (f"{ONE}priority = -1\n", f"priority -1 {MIDDLE}"),
    (f"{ONE}priority = 1.0\n", f"priority 1.0 {MIDDLE}"),
    (f"{ONE}priority = 'LOW'\n", f"priority 'LOW' {MIDDLE}"),
    (f"{ONE}priority = true\n", "priority is neither a whole number nor a text"),
    (f"{HEAD}roles = 3\n", "roles isn't a table"),
    (f"{HEAD}roles.a = 3\n", "role a: it isn't a table"),
    (f"{HEAD}[roles.'a b']\n{KIND}count = 1\n", "role a b: the role's name 'a b' isn't a name"),
    (f"{ROLE}count = 0\n", "role a: count is 0, and is 1 to 4"),
    (f"{ROLE}count = 1.0\n", "role a: count isn't a whole number"),
    (f"{ROLE}count = 1\ntags = 'x'\n", "role a: tags isn't an array of texts"),
    # the roles in the order of their names, whatever the order of the file
    (f"{HEAD}[roles.b]\n{KIND}\n[roles.a]\n{KIND}", "role a: there is no count"),
])
def test_the_rule_that_a_file_breaks(text: str, why: str) -> None:
    fault = job_file.fault_of(text.encode())
    assert fault is not None and fault.startswith(why)


@pytest.mark.parametrize("text, where", [
    (f"{HEAD}device_type = 'b b'\n", " (at line 2, column 1)"),
    (f"{ROLE}  count = 9\n", " (at line 4, column 3)"),
    (ROLE, " (at line 2, column 8)"),
    (f"{ONE}\n# more\ntags = [\n  'a b',\n]\n", " (at line 5, column 1)"),
    (f"{HEAD}roles = {{a = {{device_type = 'b', count = 7}}}}\n", " (at line 2, column 34)"),
    (f"{HEAD}roles = {{\n  a = {{device_type = 'b', count = 7}},\n}}\n", " (at line 3, column 27)"),
    (f"{ONE}\"priority\" = 'LOW'\n", " (at line 3, column 1)"),
])
def test_where_a_file_breaks_it(text: str, where: str) -> None:
    fault = job_file.fault_of(text.encode())
    assert fault is not None and fault.endswith(where)


def test_bytes_that_are_no_text() -> None:
    assert job_file.fault_of(b"job_name = '\xff'") == "it isn't UTF-8 at byte 12"
