"""The counts of a junit.xml, whoever wrote it."""
from __future__ import annotations

import io
from typing import Any, Dict

import pytest
from farm_dispatch import artifacts

SUITE = "<testsuite>{}</testsuite>"
CASE = '<testcase classname="{}" name="{}">{}</testcase>'
# As pytest 7 writes it, as the documents of Jenkins' and GitLab's readers have it.
OF_PYTEST = """<?xml version="1.0" encoding="utf-8"?><testsuites><testsuite name="pytest" errors="9" failures="9" skipped="9"
tests="5" time="0.046" timestamp="2026-11-27T18:20:33.521474" hostname="lab"><testcase classname="test_boot" name="test_up"
time="0.001" /><testcase classname="test_boot" name="test_hdmi" time="0.000"><failure message="assert 0">def test_hdmi():
&gt;       assert 0</failure></testcase><testcase classname="test_boot" name="test_usb" time="0.000"><skipped type="pytest.skip"
message="no hub">x</skipped></testcase><testcase classname="test_boot" name="test_power" time="0.000"><error
message="failed on setup">x</error></testcase><testcase classname="test_boot" name="test_log" time="0"><system-out><![CDATA[
<testcase name="no"><failure/></testcase>]]></system-out></testcase></testsuite></testsuites>"""


def counts(text: object) -> Dict[str, Any]:
    return artifacts.counts_of(io.BytesIO(text if isinstance(text, bytes) else str(text).encode()))


def test_cases_are_counted_and_what_suites_say_of_themselves_is_not() -> None:
    assert counts(OF_PYTEST) == {
        "passed": 2, "failed": 1, "errors": 1, "skipped": 1, "names": ["test_boot.test_hdmi", "test_boot.test_power"],
    }


@pytest.mark.parametrize(
    "text, passed, failed, errors, skipped",
    [
        ("<testsuites/>", 0, 0, 0, 0),
        (SUITE.format("<testcase/>"), 1, 0, 0, 0),
        ("<testsuites>" + SUITE.format(SUITE.format("<testcase/><testcase/>")) + "</testsuites>", 2, 0, 0, 0),
        (SUITE.format(CASE.format("a", "b", "<skipped/><failure/><error/>")), 0, 0, 1, 0),
        (SUITE.format(CASE.format("a", "b", "<skipped/><failure/><failure/>")), 0, 1, 0, 0),
        (SUITE.format(CASE.format("a", "b", "<properties><failure/></properties>")), 1, 0, 0, 0),
        (SUITE.format("<failure/><testcase/>"), 1, 0, 0, 0),
        (SUITE.format("<testcase><testcase><failure/></testcase></testcase>"), 1, 0, 0, 0),
        (SUITE.format("<testcase/>").encode("utf-16"), 1, 0, 0, 0),
        (b"<?xml version='1.0' encoding='latin-1'?>" + SUITE.format("<testcase name='\xe4'/>").encode("latin-1"), 1, 0, 0, 0),
    ],
)
def test_how_a_case_ended(text: object, passed: int, failed: int, errors: int, skipped: int) -> None:
    found = counts(text)
    assert (found["passed"], found["failed"], found["errors"], found["skipped"]) == (passed, failed, errors, skipped)


def test_the_first_names_are_told_in_letters_that_can_be_shown() -> None:
    cases = [CASE.format("suite", f"n{it}", "<failure/>") for it in range(12)]
    odd = CASE.format("", "a&#10;b\u202ec\u2028" + "x" * 500, "<error/>")
    found = counts(SUITE.format(odd + "".join(cases)))
    assert (found["failed"], found["errors"], len(found["names"])) == (12, 1, 10)
    assert found["names"][0].startswith("a?b?c?xxx") and len(found["names"][0]) == 120
    assert found["names"][1] == "suite.n0"


BOMB = "<!DOCTYPE t [<!ENTITY a 'ha'>" + "".join(
    f"<!ENTITY {chr(98 + it)} '{f'&{chr(97 + it)};' * 10}'>" for it in range(9)
) + "]>" + SUITE.format("<testcase name='&j;'/>")


@pytest.mark.parametrize(
    "text, why",
    [
        (BOMB, "it has a document type"),
        ("<!DOCTYPE testsuite SYSTEM 'file:///etc/passwd'>" + SUITE.format(""), "it has a document type"),
        ("<html><testcase/></html>", "its first element is no testsuite"),
        (SUITE.format("<a>" * 64), "it is more than 64 elements deep"),
        (SUITE.format(" " * artifacts.MOST_JUNIT), "it has more than 10,000,000 bytes"),
        (SUITE.format("&nbsp;"), "line 1: undefined entity"),
        ("<testsuite>", "line 1: no element found"),
        ("", "line 1: no element found"),
        ("{}", "line 1: not well-formed (invalid token)"),
        (b"\xff\xfe\x00", "line 1: "),
        ("<?xml version='1.0' encoding='no-such'?><testsuite/>", "its encoding isn't known"),
        ("<?xml version='1.0' encoding='utf-7'?><testsuite/>", ""),
        ("<?xml version='1.0' encoding='hex'?><testsuite/>", ""),
        (b"<testsuite><testcase name='\xff'/></testsuite>", "line 1: not well-formed (invalid token)"),
    ],
    ids=range(14),
)
def test_what_is_no_junit_is_refused(text: object, why: str) -> None:
    with pytest.raises(artifacts.NoJUnit) as fault:
        counts(text)
    assert str(fault.value).startswith(why)
