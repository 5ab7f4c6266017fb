"""The last lines of a run: what wasn't tried, and 'N passed, M failed, K skipped'."""
from __future__ import annotations

import os
from typing import Dict, List, Set

import pytest

ROW = "not tried"  # the property of a test that left out a row of its own, whose value is 'NAME (why)'


class Ending:
    """Counts how tests ended. A test that fails in its teardown alone counts once, as failed; one that
    leaves out a row of its own says so by the property 'not tried', and the row counts as skipped."""

    def __init__(self, config: pytest.Config):
        self.is_worker = hasattr(config, "workerinput")
        self.passed: Set[str] = set()
        self.failed: Set[str] = set()
        self.skipped: Dict[str, str] = {}
        self.rows: List[str] = []
        self.is_interrupted = False

    def pytest_collectreport(self, report: pytest.CollectReport) -> None:
        if report.failed:
            self.failed.add(report.nodeid)
        elif report.skipped:
            self.skipped[report.nodeid] = why_of(report)

    def pytest_runtest_logreport(self, report: pytest.TestReport) -> None:
        name = report.nodeid
        if report.failed:
            self.failed.add(name)
            self.passed.discard(name)
        elif report.skipped:
            self.skipped[name] = why_of(report)
        elif report.when == "call" and name not in self.failed:
            self.passed.add(name)
        if report.when == "teardown":
            self.rows += [str(text) for kind, text in report.user_properties if kind == ROW]

    def pytest_sessionfinish(self, exitstatus: int) -> None:
        self.is_interrupted = exitstatus == pytest.ExitCode.INTERRUPTED

    def lines(self) -> List[str]:
        """What was left out, a line a reason, and the counts. An interrupted run has no line that counts as a run's."""
        reasons: Dict[str, List[str]] = {}
        for name, why in sorted(self.skipped.items()):
            reasons.setdefault(why, []).append(name.partition("::")[2] or name)
        told = [f"not tried: {names[0] if len(names) == 1 else f'{len(names)} tests'} ({why})" for why, names in sorted(reasons.items())]
        told += [f"not tried: {it}" for it in sorted(self.rows)]
        skipped = len(self.skipped) + len(self.rows)
        counts = f"{len(self.passed)} passed, {len(self.failed)} failed, {skipped} skipped"
        return [*told, f"interrupted, with {counts} until then" if self.is_interrupted else counts]

    def pytest_unconfigure(self) -> None:
        if not self.is_worker and (self.passed or self.failed or self.skipped):
            print("\n".join(["", *self.lines()]), flush=True)


def why_of(report: pytest.CollectReport | pytest.TestReport) -> str:
    """Why a test was skipped, in one line."""
    told = report.longrepr[2] if isinstance(report.longrepr, tuple) else str(report.longrepr)
    return " ".join(str(told).removeprefix("Skipped: ").split())


def is_strict() -> bool:
    return os.environ.get("FARM_STRICT") == "1"
