"""What all tests share: the program that they try, farms that they serve, and what is said at the end.

The program is the one of --farm, of the environment's FARM_PROGRAM, or bin/farm; the player of
transcripts that of --player, of FARM_PLAYER, or what the gate built. A test that wants what the
machine lacks skips by `wants` (shared/wants.py); with FARM_STRICT=1 a skip is a failure.
"""
from __future__ import annotations

import os
import pathlib
import signal
import sys
import types
from typing import Any, Callable, Generator, Iterator, Optional, Sequence

import pytest

TOP = pathlib.Path(__file__).resolve().parent.parent
pytest.register_assert_rewrite("desks", "dispatch_lab", "pages", "python_front", "served", "watched")

from ending import ROW, Ending, is_strict, why_of  # noqa: E402
from served import STARTED, Board, Farm, Tool, end_all  # noqa: E402
from wants import NO_PACKAGE  # noqa: E402


def pytest_addoption(parser: pytest.Parser) -> None:
    parser.addoption("--farm", metavar="PROGRAM", help="the program that is tried (default bin/farm)")
    parser.addoption("--player", metavar="PROGRAM", help="the player of transcripts (default what the gate built)")


def pytest_configure(config: pytest.Config) -> None:
    # (a shell lets what it runs in the background ignore these)
    for each in (signal.SIGINT, signal.SIGQUIT, signal.SIGHUP):
        if signal.getsignal(each) == signal.SIG_IGN:
            signal.signal(each, signal.SIG_DFL)
    config.pluginmanager.register(Ending(config), "ending")


@pytest.hookimpl(tryfirst=True, optionalhook=True)
def pytest_xdist_newgateway(gateway: Any) -> None:
    """With -v pytest-xdist asks each worker on what it runs. A task that comes to a worker while its main thread ends the
    one before runs in another thread (execnet before 2.1), where no test can set a signal: so none is asked, since all
    run on what this process does."""
    here = types.SimpleNamespace(platform=sys.platform, version_info=sys.version_info, cwd=os.getcwd())
    gateway._cache_rinfo = here  # pylint: disable=protected-access


def pytest_collection_modifyitems(items: list[pytest.Item]) -> None:
    """Begins with what takes longest: tests with the mark `slow`, which says some seconds."""

    def seconds(item: pytest.Item) -> float:
        mark = item.get_closest_marker("slow")
        return float(mark.args[0]) if mark else 0.0

    items.sort(key=seconds, reverse=True)


def program_of(config: pytest.Config, option: str, variable: str, usual: str) -> str:
    """The path of a program that was built."""
    path = os.path.realpath(config.getoption(option) or os.environ.get(variable) or TOP / usual)
    if not os.access(path, os.X_OK):
        pytest.fail(f"there is no program {path}: build it by `make bin`, or name one by {option}", pytrace=False)
    return path


@pytest.fixture(scope="session")
def program(pytestconfig: pytest.Config) -> str:
    """The path of the desk's program."""
    return program_of(pytestconfig, "--farm", "FARM_PROGRAM", "bin/farm")


@pytest.fixture(scope="session")
def player(pytestconfig: pytest.Config) -> str:
    """The path of the player of transcripts."""
    return program_of(pytestconfig, "--player", "FARM_PLAYER", "crates/farm_play/out/farm_play")


@pytest.fixture
def folder(tmp_path: pathlib.Path) -> str:
    """A folder of the test's own."""
    return str(tmp_path)


@pytest.fixture
def make_farm(program: str, tmp_path_factory: pytest.TempPathFactory) -> Callable[..., Farm]:
    """Makes a farm of the test's own with these boards (name, type, tags), all Good, and serves it."""

    def make(boards: Sequence[Board] = (), place: Optional[str] = None) -> Farm:
        return Farm(program, place or str(tmp_path_factory.mktemp("farm")), boards)

    return make


@pytest.fixture
def start_tool(tmp_path_factory: pytest.TempPathFactory) -> Callable[..., Tool]:
    """Starts a tool of tools/ with these words and more environment; it runs on until it ends or is killed."""

    def start(*words: str, **more: str) -> Tool:
        return Tool(list(words), str(tmp_path_factory.mktemp("tool")), **more)

    return start


@pytest.fixture(autouse=True)
def nothing_left() -> Iterator[None]:
    """Kills what a test that ends leaves running: farms and tools that it started itself."""
    before = len(STARTED)
    yield
    end_all(STARTED[before:])
    del STARTED[before:]


@pytest.hookimpl(hookwrapper=True)
def pytest_runtest_makereport(item: pytest.Item) -> Generator[None, Any, None]:
    outcome = yield
    report = outcome.get_result()
    left_out = [why_of(report)] if report.skipped else [str(text) for kind, text in item.user_properties if kind == ROW]
    left_out = [it for it in left_out if NO_PACKAGE not in it]
    if is_strict() and left_out and not report.failed:
        report.outcome = "failed"
        report.longrepr = f"left out, which FARM_STRICT=1 takes for a failure: {', '.join(left_out)}"
