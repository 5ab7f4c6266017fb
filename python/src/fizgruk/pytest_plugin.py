"""Tests on boards of the farm: `pytest --farm hdmi`, the fixtures `board` and `boards`, and the mark
`farm`.

The fixture `board` is reserved for the session as the first test asks for it. A test that is marked
`@pytest.mark.farm("hdmi", boards=2)` and asks for `boards` has these for itself, or, with
`scope="session"`, with all tests of such a mark. All are given back at their end, also after Ctrl-C,
SIGTERM and SIGHUP. Tests that ask for boards are skipped where --farm isn't given. Where a board is
lost meanwhile, the test that runs with it is interrupted, and fails with HoldLost, and so do those
after it.
"""
import contextlib
import random
import signal
import threading
import time
from types import FrameType
from typing import Any, Callable, Dict, Generator, Iterator, List, Optional, Tuple, TypeVar, Union

import pytest

from fizgruk import holding
from fizgruk.client import HOUR, Client
from fizgruk.errors import FizgrukError, HoldLost, TimedOut
from fizgruk.holding import BlockWatch, Interrupt
from fizgruk.models import Board

# Signals that end a process without a word, and here end the session as Ctrl-C does.
SIGNALS = (signal.SIGTERM, signal.SIGHUP)
# Who holds one board and waits for another gives all back after so many seconds, and asks again after a while: of two
# sessions that wait for each other's one gets its boards so.
FIRST_TRY, PAUSE = 10.0, 5.0
MARK = (
    "farm(*tags, boards=1, scope='function', priority=None): the fixture boards has so many boards that"
    " have these tags and those of --farm, for the test or for the session"
)
Hook = TypeVar("Hook", bound=Callable[..., Any])


class Ended(KeyboardInterrupt):
    """The session was ended by a signal."""


def pytest_addoption(parser: pytest.Parser) -> None:
    group = parser.getgroup("farm", "boards of a farm")
    group.addoption(
        "--farm",
        metavar="TAGS",
        action="append",
        help="hold a board with these tags for the tests that ask for the fixture board; several"
        " tags are divided by spaces, '' is any board",
    )
    group.addoption(
        "--farm-priority", metavar="P", help="low, medium, high, or 0 to 100 (50)",
        type=holding.priority_of,
    )
    group.addoption(
        "--farm-timeout", metavar="SECONDS", help="wait so long for a board (3600)", type=float,
        default=HOUR,
    )


def pytest_report_header(config: pytest.Config) -> Optional[str]:
    tags = tags_of(config)
    return None if tags is None else f"farm: a board{' with ' if tags else ''}{' '.join(tags)}"


def tags_of(config: pytest.Config) -> Optional[List[str]]:
    """The tags of all options --farm, or None where there is none."""
    given = config.getoption("--farm")
    return None if given is None else " ".join(given).split()


def pytest_configure(config: pytest.Config) -> None:
    """Lets the signals be raised, where nobody else takes them."""
    config.addinivalue_line("markers", MARK)
    if tags_of(config) is None or threading.current_thread() is not threading.main_thread():
        return
    for number in SIGNALS:
        if signal.getsignal(number) is signal.SIG_DFL:
            signal.signal(number, end)


def pytest_unconfigure() -> None:
    holding.end_all()  # where signals kept pytest from it, before the next one ends the process
    if threading.current_thread() is threading.main_thread():
        for number in SIGNALS:
            if signal.getsignal(number) is end:
                signal.signal(number, signal.SIG_DFL)


def end(number: int, frame: Optional[FrameType]) -> None:
    raise Ended(f"ended by {signal.Signals(number).name}")


def first(function: Hook) -> Hook:
    """Marks a hook that goes before those of others."""
    marked: Hook = pytest.hookimpl(tryfirst=True)(function)
    return marked


def around(function: Hook) -> Hook:
    """Marks a hook that goes around those of others."""
    marked: Hook = pytest.hookimpl(hookwrapper=True, tryfirst=True)(function)
    return marked


Asks = Callable[[pytest.Item], bool]  # whether a test asks for a board


class Guard:
    """Lets the tests that ask for a board fail with HoldLost once it is lost. Another test isn't
    interrupted, and neither is a teardown."""

    def __init__(self, watch: BlockWatch, asks: Asks) -> None:
        self.watch, self.asks = watch, asks
        self.watch.interrupts = False
        self.told: Optional[pytest.Item] = None

    @around
    def pytest_runtest_setup(self, item: pytest.Item) -> Generator[None, Any, None]:
        yield from self._guarded(item)

    @around
    def pytest_runtest_call(self, item: pytest.Item) -> Generator[None, Any, None]:
        yield from self._guarded(item)

    @around
    def pytest_runtest_teardown(self, item: pytest.Item) -> Generator[None, Any, None]:
        outcome = yield
        if self.watch.lost and self.told is not item and self.asks(item):
            self._fail(item, outcome)

    def _guarded(self, item: pytest.Item) -> Generator[None, Any, None]:
        if not self.asks(item):
            yield
            return
        self.watch.interrupts = True
        outcome = yield
        self.watch.interrupts = False
        if self.watch.lost:
            self._fail(item, outcome)

    def _fail(self, item: pytest.Item, outcome: Any) -> None:
        """Puts the loss in the place of what came of a test, but for what ends the session."""
        came = outcome.excinfo[1] if outcome.excinfo else None
        if isinstance(came, (KeyboardInterrupt, pytest.exit.Exception)):
            if not isinstance(came, Interrupt):
                return
        self.told = item
        self.watch.is_told = True
        if isinstance(came, HoldLost):
            return
        fault = HoldLost(self.watch.lost).with_traceback(came.__traceback__ if came else None)
        fault.__cause__ = None if isinstance(came, Interrupt) else came
        if not hasattr(outcome, "force_exception"):  # pluggy before 1.1
            raise fault
        outcome.force_exception(fault)


class Gate:
    """Lets no test begin that asks for a board once that is lost."""

    def __init__(self, watch: BlockWatch, asks: Asks) -> None:
        self.watch, self.asks = watch, asks

    @first
    def pytest_runtest_setup(self, item: pytest.Item) -> None:
        self._demand_held(item)

    @first
    def pytest_runtest_call(self, item: pytest.Item) -> None:
        self._demand_held(item)

    def _demand_held(self, item: pytest.Item) -> None:
        if self.watch.lost and self.asks(item):
            raise HoldLost(self.watch.lost)


def asks_for_board(item: pytest.Item) -> bool:
    """Whether a test asks for the fixture `board`, itself or by another fixture."""
    return "board" in fixtures_of(item)


def fixtures_of(item: pytest.Item) -> List[str]:
    return list(getattr(item, "fixturenames", ()))


@pytest.fixture(scope="session")
def farm_client() -> Iterator[Client]:
    """The desk, as the user sees whom the settings name."""
    try:
        client = Client()
    except FizgrukError as fault:
        pytest.fail(str(fault), pytrace=False)
    with client:
        yield client


@pytest.fixture(scope="session")
def board(pytestconfig: pytest.Config, request: pytest.FixtureRequest) -> Iterator[Board]:
    """A board of the farm that has the tags of --farm, for the time of the session."""
    skip_without_farm(pytestconfig)
    client: Client = request.getfixturevalue("farm_client")
    timeout = pytestconfig.getoption("--farm-timeout")
    with held(pytestconfig, client, (), None, asks_for_board, timeout, False) as found:
        assert found is not None
        yield found


@pytest.fixture
def boards(
    pytestconfig: pytest.Config, request: pytest.FixtureRequest, farm_shared: "Shared"
) -> Iterator[List[Board]]:
    """The boards that the test's mark `farm` wants, for its time or for the session's."""
    skip_without_farm(pytestconfig)
    mark = request.node.get_closest_marker("farm")
    want = want_of(mark)
    if mark.kwargs.get("scope") == "session":
        yield farm_shared.boards_of(want)
        return
    item = request.node
    with contextlib.ExitStack() as stack:
        yield held_together(pytestconfig, farm_shared.client, stack, want, lambda it: it is item)


Want = Tuple[Tuple[str, ...], int, Union[int, str, None]]  # tags, how many boards, and the priority


def want_of(mark: Optional[pytest.Mark]) -> Want:
    """What a mark wants; one board with the tags of --farm where there is none."""
    if mark is None:
        return (), 1, None
    unknown = mark.kwargs.keys() - {"boards", "scope", "priority"}
    if unknown or mark.kwargs.get("scope", "function") not in ("function", "session"):
        pytest.fail(f"farm{mark.args}: it is {MARK.partition(':')[0]}", pytrace=False)
    return mark.args, mark.kwargs.get("boards", 1), mark.kwargs.get("priority")


class Shared:
    """The boards that marks want for the session, by what they want."""

    def __init__(self, config: pytest.Config, client: Client, stack: contextlib.ExitStack) -> None:
        self.config, self.client, self.stack = config, client, stack
        self.held: Dict[Want, List[Board]] = {}

    def boards_of(self, want: Want) -> List[Board]:
        def asks(item: pytest.Item) -> bool:
            mark = item.get_closest_marker("farm")
            is_shared = mark is not None and mark.kwargs.get("scope") == "session"
            return is_shared and "boards" in fixtures_of(item) and want_of(mark) == want

        if want not in self.held:
            self.held[want] = held_together(self.config, self.client, self.stack, want, asks)
        return self.held[want]


@pytest.fixture(scope="session")
def farm_shared(pytestconfig: pytest.Config, farm_client: Client) -> Iterator[Shared]:
    with contextlib.ExitStack() as stack:
        yield Shared(pytestconfig, farm_client, stack)


def skip_without_farm(config: pytest.Config) -> None:
    if tags_of(config) is None:
        pytest.skip("it wants a board of the farm: pytest --farm TAGS")


def held_together(
    config: pytest.Config, client: Client, stack: contextlib.ExitStack, want: Want, asks: Asks
) -> List[Board]:
    """As many boards as are wanted, which are held until the stack ends. None is kept for long while others are waited
    for."""
    until = time.monotonic() + config.getoption("--farm-timeout")
    patience = FIRST_TRY
    while True:
        with contextlib.ExitStack() as tried:
            found: List[Board] = []
            while len(found) < want[1]:
                left = max(0.0, until - time.monotonic())
                is_short = 0 < len(found) and patience < left
                board = tried.enter_context(
                    held(config, client, want[0], want[2], asks, patience if is_short else left, is_short)
                )
                if board is None:
                    break
                found.append(board)
            else:
                stack.push(tried.pop_all())
                return found
        patience *= 2
        tell(config, f"gives back {len(found)} boards, since {want[1]} weren't to be had at once, and asks again")
        time.sleep(random.uniform(0, PAUSE))


@contextlib.contextmanager
def held(
    config: pytest.Config, client: Client, tags: Tuple[str, ...], priority: Union[int, str, None],
    asks: Asks, timeout: float, is_tried: bool,
) -> Iterator[Optional[Board]]:
    """A board that has these tags and those of --farm, whose loss is told to the tests that ask for it; None where it
    is only tried, and doesn't come within the time."""
    wanted = dict.fromkeys([*tags, *(tags_of(config) or ())])
    hold = client.board(
        *wanted,
        priority=config.getoption("--farm-priority") if priority is None else priority,
        timeout=timeout,
        tell=lambda text: tell(config, text),
    )
    try:
        with hold as found, guarded(config, hold, asks):
            tell(config, f"{found.name} is held by reservation {found.reservation}")
            yield found
    except FizgrukError as fault:
        if is_tried and isinstance(fault, TimedOut):
            yield None
            return
        is_told = hold.watch is not None and hold.watch.is_told
        if not (isinstance(fault, HoldLost) and is_told):
            pytest.fail(str(fault), pytrace=False)


@contextlib.contextmanager
def guarded(config: pytest.Config, hold: holding.Hold, asks: Asks) -> Iterator[None]:
    """Lets tests fail once the board of a hold is lost."""
    if hold.watch is None:
        raise FizgrukError("there is no board to be guarded")
    guards = [Guard(hold.watch, asks), Gate(hold.watch, asks)]
    for it in guards:
        config.pluginmanager.register(it)
    try:
        yield
    finally:
        for it in guards:
            config.pluginmanager.unregister(it)


def tell(config: pytest.Config, text: str) -> None:
    """Tells on the terminal, also while what tests print is captured."""
    reporter = config.pluginmanager.get_plugin("terminalreporter")
    capture = config.pluginmanager.get_plugin("capturemanager")
    if reporter is None:
        return
    with capture.global_and_fixture_disabled() if capture else contextlib.nullcontext():
        reporter.ensure_newline()
        reporter.write_line(f"farm: {text}")
        reporter.flush()  # a log of a pipeline says at once why it waits
