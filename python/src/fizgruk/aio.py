"""The desk from asyncio: the names of `Client`, each to be awaited.

    from fizgruk.aio import AsyncClient

    async with AsyncClient() as client, client.board("hdmi") as board:
        ...

Each call goes over a thread of its own: so there is one client, and what it does at lost answers, restarts and
losses is the same, and no call waits for another, as giving a board back would in a pool that is full of those who
wait for it. A wait that is canceled ends within its next look.
"""
import asyncio
import concurrent.futures
import contextlib
import functools
import threading
from types import TracebackType
from typing import (
    TYPE_CHECKING, Any, AsyncIterator, Awaitable, Callable, Coroutine, Optional, Type, TypeVar, Union
)

from fizgruk import waiting
from fizgruk.client import HOUR, LOG, Client
from fizgruk.errors import HoldLost
from fizgruk.holding import Hold, Priority
from fizgruk.models import Board
from fizgruk.waiting import Tell

if TYPE_CHECKING:  # (Python 3.9 hasn't these, and type checkers know them of themselves)
    from typing_extensions import Concatenate, ParamSpec

    Given = ParamSpec("Given")

Found = TypeVar("Found")
Own = TypeVar("Own", bound="AsyncClient")


class Canceled(BaseException):
    """The task that awaits a call was canceled: raised in the call's thread."""


def begun(call: Callable[[], Found]) -> "asyncio.Future[Found]":
    """What a call gives that has begun in a thread of its own."""
    work: "concurrent.futures.Future[Found]" = concurrent.futures.Future()

    def run() -> None:
        try:
            work.set_result(call())
        except BaseException as fault:  # pylint: disable=broad-except # (it is raised where it is awaited)
            work.set_exception(fault)

    threading.Thread(target=run).start()
    return asyncio.wrap_future(work)


async def in_thread(call: Callable[..., Found], *words: Any, **more: Any) -> Found:
    """What a call in a thread gives. Where the task is canceled, the call's waits end, and the task
    goes on once the call has ended."""
    is_over = threading.Event()

    def stop(seconds: float) -> None:
        if is_over.wait(seconds):
            raise Canceled

    def run() -> Union[Found, Canceled]:
        waiting.SLEEPS.sleep = stop
        try:
            return call(*words, **more)
        except Canceled as end:
            return end  # (a future takes none that is no Exception)
        finally:
            del waiting.SLEEPS.sleep

    work = begun(run)
    try:
        found = await asyncio.shield(work)
    except asyncio.CancelledError:
        is_over.set()
        with contextlib.suppress(Exception):
            await ended(work)
        raise
    assert not isinstance(found, Canceled)
    return found


async def ended(work: Awaitable[Found]) -> Found:
    """What comes of work that has to end whatever cancels the task meanwhile, which comes then."""
    task = asyncio.ensure_future(work)
    is_canceled = False
    while not task.done():
        try:
            await asyncio.wait([task])
        except asyncio.CancelledError:
            is_canceled = True
    if is_canceled:
        task.exception()  # (nobody else asks for it)
        raise asyncio.CancelledError
    return task.result()


class AsyncHold:
    """What `AsyncClient.board` gives: within its `async with` the board is acquired. Where it is lost
    the task is canceled, and HoldLost raised."""

    def __init__(self, hold: Hold) -> None:
        self._hold = hold
        self._task: Optional["asyncio.Task[Any]"] = None
        self._is_lost = False

    @property
    def lost(self) -> str:
        """Why the board isn't yours any more, or nothing."""
        return self._hold.lost

    async def __aenter__(self) -> Board:
        loop = asyncio.get_running_loop()
        self._task = asyncio.current_task()
        self._hold.on_loss = lambda: loop.call_soon_threadsafe(self._interrupt)
        try:
            return await in_thread(self._hold.__enter__)
        except asyncio.CancelledError:
            await ended(begun(self._hold.end))  # (it may have come just now)
            raise

    async def __aexit__(
        self, kind: Optional[Type[BaseException]], fault: Optional[BaseException],
        trace: Optional[TracebackType],
    ) -> None:
        task, self._task = self._task, None
        is_own = self._is_lost and isinstance(fault, asyncio.CancelledError)
        if is_own and task is not None and hasattr(task, "uncancel"):
            task.uncancel()
        end = HoldLost(self.lost) if is_own else fault
        leave = functools.partial(self._hold.__exit__, type(end), end, None)
        await ended(begun(leave))

    def _interrupt(self) -> None:
        if self._task is not None and not self._is_lost:
            self._is_lost = True
            self._task.cancel()


def awaited(
    method: "Callable[Concatenate[Client, Given], Found]",
) -> "Callable[Concatenate[AsyncClient, Given], Coroutine[Any, Any, Found]]":
    """A method of Client's, of the same name, words and type, to be awaited."""

    @functools.wraps(method)
    async def call(self: "AsyncClient", /, *words: "Given.args", **more: "Given.kwargs") -> Found:
        return await in_thread(method, self._client, *words, **more)

    return call


class AsyncClient:
    """A desk, as one user sees it; what it is given is what `Client` is."""

    def __init__(self, *words: Any, **more: Any) -> None:
        self._client = Client(*words, **more)

    @property
    def server(self) -> str:
        return self._client.server

    @property
    def user(self) -> str:
        return self._client.user

    def close(self) -> None:
        self._client.close()

    async def __aenter__(self: Own) -> Own:
        return self

    async def __aexit__(self, *_: object) -> None:
        self.close()

    types = awaited(Client.types)
    boards = awaited(Client.boards)
    queue = awaited(Client.queue)
    reservations = awaited(Client.reservations)
    job = awaited(Client.job)
    group = awaited(Client.group)
    status = awaited(Client.status)

    add_type = awaited(Client.add_type)
    add_board = awaited(Client.add_board)
    set_tags = awaited(Client.set_tags)
    set_health = awaited(Client.set_health)

    submit = awaited(Client.submit)
    resubmit = awaited(Client.resubmit)
    run = awaited(Client.run)
    cancel_job = awaited(Client.cancel_job)
    wait_for_job = awaited(Client.wait_for_job)

    log = awaited(Client.log)
    artifacts = awaited(Client.artifacts)
    artifact = awaited(Client.artifact)
    notes = awaited(Client.notes)
    history = awaited(Client.history)
    usage = awaited(Client.usage)

    reserve = awaited(Client.reserve)
    wait_for_board = awaited(Client.wait_for_board)
    acquire = awaited(Client.acquire)
    release = awaited(Client.release)
    refresh = awaited(Client.refresh)
    cancel_reservation = awaited(Client.cancel_reservation)

    call_pass = awaited(Client.call_pass)
    start_job = awaited(Client.start_job)
    finish_job = awaited(Client.finish_job)

    async def follow(
        self, number: int, timeout: Optional[float] = HOUR, *, every: float = 2.0
    ) -> AsyncIterator[str]:
        """What a job says, piece by piece, as `Client.follow` gives it."""
        pieces = self._client.follow(number, timeout, every=every)
        while True:
            said: str = await in_thread(next, pieces, "")
            if not said:
                return
            yield said

    def board(
        self, *tags: str, priority: Priority = None, timeout: Optional[float] = HOUR,
        every: float = 2.0, tell: Tell = LOG.info, **wants: str,
    ) -> AsyncHold:
        """A board that is yours within an `async with`, as `Client.board` gives it."""
        return AsyncHold(self._client.board(
            *tags, priority=priority, timeout=timeout, every=every, tell=tell, **wants
        ))
