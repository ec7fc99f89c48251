"""The client for asyncio: the same operations, to be awaited.

    async with AsyncClient("/run/femem/femem.socket", session=7) as client:
        slot = await client.create("slot", 1)
        await client.writeef(slot, 0, 42)
        print(await client.readfe(slot, 0))

`femem.Client` says under the same name what each operation returns, when it waits and which errors it has. A task that is
cancelled while it awaits an operation takes it back and waits for the server's reply: if the operation had happened, the
task gets its answer, and is cancelled at its next operation or `await`. So `asyncio.wait_for` loses no value.
"""

from __future__ import annotations

import asyncio
import atexit
import os
import warnings
import weakref
from functools import partial
from typing import Any, Awaitable, Callable, Optional, Sequence, Type, TypeVar

from . import _aioworker as aioworker, _errors as errors, _keylocks as keylocks, _locks as locks
from . import _operations as operations, _queues as queues, _registry as registry, _semaphore as semaphore
from . import _words as words, _work as work
from ._aioworker import AsyncWorker, now
from ._arguments import DEFAULT, Choice, Key, Timeout, request_of, seconds_of
from ._calls import Asking, Calls, ForTasks, show_as
from ._carrier import NOT_HERE
from ._client import end_session
from ._core import Core
from ._jobs import Job, Last, T, Ticket
from .requests import Array, Request, number_of_bits
from ._sessionfile import SessionFile

C = TypeVar("C", bound="Held")

# The tasks that were cancelled while their operation happened. They got its result, and are still to be cancelled.
_owed: weakref.WeakSet[Any] = weakref.WeakSet()


class AsyncClient(Calls, ForTasks):
    """A session of a femem server, for the tasks of one event loop. `femem.Client` says what the arguments are.

    It connects at the start of `async with`, or by `await client.open()`.
    """

    _worker: AsyncWorker

    def _make(self, choice: Choice) -> None:
        self._choice = choice
        self._core = Core(choice, now)
        self._worker = AsyncWorker(self._core, choice)
        self._ask = self._worker.ask
        self._may_grow(choice, AsyncClient._grown)
        self.recovered = []

    @classmethod
    def _grown(cls, choice: Choice) -> AsyncClient:
        further = cls._of(choice)
        asyncio.get_running_loop().create_task(further.open()).add_done_callback(_is_seen)
        return further

    def __del__(self) -> None:
        worker = getattr(self, "_worker", None)
        if worker is not None and worker.connecting is not None and self.failure is None and worker.process == os.getpid():
            warnings.warn(f"unclosed {self!r}", ResourceWarning, source=self)
            worker.abandon()

    async def open(self) -> None:
        """Connects and attaches. The errors are those of `Client`."""
        worker = self._worker
        if worker.connecting is not None and self.failure is None:
            raise RuntimeError("the client was opened before")
        file = self._core.file
        if file is not None and file.state.is_ending:
            try:
                await self._end_session(file)
            except BaseException:
                file.abandon()
                raise
        if worker.is_chosen and os.path.isdir(registry.folder_of(self.path)):
            end = partial(end_session, self.path)
            await asyncio.get_running_loop().run_in_executor(None, registry.sweep, self.path, end)
            worker.entry = registry.enter(self.path, self.session, self._choice.sessions)
        opening = self._future(self._core.open(now()))
        self._recover()
        worker.start()
        try:
            await opening
            for each in self._choice.all_further():
                further = AsyncClient._of(each)
                await further.open()
                worker.wait_sessions[further] = 0
        except BaseException:
            await self.close()
            raise

    async def _end_session(self, file: SessionFile) -> None:
        """Ends the session, as the file's former process was about to. The file then begins with another one."""
        async with AsyncClient(self.path, self.session, reconnect_timeout=self._choice.patience) as former:
            await former.bye()
        file.start_over()
        self._core.begin_anew()
        self.session = file.state.session

    async def __aenter__(self) -> AsyncClient:
        await self.open()
        return self

    async def __aexit__(self, *failure: object) -> None:
        await self.close()

    async def close(self) -> None:
        """As `Client.close`."""
        await self._worker.close()

    def submit(self, request: Request[T], *, timeout: Timeout = DEFAULT, key: Optional[Key] = None) -> asyncio.Future[T]:
        """Asks without waiting for the answer. Cancelling the future takes its request back, without telling whether
        it had happened; a cancelled `await` of an operation by its own name does tell. With a key, as `once`."""
        ticket: Ticket[T] = Ticket(request_of(request)) if key is None else self._keyed(key, request)
        return self._submit(ticket, timeout)

    # How these are done.

    def _check_use(self, *, in_any_case: bool = False) -> None:
        """Raises if the client can't be used, or if the task is to be cancelled here and this is no end of something."""
        connecting = self._worker.connecting
        if self._worker.process != os.getpid():
            raise errors.Closed(NOT_HERE)
        if connecting is None:
            raise self.failure or RuntimeError("the client is not open: use `async with`, or await its `open`")
        if connecting.get_loop() is not asyncio.get_running_loop():
            raise RuntimeError("the client is of another event loop")
        if _owed and not in_any_case and _is_owed(asyncio.current_task()):
            raise asyncio.CancelledError

    def _submit(self, ticket: Ticket[T], timeout: Timeout) -> asyncio.Future[T]:
        seconds = self._seconds(timeout)
        self._check_use()
        future = self._future(ticket)
        self._core.take((ticket,), seconds, now())
        self._worker.move()
        return future

    def _catch_up(self) -> None:
        pass  # it was done at once

    async def _perform(self, asking: Asking[T]) -> T:
        self._check_use(in_any_case=asking.ends_client)
        if asking.tickets:
            done = asyncio.get_running_loop().create_future()
            Last(asking.tickets, partial(_is_done, done))
            self._ask(asking.ask)
            await (self._told(asking.tickets, done) if asking.can_be_taken_back else done)
        result = asking.result()
        if asking.ends_client:
            await self.close()
        return result

    async def _call(self, request: Request[T], timeout: Timeout) -> T:
        ticket = Ticket(request)
        try:
            return await self._told((ticket,), self._submit(ticket, timeout))
        except errors.FememError:
            del ticket  # the error's traceback has this frame
            raise

    async def _run_job(self, job: Job[T]) -> T:
        """Runs an operation of several steps. A task that is cancelled takes it back, or gets the result if it is done."""
        self._check_use(in_any_case=job.gives_back)
        future = self._future(job)
        self._ask(partial(self._core.start, job))
        return await self._told((job,), future)

    async def _told(self, tickets: Sequence[Ticket[Any]], future: asyncio.Future[T]) -> T:
        """The result of the tickets' future. A task that is cancelled gets it too, unless nothing happened."""
        try:
            return await asyncio.shield(future)
        except errors.FememError:
            del tickets, future  # as above
            raise
        except asyncio.CancelledError:
            if future.cancelled():
                raise
            future.add_done_callback(_is_seen)
            self._take_back(tickets, False)
            try:
                await asyncio.wait([future])
            except asyncio.CancelledError:
                # Cancelled once more: the task does not wait for the server's reply.
                self._take_back(tickets, True)
                future.cancel()
                raise
            if all(isinstance(ticket.error, errors.Withdrawn) for ticket in tickets):
                raise
            # The task is cancelled at its next operation, or at the next `await` that suspends it.
            _owed.add(asyncio.current_task())
            asyncio.get_running_loop().call_soon(_cancel_again, asyncio.current_task())
            return future.result()

    def _abandon(self, job: Job[Any]) -> None:
        """As of threads. What drops a loop over jobs may be no task of this loop, as the collector of cycles."""
        connecting = self._worker.connecting
        if connecting is not None and not connecting.get_loop().is_closed():
            # Later even here: the collector may drop a loop in the middle of the core's own work.
            connecting.get_loop().call_soon_threadsafe(self._take_back, (job,), True)

    def _take_back(self, tickets: Sequence[Ticket[Any]], is_abandoned: bool) -> None:
        for ticket in tickets:
            if isinstance(ticket, Job):
                (self._core.abandon if is_abandoned else self._core.interrupt)(ticket, now())
            else:
                self._core.withdraw(ticket, now())
        self._worker.move()

    def _future(self, ticket: Ticket[T]) -> asyncio.Future[T]:
        future: asyncio.Future[Any] = asyncio.get_running_loop().create_future()

        def cancelled(future: asyncio.Future[Any]) -> None:
            if future.cancelled() and not ticket.done:
                self._take_back((ticket,), True)

        future.add_done_callback(cancelled)
        return self._ending_with(ticket, future)


def _is_owed(task: Any) -> bool:
    """Whether the task is still to be cancelled, from now on by the caller. `timeout` and `wait_for` take it back."""
    if task not in _owed:
        return False
    _owed.discard(task)
    return not hasattr(task, "cancelling") or task.cancelling() > 0


def _cancel_again(task: Any) -> None:
    if _is_owed(task):
        if hasattr(task, "uncancel"):
            task.uncancel()  # `cancel` counts it again
        task.cancel()


def _is_seen(future: asyncio.Future[Any]) -> None:
    """Its error is not logged even if it is never awaited."""
    if not future.cancelled():
        future.exception()


def _is_done(future: asyncio.Future[None]) -> None:
    if not future.cancelled():
        future.set_result(None)


atexit.register(aioworker.at_exit)

# The patterns: those of `femem.patterns`, with operations to be awaited. The first operation makes or finds
# their arrays. A task that is cancelled within an operation takes it back, or gets its result if it is done.


class Awaiting(operations.Pattern, ForTasks):
    """The face for asyncio: an operation is awaited."""

    CLIENT = AsyncClient

    def __init__(self, client: AsyncClient, name: Any, *sizes: Any, **more: Any) -> None:
        super().__init__(client, name, *sizes, **more)

    def _perform(self, done: Any, *args: Any, **more: Any) -> Any:
        """The steps are made where it is called: a task that `asyncio.wait_for` makes is not its caller."""
        undo = getattr(self, done.undo) if done.undo else None
        return self._run(Job(done.steps(self, *args, **more), undo, done.gives_back))

    async def _run(self, job: Job[Any]) -> Any:
        return await self._client._run_job(job)

    def _caller(self) -> object:
        try:
            return asyncio.current_task()
        except RuntimeError:
            return None  # it is called before its event loop runs


class Held(Awaiting):
    """What an `async with` holds."""

    async def __aenter__(self: C) -> C:
        await self.acquire()  # type: ignore[attr-defined]
        return self

    async def __aexit__(self, *failure: object) -> None:
        await self.release()  # type: ignore[attr-defined]


class Lock(Held, locks.Lock): ...
class KeyLock(Held, keylocks.KeyLock): ...
class Semaphore(Held, semaphore.Semaphore): ...
class Turn(Held, locks.Turn): ...
class Election(Awaiting, locks.Election): ...
class BoundedQueue(Awaiting, queues.BoundedQueue): ...
class Channel(Awaiting, queues.Channel): ...
class Barrier(Awaiting, words.Barrier): ...
class Counter(Awaiting, words.Counter): ...
class Future(Awaiting, words.Future): ...


class Locks(keylocks.Locks[KeyLock]):
    __doc__ = keylocks.Locks.__doc__
    LOCK = KeyLock

    def __init__(self, client: AsyncClient, name: str, capacity: int = 4096) -> None:
        super().__init__(client, name, capacity)


class ReadWriteLock(Awaiting, locks.ReadWriteLock[Turn]):
    TURN = Turn


class Once(Awaiting, words.Once):
    async def run(self, work: Callable[[], Awaitable[int]], timeout: Optional[float] = None) -> int:
        """As of threads; `work` is a coroutine function."""
        array, result = await self._begin(timeout)
        if array is None:
            return result
        try:
            return await self._finish(array, number_of_bits(await work(), 64, "result"))
        except BaseException:
            await self._give_up(array)  # (once the result is set, nobody looks)
            raise


class WorkJob(Awaiting, work.WorkJob):
    async def __aenter__(self) -> WorkJob:
        return self

    async def __aexit__(self, kind: Optional[Type[BaseException]], *failure: object) -> None:
        await self._leave(kind is None)


class JobLoop(work.Loop[WorkJob]):
    """As that of threads, for `async for`. A task that is cancelled within the body leaves it."""

    def __aiter__(self) -> JobLoop:
        self._leave()  # an earlier loop left its body
        return self

    async def __anext__(self) -> WorkJob:
        if self._job is not None:
            await self._job._leave(True)
            self._job = None
        try:
            self._job = await self._queue.take(self._timeout)
        except errors.TimedOut:
            raise StopAsyncIteration from None
        return self._job


class WorkQueue(Awaiting, work.WorkQueue[WorkJob]):
    JOB = WorkJob

    def jobs(self, timeout: Optional[float] = None) -> JobLoop:
        """`async for job in queue.jobs(timeout=60):` takes job after job, until none comes for that many seconds."""
        return JobLoop(self, seconds_of(timeout))

    def __aiter__(self) -> JobLoop:
        """`async for job in queue:` takes job after job, without end."""
        return self.jobs()


async def shared_array(client: AsyncClient, name: str, length: int, full: bool) -> Array:
    """As `patterns.shared_array`."""
    return await client._run_job(Job(operations.shared_array(name, length, full)))


__all__ = [
    "AsyncClient", "Barrier", "BoundedQueue", "Channel", "Counter", "Election", "Future", "JobLoop", "KeyLock", "Lock", "Locks",
    "Once", "ReadWriteLock", "Semaphore", "Turn", "WorkJob", "WorkQueue", "shared_array",
]  # fmt: skip

show_as(__name__, __all__)
