"""Locks, queues and the like over full and empty words, for threads. `femem.aio` has the same for asyncio.

Each has a name, and clients that give the same name (and the same size) share it. The first one makes its arrays. Each
array is made in one step that either happens or not, so it does not matter who is first or when a server stops.

A stop of the server loses nothing that was answered, and clients wait again by themselves, so all patterns survive stops.
Each says what a client leaves behind that is gone for good. What takes several requests is run by the client itself, so an
interruption of the caller leaves nothing half done.

A `timeout` is in seconds. `None` is no limit, and 0 or less means that nothing waits. The client's own does not apply.
"""

from __future__ import annotations

import functools
import weakref
from threading import get_ident
from typing import Any, Callable, Dict, Optional, TypeVar

from . import _keylocks as keylocks, _locks as locks, _operations as operations, _queues as queues
from . import _semaphore as semaphore, _words as words, _work as work
from ._arguments import seconds_of
from ._calls import ForThreads
from ._client import Client
from ._errors import FememError, TimedOut
from ._jobs import Job, Mended, Steps
from .requests import Array, number_of_bits

C = TypeVar("C", bound="Held")


class Blocking(operations.Pattern, ForThreads):
    """The face for threads: an operation returns once it is done."""

    CLIENT = Client
    _operations: Dict[str, operations.operation[Any, Any]] = {}

    def __init__(self, client: Client, name: Any, *sizes: Any, **more: Any) -> None:
        super().__init__(client, name, *sizes, **more)

    def __init_subclass__(cls) -> None:
        """Makes a function of each operation: when anything else has returned, Python looks for signals, too late to undo."""
        super().__init_subclass__()
        cls._operations = {**cls._operations}
        for name in dir(cls):
            done = getattr(cls, name)
            if isinstance(done, operations.operation):
                cls._operations[name] = done
                setattr(cls, name, _performing(done))


def _performing(done: operations.operation[Any, Any]) -> Callable[..., Any]:
    @functools.wraps(done.steps)
    def perform(self: Blocking, *args: Any, **more: Any) -> Any:
        one = getattr(self, done.call)(*args, **more) if done.call else None
        if one is not None:
            return self._client._call(*one)
        job = _job(self, done, *args, **more)
        try:
            return self._client._run_job(job)
        except FememError:
            raise
        except BaseException:
            self._client._abandon(job)
            raise

    return perform


def _job(pattern: Blocking, done: operations.operation[Any, Any], *args: Any, **more: Any) -> Job[Any]:
    steps = done.steps(pattern, *args, **more)
    job: Job[Any] = Job(steps, getattr(pattern, done.undo) if done.undo else None, done.gives_back)
    if not done.undo and not done.gives_back:
        job.is_light = done.is_light
    elif done.is_light and pattern._can_mend() and not (done.gives_back and (args or more)):
        job.is_light, job.log = True, []
        job.mend = steps.mend if isinstance(steps, Mended) else functools.partial(pattern._mend, pattern._array, done.gives_back)
    return job


class Opened(Blocking):
    """One whose array is made as it is."""

    def __init__(self, client: Client, name: str, *sizes: Any, **more: Any) -> None:
        super().__init__(client, name, *sizes, **more)
        client._run_job(Job(self._find()))


class Block:
    """A `with` block: the job that ends it if Python drops its `__exit__` without running it.

    Python looks for signals as a function begins, before its first statement. If one comes there, `__exit__` has done
    nothing, and no statement here can notice. But Python alone holds the function that it calls, made for this block, and
    drops it then: the frame, which a traceback keeps, has the function's arguments and not the function.
    """

    def __init__(self, client: Client) -> None:
        self._client = client
        self.ends: Optional[Job[None]] = None  # the job, from when the block is entered
        self.watch: Optional[weakref.ref[Any]] = None  # notices that the `__exit__` is dropped, until that has begun

    def job(self) -> Optional[Job[None]]:
        """The job, if it is still to be begun."""
        return None if self.ends is None or self.ends.taken or self.ends.is_here else self.ends

    def is_dropped(self, leave: object) -> None:
        self.watch = None  # nothing holds itself
        job = self.job()
        if job is not None:
            self._client._abandon(job)


class Exit:
    """Gives each `with` block an `__exit__` of its own, which Python asks for before it calls `__enter__`."""

    def __get__(self, pattern: Optional[Entered], kind: Any = None) -> Callable[..., None]:
        if pattern is None:
            return kind._exit  # type: ignore[no-any-return]
        block = Block(pattern._client)
        leave = functools.partial(pattern._exit, block=block)
        block.watch = weakref.ref(leave, block.is_dropped)
        pattern.__dict__.setdefault("_entering", {})[get_ident()] = block
        return leave


class Entered(Blocking):
    """What has a `with` block, which is ended once, wherever it is interrupted."""

    __exit__ = Exit()
    # The block that each thread is about to enter. Each pattern that has blocks gets its own.
    _entering: Dict[int, Block] = {}
    # What ends the block, done or failed. One that was left before, or is none, ends what this client has.
    _end_of: Callable[[Optional[Block], bool], Job[None]]

    def _exit(
        self, kind: Any, error: Any, trace: Any, block: Optional[Block] = None,
        job: Optional[Job[None]] = None,  # no caller gives it
    ) -> None:
        try:
            job = self._end_of(block, kind is None)
            if block is not None:
                block.watch = None
            self._client._run_job(job)
        except FememError:
            raise
        except BaseException:
            self._client._abandon(job or self._end_of(block, kind is None))  # it is ended in any case
            raise


class Held(Entered):
    """What a `with` holds: its operations `acquire` and `release` begin and end the block."""

    def __enter__(self: C) -> C:
        job = _job(self, self._operations["acquire"])
        block = self._entering.pop(get_ident(), None)
        try:
            self._client._run_job(job)
            if block is not None:
                block.ends = self._end_of(None, False)
            return self
        except FememError:
            raise
        except BaseException:
            if block is not None:
                block.watch = None
            self._client._abandon(job)
            raise

    def _end_of(self, block: Optional[Block], is_done: bool) -> Job[None]:
        return (None if block is None else block.job()) or _job(self, self._operations["release"])


class Lock(Opened, Held, locks.Lock): ...
class KeyLock(Held, keylocks.KeyLock): ...
class Semaphore(Opened, Held, semaphore.Semaphore): ...
class Turn(Held, locks.Turn): ...
class Election(Opened, locks.Election): ...
class BoundedQueue(Opened, queues.BoundedQueue): ...
class Channel(Opened, queues.Channel): ...
class Barrier(Opened, words.Barrier): ...
class Counter(Opened, words.Counter): ...
class Future(Opened, words.Future): ...


class Locks(keylocks.Locks[KeyLock]):
    __doc__ = keylocks.Locks.__doc__
    LOCK = KeyLock

    def __init__(self, client: Client, name: str, capacity: int = 4096) -> None:
        super().__init__(client, name, capacity)


class ReadWriteLock(Opened, locks.ReadWriteLock[Turn]):
    TURN = Turn


class Once(Blocking, words.Once):
    def run(self, work: Callable[[], int], timeout: Optional[float] = None) -> int:
        """The result of `work`, which one client calls. The others wait for it: `TimedOut` if it does not come in time. If it
        raises, this call does, and one of the others calls its own."""
        array: Optional[Array] = None
        try:
            array, result = self._begin(timeout)
            return result if array is None else self._finish(array, number_of_bits(work(), 64, "result"))
        except BaseException:
            if array is not None:
                self._give_up(array)  # (once the result is set, nobody looks)
            raise


class WorkJob(Entered, work.WorkJob):
    def __enter__(self) -> WorkJob:
        block = self._entering.pop(get_ident(), None)
        if block is not None:
            block.ends = self._end_of(None, False)
        return self

    def _end_of(self, block: Optional[Block], is_done: bool) -> Job[None]:
        """It fails where Python drops its `__exit__`. Once the job has ended, another end of it does nothing."""
        if is_done and not self.has_ended:
            return _job(self, self._operations["done"])
        return self._end_by(is_done)


class JobLoop(work.Loop[WorkJob]):
    """The jobs of a `for` loop, made by `WorkQueue.jobs`: each is ended before the next one is taken, and with the loop.

    A body that comes to its end, by `continue` too, has done its job, unless it called `done`, `fail` or `move` itself. If an
    exception, `break` or `return` leaves the body, the attempt has failed, and the job is given to another taker, or set aside
    after its last attempt. So a job whose work is finished before a `break` needs its `done()` first. A program that keeps the
    loop in a name, `jobs = queue.jobs()`, has its last job until that name is gone or the loop is used again. `NotOwner` comes out
    of the loop where another attempt has ended the job. A job of a process that is killed is given to another one.
    """

    def __iter__(self) -> JobLoop:
        self._leave()  # an earlier loop left its body
        return self

    def __next__(self) -> WorkJob:
        if self._job is not None:
            self._job._leave(True)
            self._job = None
        take = Job(self._take(), self._queue._give_up_job)
        try:
            job: WorkJob = self._queue._client._run_job(take)
            return job
        except TimedOut:
            raise StopIteration from None
        except FememError:
            raise
        except BaseException:
            self._queue._client._abandon(take)
            raise

    def _take(self) -> Steps[WorkJob]:
        """The job is this loop's as soon as it is taken: no interruption comes in between."""
        job: WorkJob = yield from work.WorkQueue[WorkJob].take.steps(self._queue, self._timeout)
        self._job = job
        return job


class WorkQueue(Blocking, work.WorkQueue[WorkJob]):
    JOB = WorkJob

    def jobs(self, timeout: Optional[float] = None) -> JobLoop:
        """`for job in queue.jobs(timeout=60):` takes job after job, until none comes for that many seconds."""
        return JobLoop(self, seconds_of(timeout))

    def __iter__(self) -> JobLoop:
        """`for job in queue:` takes job after job, without end."""
        return self.jobs()


def shared_array(client: Client, name: str, length: int, full: bool) -> Array:
    """The array of that name, made if it is missing. `OtherPattern` if it has another length."""
    return client._run_job(Job(operations.shared_array(name, length, full)))


__all__ = [
    "Barrier", "BoundedQueue", "Channel", "Counter", "Election", "Future", "JobLoop", "KeyLock", "Lock", "Locks", "Once",
    "ReadWriteLock", "Semaphore", "Turn", "WorkJob", "WorkQueue", "shared_array",
]  # fmt: skip
