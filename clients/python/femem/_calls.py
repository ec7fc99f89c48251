"""What `Client` and `AsyncClient` have in common: each operation stands here once, and two faces run it: that of threads
returns the result, and that of tasks awaits it.

A method marked by `call` makes a request, and one marked by `asking` says what it asks of the core. `_call`
and `_perform` of the face for threads return the answer, and those of the one for asyncio an awaitable of it.
"""

from __future__ import annotations

import functools
import os
import sys
from dataclasses import dataclass
from functools import partial
from typing import TYPE_CHECKING, Any, Callable, Coroutine, Dict, Generic, Iterable, List, NamedTuple, Optional, Sequence, Type
from typing import TypeVar, Union, get_type_hints, overload

from . import _registry as registry, requests
from ._arguments import DEFAULT, MOST, Choice, Key, Path, Timeout, key_bytes, pause_of, request_of, seconds_of
from ._core import Core
from ._errors import FememError
from .events import OnEvent
from ._jobs import Job, T, Ticket, first_of, nobody, outcomes_of, result_of
from ._reports import Report
from .requests import Array, ArrayLike, Request, number_of_bits
from ._sessionfile import SessionFile

if TYPE_CHECKING:
    import asyncio
    from concurrent.futures import Future

    from typing_extensions import Concatenate as Concatenate, ParamSpec

    P = ParamSpec("P")
else:
    P, Concatenate = TypeVar("P"), Any  # (only types name it)

C = TypeVar("C", bound="Calls")
D = TypeVar("D", bound="faced[Any, Any]")
F = TypeVar("F", "Future[Any]", "asyncio.Future[Any]")


class ForThreads:
    """What threads call."""


class ForTasks:
    """What asyncio's tasks call."""


class faced(Generic[P, T]):
    """A method of both. Each class with a face makes a function of it, or says by `_perform` how it runs."""

    @overload
    def __get__(self, owner: ForThreads, kind: Any = None) -> Callable[P, T]: ...

    @overload
    def __get__(self, owner: ForTasks, kind: Any = None) -> Callable[P, Coroutine[Any, Any, T]]: ...

    @overload
    def __get__(self: D, owner: None, kind: Any = None) -> D: ...

    def __get__(self, owner: Any, kind: Any = None) -> Any:
        return self if owner is None else partial(owner._perform, self)


@dataclass
class Asking(Generic[T]):
    """What is asked of the core, the tickets that it then ends, and what the result is. A task that is
    cancelled takes back what can be taken back, and leaves the rest. `ends_client`: it is closed after
    that."""

    tickets: Sequence[Ticket[Any]]
    ask: Callable[[float], object]
    result: Callable[[], T]
    can_be_taken_back: bool = True
    ends_client: bool = False


def call(make: Callable[Concatenate[Any, P], Request[T]]) -> faced[P, T]:
    """An operation of one request. It is a function, since a call through a descriptor takes longer."""

    @functools.wraps(make)
    def run(self: Any, *args: Any, timeout: Timeout = DEFAULT, **more: Any) -> Any:
        return self._call(make(self, *args, **more), timeout)

    return run  # type: ignore[return-value]


def asking(make: Callable[Concatenate[Any, P], Asking[T]]) -> faced[P, T]:
    """Another operation that waits for what it asks."""

    @functools.wraps(make)
    def run(self: Any, *args: Any, **more: Any) -> Any:
        return self._perform(make(self, *args, **more))

    return run  # type: ignore[return-value]


class Recovered(NamedTuple):
    """A request that a former process with the same session file had no answer for: what it was, and its key.

    `future` is done once the answer has come. With asyncio it is awaited.
    """

    what: str
    key: Optional[bytes]
    future: Any

    def result(self, timeout: Optional[float] = None) -> Union[int, Array, None]:
        """The answer, as the method of that name gives it. Raises it if it is an error.

        It waits, but not with asyncio: there `future` must be done, or `asyncio.InvalidStateError` comes.
        """
        answer: Union[int, Array, None] = self.future.result() if timeout is None else self.future.result(timeout)
        return answer


class Calls:
    """A client, without its way to the server."""

    _core: Core
    _worker: Any

    def __init__(
        self, path: Path, session: Optional[int] = None, *, sessions: int = 1,
        session_file: Optional[Path] = None, timeout: Optional[float] = None,
        reconnect_timeout: Optional[float] = 30.0, probe_interval: float = 5.0, wait_for_server: bool = False,
        on_event: Optional[OnEvent] = None,
    ) -> None:
        """It has the given session, or the file's, or one chosen at random that ends with it."""
        self.timeout = seconds_of(timeout)
        patience, pause = seconds_of(reconnect_timeout, "reconnect_timeout"), pause_of(probe_interval)
        if not isinstance(path, (str, bytes, os.PathLike)):
            raise TypeError(f"the path of a socket is a str: {path!r}")
        number = None if session is None else number_of_bits(session, 64, "session")
        count = number_of_bits(sessions, 16, "sessions")
        if not 1 <= count <= MOST:
            raise ValueError(f"sessions is 1 to {MOST}: {count}")
        if count > 1 and session_file is not None:
            raise ValueError("a session file holds one session: it can't be used with sessions > 1")
        self.path, file, is_temporary = os.fsdecode(path), None, False
        if session_file is not None:
            file = SessionFile(os.fsdecode(session_file))
            if number not in (None, file.state.session):
                file.abandon()
                raise ValueError(f"{file.path} is of session {file.state.session}, not {number}")
            number = file.state.session
        elif number is None:
            number, is_temporary = registry.temporary(self.path), True
        self.session = number
        self._begin(Choice(self.path, number, file, is_temporary, count, patience, pause, wait_for_server, on_event))

    @classmethod
    def _of(cls: Type[C], choice: Choice) -> C:
        """A client that is begun without waiting, as of a further session: that ends with it."""
        client = cls.__new__(cls)
        client.timeout, client.path, client.session = None, choice.path, choice.session
        client._make(choice)
        client._worker.is_temporary = True
        return client

    def _begin(self, choice: Choice) -> None:
        self._make(choice)

    def _may_grow(self, choice: Choice, begin: Callable[[Choice], Calls]) -> None:
        """A client whose session ends with it opens a further one by itself."""
        if choice.is_temporary and choice.sessions == 1:
            (further,) = choice._replace(sessions=2).all_further()
            self._worker.further = partial(begin, further)

    def _recover(self) -> None:
        """What the former process with this session file had no answer for."""
        recovered = self._core.recovered
        self.recovered = [Recovered(each.request.what, each.key, self._future(each)) for each in recovered]

    def __repr__(self) -> str:
        failure = self.failure
        how = self._core.phase.value if failure is None else f"{type(failure).__name__}: {failure}"
        count = len(self.sessions) - 1
        more = f" and {count} more" if count else ""
        return f"<femem client of session {self.session}{more} at {self.path}: {how}>"

    @property
    def sessions(self) -> List[int]:
        """The numbers of its sessions, its own first."""
        return [self.session, *(further.session for further in self._further())]

    @property
    def failure(self) -> Optional[FememError]:
        """Why this client can't be used any more, or `None`. Each operation then raises this error."""
        return self._core.failure

    def _further(self) -> Sequence[Calls]:
        return [further for further in [*self._worker.wait_sessions] if further.failure is None]

    @call
    def create(self, name: Union[str, bytes], length: int, full: bool = False, *, timeout: Timeout = DEFAULT) -> Request[Array]:
        """Creates an array of `length` words of value 0, all full or all empty. Never waits.

        Errors: `BadName`, `BadLength`, `NameTaken`, `ArrayLimit`, `WordLimit`; `NoMemory`, and then nothing was made.
        """
        return requests.create(name, length, full)

    @call
    def find(self, name: Union[str, bytes], *, timeout: Timeout = DEFAULT) -> Request[Array]:
        """The array of that name. Never waits. Errors: `BadName`, `NoArray`."""
        return requests.find(name)

    @call
    def remove(self, array: ArrayLike, *, timeout: Timeout = DEFAULT) -> Request[None]:
        """Removes the array; what waits on it ends with `NoArray`. Never waits. Errors: `NoArray`."""
        return requests.remove(array)

    # Words. Each may also end with `NoArray` or `BadIndex`.

    @call
    def readfe(self, array: ArrayLike, index: int, *, nowait: bool = False, timeout: Timeout = DEFAULT) -> Request[int]:
        """Waits until the word is full, empties it, and returns its value.

        With `nowait`, `NotNow` if it is empty. `TimedOut`: it was taken back, and the word was not touched.
        """
        return requests.readfe(array, index, nowait)

    @call
    def readff(self, array: ArrayLike, index: int, *, nowait: bool = False, timeout: Timeout = DEFAULT) -> Request[int]:
        """Waits until the word is full, leaves it full, and returns its value. `nowait`, `timeout` as in `readfe`."""
        return requests.readff(array, index, nowait)

    @call
    def readxx(self, array: ArrayLike, index: int, *, timeout: Timeout = DEFAULT) -> Request[int]:
        """Returns the value, full or empty, and changes nothing. Never waits."""
        return requests.readxx(array, index)

    @call
    def writeef(self, array: ArrayLike, index: int, value: int, *, nowait: bool = False, timeout: Timeout = DEFAULT) -> Request[None]:
        """Waits until the word is empty, and fills it with the value.

        With `nowait`, `NotNow` if it is full. `TimedOut`: it was taken back, and the word was not touched.
        """
        return requests.writeef(array, index, value, nowait)

    @call
    def writeff(self, array: ArrayLike, index: int, value: int, *, nowait: bool = False, timeout: Timeout = DEFAULT) -> Request[None]:
        """Waits until the word is full, and replaces its value. `nowait`, `timeout` as in `readfe`."""
        return requests.writeff(array, index, value, nowait)

    @call
    def writexf(self, array: ArrayLike, index: int, value: int, *, timeout: Timeout = DEFAULT) -> Request[None]:
        """Fills the word with the value, whether it was full or empty. Never waits."""
        return requests.writexf(array, index, value)

    @call
    def purge(self, array: ArrayLike, index: int, *, timeout: Timeout = DEFAULT) -> Request[None]:
        """Empties the word and sets its value to 0. Never waits."""
        return requests.purge(array, index)

    @call
    def int_fetch_add(self, array: ArrayLike, index: int, value: int, *, nowait: bool = False, timeout: Timeout = DEFAULT) -> Request[int]:
        """Waits until the word is full, adds the value modulo 2^64, and returns the old value.

        The word stays full. `nowait`, `timeout` as in `readfe`.
        """
        return requests.int_fetch_add(array, index, value, nowait)

    @asking
    def submit_many(self, asked: Iterable[Request[Any]], *, timeout: Timeout = DEFAULT) -> Asking[List[Any]]:
        """Asks all of them in one step, and waits for all. Returns the answers in order; errors are in the list too.

        A task that is cancelled takes all of them back, and gets the list if one of them had happened.
        """
        return self._together([request_of(request) for request in asked], timeout)

    def _together(self, asked: Sequence[Request[Any]], timeout: Timeout) -> Asking[List[Any]]:
        tickets: List[Ticket[Any]] = [Ticket(request) for request in asked]
        ask = partial(self._core.take, tickets, self._seconds(timeout))
        return Asking(tickets, ask, lambda: outcomes_of(tickets))

    @asking
    def wait_any(self, asked: Iterable[Request[Any]], *, timeout: Timeout = DEFAULT) -> Asking[Dict[int, Any]]:
        """Waits until one of the requests has happened, and takes the others back.

        Returns the answers of those that happened by their places in `asked`: of one, or of several at the same time.
        `TimedOut` if none did in time: then nothing happened.
        """
        job = Job(first_of([request_of(request) for request in asked], self._seconds(timeout)))
        return Asking((job,), partial(self._core.start, job), lambda: result_of(job))

    def withdraw(self, future: Union[Future[Any], asyncio.Future[Any]]) -> None:
        """Takes a waiting request back. Its future ends with `Withdrawn`, or with its answer if it has happened."""
        owner, ticket = getattr(future, "asked", (None, None))
        if not isinstance(ticket, Ticket):
            raise TypeError(f"not a future of submit: {future!r}")
        if owner is not self._core:
            raise ValueError(f"a future of another client: {future!r}")
        self._ask(partial(self._core.withdraw, ticket))

    @asking
    def report(self) -> Asking[Report]:
        """What waits now, of all sessions. Never waits, and changes nothing. Errors: `NoMemory`."""
        ticket: Ticket[Report] = Ticket()
        ask = partial(self._core.report, ticket=ticket)
        return Asking((ticket,), ask, lambda: result_of(ticket), can_be_taken_back=False)

    # Over the client's own restarts.

    @asking
    def once(self, key: Key, request: Request[T], *, timeout: Timeout = DEFAULT) -> Asking[T]:
        """The answer to the first request under this key, in this process or a former one.

        It needs a session file, which keeps the answer until `forget`. `ValueError` if the key has another request. A
        request that was taken back, for example after its timeout, does not count.
        """
        ticket = self._keyed(key, request)
        ask = partial(self._core.take, (ticket,), self._seconds(timeout))
        return Asking((ticket,), ask, lambda: result_of(ticket))

    def keys(self) -> List[bytes]:
        """The keys that the session file has: those with an answer first, then those whose request has none yet."""
        self._with_file()
        self._catch_up()
        return self._core.keys()

    def forget(self, *keys: Key) -> None:
        """Makes the session file drop the keys' answers: the keys will not be used again."""
        file, spelled = self._with_file(), [key_bytes(key) for key in keys]
        self._ask(lambda now: file.forget(*spelled))

    @asking
    def bye(self) -> Asking[None]:
        """Ends the session and closes the client. `StillWaiting` if a request has no answer yet.

        The server then keeps nothing of the session. After a stop of the server the client sends it again until it is done.
        """
        ticket: Ticket[None] = Ticket()
        ask = partial(self._core.leave, ticket=ticket)
        return Asking((ticket,), ask, lambda: result_of(ticket), can_be_taken_back=False, ends_client=True)

    # What a face does.

    _make: Callable[[Choice], None]  # makes its core and its worker
    # Does something with the core, after what was asked before. It is given the time.
    _ask: Callable[[Callable[[float], object]], None]
    _catch_up: Callable[[], None]  # returns once what was asked before is done
    _future: Callable[[Ticket[Any]], Any]  # the future of a ticket

    def _ending_with(self, ticket: Ticket[Any], future: F) -> F:
        """The future, which ends like the ticket."""

        def finished() -> None:
            ticket.finished = nobody  # nothing holds itself
            if future.cancelled():
                return
            if ticket.error is not None:
                future.set_exception(ticket.error)
            else:
                future.set_result(ticket.result)

        ticket.finished = finished
        future.asked = (self._core, ticket)  # type: ignore[attr-defined]
        return future

    def _keyed(self, key: Key, request: Request[T]) -> Ticket[T]:
        self._with_file()
        ticket: Ticket[T] = Ticket(request_of(request))
        ticket.key = key_bytes(key)
        return ticket

    def _with_file(self) -> SessionFile:
        if self._core.file is None:
            raise ValueError("a key needs a client with a session file")
        return self._core.file

    def _seconds(self, timeout: Timeout) -> Optional[float]:
        return self.timeout if timeout is DEFAULT else seconds_of(timeout)


def show_as(module: str, names: Sequence[str]) -> None:
    """Tracebacks, `help` and pickles name the classes of private modules as programs do: `femem.NotOwner`."""
    for name in names:
        found = vars(sys.modules[module])[name]
        if isinstance(found, type) and found.__module__.startswith("femem._"):
            # (what its annotations name is in the private module)
            own, hints = vars(found).get("__annotations__", {}), get_type_hints(found)
            own.update((each, hints[each]) for each in own)
            found.__module__ = module
