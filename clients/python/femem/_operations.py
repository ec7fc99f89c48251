"""What the patterns are made of. Each operation is a generator of steps (femem/_jobs.py) and stands once, for two faces.

A face (femem/patterns.py for threads, femem/aio.py for asyncio) says how the steps are run: `Lock.acquire` is the same text
for both, and returns its result in one and an awaitable of it in the other.
"""

from __future__ import annotations

from threading import get_ident
from typing import Any, Callable, Dict, Iterable, List, Optional, Sequence, Tuple

from . import _frames as frames, requests
from ._arguments import Key, key_bytes, seconds_of
from ._calls import Concatenate, P, faced
from ._core import Core
from ._errors import NameTaken, NoArray, NotNow, OtherPattern
from ._jobs import Pause, Present, Steps, T, Ticket, Wait, batch
from ._reports import Report
from .requests import Array, Request, fill, look, number_of_bits

# Each client that uses a lock or a work queue waits at this array's word, so that reports show that it is there.
PRESENCE = "presence"

# How long an operation waits before it looks at more than its own word, in seconds: at first, and at most.
FIRST_LOOK, LAST_LOOK = 0.05, 1.0


class Pattern:
    """A pattern of one client. Its array is found or made by the first operation."""

    # How many words its array has, and whether they are made full; or its mark, and what the words behind that begin with.
    LENGTH = 1
    IS_FULL = False
    MARK = b""
    FIRST: Sequence[int] = ()
    # Its array, and the one at which its client shows that it is there, once they are known.
    _array: Optional[Array] = None
    _presence: Optional[Array] = None
    # How many requests its operations ask at most, and how many more for each time that they wait. Those that an array's
    # first use takes are among them: to find or make it, and to see what was left there.
    REQUESTS: Dict[str, Tuple[int, int]] = {}
    # What a face has: the type of its clients, and how it runs an operation's steps.
    CLIENT: type
    _perform: Callable[..., Any]
    # After a caller was interrupted within the steps: by what it had asked, undoes what it had taken, or
    # gives back what it was giving back. All that it asked is answered or taken back.
    _mend: Callable[..., Steps[None]]

    def __init__(self, client: Any, name: str) -> None:
        if not isinstance(client, self.CLIENT):
            raise TypeError(f"not a {self.CLIENT.__module__}.{self.CLIENT.__name__}: {client!r}")
        self._client: Any = client
        self._core: Core = self._client._core
        self._name = name

    def __init_subclass__(cls) -> None:
        """A pattern of a face has the text of what both faces have, the last of its bases."""
        super().__init_subclass__()
        cls.__doc__ = cls.__doc__ or cls.__bases__[-1].__doc__

    def _find(self) -> Steps[Array]:
        if self._array is None:
            self._array = yield from self._make()
        return self._array

    def _make(self) -> Steps[Array]:
        if self.MARK:
            return marked_array(self._name, self.LENGTH, self.MARK, self.FIRST)
        return shared_array(self._name, self.LENGTH, self.IS_FULL)

    def _with_array(self, does: Callable[[Array], Steps[T]]) -> Steps[T]:
        """What it does with the array, or with the next one if that is removed meanwhile."""
        while True:
            try:
                return (yield from does((yield from self._find())))
            except NoArray:
                self._array = None

    def _show(self) -> Steps[Array]:
        """Makes this client wait where reports show it."""
        if self._presence is None:
            self._presence = yield from shared_array(PRESENCE, 1, False)
        yield Present(self._presence)
        return self._presence

    @property
    def _session(self) -> int:
        return self._core.session

    def _caller(self) -> object:
        """The thread, or the task, that calls."""
        return get_ident()

    # Operations that a caller runs by itself, and that hold something or give it back.

    def _can_mend(self) -> bool:
        """Whether `_mend` can do its work: the array is known, and an earlier process left nothing in it."""
        return self._array is not None and self._core.holdings.left.is_clear(self._array)

    # Times, by the client's clock, in seconds.

    def _now(self) -> float:
        return self._core.clock()

    def _deadline(self, timeout: Optional[float]) -> Optional[float]:
        return None if timeout is None else end_of(timeout, self._core.clock())

    def _left(self, end: Optional[float]) -> Optional[float]:
        return None if end is None else left(end, self._core.clock())


class operation(faced[P, T]):
    """A method whose steps the face runs.

    `undo` names what undoes its result if no caller waits for it any more. An operation that `gives_back` is done even
    by a task that is to be cancelled. One that is `light` is begun by the caller itself where it can be: interrupted, it
    may have happened, as a call of the client; or `_mend` undoes or ends it, if it has an `undo` or `gives_back`. `call` names
    what makes a call of it, with its time, where it is just that.
    """

    def __init__(
        self, steps: Callable[Concatenate[Any, P], Steps[T]], undo: str = "", gives_back: bool = False,
        light: bool = False, call: str = "",
    ) -> None:
        self.steps = steps
        self.undo = undo
        self.gives_back = gives_back
        self.is_light = light
        self.call = call
        self.__doc__ = steps.__doc__
        self.__wrapped__ = steps


def operation_with(**more: Any) -> Callable[[Callable[Concatenate[Any, P], Steps[T]]], operation[P, T]]:
    return lambda steps: operation(steps, **more)


# Steps that many patterns have.


def shared_array(name: str, length: int, full: bool) -> Steps[Array]:
    """The array of that name, made if it is missing. `OtherPattern` if it has another length."""
    asked = [requests.create(name, length, full), requests.find(name)]
    while True:
        made, found = yield from batch(asked, NameTaken, NoArray)
        array = found if isinstance(made, NameTaken) else made
        if not isinstance(array, Array):
            continue  # it was removed in between
        if array.length != length:
            raise OtherPattern(f"{name} has {array.length} words, not {length}: another pattern, or of another size")
        return array


def marked_array(name: str, length: int, mark: bytes, first: Sequence[int] = ()) -> Steps[Array]:
    """As `shared_array`. Word 0 has the mark of its pattern, and the words from 1 on begin with these values."""
    wanted = int.from_bytes(mark, "big")
    while True:
        array = yield from shared_array(name, length, False)
        fills = [fill(array, 1 + k, value) for k, value in enumerate(first)]
        _, found = yield from batch([fill(array, 0, wanted), look(array, 0)], NotNow, NoArray)
        if not isinstance(found, NoArray) and found != wanted:
            raise OtherPattern(f"{name} is the array of another pattern")
        filled = yield from batch(fills, NotNow, NoArray)
        if not any(isinstance(each, NoArray) for each in [found, *filled]):
            return array  # nobody removed it in between


def is_there(report: Report, presence: Array, session: int) -> bool:
    """Whether the session's client shows that it is there."""
    return any(w.array == presence.id and w.session == session for w in report.waiters)


class Absence:
    """Since when sessions were absent, seen again and again."""

    def __init__(self, patience: Optional[float]) -> None:
        """`None`: they may be absent for ever."""
        self.may_end = patience is not None
        self._patience = patience or 0.0
        self._since: Dict[int, float] = {}

    def gone(self, report: Report, presence: Array, sessions: Iterable[int], now: float) -> Optional[int]:
        """One of these sessions that was absent at each look for that long."""
        away = [each for each in sessions if not is_there(report, presence, each)]
        self._since = {each: self._since.get(each, now) for each in away}
        return next((each for each in away if now - self._since[each] >= self._patience), None)


def done_at(asked: Sequence[Ticket[Any]], code: int, array: Optional[Array] = None) -> List[int]:
    """The words, of this array or of any, at which such an operation, of these requests, has happened."""
    done = [each.request.frame for each in asked if each.done and each.error is None]
    its = [frame for frame in done if frame[4] in frames.ACCESSES and frame[13] == code]
    return [int.from_bytes(frame[22:26], "big") for frame in its if array is None or int.from_bytes(frame[14:22], "big") == array.id]


def is_full(outcome: object) -> bool:
    """Whether a look found the word full."""
    return not isinstance(outcome, BaseException)


def end_of(timeout: Optional[float], now: float) -> Optional[float]:
    """The time at which the timeout ends."""
    seconds = seconds_of(timeout)
    return None if seconds is None else now + seconds


def left(end: float, now: float) -> float:
    return max(0.0, end - now)


def size_of(size: int, what: str) -> int:
    found = number_of_bits(size, 16, what)
    if not found:
        raise ValueError(f"{what} is at least 1")
    return found


class Tries:
    """The key of an operation that tries one request after the other until one happens. The file has the last try."""

    def __init__(self, core: Core, key: Optional[Key], code: int, value: int) -> None:
        self.core = core
        self.key = None if key is None else key_bytes(key)
        self._code = code
        self._value = value
        self._is_begun = False
        # The value that was read under the key.
        self.value = 0
        if key is not None and core.file is None:
            raise ValueError("a key needs a client with a session file")

    def begin(self) -> Steps[Optional[bytes]]:
        """The request that has happened under the key, or `None`. Waits while another call tries, or has its
        last answer due. No try of an earlier process waits: one that might is taken back, and the others are
        answered at once."""
        if self.key is None:
            return None
        file = self.core.file
        assert file is not None
        while self.key in self.core.holdings.keys or self.core.is_open(self.key):
            yield Pause(0.005)
        self.core.holdings.keys.add(self.key)
        self._is_begun = True
        known = file.kept(self.key)
        if known is None:
            return None
        frame, answer = known
        if frame[4] not in frames.ACCESSES or (frame[13], int.from_bytes(frame[26:34], "big")) != (self._code, self._value):
            raise ValueError(f"another request was asked under the key {self.key!r}")
        if answer.code == (frames.VALUE if self._code == frames.READFE else frames.DONE):
            self.value = answer.value
            return frame
        file.forget(self.key)
        return None

    def next(self) -> Optional[bytes]:
        """The key, for another try. The earlier one did not happen."""
        if self.key is not None and self.core.file is not None:
            self.core.file.forget(self.key)
        return self.key

    def __enter__(self) -> Tries:
        return self

    def __exit__(self, *failure: object) -> None:
        if self._is_begun and self.key is not None:
            self.core.holdings.keys.discard(self.key)


def once(core: Core, key: Optional[Key], request: Request[T], timeout: Optional[float] = None) -> Steps[T]:
    """Asks one request, under a key if there is one."""
    if key is not None and core.file is None:
        raise ValueError("a key needs a client with a session file")
    result: T = yield Wait(request, seconds_of(timeout), None if key is None else key_bytes(key))
    return result
