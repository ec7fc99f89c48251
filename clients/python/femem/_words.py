"""Patterns of a word or two: counters, futures, what is done once, and barriers."""

from __future__ import annotations

import operator
from functools import partial
from typing import Any, Optional, Tuple

from . import requests
from ._arguments import Key
from ._errors import BrokenBarrier, NameTaken, NoArray, NotNow, OtherPattern, TimedOut
from ._jobs import Steps, Wait, batch, first_of
from ._operations import Pattern, is_full, once
from ._operations import operation, operation_with, shared_array, size_of
from .requests import Array, add, empty, fill, look


class Counter(Pattern):
    """A number modulo 2^64. Each addition counts once, whatever stops. It never waits for another client."""

    IS_FULL = True
    REQUESTS = {"add": (3, 0), "value": (3, 0)}

    @operation_with(light=True)
    def add(self, amount: int = 1, *, key: Optional[Key] = None) -> Steps[int]:
        """Adds, and returns the old number. A negative amount is subtracted.

        With a key, which needs a session file, it is added once, however often this is called again.
        """
        value = operator.index(amount) % 2**64
        word = yield from self._find()
        return (yield from once(self._core, key, requests.int_fetch_add(word, 0, value)))

    @operation_with(light=True)
    def value(self) -> Steps[int]:
        """The number now."""
        (value,) = yield from batch([look((yield from self._find()), 0)])
        return int(value)


class Future(Pattern):
    """A value that is set once, and that any number of clients may wait for.

    If the client that should set the value is gone for good, the others wait until another one sets it.
    """

    REQUESTS = {"set": (3, 0), "get": (3, 0), "is_set": (3, 0)}

    @operation_with(light=True)
    def set(self, value: int, *, key: Optional[Key] = None) -> Steps[bool]:
        """Sets the value. Returns whether this call set it, or with a key the first call under that key."""
        word = yield from self._find()
        try:
            yield from once(self._core, key, fill(word, 0, value))
        except NotNow:
            return False
        return True

    @operation_with(light=True)
    def get(self, timeout: Optional[float] = None) -> Steps[int]:
        """Waits for the value. `TimedOut` if it does not come in time."""
        end = self._deadline(timeout)
        word = yield from self._find()
        return (yield from once(self._core, None, requests.readff(word, 0), self._left(end)))

    @operation_with(light=True)
    def is_set(self) -> Steps[bool]:
        """Whether the value is set."""
        (value,) = yield from batch([look((yield from self._find()), 0)], NotNow)
        return is_full(value)


class Once(Pattern):
    """Something that one client does, and whose result all get. Word DOER has the session of the one that does it.

    If it raises, another client does it. A doer that was killed does it again when it is started again in its session. If it
    is gone for good before it is done, the others wait; `done` sets the result in its place.
    """

    RESULT, DOER = 0, 1
    LENGTH = 2
    REQUESTS = {"_begin": (6, 3), "_finish": (2, 0), "_give_up": (1, 0), "done": (3, 0)}

    @operation_with(undo="_give_up_if_begun")
    def _begin(self, timeout: Optional[float]) -> Steps[Tuple[Optional[Array], int]]:
        """The array, if this client is the one that does it, or the result."""
        return (yield from self._with_array(partial(self._do_or_get, self._deadline(timeout))))

    def _do_or_get(self, end: Optional[float], array: Array) -> Steps[Tuple[Optional[Array], int]]:
        yield from self._core.holdings.left.look_up(array, (self.DOER,), self._session)
        is_left = self._core.holdings.left.take(array, self.DOER)
        asked = [fill(array, self.DOER, self._session), look(array, self.RESULT)]
        done, result = yield from batch(asked, NotNow)
        does = is_left or is_full(done)
        while not does and not is_full(result):
            waits = [requests.readff(array, self.RESULT), requests.writeef(array, self.DOER, self._session)]
            found = yield from first_of(waits, self._left(end))
            does = 1 in found
            (result,) = [found[0]] if 0 in found else (yield from batch(asked[1:], NotNow))
        if not is_full(result):
            return array, 0
        if does:
            yield from Once._give_up.steps(self, array)
        return None, int(result)

    @operation_with(gives_back=True)
    def _give_up(self, array: Array) -> Steps[None]:
        """Another client may do it."""
        yield from batch([empty(array, self.DOER)], NotNow, NoArray)

    def _give_up_if_begun(self, begun: Tuple[Optional[Array], int]) -> Steps[None]:
        if begun[0] is not None:
            yield from Once._give_up.steps(self, begun[0])

    @operation_with(gives_back=True)
    def _finish(self, array: Array, result: int) -> Steps[int]:
        """The result that all get: this one, or what `done` has set meanwhile."""
        _, found = yield from batch([fill(array, self.RESULT, result), look(array, self.RESULT)], NotNow)
        return int(found)

    @operation
    def done(self, result: int) -> Steps[int]:
        """Sets the result, if the client that began is gone. Returns the one that all get: this one, or what was set before."""
        return (yield from Once._finish.steps(self, (yield Wait(requests.find(self._name))), result))


class Barrier(Pattern):
    """`parties` wait for each other, again and again.

    Each round has an array of its own, NAME_0 or NAME_1 in turns. Its word ARRIVED counts, and its word GATE is filled once,
    by whoever decides the round: OPEN, once all have arrived, or BROKEN, once a wait timed out. So all of a round pass, or
    none. An arrival counts even if its client is gone since.
    """

    ARRIVED, GATE = 0, 1
    LENGTH = 2
    REQUESTS = {"wait": (30, 8), "reset": (12, 0), "abort": (6, 0)}
    OPEN, BROKEN = 1, 2

    def __init__(self, client: Any, name: str, parties: int) -> None:
        """`parties` is the same for all who share it."""
        super().__init__(client, name)
        self._parties = size_of(parties, "parties")
        self._names = (f"{name}_0", f"{name}_1")

    def _find(self) -> Steps[Array]:
        """The array of the newest round."""
        if self._array is None:
            found = yield from batch([requests.find(name) for name in self._names], NoArray)
            rounds = sorted((each for each in found if is_full(each)), key=lambda each: int(each.id))
            for each in rounds:
                if each.length != self.LENGTH:
                    raise OtherPattern(f"{each} of {self._name} has {each.length} words, not {self.LENGTH}")
            if rounds:
                self._array = rounds[-1]
            else:
                self._array = yield from shared_array(self._names[0], self.LENGTH, False)
        return self._array

    def _next(self, array: Array) -> Steps[None]:
        """Begins the round after this one, which is decided. Its array takes the place of the one before."""
        names = yield from batch([requests.find(name) for name in self._names], NoArray)
        ids = [each.id if is_full(each) else 0 for each in names]
        if array.id in ids and max(ids) == array.id:
            other = 1 - ids.index(array.id)
            gone = [requests.remove(ids[other])] if ids[other] else []
            yield from batch([*gone, requests.create(self._names[other], self.LENGTH)], NoArray, NameTaken)
        self._array = None

    def _decide(self, array: Array, how: int) -> Steps[int]:
        _, decided = yield from batch([fill(array, self.GATE, how), look(array, self.GATE)], NotNow, NoArray)
        return int(decided) if is_full(decided) else self.BROKEN

    def _arrive(self) -> Steps[Tuple[Array, int]]:
        """The array of a round that is not full, and the number of this arrival."""
        while True:
            array = yield from self._find()
            asked = [fill(array, self.ARRIVED, 0), look(array, self.GATE), add(array, self.ARRIVED, 1)]
            _, decided, number = yield from batch(asked, NotNow, NoArray)
            if isinstance(number, NoArray):
                self._array = None
            elif decided == self.BROKEN:
                yield from self._pass_over(array)
            elif number < self._parties:
                return array, int(number)
            elif (yield from self._decide(array, self.OPEN)) == self.BROKEN:
                yield from self._pass_over(array)
            else:
                yield from self._next(array)

    def _pass_over(self, array: Array) -> Steps[None]:
        """Goes on from a broken round to the next one, if there is one."""
        self._array = None
        if (yield from self._find()).id == array.id:
            raise BrokenBarrier(self._name)

    @operation
    def wait(self, timeout: Optional[float] = None) -> Steps[int]:
        """Waits until all have arrived. Returns the number of this arrival, 0 to `parties` - 1; the last one opens the gate.

        `TimedOut` if not all arrive in time. The round is broken then: whoever waits, or comes later, gets `BrokenBarrier`
        until `reset`.
        """
        end = self._deadline(timeout)
        array, number = yield from self._arrive()
        if number == self._parties - 1:
            decided = yield from self._decide(array, self.OPEN)
        else:
            decided = yield from self._wait(array, end)
        if decided != self.OPEN:
            raise BrokenBarrier(self._name)
        return number

    def _wait(self, array: Array, end: Optional[float]) -> Steps[int]:
        """How the round is decided. Looks now and then whether the last one disappeared before it opened the gate."""
        while True:
            rest = self._left(end)
            try:
                return int((yield Wait(requests.readff(array, self.GATE), 1.0 if rest is None else min(1.0, rest))))
            except NoArray:
                return self.BROKEN  # it was reset
            except TimedOut:
                if self._left(end) == 0.0:
                    if (yield from self._decide(array, self.BROKEN)) == self.BROKEN:
                        raise
                    return self.OPEN
            (arrived,) = yield from batch([look(array, self.ARRIVED)], NoArray)
            if is_full(arrived) and arrived >= self._parties:
                return (yield from self._decide(array, self.OPEN))

    @operation
    def reset(self) -> Steps[None]:
        """Breaks the round if it is not decided, and begins a new one."""
        self._array = None
        array = yield from self._find()
        yield from self._decide(array, self.BROKEN)
        yield from self._next(array)

    @operation
    def abort(self) -> Steps[None]:
        """Breaks the round: whoever waits, or comes later, gets `BrokenBarrier` until `reset`."""
        self._array = None
        yield from self._decide((yield from self._find()), self.BROKEN)
