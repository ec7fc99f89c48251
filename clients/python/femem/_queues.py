"""Queues of values: bounded ones of many places, and channels of one. And the words that hand on values, each put once and taken
once, of which bounded queues and semaphores are made.

docs/patterns.md, "A queue of several values", says what a ticket and the signal mean, and has the steps. A ticket says where
to look, and obliges nobody: a value that lies there is found by whoever waits for one, and a free slot by whoever waits for
room, whatever the tickets say. No client goes round without end: each round of a loop waits, or takes or fills a slot, or
was outrun by one that did.
"""

from __future__ import annotations

from collections import deque
from typing import Any, Callable, Deque, List, Optional, Sequence, Tuple

from . import requests
from ._arguments import Key
from ._errors import NoArray, NotNow, TimedOut, Withdrawn
from ._jobs import Batch, First, Steps, Wait, batch
from ._operations import FIRST_LOOK, LAST_LOOK, Pattern, Tries, is_full, left, once, operation_with, size_of
from ._frames import INT_FETCH_ADD, READFE, READFF, WRITEEF
from .requests import Array, Request, empty, fill, look, made, made_before, number_of_bits

Call = Tuple[Request[Any], Optional[float]]

SOON = 0.005  # how long a client waits for one that has a ticket and may be late, or gone, in seconds

# How long a client that does not wait trusts the tickets, in seconds, before it looks at all slots.
TRUST = 1.0

MARK, HEAD, TAIL, SIGNAL, SLOTS = range(5)

# What the signal has if there may be values in several slots. Otherwise it has the word of one.
ALL = 0


class Clock:
    """When a client that waits looks at all slots, and when it ends."""

    def __init__(self, end: Optional[float], now: Callable[[], float]) -> None:
        self._end = end
        self._now = now
        self._pause = FIRST_LOOK
        self._look_at = now() + FIRST_LOOK

    def pause(self, is_late: bool) -> float:
        """How long it may wait now: a moment for one that is late, otherwise until the next look."""
        now = self._now()
        most = SOON if is_late else left(self._look_at, now)
        return most if self._end is None else min(most, left(self._end, now))

    def is_over(self) -> bool:
        return self._end is not None and self._end <= self._now()

    def is_due(self) -> bool:
        """Whether a look is due. The next one is later."""
        now = self._now()
        if now < self._look_at:
            return False
        self._pause = min(2 * self._pause, LAST_LOOK)
        self._look_at = now + self._pause
        return True


class Ring:
    """The slots of an array from word 4 on, behind the words MARK, HEAD, TAIL and SIGNAL."""

    def __init__(self, name: str, slots: int, now: Callable[[], float]) -> None:
        """`now`: the client's clock."""
        self.name = name
        self.slots = slots
        self._now = now
        # Tickets that were not used.
        self._puts: Deque[int] = deque()
        self._gets: Deque[int] = deque()
        self._tail = (0, 0)  # what TAIL of which array has, at least: it never falls
        # Whether the taker of the last value that was put had its ticket: it is so often in a row.
        self._are_takers_ahead = False
        self._looked_at = 0.0

    def slot(self, ticket: int) -> int:
        return SLOTS + ticket % self.slots

    def put(self, words: Array, value: int, end: Optional[float], nowait: bool, tries: Tries) -> Steps[None]:
        ticket = (yield from self._put_ticket(words)) if self._puts else (yield from self._new_ticket(words, TAIL))
        clock: Optional[Clock] = None
        while True:
            if (yield from self._put_at(words, ticket, value, tries)):
                return
            clock = clock or Clock(end, self._now)
            (head,) = yield from batch([look(words, HEAD)])
            is_late = head > ticket - self.slots  # the taker of the value there has its ticket
            if not nowait and (yield from self._wait_at(words, ticket, value, clock.pause(is_late), tries)):
                return
            is_over = nowait or clock.is_over()
            if is_over or clock.is_due():
                if (yield from self._put_anywhere(words, ticket, value, tries)):
                    if not is_late:
                        self._puts.append(ticket)
                    return
            if is_over:
                self._puts.append(ticket)
                raise NotNow(f"{self.name} is full") if nowait else TimedOut(f"put {self.name}")
            if is_late:
                # The value there is taken by the taker that gets this ticket's number.
                ticket = yield from self._new_ticket(words, TAIL)

    def _put_ticket(self, words: Array) -> Steps[int]:
        """A ticket that was kept, if its taker has not gone on, or a new one."""
        while self._puts:
            ticket = self._puts.popleft()
            (head,) = yield from batch([look(words, HEAD)])
            if head <= ticket:
                return ticket
        return (yield from self._new_ticket(words, TAIL))

    def _new_ticket(self, words: Array, counter: int) -> Steps[int]:
        (ticket,) = yield Batch((made_before(INT_FETCH_ADD, words.id, counter, 1, True),))
        if isinstance(ticket, BaseException):
            raise ticket
        if counter == TAIL:
            self._tail = (words.id, ticket + 1)
        return int(ticket)

    def _put_at(self, words: Array, ticket: int, value: int, tries: Tries) -> Steps[bool]:
        """Puts the value into its slot, if that is empty."""
        slot = self.slot(ticket)
        asked = [made(WRITEEF, words.id, slot, value, True), made_before(READFF, words.id, HEAD, 0, True)]
        if self._are_takers_ahead:
            asked.insert(1, made_before(READFF, words.id, slot, 0, True))
        done, *looks = yield from batch(asked, NotNow, key=tries.next())
        if isinstance(done, NotNow):
            return False
        self._are_takers_ahead = looks[-1] > ticket
        if self._are_takers_ahead:
            if len(looks) == 1:
                looks = yield from batch(self._looks(words, slot), NotNow)
            yield from self._tell_if_left(words, ticket, looks)
        return True

    def _wait_at(self, words: Array, ticket: int, value: int, seconds: float, tries: Tries) -> Steps[bool]:
        """Waits until the slot is empty, and puts the value there."""
        slot = self.slot(ticket)
        try:
            yield Wait(requests.writeef(words, slot, value), seconds, tries.next())
        except TimedOut:
            return False
        yield from self._tell_if_left(words, ticket, (yield from batch(self._looks(words, slot), NotNow)))
        return True

    def _looks(self, words: Array, slot: int) -> List[Request[Any]]:
        """What a putter looks at once its value is in."""
        return [made_before(READFF, words.id, word, 0, True) for word in (slot, HEAD)]

    def _tell_if_left(self, words: Array, ticket: int, looks: Sequence[Any]) -> Steps[None]:
        """Fills the signal if the value lies there, though its taker has the ticket."""
        there, head = looks
        if head > ticket and is_full(there):
            yield from self.tell(words, self.slot(ticket))

    def _put_anywhere(self, words: Array, ticket: int, value: int, tries: Tries) -> Steps[bool]:
        """Puts the value into an empty slot, one whose next ticket comes late. Whoever waits is told."""
        for slot, there in (yield from self._look(words, ticket + self.slots // 2)):
            if not is_full(there):
                (done,) = yield from batch([fill(words, slot, value)], NotNow, key=tries.next())
                if is_full(done):
                    yield from self.tell(words, slot)
                    return True
        return False

    def leave(self, words: Array, ticket: int, value: int) -> Steps[Any]:
        """Puts the value into the ticket's slot, or drops it if that is full. One that waits is told if it
        has to look. Returns what HEAD has then."""
        slot = self.slot(ticket)
        asked = [fill(words, slot, value), *self._looks(words, slot)]
        done, *looks = yield from batch(asked, NotNow, NoArray)
        if is_full(done):
            yield from self._tell_if_left(words, ticket, looks)
        elif isinstance(done, NotNow):
            yield from self.tell(words, ALL)
        return looks[1]

    def tell(self, words: Array, slot: int) -> Steps[None]:
        """Makes one that waits for a value look at this slot, or at all if another signal is there."""
        (told,) = yield from batch([fill(words, SIGNAL, slot)], NotNow)
        if not is_full(told):
            yield from batch([requests.writexf(words, SIGNAL, ALL)])

    def get(self, words: Array, end: Optional[float], nowait: bool, tries: Tries) -> Steps[int]:
        is_kept = bool(self._gets)
        ticket = self._gets.popleft() if is_kept else (yield from self._new_ticket(words, HEAD))
        clock: Optional[Clock] = None
        while True:
            slot = self.slot(ticket)
            value, *signal = yield from self._get_at(words, slot, ticket, nowait, tries)
            if is_full(value):
                return int(value)
            clock = clock or Clock(end, self._now)
            is_late = self._is_put(words, ticket)  # the putter of its value has the ticket
            if is_late and is_kept:
                ticket, is_kept = (yield from self._new_ticket(words, HEAD)), False
                continue
            if not nowait:
                value, *signal = yield from self._wait_for(words, slot, is_late, clock.pause(is_late), tries)
                if is_full(value):
                    return int(value)
            elif is_full(*signal):
                signal = yield from batch([empty(words, SIGNAL)], NotNow)
            is_over = nowait or clock.is_over()
            is_due = clock.is_over() or clock.is_due() or nowait and (is_late or self._now() - self._looked_at > TRUST)
            found = yield from self._get_told(words, ticket, signal, is_due, tries)
            if found is not None:
                if not is_late:
                    self._gets.append(ticket)
                return found
            if is_over:
                self._gets.append(ticket)
                raise NotNow(f"{self.name} is empty") if nowait else TimedOut(f"get {self.name}")
            if is_late:
                ticket = yield from self._new_ticket(words, HEAD)

    def _is_put(self, words: Array, ticket: int) -> bool:
        """Whether a putter is known to have the ticket."""
        return self._tail[0] == words.id and self._tail[1] > ticket

    def _get_at(self, words: Array, slot: int, ticket: int, nowait: bool, tries: Tries) -> Steps[List[Any]]:
        """Takes the slot's value, if there is one, and looks at TAIL if need be. The signal too, if nothing waits."""
        asked = [made_before(READFE, words.id, slot, 0, True)]
        if nowait:
            asked.append(look(words, SIGNAL))
        if self._is_put(words, ticket):
            return (yield from batch(asked, NotNow, key=tries.next()))
        asked.append(made_before(READFF, words.id, TAIL, 0, True))
        *found, tail = yield from batch(asked, NotNow, key=tries.next())
        self._tail = (words.id, int(tail))
        return found

    def _wait_for(self, words: Array, slot: int, is_late: bool, seconds: float, tries: Tries) -> Steps[List[Any]]:
        """Waits for the slot's value: for a putter that is late that alone, otherwise for the signal too."""
        asked = [requests.readfe(words, slot)]
        if not is_late:
            asked.append(requests.readfe(words, SIGNAL))
        value, *signal = yield First(asked, seconds, tries.next())
        is_told = any(map(is_full, signal))
        if is_full(value) and is_told:
            yield from self.tell(words, signal[0])  # for another one that waits
        if not is_full(value) and (not isinstance(value, Withdrawn) or not isinstance(value, TimedOut) and not is_told):
            raise value  # the array is gone, or the caller is interrupted
        return [value, *signal]

    def _get_told(self, words: Array, ticket: int, signal: Sequence[Any], is_due: bool, tries: Tries) -> Steps[Optional[int]]:
        """Takes the value that a signal tells of, if it is there, or any value if it tells of all slots or a look is due."""
        told = [slot for slot in signal if is_full(slot)]
        if told and told[0] != ALL:
            (value,) = yield from batch([empty(words, told[0])], NotNow, key=tries.next())
            if is_full(value):
                return int(value)
        return (yield from self._get_anywhere(words, ticket, tries)) if is_due or ALL in told else None

    def _get_anywhere(self, words: Array, ticket: int, tries: Tries) -> Steps[Optional[int]]:
        """Takes a value from any slot, that of the lowest ticket first."""
        full = [slot for slot, there in (yield from self._look(words, ticket, purges=True)) if is_full(there)]
        while full:
            asked = [empty(words, full.pop(0))]
            if full:
                asked.append(requests.writexf(words, SIGNAL, ALL))  # for another one that waits
            value, *_ = yield from batch(asked, NotNow, key=tries.next())
            if is_full(value):
                return int(value)
        return None

    def _look(self, words: Array, ticket: int, purges: bool = False) -> Steps[List[tuple[int, object]]]:
        """Each slot and what it has, that of the ticket first. Purges the signal before: what is put later fills it again."""
        slots = [self.slot(ticket + k) for k in range(self.slots)]
        asked: List[Request[Any]] = [requests.purge(words, SIGNAL)] if purges else []
        asked += [look(words, slot) for slot in slots]
        found = yield from batch(asked, NotNow)
        if purges:
            self._looked_at = self._now()
        return list(zip(slots, found[-self.slots :]))

    def size(self, words: Array) -> Steps[int]:
        found = yield from self._look(words, 0)
        return sum(is_full(there) for _, there in found)


class BoundedQueue(Pattern):
    """At most `capacity` values of 64 bits, each taken once.

    First in, first out, except near a client that was killed, stopped or late, or gave up waiting. Nobody waits for a client
    that is stopped or killed. A value whose `get` was answered to a killed client went with it, unless it had a key.
    """

    MARK = b"fe_ring1"
    FIRST = (0, 0)

    def __init__(self, client: Any, name: str, capacity: int) -> None:
        """`capacity` is the same for all who share it."""
        super().__init__(client, name)
        self._ring = Ring(name, size_of(capacity, "capacity"), self._core.clock)
        self.LENGTH = SLOTS + capacity
        self.REQUESTS = {"put": (20 + 4 * capacity, 12 + 3 * capacity), "get": (16 + 4 * capacity, 12 + 3 * capacity)}

    @operation_with(light=True)
    def put(self, value: int, timeout: Optional[float] = None, *, key: Optional[Key] = None) -> Steps[None]:
        """Waits for room, and adds a value. `TimedOut` if there is none in time.

        With a key, which needs a session file, the value is added once, however often this is called again.
        """
        yield from self._put(value, self._deadline(timeout), False, key)

    @operation_with(light=True)
    def put_nowait(self, value: int, *, key: Optional[Key] = None) -> Steps[None]:
        """Adds a value. `NotNow` if there is no room."""
        yield from self._put(value, None, True, key)

    def _put(self, value: int, end: Optional[float], nowait: bool, key: Optional[Key]) -> Steps[None]:
        number = number_of_bits(value, 64, "value")
        words = self._array or (yield from self._find())
        with Tries(self._core, key, WRITEEF, number) as tries:
            if key is None or (yield from tries.begin()) is None:
                yield from self._ring.put(words, number, end, nowait, tries)

    @operation_with(light=True)
    def get(self, timeout: Optional[float] = None, *, key: Optional[Key] = None) -> Steps[int]:
        """Waits for a value, and takes it. `TimedOut` if there is none in time.

        With a key, which needs a session file, a value is taken once, and is the same however often this is called again.
        """
        return (yield from self._get(self._deadline(timeout), False, key))

    @operation_with(light=True)
    def get_nowait(self, *, key: Optional[Key] = None) -> Steps[int]:
        """Takes a value. `NotNow` if there is none."""
        return (yield from self._get(None, True, key))

    def _get(self, end: Optional[float], nowait: bool, key: Optional[Key]) -> Steps[int]:
        words = self._array or (yield from self._find())
        with Tries(self._core, key, READFE, 0) as tries:
            if key is not None and (yield from tries.begin()) is not None:
                return tries.value
            return (yield from self._ring.get(words, end, nowait, tries))

    @operation_with(light=True)
    def qsize(self) -> Steps[int]:
        """How many values are there now."""
        return (yield from self._ring.size((yield from self._find())))


class Channel(Pattern):
    """One word that hands values on: a value lies there at most, and each is taken once."""

    REQUESTS = {"put": (3, 0), "get": (3, 0)}

    @operation_with(light=True, call="_put_call")
    def put(self, value: int, timeout: Optional[float] = None, *, key: Optional[Key] = None) -> Steps[None]:
        """Waits until the last value is taken, and puts this one. `TimedOut` if it is not taken in time.

        With a key, which needs a session file, the value is put once, however often this is called again.
        """
        end = self._deadline(timeout)
        word = self._array or (yield from self._find())
        yield from once(self._core, key, requests.writeef(word, 0, value), self._left(end))

    def _put_call(self, value: int, timeout: Optional[float] = None, key: Optional[Key] = None) -> Optional[Call]:
        return None if self._array is None or key is not None else (requests.writeef(self._array, 0, value), timeout)

    @operation_with(light=True, call="_get_call")
    def get(self, timeout: Optional[float] = None, *, key: Optional[Key] = None) -> Steps[int]:
        """Waits for a value, and takes it. `TimedOut` if there is none in time. With a key, as of a queue."""
        end = self._deadline(timeout)
        word = self._array or (yield from self._find())
        return (yield from once(self._core, key, requests.readfe(word, 0), self._left(end)))

    def _get_call(self, timeout: Optional[float] = None, key: Optional[Key] = None) -> Optional[Call]:
        return None if self._array is None or key is not None else (requests.readfe(self._array, 0), timeout)
