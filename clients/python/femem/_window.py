"""The numbers of a session: which are in use, which are answered, and how far the floor may rise.

The server lets a session use 32 numbers from its floor on, and keeps the answer under each. `settle` raises the floor.
A `Window` gives each request the next number, and none twice. It knows which of its numbers have no answer, and keeps the
others' answers until the server has dropped them, since an answer may come again and must then be equal.
"""

from __future__ import annotations

from typing import Dict, Generic, List, Optional, Sequence, Tuple, TypeVar, Union

from . import _frames as frames
from ._errors import ProtocolError, SessionLost, TakenOver

T = TypeVar("T")

_STEP = 16  # the floor is raised once this many numbers are answered, or earlier

# The floor is raised by less than a whole window. A client that takes the session over raises it by a whole one, so the
# floor shows that it was there.
LONGEST_STEP = frames.WINDOW - 1

_WINDOW = frames.WINDOW

# Once the lowest number without an answer is this far behind the next one, those that wait get new numbers. So the window
# has room for other requests all the time. Not those among the last few numbers, nor if more than half of the window waits.
_HELD_BACK = 12
_RECENT = 8
_MOST_HOLDING = _WINDOW // 2

# How many numbers are not lent while requests wait: for a call that finds none lent, and for what moves with it.
_NOT_LENT = 4

_SETTLED_OTHERWISE = "no answer is due"

# Of numbers that a former process used: an answer may come once more, and it is not known which.
_NOT_KEPT = "not kept"


class Used(List[Optional[T]]):
    """What callers used lent numbers for, in order, from `first` on. `None`: its answer was read, as of all
    before. `asked`: the floor that they asked for last, unless it is 0. `left`: the number that what waits
    all the time had before it became the first of these, or 0."""

    def __init__(self, first: int, asked: int) -> None:
        self.first = first
        self.asked = asked
        self.left = 0


class Window(Generic[T]):
    """`floor` is the current floor, and `asked` the one that is asked for: the same, or up to 31 above."""

    def __init__(self, floor: int) -> None:
        self.floor = floor
        self.asked = floor
        self.unanswered: Dict[int, T] = {}  # ascending, since numbers are given in order
        self.next = floor  # the number that the next request gets
        # What ended each number from the floor on that has no request now.
        self.answers: Dict[int, Union[frames.Answer, str]] = {}
        self._several = False  # whether floors between the current one and the one asked for may be reported
        self.soon = 0  # the floor is raised to here as soon as nothing below waits
        self.left = 0  # the last number that callers cancelled

    @classmethod
    def of_file(cls, floor: int, asked: int, next: int, unanswered: Dict[int, T], answers: Dict[int, frames.Answer]) -> Window[T]:
        """The window as a former process left it. That may have asked for several floors, one after the other."""
        window: Window[T] = cls(floor)
        window.asked = asked
        window.next = next
        window._several = asked > floor
        window.unanswered = unanswered
        for number in range(floor, next):
            if number not in unanswered:
                window.answers[number] = answers.get(number, _NOT_KEPT)
        return window

    def room(self) -> int:
        """How many more requests it has numbers for."""
        return self.asked + _WINDOW - self.next

    def give(self, items: Sequence[T]) -> int:
        """The next numbers, for these requests. Returns the first one. There must be room."""
        first = self.next
        self.next = end = first + len(items)
        self.unanswered.update(zip(range(first, end), items))
        return first

    def to_lend(self, may_move: Optional[T]) -> Tuple[int, int]:
        """How many numbers callers may use themselves, and the floor, if they may raise it too, or 0. They
        may if nothing waits, or only one that they may move: a number is kept for that."""
        waiting = [*self.unanswered.values()]
        if self.asked != self.floor or waiting and waiting != [may_move]:
            return self.room() - (_NOT_LENT if waiting else 0), 0
        return self.room() - len(waiting), self.floor

    def lent(self, used: Used[T], tickets: Sequence[Optional[T]], floor: int) -> None:
        """Notes what lent numbers were used for, and that the floor was raised, unless that is 0. `tickets`: as `used` is now."""
        self.next = max(self.next, used.first)
        if used.left:
            self.unanswered.clear()  # (it is among these)
            self.left = used.left
            self.answers[used.left] = _NOT_KEPT
        for item in tickets:
            if item is None:
                self.answers[self.next] = _SETTLED_OTHERWISE
            else:
                self.unanswered[self.next] = item
            self.next += 1
        if floor:
            self.asked = floor
            self.settled(floor)
            self.asked = used.asked

    def lowest(self) -> int:
        """The lowest number without an answer, or the next number if there is none."""
        return next(iter(self.unanswered), self.next)

    def answer(self, answer: frames.Answer) -> Optional[T]:
        """The request of this answer, or `None` if it came before. `ProtocolError` if none is due, or if it differs."""
        number = answer.number
        if number in self.unanswered:
            self.answers[number] = answer
            return self.unanswered.pop(number)
        kept = self.answers.get(number)
        if kept != answer and kept is not _NOT_KEPT:
            raise ProtocolError(f"an answer to number {number} that is not due")
        return None

    def end(self, number: int) -> T:
        """The number ends without an answer: it was withdrawn or refused. It is not used again."""
        self.answers[number] = _SETTLED_OTHERWISE
        return self.unanswered.pop(number)

    def move(self, number: int) -> int:
        """The request of a withdrawn number gets the next one, which is returned. An answer to the former one may come."""
        self.answers[number] = _NOT_KEPT
        return self.give([self.unanswered.pop(number)])

    def next_floor(self) -> Optional[int]:
        """The floor to ask for now, or `None`. Only one is asked for at a time."""
        if self.asked != self.floor or self.next - self.floor < _STEP and self.soon <= self.floor:
            return None
        floor = self.floor_towards(self.lowest())
        is_soon = self.floor < self.soon <= floor
        if floor - self.floor < _STEP and not is_soon and (self.room() or floor == self.floor):
            return None
        self.asked = floor
        return floor

    def floor_towards(self, number: int) -> int:
        """The floor to ask for to come to this number: that, or as far as one settle goes."""
        return min(number, self.floor + LONGEST_STEP, frames.GREATEST_FLOOR)

    def floors(self) -> List[int]:
        """The floors to ask for again over a new connection: up to the one asked for, each at most a window above the last."""
        return [*range(self.floor + _WINDOW, self.asked, _WINDOW), self.asked] if self.asked != self.floor else []

    def is_stuck(self) -> bool:
        """Whether there is no room until the request of the lowest number ends."""
        return not self.room() and self.asked == self.floor == self.lowest()

    def holding(self) -> List[T]:
        """The requests that wait under old numbers while others come and go, once they keep the floor from
        rising. The server answers in order, so a request below an answered number waits."""
        if len(self.unanswered) > _MOST_HOLDING or self.next - self.lowest() < _HELD_BACK:
            return []
        low = min(self.next - _RECENT, max(self.answers, default=0))
        return [item for number, item in self.unanswered.items() if number < low]

    def settled(self, floor: int) -> None:
        """The server reports that this is the floor."""
        if floor == self.floor:
            return
        if floor != self.asked and not (self._several and self.floor < floor < self.asked):
            raise ProtocolError(f"floor {floor}, where {self.floor} stands and {self.asked} is asked for")
        self.floor = floor
        self._several = self._several and floor != self.asked
        for number in [number for number in self.answers if number < floor]:
            del self.answers[number]

    def welcomed(self, floor: int) -> None:
        """The session was attached again, with this floor. `SessionLost` if it fell, which no kept session's
        does; `TakenOver` if another client raised it."""
        if floor < self.floor:
            raise SessionLost(f"the floor was {self.floor} and is {floor}")
        if floor not in (self.floor, self.asked) and not (self._several and floor < self.asked):
            raise TakenOver(f"the floor was {self.floor} and is {floor}")
        self.settled(floor)
