"""A semaphore: a number of permits."""

from __future__ import annotations

from functools import partial
from typing import Any, Dict, List, Optional, Sequence

from . import _frames as frames
from ._arguments import Key
from ._errors import NoArray, NotNow, NotOwner, TimedOut
from ._holdings import Hold, Release
from ._jobs import Mended, Steps, Ticket, batch
from ._operations import FIRST_LOOK, LAST_LOOK, Pattern, Tries, done_at, is_full
from ._operations import operation, operation_with, size_of
from .requests import Array, add, empty, fill, look
from ._queues import HEAD, SLOTS, TAIL, TRUST, Ring


class Semaphore(Pattern):
    """Held by up to `permits` at a time. Each permit's word has the session of its holder.

    A ring hands on the numbers of permits that are perhaps free, so that an acquisition and a release take a few requests
    however many permits there are. Only the permits' words decide: one that is free and not in the ring is found by whoever
    waits, after a moment. While nobody else draws from the ring, a handle takes the permit that it gave back last without it.

    A client that is gone for good while it holds a permit leaves it held: `holders` says whose they are, and
    `release(holder=..)` gives one back. Of the permits that an earlier process of this session left, the first acquisition
    adopts one and gives the others back, except those that were acquired under a key.
    """

    MARK = b"fe_sema1"

    def __init__(self, client: Any, name: str, permits: int) -> None:
        """`permits` is the same for all who share it."""
        super().__init__(client, name)
        self._permits = size_of(permits, "permits")
        self._ring = Ring(name, self._permits, self._core.clock)
        # The permits' words, and the permits that were acquired by this handle.
        self._words = range(SLOTS + self._permits, SLOTS + 2 * self._permits)
        self.LENGTH = self._words.stop
        self._held: List[int] = []
        # The permit that was given back last, while nobody else drew a ticket: it is tried first, without the ring. Of each that
        # was acquired so: HEAD at that time. As long as it stands there, nobody has taken the permit's number from the ring.
        self._last: Optional[int] = None
        self._heads: Dict[int, int] = {}
        self.REQUESTS = {"acquire": (20 + 12 * permits, 12 + 3 * permits), "release": (16 + permits, 0)}
        self._adopted = False
        self._looked_at = 0.0

    @property
    def adopted(self) -> bool:
        """Whether the last permit was left by an earlier process of this session."""
        return self._adopted

    def _find(self) -> Steps[Array]:
        """At first the ring has all numbers."""
        if self._array is None:
            array = yield from self._make()
            (head,) = yield from batch([look(array, 1)], NotNow)
            if not is_full(head):
                fills = [fill(array, SLOTS + k, k) for k in range(self._permits)]
                yield from batch([*fills, fill(array, 2, self._permits), fill(array, 1, 0)], NotNow)
            self._array = array
        return self._array

    @operation_with(undo="_give_back", light=True)
    def acquire(self, timeout: Optional[float] = None, *, key: Optional[Key] = None) -> Steps[bool]:
        """Waits for a permit. Returns whether it got one in time.

        With a key, which needs a session file, this is one acquisition, however often it is called again: `NotOwner` if its
        permit was given back.
        """
        return (yield from self._acquire(self._deadline(timeout), False, key))

    @operation_with(undo="_give_back", light=True)
    def try_acquire(self) -> Steps[bool]:
        """Takes a permit if one is free now."""
        return (yield from self._acquire(None, True, None))

    def _acquire(self, end: Optional[float], nowait: bool, key: Optional[Key]) -> Steps[bool]:
        self._adopted = False
        array = yield from self._find()
        yield from self._core.holdings.left.look_up(array, self._words, self._session)
        unkeyed = Tries(self._core, None, frames.READFE, 0)
        with Tries(self._core, key, frames.WRITEEF, self._session) as tries:
            done = yield from tries.begin()
            if done is not None:
                return (yield from self._take_again(array, done))
            if (yield from self._adopt(array, tries)):
                return True
            if key is None and (yield from self._take_last(array)):
                return True
            pause = FIRST_LOOK
            while True:
                rest = self._left(end)
                most = self._now() + (pause if rest is None else min(pause, rest))
                try:
                    hint = yield from self._ring.get(array, most, nowait, unkeyed)
                except (TimedOut, NotNow):
                    if nowait and self._now() - self._looked_at <= TRUST:
                        return False
                    if (yield from self._take_any(array, tries)):
                        return True
                    if nowait or self._left(end) == 0.0:
                        return False
                    pause = min(2 * pause, LAST_LOOK)
                else:
                    if hint < self._permits and (yield from self._take(array, hint, tries)):
                        return True

    def _adopt(self, array: Array, tries: Tries) -> Steps[bool]:
        """Adopts a permit that an earlier process left, except for a key, and gives back all others."""
        left = self._core.holdings.left.take_unkeyed(array, self._words, self._core.file)
        adopts = bool(left) and tries.key is None
        if adopts:
            self._hold_again(left.pop())
        for word in left:
            yield from self._give(array, word - self._words.start, self._session, Release())
        return adopts

    def _hold_again(self, word: int) -> None:
        self._adopted = True
        self._held.append(word - self._words.start)

    def _take(self, array: Array, permit: int, tries: Tries) -> Steps[bool]:
        mine = fill(array, self._words[permit], self._session)
        (done,) = yield from batch([mine], NotNow, key=tries.next())
        if is_full(done):
            self._hold(array, permit)
        return is_full(done)

    def _hold(self, array: Array, permit: int) -> None:
        """It was free: no release from before gives it back."""
        self._core.holdings.words.pop((array.id, self._words[permit]), None)
        self._held.append(permit)

    def _take_last(self, array: Array) -> Steps[bool]:
        """Takes the permit that was given back last, if it is still free. Its number stays in the ring."""
        permit, self._last = self._last, None
        if permit is None:
            return False
        mine = fill(array, self._words[permit], self._session)
        done, head = yield from batch([mine, look(array, HEAD)], NotNow)
        if is_full(done):
            self._heads[permit] = head
            self._hold(array, permit)
        return is_full(done)

    def _take_any(self, array: Array, tries: Tries) -> Steps[bool]:
        self._looked_at = self._now()
        for permit, holder in enumerate((yield from self._look(array))):
            if holder is None and (yield from self._take(array, permit, tries)):
                return True
        return False

    def _take_again(self, array: Array, frame: bytes) -> Steps[bool]:
        """The permit was acquired under the key before."""
        id, word = int.from_bytes(frame[14:22], "big"), int.from_bytes(frame[22:26], "big")
        (holder,) = yield from batch([look(array, word)], NotNow)
        if id != array.id or holder != self._session:
            raise NotOwner(f"the permit of {self._name} under this key is not held any more")
        if self._core.holdings.left.take(array, word):
            self._hold_again(word)
        return True

    def _look(self, array: Array) -> Steps[List[Optional[int]]]:
        found = yield from batch([look(array, word) for word in self._words], NotNow)
        return [holder if is_full(holder) else None for holder in found]

    @operation_with(gives_back=True, light=True)
    def release(self, holder: Optional[int] = None) -> Steps[None]:
        """Gives a permit back: this client's, or that of the session `holder`. `NotOwner` if it has none."""
        release = Release()
        return Mended(self._release(self._session if holder is None else holder, release), partial(self._mend_released, release))

    def _release(self, holder: int, release: Release) -> Steps[None]:
        array = yield from self._find()
        while holder == self._session and self._held:
            if (yield from self._give(array, self._held.pop(), holder, release)):
                return
        for permit, found in enumerate((yield from self._look(array))):
            if found == holder and (yield from self._give(array, permit, holder, release)):
                return
        raise NotOwner(f"session {holder} has no permit of {self._name}")

    def _give(self, array: Array, permit: int, holder: int, release: Release) -> Steps[bool]:
        """Empties the permit's word if it has this session, and says in the ring that it is free, unless it still says so. Of the
        releases of this process, one does: after it, somebody else may have the permit."""
        word, words = self._words[permit], self._core.holdings.words
        hold = words.setdefault((array.id, word), Hold())
        if not release.is_of(hold):
            return False
        hold.word, release.hold = word, hold
        is_given = yield from self._empty(array, permit, holder)
        self._core.holdings.left.take(array, word)
        if words.get((array.id, word)) is hold:
            words.pop((array.id, word), None)
        return is_given

    def _empty(self, array: Array, permit: int, holder: int) -> Steps[bool]:
        word, head = self._words[permit], self._heads.pop(permit, None)
        asked = [look(array, word)] if head is not None else [look(array, word), add(array, TAIL, 1)]
        found, *ticket = yield from batch(asked, NotNow, NoArray)
        if found != holder:
            return False
        asked = [empty(array, word)] if head is None else [empty(array, word), look(array, HEAD)]
        given, *now = yield from batch(asked, NotNow, NoArray)
        if not is_full(given):
            return False
        is_quiet = now == [head]  # nobody has drawn a ticket since the permit was taken
        if not is_quiet:
            ticket = ticket or (yield from batch([add(array, TAIL, 1)], NoArray))
            if is_full(ticket[0]):
                drawn = yield from self._ring.leave(array, int(ticket[0]), permit)
                is_quiet = is_full(drawn) and drawn <= ticket[0]  # nobody waits for it
        self._last = permit if is_quiet else None
        return True

    def _give_back(self, got: bool) -> Steps[None]:
        return Semaphore.release.steps(self)

    def _mend(self, array: Array, gives_back: bool, asked: Sequence[Ticket[Any]]) -> Steps[None]:
        """After an acquisition was interrupted within its steps."""
        for permit in [word - self._words.start for word in done_at(asked, frames.WRITEEF) if word in self._words]:
            if permit in self._held:
                self._held.remove(permit)
            yield from self._give(array, permit, self._session, Release())

    def _mend_released(self, release: Release, asked: Sequence[Ticket[Any]]) -> Steps[None]:
        """Ends the release: of the permit that it was giving back, or of one, if it had not begun."""
        array, hold = self._array, release.hold
        if array is None:
            return
        if any(word in self._words for word in done_at(asked, frames.READFE)):
            if hold is not None:
                self._core.holdings.words.pop((array.id, hold.word), None)
        elif hold is None or not (yield from self._give(array, hold.word - self._words.start, self._session, release)):
            yield from self._release(self._session, release)

    @operation
    def holders(self) -> Steps[List[int]]:
        """The sessions that hold permits, each once for every permit."""
        return [holder for holder in (yield from self._look((yield from self._find()))) if holder is not None]
