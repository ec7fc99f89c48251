"""What the patterns of one client hold, for what one handle or thread must know of another."""

from __future__ import annotations

from typing import Dict, List, Optional, Sequence, Set, Tuple

from ._errors import NotNow
from ._frames import ACCESSES
from ._jobs import Steps, batch
from .requests import Array, look
from ._sessionfile import SessionFile


class Leftovers:
    """The words of a pattern that have this session and that this process did not write: an earlier process left them.

    They are looked up once for each word, before this process writes there or waits for anything. No other client writes
    this session, so none is added later. Each is taken once, by the step that adopts or empties it.

    A word that was filled under a key, which the session file still has, is left to the call under that key.
    """

    def __init__(self) -> None:
        self._found: Dict[int, Set[int]] = {}
        self._looked: Dict[int, Set[int]] = {}

    def look_up(self, array: Array, words: Sequence[int], session: int) -> Steps[None]:
        """Errors: `NoArray`."""
        looked = self._looked.get(array.id, set())
        if looked.issuperset(words):
            return
        words = [word for word in words if word not in looked]
        found = yield from batch([look(array, word) for word in words], NotNow)
        # Of several threads that look, the first one is right: it has not written yet.
        left, looked = self._found.setdefault(array.id, set()), self._looked.setdefault(array.id, set())
        for word, value in zip(words, found):
            if word not in looked:
                left.update([word] if value == session else [])
                looked.add(word)

    def is_clear(self, array: Array) -> bool:
        """Whether they were looked up, and none is left."""
        return not self._found.get(array.id, True)

    def take(self, array: Array, word: int) -> bool:
        """Whether it was left and nobody took it."""
        try:
            self._found[array.id].remove(word)
        except KeyError:
            return False
        return True

    def take_unkeyed(self, array: Array, words: Sequence[int], file: Optional[SessionFile]) -> List[int]:
        """Takes those of these words that no key of the session file has."""
        if not self._found.get(array.id):
            return []
        kept = [file.kept(key) for key in file.keys()] if file is not None else []
        frames = [each[0] for each in kept if each is not None and each[0][4] in ACCESSES]
        its = [frame for frame in frames if int.from_bytes(frame[14:22], "big") == array.id]
        keyed = {int.from_bytes(frame[22:26], "big") for frame in its}
        return [word for word in words if word not in keyed and self.take(array, word)]


class Hold:
    """What one acquisition of this process holds, or is about to: a word of an array."""

    def __init__(self) -> None:
        self.array: Optional[Array] = None
        self.word = 0
        self.given_by: Dict[int, object] = {}  # who gives it back: the first one that sets this


class Read(Hold):
    """A read of this process under a read-write lock, from before it begins."""

    def __init__(self, caller: object) -> None:
        super().__init__()
        self.caller = caller
        self.has_begun = False  # whether the server knows of it, so that its caller may read again beside it
        # Over which seat it was counted, and whether that is to be given back: from the moment at which it is to leave.
        self.seat: Optional[int] = None
        self.is_last = False


class Release:
    """A release: which acquisition it gives back is said as it begins."""

    def __init__(self, caller: object = None) -> None:
        self.caller = caller
        self.hold: Optional[Hold] = None  # one without an array stands for none
        self.read: Optional[Read] = None
        self._mark = object()

    def is_of(self, hold: Hold) -> bool:
        """Whether this one gives it back, from now on, and no other one."""
        return hold.given_by.setdefault(0, self._mark) is self._mark


class Sitting:
    """Who of this process reads under a lock, and over which seat, until it becomes another one."""

    def __init__(self, seat: Optional[int] = None, reads: Tuple[Read, ...] = ()) -> None:
        self.seat = seat
        self.reads = reads
        self.next: Dict[int, Sitting] = {}

    def becomes(self, seat: Optional[int], reads: Tuple[Read, ...]) -> bool:
        """Whether this one is next. Another thread may have set another one."""
        after = Sitting(seat, reads)
        return self.next.setdefault(0, after) is after


class Reads:
    """Who of this process reads under a read-write lock. They share one seat there. What several threads
    change is changed by one call, `setdefault`: it has happened or not, wherever one is interrupted."""

    def __init__(self) -> None:
        self._sittings: Dict[int, Sitting] = {}

    def now(self, array: Array) -> Sitting:
        sitting = self._sittings.get(array.id) or self._sittings.setdefault(array.id, Sitting())
        while sitting.next:
            sitting = sitting.next[0]
        self._sittings[array.id] = sitting
        return sitting

    def add(self, array: Array, read: Read, seat: Optional[int], again: bool = False) -> Optional[int]:
        """Adds the read: over the seat of the others, or over this one as the first. With `again` only beside one of its caller.
        The seat, or `None` if there is none."""
        while True:
            now = self.now(array)
            over = now.seat if now.reads else seat
            if over is None or again and not any([each.has_begun and each.caller == read.caller for each in now.reads]):
                return None
            if now.becomes(over, (*now.reads, read)):
                return over

    def leave(self, array: Array, read: Read) -> Optional[int]:
        """Removes the read. The seat to be given back, if it was the last one. Called again, it says the same."""
        while read in (now := self.now(array)).reads:
            others = tuple([each for each in now.reads if each is not read])
            read.seat, read.is_last = now.seat, not others
            now.becomes(now.seat if others else None, others)
        return read.seat if read.is_last else None


class Holdings:
    """Arrays are named by their ids, words by the id and the index."""

    def __init__(self) -> None:
        self.left = Leftovers()
        # The words with which this process holds something, until its release begins.
        self.words: Dict[Tuple[int, int], Hold] = {}
        self.reads = Reads()
        # The jobs of work queues that this process has, or is just claiming, each with the request that claims it.
        self.jobs: Dict[int, object] = {}
        self.keys: Set[bytes] = set()  # the keys under which an operation of several tries is going on
