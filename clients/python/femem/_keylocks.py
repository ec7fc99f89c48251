"""Locks by key: the words of one array, found by a hash of the key. docs/patterns.md has the words and the steps."""

from __future__ import annotations

import zlib
from typing import Any, Dict, Generic, List, Optional, Type, TypeVar, Union

from . import requests
from ._arguments import seconds_of
from ._errors import NoArray, NotNow, NotOwner
from ._jobs import Steps, batch
from ._locks import Lock
from ._operations import is_full, marked_array, operation_with, size_of
from .requests import Array, Request, add, empty, fill, look

K = TypeVar("K", bound="KeyLock")

MARK = b"fe_lcks1"
COUNT, SPARES, PLACES = 1, 2, 3
LARGEST = 29000  # places, with their spares, that fit into a server


class KeyLock(Lock):
    """The lock of a key, used as a `Lock`. Made by `Locks.of`."""

    COUNT, MOVES = COUNT, True
    REQUESTS = {"acquire": (24, 24), "try_acquire": (24, 0), "release": (16, 0)}

    def __init__(self, client: Any, locks: Locks[Any], first: int) -> None:
        super().__init__(client, locks._name)
        self._locks = locks
        self._first = first
        # The array that it had, and whether only the place was another one.
        self._last: Optional[Array] = None
        self._has_moved = False
        self._be_at(first)

    def _be_at(self, place: int) -> None:
        self.OWNER = PLACES + 2 * place
        self._next = self.OWNER + 1

    def _find(self) -> Steps[Array]:
        if self._array is None:
            if self._last is not None and self._last is self._locks._array and not self._has_moved:
                self._locks._array = None  # it was removed
            self._array = self._last = yield from self._locks._find()
            self._has_moved = False
            self._be_at(self._locks._places.get(self._first, self._first))
        return self._array

    def _follow(self, array: Array, next: Any) -> Steps[None]:
        """`NoArray` if the place is dead. Whoever else waits there goes on too."""
        if is_full(next):
            yield from batch([requests.purge(array, self.OWNER)])
            self._locks._places[self._first] = int(next)
            self._has_moved = True
            raise NoArray(self._name)

    def _count(self, array: Array, *asked: Request[Any], key: Optional[bytes] = None) -> Steps[List[Any]]:
        *found, next, count = yield from batch([*asked, look(array, self._next), add(array, self.COUNT, 1)], NotNow)
        yield from self._follow(array, next)
        return [*found, count]

    def _owner_of(self, array: Array) -> Steps[Optional[int]]:
        owner, next = yield from batch([look(array, self.OWNER), look(array, self._next)], NotNow)
        yield from self._follow(array, next)
        return int(owner) if is_full(owner) else None

    def _empty(self, array: Array) -> Steps[None]:
        next, emptied = yield from batch([look(array, self._next), empty(array, self.OWNER)], NotNow)
        if not is_full(emptied) or is_full(next):
            raise NotOwner(f"{self._name} was taken over")

    def _break(self, array: Optional[Array] = None) -> Steps[bool]:
        """Whether this client did. Without spares the array goes, with all its locks."""
        if array is None:
            yield from self._owner()  # goes on from a dead place
            array = yield from self._find()
        (spare,) = yield from batch([add(array, SPARES, 1)], NoArray)
        if not is_full(spare) or spare >= self._locks._spares:
            return (yield from super()._break(array))
        moves = fill(array, self._next, self._locks._capacity + spare)
        done, _ = yield from batch([moves, requests.purge(array, self.OWNER)], NotNow, NoArray)
        self._core.holdings.words.pop((array.id, self.OWNER), None)
        return is_full(done)

    @operation_with(undo="_give_back", light=True)
    def acquire(  # type: ignore[override]
        self, timeout: Optional[float] = None, *, takeover_after: Optional[float] = None
    ) -> Steps[bool]:
        """As of a `Lock`."""
        return self._acquisition(timeout, patience=seconds_of(takeover_after, "takeover_after"))


class Locks(Generic[K]):
    """Locks by key, in one array: `with locks.of("order 4711"):`.

    Two keys may share a word, and then wait for each other: one that is acquired does so with one of n others that are held with
    odds of n in `capacity`. Who holds one and acquires another that shares its word waits for itself; `shares` tells.
    """

    LOCK: Type[K]

    def __init__(self, client: Any, name: str, capacity: int = 4096) -> None:
        """`capacity`, at most 29,000, is the same for all who share them. They take 2.25 words for each."""
        if size_of(capacity, "capacity") > LARGEST:
            raise ValueError(f"the capacity is at most {LARGEST}")
        self._client = client
        self._name = name
        self._capacity = capacity
        self._spares = max(1, capacity // 8)
        # Their array, and where those are that were taken over, as far as this client knows.
        self._array: Optional[Array] = None
        self._places: Dict[int, int] = {}

    def _find(self) -> Steps[Array]:
        if self._array is None:
            length = PLACES + 2 * (self._capacity + self._spares)
            self._array = yield from marked_array(self._name, length, MARK, (0, 0))
            self._places = {}
        return self._array

    def of(self, key: Union[str, bytes]) -> K:
        """The lock of that key."""
        return self.LOCK(self._client, self, self.place_of(key))

    def place_of(self, key: Union[str, bytes]) -> int:
        """Keys with the same number share a lock."""
        return zlib.crc32(key.encode() if isinstance(key, str) else key) % self._capacity

    def shares(self, *keys: Union[str, bytes]) -> bool:
        """Whether two of these keys share a lock."""
        return len({self.place_of(key) for key in keys}) < len(keys)
