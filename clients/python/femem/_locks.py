"""What is held: locks, locks for readers and writers, and the leadership of a group."""

from __future__ import annotations

from contextlib import suppress
from functools import partial
from typing import Any, Callable, Dict, Generic, Iterable, List, Optional, Sequence, Tuple, Type, TypeVar

from . import _frames as frames, requests
from ._arguments import Key, seconds_of
from ._errors import FememError, NoArray, NotNow, NotOwner, TimedOut
from ._holdings import Hold, Read, Release
from ._jobs import Look, Mended, Steps, Ticket, Wait, batch
from ._operations import FIRST_LOOK, LAST_LOOK, Absence, Pattern, Tries, done_at, is_full
from ._operations import operation, operation_with, size_of
from .requests import Array, Request, add, empty, fill, look

K = TypeVar("K", bound="Turn")

GENERATIONS = 2**40  # how many acquisitions the generation has room for, in each array of a lock


class Owned(Pattern):
    """Word OWNER is empty while it is free, and otherwise has its owner's session. Word COUNT counts acquisitions."""

    OWNER, COUNT = 0, 1
    LENGTH = 2
    # The words that are made full.
    COUNTS: Tuple[int, ...] = (COUNT,)
    MOVES = False  # whether it may go on at another word, so that who waits looks where it is
    REQUESTS = {"acquire": (9, 14), "campaign": (9, 14), "try_acquire": (9, 0), "release": (6, 0), "resign": (6, 0)}
    _generation: Optional[int] = None
    _broke: Optional[int] = None
    _adopted = False

    @property
    def generation(self) -> Optional[int]:
        """The number of this client's last acquisition: greater than that of each acquisition before it."""
        return self._generation

    @property
    def broke(self) -> Optional[int]:
        """The session from which the last acquisition took it, as the one that broke it. Otherwise `None`."""
        return self._broke

    @property
    def adopted(self) -> bool:
        """Whether an earlier process of this session had left it held when this client acquired it."""
        return self._adopted

    def _find(self) -> Steps[Array]:
        """A new array is free, and its counts are full."""
        while self._array is None:
            array = yield from self._make()
            filled = yield from batch([fill(array, word, 0) for word in self.COUNTS], NotNow, NoArray)
            if not any(isinstance(each, NoArray) for each in filled):  # nobody broke it in between
                self._array = array
        return self._array

    def _begin(self) -> Steps[Array]:
        """Finds it, and what an earlier process of this session left there."""
        array = yield from self._find()
        yield from self._core.holdings.left.look_up(array, self._session_words(), self._session)
        return array

    def _session_words(self) -> Sequence[int]:
        """Those that may have this session."""
        return (self.OWNER,)

    def _acquisition(
        self, timeout: Optional[float], nowait: bool = False, patience: Optional[float] = None, key: Optional[Key] = None
    ) -> Steps[bool]:
        hold = Hold()
        return Mended(self._acquire(hold, self._deadline(timeout), nowait, patience, key), partial(self._mend_acquired, hold))

    def _acquire(
        self, hold: Hold, end: Optional[float], nowait: bool, patience: Optional[float], key: Optional[Key]
    ) -> Steps[bool]:
        """Returns whether it was acquired in time."""
        self._broke, self._adopted = None, False
        yield from self._show()
        with Tries(self._core, key, frames.WRITEEF, self._session) as tries:
            done = yield from tries.begin()
            if done is not None:
                return (yield from self._take_again(hold, int.from_bytes(done[14:22], "big")))
            while True:
                try:
                    hold.array = array = yield from self._begin()
                    hold.word = self.OWNER
                    if not (yield from self._own(array, end, nowait, patience, tries)):
                        return False
                    self._core.holdings.words[array.id, hold.word] = hold
                    return True
                except NoArray:
                    self._array = None  # it was broken

    def _number(self, array: Array, count: int) -> None:
        self._generation = array.id * GENERATIONS + count + 1

    def _take_again(self, hold: Hold, id: int) -> Steps[bool]:
        """It was acquired under the key before: by this process, or by an earlier one that had not released it."""
        hold.array = array = yield from self._begin()
        hold.word = self.OWNER
        (owner,) = yield from batch([look(array, self.OWNER)], NotNow, NoArray)
        if array.id != id or owner != self._session:
            raise NotOwner(f"{self._name} was acquired under this key, and is not held any more")
        self._adopted = self._core.holdings.left.take(array, self.OWNER)
        if self._adopted:
            # (the earlier process may have been killed before it counted)
            (count,) = yield from batch([add(array, self.COUNT, 1)], NoArray)
            if not is_full(count):
                raise NotOwner(f"{self._name} was acquired under this key, and was broken")
            self._number(array, int(count))
            self._core.holdings.words[array.id, hold.word] = hold
        return True

    def _own(self, array: Array, end: Optional[float], nowait: bool, patience: Optional[float], tries: Tries) -> Steps[bool]:
        """Fills word OWNER, or adopts what an earlier process left there. Whether in time."""
        self._adopted = bool(self._core.holdings.left.take_unkeyed(array, (self.OWNER,), self._core.file))
        if self._adopted and tries.key is not None:  # a new key cannot have it
            self._adopted = False
            yield from batch([empty(array, self.OWNER)], NotNow)
        mine = look(array, self.OWNER) if self._adopted else fill(array, self.OWNER, self._session)
        done, count = yield from self._count(array, mine, key=tries.next())
        if not is_full(done):
            if nowait:
                return False
            if patience is None and not self.MOVES:
                got = yield from self._wait(array, self._left(end), tries)
            else:
                got = yield from self._watch(array, end, patience, tries)
            if not got:
                return False
            (count,) = yield from self._count(array)
        self._number(array, int(count))
        return True

    def _count(self, array: Array, *asked: Request[Any], key: Optional[bytes] = None) -> Steps[List[Any]]:
        """Asks these together with the count of an acquisition."""
        return batch([*asked, add(array, self.COUNT, 1)], NotNow, key=key)

    def _wait(self, array: Array, seconds: Optional[float], tries: Tries) -> Steps[bool]:
        try:
            yield Wait(requests.writeef(array, self.OWNER, self._session), seconds, tries.next())
        except TimedOut:
            return False
        return True

    def _watch(self, array: Array, end: Optional[float], patience: Optional[float], tries: Tries) -> Steps[bool]:
        """Waits, and looks whether the owner is there. An owner that was absent for that long loses it."""
        absence, pause = Absence(patience), self._pause(patience)
        while True:
            rest = self._left(end)
            if (yield from self._wait(array, pause if rest is None else min(pause, rest), tries)):
                return True
            is_over = rest is not None and rest <= pause
            if is_over and not self.MOVES:
                return False
            owner = yield from self._owner_of(array)
            if is_over:
                return False
            yield from self._break_if_away(array, [] if owner is None else [owner], absence)

    @staticmethod
    def _pause(patience: Optional[float]) -> float:
        """How long one waits before it looks who is there."""
        return LAST_LOOK if patience is None else max(0.01, patience / 4)

    def _break_if_away(self, array: Array, sessions: Iterable[int], absence: Absence) -> Steps[None]:
        """`NoArray` if one of them was absent for too long: then the lock is broken."""
        if not absence.may_end:
            return
        presence = yield from self._show()
        gone = absence.gone((yield Look()), presence, sessions, self._now())
        if gone is not None:
            if (yield from self._break(array)):
                self._broke = gone
            raise NoArray(self._name)

    def _owner_of(self, array: Array) -> Steps[Optional[int]]:
        (owner,) = yield from batch([look(array, self.OWNER)], NotNow)
        return int(owner) if is_full(owner) else None

    def _owner(self) -> Steps[Optional[int]]:
        return self._with_array(self._owner_of)

    def _giving(self) -> Steps[None]:
        release = Release()
        return Mended(self._release(release), partial(self._mend_released, release))

    def _release(self, release: Release) -> Steps[None]:
        """`NotOwner` if this session does not hold it. Only a session's own process empties a word with that session."""
        holdings = self._core.holdings
        try:
            array = yield from self._begin()
            release.hold = holdings.words.get((array.id, self.OWNER)) or Hold()
            if release.hold.array is not None and release.is_of(release.hold):
                self._forget(release.hold)
            elif not holdings.left.take(array, self.OWNER):
                owner = yield from self._owner_of(array)
                whose = "free" if owner is None else f"session {owner}'s"
                raise NotOwner(f"{self._name} is {whose}")
            yield from self._empty(array)
        except (NoArray, NotNow):
            self._array = None
            raise NotOwner(f"{self._name} was taken over") from None

    def _empty(self, array: Array) -> Steps[None]:
        yield from batch([empty(array, self.OWNER)])

    def _forget(self, hold: Hold) -> None:
        """Before its word is emptied: no other release finds it then."""
        if hold.array is not None:
            self._core.holdings.words.pop((hold.array.id, hold.word), None)

    def _undo(self, hold: Hold, asked: Sequence[Ticket[Any]]) -> Steps[None]:
        """Empties its word if these requests have filled that."""
        if hold.array is not None:
            filled, emptied = (done_at(asked, code, hold.array).count(hold.word) for code in (frames.WRITEEF, frames.READFE))
            if filled > emptied:
                self._forget(hold)
                yield from batch([empty(hold.array, hold.word)], NotNow, NoArray)

    def _mend_acquired(self, hold: Hold, asked: Sequence[Ticket[Any]]) -> Steps[None]:
        """Undoes the acquisition, unless another thread releases it."""
        if Release().is_of(hold):
            yield from self._undo(hold, asked)

    def _mend_released(self, release: Release, asked: Sequence[Ticket[Any]]) -> Steps[None]:
        """Ends the release, unless it was of nothing. Who calls it once more gives nothing back, or all of it."""
        hold = release.hold
        if hold is None and self._array is not None:
            hold = self._core.holdings.words.get((self._array.id, self.OWNER))
        if hold is None or hold.array is None or not release.is_of(hold):
            return
        self._forget(hold)
        if hold.word not in done_at(asked, frames.READFE, hold.array):
            yield from batch([empty(hold.array, hold.word)], NotNow, NoArray)

    def _give_back(self, got: object) -> Steps[None]:
        """After an acquisition that no caller waits for any more."""
        return self._release(Release())

    def _break(self, array: Optional[Array] = None) -> Steps[bool]:
        """Removes the array, and with it whatever its owner may still do to it. Whether this client removed
        it. Waiting clients go to the next array."""
        if array is None:
            array = yield from self._find()
        (done,) = yield from batch([requests.remove(array)], NoArray)
        self._array = None
        self._core.holdings.words.pop((array.id, self.OWNER), None)
        return is_full(done)


class Lock(Owned):
    """Held by one client at a time. Its word has the session of its owner.

    A client that is gone for good while it holds the lock leaves it held. `owner` says whose it is, `break_` frees it, and
    `acquire(takeover_after=..)` does so if the owner is absent. An owner that was killed and is started again in its
    session acquires it at once; `adopted` is then true.
    """

    @operation_with(undo="_give_back", light=True)
    def acquire(self, timeout: Optional[float] = None, *, takeover_after: Optional[float] = None, key: Optional[Key] = None) -> Steps[bool]:
        """Waits for the lock. Returns whether it was acquired in time.

        With `takeover_after`, an owner that was absent for that long loses the lock. It may only be reconnecting, and
        continue with what the lock protects: `generation` tells the two apart. With a key, which needs a session file,
        this is one acquisition, however often it is called again: `NotOwner` if it is over.
        """
        return self._acquisition(timeout, False, seconds_of(takeover_after, "takeover_after"), key)

    @operation_with(undo="_give_back", light=True)
    def try_acquire(self) -> Steps[bool]:
        """Takes the lock if it is free now."""
        return self._acquisition(None, True)

    @operation_with(gives_back=True, light=True)
    def release(self) -> Steps[None]:
        """Releases the lock. `NotOwner` at once if it is free, or held by another session."""
        return self._giving()

    @operation
    def owner(self) -> Steps[Optional[int]]:
        """The session that holds the lock, or `None`. It may be this client's, held by an earlier process."""
        return (yield from self._owner())

    @operation
    def locked(self) -> Steps[bool]:
        """Whether some session holds the lock."""
        return (yield from self._owner()) is not None

    @operation
    def break_(self) -> Steps[bool]:
        """Frees the lock, whoever holds it, and returns whether this call did. Who held it gets `NotOwner` at the release."""
        return (yield from self._break())


class Election(Owned):
    """One leader at a time. What the leader changes can refuse an earlier one by the number that `campaign` returns."""

    @operation_with(undo="_give_back")
    def campaign(self, timeout: Optional[float] = None, *, takeover_after: Optional[float] = 5.0) -> Steps[Optional[int]]:
        """Waits until this client leads. Returns its number, greater than that of each leader before, or `None` in time.

        A leader that was absent for `takeover_after` seconds loses its place. A client that is started again in the
        session of the leader leads again, under a new number.
        """
        patience = seconds_of(takeover_after, "takeover_after")
        got = yield from self._acquire(Hold(), self._deadline(timeout), False, patience, None)
        return self._generation if got else None

    @operation_with(gives_back=True)
    def resign(self) -> Steps[None]:
        """Gives up the lead. `NotOwner` if this client does not lead, or no longer."""
        return self._giving()

    @operation
    def leader(self) -> Steps[Optional[int]]:
        """The session of the leader, or `None`."""
        return (yield from self._owner())


class ReadWriteLock(Owned, Generic[K]):
    """Held by one writer, or by up to `readers` clients that read, at most 64. A writer that waits is next: nobody comes
    before it, except a thread or task that reads and reads again.

    Who reads fills a seat with its session, waits for the word OWNER, sets the seat's bit in the word READERS, and empties
    OWNER. Who writes keeps OWNER, and waits until READERS is 0. Who reads and then wants to write waits for itself. Of what
    an earlier process of this session left, a writer adopts OWNER; a seat, or OWNER where one reads, is given back.
    """

    TURN: Type[K]
    MARK = b"fe_rwlk2"
    OWNER, COUNT, READERS, DOOR, SEATS = range(1, 6)
    COUNTS = (COUNT, READERS)

    def __init__(self, client: Any, name: str, readers: int = 64) -> None:
        """`readers` is the same for all who share it."""
        super().__init__(client, name)
        self._seats = range(self.SEATS, self.SEATS + min(size_of(readers, "readers"), 64))
        self._next_seat = self._session
        self.LENGTH = self._seats.stop
        first = 26 + 2 * len(self._seats)
        self.REQUESTS = {"acquire_read": (first, first), "release_read": (4, 0), "release_write": (1, 0)}
        self.REQUESTS["acquire_write"] = (first - 1, first)
        self._reads: Dict[Read, None] = {}  # the reads by this handle, in their order

    def read(self, timeout: Optional[float] = None, *, takeover_after: Optional[float] = None) -> K:
        """A `with` or `async with` block that reads. `TimedOut` as it begins if it may not in time."""
        return self.TURN(self._client, self, False, timeout, takeover_after)

    def write(self, timeout: Optional[float] = None, *, takeover_after: Optional[float] = None) -> K:
        """A `with` or `async with` block that writes. `TimedOut` as it begins if it may not in time."""
        return self.TURN(self._client, self, True, timeout, takeover_after)

    def _session_words(self) -> Sequence[int]:
        return (self.OWNER, *self._seats)

    def _begin(self) -> Steps[Array]:
        array = yield from super()._begin()
        for seat in self._core.holdings.left.take_unkeyed(array, self._seats, None):
            (bits,) = yield from batch([look(array, self.READERS)])
            yield from self._stand_up(array, seat, bool(bits & self._bit(seat)))
        return array

    @operation_with(undo="_give_read_back", light=True)
    def acquire_read(self, timeout: Optional[float] = None, *, takeover_after: Optional[float] = None) -> Steps[bool]:
        """Waits until this client may read. Returns whether it may, in time."""
        read, patience = Read(self._caller()), seconds_of(takeover_after, "takeover_after")
        return Mended(self._acquire_read(read, self._deadline(timeout), patience), partial(self._mend_read, read))

    def _acquire_read(self, read: Read, end: Optional[float], patience: Optional[float]) -> Steps[bool]:
        self._broke, self._adopted = None, False
        yield from self._show()
        while True:
            try:
                array = yield from self._begin()
                if self._core.holdings.left.take(array, self.OWNER):  # it may have to wait for a seat
                    yield from batch([empty(array, self.OWNER)], NotNow)
                read.seat, read.is_last, read.array, read.word = None, False, array, self.OWNER
                again = self._core.holdings.reads.add(array, read, None, again=True)
                if again is None and not (yield from self._enter(array, read, end, patience)):
                    return False
                read.has_begun = True
                self._reads[read] = None
                return True
            except NoArray:
                if read.array is not None:
                    self._core.holdings.reads.leave(read.array, read)
                self._array = None  # it was broken

    def _enter(self, array: Array, read: Read, end: Optional[float], patience: Optional[float]) -> Steps[bool]:
        """A seat, unless this client has one, and then a turn: no seat is waited for with the word OWNER."""
        while True:
            seat = None
            if not self._core.holdings.reads.now(array).reads:
                seat = yield from self._sit(array, end, patience)
                if seat is None:
                    return False
            # Fills the word OWNER, or gives the seat back.
            owns = super()._own(array, end, False, patience, Tries(self._core, None, frames.WRITEEF, self._session))
            if not (yield from self._or_else(owns, partial(self._stand_up, array, seat, False))):
                return False
            if (yield from self._read(array, seat, read)):
                return True

    def _sit(self, array: Array, end: Optional[float], patience: Optional[float]) -> Steps[Optional[int]]:
        """Takes a seat. Where all are taken it waits at one after the other."""
        absence, pause = Absence(patience), FIRST_LOOK
        while True:
            seat = self._seats[self._next_seat % len(self._seats)]
            if is_full((yield from batch([fill(array, seat, self._session)], NotNow))[0]):
                return seat
            holders = yield from self._holders(array, self._seats)
            if len(holders) < len(self._seats):
                self._next_seat = next(seat for seat in self._seats if seat not in holders) - self.SEATS
                continue
            yield from self._break_if_away(array, holders.values(), absence)
            rest = self._left(end)
            if rest == 0.0:
                return None
            try:
                yield Wait(requests.writeef(array, seat, self._session), pause if rest is None else min(pause, rest))
                return seat
            except TimedOut:
                self._next_seat, pause = self._next_seat + 1, min(2 * pause, self._pause(patience))

    @staticmethod
    def _or_else(steps: Steps[bool], undo: Callable[[], Steps[Any]]) -> Steps[bool]:
        """What the steps return. If that is false, or an error is raised, those of `undo` come behind."""
        try:
            got = yield from steps
        except FememError:
            yield from undo()
            raise
        if not got:
            yield from undo()
        return got

    def _read(self, array: Array, seat: Optional[int], read: Read) -> Steps[bool]:
        """Begins to read, with the word OWNER, and empties that. False if a seat is needed: the one who had it has left."""
        asked = [empty(array, self.OWNER)]
        over = self._core.holdings.reads.add(array, read, seat)
        if seat is not None:
            asked.insert(0, add(array, self.READERS, self._bit(seat)) if over == seat else empty(array, seat))
        yield from batch(asked)
        return over is not None

    def _bit(self, seat: int) -> int:
        return 1 << seat - self.SEATS

    def _stand_up(self, array: Array, seat: Optional[int], reads: bool) -> Steps[bool]:
        """Gives a seat back, and before it its bit. The last one that reads tells a writer. Whether the lock is there yet."""
        if seat is None:
            return True
        bit, asked = self._bit(seat), [empty(array, seat)]
        if reads:
            asked.insert(0, add(array, self.READERS, -bit % 2**64))
            asked.append(look(array, self.OWNER))
        outcomes = yield from batch(asked, NotNow, NoArray)
        if reads and outcomes[0] == bit and is_full(outcomes[2]):
            yield from batch([requests.writexf(array, self.DOOR, 0)], NoArray)
        return not isinstance(outcomes[0], NoArray)

    def _holders(self, array: Array, seats: Sequence[int]) -> Steps[Dict[int, int]]:
        found = yield from batch([look(array, seat) for seat in seats], NotNow)
        return {seat: int(holder) for seat, holder in zip(seats, found) if is_full(holder)}

    @operation_with(gives_back=True, light=True)
    def release_read(self) -> Steps[None]:
        """This thread or task reads no more, or another one of this handle if it does not read. `NotOwner` if none reads, or
        somebody broke the lock."""
        release = Release(self._caller())
        return Mended(self._leave(release), partial(self._mend_left, release))

    def _given_by(self, release: Release) -> Read:
        """The read that this gives back: no other release does. One without an array stands for none."""
        while release.read is None or not release.is_of(release.read):
            reads = [each for each in [*self._reads] if not each.given_by] or [Read(None)]
            release.read = next((each for each in reversed(reads) if each.caller == release.caller), reads[-1])
        self._reads.pop(release.read, None)
        return release.read

    def _leave(self, release: Release) -> Steps[None]:
        read = self._given_by(release)
        if read.array is None:
            raise NotOwner(f"{self._name} is not held for reading")
        array, seat = read.array, self._core.holdings.reads.leave(read.array, read)
        if seat is None:  # others of this client read yet
            is_there = is_full((yield from batch([look(array, self.READERS)], NoArray))[0])
        else:
            is_there = yield from self._stand_up(array, seat, True)
        if not is_there:
            raise NotOwner(f"{self._name} was broken")

    def _give_read_back(self, got: bool) -> Steps[None]:
        return self._leave(Release())

    def _mend_left(self, release: Release, asked: Sequence[Ticket[Any]]) -> Steps[None]:
        """Ends the release. Its seat was given back together with the bit."""
        read = self._given_by(release)
        seat = None if read.array is None else self._core.holdings.reads.leave(read.array, read)
        if read.array is None or seat is None:
            return
        if self.READERS in done_at(asked, frames.INT_FETCH_ADD):
            yield from batch([requests.writexf(read.array, self.DOOR, 0)], NoArray)
        else:
            yield from self._stand_up(read.array, seat, True)

    def _mend_read(self, read: Read, asked: Sequence[Ticket[Any]]) -> Steps[None]:
        """Undoes the acquisition, unless another thread gives the read back. This process leaves before another thread of it
        can have the word OWNER and join."""
        array = read.array
        if array is None or not Release().is_of(read):
            return
        self._reads.pop(read, None)
        seat = self._core.holdings.reads.leave(array, read)
        yield from self._undo(read, asked)
        filled, emptied, added = (done_at(asked, code, array) for code in (frames.WRITEEF, frames.READFE, frames.INT_FETCH_ADD))
        own = next((each for each in self._seats if filled.count(each) > emptied.count(each)), None)
        if own != read.seat:  # it was not the first one that read over that
            yield from self._stand_up(array, own, False)
        if seat is not None:
            yield from self._stand_up(array, seat, own != seat or self.READERS in added)

    @operation_with(undo="_give_back", light=True)
    def acquire_write(self, timeout: Optional[float] = None, *, takeover_after: Optional[float] = None) -> Steps[bool]:
        """Waits until only this client may read and write. Returns whether it may, in time."""
        return self._acquisition(timeout, patience=seconds_of(takeover_after, "takeover_after"))

    def _own(self, array: Array, end: Optional[float], nowait: bool, patience: Optional[float], tries: Tries) -> Steps[bool]:
        """Fills word OWNER, and then waits until nobody reads, or gives that back."""
        if not (yield from super()._own(array, end, nowait, patience, tries)):
            return False
        is_alone = self._wait_for_readers(array, end, patience)
        return (yield from self._or_else(is_alone, lambda: batch([empty(array, self.OWNER)], NotNow, NoArray)))

    def _wait_for_readers(self, array: Array, end: Optional[float], patience: Optional[float]) -> Steps[bool]:
        """The last one that reads fills the word DOOR. With patience, one that is absent loses its seat with all."""
        absence, pause = Absence(patience), self._pause(patience)
        while True:
            _, bits = yield from batch([requests.purge(array, self.DOOR), look(array, self.READERS)])
            if not bits:
                return True
            if absence.may_end:
                holders = yield from self._holders(array, self._reading(bits))
                yield from self._break_if_away(array, holders.values(), absence)
            rest = self._left(end)
            if rest == 0.0:
                return False
            with suppress(TimedOut):
                yield Wait(requests.readfe(array, self.DOOR), pause if rest is None else min(pause, rest))

    def _reading(self, bits: int) -> List[int]:
        return [seat for seat in self._seats if bits & self._bit(seat)]

    @operation_with(gives_back=True, light=True)
    def release_write(self) -> Steps[None]:
        """`NotOwner` if this client does not hold it for writing, or no longer."""
        return self._giving()

    @operation
    def owners(self) -> Steps[Tuple[Optional[int], List[int]]]:
        """The session of the writer, or `None`, and those of the clients that read."""
        return (yield from self._with_array(self._owners_of))

    def _owners_of(self, array: Array) -> Steps[Tuple[Optional[int], List[int]]]:
        writer = yield from self._owner_of(array)
        (bits,) = yield from batch([look(array, self.READERS)])
        return writer, [*(yield from self._holders(array, self._reading(bits))).values()]

    break_ = Lock.break_


class Turn(Pattern):
    """A `with` block that reads or writes, made by `ReadWriteLock.read` and `write`. `TimedOut` as it begins, and nothing is held,
    if its time is over before its turn comes."""

    def __init__(
        self, client: Any, lock: ReadWriteLock[Any], writes: bool, timeout: Optional[float],
        takeover_after: Optional[float],
    ) -> None:
        super().__init__(client, lock._name)
        self._lock = lock
        self._writes = writes
        self._timeout = seconds_of(timeout)
        self._patience = seconds_of(takeover_after, "takeover_after")

    @operation_with(undo="_give_back", light=True)
    def acquire(self) -> Steps[bool]:
        """Begins the block: its `with` calls this."""
        kind = ReadWriteLock.acquire_write if self._writes else ReadWriteLock.acquire_read
        steps = kind.steps(self._lock, self._timeout, takeover_after=self._patience)
        assert isinstance(steps, Mended)
        return Mended(self._in_time(steps), steps.mend)

    def _in_time(self, steps: Steps[bool]) -> Steps[bool]:
        if not (yield from steps):
            raise TimedOut(f"{self._name} could not be {'written' if self._writes else 'read'} in time")
        return True

    @operation_with(gives_back=True, light=True)
    def release(self) -> Steps[None]:
        """Ends the block: its `with` calls this. `NotOwner` if somebody broke the lock."""
        kind = ReadWriteLock.release_write if self._writes else ReadWriteLock.release_read
        return kind.steps(self._lock)

    def _give_back(self, got: bool) -> Steps[None]:
        return self._lock._give_back(got) if self._writes else self._lock._give_read_back(got)

    def _can_mend(self) -> bool:
        return self._lock._can_mend()
