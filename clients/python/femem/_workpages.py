"""The words of a work queue: its pages, and the slots of each. docs/work-queue.md has them and what is done with them."""

from __future__ import annotations

from typing import Any, Dict, List, Optional, Set

from . import requests
from ._errors import NameTaken, NoArray, NotNow, NotOwner, OtherPattern
from ._frames import INT_FETCH_ADD, READFF, WRITEEF
from ._jobs import Hand, Steps, batch
from ._operations import Pattern, is_full, shared_array
from .requests import Request, add, fill, look, made, made_before

PAGES = 8
MOST_ATTEMPTS = 16
LARGEST = 65532
CHUNK = 32  # slots that are looked at together
LEAST = 64  # slots of a page, unless it is the capacity that is less
PAGE_WORDS = 8000  # of a page at most: a server has 65,536 words

# Words of the root and of a page, and what ends a slot.
JOBS, ROOM, CAPACITY, ATTEMPTS, LAYOUT, ROOT_LENGTH = range(6)
TAIL, HEAD, FINISHED, FIRST_SLOT = range(4)
DONE, VOID, DROPPED = range(3)

LEAST_ADDRESS = 2**16  # an END from here on is the address of a word: the job moved there

THIS_LAYOUT = 3  # what the root's word LAYOUT has

# In VALUE: nothing was put here. In a claim: the attempt failed. In JOBS: look at all slots.
NOTHING = 2**64 - 1


def address(array: int, index: int) -> int:
    return array << 16 | index


class Page:
    """What this client knows of a page: counts that may have grown since, and slots that have ended, are set aside, or were
    open below HEAD. `finished` may count ENDs that were read, `counted` is the word FINISHED."""

    def __init__(self, id: int) -> None:
        self.id = id
        self.tail = self.head = self.finished = self.counted = 0
        self.ended: Set[int] = set()
        # To where its jobs have moved, by their ENDs.
        self.moved: Set[int] = set()
        self.aside: Set[int] = set()
        self.open: List[int] = []


class Pages(Pattern):
    """The arrays of a work queue: a root, and up to eight pages of slots."""

    def __init__(self, client: Any, name: str, capacity: int, attempts: int) -> None:
        super().__init__(client, name)
        self._capacity = capacity
        self._slots = min(max(-(-capacity // 4), min(capacity, LEAST)), PAGE_WORDS // (3 + attempts))
        self._attempts = attempts
        self._length = FIRST_SLOT + self._slots * (3 + attempts)  # of a page
        self._root = 0
        self._names = [0] * PAGES
        self._pages: Dict[int, Page] = {}

    def _value_at(self, slot: int) -> int:
        return FIRST_SLOT + slot * (3 + self._attempts)

    def _end_at(self, slot: int) -> int:
        return self._value_at(slot) + 1

    def _claim_at(self, slot: int, attempt: int) -> int:
        return self._value_at(slot) + 2 + attempt

    def _source_at(self, slot: int) -> int:
        return self._value_at(slot) + 2 + self._attempts

    def _open(self) -> Steps[None]:
        """Fills the root's last words, or compares them with what other clients gave."""
        if self._root:
            return
        root = yield from shared_array(self._name, ROOT_LENGTH, False)
        given = {CAPACITY: self._capacity, ATTEMPTS: self._attempts, LAYOUT: THIS_LAYOUT}
        asked = [*(fill(root, *each) for each in given.items()), *(look(root, word) for word in given)]
        found, wanted = (yield from batch(asked, NotNow))[len(given) :], [*given.values()]
        if found != wanted:
            raise OtherPattern(f"{self._name} has {found[0]} jobs and {found[1]} attempts, not {wanted[:2]}")
        yield from self._find_pages()
        self._root = root.id

    def _find_pages(self) -> Steps[None]:
        found = yield from batch([requests.find(f"{self._name}_{k}") for k in range(PAGES)], NoArray)
        for array in found:
            if is_full(array) and array.length != self._length:
                raise OtherPattern(f"{array} of {self._name} has {array.length} words, not {self._length}")
        self._names = [array.id if is_full(array) else 0 for array in found]
        self._pages = {id: self._pages.get(id) or Page(id) for id in self._names if id}

    def _begin_page(self, id: int) -> Steps[None]:
        """Fills the first words of a page: whoever makes it, or finds that its maker did not."""
        yield from batch([fill(id, k, 0) for k in range(FIRST_SLOT)], NotNow, NoArray)

    def _by_age(self) -> List[Page]:
        return sorted(self._pages.values(), key=lambda page: page.id)  # (a copy at once: several threads may run steps)

    def _newest(self) -> Optional[Page]:
        return self._pages.get(max(self._pages, default=0))

    def _forget_page(self, page: Page) -> None:
        self._pages.pop(page.id, None)
        self._names = [0 if id == page.id else id for id in self._names]

    def _make_page(self) -> Steps[bool]:
        """Whether there was a free name. Another client may have made a page of it."""
        if 0 not in self._names:
            return False
        k = self._names.index(0)
        (made,) = yield from batch([requests.create(f"{self._name}_{k}", self._length)], NameTaken)
        if is_full(made):
            yield from self._begin_page(made.id)
            self._names[k], self._pages[made.id] = made.id, Page(made.id)
        else:
            yield from self._find_pages()
        return True

    def _count(self, pages: List[Page], *words: int) -> Steps[None]:
        found = yield from batch([look(page.id, k) for page in pages for k in words], NoArray, NotNow)
        for n, page in enumerate(pages):
            counts = dict(zip(words, found[n * len(words) :]))
            if not all(map(is_full, counts.values())):
                yield from self._begin_page(page.id)
                if any(isinstance(count, NoArray) for count in counts.values()):
                    self._forget_page(page)
                continue
            page.tail = max(page.tail, counts.get(TAIL, 0))
            page.head = max(page.head, counts.get(HEAD, 0))
            self._has_counted(page, counts.get(FINISHED, 0))

    @staticmethod
    def _has_counted(page: Page, count: int) -> None:
        page.counted = max(page.counted, count)
        page.finished = max(page.finished, count)

    def _remove(self, page: Page) -> Steps[None]:
        """All its slots have ended. Whoever counted one that moved has confirmed it before."""
        asked: List[Request[Any]] = [self._confirm(each) for each in [*page.moved]] if page.counted < self._slots else []
        yield from batch([*asked, requests.remove(page.id), self._room()], NoArray, NotNow)
        self._forget_page(page)

    @staticmethod
    def _confirm(source: int) -> Request[None]:
        """The job whose word SOURCE has that address counts, whatever becomes of the one from which it comes."""
        return requests.writexf(source >> 16, source & 0xFFFF, 0)

    def _room(self) -> Request[None]:
        """The signal for putters that wait."""
        return made_before(WRITEEF, self._root, ROOM, 0, True)

    def _has_ended(self, page: Page) -> Steps[bool]:
        """Whether all its slots have ended. Reads no more than it must."""
        while page.finished < self._slots:
            slots = [slot for slot in range(self._slots) if slot not in page.ended][:CHUNK]
            if len((yield from self._ends(page, slots))) < len(slots):
                return False
            page.finished = max(page.finished, len(page.ended))
        return True

    def _ends(self, page: Page, slots: List[int]) -> Steps[List[int]]:
        found = yield from batch([look(page.id, self._end_at(slot)) for slot in slots], NotNow, NoArray)
        return self._note_ends(page, slots, found)

    @staticmethod
    def _note_ends(page: Page, slots: List[int], ends: List[Any]) -> List[int]:
        """The slots that have ended, by what their ENDs have, which may be empty."""
        ended = [slot for slot, end in zip(slots, ends) if not isinstance(end, NotNow)]
        # (before they count as ended: another thread may remove the page then)
        page.moved.update([end for end in ends if is_full(end) and end >= LEAST_ADDRESS])
        page.ended.update(ended)
        return ended

    def _end(self, id: int, slot: int, how: int) -> Steps[bool]:
        """Ends a slot, once. Removes its page if this was the last one there."""
        (ended,) = yield from batch([made(WRITEEF, id, self._end_at(slot), how, True)], NoArray, NotNow)
        if not isinstance(ended, NotNow):  # (what another client ended may have moved: only its END says to where)
            self._note_end(id, slot)
        if not is_full(ended):
            return False
        yield from self._finished(id)
        return True

    def _note_end(self, id: int, slot: int) -> None:
        page = self._pages.get(id)
        if page is not None:
            page.ended.add(slot)
            page.open = [each for each in page.open if each != slot]

    def _finished(self, id: int) -> Steps[None]:
        """Counts a slot that this client ended."""
        counts = [made_before(INT_FETCH_ADD, id, FINISHED, 1, True), self._room()]
        (before, _) = yield from batch(counts, NoArray, NotNow)
        if is_full(before):
            page = self._pages.get(id) or Page(id)
            self._has_counted(page, before + 1)
            if before + 1 >= self._slots:
                yield from self._remove(page)

    def _void(self, page: Page, slot: int) -> Steps[Any]:
        """Ends a slot without a value. The value, if there is one after all, or `NOTHING`."""
        at = self._value_at(slot)
        _, value = yield from batch([fill(page.id, at, NOTHING), look(page.id, at)], NoArray, NotNow)
        if is_full(value) and value != NOTHING:
            return value
        yield from self._end(page.id, slot, VOID)
        return NOTHING


class Moves(Pages):
    """What a work queue does to be the next one of a job, which moves once ("A job that moves on")."""

    def _settle(self, page: Page, slot: int, source: Any) -> Steps[bool]:
        """Whether the job of a slot counts, by its word SOURCE. One that a move put there is moved, unless its END is full."""
        if not is_full(source) or source == 0:
            return True
        yield Hand()
        mine, old = address(page.id, self._source_at(slot)), (source >> 16, source & 0xFFFF)
        # (SOURCE is 0 if the old page is gone and this one counted)
        asked = [fill(*old, mine), look(*old), look(page.id, self._source_at(slot))]
        filled, end, now = yield from batch(asked, NotNow, NoArray)
        if end != mine and now != 0:
            yield from self._end(page.id, slot, VOID)
            return False
        asked = [self._confirm(mine)]
        if is_full(filled):
            asked.append(add(old[0], FINISHED, 1))
        yield from batch(asked, NotNow, NoArray)
        return True

    def _move(self, job: Any, value: int, page: Page, slot: int) -> Steps[bool]:
        """Moves a job to a slot whose ticket this client has. False if the slot was voided. `NotOwner` if the job has ended."""
        source: Pages = job._queue
        id, old = job.number >> 16, job.number & 0xFFFF
        mine, end = address(page.id, self._source_at(slot)), source._end_at(old)
        comes = fill(page.id, self._source_at(slot), address(id, end))
        _, put = yield from batch([comes, fill(page.id, self._value_at(slot), value)], NotNow, NoArray)
        if not is_full(put):
            if isinstance(put, NoArray):
                self._forget_page(page)
            return False
        filled, found = yield from batch([fill(id, end, mine), look(id, end)], NotNow, NoArray)
        if found != mine:
            yield from self._end(page.id, slot, VOID)
            raise NotOwner(f"job {job.number} was ended by another attempt")
        yield from self._offer(page, slot, self._confirm(mine))
        source._note_end(id, old)
        if is_full(filled):
            yield from source._finished(id)
        return True

    # The signal of a put.

    _is_told = True

    def _offer(self, page: Page, slot: int, offers: Request[None], key: Optional[bytes] = None) -> Steps[Any]:
        """Makes this request, after which the slot has a job, with the signal for takers. The request's outcome."""
        looks = made_before(READFF, page.id, HEAD, 0, True)
        asked: List[Request[Any]] = [offers, made(WRITEEF, self._root, JOBS, page.id << 16 | slot, True)]
        if not self._is_told:
            asked.append(looks)
        done, told, *head = yield from batch(asked, NotNow, NoArray, key=key)
        if is_full(done):
            self._is_told = is_full(told)
            if not self._is_told:
                (last,) = head or (yield from batch([looks], NotNow, NoArray))
                if is_full(last) and last > slot:  # no ticket finds it
                    yield from self._tell_all()
        return done

    def _tell_all(self) -> Steps[None]:
        yield from batch([requests.writexf(self._root, JOBS, NOTHING)])
