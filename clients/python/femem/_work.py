"""The work queue: jobs that are given to takers until they are done. docs/work-queue.md has its words and its steps."""

from __future__ import annotations

import math
from collections import deque
from contextlib import suppress
from itertools import takewhile
from typing import Any, Deque, Dict, Generic, List, Optional, Sequence, Set, Tuple, Type, TypeVar

from . import requests
from ._arguments import Key
from ._errors import BadName, FememError, NoArray, NotNow, NotOwner, TimedOut, Withdrawn, WordLimit
from ._frames import INT_FETCH_ADD, NOWAIT, READFF, WRITEEF
from ._jobs import Hand, Job, Look, Steps, Ticket, Wait, batch
from ._operations import FIRST_LOOK, LAST_LOOK, Pattern, Tries, done_at, is_full
from ._operations import operation, operation_with, size_of
from .requests import Array, Request, add, fill, look, made, made_before, number_of_bits
from ._workpages import CHUNK, DONE, DROPPED, FINISHED, FIRST_SLOT, HEAD, JOBS, LARGEST, MOST_ATTEMPTS
from ._workpages import NOTHING, PAGES, ROOM, TAIL, Moves, Page

J = TypeVar("J", bound="WorkJob")

EMPTY_FOR = 1.0  # how long a slot whose ticket a taker has may be without a value, in seconds

# When a taker looks for jobs that nobody has: so many seconds later for each request of a look. How many ENDs and how many
# open slots of a page it reads in one look, and after how many seconds it looks for pages again.
LOOK_COST, LOOK_ENDS, LOOK_OPEN, FIND_EVERY = 0.6, 256, 64, 30.0


class WorkJob(Pattern):
    """A job that this client has. `number` names it for ever. `attempt` counts from 1."""

    REQUESTS = {"done": (5, 0), "fail": (3, 0), "move": (80, 4 * PAGES)}

    def __init__(self, queue: WorkQueue[Any], number: int, value: int, attempt: int) -> None:
        self._client = queue._client
        self._queue = queue
        self.number = number
        self.value = value
        self.attempt = attempt
        self.has_ended = False
        self.has_moved = False

    def __repr__(self) -> str:
        return f"<femem job {self.number}, attempt {self.attempt}: {self.value}>"

    @operation_with(gives_back=True, light=True)
    def done(self) -> Steps[None]:
        """The job is done. `NotOwner` if another attempt has ended it, since this client was away."""
        if self.has_moved:
            return
        self.has_ended = True
        try:
            yield from self._queue._end_job(self.number, DONE)
        finally:
            self._queue._let_go(self.number)

    @operation
    def move(self, next: WorkQueue[Any], value: int, timeout: Optional[float] = None) -> Steps[None]:
        """Puts the value into the next queue, and is done, in one step: `next.put(value, timeout, for_job=job)`."""
        return WorkQueue.put.steps(next, value, timeout, for_job=self)

    def _can_mend(self) -> bool:
        return not self.has_moved

    def _mend(self, array: Optional[Array], gives_back: bool, asked: Sequence[Ticket[Any]]) -> Steps[None]:
        """Ends the job, or counts that it has ended: a page whose count was answered may be due to be removed."""
        queue, self.has_ended = self._queue, True
        id, slot = self.number >> 16, self.number & 0xFFFF
        queue._let_go(self.number)
        if queue._end_at(slot) not in done_at(asked, WRITEEF):
            yield from queue._end(id, slot, DONE)
        elif FINISHED not in done_at(asked, INT_FETCH_ADD):
            yield from queue._finished(id)
        else:
            page = queue._pages.get(id) or Page(id)
            yield from queue._count([page], FINISHED)
            if page.finished >= queue._slots:
                yield from queue._remove(page)

    @operation_with(gives_back=True)
    def fail(self) -> Steps[None]:
        """The attempt has failed. The job is given to another taker, or set aside if this was its last attempt."""
        self.has_ended = True
        yield from self._queue._give_up(self.number, self.attempt - 1)

    @operation_with(gives_back=True)
    def _leave(self, is_done: bool) -> Steps[None]:
        """At the end of its `with`: done, or failed, unless that was said before."""
        if not self.has_ended:
            yield from (WorkJob.done if is_done else WorkJob.fail).steps(self)

    def _end_by(self, is_done: bool) -> Job[None]:
        return Job(WorkJob._leave.steps(self, is_done), None, True)


class Loop(Generic[J]):
    """A loop over jobs: takes one after the other from the queue, and ends that of its body."""

    _job: Optional[J] = None  # that of the body

    def __init__(self, queue: Any, timeout: Optional[float]) -> None:
        self._queue = queue
        self._timeout = timeout

    def __del__(self) -> None:
        try:
            self._leave()
        except BaseException:
            self._leave()  # a signal came; twice has the effect of once
            raise

    def _leave(self) -> None:
        """The attempt of a body that was left has failed. The client says so without this thread or task."""
        job = self._job
        if job is not None and not job.has_ended and job._client.failure is None:
            job._client._abandon(job._end_by(False))
        self._job = None


class WorkQueue(Moves, Generic[J]):
    """Jobs of 64 bits, each given to one taker at a time until it is done, by clients in Python and in C.

    A job whose taker is absent for `away_after` seconds, or has failed, is given to another one, up to `attempts` times; then
    it is set aside. What a taker does outside femem may be done twice; `done` tells the second one. A job that an earlier
    process of this session had is given out again at once.
    """

    JOB: Type[J] = WorkJob  # type: ignore[assignment]

    def __init__(self, client: Any, name: str, capacity: int, *, attempts: int = 3, away_after: float = 5.0) -> None:
        """`capacity`, at most 65,532, and `attempts`, at most 16, are the same for all who share it. `name` has 1 to 30 bytes.

        A job takes 3 + `attempts` of the server's 65,536 words until it is done, so with 3 attempts a server has room for some
        10,600 jobs: then `put` raises `WordLimit`.
        """
        if not 1 <= len(name.encode()) <= 30:
            raise BadName(f"{name!r} of a work queue has 1 to 30 bytes")
        if size_of(capacity, "capacity") > LARGEST or size_of(attempts, "attempts") > MOST_ATTEMPTS:
            raise ValueError(f"a work queue has {LARGEST} jobs and {MOST_ATTEMPTS} attempts at most")
        super().__init__(client, name, capacity, attempts)
        self._away_after = float(away_after)
        most = 2 * PAGES + min(capacity, LOOK_ENDS) + LOOK_OPEN * (3 + attempts)
        self.REQUESTS = {"put": (64, 4 * PAGES), "take": (64 + most, 16 + most)}
        self._kept: Deque[Tuple[Page, int]] = deque()  # tickets whose put had no room in time
        self._taking: Optional[Page] = None  # the page from which this client takes
        # When it looks again, and may do so soonest; when pages were looked for, and how many requests this look has made.
        self._look_at, self._soonest, self._found_at, self._cost = -math.inf, -math.inf, -math.inf, 0
        self._is_first = True
        # The sessions that are there, by the report of this look, and when an absent one has been so for long enough.
        self._there: Optional[Set[int]] = None
        self._due = math.inf
        # When a report was read last. Since when each was without these sessions. Since when slots were empty.
        self._seen_at = -math.inf
        self._absent: Dict[int, float] = {}
        self._empty: Dict[int, float] = {}

    @operation_with(light=True)
    def put(
        self, value: int, timeout: Optional[float] = None, *, key: Optional[Key] = None, for_job: Optional[WorkJob] = None
    ) -> Steps[None]:
        """Puts a job, a value below 2^64 - 1. Waits while as many jobs are open as the capacity says: `TimedOut`.

        With a key, which needs a session file, it is put once, however often this is called again.

        With `for_job`, a job that this client has taken from a queue, that job moves on: it is done, and the value is here, in
        one step. So the value is put once for each job, whoever takes the job and however often. `NotOwner`, and nothing is
        put, if another attempt has ended the job. In time or not, a job that does not move stays this client's.
        """
        end, number = self._deadline(timeout), number_of_bits(value, 64, "value")
        if number == NOTHING:
            raise ValueError("a job is below 2^64 - 1")
        if for_job is not None:
            if key is not None:
                raise ValueError("what is put for a job needs no key")
            yield from self._put_for(for_job, number, end)
            return
        with Tries(self._core, key, WRITEEF, number) as tries:
            if (yield from tries.begin()) is not None:
                return
            yield from self._open()
            while True:
                page, slot = yield from self._ticket(end)
                fills = made(WRITEEF, page.id, self._value_at(slot), number, True)
                done = yield from self._offer(page, slot, fills, tries.next())
                if is_full(done):
                    return
                if isinstance(done, NoArray):
                    self._forget_page(page)

    def _put_for(self, job: WorkJob, value: int, end: Optional[float]) -> Steps[None]:
        """Once for each job, also if this process asks again."""
        if job._client is not self._client:
            raise ValueError("the job is another client's")
        if job.has_moved:
            return
        yield from self._open()
        try:
            while not (yield from self._move(job, value, *(yield from self._ticket(end)))):
                pass
            job.has_moved = job.has_ended = True
        except NotOwner:
            job.has_ended = True
            raise
        finally:
            if job.has_ended:
                job._queue._let_go(job.number)

    def _ticket(self, end: Optional[float]) -> Steps[Tuple[Page, int]]:
        """A ticket for which there is room. One whose time is over is kept."""
        kept: Optional[Tuple[Page, int]] = None
        try:
            kept = self._kept.popleft()  # (another thread may have taken the last one just now)
        except IndexError:
            pass
        page, ticket = kept or (yield from self._draw(end))
        try:
            yield from self._wait_for_room(page, ticket, end)
        except FememError:
            self._kept.append((page, ticket))
            raise
        return page, ticket

    def _draw(self, end: Optional[float]) -> Steps[Tuple[Page, int]]:
        while True:
            page = self._newest()
            if page is None or page.tail >= self._slots:
                yield from self._find_room(end)
                continue
            (ticket,) = yield from batch([made_before(INT_FETCH_ADD, page.id, TAIL, 1, True)], NoArray, NotNow)
            if not is_full(ticket):
                yield from self._count([page], TAIL)
                continue
            page.tail = max(page.tail, ticket + 1)
            if ticket < self._slots:
                return page, int(ticket)

    def _find_room(self, end: Optional[float]) -> Steps[None]:
        """Finds a page with tickets, or makes one. Waits while old jobs hold up all of them."""
        pause = FIRST_LOOK
        while True:
            yield from self._find_pages()
            newest = self._newest()
            if newest is not None and newest.tail < self._slots or (yield from self._make_page()):
                return
            yield from batch([requests.purge(self._root, ROOM)])
            if not (yield from self._remove_any()):
                if PAGES * self._slots < self._capacity:
                    raise WordLimit(f"{self._name} has all pages that a server has words for")
                pause = yield from self._await_room(end, pause)

    def _remove_any(self) -> Steps[bool]:
        for page in self._by_age():
            if (yield from self._has_ended(page)):
                yield from self._remove(page)
                return True
        return False

    def _await_room(self, end: Optional[float], pause: float) -> Steps[float]:
        """Waits until a job has ended, for a while. How long the next time."""
        rest = self._left(end)
        if rest == 0.0:
            raise TimedOut(f"put {self._name}")
        try:
            yield Wait(requests.readff(self._root, ROOM), pause if rest is None else min(pause, rest))
        except TimedOut:
            yield from self._remove_any()  # whoever ended its last job may have been killed before it counted that
        return min(2 * pause, LAST_LOOK)

    def _wait_for_room(self, page: Page, ticket: int, end: Optional[float]) -> Steps[None]:
        """Waits until fewer jobs than the capacity are open before this ticket."""
        pause = FIRST_LOOK
        while not (yield from self._is_allowed(page, ticket)):
            yield from batch([requests.purge(self._root, ROOM)])
            if (yield from self._is_allowed(page, ticket)):
                return
            pause = yield from self._await_room(end, pause)

    def _is_allowed(self, page: Page, ticket: int) -> Steps[bool]:
        """By the counts that are known, or that of the oldest page, where most jobs end, or all."""
        for most in (0, 1, PAGES):
            if most:
                yield from self._count([each for each in self._by_age() if each.id <= page.id][:most], FINISHED)
            older = sum(self._slots - each.finished for each in [*self._pages.values()] if each.id < page.id)
            if page.id not in self._pages or ticket < self._capacity + page.finished - older:
                return True  # (without its page it is of no use)
        return False

    @operation_with(undo="_give_up_job", light=True)
    def take(self, timeout: Optional[float] = None) -> Steps[J]:
        """Waits for a job, and takes it: `with queue.take() as job:` is done at the end of the block, or has failed if the
        block raises. `TimedOut` if there is none in time."""
        end = self._deadline(timeout)
        yield from self._open()
        presence = (yield from self._show()).id
        is_last = False
        while True:
            if is_last:
                self._look_at = min(self._look_at, self._soonest)
            job = yield from self._take_now(presence, end)
            if job is not None:
                return job
            if is_last:
                raise TimedOut(f"take {self._name}")
            rest, pause = self._left(end), max(0.0, self._look_at - self._now())
            is_last = rest is not None and rest <= pause
            try:
                signal = yield Wait(requests.readfe(self._root, JOBS), pause if rest is None else min(pause, rest))
            except TimedOut:
                continue
            is_last = self._left(end) == 0.0
            job = yield from self._look_at_signal(int(signal), presence)
            if job is not None:
                return job

    def _take_now(self, presence: int, end: Optional[float]) -> Steps[Optional[J]]:
        """A job that is there, from a look if one is due, or by a ticket."""
        job: Optional[J] = None
        if self._now() >= self._look_at:
            job = yield from self._rescue(presence)
        elif self._taking is None:
            yield from self._find_work(TAIL, HEAD)
        page = self._taking
        while job is None and page is not None:
            job = yield from self._take_from(page, end)
            if self._taking is None and not self._is_last(page):
                yield from self._find_work(TAIL, HEAD)
            page = self._taking
        return job

    def _is_last(self, page: Page) -> bool:
        """Whether no other page has a job that no ticket was drawn for."""
        others = [each for each in self._by_age() if each is not page]
        return page.id in self._pages and page.tail < self._slots and all(each.head >= self._slots for each in others)

    def _find_work(self, *counts: int) -> Steps[None]:
        """Reads these counts of the pages. Takes from the oldest with a job that no ticket was drawn for."""
        pages = self._with_tickets(counts)
        is_known = any(page.head < self._slots for page in pages)
        if is_known and self._now() - self._found_at < FIND_EVERY:
            yield from self._count(pages, *counts)
        newest = self._newest()
        if not is_known or newest is None or newest.tail >= self._slots or self._now() - self._found_at >= FIND_EVERY:
            yield from self._find_pages()
            yield from self._count(self._with_tickets(counts), *counts)
            self._found_at, self._cost = self._now(), self._cost + PAGES
        pages = self._by_age()
        self._cost += 3 * len(pages)
        self._taking = next((page for page in pages if page.head < min(page.tail, self._slots)), None)

    def _with_tickets(self, counts: Sequence[int]) -> List[Page]:
        """The pages that may have tickets for takers, or all where the slots that have ended count."""
        return [page for page in self._by_age() if page.head < self._slots or FINISHED in counts]

    def _take_from(self, page: Page, end: Optional[float]) -> Steps[Optional[J]]:
        """Draws a ticket of the page, and takes its job if it is there."""
        asked = [made_before(INT_FETCH_ADD, page.id, HEAD, 1, True)]
        if page.head >= page.tail:
            asked.append(look(page.id, TAIL))
        ticket, *tail = yield from batch(asked, NoArray)
        self._taking = None
        if not is_full(ticket):
            self._forget_page(page)
            return None
        if not tail and ticket >= page.tail:
            tail = yield from batch([look(page.id, TAIL)], NoArray)
        page.head, page.tail = max(page.head, ticket + 1), max([page.tail, *filter(is_full, tail)])
        if ticket >= min(page.tail, self._slots):
            return None
        self._taking = page
        if ticket in page.ended:  # it was taken by its signal
            return None
        return (yield from self._take_slot(page, int(ticket), end))

    def _take_slot(self, page: Page, slot: int, end: Optional[float]) -> Steps[Optional[J]]:
        """Takes the job of a slot whose ticket this client has."""
        looks = [made(READFF, page.id, word, 0, True) for word in (self._value_at(slot), self._source_at(slot))]
        outcomes = yield from self._claim(page, slot, 0, *looks)
        if outcomes is None:
            return None
        value, source = outcomes
        if isinstance(value, NotNow):
            yield Hand()
            rest = self._left(end)
            pause = FIRST_LOOK if rest is None else min(FIRST_LOOK, rest)
            try:
                value = yield Wait(requests.readff(page.id, self._value_at(slot)), pause)
            except Withdrawn:  # the time is over, or the caller was interrupted: the slot is not left claimed
                value = yield from self._void(page, slot)
            except NoArray:
                value = NOTHING
            (source,) = yield from batch(looks[1:], NotNow, NoArray)
        return (yield from self._given(page, slot, value, 0, source))

    def _claim(self, page: Page, slot: int, attempt: int, *looks: Request[Any]) -> Steps[Optional[List[Any]]]:
        """Claims an attempt of the job, and looks. `None` if another client has it. It is noted before it is sent."""
        number, jobs = page.id << 16 | slot, self._core.holdings.jobs
        claim = made(WRITEEF, page.id, self._claim_at(slot, attempt), self._session, True)  # (a thread knows its note by it)
        is_mine = False
        try:
            if jobs.setdefault(number, claim) is not claim:  # another thread has it
                return None
            done, *found = yield from batch([claim, *looks], NoArray, NotNow)
            is_mine = is_full(done)
        finally:
            if not is_mine and jobs.get(number) is claim:
                self._let_go(number)
        return found if is_mine else None

    def _let_go(self, number: int) -> None:
        self._core.holdings.jobs.pop(number, None)

    def _given(self, page: Page, slot: int, value: Any, attempt: int, source: Any = 0) -> Steps[Optional[J]]:
        """The job of a slot that this client has claimed, if it has a value and counts."""
        number = page.id << 16 | slot
        if is_full(value) and value != NOTHING and (yield from self._settle(page, slot, source)):
            return self.JOB(self, number, int(value), attempt + 1)
        self._let_go(number)
        return None

    def _look_at_signal(self, number: int, presence: int) -> Steps[Optional[J]]:
        if number == NOTHING:
            return (yield from self._rescue(presence))
        id, slot = number >> 16, number & 0xFFFF
        if id not in self._pages:
            yield from self._find_pages()
        page = self._pages.get(id)
        if page is None or slot >= self._slots:
            return None
        words = self._value_at(slot), self._end_at(slot), self._source_at(slot)
        found = yield from self._claim(page, slot, 0, *[look(id, word) for word in words])
        if found is None:
            yield Hand()
            self._there = None
            return (yield from self._take_any_over(page, [slot], presence))
        value, ended, source = found
        return (yield from self._given(page, slot, value if isinstance(ended, NotNow) else NOTHING, 0, source))

    # Jobs that nobody has.

    def _rescue(self, presence: int) -> Steps[Optional[J]]:
        """Looks for one below HEAD: a ticket finds what stands above it."""
        yield Hand()
        self._there, self._cost, self._due = None, 2, math.inf  # (the wait until the next look, and its end)
        if self._absent:
            yield from self._read_who_is_there(presence)  # (it may not come to a job of theirs)
        yield from self._find_work(TAIL, HEAD, FINISHED)
        job: Optional[J] = None
        for page in self._by_age():
            job = yield from self._rescue_page(page, presence)
            if job is not None:
                break
        self._is_first = self._is_first and job is not None
        # When to look again: later the more this look has cost, but in time for a job whose taker may be absent.
        least, after = max(0.01, min(1.0, self._away_after / 4)), self._cost * LOOK_COST
        if any(page.open for page in self._by_age()):
            after = min(after, self._away_after, self._due - self._now())
        else:
            self._absent = {}
        if not self._is_first:
            self._soonest = self._now() + least
            self._look_at = max(self._soonest, self._now() + after)
        return job

    def _rescue_page(self, page: Page, presence: int) -> Steps[Optional[J]]:
        if page.finished >= self._slots:
            yield from self._remove(page)
            return None
        if page.tail < self._slots and page is not self._newest():  # no putter draws the tickets that it has left
            rest = self._slots - page.tail
            (old,) = yield from batch([add(page.id, TAIL, rest)], NoArray)
            if is_full(old):
                page.tail = old + rest
                for slot in range(old, self._slots):
                    yield from self._void(page, slot)
        some, page.open = page.open[:LOOK_OPEN], page.open[LOOK_OPEN:]
        job = yield from self._take_any_over(page, some, presence)
        head = min(page.head, page.tail, self._slots)
        read = 0
        while job is None and len(page.open) < head - page.finished - len(page.aside):
            known = page.ended.union(page.aside, page.open)
            slots = [slot for slot in range(head - 1, -1, -1) if slot not in known][:CHUNK]
            if not slots or read >= LOOK_ENDS and not self._is_first:
                break
            ended = yield from self._ends(page, slots)
            read, self._cost = read + len(slots), self._cost + len(slots)
            job = yield from self._take_any_over(page, [slot for slot in slots if slot not in ended], presence)
        if len(page.ended) >= self._slots:
            yield from self._remove(page)
        return job

    def _take_any_over(self, page: Page, slots: Sequence[int], presence: int) -> Steps[Optional[J]]:
        """Takes the job of one of these slots if nobody has it, and notes which slots are open."""
        job: Optional[J] = None
        for slot, words in (yield from self._read_slots(page, slots)):
            if slot not in page.open:
                page.open.append(slot)
            if job is None:
                job = yield from self._take_over(page, slot, words, presence)
        if job is not None:
            yield from self._tell_all()  # there may be more
        return job

    def _read_slots(self, page: Page, slots: Sequence[int]) -> Steps[List[Tuple[int, List[Any]]]]:
        """Those of these slots that have not ended, with their values, claims and sources."""
        each = 3 + self._attempts
        first = [self._value_at(slot) for slot in slots]
        looks = [look(page.id, word + k) for word in first for k in range(each)]
        found = yield from batch(looks, NoArray, NotNow)
        self._cost += len(looks)
        is_open = []
        for n, slot in enumerate(slots):
            value, end, *claims = found[n * each : (n + 1) * each]
            if isinstance(end, NotNow):
                is_open.append((slot, [value, *claims]))
            else:
                self._note_ends(page, [slot], [end])
        return is_open

    def _take_over(self, page: Page, slot: int, words: Sequence[Any], presence: int) -> Steps[Optional[J]]:
        """Takes the job of an open slot below HEAD if nobody has it."""
        value, number = words[0], page.id << 16 | slot
        if isinstance(value, NotNow) or value == NOTHING:
            now = self._now()
            if value == NOTHING or now - self._empty.setdefault(number, now) >= EMPTY_FOR:
                self._empty.pop(number, None)
                yield from self._void(page, slot)
            return None
        claims = self._claims(words)
        if not (yield from self._settle(page, slot, words[-1])):
            return None
        if len(claims) == self._attempts:
            if claims[-1] == NOTHING:
                page.aside.add(slot)
                page.open = [each for each in page.open if each != slot]
            return None
        if claims and not (yield from self._is_over(number, claims[-1], presence)):
            return None
        found = yield from self._claim(page, slot, len(claims), look(page.id, self._end_at(slot)))
        if found is None:
            return None
        return (yield from self._given(page, slot, value if isinstance(found[0], NotNow) else NOTHING, len(claims)))

    @staticmethod
    def _claims(words: Sequence[Any]) -> List[int]:
        return [int(claim) for claim in takewhile(is_full, words[1:-1])]

    def _is_over(self, number: int, session: int, presence: int) -> Steps[bool]:
        """Whether the attempt of a session may be taken over."""
        if session == NOTHING:
            return True
        if session == self._session:
            return number not in self._core.holdings.jobs
        there = self._there
        if there is None:
            there = yield from self._read_who_is_there(presence)
        if session in there:
            return False
        now = self._now()
        since = self._absent.setdefault(session, now)
        self._due = min(self._due, since + self._away_after)
        return now - since >= self._away_after

    def _read_who_is_there(self, presence: int) -> Steps[Set[int]]:
        """Once in a look. Absent is who is so in each report, if no report came long after the one before."""
        report, self._cost = (yield Look()), self._cost + 1
        there = self._there = {w.session for w in report.waiters if w.array == presence}
        now = self._now()
        is_late = now - self._seen_at > 2 * self._away_after + LAST_LOOK
        self._absent = {} if is_late else {each: since for each, since in [*self._absent.items()] if each not in there}
        self._seen_at = now
        return there

    # What becomes of a job.

    def _end_job(self, number: int, how: int) -> Steps[None]:
        if not (yield from self._end(number >> 16, number & 0xFFFF, how)):
            raise NotOwner(f"job {number} was ended by another attempt")

    def _give_up(self, number: int, attempt: int) -> Steps[None]:
        page, slot = number >> 16, number & 0xFFFF
        gives = requests.writexf(page, self._claim_at(slot, attempt), NOTHING)
        (given,) = yield from batch([gives], NoArray)
        self._let_go(number)
        if not is_full(given):
            raise NotOwner(f"job {number} was ended by another attempt")
        (told,) = yield from batch([fill(self._root, JOBS, number)], NotNow)
        if not is_full(told):
            yield from self._tell_all()

    def _give_up_job(self, job: WorkJob) -> Steps[None]:
        """After a `take` whose caller does not wait any more."""
        return WorkJob.fail.steps(job)

    def _can_mend(self) -> bool:
        return bool(self._root)

    def _mend(self, array: Optional[Array], gives_back: bool, asked: Sequence[Ticket[Any]]) -> Steps[None]:
        """After a `take` was interrupted within its steps: gives up what it has claimed, and tells others of what it has drawn."""
        jobs = self._core.holdings.jobs
        for ticket in asked:
            request = ticket.request
            if request.frame[4] != NOWAIT or request.frame[13] != WRITEEF:
                continue
            id, word = int.from_bytes(request.frame[14:22], "big"), int.from_bytes(request.frame[22:26], "big")
            if word < FIRST_SLOT:
                continue  # the first words of a page
            slot, place = divmod(word - FIRST_SLOT, 3 + self._attempts)
            number = id << 16 | slot
            if ticket.error is not None:
                if jobs.get(number) is request:
                    self._let_go(number)
            # The slot is not left claimed: it is void if it has no value, and otherwise the attempt has failed.
            elif (yield from self._void(self._pages.get(id) or Page(id), slot)) == NOTHING:
                self._let_go(number)
            else:
                with suppress(NotOwner):  # its page is gone
                    yield from self._give_up(number, place - 2)
        if any(ticket.error is None for ticket in asked):
            yield from self._tell_all()

    @operation
    def aside(self) -> Steps[List[Tuple[int, int]]]:
        """The number and value of each job that was set aside. One whose last taker was killed is listed by a look from
        `away_after` to twice that after the first, since its taker may come back."""
        found: List[Tuple[int, int]] = []
        yield from self._open()
        presence = (yield from self._show()).id
        self._there = None
        yield from self._find_pages()
        pages = self._by_age()
        yield from self._count(pages, TAIL)
        for page in pages:
            below = min(page.tail, self._slots)
            for at in range(0, below, CHUNK):
                slots = [slot for slot in range(at, min(below, at + CHUNK)) if slot not in page.ended]
                for slot, words in (yield from self._read_slots(page, slots)):
                    claims, number = self._claims(words), page.id << 16 | slot
                    if len(claims) < self._attempts or not is_full(words[0]) or words[0] == NOTHING:
                        continue
                    if not (yield from self._settle(page, slot, words[-1])):
                        continue
                    if (yield from self._is_over(number, claims[-1], presence)):
                        found.append((number, int(words[0])))
        return found

    @operation
    def drop(self, number: int) -> Steps[None]:
        """Ends a job that is set aside. `NotOwner` if it has ended."""
        yield from self._open()
        yield from self._end_job(number_of_bits(number, 64, "number"), DROPPED)
