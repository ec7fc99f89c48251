"""What is under way: requests, and jobs, which are several requests that make one operation of a pattern.

The steps of a job are those of a generator. It yields what it wants and is sent the result. It runs where the client reads its
replies, not in the thread or task that asked, so that one may be interrupted anywhere and nothing is left half done.
"""

from __future__ import annotations

import heapq
import itertools
from dataclasses import dataclass
from functools import partial
from typing import Any, Callable, ClassVar, Dict, Generator, Generic, List, Optional, Sequence, Set, Tuple, TypeVar, Union

from . import _reports as reports
from ._errors import ANSWER_ERRORS, FememError, ProtocolError, Withdrawn
from ._frames import ARRAY, VALUE, Answer
from .requests import NOTHING, Array, Request, purge, readff

T = TypeVar("T")


def nobody() -> None:
    """Called if no caller waits."""


class Ticket(Generic[T]):
    """Something asked of the server. Once `done`, it has a `result` or an `error`. A caller makes it, the
    core takes it, numbers and sends it, and then it is done. Attributes that most tickets never set are in
    the class, since there is a ticket for each request."""

    number: Optional[int] = None
    sent_at = 0.0
    asked_at = 0.0  # when it was asked, if events are wanted
    # Whether the core has it.
    taken = False
    done = False
    result: Optional[T] = None
    error: Optional[BaseException] = None
    # The error that it ends with when it is taken back, once that is asked for.
    taken_back: Optional[Withdrawn] = None
    cancel_sent = False  # whether a cancel of it was sent over this connection
    is_presence = False  # whether it only shows that this client is there: no caller waits for it
    # Whether the next process with the session file takes it back instead of waiting on.
    ends_with_process = False
    # The key under which the session file keeps its answer, and tickets asked under that key meanwhile.
    key: Optional[bytes] = None
    followers: Optional[List[Ticket[T]]] = None
    is_recovered = False  # whether a former process with the session file asked it
    has_moved = False  # whether it was taken back to make room, and is to be sent again
    # Whether it is first asked without waiting. If it would wait, another session asks it again.
    asks_first = False

    finished: Callable[[], None] = staticmethod(nobody)  # called once it is done

    def __init__(self, request: Request[T] = NOTHING) -> None:
        self.request = request

    def must_end(self) -> bool:
        """Whether the server must end it, whatever other clients do."""
        return self.cancel_sent or self.asks_first or not self.request.may_wait

    def is_left_by_all(self) -> bool:
        """Whether no call that was made under its key waits for it."""
        return all(follower.done or follower.taken_back is not None for follower in self.followers or ())

    def end(self, result: Optional[T] = None, error: Optional[BaseException] = None) -> None:
        self.result = result
        self.error = error
        self.done = True

    def end_by(self, answer: Answer) -> None:
        """Ends it by its answer. `ProtocolError` is raised too, if that can't be the answer to its request."""
        request, code = self.request, answer.code
        if code == request.gives and code != ARRAY:
            self.result = answer.value if code == VALUE else None  # type: ignore[assignment]
        elif code in ANSWER_ERRORS:
            self.error = ANSWER_ERRORS[code](request)
        else:
            try:
                self.result = request.read(answer)
            except ProtocolError as error:
                self.end(error=error)
                raise
        self.done = True


def result_of(ticket: Ticket[T]) -> T:
    """The result of a ticket that is done. Raises its error."""
    error = ticket.error
    if error is None:
        return ticket.result  # type: ignore[return-value]
    try:
        raise error
    finally:
        del ticket, error  # the error's traceback would hold it


def outcomes_of(tickets: Sequence[Ticket[Any]]) -> List[Any]:
    return [ticket.result if ticket.error is None else ticket.error for ticket in tickets]


class Last:
    """Called as a ticket is done. It goes on to the next one that is not, and calls `done` behind the last one."""

    def __init__(self, tickets: Sequence[Ticket[Any]], done: Callable[[], None]) -> None:
        """Before the tickets are asked. There is at least one."""
        self._left = iter(tickets)
        self._done = done
        next(self._left).finished = self

    def __call__(self) -> None:
        for ticket in self._left:
            if not ticket.done:
                ticket.finished = self
                return
        self._done()


class Timeouts:
    """Tickets by the time at which they are to be taken back."""

    _FEW = 1024  # from how many on those that are done are dropped

    def __init__(self) -> None:
        self._heap: List[Tuple[float, int, Ticket[Any]]] = []
        self._order = itertools.count()
        self._many = self._FEW

    def add(self, time: float, ticket: Ticket[Any]) -> None:
        heapq.heappush(self._heap, (time, next(self._order), ticket))
        if len(self._heap) > self._many:
            self._heap = [entry for entry in self._heap if not entry[2].done]
            heapq.heapify(self._heap)
            self._many = max(self._FEW, 2 * len(self._heap))

    def first(self) -> Optional[float]:
        while self._heap and self._heap[0][2].done:
            heapq.heappop(self._heap)
        return self._heap[0][0] if self._heap else None

    def take(self, now: float) -> Optional[Ticket[Any]]:
        first = self.first()
        return heapq.heappop(self._heap)[2] if first is not None and first <= now else None


class Wait:
    """A request that may wait, for `seconds` at most. Its result is sent to the generator, or its error
    raised there. After a restart, the next process with the same session file takes it back. With a key, the
    file keeps its answer."""

    def __init__(self, request: Request[Any], seconds: Optional[float] = None, key: Optional[bytes] = None) -> None:
        self.requests = (request,)
        self.seconds = seconds
        self.key = key


@dataclass
class Batch:
    """Requests that are sent together, in this order. The outcome is a list of results and errors. None of
    them may wait. The key is that of the first one."""

    requests: Sequence[Request[Any]]
    key: Optional[bytes] = None
    seconds: ClassVar[Optional[float]] = None


@dataclass
class First:
    """Requests that may wait. Once one is answered, or after `seconds`, the others are taken back. The
    outcome is a list as of a batch. Several of them may have happened. The key is that of the first one."""

    requests: Sequence[Request[Any]]
    seconds: Optional[float] = None
    key: Optional[bytes] = None


@dataclass
class Pause:
    """Does nothing for that many seconds."""

    seconds: float


class Look:
    """The outcome is a report of what waits."""


class Hand:
    """Does nothing. A caller that runs the steps by itself hands them over here: what follows is not mended."""

    requests: ClassVar[Sequence[Request[Any]]] = ()


@dataclass
class Present:
    """Keeps a request waiting at word 0 of the array from now on, so that reports show this client."""

    array: Array


Step = Union[Wait, Batch, First, Pause, Look, Hand, Present]
Steps = Generator[Step, Any, T]


class Mended(Generator[Step, Any, T]):
    """Steps that name what mends them, in place of their pattern's `_mend`: it knows what they have changed in their process."""

    def __init__(self, steps: Steps[T], mend: Callable[[List[Ticket[Any]]], Steps[Any]]) -> None:
        self.mend = mend
        self._steps = steps

    def send(self, outcome: Any) -> Step:
        return self._steps.send(outcome)

    def throw(self, error: Any, *more: Any) -> Step:
        return self._steps.throw(error, *more)


def batch(asked: Sequence[Request[Any]], *allowed: type, key: Optional[bytes] = None) -> Steps[List[Any]]:
    """Sends them together. Raises errors that are not allowed."""
    outcomes: List[Any] = (yield Batch(asked, key)) if asked else []
    for outcome in outcomes:
        if isinstance(outcome, BaseException) and not isinstance(outcome, allowed):
            raise outcome
    return outcomes


def first_of(asked: Sequence[Request[Any]], seconds: Optional[float]) -> Steps[Dict[int, Any]]:
    """Waits until one of them has happened, and takes the others back. The answers by their places among
    them. `TimedOut` if none happens in time. If all end with errors, the first one's is raised."""
    outcomes: List[Any] = (yield First(asked, seconds)) if asked else []
    found = {k: outcome for k, outcome in enumerate(outcomes) if not isinstance(outcome, BaseException)}
    failed = [outcome for outcome in outcomes if isinstance(outcome, BaseException)]
    if not found and failed:
        raise next((error for error in failed if not isinstance(error, Withdrawn)), failed[0])
    return found


class Job(Ticket[T]):
    """An operation of several steps."""

    asked: Sequence[Ticket[Any]] = ()  # the tickets of the current step
    # The step that its caller has begun by itself, with its tickets, and when that is over.
    begun: Optional[Step] = None
    until: Optional[float] = None
    # Whether its caller may run it by itself, and does. What that has asked, if it can be mended: if it is interrupted within
    # the steps, `mend` makes steps from this that undo what these requests did, or that end what was to be given back.
    is_light = False
    is_here = False
    log: List[Ticket[Any]]
    mend: Optional[Callable[[List[Ticket[Any]]], Steps[Any]]] = None
    is_interrupted = False
    # Whether its caller no longer waits; `undo` then makes steps that undo what was done, if that is anything: a true result.
    is_abandoned = False

    def __init__(self, steps: Steps[T], undo: Optional[Callable[[T], Steps[Any]]] = None, gives_back: bool = False) -> None:
        self.request = NOTHING
        self.steps = steps
        # Whether it gives something back: then it is done even for a task that is to be cancelled.
        self.gives_back = gives_back
        self.undo = undo


class JobRunner:
    """The part of a core that runs jobs: it asks what a step wants, and goes on once that is done. The rest
    of the core has these:"""

    failure: Optional[FememError]
    clock: Callable[[], float]
    is_urgent: bool
    take: Callable[[Sequence[Ticket[Any]], Optional[float], float], None]
    report: Callable[[float, Ticket[reports.Report]], object]
    withdraw: Callable[[Ticket[Any], float], None]
    withdraw_all: Callable[[Sequence[Ticket[Any]], float], None]
    _check: Callable[[], None]
    _admit: Callable[[Sequence[Ticket[Any]], float], Sequence[Ticket[Any]]]
    _failure_again: Callable[[], FememError]
    _end: Callable[..., None]

    def __init__(self) -> None:
        self._presence: Optional[Ticket[int]] = None
        self._pauses: Set[Ticket[None]] = set()
        self._timeouts = Timeouts()

    def start(self, job: Job[Any], now: float) -> None:
        """Runs the job. Its caller may have begun a step."""
        step, job.begun = job.begun, None
        if self._admit((job,), now):
            self._advance(job, lambda: next(job.steps) if step is None else step)

    def abandon(self, job: Job[Any], now: float) -> None:
        """No caller waits for the job any more: takes it back if it waits, and undoes it if it is done. One
        that gives something back is done in any case."""
        if job.is_here and not job.taken and job.mend is not None and not (job.done and job.error is None):
            self._mend(job, job.mend)
            return
        if job.gives_back:
            self.start(job, now)
            return
        job.is_abandoned = True
        if job.done:
            self._undo(job, now)
        else:
            self.interrupt(job, now)

    def interrupt(self, job: Job[Any], now: float) -> None:
        """Takes back what the job waits for. It ends with `Withdrawn`, or is done if everything had happened."""
        if not job.taken:
            job.taken = True
            self._end(job, error=Withdrawn("it was not begun"))
        job.is_interrupted = True
        for ticket in list(job.asked):
            if ticket in self._pauses:
                self._pauses.discard(ticket)
                self._end(ticket, error=Withdrawn("interrupted"))
            elif ticket.request.may_wait:
                self.withdraw(ticket, now)

    def _mend(self, job: Job[Any], mend: Callable[[List[Ticket[Any]]], Steps[Any]]) -> None:
        """Its caller was interrupted within its steps. Their requests say what they did, once all are answered or taken back."""
        job.taken = True
        job.steps.close()
        left = [ticket for ticket in job.log if not ticket.done]
        if left:
            Last(left, lambda: self.start(Job(mend(job.log)), self.clock()))
            self.withdraw_all([ticket for ticket in left if not ticket.taken or not ticket.must_end()], self.clock())
        else:
            self.start(Job(mend(job.log)), self.clock())

    def is_present(self) -> bool:
        return self._presence is not None and not self._presence.done

    def _undo(self, job: Job[Any], now: float) -> None:
        undo, job.undo = job.undo, None
        if undo is not None and job.result:
            self.start(Job(undo(job.result)), now)

    def _advance(self, job: Job[Any], go_on: Callable[[], Step]) -> None:
        while True:
            try:
                step = go_on()
            except StopIteration as end:
                self._end(job, end.value)
            except Exception as error:
                self._end(job, error=error)
            else:
                try:
                    self._ask(job, step)
                except FememError as error:
                    go_on = partial(job.steps.throw, error)
                    continue
                return
            if job.is_abandoned:
                self._undo(job, self.clock())
            return

    def _ask(self, job: Job[Any], step: Step) -> None:
        now = self.clock()
        self._check()
        may_wait = isinstance(step, (Wait, First))
        if job.is_interrupted and (may_wait or isinstance(step, Pause)):
            raise Withdrawn("interrupted")
        if isinstance(step, (Batch, Wait, First)):
            # (the tickets of a step that the caller has begun are there)
            tickets = list(job.asked) or [Ticket(request) for request in step.requests]
            if may_wait:
                for ticket in tickets:
                    ticket.ends_with_process = True
            if step.key is not None:
                tickets[0].key = step.key
            seconds = step.seconds if job.until is None else max(0.0, job.until - now)  # if its caller has begun the step
            job.until = None
            self._await(job, step, tickets)
            self.take(tickets, seconds, now)
            return
        only: Ticket[Any] = Ticket()
        self._await(job, step, [only])
        if isinstance(step, Look):
            self.report(now, only)
        elif isinstance(step, Pause):
            self.is_urgent = True
            self._pauses.add(only)
            self._timeouts.add(now + step.seconds, only)
        else:
            if isinstance(step, Present) and not self.is_present():
                self._show(step.array, now)
            self._end(only)

    def _await(self, job: Job[Any], step: Step, tickets: List[Ticket[Any]]) -> None:
        """Goes on with the job once its tickets are done."""
        job.asked = tickets
        left = sum(not ticket.done for ticket in tickets)

        def finished() -> None:
            nonlocal left
            left -= 1
            if left and isinstance(step, First):
                waiting = [ticket for ticket in tickets if not ticket.done and ticket.taken_back is None]
                self.withdraw_all(waiting, self.clock())
            elif not left:
                self._answer(job, step, tickets)

        for ticket in tickets:
            ticket.finished = finished
        if not left:
            last: Ticket[Any] = Ticket()
            last.finished = partial(self._answer, job, step, tickets)
            self._end(last)

    def _answer(self, job: Job[Any], step: Step, tickets: List[Ticket[Any]]) -> None:
        job.asked = ()
        for ticket in tickets:
            ticket.finished = nobody  # nothing holds itself
        outcome, error = tickets[0].result, tickets[0].error
        if isinstance(step, (Batch, First)):
            outcome, error = outcomes_of(tickets), None if self.failure is None else self._failure_again()
        self._advance(job, partial(job.steps.send, outcome) if error is None else partial(job.steps.throw, error))

    def _show(self, array: Array, now: float) -> None:
        """Makes a request wait there. Whoever fills the word ends it: then it is emptied, and another one waits."""
        shown = self._presence = Ticket(readff(array, 0))
        shown.is_presence = True
        shown.ends_with_process = True
        shown.finished = partial(self._is_gone, array)
        self.take((Ticket(purge(array, 0)), shown), None, now)

    def _is_gone(self, array: Array) -> None:
        shown = self._presence
        if shown is not None and shown.done:
            shown.finished = nobody  # nothing holds itself
            if shown.error is None and self.failure is None:
                self._show(array, self.clock())
