"""The client without sockets and clocks: what to send, what a reply means, and when to do something unasked.

`Core` is told what happened (connected, bytes came, the connection broke, the time), and says what to send, when it wants
to be called again, and which requests ended. Both clients, for threads and for asyncio, are thin shells around it. It
relies on the server's rules in docs/formats.md, "What a client has to know".
"""

from __future__ import annotations

import time
from collections import deque
from typing import Any, Callable, Deque, Dict, List, Optional, Sequence, Tuple

from . import _errors as errors, _frames as frames, _reports as reports
from ._arguments import Choice
from ._attachment import ATTACHING, DOWN, ENDED, READY, Attachment, unexpected
from ._errors import ProtocolError
from .events import Events, log
from ._frames import Answer
from ._holdings import Holdings
from ._jobs import Job, JobRunner, T, Ticket
from ._outbox import PATIENCE, Outbox
from .requests import NOTHING
from ._window import Used


class Core(JobRunner, Attachment):
    """One session's requests, over any number of connections. Times are in seconds, of one clock."""

    def __init__(self, choice: Choice, clock: Callable[[], float] = time.monotonic) -> None:
        file = choice.file
        events = None if choice.on_event is None else Events(choice.on_event, choice.session)
        self.ended: List[Ticket[Any]] = []  # what has ended since `take_ended`
        # The requests that have to wait, for `take_moved`.
        self.moved: List[Ticket[Any]] = []
        self.moves_waits = choice.sessions > 1  # whether requests that wait are made over further sessions
        outbox = Outbox(bytearray(), self.ended, file, self.moved if self.moves_waits else None, events)
        outbox.may_grow = choice.is_temporary and not self.moves_waits
        # What a former process with the same session file had no answer for.
        self.recovered: List[Ticket[Any]] = outbox.resume(file) if file is not None and file.state.floor else []
        JobRunner.__init__(self)
        Attachment.__init__(self, choice, outbox, events)
        self.file = file
        self.clock = clock
        # Once the client has failed: whether the server had ended the session, and whether requests could be sent.
        self.has_left = False
        self.was_ready = False
        self.holdings = Holdings()  # what this client's patterns hold and do
        # The requests made over another session, and how that takes each back.
        self._elsewhere: Dict[Ticket[Any], Callable[[errors.Withdrawn], object]] = {}
        self._reports: Deque[Ticket[reports.Report]] = deque()
        self._leave_by: Optional[float] = None
        # Whether nothing is known to be open: nothing was after the last reply, and nothing was asked since.
        self.is_idle = False

    # What callers ask.

    def open(self, now: float) -> Ticket[None]:
        """A ticket that is done once the session is attached for the first time."""
        self._opening = Ticket()
        self._admit((self._opening,), now)
        self._asked_at = now
        return self._opening

    def begin_anew(self) -> None:
        """Before it is opened: takes the file's new session, which has no requests yet."""
        assert self.file is not None
        self.session = self.file.state.session
        self._outbox = Outbox(self.to_send, self.ended, self.file, None, self.events)
        self.recovered = []
        self._was_away = False

    def take(self, tickets: Sequence[Ticket[Any]], timeout: Optional[float], now: float) -> None:
        """Sends them as soon as the window has room. They are taken back once `timeout` seconds are over. If
        nothing can be asked any more, they end with the error."""
        admitted = self._admit(tickets, now)
        if timeout is not None:
            self.is_urgent = True
            for ticket in tickets:
                if not ticket.done:
                    self._timeouts.add(now + timeout, ticket)
        self._outbox.add(admitted)
        self._pump(now)

    # Numbers that callers use themselves.

    def lends(self) -> Tuple[int, int, int, Optional[Ticket[int]]]:
        """The numbers that may be lent: from the first to before the second. None while the server owes an
        answer. The third is the floor, if callers may raise it too, and otherwise 0. The last one is what
        shows that this client is there, if it waits: then they move it."""
        window, shown = self._outbox.window, self._presence
        if window is None or self.file is not None or self.phase is not READY or self._leaving is not None:
            return 0, 0, 0, None
        if not self.is_idle and (self._reports or not self._outbox.only_waits()):
            return 0, 0, 0, None
        count, floor = window.to_lend(None if shown is None or shown.cancel_sent else shown)
        first = window.next
        return first, first + count, floor, shown if window.unanswered else None

    def takes_back(self, used: Used[Ticket[Any]], floor: int, left: int, now: float) -> None:
        """Notes what lent numbers were used for, and how far the floor was raised, unless that is 0. The last
        ticket may have no answer yet; then it is asked here. So is the reply to the cancel of `left`, unless
        that is 0."""
        window = self._outbox.window
        assert window is not None
        tickets = [ticket if ticket is not None and not ticket.done else None for ticket in used]
        is_used = window.next < used.first + len(tickets)
        window.lent(used, tickets, floor)
        self._outbox.note_lent(left, now)
        for number, ticket in window.unanswered.items():
            if ticket.number is None:
                ticket.taken = True
                ticket.sent_at = now
                ticket.asked_at = 0.0 if self.events is None else self.events.now()
                self._asked_at = now
                self.is_idle = False
            ticket.has_moved = ticket.has_moved or ticket.number not in (None, number)
            ticket.number = number
        if is_used:
            self._heard(now)

    def take_on(self, ticket: Ticket[Any], until: Optional[float], finished: Callable[[], None], now: float) -> None:
        """As `take`, until a time, for a ticket that may have been taken back from a caller, and may be done."""
        if ticket.done:
            finished()
            return
        ticket.finished = finished
        self.take((ticket,), None if until is None else max(0.0, until - now), now)

    def report(self, now: float, ticket: Ticket[reports.Report]) -> None:
        if self._admit((ticket,), now):
            self._reports.append(ticket)
            self._pump(now)

    def leave(self, now: float, ticket: Optional[Ticket[None]] = None, at_any_rate: bool = False) -> Ticket[None]:
        """Ends the session. `StillWaiting` if something has no answer yet, unless `at_any_rate`."""
        asked: Ticket[None] = ticket or Ticket()
        if self.failure is None and self.is_busy() and not at_any_rate:
            self._end(asked, error=errors.StillWaiting("a request of this client has no answer yet"))
        elif self._admit((asked,), now):
            self._leaving = asked
            if self.file is not None:
                self.file.ending()
            self._pump(now)
        return asked

    def depart(self, now: float, seconds: float) -> None:
        """Ends the session, whatever waits, and the client with it: after `seconds` even if the session is not ended."""
        if self.failure is None:
            self._leave_by = now + seconds
            self.is_urgent = True
            if self._leaving is None:
                self.leave(now, at_any_rate=True)

    def close_file(self) -> None:
        """At the end of the client: closes the file, or removes it if the session was ended."""
        if self.file is not None:
            if self._leaving is not None and self._leaving.done and self._leaving.error is None:
                self.file.remove()
            else:
                self.file.close()

    def keys(self) -> List[bytes]:
        """The keys that have an answer, and those whose request has none yet."""
        assert self.file is not None
        return [*self.file.keys(), *list(self._outbox.keys)]

    def is_open(self, key: bytes) -> bool:
        return key in self._outbox.keys

    def withdraw(self, ticket: Ticket[Any], now: float, why: Optional[errors.Withdrawn] = None) -> None:
        """Takes a request back, if it waits. It ends with `why`, or with its answer if it has happened."""
        if ticket.done or ticket.request is NOTHING:
            return
        ticket.taken_back = why or errors.Withdrawn(ticket.request.what)
        if not ticket.taken:
            ticket.taken = True
            self._end(ticket, error=ticket.taken_back)  # its caller was interrupted before it got here
            return
        if ticket in self._elsewhere:
            self._elsewhere[ticket](ticket.taken_back)
        else:
            self._outbox.withdraw(ticket, now, self.phase is READY)
            self._pump(now)

    def withdraw_all(self, tickets: Sequence[Ticket[Any]], now: float) -> None:
        """Takes these back. Some of them may not have been asked yet."""
        for ticket in tickets:
            if isinstance(ticket, Job):
                self.abandon(ticket, now)
            else:
                self.withdraw(ticket, now)

    def close(self) -> None:
        self.fail(errors.Closed("the client is closed"))

    def fail(self, failure: errors.FememError) -> None:
        if self.failure is not None:
            return
        self.failure = failure
        if not isinstance(failure, errors.Closed):
            if self.events is not None:
                self.events.emit("failed", 0.0)
            log.error("session %d: %s: %s", self.session, type(failure).__name__, failure)
        self.was_ready = self.phase is READY
        self.phase = ENDED
        self._start_over()
        tickets: List[Ticket[Any]] = [*self._outbox.take_all(), *self._reports]
        tickets += [ticket for ticket in (self._leaving, self._opening) if ticket is not None]
        tickets += [*self._pauses, *self._elsewhere]
        self._elsewhere.clear()
        self._reports.clear()
        self._pauses.clear()
        for ticket in tickets:
            if not ticket.done:
                self._end(ticket, error=self._failure_again())

    def take_ended(self) -> List[Ticket[Any]]:
        """The tickets that ended since the last call. The caller must call `finished` of each."""
        ended = self.ended[:]
        del self.ended[: len(ended)]
        return ended

    # Requests that wait, if the client has further sessions.

    def take_moved(self) -> List[Ticket[Any]]:
        """The requests that have to wait. The caller makes them over another session, and notes that by `moved_to`."""
        moved = [ticket for ticket in self.moved if not ticket.done]
        self.moved.clear()
        return moved

    def wants_session(self) -> bool:
        """Whether its client, which has no further session yet, is to open one for requests that wait."""
        return self._outbox.is_crowded

    def move_waits(self, moves: bool, now: float) -> None:
        """Whether requests that wait are made over a further session from now on. The session is attached now."""
        self.moves_waits = moves
        self._outbox.move_waits(self.moved if moves else None, now)

    def comes_back(self, ticket: Ticket[Any], asked: Optional[Ticket[Any]], now: float) -> None:
        """Ends the ticket like `asked`, the one made over the other session. `None`: it was not made there after all."""
        if self._elsewhere.pop(ticket, None) is None:
            return
        if asked is not None:
            self._end(ticket, asked.result, asked.error)
        elif ticket.taken_back is not None:
            self._end(ticket, error=ticket.taken_back)
        else:
            ticket.asks_first = False
            self._outbox.add((ticket,))
            self._pump(now)

    def moved_to(self, ticket: Ticket[Any], take_back: Callable[[errors.Withdrawn], object]) -> None:
        """Notes that another session makes the request, and how that takes it back."""
        self._elsewhere[ticket] = take_back

    # Events of the connection.

    def received(self, piece: bytes, now: float) -> None:
        if self.phase is DOWN or self.phase is ENDED:
            return
        try:
            replies = self.decoder.feed(piece)
        except ProtocolError as failure:
            self.fail(failure)
        else:
            self.replied(replies, now)

    def replied(self, replies: Sequence[frames.Reply], now: float) -> None:
        """Takes these replies. They may have been read by a caller."""
        if self.phase is DOWN or self.phase is ENDED:
            return
        try:
            at, is_heard = 0, False
            while at < len(replies):
                reply = replies[at]
                if type(reply) is Answer and self.phase is READY:
                    at, ends = self._outbox.answered_all(replies, at)
                    is_heard = ends or is_heard
                else:
                    self._take(reply, now)
                    if self.failure is not None:
                        return
                    at += 1
            if is_heard:
                self._heard(now)
        except errors.FememError as failure:
            self.fail(failure)
        else:
            self._pump(now)
            self.is_idle = not self.is_busy()

    # Events of the clock.

    def next_time(self) -> Optional[float]:
        """When `tick` has something to do, if nothing happens before."""
        if self.phase is ENDED:
            return None
        times = [self._timeouts.first(), self._attach_at, self._probe_at(), self._leave_by]
        if self.is_busy():
            times.append(self._give_up_at())
        if self.phase is READY:
            times += [ticket.sent_at + PATIENCE for ticket in self._outbox.in_the_way()]
        return min((time for time in times if time is not None), default=None)

    def tick(self, now: float) -> None:
        if self.phase is ENDED:
            return
        while True:
            ticket = self._timeouts.take(now)
            if ticket is None:
                break
            if ticket.request is NOTHING:
                self._pauses.discard(ticket)
                self._end(ticket)
            else:
                self.withdraw(ticket, now, errors.TimedOut(ticket.request.what))
        if self._leave_by is not None and self._leave_by <= now:
            self.fail(errors.Closed("the client is closed, and its session was not ended in time"))
            return
        if self.is_busy() and self._give_up_at() <= now:
            self._give_up()
            return
        if self._attach_at is not None and self._attach_at <= now:
            self._attach(now)
        probe_at = self._probe_at()
        if probe_at is not None and probe_at <= now:
            self._send_probe(now)
        self._pump(now)

    def is_busy(self) -> bool:
        """Whether something is asked and not done."""
        if self._outbox.is_busy() or self._elsewhere or self._reports:
            return True
        opening, leaving = self._opening, self._leaving
        return opening is not None and not opening.done or leaving is not None and not leaving.done

    def _check(self) -> None:
        """Raises the reason if nothing can be asked any more."""
        if self.failure is not None or self._leaving is not None:
            raise self._failure_again()

    def _admit(self, tickets: Sequence[Ticket[Any]], now: float) -> Sequence[Ticket[Any]]:
        """The tickets that may be asked. The others end here, or have ended before."""
        admitted = [ticket for ticket in tickets if not ticket.taken and not ticket.done]
        for ticket in admitted:
            ticket.taken = True
        if self.failure is not None or self._leaving is not None:
            for ticket in admitted:
                self._end(ticket, error=self._failure_again())
            return ()
        if self.is_idle or not self.is_busy():
            self._asked_at = now
        self.is_idle = False
        return admitted

    def _failure_again(self) -> errors.FememError:
        """A new error for each ticket, since an error that two threads raise gets the traces of both."""
        failure = self.failure or errors.Closed("the session is being ended")
        return type(failure)(*failure.args)

    def _end(self, ticket: Ticket[T], result: Optional[T] = None, error: Optional[BaseException] = None) -> None:
        ticket.end(result, error)
        self.ended.append(ticket)

    def _pump(self, now: float) -> None:
        if self.phase is not READY:
            return
        if self._leaving is not None:
            if self._bye_sent is None:
                self._bye_sent = now
                self.to_send += frames.bye()
            return
        self._outbox.send(now)
        if self._reports and self._report_sent is None:
            self._report_sent = now
            self.to_send += frames.report()

    def _take(self, reply: frames.Reply, now: float) -> None:
        if isinstance(reply, frames.Welcome):
            if reply.session != self.session:
                raise ProtocolError(f"a welcome to session {reply.session}")
            self._is_closing = False
        if isinstance(reply, frames.Refusal):
            self._take_refusal(reply, now)
        elif self._outbox.window is None:
            self._take_stranger(reply, now)
        elif self.phase is ATTACHING and isinstance(reply, (frames.Answer, frames.Settled)):
            # It may be for a client that had the session in between, as the welcome will show. Otherwise it comes again.
            pass
        elif isinstance(reply, frames.Answer):
            if self._outbox.answered(reply):
                self._heard(now)
        elif isinstance(reply, frames.Settled):
            if self._was_away and reply.floor > self._outbox.window.asked:
                raise errors.TakenOver(f"another client had session {self.session} in between")
            self._outbox.has_floor(reply.floor)
        elif isinstance(reply, frames.Welcome):
            self._take_welcome(reply.floor, now)
        elif isinstance(reply, frames.Withdrawn):
            self._outbox.withdrawn(reply.number)
            self._heard(now)
        elif isinstance(reply, frames.Report):
            if self._report_sent is None:
                raise ProtocolError("a report that nobody asked for")
            report = reports.parse(reply.text)
            self._report_sent = None
            self._end(self._reports.popleft(), result=report)
        elif self._bye_sent is None or reply.session != self.session:
            raise ProtocolError("a goodbye that nobody asked for")
        else:
            self._has_left()

    def _has_left(self) -> None:
        assert self._leaving is not None
        self.has_left = True
        self._end(self._leaving)
        self.fail(errors.Closed("the session is ended"))

    def _take_other_refusal(self, refusal: frames.Refusal) -> None:
        """The refusal of a report or a bye, with number 0."""
        if refusal == frames.Refusal(0, frames.NO_MEMORY) and self._report_sent is not None:
            self._report_sent = None
            self._end(self._reports.popleft(), error=errors.NoMemory("report"))
        elif refusal == frames.Refusal(0, frames.SPENT) and self._bye_sent is not None:
            raise errors.Spent("bye")
        else:
            raise unexpected(refusal)
