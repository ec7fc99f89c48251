"""A call without the client's thread: numbers that the thread lends to callers while it has nothing to do.

The holder of a lease, one caller at a time, sends its request under the next number and reads the answer itself, by the
decoder that the core reads with. It does not touch the core. A signal may interrupt it anywhere: its ticket is in `tickets`
from before its frame is sent, and done once its answer was read. Tickets that are not done when the thread takes the lease
back become the core's, sent perhaps. What was sent or read of them may be unknown; then the connection is given up, and they
are sent again over the next one. The server carries a number out once. A holder that is held up loses its connection before
its numbers are given away, so what it sends later is sent to nobody. A holder whose request waits listens for the thread too,
and leaves when that wants its numbers.

What shows that this client is there waits all the time, and the floor can't rise above it. So who raises the floor asks it
again under the next number, and takes it back under its former one.
"""

from __future__ import annotations

import select
import socket
import time
from typing import Any, List, Optional, Sequence

from ._errors import ProtocolError
from ._frames import ANSWER_BYTES, NOT_NOW, NOT_WAITING, NOWAIT, READFE, WINDOW, WRITEEF, Answer, Refusal
from ._frames import Reply, ReplyDecoder, Settled, Withdrawn, append_under, cancel, pack_number, settle
from ._jobs import Ticket
from ._window import LONGEST_STEP, Used

# How long a caller waits for its answer, in seconds. After that the thread waits for it.
READ_TIME = 0.2

# Operations whose word often is not as they need it: they wait at once. The others are first asked without waiting, which
# costs one system call less if they need not wait.
_OFTEN_WAIT = (READFE, WRITEEF)

_READ_BYTES = 4096

MOST_AT_ONCE = WINDOW // 2  # how many requests a holder may send together behind a floor that it asks for


class Lease:
    """Numbers from `first` on, before `end`. What the thread sends to `bell` ends a holder's wait. Without
    one no request waits: it is asked without waiting."""

    def __init__(
        self, connection: socket.socket, decoder: ReplyDecoder, first: int, end: int,
        bell: Optional[socket.socket] = None, floor: int = 0, shown: Optional[Ticket[Any]] = None,
    ) -> None:
        """`shown`: what shows that this client is there, if it waits."""
        self.connection = connection
        self.decoder = decoder
        # The floor that stands. 0: holders may not raise it.
        self.floor = floor
        # Those whose numbers were used. An interruption finds these as they were before a floor was asked for, or as behind it.
        self.tickets: Used[Ticket[Any]] = Used(first, floor)
        self._shown = shown
        self.left = 0  # the number that this has left, until the reply to its cancel
        # The replies that were no answer to a caller, and whether the thread is to go on.
        self.rest: List[Reply] = []
        self.is_over = False
        self.failure: Optional[ProtocolError] = None  # what was wrong with a reply
        # Whether the last frames were sent as a whole, and all that was read was taken.
        self.is_known = True
        self._end = end
        self._bell = bell
        self._poll: Optional[select.poll] = None

    def next_number(self) -> int:
        return self.tickets.first + len(self.tickets)

    def call(self, asked: Sequence[Ticket[Any]], until: Optional[float] = None) -> bool:
        """Sends them together. Whether all are done, and the thread has nothing to do. If not, the thread is
        to be asked for them. One that may wait is asked alone. If it waits, it is left once `until` is over,
        or when the thread wants its numbers."""
        number, count = self.tickets.first + len(self.tickets), len(asked)
        if self.is_over or not self.is_known:
            return False
        frames, waits = bytearray(), False
        if number + count > self._end:
            if not self.floor or self.tickets.asked != self.floor or count > MOST_AT_ONCE:
                return False
            frames, number = self._settle(number), self.next_number()
        at, under = len(frames) + 5, number
        for ticket in asked:
            request = ticket.request
            frame = request.frame
            frames += frame
            pack_number(frames, at, under)
            if request.may_wait:
                waits = self._bell is not None and frame[13] in _OFTEN_WAIT
                if not waits:
                    ticket.asks_first = True
                    frames[at - 1] = NOWAIT
            at, under = at + len(frame), under + 1
        self.is_known = False
        self.tickets += asked
        try:
            is_sent = self.connection.send(frames, socket.MSG_DONTWAIT) == len(frames)
        except OSError:
            return False
        return is_sent and self._reads(number, under, waits, until)

    def _settle(self, number: int) -> bytearray:
        """Asks for the floor to be raised to this number, or nearly: all below have their answers. Their
        tickets are dropped. What shows that this client is there gets this number before it is taken back:
        reports show it all the time."""
        used: Used[Ticket[Any]] = Used(number, min(number, self.floor + LONGEST_STEP))
        frames, shown = bytearray(), self._shown
        self.is_known = False
        self._end = used.asked + WINDOW
        if shown is not None:
            assert shown.number is not None
            # It keeps its number until the thread takes the lease back, and is the first ticket once it has moved.
            used.left = self.tickets.first if self.tickets.left else shown.number
            used.append(shown)
            append_under(frames, shown.request.frame, number)
            frames += cancel(used.left)
            self._end -= 1
        self.tickets, self.left = used, used.left
        return frames + settle(used.asked)

    def _reads(self, number: int, end: int, waits: bool, until: Optional[float]) -> bool:
        """Reads the answers from `number` on, before `end`, in their order. What is none of them is kept, and ends the lease."""
        latest = None
        try:
            while number < end and not self.is_over:
                if waits:
                    self._await(until)
                if waits or end - number == 1:
                    piece = self.connection.recv(_READ_BYTES)
                else:  # several answers, which often come one by one: the kernel puts them together
                    piece = self.connection.recv(ANSWER_BYTES * (end - number), socket.MSG_WAITALL)
                if not piece:
                    return False
                number = self._take(self.decoder.feed(piece), number, end)
                if number < end and not waits:
                    latest = latest or time.monotonic() + READ_TIME
                    if time.monotonic() > latest:
                        break
        except BlockingIOError:
            pass
        except OSError:
            return False
        except ProtocolError as failure:
            self.failure = failure
        self.is_over = self.is_over or number < end
        self.is_known = True
        return not self.is_over

    def _await(self, until: Optional[float]) -> None:
        """Waits until something comes. `BlockingIOError` if the time is over, or the thread wants its numbers."""
        number = self.connection.fileno()
        if number < 0:
            raise BlockingIOError  # in a child, which has closed it
        if self._poll is None:
            assert self._bell is not None
            self._poll = select.poll()
            self._poll.register(self._bell, select.POLLIN)
            self._poll.register(self.connection, select.POLLIN)
        for file, _ in self._poll.poll(None if until is None else max(0.0, 1000.0 * (until - time.monotonic()))):
            if file == number:
                return
        raise BlockingIOError

    def _take(self, replies: Sequence[Reply], number: int, end: int) -> int:
        """Takes the answers from `number` on. The first one that is due then."""
        tickets, at = self.tickets, number - self.tickets.first
        for reply in replies:
            if type(reply) is Answer and reply[0] == number < end:
                ticket = tickets[at]
                assert ticket is not None
                if ticket.asks_first and reply[1] == NOT_NOW:
                    ticket.asks_first = False  # it has to wait: the thread asks it again
                    self.is_over = True
                else:
                    ticket.end_by(reply)
                tickets[at] = None
                number, at = number + 1, at + 1
            # (the thread may have asked for a floor before it lent the numbers)
            elif type(reply) is Settled and 0 < self.floor < tickets.asked == reply.floor:
                self.floor = reply.floor
            elif not (tickets.left and self._is_left(reply)):
                self.is_over = self.is_over or type(reply) is not Settled
                self.rest.append(reply)
        return number

    def _is_left(self, reply: Reply) -> bool:
        """Whether it is of the number that was left: the reply to its cancel, or an answer, though that was asked again."""
        if isinstance(reply, Answer):
            return reply.number == self.tickets.left
        is_due = isinstance(reply, Withdrawn) or isinstance(reply, Refusal) and reply.code == NOT_WAITING
        if not is_due or reply[0] != self.left:
            return False
        self.left = 0
        return True
