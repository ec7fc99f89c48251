"""The requests of a session, over its connections: numbering, sending, sending again, and taking back."""

from __future__ import annotations

from collections import Counter, deque
from typing import Any, Deque, Dict, Iterable, List, Optional, Sequence, Set, Tuple

from . import _errors as errors, _frames as frames
from ._errors import ProtocolError
from .events import Events
from ._frames import NOWAIT, Answer, append_under, pack_number
from .requests import of_frame
from ._sessionfile import SessionFile
from ._sessionstate import Asked, Contradiction
from ._jobs import Ticket
from ._window import Window

# How long requests that wait keep their numbers while there are more of them than numbers, in seconds.
PATIENCE = 0.05

# How often a client with a session file may ask again for a floor that an earlier process's late request holds.
_CLEARINGS = 20

# With more requests that wait, a client that may have a further session for them wants it: each of them that moves takes time
# from the others.
_CROWD = 8

_OF_CALL = (frames.BELOW_FLOOR, frames.BEYOND_WINDOW, frames.NUMBER_USED, frames.NO_MEMORY, frames.SPENT)
_OF_SETTLE = (frames.BELOW_FLOOR, frames.BEYOND_WINDOW, frames.STILL_WAITING, frames.SPENT)


def _waiting(window: Window[Ticket[Any]]) -> List[Ticket[Any]]:
    """The requests that are known to wait: they did before they were moved, or a later number was answered."""
    answered = max(window.answers, default=0)
    known = [ticket for number, ticket in window.unanswered.items() if number < answered or ticket.has_moved]
    return [ticket for ticket in known if not ticket.must_end()]


class Outbox:
    """Appends what it sends to `to_send`, and tickets that end to `ended`. There is no window, and nothing is
    sent, until `begin`. Requests that would wait go to `moved`, if it is a list."""

    def __init__(
        self, to_send: bytearray, ended: List[Ticket[Any]], file: Optional[SessionFile] = None,
        moved: Optional[List[Ticket[Any]]] = None, events: Optional[Events] = None,
    ) -> None:
        self._moved = moved
        # Whether a further session may be had for requests that wait, and is wanted.
        self.may_grow = False
        self.is_crowded = False
        self._events = events
        self.window: Optional[Window[Ticket[Any]]] = None
        self._file = file
        # Requests under keys that have no answer yet.
        self.keys: Dict[bytes, Ticket[Any]] = {}
        self.to_send = to_send
        self._ended = ended
        self._queue: Deque[Ticket[Any]] = deque()
        # How often it asked again for a floor that an earlier process's late request held.
        self._clearings = 0
        # Whether requests of an earlier process still have its numbers, those before `_first`. The new numbers of those that were
        # moved, by the former ones.
        self._passes = False
        self._first = 0
        self._moved_to: Dict[int, int] = {}
        self.start_over()

    def start_over(self) -> None:
        """Begins with a new connection, over which nothing was cancelled or settled."""
        # How many replies to cancels of each number are due.
        self._cancelled: Counter[int] = Counter()
        self._settle_sent: Optional[float] = None
        self._withdrawn: Set[int] = set()  # numbers of an earlier process
        # The former numbers that were asked again and have no reply yet, and whether the settle above them is still to be sent.
        self._asked_again: Set[int] = set()
        self._settles_later = False

    def begin(self, floor: int) -> None:
        """Begins at this floor. No number from there on was used."""
        self.window = Window(floor)
        if self._file is not None:
            self._file.begin(floor)

    def resume(self, file: SessionFile) -> List[Ticket[Any]]:
        """Continues after the file's former process. Returns its unanswered requests, which are sent again."""
        state, tickets = file.state, {}
        for number, asked in sorted(state.unanswered.items()):
            ticket: Ticket[Any] = Ticket(of_frame(asked.frame))
            ticket.number = number
            ticket.taken = ticket.is_recovered = True
            ticket.key = asked.key
            ticket.asked_at = 0.0 if self._events is None else self._events.now()
            if asked.key is not None:
                self.keys[asked.key] = ticket
            if asked.ends_with_process:
                ticket.taken_back = errors.Withdrawn("its process ended")
            tickets[number] = ticket
        self.window = Window.of_file(state.floor, state.asked_floor, state.next, tickets, file.answers)
        self._passes, self._first, self._moved_to = bool(tickets), state.next, file.moved
        return [ticket for ticket in tickets.values() if ticket.taken_back is None]

    def add(self, tickets: Sequence[Ticket[Any]]) -> None:
        if self._events is not None:
            now = self._events.now()
            for ticket in tickets:
                ticket.asked_at = ticket.asked_at or now
        if self._file is None and self._moved is None:
            self._queue.extend(tickets)
            return
        for ticket in tickets:
            if ticket.key is None or not self._is_known(ticket, ticket.key):
                if self._moved is not None:
                    # A presence stays in the client's own session, for reports to show.
                    ticket.asks_first = ticket.request.may_wait and not ticket.is_presence
                self._queue.append(ticket)

    def _is_known(self, ticket: Ticket[Any], key: bytes) -> bool:
        """Whether the key was used before. Then the ticket ends like the earlier one."""
        assert self._file is not None
        first = self.keys.get(key)
        known = self._file.kept(key)
        if first is None and known is None:
            self.keys[key] = ticket
            return False
        frame = first.request.frame if first is not None else known[0] if known else b""
        if frame != ticket.request.frame:
            self._end(ticket, error=ValueError(f"another request was asked under the key {key!r}"))
        elif first is not None:
            first.followers = [*(first.followers or ()), ticket]
        elif known is not None:
            self._end_by(ticket, known[1])
        return True

    def is_busy(self) -> bool:
        """Whether something is open that a caller waits for."""
        if self._queue:
            return True
        if self.window is not None:
            for ticket in self.window.unanswered.values():
                if not ticket.is_presence:
                    return True
        return False

    def only_waits(self) -> bool:
        """Whether all that is under way waits."""
        window = self.window
        return window is not None and not self._queue and len(_waiting(window)) == len(window.unanswered)

    def owed(self) -> List[float]:
        """The times since when the server owes replies."""
        if self.window is None:
            return []
        times = [ticket.sent_at for ticket in self.window.unanswered.values() if ticket.must_end()]
        return times if self._settle_sent is None else [*times, self._settle_sent]

    def take_all(self) -> List[Ticket[Any]]:
        """Gives up and returns everything that is under way."""
        tickets = [*self._queue, *(self._moved or ())]
        if self._moved is not None:
            self._moved.clear()
        if self.window is not None:
            tickets = [*self.window.unanswered.values(), *tickets]
            self.window.unanswered.clear()
        self._queue.clear()
        return [each for ticket in tickets for each in (ticket, *(ticket.followers or ()))]

    def send(self, now: float) -> None:
        """Sends requests as far as the window has room, and messages that make more room."""
        window = self.window
        if window is None:
            return
        if self._passes:
            self._pass_earlier(window, now)
            if self._passes:
                return
        if self._queue:
            self._send_queue(window, now)
        floor = window.next_floor()
        while floor is not None:
            if self._file is not None:
                self._file.settling(floor)
            self._settle(floor, now)
            self._send_queue(window, now)
            floor = window.next_floor()
        if self.may_grow and len(window.unanswered) > _CROWD:
            # While others are answered: the oldest one waits.
            self.is_crowded = len(_waiting(window)) > _CROWD and not next(iter(window.unanswered.values())).must_end()
        # What waits gets new numbers before the room is used up, so that no other request waits for that.
        # (What has moved is known to wait: the others in the queue were not sent yet.)
        for ticket in self.in_the_way():
            if ticket.sent_at + PATIENCE <= now or any(not each.has_moved for each in self._queue):
                self._cancel(ticket, now)
        for ticket in window.holding():
            self._cancel(ticket, now)

    def move_waits(self, moved: Optional[List[Ticket[Any]]], now: float) -> None:
        """From now on, requests that would wait go there, and those that do; or with `None` nowhere."""
        self._moved = moved
        self.may_grow = self.is_crowded = False
        if self.window is not None and moved is not None:
            for ticket in self.window.unanswered.values():
                if not ticket.must_end() and not ticket.is_presence:
                    self._cancel(ticket, now)

    def _send_queue(self, window: Window[Ticket[Any]], now: float) -> None:
        queue, to_send = self._queue, self.to_send
        tickets = [queue.popleft() for _ in range(min(len(queue), window.room()))]
        number = window.give(tickets)
        if self._file is not None:
            for at, ticket in enumerate(tickets, number):
                self._file.asked(at, Asked(ticket.request.frame, ticket.key, ticket.ends_with_process))
        for ticket in tickets:
            ticket.number = number
            ticket.sent_at = now
            if ticket.cancel_sent:
                ticket.cancel_sent = False
            here = len(to_send)
            to_send += ticket.request.frame
            pack_number(to_send, here + 5, number)
            if ticket.asks_first:
                to_send[here + 4] = NOWAIT
            number += 1

    def in_the_way(self) -> List[Ticket[Any]]:
        """The requests that hold up the queue: those that wait under the window's lowest numbers. They are
        cancelled and sent again under new numbers, since a withdrawn request has not happened. So long waits
        do not keep other requests from being sent."""
        window = self.window
        if not self._queue or self._passes or window is None or not window.is_stuck():
            return []
        half = window.floor + frames.WINDOW // 2
        return [it for number, it in window.unanswered.items() if number < half and not it.cancel_sent]

    def send_again(self, now: float) -> None:
        """Sends the settle that is due, every unanswered request under its old number, and the cancels.

        A request that was moved may have happened under its former number, and its answer gone to the connection that had
        the session in between. So it is asked again, with a cancel. It may also happen now: so the settle, behind which its
        answer is dropped, follows only once the answer is in the file or the request is withdrawn.
        """
        window = self.window
        assert window is not None
        self._cancelled.clear()  # they had their replies, or were refused since another connection had the session
        for ticket in window.unanswered.values():
            ticket.cancel_sent = False
        for number, new in self._moved_to.items():
            if number >= window.floor and new in window.unanswered:
                append_under(self.to_send, window.unanswered[new].request.frame, number)
                self._cancel_number(number)
                self._asked_again.add(number)
        if window.left >= window.floor:
            self._cancel_number(window.left)  # it may wait yet
        if self._asked_again:
            self._settle_sent, self._settles_later = now, True
        else:
            self._settle_all(window, now)
        if not self._passes:
            self._send_all(window.unanswered.values(), now)
            for ticket in window.unanswered.values():
                self._tell("sent_again", ticket)

    # What an earlier process with the session file has asked.

    def _pass_earlier(self, window: Window[Ticket[Any]], now: float) -> None:
        """Sends the requests of an earlier process again, and gives those that wait numbers of this one. Nothing else is sent.

        None of this client's own requests is late, since it sends them only once its connection's last attach is answered.
        Another client that had the file may have been less careful (docs/formats.md, "What a client has to know"). So all
        that it left waiting is withdrawn, and the floor is raised above its numbers, where they never take effect, before
        any of it is sent under a new number or said not to have happened. A late request that comes before the floor is
        raised is the request: its answer counts.
        """
        if self._settles_later and not self._asked_again:
            assert self._file is not None
            self._settles_later = False
            self._file.must_sync = True  # the answers that came
            self._settle_all(window, now)
        if window.asked != window.floor:
            return  # until the floor stands there, what was moved may happen under its former number
        earlier = {number: ticket for number, ticket in window.unanswered.items() if number < self._first}
        unsent = [ticket for ticket in earlier.values() if not ticket.cancel_sent]
        for ticket in unsent:
            self._send(ticket, now)
            self._tell("sent_again", ticket)
        for ticket in unsent:
            self._cancel(ticket, now)
        if not earlier:
            self._passes = False
            self._moved_to.clear()
            self._send_all([ticket for ticket in window.unanswered.values() if ticket.taken_back is None], now)
            for number, ticket in [*window.unanswered.items()]:
                if ticket.taken_back is not None:
                    self._end(self._end_number(window, number), error=ticket.taken_back)
        elif self._withdrawn.issuperset(earlier):
            self._move(window, [*earlier], now)

    def _move(self, window: Window[Ticket[Any]], earlier: Sequence[int], now: float) -> None:
        assert self._file is not None
        floor = window.floor_towards(self._first)
        for number in earlier:
            if number < floor:
                ticket = window.unanswered[number]
                ticket.number = self._moved_to[number] = new = window.move(number)
                ticket.cancel_sent = False
                self._file.has_moved(number, new)
        window.asked = floor
        self._file.settling(floor)
        self._settle(floor, now)

    def _send_all(self, tickets: Iterable[Ticket[Any]], now: float) -> None:
        """Sends them under their old numbers, and the cancels of those that are taken back."""
        for ticket in tickets:
            self._send(ticket, now)
        for ticket in tickets:
            if ticket.taken_back is not None:
                self._cancel(ticket, now)

    def withdraw(self, ticket: Ticket[Any], now: float, is_ready: bool) -> None:
        """Takes a ticket back; it has the error to end with. If nothing can be sent now, `send_again` does it.

        A request that a former process left open goes with the last call that waits for it under its key: whoever is told that
        it did not happen may act on that.
        """
        if ticket.number is None:
            first = self.keys.get(ticket.key) if ticket.key is not None else None
            if ticket in self._queue:
                self._queue.remove(ticket)
            elif first is not None and first.is_recovered and first.is_left_by_all():
                first.taken_back = ticket.taken_back
                self.withdraw(first, now, is_ready)
                return
            self._end(ticket, error=ticket.taken_back)
        elif is_ready and not self._passes:
            self._cancel(ticket, now)

    def note_lent(self, left: int, now: float) -> None:
        """A caller may have asked for a floor, and cancelled the number `left` unless that is 0."""
        if left:
            self._cancelled[left] += 1
        if self.window is not None and self.window.asked != self.window.floor:
            self._settle_sent = self._settle_sent or now

    def _settle_all(self, window: Window[Ticket[Any]], now: float) -> None:
        for floor in window.floors():
            self._settle(floor, now)

    def _settle(self, floor: int, now: float) -> None:
        self._settle_sent = now
        self.to_send += frames.settle(floor)

    def _send(self, ticket: Ticket[Any], now: float) -> None:
        assert ticket.number is not None
        ticket.sent_at = now
        ticket.cancel_sent = False
        append_under(self.to_send, ticket.request.frame, ticket.number, ticket.asks_first)

    def _cancel(self, ticket: Ticket[Any], now: float) -> None:
        assert ticket.number is not None
        if not ticket.cancel_sent:
            ticket.cancel_sent = True
            ticket.sent_at = now
            self._cancel_number(ticket.number)

    def _cancel_number(self, number: int) -> None:
        self._cancelled[number] += 1
        self.to_send += frames.cancel(number)

    def _end(self, ticket: Ticket[Any], result: Any = None, error: Optional[BaseException] = None) -> None:
        ticket.end(result, error)
        self._has_ended(ticket)

    def _has_ended(self, ticket: Ticket[Any]) -> None:
        """What else was asked under its key ends like it."""
        self._ended.append(ticket)
        if ticket.key is None:
            return
        if self.keys.get(ticket.key) is ticket:
            del self.keys[ticket.key]
        error, followers = ticket.error, [follower for follower in ticket.followers or () if not follower.done]
        if isinstance(error, errors.Withdrawn):
            # It did not happen. Of the others, those that still wait for it remain: the first of them asks in its place.
            for follower in followers:
                if follower.taken_back is not None:
                    self._end(follower, error=follower.taken_back)
            waiting = [follower for follower in followers if follower.taken_back is None]
            if waiting:
                first, *first.followers = waiting
                self.add((first,))
            return
        for follower in followers:
            self._end(follower, ticket.result, None if error is None else type(error)(*error.args))

    def _end_by(self, ticket: Ticket[Any], answer: Answer) -> None:
        """Ends the ticket by its answer. `ProtocolError` is raised too."""
        try:
            ticket.end_by(answer)
        finally:
            self._has_ended(ticket)

    def answered_all(self, replies: Sequence[frames.Reply], first: int) -> Tuple[int, bool]:
        """Takes the answers from the first of these on. Where they end, and whether one of them ended a request."""
        window = self.window
        assert window is not None
        unanswered, kept, ended = window.unanswered, window.answers, self._ended
        is_plain = self._file is None and self._events is None
        is_heard = False
        for at in range(first, len(replies)):
            answer = replies[at]
            if type(answer) is not Answer:
                return at, is_heard
            number, code, value, _ = answer
            ticket = unanswered.get(number) if is_plain else None
            if ticket is not None and code == ticket.request.gives and code != frames.ARRAY:
                # As `answered`, for nearly all there are.
                del unanswered[number]
                kept[number] = answer
                if code == frames.VALUE:
                    ticket.result = value
                ticket.done = True
                ended.append(ticket)
                is_heard = True
            else:
                is_heard = self.answered(answer) or is_heard
        return len(replies), is_heard

    def answered(self, answer: Answer) -> bool:
        """Whether it ended a request. Otherwise it came before."""
        assert self.window is not None
        self._asked_again.discard(answer.number)
        if self._moved_to.get(answer.number, 0) in self.window.unanswered:
            answer = answer._replace(number=self._moved_to[answer.number])
        ticket = self.window.answer(answer)
        if ticket is None:
            return False
        if self._file is not None:
            try:
                self._file.answered(answer)
            except Contradiction as wrong:
                raise ProtocolError(str(wrong)) from None
        if ticket.asks_first and answer.code == frames.NOT_NOW:
            self._has_to_wait(ticket)
        else:
            self._end_by(ticket, answer)
            if self._events is not None:
                self._tell("answered", ticket)
        return True

    def _tell(self, kind: str, ticket: Ticket[Any]) -> None:
        if self._events is not None and not ticket.is_presence:
            self._events.since(kind, ticket.asked_at)

    def _has_to_wait(self, ticket: Ticket[Any]) -> None:
        ticket.number = None
        if ticket.taken_back is not None:
            self._end(ticket, error=ticket.taken_back)
        elif self._moved is not None:
            self._tell("moved", ticket)
            self._moved.append(ticket)
        else:
            ticket.asks_first = False
            self._queue.append(ticket)

    def withdrawn(self, number: int) -> None:
        window = self.window
        is_late = window is not None and number < window.asked
        if window is None or number not in self._cancelled or number not in window.unanswered and not is_late:
            raise ProtocolError(f"number {number} is withdrawn, which nobody asked for")
        self._cancelled -= Counter((number,))
        if is_late:
            self._asked_again.discard(number)
            return
        if self._passes:
            self._withdrawn.add(number)
            return
        ticket = self._end_number(window, number)
        if self._file is not None:
            window.soon = number + 1
        if ticket.taken_back is not None:
            self._end(ticket, error=ticket.taken_back)
        else:
            ticket.number = None
            ticket.has_moved = True
            self._tell("moved", ticket)
            (self._queue if self._moved is None or ticket.is_presence else self._moved).append(ticket)

    def _end_number(self, window: Window[Ticket[Any]], number: int) -> Ticket[Any]:
        """The number ends without an answer: nothing of its request happened."""
        if self._file is not None:
            self._file.has_ended(number)
        return window.end(number)

    def has_floor(self, floor: int, is_welcome: bool = False) -> None:
        window = self.window
        assert window is not None
        (window.welcomed if is_welcome else window.settled)(floor)
        if window.asked == window.floor:
            self._settle_sent = None
        if self._file is not None:
            self._file.settled(window.floor)

    def refused(self, refusal: frames.Refusal, now: float, is_leaving: bool) -> bool:
        """Whether it refuses a request, a cancel or a settle. A settle's is raised if it can't be asked again."""
        window = self.window
        number, code = refusal.number, refusal.code
        if window is None:
            return False
        is_floor = number in window.floors()
        # Whether the message is refused only because a settle before it was.
        is_beyond = code == frames.BEYOND_WINDOW and number >= window.floor + frames.WINDOW
        if code == frames.NOT_WAITING and number in self._cancelled:
            self._cancelled -= Counter((number,))  # the request has happened, and its answer comes
        elif is_beyond and self._clearings > 0 and (is_floor or number in window.unanswered):
            pass  # it was sent again behind that settle
        elif is_floor and code in _OF_SETTLE:
            if code != frames.STILL_WAITING or self._file is None or self._clearings == _CLEARINGS:
                raise errors.refused(code, f"settle {number}")
            self._clearings += 1
            if not is_leaving:
                self._clear(window, now)
        elif number in window.unanswered and code in _OF_CALL:
            ticket = self._end_number(window, number)
            self._end(ticket, error=errors.refused(code, ticket.request.what))
        else:
            return False
        return True

    def _clear(self, window: Window[Ticket[Any]], now: float) -> None:
        """Takes back what waits below the floor that is asked for, and sends again what depends on that
        floor. An earlier process sent it, and the server read it late, after this client or an earlier one
        had taken it back."""
        for number in range(window.floor, window.asked):
            self._cancel_number(number)
        self._settle_all(window, now)
        beyond = window.floor + frames.WINDOW
        if self._passes:
            return  # nothing is sent behind the settle
        self._send_all([ticket for number, ticket in window.unanswered.items() if number >= beyond], now)
