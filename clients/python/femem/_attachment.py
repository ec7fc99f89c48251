"""Whether the session is this client's: attaches, handshakes, and probes, over one connection after the other.

A connection attaches the session first. A client that begins in a session goes through a handshake then; one that had it
before only sees whether another client was there meanwhile. Probes tell whether the server is there, and whether another
connection has taken the session since.
"""

from __future__ import annotations

import enum
import itertools
import random
from typing import Callable, Iterator, List, Optional, Set

from . import _errors as errors, _frames as frames
from ._arguments import Choice
from ._errors import ProtocolError
from .events import Events, log
from ._outbox import Outbox
from ._jobs import Ticket

# How often a client whose session is nobody else's attaches again after another connection took it: a late attach of a
# former client may take it.
_FIGHTS = 20

# About how long a client waits before it again attaches a session that it could not get, in seconds.
_ATTACH_PAUSE = 0.03


# A cancel of a number from here on is always refused at once, since requests have lower numbers. Clients send one to ask
# "are you there?".
FIRST_PROBE = 2**63


def unexpected(refusal: frames.Refusal) -> ProtocolError:
    name = errors.REFUSALS[refusal.code].__name__
    return ProtocolError(f"number {refusal.number} is refused, {name}, and nothing was sent that could be")


class Handshake:
    """How a new client begins in a session that may have been used before, up to a floor from which on none
    was.

    The client raises the floor by 32, so that no old answer can be taken for one of a new request. For that it must know the
    newest floor, and an older welcome may come first (docs/formats.md, "What a client has to know"). So it tries a welcome's
    floor: `settle` of the current floor changes nothing, and of an older one is refused at once. A cancel of an unused number,
    sent after it, is refused at once too; when that refusal has come, the settle's has come before or never will.
    """

    def __init__(self, floor: int, probes: Iterator[int], to_send: bytearray) -> None:
        self.to_send = to_send
        self.new_floor: Optional[int] = None
        self._probes = probes
        self._newest = floor
        self._try(floor)

    def _try(self, floor: int) -> None:
        if floor + 2 * frames.WINDOW > frames.GREATEST_FLOOR:
            raise errors.BeyondWindow("the numbers of the session are used up")
        self._tried = floor
        self._target = floor + frames.WINDOW
        self._is_old = False
        self._is_newest = False
        self._cancelled: Set[int] = set()
        self._has_cleared = False
        self._probe: Optional[int] = next(self._probes)
        self.to_send += frames.settle(floor) + frames.cancel(self._probe)

    def take(self, reply: frames.Reply) -> None:
        if isinstance(reply, frames.Answer):
            return  # to a request of the former process
        if isinstance(reply, frames.Settled):
            if self._is_newest and reply.floor == self._target:
                self.new_floor = reply.floor
        elif isinstance(reply, frames.Welcome):
            if reply.floor < self._newest or self._is_newest and reply.floor != self._tried:
                raise ProtocolError(f"a welcome with floor {reply.floor} behind one with {self._newest}")
            self._newest = reply.floor
        elif isinstance(reply, frames.Refusal):
            self._refused(reply)
        elif isinstance(reply, frames.Withdrawn) and reply.number in self._cancelled:
            self._cancelled.discard(reply.number)
        else:
            raise ProtocolError("a reply that nobody asked for")
        # The tried floor is known to be old, and there is a newer one.
        if self._is_old and self._probe is None and self._newest > self._tried:
            self._try(self._newest)

    def _refused(self, refusal: frames.Refusal) -> None:
        number, code = refusal.number, refusal.code
        if code == frames.SPENT and number in (self._tried, self._target):
            raise errors.Spent("settle")
        if code == frames.BELOW_FLOOR and number == self._tried and self._probe is not None:
            self._is_old = True
        elif code == frames.NOT_WAITING and number == self._probe:
            self._probe = None
            if not self._is_old:
                self._is_newest = True
                self.to_send += frames.settle(self._target)
        elif code == frames.NOT_WAITING and number in self._cancelled:
            self._cancelled.discard(number)
        elif code == frames.STILL_WAITING and number == self._target and self._is_newest and not self._has_cleared:
            self._has_cleared = True
            for waits in range(self._tried, self._target):  # perhaps, from the former process
                self._cancelled.add(waits)
                self.to_send += frames.cancel(waits)
            self.to_send += frames.settle(self._target)
        else:
            raise unexpected(refusal)


class Phase(enum.Enum):
    DOWN = "no connection"
    ATTACHING = "attach is sent"
    HANDSHAKE = "the floor is raised above all numbers that were used before"
    READY = "requests are sent"
    ENDED = "the client is of no further use"


# In some versions of Python each use of a member's name costs a call.
DOWN, ATTACHING, HANDSHAKE = Phase.DOWN, Phase.ATTACHING, Phase.HANDSHAKE
READY, ENDED = Phase.READY, Phase.ENDED


class Attachment:
    """The part of a core that has the session. Times are in seconds, of one clock. The rest of the core has these:"""

    fail: Callable[[errors.FememError], None]
    _end: Callable[..., None]
    _has_left: Callable[[], None]
    _take_other_refusal: Callable[[frames.Refusal], None]

    failure: Optional[errors.FememError] = None
    # The requests to end the session, and to be told once it is attached for the first time.
    _leaving: Optional[Ticket[None]] = None
    _opening: Optional[Ticket[None]] = None
    _asked_at = 0.0  # since when something is asked and not done

    def __init__(self, choice: Choice, outbox: Outbox, events: Optional[Events]) -> None:
        self.session = choice.session
        self.phase = DOWN
        # Why the last attempt to connect failed, if it did. The client sets it.
        self.trouble = ""
        # How many connections the server has ended since it last did something for this client.
        self._ended_connections = 0
        self.to_send = outbox.to_send
        self._outbox = outbox
        # Whether nobody else is given this session: then another connection that has it is a late one of a former client.
        self._is_own = choice.is_temporary or choice.file is not None
        self._fights = 0
        self._reconnect_timeout = float("inf") if choice.patience is None else choice.patience
        self._probe_interval = choice.pause
        self._probes = itertools.count(FIRST_PROBE)
        # What the program wants to know of, and since when it has been as it is: connecting, or attached.
        self.events = events
        self._changed_at = 0.0 if events is None else events.now()
        # Whether the session was attached more than once by this client.
        self._was_away = outbox.window is not None
        # Whether something may be due sooner than `next_time` said. The client clears it when it calls `tick`.
        self.is_urgent = True
        # Whether the server is there; if not, since when.
        self._in_contact = False
        self._lost_at = 0.0
        self._start_over()

    def _start_over(self) -> None:
        """Resets the state of one connection: what was sent over it and is owed, and since when."""
        self.to_send.clear()
        self._outbox.start_over()
        # Whoever reads the connection reads by it.
        self.decoder = frames.ReplyDecoder()
        self._handshake: Optional[Handshake] = None
        self._attach_at: Optional[float] = None
        self._is_closing = False
        self._probes_sent: Set[int] = set()
        self._probe: Optional[int] = None  # the probe whose echo is due
        self._probed_at = 0.0
        # When the report that is due was asked for over this connection, and the end of the session.
        self._report_sent: Optional[float] = None
        self._bye_sent: Optional[float] = None

    # The connection, and the clock.

    def connected(self, now: float) -> None:
        if self.phase is not ENDED:
            self.trouble = ""
            self._start_over()
            self._attach(now)

    def disconnected(self, now: float) -> None:
        """The connection was lost, or could not be made."""
        if self.phase is ENDED:
            return
        self._ended_connections += self.phase is not DOWN
        self.phase = DOWN
        self._start_over()
        if self._in_contact:
            self._in_contact = False
            self._lost_at = now
            self._changed("lost")

    def _probe_at(self) -> Optional[float]:
        """When to ask whether the server is there, and whether the session is still this client's. The server
        does not tell a client that its session was taken over, even while the client waits for its
        welcome."""
        if self._probe is not None or self._attach_at is not None or self.phase is DOWN:
            return None
        if self._bye_sent is not None:
            return None  # it would be refused, since the session is closing
        is_ready = self.phase is READY
        return self._probed_at + (self._probe_interval if is_ready else min(1.0, self._probe_interval))

    def _give_up_at(self) -> float:
        """When to give up: `reconnect_timeout` after the oldest thing that the server owes, while something is asked."""
        owed: List[Optional[float]] = [] if self._in_contact else [self._lost_at]
        if self.phase is READY:
            owed += [*self._outbox.owed(), self._report_sent, self._bye_sent]
            if self._probe is not None:
                owed.append(self._probed_at)
        oldest = min((time for time in owed if time is not None), default=float("inf"))
        return max(oldest, self._asked_at) + self._reconnect_timeout

    def _give_up(self) -> None:
        if self._is_closing:
            self.fail(errors.Closing(f"session {self.session} is still being ended"))
        else:
            what = f"no word from the server for {self._reconnect_timeout:g} seconds, or none that was due"
            ended = f"it ended {self._ended_connections} of the connections" if self._ended_connections else ""
            why = self.trouble or ended
            self.fail(errors.ServerUnreachable(what + (f" ({why})" if why else "")))

    def _attach(self, now: float) -> None:
        self.phase = ATTACHING
        self._attach_at = None
        self._probe = None
        self._probed_at = now
        self._bye_sent = None  # it was refused, if another connection had the session
        self.to_send += frames.attach(self.session)

    def _attach_later(self, now: float) -> None:
        """Attaches at a random time, so that two clients that want one session do not keep it from each other."""
        self.phase = ATTACHING
        self._handshake = None
        self._probe = None
        self.is_urgent = True
        self._attach_at = now + _ATTACH_PAUSE * (0.5 + random.random())

    def _send_probe(self, now: float) -> None:
        self._probe = next(self._probes)
        self._probes_sent.add(self._probe)
        self._probed_at = now
        self.to_send += frames.cancel(self._probe)

    def _take_stranger(self, reply: frames.Reply, now: float) -> None:
        """A reply before the session is this client's: it may be for the session's former client."""
        if self._handshake is not None:
            self._go_on_handshake(self._handshake, reply)
        elif isinstance(reply, frames.Welcome):
            self.phase = HANDSHAKE
            self._handshake = Handshake(reply.floor, self._probes, self.to_send)
        elif not isinstance(reply, (frames.Answer, frames.Settled)):
            raise ProtocolError("a reply that nobody asked for")
        self._probed_at = now

    def _go_on_handshake(self, handshake: Handshake, reply: frames.Reply) -> None:
        handshake.take(reply)
        if handshake.new_floor is not None:
            self._outbox.begin(handshake.new_floor)
            self._handshake = None
            self.phase = READY
            self._in_contact = True
            self._is_open()

    def _is_open(self) -> None:
        log.info("session %d: attached", self.session)
        self._changed("attached")
        if self._opening is not None and not self._opening.done:
            self._end(self._opening)

    def _changed(self, kind: str) -> None:
        if self.events is not None:
            self.events.since(kind, self._changed_at)
            self._changed_at = self.events.now()

    def _take_welcome(self, floor: int, now: float) -> None:
        # While the session is being ended it may be gone, and begun again by this attach.
        if self._leaving is None:
            self._outbox.has_floor(floor, is_welcome=True)
        if self.phase is ATTACHING:
            self.phase = READY
            self._was_away = True
            self._is_open()
            if self._leaving is None:
                self._outbox.send_again(now)
            self._send_probe(now)

    def _heard(self, now: float) -> None:
        """The server did something for this client: so it is there, and this client has the session."""
        self._in_contact = True
        self._ended_connections = 0
        if self._probe is None:
            self._probed_at = now

    def _take_refusal(self, refusal: frames.Refusal, now: float) -> None:
        number, code = refusal.number, refusal.code
        is_echo = number in self._probes_sent and code in (frames.NOT_ATTACHED, frames.NOT_WAITING)
        if is_echo and number != self._probe:
            self._probes_sent.discard(number)  # it was sent before the last attach, or before the welcome
        elif code == frames.NOT_ATTACHED:
            self._take_not_attached(number, now)
        elif is_echo:
            self._probes_sent.discard(number)
            self._probe = None
            self._probed_at = now
            self._in_contact = self._in_contact or self.phase is READY
        elif self.phase is ATTACHING:
            self._take_attach_refusal(refusal, now)
        elif self._handshake is not None:
            self._go_on_handshake(self._handshake, refusal)
        elif not self._outbox.refused(refusal, now, self._leaving is not None):
            self._take_other_refusal(refusal)

    def _take_not_attached(self, number: int, now: float) -> None:
        """Another connection has the session. If this client has asked nothing yet, that may be a late attach
        of a former process: it attaches again."""
        if self._outbox.window is not None:
            if not self._is_own or self._fights >= _FIGHTS:
                raise errors.TakenOver(f"another connection has session {self.session}")
            if self.phase is READY or number == self._probe:
                self._fights += 1
                self._attach_later(now)
        elif self.phase is HANDSHAKE or number == self._probe:
            self._attach_later(now)

    def _take_attach_refusal(self, refusal: frames.Refusal, now: float) -> None:
        if refusal.number != self.session:
            raise unexpected(refusal)
        if refusal.code == frames.CLOSING:
            self._is_closing = True
            self._attach_later(now)
        elif refusal.code == frames.SESSION_LIMIT and self._leaving is not None:
            self._has_left()
        elif refusal.code == frames.SESSION_LIMIT and self._outbox.window is not None:
            raise errors.SessionLost("the server keeps 64 other sessions")
        elif refusal.code in (frames.SESSION_LIMIT, frames.SPENT):
            raise errors.refused(refusal.code, f"attach {self.session}")
        else:
            raise unexpected(refusal)
