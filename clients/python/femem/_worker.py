"""The thread of a client: it has the connection and the core.

It does not refer to the client, so a client that nobody refers to any more is closed. Callers only append to a list, in one
step: an exception from a signal handler leaves nothing half done, wherever it comes.
"""

from __future__ import annotations

import math
import os
import select
import socket
import struct
import threading
import time
from collections import deque
from contextlib import suppress
from threading import get_ident
from typing import Callable, Deque, Optional, Set

from . import _errors as errors
from ._arguments import Choice
from ._attachment import READY
from ._carrier import FAREWELL, FIRST_PAUSE, LONGEST_PAUSE, NOT_HERE, Carrier, carriers
from ._core import Core
from .events import log
from ._lease import READ_TIME, Lease

SWEEP_PATIENCE = 5.0  # how long a client waits for its server to end the session of a killed one, in seconds

_CONNECT_TIME = 1.0  # how long an attempt to connect may take, in seconds

_READ_BYTES = 65536

# How long the thread waits at its bell after the last answer, in seconds, before it looks at the connection again. The bell
# is a lock, the cheapest way to wake a thread, and a caller that just got an answer often calls again soon.
_LINGER = 0.01

# The same while requests wait. Their answers may be seen only then, so it lingers only beside a caller that calls all the
# time: several times in a row something was asked so soon after what came before.
_LINGER_BESIDE_WAITS = 0.001
_SOON = 0.0001
_IN_A_ROW = 4

# How long after an event the thread checks what is due by the clock, in seconds: sooner than anything that the event can
# make due, except what the core calls urgent.
_LOOK_AFTER = 0.02


class Worker(Carrier):
    """With a thread, which lends numbers to callers while it sleeps at its bell."""

    def __init__(self, core: Core, choice: Choice) -> None:
        # What callers ask, in order: the thread calls each with the time. A caller that finds something here asks the thread
        # too, and so one that finds `lead` locked.
        self.asked: Deque[Callable[[float], object]] = deque()
        # A lock is the cheapest way to wake a thread.
        self._bell = threading.Lock()
        self._bell.acquire()
        # Numbers that callers use themselves while the thread is at its bell, and whose turn it is.
        self.lease: Optional[Lease] = None
        self.lead = threading.Lock()
        # The time as the thread last read it, and when it next checks what is due.
        self._now = time.monotonic()
        self._look_at = 0.0
        self._socket: Optional[socket.socket] = None
        self._given_up: Optional[socket.socket] = None
        self._waker, self._woken = socket.socketpair()
        self._waker.setblocking(False)
        self._woken.setblocking(False)
        self._longest_sleep = choice.pause
        # Where the thread sleeps, so that a caller knows how to wake it.
        self._is_asleep = False
        self._is_at_bell = False
        # How many times in a row something was asked soon.
        self._in_a_row = 0
        self.is_over = False
        # The locks at which callers wait for their answers, for a child to open them, and whether this is the child.
        self._gates: Set[threading.Lock] = set()
        self._is_forked = False
        # Once the thread has ended, callers do its work in its place, one at a time.
        self._ending = threading.RLock()
        self._woken_number = self._woken.fileno()
        self._poll = select.poll()
        self._thread = threading.Thread(target=self._run, name=f"femem session {core.session}", daemon=True)
        super().__init__(core, choice)

    # What callers use.

    def start(self) -> None:
        self._thread.start()

    def ask(self, what: Callable[[float], object]) -> None:
        """Makes the thread do something. The step that counts is the append."""
        self.asked.append(what)
        # Only the thread says where it sleeps, and it checks the list before that: an interruption here loses no call.
        if self._is_at_bell:
            self.ring()
        elif self._is_asleep:
            self._signal(self._waker)
        if self.is_over:
            with self._ending:
                self._do_what_is_asked()

    def wait_at(self, gate: threading.Lock) -> None:
        """Waits until the gate is opened. `Closed` in a child whose parent waited, as its signal handler forked."""
        self._gates.add(gate)
        try:
            if self._is_forked:
                is_answered = gate.acquire(blocking=False)  # what is asked in a child is done at once
            else:
                gate.acquire()
                is_answered = not self._is_forked
            if not is_answered:
                raise errors.Closed(NOT_HERE)
        finally:
            self._gates.discard(gate)

    def end_soon(self) -> None:
        """Ends it without waiting: a temporary session too, if the server is there within a second."""
        core = self.core
        self.ask(lambda now: core.depart(now, FAREWELL) if self.is_temporary else core.close())

    def end(self) -> None:
        """Ends it, and waits for that: about a second at most."""
        if self.process != os.getpid():
            return
        self.end_soon()
        if self._thread.ident is None:
            self._end()  # it was never started
        elif threading.current_thread() is not self._thread:
            self._thread.join()

    # The thread: it does what callers ask, connects, reads, and looks at the clock.

    def _do_what_is_asked(self) -> None:
        asked = self.asked
        before = self._now
        self._something_happens()
        self._in_a_row = self._in_a_row + 1 if self._now - before < _SOON else 0
        while asked:
            try:
                what = asked.popleft()
            except IndexError:
                break
            what(self._now)
        self._move()

    def _something_happens(self) -> None:
        """Notes the time, and that what is due must be checked soon."""
        self._now = now = time.monotonic()
        if now + _LOOK_AFTER < self._look_at:
            self._look_at = now + _LOOK_AFTER

    def _move(self) -> None:
        """Sends what is to be sent, and completes the ended tickets, which may ask for more."""
        self._flush()
        core = self.core
        while core.ended:
            self._finish(core.take_ended())
            self._flush()

    def _flush(self) -> None:
        """Sends what the socket accepts now. The session file is written before that."""
        self._prepare()
        core = self.core
        if self._socket is None or not core.to_send:
            return
        try:
            del core.to_send[: self._socket.send(core.to_send, socket.MSG_DONTWAIT)]
        except BlockingIOError:
            pass
        except OSError:
            core.to_send.clear()
            self._give_up_connection(self._socket)

    def _run(self) -> None:
        self.own_thread = get_ident()
        pause = FIRST_PAUSE
        try:
            self._poll.register(self._woken, select.POLLIN)
            while self.core.failure is None:
                connection = self._connect()
                if connection is not None:
                    with connection:
                        if self._serve(connection):
                            pause = FIRST_PAUSE
                            continue
                self._sleep(pause)
                pause = min(2 * pause, LONGEST_PAUSE)
        except Exception:
            log.exception("session %d: a fault of the client", self.core.session)
        finally:
            self._end()

    def _end(self) -> None:
        core = self.core
        core.fail(errors.Closed("the client's thread ended"))
        core.close_file()
        self._sign_off()
        with self._ending:
            self.is_over = True
            self.own_thread = 0
            self._do_what_is_asked()
        for further in self._end_further():
            further.close()
        self._waker.close()
        self._woken.close()

    def _connect(self) -> Optional[socket.socket]:
        connection: Optional[socket.socket] = None
        try:
            connection = socket.socket(socket.AF_UNIX, socket.SOCK_STREAM)
            connection.settimeout(_CONNECT_TIME)
            connection.connect(self.path)
            # Blocking, since callers read too; the thread itself never waits here.
            connection.settimeout(None)
            connection.setsockopt(socket.SOL_SOCKET, socket.SO_RCVTIMEO, struct.pack("@ll", 0, int(1e6 * READ_TIME)))
        except OSError as error:  # also: too many files are open
            if connection is not None:
                connection.close()
            self._not_connected(error)
            return None
        self._has_connected = True
        return connection

    def _sleep(self, seconds: float) -> None:
        end = time.monotonic() + seconds
        while self._tick() and time.monotonic() < end:
            self._select(end)

    def _serve(self, connection: socket.socket) -> bool:
        """Serves until the connection breaks or the client ends. Returns whether the session was attached."""
        core = self.core
        core.connected(time.monotonic())
        core.is_urgent = True
        self._socket = connection
        was_ready = False
        stands = True
        events = select.POLLIN
        self._poll.register(connection, events)
        while stands and self._tick():
            wanted = select.POLLIN | select.POLLOUT if core.to_send else select.POLLIN
            if wanted != events:
                events = wanted
                self._poll.modify(connection, events)
            if self._select(math.inf):
                stands = self._read(connection)
                was_ready = was_ready or core.phase is READY
        self._poll.unregister(connection)
        self._socket = None
        core.disconnected(time.monotonic())
        core.is_urgent = True
        return was_ready

    def _tick(self) -> bool:
        """Does what callers ask and what is due. Returns whether the client goes on."""
        core = self.core
        if self.asked:
            self._do_what_is_asked()
        else:
            self._now = time.monotonic()
            if core.to_send:
                self._move()
        if core.is_urgent or self._now >= self._look_at:
            core.is_urgent = False
            core.tick(self._now)
            self._move()
            due = core.next_time()
            longest = self._now + self._longest_sleep
            self._look_at = longest if due is None else min(due, longest)
        return core.failure is None

    def _select(self, end: float) -> bool:
        """Sleeps until something is due or comes, or until the end. Returns whether the connection has something."""
        self._is_asleep = True
        seconds = 0.0
        if not self.asked and not self.core.is_urgent:
            seconds = min(end, self._look_at) - self._now
        came = False
        for file, _ in self._poll.poll(1000.0 * seconds if seconds > 0.0 else 0.0):
            if file == self._woken_number:
                self._drain(self._woken)
            else:
                came = True
        self._is_asleep = False
        return came

    def _linger(self) -> None:
        """With nothing left to do: completes the ended tickets, and sleeps at the bell for a moment.

        It completes them just before it sleeps, since their caller wants the interpreter's lock at once. What comes over
        the connection meanwhile is for callers that use lent numbers, or for requests that wait.
        """
        core = self.core
        seconds = min(_LINGER if core.is_idle else _LINGER_BESIDE_WAITS, self._look_at - self._now)
        self._is_at_bell = True
        while core.ended and not core.to_send:
            self._finish(core.take_ended())
        if seconds > 0.0 and not (self.asked or core.ended or core.to_send or core.is_urgent):
            lease = self._lend()
            if lease is not None:
                self._await_bell(lease, seconds)
                self._take_back(lease)
            elif core.is_idle:
                self._bell.acquire(timeout=seconds)
        self._is_at_bell = False

    def ring(self) -> None:
        try:
            self._bell.release()
        except RuntimeError:
            pass  # another caller has rung

    def _lend(self) -> Optional[Lease]:
        """Lets callers ask over the connection themselves, from now on."""
        first, end, floor, shown = self.core.lends()
        if first < end and self._socket is not None:
            # With further sessions, what waits is asked over one of them.
            bell = None if self.core.moves_waits else self._waker
            self.lease = Lease(self._socket, self.core.decoder, first, end, bell, floor, shown)
        return self.lease

    def _await_bell(self, lease: Lease, seconds: float) -> None:
        """Sleeps until a caller rings, or the lease was not used for a while, or something is due."""
        used = -1
        while used != lease.next_number() and not self.asked:
            used = lease.next_number()
            if self._bell.acquire(timeout=seconds) or time.monotonic() >= self._look_at:
                break

    def _take_back(self, lease: Lease) -> None:
        """Ends the lease, and goes on with what its last caller left."""
        self.lease = None
        is_free = self.lead.acquire(blocking=False) or self._calls_back()
        if not is_free:
            # Its caller is held up, perhaps within a signal handler that waits for this thread.
            self.lead = threading.Lock()
        core = self.core
        self._now = now = time.monotonic()
        if not is_free or not lease.is_known:
            # Before its numbers are noted: a caller that goes on later finds a connection that takes nothing.
            self._give_up_connection(lease.connection)
        core.takes_back(lease.tickets, lease.floor, lease.left, now)
        if is_free:
            self.lead.release()
        if lease.failure is not None:
            core.fail(lease.failure)
        elif lease.rest:
            core.replied(lease.rest, now)

    def _calls_back(self) -> bool:
        """Ends the wait of the caller that has the lease. Whether that has left it in time."""
        self._signal(self._woken)
        is_free = self.lead.acquire(timeout=3 * READ_TIME)
        self._drain(self._waker)
        return is_free

    def _signal(self, end: socket.socket) -> None:
        try:
            end.send(b"w")
        except OSError:
            pass  # the other end is awake, or has ended

    def _drain(self, end: socket.socket) -> None:
        with suppress(OSError):
            end.recv(4096)

    def _give_up_connection(self, connection: socket.socket) -> None:
        """The thread reads it no more, reconnects, and all is sent again: what was sent and read is not known."""
        self._given_up = connection
        with suppress(OSError):
            connection.shutdown(socket.SHUT_RDWR)

    def _read(self, connection: socket.socket) -> bool:
        """Reads what came. Returns whether the connection is still up."""
        if connection is self._given_up:
            return False
        try:
            piece = connection.recv(_READ_BYTES, socket.MSG_DONTWAIT)
        except BlockingIOError:
            return True
        except OSError:
            return False
        if not piece:
            return False
        self._something_happens()
        core = self.core
        core.received(piece, self._now)
        self._flush()
        if core.ended and not core.to_send and (core.is_idle or self._in_a_row >= _IN_A_ROW):
            self._linger()
        if core.ended:
            self._move()
        return True

    def forked(self) -> None:
        """In a child of the process: closes what it inherited, which is the parent's, without sending anything."""
        super().forked()
        self.core.to_send = bytearray()  # the thread may have been sending from the old one
        self.is_over = True
        self.own_thread = 0
        self._ending = threading.RLock()
        self.lease = None
        self.lead = threading.Lock()  # a caller may have held the other one
        self.asked.clear()
        self._is_forked = True
        for gate in list(self._gates):
            if gate.locked():
                gate.release()
        for inherited in (self._socket, self._waker, self._woken):
            if inherited is not None:
                inherited.close()
        self._socket = None


def at_exit() -> None:
    """Ends those that still run, all at once, within about a second: their threads stop with the interpreter."""
    workers = [worker for worker in list(carriers) if isinstance(worker, Worker) and worker.process == os.getpid()]
    running = [worker for worker in workers if worker._thread.is_alive()]
    for worker in running:
        worker.end_soon()
    end = time.monotonic() + 2 * FAREWELL
    for worker in running:
        worker._thread.join(max(0.0, end - time.monotonic()))
