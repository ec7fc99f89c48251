"""What carries a client's bytes, in a thread (`_worker.py`) or an event loop (`_aioworker.py`): what both do with its core."""

from __future__ import annotations

import errno
import grp
import os
import pwd
import stat
import time
import weakref
from functools import partial
from threading import get_ident
from typing import Any, Callable, Dict, Iterator, Optional, Sequence

from . import _errors as errors, _registry as registry
from ._arguments import Choice
from ._attachment import ENDED
from ._core import Core
from .events import log
from ._jobs import Ticket, nobody

FAREWELL = 1.0  # how long the end of a temporary session may take when its client is closed, in seconds

NOT_HERE = "a client is of the process that made it"

# How long a client waits between attempts to connect, in seconds: at first, and at most.
FIRST_PAUSE = 0.01
LONGEST_PAUSE = 0.25

# What says that the path can't be a server's.
_WRONG = (errno.ENOTDIR, errno.ELOOP, errno.EPROTOTYPE, errno.ENOTSOCK)

# For how long a client may have no right to the socket, in seconds: a server's folder belongs to root for a
# moment while it is made again.
_DENIED = 1.0


# Those of this process. Its children close the ones that they inherit.
carriers: weakref.WeakSet[Carrier] = weakref.WeakSet()


class Carrier:
    """A core with its connection.

    The further sessions of a client are for requests that wait. Such a client first makes each request
    without waiting, over its own session, in order. A request that would wait goes to the further session
    with the fewest. So numbers of its own session are always free soon.
    """

    # Does something with the core, given the time, after what was asked before.
    ask: Callable[[Callable[[float], object]], None]
    own_thread = 0  # the number of the client's own thread while it runs, if it has one

    def __init__(self, core: Core, choice: Choice) -> None:
        self.path = choice.path
        self.core = core
        self.is_temporary = choice.is_temporary  # whether its session ends with it
        # Whether this process chose the session's number.
        self.is_chosen = choice.is_temporary
        self.entry: Optional[registry.Entry] = None
        # The clients of the further sessions, and how many requests each of them has.
        self.wait_sessions: Dict[Any, int] = {}
        # Begins a further session for requests that wait, if the client may have one once many of them do.
        self.further: Optional[Callable[[], Any]] = None
        self.process = os.getpid()
        carriers.add(self)
        # Whether a server may come to any path that is not too long.
        self._waits = choice.waits_for_server
        # Since when it has had no right to the socket.
        self._denied_at: Optional[float] = None
        self._has_connected = False

    def take_back(self, ticket: Ticket[Any], why: errors.Withdrawn) -> None:
        self.ask(lambda now: self.core.withdraw(ticket, now, why))

    def _finish(self, tickets: Sequence[Ticket[Any]]) -> None:
        """Completes all of them, whatever a callback raises."""
        interrupt: Optional[BaseException] = None
        for ticket in tickets:
            if ticket.finished is nobody:
                continue
            try:
                ticket.finished()
            except BaseException as error:
                # (a caller, which does this at other times, is told of its interruption)
                if isinstance(error, Exception) or get_ident() == self.own_thread:
                    log.exception("session %d: a callback failed", self.core.session)
                else:
                    interrupt = error
        if interrupt is not None:
            raise interrupt

    def _prepare(self) -> None:
        """Before anything is sent: writes the session file, and passes on what has to wait."""
        core = self.core
        if core.file is not None and core.file.must_sync and core.failure is None:
            try:
                core.file.commit()
            except errors.SessionFileError as error:
                core.fail(error)
        if core.wants_session():
            self._grow()
        if core.moved:
            self._move_waits()

    def _grow(self) -> None:
        """Opens a further session. Until it is attached, what waits is kept for it."""
        assert self.further is not None
        try:
            self.wait_sessions[self.further()] = 0
        except RuntimeError:
            self.core.move_waits(False, self.core.clock())  # the interpreter starts no more threads
            return
        if self.entry is not None:
            self.entry.note(2)
        self.core.move_waits(True, self.core.clock())

    def _move_waits(self) -> None:
        for ticket in self.core.take_moved():
            further = min(self.wait_sessions, key=self.wait_sessions.__getitem__)
            self.wait_sessions[further] += 1
            asked: Ticket[Any] = Ticket(ticket.request)
            asked.finished = partial(self.ask, partial(self._has_come_back, further, ticket, asked))
            self.core.moved_to(ticket, partial(further._worker.take_back, asked))
            further._worker.ask(partial(further._core.take, (asked,), None))

    def _has_come_back(self, further: Any, ticket: Ticket[Any], asked: Ticket[Any], now: float) -> None:
        """A further session has finished the request. If that session failed, the client ends."""
        self.wait_sessions[further] -= 1
        failure = further.failure
        if failure is not None and asked.number is None and self.further is not None and self.core.failure is None:
            self.core.move_waits(False, now)  # there is no room for a further session
            self.core.comes_back(ticket, None, now)
            return
        self.core.comes_back(ticket, asked, now)
        if failure is not None:
            self.core.fail(type(failure)(*failure.args))

    def _not_connected(self, error: OSError) -> bool:
        """An attempt to connect failed. Whether the first ones show that there will be no server: that ends the client."""
        self.core.trouble = f"{self.path}: {error.strerror or error}"
        failure = None if self._has_connected else self._no_server(error)
        if failure is not None:
            self.core.fail(failure)
        return failure is not None

    def _no_server(self, error: OSError) -> Optional[errors.ServerUnreachable]:
        """Why there will be no server, or `None` if one may come. A path that is missing is a server that is
        away, unless the folder above its folder is missing too."""
        number, path = error.errno, self.path
        # (a path that is too long has no error number)
        is_wrong = number is None or number == errno.ENAMETOOLONG
        if self._waits and not is_wrong:
            return None
        if number in (errno.EACCES, errno.EPERM):
            self._denied_at = self._denied_at or time.monotonic()
            return _no_right(path) if time.monotonic() - self._denied_at >= _DENIED else None
        self._denied_at = None
        if number == errno.ECONNREFUSED and _is_no_socket(path):
            return errors.ServerUnreachable(f"{path}: it is no socket")
        folder = os.path.dirname(os.path.dirname(os.path.abspath(path)))
        is_missing = number == errno.ENOENT and not os.path.isdir(folder)
        is_wrong = is_wrong or is_missing or number in _WRONG
        return errors.ServerUnreachable(self.core.trouble) if is_wrong else None

    def _end_further(self) -> Iterator[Any]:
        """The further clients, each to be closed: it ends its session if the server is there. What waits is withdrawn anyway."""
        core = self.core
        is_there = isinstance(core.failure, errors.Closed) and (core.has_left or core.was_ready and not self.is_temporary)
        for further in [*self.wait_sessions]:
            further._worker.is_temporary = is_there
            yield further
            is_there = further._core.has_left

    def _sign_off(self) -> None:
        """Says whether the temporary session is left behind."""
        has_left = self.core.has_left
        if self.entry is not None:
            (self.entry.remove if has_left else self.entry.release)()
        if self.is_chosen and self._has_connected and not has_left:
            registry.left[self.path].append(self.core.session)

    def forked(self) -> None:
        """In a child of the process: nothing is sent, and what is the parent's stays."""
        self.core.failure = errors.Closed(NOT_HERE)
        self.core.phase = ENDED
        if self.core.file is not None:
            self.core.file.abandon()
        if self.entry is not None:
            self.entry.release()


def _in_child() -> None:
    registry.left.clear()  # the numbers are the parent's
    for carrier in list(carriers):
        carrier.forked()


os.register_at_fork(after_in_child=_in_child)


def _is_no_socket(path: str) -> bool:
    """Whether something else is there. To connect says only that nobody listens."""
    try:
        return not stat.S_ISSOCK(os.stat(path).st_mode)
    except OSError:
        return False


def _name(find: Callable[[int], Any], number: int) -> str:
    try:
        return str(find(number)[0])
    except KeyError:
        return str(number)


def _no_right(path: str) -> errors.NoRight:
    """Says who may use the path: whoever may use what of it can be looked at, itself or the deepest folder there."""
    at = os.path.abspath(path)
    while True:
        try:
            there = os.stat(at)
            break
        except OSError:
            at = os.path.dirname(at)
    group = _name(grp.getgrgid, there.st_gid)
    if there.st_mode & (stat.S_IXGRP if stat.S_ISDIR(there.st_mode) else stat.S_IWGRP):
        who = f"members of its group {group} may ('adduser {_name(pwd.getpwuid, os.geteuid())} {group}', and a new login)"
    else:
        who = f"its owner {_name(pwd.getpwuid, there.st_uid)} may"
    return errors.NoRight(f"may not use {path}: {who}")
