"""Which temporary sessions have a client, so that those of killed clients go away.

A client whose session ends with it has a file named after the session, in the folder `SOCKET.clients`, and keeps it locked.
A file that nobody has locked is of a client that was killed: the next temporary client ends that session. The folder is made
by whoever runs the server. Without it, a killed client leaves its session behind.

Numbers that this process itself may have left at a server are used again by its next temporary clients.
"""

from __future__ import annotations

import fcntl
import os
import secrets
from collections import defaultdict
from contextlib import suppress
from typing import Callable, DefaultDict, Iterator, List, Optional

from .events import log

# The numbers of temporary sessions that this process may have left, by the path of the socket.
left: DefaultDict[str, List[int]] = defaultdict(list)


class Entry:
    """The file of one temporary session, open and locked. It says how many sessions the client has."""

    def __init__(self, path: str, file: int, session: int) -> None:
        self.session = session
        self._path = path
        self._file = file

    def sessions(self) -> int:
        text = os.pread(self._file, 16, 0).strip()
        return int(text) if text.isdigit() else 1

    def note(self, sessions: int) -> None:
        """The client has that many sessions now."""
        try:
            os.ftruncate(self._file, os.pwrite(self._file, b"%d\n" % sessions, 0))
        except OSError as error:
            log.warning("session %d: %s: %s", self.session, self._path, error)

    def remove(self) -> None:
        """The session is ended."""
        if self._file >= 0:
            with suppress(OSError):
                os.unlink(self._path)
            self.release()

    def release(self) -> None:
        """The client has gone and the session may still be there: the next one ends it."""
        if self._file >= 0:
            file, self._file = self._file, -1
            os.close(file)

    __del__ = release


def temporary(path: str) -> int:
    """The number of a new temporary session: one that an earlier client of this process may have left, if there is one."""
    try:
        return left[path].pop()
    except IndexError:
        return secrets.randbits(63)


def enter(path: str, session: int, sessions: int) -> Optional[Entry]:
    """The locked file of a temporary session, or `None` if there is no folder for it."""
    entry = _locked(os.path.join(folder_of(path), str(session)), session, os.O_CREAT)
    if entry is not None:
        entry.note(sessions)
    return entry


def sweep(path: str, end: Callable[[int, int], None]) -> None:
    """Ends the sessions of killed clients by `end(session, sessions)`, until one can't be ended."""
    for entry in _abandoned(folder_of(path)):
        try:
            end(entry.session, entry.sessions())
        except Exception as error:
            log.info("session %d: its client is gone, and it can't be ended: %s", entry.session, error)
            entry.release()
            return
        entry.remove()
        log.info("session %d: its client was killed, and it is ended", entry.session)


def folder_of(path: str) -> str:
    return f"{path}.clients"


def _abandoned(folder: str) -> Iterator[Entry]:
    """The files that nobody has locked. Each is locked now."""
    try:
        names = os.listdir(folder)
    except OSError:
        return
    for name in names:
        if name.isascii() and name.isdigit() and int(name) < 2**64:
            entry = _locked(os.path.join(folder, name), int(name), os.O_NONBLOCK)
            if entry is not None:
                yield entry


def _locked(name: str, session: int, more: int) -> Optional[Entry]:
    try:
        file = os.open(name, os.O_RDWR | os.O_CLOEXEC | os.O_NOFOLLOW | os.O_NOCTTY | more, 0o660)
    except OSError:
        return None
    entry = Entry(name, file, session)
    try:
        fcntl.flock(file, fcntl.LOCK_EX | fcntl.LOCK_NB)
        if os.fstat(file).st_nlink:
            return entry
    except BlockingIOError:
        pass  # its client lives
    except OSError as error:
        log.warning("session %d: %s: %s", session, name, error)
    entry.release()
    return None
