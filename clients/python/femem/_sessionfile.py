"""The session file: what a client must know about its session when its own process is restarted.

docs/session-file.md has its format, which the C client has too. A record is written and synced before the message that it
is about is sent. So the file has everything that the server may have seen, and a request in the file without an answer may
be sent again: it is carried out once.
"""

from __future__ import annotations

import fcntl
import os
import secrets
import stat
from contextlib import suppress
from typing import Dict, List, Optional, Tuple

from . import _sessionstate as sessionstate
from ._errors import SessionFileError, SessionInUse
from ._frames import Answer
from ._sessionstate import ANSWER, ANSWERED_KIND, ENDED_KIND, FORGOTTEN_KIND, KEPT, LEAVING_KIND, LENGTH
from ._sessionstate import MOVED_KIND, NUMBER, PAIR, Asked, Contradiction, State

# The file is rewritten once it has `_SHORT` bytes, and `_GROWTH` times what it must hold.
_SHORT = 65536
_GROWTH = 4


class SessionFile:
    """The file of one session, open and locked. `state` is what it holds, with what the next commit writes."""

    def __init__(self, path: str) -> None:
        """`SessionInUse` if another client has it, `SessionFileError` if it is not a session file."""
        self._file = -1
        # Absolute, since the program may change its folder, and a link's target, since a rename would replace the link.
        self.path = os.path.realpath(path)
        self.state = State(0)
        self.must_sync = False
        # Whether a write failed. What is behind it in the file is not known, so nothing more is written.
        self._is_broken = False
        self._pending = bytearray()
        # The numbers that the last block has.
        self._noted = (0, 0, 0)
        try:
            self._open()
            self._read()
        except (OSError, Contradiction) as error:
            self.abandon()
            raise SessionFileError(f"{path}: {error}") from error
        except BaseException:
            self.abandon()
            raise

    @property
    def answers(self) -> Dict[int, Answer]:
        """The answers of numbers from the floor on, as far as the file has them."""
        return {number: Answer(number, *ANSWER.unpack(answer)) for number, answer in self.state.answers.items()}

    @property
    def moved(self) -> Dict[int, int]:
        """The new numbers of requests whose former numbers the floor has not passed."""
        return {number: new for number, new in self.state.moved.items() if number >= self.state.floor}

    def keys(self) -> List[bytes]:
        return [*self.state.keyed]

    def kept(self, key: bytes) -> Optional[Tuple[bytes, Answer]]:
        """The request under this key, and its answer if it has one."""
        kept = self.state.keyed.get(key)
        return None if kept is None else (kept[: -ANSWER.size], Answer(0, *ANSWER.unpack(kept[-ANSWER.size :])))

    def _open(self) -> None:
        """Opens and locks it. Tries again if another file took its path in between."""
        while True:
            self._file = os.open(self.path, os.O_RDWR | os.O_CREAT | os.O_CLOEXEC | os.O_NOCTTY, 0o600)
            if not stat.S_ISREG(os.fstat(self._file).st_mode):
                raise SessionFileError(f"{self.path} is no plain file")
            try:
                fcntl.flock(self._file, fcntl.LOCK_EX | fcntl.LOCK_NB)
            except BlockingIOError:
                raise SessionInUse(f"{self.path} is another client's") from None
            with suppress(FileNotFoundError):
                own = os.fstat(self._file)
                if os.path.samestat(os.stat(self.path), own):
                    if own.st_nlink > 1:
                        raise SessionFileError(f"{self.path} has another name too, which would become a copy")
                    return
            os.close(self._file)

    def close(self) -> None:
        """Writes what is not yet written, and releases the file to other clients."""
        if self._file >= 0:
            with suppress(OSError):  # unwritten answers, which the server gives again
                if (self._pending or self._noted != self._numbers()) and not self._is_broken:
                    self._write(self._file, sessionstate.block(self.state, bytes(self._pending)))
            fcntl.flock(self._file, fcntl.LOCK_UN)  # a child may still have it open for a moment
            self.abandon()

    def remove(self) -> None:
        if self._file >= 0:
            with suppress(OSError):  # the next process finds that the session was being ended
                os.unlink(self.path)
            self.abandon()

    def abandon(self) -> None:
        """Closes it as it is, as a child does with its parent's."""
        if self._file >= 0:
            file, self._file = self._file, -1
            os.close(file)

    __del__ = abandon  # if a client's constructor fails, nothing else closes it

    def start_over(self) -> None:
        """Begins with another session, after the end of this one."""
        self.state = State(secrets.randbits(63) | 2**63)
        self.compact()

    def _read(self) -> None:
        with open(self._file, "rb", closefd=False) as file:
            content = file.read()
        if not content:
            self.start_over()
            return
        self.state, end = sessionstate.read(content)
        if end < len(content):
            os.ftruncate(self._file, end)
        # A process may have ended without a sync of its last block, or of the file's new name.
        os.fsync(self._file)
        self._sync_folder()
        os.lseek(self._file, end, os.SEEK_SET)
        self._noted = self._numbers()
        self._size = end
        keyed = self.state.keyed
        keys = sum(map(len, keyed)) + sum(map(len, keyed.values())) + (1 + KEPT.size) * len(keyed)
        self._limit = max(_SHORT, _GROWTH * keys)

    # Writing: what happens is noted at once, and is in the file after the next `commit`.

    def begin(self, floor: int) -> None:
        self.state.numbers(floor, floor, floor)

    def _note(self, kind: int, *fields: bytes) -> None:
        record = sessionstate.record(kind, *fields)
        self.state.take(record)
        self._pending += record
        # (the server gives an answer again, and keeps nothing of keys)
        self.must_sync = self.must_sync or kind not in (ANSWERED_KIND, FORGOTTEN_KIND)

    def asked(self, number: int, asked: Asked) -> None:
        self._note(sessionstate.ASKED_KIND, *sessionstate.fields_of(number, asked))
        self.state.next = number + 1

    def settling(self, floor: int) -> None:
        """Notes that the floor is asked for. The file gets the answers below it first, since the server then drops them."""
        self.state.asked_floor = floor
        self.must_sync = True

    def answered(self, answer: Answer) -> None:
        self._note(ANSWERED_KIND, NUMBER.pack(answer.number), ANSWER.pack(*answer[1:]))

    def has_moved(self, number: int, new: int) -> None:
        self._note(MOVED_KIND, PAIR.pack(number, new))
        self.state.next = new + 1

    def has_ended(self, number: int) -> None:
        """Notes that the request was withdrawn or refused: its caller learns this, and the next process must not ask it again."""
        self._note(ENDED_KIND, NUMBER.pack(number))

    def settled(self, floor: int) -> None:
        self.state.floor = floor
        self.state.asked_floor = max(floor, self.state.asked_floor)

    def forget(self, *keys: bytes) -> None:
        for key in keys:
            if key in self.state.keyed:
                self._note(FORGOTTEN_KIND, LENGTH.pack(len(key)), key)

    def ending(self) -> None:
        self._note(LEAVING_KIND)

    def commit(self) -> None:
        """Writes and syncs everything noted so far. `SessionFileError` if it can't: then nothing may be sent."""
        if self._is_broken:
            raise SessionFileError(f"{self.path} could not be written")
        try:
            # (a rewritten file would not say which requests were moved)
            if self._size + len(self._pending) > self._limit and not self.moved:
                # (with a hard link that it got since, a new file in its place would be a copy nobody locks)
                if os.fstat(self._file).st_nlink == 1:
                    self.compact()
                    return
            block = sessionstate.block(self.state, bytes(self._pending))
            self._write(self._file, block)
            os.fdatasync(self._file)
        except OSError as error:
            self._is_broken = True  # its client ends, and nothing that is noted may be sent or written
            raise SessionFileError(f"{self.path}: {error}") from error
        self._size += len(block)
        self._noted = self._numbers()
        self._pending.clear()
        self.must_sync = False

    def compact(self) -> None:
        """Writes what must be kept into a new file, and replaces the old one with it."""
        new = f"{self.path}.new"
        with suppress(FileNotFoundError):
            os.unlink(new)
        file = os.open(new, os.O_RDWR | os.O_CREAT | os.O_EXCL | os.O_NOFOLLOW | os.O_CLOEXEC, 0o600)
        try:
            fcntl.flock(file, fcntl.LOCK_EX | fcntl.LOCK_NB)
            content = sessionstate.snapshot(self.state)
            self._write(file, content)
            os.fsync(file)
            self.replace(new)
        except BaseException:
            os.close(file)
            raise
        os.close(self._file)
        self._file = file
        self._size = len(content)
        self._limit = max(_SHORT, _GROWTH * len(content))
        self._noted = self._numbers()
        self._pending.clear()
        self.must_sync = False

    def replace(self, new: str) -> None:
        os.rename(new, self.path)
        self._sync_folder()

    def _sync_folder(self) -> None:
        folder = os.open(os.path.dirname(os.path.abspath(self.path)), os.O_RDONLY | os.O_CLOEXEC)
        try:
            os.fsync(folder)
        finally:
            os.close(folder)

    def _numbers(self) -> Tuple[int, int, int]:
        return self.state.floor, self.state.asked_floor, self.state.next

    @staticmethod
    def _write(file: int, content: bytes) -> None:
        while content:
            content = content[os.write(file, content) :]
