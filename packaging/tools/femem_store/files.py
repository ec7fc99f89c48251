"""Files as the tools use them: read in pieces, locked, and made under PATH.new until they are whole. Each fault is one line."""

from __future__ import annotations

import contextlib
import fcntl
import os
import stat
from typing import Iterator, List, Optional, Sequence, Tuple

from .layout import FORMATS, SIZE

DONE, FAILED, USAGE, WITH_A_NOTE, NO_SERVER, NOT_ALLOWED = 0, 1, 2, 3, 4, 5
PIECE = 1 << 16
SECTOR = 512
# How a file begins that a tool left unfinished: as a store, or with nothing written yet.
STORE_HEADS = (*FORMATS, bytes(8))

Range = Tuple[int, int]


class Fault(Exception):
    """Why a tool did not do its work, in one line, and the status that it ends with."""

    def __init__(self, text: str, status: int = FAILED) -> None:
        super().__init__(text)
        self.status = status


@contextlib.contextmanager
def named(path: str) -> Iterator[None]:
    """Within it an error of the system is a fault that names the path."""
    try:
        yield
    except OSError as error:
        status = NOT_ALLOWED if isinstance(error, PermissionError) else FAILED
        raise Fault(f"{path}: {error.strerror or error}", status) from None


def opened(path: str, size: Optional[int] = SIZE) -> int:
    """The descriptor of a plain file, of a store's size unless `size` is None."""
    with named(path):
        # (a pipe must not keep an opening waiting)
        found = os.open(path, os.O_RDONLY | os.O_CLOEXEC | os.O_NONBLOCK)
    kind = os.fstat(found)
    if not stat.S_ISREG(kind.st_mode):
        os.close(found)
        raise Fault(f"{path} is no plain file")
    if size is not None and kind.st_size != size:
        os.close(found)
        raise Fault(f"{path} is no file of {size} bytes: it has {kind.st_size}")
    return found


def read_at(descriptor: int, count: int, at: int) -> bytes:
    """Reads so many bytes, or up to the file's end. (Where some can't be read, a call gives those before them.)"""
    content = os.pread(descriptor, count, at)
    while 0 < len(content) < count:
        more = os.pread(descriptor, count - len(content), at + len(content))
        if not more:
            break
        content += more
    return content


def pieces(descriptor: int, at: int, count: int) -> Iterator[Tuple[int, int, Optional[bytes]]]:
    """A range in pieces: offset, length and bytes of each, or None for a sector that can't be read."""
    try:
        yield at, count, read_at(descriptor, count, at)
    except OSError:
        if count <= SECTOR:
            yield at, count, None
            return
        half = (count // 2 + SECTOR - 1) // SECTOR * SECTOR
        yield from pieces(descriptor, at, half)
        yield from pieces(descriptor, at + half, count - half)


def whole(descriptor: int, path: str) -> Tuple[bytearray, List[Range]]:
    """All bytes of a file, with zeros for those that can't be read, and the ranges of those: first byte, and the one after the last."""
    size = os.fstat(descriptor).st_size
    content, lost = bytearray(size), []
    for begin in range(0, size, PIECE):
        for at, count, piece in pieces(descriptor, begin, min(PIECE, size - begin)):
            if piece is None:
                lost.append((at, at + count))
            elif len(piece) != count:
                raise Fault(f"{path}: the file changed while it was read")
            else:
                content[at : at + count] = piece
    return content, joined(lost)


def joined(ranges: Sequence[Range]) -> List[Range]:
    """Ranges in ascending order, those that touch as one."""
    found: List[Range] = []
    for begin, end in ranges:
        if found and found[-1][1] == begin:
            found[-1] = (found[-1][0], end)
        else:
            found.append((begin, end))
    return found


def unreadable(ranges: Sequence[Range]) -> str:
    """The bytes that can't be read, as a line names them."""
    return ", ".join(f"bytes {begin} to {end - 1} can't be read" for begin, end in ranges)


def holder(descriptor: int) -> str:
    """Who holds the lock of an open file, as far as the system tells."""
    inode = str(os.fstat(descriptor).st_ino)
    with contextlib.suppress(OSError), open("/proc/locks", encoding="ascii") as file:
        for line in file:
            words = line.split()
            if words[1] == "FLOCK" and words[5].split(":")[-1] == inode:
                with contextlib.suppress(OSError), open(f"/proc/{words[4]}/comm", encoding="utf-8") as name:
                    return f"process {words[4]}, {name.read().strip()}"
    return "another process"


def locked(path: str, descriptor: int) -> None:
    """Takes the lock that a server holds while it serves the file."""
    try:
        fcntl.flock(descriptor, fcntl.LOCK_EX | fcntl.LOCK_NB)
    except BlockingIOError:
        raise Fault(f"{path} is served: {holder(descriptor)} has its lock") from None
    except OSError as error:
        raise Fault(f"{path}: no lock: {error.strerror}") from None


def synced_folder(path: str) -> None:
    with named(os.path.dirname(os.path.abspath(path))):
        folder = os.open(os.path.dirname(os.path.abspath(path)), os.O_RDONLY | os.O_CLOEXEC)
        try:
            os.fsync(folder)
        finally:
            os.close(folder)


class New:
    """A file that is made under PATH.new (or another suffix), locked meanwhile, and gets the name PATH once it is whole and synced.

    What a killed tool left under PATH.new is written over. A live tool's file there, or one that no tool made, is a fault.
    """

    def __init__(
        self, path: str, heads: Sequence[bytes] = STORE_HEADS, suffix: str = ".new", mode: int = 0o600, owner: Optional[Tuple[int, int]] = None
    ) -> None:
        self.path = path
        self.new = path + suffix
        self.heads = heads
        self.mode = mode
        self.owner = owner
        self.descriptor = -1

    def __enter__(self) -> New:
        with named(self.new):
            while not self._claims():
                pass
        return self

    def _claims(self) -> bool:
        """Locks the file, and checks that it is still the one of this name."""
        flags = os.O_RDWR | os.O_CREAT | os.O_CLOEXEC | os.O_NOFOLLOW | os.O_NONBLOCK
        self.descriptor = os.open(self.new, flags, 0o600)
        try:
            fcntl.flock(self.descriptor, fcntl.LOCK_EX | fcntl.LOCK_NB)
        except BlockingIOError:
            os.close(self.descriptor)
            raise Fault(f"{self.new}: another tool is writing it") from None
        here = os.fstat(self.descriptor)
        with contextlib.suppress(FileNotFoundError):
            if os.path.samestat(here, os.stat(self.new, follow_symlinks=False)):
                if not self._is_left(here):
                    os.close(self.descriptor)
                    raise Fault(f"{self.new} is there, and is no unfinished file of a tool: move it away")
                return True
        os.close(self.descriptor)
        return False

    def _is_left(self, here: os.stat_result) -> bool:
        """Whether the file is new, or one that a tool began."""
        head = os.pread(self.descriptor, 8, 0) if stat.S_ISREG(here.st_mode) else b"?"
        return here.st_nlink == 1 and here.st_size <= SIZE and any(head[: len(it)] == it[: len(head)] for it in self.heads)

    def write(self, content: bytes | bytearray) -> None:
        """Writes and syncs the whole file."""
        with named(self.new):
            os.ftruncate(self.descriptor, 0)
            if self.owner and self.owner != (os.geteuid(), os.getegid()):
                os.fchown(self.descriptor, *self.owner)
            os.fchmod(self.descriptor, self.mode)
            at = 0
            while at < len(content):
                at += os.pwrite(self.descriptor, content[at : at + (1 << 20)], at)
            os.fsync(self.descriptor)

    def name(self) -> None:
        """Gives the file its name, in place of the one that has it, and syncs the folder."""
        with named(self.path):
            os.rename(self.new, self.path)
        os.close(self.descriptor)
        self.descriptor = -1
        synced_folder(self.path)

    def __exit__(self, *_: object) -> None:
        if self.descriptor >= 0:
            with contextlib.suppress(OSError):
                os.unlink(self.new)
            os.close(self.descriptor)
