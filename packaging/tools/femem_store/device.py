"""Whether what the system holds of a file in memory is what the device has."""

from __future__ import annotations

import errno
import mmap
import os
from typing import Callable, Optional

from .files import named, read_at

PIECE = 1 << 20
PAGE = 4096

# Reads so many bytes from an offset on.
ReadAt = Callable[[int, int], bytes]


class NoDirectReads(Exception):
    """The file system reads nothing past its memory."""


def reader(path: str) -> ReadAt:
    """Reads a file past the system's memory. Raises NoDirectReads where that can't be had."""
    try:
        descriptor = os.open(path, os.O_RDONLY | os.O_DIRECT | os.O_CLOEXEC)
        buffer = mmap.mmap(-1, PIECE)
        os.preadv(descriptor, [memoryview(buffer)[:PAGE]], 0)
    except OSError as error:
        raise NoDirectReads(error.strerror) from None

    def read(at: int, count: int) -> bytes:
        if os.preadv(descriptor, [memoryview(buffer)[:count]], at) != count:
            raise OSError(errno.EIO, os.strerror(errno.EIO))
        return buffer[:count]

    return read


def differs(held: ReadAt, direct: ReadAt, at: int, count: int) -> Optional[int]:
    """The first byte of a range that the two read differently. What one of them can't read is left out, by pages."""
    try:
        first, second = held(at, count), direct(at, count)
    except OSError:
        if count <= PAGE:
            return None
        halves = ((at, count // 2 // PAGE * PAGE), (at + count // 2 // PAGE * PAGE, count - count // 2 // PAGE * PAGE))
        return next((it for it in (differs(held, direct, *half) for half in halves) if it is not None), None)
    if first == second:
        return None
    return at + next((it for it, (one, other) in enumerate(zip(first, second)) if one != other), min(len(first), len(second)))


def stale_byte(path: str, descriptor: int) -> Optional[int]:
    """The first byte that the device has otherwise than the system holds it in memory, once the file is synced and what can be forgotten is
    forgotten; None if there is none. A file that can't be synced is a fault. Raises NoDirectReads."""
    with named(path):
        os.fdatasync(descriptor)
    os.posix_fadvise(descriptor, 0, 0, os.POSIX_FADV_DONTNEED)
    held: ReadAt = lambda at, count: read_at(descriptor, count, at)
    direct, size = reader(path), os.fstat(descriptor).st_size
    for at in range(0, size, PIECE):
        found = differs(held, direct, at, min(PIECE, size - at))
        if found is not None:
            return found
    return None
