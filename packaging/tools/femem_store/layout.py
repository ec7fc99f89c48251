"""A store's bytes, by docs/formats.md, "Device": where its slots, headers, gates and groups are."""

from __future__ import annotations

import struct
from typing import Callable, Iterator, NamedTuple, Optional, Tuple

SIZE = 4202496
SLOT = 2101248
GATE = 4095
IMAGE = 4096
JOURNAL = 1052672
AREA = 1048576
LEAST_IMAGE = 24


class Format(NamedTuple):
    """A format: its number, the bytes of a name and of a record, and how many records a group has at most."""

    number: int
    name: int
    record: int
    most: int


FORMATS = {b"FEMEMST1": Format(1, 16, 64, 16383), b"FEMEMST2": Format(2, 32, 80, 13107)}

# Reads so many bytes from an offset on.
Read = Callable[[int, int], bytes]
# The offset of a group in the journal area, and its payload's length; None if it is no length that a group there may have.
Group = Tuple[int, Optional[int]]


class Header:
    """A slot's header as it was read. `form` is the format that its magic names; the slot is valid if it has one and an open gate."""

    def __init__(self, read: Read, slot: int) -> None:
        self.slot = slot
        self.base = slot * SLOT
        self.fields = read(self.base, 20)
        self.gate = read(self.base + GATE, 1)
        self.form = FORMATS.get(self.fields[:8])
        self.generation, self.image_length = struct.unpack(">QI", self.fields[8:])

    @property
    def is_valid(self) -> bool:
        return self.form is not None and self.gate == b"\1"


def counting(read: Read) -> Optional[Header]:
    """The header of the slot that counts, or None if no slot is valid."""
    valid = [it for it in (Header(read, 0), Header(read, 1)) if it.is_valid]
    return max(valid, key=lambda it: (it.generation, -it.slot)) if valid else None


def length_at(read: Read, form: Format, area: int, at: int) -> Optional[int]:
    """The payload's length of the group at an offset of the journal area, whatever its gate; None if no group there may have it."""
    (length,) = struct.unpack(">I", read(area + at + 1, 4).rjust(4, b"\0"))
    fits = length % form.record == 0 and 1 <= length // form.record <= form.most and at + 6 + length <= AREA
    return length if fits else None


def groups(read: Read, header: Header) -> Iterator[Group]:
    """The groups of a slot, up to the first gate that is not open. The last one has the length None if it is none of a group."""
    assert header.form is not None
    area, at = header.base + JOURNAL, 0
    while read(area + at, 1) == b"\1":
        length = length_at(read, header.form, area, at)
        yield at, length
        if length is None:
            return
        at += 5 + length


def bytes_of(content: bytes | bytearray) -> Read:
    """A reader of bytes in memory."""
    return lambda at, count: bytes(content[at : at + count])
