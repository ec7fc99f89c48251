"""The state that a store holds, by docs/formats.md and the README's table of operations, and its sum.

The sum of a state is the SHA-256 of its image in format 2. So two stores of one state have one sum, whatever slot, format and
groups each has it in. The entries are taken as legal: `femem look` has opened the store.
"""

from __future__ import annotations

import hashlib
import struct
from typing import Dict, List, Tuple

from . import layout
from .layout import Format, Header, Read

FULL, EMPTY = 1, 0
ATTACHED, CLOSED, SETTLED = 1, 2, 3
CREATE, REMOVE = 1, 3
VALUE, DONE, ARRAY = 1, 2, 3
# For each operation what it leaves: the word's value ("same", "operand", "zero" or "sum"), and its tag, or None for the same.
LEAVES: Dict[int, Tuple[str, int | None]] = {
    16: ("same", EMPTY), 17: ("same", FULL), 18: ("same", None), 19: ("operand", FULL), 20: ("operand", FULL), 21: ("operand", FULL),
    22: ("zero", EMPTY), 23: ("sum", FULL),
}


class Array:
    def __init__(self, name: bytes, words: bytearray) -> None:
        self.name = name
        self.words = words


class Session:
    """A session's floor, and for each number that is kept its place and its record of format 2."""

    def __init__(self, floor: int) -> None:
        self.floor = floor
        self.kept: Dict[int, Tuple[int, bytes]] = {}


def widened(record: bytes, form: Format) -> bytes:
    """A record in format 2."""
    return record if form.number == 2 else record[:40] + bytes(16) + record[40:]


class State:
    """The state of an image."""

    def __init__(self, image: bytes, form: Format) -> None:
        self.arrays: Dict[int, Array] = {}
        self.sessions: Dict[int, Session] = {}
        self.place, self.next_id, arrays, sessions = struct.unpack_from(">QQII", image)
        at = 24
        for _ in range(arrays):
            number, length = struct.unpack_from(">QB", image, at)
            name = image[at + 9 : at + 9 + length]
            at += 9 + form.name
            (length,) = struct.unpack_from(">I", image, at)
            self.arrays[number] = Array(name, bytearray(image[at + 4 : at + 4 + 9 * length]))
            at += 4 + 9 * length
        for _ in range(sessions):
            number, floor, kept = struct.unpack_from(">QQI", image, at)
            self.sessions[number] = session = Session(floor)
            at += 20
            for _ in range(kept):
                record = widened(image[at + 8 : at + 8 + form.record], form)
                session.kept[int.from_bytes(record[16:24], "big")] = (int.from_bytes(image[at : at + 8], "big"), record)
                at += 8 + form.record
        # The image's own length, up to its last field.
        self.length = at

    def apply(self, record: bytes) -> None:
        """Carries out an entry, given by its record of format 2."""
        kind, session, number = record[0], *struct.unpack_from(">QQ", record, 8)
        if kind == ATTACHED:
            self.sessions.setdefault(session, Session(number))
        elif kind == CLOSED:
            del self.sessions[session]
        elif kind == SETTLED:
            known = self.sessions[session]
            known.floor = number
            known.kept = {it: kept for it, kept in known.kept.items() if it >= number}
        else:
            self.sessions[session].kept[number] = (self.place, record)
            self._carry_out(record)
        self.place += 1

    def _carry_out(self, record: bytes) -> None:
        code, answer, name_length, tag = record[1:5]
        array, operand = struct.unpack_from(">QQ", record, 24)
        length, _, value = struct.unpack_from(">IIQ", record, 56)
        if code == CREATE and answer == ARRAY:
            self.arrays[value] = Array(record[24 : 24 + name_length], bytearray(struct.pack(">BQ", tag, 0) * length))
            self.next_id += 1
        elif code == REMOVE and answer == DONE:
            del self.arrays[array]
        elif code in LEAVES and answer in (VALUE, DONE):
            words, leaves = self.arrays[array].words, LEAVES[code]
            old_tag, old = struct.unpack_from(">BQ", words, 9 * length)
            new = {"same": old, "operand": operand, "zero": 0, "sum": (old + operand) % 2**64}[leaves[0]]
            struct.pack_into(">BQ", words, 9 * length, old_tag if leaves[1] is None else leaves[1], new)

    def image(self) -> bytes:
        """The image of the state in format 2."""
        parts: List[bytes] = [struct.pack(">QQII", self.place, self.next_id, len(self.arrays), len(self.sessions))]
        for number, array in sorted(self.arrays.items()):
            parts += [struct.pack(">QB32sI", number, len(array.name), array.name, len(array.words) // 9), array.words]
        for number, session in sorted(self.sessions.items()):
            parts.append(struct.pack(">QQI", number, session.floor, len(session.kept)))
            parts += [struct.pack(">Q", place) + record for _, (place, record) in sorted(session.kept.items())]
        return b"".join(parts)

    def sum(self) -> str:
        return hashlib.sha256(self.image()).hexdigest()


def own_length(area: bytes, form: Format) -> int | None:
    """The length of the image that an area begins with, by its own counts; None if it has none that may be."""
    try:
        length = State(area, form).length
    except struct.error:
        return None
    return length if length <= len(area) else None


def state_of(read: Read, header: Header) -> State:
    """The state of a slot of a store that opens."""
    assert header.form is not None
    state = State(read(header.base + layout.IMAGE, header.image_length), header.form)
    for at, length in layout.groups(read, header):
        payload = read(header.base + layout.JOURNAL + at + 5, length or 0)
        for begin in range(0, len(payload), header.form.record):
            state.apply(widened(payload[begin : begin + header.form.record], header.form))
    return state


def sum_of(content: bytes | bytearray) -> str:
    """The sum of the state of a store that opens."""
    read = layout.bytes_of(content)
    header = layout.counting(read)
    assert header is not None
    return state_of(read, header).sum()
