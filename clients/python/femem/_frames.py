"""Messages and replies as bytes (docs/formats.md, "Frames", version 2).

Each message has a function that encodes it. A strict decoder reads replies: it refuses every byte that no correct server
sends, and holds at most one frame.
"""

from __future__ import annotations

import struct
from functools import partial
from typing import Callable, Dict, List, NamedTuple, Tuple, Union

from ._errors import ProtocolError

WINDOW = 32
GREATEST_FLOOR = 2**63 - 32
LONGEST_NAME = 32
LONGEST_REPORT = 262_144

READFE, READFF, READXX, WRITEEF, WRITEFF, WRITEXF, PURGE, INT_FETCH_ADD = range(16, 24)

# The kind of an access, and of one that does not wait: they have an operation, an array and an index.
ACCESS, NOWAIT = 5, 11
ACCESSES = (ACCESS, NOWAIT)

VALUE, DONE, ARRAY, NO_ARRAY, BAD_INDEX = 1, 2, 3, 4, 5
NAME_TAKEN, ARRAY_LIMIT, WORD_LIMIT, BAD_NAME, BAD_LENGTH, NOT_NOW = 6, 7, 8, 9, 10, 11

NOT_ATTACHED, SESSION_LIMIT, BELOW_FLOOR, BEYOND_WINDOW, NUMBER_USED = 1, 2, 3, 4, 5
STILL_WAITING, CLOSING, NO_MEMORY, SPENT, NOT_WAITING = 6, 7, 8, 9, 10


def _frame(kind: int, body: bytes = b"") -> bytes:
    return struct.pack(">IB", 1 + len(body), kind) + body


def create(number: int, name: bytes, length: int, full: bool) -> bytes:
    """Names of up to 16 bytes and longer ones have different kinds."""
    kind, row = (2, 16) if len(name) <= 16 else (12, 32)
    return _frame(kind, struct.pack(f">QB{row}sIB", number, len(name), name, length, full))


def find(number: int, name: bytes) -> bytes:
    kind, row = (3, 16) if len(name) <= 16 else (13, 32)
    return _frame(kind, struct.pack(f">QB{row}s", number, len(name), name))


def remove(number: int, array: int) -> bytes:
    return _frame(4, struct.pack(">QQ", number, array))


# An access: length 30, kind, number, code, array, index, operand. `struct.error` if one is no whole number or is too large.
pack_access = struct.Struct(">IBQBQIQ").pack
pack_number = struct.Struct(">Q").pack_into


def append_under(stream: bytearray, frame: bytes, number: int, nowait: bool = False) -> None:
    """Appends the frame of a request, encoded under number 0, under this number. `nowait` is for operations
    that may wait: it then does not wait."""
    at = len(stream) + 5
    stream += frame
    pack_number(stream, at, number)
    if nowait:
        stream[at - 1] = NOWAIT


def _of_number(kind: int) -> Callable[[int], bytes]:
    return lambda number: _frame(kind, struct.pack(">Q", number))


attach, cancel, settle = _of_number(1), _of_number(6), _of_number(7)
bye, report = partial(_frame, 8), partial(_frame, 9)


class Answer(NamedTuple):
    """`value` is the value of *value* or the id of *array*; `length` is that of *array*; otherwise they are 0."""

    number: int
    code: int
    value: int = 0
    length: int = 0


Welcome = NamedTuple("Welcome", [("session", int), ("floor", int)])
Withdrawn = NamedTuple("Withdrawn", [("number", int)])
Settled = NamedTuple("Settled", [("floor", int)])
Goodbye = NamedTuple("Goodbye", [("session", int)])
Refusal = NamedTuple("Refusal", [("number", int), ("code", int)])
Report = NamedTuple("Report", [("text", str)])
Reply = Union[Welcome, Answer, Withdrawn, Settled, Goodbye, Refusal, Report]

# The fields of each kind, and what it is, except a report.
_NUMBER = struct.Struct(">Q")
_KINDS: Dict[int, Tuple[struct.Struct, Callable[..., Reply]]] = {
    65: (struct.Struct(">QQ"), Welcome), 66: (struct.Struct(">QBQI"), Answer), 67: (_NUMBER, Withdrawn),
    68: (_NUMBER, Settled), 69: (_NUMBER, Goodbye), 70: (struct.Struct(">QB"), Refusal),
}  # fmt: skip
_REPORT = 71

# An answer: length, kind, number, code, value and length of an array.
ANSWER_BYTES = 26
_new_tuple = tuple.__new__
unpack_answer = struct.Struct(">IBQBQI").unpack_from


def _read_plain_answers(stream: Union[bytes, bytearray], at: int, replies: List[Reply]) -> int:
    """Appends the *value*, *done* and *not now* answers, the most common, from `at` on. Returns where they
    end. It stops at anything else, correct or not, which the other readers handle."""
    end = at + (len(stream) - at) // ANSWER_BYTES * ANSWER_BYTES
    for here in range(at, end, ANSWER_BYTES):
        size, kind, number, code, value, length = unpack_answer(stream, here)
        if size != 22 or kind != 66 or length or code != VALUE and (code != DONE and code != NOT_NOW or value):
            return here
        replies.append(_new_tuple(Answer, (number, code, value, 0)))
    return end


class ReplyDecoder:
    """Reads replies from a stream, in whatever pieces it comes. It holds less than a frame between pieces,
    and a frame has at most 262,149 bytes."""

    def __init__(self) -> None:
        self._rest = bytearray()
        self._offset = 0

    def feed(self, piece: bytes) -> List[Reply]:
        """The replies that the piece completes. `ProtocolError` has the offset of the first invalid frame;
        nothing of that piece is then returned."""
        if len(piece) == ANSWER_BYTES and not self._rest:
            size, kind, number, code, value, length = unpack_answer(piece)
            if size == 22 and kind == 66 and not length and (code == VALUE or code == DONE and not value):
                self._offset += ANSWER_BYTES
                return [_new_tuple(Answer, (number, code, value, 0))]
        replies: List[Reply] = []
        stream: Union[bytes, bytearray] = piece
        if self._rest:
            stream = self._rest
            stream += piece
        at = _read_plain_answers(stream, 0, replies)
        while at < len(stream):
            end = self._end_of_frame(stream, at)
            if end == 0:
                break
            replies.append(self._reply(stream, at, end))
            at = _read_plain_answers(stream, end, replies)
        if stream is not piece:
            del self._rest[:at]
        elif at < len(piece):
            self._rest += piece[at:]
        self._offset += at
        return replies

    def _bad(self, at: int, what: str) -> ProtocolError:
        return ProtocolError(f"bad frame at offset {self._offset + at}: {what}")

    def _end_of_frame(self, stream: Union[bytes, bytearray], at: int) -> int:
        """Where the frame at `at` ends, or 0 if it is not whole. It is refused as soon as its head is wrong."""
        have = len(stream) - at
        if have < 4:
            return 0
        length = int.from_bytes(stream[at : at + 4], "big")
        if not 1 <= length <= 1 + LONGEST_REPORT:
            raise self._bad(at, f"length {length}")
        if have < 5:
            return 0
        kind = stream[at + 4]
        if not (length >= 2 if kind == _REPORT else kind in _KINDS and length == 1 + _KINDS[kind][0].size):
            raise self._bad(at, f"kind {kind} of length {length}")
        return at + 4 + length if have >= 4 + length else 0

    def _reply(self, stream: Union[bytes, bytearray], at: int, end: int) -> Reply:
        kind = stream[at + 4]
        if kind == _REPORT:
            try:
                return Report(bytes(stream[at + 5 : end]).decode("utf-8"))
            except UnicodeDecodeError:
                raise self._bad(at, "a report that is not UTF-8") from None
        layout, make = _KINDS[kind]
        reply = make(*layout.unpack_from(stream, at + 5))
        if isinstance(reply, Welcome) and not 1 <= reply.floor <= GREATEST_FLOOR:
            raise self._bad(at, f"floor {reply.floor}")
        if isinstance(reply, Refusal) and not 1 <= reply.code <= 10:
            raise self._bad(at, f"refusal {reply.code}")
        if isinstance(reply, Answer):
            _, code, value, length = reply
            if not 1 <= code <= 11:
                raise self._bad(at, f"answer {code}")
            if code != ARRAY and length or code not in (VALUE, ARRAY) and value:
                raise self._bad(at, f"answer {code} with an unused field")
        return reply
