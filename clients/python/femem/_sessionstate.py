"""What a session file holds, and the whole file as bytes (docs/session-file.md, "Bytes").

A `Contradiction` is what no client writes (docs/session-file.md, "What is refused").
"""

from __future__ import annotations

import re
import struct
import zlib
from typing import Callable, Dict, NamedTuple, Optional, Set, Tuple

from . import _frames as frames
from .requests import OPERATIONS

_NO_NUMBER: int = 2**64
_MANY = 4 * frames.WINDOW  # with so many answers, those below the floor are dropped


class Contradiction(Exception):
    """No client writes this."""


class Asked(NamedTuple):
    """A request in the file: its frame under number 0, its key if any, and whether it ends with its process."""

    frame: bytes
    key: Optional[bytes]
    ends_with_process: bool


# The kinds of records.
ASKED_KIND, ENDED_KIND, ANSWERED_KIND, MOVED_KIND, FORGOTTEN_KIND, KEPT_KIND, LEAVING_KIND = range(1, 8)

NUMBER = struct.Struct(">Q")
PAIR = struct.Struct(">QQ")
LENGTH = struct.Struct(">H")
FRAME_LENGTH = struct.Struct(">I")
ANSWER = struct.Struct(">BQI")
# As far as the key.
ASKED = struct.Struct(">QQBH")
KEPT = struct.Struct(">QH")

MAGIC = b"FEMEMSF2"
_NUMBERS = struct.Struct(">IQQQ")
_SUM = struct.Struct(">I")
_HEADER = len(MAGIC) + NUMBER.size + _SUM.size

ENDS_WITH_PROCESS = 1
LONGEST_KEY = 1024


def record(kind: int, *fields: bytes) -> bytes:
    return bytes((kind,)) + b"".join(fields)


def fields_of(number: int, asked: Asked) -> Tuple[bytes, bytes, bytes]:
    key = asked.key or b""
    return ASKED.pack(number, number, ENDS_WITH_PROCESS * asked.ends_with_process, len(key)), key, asked.frame


# The length of each kind of request, without its own 4 bytes.
_LENGTHS = {2: 31, 3: 26, 4: 17, 5: 30, 11: 30, 12: 47, 13: 42}

# An access under number 0: length, kind and number; then operation, array, index and operand, which is 0 where it is not used.
_HEAD = rb"\0\0\0\x1e[\x05\x0b]\0{8}"
_GIVES = rb"(?:[\x10-\x12].{12}\0{8}|\x17.{20})"
_DOES = rb"(?:[\x13-\x15].{20}|\x16.{12}\0{8})"
is_access = re.compile(_HEAD + b"(?:" + _GIVES + b"|" + _DOES + b")", re.DOTALL).match
# Nearly all that a file has of keys: an access with the answer that it happened, the value if it gives one.
has_happened = re.compile(_HEAD + b"(?:" + _GIVES + rb"\x01.{8}\0{4}|" + _DOES + rb"\x02\0{12})", re.DOTALL).match


def check_request(frame: bytes) -> None:
    if is_access(frame) and len(frame) == 34:
        return
    _must(len(frame) >= 13, "a request that is too short")
    kind = frame[4]
    _must(_LENGTHS.get(kind, 0) + 4 == len(frame) == 4 + int.from_bytes(frame[:4], "big"), "a request of no kind")
    _must(kind not in frames.ACCESSES, "a request of no operation, or with an operand that is not used")
    _must(not any(frame[5:13]), "a request with a number")
    if kind != 4:
        row = 16 if kind in (2, 3) else 32
        size = frame[13]
        _must(size <= 16 if row == 16 else 17 <= size <= 32, "a name of another length")
        _must(not any(frame[14 + size : 14 + row]), "a name with more behind it")
        _must(kind in (3, 13) or frame[-1] in (0, 1), "a tag")


def check_answer(frame: bytes, answer: bytes) -> None:
    code, value, length = ANSWER.unpack(answer)
    if code not in _codes(frame):
        raise Contradiction(f"answer {code} to a request of kind {frame[4]}")
    if code == frames.ARRAY:
        _must(value > 0 and 1 <= length <= 65536, "an array of no words, of too many, or without an id")
        is_create = frame[4] in (2, 12)
        _must(not is_create or length == int.from_bytes(frame[-5:-1], "big"), "an array of another length")
    elif length or (value and code != frames.VALUE):
        raise Contradiction(f"answer {code} with a value or a length")


def _codes(frame: bytes) -> Tuple[int, ...]:
    kind = frame[4]
    if kind in (2, 12):
        return frames.ARRAY, frames.BAD_NAME, frames.BAD_LENGTH, frames.NAME_TAKEN, frames.ARRAY_LIMIT, frames.WORD_LIMIT
    if kind in (3, 13):
        return frames.ARRAY, frames.BAD_NAME, frames.NO_ARRAY
    if kind == 4:
        return frames.DONE, frames.NO_ARRAY
    return (OPERATIONS[frame[13]][1], frames.NO_ARRAY, frames.BAD_INDEX) + ((frames.NOT_NOW,) if kind == frames.NOWAIT else ())


def _must(holds: bool, otherwise: str) -> None:
    if not holds:
        raise Contradiction(otherwise)


class State:
    """A session's numbers, its requests without an answer, and the answers of keys. Before its first request
    all numbers are 0. It changes by the bytes of records, as they are in the file. A file may have hundreds
    of thousands of keys, so nothing is made of a key but these bytes."""

    def __init__(self, session: int) -> None:
        self.session = session
        self.floor = self.asked_floor = self.next = 0
        self.is_ending = False
        # Each request without an answer, in the order of their numbers, in which they are given.
        self.unanswered: Dict[int, Asked] = {}
        self.keyed: Dict[bytes, bytes] = {}  # the request of each key that has an answer, followed by that
        # The answers of numbers from the floor on, without a key or with one; and some of numbers below.
        self.answers: Dict[int, bytes] = {}
        self.moved: Dict[int, int] = {}  # the new number of each request that was moved, by its former one
        self._open: Set[bytes] = set()  # the keys of `unanswered`
        self._greatest = 0  # the greatest number that a request was given
        # By the kind of a record: takes the one whose fields begin at a place, and returns where it ends.
        takes = (self._asked, self._ended, self._answered, self._moved, self._forgotten, self._kept, self._leaving)
        self._takes: Dict[int, Callable[[bytes, int], int]] = dict(enumerate(takes, ASKED_KIND))

    def take(self, payload: bytes) -> None:
        at, end, takes = 0, len(payload), self._takes
        try:
            while at < end:
                at = takes[payload[at]](payload, at + 1)
        except (struct.error, LookupError):
            at = end + 1
        if at > end:
            raise Contradiction("a record of no kind, or one that does not end")

    def numbers(self, floor: int, asked: int, upcoming: int) -> None:
        """The numbers at the end of a block."""
        if not 1 <= floor <= asked <= upcoming <= asked + frames.WINDOW and (floor or asked or upcoming):
            raise Contradiction(f"numbers {floor}, {asked}, {upcoming}")
        if floor < self.floor or asked < self.asked_floor or upcoming < self.next or asked > frames.GREATEST_FLOOR:
            former = f"{self.floor}, {self.asked_floor}, {self.next}"
            raise Contradiction(f"numbers {floor}, {asked}, {upcoming} after {former}")
        if next(iter(self.unanswered), _NO_NUMBER) < asked:
            raise Contradiction(f"a number below {asked}, the floor that was asked for")
        if 0 < self._greatest >= upcoming:
            raise Contradiction(f"number {self._greatest} where {upcoming} is the next one")
        self.floor, self.asked_floor, self.next = floor, asked, upcoming

    # The records. What is cut short at the end of the payload is refused by `take`.

    def _asked(self, payload: bytes, at: int) -> int:
        number, caller, flags, length = ASKED.unpack_from(payload, at)
        if flags > ENDS_WITH_PROCESS or not 1 <= caller <= number or length > LONGEST_KEY:
            raise Contradiction(f"number {number}, the caller's number {caller}, flags {flags}, a key of {length} bytes")
        at += ASKED.size
        begin = at + length
        end: int = begin + FRAME_LENGTH.size + FRAME_LENGTH.unpack_from(payload, begin)[0]
        key, frame = payload[at:begin], payload[begin:end]
        if not is_access(frame):
            check_request(frame)
        self._give(number)
        if length:
            self._must_be_new(key)
            self._open.add(key)
        self.unanswered[number] = tuple.__new__(Asked, (frame, key or None, flags == ENDS_WITH_PROCESS))  # (no call of Python)
        return end

    def _ended(self, payload: bytes, at: int) -> int:
        self._end(*NUMBER.unpack_from(payload, at))
        return at + NUMBER.size

    def _answered(self, payload: bytes, at: int) -> int:
        (number,) = NUMBER.unpack_from(payload, at)
        at += NUMBER.size
        end = at + ANSWER.size
        answer = payload[at:end]
        frame, key, _ = self._end(number)
        kept = frame + answer
        if not has_happened(kept):
            check_answer(frame, answer)
        self.answers[number] = answer
        if len(self.answers) > _MANY:
            self.answers = {number: answer for number, answer in self.answers.items() if number >= self.floor}
        if key is not None:
            self.keyed[key] = kept
        return end

    def _moved(self, payload: bytes, at: int) -> int:
        number, new = PAIR.unpack_from(payload, at)
        moved = self._end(number)
        self._give(new)
        self.unanswered[new] = moved
        self.moved[number] = new
        if moved.key is not None:
            self._open.add(moved.key)
        return at + PAIR.size

    def _forgotten(self, payload: bytes, at: int) -> int:
        at += LENGTH.size
        end = at + int(LENGTH.unpack_from(payload, at - LENGTH.size)[0])
        if self.keyed.pop(payload[at:end], None) is None:
            raise Contradiction(f"the key {payload[at:end]!r} has no answer")
        return end

    def _kept(self, payload: bytes, at: int) -> int:
        _, length = KEPT.unpack_from(payload, at)
        if not 1 <= length <= LONGEST_KEY:
            raise Contradiction(f"a key of {length} bytes")
        at += KEPT.size
        begin = at + length
        middle: int = begin + FRAME_LENGTH.size + FRAME_LENGTH.unpack_from(payload, begin)[0]
        end = middle + ANSWER.size
        key = payload[at:begin]
        if not has_happened(payload, begin):
            check_request(payload[begin:middle])
            check_answer(payload[begin:middle], payload[middle:end])
        self._must_be_new(key)
        self.keyed[key] = payload[begin:end]
        return end

    def _leaving(self, payload: bytes, at: int) -> int:
        self.is_ending = True
        return at

    def _give(self, number: int) -> None:
        """Gives a request this number. Numbers rise, and each is in one window with those that have no answer."""
        least = next(iter(self.unanswered), _NO_NUMBER)
        if not self._greatest < number < least + frames.WINDOW:
            raise Contradiction(f"number {number} after {self._greatest}, where {least} has no answer")
        self._greatest = number

    def _must_be_new(self, key: bytes) -> None:
        if key in self.keyed or key in self._open:
            raise Contradiction(f"the key {key!r} is used twice")

    def _end(self, number: int) -> Asked:
        asked = self.unanswered.pop(number, None)
        if asked is None:
            raise Contradiction(f"number {number} is not open")
        if asked.key is not None:
            self._open.discard(asked.key)
        return asked


def header(session: int) -> bytes:
    head = MAGIC + NUMBER.pack(session)
    return head + _SUM.pack(zlib.crc32(head))


def block(state: State, payload: bytes) -> bytes:
    head = _NUMBERS.pack(len(payload), state.floor, state.asked_floor, state.next)
    return head + payload + _SUM.pack(zlib.crc32(payload, zlib.crc32(head, _seed(state.session))))


def snapshot(state: State) -> bytes:
    """The shortest file that holds this state."""
    records = [record(KEPT_KIND, KEPT.pack(0, len(key)), key, kept) for key, kept in state.keyed.items()]
    records += [record(ASKED_KIND, *fields_of(*each)) for each in state.unanswered.items()]
    if state.is_ending:
        records.append(record(LEAVING_KIND))
    return header(state.session) + block(state, b"".join(records))


def read(content: bytes) -> Tuple[State, int]:
    """What a file holds, and where its whole blocks end. `Contradiction` if no client wrote it. What follows
    the whole blocks was being written when a process ended, and nothing of it was sent."""
    state = State(_session_of(content))
    seed, at = _seed(state.session), _HEADER
    while True:
        end = _block_end(content, at, seed)
        if end is None:
            break
        _, floor, asked, upcoming = _NUMBERS.unpack_from(content, at)
        state.take(content[at + _NUMBERS.size : end - _SUM.size])
        state.numbers(floor, asked, upcoming)
        at = end
    # A whole block after one that is not whole means damage.
    for behind in range(at + 1, len(content) - _NUMBERS.size - _SUM.size + 1):
        if _block_end(content, behind, seed) is not None:
            raise Contradiction(f"damaged at byte {at}")
    return state, at


def _seed(session: int) -> int:
    """With which the sums of a session's blocks begin."""
    return zlib.crc32(NUMBER.pack(session))


def _session_of(content: bytes) -> int:
    if not content.startswith(MAGIC):
        if content[:7] == MAGIC[:7]:
            raise Contradiction(f"a file of the C client's version {content[7:8]!r}: open it with that client first")
        raise Contradiction("it is no session file")
    if len(content) < _HEADER:
        raise Contradiction("it is damaged: its header is not whole")
    (session,) = NUMBER.unpack_from(content, len(MAGIC))
    if content[:_HEADER] != header(session):
        raise Contradiction("it is damaged in its header")
    return int(session)


def _block_end(content: bytes, at: int, seed: int) -> Optional[int]:
    """Where the block at `at` ends, if it is whole."""
    if len(content) - at < _NUMBERS.size + _SUM.size:
        return None
    (length,) = _SUM.unpack_from(content, at)
    end: int = at + _NUMBERS.size + length
    if end + _SUM.size > len(content):
        return None
    (checksum,) = _SUM.unpack_from(content, end)
    return end + _SUM.size if zlib.crc32(content[at:end], seed) == checksum else None
