"""Requests to the server, as values: `client.submit(requests.readfe(array, 0))`.

A request is encoded when it is made, so a wrong argument is an error here, before the client has done anything.
"""

from __future__ import annotations

import operator
import struct
from dataclasses import dataclass
from functools import lru_cache, partial
from typing import Any, Dict, Generic, SupportsIndex, Tuple, TypeVar, Union

from . import _frames as frames
from ._errors import ProtocolError, answered
from ._frames import ACCESS, ACCESSES, ARRAY, DONE, NOWAIT, VALUE, pack_access

__all__ = [
    "Array", "ArrayLike", "Request", "create", "find", "int_fetch_add", "purge", "readfe", "readff", "readxx", "remove",
    "writeef", "writeff", "writexf",
]  # fmt: skip

T_co = TypeVar("T_co", covariant=True)


@dataclass(frozen=True)
class Array:
    """An array of the server: its id, which is never used again, and its length."""

    id: int
    length: int


ArrayLike = Union[Array, int]  # an array, or its id


class Request(Generic[T_co]):
    """A request. `frame` is its frame under number 0. `gives` is the code of its answer if that is not an error."""

    __slots__ = ("frame", "gives", "may_wait")

    def __init__(self, frame: bytes, gives: int, may_wait: bool = False) -> None:
        self.frame = frame
        self.gives = gives
        self.may_wait = may_wait

    def read(self, answer: frames.Answer) -> T_co:
        """The result of an answer that is not an error. `ProtocolError` if the answer can't be to this request."""
        _, code, value, length = answer
        if code != self.gives:
            raise ProtocolError(f"answer {code} to {self.what}")
        result: Any = Array(value, length) if code == ARRAY else value if code == VALUE else None
        return result  # type: ignore[no-any-return]

    @property
    def what(self) -> str:
        """The request in words: its operation and its arguments."""
        return _in_words(self.frame)

    def __repr__(self) -> str:
        return f"<femem request: {self.what}>"


# What has no request of its own: a report, the end of a session, a pause.
NOTHING: Request[Any] = Request(b"", DONE)


def _name_bytes(name: Union[str, bytes]) -> bytes:
    """Names that are not plain are refused by the server, except those too long for a frame."""
    if not isinstance(name, (str, bytes)):
        raise TypeError(f"a name is a str or bytes: {name!r}")
    spelled = name.encode("utf-8") if isinstance(name, str) else name
    if len(spelled) > frames.LONGEST_NAME:
        raise answered(frames.BAD_NAME, repr(name))
    return spelled


def number_of_bits(number: SupportsIndex, bits: int, what: str) -> int:
    """The number, as an `int`. `TypeError` if it is not a whole number, `ValueError` if it has more bits."""
    try:
        found = operator.index(number)
    except TypeError:
        raise TypeError(f"{what} is not a whole number: {number!r}") from None
    if not 0 <= found < 2**bits:
        raise ValueError(f"{what} is 0 to {2**bits - 1}, not {found}")
    return found


def _flag(flag: object, what: str) -> bool:
    if isinstance(flag, int) and flag in (0, 1):
        return bool(flag)
    raise TypeError(f"{what} is not True or False: {flag!r}")


def create(name: Union[str, bytes], length: int, full: bool = False) -> Request[Array]:
    """Makes an array: its words are empty, or all full with value 0. `NameTaken`, `ArrayLimit`, `WordLimit`, `BadName`, `BadLength`."""
    spelled = _name_bytes(name)
    try:
        size = number_of_bits(length, 32, "length")
    except ValueError:
        raise answered(frames.BAD_LENGTH, f"{operator.index(length)}") from None
    return Request(frames.create(0, spelled, size, _flag(full, "full")), ARRAY)


def find(name: Union[str, bytes]) -> Request[Array]:
    """The array of that name. `NoArray`, `BadName`."""
    return Request(frames.find(0, _name_bytes(name)), ARRAY)


def remove(array: ArrayLike) -> Request[None]:
    """Removes an array. What waits on it ends with `NoArray`."""
    return Request(frames.remove(0, _id(array)), DONE)


def _id(array: ArrayLike) -> int:
    return number_of_bits(array.id if isinstance(array, Array) else array, 64, "array")


def access(code: int, array: ArrayLike, index: int, operand: int = 0, nowait: bool = False) -> Request[Any]:
    """The request of an operation, by its code (`frames`)."""
    try:
        id = array.id if isinstance(array, Array) else array
        if operand == 0 or code == frames.INT_FETCH_ADD:
            return made_before(code, id, index, operand, nowait)  # patterns ask the same again and again
        return made(code, id, index, operand, nowait)
    except (struct.error, TypeError):
        # One of them is wrong, or no plain `int`: this raises for which.
        at, value = number_of_bits(index, 32, "index"), number_of_bits(operand, 64, "value")
        return made(code, _id(array), at, value, _flag(nowait, "nowait"))


def made(code: int, id: int, index: int, operand: int, nowait: bool) -> Request[Any]:
    """One that is nobody else's. `struct.error` if an argument is not a whole number or has too many bits."""
    _, gives, may_wait = OPERATIONS[code]
    if nowait is not False and nowait is not True:
        nowait = _flag(nowait, "nowait")
    return Request(pack_access(30, NOWAIT if nowait else ACCESS, 0, code, id, index, operand), gives, may_wait and not nowait)


# What patterns ask most: requests that do not wait, for an array, an index and a value.
look = partial(access, frames.READFF, nowait=True)
empty = partial(access, frames.READFE, nowait=True)
fill = partial(access, frames.WRITEEF, nowait=True)
add = partial(access, frames.INT_FETCH_ADD, nowait=True)


@lru_cache(maxsize=1024, typed=True)
def made_before(code: int, id: int, index: int, operand: int, nowait: bool) -> Request[Any]:
    return made(code, id, index, operand, nowait)


# For each operation: its name, the code of its answer, and whether it may wait.
OPERATIONS: Dict[int, Tuple[str, int, bool]] = {
    frames.READFE: ("readfe", VALUE, True),
    frames.READFF: ("readff", VALUE, True),
    frames.READXX: ("readxx", VALUE, False),
    frames.WRITEEF: ("writeef", DONE, True),
    frames.WRITEFF: ("writeff", DONE, True),
    frames.WRITEXF: ("writexf", DONE, False),
    frames.PURGE: ("purge", DONE, False),
    frames.INT_FETCH_ADD: ("int_fetch_add", VALUE, True),
}


def readfe(array: ArrayLike, index: int, nowait: bool = False) -> Request[int]:
    """Waits until the word is full, takes its value, and leaves it empty."""
    return access(frames.READFE, array, index, 0, nowait)


def readff(array: ArrayLike, index: int, nowait: bool = False) -> Request[int]:
    """Waits until the word is full, and reads its value."""
    return access(frames.READFF, array, index, 0, nowait)


def readxx(array: ArrayLike, index: int) -> Request[int]:
    """Reads the value, whether the word is full or empty."""
    return access(frames.READXX, array, index)


def writeef(array: ArrayLike, index: int, value: int, nowait: bool = False) -> Request[None]:
    """Waits until the word is empty, writes the value, and leaves it full."""
    return access(frames.WRITEEF, array, index, value, nowait)


def writeff(array: ArrayLike, index: int, value: int, nowait: bool = False) -> Request[None]:
    """Waits until the word is full, and writes the value."""
    return access(frames.WRITEFF, array, index, value, nowait)


def writexf(array: ArrayLike, index: int, value: int) -> Request[None]:
    """Writes the value, and leaves the word full, as it was or not."""
    return access(frames.WRITEXF, array, index, value)


def purge(array: ArrayLike, index: int) -> Request[None]:
    """Leaves the word empty, with value 0."""
    return access(frames.PURGE, array, index)


def int_fetch_add(array: ArrayLike, index: int, value: int, nowait: bool = False) -> Request[int]:
    """Waits until the word is full, adds the value modulo 2^64, and gives the value before."""
    return access(frames.INT_FETCH_ADD, array, index, value, nowait)


def of_frame(frame: bytes) -> Request[Any]:
    """The request whose `Request.frame` this is."""
    kind = frame[4]
    if kind in ACCESSES:
        _, gives, may_wait = OPERATIONS[frame[13]]
        return Request(frame, gives, may_wait and kind == ACCESS)
    return Request(frame, DONE if kind == 4 else ARRAY)


@lru_cache(maxsize=256)
def _in_words(frame: bytes) -> str:
    kind = frame[4]
    if kind in ACCESSES:
        array, index = int.from_bytes(frame[14:22], "big"), int.from_bytes(frame[22:26], "big")
        return f"{OPERATIONS[frame[13]][0]} {array} {index}"
    if kind == 4:
        return f"remove {int.from_bytes(frame[13:21], 'big')}"
    name = frame[14 : 14 + frame[13]].decode("utf-8", "replace")
    if kind in (3, 13):
        return f"find {name!r}"
    return f"create {name!r} {int.from_bytes(frame[-5:-1], 'big')}"
