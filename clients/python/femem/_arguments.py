"""What callers give to a client, checked: times, keys, requests, and which session it has."""

from __future__ import annotations

import hashlib
import math
import os
from typing import Any, List, NamedTuple, Optional, Union

from .events import OnEvent
from .requests import Request
from ._sessionfile import SessionFile

MOST = 64  # how many sessions the server keeps

_LONGEST_SLEEP = 3600.0  # how long a client sleeps at most, in seconds


class Default:
    """Means "the client's own timeout"."""


DEFAULT = Default()
Timeout = Union[float, None, Default]

Path = Union[str, bytes, "os.PathLike[str]"]
Key = Union[str, bytes, int]


def seconds_of(timeout: object, what: str = "timeout") -> Optional[float]:
    """A number of seconds, or `None` for no limit."""
    if timeout is None:
        return None
    if isinstance(timeout, bool) or not isinstance(timeout, (int, float)):
        raise TypeError(f"{what} is not a number of seconds: {timeout!r}")
    try:
        seconds = float(timeout)
    except OverflowError:
        seconds = math.nan
    if math.isnan(seconds):
        raise ValueError(f"{what} is not a number of seconds: {timeout!r}")
    return None if seconds == math.inf else seconds


def pause_of(probe_interval: object) -> float:
    """A pause between two looks at the clock, in seconds, greater than 0."""
    seconds = seconds_of(probe_interval, "probe_interval")
    if seconds is not None and seconds <= 0.0:
        raise ValueError(f"probe_interval is more than 0: {probe_interval!r}")
    return _LONGEST_SLEEP if seconds is None else min(seconds, _LONGEST_SLEEP)


def key_bytes(key: Key) -> bytes:
    """A key as in the session file. Keys that are equal as text are the same key."""
    if isinstance(key, bool) or not isinstance(key, (str, bytes, int)):
        raise TypeError(f"a key is a str, bytes or an int: {key!r}")
    # The value's own spelling, whatever a subclass prints: that of an `IntEnum` differs between versions of Python.
    if isinstance(key, bytes):
        spelled = bytes(memoryview(key))
    else:
        spelled = (int.__repr__(key) if isinstance(key, int) else str.__str__(key)).encode("utf-8")
    if not 1 <= len(spelled) <= 1024:
        raise ValueError(f"a key has 1 to 1024 bytes: {key!r}")
    return spelled


def request_of(request: object) -> Request[Any]:
    if not isinstance(request, Request):
        raise TypeError(f"not a request of femem.requests: {request!r}")
    return request


def numbers(session: int, count: int) -> List[int]:
    """A session's further sessions: always the same ones, which a restarted client takes over, and far from others."""
    spelled = [b"femem %d further %d" % (session, k) for k in range(1, count)]
    return [int.from_bytes(hashlib.sha256(each).digest()[:8], "big") | 2**63 for each in spelled]


class Choice(NamedTuple):
    """What a client is made with: the number of its session, the file that holds it, and whether it ends with the client; how
    many sessions it has; and in seconds how long the server may be away, and how often it is asked whether it is there.
    """

    path: str
    session: int
    file: Optional[SessionFile] = None
    is_temporary: bool = False
    sessions: int = 1
    patience: Optional[float] = None
    pause: float = 5.0
    waits_for_server: bool = False
    on_event: Optional[OnEvent] = None

    def further(self, number: int) -> Choice:
        return self._replace(session=number, file=None, is_temporary=False, sessions=1, waits_for_server=True)

    def all_further(self) -> List[Choice]:
        return [self.further(number) for number in numbers(self.session, self.sessions)]
