"""What a client tells its program as it goes: for metrics and traces.

| kind | when | seconds |
|---|---|---|
| `attached` | the session is attached, or again | since the client was opened, or since its connection broke |
| `lost` | the connection broke | since it was attached |
| `sent_again` | a request without an answer is sent again over a new connection | since it was asked |
| `moved` | a waiting request gets a later number, or goes to a further session | since it was asked |
| `answered` | a request has its answer | since it was asked |
| `failed` | the client can't be used any more, and nobody closed it | 0 |
"""

from __future__ import annotations

import logging
import time
from typing import Callable

__all__ = ["KINDS", "OnEvent"]

# What a client calls: with the kind, its session and the seconds.
OnEvent = Callable[[str, int, float], object]

# Every kind, in the order of the table above.
KINDS = ("attached", "lost", "sent_again", "moved", "answered", "failed")

log = logging.getLogger("femem")


class Events:
    """Calls `on_event(kind, session, seconds)`. What it raises is logged."""

    def __init__(self, on_event: OnEvent, session: int) -> None:
        if not callable(on_event):
            raise TypeError(f"on_event can't be called: {on_event!r}")
        self._on_event = on_event
        self._session = session

    def emit(self, kind: str, seconds: float) -> None:
        try:
            self._on_event(kind, self._session, seconds)
        except Exception:
            log.exception("session %d: on_event failed", self._session)

    def since(self, kind: str, begin: float) -> None:
        """Something that began at this time, of `now`."""
        self.emit(kind, max(0.0, self.now() - begin))

    now = staticmethod(time.monotonic)
