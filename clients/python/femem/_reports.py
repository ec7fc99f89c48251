"""The server's wait report, as text and as rows."""

from __future__ import annotations

import re
from dataclasses import dataclass
from typing import Dict, List

from ._errors import ProtocolError

NEEDS = {"readfe": "full", "readff": "full", "writeef": "empty", "writeff": "full", "int_fetch_add": "full"}

_N = "([0-9]{1,20})"
_WAITING = re.compile(f"waiting {_N}")
_WORD = re.compile(f"word {_N} {_N} session {_N} number {_N} ([a-z_]+)")
_SESSION = re.compile(f"session {_N} waits {_N}")


@dataclass(frozen=True)
class Waiter:
    """A waiting request: its word, its session and number, and its operation."""

    array: int
    index: int
    session: int
    number: int
    operation: str

    @property
    def needs(self) -> str:
        """The tag that it waits for: `full` or `empty`."""
        return NEEDS[self.operation]


@dataclass(frozen=True)
class Report:
    """What waits now.

    `waiters` are in order of array, index, session and number; `sessions` has how many requests of each session wait;
    `all_wait` is whether a session is attached and each attached one waits for something.
    """

    text: str
    waiters: list[Waiter]
    sessions: dict[int, int]
    all_wait: bool


def parse(text: str) -> Report:
    """`ProtocolError` if the text is not a report."""
    lines = text.split("\n")
    if lines.pop() != "" or not lines:
        raise ProtocolError("a report that does not end with its line")
    head = _WAITING.fullmatch(lines[0])
    if head is None:
        raise ProtocolError("a report without its first line")
    if head[1] == "0" and len(lines) == 1:
        return Report(text, [], {}, False)
    if lines[-1] not in ("all-wait yes", "all-wait no"):
        raise ProtocolError("a report without its last line")
    waiters: List[Waiter] = []
    sessions: Dict[int, int] = {}
    for line in lines[1:-1]:
        word = _WORD.fullmatch(line)
        session = _SESSION.fullmatch(line)
        if word is not None and word[5] in NEEDS and not sessions:
            waiters.append(Waiter(int(word[1]), int(word[2]), int(word[3]), int(word[4]), word[5]))
        elif session is not None:
            sessions[int(session[1])] = int(session[2])
        else:
            raise ProtocolError("a report with a line of another kind")
    if len(waiters) != int(head[1]) or sum(sessions.values()) != len(waiters):
        raise ProtocolError("a report that does not add up")
    return Report(text, waiters, sessions, lines[-1] == "all-wait yes")
