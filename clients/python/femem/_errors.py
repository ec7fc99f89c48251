"""The errors of the client: one for each way in which something can fail.

What each error of the server means, with the limit and the way out, is in `clients/errors.txt`; femem-cli says the same.
"""

from __future__ import annotations

from typing import TypeVar

E = TypeVar("E", bound="type[AnswerError | Refused]")

# The errors of the server, by their codes of docs/formats.md.
ANSWER_ERRORS: dict[int, type[AnswerError]] = {}
REFUSALS: dict[int, type[Refused]] = {}

_IN_USE = "each client needs a session of its own, and another client uses this one"


class FememError(Exception):
    """Any error of this package."""


def _saying(error: E, text: str) -> E:
    """The error with its text, which describes it too where nothing else does."""
    error._text = text
    error.__doc__ = error.__doc__ or f"{text[0].upper()}{text[1:]}."
    return error


class AnswerError(FememError):
    """The server carried the request out, and its answer is an error.

    The answer is kept like any other. No word was changed.
    """

    _text = ""

    def __init_subclass__(cls, code: int = 0, text: str = "") -> None:
        if code:
            ANSWER_ERRORS[code] = _saying(cls, text)

    def __str__(self) -> str:
        """Of a request it is made only when it is wanted: patterns look at many words that are not as they need them."""
        what = getattr(self.args[0], "what", None) if self.args else None
        return super().__str__() if what is None else f"{what}: {self._text}"

    def __repr__(self) -> str:
        return f"{type(self).__name__}({str(self)!r})"


class NoArray(AnswerError, code=4, text="there is no such array: 'create' makes one"):
    """There is no such array. Also the answer to what waits on an array when it is removed."""


class BadIndex(AnswerError, code=5, text="the array has fewer words; the first one has the index 0"): ...
class NameTaken(AnswerError, code=6, text="there is an array of that name: 'find' finds it"): ...
class ArrayLimit(AnswerError, code=7, text="the server has 64 arrays, which is the most: 'remove' removes one"): ...
class WordLimit(AnswerError, code=8, text="the arrays would have more than 65536 words in all: 'remove' removes one"): ...
class BadName(AnswerError, code=9, text="names have a to z, 0 to 9 and _, and 1 to 32 of these"): ...
class BadLength(AnswerError, code=10, text="a length is 1 to 65536"): ...


class NotNow(AnswerError, code=11, text="not now: without 'nowait' it waits"):
    """The operation would have to wait, and `nowait` was given."""


class Refused(FememError):
    """The server refused a message: nothing of it happened, and no answer is kept."""

    _text = ""

    def __init_subclass__(cls, code: int = 0, text: str = "") -> None:
        if code:
            REFUSALS[code] = _saying(cls, text)


class NotAttached(Refused, code=1, text="each client needs a session of its own, and another client has taken this one"):
    """The connection has no session. Calls of this client raise it as `TakenOver`."""


class SessionLimit(Refused, code=2, text="the server has 64 sessions, which is the most: 'femem-cli sessions' lists them"): ...


class BelowFloor(Refused, code=3, text=_IN_USE):
    """The number is below the session's floor: another client uses the session."""


class BeyondWindow(Refused, code=4, text=_IN_USE):
    """The number is beyond the session's window: another client uses the session."""


class NumberUsed(Refused, code=5, text=_IN_USE):
    """Another request has the number: another client uses the session."""


class StillWaiting(Refused, code=6, text="a request has no answer yet: wait for it, or take it back"): ...
class Closing(Refused, code=7, text="the session is being ended: use another one"): ...
class NoMemory(Refused, code=8, text="the server has no memory for this now: try again later"): ...
class Spent(Refused, code=9, text="the store has no place for further entries, ever: make a new one"): ...


class NotWaiting(Refused, code=10, text="nothing waits under that number"):
    """Nothing waits under the number. This client handles it itself."""


class TakenOver(NotAttached):
    """Another connection attached the session. This client can't be used any more.

    A request without an answer happened once or not at all.
    """


class SessionLost(FememError):
    """The server does not keep the session any more: it was ended, or the store is another one.

    A request without an answer happened once or not at all, and is not sent again.
    """


class ProtocolError(FememError):
    """The server broke the protocol. This client can't be used any more."""


class ServerUnreachable(FememError, ConnectionError):
    """The server could not be reached, or was silent, for `reconnect_timeout` seconds.

    This client can't be used any more. A request without an answer happened once or not at all.
    """


class NoRight(ServerUnreachable):
    """This process may not use the socket: members of its group may, or its owner alone."""


class Withdrawn(FememError):
    """The request was taken back while it waited: nothing of it happened."""


class TimedOut(Withdrawn, TimeoutError):
    """The request was taken back because its time was over: nothing of it happened."""


class SessionFileError(FememError):
    """The session file can't be read or written, or is not a session file. Nothing was sent that it does not have."""


class SessionInUse(SessionFileError):
    """Another client has the session file open."""


class NotOwner(FememError):
    """The lock or permit is not held by the session that releases it, or is no longer."""


class OtherPattern(FememError, ValueError):
    """The array of that name is of another pattern, or of the same one with another size."""


class BrokenBarrier(FememError):
    """The barrier's round was broken, since a wait timed out or somebody broke it. `reset` begins a new one."""


class Closed(FememError):
    """The client is closed. A request without an answer happened once or not at all."""


def answered(code: int, what: str) -> AnswerError:
    """The error of an answer to what was asked: what is wrong, the limit, the way out."""
    return ANSWER_ERRORS[code](f"{what}: {ANSWER_ERRORS[code]._text}")


def refused(code: int, what: str) -> Refused:
    """The error of a refusal of what was asked."""
    return REFUSALS[code](f"{what}: {REFUSALS[code]._text}")
