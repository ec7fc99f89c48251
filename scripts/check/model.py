"""What the entries of a server's history do, from the table of docs/commands.md and docs/model.md.

An entry is ("attached", SESSION, FLOOR), ("closed", SESSION), ("settled", SESSION, FLOOR) or
("finished", SESSION, NUMBER, REQUEST, ANSWER), with requests and answers as in wire.py.
"""

import re
from dataclasses import dataclass, field

from . import tables
from .wire import OPS

LIMITS = tables.limits()
MOST_ARRAYS, MOST_WORDS = LIMITS["arrays"][0], LIMITS["words in all arrays"][0]
MOST_SESSIONS, WINDOW = LIMITS["sessions kept"][0], LIMITS["request numbers of a session in use"][0]
TOP_FLOOR, TOP_PLACE = 2**63 - 32, 2**63 - 1
PLAIN = re.compile(b"[a-z0-9_]{%d,%d}" % tuple(LIMITS["name of an array"][:2]))
EMPTY, FULL = 0, 1
TAGS = {"empty": EMPTY, "full": FULL}
TABLE = {OPS[name.encode()]: row for name, row in tables.operations().items()}


class Illegal(Exception):
    """An entry that cannot come after those before it."""


def table(op, operand, value, tag):
    """The operation table of docs/commands.md: the value and tag after, and the answer; None where it waits."""
    needs, value_after, tag_after, answer = TABLE[op]
    if needs != "any" and tag != TAGS[needs]:
        return None
    after = {"same": value, "operand": operand, "0": 0, "(value + operand) mod 2^64": (value + operand) % 2**64}[value_after]
    return after, TAGS.get(tag_after, tag), {"old value": ("value", value), "done": ("done",)}[answer]


@dataclass
class Array:
    name: bytes
    words: list


@dataclass
class Session:
    floor: int
    kept: dict = field(default_factory=dict)


@dataclass
class State:
    place: int = 0
    next_id: int = 1
    arrays: dict = field(default_factory=dict)
    sessions: dict = field(default_factory=dict)

    def looks(self):
        """What `femem look` prints for it."""
        lines = [f"place {self.place}"]
        lines += [f"array {id} {it.name.decode()} {len(it.words)}" for id, it in sorted(self.arrays.items())]
        lines += [f"session {session} floor {it.floor} kept {len(it.kept)}" for session, it in sorted(self.sessions.items())]
        return "".join(line + "\n" for line in lines)

    def named(self, name):
        return next((id for id, it in self.arrays.items() if it.name == name), None)

    def answer_to(self, request):
        """The answer, or None where the request waits."""
        kind, *rest = request
        if kind == "create":
            name, length, _ = rest
            if not PLAIN.fullmatch(name):
                return ("bad-name",)
            if not 1 <= length <= MOST_WORDS:
                return ("bad-length",)
            if self.named(name) is not None:
                return ("name-taken",)
            if len(self.arrays) >= MOST_ARRAYS:
                return ("array-limit",)
            if sum(len(it.words) for it in self.arrays.values()) + length > MOST_WORDS:
                return ("word-limit",)
            return ("array", self.next_id, length)
        if kind == "find":
            if not PLAIN.fullmatch(rest[0]):
                return ("bad-name",)
            id = self.named(rest[0])
            return ("no-array",) if id is None else ("array", id, len(self.arrays[id].words))
        if rest[0 if kind == "remove" else 1] not in self.arrays:
            return ("no-array",)
        if kind == "remove":
            return ("done",)
        op, array, index, operand, nowait = rest
        words = self.arrays[array].words
        if index >= len(words):
            return ("bad-index",)
        does = table(op, operand, *words[index])
        if does is None:
            return ("not-now",) if nowait else None
        return does[2]

    def check(self, entry):
        """Raises Illegal if the entry cannot come now."""
        kind, session, *rest = entry
        known = self.sessions.get(session)
        if self.place >= TOP_PLACE:
            raise Illegal(f"{entry} at the last place")
        if kind == "attached":
            if known is None and (rest[0] != 1 or len(self.sessions) >= MOST_SESSIONS):
                raise Illegal(f"{entry} of a new session, {len(self.sessions)} there")
            if known is not None and known.floor != rest[0]:
                raise Illegal(f"{entry} at floor {known.floor}")
            return
        if known is None:
            raise Illegal(f"{entry} of no session")
        if kind == "settled" and not known.floor <= rest[0] <= min(known.floor + WINDOW, TOP_FLOOR):
            raise Illegal(f"{entry} at floor {known.floor}")
        if kind == "finished":
            number, request, answer = rest
            if not known.floor <= number < known.floor + WINDOW:
                raise Illegal(f"{entry} at floor {known.floor}")
            if number in known.kept:
                raise Illegal(f"{entry}, but {known.kept[number]} is kept")
            if self.answer_to(request) != answer:
                raise Illegal(f"{entry}, but the table answers {self.answer_to(request)}")

    def apply(self, entry):
        """Checks an entry and carries it out."""
        self.check(entry)
        kind, session, *rest = entry
        if kind == "attached":
            self.sessions.setdefault(session, Session(1))
        elif kind == "closed":
            del self.sessions[session]
        elif kind == "settled":
            known = self.sessions[session]
            known.floor = rest[0]
            known.kept = {number: it for number, it in known.kept.items() if number >= known.floor}
        else:
            number, request, answer = rest
            self.sessions[session].kept[number] = (request, answer, self.place)
            self.carry_out(request, answer)
        self.place += 1

    def carry_out(self, request, answer):
        kind, *rest = request
        if kind == "create" and answer[0] == "array":
            self.arrays[answer[1]] = Array(rest[0], [(0, rest[2])] * rest[1])
            self.next_id += 1
        elif kind == "remove" and answer == ("done",):
            del self.arrays[rest[0]]
        elif kind == "access" and answer[0] in ("value", "done"):
            op, array, index, operand, _ = rest
            words = self.arrays[array].words
            value, tag, _ = table(op, operand, *words[index])
            words[index] = (value, tag)
