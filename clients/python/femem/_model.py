"""A small model of the server, written from docs/formats.md, docs/patterns.md and docs/schedules.md. `femem.testing` serves it.

`Model` has no sockets: messages go in by connection, replies come out as bytes. `stop` loses what was not posted.
"""

# mypy: ignore-errors

import random
import struct

VALUE, DONE, ARRAY, NO_ARRAY, BAD_INDEX, NAME_TAKEN, ARRAY_LIMIT, WORD_LIMIT, BAD_NAME, BAD_LENGTH, NOT_NOW = range(1, 12)
(NOT_ATTACHED, SESSION_LIMIT, BELOW_FLOOR, BEYOND_WINDOW, NUMBER_USED) = range(1, 6)
(STILL_WAITING, CLOSING, NO_MEMORY, SPENT, NOT_WAITING) = range(6, 11)

OPS = ["readfe", "readff", "readxx", "writeef", "writeff", "writexf", "purge", "int_fetch_add"]
WITH_OPERAND = (19, 20, 21, 23)
LENGTHS = {1: 9, 2: 31, 3: 26, 4: 17, 5: 30, 6: 9, 7: 9, 8: 1, 9: 1, 11: 30, 12: 47, 13: 42}
PLAIN = set(b"abcdefghijklmnopqrstuvwxyz0123456789_")


class BadFrame(Exception):
    pass


def read_messages(stream):
    """Removes the whole messages at the start of a bytearray, and returns them."""
    messages = []
    while len(stream) >= 5:
        length, kind = struct.unpack(">IB", stream[:5])
        if LENGTHS.get(kind) != length:
            raise BadFrame()
        if len(stream) < 4 + length:
            break
        messages.append(read_message(kind, bytes(stream[5 : 4 + length])))
        del stream[: 4 + length]
    if len(stream) >= 4 and not 1 <= struct.unpack(">I", stream[:4])[0] <= 47:
        raise BadFrame()
    return messages


def read_message(kind, body):
    if kind in (8, 9):
        return ({8: "bye", 9: "report"}[kind],)
    if kind in (1, 6, 7):
        return ({1: "attach", 6: "cancel", 7: "settle"}[kind], *struct.unpack(">Q", body))
    number = struct.unpack(">Q", body[:8])[0]
    if kind == 4:
        return ("call", number, ("remove", *struct.unpack(">Q", body[8:])))
    if kind in (5, 11):
        code, array, index, operand = struct.unpack(">BQIQ", body[8:])
        if not 16 <= code <= 23 or operand and code not in WITH_OPERAND:
            raise BadFrame()
        return ("call", number, ("access", code, array, index, operand, kind == 11))
    row = 16 if kind in (2, 3) else 32
    size, name, rest = body[8], body[9 : 9 + row], body[9 + row :]
    if not (size <= 16 if row == 16 else 17 <= size <= 32) or any(name[size:]):
        raise BadFrame()
    if kind in (3, 13):
        return ("call", number, ("find", name[:size]))
    length, tag = struct.unpack(">IB", rest)
    if tag > 1:
        raise BadFrame()
    return ("call", number, ("create", name[:size], length, tag == 1))


def frame(kind, *fields):
    body = struct.pack({65: ">QQ", 66: ">QBQI", 67: ">Q", 68: ">Q", 69: ">Q", 70: ">QB"}[kind], *fields)
    return struct.pack(">IB", 1 + len(body), kind) + body


def report_frame(text):
    return struct.pack(">IB", 1 + len(text), 71) + text.encode()


class State:
    """The stored state: arrays of [value, is full], and sessions with their floors and kept answers."""

    def __init__(self):
        self.arrays = {}
        self.next_id = 1
        self.sessions = {}

    def copy(self):
        other = State()
        other.next_id = self.next_id
        other.arrays = {i: (name, [list(w) for w in words]) for i, (name, words) in self.arrays.items()}
        other.sessions = {s: (floor, dict(kept)) for s, (floor, kept) in self.sessions.items()}
        return other

    def answer(self, request):
        """The answer (code, value, length), or None if the request waits."""
        kind = request[0]
        if kind in ("create", "find"):
            name = request[1]
            found = [i for i, (n, _) in self.arrays.items() if n == name]
            if not 1 <= len(name) <= 32 or not set(name) <= PLAIN:
                return (BAD_NAME, 0, 0)
            if kind == "find":
                return (ARRAY, found[0], len(self.arrays[found[0]][1])) if found else (NO_ARRAY, 0, 0)
            if not 1 <= request[2] <= 65536:
                return (BAD_LENGTH, 0, 0)
            if found:
                return (NAME_TAKEN, 0, 0)
            if len(self.arrays) == 64:
                return (ARRAY_LIMIT, 0, 0)
            if sum(len(words) for _, words in self.arrays.values()) + request[2] > 65536:
                return (WORD_LIMIT, 0, 0)
            return (ARRAY, self.next_id, request[2])
        array = request[1] if kind == "remove" else request[2]
        if array not in self.arrays:
            return (NO_ARRAY, 0, 0)
        if kind == "remove":
            return (DONE, 0, 0)
        _, code, _, index, _, nowait = request
        words = self.arrays[array][1]
        if index >= len(words):
            return (BAD_INDEX, 0, 0)
        value, full = words[index]
        op = OPS[code - 16]
        if op in ("readfe", "readff", "writeff", "int_fetch_add") and not full or op == "writeef" and full:
            return (NOT_NOW, 0, 0) if nowait else None
        return (VALUE, value, 0) if op in ("readfe", "readff", "readxx", "int_fetch_add") else (DONE, 0, 0)

    def apply(self, entry):
        kind, session = entry[:2]
        if kind == "attached":
            self.sessions.setdefault(session, (1, {}))
        elif kind == "closed":
            del self.sessions[session]
        elif kind == "settled":
            floor, kept = self.sessions[session]
            self.sessions[session] = (entry[2], {n: a for n, a in kept.items() if n >= entry[2]})
        else:
            _, _, number, request, answer = entry
            assert number not in self.sessions[session][1]
            assert self.answer(request) == answer
            self.sessions[session][1][number] = (request, answer)
            self.perform(request, answer)

    def perform(self, request, answer):
        if request[0] == "create" and answer[0] == ARRAY:
            self.arrays[answer[1]] = (request[1], [[0, request[3]] for _ in range(request[2])])
            self.next_id += 1
        elif request[0] == "remove" and answer[0] == DONE:
            del self.arrays[request[1]]
        elif request[0] == "access" and answer[0] in (VALUE, DONE):
            _, code, array, index, operand, _ = request
            word = self.arrays[array][1][index]
            op = OPS[code - 16]
            if op == "readfe":
                word[1] = False
            elif op in ("writeef", "writeff", "writexf"):
                word[:] = [operand, True]
            elif op == "purge":
                word[:] = [0, False]
            elif op == "int_fetch_add":
                word[0] = (word[0] + operand) % 2**64


class Model:
    """The server: the stored state, and a front ahead of it, with the entries that are not stored yet."""

    BOX = 128

    def __init__(self, seed=0):
        self.random = random.Random(seed)
        self.stored = State()
        self.stop()

    def stop(self):
        """Loses what is not posted, and all connections and waiting requests."""
        self.state = self.stored.copy()
        self.pending = []
        self.place = self.durable = 0
        self.kept_at = {}
        self.waiting = {}
        self.boxes = {}
        self.session_of = {}
        self.closing = set()

    def connect(self, conn):
        self.boxes[conn] = []
        self.session_of[conn] = None

    def gone(self, conn):
        if conn in self.boxes:
            session = self.session_of.pop(conn)
            del self.boxes[conn]
            self.waiting = {key: r for key, r in self.waiting.items() if key[0] != session}

    def take_mail(self, conn):
        mail, self.boxes[conn] = self.boxes[conn], []
        return mail

    def mail(self, conn, reply):
        if conn in self.boxes:
            if len(self.boxes[conn]) >= self.BOX:
                self.gone(conn)
            else:
                self.boxes[conn].append(reply)

    def post(self):
        """Stores everything pending, and sends the replies to the connections that have the sessions now."""
        entries, self.pending = self.pending, []
        for entry in entries:
            self.stored.apply(entry)
            kind, session = entry[:2]
            holder = self.holder(session)
            if kind == "attached":
                self.mail(holder, frame(65, session, entry[2]))
            elif kind == "settled":
                self.mail(holder, frame(68, entry[2]))
            elif kind == "closed":
                self.mail(holder, frame(69, session))
                if holder is not None and holder in self.session_of:
                    self.session_of[holder] = None
                self.closing.discard(session)
            else:
                self.mail(holder, frame(66, entry[2], *entry[4]))
        self.durable = self.place

    def holder(self, session):
        return next((conn for conn, s in self.session_of.items() if s == session), None)

    def enter(self, entry):
        self.state.apply(entry)
        self.pending.append(entry)
        if entry[0] == "finished":
            self.kept_at[entry[1], entry[2]] = self.place
        self.place += 1

    def take(self, conn, message):
        if conn not in self.boxes:
            return
        kind = message[0]
        if kind == "report":
            self.mail(conn, report_frame(self.report()))
            return
        number = message[1] if len(message) > 1 else 0
        code = self.attach(conn, number) if kind == "attach" else self.attached(conn, kind, message)
        if code is not None:
            self.mail(conn, frame(70, number, code))

    def attach(self, conn, session):
        if session in self.closing:
            return CLOSING
        if session not in self.state.sessions and len(self.state.sessions) + len(self.closing) >= 64:
            return SESSION_LIMIT
        old = self.holder(session)
        if old is not None:
            self.session_of[old] = None
        self.session_of[conn] = session
        floor = self.state.sessions.get(session, (1, {}))[0]
        self.enter(("attached", session, floor))
        return None

    def attached(self, conn, kind, message):
        session = self.session_of[conn]
        if session is None:
            return NOT_ATTACHED
        if session in self.closing:
            return CLOSING
        if kind == "call":
            return self.call(conn, session, *message[1:])
        floor = self.state.sessions[session][0]
        if kind == "cancel":
            if self.waiting.pop((session, message[1]), None) is None:
                return NOT_WAITING
            self.mail(conn, frame(67, message[1]))
        elif kind == "settle":
            asked = message[1]
            if asked < floor:
                return BELOW_FLOOR
            if asked > floor + 32 or asked > 2**63 - 32:
                return BEYOND_WINDOW
            if any(s == session and n < asked for s, n in self.waiting):
                return STILL_WAITING
            self.enter(("settled", session, asked))
        else:
            self.waiting = {key: r for key, r in self.waiting.items() if key[0] != session}
            self.closing.add(session)
            self.enter(("closed", session))
        return None

    def call(self, conn, session, number, request):
        floor, kept = self.state.sessions[session]
        if number < floor:
            return BELOW_FLOOR
        if number >= floor + 32:
            return BEYOND_WINDOW
        if number in kept:
            if kept[number][0] != request:
                return NUMBER_USED
            if self.kept_at.get((session, number), -1) < self.durable:
                self.mail(conn, frame(66, number, *kept[number][1]))
            return None
        if (session, number) in self.waiting:
            return None if self.waiting[session, number] == request else NUMBER_USED
        answer = self.state.answer(request)
        if answer is None:
            self.waiting[session, number] = request
        else:
            self.enter(("finished", session, number, request, answer))
            self.serve()
        return None

    def serve(self):
        """Serves the waiting requests that can be served now, in any order."""
        while True:
            eligible = [key for key, r in self.waiting.items() if self.state.answer(r) is not None]
            if not eligible:
                return
            key = self.random.choice(eligible)
            request = self.waiting.pop(key)
            self.enter(("finished", *key, request, self.state.answer(request)))

    def report(self):
        lines = [f"waiting {len(self.waiting)}"]
        rows = sorted((r[2], r[3], s, n, OPS[r[1] - 16]) for (s, n), r in self.waiting.items())
        lines += [f"word {a} {i} session {s} number {n} {op}" for a, i, s, n, op in rows]
        sessions = sorted({s for s, _ in self.waiting})
        lines += [f"session {s} waits {sum(1 for key in self.waiting if key[0] == s)}" for s in sessions]
        if rows:
            attached = {s for s in self.session_of.values() if s is not None and s not in self.closing}
            lines.append("all-wait yes" if attached and attached <= set(sessions) else "all-wait no")
        return "\n".join(lines) + "\n"
