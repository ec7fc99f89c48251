"""Frames and the lines of schedules, by the tables of docs/formats.md and by docs/schedules.md.

A request is a tuple: ("create", NAME, LENGTH, FULL), ("find", NAME), ("remove", ARRAY) or
("access", OP, ARRAY, INDEX, OPERAND, NOWAIT). An answer is one of ("value", V), ("done",),
("array", ID, LENGTH) and (WORD,). Names are bytes, full is 0 or 1.
"""

import socket
import struct
import time

from . import tables

OPS = {name.encode(): code for name, code in tables.codes("docs/formats.md", "| code | request").items()}
OP_NAMES = {code: name for name, code in OPS.items()}
WITH_OPERAND = tuple(tables.said("docs/formats.md", "The operations with an operand are N, N, N and N;", 4))
ANSWERS = tables.codes("docs/formats.md", "| code | answer")
WORDS = {code: name for name, code in ANSWERS.items() if name not in ("value", "done", "array")}
REFUSALS = {int(row[0]): row[1] for row in tables.rows("docs/formats.md", "| refusal | name")}
FROM_CLIENT = tables.kinds("| kind | from the client")
FROM_SERVER = tables.kinds("| kind | from the server")
LEAST_TEXT, MOST_TEXT = tables.said("docs/formats.md", "UTF-8 text, N to N bytes", 2)


patience = 1  # how many times as long each wait may take, on a slow machine


class BadReply(Exception):
    """The server sent something that is not a server's frame."""


class Ended(Exception):
    """The connection ended."""


def framed(kind, body=b""):
    return struct.pack(">IB", 1 + len(body), kind) + body


def kind_of(name, length=None):
    """The client's kind of that name, whose bounds have a name of that length."""
    fits = lambda kind: length is None or kind.bounds["name length"][0] <= length <= kind.bounds["name length"][1]
    return next(code for code, kind in FROM_CLIENT.items() if kind.name == name and fits(kind))


def spelled(kind, **values):
    """The client's frame of that kind with these values of its fields."""
    fields = {name.replace("_", " "): value for name, value in values.items()}
    code = kind_of(kind, fields.get("name length"))
    return framed(code, FROM_CLIENT[code].packed(fields))


def attach(session):
    return spelled("attach", session=session)


def cancel(number):
    return spelled("cancel", number=number)


def settle(floor):
    return spelled("settle", floor=floor)


def bye():
    return spelled("bye")


def report():
    return spelled("report")


def call(number, request):
    kind, *rest = request
    if kind == "access":
        op, array, index, operand, nowait = rest
        kind = "access, not to wait" if nowait else "access"
        return spelled(kind, number=number, operation_code=op, array=array, index=index, operand=operand)
    if kind == "remove":
        return spelled(kind, number=number, array=rest[0])
    row = {"number": number, "name_length": len(rest[0]), "name": rest[0]}
    return spelled(kind, **row, **dict(zip(("length", "tag"), rest[1:])))


def request_of(words):
    """The request in words of a schedule, or None."""
    if words[0] == b"create" and len(words) == 4 and words[3] in (b"full", b"empty"):
        return ("create", words[1], int(words[2]), int(words[3] == b"full"))
    if words[0] == b"find" and len(words) == 2:
        return ("find", words[1])
    if words[0] == b"remove" and len(words) == 2:
        return ("remove", int(words[1]))
    if words[0] not in OPS:
        return None
    op = OPS[words[0]]
    nowait = words[-1] == b"nowait"
    numbers = [int(it) for it in words[1 : len(words) - nowait]]
    if op not in WITH_OPERAND:
        numbers.append(0)
    return ("access", op, *numbers, nowait) if len(numbers) == 3 else None


def message_of(words):
    """The frame for the words of a schedule's line, without its `cN `."""
    if words[0] in (b"bye", b"report"):
        return bye() if words[0] == b"bye" else report()
    if words[0] in (b"attach", b"cancel", b"settle"):
        return {b"attach": attach, b"cancel": cancel, b"settle": settle}[words[0]](int(words[1]))
    return call(int(words[0]), request_of(words[1:]))


def answer_of(code, value, length):
    """The answer in these fields. Raises BadReply if there is none."""
    if code == ANSWERS["value"] and length == 0:
        return ("value", value)
    if code == ANSWERS["array"]:
        return ("array", value, length)
    if value == 0 and length == 0 and code == ANSWERS["done"]:
        return ("done",)
    if value == 0 and length == 0 and code in WORDS:
        return (WORDS[code],)
    raise BadReply(f"answer {code} {value} {length}")


def reply_of(frame):
    """The reply in a server's frame, given without its four bytes of length."""
    code, body = frame[0], frame[1:]
    kind = FROM_SERVER.get(code)
    if kind and kind.name == "report" and LEAST_TEXT <= len(body) <= MOST_TEXT:
        return ("report", body.decode())
    if not kind or kind.name == "report" or len(body) != struct.calcsize(kind.form):
        raise BadReply(f"kind {code} with {len(body)} bytes")
    fields = kind.unpacked(body)
    if kind.name == "answer":
        return ("answer", fields["number"], answer_of(fields["answer code"], fields["value or id"], fields["length"]))
    if kind.name == "refused":
        if fields["refusal number"] not in REFUSALS:
            raise BadReply(f"refusal {fields['refusal number']}")
        return ("refused", fields["number"], REFUSALS[fields["refusal number"]])
    return (kind.name, *(fields[it] for it in ("session", "floor", "number") if it in fields))


def lines_of(reply):
    """The lines that a schedule prints for a reply, without `cN `."""
    kind, *rest = reply
    if kind == "report":
        return rest[0].splitlines()
    if kind == "answer":
        return [" ".join(str(it) for it in (rest[0], *rest[1]))]
    if kind == "withdrawn":
        return [f"{rest[0]} withdrawn"]
    return [" ".join(str(it) for it in reply)]


class Connection:
    """A connection to a server. Every wait on it ends after its deadline, as Ended."""

    def __init__(self, path, seconds=None):
        """Connects; tries again while nothing listens at the path. Without `seconds` a wait may take 20 seconds, times the patience."""
        seconds = seconds or 20.0 * patience
        until = time.monotonic() + seconds
        self.got = b""
        while True:
            self.socket = socket.socket(socket.AF_UNIX, socket.SOCK_STREAM)
            try:
                self.socket.settimeout(seconds)
                self.socket.connect(path)
                return
            except (FileNotFoundError, ConnectionRefusedError, BlockingIOError):
                self.socket.close()
                if time.monotonic() > until:
                    raise Ended("nothing listens") from None
                time.sleep(0.005)
            except OSError:
                self.socket.close()
                raise

    def __enter__(self):
        return self

    def __exit__(self, *_):
        self.close()

    def close(self):
        self.socket.close()

    def send(self, piece):
        try:
            self.socket.sendall(piece)
        except OSError as error:
            raise Ended(f"send: {error}") from None

    def finish(self):
        """Ends the sending side. The receiving side stays open."""
        self.socket.shutdown(socket.SHUT_WR)

    def wait(self, seconds):
        """Sets the limit of each later wait."""
        self.socket.settimeout(seconds)

    def more(self):
        try:
            piece = self.socket.recv(65536)
        except OSError as error:
            raise Ended(f"receive: {error}") from None
        if not piece:
            raise Ended("the stream ended" + (" within a frame" if self.got else ""))
        self.got += piece

    def frame(self):
        """The next frame, without its length."""
        while True:
            if len(self.got) >= 4:
                length = struct.unpack(">I", self.got[:4])[0]
                if not 1 <= length <= 1 + MOST_TEXT:
                    raise BadReply(f"a frame of {length} bytes")
                if len(self.got) >= 4 + length:
                    frame, self.got = self.got[4 : 4 + length], self.got[4 + length :]
                    return frame
            self.more()

    def piece(self, size):
        """The next `size` bytes."""
        while len(self.got) < size:
            self.more()
        piece, self.got = self.got[:size], self.got[size:]
        return piece

    def reply(self):
        return reply_of(self.frame())

    def ask(self, frame):
        """Sends a frame, and returns the next reply."""
        self.send(frame)
        return self.reply()

    def rest(self):
        """The replies up to the end of the stream, which is not within one."""
        found = []
        try:
            while True:
                found.append(self.reply())
        except Ended as why:
            if "timed out" in str(why) or "within" in str(why):
                raise
        return found

    def is_quiet(self, seconds=0.2):
        """Whether nothing comes for that long while the stream stays open."""
        if self.got:
            return False
        before = self.socket.gettimeout()
        self.socket.settimeout(seconds)
        try:
            self.got += self.socket.recv(65536)
            return False
        except socket.timeout:
            return True
        except OSError:
            return False
        finally:
            self.socket.settimeout(before)

    def has_ended(self):
        """Whether the stream ends, with no bytes before the end."""
        try:
            self.more()
        except Ended as why:
            return "timed out" not in str(why)
        return False
