"""`femem call`: what goes over its connection and what it prints, against a server of this check that sends all its bytes at once."""

import itertools
import socket
import threading

from . import wire
from .crowds import TALK
from .harness import Worker, holds, in_turn, preload, same, within

WELCOME = wire.framed(65, bytes(7) + b"\7" + bytes(7) + b"\1")
GOODBYE = wire.framed(69, bytes(7) + b"\7")
FIRST_PATH = b"attach 7\n1 create cells 2 empty\n2 writeef 1 0 42\n3 readfe 1 0\n4 readxx 1 0\n"
PRINTED = b"welcome 7 1\n1 array 1 2\n2 done\n3 value 42\n4 value 42\n"

# The frames of the first path, of the client and of the server.
MESSAGES, REPLIES = zip(*TALK[:5])

# Lines outside the syntax.
STRAY = (
    b"gone", b"c1 bye", b"c1 gone", b"c1 attach 7", b"hold", b"flush", b"stop", b"check", b"jump", b" ", b"bye ", b" bye", b"Bye",
    b"bye\r", b"attach", b"attach ", b"attach 07", b"attach  7", b"attach 7 ", b"attach 7 8", b"attach 18446744073709551616",
    b"1", b"1 readfe 1", b"1 create a 1", b"1 create a 1 half", b"1 find a\tb c", b"# note",
    b"18446744073709551615 int_fetch_add 18446744073709551615 4294967295 18446744073709551615 nowait ",
)

# Bytes that are not a reply's frame, which shows at their last byte.
BAD = (
    b"\x00\x00\x00\x00", b"\x00\x04\x00\x02", b"\xff\xff\xff\xff", b"\x00\x00\x00\x01\x41", b"\x00\x00\x00\x02\x40\x31",
    b"\x00\x00\x00\x10\x41" + bytes(15), b"\x00\x00\x00\x01\x47", b"\x00\x00\x00\x01\x08",
    b"\x00\x00\x00\x09\x01\x00\x00\x00\x00\x00\x00\x00\x07", b"\x00\x00\x00\x0a\x45\x00\x00\x00\x00\x00\x00\x00\x07\x00",
    b"\x00\x00\x00\x0a\x46\x00\x00\x00\x00\x00\x00\x00\x02\x00", b"\x00\x00\x00\x0a\x46\x00\x00\x00\x00\x00\x00\x00\x02\x0b",
    b"\x00\x00\x00\x16\x42\x00\x00\x00\x00\x00\x00\x00\x02\x0c\x00\x00\x00\x00\x00\x00\x00\x00\x00\x00\x00\x00",
    b"\x00\x00\x00\x16\x42" + bytes(8) + b"\x02" + bytes(11) + b"\x01", b"\x00\x00\x00\x02\x47\xff",
)

# Other replies, with what is printed for each.
OTHERS = (
    (b"\x00\x00\x00\x09\x43\x00\x00\x00\x00\x00\x00\x00\x09", b"9 withdrawn\n"),
    (b"\x00\x00\x00\x09\x44\xff\xff\xff\xff\xff\xff\xff\xff", b"settled 18446744073709551615\n"),
    (b"\x00\x00\x00\x09\x45\x00\x00\x00\x00\x00\x00\x00\x07", b"goodbye 7\n"),
    (b"\x00\x00\x00\x0a\x46\x00\x00\x00\x00\x00\x00\x00\x02\x05", b"refused 2 number-used\n"),
    (b"\x00\x00\x00\x0a\x46\x00\x00\x00\x00\x00\x00\x00\x00\x0a", b"refused 0 not-waiting\n"),
    (b"\x00\x00\x00\x16\x42\x00\x00\x00\x00\x00\x00\x00\x02\x04" + bytes(12), b"2 no-array\n"),
    (b"\x00\x00\x00\x16\x42\x00\x00\x00\x00\x00\x00\x00\x02\x05" + bytes(12), b"2 bad-index\n"),
    (b"\x00\x00\x00\x16\x42\x00\x00\x00\x00\x00\x00\x00\x02\x06" + bytes(12), b"2 name-taken\n"),
    (b"\x00\x00\x00\x16\x42\x00\x00\x00\x00\x00\x00\x00\x02\x07" + bytes(12), b"2 array-limit\n"),
    (b"\x00\x00\x00\x16\x42\x00\x00\x00\x00\x00\x00\x00\x02\x08" + bytes(12), b"2 word-limit\n"),
    (b"\x00\x00\x00\x16\x42\x00\x00\x00\x00\x00\x00\x00\x02\x09" + bytes(12), b"2 bad-name\n"),
    (b"\x00\x00\x00\x16\x42\x00\x00\x00\x00\x00\x00\x00\x02\x0a" + bytes(12), b"2 bad-length\n"),
    (b"\x00\x00\x00\x16\x42\x00\x00\x00\x00\x00\x00\x00\x02\x0b" + bytes(12), b"2 not-now\n"),
    (b"\x00\x00\x00\x0b\x47waiting 0\n", b"waiting 0\n"),
    (
        b"\x00\x00\x00\x4d\x47waiting 1\nword 1 0 session 7 number 5 readff\nsession 7 waits 1\nall-wait yes\n",
        b"waiting 1\nword 1 0 session 7 number 5 readff\nsession 7 waits 1\nall-wait yes\n",
    ),
    (b"\x00\x00\x00\x07\x47a\r\nb\n\n", b"a\nb\n\n"),
    (b"\x00\x00\x00\x04\x47a\nb", b"a\nb\n"),
)


# The frames of other messages, with a line for each.
LINES = (
    b"5 readfe 1 0 nowait", b"7 readfe 1 0", b"cancel 7", b"cancel 5", b"settle 5", b"6 find cells", b"8 remove 1",
    b"9 create seventeen_letters 1 full", b"10 find seventeen_letters", b"report", b"bye",
)
FRAMES = tuple(zip(LINES, (frame for frame, _ in TALK[5:]), strict=True))


class Other:
    """A server of this check: it sends its bytes to each connection at once, ends its side if asked, and keeps what it receives."""

    def __init__(self, place):
        self.path = place.path("other.socket")
        self.listener = socket.socket(socket.AF_UNIX)
        self.listener.bind(self.path)
        self.listener.listen(1)
        self.listener.settimeout(0.01)

    def __enter__(self):
        return self

    def __exit__(self, *_):
        self.listener.close()

    def talk(self, place, lines, answers, ends=False, **how):
        """Runs `call` with these lines, against these answers: its status, output and errors, and what it sent."""
        came = []
        is_over = threading.Event()
        worker = Worker(self.serve, answers, ends, came, is_over)
        try:
            ran = place.run("call", "--socket", self.path, given=lines, **how)
        finally:
            is_over.set()
            worker.ended(20)
        return ran, b"".join(came)

    def serve(self, answers, ends, came, is_over):
        conn = self.accepted(is_over)
        if conn is None:
            return
        with conn:
            conn.settimeout(20)
            try:
                conn.sendall(answers)
                if ends:
                    conn.shutdown(socket.SHUT_WR)
            except BrokenPipeError:
                pass
            while piece := received(conn):
                came.append(piece)

    def accepted(self, is_over):
        """The next connection, or None if the client has ended without one."""
        while True:
            was_over = is_over.is_set()
            try:
                return self.listener.accept()[0]
            except socket.timeout:
                if was_over:
                    return None


def received(conn):
    """The next bytes received."""
    while True:
        try:
            return conn.recv(65536)
        except ConnectionResetError:
            # (reported once if the client closed the connection with bytes unread; what it sent before can still be read)
            pass


def printed_of(count):
    """What is printed once that many bytes of the first path's replies have come."""
    whole = sum(len(b"".join(REPLIES[:number])) <= count for number in range(1, len(REPLIES) + 1))
    return lines_of(PRINTED, whole)


def lines_of(text, count):
    return b"".join(text.splitlines(keepends=True)[:count])


def first_path(place):
    """the frames of the first path and what is printed, with few bytes for each call on a stream and every second call interrupted"""
    library = preload(place, "streams.c")
    with Other(place) as other:
        for call in ("recv", "send", "read", "write"):
            for most in (1, 2, 5, 26, 4096):
                env = {"LD_PRELOAD": library, "CALL": call, "SHORT": str(most), "BREAK": str(most % 2)}
                found = other.talk(place, FIRST_PATH, b"".join(REPLIES), env=env)
                same(found, ((0, PRINTED, b""), b"".join(MESSAGES)), f"{call}, {most} bytes")


def other_frames(place):
    """the frame of each other kind of message"""
    with Other(place) as other:
        for line, frame in FRAMES:
            same(other.talk(place, line, GOODBYE), ((0, b"goodbye 7\n", b""), frame), line)


def other_replies(place):
    """what is printed for each other kind of reply"""
    with Other(place) as other:
        for answer, printed in OTHERS:
            same(other.talk(place, b"report\n", answer), ((0, printed, b""), wire.report()), answer)
    return f"{len(OTHERS)} replies"


def odd_lines(place):
    """empty lines send nothing, and the last line may lack its line feed"""
    longest = b"18446744073709551615 int_fetch_add 18446744073709551615 4294967295 18446744073709551615 nowait\n"
    with Other(place) as other:
        for lines, printed, sent in (
            (b"", b"", b""), (b"\n\n\n", b"", b""), (b"bye", b"goodbye 7\n", wire.bye()),
            (b"\n\nbye\n\n", b"goodbye 7\n", wire.bye()), (longest, b"goodbye 7\n", wire.message_of(longest.split())),
        ):
            same(other.talk(place, lines, GOODBYE), ((0, printed, b""), sent), lines)


def much(place):
    """the longest report, and a line split over several reads of the input"""
    lines = b"\n" * 65534 + b"bye\nreport\n"
    report = b"a" * 262143 + b"\n"
    with Other(place) as other:
        found = other.talk(place, lines, GOODBYE + b"\x00\x04\x00\x01\x47" + report)
    same(found, ((0, b"goodbye 7\n" + report, b""), wire.bye() + wire.report()))


def stray_lines(place):
    """a line outside the syntax after an exchange: its number is printed, nothing of it is sent, and the earlier output stays"""
    with Other(place) as other:
        for line in STRAY:
            for end in (b"", b"\n", b"\nbye\n"):
                found = other.talk(place, b"attach 7\n\n" + line + end, WELCOME)
                same(found, ((2, b"welcome 7 1\n", b"femem: line 3\n"), wire.attach(7)), line + end)
    return f"{3 * len(STRAY)} inputs"


def bad_frames(place):
    """bytes that are not a reply after an exchange are `femem: socket`, whatever follows them"""
    with Other(place) as other:
        for frame in BAD:
            for behind in (b"", WELCOME):
                found = other.talk(place, b"attach 7\nattach 7\nbye\n", WELCOME + frame + behind)
                same(found, ((4, b"welcome 7 1\n", b"femem: socket\n"), wire.attach(7) * 2), frame)
    return f"{len(BAD)} frames"


def server_ends(place):
    """a server that ends the connection within a reply, the first or the second, at each of its bytes, is `femem: socket`"""
    with Other(place) as other:
        for before, count in itertools.product((0, 1), range(len(WELCOME))):
            found = other.talk(place, b"attach 7\n" * 3, WELCOME * before + WELCOME[:count], ends=True)
            wanted = ((4, b"welcome 7 1\n" * before, b"femem: socket\n"), wire.attach(7) * (before + 1))
            same(found, wanted, f"{before} replies, {count} bytes")
    return f"{count + 1} lengths"


def until_none_fails(place, other, library, call, most, wanted):
    """Fails each call of that kind in turn, with at most `most` bytes for each call, and counts them. `wanted` says what a run
    leaves after that many bytes: its status, its line on standard error, what it printed, and what it sent."""
    env = {"LD_PRELOAD": library, "CALL": call, "SHORT": str(most)}
    ask = lambda more: other.talk(place, FIRST_PATH, b"".join(REPLIES), env={**env, **more})
    count = 0
    for number, found in in_turn(place, ask, "FAIL", "MARK"):
        status, line, printed, front = wanted(count * most) if number else (0, b"", PRINTED, b"".join(MESSAGES))
        same(found, ((status, printed, line), front), f"{call} {number}, {most} bytes")
        count += number is not None
    return count


def behind_reads(count):
    """After that many bytes of the input."""
    whole = FIRST_PATH[:count].count(b"\n")
    return 2, b"femem: input\n", lines_of(PRINTED, whole), b"".join(MESSAGES[:whole])


def behind_writes(count):
    """After that many bytes were printed: the message of the incomplete line was sent, and no later one."""
    return 2, b"femem: input\n", PRINTED[:count], b"".join(MESSAGES[: PRINTED[:count].count(b"\n") + 1])


def behind_receives(count):
    """After that many bytes from the server."""
    printed = printed_of(count)
    return 4, b"femem: socket\n", printed, b"".join(MESSAGES[: printed.count(b"\n") + 1])


def behind_sends(count):
    """After that many bytes were sent."""
    sent = b"".join(MESSAGES)[:count]
    whole = sum(len(b"".join(MESSAGES[:number])) <= count for number in range(1, len(MESSAGES) + 1))
    return 4, b"femem: socket\n", lines_of(PRINTED, whole), sent


@within(120)
def streams_fail(place):
    """each call on a stream fails in turn, with a byte for each call: what was sent and printed before stays, and no more is sent"""
    library = preload(place, "streams.c")
    told = []
    with Other(place) as other:
        for call, wanted, calls in (
            # (the last read returns nothing)
            ("read", behind_reads, len(FIRST_PATH) + 1), ("write", behind_writes, len(PRINTED)),
            ("recv", behind_receives, len(b"".join(REPLIES))), ("send", behind_sends, len(b"".join(MESSAGES))),
        ):
            found = until_none_fails(place, other, library, call, 1, wanted)
            same(found, calls, call)
            told.append(f"{call} 1 to {found}")
    return ", ".join(told)


def memory_refused(place):
    """each allocation is refused in turn: `femem: memory`, or the same as with enough memory; what was sent and printed is a prefix"""
    library, last = preload(place, "../refuse.c"), 0
    with Other(place) as other:
        ask = lambda more: other.talk(place, FIRST_PATH, b"".join(REPLIES), env={"LD_PRELOAD": library, **more})
        for number, found in in_turn(place, ask):
            ran, sent = found
            if number and ran != (0, PRINTED, b""):
                same(ran[::2], (3, b"femem: memory\n"), f"allocation {number} refused")
                holds(PRINTED.startswith(ran[1]) and b"".join(MESSAGES).startswith(sent), f"allocation {number} refused: {found}")
            last = number or last
    same(found, ((0, PRINTED, b""), b"".join(MESSAGES)))
    holds(last > 50, f"{last} allocations")
    return f"{last} allocations"


def connects(place):
    """without a server nothing is printed; with one, an input without lines ends well"""
    ask = lambda lines: place.run("call", "--socket", place.path("other.socket"), given=lines)
    told = (4, b"", b"femem: socket\n")
    same(ask(b"bye\n"), told, "no socket")
    with Other(place) as other:
        same(other.talk(place, b"\n\n", b""), ((0, b"", b""), b""))
    same(ask(b""), told, "a socket that was left")


def closed_streams(place):
    """a closed standard stream fails when it is used, and the connection never takes its place"""
    told = b"femem: input\n"
    with Other(place) as other:
        for closed, sent, errors in (
            ("<&-", b"", told), (">&-", MESSAGES[0], told), ("<&- >&-", b"", told), (">&- 2>&-", MESSAGES[0], b""),
            ("<&- >&- 2>&-", b"", b""),
        ):
            # (what the server sends is also a line: a client that read its input from its connection would send it back)
            found = other.talk(place, FIRST_PATH, REPLIES[0] + b"\nattach 8\n", closed=closed)
            same(found, ((2, b"", errors), sent), closed)
        with open("/dev/full", "wb") as full:
            same(other.talk(place, b"attach 7\n", WELCOME, stdout=full)[0][::2], (2, told), "a full device")
        found = other.talk(place, b"jump\n", b"", closed="2>&-")
        same(found, ((2, b"", b""), b""), "a stray line, 2>&-")
    for words, closed in ((("run",), "<&-"), (("run",), ">&-"), (("--help",), ">&-")):
        same(place.run(*words, given=b"c1 attach 7\n", closed=closed), (2, b"", told), f"{words[0]} {closed}")
