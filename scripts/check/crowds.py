"""Many clients, slow ones, and hostile ones."""

import os
import time

from . import store, wire
from .harness import Held, Server, Worker, holds, same, until, within


def together(count, work):
    """Does the work in `count` threads at once, and raises what one of them raised."""
    for worker in [Worker(work, number) for number in range(count)]:
        worker.ended()


def adding(array, index, operand):
    return ("access", 23, array, index, operand, False)


def made(server, *arrays, session=1000):
    """Makes arrays (name, length, full) in a separate session."""
    with server.attached(session) as conn:
        for number, (name, length, full) in enumerate(arrays, 1):
            same(conn.ask(wire.call(number, ("create", name, length, full))), ("answer", number, ("array", number, length)))


def in_parallel(place):
    """32 clients at once, each with 16 requests under way: a counter that all raise loses nothing, and no value comes twice"""
    clients, calls, window = 32, 96, 16
    server = Server(place).start()
    made(server, (b"counter", 1, 1))
    values = [[] for _ in range(clients)]

    def work(client):
        with server.attached(client) as conn:
            number = 1
            while len(values[client]) < calls:
                batch = b"".join(wire.call(number + k, adding(1, 0, 1)) for k in range(window))
                conn.send(batch + wire.settle(number + window))
                for k in range(window):
                    reply = conn.reply()
                    same(reply[:2], ("answer", number + k))
                    values[client].append(reply[2][1])
                number += window
                same(conn.reply(), ("settled", number))

    together(clients, work)
    found = sorted(value for it in values for value in it)
    same(found, list(range(clients * calls)), "the values that were answered")
    holds(all(it == sorted(it) for it in values), "a client saw the counter fall")
    server.stop()
    left = store.read_store(place.read("s.store"))[2]
    same(left.arrays[1].words, [(clients * calls, 1)])
    return f"{clients * calls} calls"


def held_call_holds_one(place):
    """a call held between its read and its handling holds up no other connection: one made then is answered first"""
    held = Held(place, "recv")
    server = Server(place, accepts=2).start(held.env)
    with server.attached(7) as first:
        held.next()
        first.send(wire.call(1, ("create", b"cells", 2, 0)))
        held.wait()
        with server.attached(8) as second:
            same(second.ask(wire.call(1, ("find", b"cells"))), ("answer", 1, ("no-array",)))
            holds(first.is_quiet(), "the call that is held was answered")
            held.let_go()
            same(first.reply(), ("answer", 1, ("array", 1, 2)))
            same(second.ask(wire.call(2, ("find", b"cells"))), ("answer", 2, ("array", 1, 2)))
    told = "calls 3 completed 3 waiting 0 withdrawn 0 repeated 0 refused 0\nmails 5 taken 5 dropped 0 left 0\n"
    same(server.ended(), (0, told, ""))


CROWD, EACH = 60, 60
MOST_PENDING = 2048  # entries; one message more waits


@within(90)
def waits_for_room(place):
    """messages that wait for room, since 2,048 entries are pending while a sync is held, are handled once it ends"""
    held = Held(place, "fdatasync")
    server = Server(place).start(held.env)
    conns = attaches(server)
    fill_up(server, held, conns, EACH)
    held.let_go()
    for session, conn in enumerate(conns):
        count = EACH + (session == 0)
        same([conn.reply() for _ in range(count)], [("welcome", session, 1)] * count, f"connection {session}")
        conn.close()
    server.stop()
    _, groups = store.slots_of(place.read("s.store"))[0].read()
    largest = max(len(payload) for _, payload in groups) // 80
    holds(largest >= MOST_PENDING, f"the largest group has {largest} entries, so nothing waited for room")
    return f"a group of {largest} entries"


@within(90)
def all_wait_for_room(place):
    """of five connections whose messages wait for room and make no entry, each is answered once there is room"""
    held = Held(place, "fdatasync")
    server = Server(place).start(held.env)
    conns = [server.attached(session) for session in range(32)]
    others = [server.attached(session) for session in range(32, 37)]
    for conn in others:
        same(conn.ask(wire.call(1, ("find", b"none"))), ("answer", 1, ("no-array",)))
    fill_up(server, held, conns, MOST_PENDING // len(conns))
    conns[0].send(wire.attach(0))
    comes_to_rest(server)
    for conn in others:
        conn.send(wire.call(1, ("find", b"none")))
    holds(not any(conn.is_quiet() is False for conn in others), "a message did not wait for room")
    held.let_go()
    for conn in others:
        same(conn.reply(), ("answer", 1, ("no-array",)))


def fill_up(server, held, conns, each):
    """While a sync of the server is held, each connection sends so many attaches of its session, until no more are handled."""
    held.next()
    conns[0].send(wire.attach(0))
    held.wait()
    for session, conn in enumerate(conns):
        conn.send(wire.attach(session) * each)
    comes_to_rest(server)


def attaches(server):
    """Connections of CROWD sessions, attached one after another, so that each makes a group of its own."""
    return [server.attached(session) for session in range(CROWD)]


def comes_to_rest(server):
    """Waits until for a while no thread of the server has run, except the one that is held."""
    last = [runs_of(server), time.monotonic()]

    def rests():
        now = runs_of(server)
        if sum(now[thread] != last[0].get(thread) for thread in now) > 1:
            last[:] = now, time.monotonic()
        return time.monotonic() - last[1] > 0.3

    until(rests, 30, "the server comes to rest")


def runs_of(server):
    """How often each thread of the server has run."""
    found = {}
    for thread in os.listdir(f"/proc/{server.process.pid}/task"):
        with open(f"/proc/{server.process.pid}/task/{thread}/status", encoding="ascii") as file:
            found[thread] = [line for line in file if "ctxt_switches" in line]
    return found


@within(300)
def one_after_another(place):
    """a thousand connections, one after another, each with a session that continues where it was; they leave no memory behind"""
    server = Server(place, connections=256).start()
    made(server, (b"counter", 1, 1))
    for turn in range(1000):
        session, number = turn % 60, turn // 60 + 1
        if turn == 200:
            before = memory_of(server)
        with server.connect() as conn:
            conn.send(wire.attach(session) + wire.call(number, adding(1, 0, 1)))
            same([conn.reply(), conn.reply()], [("welcome", session, 1), ("answer", number, ("value", turn))])
    holds(server.is_running(), "the server ended")
    with server.attached(0) as conn:
        same(conn.ask(wire.report()), ("report", "waiting 0\n"))
    until(lambda: threads_of(server) < 20, 10, "the threads of connections that ended are gone")
    grown = memory_of(server) - before
    holds(grown < 2 * 1024, f"the last 800 connections left {grown} KiB of memory behind")
    return f"{grown} KiB more at the end"


def threads_of(server):
    return len(os.listdir(f"/proc/{server.process.pid}/task"))


def memory_of(server):
    """The server's memory, in KiB."""
    with open(f"/proc/{server.process.pid}/status") as file:
        return next(int(line.split()[1]) for line in file if line.startswith("VmRSS"))


@within(90)
def the_257th(place):
    """256 connections are served at once, the 257th is closed without a reply, and another is served once one has ended"""
    server = Server(place, connections=256).start()
    conns = [server.connect() for _ in range(256)]
    for conn in conns:
        same(conn.ask(wire.report())[0], "report")
    with server.connect() as late:
        holds(late.has_ended(), "the 257th connection was served")
    for conn in conns[::17]:
        same(conn.ask(wire.report())[0], "report")
    conns[100].close()
    conns[100] = until(lambda: served(server), 20, "a place was free again")
    for conn in conns:
        same(conn.ask(wire.report())[0], "report")
        conn.close()


def served(server):
    """A connection that is served, or None."""
    conn = server.connect()
    try:
        conn.ask(wire.report())
        return conn
    except wire.Ended:
        conn.close()
        return None


# Frames of versions 1 and 2 and the server's replies, written by hand: the first path, then the other kinds.
TALK = (
    (b"\0\0\0\x09\x01\0\0\0\0\0\0\0\x07", b"\0\0\0\x11\x41\0\0\0\0\0\0\0\x07\0\0\0\0\0\0\0\x01"),
    (b"\0\0\0\x1f\x02\0\0\0\0\0\0\0\x01\x05cells" + bytes(14) + b"\x02\0", b"\0\0\0\x16\x42\0\0\0\0\0\0\0\x01\x03\0\0\0\0\0\0\0\x01\0\0\0\x02"),
    (b"\0\0\0\x1e\x05\0\0\0\0\0\0\0\x02\x13\0\0\0\0\0\0\0\x01" + bytes(11) + b"\x2a", b"\0\0\0\x16\x42\0\0\0\0\0\0\0\x02\x02" + bytes(12)),
    (b"\0\0\0\x1e\x05\0\0\0\0\0\0\0\x03\x10\0\0\0\0\0\0\0\x01" + bytes(12), b"\0\0\0\x16\x42\0\0\0\0\0\0\0\x03\x01\0\0\0\0\0\0\0\x2a" + bytes(4)),
    (b"\0\0\0\x1e\x05\0\0\0\0\0\0\0\x04\x12\0\0\0\0\0\0\0\x01" + bytes(12), b"\0\0\0\x16\x42\0\0\0\0\0\0\0\x04\x01\0\0\0\0\0\0\0\x2a" + bytes(4)),
    # (a readfe under number 5 that may not wait is answered not-now; one under number 7 waits and is cancelled)
    (b"\0\0\0\x1e\x0b\0\0\0\0\0\0\0\x05\x10\0\0\0\0\0\0\0\x01" + bytes(12), b"\0\0\0\x16\x42\0\0\0\0\0\0\0\x05\x0b" + bytes(12)),
    (b"\0\0\0\x1e\x05\0\0\0\0\0\0\0\x07\x10\0\0\0\0\0\0\0\x01" + bytes(12), b""),
    (b"\0\0\0\x09\x06\0\0\0\0\0\0\0\x07", b"\0\0\0\x09\x43\0\0\0\0\0\0\0\x07"),
    (b"\0\0\0\x09\x06\0\0\0\0\0\0\0\x05", b"\0\0\0\x0a\x46\0\0\0\0\0\0\0\x05\x0a"),
    (b"\0\0\0\x09\x07\0\0\0\0\0\0\0\x05", b"\0\0\0\x09\x44\0\0\0\0\0\0\0\x05"),
    (b"\0\0\0\x1a\x03\0\0\0\0\0\0\0\x06\x05cells" + bytes(11), b"\0\0\0\x16\x42\0\0\0\0\0\0\0\x06\x03\0\0\0\0\0\0\0\x01\0\0\0\x02"),
    (b"\0\0\0\x11\x04\0\0\0\0\0\0\0\x08\0\0\0\0\0\0\0\x01", b"\0\0\0\x16\x42\0\0\0\0\0\0\0\x08\x02" + bytes(12)),
    (
        b"\0\0\0\x2f\x0c\0\0\0\0\0\0\0\x09\x11seventeen_letters" + bytes(15) + b"\0\0\0\x01\x01",
        b"\0\0\0\x16\x42\0\0\0\0\0\0\0\x09\x03\0\0\0\0\0\0\0\x02\0\0\0\x01",
    ),
    (b"\0\0\0\x2a\x0d\0\0\0\0\0\0\0\x0a\x11seventeen_letters" + bytes(15), b"\0\0\0\x16\x42\0\0\0\0\0\0\0\x0a\x03\0\0\0\0\0\0\0\x02\0\0\0\x01"),
    (b"\0\0\0\x01\x09", b"\0\0\0\x0b\x47waiting 0\n"),
    (b"\0\0\0\x01\x08", b"\0\0\0\x09\x45\0\0\0\0\0\0\0\x07"),
)


def bytes_of_frames(place):
    """the bytes of each kind of reply, to frames sent whole or a byte at a time"""
    for pieces in ("whole", "bytes"):
        server = Server(place, pieces).start()
        with server.connect() as conn:
            for frame, reply in TALK:
                for piece in [frame] if pieces == "whole" else [frame[at : at + 1] for at in range(len(frame))]:
                    conn.send(piece)
                same(conn.piece(len(reply)), reply, frame)
            holds(conn.is_quiet(), "more came than the replies")
        server.stop()


@within(180)
def never_reads(place):
    """a client that sends and reads nothing for 30 seconds is dropped, while the others are served"""
    server = Server(place).start()
    made(server, (b"counter", 1, 1))
    piece = b"".join(wire.call(number, ("access", 18, 1, 0, 0, False)) for number in range(1, 33)) * 64
    dropped = None
    with server.attached(8) as other, server.attached(7) as conn:
        conn.wait(120 * wire.patience)
        for turn in range(1, 401):
            began = time.monotonic()
            try:
                conn.send(piece)
            except wire.Ended as why:
                took, dropped = time.monotonic() - began, turn
                holds("timed out" not in str(why), f"the server neither reads nor drops: {why}")
                # (the server may have stopped reading before, so it can be less than 30 seconds)
                holds(took < 50, f"dropped after {took:.0f} seconds")
                break
            if turn % 8 == 0:
                same(other.ask(wire.report())[0], "report")
        holds(dropped, "a client that never reads was not dropped")
        same(other.ask(wire.call(1, adding(1, 0, 1))), ("answer", 1, ("value", 0)))
        # once the data in the streams is done with, the session is free
        with server.attached(7) as again:
            same(again.ask(wire.call(1, ("access", 18, 1, 0, 0, False)))[:2], ("answer", 1))
    return f"dropped within {dropped * len(piece) // 1024} kB, after {took:.0f} s"


PIPELINED = 20000


def calls_and_settles(number):
    """A call, and the settle behind it."""
    return [wire.call(number, adding(1, 0, 1)), wire.settle(number + 1)]


def of_each_kind(number):
    """A call, a settle, a cancel of what is not there, a call beyond the window, and a report now and then."""
    far = wire.call(number + 1000, adding(1, 0, 1))
    return [*calls_and_settles(number), wire.cancel(number + 1), far, *([wire.report()] if number % 50 == 0 else [])]


# What is sent for each number, one reply for each message.
PIPELINES = {
    "calls and settles": calls_and_settles, "settles": lambda number: [wire.settle(1)],
    "answers that are sent again": lambda number: [wire.call(1, adding(1, 0, 1))],
    "refusals": lambda number: [wire.call(number + 1000, adding(1, 0, 1))], "cancels": lambda number: [wire.cancel(7)],
    "reports": lambda number: [wire.report()], "each kind": of_each_kind,
}


def pipelines(place):
    """a client that sends 20,000 messages of a kind without a pause, and reads all the while, gets the reply to each"""
    server = Server(place).start()
    made(server, (b"counter", 1, 1))
    for session, (name, messages) in enumerate(PIPELINES.items(), 1):
        with server.attached(session) as conn:
            conn.wait(60 * wire.patience)
            # (a call that is sent again before it is answered has no reply of its own, so the first one is answered before)
            start = 1
            if name == "answers that are sent again":
                same(conn.ask(wire.call(1, adding(1, 0, 1)))[:2], ("answer", 1))
            sent = []
            while len(sent) < PIPELINED:
                sent += messages(start)
                start += 1
            sender = Worker(conn.send, b"".join(sent))
            for at in range(len(sent)):
                try:
                    conn.frame()
                except wire.Ended as why:
                    holds(False, f"{name}: after {at} replies of {len(sent)}: {why}")
            sender.ended()
            holds(conn.is_quiet(), f"{name}: more replies than messages")
    return f"{len(PIPELINES)} kinds"


@within(120)
def reads_slowly(place):
    """a client that sends without a pause, reads 20 KB a second, and then nothing for three seconds, gets each reply in order"""
    server = Server(place).start()
    made(server, (b"counter", 1, 1))
    with server.attached(1) as conn:
        conn.wait(60 * wire.patience)
        sent = b"".join(message for number in range(1, PIPELINED + 1) for message in calls_and_settles(number))
        sender = Worker(conn.send, sent)
        for _ in range(60):
            conn.got += conn.socket.recv(1024)
            time.sleep(0.05)
        holds(sender.is_alive(), "the connection ended, or the pipeline is too short")
        time.sleep(3)
        for number in range(1, PIPELINED + 1):
            same(conn.reply(), ("answer", number, ("value", number - 1)))
            same(conn.reply(), ("settled", number + 1))
        sender.ended()


BAD_FRAMES = (
    ("of length 0", b"\0\0\0\0"), ("of length 48", b"\0\0\0\x30"), ("of the greatest length", b"\xff\xff\xff\xff"),
    ("of kind 0", b"\0\0\0\1\0"), ("of kind 10", b"\0\0\0\x0a\x0a"), ("of a server's kind", wire.framed(65, bytes(16))),
    ("with another length than its kind's", b"\0\0\0\x0a\1"),
    ("with a name of 17 bytes in 16", wire.framed(3, bytes(8) + b"\x11" + b"a" * 16)),
    ("with a byte behind its name", wire.framed(3, bytes(8) + b"\1" + b"aa" + bytes(14))),
    ("with a short name in kind 13", wire.framed(13, bytes(8) + b"\x10" + b"a" * 16 + bytes(16))),
    ("with tag 2", wire.framed(2, bytes(8) + b"\1a" + bytes(15) + b"\0\0\0\1\2")),
    ("with operation 24", wire.framed(5, bytes(8) + b"\x18" + bytes(20))),
    ("with an operand that is not used", wire.framed(5, bytes(8) + b"\x10" + bytes(19) + b"\1")),
    ("of version 2 with operation 15", wire.framed(11, bytes(8) + b"\x0f" + bytes(20))),
)


def bad_frames(place):
    """a bad frame of each kind ends its connection without a reply, and its threads; what came before it is done"""
    server = Server(place).start()
    for session, (name, frame) in enumerate(BAD_FRAMES):
        with server.connect() as conn:
            conn.send(wire.attach(session) + wire.call(1, ("find", b"a")) + frame + wire.call(2, ("find", b"a")))
            got, wanted = conn.rest(), [("welcome", session, 1), ("answer", 1, ("no-array",))]
            holds(got == wanted[: len(got)], f"a frame {name}: {got}")
    for name, frame in BAD_FRAMES:
        with server.connect() as conn:
            conn.ask(wire.report())
            time.sleep(0.05)  # so that its writing thread sleeps, and has to be woken
            conn.send(frame)
            same(conn.rest(), [], f"a frame {name} after a report")
    # (a welcome is sent once everything before it is stored)
    server.attached(1000).close()
    until(lambda: threads_of(server) <= 2, 20, "the threads of connections that ended are gone")
    server.stop()
    left = store.read_store(place.read("s.store"))[2]
    for session, (name, _) in enumerate(BAD_FRAMES):
        same(list(left.sessions[session].kept), [1], f"what came before and behind a frame {name}")


def taken_over(place):
    """when another connection attaches a session, the first one is no longer attached, and its requests go on waiting"""
    server = Server(place).start()
    made(server, (b"cells", 1, 0))
    with server.attached(7) as first, server.attached(8) as other:
        first.send(wire.call(1, ("access", 16, 1, 0, 0, False)))
        same(first.ask(wire.report())[1].splitlines()[0], "waiting 1")
        with server.attached(7) as second:
            same(first.ask(wire.call(2, ("find", b"cells"))), ("refused", 2, "not-attached"))
            first.close()
            second.send(wire.call(1, ("access", 16, 1, 0, 0, False)))
            same(second.ask(wire.report())[1].splitlines()[1:3], ["word 1 0 session 7 number 1 readfe", "session 7 waits 1"])
            same(other.ask(wire.call(1, ("access", 19, 1, 0, 5, False))), ("answer", 1, ("done",)))
            same(second.reply(), ("answer", 1, ("value", 5)))


def refusals(place):
    """64 sessions are kept and the 65th is refused; windows, floors and numbers are as in the schedules"""
    server = Server(place, connections=100).start()
    conns = [server.attached(session) for session in range(64)]
    with server.connect() as late:
        same(late.ask(wire.attach(64)), ("refused", 64, "session-limit"))
        same(late.ask(wire.call(1, ("find", b"a"))), ("refused", 1, "not-attached"))
        same(conns[0].ask(wire.bye()), ("goodbye", 0))
        same(late.ask(wire.attach(64)), ("welcome", 64, 1))
        same(late.ask(wire.call(33, ("find", b"a"))), ("refused", 33, "beyond-window"))
        # (no schedule has an empty name)
        same(late.ask(wire.call(1, ("create", b"", 0, 1))), ("answer", 1, ("bad-name",)))
        same(late.ask(wire.call(2, ("find", b""))), ("answer", 2, ("bad-name",)))
        same(late.ask(wire.settle(0)), ("refused", 0, "below-floor"))
        same(late.ask(wire.settle(34)), ("refused", 34, "beyond-window"))
        same(late.ask(wire.cancel(3)), ("refused", 3, "not-waiting"))
