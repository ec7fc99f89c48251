"""A server that ends by itself, and the totals (the books) that it prints."""

import re
import threading

from . import wire
from .crowds import adding, together
from .harness import Server, holds, same, until

# What a server counts, in two lines: calls and what became of them, and mails and what became of them.
COLUMNS = "calls completed waiting withdrawn repeated refused mails taken dropped left".split()


def books_of(server):
    """The numbers of the two lines that an ended server printed. They must add up."""
    status, output, errors = server.ended()
    found = dict(zip(COLUMNS, map(int, re.findall(r"\d+", output))))
    same((status, output, errors), (0, text(**found), ""), "the books")
    for columns in (COLUMNS[:6], COLUMNS[6:]):
        same(found[columns[0]], sum(found[it] for it in columns[1:]), columns[0])
    return found


def text(**numbers):
    row = [f"{it} {numbers.get(it, 0)}" for it in COLUMNS]
    return f"{' '.join(row[:6])}\n{' '.join(row[6:])}\n"


def each_column(place):
    """each column of the books, with clients that read everything sent to them"""
    server = Server(place, accepts=2).start()
    waits = ("access", 16, 1, 0, 0, False)
    with server.attached(7) as conn:
        same(conn.ask(wire.call(1, ("create", b"cells", 1, 0))), ("answer", 1, ("array", 1, 1)))
        same(conn.ask(wire.call(1, ("create", b"cells", 1, 0))), ("answer", 1, ("array", 1, 1)), "repeated")
        same(conn.ask(wire.call(1, ("find", b"cells"))), ("refused", 1, "number-used"))
        same(conn.ask(wire.call(99, ("find", b"cells"))), ("refused", 99, "beyond-window"))
        conn.send(wire.call(2, waits) + wire.call(2, waits) + wire.call(3, waits))
        same(conn.ask(wire.cancel(2)), ("withdrawn", 2))
        same(conn.ask(wire.report())[1].splitlines()[0], "waiting 1")
        with server.attached(8) as other:
            same(other.ask(wire.call(1, ("access", 19, 1, 0, 5, False))), ("answer", 1, ("done",)))
            same(conn.reply(), ("answer", 3, ("value", 5)))
            same(other.ask(wire.settle(9)), ("settled", 9))
            same(other.ask(wire.cancel(9)), ("refused", 9, "not-waiting"))
            same(other.ask(wire.bye()), ("goodbye", 8))
    # calls: of session 7 1, 1 again, 1 with another request, 99, 2, 2 again, 3; of session 8 1
    wanted = text(calls=8, completed=3, withdrawn=1, repeated=2, refused=2, mails=13, taken=13)
    same(server.ended(), (0, wanted, ""))


def waiting_goes(place):
    """what still waits when its client leaves is withdrawn, so the books of a server that ended show nothing waiting"""
    server = Server(place, accepts=1).start()
    with server.attached(7) as conn:
        same(conn.ask(wire.call(1, ("create", b"cells", 2, 0)))[:2], ("answer", 1))
        conn.send(b"".join(wire.call(number, ("access", 16, 1, number % 2, 0, False)) for number in range(2, 12)))
        same(conn.ask(wire.report())[1].splitlines()[0], "waiting 10")
    same(server.ended(), (0, text(calls=11, completed=1, withdrawn=10, mails=3, taken=3), ""))


def of_many(place):
    """40 clients in parallel that come and go, within `accepts`: the books agree with what they did"""
    clients, each = 40, 24
    server = Server(place, accepts=clients + 1, connections=64).start()
    with server.attached(1000) as conn:
        same(conn.ask(wire.call(1, ("create", b"counter", 4, 1)))[:2], ("answer", 1))
    lock = threading.Lock()
    did = {"calls": 1, "completed": 1, "repeated": 0, "refused": 0, "mails": 2}

    def work(client):
        with server.attached(client) as conn:
            frames = b"".join(wire.call(number, adding(1, client % 4, 1)) for number in range(1, each + 1))
            conn.send(frames)
            same([conn.reply()[:2] for _ in range(each)], [("answer", number) for number in range(1, each + 1)])
            conn.send(frames + wire.call(1, ("find", b"x")) + wire.call(33, ("find", b"x")))
            replies = [conn.reply() for _ in range(each + 2)]
            same(sum(reply[0] == "refused" for reply in replies), 2)
        with lock:
            did["calls"] += 2 * each + 2
            did["completed"] += each
            did["repeated"] += each
            did["refused"] += 2
            did["mails"] += 1 + 2 * each + 2

    together(clients, work)
    same(server.ended(), (0, text(**did, taken=did["mails"]), ""))
    return f"{did['calls']} calls"


def with_losses(place):
    """clients that disconnect, never read or send garbage: the books still add up, and count no more than was sent"""
    clients = 24
    server = Server(place, accepts=clients + 1).start()
    with server.attached(1000) as conn:
        same(conn.ask(wire.call(1, ("create", b"counter", 4, 1)))[:2], ("answer", 1))

    def work(client):
        with server.connect() as conn:
            frames = wire.attach(client) + b"".join(wire.call(number, adding(1, 0, 1)) for number in range(1, 33))
            try:
                if client % 4 == 0:
                    conn.send(frames[: client * 40])
                elif client % 4 == 1:
                    conn.send(frames)
                    conn.reply()
                elif client % 4 == 2:
                    conn.send(frames + b"\xff" * 8)
                else:
                    conn.send(frames + frames[13:] * 100)
            except wire.Ended:
                pass

    together(clients, work)
    found = books_of(server)
    holds(found["completed"] <= 1 + 32 * clients, f"{found}")
    holds(found["waiting"] == 0 and found["withdrawn"] == 0, f"{found}")
    return f"{found['mails']} mails, {found['taken']} taken"


def connections_come_and_go(place):
    """three clients, one after another, are each served alone; `accepts` does not count those that are closed at once"""
    server = Server(place, accepts=3, connections=1).start()
    for turn in range(3):
        with until(lambda: attached_or_none(server), 20, "the place is free") as conn:
            # (after the last one the server waits for no connection)
            for _ in range(5 * (turn < 2)):
                with server.connect() as late:
                    holds(late.has_ended(), "a second connection was served")
            same(conn.ask(wire.call(1, ("find", b"cells"))), ("answer", 1, ("no-array",)))
    same(server.ended(), (0, text(calls=3, completed=1, repeated=2, mails=6, taken=6), ""))


def attached_or_none(server):
    """A connection that has attached session 7, or None if it was closed at once."""
    conn = server.connect()
    try:
        same(conn.ask(wire.attach(7)), ("welcome", 7, 1))
        return conn
    except wire.Ended:
        conn.close()
        return None


def streams_end(place):
    """a client that sends a byte at a time, one that shuts its sending side, one that does so within a frame, one that sends no valid frame: what came before is done"""
    server = Server(place, accepts=4).start()
    look = lambda number, index: wire.call(number, ("access", 18, 1, index, 0, False))
    with server.attached(7) as slow:
        for frame, answer in (
            (wire.call(1, ("create", b"cells", 2, 0)), ("array", 1, 2)),
            (wire.call(2, ("access", 19, 1, 0, 42, False)), ("done",)),
            (wire.call(3, ("access", 16, 1, 0, 0, False)), ("value", 42)), (look(4, 0), ("value", 42)),
        ):
            for at in range(len(frame)):
                slow.send(frame[at : at + 1])
            same(slow.reply()[2], answer)
    with server.attached(8) as half:
        same(half.ask(look(1, 0)), ("answer", 1, ("value", 42)))
        # (the write is to the second word, and the read waits for the first)
        half.send(wire.call(2, ("access", 19, 1, 1, 9, False)) + wire.call(3, ("access", 16, 1, 0, 0, False)))
        half.finish()
        until(half.has_ended, 20, "the server ends a connection that was shut")
    with server.connect() as cut:
        cut.send(wire.attach(7)[:6])
        cut.finish()
        holds(cut.has_ended(), "the server kept a connection that ended within a frame")
    with server.attached(9) as bad:
        same(bad.ask(look(1, 1)), ("answer", 1, ("value", 9)))
        bad.send(bytes(4))
        holds(bad.has_ended(), "the server kept a connection that sent no frame")
    found = books_of(server)
    # (the write's answer may or may not be mailed before its client is gone)
    wanted = {"calls": 8, "completed": 7, "waiting": 0, "withdrawn": 1, "repeated": 0, "refused": 0}
    same({key: found[key] for key in wanted}, wanted)
    left = "place 10\narray 1 cells 2\nsession 7 floor 1 kept 4\nsession 8 floor 1 kept 2\nsession 9 floor 1 kept 1\n"
    same(server.looks(), left)


def turns_end_a_connection(place):
    """a connection ends after `turns` reads, and what came with the last read is handled"""
    server = Server(place, accepts=2, turns=3).start()
    with server.connect() as conn:
        same([conn.ask(wire.report()) for _ in range(2)], [("report", "waiting 0\n")] * 2)
        conn.send(wire.report())
        # (the last report may or may not be written before the connection ends)
        until(lambda: conn.has_ended() and conn.got in (b"", wire.framed(71, b"waiting 0\n")), 20, "the third read was the last")
    with server.connect() as conn:
        same(conn.ask(wire.report()), ("report", "waiting 0\n"))
    found = books_of(server)
    same((found["calls"], found["mails"], found["left"]), (0, 4, 0))
    holds(found["dropped"] <= 1, f"{found}")
