"""How connections and servers begin and end: half-closed clients, admissions given back, sockets, device faults."""

import collections
import errno
import fcntl
import os
import resource
import socket
import struct
import subprocess
import termios
import time

from . import wire
from .crowds import EACH, adding, attaches, comes_to_rest, fill_up, made, memory_of, served, threads_of
from .faults import is_change
from .harness import Held, Server, Skipped, holds, preload, same, until, within
from .records import calls_of

READFE = 16


def descriptors_of(server):
    return len(os.listdir(f"/proc/{server.process.pid}/fd"))


def half_closed_replies(place):
    """clients that send and at once shut their sending side get each reply, and then the end of the stream"""
    turns = place.options.turns or 100
    server = Server(place).start()
    made(server, (b"counter", 1, 1), (b"empty", 1, 0))
    for turn in range(turns):
        session = turn % 60
        says = wire.attach(session) + wire.call(1, adding(1, 0, 1))
        # (a waiting request gets no reply, and is withdrawn)
        says += wire.call(2, ("access", READFE, 2, 0, 0, False)) if turn % 2 else b""
        with server.connect() as conn:
            conn.send(says + wire.settle(2) + (b"" if turn % 2 else wire.bye()))
            conn.finish()
            wanted = [("welcome", session, 1), ("answer", 1, ("value", turn)), ("settled", 2), ("goodbye", session)]
            same(conn.rest(), wanted[: 4 - turn % 2], f"turn {turn}")
        if turn % 2:
            with server.attached(session) as conn:
                same(conn.ask(wire.report())[1].splitlines()[0], "waiting 0")
                same(conn.ask(wire.bye()), ("goodbye", session))
    return f"{turns} clients"


def half_closed_long(place):
    """a client that sends more than a socket holds, shuts its sending side and reads late gets every reply"""
    server = Server(place).start()
    for turn in range(5):
        with server.connect() as conn:
            calls = 100
            conn.send(wire.attach(turn))
            conn.reply()
            for call in range(1, 33):
                conn.send(wire.call(call, ("access", READFE, 9, 0, 0, False)))
            conn.send(wire.report() * calls)
            conn.finish()
            time.sleep(0.05)
            same(collections.Counter(reply[0] for reply in conn.rest()), {"answer": 32, "report": calls})


def half_closed_in_a_sync(place):
    """a client that shuts its sending side while another's call is being stored gets the end of the stream once that is stored"""
    held = Held(place, "fdatasync")
    server = Server(place).start(held.env)
    made(server, (b"counter", 1, 1))
    with server.attached(7) as other, server.connect() as conn:
        held.next()
        other.send(wire.call(1, adding(1, 0, 1)))
        held.wait()
        same(conn.ask(wire.report()), ("report", "waiting 0\n"))
        conn.finish()
        # (its read side waits for what was made before the report, and gets no mail of it)
        comes_to_rest(server)
        held.let_go()
        holds(conn.has_ended(), "the connection did not end")
        same(other.reply(), ("answer", 1, ("value", 0)))


def closed_at_once(place):
    """clients that send and at once close leave no thread and no open file"""
    turns = place.options.turns or 100
    server = Server(place, connections=256).start()
    made(server, (b"counter", 1, 1))
    until(lambda: threads_of(server) <= 2, 10, "no connection is left")
    before = descriptors_of(server)
    for turn in range(turns):
        with server.connect() as conn:
            conn.send(wire.attach(turn % 60) + wire.call(turn // 60 + 1, adding(1, 0, 1)) + wire.report() * 20)
    until(lambda: threads_of(server) <= 2, 20, "the threads of connections that ended are gone")
    until(lambda: descriptors_of(server) == before, 20, "the open files of connections that ended are gone")
    return f"{turns} clients"


def closed_with_reports(place):
    """clients that ask for long reports and close while these block their write side leave no thread"""
    turns = place.options.turns or 30
    server = Server(place, connections=256).start()
    waiting = waiters(server)  # (they stay open)
    before = threads_of(server)
    for turn in range(turns):
        conns = [server.connect() for _ in range(5)]
        for conn in conns:
            conn.send(wire.report() * 300)
        # (some close before the first report, the others in the middle of one)
        time.sleep(0.15 if turn % 2 else 0.02)
        for conn in conns:
            conn.close()
    until(lambda: threads_of(server) <= before, 20, "the threads of connections that ended are gone")
    return f"{5 * turns} clients"


def waiters(server):
    """Connections of 63 sessions with 32 requests each that wait, so that a report is long."""
    made(server, (b"empty", 65536, 0))
    waiting = []
    for session in range(2**64 - 63, 2**64):
        conn = server.attached(session)
        conn.send(b"".join(wire.call(call, ("access", READFE, 1, 65535, 0, False)) for call in range(1, 33)))
        waiting.append(conn)
    with server.connect() as conn:
        until(lambda: conn.ask(wire.report())[1].startswith("waiting 2016\n"), 20, "all wait")
    return waiting


def last_turn(place):
    """a connection that has used up its `turns` gets the replies to its last read"""
    turns = place.options.turns or 20
    server = Server(place, turns=1).start()
    for turn in range(turns):
        with server.connect() as conn:
            conn.send(wire.attach(turn % 60) + wire.settle(1) + wire.bye())
            same(conn.rest(), [("welcome", turn % 60, 1), ("settled", 1), ("goodbye", turn % 60)], f"turn {turn}")
    return f"{turns} connections"


def at_the_limit(place):
    """`connections = 1`: a client that closes and at once connects again is served, and not only after a second"""
    turns = place.options.turns or 200
    server = Server(place, connections=1).start()
    late = away = 0
    for _ in range(turns):
        began = time.monotonic()
        with server.connect() as conn:
            try:
                same(conn.ask(wire.report()), ("report", "waiting 0\n"))
            except wire.Ended:
                # (on a busy machine the place may become free between the two looks at it, or its second may be over)
                away += 1
        late += time.monotonic() - began > 0.9
    holds(away <= turns / 20, f"{away} of {turns} clients were turned away")
    # (a newcomer that no one lets in waits for a second)
    holds(late <= turns / 10, f"{late} of {turns} clients came in a second late")
    with server.connect() as conn:
        same(conn.ask(wire.report())[0], "report")
        began = time.monotonic()
        with server.connect() as second:
            holds(second.has_ended(), "one connection too many was served")
        holds(time.monotonic() - began < wire.patience, "one connection too many was not turned away at once")
    return f"{turns} turns"


def ready_socket(place):
    """once the socket's file exists a client can connect, and no temporary socket is left"""
    turns = place.options.turns or 20
    for turn in range(turns):
        server = Server(place)
        if turn % 4 == 1:
            # (left by a server that was killed while it started)
            left = socket.socket(socket.AF_UNIX)
            left.bind(server.socket + ".new")
            left.close()
        server.start(waits=False)
        until_there(server)
        client = socket.socket(socket.AF_UNIX)
        try:
            client.connect(server.socket)
        except OSError as error:
            holds(False, f"turn {turn}: {error}")
        client.close()
        until(lambda: not os.path.exists(server.socket + ".new"), 10, "the name beside is gone")
        server.stop()
    return f"{turns} starts"


def until_there(server):
    """Polls for the socket's file, without a pause."""
    end = time.monotonic() + 30
    while not os.path.exists(server.socket):
        holds(time.monotonic() < end, "there is no socket")


def two_at_one_socket(place):
    """of two servers at one socket's path, the first or both slow between bind and listen, one serves, and the other ends with `femem: socket`"""
    for name, is_slow in (("first", False), ("both", True)):
        held = [Held(place, "listen", f"{name}{number}") for number in range(2)]
        servers = [Server(place, f"{name}{number}") for number in range(2)]
        servers[1].socket = servers[0].socket
        held[0].next()
        servers[0].start(held[0].env, waits=False)
        held[0].wait()
        if is_slow:
            held[1].next()
        servers[1].start(held[1].env, waits=False)
        held[1].wait() if is_slow else until_there(servers[1])
        held[0].let_go()
        if is_slow:
            until_there(servers[0])
            held[1].let_go()
        until(lambda: sum(it.is_running() for it in servers) == 1, 30, f"{name}: one of the two ends")
        winner, other = sorted(servers, key=lambda it: not it.is_running())
        same(other.ended(), (4, "", "femem: socket\n"), name)
        winner.attached(7).close()
        same([it for it in os.listdir(place.folder) if it.endswith(".socket.new")], [], name)
        winner.stop()


def few_descriptors(place):
    """a server that may open too few files for its socket says so, and one with enough for it serves"""
    said = []
    for count in range(4, 16):
        server = Server(place, f"d{count}", store=place.path("store"))
        server.start(waits=False, limit=(resource.RLIMIT_NOFILE, count)).begins()
        if server.is_running() and can_connect(server):
            server.attached(7).close()
            said.append("serves")
            server.stop()
        else:
            status, output, errors = server.ended()
            same(output, "", f"{count} descriptors")
            said.append((status, errors))
            holds(not os.path.exists(server.socket), f"{count} descriptors: a socket is left")
    socket_fault = (4, "femem: socket\n")
    before = said[: said.index(socket_fault)]
    holds(before and set(before) <= {(2, "femem: settings: unreadable\n"), (3, "femem: store device\n")}, said)
    holds(set(said[len(before) :]) == {socket_fault, "serves"} and said[-1] == "serves", said)
    same(said[len(before) :], sorted(said[len(before) :], key=lambda it: it == "serves"))
    return f"{said.count(socket_fault)} of them too few for the socket"


def can_connect(server):
    """Whether a server serves within a moment after its socket's file is there."""
    try:
        server.process.wait(0.3)
    except subprocess.TimeoutExpired:
        return True
    return False


def long_paths(place):
    """socket paths of 103 to 107 bytes are served, and one of 108 is not; a file at the path, or at PATH.new, stays"""
    for length in (103, 104, 107):
        server = Server(place)
        server.socket = place.path("s" * (length - len(place.folder) - 1))
        same(len(server.socket), length)
        server.start()
        server.attached(7).close()
        server.stop()
    server = Server(place)
    server.socket = place.path("s" * (108 - len(place.folder) - 1))
    server.start(waits=False)
    same(server.ended(), (4, "", "femem: socket\n"))
    server = Server(place)
    for path in (server.socket, server.socket + ".new"):
        place.write(os.path.basename(path), b"another's")
    server.start(waits=False)
    same(server.ended(), (4, "", "femem: socket\n"))
    os.unlink(server.socket)
    server.start()
    server.attached(7).close()
    server.stop()
    same(place.read(os.path.basename(server.socket) + ".new"), b"another's")


def beside_another(place):
    """a server whose socket has the name PATH.new goes on while another starts at PATH, and keeps its socket"""
    servers = [Server(place, name) for name in ("s", "other")]
    servers[1].socket = f"{servers[0].socket}.new"
    servers[1].start()
    before = os.stat(servers[1].socket)
    servers[0].start()
    is_kept = os.path.exists(servers[1].socket) and os.path.samestat(os.stat(servers[1].socket), before)
    holds(is_kept, "the other's socket was removed or replaced")
    for session, server in enumerate(servers):
        server.attached(session).close()
        server.stop()


def datagrams_beside(place):
    """another program's socket at PATH.new, to which no stream can connect, stays, and the path is served"""
    server = Server(place)
    with socket.socket(socket.AF_UNIX, socket.SOCK_DGRAM) as other:
        other.bind(server.socket + ".new")
        before = os.stat(server.socket + ".new")
        server.start()
        server.attached(7).close()
        server.stop()
        holds(os.path.samestat(os.stat(server.socket + ".new"), before), "the other's socket was replaced")


# A loaded machine adds to each time, so the least of some turns is compared with a bound, and the bound is the same whatever the patience.
MOST_TURNS = 12


def quickest(turns, bound, turn):
    """The least time of that many turns, or of as many as it takes to come below the bound."""
    took = []
    for number in range(MOST_TURNS):
        took.append(turn(number))
        if len(took) >= turns and min(took) < bound:
            break
    return min(took)


def turned_away(server):
    """How long a newcomer waits until it is turned away."""
    began = time.monotonic()
    with server.connect() as late:
        holds(late.has_ended(), "one connection too many is neither served nor closed")
    return time.monotonic() - began


def behind_half_closed(server):
    """How long the first newcomer waits for the end of a client that has shut its receiving side."""
    with until(lambda: served(server), 20, "a place is free") as half:
        half.socket.shutdown(socket.SHUT_RD)
        took = turned_away(server)
    holds(0.9 < took, f"the first was closed after {took:.2f} s")
    return took


@within(90)
def door_behind_half_closed(place):
    """at the limit, while a client has shut its receiving side: one newcomer waits a second for its end, and no later one; the next comes in where another has left"""
    server = Server(place, connections=2).start()
    with server.attached(1) as other:
        first = quickest(1, 2, lambda _turn: behind_half_closed(server))
        holds(first < 2, f"the first was closed after {first:.2f} s")
        with until(lambda: served(server), 20, "a place is free") as half:
            half.socket.shutdown(socket.SHUT_RD)
            turned_away(server)
            later = quickest(3, 0.5, lambda _turn: turned_away(server))
            holds(later < 0.5, f"each later one was closed after {later:.2f} s or more")
            other.close()
            with until(lambda: served(server), 20, "a place is free again") as conn:
                same(conn.ask(wire.attach(3)), ("welcome", 3, 1))
    return f"after {first:.2f} s, then {later:.2f} s"


def accepts_while_one_waits(place):
    """at the limit, while a newcomer waits for a place that is about to be free: the next is turned away at once, and the first is served where another has left"""
    server = Server(place, connections=2).start()

    def turn(_number):
        with server.attached(1) as half, server.attached(2) as other:
            half.socket.shutdown(socket.SHUT_RD)
            with server.connect() as first:
                began = time.monotonic()
                with server.connect() as second:
                    holds(second.has_ended(), "one connection too many is neither served nor closed")
                took = time.monotonic() - began
                other.close()
                try:
                    same(first.ask(wire.report()), ("report", "waiting 0\n"))
                except wire.Ended:
                    # (on a busy machine its second is over)
                    took = max(took, 1)
        return took

    took = quickest(3, 0.5, turn)
    server.stop()
    holds(took < 0.5, f"the next was turned away after {took:.2f} s or more, or the first was never served")
    return f"{took:.2f} s"


def late_client_is_the_last(place):
    """a newcomer who waited for its place may be the last of `accepts`: the server ends after it, and without another connection"""
    server = Server(place, accepts=3, connections=2).start()
    with server.attached(1) as half, server.attached(2) as other:
        half.socket.shutdown(socket.SHUT_RD)
        with server.connect() as late:
            # (it waits, and so does the accepting thread)
            late.send(wire.report())
            time.sleep(0.1)
            other.close()
            same(late.reply(), ("report", "waiting 0\n"))
    status, _, errors = server.ended()
    same((status, errors), (0, ""))


@within(90)
def fault_with_silent_clients(place):
    """a device fault ends the server within a second, even with clients that send nothing or read nothing, one of them half-closed"""
    # (a fault takes most of a second, with the clients that have to be blocked first)
    turns = min(place.options.turns, MOST_TURNS) or 5
    library = preload(place, "record.c")
    took = quickest(turns, 1, lambda turn: fault_among_silent(place, library, turn))
    holds(took < 1, f"the server ended {took:.2f} seconds after the call that met the fault")
    return f"{took:.2f} s"


def fault_among_silent(place, library, turn):
    """How long after the call that met the fault the server ended."""
    server = Server(place, f"f{turn}", connections=64)
    server.start().stop()
    # (each group takes four device calls)
    server.start({"LD_PRELOAD": library, "RECORD": place.path(f"record{turn}"), "TURN": "60", "HOW": "fails"})
    silent = [server.connect() for _ in range(10)] + [server.attached(session) for session in range(5)]
    # (the server's writers are blocked in their writes to these; the reader of the second one has ended)
    deaf = [server.connect() for _ in range(3)]
    for others, it in enumerate(deaf[:2]):
        fill(server, it, others)
    deaf[1].finish()
    deaf[2].send(wire.report() * 20000)
    with server.attached(50) as conn:
        for _ in range(100):
            asked = time.monotonic()
            try:
                conn.ask(wire.attach(50))
            except wire.Ended:
                break
        same(server.ended(10), (3, "", "femem: store device\n"))
        took = time.monotonic() - asked
    for it in silent:
        holds(it.has_ended(), "a connection stayed open")
    for it in deaf + silent:
        it.close()
    return took


def fill(server, conn, others):
    """Asks for reports and reads none, until the thread that writes them is blocked in a send, as that many others are."""
    for _ in range(100_000):
        before = unread_of(conn)
        conn.send(wire.report())
        until(lambda: unread_of(conn) > before or senders_of(server) > others, 30, "a report comes, or its writer is blocked")
        # (a send that is not blocked is soon over)
        if unread_of(conn) == before and is_still(lambda: (unread_of(conn), senders_of(server))):
            holds(before > 1000, f"blocked after {before} bytes")
            return
    holds(False, "the socket does not fill")


def is_still(found):
    """Whether something stays the same for a while."""
    before = found()
    for _ in range(5):
        time.sleep(0.02)
        if found() != before:
            return False
    return True


def senders_of(server):
    """How many of the server's threads wait within a send."""
    count = 0
    for thread in os.listdir(f"/proc/{server.process.pid}/task"):
        try:
            with open(f"/proc/{server.process.pid}/task/{thread}/syscall", encoding="ascii") as file:
                # (44 is `sendto` on x86-64; a thread that runs is `running`)
                count += file.read().split()[0] == "44"
        except (FileNotFoundError, ProcessLookupError):
            pass
        except PermissionError:
            raise Skipped("the calls of a process can't be read in /proc") from None
    return count


def unread_of(conn):
    return struct.unpack("i", fcntl.ioctl(conn.socket, termios.FIONREAD, bytes(4)))[0]


@within(90)
def fault_while_all_wait(place):
    """a device fault ends the server while messages wait for room"""
    library, count = preload(place, "record.c"), 0
    for name in ("counted", "fails"):
        held, record = Held(place, "fdatasync", name), place.path(f"{name}.record")
        server = Server(place, name)
        env = {**held.env, "LD_PRELOAD": f"{held.env['LD_PRELOAD']}:{library}", "RECORD": record}
        # (the group's write, the two calls by which its first sync is held, and that sync, which fails)
        server.start({**env, "TURN": str(count + 4), "HOW": "fails"} if count else env)
        conns = attaches(server)
        count = sum(map(is_change, calls_of(record, is_cut=True)))
        fill_up(server, held, conns, EACH)
        held.let_go()
        if name == "fails":
            same(server.ended(), (3, "", "femem: store device\n"))
        for conn in conns:
            conn.close()
        if name == "counted":
            server.stop()
    return f"at call {count + 4}"


# How often a held reply has to come, of at most `MOST_TURNS` times: the server waits 400 ms for it, so a loaded machine may be too slow.
COMES = 3


@within(90)
def told_before_a_fault(place):
    """a reply whose write is held while the device fails, and goes on a tenth of a second later, still comes"""
    came = 0
    for turn in range(MOST_TURNS):
        came += is_written_after_fault(place, turn)
        if came == COMES:
            return f"{came} of {turn + 1} turns"
    holds(False, f"it came {came} times")


def is_written_after_fault(place, turn):
    """Holds the write of a reply, lets the device fail, and then lets the write go on. Whether the reply comes."""
    held, record = Held(place, "send", f"-write{turn}"), place.path(f"write{turn}")
    server = Server(place, f"w{turn}")
    server.start().stop()
    server.start({**held.env, "LD_PRELOAD": f"{held.env['LD_PRELOAD']}:{preload(place, 'record.c')}", "RECORD": record, "TURN": "60", "HOW": "fails"})
    failed = lambda: any(it.error == errno.EIO for it in calls_of(record, is_cut=True))
    with server.attached(7) as told, server.attached(8) as other:
        held.next()
        told.send(wire.attach(7))
        held.wait()
        for _ in range(100):
            other.send(wire.attach(8))
            until(lambda: unread_of(other) > 0 or failed(), 20, "a reply comes, or the device fails")
            if failed():
                break
            same(other.reply(), ("welcome", 8, 1))
        holds(failed(), "the device does not fail")
        time.sleep(0.1)
        held.let_go()
        try:
            is_there = told.reply() == ("welcome", 7, 1)
        except wire.Ended:
            is_there = False
        same(server.ended(), (3, "", "femem: store device\n"))
    return is_there


def unread_reports(place):
    """forty connections that each ask for 200 long reports and read nothing cost less than 20 MB"""
    server = Server(place, connections=256).start()
    waiting = waiters(server)  # (they stay open)
    with server.connect() as conn:
        length = len(conn.ask(wire.report())[1])
    before = memory_of(server)
    deaf = [server.connect() for _ in range(40)]
    for conn in deaf:
        conn.send(wire.report() * 200)
    highest = 0
    for _ in range(200):
        highest = max(highest, memory_of(server) - before)
        time.sleep(0.01)
    holds(highest * 1024 < 20_000_000, f"{highest} KiB")
    for conn in deaf:
        # (the reports still come, one after another)
        same({conn.reply()[0] for _ in range(10)}, {"report"})
        conn.close()
    return f"{highest * 1024 / 1e6:.1f} MB, reports of {length} bytes"
