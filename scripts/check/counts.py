"""What a server costs, counted: its system calls, which `count.c` sees one by one, and its processor time. A bound here is the
same on a slow machine, and whatever the patience."""

import itertools
import os
import platform
import re
import resource
import select
import shutil
import struct
import subprocess
import time
from pathlib import Path

from . import wire
from .clients import output_of
from .constants import INSTRUCTIONS_WITHIN, MOST_CALLS, MOST_FUTEX
from .crowds import adding, made, runs_of
from .harness import HERE, Held, Server, Skipped, compiler, holds, preload, same, until, within
from .texts import TOP, text_of

# The numbers of the calls on x86-64, the program's only target.
CALLS = {"pwrite": 18, "send": 44, "receive": 45, "wait": 7, "sync": 75, "size": 8, "name": 89, "futex": 202, "accept": 288, "sleep": 230, "nap": 35}
OTHERS = ()  # those that are not counted


class Counted:
    """Counts the calls of each server that a check starts from now on."""

    def __init__(self, place):
        if platform.machine() != "x86_64":
            raise Skipped("the numbers of system calls are those of x86-64")
        self.program = place.program
        counter, self.file = place.path("count"), place.path("counts")
        words = [compiler(), "-O2", "-o", counter, os.path.join(HERE, "count.c")]
        ran = subprocess.run(words, stdin=subprocess.DEVNULL, capture_output=True, text=True, timeout=60, check=False)
        same(ran.returncode, 0, ran.stderr)
        script = f'#!/bin/sh\nexec "{counter}" "{self.file}" "{self.program}" "$@"\n'
        place.program = place.write("counted", script.encode())
        os.chmod(place.program, 0o755)

    def all(self):
        return struct.unpack("512Q", Path(self.file).read_bytes())

    def since(self, before):
        """How often each call was made since then, by name; `all` has the sum of all calls, named or not."""
        found = [now - then for now, then in zip(self.all(), before)]
        every = sum(count for number, count in enumerate(found) if number not in OTHERS)
        return {**{name: found[number] for name, number in CALLS.items()}, "all": every}


def a_window(place):
    """32 calls that come together take one receive, and their replies, which are of one group, one send, two writes and two syncs"""
    held, counted = Held(place, "fdatasync"), Counted(place)
    server = Server(place).start(held.env)
    made(server, (b"counter", 1, 1))
    with server.attached(7) as conn, server.connect() as other:
        held.next()
        other.send(wire.attach(8))
        held.wait()
        before = counted.all()
        conn.send(b"".join(wire.call(number, adding(1, 0, 1)) for number in range(1, 33)) + wire.report())
        # (the report comes once all calls are handled)
        same(conn.reply(), ("report", "waiting 0\n"))
        # (the two readers' next ones may begin meanwhile, and the one that takes the calls may have begun before or after)
        received, before = counted.since(before)["receive"], counted.all()
        holds(received <= 3, f"{received} receives more")
        held.let_go()
        same([conn.reply() for _ in range(32)], [("answer", number, ("value", number - 1)) for number in range(1, 33)])
        same(other.reply(), ("welcome", 8, 1))
        found = counted.since(before)
    server.stop()
    # (the sync that was held and one more, after one more write, are of the other session's group)
    same({name: found[name] for name in ("send", "pwrite", "sync")}, {"send": 1 + 1, "pwrite": 1 + 2, "sync": 2 + 2})


LONE = 1000


def lone(conn, first, count):
    """Calls one after another, each once the one before is answered."""
    for number in range(first, first + count):
        same(conn.ask(wire.call(number, adding(1, 0, 1)))[:2], ("answer", number))
        if number % 16 == 0:
            same(conn.ask(wire.settle(number + 1)), ("settled", number + 1))


def lone_calls(place):
    """each of a thousand lone calls takes a wait (`poll`), a receive, a send, two writes, two syncs and one look at the file, of two calls; and at most 18 calls in all, 9 of them futex; none sleeps"""
    counted = Counted(place)
    server = Server(place).start()
    made(server, (b"counter", 1, 1))
    with server.attached(7) as conn:
        before = counted.all()
        # (in steps, so that a server that makes very many calls is noticed soon)
        for first in range(1, LONE + 1, 50):
            lone(conn, first, 50)
            found, entries = counted.since(before), first + 49 + (first + 49) // 16
            name = f"{entries} entries took {found}"
            same([found[kind] for kind in ("send", "size", "name")], [entries] * 3, name)
            same([found[kind] for kind in ("pwrite", "sync")], [2 * entries] * 2, name)
            # (`clock_nanosleep` and `nanosleep`)
            same((found["sleep"], found["nap"]), (0, 0), name)
            same(found["receive"], entries, name)
            # (the first wait may have begun before, and the next one may have begun)
            holds(abs(found["wait"] - entries) <= 1, name)
            holds(found["futex"] <= MOST_FUTEX * entries and found["all"] <= MOST_CALLS * entries, name)
    return f"{found['futex'] / entries:.1f} futex calls, {found['all'] / entries:.1f} in all"


def taken_replies(place):
    """no thread of the server wakes when a client takes its reply"""
    server = Server(place).start()
    made(server, (b"counter", 1, 1))
    with server.attached(7) as conn:
        for number in range(1, 21):
            conn.send(wire.call(number, adding(1, 0, 1)))
            holds(select.select([conn.socket], [], [], 20)[0], "no reply came")
            before = asleep(server)
            same(conn.reply(), ("answer", number, ("value", number - 1)))
            same(asleep(server), before, "how often each thread ran")


def asleep(server):
    """How often each thread of the server has run, once all of them sleep."""
    found = []

    def sleeps():
        found[:] = [runs_of(server)]
        states = [Path(f"/proc/{server.process.pid}/task/{thread}/stat").read_text("utf-8").rsplit(")", 1)[1].split()[0] for thread in found[0]]
        return set(states) == {"S"} and runs_of(server) == found[0]

    until(sleeps, 20, "all threads sleep")
    return found[0]


CLIENTS, WINDOWS = 48, 6


@within(120)
def windows(place):
    """48 clients with windows of 32 calls: fewer than 2 sends a window, and one futex call for two calls"""
    counted = Counted(place)
    server = Server(place, connections=100).start()
    made(server, (b"counters", CLIENTS, 1))
    conns = [server.attached(session) for session in range(CLIENTS)]
    before = counted.all()
    for first in range(1, 32 * WINDOWS, 32):
        for index, conn in enumerate(conns):
            calls = b"".join(wire.call(first + k, adding(1, index, 1)) for k in range(32))
            conn.send(calls + wire.settle(first + 32))
        for conn in conns:
            for k in range(32):
                same(conn.reply(), ("answer", first + k, ("value", first + k - 1)))
            same(conn.reply(), ("settled", first + 32))
    found = counted.since(before)
    for conn in conns:
        conn.close()
    server.stop()
    count = CLIENTS * WINDOWS
    holds(count <= found["send"] < 2 * count, f"{count} windows took {found}")
    holds(found["futex"] < 32 * count / 2, f"{count} windows took {found}")
    return f"{found['send'] / count:.2f} sends a window, {found['futex'] / (32 * count):.2f} futex calls a call"


def processor_time(server):
    """The processor time of a server so far, in seconds."""
    fields = Path(f"/proc/{server.process.pid}/stat").read_text("utf-8").rsplit(")", 1)[1].split()
    return (int(fields[11]) + int(fields[12])) / os.sysconf("SC_CLK_TCK")


MOST_SECONDS, MOST_FOR_REPORTS = 1.5, 0.5


def lone_time(place):
    """a thousand lone calls take at most 1.5 seconds of processor time"""
    server = Server(place).start()
    made(server, (b"counter", 1, 1))
    with server.attached(7) as conn:
        before = processor_time(server)
        for first in range(1, LONE + 1, 50):
            lone(conn, first, 50)
            took = processor_time(server) - before
            holds(took <= MOST_SECONDS, f"{first + 49} calls took {took:.2f} s")
    return f"{took:.2f} s"


def report_time(place):
    """a thousand lone reports, while 32 requests wait, take at most half a second of processor time"""
    server = Server(place).start()
    made(server, (b"empty", 1, 0))
    with server.attached(7) as conn, server.connect() as other:
        conn.send(b"".join(wire.call(number, ("access", 16, 1, 0, 0, False)) for number in range(1, 33)))
        until(lambda: other.ask(wire.report())[1].startswith("waiting 32\n"), 20, "all wait")
        before = processor_time(server)
        for count in range(1, LONE + 1):
            same(other.ask(wire.report())[0], "report")
            took = processor_time(server) - before
            holds(took <= MOST_FOR_REPORTS, f"{count} reports took {took:.2f} s")
    return f"{took:.2f} s"


def idle(place):
    """a server with fifty idle connections, one of which waits, makes no system call, and takes no processor time"""
    counted = Counted(place)
    server = Server(place).start()
    made(server, (b"empty", 1, 0))
    conns = [server.attached(session) for session in range(50)]
    conns[0].send(wire.call(1, ("access", 16, 1, 0, 0, False)))
    until(lambda: conns[1].ask(wire.report())[1].startswith("waiting 1\n"), 20, "one waits")
    # (the threads that the last reply woke go to sleep)
    before = quiet(counted)
    time.sleep(1)
    same(counted.since(before)["all"], 0, "calls in a second")
    same(conns[1].ask(wire.call(1, ("access", 19, 1, 0, 5, False))), ("answer", 1, ("done",)))
    same(conns[0].reply(), ("answer", 1, ("value", 5)))
    holds(counted.since(before)["all"] > 10, "the calls of what came next were not counted")
    for conn in conns:
        conn.close()
    server.stop()
    # (the processor time is that of the server itself)
    place.program = counted.program
    server = Server(place, "plain").start()
    with server.attached(7):
        used = [processor_time(server)]
        for _ in range(3):
            time.sleep(0.5)
            used.append(processor_time(server))
    server.stop()
    # (the least of three, since the server may still be busy with its beginning)
    same(min(later - earlier for earlier, later in zip(used, used[1:])), 0.0, "processor time in half a second")


ACCEPTS = 100  # a second: each that fails is followed by a pause of ten milliseconds


def no_files_left(place):
    """a server that has no descriptor left tries to accept some hundred times a second at most, and serves who waits once there are some again"""
    counted = Counted(place)
    server = Server(place, connections=256).start(limit=(resource.RLIMIT_NOFILE, 16))
    before = counted.all()
    conns = [server.connect() for _ in range(30)]
    # (more tries than connections: some fail)
    until(lambda: counted.since(before)["accept"] > 30, 20, "the server tries again")
    before, began = counted.all(), time.monotonic()
    time.sleep(1)
    count, seconds = counted.since(before)["accept"], time.monotonic() - began
    holds(1 <= count <= ACCEPTS * seconds + 1, f"{count} tries in {seconds:.2f} s")
    for conn in conns:
        same(conn.ask(wire.report())[0], "report")
        conn.close()
    return f"{count / seconds:.0f} tries a second"


def quiet(counted):
    """The calls, once there were no more for a tenth of a second."""
    for _ in range(200):
        before = counted.all()
        time.sleep(0.1)
        if counted.since(before)["all"] == 0:
            return before
    holds(False, "the server does not come to rest")


def baton(place):
    """while a side makes several events in a row, another with several waits, and one with a single event does not"""
    held = Held(place, "fdatasync")
    growth, mark = place.path("growth"), place.path("grows")
    env = {**held.env, "GROWTH_HOLD": growth, "GROWTH_MARK": mark}
    env["LD_PRELOAD"] += f":{preload(place, 'growth.c')}"
    server = Server(place).start(env)
    made(server, (b"counter", 1, 1))
    with server.attached(7) as first, server.attached(8) as second, server.attached(9) as third, server.connect() as other:
        # (now the tables of the first one's write side have room for one mail more)
        lone(first, 1, 5)
        held.next()
        other.send(wire.attach(10))
        held.wait()
        first.send(b"".join(wire.call(number, adding(1, 0, 1)) for number in range(6, 33)) + wire.report())
        same(first.reply(), ("report", "waiting 0\n"))
        place.write("growth", b"")
        held.let_go()
        # the write side that takes 27 mails in a row is held among them
        until(lambda: os.path.exists(mark), 20, "a table grows")
        second.send(wire.call(1, adding(1, 0, 1)) + wire.call(2, adding(1, 0, 1)))
        for number in range(1, 21):
            same(third.ask(wire.call(number, adding(1, 0, 1))), ("answer", number, ("value", 31 + number)))
        holds(second.is_quiet(), "another side made several events meanwhile")
        os.unlink(mark)
        same([second.reply(), second.reply()], [("answer", number, ("value", 51 + number)) for number in (1, 2)])
        same([first.reply() for _ in range(6, 33)], [("answer", number, ("value", number - 1)) for number in range(6, 33)])


# The figures of bench/hall/README.md, by the function that bench/hall/quick names.
FIGURES = r"a call (\d+) instructions, an entry posted (\d+), a mail taken (\d+), an entry appended (\d+)\."
FUNCTIONS = ("hall_bench::call", "fe_front::front::Front::post", "hall_bench::take_all", "hall_bench::append")


@within(300)
def instructions(place):
    """the events under the hall's lock take as many instructions as bench/hall/README.md says, within 3 %"""
    for tool in ("rt", "valgrind"):
        if shutil.which(tool) is None:
            raise Skipped(f"there is no {tool}")
    written = re.findall(FIGURES, text_of("bench/hall/README.md"))
    same(len(written), 1, "the figures stand there once")
    said = output_of(place, [os.path.join(TOP, "bench", "hall", "quick"), "1"], 280)
    found = dict(reversed(row) for row in re.findall(r"^(\d+) instructions a unit of (\S+)$", said, re.M))
    same(sorted(found), sorted(FUNCTIONS), said)
    for name, figure in zip(FUNCTIONS, map(int, written[0])):
        holds(figure > 0 and abs(int(found[name]) - figure) * 100 <= INSTRUCTIONS_WITHIN * figure, f"{name}: {found[name]} instructions, not {figure}")
    return ", ".join(f"{name.split('::')[-1]} {found[name]}" for name in FUNCTIONS)


def lines_over(connections, kind):
    """Connections, of which eight have sessions, and 192 lines of that kind, or none."""
    head = ["c1 attach 1", "c1 1 create words 8 empty", *(f"c{k} attach {k if k < 9 else 99 + k}" for k in range(2, connections + 1))]
    lines = {
        "": lambda k, turn: (),
        "refused": lambda k, turn: (f"c{k} 99 readxx 1 0", f"c{k} 99 find a"),
        "stored": lambda k, turn: (f"c{k} {2 * turn} readxx 1 0", f"c{k} {2 * turn + 1} writexf 1 {k - 1} 5"),
        "woken": lambda k, turn: (f"c{k % 8 + 1} {2 * turn} readfe 1 0", f"c{k} {2 * turn + 1} writeef 1 0 5"),
    }
    return "\n".join([*head, *(line for turn in range(1, 13) for k in range(1, 9) for line in lines[kind](k, turn))])


@within(120)
def lines_of_many(place):
    """a line of `femem run` takes at most 1.5 times as many instructions with 999 connections as with 8, whether it is refused, stored, or wakes another client"""
    if shutil.which("valgrind") is None:
        raise Skipped("there is no valgrind")
    found = {}
    for connections, kind in itertools.product((8, 999), ("", "refused", "stored", "woken")):
        schedule = place.write("lines", lines_over(connections, kind).encode())
        words = f'valgrind --tool=callgrind --callgrind-out-file=/dev/null "{place.program}" run < "{schedule}" 2>&1'
        said = output_of(place, ["sh", "-c", words], 60)
        found[connections, kind] = int(re.search(r"Collected : (\d+)", said)[1]), len(re.findall(r"^c\d+ ", said, re.M))
    costs = {}
    for (connections, kind), (taken, replies) in found.items():
        before, others = found[connections, ""]
        same(replies - others, 192 if kind else 0, f"replies to lines that are {kind}")
        costs[connections, kind] = (taken - before) / 192
    for kind in ("refused", "stored", "woken"):
        few, many = costs[8, kind], costs[999, kind]
        holds(1000 < few and many <= 1.5 * few, f"a line that is {kind}: {few:.0f} instructions with 8 connections, {many:.0f} with 999")
    return ", ".join(f"{kind} {costs[999, kind] / costs[8, kind]:.2f}" for kind in ("refused", "stored", "woken"))


def resident(server):
    """The resident memory of a server, in bytes, once it has not grown for a tenth of a second."""
    sizes = [0]

    def is_at_rest():
        time.sleep(0.1)
        sizes.append(int(Path(f"/proc/{server.process.pid}/statm").read_text("ascii").split()[1]) * resource.getpagesize())
        return sizes[-1] == sizes[-2]

    until(is_at_rest, 20, "the server's memory comes to rest")
    return sizes[-1]


def answered(server, session):
    """A connection that had 1,024 answers."""
    conn = server.attached(session)
    for first in range(1, 1025, 32):
        conn.send(b"".join(wire.call(first + k, ("find", b"none")) for k in range(32)) + wire.settle(first + 32))
        same([conn.reply()[0] for _ in range(33)], ["answer"] * 32 + ["settled"])
    return conn


def asking(server, _session):
    """A connection that asks for reports and does not read them."""
    conn = server.connect()
    conn.send(wire.report() * 600)
    return conn


# The rows of the table of memory in docs/operating.md that are of connections: how many there are here, and what makes one.
SILENT, ASKING = "a silent connection", "more for one that asks for reports and does not read them"
CONNECTIONS = {
    SILENT: (256, lambda server, _: server.connect()), "one that attached a session": (64, lambda server, session: server.attached(session)),
    "one that had 1,024 answers, or more": (64, answered), ASKING: (64, asking),
}
START, ARRAY = "the server after its start", "an array of 65,536 words"
UNITS = {"KB": 2**10, "MB": 2**20}


@within(120)
def memory(place):
    """a server takes as much memory as the table of docs/operating.md says, within a quarter; after its start within a half, since an unproved one is larger"""
    table = re.findall(r"^  \| (\D.*?) \| ([\d.]+) (KB|MB)\b.*\|$", text_of("docs/operating.md"), re.M)
    said = {what: float(size) * UNITS[unit] for what, size, unit in table}
    found = {}
    for name in (ARRAY, *CONNECTIONS):
        server = Server(place, f"m{len(found)}", connections=256).start({"MALLOC_ARENA_MAX": "1"})
        before = resident(server)
        found.setdefault(START, before)
        count, made_by = CONNECTIONS.get(name, (1, None))
        conns = [made_by(server, session) for session in range(count)] if made_by else []
        if not made_by:
            made(server, (b"big", 65536, 1))
        found[name] = (resident(server) - before) / count
        for conn in conns:
            conn.close()
        server.stop()
    found[ASKING] -= found[SILENT]
    same(sorted(said), sorted(found), "rows of the table")
    for name, size in found.items():
        part = 2 if name == START else 4
        holds(abs(size - said[name]) <= said[name] / part, f"{name}: {size:.0f} bytes, not {said[name]:.0f}")
    return ", ".join(f"{size / 1024:.0f}" for size in found.values()) + " KB"
