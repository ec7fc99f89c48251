"""A device that fails, and memory that is refused, under a running server."""

import errno
import os
import random
import resource
import subprocess
import sys
import time

from . import store, wire
from .crowds import adding
from .crowds import served as served_one
from .harness import Server, Wrong, holds, in_turn, preload, same, until, within
from .model import State
from .records import calls_of


CHANGES = ("write", "pwrite", "fdatasync", "fsync", "ftruncate", "fchmod", "fadvise", "link", "rename", "unlink")


class Client:
    """A client with one request at a time, which reconnects when its connection ends."""

    def __init__(self, server, work, seconds=10):
        self.server = server
        self.work = work  # requests, with number 1 first
        self.answers = []
        self.seconds = seconds

    def attempt(self):
        """Continues over one connection. Returns whether everything is answered."""
        try:
            with self.server.connect(seconds=self.seconds) as conn:
                same(conn.ask(wire.attach(7))[:2], ("welcome", 7))
                while len(self.answers) < len(self.work):
                    number = len(self.answers) + 1
                    reply = conn.ask(wire.call(number, self.work[number - 1]))
                    if reply == ("refused", number, "no-memory"):
                        continue
                    same(reply[:2], ("answer", number))
                    self.answers.append(reply[2])
                return True
        except wire.Ended:
            return False

    def until_end(self):
        """Continues until everything is answered or the server has ended. Returns whether it has ended."""
        for _ in range(40):
            if self.attempt():
                return False
            try:
                self.server.process.wait(0.05)
                return True
            except subprocess.TimeoutExpired:
                pass
        raise Wrong(f"40 connections, {len(self.answers)} answers, and the server goes on")


def answered(work, state=None):
    """The answers that the table gives to the work, starting in that state."""
    now = state or State()
    if 7 not in now.sessions:
        now.apply(("attached", 7, 1))
    found = []
    for number, request in enumerate(work, 1):
        found.append(now.answer_to(request))
        now.apply(("finished", 7, number, request, found[-1]))
    return found


def is_change(call):
    """Whether the call changes a file: the preload counts these."""
    return call.kind in CHANGES or (call.kind == "open" and bool(int(call.numbers[0]) & os.O_CREAT))


def fills_and_others(calls, tried=lambda call: True):
    """The number and kind of each call to try that changes a file. Of the writes that fill a new file with zeros it takes three."""
    found = [(number, call.kind) for number, call in enumerate(filter(is_change, calls), 1) if tried(call)]
    fills = [turn for turn in found if turn[1] == "write"]
    chosen = {*fills[:1], *fills[-1:], *random.sample(fills, min(1, len(fills)))}
    return [turn for turn in found if turn[1] != "write" or turn in chosen]


class Trial:
    """A store, which a server makes if there is no base, and one client's work over it, in which a call ends the server."""

    def __init__(self, place, base, work, formats):
        self.place, self.base, self.work, self.formats = place, base, work, formats
        self.wanted = answered(work, None if base is None or formats else store.read_store(base)[2])
        self.library = preload(place, "record.c")

    def started(self, env=None):
        """A server on the store as it was at the beginning."""
        for file in os.listdir(self.place.folder):
            if file.startswith(("store", "calls")):
                os.unlink(self.place.path(file))
        if self.base is not None:
            self.place.write("store", self.base)
        return Server(self.place, store=self.place.path("store"), format=self.formats).start(env, waits=False)

    def run(self, **how):
        """Runs a server, whose calls are recorded, until the work is done or the server ends: the server, and its client."""
        env = {"LD_PRELOAD": self.library, "RECORD": self.place.path("calls"), **{key: str(value) for key, value in how.items()}}
        server = self.started(env).begins()
        client = Client(server, self.work)
        if not server.is_running() or client.until_end():
            server.process.wait(30 * wire.patience)
        return server, client

    def right(self):
        """The calls of a run without faults. `seconds` is then how long it took."""
        began = time.monotonic()
        server, client = self.run()
        self.seconds = time.monotonic() - began
        holds(server.is_running(), f"the server ended without a fault: {server.errors()}")
        same(client.answers, self.wanted)
        server.stop()
        return calls_of(self.place.path("calls"))

    def faults(self, ways):
        """Fails each call in turn, and checks the answers and the store afterwards. Returns how many calls of each kind failed."""
        found = {}
        # (calls on the socket's files are left out: the server also listens if its temporary name fails)
        for number, kind in fills_and_others(self.right(), lambda call: "socket" not in call.file):
            for how in ways:
                if how == "short" and "write" not in kind:
                    continue
                name = f"{kind}, call {number}, {how}"
                server, client = self.run(TURN=number, HOW=how)
                same([call.kind for call in calls_of(self.place.path("calls")) if call.error == errno.EIO], [kind], name)
                same(server.ended(), (3, "", "femem: store device\n"), f"{name}, {len(client.answers)} answers")
                goes_on(self.place, server, client, self.wanted, name)
                same([file for file in os.listdir(self.place.folder) if file.startswith("store")], ["store"], name)
                found[kind] = found.get(kind, 0) + (how == "fails")
        return found


def goes_on(place, server, client, wanted, name):
    """Restarts the server without the fault: each answer is kept, and what was not answered is done once."""
    holds(client.answers == wanted[: len(client.answers)], f"{name}: {client.answers}")
    if os.path.exists(server.socket):
        os.unlink(server.socket)
    told, client.answers = client.answers, []
    server.settings["format"] = True
    server.start()
    holds(client.attempt(), f"{name}: the server that was started again ended a connection")
    same(client.answers[: len(told)], told, f"{name}: what was answered before")
    same(client.answers, wanted, name)
    server.stop()


def in_words(found):
    return ", ".join(f"{number} {kind}" for kind, number in sorted(found.items()))


WORK = [("create", b"counter", 2, 1)] + [adding(1, 0, 1)] * 6


@within(240)
def new_stores(place):
    """each device call, from the creation of a store on, fails in turn: `femem: store device`, status 3, no answer lost or invented"""
    found = Trial(place, None, WORK, True).faults(("fails", "short"))
    # A file is created, opened and formatted, linked under its final name and unlinked from the first; then an opening and eight groups
    # (docs/store.md). Three of the writes that fill the file fail.
    once = {"open": 1, "write": 3, "fsync": 1 + 1 + 1 + 1, "link": 1, "unlink": 1, "fadvise": 1 + 1}
    same(found, {**once, "pwrite": 6 + 8 * 2, "fdatasync": 1 + 3 + 1 + 8 * 2})
    return in_words(found)


def near_a_checkpoint():
    """A store in which a checkpoint of three slices is due after the first group."""
    state = State()
    entries = [("attached", 7, 1), ("finished", 7, 32, ("create", b"big", 20000, 1), ("array", 1, 20000))]
    for entry in entries + [("settled", 7, 1)]:
        state.apply(entry)
    return bytes(store.device_of(store.TWO, state, [[("attached", 9, 1)] * 3300] * 2, 3, 1))


@within(240)
def in_checkpoints(place):
    """each device call of a checkpoint between groups fails in turn, with the same result"""
    found = Trial(place, near_a_checkpoint(), [adding(1, 19999, 1)] * 9, False).faults(("fails", "short"))
    # an opening; ten groups; a header, three slices and the end of a checkpoint
    same(found, {"fadvise": 1, "pwrite": 10 * 2 + 1 + 3 + 2, "fdatasync": 1 + 10 * 2 + 2})
    return in_words(found)


def remounted(place, path):
    """The store as read from the device: pages lost by a failed sync have their earlier bytes. With the number of lost pages."""
    device = bytearray(place.read(path))
    lost = place.read("lost")
    for at in range(0, len(lost), 8 + 4096):
        page = 4096 * int.from_bytes(lost[at : at + 8], "big" if sys.byteorder == "big" else "little")
        device[page : page + 4096] = lost[at + 8 : at + 8 + 4096]
    return bytes(device), len(lost) // (8 + 4096)


def sync_lost(place, library, base, work, wanted, number):
    """Fails the sync of that number, which loses the writes before it; restarts the server, which does all the work; and reads the
    device: nothing that was answered is lost. Returns whether that sync was reached, and how many pages were lost at the end."""
    place.write("lost", b"")
    path = place.write("store", base)
    env = {"LD_PRELOAD": library, "STORE": path, "LOST": place.path("lost")}
    server = Server(place, f"l{number}", store=path, format=False).start({**env, "FAIL_SYNC": str(number)}, waits=False).begins()
    client = Client(server, work)
    if server.is_running() and not client.until_end():
        same(client.answers, wanted)
        server.stop()
        return False, 0
    same(server.ended(), (3, "", "femem: store device\n"), f"sync {number}")
    told = client.answers
    holds(told == wanted[: len(told)], f"sync {number}: {told}")
    # (the first sync is the opening's, and nothing is written before it)
    holds(bool(place.read("lost")) == (number > 1), f"sync {number}: what it lost")
    if os.path.exists(server.socket):
        os.unlink(server.socket)
    again = Client(server.start(env), work)
    holds(again.attempt(), f"sync {number}: the server that was started again ended a connection")
    same(again.answers, wanted, f"sync {number}")
    server.stop()
    device, pages = remounted(place, "store")
    kept = store.read_store(device)[2].sessions.get(7)
    found = [kept.kept.get(at, (None, "lost"))[1] if kept else "lost" for at in range(1, len(wanted) + 1)]
    same(found, wanted, f"sync {number}: what the device has of what was answered")
    return True, pages


def lost_syncs(place, base, work):
    """Fails each sync of the work in turn in that way. Returns how many there were."""
    library = preload(place, "lose.c")
    wanted = answered(work, store.read_store(base)[2])
    number = 1
    while sync_lost(place, library, base, work, wanted, number)[0]:
        number += 1
    return number - 1


def at_an_end_of_a_page():
    """A store whose next group has its gate at the end of a page and the rest in the next page: three groups of 17 entries take 4,095 bytes."""
    state = State()
    for entry in (("attached", 9, 1), ("finished", 9, 1, ("create", b"cells", 3, 1), ("array", 1, 3))):
        state.apply(entry)
    return bytes(store.device_of(store.TWO, state, [[("attached", 9, 1)] * 17] * 3))


@within(240)
def syncs_that_lose(place):
    """a sync fails, and the system counts pages as written that are not on the device: the restarted server loses nothing that it answers"""
    work = [adding(1, 0, 1)] * 4
    # an opening; five groups
    found = [lost_syncs(place, at_an_end_of_a_page(), work)]
    same(found, [1 + 5 * 2])
    # an opening; ten groups; the end of a checkpoint
    found.append(lost_syncs(place, near_a_checkpoint(), [adding(1, 19999, 1)] * 9))
    same(found[1], 1 + 10 * 2 + 2)


@within(120)
def memory_refused(place):
    """each allocation of a server is refused in turn: never a signal; `femem: memory` or a server that works, and no answer lost or invented"""
    library = preload(place, "../refuse.c")
    work = [("create", b"a_name_that_is_long_enough", 3, 1)] + [adding(1, 0, 1)] * 3 + [("find", b"none"), ("remove", 1)]
    wanted = answered(work)
    ended = without = 0

    def served(env):
        for file in (place.path("s.store"), place.path("s.socket")):
            if os.path.exists(file):
                os.unlink(file)
        server = Server(place).start({"LD_PRELOAD": library, **env}, waits=False).begins()
        client = Client(server, work, seconds=3)
        return server, client, not server.is_running() or client.until_end()

    for number, (server, client, has_ended) in in_turn(place, served):
        name = f"allocation {number} refused"
        holds(client.answers == wanted[: len(client.answers)], f"{name}: {client.answers}")
        if has_ended:
            status, output, errors = server.ended()
            is_told = errors in ("femem: memory\n", "femem: store device\n") and number is not None
            holds((status, output) == (3, "") and is_told, f"{name}: status {status}, {errors!r}")
        else:
            same(client.answers, wanted, name)
            server.stop()
        ended, without = ended + has_ended, without + (not has_ended)
        if client.answers:
            left = store.read_store(place.read("s.store"))[2]
            same([left.sessions[7].kept[at][1] for at in range(1, len(client.answers) + 1)], client.answers, name)
    holds(ended > 0 and without > 1, f"{ended} allocations ended the server, {without} did not")
    return f"{ended + without - 1} allocations, {ended} ended the server"


@within(120)
def commands_where_memory_ends(place):
    """each allocation of the other commands is refused in turn: `femem: memory` after a prefix of the output, or the same as with enough memory"""
    library = preload(place, "../refuse.c")
    filled = store.device_of(store.TWO, groups=[[("attached", 7, 1)], [("finished", 7, 1, ("create", b"cells", 2, 0), ("array", 1, 2))]])
    paths = 'socket = "x.socket"\nstore = "none"\n'
    told = {}
    for name, given, status in (
        ("look", ("--store", place.write("filled", bytes(filled))), 0),
        ("serve", ("--settings", place.write("right", (paths + "turns = 5\nconnections = 7\n").encode())), 3),
        ("serve", ("--settings", place.write("wrong", (paths + "turns = 0\n").encode())), 2),
        ("serve", ("--settings", place.write("unknown", (paths + "other = [1, 'a']\n").encode())), 2),
        ("serve", ("--settings", place.write("broken", (paths + "other").encode())), 2), ("jump", (), 2), ("look", (), 2),
        ("look", ("--store", b"\xff"), 2), ("--version", (), 0), ("help", (), 0),
    ):
        told[name] = told.get(name, 0) + refused_in_turn(place, library, (name, *given), status)
    return ", ".join(f"{name} {number}" for name, number in told.items())


def refused_in_turn(place, library, words, status):
    """Refuses each allocation of a run that otherwise ends with that status. Returns how many there were."""
    wanted, count = place.run(*words), 0
    same(wanted[0], status, words)
    for number, found in in_turn(place, lambda more: place.run(*words, env={"LD_PRELOAD": library, **more})):
        is_short = found[::2] == (3, b"femem: memory\n") and wanted[1].startswith(found[1]) and number is not None
        holds(is_short or found == wanted, f"{words}, allocation {number} refused: {found}")
        count += number is not None
    holds(count > 0, f"{words} took no memory")
    return count


def little_memory(place):
    """a server with little memory: each connection is served or closed, and the server goes on or ends with `femem: memory`"""
    told = {}
    for megabytes in (8, 16, 24, 32, 48, 64, 96, 128):
        server = Server(place, f"{megabytes}", connections=256)
        server.start(waits=False, limit=(resource.RLIMIT_AS, megabytes << 20)).begins()
        conns = [open_or_none(server, number) for number in range(100 * server.is_running())]
        served = sum(conn is not None for conn in conns)
        for conn in filter(None, conns):
            conn.close()
        if server.is_running():
            # (their memory is free again)
            with until(lambda: served_one(server), 20, f"{megabytes} MB: a connection is served again") as conn:
                same(conn.ask(wire.attach(7))[:2], ("welcome", 7))
            server.stop()
        else:
            same(server.ended(), (3, "", "femem: memory\n"), f"{megabytes} MB")
        told[megabytes] = "ends" if server.process.returncode == 3 else served
    return ", ".join(f"{key} MB: {value}" for key, value in told.items())


def open_or_none(server, number):
    """A connection that was served and stays open, or None if it was closed or the server has ended."""
    if not server.is_running():
        return None
    try:
        conn = server.connect(seconds=5)
        same(conn.ask(wire.attach(number % 60))[0], "welcome")
        return conn
    except wire.Ended as why:
        holds("timed out" not in str(why), f"connection {number}: {why}")
        if "nothing listens" in str(why):
            server.ended()
        return None
