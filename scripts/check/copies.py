"""Copies of a store: one that a server left, and one that a server is writing."""

import os
import shutil
import signal
import subprocess
import time

from . import store, wire
from .crowds import adding
from .books import books_of, text
from .harness import Held, Server, Skipped, holds, same, until
from .looks import Load

HEADERS = ((0, store.IMAGE), (store.SLOT, store.IMAGE))


def left_by_serve(place):
    """a store left by SIGTERM is copied, opened, and used by another server"""
    server = Server(place).start()
    with server.attached(7) as conn:
        same(conn.ask(wire.call(1, ("create", b"cells", 3, 1))), ("answer", 1, ("array", 1, 3)))
        for number in range(2, 30):
            same(conn.ask(wire.call(number, adding(1, 1, 2))), ("answer", number, ("value", 2 * number - 4)))
        server.stop(signal.SIGTERM)
    same(server.process.returncode, -signal.SIGTERM)
    same((server.output(), server.errors()), ("", ""))
    content = place.read("s.store")
    same(server.looks(), "place 30\narray 1 cells 3\nsession 7 floor 1 kept 29\n")
    holds(place.read("s.store") == content, "`look` changed the store")
    other = Server(place, "t", store=place.write("copy", content), format=False).start()
    with other.attached(7) as conn:
        same(conn.ask(wire.call(29, adding(1, 1, 2))), ("answer", 29, ("value", 54)))
        same(conn.ask(wire.call(30, adding(1, 1, 2))), ("answer", 30, ("value", 56)))
    other.stop()
    holds(place.read("s.store") == content, "a server over the copy changed the store")
    same(other.looks(), "place 32\narray 1 cells 3\nsession 7 floor 1 kept 30\n")


def copied(path):
    """A store's bytes, read from beginning to end while it is written: None if a checkpoint began or ended meanwhile."""
    with open(path, "rb") as file:
        headers = lambda: [os.pread(file.fileno(), size, at) for at, size in HEADERS]
        before = headers()
        content = b"".join(os.pread(file.fileno(), 65536, at) for at in range(0, store.SIZE, 65536))
        return content if before == headers() else None


def taken_in_mid_run(place):
    """copies of the file under load, with no checkpoint beginning or ending, have everything answered before them"""
    server = Server(place).start()
    load = Load(server)
    until(lambda: load.answered > 100 or load.raised, 30, "the load begins")
    copies = others = 0
    ends = time.monotonic() + 4
    while time.monotonic() < ends or copies < 8:
        answered = load.answered
        content = copied(server.store)
        if content is None:
            others += 1
            continue
        state = store.read_store(content)[2]
        holds(state == load.at(state.place, answered, f"copy {copies}"), f"copy {copies} is another state than that of its place")
        copies += 1
        if copies % 8 == 1:
            other = Server(place, "t", store=place.write("copy", content), format=False)
            same(other.looks(), state.looks())
            with other.start().attached(8) as conn:
                same(conn.ask(wire.call(1, adding(1, 0, 1))), ("answer", 1, ("value", state.arrays[1].words[0][0])))
            other.stop()
        time.sleep(0.02)
    load.end()
    return f"{copies} copies, {others} given up, {load.answered} answers"


def copy_goes_on(place):
    """a store copied while an append waits for its first sync has what was answered, and there each number takes effect once"""
    held = Held(place, "fdatasync")
    server = Server(place, accepts=1).start(held.env)
    with server.attached(7) as conn:
        same(conn.ask(wire.call(1, ("create", b"cells", 2, 1))), ("answer", 1, ("array", 1, 2)))
        same(conn.ask(wire.call(2, adding(1, 0, 5))), ("answer", 2, ("value", 0)))
        held.next()
        conn.send(wire.call(3, adding(1, 0, 5)))
        held.wait()
        copy = place.write("copy", place.read("s.store"))
        holds(conn.is_quiet(), "an answer came before its sync")
        held.let_go()
        same(conn.reply(), ("answer", 3, ("value", 5)))
    found = books_of(server)
    same((found["calls"], found["completed"], found["waiting"]), (3, 3, 0))
    same(server.looks(), "place 4\narray 1 cells 2\nsession 7 floor 1 kept 3\n")
    other = Server(place, "t", store=copy, accepts=1)
    same(other.looks(), "place 3\narray 1 cells 2\nsession 7 floor 1 kept 2\n", "the copy")
    other.start()
    with other.attached(7) as conn:
        conn.send(wire.call(1, ("create", b"cells", 2, 1)) + b"".join(wire.call(number, adding(1, 0, 5)) for number in (2, 3)))
        same([conn.reply() for _ in range(3)], [("answer", 1, ("array", 1, 2)), ("answer", 2, ("value", 0)), ("answer", 3, ("value", 5))])
        same(conn.ask(wire.call(4, ("access", 18, 1, 0, 0, False))), ("answer", 4, ("value", 10)))
    same(other.ended(), (0, text(calls=4, completed=2, repeated=2, mails=5, taken=5), ""))


def may_only_be_read(place):
    """a read-only store can be looked at by a user who may only read"""
    server = Server(place).start()
    server.attached(7).close()
    server.stop()
    program = shutil.copy(place.program, place.path("femem"))
    os.chmod(program, 0o755)
    os.chmod(server.store, 0o444)
    how = {"capture_output": True, "timeout": 30}
    if os.geteuid() == 0:
        # (root may write read-only files)
        how.update(user=65534, group=65534, extra_groups=[])
        for folder in (place.folder, os.path.dirname(place.folder)):
            os.chmod(folder, 0o711)
    try:
        may_write = subprocess.run(["test", "-w", server.store], **how).returncode == 0
        look = subprocess.run([program, "look", "--store", server.store], **how)
    except PermissionError:
        raise Skipped("the folder of temporary files is open to its owner alone") from None
    holds(not may_write, "the user may write the store")
    same((look.returncode, look.stdout, look.stderr), (0, b"place 1\nsession 7 floor 1 kept 0\n", b""))
