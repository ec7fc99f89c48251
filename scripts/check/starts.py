"""What `femem-store check` and `why` say before a start: a store that went back, and each cause for which a server refuses one."""

import fcntl
import os
from pathlib import Path
import re

from . import store, wire
from .harness import Server, holds, same, until, within
from .rescues import busy
from .storetool import PATIENT, copied, device, ran


def entered(server, session):
    """A session is attached and ended: two entries."""
    with server.attached(session) as conn:
        conn.ask(wire.bye())


def noted(server, place):
    """The two files that have the last known place, and what they say."""
    paths = [f"{server.store}.place", place.path(f"places/{server.store.replace('/', '%2F')}.place")]
    said = []
    for it in paths:
        said.append(Path(it).read_text("ascii"))
    return paths, said


def went_back(place):
    """A store of place 3 that was checked and served, its settings, and its bytes before and after."""
    os.mkdir(place.path("places"))
    server = Server(place, format=False)
    old = copied(place, [[("attached", 7, 1)]])
    place.write("s.store", old)
    settings = place.write("settings.toml", f'socket = "{server.socket}"\nstore = "{server.store}"\n'.encode())
    same(ran(place, "check", settings), (0, "", ""), "the first start")
    server.start()
    entered(server, 8)
    same(ran(place, "note", settings), (0, "", ""))
    server.stop()
    same(noted(server, place)[1], ["place 3\n"] * 2)
    return server, settings, old, place.read("s.store")


@within(120)
def lower_places(place):
    """a start over a store below the last known place is refused, and so is one without its store, until that is meant; a higher one is noted"""
    server, settings, old, new = went_back(place)
    check = lambda *words: ran(place, "check", *words, settings)
    same(check(), (0, "", ""), "the same place")
    gate = store.slots_of(new)[0].at + store.JOURNAL
    closed = new[:gate] + b"\0" + new[gate + 1 :]
    for name, content in (("an older copy", old), ("an empty store", bytes(store.device_of(store.TWO))), ("a closed gate", closed)):
        place.write("s.store", content)
        wanted = f"femem-store: {server.store}: it is at place {store.read_store(content)[2].place}, and the last known place is 3: "
        status, text, errors = check()
        holds((status, text) == (1, "") and errors.startswith(wanted) and errors.count("\n") == 1 and "--accept" in errors, f"{name}: {errors}")
    os.unlink(server.store)
    place.write("settings.toml", f'socket = "{server.socket}"\nstore = "{server.store}"\nformat = true\n'.encode())
    holds("no file is there, though the last known place is 3" in check()[2], "a mount that is missing, with `format`")
    # one of the two notes is enough
    place.write("s.store", old)
    os.unlink(noted(server, place)[0][0])
    same(check()[0], 1, "the store went back with all that is beside it")
    same((check("--accept")[::2], check()[::2]), ((0, ""), (0, "")), "what is meant")
    same(noted(server, place)[1], ["place 1\n"] * 2, "what is known then")
    for content in (new, old):
        same(ran(place, "restore", place.write("copy", content), settings)[0], 0)
        same(check(), (0, "", ""), "a restore means it")


@within(120)
def lost_headers(place):
    """the header that counts is lost behind a served store, which goes on: the start after it is refused, and a rescue gives what was answered"""
    server = Server(place, format=False)
    content = place.read(place.write("s.store", busy(place)))
    counts = store.slots_of(content)[0].at
    server.start()
    entered(server, 8)
    # (as the timer does each minute)
    same(ran(place, "probe", *PATIENT, "--metrics", "--store", server.store, server.socket)[0], 0)
    known = store.read_store(place.read("s.store"))[2].place
    with open(server.store, "r+b") as file:
        file.seek(counts)
        file.write(bytes(4096))
    entered(server, 9)
    same(ran(place, "probe", *PATIENT, "--metrics", "--store", server.store, server.socket)[0], 0)
    server.stop()
    status, _, errors = ran(place, "check", server.store)
    wanted = f"it is at place {store.read_store(place.read('s.store'))[2].place}, and the last known place is {known}"
    holds(status == 1 and wanted in errors, errors)
    found = re.findall(r"^way (\d+): .*: place (\d+)$", ran(place, "rescue", server.store)[1], re.M)
    way = next(number for number, at in found if int(at) > known)
    same(ran(place, "rescue", "--way", way, server.store, place.path("copy"))[::2], (0, ""))
    same(ran(place, "restore", place.path("copy"), server.store)[0], 0)
    server.start()
    entered(server, 10)


class Refused:
    """A path, and what `why`, `check` and a server say of it."""

    def __init__(self, place):
        self.place, self.path = place, place.path("d/store")
        os.mkdir(place.path("d"))
        self.content = bytes(store.device_of(store.TWO))

    def put(self, content):
        self.place.write("d/store", content)

    def why(self, words, given=None, status=1):
        """`why` says it in one line."""
        ended = ran(self.place, "why", given or self.path)
        holds(ended[0] == status and words in ended[1] and ended[2] == "", f"{words}: {ended}")
        same(ended[1].count("\n"), 1, words)

    def all(self, words):
        """So does `check`, and the server ends with a line that says less."""
        self.why(words)
        server = Server(self.place, "w", store=self.path, format=False).start(waits=False)
        status, _, errors = server.ended()
        holds((status, errors.startswith("femem: store ")) == (3, True), f"{words}: the server says {errors}")
        first = ran(self.place, "check", self.path)
        holds(first[0] == 1 and words in first[2] and first[2].count("\n") == 1, f"{words}: {first}")


@within(120)
def causes(place):
    """`why` names each cause for which a server says `femem: store device`, and `check` the first, each in a line"""
    it = Refused(place)
    it.all("no file is there")
    it.why(f"its folder {place.path('none')}: No such file or directory", place.path("none/store"))
    os.symlink("nowhere", it.path)
    it.all("it is a link to nowhere, where no file is")
    os.unlink(it.path)
    os.mkdir(it.path)
    it.all("it is no plain file")
    os.rmdir(it.path)
    it.put(it.content[:5000])
    it.all("it has 5000 bytes, and a store has 4202496")
    it.put(it.content)
    it.why("nothing is wrong with it now: place 0", status=0)
    with open(it.path, "rb") as held:
        fcntl.flock(held, fcntl.LOCK_EX)
        it.all(f"it is served: process {os.getpid()}, ")
    it.put(it.content[:8] + bytes(8) + it.content[16:])
    it.all("femem: store damaged at 8")
    it.put(bytes(store.SIZE))
    it.all("femem: store unformatted")
    it.put(it.content)
    same(ran(place, "why", "--user", "no such user", it.path), (1, "", "femem-store: there is no user no such user\n"))
    if os.geteuid() == 0:
        os.chmod(it.path, 0o600)
        own = os.path.dirname(os.path.realpath(place.folder))
        # (a machine's folder for temporary files may be another user's or root's alone)
        shut = [it for it in (*map(str, reversed(Path(own).parents)), own) if not os.stat(it).st_mode & 1]
        ended = ran(place, "why", "--user", "nobody", it.path)
        holds(ended[0] == 1 and f"user 65534 may not use the folder {shut[0]} (mode " in ended[1], f"{ended}")
        os.chmod(own, 0o711)
        ended = ran(place, "why", "--user", "nobody", it.path)
        wanted = "read and write it (mode 0600, root:root)" if shut == [own] else f"use the folder {shut[0]} (mode "
        holds(ended[0] == 1 and f"user 65534 may not {wanted}" in ended[1], f"{ended}")


def by_settings(place):
    """with the settings a store that may be made is no cause, but what is in its way is; wrong settings are for the server to name"""
    it = Refused(place)
    settings = place.write("s.toml", f'store = "{it.path}"\nformat = true\n'.encode())
    it.why("a start makes it", settings, 0)
    same(ran(place, "check", settings), (0, "", ""))
    place.write("d/store.new", b"mine")
    it.why("store.new may be in the way", settings)
    same(ran(place, "check", settings), (0, "", ""), "what a start before may have left")
    os.unlink(f"{it.path}.new")
    it.put(bytes(store.SIZE))
    it.why("nothing is wrong with it now", settings, 0)
    same(ran(place, "note", place.path("none")), (0, "", ""), "the note of a store that is away")
    place.write("w.toml", b"store = 7\n")
    for name in ("w.toml", "none.toml"):
        same(ran(place, "check", place.path(name)), (0, "", ""), name)
    for name, said in (("w.toml", "has no store"), ("none.toml", "No such file"), ("d/store", "is no plain file")):
        if name == "d/store":
            os.unlink(it.path)
            os.mkfifo(it.path)
        status, _, errors = ran(place, "verify", place.path(name))
        holds(status == 1 and said in errors and errors.count("\n") == 1, f"{name}: {errors}")


def compared(place):
    """what the system holds of a file in memory is compared with what the device has, byte by byte; what can't be read is left out"""
    content = bytes(range(256)) * 64
    read = lambda it: lambda at, count: it[at : at + count]

    def bad(at, count):
        if at < 8192 and at + count > 4096:
            raise OSError(5, "Input/output error")
        return content[at : at + count]

    same(device.differs(read(content), read(content), 0, len(content)), None)
    for at in (0, 4095, 9000, len(content) - 1):
        other = content[:at] + bytes([content[at] ^ 1]) + content[at + 1 :]
        same(device.differs(read(content), read(other), 0, len(content)), at)
        same(device.differs(read(other), bad, 0, len(content)), at, "beside what can't be read")
    same(device.differs(read(content), bad, 0, len(content)), None)
    path = place.write("store", bytes(store.device_of(store.TWO)))
    descriptor = os.open(path, os.O_RDONLY)
    try:
        same(device.stale_byte(path, descriptor), None)
    except device.NoDirectReads:
        return "no direct reads here"
    finally:
        os.close(descriptor)
    return "with direct reads"


def metrics(place):
    """the metrics of a store are its place, generation and journal in use, the known place and the backup's age; they go whole into a file, with its time"""
    server = Server(place).start()
    entered(server, 8)
    same(ran(place, "backup", server.store, place.path("copy"))[0], 0)
    words = ["probe", *PATIENT, "--store", server.store, "--backup", place.path("copy"), "--output", place.path("femem.prom"), server.socket]
    same(ran(place, *words), (0, "", ""))
    found = dict(it.split(" ") for it in place.read("femem.prom").decode().splitlines())
    same([found[f"femem_{it}"] for it in ("probe_status", "place", "known_place", "generation", "journal_used_bytes")], ["0", "4", "4", "1", str(4 * 85)])
    holds(0 <= float(found["femem_backup_age_seconds"]) < 60 and float(found["femem_written_seconds"]) > 1.6e9, f"{found}")
    server.stop()
    same(ran(place, *words)[0], 0, "the file is written whatever the probe says")
    found = dict(it.split(" ") for it in place.read("femem.prom").decode().splitlines())
    same(("femem_place" in found, found["femem_probe_status"]), (False, "4"))
    until(lambda: not os.path.exists(place.path("femem.prom.new")), 1, "nothing is left")
