"""The file of a store: how it is made, what is kept when it is formatted, and what happens if somebody else changes it."""

import os
import shutil
import stat
import subprocess
from pathlib import Path

from . import store, wire
from .crowds import adding
from .faults import Client, answered, goes_on
from .harness import Held, Server, holds, same, until
from .model import State
from .records import Journal
from .store import AREA, GATE, JOURNAL, SIZE, TWO
from .stores import full_state

WORK = [("create", b"cells", 2, 1)] + [adding(1, 0, 1)] * 5


def cut_to(size):
    return lambda path: os.truncate(path, size)


def replace(path):
    """Another store takes the path, like a backup that is restored."""
    shutil.copy(path, f"{path}.other")
    os.rename(f"{path}.other", path)


def rename(path):
    os.rename(path, f"{path}.other")


def rename_folder(path):
    rename(os.path.dirname(path))


def link_to_another(path):
    shutil.copy(path, f"{path}.other")
    os.unlink(path)
    os.symlink(f"{path}.other", path)


def behind_a_second_name(change):
    """The file first gets a second name, and keeps it."""

    def both(path):
        os.link(path, f"{path}.second")
        change(path)

    return both


# Each with the name of the server's file afterwards, if it still has a name and its size.
CHANGES = {
    "cut to nothing": (cut_to(0), None), "cut by a byte": (cut_to(SIZE - 1), None), "longer by a byte": (cut_to(SIZE + 1), None),
    "removed": (os.unlink, None), "renamed": (rename, "store.other"), "folder renamed": (rename_folder, "store"),
    "replaced": (replace, None), "a link to another": (link_to_another, None),
    "removed, but for a second name": (behind_a_second_name(os.unlink), "store.second"),
    "replaced, but for a second name": (behind_a_second_name(replace), "store.second"),
}


def files_in(folder):
    """The contents of a folder's files, by name."""
    found = {}
    for name in os.listdir(folder):
        found[name] = Path(os.path.join(folder, name)).read_bytes()
    return found


def with_group(device, groups, entry):
    """A device with that many groups of one entry, after the next group is written."""
    found = bytearray(device)
    _, at, data = Journal(TWO, 0, groups * (5 + TWO.record)).group(entry)[0]
    found[at - 1 : at + len(data)] = b"\1" + data
    return bytes(found)


def changed_meanwhile(place):
    """a served file is cut, extended, removed, renamed or replaced: no answer follows, only `femem: store device`"""
    for number, (name, (change, kept)) in enumerate(CHANGES.items()):
        folder = place.path(f"c{number}")
        os.mkdir(folder)
        server = Server(place, os.path.basename(folder), store=os.path.join(folder, "store")).start()
        client = Client(server, WORK[:3])
        holds(client.attempt(), f"{name}: a connection ended")
        same(client.answers, answered(WORK)[:3], name)
        change(server.store)
        there = folder if os.path.exists(folder) else f"{folder}.other"
        left = files_in(there)
        client.work = WORK
        ends(server, client, name, 3)
        if kept:
            # one more group, which nobody was answered (before it are an attached and three answers)
            left[kept] = with_group(left[kept], 4, ("attached", 7, 1))
        if "cut" not in name and "longer" not in name:
            same(files_in(there) == left, True, f"{name}: what the files have")
        if name == "renamed":
            os.rename(f"{server.store}.other", server.store)
            goes_on(place, server, client, answered(WORK), "back under its name")
    return f"{len(CHANGES)} changes"


def ends(server, client, name, answers=0):
    """The server ends for its device, and its client got so many answers."""
    holds(client.until_end(), f"{name}: the server goes on, {client.answers}")
    same((len(client.answers), server.ended()), (answers, (3, "", "femem: store device\n")), name)


def copied_over(path, backup):
    subprocess.run(["cp", backup, path], check=True)


def written_over(path, backup):
    subprocess.run(["dd", f"if={backup}", f"of={path}", "conv=notrunc", "bs=1M", "status=none"], check=True)


def updated_in_place(path, backup):
    """As `rsync --inplace` does it: only the blocks that differ are written, into the file that is there."""
    with open(path, "r+b") as file, open(backup, "rb") as old:
        while True:
            at, block = old.tell(), old.read(1024)
            if not block:
                return
            file.seek(at)
            if file.read(1024) != block:
                file.seek(at)
                file.write(block)


def hole_in_journal(path, _backup):
    subprocess.run(["fallocate", "--punch-hole", "--offset", str(JOURNAL), "--length", str(AREA), path], check=True)


def while_it_starts(place):
    """a store that is replaced or removed between its opening and the first look at its path, or that has no name, is not served"""
    whole = bytes(store.device_of(TWO))
    for name, change in (("replaced", replace), ("removed", os.unlink), ("renamed", rename)):
        held = Held(place, "flock", name)
        server = Server(place, name, store=place.write(f"{name}.store", whole), format=False)
        held.next()
        server.start(held.env, waits=False)
        held.wait()
        change(server.store)
        held.let_go()
        same(server.ended(), (3, "", "femem: store device\n"), name)
        holds(not os.path.exists(server.socket), f"{name}: a socket")
        same([it for it in files_in(place.folder).values() if len(it) == SIZE and it != whole], [], f"{name}: what was written")
    # (as a file that is mounted from elsewhere, whose name there is gone)
    with open(place.write("nameless", whole), "r+b") as file:
        os.unlink(place.path("nameless"))
        server = Server(place, "nameless", store=f"/proc/{os.getpid()}/fd/{file.fileno()}", format=False)
        same(server.start(waits=False).ended(), (3, "", "femem: store device\n"), "a file without a name")
    server = Server(place, "again", store=place.path("replaced.store"), format=False).start()
    server.attached(7).close()


OVERWRITES = {"cp": copied_over, "dd": written_over, "in place": updated_in_place, "a hole": hole_in_journal}


def overwritten(place):
    """a served file is overwritten in place by a backup, or a hole is made in it: no answer follows, and the next start serves the backup"""
    for number, (name, change) in enumerate(OVERWRITES.items()):
        server = Server(place, f"o{number}").start()
        client = Client(server, WORK[:3])
        holds(client.attempt(), f"{name}: a connection ended")
        backup = place.write("backup", place.read(os.path.basename(server.store)))
        client.work = WORK[:5]
        holds(client.attempt(), f"{name}: a connection ended")
        same(client.answers, answered(WORK)[:5], name)
        change(server.store, backup)
        client.work = WORK
        ends(server, client, name, 5)
        os.unlink(server.socket)
        place_then = "place 0\n" if name == "a hole" else "place 4\narray 1 cells 2\nsession 7 floor 1 kept 3\n"
        same(server.looks(), place_then, name)
        server.start().stop()
    return f"{len(OVERWRITES)} ways"


ATTACHED = ("attached", 7, 1)


def stored(count, generation=1, slot=0, place=0):
    """A store with that many groups of one entry, over an image with that place."""
    state = State()
    for _ in range(place):
        state.apply(ATTACHED)
    return bytes(store.device_of(TWO, state, [[ATTACHED]] * count, generation, slot))


# What is served (None: a store that the server makes), and what is copied over it before the first group.
EARLY = {
    "another store over a new one": (None, (60,)), "another store in slot 1 over a new one": (None, (60, 2, 1)),
    "another image, and no groups": ((0,), (0, 1, 0, 5)), "a backup that lacks groups": ((60,), (56,)),
    "a backup that lacks a checkpoint": ((0, 3, 0, 60), (60, 2, 1)),
}


def overwritten_early(place):
    """a store that is copied over a served one before the first group since the start: nobody is answered, and no byte of it is overwritten"""
    for number, (name, (served, copied)) in enumerate(EARLY.items()):
        path = place.write(f"e{number}.store", stored(*served)) if served else place.path(f"e{number}.store")
        server = Server(place, f"e{number}", store=path, format=not served).start()
        copied_over(path, place.write("copied", stored(*copied)))
        client = Client(server, WORK[:1])
        ends(server, client, name)
        holds(place.read(os.path.basename(path)) == stored(*copied), f"{name}: what the file has")
        os.unlink(server.socket)
        server.start().stop()
    return f"{len(EARLY)} copies"


def equal_groups(place):
    """a backup that has the bytes of the last groups at their place, left from an earlier life of the slot, is noticed if copied over the store"""
    absent = [("find", b"none"), ("find", b"nothing")]
    calls = [("finished", 7, number, request, ("no-array",)) for number, request in enumerate(absent, 1)]
    # (a group of one entry is shorter than what is compared, and one of two is longer)
    for name, life in (("one", [[ATTACHED]]), ("two", [[ATTACHED]] * 2), ("five", [[ATTACHED]] * 5), ("a longer one", [[ATTACHED], calls])):
        before = [[ATTACHED]] * 6
        backup = store.device_of(TWO, State(), before + life + [[ATTACHED]] * 5)
        gates = [JOURNAL + sum(5 + TWO.record * len(group) for group in groups) for groups in (before, before + life)]
        # (the groups behind the sixth are those of an earlier life, whose gate is closed first)
        backup[gates[0]] = 0
        for _ in range(50):
            server = Server(place, name[:4], store=place.write("e.store", bytes(backup)), format=False).start()
            for group in life:
                if group == [ATTACHED]:
                    conn = server.attached(7)
                else:
                    conn.send(b"".join(wire.call(number, request) for number, request in enumerate(absent, 1)))
                    same([conn.reply() for _ in absent], [("answer", number, ("no-array",)) for number in (1, 2)])
            conn.close()
            served = place.read("e.store")
            # (two calls that come together may be stored in two groups: then it is tried again)
            if backup[gates[0] + 1 : gates[1]] == served[gates[0] + 1 : gates[1]]:
                break
            server.stop()
        same([(backup[at], served[at]) for at in gates], [(0, 1), (1, 0)], f"{name}: the two gates of the backup and of the store")
        same(backup[gates[0] + 1 : gates[1]] == served[gates[0] + 1 : gates[1]], True, f"{name}: the bytes between them are equal")
        copied_over(server.store, place.write("copied", bytes(backup)))
        client = Client(server, WORK[:1])
        ends(server, client, name)
        holds(place.read("e.store") == bytes(backup), f"{name}: what the file has")
    return "after 1, 2 and 5 groups, and after one of two entries"


def renamed_in_a_group(place):
    """a served file is renamed during a sync of a group, the first or the second: the file has the whole group, which is not answered"""
    for syncs in (1, 2):
        name = f"sync {syncs}"
        held = Held(place, "fdatasync")
        server = Server(place, f"s{syncs}").start(held.env)
        client = Client(server, WORK[:3])
        holds(client.attempt(), f"{name}: a connection ended")
        client.work, wanted = WORK, answered(WORK)
        with server.attached(7) as conn:
            before = place.read(f"s{syncs}.store")
            held.next()
            conn.send(wire.call(4, WORK[3]))
            held.wait()
            if syncs == 2:
                held.next()
                held.let_go()
                held.wait()
            rename(server.store)
            held.let_go()
            holds(conn.has_ended(), f"{name}: a reply came")
        same(server.ended(), (3, "", "femem: store device\n"), name)
        # (attached twice, then three answers)
        left = with_group(before, 5, ("finished", 7, 4, WORK[3], wanted[3]))
        same(place.read(f"s{syncs}.store.other") == left, True, f"{name}: the file that was renamed")
        os.rename(f"{server.store}.other", server.store)
        goes_on(place, server, client, wanted, name)


def by_other_paths(place):
    """a store is served through a symbolic link, by a relative path, and by the longest path that leaves room for PATH.new"""
    whole = bytes(store.device_of(TWO))
    os.symlink(place.write("file", whole), place.path("link"))
    for name, path in (("link", place.path("link")), ("near", "near"), ("long", "./" * 2043 + "store")):
        server = Server(place, name, store=path).start()
        client = Client(server, WORK)
        holds(client.attempt(), f"{name}: a connection ended")
        same(client.answers, answered(WORK), name)
        server.stop()
        same(server.looks(), "place 7\narray 1 cells 2\nsession 7 floor 1 kept 6\n", name)
    same(len(path), 4095 - len(".new"))
    holds(os.path.islink(place.path("link")), "the link stays one")


def spoiled():
    """Correct stores with one byte changed, or written by a newer server: no slot is valid."""
    base = bytes(store.device_of(TWO, full_state(), [[("attached", 7, 1)]], 3))
    for name, at, byte in (("magic", 0, 0x47), ("gate", GATE, 0x03), ("newer format", 7, 0x33)):
        device = bytearray(base)
        device[at] = byte
        yield name, bytes(device)


def mode_of(path):
    return stat.S_IMODE(os.stat(path).st_mode)


def files_of(place, server):
    """The files of a store, by what follows its path in their names."""
    name = os.path.basename(server.store)
    return {file[len(name) :]: place.read(file) for file in os.listdir(place.folder) if file.startswith(name)}


def kept_bytes(place):
    """a store with one wrong byte is formatted only on request, and only once all of its bytes are in PATH.before-format"""
    earlier = None
    for name, device in spoiled():
        server = Server(place, name.replace(" ", "_"), format=False)
        place.write(os.path.basename(server.store), device)
        same(server.start(waits=False).ended(), (3, "", "femem: store unformatted\n"), name)
        same(files_of(place, server) == {"": device}, True, f"{name}: the file is as it was")
        server.settings["format"] = True
        if earlier is not None:
            # a copy with other bytes exists: it stays, and so does the store
            place.write(os.path.basename(server.store) + ".before-format", earlier)
            same(server.start(waits=False).ended(), (3, "", "femem: store device\n"), name)
            same(files_of(place, server) == {"": device, ".before-format": earlier}, True, f"{name}: both files are as they were")
            os.unlink(f"{server.store}.before-format")
        server.start()
        server.attached(7).close()
        server.stop()
        found = files_of(place, server)
        same(sorted(found), ["", ".before-format"], name)
        holds(found[".before-format"] == device, f"{name}: the copy has all bytes")
        same(mode_of(f"{server.store}.before-format"), 0o600, name)
        same(server.looks(), "place 1\nsession 7 floor 1 kept 0\n", name)
        earlier = device
    return "magic, gate, newer format"


def nothing_to_keep(place):
    """a file of zeros, and one left by an interrupted format, are formatted without a copy; where no file is, one is made only on request"""
    absent = Server(place, "absent", format=False)
    same(absent.start(waits=False).ended(), (3, "", "femem: store device\n"))
    same(files_of(place, absent), {})
    whole = bytes(store.device_of(TWO))
    begun = bytearray(whole)
    begun[GATE] = 0
    for name, device in (("zeros", bytes(SIZE)), ("broken off", bytes(begun)), ("torn", bytes(SIZE // 2) + bytes(SIZE - SIZE // 2)[:-1] + b"\0")):
        server = Server(place, name.replace(" ", "_"))
        place.write(os.path.basename(server.store), device)
        server.start().stop()
        same(files_of(place, server) == {"": whole}, True, f"{name}: a new store, and nothing beside it")


def modes(place):
    """a new store can be read and written only by its owner, whatever the umask"""
    for mask in (0, 0o022, 0o077):
        before = os.umask(mask)
        try:
            server = Server(place, f"m{mask:o}").start()
        finally:
            os.umask(before)
        server.stop()
        same(mode_of(server.store), 0o600, f"umask {mask:o}")


def left_over(place):
    """a PATH.new left by an interrupted start is removed by the next start; anyone else's file stays, and no store is made"""
    whole = bytes(store.device_of(TWO))
    for name, device in (("nothing", b""), ("some zeros", bytes(70000)), ("all zeros", bytes(SIZE)), ("formatted", whole)):
        server = Server(place, name.replace(" ", "_"))
        place.write(os.path.basename(server.store) + ".new", device)
        server.start().stop()
        same(files_of(place, server) == {"": whole}, True, f"{name}: a new store, and nothing beside it")
    # a second name of the store
    os.link(server.store, f"{server.store}.new")
    server.start().stop()
    same(files_of(place, server) == {"": whole}, True, "a second name is removed")
    other = Server(place, "other")
    place.write("other.store.new", b"somebody's words")
    same(other.start(waits=False).ended(), (3, "", "femem: store device\n"))
    same(files_of(place, other), {".new": b"somebody's words"})


def begun_at_once(place):
    """of several servers started at once on a missing store, one makes it and serves, and the others end"""
    for turn in range(6):
        servers = [Server(place, f"t{turn}_{k}", store=place.path(f"store{turn}")).start(waits=False) for k in range(4)]
        until(lambda: sum(server.is_running() for server in servers) == 1, 30, "all but one end")
        serving = next(server for server in servers if server.is_running())
        until(serving.is_there, 30, "the socket is there")
        for server in servers:
            if server is not serving:
                same(server.ended(), (3, "", "femem: store device\n"))
        serving.attached(7).close()
        serving.stop()
        same(serving.looks(), "place 1\nsession 7 floor 1 kept 0\n")
        same([file for file in os.listdir(place.folder) if file.startswith(f"store{turn}")], [f"store{turn}"])
