"""The operator's tools: a store that is made, copied while the server writes, and restored; a probe that is stored."""

import hashlib
import os
import re
import resource
import shutil
import signal
import subprocess
import sys
import time

from . import model, rescues, store, wire
from .crowds import together
from .harness import Held, Server, Skipped, holds, same, until, within
from .looks import Load
from .model import State
from .rescues import filled
from .store import ONE, TWO
from .storetool import FOLDER, PATIENT, TOOL, backup, copied, files, layout, ran, state, sum_of, words_of

COPIES = 40


def laid_out(place):
    """the layout, the formats and the operations of the tools are those of docs/formats.md and of the README"""
    mine = [layout.SIZE, layout.SLOT, layout.GATE, layout.IMAGE, layout.JOURNAL, layout.AREA]
    same(mine, [store.SIZE, store.SLOT, store.GATE, store.IMAGE, store.JOURNAL, store.AREA])
    formats = {it.magic: (it.number, it.name, it.record, it.most_records) for it in (ONE, TWO)}
    same({magic: tuple(it) for magic, it in layout.FORMATS.items()}, formats)
    same(layout.LEAST_IMAGE, len(store.image_of(State(), ONE)))
    values = {"same": "same", "operand": "operand", "0": "zero", "(value + operand) mod 2^64": "sum"}
    same(state.LEAVES, {op: (values[it[1]], model.TAGS.get(it[2])) for op, it in model.TABLE.items()}, "operations")
    asked = [state.ATTACHED, state.CLOSED, state.SETTLED, state.CREATE, state.REMOVE, state.VALUE, state.DONE, state.ARRAY]
    kinds, requests, answers = store.KINDS, store.REQUESTS, wire.ANSWERS
    same(asked, [
        kinds["attached"], kinds["closed"], kinds["settled"], requests["create"], requests["remove"], answers["value"], answers["done"], answers["array"],
    ], "codes")


@within(240)
def while_served(place):
    """backups of a store that a server writes, with checkpoints: each opens, has what was answered before it, and is the state at its place, with its sum"""
    server = Server(place).start()
    load = Load(server)
    until(lambda: load.answered > 100 or load.raised, 30, "the load begins")
    for number in range(COPIES):
        copy, answered = place.path(f"copy{number}"), load.answered
        status, text, errors = ran(place, "backup", server.store, copy)
        same((status, errors), (0, ""), f"copy {number}")
        at, shown = re.fullmatch(r"place (\d+)\nstate (\w+)\n", text).groups()
        history = load.at(int(at), answered, f"copy {number}")
        other = Server(place, f"c{number}", store=copy)
        same((other.looks(), shown), (history.looks(), sum_of(history)), f"copy {number}")
        same(os.stat(copy).st_mode & 0o7777, 0o600)
        if number % 10 == 0:
            serves_as_before(other.start(), history)
        os.unlink(copy)
    for _ in range(5):
        same(ran(place, "verify", server.store)[::2], (0, ""), "a store that is served is whole")
        said = f"{server.store}: it is served: process {server.process.pid}, "
        holds(ran(place, "why", server.store)[1].startswith(said) and ran(place, "why", server.store)[1].count("\n") == 1, "why, beside a server")
    load.end()
    server.stop()
    same(sorted(it for it in os.listdir(place.folder) if it.startswith("copy")), [], "what the backups left")
    return f"{COPIES} copies, {at} entries"


def serves_as_before(server, known):
    """A server over a copy gives each kept answer again."""
    with server.connect() as conn:
        same(conn.ask(wire.attach(7)), ("welcome", 7, known.sessions[7].floor))
        for number, (request, answer, _) in sorted(known.sessions[7].kept.items()):
            same(conn.ask(wire.call(number, request)), ("answer", number, answer))
    server.stop()


@within(120)
def sums(place):
    """the sum of a state is that of its image in format 2, whatever slot, format and groups a store has it in; another state has another"""
    entries = [("attached", 7, 1), ("finished", 7, 1, ("create", b"cells", 4, 1), ("array", 1, 4))]
    for number, op in enumerate(sorted(wire.OPS.values()), 2):
        before = State()
        for it in entries:
            before.apply(it)
        request = ("access", op, 1, 1, 5 if op in wire.WITH_OPERAND else 0, False)
        answer = before.answer_to(request)
        if answer is not None:
            entries.append(("finished", 7, number, request, answer))
    entries += [("settled", 7, 4), ("attached", 9, 1), ("finished", 9, 1, ("create", b"gone", 2, 0), ("array", 2, 2))]
    entries += [("finished", 9, 2, ("remove", 2), ("done",)), ("finished", 9, 3, ("find", b"gone"), ("no-array",)), ("attached", 8, 1), ("closed", 8)]
    last = State()
    for it in entries:
        last.apply(it)
    half = State()
    for it in entries[:5]:
        half.apply(it)
    holds(len(entries) > 12, "entries")
    for name, content in (
        ("groups of 1", store.device_of(ONE, None, [entries])), ("groups of 2", store.device_of(TWO, None, [[it] for it in entries])),
        ("slot 1", store.device_of(TWO, half, [entries[5:]], 2, 1)), ("image", store.device_of(TWO, last)), ("image of 1", store.device_of(ONE, last)),
    ):
        place.write("store", bytes(content))
        said = ran(place, "verify", place.path("store"))
        holds(said[0] == 0 and words_of(said[1])["state"] == sum_of(last), f"{name}: {said}")
        os.unlink(place.path("store"))
    same(sum_of(last), hashlib.sha256(store.image_of(last, TWO)).hexdigest())
    place.write("other", bytes(store.device_of(TWO, half)))
    holds(words_of(ran(place, "verify", place.path("other"))[1])["state"] != sum_of(last), "another state has its sum")
    return f"{len(entries)} entries"


def looks_twice(place):
    """a copy of a slot whose header changes while it is read is none: after a hundred readings the backup says so; one that changes once is read again"""
    content = copied(place, [[("attached", 7, 1)]])
    reads = []

    def changing(times):
        def read(at, count):
            reads.append(at)
            it = bytearray(content)
            # (the generation rises with each look at the header, as if a checkpoint came between)
            it[8:16] = min(sum(at == 0 and count == 20 for at in reads), times).to_bytes(8, "big")
            return bytes(it[at : at + count])
        return read

    same(backup.reading(changing(10**6)), None, "a slot that changes while it is read")
    reads.clear()
    read = changing(2)
    holds(backup.reading(read) is None, "a slot that was made anew once")
    same(backup.reading(read)[:4096], content[:8] + (2).to_bytes(8, "big") + content[16:4096], "what is read again, once it stays")


@within(120)
def repeated(place):
    """a backup replaces the last one, keeps so many, and leaves another tool's file, another program's, the store and a greater known place alone"""
    server, _ = filled(place, rounds=3)
    folder = place.path("b")
    os.mkdir(folder)
    copy = os.path.join(folder, "copy")
    for number, wanted in ((1, ["copy"]), (1, ["copy"]), (3, ["copy", "copy.1"]), (3, ["copy", "copy.1", "copy.2"]), (3, ["copy", "copy.1", "copy.2"])):
        same(ran(place, "backup", "--keep", str(number), server.store, copy)[::2], (0, ""))
        same(sorted(os.listdir(folder)), wanted)
    # one that is killed as it writes leaves its file, and the next one takes it
    same(strace(place, ["-e", "trace=fsync", "-e", "inject=fsync:signal=SIGKILL:when=1"], "backup", server.store, copy)[0], -signal.SIGKILL)
    holds(os.path.exists(f"{copy}.new"), "a killed backup leaves its file")
    with files.New(copy):
        holds("another tool is writing it" in ran(place, "backup", server.store, copy)[2], "a file that a live tool has")
    same(ran(place, "backup", server.store, copy)[0], 0, "after a kill")
    place.write("b/copy.new", b"a file of mine")
    holds("move it away" in ran(place, "backup", server.store, copy)[2], "a file that no tool made")
    same(place.read("b/copy.new"), b"a file of mine")
    os.unlink(f"{copy}.new")
    no_links = ["-e", "trace=link,linkat", "-e", "inject=link,linkat:error=EPERM"]
    same(strace(place, no_links, "backup", "--keep", "2", server.store, copy)[0], 0, "where there are no hard links")
    place.write("text", b"x" * store.SIZE)
    for other, said in ((place.path("text"), "is no store"), (server.store, "is the store"), (place.path("none/copy"), "No such file"), (folder, "is no plain file")):
        status, _, errors = ran(place, "backup", server.store, other)
        holds(status == 1 and said in errors and errors.count("\n") == 1, f"{other}: {errors}")
    place.write("s.store.place", b"place 100000\n")
    status, _, errors = ran(place, "backup", server.store, copy)
    holds(status == 1 and "the last known place is 100000" in errors, errors)
    same(sorted(os.listdir(folder)), ["copy", "copy.1", "copy.2"])


def strace(place, options, *words):
    """A tool under strace: its status, output and errors."""
    if shutil.which("strace") is None:
        raise Skipped("there is no strace")
    return ran(place, *words, before=["strace", "-f", "-qq", "-o", place.path("trace"), *options])


def restored(place):
    """a restore refuses a served store, keeps the old one, and gives the new one its mode; both places are said; the last known place follows"""
    server, _ = filled(place)
    os.chmod(server.store, 0o640)
    at = int(server.looks().split("\n", 1)[0].removeprefix("place "))
    backup_path, kept = place.path("backup"), f"{server.store}.before-restore"
    same(ran(place, "backup", server.store, backup_path)[0], 0)
    server.start()
    with server.attached(8) as conn:
        conn.ask(wire.bye())
    status, _, errors = ran(place, "restore", backup_path, server.store)
    holds(status == 1 and f"is served: process {server.process.pid}, " in errors, errors)
    server.stop()
    same(ran(place, "note", server.store), (0, "", ""))
    same(place.read("s.store.place"), b"place %d\n" % (at + 2))
    same(ran(place, "restore", backup_path, server.store), (0, f"before: place {at + 2}, kept as {kept}\nnow: place {at}\n", ""))
    same(place.read("s.store.place"), b"place %d\n" % at)
    same(os.stat(server.store).st_mode & 0o7777, 0o640)
    same(Server(place, "k", store=kept).looks().split("\n", 1)[0], f"place {at + 2}")
    server.start()
    server.attached(7).close()
    server.stop()
    same(ran(place, "restore", backup_path, server.store), (0, f"before: place {at + 1}, kept as {kept}.2\nnow: place {at}\n", ""), "again")
    os.unlink(server.store)
    same(ran(place, "restore", backup_path, server.store), (0, f"before: no file\nnow: place {at}\n", ""))
    os.mkfifo(place.path("pipe"))
    holds("is no plain file" in ran(place, "backup", place.path("pipe"), place.path("none"))[2], "a pipe")


@within(120)
def restored_over(place):
    """a store that was cut or emptied, or that can't be read, is replaced and kept; a folder, a wrong backup and the backup itself are not; a killed restore is done again"""
    server, content = filled(place, rounds=3)
    good, path, kept = place.write("good", content), server.store, f"{server.store}.before-restore"
    for name, bytes_there, said in (("cut", content[:1000000], "femem: store size 1000000"), ("empty", b"", "femem: store size 0")):
        place.write("s.store", bytes_there)
        status, text, errors = ran(place, "restore", good, path)
        holds((status, errors) == (0, "") and text.startswith(f"before: {said}, kept as {kept}"), f"{name}: {text}{errors}")
        same(place.read("s.store"), content)
    same(sorted(it for it in os.listdir(place.folder) if "before" in it), ["s.store.before-restore", "s.store.before-restore.2"])
    with rescues.bad_sector(place, path, store.JOURNAL, store.JOURNAL + 4096) as env:
        status, text, errors = ran(place, "restore", good, path, env=env)
        holds((status, errors) == (0, "") and text.startswith("before: femem: store device, kept as "), f"unreadable: {text}{errors}")
    with rescues.bad_sector(place, good, 9000, 9001) as env:
        holds("bytes 8704 to 9215 can't be read" in ran(place, "restore", good, path, env=env)[2], "a backup that can't be read")
    same(strace(place, ["-e", "trace=rename", "-e", "inject=rename:signal=SIGKILL:when=1"], "restore", good, path)[0], -signal.SIGKILL)
    count = len(os.listdir(place.folder))
    same(ran(place, "restore", good, path)[0], 0, "after a kill")
    same(len(os.listdir(place.folder)), count - 1, "what a killed restore had made was used")
    no_links = ["-e", "trace=link,linkat", "-e", "inject=link,linkat:error=EPERM"]
    same(strace(place, no_links, "restore", good, path)[0], 0, "where there are no hard links")
    os.unlink(path)
    os.mkdir(path)
    for source, target, said in ((good, path, "is no plain file"), (good, good, "is the store"), (place.path("none"), path, "No such file"), (place.write("bad", content[:-1]), path, "is no file of")):
        status, _, errors = ran(place, "restore", source, target)
        holds(status == 1 and said in errors and errors.count("\n") == 1, f"{source} {target}: {errors}")


# A line of `strace -y`: a sync, a read or a write of a file, or a name that a file gets.
TRACED = re.compile(r'(?:f(?:data)?(sync)|p(read)64|p(write)64)\(\d+<([^>]*)>.* = \d+|(?:link|linkat|rename|renameat2?)\(.*"([^"]*)"(?:, \w+)?\) = 0')


def traced(place, *words):
    """What a tool does with files, by its system calls: pairs of a word and a file's name, each once where several follow each other."""
    options = ["-y", "-s", "0", "-e", "trace=fsync,fdatasync,pread64,pwrite64,link,linkat,rename,renameat,renameat2"]
    if shutil.which("strace") is None:
        raise Skipped("there is no strace")
    status, _, errors = ran(place, *words, before=["strace", "-o", place.path("trace"), *options])
    same(status, 0, errors)
    found = []
    for it in TRACED.finditer(place.read("trace").decode()):
        done = (it[1] or it[2] or it[3] or "name", os.path.basename(it[4] or it[5]))
        if os.path.dirname(it[4] or it[5]) == place.folder or done == ("sync", os.path.basename(place.folder)):
            found += [done] if done not in found[-1:] and not done[1].endswith((".place", ".place.new")) else []
    return [it for at, it in enumerate(found) if it not in found[at - 1 : at]]


@within(120)
def synced(place):
    """by their system calls: a backup syncs the store before it reads it and after; each tool syncs a file before it names it, and then the folder"""
    server, content = filled(place, rounds=3)
    name, folder = os.path.basename(server.store), ("sync", os.path.basename(place.folder))
    # (the head of the file that is made is read, in case another one left it)
    made = lambda it: [("read", it), ("write", it), ("sync", it)]
    around = [("sync", name), ("read", name), ("sync", name)]
    same(traced(place, "backup", server.store, place.path("copy")), [*around, *made("copy.new"), ("name", "copy"), folder])
    names = [("name", f"{name}.before-restore"), ("name", name)]
    same(traced(place, "restore", place.path("copy"), server.store)[1:], [*made(f"{name}.restored"), *names, folder])
    place.write("hurt", rescues.changed(content, store.slots_of(content)[0].at + store.JOURNAL + 5, 9))
    same(traced(place, "rescue", place.path("hurt"), place.path("saved"))[1:], [*made("saved.new"), ("name", "saved"), folder])


def probed(place):
    """a probe is stored and leaves no session; it fails where the server stands still, where there is none, and where the user may not use it"""
    server = Server(place).start()
    status, text, errors = ran(place, "probe", *PATIENT, server.socket)
    holds((status, errors) == (0, "") and text.startswith("stored in "), text + errors)
    same(server.looks(), "place 2\n")
    holds("femem_probe_status 0\nfemem_probe_seconds " in ran(place, "probe", *PATIENT, "--metrics", server.socket)[1], "metrics")
    counts = place.path("counts")
    same(ran(place, "probe", "--slow", "0", "--counts", counts, server.socket)[0], 3, "a slow one")
    same(ran(place, "probe", *PATIENT, "--counts", counts, server.socket)[0], 0)
    status, text, errors = ran(place, "probe", *PATIENT, "--counts", place.path("none/counts"), server.socket)
    same((status, text, errors), (1, "", f"femem-store: {place.path('none/counts')}.{errors.split('.')[-1].split(':')[0]}: No such file or directory\n"))
    not_allowed(place, server)
    server.process.send_signal(signal.SIGSTOP)
    begun = time.monotonic()
    same(ran(place, "probe", "--limit", "0.5", server.socket), (1, "", "nothing was stored within 0.5 s\n"))
    holds(time.monotonic() - begun < 5 * wire.patience, "the limit ends it")
    server.process.send_signal(signal.SIGCONT)
    server.stop()
    status, text, _ = ran(place, "probe", "--metrics", "--counts", counts, server.socket)
    numbers = "femem_probes_total 3\nfemem_probes_slow_total 1\nfemem_probes_failed_total 1\n"
    holds(status == 4 and text.startswith(f"femem_probe_status 4\nfemem_probe_seconds 0.000000\n{numbers}femem_written_seconds "), text)
    same(ran(place, "probe", server.socket), (4, "", f"no server: {server.socket}: No such file or directory\n"))


# Runs the command as a user without rights.
AS_NOBODY = """
import os, sys
sys.path.insert(0, sys.argv[1])
from femem_store import command
os.setgroups([])
os.setgid(65534)
os.setuid(65534)
sys.exit(command.main(["femem-store", *sys.argv[2:]]))
"""


def not_allowed(place, server):
    """A user without rights is told so, and not that there is no server."""
    if os.geteuid() == 0:
        os.chmod(server.socket, 0o600)
        os.chmod(place.folder, 0o755)
        # (the tool is loaded before it gives root up: the clone, and Python, may be in folders that root alone may enter)
        ended = subprocess.run([sys.executable, "-B", "-c", AS_NOBODY, FOLDER, "probe", server.socket], stdin=subprocess.DEVNULL, capture_output=True, text=True, timeout=60 * wire.patience)
        same((ended.returncode, ended.stderr), (5, f"not allowed to use {server.socket}: Permission denied\n"))


@within(120)
def probed_at_once(place):
    """three probes at once, again and again: none takes another's session, and none fails"""
    server, said = Server(place).start(), []
    together(3, lambda _: said.extend(ran(place, "probe", "--limit", "20", "--slow", "20", server.socket) for _ in range(15)))
    same([it for it in said if it[0] != 0], [])
    same((len(said), server.looks().splitlines()), (45, ["place 90"]))
    server.stop()


def slow_sync(place):
    """a probe of a server whose sync takes more than a second says so, while a report and a look are answered at once"""
    held = Held(place, "fdatasync")
    server = Server(place).start(held.env)
    for seconds, status, words in ((1.2, 3, "slower than 1 s"), (5.5, 1, "nothing was stored within 2 s")):
        held.next()
        tool = [sys.executable, TOOL, "probe", "--limit", "20" if status == 3 else "2", server.socket]
        probe = subprocess.Popen(tool, stdin=subprocess.DEVNULL, stdout=subprocess.PIPE, stderr=subprocess.STDOUT, text=True)
        held.wait()
        begun = time.monotonic()
        same(place.run("call", "--socket", server.socket, given=b"report\n")[:2], (0, b"waiting 0\n"), "a report")
        server.looks()
        if status == 3:
            time.sleep(max(begun + seconds - time.monotonic(), 0))
            held.let_go()
        said = probe.communicate(timeout=10 * seconds * wire.patience)[0]
        if status == 1:
            held.let_go()
        same(probe.returncode, status, said)
        holds(words in said, said)


@within(120)
def made(place):
    """`make` makes an empty store that its owner alone may read; where there is a file, or the server fails or does not end, it says so, and leaves nothing"""
    same(ran(place, "make", place.path("new 'store'")), (0, "", ""))
    holds(place.read("new 'store'") == bytes(store.device_of(TWO)), "it is not an empty store")
    same(os.stat(place.path("new 'store'")).st_mode & 0o777, 0o600, "its mode")
    for path, said in (("new 'store'", "there is a file: "), ("nowhere/store", "no store was made: femem: store device: ")):
        same(ran(place, "make", place.path(path)), (1, "", f"femem-store: {said}{place.path(path)}\n"))
    # (a limit on the file's size, as a full disk, ends the server as it fills the file)
    status, _, errors = ran(place, "make", place.path("full"), limit=(resource.RLIMIT_FSIZE, 1 << 20))
    holds(status == 1 and "no store was made" in errors, errors)
    script = f"#!/bin/sh\nls /proc/$$/fd > {place.path('files')}\necho $$ > {place.path('pid')}\nexec sleep 1000\n"
    os.chmod(place.write("hangs", script.encode()), 0o755)
    env = {"FEMEM": place.path("hangs"), "TMPDIR": place.path("tmp")}
    os.mkdir(place.path("tmp"))
    status, _, errors = ran(place, "make", "--limit", "5", place.path("late"), env=env)
    holds(status == 1 and "did not end within 5 s" in errors and not runs(place), errors)
    # (as under debconf, which waits for all who have descriptor 3)
    tool = place.start(["sh", "-c", 'exec 3> "$0"; exec "$@"', place.path("three"), sys.executable, TOOL, "make", place.path("late")], env=env)
    os.unlink(place.path("pid"))
    until(lambda: os.path.exists(place.path("pid")) and place.read("pid"), 20, "the server begins")
    tool.terminate()
    same(tool.wait(30 * wire.patience), 128 + signal.SIGTERM)
    holds(not runs(place), "a server is left")
    holds("0" in place.read("files").decode().split() and "3" not in place.read("files").decode().split(), "the server has descriptor 3")
    same((os.listdir(place.path("tmp")), [it for it in os.listdir(place.folder) if it.startswith(("late", "full", "nowhere"))]), ([], []), "what is left")


def runs(place):
    """Whether the server that was started last is there."""
    return os.path.exists(f"/proc/{int(place.read('pid'))}")


def former_names(place):
    """under the names that the tools had alone they do the same, and no run leaves a compiled module"""
    server, _ = filled(place, rounds=3)
    shutil.copytree(FOLDER, place.path("tools"), ignore=shutil.ignore_patterns("__pycache__"))
    for name, words, wanted in (
        ("make-store", [place.path("made")], ""), ("femem-backup", [server.store, place.path("copy")], "place "), ("femem-probe", ["--help"], "usage:"),
        ("femem-rescue", [server.store], "place "), ("femem-restore", [place.path("copy"), server.store], "before: place "),
    ):
        os.symlink("femem-store", place.path(f"tools/{name}"))
        status, text, errors = ran(place, *words, tool=place.path(f"tools/{name}"))
        holds((status, errors) == (0, "") and text.startswith(wanted), f"{name}: {text}{errors}")
    same([it for it in os.listdir(place.path("tools/femem_store")) if not it.endswith(".py")], [], "what the tools left")
