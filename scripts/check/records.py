"""A server's calls on its file and its connections, one by one, against the tables of docs/store.md."""

import errno
import fcntl
import os
import random
import shutil
import struct
import subprocess
from collections import namedtuple

from . import store, wire
from .crowds import adding
from .harness import Server, Skipped, Worker, Wrong, holds, preload, same, within
from .model import State
from .store import AREA, GATE, IMAGE, JOURNAL, ONE, SLOT, TWO, image_of, record_of


class Call(namedtuple("Call", "kind file numbers error data")):
    """One line of a record: the call, its file, its numbers, its errno, and the bytes transferred."""

    def __repr__(self):
        return " ".join(str(it) for it in (self.kind, self.file, *self.numbers)) + (f" = {self.error}" if self.error else "")


def calls_of(path, is_cut=False):
    """The calls of a record, in order. If the process was killed, the record may be cut: it may have the bytes of a call without its line."""
    with open(path, encoding="utf-8") as file, open(f"{path}.bytes", "rb") as data:
        found = []
        for line in file:
            said, _, error = line.partition(" = ")
            kind, name, *numbers = said.split()
            size = int(numbers[-1]) if kind in ("write", "pwrite", "send", "recv") else 0
            found.append(Call(kind, name, numbers, int(error or 0), data.read(size)))
        holds(is_cut or not data.read(1), "the record has bytes of no call")
        return found


# The tables' calls, as lines of a record with the bytes of each write


def wrote(at, data):
    return [("pwrite", at, data)]


# A sync is one call. The first one also drops the cached pages.
SYNC = [("fdatasync",)]
FIRST_SYNC = SYNC + [("fadvise", 0, 0, os.POSIX_FADV_DONTNEED)]

# Behind the sync of a short write, such as a gate, the server checks the file's size and its path, which says whether it has a name.
WATCH = [("lseek",), ("readlink",)]

# How many bytes of the image's beginning an opening relies on, how many bytes are compared at most, and how short a write is that is no
# group's.
IMAGE_HEAD, MOST, SHORT = 24, 96, 16

NONE = (0, 0)


def last_of(at, size):
    """Where the last bytes of a range are that are compared, and how many they are."""
    count = min(size, MOST)
    return at + size - count, count


def relied(slot, length, used):
    """What an opening relies on: the beginning of the image, and the end of the groups with the closed gate after them."""
    at = slot * SLOT
    return last_of(at + IMAGE, min(length, IMAGE_HEAD)), last_of(at + JOURNAL, used + 1)


def compared(calls, samples=(NONE, NONE)):
    """The same calls, with what goes with them. Before each long write is read what the file must have: the last bytes of the last long
    write that was synced by itself, or at first what the opening relied on. What was written over since is not read. Behind each sync of a
    short write the file is looked at."""
    opened, kept = samples
    written = kept
    is_short = False
    found = []
    for call, following in zip(calls, [*calls[1:], ()]):
        if call[0] == "pwrite":
            at, size = call[1], len(call[2])
            is_short = size < SHORT
            if not is_short:
                found += [("pread", *sample) for sample in (opened, kept) if sample != NONE]
                opened = NONE
            opened, kept, written = (
                sample if sum(sample) <= at or at + size <= sample[0] else NONE for sample in (opened, kept, written)
            )
            written = written if is_short else last_of(at, size)
        found.append(call)
        if call[0] in ("fdatasync", "fadvise") and following != FIRST_SYNC[1]:
            found += WATCH if is_short else []
            kept = kept if is_short else written
    return found


def opening(slot, length):
    """The calls of an opening whose slot counts: a sync, both headers, the slot's journal area and its image."""
    at = slot * SLOT
    return FIRST_SYNC + HEADERS + [("pread", at + JOURNAL, AREA), ("pread", at + IMAGE, length)]


HEADERS = [("pread", 0, IMAGE), ("pread", SLOT, IMAGE)]


def reformatting():
    """The calls of an opening without a valid slot: all bytes are read, then the store is checked again before it is formatted."""
    return FIRST_SYNC + HEADERS + [("pread", 0, store.SIZE)] + SYNC + HEADERS + formatting()


def formatting():
    image = image_of(State(), TWO)
    return (
        wrote(GATE, b"\0") + wrote(SLOT + GATE, b"\0") + SYNC
        + wrote(0, TWO.magic + struct.pack(">QI", 1, len(image))) + wrote(IMAGE, image) + wrote(JOURNAL, b"\0") + SYNC
        + wrote(GATE, b"\1") + SYNC
    )


class Journal:
    """The groups of a slot's journal, from its start."""

    def __init__(self, form, slot, used=0):
        self.form = form
        self.at = slot * SLOT + JOURNAL + used

    def records(self, entries):
        payload = b"".join(record_of(entry, self.form) for entry in entries)
        return struct.pack(">I", len(payload)) + payload + b"\0"

    def group(self, *entries):
        data = self.records(entries)
        at, self.at = self.at, self.at + len(data)
        return wrote(at + 1, data) + SYNC + wrote(at, b"\1") + SYNC

    def caught_up(self, entries):
        """What the end of a checkpoint writes here."""
        data = b"\1" + self.records(entries) if entries else b"\0"
        at, self.at = self.at, self.at + len(data) - 1
        return wrote(at, data) + SYNC


def beginning(slot, generation, image, is_open):
    """Closes the other slot if its gate is open, and writes the fields of its header."""
    at = slot * SLOT
    closed = wrote(at + GATE, b"\0") + SYNC if is_open else []
    return [("pread", at + GATE, 1)] + closed + wrote(at, TWO.magic + struct.pack(">QI", generation, len(image)))


def slices(slot, image):
    return [wrote(slot * SLOT + IMAGE + at, image[at : at + 65536]) for at in range(0, len(image), 65536)]


def finishing(slot, journal, entries):
    return journal.caught_up(entries) + wrote(slot * SLOT + GATE, b"\1") + SYNC


def of_file(calls, name):
    """The calls on a file from its first sync on, in the form of the tables. A read has no bytes: they come from the disk."""
    found = []
    for call in calls:
        if call.file == name and (found or call.kind == "fdatasync"):
            same(call.error, 0, repr(call))
            numbers = [int(number) for number in call.numbers]
            found.append((call.kind, numbers[0], call.data) if call.kind == "pwrite" else (call.kind, *numbers))
    return found


def as_said(found, wanted):
    """Checks that these are the wanted calls. Reports the first difference, with the calls before it."""
    for at in range(max(len(found), len(wanted))):
        got, due = (row[at] if at < len(row) else "nothing more" for row in (found, wanted))
        if got != due:
            before = " ".join(str(it) for it in found[max(0, at - 3) : at])
            holds(False, f"call {at + 1} is {shown(got)}, not {shown(due)}; before it {shown(before)}")


def shown(call):
    text = repr(call)
    return text if len(text) < 200 else text[:120] + " .. " + text[-40:]


# Replies


class Frames:
    """The frames that calls of a kind take or send, in a record, each at the call with its last byte, with its connection's session:
    the number in the last frame of the kind `begins`."""

    def __init__(self, call, begins):
        self.call, self.begins = call, begins
        self.rest, self.session = {}, {}

    def of(self, call):
        if call.kind != self.call:
            return
        data = self.rest.get(call.file, b"") + call.data
        while len(data) >= 4 and len(data) >= (size := 4 + int.from_bytes(data[:4], "big")):
            frame, data = data[4:size], data[size:]
            if frame[0] == self.begins:
                self.session[call.file] = int.from_bytes(frame[1:9], "big")
            yield self.session.get(call.file), frame
        self.rest[call.file] = data


class Durable:
    """The entries added to a store that it keeps whatever a stop does to the writes since the last sync."""

    def __init__(self, device):
        self.device = bytearray(device)
        self.written = []
        self.entries = {}  # how often each entry is there
        self.spelled = {}  # the entries of records, of the format in use
        self.slot = None
        self.find()
        self.entries.clear()

    def find(self):
        """Moves to the slot that counts. If a checkpoint made it meanwhile, the entries of its first group are known already."""
        slot = store.slots_of(self.device)[0]
        if slot.at == self.slot:
            return self.more()
        self.slot, self.form, self.end = slot.at, slot.format, slot.at + JOURNAL
        self.spelled.clear()
        known = dict(self.entries)
        self.more()
        self.entries = known

    def more(self):
        while self.device[self.end] == 1:
            size = int.from_bytes(self.device[self.end + 1 : self.end + 5], "big")
            for at in range(self.end + 5, self.end + 5 + size, self.form.record):
                entry = self.entry_of(bytes(self.device[at : at + self.form.record]))
                self.entries[entry] = self.entries.get(entry, 0) + 1
            self.end += 5 + size

    def entry_of(self, record):
        """The entry of a record. Many records are the same."""
        entry = self.spelled.get(record)
        if entry is None:
            entry = self.spelled[record] = store.entry_of(record, self.form)
        return entry

    def write(self, at, data):
        self.written.append((at, data))

    def sync(self):
        is_header = any(at % SLOT < IMAGE for at, _ in self.written)
        for at, data in self.written:
            self.device[at : at + len(data)] = data
        self.written.clear()
        self.find() if is_header else self.more()

    def has(self, entry, count=1):
        return self.entries.get(entry, 0) >= count


WITHOUT_ENTRY = ("report", "withdrawn", "refused")


def left_in_time(calls, name, device, asked, kept=()):
    """Checks that each reply about something stored is sent after its entry is synced. Returns how many there are.
    `asked` has the request of each session and number, `kept` the entries of the answers that were in the store before."""
    durable, sent, welcomes, count = Durable(device), Frames("send", 65), {}, 0
    for call in calls:
        if call.file == name and call.kind == "pwrite":
            durable.write(int(call.numbers[0]), call.data)
        elif call.file == name and call.kind == "fdatasync" and not call.error:
            durable.sync()
        for session, frame in sent.of(call):
            reply = kind, *rest = wire.reply_of(frame)
            if kind in WITHOUT_ENTRY:
                continue
            entry, times = (kind, session, *rest), 1
            if kind == "welcome":
                entry = ("attached", *rest)
                times = welcomes[entry] = welcomes.get(entry, 0) + 1
            elif kind == "goodbye":
                entry = ("closed", *rest)
            elif kind == "answer":
                entry = ("finished", session, rest[0], asked[session, rest[0]], rest[1])
            holds(entry in kept or durable.has(entry, times), f"{reply} of session {session} leaves before it is stored")
            count += 1
    same(not any(sent.rest.values()), True, "the last reply is whole")
    return count


# The checks


# The calls that write, sync or name files, or send, and that no record has.
UNRECORDED = set(
    "aio_fsync aio_write copy_file_range creat dprintf fallocate fdopen fopen fputs fwrite io_submit lio_listio mmap msync openat"
    " posix_fallocate preadv pwritev pwritev2 renameat renameat2 sendfile sendmmsg sendmsg sendto splice symlink sync syncfs"
    " sync_file_range tee truncate unlinkat vmsplice writev".split()
)


def sees_all(place):
    """the program uses no calls that change a file or send except those in a record"""
    if not shutil.which("nm"):
        raise Skipped("there is no nm")
    words = ["nm", "-D", "--undefined-only", place.program]
    names = {line.split()[-1].split("@")[0] for line in subprocess.run(words, capture_output=True, check=True, text=True).stdout.splitlines()}
    holds({"pwrite", "fdatasync", "send"} <= names, f"these are among what it calls: {sorted(names)}")
    found = {name.removesuffix("64") for name in names} & UNRECORDED
    same(found, set())
    return f"{len(names)} names"


def recorded(place, device, work, **settings):
    """Serves the store to one client, which makes the requests in turn. Returns the server's calls, and the answers."""
    server = Server(place, store=place.write("s.store", bytes(device)), **settings)
    server.start({"LD_PRELOAD": preload(place, "record.c"), "RECORD": place.path("record")})
    answers = []
    if work:
        with server.attached(7) as conn:
            for number, request in enumerate(work, 1):
                reply = conn.ask(wire.call(number, request))
                same(reply[:2], ("answer", number))
                answers.append(reply[2])
    server.stop()
    return calls_of(place.path("record")), answers


def finished(work, answers):
    return [("finished", 7, number, *row) for number, row in enumerate(zip(work, answers), 1)]


ATTACHED = ("attached", 7, 1)


def state_with(words):
    """A state with an array of `words` words, made by session 9."""
    state = State()
    for entry in (("attached", 9, 1), ("finished", 9, 1, ("create", b"big", words, 1), ("array", 1, words))):
        state.apply(entry)
    return state


def opened(place):
    """opening a store syncs and reads it and writes nothing; a new one is formatted as in the table"""
    for form in (ONE, TWO):
        state = state_with(3)
        device = store.device_of(form, state, [[ATTACHED]], 2, 1)
        calls, _ = recorded(place, device, (), format=False)
        as_said(of_file(calls, "s.store"), opening(1, len(image_of(state, form))))
        os.unlink(place.path("record"))
        os.unlink(place.path("record.bytes"))
    calls, _ = recorded(place, bytes(store.SIZE), ())
    as_said(of_file(calls, "s.store"), compared(reformatting()))
    holds(place.read("s.store") == bytes(store.device_of(TWO)), "a store that is formatted has the bytes of a new one")


MISSING = f" = {errno.ENOENT}"
EXCLUSIVE = os.O_RDWR | os.O_CREAT | os.O_EXCL
LOCK = fcntl.LOCK_EX | fcntl.LOCK_NB
FOLDER_SYNC = ["open . 0 0", "fsync ."]


def in_lines(name, calls):
    """The calls on a file, as lines of a record."""
    return [" ".join(str(it) for it in (kind, name, *(len(it) if isinstance(it, bytes) else it for it in rest))) for kind, *rest in calls]


def with_zeros(calls):
    """The lines of a record, with the writes that fill a file with zeros joined into one."""
    found = []
    for call in calls:
        if call.kind == "write":
            holds(not any(call.data), f"{call}: only zeros fill a file")
            size = len(call.data) + (int(found.pop().split()[2]) if found[-1].startswith(f"write {call.file} ") else 0)
            found.append(f"write {call.file} {size}")
        else:
            found.append(repr(call))
    return found


def known(name):
    """The size and the path of an open file are read from its descriptor. Then the file at its path has to be the one that is open."""
    return [f"fstat {name}", f"readlink {name}", f"stat {name}", f"fstat {name}"]


def new_file(name):
    """A new file is filled with zeros, is readable only by its owner, and is synced with its name."""
    filled = [f"open {name} {EXCLUSIVE} 600", f"flock {name} {LOCK}", f"write {name} {store.SIZE}", f"fsync {name}"]
    return [*filled, *FOLDER_SYNC, *known(name)]


def renamed(old, new):
    return [f"link {old} {new}", *FOLDER_SYNC, f"unlink {old}", *FOLDER_SYNC]


def listening():
    """Once the store is open, the socket is made under a temporary name, and gets its own name when it listens. Then that has to be the same."""
    moved = ["stat s.socket.new", "link s.socket.new s.socket", "stat s.socket.new", "unlink s.socket.new", "stat s.socket"]
    return [f"stat s.socket{MISSING}", f"stat s.socket.new{MISSING}", *moved]


def opened_at(name):
    return [f"open {name} {os.O_RDWR} 0", f"flock {name} {LOCK}", *known(name)]


def made(place):
    """a missing store is made under a temporary name, and gets its own name once it is formatted and synced; each call is as in the table"""
    server = Server(place)
    server.start({"LD_PRELOAD": preload(place, "record.c"), "RECORD": place.path("record")})
    server.stop()
    calls = [call for call in calls_of(place.path("record")) if call.file != "s.toml"]
    wanted = [f"open s.store {os.O_RDWR} 0{MISSING}", f"stat s.store.new{MISSING}", *new_file("s.store.new")]
    wanted += in_lines("s.store.new", compared(FIRST_SYNC + HEADERS + formatting())) + renamed("s.store.new", "s.store")
    wanted += opened_at("s.store") + [f"stat s.store.new{MISSING}"] + in_lines("s.store", opening(0, 24)) + listening()
    as_said(with_zeros(calls), wanted)
    holds(place.read("s.store") == bytes(store.device_of(TWO)), "a store that is made has the bytes of a new one")


def kept(place):
    """an unformatted store that is not empty is copied, and formatted once the copy is synced under its name"""
    device = store.device_of(TWO, state_with(3), [[ATTACHED]])
    device[0] += 1
    calls, _ = recorded(place, device, ())
    calls = [call for call in calls if call.file != "s.toml"]
    wanted = opened_at("s.store") + [f"stat s.store.new{MISSING}"]
    wanted += in_lines("s.store", FIRST_SYNC + HEADERS + [("pread", 0, store.SIZE)])
    wanted += [f"stat s.store.before-format{MISSING}", f"stat s.store.new{MISSING}", *new_file("s.store.new")]
    wanted += in_lines("s.store.new", wrote(0, bytes(device)) + FIRST_SYNC) + renamed("s.store.new", "s.store.before-format")
    wanted += in_lines("s.store", compared(SYNC + HEADERS + formatting())) + listening()
    as_said(with_zeros(calls), wanted)
    holds(place.read("s.store.before-format") == bytes(device), "the copy has all bytes")
    same(store.read_store(place.read("s.store"))[2].looks(), "place 0\n")


def looked(place):
    """a look takes no lock and writes nothing; it reads each gate before what it guards, and the header again at the end"""
    groups = [[ATTACHED], [ATTACHED, ATTACHED]]
    place.write("s.store", bytes(store.device_of(TWO, state_with(3), groups, 2, 1)))
    env = {"LD_PRELOAD": preload(place, "record.c"), "RECORD": place.path("record")}
    status, output, errors = place.run("look", "--store", place.path("s.store"), env=env)
    same((status, output, errors), (0, store.read_store(place.read("s.store"))[2].looks().encode(), b""))
    header = lambda at: [("pread", at, 20), ("pread", at + GATE, 1)]
    area = SLOT + JOURNAL
    first, second = area + 5 + 80, area + 5 + 80 + 5 + 160
    found = [("pread", area, 1), ("pread", area + 1, 4), ("pread", first, 1), ("pread", first + 1, 4), ("pread", second, 1)]
    wanted = FIRST_SYNC + header(0) + header(SLOT) + [("pread", SLOT + IMAGE, AREA)] + found + [("pread", area, AREA)]
    wanted += header(SLOT) + SYNC
    lines = ["stat s.store", f"open s.store {os.O_RDONLY} 0", "fstat s.store", *in_lines("s.store", wanted)]
    as_said([repr(call) for call in calls_of(place.path("record"))], lines)


def too_early(calls, at, record):
    """The record with the reply at that place moved before the second sync of its entry's group."""
    first = next(place for place, call in enumerate(calls) if call.kind == "pwrite" and record in call.data)
    second = [place for place, call in enumerate(calls) if place > first and call.kind == "fdatasync"][1]
    holds(second < at, "a reply leaves behind the second sync of its group")
    return [*calls[:second], calls[at], *calls[second:at], *calls[at + 1 :]]


def is_in_time(calls, device, asked, kept=()):
    try:
        left_in_time(calls, "s.store", device, asked, kept)
    except Wrong:
        return False
    return True


def over_a_checkpoint(place, form, count, generation, is_open, base, work):
    """Serves a store of 20,000 words whose journal, in slot 1, has two groups of so many records: with two more a checkpoint is due,
    which closes the other slot if its gate is open. The calls must be the table's. Returns them, and the entries."""
    calls, answers = recorded(place, base, work, format=False)
    same(answers, [("value", number) for number in range(len(work))])
    entries, now = [ATTACHED, *finished(work, answers)], store.read_store(base)[2]
    for entry in entries[:2]:
        now.apply(entry)
    image, length, used = image_of(now, TWO), len(image_of(state_with(20000), form)), 2 * (5 + count * form.record)
    old, new, pieces = Journal(form, 1, used), Journal(TWO, 0), slices(0, image)
    wanted = opening(1, length) + old.group(entries[0]) + old.group(entries[1]) + beginning(0, generation, image, is_open)
    for entry, piece in zip(entries[2:5], pieces, strict=True):
        wanted += old.group(entry) + piece
    wanted += old.group(entries[5]) + finishing(0, new, entries[2:6]) + sum((new.group(it) for it in entries[6:]), [])
    as_said(of_file(calls, "s.store"), compared(wanted, relied(1, length, used)))
    return calls, entries


def appended(place):
    """each group is four calls; a checkpoint closes the other slot, writes a slice after each group, and ends as in the table"""
    base = store.device_of(TWO, state_with(20000), [[("attached", 9, 1)] * 3276] * 2, 3, 1)
    store.put_slot(base, TWO, State(), [], 2, 0)
    work = [adding(1, 0, 1)] * 8
    calls, entries = over_a_checkpoint(place, TWO, 3276, 4, True, base, work)
    asked = {(7, number): request for number, request in enumerate(work, 1)}
    same(left_in_time(calls, "s.store", base, asked), 9, "replies")
    replies = [at for at, call in enumerate(calls) if call.kind == "send"]
    same(len(replies), len(entries))
    for at, entry in random.sample(list(zip(replies, entries)), 3):
        same(is_in_time(too_early(calls, at, record_of(entry, TWO)), base, asked), False, "a reply that leaves too early is noticed")


def migrated(place):
    """a store of format 1 stays in format 1 until a checkpoint, which writes format 2"""
    base = store.device_of(ONE, state_with(20000), [[("attached", 9, 1)] * 4095] * 2, 2, 1)
    over_a_checkpoint(place, ONE, 4095, 3, False, base, [adding(1, 0, 1)] * 6)


def migrated_by_a_name(place):
    """an entry that has no record in format 1 causes a whole checkpoint before its own group"""
    state = state_with(8000)
    base = store.device_of(ONE, state, [[ATTACHED]], 1, 0)
    work = [("find", b"seventeen_letters"), ("find", b"sixteen_letters_")]
    calls, answers = recorded(place, base, work, format=False)
    same(answers, [("no-array",)] * 2)
    entries = [ATTACHED, *finished(work, answers)]
    now = store.read_store(base)[2]
    now.apply(entries[0])
    image = image_of(now, TWO)
    old, new = Journal(ONE, 0, 5 + 64), Journal(TWO, 1)
    wanted = opening(0, len(image_of(state, ONE))) + old.group(entries[0]) + beginning(1, 2, image, False)
    wanted += sum(slices(1, image), []) + finishing(1, new, [])
    wanted += new.group(entries[1]) + new.group(entries[2])
    same(len(slices(1, image)), 2)
    as_said(of_file(calls, "s.store"), compared(wanted, relied(0, len(image_of(state, ONE)), 5 + 64)))


def asks(server, session, asked):
    """A client that sends windows of requests, and notes its request under each number."""
    with server.attached(session) as conn:
        for first in range(1, 32 * 12, 32):
            numbers = range(first, first + 32)
            asked.update({(session, number): adding(1, number % 3, 1) for number in numbers})
            conn.send(b"".join(wire.call(number, asked[session, number]) for number in numbers))
            same([conn.reply()[:2] for _ in numbers], [("answer", number) for number in numbers])
            same(conn.ask(wire.settle(first + 32)), ("settled", first + 32))
        same(conn.ask(wire.bye()), ("goodbye", session))


@within(120)
def replies_wait(place):
    """each reply to eight clients is sent after the second sync of its group, also during a checkpoint"""
    base = store.device_of(TWO, state_with(30000), [[("attached", 9, 1)] * 3200] * 2)
    server = Server(place, store=place.write("s.store", bytes(base)), format=False)
    server.start({"LD_PRELOAD": preload(place, "record.c"), "RECORD": place.path("record")})
    asked = {}
    for client in [Worker(asks, server, session, asked) for session in range(1, 9)]:
        client.ended(200)
    server.stop()
    calls = calls_of(place.path("record"))
    count = left_in_time(calls, "s.store", base, asked)
    same(count, 8 * (1 + 12 * 33 + 1), "replies")
    device = place.read("s.store")
    same(store.slots_of(device)[0].generation, 2, "a checkpoint was made")
    syncs = sum(call.kind == "fdatasync" for call in calls)
    return f"{count} replies, {syncs} syncs"
