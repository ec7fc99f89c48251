"""Damaged stores, and what `femem look` shows of correct ones."""

import random
import struct

from . import store, wire
from .harness import Server, holds, same
from .model import State
from .store import GATE, IMAGE, JOURNAL, ONE, SLOT, TWO, device_of, put_slot, record_of

ATTACHED = ("attached", 7, 1)
CREATED = ("finished", 7, 1, ("create", b"cells", 2, 0), ("array", 1, 2))
WRITTEN = ("finished", 7, 2, ("access", 19, 1, 0, 42, False), ("done",))
FOUND = ("finished", 7, 3, ("find", b"nothing"), ("no-array",))


def full_state():
    """A state with arrays, sessions and kept answers."""
    state = State()
    for entry in (
        ATTACHED, CREATED, WRITTEN, FOUND, ("attached", 2**64 - 1, 1),
        ("finished", 2**64 - 1, 4, ("create", b"x_9", 3, 1), ("array", 2, 3)),
        ("finished", 2**64 - 1, 2, ("access", 23, 2, 2, 2**64 - 1, False), ("value", 0)),
        ("finished", 2**64 - 1, 9, ("remove", 5), ("no-array",)), ("settled", 2**64 - 1, 3),
        ("finished", 7, 4, ("create", b"Bad name", 1, 0), ("bad-name",)),
    ):
        state.apply(entry)
    return state


def verdict(device):
    """What `femem look` must print for a device: status, output, errors."""
    try:
        return 0, store.read_store(device)[2].looks().encode(), b""
    except store.Unformatted:
        return 3, b"", b"femem: store unformatted\n"
    except store.Damaged as why:
        return 3, b"", f"femem: store damaged at {why.offset}\n".encode()


def look(place, device):
    return place.run("look", "--store", place.write("store", bytes(device)))


def changed(device, at, piece):
    device = bytearray(device)
    device[at : at + len(piece)] = piece
    return device


def damages():
    """Devices with one change each, and the reported offset, or None if the device counts as unformatted."""
    first = device_of(ONE)
    open_gate = lambda *entries: device_of(ONE, groups=[entries])
    cells = device_of(ONE, groups=[[ATTACHED], [CREATED]])
    length = lambda number: struct.pack(">I", number)
    generation = lambda number: struct.pack(">Q", number)
    yield "generation 0", changed(first, 8, generation(0)), 8
    yield "a generation above the image's", changed(first, 8, generation(2)), 8
    yield "an image of 23 bytes", changed(first, 16, length(23)), 16
    yield "an image above the greatest", changed(first, 16, length(740441)), 16
    yield "next array id 0", changed(first, IMAGE + 8, generation(0)), 4104
    yield "65 arrays", changed(first, IMAGE + 16, length(65)), 4112
    yield "an array that is not there", changed(first, IMAGE + 16, length(1)), 4120
    yield "a byte behind the image", changed(first, 16, length(25)), 4120
    yield "a group of 65 bytes", changed(first, JOURNAL, b"\1" + length(65)), 1052672
    yield "a group of 0 bytes", changed(first, JOURNAL, b"\1" + length(0)), 1052672
    yield "a group that does not fit", changed(first, JOURNAL, b"\1" + length(64 * 16384)), 1052672
    yield "a record of kind 5", changed(open_gate(ATTACHED), JOURNAL + 5, b"\5"), 1052677
    yield "a record of kind 0", changed(open_gate(ATTACHED), JOURNAL + 5, b"\0"), 1052677
    yield "an unused byte", changed(open_gate(ATTACHED), JOURNAL + 5 + 7, b"\1"), 1052677
    yield "an entry that is not legal", open_gate(ATTACHED, ("closed", 8)), 1052741
    yield "a number that is finished twice", open_gate(ATTACHED, CREATED, CREATED), 1052677 + 128
    yield "an answer that the table does not give", open_gate(ATTACHED, ("finished", 7, 1, ("find", b"a"), ("done",))), 1052677 + 64
    yield "a request that would wait", open_gate(ATTACHED, CREATED, ("finished", 7, 2, ("access", 16, 1, 0, 0, False), ("value", 0))), 1052677 + 128
    yield "an open gate before length 0", changed(cells, 1052741, b"\1" + length(0)), 1052741
    yield "no open header gate", changed(first, GATE, b"\2"), None
    yield "no magic", changed(first, 0, b"FEMEMST3"), None
    second = device_of(TWO)
    yield "generation 3 in format 2", changed(second, 8, generation(3)), 8
    yield "an image above format 2's greatest", changed(second, 16, length(774233)), 16
    yield "a payload that is no whole records", changed(second, JOURNAL, b"\1" + length(64)), 1052672
    yield "a flag of 2", changed(device_of(TWO, groups=[[ATTACHED, CREATED, WRITTEN]]), JOURNAL + 5 + 165, b"\2"), 1052677 + 160
    yield "damage in slot 1, which counts", slot_one(), SLOT + 16
    yield "a generation before a group, in order", changed(changed(first, 8, generation(9)), JOURNAL, b"\1" + length(65)), 1052672
    yield "an image before its generation, in order", changed(changed(first, 8, generation(9)), IMAGE + 16, length(65)), 4112
    yield "a generation before a record, in order", changed(changed(open_gate(ATTACHED), 8, generation(9)), JOURNAL + 5, b"\5"), 8


def slot_one():
    """Slot 0 is correct; slot 1 counts, and its image has an impossible length."""
    device = device_of(TWO)
    put_slot(device, TWO, State(), [], 2, 1)
    return changed(device, SLOT + 16, struct.pack(">I", 23))


def damaged(place):
    """each kind of damage is reported with its offset and status 3 by `look` and `serve`, which leave the store as it was"""
    count = 0
    for name, device, offset in damages():
        count += 1
        line = "store unformatted" if offset is None else f"store damaged at {offset}"
        wanted = (3, b"", f"femem: {line}\n".encode())
        same(verdict(device), wanted, f"the reader of this check, {name}")
        same(look(place, device), wanted, name)
        if offset is not None:
            server = Server(place, store=place.path("store"), format=True).start(waits=False)
            same(server.ended(), (3, "", f"femem: {line}\n"), f"serve, {name}")
            holds(place.read("store") == bytes(device), f"serve wrote into a damaged store: {name}")
    return f"{count} stores"


def right_stores(place):
    """what is not damage: garbage after a closed gate, an unfinished slot, an older slot, any value of a closed gate"""
    groups = [[ATTACHED], [CREATED, WRITTEN], [FOUND]]
    for form in (ONE, TWO):
        device = device_of(form, groups=groups)
        same(store.read_store(device)[1], groups)
        records = record_of(ATTACHED, form)
        gates = [JOURNAL, JOURNAL + 5 + len(records), JOURNAL + 10 + 3 * len(records)]
        for at in gates:
            for byte in (b"\0", b"\2", b"\x37", b"\xff"):
                same(look(place, changed(device, at, byte)), verdict(changed(device, at, byte)))
        state = full_state()
        put_slot(device, form, state, [[("attached", 9, 1)]], 5, 1)
        same(look(place, device), verdict(device))
        holds(b"place 11\n" in verdict(device)[1], "slot 1 counts")
        # the slot of the greater generation is unfinished
        same(look(place, changed(device, SLOT + GATE, b"\0")), (0, b"place 4\narray 1 cells 2\nsession 7 floor 1 kept 3\n", b""))
        same(look(place, changed(device, SLOT + 20, b"rubbish" * 9)), verdict(device))
        # with equal generations slot 0 counts
        both = changed(device, SLOT + 8, struct.pack(">Q", 1))
        same(look(place, both)[1], b"place 4\narray 1 cells 2\nsession 7 floor 1 kept 3\n")


def open_by_serve(place):
    """`serve` opens stores of both formats, written by this check, and continues them"""
    for form in (ONE, TWO):
        device = device_of(form, full_state(), [[("attached", 7, 1)]], 4)
        server = Server(place, f"f{form.number}", store=place.write(f"store{form.number}", bytes(device))).start()
        with server.attached(7) as conn:
            same(conn.ask(wire.call(2, WRITTEN[3])), ("answer", 2, ("done",)), "a kept answer")
            same(conn.ask(wire.call(5, ("access", 16, 1, 0, 0, False))), ("answer", 5, ("value", 42)))
            same(conn.ask(wire.call(6, ("create", b"a_name_of_more_than_16", 1, 1))), ("answer", 6, ("array", 3, 1)))
            same(conn.ask(wire.call(7, ("access", 16, 1, 0, 0, True))), ("answer", 7, ("not-now",)))
        server.stop()
        left = store.read_store(place.read(f"store{form.number}"))[2]
        same(server.looks(), left.looks())
        same(left.place, 10 + 1 + 1 + 3)
        same(left.sessions[7].kept[6][0][1], b"a_name_of_more_than_16")
        holds(store.slots_of(place.read(f"store{form.number}"))[0].format is TWO, "a long name moved the store to format 2")


def random_changes(place):
    """for correct stores with bytes changed at random, `look` reports what this check's own reader reports"""
    count = 150
    kinds = {}
    state = full_state()
    bases = []
    for form in (ONE, TWO):
        groups = [[("attached", 7, 1)], [("finished", 7, 5, ("access", 16, 1, 0, 0, False), ("value", 42)), ("settled", 7, 6)], [("closed", 7)]]
        bases.append(device_of(form, state, groups, 3))
    for _ in range(count):
        base = random.choice(bases)
        device = bytearray(base)
        for _ in range(random.choice((1, 1, 1, 2, 3))):
            area, size = random.choice(((0, 20), (IMAGE, 24), (IMAGE, 900), (IMAGE, 900), (JOURNAL, 340), (JOURNAL, 340)))
            at = area + random.randrange(size)
            device[at] = random.choice((0, 1, 2, 255, device[at] ^ 1, device[at] ^ 128, random.randrange(256)))
        wanted = verdict(device)
        kind = wanted[2].split(b" at ")[0] or b"shown"
        kinds[kind] = kinds.get(kind, 0) + 1
        got = look(place, device)
        if got != wanted:
            changes = [(at, device[at]) for at in range(store.SIZE) if device[at] != base[at]]
            holds(False, f"format {base[7:8].decode()}, bytes {changes}: {got}, not {wanted}")
    return ", ".join(f"{number} {kind.decode().replace('femem: store ', '').strip()}" for kind, number in sorted(kinds.items()))
