"""The cases of test_laboratory: its script, with bytes made from docs/formats.md (store.py, model.py, wire.py).

`python3 -m check.cases`, in scripts/, writes the crate's files `stdin` and `stdout`. The check compares them with the crate's.
"""

import itertools
import struct
from pathlib import Path

from . import wire
from .harness import same
from .model import Array, Session, State
from .store import ANSWER_CODES, GATE, IMAGE, JOURNAL, ONE, SIZE, SLOT, TWO, Damaged, Unformatted, device_of, image_of, read_store, record_of

FOLDER = Path(__file__).parents[2] / "crates/test_laboratory"
TORN = ("kept", "lost", "01", "37")
LENGTHS = (1, 9, 1000, 65535, 65536)
lines = []


def say(*more):
    for text in more:
        lines.extend(line.strip() for line in text.splitlines() if line.strip())


def case(name):
    say(f"case {name}")


def calls(level, *more):
    say(f"calls {level}", *(f"- {call}" for call in more))


def ran(level, made, *told, store=None):
    """Calls, on a new store if its format is given, that end well, and what holds then."""
    if store:
        say(f"store {store}")
    calls(level, *made)
    say("run ok", *told)


# Entries and states


def attached(session=7):
    return ("attached", session, 1)


def created(name, number, id, length, tag=0, session=7):
    return ("finished", session, number, ("create", name, length, tag), ("array", id, length))


def accessed(number, index, op, operand, answer, session=7):
    return ("finished", session, number, ("access", op, 1, index, operand, 0), answer)


def after(*entries):
    state = State()
    for entry in entries:
        state.apply(entry)
    return state


def record(entry, form=TWO):
    return record_of(entry, form).hex()


CELLS = created(b"cells", 2, 1, 2)
LONG = created(b"seventeen_letters", 3, 2, 1)
SMALL = (attached(), CELLS)
ONES = ("group $attached1", "group $created1")


def spell_words(words):
    """An array's words, with each run of equal words as one piece."""
    runs = ((struct.pack(">BQ", tag, value).hex(), sum(1 for _ in run)) for (value, tag), run in itertools.groupby(words))
    return [f"{word}*{count}" if count > 1 else word for word, count in runs]


def spell(state, form=TWO):
    """The image of a state, in the script's notation."""
    pieces = [struct.pack(">QQII", state.place, state.next_id, len(state.arrays), len(state.sessions)).hex()]
    for id, array in sorted(state.arrays.items()):
        pieces.append((struct.pack(">QB", id, len(array.name)) + array.name.ljust(form.name, b"\0") + struct.pack(">I", len(array.words))).hex())
        pieces += spell_words(array.words)
    for session, it in sorted(state.sessions.items()):
        pieces.append(struct.pack(">QQI", session, it.floor, len(it.kept)).hex())
        for number, (request, answer, place) in sorted(it.kept.items()):
            pieces.append((struct.pack(">Q", place) + record_of(("finished", session, number, request, answer), form)).hex())
    return " ".join(pieces)


def names():
    say(
        f"let attached {record(attached())}", f"let created {record(CELLS)}", f"let long {record(LONG)}",
        f"let closed7 {record(('closed', 7))}", f"let closed8 {record(('closed', 8))}",
        f"let attached1 {record(attached(), ONE)}", f"let created1 {record(CELLS, ONE)}",
        f"let closed1 {record(('closed', 8), ONE)}", f"let empty {spell(State())}", f"let last_line {b'all-wait yes'.hex()}0a",
    )


# Disks


def stops_as_the_table_says():
    case("stops_as_the_table_says")
    now, synced, written = bytearray(16), bytearray(16), set()
    say("disk 16")
    steps = [None, (0, "01020304"), (2, "050607"), None, (4, "08090a0b0c"), (5, "0d"), (3, "0e0f"), (15, "10"), (16, ""), None, (0, "11" * 16)]
    for step in steps:
        if step is None:
            synced, written = bytearray(now), set()
            calls("disk", "sync")
            say("run ok")
        else:
            at, digits = step
            data = bytes.fromhex(digits)
            now[at : at + len(data)] = data
            written |= set(range(at, at + len(data)))
            say(f"write {at} {digits}")
        for torn in TORN:
            torn_bytes = {"kept": now, "lost": synced}.get(torn) or bytes.fromhex(torn) * 16
            say(f"left {torn} {bytes(torn_bytes[k] if k in written else now[k] for k in range(16)).hex()}")


def disks_that_fail():
    case("burns_at_each_call")
    calls("disk", "write 0 01", "sync", "write 1 02", "sync")
    rows = [(0, "37", "0000"), (1, "kept", "0100"), (1, "lost", "0000"), (1, "37", "3700"), (2, "lost", "0100"), (3, "kept", "0102")]
    for passed, torn, left in rows + [(3, "lost", "0100"), (3, "37", "0137"), (4, "lost", "0102")]:
        say("disk 8", f"burn {passed} " + ("ok" if passed == 4 else "Device"), "told " + "y" * passed + "x" * (4 - passed), f"left {torn} {left}")
    case("fails_once_and_goes_on")
    for failing, bytes_then in [(0, "0002"), (1, "0102"), (2, "0100"), (3, "0102"), (9, "0102")]:
        told = "".join("x" if k == failing else "y" for k in range(4))
        say("disk 8", f"once {failing} " + ("ok" if failing == 9 else "Device"), f"told {told}", f"reads 0 {bytes_then}")


# Journals


def held(generation, image, *groups):
    return " ".join([f"8:{generation}", *(f"8:{len(bytes.fromhex(row))} {row}" for row in (image, *groups))])


IMAGE_30, LONG_RECORD, LONG_RECORDS = "05" * 30, "07" * 80, "09" * 160
EMPTY = image_of(State(), TWO).hex()


def bytes_of_stores():
    case("bytes_of_new_store")
    for form in (ONE, TWO):
        say(f"store {form.number}", f"reads 0 {form.magic.hex()} 8:1 4:24", "reads 4095 01", "reads 4096 $empty", "reads 1052672 00", "reads 2105343 00")
    case("bytes_of_one_record")
    for form, digit in ((ONE, "07" * 64), (TWO, "07" * 80)):
        size = len(digit) // 2
        calls("journal", f"group {digit}")
        say(f"store {form.number}", "run ok", "counts 4 2 3", f"reads 1052672 01 4:{size} {digit} 00", f"image {held(1, EMPTY, digit)}")


def journal_rows():
    new, one = held(1, EMPTY), held(1, EMPTY, LONG_RECORD)
    two, caught = held(1, EMPTY, LONG_RECORD, LONG_RECORDS), held(2, IMAGE_30, LONG_RECORDS)
    nothing = held(3, EMPTY)
    return [
        ("append", f"group {LONG_RECORD}", 5, 4, new, one), ("slot_close", "close 30", 9, 2, one, one),
        ("slot_write", f"slice {IMAGE_30[:20]}", 11, 1, one, one), ("append", f"group {LONG_RECORDS}", 12, 4, one, two),
        ("slot_write", f"slice {IMAGE_30[20:]}", 16, 1, two, two), ("slot_finish", f"open {LONG_RECORDS}", 17, 4, two, caught),
        ("slot_close", "close 24", 21, 4, caught, caught), ("slot_write", f"slice {EMPTY}", 25, 1, caught, caught),
        ("slot_finish", "open", 26, 4, caught, nothing),
    ]


def around_gate(passed, before, behind):
    """Stops up to the sync of a gate, while that is torn, and behind it."""
    say(f"stop {passed} {passed + 2} any {before}")
    say(*(f"stop {passed + 3} {passed + 3} {torn} {behind if torn in ('kept', '01') else before}" for torn in TORN))
    say(f"stop {passed + 4} {passed + 4} any {behind}")


def stops_in_journals():
    rows = journal_rows()
    for name in ("append", "slot_close", "slot_write", "slot_finish"):
        case(f"stop_in_{name}")
        say("store 2")
        calls("journal", *(row[1] for row in rows))
        for _, _, passed, count, before, behind in (row for row in rows if row[0] == name):
            if before == behind:
                say(f"stop {passed} {passed + count} any {before}")
                continue
            around_gate(passed, before, behind)
    case("stop_in_append_of_format_1")
    one, two = record(attached(), ONE), record(CELLS, ONE)
    say("store 1")
    calls("journal", *ONES)
    for passed, before, behind in ((5, [], [one]), (9, [one], [one, two])):
        around_gate(passed, held(1, EMPTY, *before), held(1, EMPTY, *behind))


def torn_gates():
    case("torn_gates")
    header = (ONE.magic + struct.pack(">QI", 2, 24)).hex()
    ran("journal", ONES, "calls journal", "write 1052741 37", f"image {held(1, EMPTY, record(attached(), ONE))}", store=1)
    say("calls keeper", f"image {spell(after(attached()))}", "write 1052741 01")
    say("holds place 2 used 138 format One", f"image {spell(after(*SMALL))}")
    say("write 1052742 00000000", "holds Damaged { offset: 1052741 }", f"write 1052742 4:{ONE.record}", "holds place 2 used 138 format One")
    later = State()
    later.place = 5
    say(f"write 2101248 {header}", f"write 2105344 {spell(later)}", "write 2105343 01", "holds place 5 used 0 format One", f"image {spell(later)}")
    say("calls journal", f"image {held(2, image_of(later, ONE).hex())}")


# Keepers


def small():
    ran("keeper", ["append $attached $created"], store=2)


def full():
    small()
    ran("keeper", ["append $attached*4000"] * 3)


MOST = created(b"cells", 2, 1, 65536)


def most():
    """A store with the largest image of one array: ten slices."""
    ran("keeper", [f"append $attached {record(MOST)}"], store=2)


def old():
    """A store of format 1 with a kept answer in its image."""
    image = image_of(after(*SMALL), ONE)
    say("store 1", f"write 16 4:{len(image)}", f"write 4096 {image.hex()}")


# Nine slices, with a group after every third of them, and the tenth.
SLICES = [call for slice in range(1, 10) for call in ["step"] + (["append $attached"] if slice % 3 == 0 else [])] + ["step"]

# A store, calls on it, and how many device calls they make: an opening 5, a batch 4, the beginning of a checkpoint 2 (4 if
# the other slot is valid), a slice 1, and the rest of a checkpoint 4 (docs/store.md).
SWEEPS = [
    (small, 5 + 4 + 2 + 4 + 1 + 4 + 4 + 4 + 4 + 5, ["append $attached", "begin", "append $attached", "step", "append $attached*2", "finish", "append $attached", "begin", "finish"]),
    (full, 5 + 2 + 5 + 4, ["begin", "append $attached*4000"]),
    (full, 5 + 2 + 5 + 4, ["append $attached*4000"]),
    (small, 5 + 2 + 4 * 3 + 5 + 4 + 5 + 4, ["begin"] + ["append $attached*4000"] * 4),
    (old, 5 + 2 + 5 + 4, ["append $long"]),
    (old, 5 + 2 + 5 + 4, ["begin", "append $long"]),
    (most, 5 + 2 + 10 + 3 * 4 + 4, ["begin", *SLICES, "finish"]),
    (old, 5 + 4 + 2 + 4 + 1 + 4 + 4 + 4, ["append $attached", "begin", "append $attached*2", "step", "append $attached", "finish", "append $long"]),
]


def sweeps():
    for word, name in (("fuse", "fuse_each"), ("fail", "fail_once_each")):
        case(name)
        for store, count, made in SWEEPS:
            store()
            start = (attached(), MOST) if store is most else (*SMALL, *([attached()] * 12000 if store is full else []))
            say("calls keeper", f"image {spell(after(*start))}")
            calls("keeper", *made)
            say(f"{word} {count}")
    case("fuse_twice")
    small()
    calls("keeper", "begin", "append $attached", "finish", "append $attached")
    say("twice 20")
    case("formats_again")
    small()
    # slot 0 is no store any more; an opening that finds that 3, a format 9 (docs/store.md)
    say("write 0 00", "calls keeper", "formats 12")


def device_calls():
    case("device_calls")
    small()
    rows = [
        ("step", 0, 0, 0), ("finish", 0, 0, 0), ("append $attached", 0, 2, 2), ("begin", 1, 1, 0), ("begin", 0, 0, 0),
        ("append $attached*3", 0, 2, 2), ("step", 0, 1, 0), ("step", 0, 0, 0), ("finish", 0, 2, 2), ("finish", 0, 0, 0),
        ("begin", 1, 2, 1), ("finish", 0, 3, 2), ("begin", 0, 0, 0), ("append $long", 0, 2, 2),
    ]
    counts = [4, 0, 1]
    say("calls keeper", "try ok", "counts 4 0 1")
    for call, *more in rows:
        counts = [was + one for was, one in zip(counts, more)]
        say(f"- {call}", "try ok", "counts {} {} {}".format(*counts))
    say("told nnyynynnynyyny")
    say("- append", "try Mismatch { place: 7 }", "counts {} {} {}".format(*counts))
    say(f"disk {SIZE}", "calls keeper", "try Unformatted", "counts 2 0 1")


def batches():
    case("mismatch")
    say("store 2")
    for batch, place in (("", 0), ("$closed7", 0), ("$attached $closed8", 1)):
        calls("keeper", f"append {batch}".strip())
        say(f"run Mismatch {{ place: {place} }}", f"image {spell(State())}")
    case("batch_with_a_creation")
    ran("keeper", ["append $attached $created"], f"image {spell(after(*SMALL))}")
    case("group_is_replayed")
    closed = spell(after(attached(), ("closed", 7)))
    ran("keeper", ["append $attached $closed7"], "holds place 2 used 165 format Two", f"image {closed}", store=2)
    case("example_record")
    entry = accessed(2, 0, 19, 42, ("done",))
    start = (attached(), created(b"cells", 1, 1, 2), entry)
    for form in (ONE, TWO):
        made = ["append " + " ".join(record(one) for one in start[:2]), f"append {record(entry)} {record(('closed', 7))}"]
        group = f"reads {JOURNAL + 5 + 2 * form.record} 01 4:{2 * form.record} {record(entry, form)}{record(('closed', 7), form)}"
        ran("keeper", made, group, f"image {spell(after(*start, ('closed', 7)))}", store=form.number)


def checkpoints():
    case("largest_checkpoint")
    most()
    made = ["begin", "begin", *SLICES, "finish", "finish"]
    ran("keeper", made, "told yn" + "yyyy" * 3 + "nyn", "holds place 5 used 245 format Two")
    say("reads 2101256 8:2", "reads 2101264 000900b1", "reads 3153920 01 4:240", "reads 3154165 00", f"image {spell(after(attached(), MOST, *[attached()] * 3))}")
    case("whole_checkpoint_for_a_batch")
    many = "append $attached*4000"
    ran("keeper", [many] * 3, "holds place 12000 used 960015 format Two", store=2)
    ran("keeper", [many], "holds place 16000 used 320005 format Two")
    case("finished_for_a_batch")
    ran("keeper", [many, many, "begin", many, many, "finish"], "told yyyyyn", "holds place 16000 used 640010 format Two", store=2)


def damaged_stores():
    case("damaged_stores")
    rows = [
        (["8 8:0"], 8), (["8 8:2"], 8), (["16 4:23"], 16), (["4104 8:0"], 4104), (["4112 4:65"], 4112), (["4112 4:1"], 4120),
        (["16 4:25"], 4120), (["1052672 01 4:65"], 1052672), (["1052672 01 4:64 05", "1052741 00"], 1052677),
        (["1052672 01 4:128", "1052677 $attached1", "1052741 $closed1", "1052805 00"], 1052741),
    ]
    for changes, offset in rows:
        say("store 1", *(f"write {change}" for change in changes), f"holds Damaged {{ offset: {offset} }}")
    say("store 1", "write 4095 02", "holds Unformatted")
    case("bad_second_record")
    say("store 2", "write 1052672 01 4:160 $attached $closed8 00", f"holds Damaged {{ offset: {JOURNAL + 5 + 80} }}")


def migration():
    case("old_format_opens")
    state = spell(after(*SMALL))
    ran("journal", ONES, "holds place 2 used 138 format One", "calls keeper", f"image {state}", store=1)
    calls("keeper", "begin", "finish")
    say("fuse 12", f"stop 0 12 any {state}", "run ok", "told yy", "holds place 2 used 0 format Two", f"image {state}")
    case("long_name_migrates")
    ran("journal", ONES, store=1)
    ran("keeper", ["append $long"], "holds place 3 used 85 format Two", f"image {spell(after(*SMALL, LONG))}")
    case("migration_by_append")
    image = image_of(after(attached()), ONE)
    say("store 1", f"write 16 4:{len(image)}", f"write 4096 {image.hex()}")
    many = ["append $attached*3000"] * 4
    calls("keeper", "begin", *many)
    say("try ok", "calls keeper", "holds place 1 used 0 format One")
    ran("keeper", ["begin", *many, "append $attached*1108"], "holds place 13109 used 88645 format Two")
    say("reads 8 8:3", "reads 2101256 8:2", f"reads 3153920 01 4:{12000 * 80}")
    case("room_in_migration")
    say("store 1", f"write 16 4:{len(image)}", f"write 4096 {image.hex()}")
    # After the 12,000 records there is room for 88,565 bytes: 1,107 records fit, and 1,108 do not.
    ran("keeper", ["begin", *many, "finish"], "told yyyyyy", "holds place 12001 used 960005 format Two")
    calls("keeper", "append $attached*1108")
    say("try ok", "counts 5 7 6")
    held_then = ("holds place 13108 used 1048570 format Two", "reads 8 8:1", "reads 2101256 8:2")
    ran("keeper", ["append $attached*1107"], "counts 4 2 3", *held_then)


def told_of(device, start):
    """The result of opening a store with one changed byte."""
    try:
        state = read_store(device)[-1]
    except Unformatted:
        return "Unformatted"
    except Damaged as damage:
        return f"Damaged {{ offset: {damage.offset} }}"
    return "same" if state == start else f"other {from_start(image_of(state, TWO), image_of(start, TWO))}"


def from_start(image, start):
    """An image in the script's notation: only the differences, if it is as long as the starting image."""
    if len(image) != len(start):
        return image.hex()
    pieces, k = [], 0
    for at in (at for at in range(len(start)) if image[at] != start[at]):
        pieces += ([f"$start:{k}:{at}"] if at > k else []) + [f"{image[at]:02x}"]
        k = at + 1
    return " ".join(pieces + ([f"$start:{k}:{len(start)}"] if k < len(start) else []))


def lies():
    case("lies")
    begun = after(*SMALL)
    groups = [(attached(),), (LONG,)]
    device = device_of(TWO, begun, groups)
    start = after(*SMALL, attached(), LONG)
    image = image_of(begun, TWO)
    area = device[JOURNAL : JOURNAL + 170].hex()
    say("store 2", f"write 16 4:{len(image)}", f"write 4096 {image.hex()}")
    then = ("calls keeper", f"let start {spell(start)}", "image $start", f"reads 1052672 {area}")
    ran("keeper", ["append $attached", "append $long"], *then)
    calls("keeper", "append $attached", "begin", "step", "append $attached", "finish")
    for change in (0x01, 0x80, 0xFF):
        rows = []
        for first, count in ((0, 20), (GATE, 1), (IMAGE, len(image)), (JOURNAL, 170)):
            for at in range(first, first + count):
                device[at] ^= change
                told = told_of(device, start)
                device[at] ^= change
                if rows and rows[-1][2] == told and rows[-1][0] + rows[-1][1] == at:
                    rows[-1][1] += 1
                else:
                    rows.append([at, 1, told])
        say(*(f"lie {at} {count} {change:02x} {told}" for at, count, told in rows))
    case("bytes_of_no_field")
    say(f"disk {SIZE}", f"write 0 ff*{SIZE}", f"write 0 {device[:20].hex()}", "write 4095 01", f"write 4096 {image.hex()}")
    say(f"write 1052672 {area}", "calls keeper", f"image {spell(start)}")


def arrays_of_each_length():
    case("arrays_of_each_length")
    for length in LENGTHS:
        entries = [attached(), created(b"cells", 1, 1, length), accessed(2, length - 1, 19, 42, ("done",))]
        made = ["append " + " ".join(record(one) for one in entries[:2]), "append " + record(entries[2])]
        ran("keeper", made, f"let full {spell(after(*entries))}", "image $full", store=2)
        ran("keeper", ["begin", "finish"], "told yy", "holds place 3 used 0 format Two", "image $full")


def two_letters(k):
    return bytes((97 + k // 8 % 16, 97 + k % 8))


def full_directory():
    case("full_directory")
    entries = []
    for session in range(64):
        entries += [attached(session), created(two_letters(session), 1, session + 1, 1024, 1, session)]
    made = ("append " + " ".join(record(one) for one in entries[k : k + 2]) for k in range(0, 128, 2))
    ran("keeper", made, f"let full {spell(after(*entries))}", "image $full", store=2)
    ran("keeper", ["begin", "finish"], "told yy", "image $full")
    calls("keeper", "append " + record(attached(64)))
    say("run Mismatch { place: 128 }")
    taken = ("finished", 0, 2, ("create", two_letters(0), 1024, 1), ("name-taken",))
    ran("keeper", ["append " + record(taken)], f"image {spell(after(*entries, taken))}")


# Images


# A byte of the image, its new value, and the offset of the resulting fault.
FAULTS = [
    # place, next id, counts
    (0, 128, 0), (15, 0, 8), (15, 11, 8), (15, 2, 71), (19, 65, 16), (23, 65, 20),
    # ids: 0, not below the next one, out of order
    (31, 0, 24), (78, 3, 71), (78, 1, 71), (31, 2, 71),
    # names: length 0, length above 16, a zero or a capital in it, a letter after it, one that is taken
    (32, 0, 32), (32, 17, 32), (32, 6, 33), (33, 67, 33), (48, 97, 33), (80, 99, 79),
    # lengths and tags
    (52, 0, 49), (50, 1, 49), (53, 2, 53), (62, 255, 62),
    # sessions out of order, floors, the count of kept answers
    (280, 7, 273), (280, 6, 273), (124, 0, 117), (117, 128, 117), (128, 33, 125),
    # kept places and records
    (136, 9, 129), (137, 3, 137), (138, 24, 137), (139, 0, 137), (139, 12, 137), (140, 1, 137), (142, 1, 137), (144, 1, 137),
    (152, 8, 137), (160, 0, 137), (160, 33, 137), (160, 3, 209), (184, 1, 137), (200, 1, 137), (212, 4, 209),
]


def two_sessions(name, kept):
    """A state with two arrays and two sessions; session 7 has these answers."""
    state = State()
    state.place, state.next_id = 9, 3
    state.arrays = {1: Array(name, [(42, 1), (7, 0)]), 2: Array(b"bells", [(0, 0)])}
    state.sessions = {7: Session(1), 8: Session(5)}
    state.sessions[7].kept = kept
    return state


def images():
    case("empty_image")
    say("again 1 $empty", "again 2 $empty")
    case("image_both_ways")
    kept = {2: (("access", 19, 1, 0, 42, 0), ("done",), 3), 3: (("create", b"bells", 1, 1), ("array", 2, 1), 4)}
    say(f"let image {spell(two_sessions(b'cells', kept), ONE)}", "again 1 $image")
    case("kept_answers_both_ways")
    kept = {
        1: (("create", b"a_name_of_17bytes", 2, 1), ("array", 1, 2), 3), 2: (("find", b"wells"), ("no-array",), 4),
        3: (("remove", 3), ("done",), 5), 5: (("access", 16, 1, 1, 0, 1), ("not-now",), 6),
        32: (("access", 23, 1, 0, 2, 0), ("value", 40), 8),
    }
    say(f"again 2 {spell(two_sessions(b'a_name_of_17bytes', kept))}")
    case("damaged_images")
    for at, byte, offset in FAULTS:
        say(f"fault 1 {offset} $image:0:{at} {byte:02x} $image:{at + 1}:293")
    # one array of 65,536 words besides the other's two
    say("fault 1 96 $image:0:97 01 $image:98:99 00 $image:100:293")
    case("cut_images")
    for length in range(293):
        say(f"fault 1 {length} $image:0:{length}")
    say("fault 1 293 $image 00")


# Desks: frames of clients, and of the server


def welcome(session):
    return struct.pack(">IBQQ", 17, 65, session, 1).hex()


def answered(number, answer):
    value, length = (*answer[1:], 0, 0)[:2]
    return struct.pack(">IBQBQI", 22, 66, number, ANSWER_CODES[answer[0]], value, length).hex()


def refused(number, refusal):
    return struct.pack(">IBQB", 10, 70, number, refusal).hex()


def create(number, length, tag=0):
    return wire.call(number, ("create", b"cells", length, tag)).hex()


def access(number, index, op, operand=0):
    return wire.call(number, ("access", op, 1, index, operand, 0)).hex()


def attach(session):
    return wire.attach(session).hex()


READFE, READFF, READXX, WRITEEF, PURGE, FETCH_ADD = 16, 17, 18, 19, 22, 23
DONE, NO_ARRAY, BAD_INDEX = ("done",), ("no-array",), ("bad-index",)

# What connections send, the replies to each, and how many entries each group has.
FIRST = (
    [(1, attach(7)), (1, create(1, 2)), (1, access(2, 0, WRITEEF, 42)), (1, access(3, 0, READFE)), (1, access(4, 0, READXX))],
    {1: [welcome(7), answered(1, ("array", 1, 2)), answered(2, DONE), answered(3, ("value", 42)), answered(4, ("value", 42))]},
    [1, 1, 1, 1, 1],
)
COME = [(1, attach(7)), (1, create(1, 2)), (2, attach(8)), (3, attach(9)), (4, attach(10))]
BROADCAST = (
    [*COME, *((conn, access(1, 1, READFF)) for conn in (2, 3, 4)), (1, access(2, 1, WRITEEF, 9))],
    {1: [welcome(7), answered(1, ("array", 1, 2)), answered(2, DONE)]}
    | {conn: [welcome(conn + 6), answered(1, ("value", 9))] for conn in (2, 3, 4)},
    [1, 1, 1, 1, 1, 4],
)
REMOVAL = (
    [*COME, (2, access(1, 0, READFF)), (3, access(1, 1, READFE)), (4, access(1, 1, READFF))]
    + [(1, wire.call(2, ("remove", 1)).hex()), (1, create(3, 1, 1))],
    {1: [welcome(7), answered(1, ("array", 1, 2)), answered(2, DONE), answered(3, ("array", 2, 1))]}
    | {conn: [welcome(conn + 6), answered(1, NO_ARRAY)] for conn in (2, 3, 4)},
    [1, 1, 1, 1, 1, 4, 1],
)
# A connection in use is not connected again, so a partial frame goes on. Nothing is read after a bad frame.
# If the connection's number comes again, its replies are added to the earlier ones.
BAD_FRAME = (
    [(1, "00000009"), (1, "010000000000000007"), (1, "00000000" + attach(7)), (1, attach(7))], {1: [welcome(7), welcome(7)]},
    [1, 1],
)
PATHS = (("first_path", FIRST), ("broadcast", BROADCAST), ("removal", REMOVAL))


def check_written(told, groups):
    """Writes the expected replies of every connection, and how many entries each group has."""
    if not groups or not told or not all(told.values()):
        raise ValueError("a run that tells nothing shows nothing")
    for conn in range(6):
        say(f"written {conn} {' '.join(told.get(conn, ()))}".strip())
    say("groups " + " ".join(str(count) for count in groups))


def pieces():
    for name, (sent, told, groups) in (*PATHS, ("bad_frame", BAD_FRAME)):
        case(f"pieces_of_{name}")
        for size in (1, 7, 64):
            rows = [row for conn, frame in sent for row in (f"connect {conn}", f"pieces {size} {conn} {frame}")]
            ran("desk", rows, store=2)
            check_written(told, groups)


def desk_sweeps():
    for word, name in (("fuse", "fuse_each"), ("fail", "fail_once_each")):
        for path_name, (sent, told, groups) in PATHS:
            case(f"{name}_of_{path_name}")
            say("store 2")
            calls("desk", *(f"line {conn} {frame}" for conn, frame in sent))
            # an opening 5, a group 4 (docs/store.md)
            say(f"{word} {5 + 4 * len(groups)}", "run ok")
            check_written(told, groups)
    case("fuse_each_of_format")
    say(f"disk {SIZE}", "calls desk", "formats 12")


def stop_in_slices():
    case("stop_in_slices")
    ran("desk", [f"line 1 {attach(7)} {create(1, 65536)}"], "groups 2", store=2)
    slices = []
    for slice in range(1, 11):
        slices += ["step"] + ([f"bytes 1 {attach(7)}"] if slice % 3 == 0 else [])
    calls("desk", "connect 1", "begin", *slices, "finish")
    # an opening 5, the beginning 2, ten slices, three groups of 4, and the rest of the checkpoint 4
    most = spell(after(attached(), created(b"cells", 1, 1, 65536), *[attached()] * 3))
    say(f"fuse {5 + 2 + 10 + 3 * 4 + 4}", "run ok", "groups 1 1 1", "holds place 5 used 245 format Two", f"image {most}")


# Streams of the first path, cut after each byte, and with each byte changed

FRAMES, ENDS, REPLIES = [frame for _, frame in FIRST[0]], (13, 48, 82, 116, 150), FIRST[1][1]


def streams():
    stream = "".join(FRAMES)
    ends = [0, *ENDS]
    say(f"let stream {stream}")
    case("cut_streams")
    calls("desk", "connect 1", "bytes 1 $cut", "gone 1")
    for end in range(151):
        told = REPLIES[: sum(whole <= end for whole in ENDS)]
        say(f"let cut $stream:0:{end}", "store 2", "run ok", f"written 1 {' '.join(told)}".strip())
    case("changed_streams")
    calls("desk", "connect 1", *(f"bytes 1 $changed:{first}:{last}" for first, last in zip(ends, ENDS)), "gone 1")
    whole = bytes.fromhex(stream)
    for place, byte in enumerate(whole):
        for other in (0x00, 0xFF):
            if other != byte:
                told = " ".join(told_with(place, other))
                say(f"let changed $stream:0:{place} {other:02x} $stream:{place + 1}:150", "store 2", "run ok", f"written 1 {told}")


def told_with(place, byte):
    """The replies if the byte at that place is changed, from the fields of docs/formats.md, "Frames"."""
    welcomed, made, wrote, was_read, looked = REPLIES

    def field(first, number):
        changed = bytearray(struct.pack(">Q", number))
        changed[place - first] = byte
        return struct.unpack(">Q", changed)[0]

    def outside(number):
        return refused(number, 3 if number == 0 else 4)

    def without_array(told):
        return [welcomed, told, *(answered(number, NO_ARRAY) for number in (2, 3, 4))]

    def without_write(told):
        return [welcomed, made, told, answered(4, ("value", 0))]

    if 5 <= place < 13:
        return [welcome(field(5, 7)), made, wrote, was_read, looked]
    if 18 <= place < 26:
        return without_array(outside(field(18, 1)))
    if 27 <= place < 32:
        return without_array(answered(1, ("bad-name",)))
    if 43 <= place < 47:
        length = field(39, 2)
        if not 1 <= length <= 65536:
            return without_array(answered(1, ("bad-length",)))
        return [welcomed, answered(1, ("array", 1, length)), wrote, was_read, looked]
    if 74 <= place < 82:
        value = ("value", field(74, 42))
        return [welcomed, made, wrote, answered(3, value), answered(4, value)]
    for first, number, at in ((53, 2, 2), (87, 3, 3), (121, 4, 4)):
        told = None
        if first <= place < first + 8:
            told = outside(field(first, number))
        elif first + 9 <= place < first + 17:
            told = answered(number, NO_ARRAY)
        elif first + 17 <= place < first + 21:
            told = answered(number, BAD_INDEX)
        if told:
            return without_write(told) if at == 2 else [*REPLIES[:at], told, *REPLIES[at + 1 :]]
    return REPLIES[: sum(whole <= place for whole in ENDS)]


def desk_lies():
    case("lies_to_a_desk")
    later = [access(5, 1, WRITEEF, 9), access(6, 1, READFF), access(7, 1, FETCH_ADD, 1), access(8, 1, PURGE)]
    sent = [f"line {conn} {frame}" for conn, frame in FIRST[0]]
    made = [*sent, "begin", "step", "finish", *(f"line 1 {frame}" for frame in later)]
    ran("desk", made, "groups" + " 1" * 9, "reads 2101264 4:459", "reads 3154175 01", "reads 3154260 00", store=2)
    sent = [f"line {conn} {frame}" for conn, frame in BROADCAST[0]]
    calls("desk", *sent, "begin", "step", f"line 1 {access(3, 1, READFE)}", "finish")
    for change in ("01", "80", "ff"):
        for first, count in ((0, 20), (GATE, 1), (SLOT, 20), (SLOT + GATE, 1), (SLOT + IMAGE, 459), (SLOT + JOURNAL, 341)):
            say(f"lie {first} {count} {change} kept")


def desk_sizes():
    case("arrays_of_each_length_of_a_desk")
    for length in LENGTHS:
        rows = [
            ([create(1, length)], [answered(1, ("array", 1, length))]),
            ([access(2, length - 1, WRITEEF, 42)], [answered(2, DONE)]),
            ([access(3, length - 1, READFF), access(4, length, READXX)], [answered(3, ("value", 42)), answered(4, BAD_INDEX)]),
        ]
        say("store 2")
        for sent, told in rows:
            made = [f"line 1 {frame}" for frame in (attach(7), *sent)]
            ran("desk", [*made, "begin", "finish"], f"written 1 {welcome(7)} {' '.join(told)}")
    case("full_directory_of_a_desk")
    state = State()
    state.place, state.next_id = 1000123, 65
    state.arrays = {id: Array(two_letters(id), [(0, 0)] * 1024) for id in range(1, 65)}
    state.sessions = {session: Session(1) for session in range(1, 65)}
    image = image_of(state, TWO)
    say("store 2", f"let image {spell(state)}", f"write 16 4:{len(image)}", "write 4096 $image")
    made = [f"line {conn} {attach(conn)} {access(1, 0, READFF)}" for conn in range(1, 65)]
    ran("desk", [*made, f"line 1 {wire.report().hex()}"], f"report 1 26 130 {b'waiting'.hex()} 20 {b'64'.hex()} 0a")
    ran("desk", [f"line 65 {attach(65)}"], f"written 65 {refused(65, 2)}")
    case("report_of_the_most")
    rows = [f"line 1 {attach(1)}", f"line 1 {create(1, 1)}", f"line 1 {wire.settle(2).hex()}"]
    for conn in range(1, 65):
        rows += [f"line {conn} {attach(conn)}"] if conn > 1 else []
        rows += [f"line {conn} {access(number, 0, READFF)}" for number in range(2 if conn == 1 else 1, 33)]
    ran("desk", [*rows, f"line 1 {wire.report().hex()}"], f"report 1 65 2113 {b'waiting'.hex()} 20 {b'2047'.hex()} 0a", store=2)


ALL = [
    names, stops_as_the_table_says, disks_that_fail, bytes_of_stores, stops_in_journals, torn_gates, batches, device_calls,
    checkpoints, damaged_stores, migration, lies, arrays_of_each_length, full_directory, images, pieces, stop_in_slices,
    streams, desk_sizes, sweeps, desk_sweeps, desk_lies,
]


def spelled():
    """The script, and the laboratory's output for it."""
    lines.clear()
    for part in ALL:
        part()
    setting = ("let", "disk", "store", "write", "calls", "-")
    said, count = [], 0
    for line in reversed(lines):
        word, _, rest = line.partition(" ")
        if word == "case":
            said.append(f"{rest}: {count} good, 0 wrong")
            count = 0
        elif word not in setting:
            count += 1
    return "".join(f"{line}\n" for line in lines), "".join(f"{line}\n" for line in reversed(said))


def laboratory(place):
    """the script of test_laboratory and its expected output are the model's"""
    for name, text in zip(("stdin", "stdout"), spelled()):
        same((FOLDER / name).read_text() == text, True)

if __name__ == "__main__":
    for name, text in zip(("stdin", "stdout"), spelled()):
        (FOLDER / name).write_text(text)
