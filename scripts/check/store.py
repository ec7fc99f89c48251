"""Stores as bytes, by the tables of docs/formats.md: a reader that reports damage as femem must, and a writer."""

import struct

from . import tables
from .model import MOST_ARRAYS, MOST_SESSIONS, MOST_WORDS, PLAIN, TOP_FLOOR, TOP_PLACE, WINDOW, Array, Illegal, Session, State
from .wire import ANSWERS as ANSWER_CODES
from .wire import OP_NAMES, WITH_OPERAND, BadReply, answer_of

AREAS = {name: (tables.number(at), tables.number(size)) for name, at, size in tables.rows("docs/formats.md", "| area | at | bytes |")}
SIZE, SLOT = tables.said("docs/formats.md", "A store's device has N bytes: two slots of N bytes each", 2)
GATE = tables.said("docs/formats.md", "The last byte of its area, at N, is its **gate**")
IMAGE, (JOURNAL, AREA) = AREAS["image"][0], AREAS["journal area"]
# In formats 1 and 2.
MOST_RECORDS = tables.said("docs/formats.md", "at most N of them in format 1, 80 bytes each and at most N in format 2.", 2)
MOST_IMAGES = tables.said("docs/formats.md", "at most N in format 1 and N in format 2", 2)


# The fields of a record, in order, and the codes of its kind and of its request.
FIELDS = (
    "kind", "request code", "answer code", "length of the name", "tag", "flag", "unused", "session", "number", "row",
    "length (create)", "length of the array", "value", "unused",
)
KINDS, REQUESTS = tables.codes_in_record("kind"), tables.codes_in_record("request code")
KIND_NAMES = {code: name for name, code in KINDS.items()}


class Format:
    def __init__(self, number, magic, name):
        self.number = number
        self.magic = magic
        self.name = name  # the size of a name's field
        self.form, self.record = tables.record_form(number - 1, FIELDS)
        self.most_records = MOST_RECORDS[number - 1]
        self.most_image = MOST_IMAGES[number - 1]


ONE = Format(1, b"FEMEMST1", 16)
TWO = Format(2, b"FEMEMST2", 32)


class Damaged(Exception):
    """The store is damaged at that offset."""

    def __init__(self, offset):
        super().__init__(f"damaged at {offset}")
        self.offset = offset


class Unformatted(Exception):
    """No slot is valid."""


# Records


def record_of(entry, form):
    """The record of an entry."""
    kind, session, *rest = entry
    code = KINDS[kind]
    if kind != "finished":
        return struct.pack(form.form, code, *[0] * 6, session, *(rest or (0,)), b"", *[0] * 4)
    number, request, answer = rest
    row, request_code, name_length, tag, flag, length = b"", 0, 0, 0, 0, 0
    if request[0] in ("create", "find"):
        request_code = REQUESTS[request[0]]
        row, name_length = request[1], len(request[1])
        length, tag = request[2:] if request[0] == "create" else (0, 0)
    elif request[0] == "remove":
        request_code, row = REQUESTS["remove"], struct.pack(">Q", request[1])
    else:
        request_code, array, length, operand, flag = request[1:]
        row = struct.pack(">QQ", array, operand)
    value = answer[1] if len(answer) > 1 else 0
    array_length = answer[2] if len(answer) > 2 else 0
    head = (code, request_code, ANSWER_CODES[answer[0]], name_length, tag, flag, 0, session, number)
    return struct.pack(form.form, *head, row, length, array_length, value, 0)


def entry_of(record, form):
    """The entry of a record, or None if it is not valid."""
    kind, code, answer, name_length, tag, flag, unused, session, number, row, *rest = struct.unpack(form.form, record)
    length, array_length, value, last = rest
    kind = KIND_NAMES.get(kind)
    if kind in ("attached", "closed", "settled"):
        entry = (kind, session, *([] if kind == "closed" else [number]))
        return entry if number < 2**63 and record == record_of(entry, form) else None
    if kind != "finished" or number >= 2**63 or unused or last or flag > 1 or (form is ONE and (flag or answer == ANSWER_CODES["not-now"])):
        return None
    if code in (REQUESTS["create"], REQUESTS["find"]):
        if name_length > form.name or tag > 1:
            return None
        request = ("create", row[:name_length], length, tag) if code == REQUESTS["create"] else ("find", row[:name_length])
    elif code == REQUESTS["remove"]:
        request = ("remove", struct.unpack(">Q", row[:8])[0])
    elif code in OP_NAMES:
        array, operand = struct.unpack(">QQ", row[:16])
        request = ("access", code, array, length, operand, bool(flag))
        if operand and code not in WITH_OPERAND:
            return None
    else:
        return None
    try:
        entry = ("finished", session, number, request, answer_of(answer, value, array_length))
    except BadReply:
        return None
    return entry if record == record_of(entry, form) else None


# Images


def image_of(state, form):
    """The image of a state."""
    parts = [struct.pack(">QQII", state.place, state.next_id, len(state.arrays), len(state.sessions))]
    for id, array in sorted(state.arrays.items()):
        parts.append(struct.pack(">QB", id, len(array.name)) + array.name.ljust(form.name, b"\0") + struct.pack(">I", len(array.words)))
        parts += [struct.pack(">BQ", tag, value) for value, tag in array.words]
    for session, it in sorted(state.sessions.items()):
        parts.append(struct.pack(">QQI", session, it.floor, len(it.kept)))
        for number, (request, answer, place) in sorted(it.kept.items()):
            parts.append(struct.pack(">Q", place) + record_of(("finished", session, number, request, answer), form))
    return b"".join(parts)


class Reader:
    """Reads fields in sequence. Raises Damaged, with the offset in the image, at the first that is not allowed."""

    def __init__(self, image):
        self.image = image
        self.at = 0

    def field(self, size, allowed):
        at = self.at
        if at + size > len(self.image):
            raise Damaged(len(self.image))
        field = self.image[at : at + size]
        self.at += size
        value = int.from_bytes(field, "big") if size <= 8 else field
        if not allowed(value):
            raise Damaged(at)
        return value

    def number(self, size, least, most):
        return self.field(size, lambda value: least <= value <= most)

    def words(self, length):
        """The words of an array, as pairs of value and tag."""
        piece = self.image[self.at : self.at + 9 * length]
        if len(piece) == 9 * length and max(piece[::9]) <= 1:
            self.at += len(piece)
            return [(value, tag) for tag, value in struct.iter_unpack(">BQ", piece)]
        found = []
        for _ in range(length):
            tag = self.number(1, 0, 1)
            found.append((self.number(8, 0, 2**64 - 1), tag))
        return found


def state_of(image, form):
    """The state of an image."""
    read = Reader(image)
    state = State()
    state.place = read.number(8, 0, TOP_PLACE)
    state.next_id = read.number(8, 1, state.place + 1)
    arrays = read.number(4, 0, MOST_ARRAYS)
    sessions = read.number(4, 0, MOST_SESSIONS)
    words = last = 0
    for _ in range(arrays):
        last = read.number(8, last + 1, state.next_id - 1)
        at = read.at
        size = read.number(1, 1, form.name)
        name = read.field(form.name, lambda row: PLAIN.fullmatch(row[:size]) and not any(row[size:]))[:size]
        if state.named(name) is not None:
            raise Damaged(at)
        length = read.number(4, 1, MOST_WORDS - words)
        words += length
        state.arrays[last] = Array(name, [])
        state.arrays[last].words = read.words(length)
    last = -1
    for _ in range(sessions):
        last = read.number(8, last + 1, 2**64 - 1)
        it = state.sessions[last] = Session(read.number(8, 1, TOP_FLOOR))
        before = it.floor - 1
        for _ in range(read.number(4, 0, WINDOW)):
            place = read.number(8, 0, state.place - 1)
            at = read.at
            entry = entry_of(read.field(form.record, lambda _: True), form)
            if entry is None or entry[:2] != ("finished", last) or not before < entry[2] < it.floor + WINDOW:
                raise Damaged(at)
            before = entry[2]
            it.kept[before] = (entry[3], entry[4], place)
    if read.at < len(image):
        raise Damaged(read.at)
    return state


# Devices


class Slot:
    """A valid slot: its offset, format and generation."""

    def __init__(self, device, at):
        magic, self.generation, self.length = struct.unpack(">8sQI", device[at : at + 20])
        self.at = at
        self.device = device
        self.format = {ONE.magic: ONE, TWO.magic: TWO}.get(magic)
        self.is_valid = self.format is not None and device[at + GATE] == 1

    def image(self):
        return self.device[self.at + IMAGE : self.at + IMAGE + self.length]

    def payloads(self):
        """The offset on the device and the bytes of each group."""
        found, at, end = [], self.at + JOURNAL, self.at + JOURNAL + AREA
        while self.device[at] == 1:
            length = int.from_bytes(self.device[at + 1 : at + 5], "big") if at + 5 <= end else 0
            records, rest = divmod(length, self.format.record)
            if rest or not 1 <= records <= self.format.most_records or at + 6 + length > end:
                raise Damaged(at)
            found.append((at + 5, self.device[at + 5 : at + 5 + length]))
            at += 5 + length
        return found

    def read(self):
        """The state of the image, and the groups of entries after it."""
        if self.generation < 1:
            raise Damaged(self.at + 8)
        if not 24 <= self.length <= self.format.most_image:
            raise Damaged(self.at + 16)
        payloads = self.payloads()
        try:
            state = state_of(self.image(), self.format)
        except Damaged as why:
            raise Damaged(self.at + IMAGE + why.offset) from None
        if self.generation > state.place + self.format.number:
            raise Damaged(self.at + 8)
        return state, payloads


def slots_of(device):
    """The valid slots, beginning with the one that counts."""
    if len(device) != SIZE:
        raise Unformatted
    device = bytes(device)
    valid = [it for it in (Slot(device, 0), Slot(device, SLOT)) if it.is_valid]
    if not valid:
        raise Unformatted
    return sorted(valid, key=lambda it: -it.generation)


def read_store(device, slot=None):
    """The state of the image of the slot that counts (or of that slot), the entries of each of its groups, and the state after them."""
    slot = slot or slots_of(device)[0]
    first, payloads = slot.read()
    now = state_of(image_of(first, slot.format), slot.format)
    groups = []
    for at, payload in payloads:
        group = []
        for within in range(0, len(payload), slot.format.record):
            entry = entry_of(payload[within : within + slot.format.record], slot.format)
            try:
                if entry is None:
                    raise Illegal("no entry")
                now.apply(entry)
            except Illegal:
                raise Damaged(at + within) from None
            group.append(entry)
        groups.append(group)
    return first, groups, now


def device_of(form, state=None, groups=(), generation=1, slot=0):
    """A device with one valid slot, as a bytearray."""
    device = bytearray(SIZE)
    put_slot(device, form, state or State(), groups, generation, slot)
    return device


def put_slot(device, form, state, groups, generation, slot):
    image = image_of(state, form)
    base = slot * SLOT
    device[base : base + 20] = form.magic + struct.pack(">QI", generation, len(image))
    device[base + GATE] = 1
    device[base + IMAGE : base + IMAGE + len(image)] = image
    at = base + JOURNAL
    for group in groups:
        payload = b"".join(record_of(entry, form) for entry in group)
        device[at : at + 5 + len(payload)] = b"\1" + struct.pack(">I", len(payload)) + payload
        at += 5 + len(payload)
    device[at] = 0
