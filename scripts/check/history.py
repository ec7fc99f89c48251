"""The whole history of a store that is stopped again and again, read from its file after each stop.

A store keeps an image and the groups after it. If at most one checkpoint begins between two readings, the earlier
readings and the two slots together have every entry since the first. Each is checked against the table.
"""

from . import store
from .harness import Wrong, holds, same
from .model import Illegal, State


class History:
    """The entries from the first state on, or from the image of a store."""

    def __init__(self, device=None):
        first = lambda: store.slots_of(device)[0].read()[0] if device else State()
        self.state = first()  # after all entries
        self.base = first()  # at the last image, computed from the entries before it
        self.entries = []  # those from the base's place on
        self.base_generation = 0
        self.image = b""  # of base_generation
        self.finished = {}  # (session, life, number): request and answer
        self.lives = {}  # how often a session was closed
        self.attached = {}  # how often a session was attached
        self.checkpoints = 0
        self.cut_checkpoints = 0  # stops within a checkpoint
        self.spelled = {}  # the entries of attached records, since there are many

    def read(self, device):
        """Adds what a store holds after a stop."""
        valid = store.slots_of(device)
        for slot in reversed(valid):
            # (an older slot has the entries before the newer one's image)
            if slot is valid[0] or slot.generation >= self.base_generation:
                self.read_slot(slot)
        found = store.Slot(bytes(device[valid[0].at ^ store.SLOT :][: 2 * store.IMAGE]), 0)
        self.cut_checkpoints += found.format is not None and not found.is_valid and found.generation == valid[0].generation + 1

    def read_slot(self, slot):
        image, payloads = slot.read()
        if slot.generation > self.base_generation:
            self.move_base(image)
            self.checkpoints += slot.generation - self.base_generation
            self.base_generation = slot.generation
            self.image = slot.image()
        elif slot.generation == self.base_generation:
            holds(slot.image() == self.image, "the image of the slot that counts has changed")
        place = image.place
        for at, payload in payloads:
            for within in range(0, len(payload), slot.format.record):
                self.take(place, payload[within : within + slot.format.record], slot.format, at + within)
                place += 1
        if slot.generation == self.base_generation:
            same(place, self.state.place, "entries that were there before are gone, the place")

    def move_base(self, image):
        """Checks that the image is the state after the entries before it."""
        count = image.place - self.base.place
        holds(0 <= count <= len(self.entries), f"an image of place {image.place}, with entries from {self.base.place} to {self.state.place}")
        for entry in self.entries[:count]:
            self.base.apply(entry)
        del self.entries[:count]
        holds(self.base == image, f"the image of place {image.place} is not the state after the entries before it")

    def take(self, place, record, form, offset):
        entry = self.spelled.get(record)
        if entry is None:
            entry = store.entry_of(record, form)
            if entry is None:
                raise Wrong(f"no entry at {offset}")
            if entry[0] == "attached":
                self.spelled[record] = entry
        if place < self.state.place:
            if place >= self.base.place:
                same(entry, self.entries[place - self.base.place], f"the entry of place {place}")
            return
        same(place, self.state.place, "an entry is skipped, the place")
        try:
            self.state.apply(entry)
        except Illegal as why:
            raise Wrong(f"at place {place}: {why}") from None
        self.entries.append(entry)
        self.note(entry)

    def note(self, entry):
        kind, session, *rest = entry
        life = self.lives.get(session, 0)
        if kind == "attached":
            self.attached[session] = self.attached.get(session, 0) + 1
        elif kind == "closed":
            self.lives[session] = life + 1
        elif kind == "finished":
            number, request, answer = rest
            key = (session, life, number)
            holds(key not in self.finished, f"number {number} of session {session} took effect twice")
            self.finished[key] = (request, answer)
