"""Copies a store, also while a server writes it."""

from __future__ import annotations

import os
from typing import List, Optional

from . import layout, places, program, state
from .files import STORE_HEADS, Fault, New, named, opened, read_at, unreadable, whole
from .layout import AREA, GATE, IMAGE, JOURNAL, LEAST_IMAGE, SIZE, Header, Read
from .settings import store_of

READINGS = 100


def reading(read: Read) -> Optional[bytearray]:
    """The bytes of a copy, or None if the slot was made anew meanwhile, or no slot was valid. The order is that of docs/store.md, "A
    copy while the store is written"."""
    header = layout.counting(read)
    return slot_read(read, header) if header else None


def slot_read(read: Read, header: Header) -> Optional[bytearray]:
    """The bytes of a store with a valid slot alone, or None if that was made anew meanwhile."""
    if not LEAST_IMAGE <= header.image_length <= AREA:
        return None
    base, end = header.base, 0
    image = read(base + IMAGE, header.image_length)
    for at, length in layout.groups(read, header):
        if length is None:
            return None
        end = at + 5 + length
    # (a gate that reads open was opened after a sync of all that it guards)
    journal = read(base + JOURNAL, end)
    if Header(read, header.slot).fields != header.fields:
        return None
    copy = bytearray(SIZE)
    copy[base : base + 20] = header.fields
    copy[base + GATE] = 1
    copy[base + IMAGE : base + IMAGE + len(image)] = image
    copy[base + JOURNAL : base + JOURNAL + end] = journal
    return copy


def reader(store: str, descriptor: int) -> Read:
    """Reads bytes of a store's file. Those that can't be read are a fault that names them."""

    def read(at: int, count: int) -> bytes:
        try:
            content = read_at(descriptor, count, at)
        except OSError:
            lost = [(begin, end) for begin, end in whole(descriptor, store)[1] if begin < at + count and at < end]
            raise Fault(f"{store}: {unreadable(lost or [(at, at + count)])}, and are in use: `femem-store rescue`") from None
        if len(content) < min(count, SIZE - at):
            raise Fault(f"{store}: the file changed while it was read")
        return content

    return read


def copied(store: str) -> bytearray:
    """The bytes of a copy of one moment, all of which are on the device."""
    descriptor = opened(store)
    try:
        with named(store):
            os.fdatasync(descriptor)
        read = reader(store, descriptor)
        content = next((it for it in (reading(read) for _ in range(READINGS)) if it), None)
        if content is None:
            raise Fault(f"{store}: {program.shown(store)}; no copy was made")
        # (after this sync all that was read is on the device)
        with named(store):
            os.fdatasync(descriptor)
        return content
    finally:
        os.close(descriptor)


def refuse_other(copy: str, store: str) -> None:
    """A fault if the name of the copy is taken by the store, or by what is no store."""
    if not os.path.lexists(copy):
        return
    if os.path.samefile(copy, store):
        raise Fault(f"{copy} is the store")
    descriptor = opened(copy)
    with named(copy):
        head = os.pread(descriptor, 8, 0)
    os.close(descriptor)
    if head not in STORE_HEADS:
        raise Fault(f"{copy} is there, and is no store")


def names_of(copy: str, keep: int) -> List[str]:
    """The names of `keep` copies, the newest first."""
    return [copy, *(f"{copy}.{number}" for number in range(1, keep))]


def rotate(copy: str, keep: int) -> None:
    """Of `keep` copies COPY becomes COPY.1, that COPY.2, and so on; the oldest goes."""
    names = names_of(copy, keep)
    for newer, older in reversed(list(zip(names, names[1:]))):
        if os.path.lexists(newer):
            os.replace(newer, older)


def backup(given: str, copy: str, keep: int = 1) -> int:
    """Makes or replaces a copy, and prints its place and the sum of its state."""
    store, copy = store_of(given), os.path.realpath(copy)
    with named(copy):
        for it in names_of(copy, keep):
            refuse_other(it, store)
        if os.path.exists(f"{copy}.new") and os.path.samefile(f"{copy}.new", store):
            raise Fault(f"{copy}.new is the store")
    # (what is noted while this copies may be above the place of the copy)
    last = places.known(store)
    content = copied(store)
    with New(copy) as new:
        new.write(content)
        place = program.place_of(new.new)
        places.refuse_lower(last, place, store)
        with named(copy):
            rotate(copy, keep)
        new.name()
    print(f"place {place}\nstate {state.sum_of(content)}")
    return 0
