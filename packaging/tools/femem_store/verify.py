"""What is in a store, also while a server writes it: both slots, each group, what can't be read, what a rescue finds, and the state's sum."""

from __future__ import annotations

import fcntl
import os
from typing import Iterator, List, Optional

from . import backup, layout, places, rescue, state
from .files import DONE, WITH_A_NOTE, Fault, named, opened, unreadable, whole
from .layout import JOURNAL, Header, Read
from .settings import store_of


def of_slot(read: Read, slot: int, all_groups: bool) -> Iterator[str]:
    """A slot's header, and its groups if it has a format."""
    header = Header(read, slot)
    gate = "open" if header.gate == b"\1" else "closed"
    if header.form is None:
        yield f"slot {slot}: no format, its gate is {gate}" if any(header.fields) else f"slot {slot}: unused"
        return
    found = list(layout.groups(read, header))
    entries = [(length or 0) // header.form.record for _, length in found]
    yield (
        f"slot {slot}: format {header.form.number}, generation {header.generation}, its gate is {gate}, image of {header.image_length} bytes,"
        f" {len(found)} groups with {sum(entries)} entries"
    )
    for (at, length), count in zip(found, entries):
        if all_groups or length is None:
            yield f"group at byte {header.base + JOURNAL + at}: " + ("a length that none has" if length is None else f"{count} entries")


def is_served(descriptor: int) -> bool:
    """Whether a server holds the lock."""
    try:
        fcntl.flock(descriptor, fcntl.LOCK_SH | fcntl.LOCK_NB)
    except OSError:
        return True
    fcntl.flock(descriptor, fcntl.LOCK_UN)
    return False


def of_one_moment(read: Read, slot: Optional[int] = None) -> Optional[bytearray]:
    """The bytes of a copy of one moment: of the slot that counts, or of that slot if it is valid. None if there is none to be had."""
    try:
        if slot is None:
            return next((it for it in (backup.reading(read) for _ in range(backup.READINGS)) if it), None)
        header = Header(read, slot)
        return backup.slot_read(read, header) if header.is_valid else None
    except Fault:
        return None


def older(read: Read) -> Iterator[str]:
    """What the valid slot that does not count gives by itself."""
    counts = layout.counting(read)
    content = of_one_moment(read, 1 - counts.slot) if counts else None
    if counts and content:
        yield f"slot {1 - counts.slot} alone: {rescue.opening(content)[1]}"


def verify(given: str, all_groups: bool) -> int:
    """Prints what is found. Status 0: all is whole; 3: the state is whole, and something else is not; 1: the state is not."""
    store = store_of(given)
    descriptor = opened(store)
    # (what is noted from here on may be above the place that is read)
    last = places.known(store)
    with named(store):
        os.fdatasync(descriptor)
    served = is_served(descriptor)
    content, lost = whole(descriptor, store)
    read = layout.bytes_of(content)
    moment = of_one_moment(backup.reader(store, descriptor))
    judged = moment if (served or lost) and moment else content
    place, text = rescue.opening(judged)
    in_use = bool(lost) and moment is None
    lines: List[str] = [*of_slot(read, 0, all_groups), *of_slot(read, 1, all_groups), *([unreadable(lost)] if lost else []), *older(read)]
    print("\n".join([*lines, f"with zeros for these: {text}" if in_use else text]), flush=True)
    more = [] if served else [it for it in rescue.ways(content) if place is None or it.place > place]
    for way in more:
        print(f"a rescue finds {way.text}: place {way.place}")
    if place is None or in_use:
        raise Fault(f"{store} does not open" + (": bytes in use can't be read" if in_use else ""))
    print(f"state {state.sum_of(judged)}")
    if last is not None and place < last:
        raise Fault(f"{store} is at place {place}, below the last known place {last}")
    return WITH_A_NOTE if lost or more else DONE
