"""What a damaged store still gives: each slot with its header's fields as they should be, up to the first damage.

A store is only read. Each way is a copy of it with a few bytes changed, which `femem look` opens; the operator chooses one.
"""

from __future__ import annotations

import os
import re
import struct
import tempfile
from typing import Iterator, List, NamedTuple, Optional, Tuple

from . import layout, places, program, state
from .files import DONE, Fault, New, locked, opened, unreadable, whole
from .layout import FORMATS, GATE, IMAGE, JOURNAL, SLOT, Header
from .settings import store_of

# How many closed gates are opened, one after the other: behind each a whole group stands.
MOST_OPENED = 3
# How many places of damage are cut off, one before the other.
MOST_CUTS = 3
CUT = "up to the damage"
STALE = "these may be older ones, which the slot had before: compare with the last known place"


class Way(NamedTuple):
    """A copy that opens: what it is, its place, its bytes, and whether it needs bytes that may never have been meant so."""

    text: str
    place: int
    content: bytearray
    is_sure: bool


class Look:
    """Opens candidates, in a folder of their own."""

    def __init__(self, room: str) -> None:
        self.path = os.path.join(room, "store")

    def __call__(self, content: bytearray) -> Tuple[Optional[int], int]:
        """The place; or None, and the offset of the damage (-1 if there is none to name)."""
        with open(self.path, "wb") as file:
            file.write(content)
        text, fault = program.look(self.path)
        if text is not None:
            return program.first(text), -1
        found = re.fullmatch(r"femem: store damaged at (\d+)", fault)
        return None, int(found[1]) if found else -1


def headers(content: bytearray, slot: int) -> Iterator[Tuple[List[str], bytearray]]:
    """Copies in which a slot alone counts, and what was put right in its header. Its magic is tried as each of the two if it is
    neither."""
    base = slot * SLOT
    wrong = ["a closed gate"] if content[base + GATE] != 1 else []
    magics = [bytes(content[base : base + 8])] if bytes(content[base : base + 8]) in FORMATS else sorted(FORMATS, reverse=True)
    wrong += ["a wrong magic"] if len(magics) > 1 else []
    for magic in magics:
        copy = bytearray(content)
        copy[base : base + 8] = magic
        copy[base + GATE] = 1
        copy[SLOT - base + GATE] = 0
        yield wrong, copy


def begin_before(content: bytearray, slot: int, offset: int) -> Optional[int]:
    """The gate of the group that has this offset of the device, or that of the first group after it that is none; None if none has."""
    header = Header(layout.bytes_of(content), slot)
    within = offset - header.base - JOURNAL
    for at, length in layout.groups(layout.bytes_of(content), header):
        if within >= 0 and (length is None or within < at + 5 + length):
            return header.base + JOURNAL + at
    return None


def has_length_set(copy: bytearray, slot: int) -> bool:
    """Sets the length in a slot's header to the image's own. False if it has that already, or the image has none."""
    header = Header(layout.bytes_of(copy), slot)
    assert header.form is not None
    length = state.own_length(bytes(copy[header.base + IMAGE : header.base + JOURNAL]), header.form)
    if length is None or length == header.image_length:
        return False
    copy[header.base + 16 : header.base + 20] = struct.pack(">I", length)
    return True


def opened_up(look: Look, copy: bytearray, slot: int, wrong: List[str]) -> Optional[Tuple[List[str], int]]:
    """Changes a copy until it opens: the image's length is set to its own and the generation to 1 if they are the damage, and the
    groups end before the first damage. Returns what was wrong, and the place; None if it does not open."""
    base, said, cuts = slot * SLOT, list(wrong), 0
    while True:
        place, offset = look(copy)
        if place is not None:
            return said, place
        begin = begin_before(copy, slot, offset)
        if offset == base + 8 and "a wrong generation" not in said:
            copy[base + 8 : base + 16] = struct.pack(">Q", 1)
            said.append("a wrong generation")
        elif offset < base + JOURNAL and "a wrong image length" not in said and has_length_set(copy, slot):
            said.append("a wrong image length")
        elif begin is not None and cuts < MOST_CUTS:
            copy[begin] = 0
            cuts += 1
            said.append(f"{CUT} at byte {offset}")
        else:
            return None


def end_of(content: bytearray, slot: int) -> Tuple[int, Optional[int]]:
    """The gate at which a slot's groups end, and the length of the whole group that may stand behind it."""
    read = layout.bytes_of(content)
    header = Header(read, slot)
    assert header.form is not None
    end = 0
    for at, length in layout.groups(read, header):
        end = at + 5 + (length or 0)
    length = layout.length_at(read, header.form, header.base + JOURNAL, end)
    return header.base + JOURNAL + end, length


def of_slot(look: Look, content: bytearray, slot: int) -> Iterator[Way]:
    """The ways that a slot gives: up to the first gate that is closed, and those behind it in which a whole group stands."""
    for wrong, copy in headers(content, slot):
        found = opened_up(look, copy, slot, wrong)
        if found is not None:
            said, place = found
            cuts = [it for it in said if it.startswith(CUT)]
            text = ", ".join([f"slot {slot}", *(it if it in cuts else f"behind {it}" for it in said)])
            yield Way(text, place, copy, cuts == said)
            if not cuts:
                yield from behind_gates(look, copy, slot, text, place)
            return


def behind_gates(look: Look, content: bytearray, slot: int, text: str, place: int) -> Iterator[Way]:
    """The ways in which closed gates that have a whole group behind them are opened, one more in each."""
    copy = bytearray(content)
    for count in range(1, MOST_OPENED + 1):
        gate, length = end_of(copy, slot)
        if length is None:
            return
        copy[gate] = 1
        found = opened_up(look, copy, slot, [])
        if found is None or found[1] <= place:
            return
        place = found[1]
        gates = "the closed gate" if count == 1 else f"{count} closed gates, the last"
        yield Way(f"{text}, with the groups behind {gates} at byte {gate} ({STALE})", place, bytearray(copy), False)


def ways(content: bytearray) -> List[Way]:
    """All that a store's bytes give, first what needs no byte put right, and of those the latest."""
    with tempfile.TemporaryDirectory(prefix="femem-") as room:
        look = Look(room)
        found = [it for slot in (0, 1) for it in of_slot(look, content, slot)]
    return sorted(found, key=lambda it: (not it.is_sure, -it.place))


def opening(content: bytearray) -> Tuple[Optional[int], str]:
    """The place at which bytes open, if they do, and the line that says it."""
    with tempfile.TemporaryDirectory(prefix="femem-") as room:
        place, offset = Look(room)(content)
    return place, f"place {place}" if place is not None else f"damaged at byte {offset}" if offset >= 0 else "no slot is valid"


def chosen(found: List[Way], number: Optional[int]) -> Optional[Way]:
    """The way that was asked for; without a number the first, if it is sure and no other one gives more."""
    if number is not None:
        if not 1 <= number <= len(found):
            raise Fault(f"there is no way {number}")
        return found[number - 1]
    return found[0] if found and found[0].is_sure and found[0].place == max(it.place for it in found) else None


def rescue(given: str, copy: Optional[str], number: Optional[int]) -> int:
    """Lists the ways, and makes a copy by one of them."""
    store = store_of(given)
    source = opened(store)
    locked(store, source)
    content, lost = whole(source, store)
    place, text = opening(content)
    found, last = ways(content), places.known(store)
    lines = [unreadable(lost)] if lost else []
    lines += [f"with zeros for these: {text}" if lost else text] + ([f"last known place {last}"] if last is not None else [])
    print("\n".join(lines + [f"way {at}: {it.text}: place {it.place}" for at, it in enumerate(found, 1)]), flush=True)
    if not found:
        raise Fault(f"{store}: neither slot opens with its header put right: {'; '.join(damages(content)) or 'both are unused'}")
    if copy is None:
        return DONE
    if number is None and not lost and place is not None and all(it.place <= place for it in found):
        raise Fault(f"{store} opens: nothing is damaged")
    save(copy, chosen(found, number))
    return DONE


def damages(content: bytearray) -> List[str]:
    """Where each slot that is in use is damaged, with its header put right."""
    with tempfile.TemporaryDirectory(prefix="femem-") as room:
        look = Look(room)
        made = [(slot, next(headers(content, slot))[1]) for slot in (0, 1) if any(content[slot * SLOT : slot * SLOT + 20])]
        return [f"slot {slot} is damaged at byte {look(copy)[1]}" for slot, copy in made]


def save(copy: str, way: Optional[Way]) -> None:
    """Makes the copy of a way."""
    if os.path.lexists(copy):
        raise Fault(f"{copy} is there")
    if way is None:
        raise Fault("no way is surely the right one: choose one, by --way N")
    with New(copy) as new:
        new.write(way.content)
        place = program.place_of(new.new)
        new.name()
    print(f"place {place}")
