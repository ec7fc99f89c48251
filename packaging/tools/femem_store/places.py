"""The last known place of a store: a line `place N` in STORE.place, and in a folder that is on another file system, if it is there."""

from __future__ import annotations

import contextlib
import os
import re
import urllib.parse
from typing import List, Optional

from . import device, program
from .files import Fault, New, named, opened

# (a device that hangs must not keep the end of a server)
SECONDS = 20.0
# What is in it outlives a mount that is missing, and a snapshot of the store's file system.
FOLDER = os.environ.get("FEMEM_PLACES", "/var/lib/femem-places")


def paths(store: str) -> List[str]:
    """Where the last known place of a store is written."""
    store = os.path.realpath(store)
    beside = [f"{store}.place"]
    return beside + ([os.path.join(FOLDER, urllib.parse.quote(store, safe="") + ".place")] if os.path.isdir(FOLDER) else [])


def written(path: str) -> Optional[int]:
    """The place in a file of `paths`."""
    with contextlib.suppress(OSError, UnicodeDecodeError), open(path, encoding="ascii") as file:
        found = re.fullmatch(r"place (\d+)\n", file.read(64))
        return int(found[1]) if found else None
    return None


def known(store: str) -> Optional[int]:
    """The last known place of a store, if any is known."""
    return max((it for it in map(written, paths(store)) if it is not None), default=None)


def note(store: str, place: int, may_lower: bool = False) -> None:
    """Writes the place, unless a greater one is known. A fault if it could not be written anywhere, or a greater one is left that is
    not meant."""
    faults: List[Fault] = []
    there = paths(store)
    for path in there:
        before = written(path)
        if before is not None and (before == place or before > place and not may_lower):
            continue
        try:
            with named(path):
                folder = os.stat(os.path.dirname(path))
            owner = (folder.st_uid, folder.st_gid) if os.geteuid() == 0 else None
            with New(path, (b"place ",), mode=0o644, owner=owner) as new:
                new.write(b"place %d\n" % place)
                new.name()
        except Fault as fault:
            faults.append(fault)
    if len(faults) == len(there) or (faults and may_lower):
        raise faults[0]


def note_now(store: str) -> None:
    """Notes the place at which the store is, if it opens, and if the device has what the system holds of it. (What keeps it from opening
    the check says before the next start.)"""
    try:
        if device.stale_byte(store, opened(store)) is not None:
            return
    except device.NoDirectReads:
        pass
    except Fault:
        return
    text, _ = program.look(store, SECONDS)
    if text is not None:
        note(store, program.first(text))


def refuse_lower(last: Optional[int], place: int, what: str) -> None:
    """A fault if a greater place was known."""
    if last is not None and place < last:
        raise Fault(f"{what} is at place {place}, and the last known place is {last}: {HOW}")


HOW = "an older copy, another store, a missing mount or damage; if it is meant, `femem-store check --accept STORE`"
