"""Puts a backup in the place of a store that no server serves, whatever is there now."""

from __future__ import annotations

import itertools
import os
import stat
from typing import Tuple

from . import places, program
from .files import Fault, New, locked, named, opened, unreadable, whole
from .settings import store_of


def rights(store: str) -> Tuple[int, Tuple[int, int]]:
    """The mode and owner that the restored file gets: those of the file that is there, or of a new store in this folder."""
    with named(store):
        is_there = os.path.exists(store)
        found = os.stat(store if is_there else os.path.dirname(store))
    return stat.S_IMODE(found.st_mode) if is_there else 0o600, (found.st_uid, found.st_gid)


def set_aside(store: str) -> str:
    """Gives the file that is there a second name, or moves it where there are no hard links. Returns that name."""
    for number in itertools.count(1):
        kept = f"{store}.before-restore" + (f".{number}" if number > 1 else "")
        if not os.path.lexists(kept):
            break
        # (a restore that was killed)
        if os.path.samefile(kept, store):
            return kept
    try:
        os.link(store, kept)
    except OSError:
        os.rename(store, kept)
    return kept


def restore(backup: str, given: str) -> int:
    """Prints what was there, where it is kept, and the place of what is there now, which is the last known place from then on."""
    store = os.path.realpath(store_of(given))
    content, lost = whole(opened(backup), backup)
    if lost:
        raise Fault(f"{backup}: {unreadable(lost)}")
    if os.path.exists(store) and os.path.samefile(backup, store):
        raise Fault(f"{backup} is the store")
    program.place_of(backup)
    before = kept = ""
    if os.path.lexists(store):
        # (a server that starts meanwhile does not get the lock, and ends)
        locked(store, opened(store, None))
        before = program.shown(store)
    mode, owner = rights(store)
    with New(store, suffix=".restored", mode=mode, owner=owner) as new:
        new.write(content)
        now = program.place_of(new.new)
        with named(store):
            if before:
                kept = f", kept as {set_aside(store)}"
        new.name()
    places.note(store, now, may_lower=True)
    print(f"before: {before or 'no file'}{kept}\nnow: place {now}")
    return 0
