"""What is to be right before a server starts, and why one was refused."""

from __future__ import annotations

import contextlib
import os
from typing import Optional

from . import causes, places, program
from .files import DONE, FAILED, Fault
from .settings import may_format, store_of


def check(given: str, accept: bool) -> int:
    """Refuses a start over a store that a server would refuse, or whose place is below the last known one, unless that is meant. Notes the
    place. Wrong settings are left for the server to name."""
    try:
        store, formats = store_of(given), may_format(given)
    except Fault:
        if given.endswith(".toml"):
            return DONE
        raise
    last = None if accept else places.known(store)
    # (a server that may make a store also removes what a start before left)
    if formats and not last and not os.path.lexists(store):
        return DONE
    for cause in causes.causes(store, formats, last):
        raise Fault(f"{store}: {cause}")
    if os.path.lexists(store):
        text, _ = program.look(store)
        if text is not None:
            with contextlib.nullcontext() if accept else contextlib.suppress(Fault):
                places.note(store, program.first(text), may_lower=accept)
    return DONE


def why(given: str, user: Optional[str]) -> int:
    """Prints each cause for which a server is refused the store, or the place at which it opens."""
    store = store_of(given)
    found = False
    for cause in causes.causes(store, may_format(given), places.known(store), user):
        found = True
        print(f"{store}: {cause}", flush=True)
    if not found:
        print(f"{store}: nothing is wrong with it now: {program.shown(store) if os.path.lexists(store) else 'a start makes it'}")
    return FAILED if found else DONE
