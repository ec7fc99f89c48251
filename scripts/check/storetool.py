"""The command femem-store for the checks: run as an operator runs it, and its modules."""

import hashlib
import os
import resource
import subprocess
import sys

from . import store, tables, wire

FOLDER = os.path.join(tables.TOP, "packaging", "tools")
TOOL = os.path.join(FOLDER, "femem-store")
# For a probe: on a busy machine it may take longer than a second, and then has another status.
PATIENT = ("--slow", "60", "--limit", "60")

sys.path.insert(0, FOLDER)
from femem_store import backup, device, files, layout, places, state  # noqa: E402

__all__ = ["backup", "device", "files", "layout", "places", "state"]


def ran(place, *words, seconds=60, env=None, before=(), tool=TOOL, limit=None):
    """The status, output and errors of femem-store, run by another command if `before` names one, under a limit if one is given."""
    given = {**os.environ, "FEMEM": place.program, "FEMEM_PLACES": place.path("places"), **(env or {})}
    how = {"preexec_fn": lambda: resource.setrlimit(limit[0], (limit[1], limit[1]))} if limit else {}
    command = [*before, sys.executable, tool, *words]
    ended = subprocess.run(command, stdin=subprocess.DEVNULL, capture_output=True, text=True, timeout=seconds * wire.patience, env=given, **how)
    return ended.returncode, ended.stdout, ended.stderr


def words_of(text):
    """The lines of an output by their first word."""
    return dict(it.split(" ", 1) for it in text.splitlines() if " " in it)


def sum_of(known):
    """The sum of a state, by docs/femem-store.md."""
    return hashlib.sha256(store.image_of(known, store.TWO)).hexdigest()


def copied(place, groups):
    """The bytes of a store in slot 0 with these groups."""
    return bytes(store.device_of(store.TWO, None, groups))
