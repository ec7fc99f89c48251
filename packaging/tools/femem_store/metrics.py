"""The metrics of a server and its store, as Prometheus text."""

from __future__ import annotations

import argparse
import contextlib
import os
import shutil
import subprocess
import sys
import time
from typing import Dict, List, Optional

from . import layout, places, program
from .files import DONE, WITH_A_NOTE, Fault, New, opened, read_at
from .probe import Found, counted, probe
from .settings import path_of

# (a device that answered a probe answers these too, or the metrics say nothing of the store)
SECONDS = 10.0


def restarts() -> Dict[str, float]:
    """How often systemd has started the server again."""
    if not shutil.which("systemctl"):
        return {}
    words = ["systemctl", "show", "--property=NRestarts", "--value", "femem"]
    try:
        said = subprocess.run(words, stdin=subprocess.DEVNULL, capture_output=True, text=True, timeout=SECONDS, check=False).stdout.strip()
    except subprocess.TimeoutExpired:
        return {}
    return {"femem_restarts_total": int(said)} if said.isdigit() else {}


def of_store(store: str) -> Dict[str, float]:
    """Place, generation, and how many bytes of the journal area are in use. The place is noted as the last known one."""
    # (what is noted from here on may be above the place that is read)
    last = places.known(store)
    text, _ = program.look(store, SECONDS)
    if text is None:
        return {}
    place = program.first(text)
    with contextlib.suppress(Fault):
        places.note(store, place)
    descriptor = opened(store)
    read: layout.Read = lambda at, count: read_at(descriptor, count, at)
    header = layout.counting(read)
    used = sum(5 + (length or 0) for _, length in layout.groups(read, header)) if header else 0
    os.close(descriptor)
    found = {"femem_place": place, "femem_journal_used_bytes": used, "femem_known_place": max(place, last or 0)}
    return {**found, **({"femem_generation": header.generation} if header else {})}


def of_backup(copy: str) -> Dict[str, float]:
    """The age of the last backup; with none it is as old as can be."""
    return {"femem_backup_age_seconds": time.time() - (os.stat(copy).st_mtime if os.path.exists(copy) else 0.0)}


def all_of(found: Found, store: Optional[str], copy: Optional[str], counts: Optional[str]) -> str:
    """The lines of a probe, and with a store those of the store and of systemd."""
    values: Dict[str, float] = {"femem_probe_status": found.status, "femem_probe_seconds": found.seconds}
    values.update({f"femem_{name}_total": count for name, count in (counted(counts, found.status) if counts else [])})
    if copy:
        values.update(of_backup(copy))
    if store:
        values.update(restarts())
        # (while nothing can be stored, reading the store may hang)
        with contextlib.suppress(Fault):
            values.update(of_store(store) if found.status in (DONE, WITH_A_NOTE) else {})
    lines: List[str] = [f"{name} {value:.6f}" if isinstance(value, float) else f"{name} {value}" for name, value in values.items()]
    return "\n".join([*lines, f"femem_written_seconds {time.time():.0f}"]) + "\n"


def run(asked: argparse.Namespace) -> int:
    """Probes, and prints the result, or writes the metrics into a file."""
    found = probe(path_of(asked.socket, "socket"), asked.session, asked.limit, asked.slow)
    store = path_of(asked.store, "store") if asked.store else None
    if not asked.metrics and not asked.output:
        if asked.counts:
            counted(asked.counts, found.status)
        print(found.text, file=sys.stdout if found.status in (DONE, WITH_A_NOTE) else sys.stderr)
        return found.status
    text = all_of(found, store, asked.backup, asked.counts)
    if not asked.output:
        print(text, end="")
        return found.status
    with New(asked.output, (b"femem_pr",), mode=0o644) as new:
        new.write(text.encode())
        new.name()
    return DONE
