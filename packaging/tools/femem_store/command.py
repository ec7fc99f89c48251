"""The command line of `femem-store`, and the statuses with which it ends."""

from __future__ import annotations

import argparse
import io
import os
import signal
import sys
from typing import Callable, List, NoReturn

from . import backup, check, make, metrics, places, rescue, restore, settings, verify
from .files import DONE, FAILED, NOT_ALLOWED, Fault

# The names under which these commands stood alone.
NAMES = {"make-store": "make", "femem-backup": "backup", "femem-restore": "restore", "femem-rescue": "rescue", "femem-probe": "probe"}
STATUSES = """\
STORE is a store's file, or the server's settings (a name that ends in .toml), which name it.
Status: 0 done; 1 not done, or something is wrong; 2 a wrong command line; 3 done, with something to see to; 4 no server;
5 not allowed. femem-store(1) says more."""


def note(given: str) -> int:
    places.note_now(settings.store_of(given))
    return DONE


def parser() -> argparse.ArgumentParser:
    """The commands, with what each runs."""
    found = argparse.ArgumentParser(prog="femem-store", description="Makes, copies, checks and mends stores of femem.", epilog=STATUSES)
    commands = found.add_subparsers(metavar="COMMAND", required=True)

    def command(name: str, what: str, runs: Callable[[argparse.Namespace], int], *paths: str) -> argparse.ArgumentParser:
        made = commands.add_parser(name, help=what, description=what, epilog=STATUSES)
        made.set_defaults(runs=runs)
        for path in paths:
            made.add_argument(path.lower(), metavar=path)
        return made

    made = command("make", "makes an empty store where no file is", lambda it: make.make(it.store, it.limit), "STORE")
    made.add_argument("--limit", metavar="SECONDS", type=float, default=60.0, help="give up after that (default 60)")
    made = command("backup", "copies a store, also a served one", lambda it: backup.backup(it.store, it.copy, it.keep), "STORE", "COPY")
    made.add_argument("--keep", metavar="N", type=at_least_one, default=1, help="keep N copies: COPY, COPY.1, .. (default 1)")
    command("restore", "puts a backup in the place of a store", lambda it: restore.restore(it.backup, it.store), "BACKUP", "STORE")
    made = command("rescue", "lists what a damaged store gives, or makes a copy of it", lambda it: rescue.rescue(it.store, it.copy, it.way), "STORE")
    made.add_argument("copy", metavar="COPY", nargs="?")
    made.add_argument("--way", metavar="N", type=int, help="which of those listed")
    made = command("verify", "shows what is in a store, also in a served one", lambda it: verify.verify(it.store, it.groups), "STORE")
    made.add_argument("--groups", action="store_true", help="list each group")
    made = command("why", "says why a server refuses a store", lambda it: check.why(it.store, it.user), "STORE")
    made.add_argument("--user", metavar="NAME", help="the user who serves it (default: you)")
    made = command("check", "refuses a start over a store that is wrong", lambda it: check.check(it.store, it.accept), "STORE")
    made.add_argument("--accept", action="store_true", help="a place below the last known one is meant")
    command("note", "notes the last known place", lambda it: note(it.store), "STORE")
    of_probe(command("probe", "has a server store something", lambda it: metrics.run(it), "SOCKET"))
    return found


def of_probe(made: argparse.ArgumentParser) -> None:
    """The options of a probe."""
    made.add_argument("--limit", metavar="SECONDS", type=float, default=5.0, help="fail after that (default 5)")
    made.add_argument("--slow", metavar="SECONDS", type=float, default=1.0, help="status 3 above that (default 1)")
    made.add_argument("--session", metavar="N", type=int, help="a session, instead of one that no other probe has")
    made.add_argument("--metrics", action="store_true", help="print the result as Prometheus text")
    made.add_argument("--counts", metavar="FILE", help="count probes, slow ones and failed ones there")
    made.add_argument("--store", metavar="STORE", help="add metrics of the store, and note its place")
    made.add_argument("--backup", metavar="COPY", help="add metrics of the last backup")
    made.add_argument("--output", metavar="FILE", help="write the metrics into a file")


def at_least_one(text: str) -> int:
    found = int(text)
    if found < 1:
        raise ValueError
    return found


def end(*_: object) -> NoReturn:
    sys.exit(128 + signal.SIGTERM)


def main(words: List[str]) -> int:
    """Runs a command, under one of its names. A fault is one line."""
    called = NAMES.get(os.path.basename(words[0]))
    # (a path may have any bytes)
    if isinstance(sys.stdout, io.TextIOWrapper):
        sys.stdout.reconfigure(errors="backslashreplace")
    # (what a command has begun is removed)
    signal.signal(signal.SIGTERM, end)
    asked = parser().parse_args([*([called] if called else []), *words[1:]])
    try:
        found: int = asked.runs(asked)
        return found
    except Fault as fault:
        print(f"femem-store: {fault}", file=sys.stderr)
        return fault.status
    except OSError as error:
        print(f"femem-store: {error.filename or error.__class__.__name__}: {error.strerror}", file=sys.stderr)
        return NOT_ALLOWED if isinstance(error, PermissionError) else FAILED
    except KeyboardInterrupt:
        return 128 + signal.SIGINT


