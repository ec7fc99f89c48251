"""Makes an empty store where no file is.

A server with settings of its own, with `format = true`, makes it. It serves one connection, at a socket that no other user can reach,
and ends. So the settings of a running server never need `format`.
"""

from __future__ import annotations

import contextlib
import json
import os
import socket
import subprocess
import tempfile
import time
from typing import Iterator

from . import places, program
from .files import Fault


@contextlib.contextmanager
def serving(room: str, store: str) -> Iterator[subprocess.Popen[bytes]]:
    """A server that makes the store, which is ended in any case."""
    settings = os.path.join(room, "femem.toml")
    with open(settings, "w", encoding="utf-8") as file:
        for key, value in (("socket", f"{room}/socket"), ("store", store), ("connections", 1), ("format", True), ("accepts", 1)):
            file.write(f"{key} = {json.dumps(value, ensure_ascii=False)}\n")
    with open(os.path.join(room, "said"), "wb") as said:
        try:
            server = subprocess.Popen(
                [program.PROGRAM, "serve", "--settings", settings], stdin=subprocess.DEVNULL, stdout=subprocess.DEVNULL, stderr=said
            )
        except OSError as error:
            raise Fault(f"{program.PROGRAM}: {error.strerror}; FEMEM names the program") from None
    try:
        yield server
    finally:
        if server.poll() is None:
            server.kill()
            # (one that a device keeps ends as soon as that lets it go, and makes nothing more)
            with contextlib.suppress(subprocess.TimeoutExpired):
                server.wait(5)


def ended(server: subprocess.Popen[bytes], path: str, seconds: float) -> bool:
    """Whether the server ends in time, once a connection has come and gone."""
    deadline = time.monotonic() + seconds
    while server.poll() is None and time.monotonic() < deadline:
        with contextlib.suppress(OSError), socket.socket(socket.AF_UNIX) as conn:
            conn.connect(path)
        time.sleep(0.02)
    return server.poll() is not None


def is_text(path: str) -> bool:
    try:
        return bool(path.encode())
    except UnicodeEncodeError:
        return False


def make(store: str, seconds: float) -> int:
    """Gives up after that many seconds, and then leaves nothing."""
    store = os.path.abspath(store)
    if not is_text(store):
        raise Fault("a path that is not UTF-8 can't be written into the settings")
    if os.path.lexists(store):
        raise Fault(f"there is a file: {store}")
    was_there = os.path.lexists(f"{store}.new")
    try:
        with tempfile.TemporaryDirectory(prefix="femem-") as room:
            with serving(room, store) as server:
                if not ended(server, f"{room}/socket", seconds):
                    raise Fault(f"no store was made: the server that makes it did not end within {seconds:g} s: {store}")
            with open(os.path.join(room, "said"), encoding="utf-8", errors="replace") as file:
                said = file.read().strip()
        if server.returncode or not os.path.isfile(store):
            raise Fault(f"no store was made: {said or f'status {server.returncode}'}: {store}")
    except BaseException:
        if not was_there and not os.path.lexists(store):
            with contextlib.suppress(OSError):
                os.unlink(f"{store}.new")
        raise
    with contextlib.suppress(Fault):
        places.note(store, 0, may_lower=True)
    return 0
