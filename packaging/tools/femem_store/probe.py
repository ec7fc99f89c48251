"""Has a server store something, and says how long that took.

A probe attaches a session of its own and ends it, two entries that are synced before they are answered. So it fails where the disk
hangs, which a report does not show.
"""

from __future__ import annotations

import os
import re
import socket
import struct
import time
from typing import List, NamedTuple, Optional, Tuple

from .files import DONE, FAILED, NO_SERVER, NOT_ALLOWED, WITH_A_NOTE

# A probe takes the first of these sessions that no other probe has now. So two at once don't take each other's, and what a failed one
# leaves is ended by the next.
SESSIONS = range(2**64 - 1, 2**64 - 9, -1)
WELCOME, GOODBYE = 65, 69


class Found(NamedTuple):
    """The status of a probe, what to say, and the seconds until its first entry was stored."""

    status: int
    text: str
    seconds: float


class Lost(Exception):
    """The server ended the connection."""


def asked(conn: socket.socket, body: bytes, deadline: float) -> int:
    """Sends a frame, and returns the kind of its reply."""
    conn.settimeout(max(deadline - time.monotonic(), 0.001))
    conn.sendall(struct.pack(">I", len(body)) + body)
    got = b""
    while len(got) < 4 or len(got) < 4 + struct.unpack(">I", got[:4])[0]:
        conn.settimeout(max(deadline - time.monotonic(), 0.001))
        piece = conn.recv(65536)
        if not piece:
            raise Lost
        got += piece
    return got[4]


def session_of_its_own(path: str, held: socket.socket) -> int:
    """A session that no other probe of this server has, as long as the socket is open, which gets a name by which others see that."""
    found = os.stat(path)
    for session in SESSIONS:
        try:
            held.bind(f"\0femem-probe-{found.st_dev}-{found.st_ino}-{session}")
            return session
        except OSError:
            pass
    return SESSIONS[-1]


def stored(path: str, session: Optional[int], limit: float) -> Found:
    """Probes the server at a socket."""
    begun = time.monotonic()
    with socket.socket(socket.AF_UNIX) as conn, socket.socket(socket.AF_UNIX) as held:
        conn.settimeout(limit)
        conn.connect(path)
        own = session_of_its_own(path, held) if session is None else session
        if asked(conn, struct.pack(">BQ", 1, own), begun + limit) != WELCOME:
            return Found(FAILED, "refused: no session is free", 0.0)
        took = time.monotonic() - begun
        asked(conn, b"\x08", begun + limit)
        return Found(DONE, f"stored in {took:.4f} s", took)


def probe(path: str, session: Optional[int], limit: float, slow: float) -> Found:
    begun = time.monotonic()
    try:
        found = stored(path, session, limit)
    except socket.timeout:
        return Found(FAILED, f"nothing was stored within {limit:g} s", time.monotonic() - begun)
    except PermissionError as error:
        return Found(NOT_ALLOWED, f"not allowed to use {path}: {error.strerror}", 0.0)
    except Lost:
        return Found(NO_SERVER, "no server: it ended the connection, or has no free one", 0.0)
    except OSError as error:
        return Found(NO_SERVER, f"no server: {path}: {error.strerror}", 0.0)
    if found.status == DONE and found.seconds > slow:
        return Found(WITH_A_NOTE, f"{found.text}, slower than {slow:g} s", found.seconds)
    return found


def counted(path: str, status: int) -> List[Tuple[str, int]]:
    """Adds a probe to the counts in a file: all probes, the slow ones, and those that failed."""
    counts = [0, 0, 0]
    if os.path.exists(path):
        with open(path, encoding="ascii") as file:
            found = re.fullmatch(r"probes (\d+) slow (\d+) failed (\d+)\n", file.read())
        counts = [int(it) for it in found.groups()] if found else counts
    counts = [counts[0] + 1, counts[1] + (status == WITH_A_NOTE), counts[2] + (status not in (DONE, WITH_A_NOTE))]
    with open(f"{path}.{os.getpid()}", "w", encoding="ascii") as file:
        file.write("probes {} slow {} failed {}\n".format(*counts))
    os.replace(f"{path}.{os.getpid()}", path)
    return list(zip(("probes", "probes_slow", "probes_failed"), counts))
