"""Looking at a server without taking part: what waits, as text, as a graph, as metrics and as a page.

An `Observer` attaches no session. It asks for reports, which a connection without a session may do. So it changes nothing,
needs none of the 64 sessions, and does not count for `all-wait`.
"""

from __future__ import annotations

import html
import os
import re
import shutil
import socket
import subprocess
import threading
import time
from collections import Counter
from contextlib import suppress
from dataclasses import dataclass, field, replace
from typing import Dict, List, Optional, Tuple

from . import _errors as errors, _frames as frames, _reports as reports, requests
from ._arguments import MOST, Path, numbers, seconds_of
from ._client import Client
from ._reports import Report, Waiter
from ._operations import PRESENCE, end_of, left

__all__ = ["Look", "Observer", "all_wait", "blocked", "graph", "metrics", "overview", "page", "parse_look", "svg"]

_LONGEST = 1e9  # the longest time that a socket or a process can be waited for, in seconds

_ARRAY = re.compile(r"array ([0-9]+) ([a-z0-9_]+) ([0-9]+)")
_SESSION = re.compile(r"session ([0-9]+) floor [0-9]+ kept ([0-9]+)")


@dataclass(frozen=True)
class Look:
    """What `femem look` shows: each array's name and length, and how many answers each session keeps."""

    arrays: Dict[int, Tuple[str, int]] = field(default_factory=dict)
    sessions: Dict[int, int] = field(default_factory=dict)

    def name(self, array: int) -> str:
        """The array's name, if it is known."""
        return self.arrays[array][0] if array in self.arrays else f"array {array}"

    def present(self) -> Optional[int]:
        """The array at which clients wait to show that they are there."""
        return next((id for id, (name, _) in self.arrays.items() if name == PRESENCE), None)


def parse_look(text: str) -> Look:
    """What `femem look` has printed."""
    arrays = {int(m[1]): (m[2], int(m[3])) for m in map(_ARRAY.fullmatch, text.splitlines()) if m is not None}
    sessions = {int(m[1]): int(m[2]) for m in map(_SESSION.fullmatch, text.splitlines()) if m is not None}
    return Look(arrays, sessions)


def _rest(end: Optional[float]) -> Optional[float]:
    """How many seconds are left. `TimeoutError` if none are."""
    if end is None:
        return None
    rest = left(end, time.monotonic())
    if rest == 0.0:
        raise TimeoutError("timed out")
    return rest


class Observer:
    """Reports of a server. With the path of its store also names of arrays, and sessions, if `femem look` shows them.

    `program` is the path of `femem`. `trouble` is why the last look showed nothing, or empty. `timeout`, in seconds, is for a
    whole report.
    """

    def __init__(self, path: Path, *, store: Optional[Path] = None, program: str = "femem", timeout: Optional[float] = 30.0) -> None:
        self.path = os.fsdecode(path)
        self._store = None if store is None else os.fsdecode(store)
        self._program = program
        seconds = seconds_of(timeout)
        self._timeout = None if seconds is None else min(seconds, _LONGEST)
        self.trouble = ""
        # Threads may share it: one of them asks at a time.
        self._asking = threading.Lock()
        self._socket: Optional[socket.socket] = None
        # The array at which clients show that they are there, once `owners` found it.
        self._presence: Optional[int] = None

    def __repr__(self) -> str:
        return f"<femem observer of {self.path}>"

    def __enter__(self) -> Observer:
        return self

    def __exit__(self, *failure: object) -> None:
        self.close()

    def close(self) -> None:
        """Closes its connection. The next report makes another one."""
        with self._asking:
            self._disconnect()

    def _disconnect(self) -> None:
        if self._socket is not None:
            self._socket.close()
            self._socket = None

    def report(self) -> Report:
        """What waits now. Errors: `ServerUnreachable`, also if it takes longer than the timeout; `NoMemory`."""
        with self._asking:
            end = end_of(self._timeout, time.monotonic())
            try:
                if self._socket is not None:
                    try:
                        return self._ask(end)
                    except OSError:
                        self._disconnect()  # the server was restarted since the last time
                return self._ask(end)
            except OSError as error:
                self._disconnect()
                raise errors.ServerUnreachable(f"{self.path}: {error.strerror or error}") from None
            except BaseException:
                self._disconnect()  # its reply may come yet
                raise

    def _ask(self, end: Optional[float]) -> Report:
        if self._socket is None:
            self._socket = socket.socket(socket.AF_UNIX, socket.SOCK_STREAM)
            self._socket.settimeout(_rest(end))
            self._socket.connect(self.path)
        decoder = frames.ReplyDecoder()
        self._socket.settimeout(_rest(end))
        self._socket.sendall(frames.report())
        while True:
            self._socket.settimeout(_rest(end))
            piece = self._socket.recv(65536)
            if not piece:
                raise ConnectionResetError("the server ended the connection")
            for reply in decoder.feed(piece):
                if isinstance(reply, frames.Report):
                    return reports.parse(reply.text)
                if reply == frames.Refusal(0, frames.NO_MEMORY):
                    raise errors.NoMemory("report")
                raise errors.ProtocolError("a reply that nobody asked for")

    def look(self) -> Look:
        """What the store has, if `femem look` shows it. Otherwise only the array at which clients show that they are
        there, if `owners` found it."""
        look = self._look()
        if self._presence is not None:
            look.arrays.setdefault(self._presence, (PRESENCE, 1))
        return look

    def _look(self) -> Look:
        if self._store is None:
            return Look()
        try:
            done = subprocess.run([self._program, "look", "--store", self._store], capture_output=True, text=True, timeout=self._timeout)
        except (OSError, subprocess.SubprocessError) as error:
            self.trouble = f"{self._program}: {error}"
            return Look()
        self.trouble = "" if done.returncode == 0 else done.stderr.strip() or f"status {done.returncode}"
        return parse_look(done.stdout) if done.returncode == 0 else Look()

    def owners(self, report: Report) -> Dict[int, int]:
        """The owners of the locks that clients wait for, by array. Only this needs a session, for a moment.

        A client that fills word 0 of an array of two words with some number looks like the owner of a lock.
        """
        locks = {w.array for w in report.waiters if w.index == 0 and w.operation == "writeef"}
        found: Dict[int, int] = {}
        if not locks:
            return found
        is_away = suppress(errors.SessionLimit, errors.ServerUnreachable)
        with is_away, Client(self.path, reconnect_timeout=self._timeout) as client:
            (presence,) = client.submit_many([requests.find(PRESENCE)])
            self._presence = presence.id if isinstance(presence, requests.Array) else None
            for array in sorted(locks):
                with suppress(errors.AnswerError):
                    client.readxx(array, 1)  # the count of a lock
                    found[array] = client.readff(array, 0, nowait=True)
        return found


def blocked(report: Report, look: Look) -> List[Waiter]:
    """The requests that wait for something, and not only to show a client."""
    present = look.present()
    return [waiter for waiter in report.waiters if waiter.array != present]


def all_wait(report: Report, look: Look) -> bool:
    """Whether every attached session waits for something, not counting requests that only show a client."""
    return report.all_wait and set(report.sessions) == {waiter.session for waiter in blocked(report, look)}


def overview(report: Report, look: Optional[Look] = None) -> str:
    """Which sessions wait at which word, and for which tag."""
    known = look or Look()
    waiters = blocked(report, known)
    if not waiters:
        return "nobody waits"
    lines = ["every attached session waits" if all_wait(report, known) else "not every attached session waits"]
    words: Dict[Tuple[int, int], List[Waiter]] = {}
    for waiter in waiters:
        words.setdefault((waiter.array, waiter.index), []).append(waiter)
    for (array, index), here in words.items():
        who = ", ".join(f"session {w.session} ({w.operation}, number {w.number})" for w in here)
        lines.append(f"  word {index} of {known.name(array)} is to become {here[0].needs} for {who}")
    waiting = {w.session for w in waiters}
    for session, kept in known.sessions.items():
        lines.append(f"  session {session}: {kept} answers kept" + (", waits" if session in waiting else ""))
    return "\n".join(lines)


_FONT = 'fontname="Helvetica,Arial,sans-serif"'
_HELD = 'color="#b3261e", fontcolor="#b3261e"'


def graph(report: Report, look: Optional[Look] = None, owners: Optional[Dict[int, int]] = None) -> str:
    """The waits as a graph for Graphviz: from each session to the words that it waits at, and from a lock to its owner.

    So sessions that wait for each other's locks are a cycle. What an owner's client waits for over its further sessions is
    drawn at the owner. Who will fill or empty other words is not known.
    """
    known, held = look or Look(), owners or {}
    whose = {number: owner for owner in set(held.values()) for number in numbers(owner, MOST)}
    waiters = [replace(waiter, session=whose.get(waiter.session, waiter.session)) for waiter in blocked(report, known)]
    lines = ["digraph waits {", "  rankdir=LR;", f"  node [{_FONT}];", f"  edge [{_FONT}, fontsize=11];", f"  {_FONT};"]
    if all_wait(report, known):
        lines.append('  label="every attached session waits";')
    sessions = [w.session for w in waiters] + list(held.values())
    for session in dict.fromkeys(sessions):
        lines.append(f'  "s{session}" [shape=box, style=filled, fillcolor="#e3ecf9", label="session {session}"];')
    for array, index in dict.fromkeys((w.array, w.index) for w in waiters):
        lines.append(f'  "w{array}_{index}" [label="word {index} of {known.name(array)}"];')
    arrows = Counter((w.session, w.array, w.index, w.operation, w.needs) for w in waiters)
    for (session, array, index, operation, needs), count in arrows.items():
        label = f"{operation}{f' ({count} times)' if count > 1 else ''}, needs {needs}"
        lines.append(f'  "s{session}" -> "w{array}_{index}" [label="{label}"];')
    for array, session in held.items():
        lines.append(f'  "w{array}_0" -> "s{session}" [label="is held by", style=bold, {_HELD}];')
    lines.append("}")
    return "\n".join(lines) + "\n"


def svg(dot: str) -> Optional[str]:
    """The graph as a picture, made by the program `dot`, if it is installed."""
    if shutil.which("dot") is None:
        return None
    try:
        done = subprocess.run(["dot", "-Tsvg"], input=dot, capture_output=True, text=True, timeout=60)
    except (OSError, subprocess.SubprocessError):
        return None
    return done.stdout[done.stdout.find("<svg") :] if done.returncode == 0 else None


def metrics(report: Report, look: Optional[Look] = None) -> str:
    """What waits, in the text format of Prometheus."""
    known = look or Look()
    waiters = blocked(report, known)
    by_array, by_session = Counter(w.array for w in waiters), Counter(w.session for w in waiters)
    lines = _gauge("femem_waiting", "Requests that wait.", {"": len(waiters)})
    arrays = {f'{{array="{array}",name="{known.name(array)}"}}': count for array, count in by_array.items()}
    lines += _gauge("femem_array_waiting", "Requests that wait, by array.", arrays)
    sessions = {f'{{session="{session}"}}': count for session, count in by_session.items()}
    lines += _gauge("femem_session_waiting", "Requests that wait, by session.", sessions)
    lines += _gauge("femem_all_wait", "1 where every attached session waits.", {"": int(all_wait(report, known))})
    if look is not None and (look.arrays or look.sessions):
        lines += _gauge("femem_sessions", "Sessions that are kept, of 64.", {"": len(look.sessions)})
        lines += _gauge("femem_arrays", "Arrays, of 64.", {"": len(look.arrays)})
        words = {"": sum(length for _, length in look.arrays.values())}
        lines += _gauge("femem_words", "Words of all arrays, of 65,536.", words)
    return "\n".join(lines) + "\n"


def _gauge(name: str, what: str, values: Dict[str, int]) -> List[str]:
    return [f"# HELP {name} {what}", f"# TYPE {name} gauge", *(f"{name}{of} {value}" for of, value in values.items())]


def page(report: Report, look: Look, owners: Dict[int, int], refresh: float) -> str:
    """A self-contained page that refreshes itself: the picture, and the waits as a table."""
    picture = svg(graph(report, look, owners))
    waits = blocked(report, look)
    cells = [(look.name(w.array), w.index, w.session, w.number, w.operation, w.needs) for w in waits]
    shown = ["".join(f"<td>{html.escape(str(cell))}</td>" for cell in row) for row in cells]
    rows = "".join(f"<tr>{row}</tr>\n" for row in shown)
    head = "".join(f"<th>{cell}</th>" for cell in ("array", "word", "session", "number", "operation", "needs"))
    state = "not every attached session waits"
    if all_wait(report, look):
        state = '<span class="all">every attached session waits</span>'
    return (
        f'<!DOCTYPE html>\n<html lang="en"><head><meta charset="utf-8">\n'
        f'<meta http-equiv="refresh" content="{max(1, round(refresh))}">\n<title>femem</title>\n'
        "<style>body{font:15px sans-serif;margin:2em}td,th{padding:.2em 1em;text-align:left}"
        "table{border-collapse:collapse;margin-top:1em}tbody tr:nth-child(odd){background:#eee}"
        ".all{color:#b3261e;font-weight:bold}svg{max-width:100%;height:auto}</style></head>\n"
        f"<body><h1>femem</h1>\n<p>{time.strftime('%Y-%m-%d %H:%M:%S')}: {state}.</p>\n"
        + (picture or "<p>No picture: the program dot is not installed.</p>\n")
        + f"<table><thead><tr>{head}</tr></thead>\n<tbody>{rows}</tbody></table>\n</body></html>\n"
    )
