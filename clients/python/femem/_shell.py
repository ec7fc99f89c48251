"""What waits at a server, as lines, as a graph, as a page and as metrics. `femem-cli` has the other commands, and a prompt.

No command attaches a session, except for a moment those that show the owners of locks.
"""

from __future__ import annotations

import argparse
import json
import math
import os
import re
import signal
import sys
import threading
import time
from contextlib import suppress
from typing import Any, List, Optional, Tuple

from . import observer
from ._errors import FememError, ServerUnreachable
from .observer import Look, Observer, overview
from .requests import OPERATIONS

HELP = """\
report                              what waits, as the server reports it
watch [SECONDS] [--html FILE]       what waits, again and again, until Ctrl-C; or as a page
graph [FILE] [--owners]             what waits, as a graph for Graphviz; FILE.svg is a picture
metrics                             what waits, as text for Prometheus

femem-cli has operations, patterns and a prompt.
"""

Words = List[str]

# The commands, and how many words may follow each at most.
COMMANDS = {"report": 0, "watch": 1, "graph": 1, "metrics": 0}

# What femem-cli does.
REMOVED = ("create", "find", "remove", *(name for name, *_ in OPERATIONS.values()), "queue", "lock", "help", "quit")


class Usage(Exception):
    """A line that is not a command."""


# The statuses of the program `femem`, and 1 for what can't be shown.
FAILED, USAGE, SOCKET = 1, 2, 4

# The signals that end the shell, and how long the main thread has before one is sent to it again, in seconds.
ENDING, PAUSE = (signal.SIGTERM, signal.SIGHUP), 0.05

PATIENCE = 30.0  # how long the shell waits for an unresponsive server, in seconds


def main(arguments: Optional[Words] = None) -> int:
    """Returns the status: 0; 1 if it failed; 2 for a wrong command line; 4 if the server can't be used."""
    path, command, given = read(sys.argv[1:] if arguments is None else arguments)
    end_on_signals()
    try:
        with Observer(path, store=given.store, program=given.program, timeout=given.reconnect_timeout) as source:
            Shell(source, given).run(command)
    except Usage as usage:
        return fail(str(usage), USAGE)
    except ServerUnreachable as error:
        return fail(describe(error), SOCKET)
    except (FememError, ValueError) as error:
        return fail(describe(error), FAILED)
    except KeyboardInterrupt:
        return 128 + signal.SIGINT
    return 0


def end_on_signals() -> None:
    """Makes the first SIGTERM or SIGHUP raise SystemExit in the main thread, with status 128 plus its number.

    Python runs a handler between two of its own steps. A signal that comes after the last of them and before `read` blocks is
    noticed only when `read` returns, so a thread sends the signal again until the handler has run.
    """
    taken: List[int] = []
    main = threading.get_ident()
    reader, writer = os.pipe()
    os.set_blocking(writer, False)

    def end(number: int, _: Any) -> None:
        if not taken:
            taken.append(number)
            sys.exit(128 + number)

    def send_again() -> None:
        while True:
            number = os.read(reader, 1)[0]
            while number in ENDING and not taken:
                time.sleep(PAUSE)
                if not taken:
                    signal.pthread_kill(main, number)

    for number in ENDING:
        signal.signal(number, end)
    signal.set_wakeup_fd(writer, warn_on_full_buffer=False)
    threading.Thread(target=send_again, daemon=True).start()


def read(words: Words) -> Tuple[str, Words, argparse.Namespace]:
    """The socket, the command and the options."""
    parser = argparse.ArgumentParser(
        prog="femem-shell",
        usage="python3 -m femem [OPTION ..] [SOCKET] COMMAND ..",
        description="What waits at a femem server. SOCKET is by default that of the environment's FEMEM_SOCKET.",
        epilog=HELP,
        formatter_class=argparse.RawDescriptionHelpFormatter,
    )
    parser.add_argument("--store", help="the server's store, to show names of arrays and sessions")
    parser.add_argument("--program", default="femem", help="the program femem (default: femem)")
    parser.add_argument("--json", action="store_true", help="a report as JSON")
    parser.add_argument("--reconnect-timeout", type=float, default=PATIENCE, help="in seconds (default: 30)")
    parser.add_argument("--html", metavar="FILE", help="for watch: a page instead of lines")
    parser.add_argument("--owners", action="store_true", help="for graph: the owners of the locks that clients wait for")
    parser.add_argument("words", nargs="*", help=argparse.SUPPRESS)
    given, others = parser.parse_known_intermixed_args(words)
    path, command = split(given.words)
    # (an option that is not known may be of what femem-cli has; what follows it is among the others)
    removed = [word for word in [*command[:1], *others] if word in REMOVED]
    if removed:
        parser.exit(USAGE, f"femem: femem-cli has {removed[0]}\n")
    if others:
        parser.error(f"there is no {others[0]}")
    if not path:
        parser.error("no socket is given, and there is no FEMEM_SOCKET")
    if not command:
        parser.exit(USAGE, "femem: femem-cli has a prompt, and reads lists; here are report, watch, graph and metrics\n")
    return path, command, given


def split(words: Words) -> Tuple[Optional[str], Words]:
    """The socket, and the command after it. Where the environment has a socket, a first word that is no path is a command."""
    told = os.environ.get("FEMEM_SOCKET")
    is_command = bool(words) and words[0] in (*COMMANDS, *REMOVED)
    if words and not is_command and (told is None or "/" in words[0] or os.path.exists(words[0])):
        return words[0], words[1:]
    return told, words


def fail(text: str, status: int) -> int:
    print(f"femem: {text}", file=sys.stderr)
    return status


def describe(error: BaseException) -> str:
    name = re.sub(r"(?<!^)(?=[A-Z])", "-", type(error).__name__).lower()
    return f"{name}: {error}" if str(error) else name


class Shell:
    """Runs one command."""

    def __init__(self, source: Observer, given: argparse.Namespace) -> None:
        self._given = given
        self._observer = source

    def run(self, words: Words) -> None:
        command, *rest = words
        most = COMMANDS.get(command)
        if most is None:
            raise Usage(f"there is no {command}")
        if len(rest) > most:
            raise Usage(f"{rest[most]} is a word too many")
        getattr(self, command)(rest)

    def _look(self) -> Look:
        """What `femem look` shows. If it shows nothing, prints why, once."""
        known = self._observer.trouble
        look = self._observer.look()
        if self._observer.trouble not in ("", known):
            print(f"femem: the store shows no names: {self._observer.trouble}", file=sys.stderr)
        return look

    def report(self, rest: Words) -> None:
        report = self._observer.report()
        if self._given.json:
            waiters = [waiter.__dict__ for waiter in report.waiters]
            print(json.dumps({"waiters": waiters, "all_wait": report.all_wait}), flush=True)
        else:
            print(report.text, end="", flush=True)

    def watch(self, rest: Words) -> None:
        pause, file = seconds_of(rest[0]) if rest else 1.0, self._given.html
        while True:
            report = self._observer.report()
            if file is None:
                print(time.strftime("%H:%M:%S"), overview(report, self._look()), flush=True)
            else:
                owners = self._observer.owners(report)
                write(file, observer.page(report, self._look(), owners, pause))
            time.sleep(pause)

    def graph(self, rest: Words) -> None:
        report = self._observer.report()
        owners = self._observer.owners(report) if self._given.owners else {}
        text = observer.graph(report, self._look(), owners)
        if not rest:
            print(text, end="", flush=True)
        elif rest[0].endswith(".svg"):
            picture = observer.svg(text)
            if picture is None:
                raise Usage("the program dot is not installed")
            write(rest[0], picture)
        else:
            write(rest[0], text)

    def metrics(self, rest: Words) -> None:
        print(observer.metrics(self._observer.report(), self._look()), end="", flush=True)


def seconds_of(word: str) -> float:
    with suppress(ValueError):
        if 0 <= float(word) < math.inf:
            return float(word)
    raise Usage(f"{word} is no time")


def write(path: str, text: str) -> None:
    """Replaces the file's text in one step, so that readers see all of it or none."""
    try:
        with open(path + ".new", "w") as file:
            file.write(text)
        os.replace(path + ".new", path)
    except OSError as error:
        raise Usage(str(error)) from None
