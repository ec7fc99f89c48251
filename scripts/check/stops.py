"""A server that is killed at each of its calls in turn, while a store is made, formatted, checkpointed or moved to format 2.

A run kills it at one point of every `108 // N`, with N from `--stops N`, and at random moments until there are N kills. Which
points these are is decided by the number of commits, so that with N = 12 nine commits, one after another, cover all."""

import os
import random
import subprocess
import time

from . import faults, store, wire
from .crowds import adding
from .faults import Client, fills_and_others, is_change
from .harness import Worker, holds, same, within
from .model import State


COVERED = 108  # every point is taken once in COVERED / N commits


def commits():
    """The number of the repository's commits up to this one; 0 where there is no git."""
    here = os.path.dirname(os.path.realpath(__file__))
    try:
        words = ["git", "-C", here, "rev-list", "--count", "HEAD"]
        return int(subprocess.run(words, stdin=subprocess.DEVNULL, capture_output=True, check=True, timeout=60).stdout)
    except (OSError, subprocess.SubprocessError, ValueError):
        return 0


def share_of(points, stops, number):
    """The points of a run with `--stops STOPS` at that number of commits."""
    strides = max(1, COVERED // stops)
    return points[number % strides :: strides]


class Trial(faults.Trial):
    """The same, with the server killed at its calls. `others` has the files next to the store at the end."""

    def __init__(self, place, base, work, formats, others=()):
        super().__init__(place, base, work, formats)
        self.others = dict(others)

    def points(self, calls):
        """Before and after each call that changes a file, and within each write; three of the writes that fill a file with zeros."""
        found = []
        for number, kind in fills_and_others(calls):
            found += [(number, how) for how in ("before", "half", "after") if how != "half" or "write" in kind]
        return found

    def killed_at(self, number, how):
        server, client = self.run(TURN=number, HOW=how)
        same(server.process.returncode, -9, f"killed {how} call {number}: {len(client.answers)} answers")
        self.goes_on(server, client, f"killed {how} call {number}")

    def killed_behind(self, seconds):
        """Kills the server after that time, whatever it is doing."""
        server = self.started()
        # (after the kill it should not try to connect for long)
        client = Client(server, self.work, seconds=1)
        worker = Worker(client.attempt)
        time.sleep(seconds)
        server.process.kill()
        server.process.wait(30 * wire.patience)
        worker.ended(60)
        client.seconds = 10
        self.goes_on(server, client, f"killed behind {seconds:.4f} seconds")

    def goes_on(self, server, client, name):
        """The next start opens the store with each answer, and does unanswered requests once. No other file is left."""
        faults.goes_on(self.place, server, client, self.wanted, name)
        found = store.read_store(self.place.read("store"))[2].sessions[7].kept
        same([found[number][1] for number in range(1, len(self.wanted) + 1)], self.wanted, name)
        left = {file: self.place.read(file) for file in os.listdir(self.place.folder) if file.startswith("store.")}
        holds(left == self.others, f"{name}: files beside the store: {sorted(left)}")

    def kills(self):
        """Kills the server at this commit's points, and at random moments. Returns how often at each, and at which of how many points."""
        calls = self.right()
        points, stops = self.points(calls), self.place.options.stops
        chosen = share_of(points, stops, commits())
        holds(chosen and chosen[0] in points[: max(1, COVERED // stops)], f"no point was chosen of {len(points)}")
        for number, how in chosen:
            self.killed_at(number, how)
        left = max(0, stops - len(chosen))
        for _ in range(left):
            self.killed_behind(random.uniform(0, self.seconds))
        kinds = sorted({call.kind for call in calls if is_change(call)})
        which = f"from point {points.index(chosen[0]) + 1} of {len(points)} on"
        return f"{len(chosen)} kills {which}, in calls of {', '.join(kinds)}, {left} at random moments"


def covered(_place):
    """nine commits, one after another, cover every point of a check"""
    for count in (9, 70, 109, 130):
        points = list(range(count))
        for first in (0, 1, 1000):
            found = [share_of(points, 12, number) for number in range(first, first + 9)]
            same(sorted(sum(found, [])), points, f"{count} points from commit {first} on")
            holds(all(found), f"{count} points: a commit has none")
        same(share_of(points, 170, 5), points)


WORK = [("create", b"counter", 2, 1)] + [adding(1, 0, 1)] * 3


def kept_before():
    """The bytes of a former store whose first slot does not count."""
    device = bytearray(faults.near_a_checkpoint())
    device[store.SLOT] += 1
    return bytes(device)


def of_format_1(entries):
    """A store of format 1 with a large array and that many entries in two groups."""
    state = State()
    for entry in (("attached", 9, 1), ("finished", 9, 1, ("create", b"big", 20000, 1), ("array", 1, 20000))):
        state.apply(entry)
    return bytes(store.device_of(store.ONE, state, [[("attached", 9, 1)] * entries] * 2, 2, 1))


def killed(name, says, made):
    """A check that kills the server of a trial."""

    @within(300)
    def check(place):
        return Trial(place, *made()).kills()

    check.__name__, check.__doc__ = name, says
    return check


NINE, NAMED = [adding(1, 19999, 1)] * 9, [adding(1, 0, 1), ("find", b"seventeen_letters"), adding(1, 0, 1)]
making = killed(
    "making", "a server is killed while it makes its store: the next start opens it, with every answer", lambda: (None, WORK, True),
)
formatting = killed(
    "formatting", "the same while it formats a file of zeros; no copy of it is left", lambda: (bytes(store.SIZE), WORK, True),
)
keeping = killed(
    "keeping", "the same while it formats a former store; a whole copy of that is left",
    lambda: (kept_before(), WORK, True, [("store.before-format", kept_before())]),
)
checkpointing = killed(
    "checkpointing", "the same while it makes a checkpoint between groups", lambda: (faults.near_a_checkpoint(), NINE, False),
)
migrating = killed(
    "migrating", "the same while a checkpoint between groups moves the store from format 1 to format 2",
    lambda: (of_format_1(4095), NINE, False),
)
migrating_by_a_name = killed(
    "migrating_by_a_name", "the same while it is moved because of a name that has no record in format 1",
    lambda: (of_format_1(10), NAMED, False),
)
