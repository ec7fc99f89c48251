"""Looks at a store while a server writes it."""

import collections
import os
from pathlib import Path

from . import store, wire
from .crowds import adding
from .harness import Server, Worker, holds, same, until, within
from .model import State

LOOKS = 1000
LEAST_CHECKPOINTS = 5
CALLS = 15  # between two settles
BIG = 60000  # words: a checkpoint then has nine slices


class Load:
    """A client with one connection, each of whose messages makes one entry, in order, until it is stopped."""

    def __init__(self, server):
        self.server = server
        self.state = State()  # after everything requested
        self.entries = collections.deque()  # those requested and not yet taken
        self.known = State()  # at the last place that was shown
        self.asked = 0
        self.answered = 0
        self.is_ending = False
        self.worker = Worker(self.work)

    raised = property(lambda self: self.worker.raised)

    def add(self, entry):
        self.state.apply(entry)
        self.entries.append(entry)
        self.asked += 1

    def call(self, number, request):
        """A message, and the expected reply."""
        answer = self.state.answer_to(request)
        self.add(("finished", 7, number, request, answer))
        return wire.call(number, request), ("answer", number, answer)

    def settle(self, floor):
        self.add(("settled", 7, floor))
        return wire.settle(floor), ("settled", floor)

    def round(self, number):
        """Adds to a word; creates an array, finds it and removes it."""
        name, id = b"r%d" % number, self.state.next_id
        requests = [adding(1, 0, 1)] * (CALLS - 3) + [("create", name, 3, 1), ("find", name), ("remove", id)]
        said = [self.call(number + k, request) for k, request in enumerate(requests)]
        return said + [self.settle(number + CALLS)]

    def exchange(self, conn, said):
        conn.send(b"".join(message for message, _ in said))
        for _, reply in said:
            same(conn.reply(), reply)
            self.answered += 1

    def work(self):
        self.add(("attached", 7, 1))
        with self.server.connect() as conn:
            same(conn.ask(wire.attach(7)), ("welcome", 7, 1))
            self.answered += 1
            self.exchange(conn, [self.call(1, ("create", b"big", BIG, 1)), self.settle(2)])
            number = 2
            while not self.is_ending:
                self.exchange(conn, self.round(number))
                number += CALLS

    def at(self, place, answered, what):
        """The state at a place that was shown now: it has all that was answered before, and nothing that was not asked for."""
        last, asked = self.known.place, self.asked
        holds(max(answered, last) <= place <= asked, f"{what}: place {place}, after {last}; {answered} were answered, {asked} asked")
        while self.known.place < place:
            self.known.apply(self.entries.popleft())
        return self.known

    def end(self):
        self.is_ending = True
        self.worker.ended(60)


def generation(path):
    """The generation of the slot that counts, in a store that is not being written."""
    return store.slots_of(Path(path).read_bytes())[0].generation


@within(400)
def while_served(place):
    """a thousand looks at a store that a server writes, with checkpoints: each succeeds and shows the state at its place, which never falls"""
    server = Server(place).start()
    load = Load(server)
    until(lambda: load.answered > 100 or load.raised, 30, "the load begins")
    first = load.answered
    for number in range(LOOKS):
        answered = load.answered
        text = server.looks()
        # (what a look shows was stored before the look ended, so it was requested before)
        at = int(text.split("\n", 1)[0].removeprefix("place "))
        same(text, load.at(at, answered, f"look {number}").looks(), f"look {number}")
        holds(load.raised is None, f"the load ended: {load.raised}")
    load.end()
    text = server.looks()
    server.stop()
    same(server.looks(), text, "a look at the store that the server left")
    checkpoints = generation(server.store) - 1
    holds(checkpoints >= LEAST_CHECKPOINTS, f"only {checkpoints} checkpoints")
    return f"{LOOKS} looks, {at - first} entries, {checkpoints} checkpoints"


def beside_one_that_starts(place):
    """a running look does not keep a server from its store, nor a running server a look"""
    server = Server(place).start()
    same(server.looks(), "place 0\n")
    server.attached(7).close()
    same(server.looks(), "place 1\nsession 7 floor 1 kept 0\n")
    other = Server(place, "t", store=server.store).start(waits=False)
    same(other.ended(), (3, "", "femem: store device\n"), "a second server")
    holds(not os.path.exists(other.socket), "the second server made its socket")
