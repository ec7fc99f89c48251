"""A world for the core: the model of the server, clients, and a stream in each direction for each connection."""

import random

from model import Model, read_messages

from femem import _core as core
from femem._arguments import Choice
from femem._jobs import Ticket


class Core(core.Core):
    """A core that takes a request as it is."""

    def submit(self, request, now, timeout=None):
        self._check()
        ticket = Ticket(request)
        self.take((ticket,), timeout, now)
        return ticket


class World:
    """Clients with a model. What happens next is random."""

    def __init__(self, seed):
        self.random = random.Random(seed)
        self.model = Model(seed)
        self.now = 100.0
        self.conns = 0
        self.links = {}  # core: (conn, bytes to the server); the bytes to the client
        self.half_open = []  # connections that the client has given up and the server still has

    def core(self, session, timeout=None, probe_interval=1.0):
        core = Core(Choice("", session, patience=timeout, pause=probe_interval), lambda: self.now)
        core.open(self.now)
        return core

    def connect(self, core):
        self.conns += 1
        self.model.connect(self.conns)
        self.links[core] = [self.conns, bytearray(), bytearray()]
        core.connected(self.now)

    def push(self, core, most=10**6):
        """Moves a piece from the client to the server, and puts the server's replies on their way."""
        link = self.links.get(core)
        if link is None:
            return
        conn, there, back = link
        there += core.to_send
        core.to_send.clear()
        taken = min(len(there), self.random.randint(0, most))
        self.feed(conn, there, taken)
        self.collect(core)

    def feed(self, conn, there, taken):
        piece = there[:taken]
        rest = there[taken:]
        # The server keeps incomplete messages; the stream is cut here only to test the client.
        held = bytearray(piece)
        for message in read_messages(held):
            self.model.take(conn, message)
        there[:] = held + rest

    def collect(self, core):
        conn, _, back = self.links[core]
        if conn in self.model.boxes:
            for reply in self.model.take_mail(conn):
                back += reply
        elif not back:
            self.lose(core)

    def pull(self, core, most=10**6):
        link = self.links.get(core)
        if link is None:
            return
        self.collect(core)
        if core in self.links:
            back = link[2]
            size = min(len(back), self.random.randint(0, most))
            piece = bytes(back[:size])
            del back[:size]
            core.received(piece, self.now)

    def lose(self, core):
        if core in self.links:
            del self.links[core]
            core.disconnected(self.now)

    def break_off(self, core):
        """The server drops a connection, and may have received part of what was on the way."""
        link = self.links.get(core)
        if link is not None:
            conn, there, _ = link
            if self.random.random() < 0.5:
                self.feed(conn, there, self.random.randint(0, len(there)))
            self.model.gone(conn)
            self.lose(core)

    def die(self, core):
        """The process of a client ends. The server sees it now, or later and perhaps after more of its bytes."""
        link = self.links.pop(core, None)
        core.close()
        if link is not None:
            if self.random.random() < 0.5:
                self.half_open.append(link[:2])
            else:
                self.model.gone(link[0])

    def late(self):
        """An ended process's connection ends at the server, perhaps after bringing what was on the way."""
        if self.half_open:
            conn, there = self.half_open.pop(0)
            if self.random.random() < 0.5:
                self.feed(conn, there, len(there))
            self.model.gone(conn)

    def stop(self):
        self.model.stop()
        self.half_open.clear()
        for core in list(self.links):
            self.lose(core)

    def settle_down(self, cores, rounds=4000):
        """Runs everything until nothing moves."""
        for _ in range(rounds):
            self.now += 0.03
            while self.half_open:
                self.late()
            for core in cores:
                if core.failure is None and core not in self.links:
                    self.connect(core)
                core.tick(self.now)
                self.push(core)
            self.model.post()
            for core in cores:
                self.pull(core)
            if all(core.failure is not None or not core.is_busy() for core in cores):
                return
        raise AssertionError("the clients do not come to an end")

    def any_step(self, cores, breaks=0.02, stops=0.004):
        core = self.random.choice(cores)
        chance = self.random.random()
        if chance < stops:
            self.stop()
        elif chance < stops + breaks:
            self.break_off(core)
        elif chance < 0.4:
            if core.failure is None and core not in self.links:
                self.connect(core)
            self.push(core, 60)
        elif chance < 0.55:
            self.model.post()
        elif chance < 0.57:
            self.late()
        elif chance < 0.62:
            self.now += self.random.random() * 0.2
            core.tick(self.now)
        else:
            self.pull(core, 80)


def run(world, core, request):
    ticket = core.submit(request, world.now)
    world.settle_down([core])
    if ticket.error is not None:
        raise ticket.error
    return ticket.result


def run_beside(world, core, request):
    """Runs one request while others wait."""
    ticket = core.submit(request, world.now)
    for _ in range(200):
        world.now += 0.03
        if core not in world.links:
            world.connect(core)
        core.tick(world.now)
        world.push(core)
        world.model.post()
        world.pull(core)
        if ticket.done:
            return ticket.result
    raise AssertionError("the request does not end")
