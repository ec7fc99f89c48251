"""Clients that do at random whatever the protocol allows, and the resulting history."""

import random
import time
from pathlib import Path

from . import wire
from .copies import copied
from .harness import Server, Worker, holds, same, within
from .history import History
from .model import EMPTY, FULL

CLIENTS, SECONDS, WORDS = 12, 5, 3
NEEDS = {b"readfe": FULL, b"readff": FULL, b"writeef": EMPTY, b"writeff": FULL, b"int_fetch_add": FULL}


class Client:
    """A client that asks, cancels, settles, leaves and comes back at random, and knows which replies are allowed."""

    def __init__(self, server, session, seed):
        self.server = server
        self.session = session
        self.random = random.Random(seed)
        self.life = 0
        self.told = []  # (life, number, request, answer)
        self.conn = None
        self.begin_life()

    def begin_life(self):
        self.floor = 1
        self.next = 1
        self.open = {}
        self.cancelled = set()  # the open numbers with a cancel under way
        self.is_leaving = False

    def work(self, ends):
        while time.monotonic() < ends:
            if self.conn is None:
                self.come()
            self.act()
            self.listen(self.random.choice((0.001, 0.003, 0.02)))
        # what is under way ends, except what waits (on a slow disk an answer takes a second)
        while self.listen(0.5 * wire.patience):
            pass

    def come(self):
        """Attaches over a new connection, and sends unanswered requests again."""
        conn = self.server.connect()
        conn.send(wire.attach(self.session))
        welcome = conn.reply()
        while welcome[0] != "welcome":
            # (replies stored after the session is taken over come here, even before the welcome)
            self.take(welcome)
            welcome = conn.reply()
        same(welcome[1], self.session)
        if self.is_leaving and welcome[2] == 1:
            self.life += 1
            self.begin_life()
        same(welcome[2], self.floor, f"the floor of session {self.session}")
        self.is_leaving = False
        self.cancelled.clear()
        for number, request in sorted(self.open.items()):
            conn.send(wire.call(number, request))
        if self.conn:
            self.conn.close()
        self.conn = conn

    def act(self):
        chance = self.random.random()
        if self.is_leaving:
            return
        if chance < 0.6:
            for _ in range(self.random.randrange(1, 5)):
                if len(self.open) < 12 and self.next < self.floor + 32:
                    self.open[self.next] = self.request()
                    self.conn.send(wire.call(self.next, self.open[self.next]))
                    self.next += 1
        elif chance < 0.83 and len(self.open) > len(self.cancelled):
            number = self.random.choice([it for it in self.open if it not in self.cancelled])
            if chance < 0.8:
                self.cancelled.add(number)
                self.conn.send(wire.cancel(number))
            else:
                self.conn.send(wire.call(number, self.open[number]))
        elif chance < 0.86:
            # (the session is taken over, or its connection ends and another is made)
            if self.random.random() < 0.5:
                self.conn.close()
                self.conn = None
            self.come()
        elif chance < 0.89 and not self.open and self.floor > 1:
            self.is_leaving = True
            self.conn.send(wire.bye())
        else:
            self.settle()

    def settle(self):
        """Settles, and waits for the reply: so it always knows its floor exactly."""
        least = min(self.open, default=self.next)
        if least > self.floor:
            self.conn.send(wire.settle(least))
            while self.floor < least:
                self.take(self.conn.reply())

    def request(self):
        pick = self.random.random()
        name = self.random.choice((b"a", b"b", b"a_name_of_more_than_16_bytes"))
        array = self.random.randrange(1, 8)
        if pick < 0.03:
            return ("create", name, self.random.choice((1, 3, 0)), self.random.randrange(2))
        if pick < 0.06:
            return ("find", name)
        if pick < 0.07:
            return ("remove", self.random.randrange(2, 40))
        op = self.random.randrange(16, 24)
        operand = self.random.randrange(1000) if op in wire.WITH_OPERAND else 0
        array = 1 if self.random.random() < 0.9 else array
        return ("access", op, array, self.random.randrange(WORDS + (pick > 0.98)), operand, self.random.random() < 0.2)

    def listen(self, seconds):
        """Takes what comes in that time. Returns whether anything came."""
        self.conn.wait(seconds)
        try:
            self.take(self.conn.reply())
            return True
        except wire.Ended as why:
            if "timed out" not in str(why):
                raise
            return False
        finally:
            self.conn.wait(20)

    def take(self, reply):
        kind, *rest = reply
        if kind == "answer" and rest[0] in self.open:
            self.told.append((self.life, rest[0], self.open.pop(rest[0]), rest[1]))
            # (its cancel is then refused; the refusal may come before this or after)
        elif kind == "answer":
            # (again, for a number that was sent again)
            holds((rest[0], rest[1]) in [(it[1], it[3]) for it in self.told if it[0] == self.life], f"session {self.session}: {reply}")
        elif kind == "withdrawn":
            holds(self.open.pop(rest[0], None) and rest[0] in self.cancelled, f"session {self.session}: {reply}")
            self.cancelled.discard(rest[0])
        elif kind == "settled":
            self.floor = rest[0]
        elif kind == "goodbye":
            self.life += 1
            self.begin_life()
            self.come()
        else:
            same(reply, ("refused", rest[0], "not-waiting"), f"session {self.session}")
            self.cancelled.discard(rest[0])


@within(90)
def histories(place):
    """clients at random: the whole history follows the table, every reply is in it, and no request that can be served waits"""
    server = Server(place).start()
    with server.attached(99) as conn:
        same(conn.ask(wire.call(1, ("create", b"shared", WORDS, 0)))[:2], ("answer", 1))
    clients = [Client(server, session, f"{place.options.seed} {session}") for session in range(CLIENTS)]
    ends = time.monotonic() + SECONDS
    workers = [Worker(client.work, ends) for client in clients]
    history = History()
    while any(it.is_alive() for it in workers):
        # (often enough: at most one checkpoint begins between two readings)
        content = copied(server.store)
        if content:
            history.read(content)
        time.sleep(0.05)
    for it in workers:
        it.ended()
    with server.connect() as conn:
        waiting = conn.ask(wire.report())[1]
    for client in clients:
        client.conn.wait(0.01)
        holds(not client.listen(0.01), "an answer came late")
    server.stop()
    history.read(Path(server.store).read_bytes())
    for client in clients:
        for life, number, request, answer in client.told:
            found = history.finished.get((client.session, life, number))
            same(found, (request, answer), f"what session {client.session} was told of its number {number}")
    left = nobody_is_left(waiting, history, clients)
    told = sum(len(client.told) for client in clients)
    return f"{history.state.place} entries, {told} answers, {sum(it.life for it in clients)} good-byes, {left} wait"


def nobody_is_left(waiting, history, clients):
    """Each request in the report waits for a tag that its word does not have, and its client has it open."""
    first, *lines = waiting.splitlines()
    rows = [line.split() for line in lines if line.startswith("word ")]
    same(first, f"waiting {len(rows)}")
    seen = {}
    for _, array, index, _, session, _, number, op in rows:
        value, tag = history.state.arrays[int(array)].words[int(index)]
        holds(tag != NEEDS[op.encode()], f"{op} of session {session} waits at a word with tag {tag}")
        holds(int(number) not in history.state.sessions[int(session)].kept, f"number {number} of session {session} waits and is kept")
        seen.setdefault(int(session), set()).add(int(number))
    for client in clients:
        same(seen.get(client.session, set()), set(client.open), f"what session {client.session} waits for")
    return len(rows)
