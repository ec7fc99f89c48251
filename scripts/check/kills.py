"""A server that is killed under load again and again, and restarted on the same store."""

import os
import random
import time
from pathlib import Path

from . import store, wire
from .crowds import made
from .harness import Server, Worker, Wrong, holds, same, until, within
from .history import History
from .model import State

ENTRIES_A_ROUND = 5500  # few enough that at most one checkpoint begins in a round
SECONDS_A_KILL = 0.4  # the target
MIGRATIONS = 12
COUNTERS, HANDS = 1, 2
EMPTY, FILL = 16, 19  # operations
SETTER = 99  # the session that makes the arrays


class Client:
    """A client that keeps its session, its numbers and its unanswered requests when the server stops."""

    window = 1
    most = None  # the maximum number of requests, once it is asked to finish

    def __init__(self, session):
        self.session = session
        self.life = 0  # how often it said bye
        self.welcomes = 0
        self.told = []  # (life, number, request, answer)
        self.sent = {}  # (life, number): the requests that were sent under the number
        self.begin_life()

    def begin_life(self):
        self.floor = 1
        self.next = 1
        self.open = {}  # number: unanswered request
        self.answers = {}  # number: answer
        self.settling = None
        self.is_leaving = False

    def request(self):
        """The next request, or None."""

    def take(self, request, answer):
        """Handles an answer."""

    def is_done(self):
        """Whether nothing is left to do, once it is asked to finish."""
        return not self.open and self.settling is None and not self.is_leaving

    def is_cancelled(self, request):
        return False

    def wants_to_leave(self):
        return False

    def over(self, conn, load):
        """Continues over a new connection, until it ends or all is done."""
        self.attach(conn)
        # unanswered requests are sent again, under the same numbers
        for number, request in sorted(self.open.items()):
            self.send(conn, number, request)
        while True:
            self.fill(conn, load)
            if load.is_ending and self.is_done():
                return
            self.handle(conn, conn.reply())
            load.answered += 1

    def attach(self, conn):
        reply = conn.ask(wire.attach(self.session))
        same(reply[:2], ("welcome", self.session))
        self.welcomes += 1
        floor = reply[2]
        if self.is_leaving and floor == 1:
            self.life += 1
            self.begin_life()
        elif floor == self.settling:
            self.floor = floor
        same(floor, self.floor, f"the floor of session {self.session}")
        self.settling = None
        self.is_leaving = False

    def send(self, conn, number, request):
        conn.send(wire.call(number, request) + (wire.cancel(number) if self.is_cancelled(request) else b""))

    def fill(self, conn, load):
        while not self.is_leaving and len(self.open) < self.window and self.next < self.floor + 32 and load.allows():
            request = self.request() if self.most is not None or not load.is_ending else None
            if request is None:
                break
            self.open[self.next] = request
            self.sent.setdefault((self.life, self.next), []).append(request)
            self.next += 1
            self.send(conn, self.next - 1, request)
        least = min(self.open, default=self.next)
        if self.settling is None and not self.is_leaving and least - self.floor >= 16:
            self.settling = least
            conn.send(wire.settle(least))
        if self.wants_to_leave() and not load.is_ending and not self.open and self.settling is None and self.floor > 1 and not self.is_leaving:
            self.is_leaving = True
            conn.send(wire.bye())

    def handle(self, conn, reply):
        kind, *rest = reply
        if kind == "answer" and rest[0] in self.open:
            number, answer = rest
            request = self.open.pop(number)
            self.answers[number] = answer
            self.told.append((self.life, number, request, answer))
            self.take(request, answer)
        elif kind == "answer":
            same(rest[1], self.answers.get(rest[0]), "an answer that came again")
        elif kind == "settled":
            same(rest[0], self.settling)
            self.floor, self.settling = self.settling, None
        elif kind == "goodbye":
            self.attach(conn)
        elif kind == "withdrawn" and self.is_cancelled(self.open.get(rest[0])):
            del self.open[rest[0]]
        else:
            raise Wrong(f"session {self.session}: {reply}")


class Adder(Client):
    """Adds 1 to a word, with several requests under way."""

    window = 8

    def __init__(self, session, index):
        super().__init__(session)
        self.index = index
        self.values = []

    def request(self):
        return ("access", 23, COUNTERS, self.index, 1, False)

    def take(self, request, answer):
        self.values.append(answer[1])


class Hand(Client):
    """One of two clients, of which one fills a word, with 1, 2, 3 and so on, as often as the other empties it."""

    def __init__(self, session, index, window, op):
        super().__init__(session)
        self.index, self.window, self.op = index, window, op
        self.count, self.values = 0, []

    def request(self):
        if self.count == self.most:
            return None
        self.count += 1
        return ("access", self.op, HANDS, self.index, self.count if self.op == FILL else 0, False)

    def take(self, request, answer):
        self.values += answer[1:]

    def is_done(self):
        return super().is_done() and self.count == self.most


class Restless(Client):
    """Creates and removes arrays, has requests withdrawn, and says bye."""

    def __init__(self, session):
        super().__init__(session)
        self.cycle, self.plan, self.array = 0, [], None

    def request(self):
        if not self.plan:
            self.cycle += 1
            name = b"restless_%d_%d" % (self.session, self.cycle)
            word = lambda op, operand=0, nowait=False: lambda: ("access", op, self.array, 0, operand, nowait)
            self.plan = [
                lambda: ("create", name, 1 + self.cycle % 700, 0),
                word(19, self.cycle),
                word(17),
                word(16),
                word(16, nowait=True),
                word(17),  # waits until it is withdrawn
                lambda: ("find", name),
                lambda: ("remove", self.array),
                lambda: ("find", name),
            ]
        return self.plan.pop(0)()

    def is_cancelled(self, request):
        # (the word is empty after three requests, which are answered at once)
        return request is not None and request[0] == "access" and request[1] == 17 and len(self.plan) == 3

    def wants_to_leave(self):
        return not self.plan and self.cycle % 3 == 0

    def take(self, request, answer):
        if request[0] == "create":
            self.array = answer[1] if len(answer) == 3 else None
        there = ("array", self.array, 1 + self.cycle % 700)
        wanted = {"create": there, "remove": ("done",), "find": there if self.plan else ("no-array",)}.get(request[0])
        if request[0] == "access":
            wanted = ("done",) if request[1] == FILL else ("not-now",) if request[5] else ("value", self.cycle)
        same(answer, wanted, f"{request}")


class Storm(Client):
    """Attaches its session again and again, to fill the journal and cause checkpoints."""

    burst = 100

    def over(self, conn, load):
        welcomes = wire.framed(65, self.session.to_bytes(8, "big") + (1).to_bytes(8, "big")) * self.burst
        while not load.is_ending:
            if load.allows(self.burst):
                conn.send(wire.attach(self.session) * self.burst)
                same(conn.piece(len(welcomes)), welcomes)
                self.welcomes += self.burst
            else:
                # (this shows whether the server is gone)
                conn.ask(wire.report())
                time.sleep(0.005)


class Load:
    """Clients over successive lives of the server."""

    def __init__(self, server, clients):
        self.server = server
        self.clients = clients
        self.is_ending = False
        self.left = 0
        self.answered = 0
        self.workers = []

    def allows(self, count=1):
        """Whether `count` more entries may be requested in this round."""
        if self.left < count:
            return False
        self.left -= count
        return True

    def begin(self):
        self.left = ENTRIES_A_ROUND
        self.answered = 0
        self.workers = [Worker(self.work, client) for client in self.clients]

    def work(self, client):
        try:
            with self.server.connect(seconds=30) as conn:
                client.over(conn, self)
        except wire.Ended as why:
            if self.is_ending or "timed out" in str(why):
                raise Wrong(f"session {client.session}: {why}, with {client.open}") from None

    def wait_for(self, condition, seconds):
        """Waits until the condition holds, for that many seconds at most."""
        ends = time.monotonic() + seconds
        while not condition() and time.monotonic() < ends and not any(it.raised for it in self.workers):
            time.sleep(0.001)

    def wait_for_some(self, seconds):
        """Waits for some answers in this round."""
        wanted = random.randrange(1500)
        self.wait_for(lambda: self.answered >= wanted, random.uniform(0.2, 1) * seconds)

    def wait_for_checkpoint(self, seconds):
        """Waits until a checkpoint has begun, and then a random moment longer."""
        with open(self.server.store, "rb") as file:
            generations = lambda: [os.pread(file.fileno(), 8, at + 8) for at in (0, store.SLOT)]
            before = generations()
            self.wait_for(lambda: generations() != before, seconds)
        time.sleep(random.uniform(0, 0.02))

    def join(self):
        for worker in self.workers:
            worker.ended(40)

    def compare(self, history):
        """Compares the clients' replies with the history: each answer is kept, took effect once, and is to its request."""
        for client in self.clients:
            for life, number, request, answer in client.told:
                found = history.finished.get((client.session, life, number))
                same(found, (request, answer), f"what session {client.session} was told of its number {number}")
            client.told.clear()
            holds(history.attached.get(client.session, 0) >= client.welcomes, "a welcome was told and its entry is gone")


def asked_for(history, load):
    """Every entry has a request that its client sent under that number."""
    sent = {(client.session, *key): requests for client in load.clients for key, requests in client.sent.items()}
    for key, (request, _) in history.finished.items():
        if key[0] != SETTER:
            holds(request in sent.get(key, ()), f"{request} under {key} was never asked for")


class Crew:
    """Clients over the lives of a server, whose arrays are made first, and its history. Each pair has a word, and a window."""

    def __init__(self, server, windows, others):
        made(server, (b"counters", 3, 1), (b"hands", 3, 0), (b"big", 30000, 1), session=SETTER)
        self.adders = [Adder(session, session % 3) for session in range(1, 5)]
        self.pairs = [(Hand(10 + k, k, window, FILL), Hand(20 + k, k, window, EMPTY)) for k, window in enumerate(windows)]
        self.all = [*self.adders, *(it for pair in self.pairs for it in pair), *others]
        self.history, self.load = History(), Load(server, self.all)

    def compare(self, server):
        read(server, self.history, self.load)

    def finish(self):
        """A last life of the server, in which every open request ends."""
        for producer, consumer in self.pairs:
            producer.most = consumer.most = max(producer.count, consumer.count)
        finish(self.load)

    def judge(self, server):
        """Checks what the words hold at the end, and what was handed over."""
        self.compare(server)
        asked_for(self.history, self.load)
        state = self.history.state
        for index in range(3):
            counted(state, index, [it for it in self.adders if it.index == index])
        for producer, consumer in self.pairs:
            values = consumer.values if consumer.window == 1 else sorted(consumer.values)
            same(values, list(range(1, producer.count + 1)), f"what was handed over by word {producer.index}")
            same(state.arrays[HANDS].words[producer.index][1], 0)
        for client in self.all:
            holds(not client.open, f"{client.open} is open")


def counted(state, index, adders):
    """A counter was raised once for each answer, and each answer has a different value."""
    values = sorted(value for it in adders for value in it.values)
    same(values, list(range(len(values))), f"what was answered of counter {index}")
    same(state.arrays[COUNTERS].words[index], (len(values), 1), f"counter {index}")


def finish(load):
    load.is_ending = True
    load.begin()
    load.join()


@within(420)
def killed(place):
    """the server is killed under load and restarted: every answer is kept, each number takes effect once, nothing is skipped"""
    server = Server(place, connections=100).start()
    crew = Crew(server, (1, 1, 6), [Restless(30), Restless(31), Storm(40), Storm(41), Storm(42)])
    history, load = crew.history, crew.load
    began = time.monotonic()
    kills = place.options.kills
    for left in range(kills, 0, -1):
        load.begin()
        pace = (kills * SECONDS_A_KILL - (time.monotonic() - began)) / left
        random.choice((load.wait_for_some, load.wait_for_checkpoint))(min(max(pace, 0.05), 0.5))
        server.stop()
        load.join()
        crew.compare(server)
        server.start(waits=False)
        if random.random() < 0.1:
            # while it starts
            time.sleep(random.uniform(0, 0.02))
            server.stop()
            server.start(waits=False)
        until(server.is_there, 30, "the socket is there")
    crew.finish()
    server.stop()
    crew.judge(server)
    same(server.looks(), history.state.looks())
    seconds = time.monotonic() - began
    return f"{kills} kills in {seconds:.0f} s, {history.cut_checkpoints} of them within one of {history.checkpoints} checkpoints, {history.state.place} entries"


def store_of_format_1():
    """A store whose first checkpoint, which moves it to format 2, begins after a few hundred entries."""
    state = State()
    for entry in (
        ("attached", SETTER, 1), ("finished", SETTER, 1, ("create", b"counters", 3, 1), ("array", 1, 3)),
        ("finished", SETTER, 2, ("create", b"hands", 3, 0), ("array", 2, 3)),
        ("finished", SETTER, 3, ("create", b"big", 30000, 1), ("array", 3, 30000)),
    ):
        state.apply(entry)
    return bytes(store.device_of(store.ONE, state, [[("attached", SETTER, 1)] * 4000] * 2, 2, 1))


@within(120)
def killed_in_migrations(place):
    """stores of format 1 whose server is killed while they move to format 2, with the same result"""
    first = store_of_format_1()
    cut = 0
    for turn in range(MIGRATIONS):
        server = Server(place, f"{turn}", store=place.write("store", first)).start()
        adders = [Adder(1, 0), Adder(2, 0)]
        history, load = History(first), Load(server, [*adders, Storm(40)])
        load.begin()
        load.wait_for_checkpoint(1)
        server.stop()
        load.join()
        read(server, history, load)
        cut += history.cut_checkpoints
        server.start()
        finish(load)
        server.stop()
        read(server, history, load)
        asked_for(history, load)
        counted(history.state, 0, adders)
        same(server.looks(), history.state.looks())
    return f"{MIGRATIONS} kills, {cut} of them within the move"


def read(server, history, load):
    history.read(Path(server.store).read_bytes())
    load.compare(history)
