"""Many clients over kills of the server: what each saw, what the server sent and synced, and what its store has, judged together.

Three judges. `stuck_at` has the records of the clients alone: the operations on each word must have an order in which each
happens between its sending and its answer, and does what the table says; one that waits may happen long after it was sent, one
without an answer at any time after it was sent, or never. `records.left_in_time` has the server's calls: no reply leaves before
the sync of its group. `out_of_order` has the server's calls and the store: what was answered before another was received
stands before it. Each judge is tried with small histories, right and wrong, and with the real ones, changed in one place.
"""

import random
import time

from . import store, wire
from .harness import Server, holds, preload, same, within
from .history import History
from .kills import Client, Load, Storm, read
from .model import EMPTY, FULL, State, table
from .records import Call, Frames, Journal, calls_of, is_in_time, left_in_time, too_early
from .store import TWO, record_of
from .wire import WITH_OPERAND

KILLS = 20
WORDS = 12  # (with fewer, more orders are possible than can be tried)
GENERATION = 2  # of the store's first image
LEFT_TO_TESTERS = 5000  # entries of a round
READFE, READFF, READXX, WRITEEF, WRITEFF, WRITEXF, PURGE, ADD = range(16, 24)
READS = (READFF, READXX)
NOT_NOW = ("not-now",)


# The records of the clients


class Operation:
    """An operation on a word: when it was first sent, and when it was answered, if it was. `withdrawn` is told in place of an answer."""

    def __init__(self, request, called, answered=None, answer=None):
        self.request = request
        self.called = called
        self.answered = answered
        self.answer = answer
        self.is_withdrawn = False
        self.lives = []  # those of the server in which it was sent

    def does(self, word):
        """The word after it and its answer. None if it waits."""
        _, op, _, _, operand, nowait = self.request
        found = table(op, operand, *word)
        if found is None:
            return (word, NOT_NOW) if nowait else None
        return found[:2], found[2]

    def only_reads(self):
        return self.request[1] in READS or self.answer == NOT_NOW

    def __repr__(self):
        _, op, _, index, operand, nowait = self.request
        answer = "without an answer" if self.answer is None else self.answer
        return f"{op} of {operand} on word {index}{' nowait' if nowait else ''}, {answer}, from {self.called} to {self.answered}"


class Orders:
    """All orders, so far, of the operations on one word: the word after each, with the operations that have happened in it although
    their answers come later."""

    def __init__(self, operations, first):
        self.operations = operations
        self.pending = set()
        self.found = {(first, frozenset())}

    def read(self, word, happened):
        """With every pending read that has this answer. (That does no harm to what comes later, since a read changes nothing.)"""
        for at in self.pending - happened:
            operation = self.operations[at]
            if operation.only_reads() and operation.does(word) == (word, operation.answer):
                happened |= {at}
        return word, happened

    def call(self, at):
        self.pending.add(at)
        self.found = {self.read(*order) for order in self.found}

    def answer(self, at):
        """Keeps the orders in which the operation has happened by now."""
        seen, left = set(self.found), list(self.found)
        found = set()
        while left:
            word, happened = left.pop()
            if at in happened:
                found.add((word, happened - {at}))
                continue
            for other in self.pending - happened:
                operation = self.operations[other]
                does = operation.does(word)
                if does is None or operation.answer not in (None, does[1]):
                    continue
                order = self.read(does[0], happened | {other})
                if order not in seen:
                    seen.add(order)
                    left.append(order)
        self.pending.remove(at)
        self.found = found


def stuck_at(operations, first):
    """The first operation whose answer no order allows, or None if there is an order. The word begins as `first`, a value and a tag."""
    # (a read without an answer shows nothing)
    operations = [it for it in operations if not it.is_withdrawn and not (it.answer is None and it.only_reads())]
    events = [(it.called, 0, at) for at, it in enumerate(operations)]
    events += [(it.answered, 1, at) for at, it in enumerate(operations) if it.answer is not None]
    orders = Orders(operations, first)
    for _, is_answer, at in sorted(events):
        if is_answer:
            orders.answer(at)
            if not orders.found:
                return operations[at]
        else:
            orders.call(at)
    return None


def made_up(*rows):
    """Operations from rows: the operation, its operand, when it was sent and answered, and its answer, which is a value, a word or None."""
    found = []
    for op, operand, called, answered, answer, *nowait in rows:
        said = ("value", answer) if isinstance(answer, int) else answer and (answer,)
        found.append(Operation(("access", op, 1, 0, operand, bool(nowait)), called, answered, said))
    return found


RIGHT = (
    ("one after another", EMPTY, (WRITEEF, 5, 1, 2, "done"), (READFE, 0, 3, 4, 5), (READXX, 0, 5, 6, 5)),
    ("a read waits for a write that is sent later", EMPTY, (READFE, 0, 1, 6, 5), (WRITEEF, 5, 2, 3, "done")),
    ("a write waits until the word is emptied", FULL, (WRITEEF, 5, 1, 6, "done"), (READFE, 0, 2, 3, 0), (READFF, 0, 7, 8, 5)),
    ("two writes at once, in one order", EMPTY, (WRITEXF, 1, 1, 4, "done"), (WRITEXF, 2, 2, 5, "done"), (READXX, 0, 6, 7, 1)),
    ("two writes at once, in the other order", EMPTY, (WRITEXF, 1, 1, 4, "done"), (WRITEXF, 2, 2, 5, "done"), (READXX, 0, 6, 7, 2)),
    ("a write without an answer has happened", EMPTY, (WRITEEF, 7, 1, None, None), (READFE, 0, 2, 3, 7)),
    ("a write without an answer has not happened", EMPTY, (WRITEEF, 7, 1, None, None), (READXX, 0, 2, 3, 0), (READFE, 0, 4, 5, "not-now", 1)),
    ("it happens late", EMPTY, (WRITEEF, 7, 1, None, None), (READXX, 0, 2, 3, 0), (READFE, 0, 4, 5, 7)),
    ("not now, while the word is empty", FULL, (READFE, 0, 1, 2, 0), (READFF, 0, 3, 4, "not-now", 1), (WRITEEF, 1, 5, 6, "done", 1)),
    ("two additions at once", FULL, (ADD, 1, 1, 5, 1), (ADD, 1, 2, 6, 0), (READFF, 0, 7, 8, 2)),
    ("a value is handed on by one that waited", EMPTY, (READFE, 0, 1, 9, 3), (READFE, 0, 2, 5, 4), (WRITEEF, 4, 3, 4, "done"), (WRITEEF, 3, 6, 7, "done")),
)
WRONG = (
    ("an old value is read", EMPTY, (WRITEXF, 5, 1, 2, "done"), (READXX, 0, 3, 4, 0)),
    ("a value is read that nobody wrote", EMPTY, (WRITEXF, 5, 1, 2, "done"), (READXX, 0, 3, 4, 9)),
    ("two writes, one after the other, have swapped", EMPTY, (WRITEXF, 1, 1, 2, "done"), (WRITEXF, 2, 3, 4, "done"), (READXX, 0, 5, 6, 1)),
    ("a value is taken twice", EMPTY, (WRITEEF, 5, 1, 2, "done"), (READFE, 0, 3, 6, 5), (READFE, 0, 4, 7, 5)),
    ("a read of an empty word is answered", EMPTY, (READFE, 0, 1, 2, 0)),
    ("a write to a full word is answered", FULL, (WRITEEF, 5, 1, 2, "done")),
    ("not now, and the word is full", FULL, (READFE, 0, 1, 2, "not-now", 1)),
    ("two writes fill a word that nobody empties", EMPTY, (WRITEEF, 5, 1, 4, "done"), (WRITEEF, 6, 2, 3, "done")),
    ("a write without an answer has happened twice", EMPTY, (WRITEEF, 7, 1, None, None), (READFE, 0, 2, 3, 7), (READFE, 0, 4, 5, 7)),
    ("a value is read before it is sent", EMPTY, (READFE, 0, 1, 2, 5), (WRITEEF, 5, 3, 4, "done")),
    ("two additions have one answer", FULL, (ADD, 1, 1, 5, 0), (ADD, 1, 2, 6, 0)),
    ("an addition is lost", FULL, (ADD, 1, 1, 2, 0), (READFF, 0, 3, 4, 0)),
    ("a word goes back", EMPTY, (WRITEXF, 1, 1, 9, "done"), (WRITEXF, 2, 1, 9, "done"), (READXX, 0, 2, 3, 1), (READXX, 0, 4, 5, 2), (READXX, 0, 6, 7, 1)),
    ("a purge has not happened", FULL, (PURGE, 0, 1, 2, "done"), (READFF, 0, 3, 4, 0)),
)


def small_orders(_place):
    """the judge of orders passes right histories of a word, and none that is wrong in one thing"""
    for name, tag, *rows in RIGHT:
        same(stuck_at(made_up(*rows), (0, tag)), None, name)
    for name, tag, *rows in WRONG:
        holds(stuck_at(made_up(*rows), (0, tag)) is not None, f"passed: {name}")
    return f"{len(RIGHT)} right, {len(WRONG)} wrong"


# The calls of the server, and its store


def numbered(frames, kinds, call):
    """The sessions and numbers of the frames of some kinds whose last byte is in a call."""
    return [(session, int.from_bytes(frame[1:9], "big")) for session, frame in frames.of(call) if frame[0] in kinds]


REQUESTS, ANSWERS = (2, 3, 4, 5, 11, 12, 13), (66,)


def moments(records):
    """When each request was first received and first answered, from the records of the server's lives, as the number of a call."""
    received, answered, now = {}, {}, 0
    for calls in records:
        comes, goes = Frames("recv", 1), Frames("send", 65)
        for call in calls:
            now += 1
            for key in numbered(comes, REQUESTS, call):
                received.setdefault(key, now)
            for key in numbered(goes, ANSWERS, call):
                answered.setdefault(key, now)
    return received, answered


def out_of_order(places, received, answered):
    """Two requests of which the first was answered before the second was received, and stands behind it; or None."""
    earliest = None
    for key in sorted(places, key=places.get, reverse=True):
        # (of the answers to what stands behind it, `earliest` came first)
        if earliest is not None and answered[earliest] < received[key]:
            return earliest, key
        if key in answered and (earliest is None or answered[key] < answered[earliest]):
            earliest = key
    return None


def small_records(_place):
    """the judge of replies passes a reply behind the second sync of its group, and nowhere before; that of places passes no two that are swapped"""
    entry = ("attached", 7, 1)
    steps = [Call(kind, "s.store", [str(more[0])] if more else [], 0, more[1] if more else b"") for kind, *more in Journal(TWO, 0).group(entry)]
    reply = Call("send", "1", ["17"], 0, wire.framed(65, bytes(7) + b"\7" + bytes(7) + b"\1"))
    same([call.kind for call in steps if call.kind[0] in "pf"], ["pwrite", "fdatasync"] * 2)
    last = max(at for at, call in enumerate(steps) if call.kind == "fdatasync")
    for at in range(len(steps) + 1):
        calls = [*steps[:at], reply, *steps[at:]]
        same(is_in_time(calls, store.device_of(TWO), {}), at > last, f"a reply before call {at + 1}")
    received, answered = {"a": 1, "b": 4, "c": 2}, {"a": 3, "b": 6, "c": 5}
    for places, wrong in (
        ({"a": 0, "b": 1, "c": 2}, None), ({"a": 1, "b": 2, "c": 0}, None), ({"a": 2, "b": 1, "c": 0}, ("a", "b")),
        ({"a": 1, "b": 0, "c": 2}, ("a", "b")), ({"a": 1, "b": 0}, ("a", "b")),
    ):
        same(out_of_order(places, received, answered), wrong, f"{places}")
    same(out_of_order({"a": 1, "b": 0}, received, {}), None)


# The real histories


class Places(History):
    """A history that has the place of each request's entry."""

    def __init__(self, device):
        super().__init__(device)
        self.places = {}

    def note(self, entry):
        super().note(entry)
        if entry[0] == "finished":
            self.places[entry[1], entry[2]] = self.state.place - 1


class Tester(Client):
    """A client with three requests under way, each on one of the words, and notes of when each was sent and answered. It cancels every 16th."""

    window = 3

    def __init__(self, session, life):
        super().__init__(session)
        self.life_of_server = life
        self.random = random.Random(random.random())
        self.operations = {}  # by number

    def request(self):
        op = self.random.choice((READFE, READFE, READFF, READXX, WRITEEF, WRITEEF, WRITEFF, WRITEXF, PURGE, ADD))
        # (every operand is another one)
        operand = (self.session << 32) + self.next if op in WITH_OPERAND else 0
        return ("access", op, 1, self.random.randrange(WORDS), operand, self.random.random() < 0.2)

    def send(self, conn, number, request):
        operation = self.operations.setdefault(number, Operation(request, time.monotonic_ns()))
        operation.lives.append(self.life_of_server())
        conn.send(wire.call(number, request) + (wire.cancel(number) if number % 16 == 5 else b""))

    def handle(self, conn, reply):
        now = time.monotonic_ns()
        if reply[0] == "withdrawn":
            self.operations[reply[1]].is_withdrawn = True
            del self.open[reply[1]]
        elif reply[0] != "refused" or reply[2] != "not-waiting":
            # (a cancel is refused if its request was answered before)
            super().handle(conn, reply)
        if reply[0] == "answer" and self.operations[reply[1]].answer is None:
            self.operations[reply[1]].answer, self.operations[reply[1]].answered = reply[2], now


class Stirrer(Tester):
    """Fills and empties the words in turn, so that nothing waits for ever."""

    window = 1

    def request(self):
        word, op = self.next // 2 % WORDS, WRITEXF if self.next % 2 else PURGE
        return ("access", op, 1, word, (self.session << 32) + self.next if op == WRITEXF else 0, False)


class SharedLoad(Load):
    """A load in which the storm leaves most of a round's entries to the others, so that they come to no end in it."""

    def allows(self, count=1):
        return (count == 1 or self.left > LEFT_TO_TESTERS) and super().allows(count)


class Lives:
    """The lives of a server that is killed again and again, with what it did in each."""

    def __init__(self, place):
        self.place = place
        self.library = preload(place, "record.c")
        self.records = []
        self.devices = []  # the store as each life began
        state = State()
        words = (("create", b"words", WORDS, 0), ("array", 1, WORDS)), (("create", b"big", 8000, 1), ("array", 2, 8000))
        for entry in [("attached", 99, 1)] + [("finished", 99, number, *it) for number, it in enumerate(words, 1)]:
            state.apply(entry)
        # (a checkpoint is due after some hundred entries)
        first = bytes(store.device_of(TWO, state, [[("attached", 99, 1)] * 3200] * 2, GENERATION, 1))
        self.server = Server(place, store=place.write("s.store", first), connections=100, format=False)
        self.history = Places(first)
        self.testers = [Tester(session, lambda: len(self.records)) for session in range(1, 13)]
        self.testers.append(Stirrer(13, lambda: len(self.records)))
        self.load = SharedLoad(self.server, [*self.testers, Storm(40)])

    def live(self):
        """One life, until a number of answers came."""
        self.devices.append(self.place.read("s.store"))
        record = self.place.path(f"record{len(self.records)}")
        self.server.start({"LD_PRELOAD": self.library, "RECORD": record})
        self.load.begin()
        wanted = random.randrange(100, 500)
        self.load.wait_for(lambda: self.load.answered >= wanted, 30 * self.place.options.patience)
        came = self.load.answered
        self.server.stop()
        self.load.join()
        holds(came >= wanted, f"{came} answers in life {len(self.records) + 1}, and no more come")
        read(self.server, self.history, self.load)
        self.records.append(calls_of(record, is_cut=True))

    def asked(self):
        return {(it.session, number): operation.request for it in self.testers for number, operation in it.operations.items()}

    def kept(self, life):
        """The entries of the answers that a life found in its store."""
        sessions = store.read_store(self.devices[life])[2].sessions
        return {("finished", session, number, *it[:2]) for session, known in sessions.items() for number, it in known.kept.items()}

    def words(self):
        """The operations on each word."""
        found = [[] for _ in range(WORDS)]
        for tester in self.testers:
            for operation in tester.operations.values():
                found[operation.request[3]].append(operation)
        return found


def judge_orders(lives):
    for word, operations in enumerate(lives.words()):
        wrong = stuck_at(operations, (0, EMPTY))
        holds(wrong is None, f"no order of the operations on word {word} allows this: {wrong}")


def judge_replies(lives):
    """How many replies left in time."""
    asked = lives.asked()
    return sum(left_in_time(calls, "s.store", lives.devices[life], asked, lives.kept(life)) for life, calls in enumerate(lives.records))


def judge_places(lives, received, answered):
    places = {key: it for key, it in lives.history.places.items() if key in received}
    for tester in lives.testers:
        for number, operation in tester.operations.items():
            holds(not operation.is_withdrawn or (tester.session, number) not in places, f"withdrawn, and in the store: {operation}")
    same(out_of_order(places, received, answered), None, "the first was answered before the second was received, and stands behind it")
    return places


def changed_orders(lives):
    """The history of a word with a value that nobody wrote, or with one that was not yet sent when it was answered, has no order."""
    for word, operations in random.sample(list(enumerate(lives.words())), 3):
        answered = [it for it in operations if it.answer is not None and it.answer[0] == "value"]
        writers = {it.request[4]: it for it in operations if it.request[1] in (WRITEEF, WRITEFF, WRITEXF)}
        early = [(it, other) for it in answered for other in answered if other.answer[1] in writers and writers[other.answer[1]].called > it.answered]
        for one, answer in (
            (random.choice(answered), ("value", 2**63)),
            *((it, other.answer) for it, other in random.sample(early, 1)),
        ):
            right, one.answer = one.answer, answer
            holds(stuck_at(operations, (0, EMPTY)) is not None, f"word {word}: {one} was {right}, which is not noticed")
            one.answer = right


def changed_records(lives):
    """A reply of the last life that leaves before the second sync of its group is noticed."""
    calls, life = lives.records[-1], len(lives.records) - 1
    sent, kept, asked = Frames("send", 65), lives.kept(life), lives.asked()
    found = []
    for at, call in enumerate(calls):
        for key in numbered(sent, ANSWERS, call):
            entry = ("finished", *key, *lives.history.finished[key[0], 0, key[1]])
            if entry not in kept:
                found.append((at, record_of(entry, TWO)))
    for at, record in random.sample(found, 3):
        early = too_early(calls, at, record)
        same(is_in_time(early, lives.devices[life], asked, kept), False, "a reply that leaves too early is noticed")


def changed_places(places, received, answered):
    """Two entries that swap places, of which one was answered before the other was received, are noticed."""
    pairs = [(one, other) for one in random.sample(sorted(answered), 40) for other in places if one in places and answered[one] < received[other]]
    for one, other in random.sample(pairs, 3):
        swapped = {**places, one: places[other], other: places[one]}
        holds(out_of_order(swapped, received, answered), f"{one} and {other} swapped places, which is not noticed")


@within(240)
def killed(place):
    """clients of a server that is killed: an order of the operations explains every answer, each reply leaves after its sync, and what was answered first stands first"""
    lives = Lives(place)
    for _ in range(KILLS):
        lives.live()
    received, answered = moments(lives.records)
    judge_orders(lives)
    replies = judge_replies(lives)
    places = judge_places(lives, received, answered)
    changed_orders(lives)
    changed_records(lives)
    changed_places(places, received, answered)
    same(lives.server.looks(), lives.history.state.looks())
    operations = [operation for word in lives.words() for operation in word]
    over = sum(it.answer is not None and len(it.lives) > 1 for it in operations)
    without = sum(it.answer is None and not it.is_withdrawn for it in operations)
    withdrawn = sum(it.is_withdrawn for it in operations)
    checkpoints = lives.history.base_generation - GENERATION
    holds(over and without and withdrawn, f"{over} answered after a kill, {without} without an answer, {withdrawn} withdrawn")
    holds(checkpoints > 0, "no checkpoint came")
    return f"{KILLS} kills, {len(operations)} operations, {over} of them answered after a kill, {withdrawn} withdrawn, {replies} replies, {checkpoints} checkpoints"
