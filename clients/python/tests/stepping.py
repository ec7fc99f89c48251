"""Clients whose every step somebody else decides: patterns run here without sockets, threads or clocks.

`Server` has the words of the model and answers values. `Core` is what patterns need of a client's core: it runs jobs as each
client does (`JobRunner`), and keeps requests and answers in the order of one connection until it is told to move one.
`stepped` makes a pattern of this face: an operation is a generator that yields its job, for a script to wait for.
"""

import functools
import itertools
from collections import deque

import model

from femem import _errors as errors, _frames as frames, _reports as reports
from femem._holdings import Holdings
from femem._jobs import First, Job, JobRunner, Pause, Wait


# The codes of requests that only look.
READS = (frames.READFF, frames.READXX)


@functools.lru_cache(maxsize=None)
def parsed(frame):
    """The request that the model knows."""
    return model.read_message(frame[4], frame[5:])[2]


class Server:
    """The stored words, and the requests that wait, in the order in which they came."""

    def __init__(self, state=None):
        self.state = state or model.State()
        self.waiting = []  # (session, ticket, request)
        self.is_changed = False  # whether the last request has changed words
        self._shown = {}  # what `words` has of each array

    def ask(self, session, ticket):
        """The answer, or `None`: then the request waits."""
        request = parsed(ticket.request.frame)
        answer = self.state.answer(request)
        if answer is None:
            self.waiting.append((session, ticket, request))
        else:
            self._perform(request, answer)
        return answer

    def ready(self):
        """The waiting requests that can be answered now. The server does so before it takes another one, in any order."""
        return [each for each in self.waiting if self.state.answer(each[2]) is not None]

    def serve(self, waiting):
        self.waiting.remove(waiting)
        answer = self.state.answer(waiting[2])
        self._perform(waiting[2], answer)
        return answer

    def withdraw(self, ticket):
        """Whether it waited."""
        left = [each for each in self.waiting if each[1] is not ticket]
        is_found = len(left) < len(self.waiting)
        self.waiting = left
        return is_found

    def gone(self, session):
        """The connection of that session is broken."""
        self.waiting = [each for each in self.waiting if each[0] != session]

    def stop(self):
        """Loses what waits, and nothing else. Returns it."""
        lost, self.waiting = self.waiting, []
        return lost

    def report(self):
        rows = [(r[2], r[3], session, model.OPS[r[1] - 16]) for session, _, r in self.waiting]
        waiters = [reports.Waiter(array, index, session, 0, op) for array, index, session, op in sorted(rows)]
        return reports.Report("", waiters, {}, False)

    def words_of(self, tickets):
        """The words that these requests may change, each with what it has. None if one does more, or asks for a report."""
        words = []
        for ticket in tickets:
            request = parsed(ticket.request.frame) if ticket.request.frame else ("report",)
            if request[0] == "access":
                array = self.state.arrays.get(request[2], (b"", []))[1]
                words += [(word, list(word)) for word in array[request[3] : request[3] + 1]]
            elif request[0] != "find" and (request[0] != "create" or self.state.answer(request)[0] == model.ARRAY):
                return None
        return words

    def _perform(self, request, answer):
        if request[0] == "find" or request[0] == "access" and (answer[0] == model.NOT_NOW or request[1] in READS):
            return
        self.is_changed = True
        self.state.perform(request, answer)
        self._shown.pop(request[2] if request[0] == "access" else answer[1] if request[0] == "create" else request[1], None)

    def array(self, name):
        """Each word of that array: its value, and whether it is full. Empty if there is none of that name."""
        return next((words for found, words in self.state.arrays.values() if found == name.encode()), [])

    def words(self):
        """All words, to compare: what an empty word would show is left out."""
        shown = self._shown
        for id, (_, words) in self.state.arrays.items():
            if id not in shown:
                shown[id] = hash(str(words))
        return tuple([(id, shown[id]) for id in self.state.arrays])


def compared(answer):
    """An answer as it is told: numbers that Python gives one hash differ above bit 60."""
    if type(answer) is tuple:
        return answer if answer[1] < 2**60 else (*answer, answer[1] >> 60)
    return tuple(answer.waiters)


def _told(known):
    return None if known is None else (known[0], compared(known[1][1:]))


class Keys:
    """A session file, as far as it keeps the answers of keys."""

    def __init__(self):
        self.answers = {}
        self.tell = None  # what its client reads of it is told

    def keep(self, key, frame, answer):
        self.answers[key] = frame, frames.Answer(0, *answer)

    def kept(self, key):
        self.tell(key, _told(self.answers.get(key)))
        return self.answers.get(key)

    def forget(self, key):
        self.answers.pop(key, None)

    def keys(self):
        self.tell("keys", *self.answers)
        return [*self.answers]

    def told(self):
        return tuple([(key, _told(known)) for key, known in self.answers.items()])


class TooMuch(Exception):
    """A call that asks too much, or waits past its end."""


class Call:
    """An operation under way. `bound`: how many requests it may make, and how many more for each wait."""

    def __init__(self, job, name, timeout=None, bound=None):
        self.job = job
        self.name = name
        self.timeout = timeout
        self.bound = bound
        self.end_at = None
        self.asks = self.waits = 0

    def count(self, step, now):
        """Raises if this step is too much."""
        self.asks += len(getattr(step, "requests", "1"))
        if isinstance(step, (First, Pause, Wait)):
            self.waits += 1
            may_wait = isinstance(step, Pause) or any(request.may_wait for request in step.requests)
            left = None if self.end_at is None else max(0.0, self.end_at - now) + 1e-9
            if may_wait and left is not None and (step.seconds is None or step.seconds > left):
                raise TooMuch(f"{self.name} waits for {step.seconds} s at {now}, and was to end at {self.end_at}")
        if self.bound is not None and self.asks > self.bound[0] + self.bound[1] * self.waits:
            raise TooMuch(f"{self.name} has made {self.asks} requests with {self.waits} waits")


class Core(JobRunner):
    """A client's core. `move` asks the first of its requests, and `hear` takes the first answer."""

    def __init__(self, server, session, clock, file=None):
        super().__init__()
        self.server, self.session, self.clock, self.file = server, session, clock, file
        self.holdings = Holdings()
        self.failure = None
        self.is_urgent = False
        self.unsent, self.inbox, self._ended = deque(), deque(), deque()
        self._numbers = itertools.count(1)
        self.told = hash(session)
        if file is not None:
            file.tell = self.tell
        # Who calls now.
        self.caller = None

    # What a job runner needs.

    def _check(self):
        pass

    def _admit(self, tickets, now):
        admitted = [ticket for ticket in tickets if not ticket.taken and not ticket.done]
        for ticket in admitted:
            ticket.taken = True
        return admitted

    def _failure_again(self):
        raise NotImplementedError

    def _end(self, ticket, result=None, error=None):
        ticket.end(result, error)
        self._ended.append(ticket)

    def take(self, tickets, timeout, now):
        for ticket in self._admit(tickets, now):
            ticket.number = next(self._numbers)
            known = self.file.kept(ticket.key) if ticket.key is not None else None
            if known is not None:
                self._end_as(ticket, known)
                continue
            self.unsent.append(ticket)
            if timeout is not None:
                self._timeouts.add(now + timeout, ticket)

    def _end_as(self, ticket, known):
        """The key was used before."""
        frame, answer = known
        if frame != ticket.request.frame:
            self._end(ticket, error=ValueError(f"another request was asked under the key {ticket.key!r}"))
        else:
            self._end_with(ticket, answer)

    def _end_with(self, ticket, answer):
        ticket.end_by(answer)
        self._ended.append(ticket)

    def report(self, now, ticket=None):
        ticket.number = next(self._numbers)
        self.unsent.append(ticket)
        return ticket

    def withdraw(self, ticket, now, why=None):
        if ticket.done or not ticket.request.frame:
            return
        ticket.taken_back = why or errors.Withdrawn(ticket.request.what)
        is_unsent = not ticket.taken or ticket in self.unsent
        if ticket in self.unsent:
            self.unsent.remove(ticket)
        if is_unsent or self.server.withdraw(ticket):
            self.tell("withdrawn", ticket.number)
            ticket.taken = True
            self._end(ticket, error=ticket.taken_back)

    def withdraw_all(self, tickets, now):
        for ticket in tickets:
            self.withdraw(ticket, now)

    def is_open(self, key):
        waiting = [ticket for _, ticket, _ in self.server.waiting]
        is_open = any(ticket.key == key for ticket in (*self.unsent, *waiting))
        self.tell("open", is_open)
        return is_open

    def tell(self, *what):
        """Takes in what the client goes by: `told` stands for all of it, in its order, and when."""
        self.told = hash((self.told, self.clock(), what))

    # What is asked of each call.

    def begin(self, call):
        now = self.clock()
        call.end_at = None if call.timeout is None else now + call.timeout
        call.job.call = call
        self.start(call.job, now)
        self.run_ended()

    def _ask(self, job, step):
        call = getattr(job, "call", None)
        if call is not None:  # otherwise it undoes something
            call.count(step, self.clock())
        super()._ask(job, step)

    # Steps.

    def move(self):
        """The server takes the first request that it has not had."""
        ticket = self.unsent.popleft()
        self.server.is_changed = False
        if not ticket.request.frame:
            self.inbox.append((ticket, self.server.report()))
            return
        answer = self.server.ask(self.session, ticket)
        if answer is not None:
            self.answered(ticket, answer)

    def answered(self, ticket, answer):
        if ticket.key is not None:
            self.file.keep(ticket.key, ticket.request.frame, answer)
        self.inbox.append((ticket, answer))

    def hear(self):
        """The client reads the first answer, and goes on."""
        ticket, answer = self.inbox.popleft()
        self.tell(ticket.number, compared(answer))
        if not ticket.request.frame:
            self._end(ticket, answer)
        else:
            self._end_with(ticket, frames.Answer(0, *answer))
        self.run_ended()

    def next_time(self):
        """When `tick` has something to do."""
        return self._timeouts.first()

    def tick(self):
        now = self.clock()
        self.tell("time")
        while True:
            ticket = self._timeouts.take(now)
            if ticket is None:
                break
            if not ticket.request.frame:
                self._pauses.discard(ticket)
                self._end(ticket)
            else:
                self.withdraw(ticket, now, errors.TimedOut(ticket.request.what))
        self.run_ended()

    def run_ended(self):
        while self._ended:
            self._ended.popleft().finished()

    def asked_again(self, tickets):
        """The server was stopped: these waited there, and are sent again before the others."""
        self.unsent.extendleft(reversed(tickets))


class Face:
    """The face of scripts: `yield from lock.acquire()`."""

    CLIENT = object

    def _perform(self, done, *args, **more):
        undo = getattr(self, done.undo) if done.undo else None
        job = Job(done.steps(self, *args, **more), undo, done.gives_back)
        name = done.steps.__name__
        bound = getattr(self, "REQUESTS", {}).get(name)
        if bound is not None and not self._is_used:
            bound = bound[0] + self._first_requests(), bound[1]
        self._is_used = True
        return wait_for(Call(job, f"{type(self).__name__}.{name}", more.get("timeout"), bound))

    # Whether an operation was called before.
    _is_used = False

    def _first_requests(self):
        """How many more the first call may make: it looks up what an earlier process left, and gives that back."""
        return 8 + len(self._session_words()) if hasattr(self, "_session_words") else 8

    def _caller(self):
        return self._core.caller


def wait_for(call):
    """What a script yields from to wait for a call. It gives the result."""
    return (yield call)


@functools.lru_cache(maxsize=None)
def stepped(kind):
    """A pattern, or the job of a work queue, of this face."""
    more = {"JOB": stepped(kind.JOB)} if hasattr(kind, "JOB") else {}
    return type(kind.__name__, (Face, kind), more)
