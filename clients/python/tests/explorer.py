"""Tries the interleavings of a few clients: who goes next, who is killed, when a time is over, when the server stops.

    python3 explorer.py SCENARIO.. [--seconds S]                          every schedule within the scenario's bounds
    python3 explorer.py SCENARIO.. --bound P,K,S,E,C [--coarse]           every schedule within another bound
    python3 explorer.py SCENARIO.. --random [--seed N] [--seconds S]      schedules by chance
    python3 explorer.py SCENARIO --replay "18 kill 1, 30 client 2"        one schedule, step by step

A schedule is a list of decisions. The usual one goes on with the client that ran. What else is decided has a price:
preemptions P (another client goes on though this one could), kills K, stops of the server S, times that end early E (while
some client could go on: so that one stands still), and calls that are cut off C. Which client goes on where the last one
has to wait costs nothing, nor which of several waiting requests the server answers. A schedule is written as its unusual
decisions, by their numbers. With `--coarse` nobody comes between the requests that a client sends together.

Each schedule is run from its start, since a generator cannot be copied. One that comes to a state that was reached before
for the same price, or less, ends there (`World.state`). It is not even run where that state can be foreseen: the server's
steps are tried and taken back, and what a client does is known if it has been in the same place before (`World.question`).
"""

import argparse
import random
import sys
import time
from collections import namedtuple

import paths  # noqa: F401
import stepping
from prices import CUTS, EARLY, FREE, KILLS, PREEMPTS, STOPS, Price, Seen


class Fault(Exception):
    """What must not happen."""


class Known(Exception):
    """The schedule came to a state that was reached before."""


class Interrupted(Exception):
    """Raised in a script whose call is cut off."""


class Point:
    """A step of a script in which others may go on."""


POINT = Point()

# A request as `Shown` has it.
Numbered = namedtuple("Numbered", "number")

# The steps in which a client's own code runs.
OWN = frozenset(("_hear", "_go", "_tick", "_cut", "_take_back", "_pass_time", "_pass_early"))

# The state of a client that has nothing more to do.
ENDED = ("ended",)


class Caller:
    """A thread or task of a client. Its script yields jobs (`stepping.run`) and points."""

    def __init__(self, client, k, script):
        self.client = client
        self.k = k
        self.name = (client.session, k)
        self.script = script
        self.steps = None
        self.job = None
        self.is_done = False

    def shown(self):
        """What choices go by."""
        other = Caller(self.client, self.k, None)
        other.client, other.is_done = None, self.is_done
        other.steps, other.job = self.steps and POINT, self.job and POINT
        return other

    def go(self, send=None, error=None):
        """Runs the script to its next call or point."""
        world = self.client.world
        self.job = None
        world.caller = self
        self.client._core.caller = self.name
        if self.steps is None:
            self.steps = self.script(world, self.client)
        try:
            asked = self.steps.throw(error) if error is not None else self.steps.send(send)
        except StopIteration:
            self.is_done = True
            world.progress()
            return
        except (Fault, stepping.TooMuch):
            raise
        except Exception as error:
            raise Fault(f"client {self.client.session} raised {error!r}") from error
        if asked is POINT:
            return
        self.job = asked.job
        asked.job.finished = self._finished
        self.client._core.begin(asked)

    def _finished(self):
        job, self.job = self.job, None
        self.client.world.progress()
        self.go(job.result, job.error)


class Shown:
    """What `choices` and `state` see after a step in which a client's own code ran. It stands there for the client's core."""

    def __init__(self, world, client):
        core = client._core
        self.told, self.time = core.told, core.next_time()
        self.unsent = [Numbered(ticket.number) for ticket in core.unsent]
        self.inbox = [(Numbered(ticket.number), answer) for ticket, answer in core.inbox]
        self.callers = [caller.shown() for caller in client.callers]
        self.answers = client.file.answers.copy()
        self.waiting = [ticket.number for session, ticket, _ in world.server.waiting if session == client.session]
        names = ("current", "now", "progress_at", "noted_hash", "inside", "cuts", "early")
        self.world = {name: getattr(world, name) for name in names}
        self.world["inside"] = world.inside.copy()

    def next_time(self):
        return self.time

    def put(self, world, client):
        client._core, client.callers, client.file.answers = self, self.callers, self.answers
        waiting, mine = world.server.waiting, client.session
        world.server.waiting = [each for each in waiting if each[0] != mine or each[1].number in self.waiting]
        world.__dict__.update(self.world)


class Client:
    """A process: a session, and what its patterns hold. All but the session begins anew after a kill."""

    def __init__(self, world, session, scripts):
        self.world = world
        self.session = session
        self.scripts = scripts
        self.life = 0
        self.file = stepping.Keys()
        self.begin()

    def begin(self):
        world = self.world
        self.dead_until = self.stalled_until = None
        self._core = stepping.Core(world.server, self.session, world.clock, self.file)
        self.callers = [Caller(self, k, script) for k, script in enumerate(self.scripts)]
        self._core.tell(self.life)

    def state(self, is_busy):
        """What its next steps go by. `is_busy`: whether a request of its calls waits at the server."""
        if self.dead_until is not None:
            return (self.dead_until, self.life, self.file.told())
        core = self._core
        if core.unsent or core.inbox:
            unsent = [ticket.number for ticket in core.unsent]
            inbox = [(ticket.number, stepping.compared(answer)) for ticket, answer in core.inbox]
        elif not is_busy and core.next_time() is None and all([caller.is_done for caller in self.callers]):
            return ENDED
        else:
            unsent = inbox = ()
        return (core.told, self.stalled_until, *unsent, *inbox, self.file.told() if self.file.answers else None)

    def wakes_at(self):
        """When the clock has something for it."""
        if self.dead_until is not None:
            return self.dead_until
        return self.stalled_until if self.stalled_until is not None else self._core.next_time()

    def is_begun(self):
        return any(caller.steps is not None and not caller.is_done for caller in self.callers)


class World:
    """The server and the clients of a scenario, in one schedule."""

    def __init__(self, scenario, limit=None, is_coarse=False, says=None, most_steps=20000):
        """`limit`: what a schedule may cost at most. `is_coarse`: nobody comes between the requests of a step."""
        self.scenario = scenario
        self.is_coarse = is_coarse
        self.most_steps = most_steps
        self.limit = limit or scenario.limit
        self.says = says
        self.now = 0.0
        self.progress_at = 0.0
        self.server = stepping.Server(scenario.made.copy() if scenario.made is not None else None)
        self.noted, self.noted_hash = [], 0
        self.asked = []  # the sessions whose requests the server took, in this order
        self.inside = {}
        self.current = None
        self.caller = None
        self.steps = self.kills = self.stops = self.cuts = self.early = 0
        self._buried = []
        self._must_serve = False
        self.known = {}  # what is seen after steps of clients, by their questions
        self._is_able = False  # whether the current client can go on
        self.clients = [Client(self, k + 1, scripts) for k, scripts in enumerate(scenario.clients)]

    # For scripts.

    def clock(self):
        return self.now

    def make(self, kind, client, *sizes, **more):
        return stepping.stepped(kind)(client, *sizes, **more)

    @property
    def notes(self):
        """What was noted so far. The client whose script reads it is told."""
        if self.caller is not None:
            self.caller.client._core.tell(self.noted_hash)
        return self.noted

    def note(self, *what):
        self.noted.append(what)
        self.noted_hash = hash((self.noted_hash, what))
        self.progress()

    def progress(self):
        self.progress_at = self.now

    def enter(self, most=1, how="alone"):
        """This caller is inside what at most so many may be in, or one alone."""
        held = list(self.inside.values())
        if held and (how == "alone" or "alone" in held) or len(held) >= most:
            raise Fault(f"two inside: {[*self.inside]} and {self.caller.name}")
        self.inside[self.caller.name] = how

    def leave(self):
        self.inside.pop(self.caller.name, None)

    # What may happen now.

    def choices(self):
        """What may be done, the usual first, as (how, its arguments, price). None if all is over."""
        if self._must_serve:
            ready = self.server.ready()
            if ready:
                self._is_able = True
                return [(self._serve, k, FREE) for k in range(len(ready))]
            self._must_serve = False
        goes, able = self._goes()
        more = self._times() if not able else [(self._pass_early, each[1], EARLY) for each in self._times(all_of_them=True)]
        choices = goes + more
        if not choices:
            return None
        limit = self.limit
        if self.kills < limit.kills:
            victims = [k for k, client in enumerate(self.clients) if self._may_be_killed(k, client, able)]
            choices += [(self._kill, k, KILLS) for k in victims]
        if self.stops < limit.stops and self.server.waiting:
            choices.append((self._stop, None, STOPS))
        if goes and self.scenario.stall and self.current is not None and goes[0][1][0] == self.current:
            choices.append((self._stall, self.current, EARLY))
        if self.cuts < limit.cuts and self.current is not None:
            for k, caller in enumerate(self.clients[self.current].callers):
                if caller.job is not None:
                    choices += [(self._cut, (self.current, k), CUTS), (self._take_back, (self.current, k), CUTS)]
        return choices

    def _goes(self):
        """Who can go on, the current client first, and how many there are."""
        first, goes = self.current or 0, []
        for at in (*range(first, len(self.clients)), *range(first)):
            goes += self._of_client(at, self.clients[at])
        self._is_able = bool(goes) and goes[0][1][0] == self.current and self.clients[self.current].dead_until is None
        price = PREEMPTS if self._is_able else FREE
        able = [(how, at, price) for how, at in goes]
        able[:1] = [(how, at, FREE) for how, at in goes[:1]]
        return able, bool(able)

    def _of_client(self, at, client):
        """What this client can do."""
        if client.dead_until is not None:
            return [(self._restart, (at,))] if client.dead_until <= self.now else []
        if client.stalled_until is not None:
            return []
        core = client._core
        goes = []
        if core.unsent:
            goes.append((self._move, (at,)))
        elif core.inbox:
            goes.append((self._hear, (at,)))
        else:
            due = core.next_time()
            if due is not None and due <= self.now:
                goes.append((self._tick, (at,)))
        for caller in client.callers:
            if caller.job is None and not caller.is_done:
                goes.append((self._go, (at, caller.k)))
        return goes

    def _times(self, all_of_them=False):
        """The clients whose time may end: those with the first one, or all of them."""
        times = []
        for at, client in enumerate(self.clients):
            time = client.wakes_at()
            if time is not None and (time > self.now or client.stalled_until is not None):
                times.append((time, at))
        if not times:
            return times
        first = min(times)[0]
        return [(self._pass_time, at, FREE) for time, at in sorted(times) if all_of_them or time == first]

    def _may_be_killed(self, at, client, is_able):
        if client.session not in self.scenario.victims or client.dead_until is not None or not client.is_begun():
            return False
        return at == self.current or bool(client._core.inbox) or not is_able or self.scenario.kills_anywhere

    # What happens.

    def _say(self, text):
        if self.says is not None:
            self.says(f"{self.now:8.3f}  {text}")

    def _serve(self, k):
        waiting = self.server.ready()[k]
        answer = self.server.serve(waiting)
        client = next(client for client in self.clients if client.session == waiting[0])
        client._core.answered(waiting[1], answer)
        self._say(f"the server answers client {waiting[0]}: {waiting[1].request.what} -> {answer}")

    def _move(self, at):
        self.current = at[0]
        core = self.clients[at[0]]._core
        while core.unsent:
            ticket, before = core.unsent[0], len(core.inbox)
            core.move()
            self.asked.append(core.session)
            if self.says is not None:
                got = core.inbox[-1][1] if len(core.inbox) > before else "waits"
                self._say(f"client {core.session}: {ticket.request.what if ticket.request else 'report'} -> {got}")
            self._must_serve = self.server.is_changed and bool(self.server.waiting)
            if not self.is_coarse or self._must_serve and self.server.ready():
                break

    def _hear(self, at):
        self.current = at[0]
        core = self.clients[at[0]]._core
        while core.inbox and not core.unsent:
            core.hear()

    def _tick(self, at):
        self.current = at[0]
        client = self.clients[at[0]]
        self._say(f"client {client.session}: its time is over")
        client._core.tick()

    def _go(self, at):
        self.current = at[0]
        client = self.clients[at[0]]
        client._core.tell("goes on", at[1])
        self._say(f"client {client.session} goes on (caller {at[1]})")
        client.callers[at[1]].go()

    def _pass_time(self, at):
        client = self.clients[at]
        self.now = max(self.now, client.wakes_at())
        if client.dead_until is not None:
            self._restart((at,))
        elif client.stalled_until is not None:
            self._say(f"client {client.session} can go on")
            client.stalled_until = None
            self.progress()
        else:
            self._tick((at,))

    def _pass_early(self, at):
        self.early += 1
        self._pass_time(at)

    def _stall(self, at):
        """The client stands still: others wait as long as they do for one that is there and does nothing."""
        client = self.clients[at]
        self.early += 1
        self._say(f"client {client.session} stands still")
        client.stalled_until = self.now + self.scenario.stall

    def _kill(self, at):
        client = self.clients[at]
        self._say(f"client {client.session} is killed")
        self.kills += 1
        self.server.gone(client.session)
        self._buried.append(client.callers)  # Python would run what their generators do at last
        self._buried.append(client._core)
        client.callers = []
        client.dead_until = self.now + self.scenario.away
        self.inside = {name: how for name, how in self.inside.items() if name[0] != client.session}

    def _restart(self, at):
        self.current = at[0]
        client = self.clients[at[0]]
        self._say(f"client {client.session} is started again")
        client.life += 1
        client.begin()
        self.progress()

    def _stop(self, _):
        self._say("the server stops and starts")
        self.stops += 1
        lost = self.server.stop()
        for client in self.clients:
            client._core.asked_again([ticket for session, ticket, _ in lost if session == client.session])

    def _cut(self, at):
        """The caller is interrupted, as by a signal: the job is taken back or undone, and the caller goes on at once."""
        caller = self.clients[at[0]].callers[at[1]]
        job = caller.job
        self.cuts += 1
        job.finished = lambda: None
        self._say(f"client {at[0] + 1}: its call is interrupted")
        caller.client._core.tell("cut", at[1])
        caller.client._core.abandon(job, self.now)
        caller.client._core.run_ended()
        self._waits_no_more(job)
        caller.go(error=Interrupted())
        caller.client._core.run_ended()

    def _take_back(self, at):
        """The task is cancelled: what it waits for is taken back. It gets the result if everything had happened."""
        client = self.clients[at[0]]
        self.cuts += 1
        self._say(f"client {at[0] + 1}: its task is cancelled")
        client._core.tell("take back", at[1])
        job = client.callers[at[1]].job
        client._core.interrupt(job, self.now)
        client._core.run_ended()
        self._waits_no_more(job)

    def _waits_no_more(self, job):
        """A call that was cut off has taken back what it waits for."""
        left = [ticket for _, ticket, _ in self.server.waiting if ticket in job.asked]
        if left and not job.gives_back:
            raise Fault(f"a call that was cut off waits on: {left[0].request.what}")

    # A schedule.

    def state(self):
        """The same for two worlds only if whatever may come, and what the checks make of it, is the same.

        A client does the same whenever it gets the same, and `told` has all that it gets, in order and when: which request
        an answer is to, that a caller goes on or is cut off, a time that is over, that something was taken back, and what it
        reads of its session file and of the notes. Scripts read nothing else. The rest is here as it is: what is under way,
        the words, files, notes, the clock, and who is inside. A client that has ended does nothing more, and one that was
        killed begins anew from its file, so that their pasts don't count. Nor does the order in which requests of several
        clients began to wait: the server may answer any of them. Last, who went on, and whether it can (`prices.Seen`).
        """
        waiting = self.server.waiting
        busy = [session for session, ticket, _ in waiting if not ticket.is_presence]
        clients = tuple([client.state(client.session in busy) for client in self.clients])
        if waiting:
            ended = [client.session for client, state in zip(self.clients, clients) if state is ENDED]
            waiting = sorted([(s, ticket.request.frame if s in ended else ticket.number) for s, ticket, _ in waiting], key=_first)
        counts = (self.kills, self.stops, self.cuts, self.early > 0, self.server.state.next_id)
        said = (*sorted(self.inside.items()), self.noted_hash)
        whole = hash((self.now, self.progress_at, counts, clients, said, tuple(waiting), self.server.words()))
        return whole, self.current, self._is_able

    def question(self, how, at):
        """All that a step goes by in which a client's own code runs, and that it may change. `None` for other steps."""
        if how not in OWN:
            return None
        client = self.clients[at if type(at) is int else at[0]]
        if client.dead_until is not None or client.stalled_until is not None:
            return None
        waiting = [ticket.number for session, ticket, _ in self.server.waiting if session == client.session]
        world = (self.now, self.progress_at, self.noted_hash, self.cuts, self.early, *self.inside.items())
        return how, at, client.state(True), tuple(waiting), world

    def foresee(self, choice):
        """The state at which a choice is next looked at, if that needs no script and is not the end. All stays as it is."""
        how, at = choice[0].__name__, choice[1]
        shown = self.known.get(self.question(how, at)) if how in OWN else None
        if shown is None and how not in ("_move", "_kill", "_restart"):
            return None
        client, server = self.clients[at if type(at) is int else at[0]], self.server
        core, words = client._core, []
        if how == "_move":
            words = server.words_of(core.unsent if self.is_coarse else [core.unsent[0]])
            if words is None:
                return None
        mine, its, hashes, waiting = self.__dict__.copy(), client.__dict__.copy(), server._shown.copy(), server.waiting.copy()
        unsent, kept, counts = core.unsent.copy(), client.file.answers.copy(), (len(self.asked), len(self._buried), len(core.inbox))
        if shown is not None:
            shown.put(self, client)
        else:
            choice[0](at)
        choices = self.choices()
        state = self.state() if choices is not None and len(choices) > 1 else None
        self.__dict__.update(mine)
        client.__dict__.update(its)
        core.unsent, client.file.answers, server._shown, server.waiting = unsent, kept, hashes, waiting
        for word, was in words:
            word[:] = was
        del self.asked[counts[0] :], self._buried[counts[1] :]
        while len(core.inbox) > counts[2]:
            core.inbox.pop()
        return state

    def is_over(self):
        return all(caller.is_done for client in self.clients for caller in client.callers)

    def check(self, choices):
        """Whether nobody waits for ever, so far."""
        if choices is None:
            if not self.is_over():
                raise Fault("all that is left waits: " + self._stuck())
            for session, ticket, _ in self.server.waiting:
                if not ticket.is_presence:
                    raise Fault(f"client {session} has left a request waiting: {ticket.request.what}")
            ends_by = self.scenario.ends_by
            if ends_by is not None and self.now > ends_by and not (self.kills or self.stops or self.cuts or self.early):
                raise Fault(f"it took {self.now} s though nobody was killed or late: someone was not told")
            self.scenario.check(self)
            return True
        if choices[0][0] == self._pass_time and self.now - self.progress_at > self.scenario.patience:
            raise Fault(f"nobody gets on for {self.scenario.patience} s: " + self._stuck())
        if self.steps > self.most_steps:
            raise Fault(f"no end after {self.most_steps} steps: " + self._stuck())
        return False

    def _stuck(self):
        waiting = [(session, ticket) for session, ticket, _ in self.server.waiting if not ticket.is_presence]
        waits = [f"client {session} {ticket.request.what}" for session, ticket in waiting]
        callers = [caller for client in self.clients for caller in client.callers if caller.job is not None]
        open_calls = [f"client {caller.name[0]} {caller.job.call.name}" for caller in callers]
        return f"{', '.join(open_calls)}; at the server: {', '.join(waits) or 'nothing'}"


def _first(pair):
    return pair[0]


def name_of(world, choice):
    """A choice in words, as schedules have it."""
    how, at, _ = choice
    what = how.__name__
    who = at if isinstance(at, tuple) else (at,)
    if what == "_serve":
        return f"answers {world.server.ready()[at][0]}"
    if what == "_stop":
        return "stop"
    words = {"_kill": "kill", "_stall": "stall", "_pass_time": "time", "_pass_early": "time", "_cut": "cut", "_take_back": "cancel", "_restart": "restart"}
    more = f" caller {who[1]}" if what == "_go" and who[1] or what in ("_cut", "_take_back") and who[1] else ""
    return f"{words.get(what, 'client')} {world.clients[who[0]].session}{more}"


class Run:
    """One schedule: the first choices as given, then the usual ones."""

    def __init__(self, scenario, first=(), spent=FREE, seen=None, limit=None, is_coarse=False, bounds=(), known=None):
        self.world = World(scenario, limit, is_coarse)
        self.world.known = known
        self.bounds = bounds
        self.first = first
        self.spent, self._totals = spent, {}
        self.seen = seen
        # What was done, with its place among the choices; and from where it was free to: what else there was to choose within
        # the bounds, with its price and the state to which it leads, as far as that is known.
        self.done = []
        self.left = []

    def go(self):
        """`Fault`, or `Known`."""
        world = self.world
        try:
            self.done += self.first
            world.steps = len(self.first)
            for step in self.first:
                getattr(world, step[0])(step[1])
            while True:
                choices = world.choices()
                if world.check(choices):
                    return
                if len(choices) > 1:
                    self._look(choices)
                how, at, _ = choices[0]
                name = how.__name__
                question = world.question(name, at) if world.known is not None else None
                self.done.append((name, at, 0))
                world.steps += 1
                how(at)
                if question is not None and question not in world.known:
                    world.known[question] = Shown(world, world.clients[world.current])
        except stepping.TooMuch as much:
            raise Fault(str(much)) from None

    def _look(self, choices):
        if self.seen is not None:
            state = self.world.state()
            if self.seen.has(state, self.spent):
                raise Known()
            self.seen.add(state, self.spent)
        for k in range(1, len(choices)):
            choice = choices[k]
            total = self._total(choice[2])
            if total is not None:
                state = None if self.seen is None else self.world.foresee(choice)
                self.left.append((len(self.done), (choice[0].__name__, choice[1], k), total, state))

    def _total(self, price):
        """What is spent with this price, if that is within the bounds."""
        if price not in self._totals:
            total = self.spent.plus(price)
            self._totals[price] = total if any([total.is_within(bound) for bound in self.bounds]) else None
        return self._totals[price]


class Found:
    """What was tried, and the first fault: what it shows, its schedule, and what that costs."""

    def __init__(self, scenario, how, is_coarse=False):
        self.scenario = scenario
        self.is_coarse = is_coarse
        self.how = how
        self.is_whole = False
        self.schedules = self.steps = self.known = self.states = 0
        self.seconds = 0.0
        self.fault = self.schedule = self.price = None
        self.before = ""

    def __str__(self):
        before = f"{self.before}\n" if self.before else ""
        end = "" if self.fault is not None else ", whole" if self.is_whole else ", cut short"
        line = f"{self.scenario.name}: {self.schedules} schedules, {self.states} states, {self.seconds:.2f} s, {self.how}{end}"
        if self.fault is not None:
            coarse = " --coarse" if self.is_coarse else ""
            line += f"\n  FAULT, for {self.price}: {self.fault}"
            line += f"\n  explorer.py {self.scenario.name}{coarse} --replay '{self.schedule}'"
        return before + line


def explore(scenario, bounds, seconds=None, most=None, merges=True, is_coarse=False):
    """Tries every schedule whose price is within one of the bounds, the cheapest first, until one shows a fault.

    It stops after so many seconds of the processor, or so many schedules. `merges`: whether a known state ends a schedule.
    `is_coarse`: the requests that a client sends together are one step.
    """
    bounds = [Price._make(bound) for bound in bounds]
    found = Found(scenario, ("by whole steps, " if is_coarse else "") + "within " + " or ".join(f"({b})" for b in bounds), is_coarse)
    began = time.process_time()
    seen, known = (Seen(scenario, bounds), {}) if merges else (None, None)
    levels = [[] for _ in range(1 + max(sum(bound) for bound in bounds))]
    levels[0].append(((), 0, None, FREE, None))
    for level in levels:
        while level:
            is_late = seconds is not None and found.schedules % 32 == 0 and time.process_time() - began > seconds
            if is_late or found.schedules == most or found.fault is not None:
                break
            before, at, choice, spent, state = level.pop()
            if state is not None and seen.has(state, spent):
                found.schedules, found.known, found.steps = found.schedules + 1, found.known + 1, found.steps + at + 1
                continue  # it would end as `Known` after its last decision
            run = Run(scenario, [*before[:at], choice] if choice else [], spent, seen, None, is_coarse, bounds, known)
            _try(run, found)
            for place, *other in run.left:
                levels[sum(other[1])].append((run.done, place, *other))
        else:
            continue
        break
    else:
        found.is_whole = found.fault is None
    found.states = len(seen.states) if merges else 0
    found.seconds = time.process_time() - began
    return found


def _try(run, found):
    try:
        run.go()
    except Known:
        found.known += 1
    except Fault as fault:
        found.fault = str(fault)
        found.schedule = schedule_of(run)
        found.price = run.spent
    found.schedules += 1
    found.steps += run.world.steps


def wander(scenario, seed, seconds):
    """Tries schedules by chance, with more preemptions, until one shows a fault or so many seconds are over."""
    found = Found(scenario, f"by chance, seed {seed}")
    chance = random.Random(seed)
    began = time.process_time()
    while found.fault is None:
        if found.schedules % 8 == 0 and time.process_time() - began > seconds:
            break
        run = Chance(scenario, chance)
        _try(run, found)
    found.seconds = time.process_time() - began
    return found


class Chance(Run):
    """A schedule by chance."""

    def __init__(self, scenario, chance):
        super().__init__(scenario, limit=scenario.deepest)
        self._chance = chance
        self._unrest = chance.choice((0.02, 0.1, 0.3))

    def _look(self, choices):
        if self._chance.random() < self._unrest:
            k = self._chance.randrange(len(choices))
            total = self.spent.plus(choices[k][2])
            others = total._replace(preemptions=0)
            bounds = [*self.world.scenario.bounds, *self.world.scenario.bounds_of_steps]
            if total.is_within(self.world.limit) and any(others.is_within(bound) for bound in bounds):
                self.spent = total
                choices[0] = choices[k]


def schedule_of(run):
    """The unusual decisions of a run, by their numbers, from a second run of the same."""
    world = World(run.world.scenario, run.world.limit, run.world.is_coarse)
    unusual = []
    number = 0
    for name, at, _ in run.done:
        try:
            choices = world.choices()
        except Exception:
            break
        if choices is not None and len(choices) > 1:
            place = next(k for k, choice in enumerate(choices) if (choice[0].__name__, choice[1]) == (name, at))
            if place:
                unusual.append(f"{number} {name_of(world, choices[place])}")
            number += 1
        world.steps += 1
        try:
            getattr(world, name)(at)
        except (Fault, stepping.TooMuch):
            break
    return ", ".join(unusual)


def finish(world):
    """Runs the usual schedule to its end."""
    while True:
        choices = world.choices()
        if world.check(choices):
            return world
        world.steps += 1
        choices[0][0](choices[0][1])


def replay(scenario, schedule, says=None, is_coarse=False):
    """Runs one schedule. A decision that cannot be taken is left out: the text has changed since. Raises its `Fault`."""
    wanted = dict(item.strip().split(" ", 1) for item in schedule.split(",") if item.strip())
    world = World(scenario, scenario.deepest, is_coarse, says)
    number = 0
    try:
        while True:
            choices = world.choices()
            if world.check(choices):
                return
            k = 0
            if len(choices) > 1:
                names = [name_of(world, choice) for choice in choices]
                name = wanted.get(str(number))
                k = names.index(name) if name in names else 0
                number += 1
            world.steps += 1
            choices[k][0](choices[k][1])
    except stepping.TooMuch as much:
        raise Fault(str(much)) from None


def tried(scenario, bounds=(), seconds=None, is_coarse=False, most=None):
    """What `explore` finds within these bounds, or first and last within those of the scenario, up to a fault."""
    if bounds:
        return explore(scenario, bounds, seconds, most, is_coarse=is_coarse)
    found = None
    for each, is_coarse in ((scenario.bounds, False), (scenario.bounds_of_steps, True)):
        if each and (found is None or found.is_whole):
            before, found = found, explore(scenario, each, seconds, most, is_coarse=is_coarse)
            found.before = before
    return found


def main():
    import scenarios

    parser = argparse.ArgumentParser(description="Tries the interleavings of scenarios.")
    parser.add_argument("names", nargs="*")
    parser.add_argument("--bound", action="append", help="preemptions, kills, stops, early ends, cuts: 3,1,0,0,0")
    parser.add_argument("--seconds", type=float)
    parser.add_argument("--random", action="store_true")
    parser.add_argument("--seed", type=int)
    parser.add_argument("--coarse", action="store_true", help="nobody comes between the requests of a step")
    parser.add_argument("--replay")
    given = parser.parse_args()
    bounds = [[int(part) for part in bound.split(",")] for bound in given.bound or []]
    is_well = True
    for name in given.names or scenarios.ALL:
        scenario = scenarios.ALL[name]
        if given.replay is not None:
            try:
                replay(scenario, given.replay, print, given.coarse)
            except Fault as fault:
                print("FAULT", fault)
                is_well = False
            continue
        if given.random:
            seed = given.seed if given.seed is not None else random.SystemRandom().randrange(2**32)
            found = wander(scenario, seed, given.seconds or 10.0)
        else:
            found = tried(scenario, bounds, given.seconds, given.coarse)
        print(found, flush=True)
        is_well = is_well and found.fault is None
    return 0 if is_well else 1


sys.unraisablehook = lambda _: None  # a generator of a killed client yields in its `finally` when Python drops it

if __name__ == "__main__":
    sys.modules["explorer"] = sys.modules["__main__"]  # scenarios import it by its name
    sys.exit(main())
