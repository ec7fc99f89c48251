"""What the steps of a job cost, exactly, under a clock that stands still while there is something to send or to read.

Counted are the pieces that a client sends, those that it reads, and the times that it waits for the clock. A step is one
piece each way and no wait: a pause in a step, or a look that nobody needs, shows at once.
"""

import unittest

import paths  # noqa: F401
from explorer import FREE, World, finish
from scenarios import Scenario, nothing
from stepping import Face
from world import World as Connections

from femem import _locks as locks, _queues as queues, requests, _semaphore as semaphore, _words as words, _work as work
from femem._errors import TimedOut
from femem._jobs import Job, Look, Pause, Wait
from femem._operations import batch


class Pattern(Face):
    """The face whose operation is its job."""

    def _perform(self, done, *args, **more):
        return done.steps(self, *args, **more)


class Client:
    """A core that is attached, and what it has cost so far."""

    def __init__(self, world, session):
        self.world = world
        self._core = world.core(session, probe_interval=1e6)
        self._core.caller = session
        world.connect(self._core)
        self.sent = self.read = self.waits = self.requests = 0
        while self._core.is_busy():
            self.move()
        self.start_over()

    def start_over(self):
        self.sent = self.read = self.waits = self.requests = 0

    def costs(self):
        return self.sent, self.read, self.waits

    def move(self, may_wait=True):
        """Sends what there is to send, or reads, or lets time pass to what is due. Whether there was one of these."""
        core, world = self._core, self.world
        _, there, back = world.links[core]
        if core.to_send:
            self.sent += 1
            there += core.to_send
            core.to_send.clear()
            world.feed(world.links[core][0], there, len(there))
            world.model.post()
        elif self._collect():
            self.read += 1
            piece = bytes(back)
            back.clear()
            core.received(piece, world.now)
            self._finish()
        elif may_wait and core.next_time() is not None:
            self.waits += 1
            world.now = max(world.now, core.next_time())
            core.tick(world.now)
            self._finish()
        else:
            return False
        return True

    def _finish(self):
        """As the client's thread or loop does."""
        ended = self._core.take_ended()
        while ended:
            for ticket in ended:
                ticket.finished()
            ended = self._core.take_ended()

    def _collect(self):
        self.world.collect(self._core)
        return bool(self.world.links[self._core][2])

    def start(self, steps):
        job = Job(self._counting(steps))
        self._core.start(job, self.world.now)
        self._finish()
        return job

    def _counting(self, steps):
        """The steps, with how many of them ask something."""
        self.asking = 0
        sent = None
        try:
            step = next(steps)
            while True:
                self.asking += isinstance(step, Look) or bool(getattr(step, "requests", ()))
                self.requests += len(getattr(step, "requests", ()))
                try:
                    sent = yield step
                except BaseException as error:
                    step = steps.throw(error)
                else:
                    step = steps.send(sent)
        except StopIteration as end:
            return end.value

    def run(self, steps):
        """Runs a job to its end, with the costs of that alone."""
        self.start_over()
        job = self.start(steps)
        while not job.done:
            assert self.move(), "the job waits for another client"
        if job.error is not None:
            raise job.error
        return job.result


def made(kind, client, *args):
    return type(kind.__name__, (Pattern, kind), {})(client, *args)


class Costs(unittest.TestCase):
    def setUp(self):
        self.world = Connections(1)
        self.client = Client(self.world, 1)
        self.array = self.client.run(batch([requests.create("a", 4)]))[0]

    def test_each_step_is_one_piece_each_way(self):
        def steps(count):
            for k in range(count):
                yield from batch([requests.writexf(self.array, 0, k), requests.readff(self.array, 0)])

        for count in (1, 2, 7):
            self.client.run(steps(count))
            self.assertEqual(self.client.costs(), (count, count, 0))
        self.assertEqual(self.world.now, 100.0)

    def test_a_wait_that_is_answered_at_once_costs_no_more(self):
        def steps():
            yield Wait(requests.writeef(self.array, 1, 5), 10.0)
            yield Wait(requests.readfe(self.array, 1))

        self.client.run(steps())
        self.assertEqual(self.client.costs(), (2, 2, 0))

    def test_a_pause_is_one_wait(self):
        def steps():
            yield Pause(0.25)
            yield Pause(0.5)

        self.client.run(steps())
        self.assertEqual((self.client.costs(), self.world.now), ((0, 0, 2), 100.75))

    def test_a_time_that_ends_is_one_wait_and_a_cancel(self):
        def steps():
            try:
                yield Wait(requests.readfe(self.array, 2), 3.0)
            except TimedOut:
                return "over"

        self.assertEqual(self.client.run(steps()), "over")
        self.assertEqual((self.client.costs(), self.world.now), ((2, 1, 1), 103.0))

    def test_what_waits_is_not_asked_again(self):
        def steps():
            return (yield Wait(requests.readfe(self.array, 3)))

        other = Client(self.world, 2)
        self.client.start_over()
        job = self.client.start(steps())
        while self.client.move(may_wait=False):
            pass
        self.assertEqual(self.client.costs(), (1, 0, 0))
        self.assertGreater(self.client._core.next_time(), 1e6)  # it does not look in between
        other.run(batch([requests.writexf(self.array, 3, 9)]))
        while self.client.move(may_wait=False):
            pass
        self.assertEqual((job.result, self.client.costs()), (9, (1, 1, 0)))


class Patterns(unittest.TestCase):
    """An operation that nobody is in the way of has as many pieces each way as steps that ask, and waits for nothing."""

    OPERATIONS = [
        ("lock", locks.Lock, (), ("acquire", "release")),
        ("election", locks.Election, (), ("campaign", "resign")),
        ("reader", locks.ReadWriteLock, (4,), ("acquire_read", "release_read")),
        ("writer", locks.ReadWriteLock, (4,), ("acquire_write", "release_write")),
        ("semaphore", semaphore.Semaphore, (3,), ("acquire", "release")),
        ("counter", words.Counter, (), ("add", "value")),
        ("future", words.Future, (), ("is_set", "is_set")),
    ]

    def test_no_step_waits(self):
        for name, kind, sizes, operations in self.OPERATIONS:
            with self.subTest(name):
                client = Client(Connections(1), 1)
                pattern = made(kind, client, "p", *sizes)
                for _ in range(3):
                    for operation in operations:
                        client.run(getattr(pattern, operation)())
                        self.assertEqual(client.costs(), (client.asking, client.asking, 0), operation)
                self.assertEqual(client.world.now, 100.0)

    def test_no_step_of_a_queue_waits(self):
        for name, kind, sizes in (("queue", queues.BoundedQueue, (4,)), ("channel", queues.Channel, ())):
            with self.subTest(name):
                client = Client(Connections(1), 1)
                pattern = made(kind, client, "p", *sizes)
                for value in range(3):
                    client.run(pattern.put(value))
                    self.assertEqual(client.costs(), (client.asking, client.asking, 0))
                    self.assertEqual(client.run(pattern.get()), value)
                    self.assertEqual(client.costs(), (client.asking, client.asking, 0))
                self.assertEqual(client.world.now, 100.0)


    def test_readers_and_writers_ask_little_however_many_seats_there_are(self):
        """Requests, and pieces that are sent, of an acquisition and its release by one client alone."""
        for readers in (1, 4, 64):
            client = Client(Connections(1), 1)
            lock = made(locks.ReadWriteLock, client, "p", readers)
            for how, requests_, pieces in (("read", 8, 4), ("write", 5, 3)):
                client.run(getattr(lock, f"acquire_{how}")())
                client.run(getattr(lock, f"release_{how}")())
                for _ in range(3):
                    client.run(getattr(lock, f"acquire_{how}")())
                    first, sent = client.requests, client.sent
                    client.run(getattr(lock, f"release_{how}")())
                    self.assertEqual((first + client.requests, sent + client.sent), (requests_, pieces), (readers, how))


class Backlogs(unittest.TestCase):
    """A job costs as many requests however many others wait."""

    MOST = 12  # a put, a take and a `done` together

    def requests_of_a_job(self, capacity, backlog, count):
        """What a job costs one client that puts one for each that it takes, beside so many that lie there."""
        counts = []

        def script(world, client):
            queue = world.make(work.WorkQueue, client, "w", capacity)
            for value in range(backlog):
                yield from queue.put(value, timeout=1.0)
            counts.append(len(world.asked))
            for value in range(count):
                job = yield from queue.take(timeout=1.0)
                yield from job.done()
                yield from queue.put(value, timeout=1.0)
            counts.append(len(world.asked))

        one = Scenario("backlog", [script], nothing, ([FREE], []), is_kept=False)
        finish(World(one, most_steps=10**7))
        return (counts[1] - counts[0]) / count

    def test_each_operation_of_one_client(self):
        """A put beside a signal that nobody took, a take whose TAIL is known, and a `done`."""
        client = Client(Connections(1), 1)
        queue = made(work.WorkQueue, client, "w", 64)
        type(queue).JOB = type("WorkJob", (Pattern, work.WorkJob), {})
        for value in range(3):
            client.run(queue.put(value))
        client.run(client.run(queue.take()).done())
        for value in range(20):
            costs = []
            client.run(queue.put(value))
            costs.append((client.requests, client.sent))
            job = client.run(queue.take())
            costs.append((client.requests, client.sent))
            client.run(job.done())
            costs.append((client.requests, client.sent))
            self.assertEqual(costs, [(4, 2), (4, 2), (3, 2)])
        self.assertEqual(client.world.now, 100.0)

    def test_small_and_large_ones(self):
        for capacity, backlog in ((64, 1), (64, 62), (2000, 1900), (8000, 7900)):
            with self.subTest(capacity=capacity, backlog=backlog):
                self.assertLessEqual(self.requests_of_a_job(capacity, backlog, 300), self.MOST)


if __name__ == "__main__":
    unittest.main()
