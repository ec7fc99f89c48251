"""What is held or waits is right after an interruption, whoever fills the words at which clients show themselves."""

import asyncio
import contextlib
import ctypes
import inspect
import itertools
import random
import signal
import sys
import threading
import time
import unittest
from concurrent.futures import ThreadPoolExecutor
from unittest import mock

import paths  # noqa: F401
from serving import WithFolder
from test_unspoilt import Stop, interrupted

import femem
from femem import Client, patterns, requests
from femem.aio import AsyncClient
from femem._holdings import Read, Reads, Release, Sitting
from femem._jobs import Job
from femem._operations import operation
from femem.patterns import BoundedQueue, Channel, Lock, Locks, ReadWriteLock, Semaphore, WorkQueue
from femem.requests import Array

LONG = 60


class Raising:
    __getitem__ = getattr(ctypes.CDLL(None), "raise")  # an index is no call, after which Python looks for signals


# Of which bytecodes each run of the longest tests tries one.
STEP, WIDE_STEP = 7, 21


class Reading:
    """What a caller and another thread of its client read, while the caller is interrupted at each twenty-first bytecode."""

    def __init__(self, test, mine, theirs, beside):
        self.test, self.mine, self.theirs, self.beside = test, mine, theirs, beside
        self.client, self.word = mine._client, mine._client.find("rw")
        self.caller, self.begun, self.whole = threading.get_ident(), 0, []
        self.client._run_here = self.run_here

    def run_here(self, job):
        is_callers = threading.get_ident() == self.caller
        self.begun += is_callers
        is_whole = Client._run_here(self.client, job)
        self.whole += [is_whole] * is_callers
        return is_whole

    def try_all(self, before, use, reads, mate):
        """`before`: how many times each of the two reads. `use` is interrupted; `reads`: how many times the caller reads if it is
        not. `mate` is what the other thread does meanwhile."""
        at, total = random.randint(1 - WIDE_STEP, 0), 0
        while True:
            at += WIDE_STEP
            self.read(*before)
            here, there = before[0], before[1] + {"acquire_read": 1, "release_read": -1}.get(mate and mate.__name__, 0)
            while not self.test.lends(self.client, self.word):
                pass
            self.begun, self.whole = 0, []
            going = mate and self.beside.submit(mate)
            was = interrupted(use, at)
            if going:
                going.result(LONG)
            total += self.begun > 0
            if use.__name__ != "release_read":
                here = here if was else reads
            elif was and not self.begun and not until(lambda: self.count() == there, 0.1):
                here = before[0]  # it had not begun
            else:
                here = 0
            self.check(here, there, at)
            if not was and (mate or all(self.whole)):
                break  # (otherwise the thread had taken its numbers back)
            at -= 0 if was else WIDE_STEP
        self.test.assertGreater(at, 300)
        self.test.assertGreater(total, at // WIDE_STEP // 3)

    def count(self):
        return len(self.mine._reads)

    def read(self, here, there):
        for _ in range(here):
            self.mine.acquire_read()
        for _ in range(there):
            self.beside.submit(self.mine.acquire_read).result(LONG)

    def check(self, here, there, at):
        """Who reads yet keeps a writer out; then nothing is left."""
        test, names = self.test, (here, there, at)
        test.assertTrue(until(lambda: self.count() == here + there), (names, self.count()))
        for release in [*[self.mine.release_read] * here, *[lambda: self.beside.submit(self.mine.release_read).result(LONG)] * there]:
            test.assertFalse(self.theirs.acquire_write(timeout=0), names)
            release()
        test.assertTrue(self.theirs.acquire_write(timeout=LONG), names)
        self.theirs.release_write()
        test.assertTrue(until(lambda: self.words() == [True, False, True, True, False, False]), (names, self.words()))
        test.assertEqual(self.client.readff(self.word, 3), 0, names)
        test.assertEqual((self.client._core.holdings.words, self.client._core.holdings.reads.now(self.word).reads), ({}, ()), names)

    def words(self):
        """Which are full, but for the DOOR: a writer that is told late has seen by itself that nobody reads."""
        looks = self.client.submit_many([requests.readff(self.word, k, nowait=True) for k in (0, 1, 2, 3, 5, 6)])
        return [not isinstance(each, femem.NotNow) for each in looks]


def until(holds, seconds=LONG):
    end = time.monotonic() + seconds
    while not holds() and time.monotonic() < end:
        time.sleep(0.002)
    return holds()


class Interrupted(WithFolder):
    def test_a_with_block_at_each_bytecode(self):
        self.server()
        with Client(self.path, 7) as client, Client(self.path, 8) as other:
            for kind, sizes in ((Lock, ()), (Semaphore, (1,))):
                with self.subTest(kind.__name__):
                    mine, theirs = (kind(each, kind.__name__.lower(), *sizes) for each in (client, other))

                    def use():
                        with mine:
                            pass

                    for at in itertools.count(1):
                        was = interrupted(use, at)
                        self.assertTrue(theirs.acquire(timeout=LONG), at)
                        theirs.release()
                        if not was:
                            break
                    self.assertGreater(at, 100)
                    self.assertIsNone(client.failure)

    def test_a_signal_between_a_block_and_its_end(self):
        """Python sees it as `__exit__` begins, before the first statement there."""
        self.server()
        self.stop_by_signals()
        with Client(self.path, 7) as client, Client(self.path, 8) as other:
            for kind, sizes in ((Lock, ()), (Semaphore, (1,))):
                mine, theirs = (kind(each, kind.__name__.lower(), *sizes) for each in (client, other))
                for _ in range(3):
                    with self.assertRaises(Stop):
                        with mine:
                            Raising()[signal.SIGALRM]
                    self.assertTrue(theirs.acquire(timeout=LONG))
                    theirs.release()
                    with mine:
                        self.assertFalse(theirs.acquire(timeout=0))

    def stop_by_signals(self):
        def stop(*_):
            raise Stop

        before = signal.signal(signal.SIGALRM, stop)
        self.addCleanup(signal.signal, signal.SIGALRM, before)

    def test_a_signal_between_a_job_and_its_end(self):
        """The job is given to another taker, at once, however long the interrupted one has it in a traceback."""
        self.server()
        self.stop_by_signals()
        with Client(self.path, 7) as client, Client(self.path, 8) as other:
            mine, theirs = WorkQueue(client, "jobs", 8), WorkQueue(other, "jobs", 8)
            for value in range(3):
                mine.put(value)
                with self.assertRaises(Stop) as caught:
                    with mine.take(timeout=LONG) as job:
                        Raising()[signal.SIGALRM]
                again = theirs.take(timeout=LONG)
                self.assertEqual((again.value, again.attempt), (value, 2))
                again.done()
                self.assertIsNotNone(caught.exception)
                with self.assertRaises(femem.NotOwner):
                    job.done()
                self.assertEqual(client._core.holdings.jobs, {})

    def test_a_job_at_each_bytecode(self):
        """Of its block, which is left without an error: it is done, or given to another taker."""
        self.server()
        with Client(self.path, 7) as client, Client(self.path, 8) as other:
            mine, theirs = WorkQueue(client, "jobs", 8, attempts=16), WorkQueue(other, "jobs", 8, attempts=16)
            for at in itertools.count(1):
                mine.put(at)
                job = mine.take(timeout=LONG)

                def use():
                    with job:
                        pass

                was = interrupted(use, at)
                if was and not until(lambda: job.has_ended, 0.2):
                    job.fail()  # its block was not entered
                self.assertTrue(until(lambda: not client._core.holdings.jobs), at)
                if self.left(theirs, at) is None and not was:
                    break
            self.assertGreater(at, 50)
            self.assertIsNone(client.failure)

    def test_a_take_at_each_bytecode(self):
        """The caller has the job, or it is given to another taker: also where the take waited for the job's signal."""
        self.server()
        with Client(self.path, 7) as client, Client(self.path, 8) as other:
            mine, theirs = WorkQueue(client, "jobs", 8, attempts=16), WorkQueue(other, "jobs", 8, attempts=16)
            for step, pause in ((1, None), (7, 0.005)):
                mine.put(0), mine.take(timeout=LONG).done()
                for at in itertools.count(1, step):
                    taken = []
                    putter = threading.Timer(pause or 0.0, theirs.put, (at,))
                    putter.start()
                    if pause is None:
                        putter.join()
                    was = interrupted(lambda: taken.append(mine.take(timeout=LONG)), at)
                    putter.join()
                    job = taken[0] if taken else theirs.take(timeout=LONG)
                    self.assertEqual(job.value, at)
                    job.done()
                    self.assertTrue(until(lambda: not client._core.holdings.jobs), at)
                    if not was:
                        break
                self.assertGreater(at, 200)
            self.assertIsNone(client.failure)

    def left(self, queue, value):
        """The job if it was given back. It is done then."""
        try:
            job = queue.take(timeout=0.0)
        except femem.TimedOut:
            return None
        self.assertEqual((job.value, job.attempt), (value, 2))
        job.done()
        return job

    def test_a_block_that_is_entered_and_left_by_hand(self):
        self.server()
        with Client(self.path, 7) as client, Client(self.path, 8) as other:
            for kind, sizes in ((Lock, ()), (Semaphore, (1,))):
                mine, theirs = (kind(each, kind.__name__.lower(), *sizes) for each in (client, other))
                leave = mine.__exit__
                for _ in range(3):
                    self.assertIs(mine.__enter__(), mine)
                    self.assertFalse(theirs.try_acquire())
                    leave(None, None, None)
                with self.assertRaises(femem.NotOwner):
                    mine.__exit__(None, None, None)
                mine.__enter__()
                self.assertFalse(theirs.try_acquire())
                mine.__exit__(None, None, None)
                with contextlib.ExitStack() as stack:
                    stack.enter_context(mine)
                    self.assertFalse(theirs.try_acquire())
                self.assertTrue(theirs.try_acquire())

    def waits(self, client, word):
        return [w for w in client.report().waiters if w.array == word.id]

    def test_a_wait_at_each_bytecode(self):
        """Nothing is left waiting, which would take the next value."""
        self.server()
        with Client(self.path, 7) as client, Client(self.path, 8) as other:
            channel = Channel(client, "word")
            word = client.find("word")
            works = {
                "a call": lambda: client.readfe(word, 0, timeout=0.002),
                "a channel": lambda: channel.get(timeout=0.002),
            }
            for name, work in works.items():
                with self.subTest(name):
                    for at in itertools.count(1):
                        client.readxx(word, 0)
                        try:
                            was = interrupted(work, at)
                        except femem.TimedOut:
                            was = False
                        self.assertTrue(until(lambda: not self.waits(other, word)), at)
                        if not was:
                            break
                    self.assertGreater(at, 50)
            other.writeef(word, 0, 5)
            self.assertEqual(channel.get(timeout=LONG), 5)
            self.assertIsNone(client.failure)

    def test_what_is_held_over_lent_numbers_at_each_bytecode(self):
        """Its caller runs the steps. Interrupted, an acquisition leaves nothing held, and a release nothing kept.

        Each run tries every seventh bytecode, from another one on.
        """
        self.server()
        with Client(self.path, 7) as client, Client(self.path, 8) as other:
            here, whole, run_here = [], [], client._run_here
            client._run_here = lambda job: here.append(job) or whole.append(run_here(job)) or whole[-1]
            for kind, sizes in ((Lock, ()), (Semaphore, (2,))):
                name = f"held{len(sizes) and sizes[0]}"
                mine, theirs = (kind(each, name, *sizes) for each in (client, other))
                mine.acquire()
                mine.release()
                word = client.find(name)
                for ends in (False, True):
                    here.clear()
                    at = random.randint(1 - STEP, 0)
                    while True:
                        at += STEP
                        whole.clear()
                        if ends:
                            self.assertTrue(mine.acquire(timeout=LONG), at)
                        while not self.lends(client, word):
                            pass
                        begun = len(here)
                        was = interrupted(mine.release if ends else mine.acquire, at)
                        if not ends and not was or ends and was and len(here) == begun and not until(lambda: not self.held(mine), 0.1):
                            mine.release()
                        end = time.monotonic() + LONG
                        while not self.lends(client, word) or self.held(theirs):
                            self.assertLess(time.monotonic(), end, (name, ends, at))
                        self.assertEqual((client._core.holdings.words, getattr(mine, "_held", [])), ({}, []), at)
                        if not was and whole == [True]:
                            break  # (otherwise the thread had taken its numbers back)
                        at -= 0 if was else STEP
                    self.assertGreater(at, 300)
                    self.assertGreater(len(here), at // STEP // 3)
            self.assertIsNone(client.failure)

    def test_reads_at_each_bytecode(self):
        """Of a caller alone, and beside another thread, over the same seat. Interrupted, an acquisition leaves nothing held, and a
        release nothing kept; who reads yet keeps a writer out.

        Each run tries every twenty-first bytecode, from another one on.
        """
        self.server()
        with Client(self.path, 7) as client, Client(self.path, 8) as other, ThreadPoolExecutor(1) as beside:
            mine, theirs = (ReadWriteLock(each, "rw", 2) for each in (client, other))
            mine.acquire_read()
            mine.release_read()

            def block():
                with mine.read():
                    pass

            for before, use, reads, mate in (
                ((0, 0), mine.acquire_read, 1, None),
                ((0, 1), mine.acquire_read, 1, None),
                ((1, 0), mine.acquire_read, 2, None),
                ((0, 0), mine.acquire_read, 1, mine.acquire_read),
                ((0, 1), mine.acquire_read, 1, mine.release_read),
                ((1, 0), mine.release_read, 0, None),
                ((1, 1), mine.release_read, 0, None),
                ((1, 1), mine.release_read, 0, mine.release_read),
                ((0, 0), block, 0, None),
                ((0, 1), block, 0, None),
            ):
                with self.subTest(f"{use.__name__} {before} {mate and mate.__name__}"):
                    Reading(self, mine, theirs, beside).try_all(before, use, reads, mate)
            self.assertIsNone(client.failure)

    def test_reads_that_others_change_meanwhile(self):
        """Each change comes after what another thread has just changed."""
        reads, array, becomes = Reads(), Array(1, 8), Sitting.becomes
        one, two, three, four = (Read(caller) for caller in (1, 2, 1, 1))

        def before(change, call):
            changes = [change]
            with mock.patch.object(Sitting, "becomes", lambda *now: changes and changes.pop()() and False or becomes(*now)):
                return call()

        self.assertEqual(reads.add(array, one, 5), 5)
        self.assertIsNone(reads.add(array, three, None, again=True))  # the server may not know of the first one
        one.has_begun = True
        self.assertEqual(before(lambda: reads.add(array, three, None, again=True), lambda: reads.leave(array, one)), None)
        self.assertEqual((reads.leave(array, one), reads.now(array).reads), (None, (three,)))
        self.assertEqual(before(lambda: reads.leave(array, three), lambda: reads.add(array, two, None)), None)
        self.assertEqual((reads.leave(array, three), reads.now(array).reads), (5, ()))
        self.assertEqual(reads.add(array, two, 6), 6)
        self.assertEqual(before(lambda: reads.leave(array, two), lambda: reads.add(array, four, 7)), 7)
        self.assertEqual((reads.leave(array, two), reads.leave(array, four), reads.leave(array, one)), (6, 7, None))
        releases = Release(1), Release(1)
        self.assertEqual([each.is_of(four) for each in (*releases, *releases)], [True, False, True, False])

    def lends(self, client, word):
        """Whether the client's thread lends numbers: it has nothing to do then."""
        client.readxx(word, 0)
        return client._worker.lease is not None

    def held(self, pattern):
        return pattern.locked() if isinstance(pattern, Lock) else pattern.holders()

    def test_several_releases_of_one_acquisition(self):
        """One was interrupted, and is to be mended. One of them releases it, and whoever has it next keeps it."""
        self.server()
        with Client(self.path, 7) as client, Client(self.path, 8) as other:
            words = client._core.holdings.words

            def goes_on(steps, begun=None):
                job = Job(steps)
                job.begun = begun
                client._run_job(job)

            for make, times in (
                (lambda each: Lock(each, "lock"), {"timeout": LONG}),
                (lambda each: Locks(each, "locks", 8).of("a"), {"timeout": LONG}),
                (lambda each: Semaphore(each, "semaphore", 1), {"timeout": LONG}),
                (lambda each: ReadWriteLock(each, "rw", 2).write(LONG), {}),
                (lambda each: ReadWriteLock(each, "rw", 2).read(LONG), {}),
            ):
                mine, theirs = make(client), make(other)

                def release():
                    steps = mine._operations["release"].steps(mine)
                    return steps, steps.mend.args[0]

                def it_is_theirs(*mends):
                    """Until they release it."""
                    self.assertTrue(theirs.acquire(**times))
                    self.assertRaises(femem.NotOwner, mine.release)
                    for each in mends:
                        with contextlib.suppress(femem.NotOwner):
                            goes_on(each)
                    theirs.release()

                with self.subTest(type(mine).__name__):
                    mine.acquire()
                    steps, first = release()
                    mine.release()  # before the first one has begun
                    it_is_theirs(steps.mend([]))
                    mine.acquire()
                    steps, first = release()
                    first.hold = next(iter(words.values()), None)
                    mine.release()  # after the first one has found what it is to release
                    it_is_theirs(steps.mend([]))
                    mine.acquire()
                    steps, first = release()
                    found = dict(words)
                    next(steps)
                    self.assertRaises(femem.NotOwner, mine.release)
                    words.update(found)  # another thread found it before
                    self.assertRaises(femem.NotOwner, mine.release)
                    words.clear()
                    steps.close()
                    goes_on(steps.mend([]))
                    it_is_theirs()
                    mine.acquire()
                    steps, first = release()
                    mends = steps.mend([])
                    begun = next(mends)
                    self.assertRaises(femem.NotOwner, mine.release)
                    goes_on(mends, begun)
                    it_is_theirs()

    def test_a_release_of_a_permit_beside_another_one(self):
        """One was interrupted: mended, it is of its own permit."""
        self.server()
        with Client(self.path, 7) as client:
            semaphore = Semaphore(client, "semaphore", 2)
            semaphore.acquire()
            semaphore.acquire()
            steps = semaphore._operations["release"].steps(semaphore)
            next(steps)
            steps.close()
            client._run_job(Job(steps.mend([])))
            self.assertEqual(semaphore.holders(), [7])
            semaphore.release()
            self.assertEqual((semaphore.holders(), client._core.holdings.words), ([], {}))

    def test_each_operation_is_a_function(self):
        """When a call of anything else returns, Python runs signal handlers, and nobody knows any more what was acquired."""
        found = set()
        for made in (getattr(patterns, name) for name in patterns.__all__):
            for kind in getattr(made, "__mro__", ()):
                found |= {(made, name) for name, each in vars(kind).items() if isinstance(each, operation)}
        self.assertEqual([name for made, name in found if not inspect.isfunction(getattr(made, name))], [])
        self.assertGreater(len(found), 40)

    def test_signals_within_waits(self):
        """Each value is got, or its `get` was interrupted. Then nothing waits."""
        self.server()

        def stop(*_):
            raise Stop

        before = signal.signal(signal.SIGALRM, stop)
        self.addCleanup(signal.signal, signal.SIGALRM, before)
        self.addCleanup(signal.setitimer, signal.ITIMER_REAL, 0)
        chance, got, stops, last = random.Random(4), [], 0, 400
        with Client(self.path, 7) as client, Client(self.path, 8) as other:
            mine, theirs = Channel(client, "word"), Channel(other, "word")
            ends = threading.Event()

            def put():
                for value in itertools.count():
                    if ends.is_set():
                        break
                    theirs.put(value)
                    time.sleep(chance.random() * 1e-3)

            thread = threading.Thread(target=put)
            thread.start()
            while stops < last or len(got) <= last // 2:
                try:
                    signal.setitimer(signal.ITIMER_REAL, chance.random() * 3e-3 + 1e-6)
                    while True:
                        got.append(mine.get())
                except Stop:
                    stops += 1
                signal.setitimer(signal.ITIMER_REAL, 0)
            ends.set()
            while thread.is_alive():
                try:
                    got.append(mine.get(timeout=0.05))
                except femem.TimedOut:
                    pass
            thread.join()
            self.assertEqual(got, sorted(set(got)))
            self.assertLessEqual(got[-1] + 1 - len(got), stops)
            self.assertEqual(self.waits(other, client.find("word")), [])

    @unittest.skipUnless(sys.version_info >= (3, 11), "an older Python looks for signals after each step")
    def test_signals_within_acquire(self, stops=150):
        """It returned, or nothing is held: Python looks for no signal between its last call and what its caller does with
        the result."""
        self.server()
        self.stop_by_signals()
        self.addCleanup(signal.setitimer, signal.ITIMER_REAL, 0)
        chance = random.Random(5)
        with Client(self.path, 7) as client, Client(self.path, 8) as other:
            for kind, sizes in ((Lock, ()), (Semaphore, (1,))):
                mine, theirs = (kind(each, kind.__name__.lower(), *sizes) for each in (client, other))
                interrupted = 0
                while interrupted < stops:
                    got = False
                    try:
                        signal.setitimer(signal.ITIMER_REAL, chance.random() * 1e-3 + 1e-6)
                        got = mine.acquire()
                        signal.setitimer(signal.ITIMER_REAL, 0)
                    except Stop:
                        signal.setitimer(signal.ITIMER_REAL, 0)
                    if not got:
                        interrupted += 1
                        self.assertTrue(theirs.acquire(timeout=LONG))
                    (mine if got else theirs).release()

    def test_signals_within_reads_and_writes(self, stops=150):
        """Of a lock for readers and writers: it returned, or nothing is held; and what is released is released. Another thread
        reads over the same seat."""
        self.server()
        self.stop_by_signals()
        self.addCleanup(signal.setitimer, signal.ITIMER_REAL, 0)
        chance = random.Random(6)

        def is_interrupted(call):
            returned = False
            try:
                signal.setitimer(signal.ITIMER_REAL, chance.random() * 1e-3 + 1e-6)
                returned = call() is not False
                signal.setitimer(signal.ITIMER_REAL, 0)
            except Stop:
                signal.setitimer(signal.ITIMER_REAL, 0)
            return not returned

        with Client(self.path, 7) as client, Client(self.path, 8) as other:
            mine, beside, theirs = (ReadWriteLock(each, "rw", 4) for each in (client, client, other))
            inside, ends = [], threading.Event()

            def read():
                while not ends.is_set():
                    beside.acquire_read()
                    inside.append(1)
                    inside.pop()
                    beside.release_read()

            thread = threading.Thread(target=read)
            thread.start()
            for acquire, release in ((mine.acquire_read, mine.release_read), (mine.acquire_write, mine.release_write)):
                acquires = releases = not_begun = 0
                for turn in range(2 * stops):
                    # (on a slow machine hardly any acquisition ends in its time, so each second one has all time)
                    if turn % 2 and is_interrupted(acquire):
                        acquires += 1
                    else:
                        if not turn % 2:
                            acquire()
                        if is_interrupted(release):
                            releases += 1
                            try:
                                release()
                                not_begun += 1
                            except femem.NotOwner:
                                pass
                    self.assertTrue(theirs.acquire_write(timeout=LONG))
                    self.assertEqual(inside, [])
                    theirs.release_write()
                self.assertGreater(acquires, 0)
                self.assertLess(not_begun, releases)
            ends.set()
            thread.join(LONG)
            self.assertTrue(theirs.acquire_write(timeout=LONG))
            theirs.release_write()
            book = client.find("rw")
            words = client.submit_many([requests.readff(book, k, nowait=True) for k in range(9)])
            self.assertEqual([k for k, word in enumerate(words) if not isinstance(word, femem.NotNow)], [0, 2, 3])
            self.assertEqual((words[3], client._core.holdings.reads.now(book).reads), (0, ()))
            self.assertIsNone(client.failure)

    def test_threads_that_read_and_write(self):
        """They run the steps themselves, beside each other and another client."""
        self.server()
        inside, wrong, done = [], [], []

        def work(lock, seed):
            chance = random.Random(seed)
            for _ in range(60):
                writes = chance.random() < 0.3
                acquire, release = (lock.acquire_write, lock.release_write) if writes else (lock.acquire_read, lock.release_read)
                self.assertTrue(acquire(timeout=LONG))
                inside.append(writes)
                if writes and len(inside) > 1 or True in inside and not writes:
                    wrong.append([*inside])
                time.sleep(chance.random() * 5e-4)
                inside.remove(writes)
                release()
            done.append(seed)

        with Client(self.path, 7) as client, Client(self.path, 8) as other:
            locks = [ReadWriteLock(each, "rw", 2) for each in (client, client, other)]
            threads = [threading.Thread(target=work, args=(locks[k % 3], k)) for k in range(6)]
            for thread in threads:
                thread.start()
            for thread in threads:
                thread.join(LONG)
            self.assertEqual((wrong, len(done), locks[0].owners()), ([], 6, (None, [])))

    def test_a_release_of_a_task_that_is_cancelled(self):
        self.server()

        async def main():
            async with AsyncClient(self.path, 7) as client, AsyncClient(self.path, 8) as other:
                mine, theirs = femem.aio.Lock(client, "lock"), femem.aio.Lock(other, "lock")
                for steps in range(20):
                    await mine.acquire()
                    task = asyncio.ensure_future(mine.release())
                    for _ in range(steps):
                        await asyncio.sleep(0)
                    task.cancel()
                    await asyncio.wait([task])
                    if steps:  # it had begun
                        self.assertTrue(await theirs.acquire(timeout=LONG))
                        await theirs.release()
                    else:
                        await mine.release()

        asyncio.run(main())


class Spoilt(WithFolder):
    """Somebody fills the word at which clients show that they are there."""

    def test_a_living_owner_is_there(self):
        self.server()
        with Client(self.path, 7) as client, Client(self.path, 8) as other, Client(self.path, 9) as third:
            presence = third.create("presence", 1, full=True)
            mine, theirs = Lock(client, "lock"), Lock(other, "lock")
            for _ in range(3):
                self.assertTrue(mine.acquire(timeout=LONG))
                self.assertFalse(theirs.acquire(timeout=2.0, takeover_after=1.0))
                third.writexf(presence, 0, 1)
                self.assertFalse(theirs.acquire(timeout=2.0, takeover_after=1.0))
                mine.release()
            self.assertIsNone(theirs.broke)

    def test_a_taker_is_there(self):
        self.server()
        with Client(self.path, 7) as client, Client(self.path, 8) as other, Client(self.path, 9) as third:
            presence = third.create("presence", 1, full=True)
            mine, theirs = (WorkQueue(each, "jobs", 8, away_after=1.0) for each in (client, other))
            mine.put(5)
            job = mine.take(timeout=LONG)
            for _ in range(2):
                with self.assertRaises(femem.TimedOut):
                    theirs.take(timeout=2.0)
                third.writexf(presence, 0, 1)
            job.done()


    def test_an_array_that_is_removed_as_it_is_found_is_made_again(self):
        """Before each step that uses its words."""
        self.server()
        with Client(self.path, 7) as client:
            made = (Lock(client, "lock"), BoundedQueue(client, "queue", 2), ReadWriteLock(client, "book", 2))
            for pattern, steps in zip(made, (1, 2, 2)):
                for removed_at in range(steps):
                    with self.subTest(pattern=pattern._name, step=removed_at):
                        self.remove_at(client, pattern, removed_at)

    def remove_at(self, client, pattern, removed_at):
        pattern._array = None
        client.remove(client.find(pattern._name))
        steps, uses, outcome = pattern._find(), 0, None
        try:
            while True:
                step = steps.send(outcome)
                if step.requests and step.requests[0].frame[4] in (5, 11):
                    if uses == removed_at:
                        client.remove(int.from_bytes(step.requests[0].frame[14:22], "big"))
                    uses += 1
                outcome = client.submit_many(step.requests)
        except StopIteration as end:
            self.assertEqual(end.value, client.find(pattern._name))
        self.assertGreater(uses, removed_at + 1)


class Sizes(WithFolder):
    def test_a_work_queue_has_the_sizes_of_the_first_client(self):
        """Before it has a page, and where the pages would be equally long."""
        self.server()
        with Client(self.path, 7) as client:
            WorkQueue(client, "jobs", 7).aside()
            for capacity, attempts in ((8, 3), (7, 2), (70, 3)):
                with self.assertRaises(femem.OtherPattern):
                    WorkQueue(client, "jobs", capacity, attempts=attempts).put(1)
            WorkQueue(client, "jobs", 7).put(1)
            with WorkQueue(client, "jobs", 7).take(timeout=LONG) as job:
                self.assertEqual(job.value, 1)


if __name__ == "__main__":
    unittest.main()
