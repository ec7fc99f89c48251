"""`with rw.read()` and `with rw.write()`, and `for job in queue`, of threads and of asyncio."""

import asyncio
import itertools
import pathlib
import signal
import subprocess
import sys
import time

import paths
from serving import WithClients
from test_held import Raising, Stop, until
from test_unspoilt import interrupted

import femem
from femem import Client, aio
from femem.aio import AsyncClient
from femem.patterns import ReadWriteLock, WorkQueue

LONG = 60

# Takes a job in a loop, says so, and is killed in the body.
KILLED = f"""
import sys, time
sys.path.insert(0, {str(pathlib.Path(paths.__file__).resolve().parents[1])!r})
from femem import Client
from femem.patterns import WorkQueue
with Client(sys.argv[1], 9) as client:
    for job in WorkQueue(client, "jobs", 8, attempts=16):
        print(job.value, flush=True)
        time.sleep(600)
"""


class Blocks(WithClients):
    def test_blocks_of_readers_and_writers(self):
        inside, seen = [], []

        def work(client, k):
            lock = ReadWriteLock(client, "book", 3)
            for round in range(4):
                which = "r" if (k + round) % 3 else "w"
                with lock.read(timeout=LONG) if which == "r" else lock.write():
                    inside.append(which)
                    seen.append("".join(inside))
                    time.sleep(0.002)
                    inside.remove(which)
            return lock.owners()

        self.run_all(work)
        self.assertEqual(len(seen), 4 * self.CLIENTS)
        self.assertTrue(all("w" not in each or each == "w" for each in seen), seen)

    def test_a_block_that_is_late_holds_nothing(self):
        self.server()
        with Client(self.path, 1) as one, Client(self.path, 2) as two:
            mine, yours = ReadWriteLock(one, "book", 3), ReadWriteLock(two, "book", 3)
            with mine.write():
                for turn in (yours.read(timeout=0.05), yours.write(timeout=0.0)):
                    with self.assertRaises(femem.TimedOut):
                        with turn:
                            self.fail("it is inside")
                self.assertEqual(mine.owners(), (1, []))
            with mine.read(), yours.read(timeout=LONG):
                self.assertEqual(mine.owners(), (None, [1, 2]))
                with self.assertRaises(femem.TimedOut), yours.write(timeout=0.05):
                    self.fail("it is inside")
            with self.assertRaises(ZeroDivisionError), mine.write():
                1 // 0
            self.assertEqual(mine.owners(), (None, []))
            for wrong in (mine.read, mine.write):
                with self.assertRaises(TypeError):
                    wrong(timeout="soon")

    def test_an_owner_that_is_absent_loses_its_block(self):
        self.server()
        with Client(self.path, 1) as one, Client(self.path, 2) as two:
            yours = ReadWriteLock(two, "book", 3)
            with self.assertRaises(femem.NotOwner):
                with yours.read():
                    yours.break_()
            lock = ReadWriteLock(one, "book", 3)
            lock.acquire_write()
            one.close()
            with yours.read(takeover_after=0.05):
                self.assertEqual((yours.broke, yours.owners()), (1, (None, [2])))

    def test_a_readers_block_at_each_bytecode(self):
        self.each_bytecode(lambda lock: lock.read())

    def test_a_writers_block_at_each_bytecode(self):
        self.each_bytecode(lambda lock: lock.write())

    def each_bytecode(self, turn):
        self.server()
        with Client(self.path, 7) as client, Client(self.path, 8) as other:
            mine, theirs = ReadWriteLock(client, "book", 2), ReadWriteLock(other, "book", 2)

            def use():
                with turn(mine):
                    pass

            for at in itertools.count(1):
                was = interrupted(use, at)
                self.assertTrue(theirs.acquire_write(timeout=LONG), at)
                theirs.release_write()
                if not was:
                    break
            self.assertGreater(at, 100)
            self.assertIsNone(client.failure)

    def test_a_signal_between_a_block_and_its_end(self):
        """Python sees it as `__exit__` begins, before the first statement there."""
        self.server()
        stop_by_signals(self)
        with Client(self.path, 7) as client, Client(self.path, 8) as other:
            mine, theirs = ReadWriteLock(client, "book", 2), ReadWriteLock(other, "book", 2)
            for turn in (mine.read, mine.write, mine.read):
                with self.assertRaises(Stop):
                    with turn():
                        Raising()[signal.SIGALRM]
                with theirs.write(timeout=LONG):
                    self.assertEqual(mine.owners(), (8, []))

    def test_blocks_of_tasks(self):
        self.server()

        async def main():
            async with AsyncClient(self.path, 1) as one, AsyncClient(self.path, 2) as two:
                mine, yours = aio.ReadWriteLock(one, "book", 3), aio.ReadWriteLock(two, "book", 3)
                async with mine.read(), yours.read(timeout=LONG):
                    self.assertEqual(await mine.owners(), (None, [1, 2]))
                    with self.assertRaises(femem.TimedOut):
                        async with mine.write(timeout=0.05):
                            self.fail("it is inside")

                async def waits():
                    async with yours.write():
                        self.fail("it is inside")

                async with mine.write():
                    task = asyncio.ensure_future(waits())
                    await asyncio.sleep(0.05)
                    task.cancel()
                    with self.assertRaises(asyncio.CancelledError):
                        await task
                with self.assertRaises(ZeroDivisionError):
                    async with yours.write():
                        1 // 0
                return await mine.owners()

        self.assertEqual(asyncio.run(main()), (None, []))


def stop_by_signals(test):
    def stop(*_):
        raise Stop

    before = signal.signal(signal.SIGALRM, stop)
    test.addCleanup(signal.signal, signal.SIGALRM, before)


class Loops(WithClients):
    def setUp(self):
        super().setUp()
        self.server()
        self.mine, self.other = self.enterContext(Client(self.path, 7)), self.enterContext(Client(self.path, 8))
        self.queue, self.theirs = (WorkQueue(each, "jobs", 8, attempts=16) for each in (self.mine, self.other))

    def enterContext(self, context):
        self.addCleanup(context.__exit__, None, None, None)
        return context.__enter__()

    def comes_back(self, *values):
        """Another taker gets these, in their second attempts, and no other."""
        for value in values:
            job = self.theirs.take(timeout=LONG)
            self.assertEqual((job.value, job.attempt), (value, 2))
            job.done()
        self.assertFalse(self.mine._core.holdings.jobs)
        with self.assertRaises(femem.TimedOut):
            self.theirs.take(timeout=0.0)

    def put(self, *values):
        for value in values:
            self.theirs.put(value)

    def test_a_loop_ends_its_jobs(self):
        """A body that comes to its end has done its job. The loop ends when none comes in time."""
        self.put(1, 2, 3, 4, 5)
        seen = []
        for job in self.queue.jobs(timeout=1.0):
            seen.append(job.value)
            if job.value == 1:
                continue
            if job.value == 2:
                job.done()
            if job.value == 3 and job.attempt == 1:
                job.fail()
            if job.value == 4:
                job.move(WorkQueue(self.mine, "next", 8), 40)
        self.assertEqual((seen[0], sorted(seen)), (1, [1, 2, 3, 3, 4, 5]))
        self.comes_back()
        self.assertEqual(WorkQueue(self.other, "next", 8).take(timeout=LONG).value, 40)

    def test_a_body_that_is_left_gives_its_job_to_another_taker(self):
        def returns():
            for job in self.queue:
                return job

        def raises():
            for job in self.queue:
                if job.value != 2:
                    raise ZeroDivisionError(job)

        for value in (3, 4):
            self.put(value)
            kept = returns()
            self.comes_back(value)
            with self.assertRaises(femem.NotOwner):
                kept.done()
        self.put(2, 1)
        try:
            raises()
            self.fail("nothing was raised")
        except ZeroDivisionError as error:  # its traceback has the frame of the loop
            self.comes_back(1)
            self.assertIsNotNone(error.__traceback__)
        self.put(5)
        for job in self.queue:
            break
        self.comes_back(5)
        self.put(6)
        for job in self.queue:
            job.done()
            break
        self.comes_back()

    def test_an_iterator_that_is_used_again_gives_back_what_its_first_loop_left(self):
        self.put(1, 2)
        jobs = self.queue.jobs(timeout=1.0)
        for job in jobs:
            left = job.value
            break
        seen = sorted((job.value, job.attempt) for job in jobs)
        self.assertEqual(seen, [(each, 2 if each == left else 1) for each in (1, 2)])
        self.comes_back()
        self.assertEqual(list(self.queue.jobs(timeout=0.0)), [])

    def test_a_job_that_another_attempt_has_ended_ends_the_loop(self):
        self.put(1)
        with self.assertRaises(femem.NotOwner):
            for job in self.queue:
                self.theirs.drop(job.number)
        self.comes_back()

    def test_a_loop_at_each_bytecode(self):
        """Each job is done, or comes back, and once."""
        self.addCleanup(setattr, sys, "unraisablehook", sys.unraisablehook)
        sys.unraisablehook = lambda _: None  # what is raised while a loop is dropped
        seen, ends = [], set()

        def use():
            jobs = self.queue.jobs(timeout=LONG)
            for job in jobs:
                jobs._timeout = 0.0  # it ends then
                del jobs
                seen.append(job)

        for at in itertools.count(1):
            self.put(at)
            seen.clear()
            was = interrupted(use, at)
            self.assertTrue(until(lambda: not self.mine._core.holdings.jobs), at)
            if not seen:
                seen.append(self.theirs.take(timeout=LONG))
                ends.add("not taken")
                seen[0].fail()
            self.assertEqual([job.value for job in seen], [at])
            try:
                self.theirs.drop(seen[0].number)
                ends.add("given back")
            except femem.NotOwner:
                ends.add("done")
            if not was:
                break
        self.assertGreater(at, 100)
        self.assertEqual(ends, {"not taken", "given back", "done"})
        self.assertIsNone(self.mine.failure)

    def test_a_signal_in_the_body(self):
        stop_by_signals(self)
        for value in range(3):
            self.put(value)
            with self.assertRaises(Stop):
                for job in self.queue:
                    Raising()[signal.SIGALRM]
            self.comes_back(value)

    def test_a_process_that_is_killed_in_the_body_loses_no_job(self):
        self.put(1)
        theirs = WorkQueue(self.other, "jobs", 8, attempts=16, away_after=0.2)
        process = subprocess.Popen([sys.executable, "-c", KILLED, self.path], stdout=subprocess.PIPE, text=True)
        try:
            self.assertEqual(process.stdout.readline(), "1\n")
        finally:
            process.kill()
            process.communicate()
        job = theirs.take(timeout=LONG)
        self.assertEqual((job.value, job.attempt), (1, 2))
        job.done()

    def test_a_loop_of_a_client_that_is_closed_ends(self):
        self.put(1)
        with self.assertRaises(femem.Closed):
            for job in self.queue:
                self.mine.close()
        self.assertEqual(WorkQueue(self.other, "jobs", 8, attempts=16, away_after=0.1).take(timeout=LONG).value, 1)

    # Of tasks.

    def of_tasks(self, work):
        async def main():
            async with AsyncClient(self.path, 9) as client:
                return await asyncio.wait_for(work(aio.WorkQueue(client, "jobs", 8, attempts=16)), LONG)

        return asyncio.run(main())

    def test_a_loop_of_a_task_ends_its_jobs(self):
        self.put(1, 2, 3)
        seen = []

        async def work(queue):
            async for job in queue.jobs(timeout=1.0):
                seen.append(job.value)
                if job.value == 2 and job.attempt == 1:
                    await job.fail()
            return queue._core.holdings.jobs

        self.assertFalse(self.of_tasks(work))
        self.assertEqual(sorted(seen), [1, 2, 2, 3])
        self.comes_back()

    def test_a_body_that_a_task_leaves_gives_its_job_to_another_taker(self):
        async def raises(queue):
            async for job in queue:
                raise ZeroDivisionError(job)

        async def breaks(queue):
            async for job in queue:
                break
            await asyncio.sleep(0)
            return 0

        for value, work in enumerate((raises, breaks, raises)):
            self.put(value)
            try:
                self.assertEqual(self.of_tasks(work), 0)
            except ZeroDivisionError:
                self.assertIs(work, raises)
            self.comes_back(value)

    def test_a_task_that_is_cancelled_in_a_body_or_between_gives_its_job_back(self):
        async def work(queue):
            told = asyncio.Event()

            async def loops():
                async for job in queue:
                    told.set()
                    await asyncio.sleep(LONG)

            task = asyncio.ensure_future(loops())
            await told.wait()
            task.cancel()
            with self.assertRaises(asyncio.CancelledError):
                await task
            task = asyncio.ensure_future(loops())
            for _ in range(3):
                await asyncio.sleep(0)
            task.cancel()
            with self.assertRaises(asyncio.CancelledError):
                await task
            job = await queue.take(timeout=LONG)
            self.assertEqual(job.value, 1)
            await job.done()

        self.put(1)
        self.of_tasks(work)
        self.comes_back()
