"""The client for asyncio, with the model at a socket."""

import asyncio
import functools
import gc
import time
import unittest

import paths  # noqa: F401
from serving import WithFolder

import femem
from femem import Client, aio, patterns, requests
from femem.aio import AsyncClient


class Asyncio(WithFolder):
    def run_with(self, work, **more):
        async def main():
            async with AsyncClient(self.path, 7, **more) as client:
                await asyncio.wait_for(work(client), 60)

        asyncio.run(main())

    def test_the_table(self):
        self.server()

        async def work(client):
            cells = await client.create("cells", 2)
            self.assertEqual(await client.find("cells"), cells)
            await client.writeef(cells, 0, 42)
            self.assertEqual(await client.readff(cells, 0), 42)
            await client.writeff(cells, 0, 5)
            self.assertEqual(await client.int_fetch_add(cells, 0, 3), 5)
            self.assertEqual(await client.readfe(cells, 0), 8)
            with self.assertRaises(femem.NotNow):
                await client.readfe(cells, 0, nowait=True)
            with self.assertRaises(femem.TimedOut):
                await client.readfe(cells, 0, timeout=0.05)
            await client.writexf(cells, 0, 9)
            await client.purge(cells, 0)
            self.assertEqual(await client.readxx(cells, 0), 0)
            self.assertEqual((await client.report()).waiters, [])
            await client.remove(cells)
            await client.bye()

        self.run_with(work)

    def test_tasks_that_wait_for_each_other(self):
        self.server()

        async def work(client):
            slot = await client.create("slot", 1)
            takers = [asyncio.ensure_future(client.readfe(slot, 0)) for _ in range(50)]
            await asyncio.gather(*[client.writeef(slot, 0, value) for value in range(50)])
            self.assertEqual(sorted(await asyncio.gather(*takers)), list(range(50)))

        self.run_with(work)

    def test_a_task_that_is_cancelled_takes_its_operation_back(self):
        self.server()

        async def work(client):
            slot = await client.create("slot", 1)
            task = asyncio.ensure_future(client.readfe(slot, 0))
            await asyncio.sleep(0.05)
            self.assertEqual(len((await client.report()).waiters), 1)
            task.cancel()
            with self.assertRaises(asyncio.CancelledError):
                await task
            self.assertEqual((await client.report()).waiters, [])
            await client.writeef(slot, 0, 1)
            self.assertEqual(await client.readfe(slot, 0), 1)

        self.run_with(work)

    def test_a_batch_that_is_cancelled_loses_no_value(self):
        self.server()

        async def work(client):
            told = []
            asyncio.get_running_loop().set_exception_handler(lambda loop, what: told.append(what))
            words = await client.create("words", 2)
            batch = [requests.readfe(words, 0), requests.readfe(words, 1)]
            for turn in range(20):
                await client.writeef(words, 0, turn)
                got = await asyncio.wait_for(client.submit_many(batch), 0.05)
                self.assertEqual(got[0], turn)
                self.assertIsInstance(got[1], femem.Withdrawn)
            # If nothing happened it is cancelled, and nothing of it goes on waiting.
            with self.assertRaises(asyncio.TimeoutError):
                await asyncio.wait_for(client.submit_many(batch), 0.05)
            self.assertEqual((await client.report()).waiters, [])
            task = asyncio.ensure_future(client.submit_many(batch))
            await asyncio.sleep(0.05)
            for _ in range(2):
                task.cancel()
                await asyncio.sleep(0)
            await asyncio.wait([task])
            self.assertTrue(task.cancelled())
            await client.report()
            del task
            gc.collect()
            self.assertEqual(told, [])

        self.run_with(work)

    def test_a_client_is_opened_once_and_before_it_is_used(self):
        self.server()

        async def main():
            client = AsyncClient(self.path, 8)
            for use in (client.find("word"), client.report(), client.submit_many([requests.find("word")]), client.bye()):
                with self.assertRaises(RuntimeError):
                    await asyncio.wait_for(use, 10)
            await client.open()
            with self.assertRaises(RuntimeError):
                await client.open()
            await client.create("word", 1)
            await client.close()
            unused = AsyncClient(self.path)
            await asyncio.wait_for(unused.close(), 10)
            with self.assertRaises(femem.Closed):
                await unused.find("word")
            self.assertEqual(len(asyncio.all_tasks()), 1)

        asyncio.run(main())

    def test_a_client_is_of_one_event_loop(self):
        self.server()
        client = AsyncClient(self.path, 8)

        async def use():
            with self.assertRaises(RuntimeError):
                await asyncio.wait_for(client.find("word"), 10)
            async with AsyncClient(self.path, 9) as own, AsyncClient(self.path, 10) as other:
                word = await own.create("word", 1)
                future = own.submit(requests.readfe(word, 0))
                self.assertRaises(ValueError, other.withdraw, future)
                self.assertRaises(TypeError, other.withdraw, None)
                own.withdraw(future)
                with self.assertRaises(femem.Withdrawn):
                    await future

        asyncio.run(client.open())
        asyncio.run(use())

    def test_a_client_whose_event_loop_ends_is_closed(self):
        server = self.server()
        file = self.path + ".session"

        async def main():
            client = AsyncClient(self.path, session_file=file)
            await client.open()
            return client, client.submit(requests.readfe(await client.create("word", 1), 0))

        client, waiting = asyncio.run(main())
        self.assertIsInstance(waiting.exception(), femem.Closed)
        end = time.monotonic() + 60
        while server.model.boxes and time.monotonic() < end:
            time.sleep(0.01)
        self.assertEqual((server.model.boxes, type(client.failure)), ({}, femem.Closed))
        with Client(self.path, session_file=file) as other:
            self.assertEqual(other.session, client.session)

    def test_a_close_that_is_cancelled_closes(self):
        server = self.server()

        async def main():
            for turn in range(4):
                client = AsyncClient(self.path, 8 if turn % 2 else None, sessions=3)
                await client.open()
                closing = asyncio.ensure_future(client.close())
                for _ in range(1 + turn // 2):
                    await asyncio.sleep(0)
                closing.cancel()
                await asyncio.wait([closing])
                for _ in range(1000):
                    if len(asyncio.all_tasks()) == 1 and not server.model.boxes:
                        break
                    await asyncio.sleep(0.01)
                self.assertEqual((len(asyncio.all_tasks()), len(server.model.boxes)), (1, 0))

        asyncio.run(main())

    def test_what_is_withdrawn(self):
        self.server()

        async def work(client):
            word = await client.create("word", 1)
            waiting = client.submit(requests.readfe(word, 0))
            client.withdraw(waiting)
            with self.assertRaises(femem.Withdrawn):
                await waiting
            done = client.submit(requests.readxx(word, 0))
            self.assertEqual(await done, 0)
            client.withdraw(done)  # it had happened
            self.assertEqual(await done, 0)
            with self.assertRaises(ValueError):
                client.submit(requests.readxx(word, 0), key="a key needs a session file")

        self.run_with(work)

    def test_a_key_is_asked_once(self):
        self.server()

        async def work(client):
            word = await client.create("word", 1, full=True)
            add = requests.int_fetch_add(word, 0, 1)
            futures = [client.submit(add, key="one") for _ in range(3)]
            self.assertEqual(await asyncio.gather(*futures), [0, 0, 0])
            self.assertEqual(await client.once("one", add), 0)
            client.forget("one")
            self.assertEqual(await client.once("one", add), 1)

        async def main():
            async with AsyncClient(self.path, session_file=self.path + ".session") as client:
                await asyncio.wait_for(work(client), 60)

        asyncio.run(main())

    def test_stops(self):
        server = self.server()

        async def work(client):
            word = await client.create("word", 1, full=True)
            for stop in range(5):
                server.posts = False
                futures = [client.submit(requests.int_fetch_add(word, 0, 1)) for _ in range(40)]
                await asyncio.sleep(0.05)
                server.kill()
                await asyncio.sleep(0.05)
                server.posts = True
                server.start()
                self.assertEqual(await asyncio.gather(*futures), list(range(40 * stop, 40 * stop + 40)))

        self.run_with(work)

    def test_a_server_that_never_comes_back(self):
        server = self.server()

        async def work(client):
            word = await client.create("word", 1)
            future = client.submit(requests.readfe(word, 0))
            client._core._reconnect_timeout = 0.4  # only now, so that it had enough time to attach
            server.kill()
            with self.assertRaises(femem.ServerUnreachable):
                await future
            with self.assertRaises(femem.ServerUnreachable):
                await client.readxx(word, 0)

        self.run_with(work)

    def test_what_cannot_be_taken_back_is_left_by_a_task_that_is_cancelled(self):
        """Without a server its reply would never come."""
        server = self.server()

        async def work(client, name):
            server.kill()
            with self.assertRaises(asyncio.TimeoutError):
                await asyncio.wait_for(getattr(client, name)(), 0.1)

        for name in ("report", "bye"):
            self.run_with(functools.partial(work, name=name), reconnect_timeout=None)
            server.start()

    def test_no_server(self):
        with self.assertRaises(femem.ServerUnreachable):
            self.run_with(None, reconnect_timeout=0.3)


def cancel_when_answered(client, task):
    """Cancels the task in the moment in which something that the client asked is answered."""
    take_ended = client._core.take_ended

    def then_cancel():
        ended = take_ended()
        if ended:
            client._core.take_ended = take_ended
            asyncio.get_running_loop().call_soon(task.cancel)
        return ended

    client._core.take_ended = then_cancel


class Cancels(WithFolder):
    """A cancel that meets the answer of an operation: the task gets the answer, and then the cancel."""

    def run_and_cancel(self, work):
        """Runs `work(client, word, got)` as a task, and cancels it as its first answer comes, which is 1."""
        self.server()
        got = []

        async def main():
            async with AsyncClient(self.path, 7) as client, AsyncClient(self.path, 8) as other:
                word = await client.create("word", 1)
                task = asyncio.ensure_future(work(client, word, got))
                while not any(waiter.array == word.id for waiter in (await other.report()).waiters):
                    pass
                cancel_when_answered(client, task)
                await other.writeef(word, 0, 1)
                await asyncio.wait([task], timeout=60)
                self.assertTrue(task.done())
                return task

        return asyncio.run(main()), got

    def test_it_arrives_at_the_next_operation(self):
        async def work(client, word, got):
            got.append(await client.readff(word, 0))
            got.append(await client.readff(word, 0))

        task, got = self.run_and_cancel(work)
        self.assertEqual((task.cancelled(), got), (True, [1]))

    def test_it_arrives_at_the_next_await(self):
        async def work(client, word, got):
            got.append(await client.readff(word, 0))
            await asyncio.sleep(1000)

        task, got = self.run_and_cancel(work)
        self.assertEqual((task.cancelled(), got), (True, [1]))

    def test_it_arrives_once(self):
        async def work(client, word, got):
            got.append(await client.readff(word, 0))
            try:
                await client.readff(word, 0)
            except asyncio.CancelledError:
                got.append("cancelled")
            for _ in range(3):
                await asyncio.sleep(0)
                got.append(await client.readff(word, 0))
            return "done"

        task, got = self.run_and_cancel(work)
        self.assertEqual((task.result(), got), ("done", [1, "cancelled", 1, 1, 1]))

    def test_what_was_taken_is_given_back_before_it_arrives(self):
        async def work(client, word, got):
            lock = aio.Lock(client, "lock")
            await lock.owner()
            async with lock:
                got.append(await client.readff(word, 0))
            await client.readff(word, 0)

        task, got = self.run_and_cancel(work)
        self.assertEqual((task.cancelled(), got), (True, [1]))
        with Client(self.path, 9) as client:
            self.assertFalse(patterns.Lock(client, "lock").locked())

    def test_what_was_done_once_has_its_result_before_it_arrives(self):
        async def work(client, word, got):
            async def read():
                got.append(await client.readff(word, 0))
                return 5

            got.append(await aio.Once(client, "once").run(read))
            await client.readff(word, 0)

        task, got = self.run_and_cancel(work)
        self.assertEqual((task.cancelled(), got), (True, [1, 5]))
        with Client(self.path, 9) as client:
            self.assertEqual(patterns.Once(client, "once").run(lambda: 6, timeout=10), 5)

    def run_beside_full_words(self, work):
        """Runs `work(take_on)`, which must end; `take_on` reads a full word without end."""
        self.server()

        async def main():
            async with AsyncClient(self.path, 7) as client:
                word = await client.create("word", 1, full=True)

                async def take_on():
                    while True:
                        await client.readff(word, 0)

                task = asyncio.ensure_future(work(take_on))
                await asyncio.wait([task], timeout=60)
                self.assertTrue(task.done())
                return task

        return asyncio.run(main())

    @unittest.skipUnless(hasattr(asyncio, "timeout"), "this version of Python has no asyncio.timeout")
    def test_a_timeout_ends_a_task_whose_words_are_full(self):
        async def work(take_on):
            async with asyncio.timeout(0.1):
                await take_on()

        self.assertIsInstance(self.run_beside_full_words(work).exception(), TimeoutError)

    @unittest.skipUnless(hasattr(asyncio, "TaskGroup"), "this version of Python has no task groups")
    def test_a_task_group_ends_its_other_tasks(self):
        async def work(take_on):
            async with asyncio.TaskGroup() as tasks:
                tasks.create_task(take_on())
                await asyncio.sleep(0.1)
                raise KeyError("on purpose")

        self.assertIn("KeyError", repr(self.run_beside_full_words(work).exception()))


class Patterns(WithFolder):
    def run_all(self, work, count=5):
        self.server()

        async def one(k):
            async with AsyncClient(self.path, 100 + k) as client:
                return await work(client, k)

        async def main():
            return await asyncio.wait_for(asyncio.gather(*[one(k) for k in range(count)]), 100)

        return asyncio.run(main())

    def test_lock(self):
        inside = []

        async def work(client, k):
            lock = aio.Lock(client, "lock")
            for _ in range(5):
                async with lock:
                    inside.append(k)
                    await asyncio.sleep(0.001)
                    self.assertEqual(inside, [k])
                    self.assertEqual(await lock.owner(), 100 + k)
                    inside.remove(k)
            with self.assertRaises(femem.NotOwner):
                await lock.release()

        self.run_all(work)

    def test_a_task_that_is_cancelled_holds_no_lock(self):
        async def work(client, k):
            lock = aio.Lock(client, "lock")
            await lock.acquire()
            task = asyncio.ensure_future(aio.Lock(client, "lock").acquire())
            await asyncio.sleep(0.05)
            task.cancel()
            with self.assertRaises(asyncio.CancelledError):
                await task
            await lock.release()
            self.assertFalse(await lock.locked())

        self.run_all(work, 1)

    def test_queue_and_semaphore(self):
        inside = []

        async def work(client, k):
            queue = aio.BoundedQueue(client, "queue", 3)
            semaphore = aio.Semaphore(client, "semaphore", 2)
            async with semaphore:
                inside.append(k)
                self.assertLessEqual(len(inside), 2)
                await asyncio.sleep(0.005)
                inside.remove(k)
            if k == 0:
                return [await queue.get() for _ in range(20)]
            for value in range(5):
                await queue.put(10 * k + value)
            return []

        got = self.run_all(work)[0]
        self.assertEqual(sorted(got), [10 * k + value for k in range(1, 5) for value in range(5)])

    def test_the_others(self):
        async def work(client, k):
            counter, future = aio.Counter(client, "counter"), aio.Future(client, "future")
            await counter.add()
            await aio.Barrier(client, "barrier", 5).wait(timeout=60)
            self.assertEqual(await counter.value(), 5)
            await future.set(k)

            async def compute():
                return 7

            return await future.get(timeout=60), await aio.Once(client, "once").run(compute)

        got = self.run_all(work)
        self.assertEqual(len(set(got)), 1)
        self.assertEqual(got[0][1], 7)

    def test_channels_jobs_and_readers(self):
        async def work(client, k):
            channel = aio.Channel(client, "channel")
            book = aio.ReadWriteLock(client, "book", 4)
            jobs = aio.WorkQueue(client, "jobs", 16)
            self.assertTrue(await (book.acquire_read() if k else book.acquire_write()))
            await (book.release_read() if k else book.release_write())
            if k:
                await jobs.put(k)
                await channel.put(k)
                return []
            got = [await channel.get() for _ in range(4)]
            for _ in range(4):
                async with await jobs.take(timeout=60) as job:
                    got.append(job.value)
            with self.assertRaises(femem.TimedOut):
                await channel.get(timeout=0.05)
            return got

        got = self.run_all(work)[0]
        self.assertEqual((sorted(got[:4]), sorted(got[4:])), ([1, 2, 3, 4], [1, 2, 3, 4]))

    def test_the_first_of_several_words(self):
        async def work(client, k):
            words = await client.create("words", 3)
            asked = [requests.readfe(words, at) for at in range(3)]
            task = asyncio.ensure_future(client.wait_any(asked))
            await asyncio.sleep(0.05)
            await client.writeef(words, 2, 9)
            self.assertEqual(await task, {2: 9})
            task = asyncio.ensure_future(client.wait_any(asked))
            await asyncio.sleep(0.05)
            task.cancel()
            with self.assertRaises(asyncio.CancelledError):
                await task
            with self.assertRaises(femem.TimedOut):
                await client.wait_any(asked, timeout=0.05)
            self.assertEqual((await client.report()).waiters, [])

        self.run_all(work, 1)

    def test_keys(self):
        self.server()

        async def main():
            for _ in range(2):
                async with AsyncClient(self.path, session_file=self.path + ".session") as client:
                    await aio.BoundedQueue(client, "queue", 3).put(7, key="seven")
                    self.assertEqual(await aio.Counter(client, "counter").add(2, key="two"), 0)
                    self.assertEqual(sorted(client.keys()), [b"seven", b"two"])
                    self.assertEqual(await aio.BoundedQueue(client, "queue", 3).qsize(), 1)
            async with AsyncClient(self.path, session_file=self.path + ".session") as client:
                client.forget("seven", "two")
                self.assertEqual(client.keys(), [])

        asyncio.run(main())

    def test_a_client_of_another_kind(self):
        self.server()
        with femem.Client(self.path, 5) as client:
            for make in (aio.Lock, aio.Counter, aio.Future, aio.Once):
                with self.assertRaises(TypeError):
                    make(client, "name")
            for make in (aio.Semaphore, aio.BoundedQueue, aio.Barrier):
                with self.assertRaises(TypeError):
                    make(client, "name", 3)
