"""A client with several sessions: requests that wait go over further ones, and hold up nothing else."""

import asyncio
import os
import threading
import time
import unittest

import paths  # noqa: F401
from serving import WithFolder

import femem
from femem import Client, requests
from femem.aio import AsyncClient
from femem.observer import graph
from femem.patterns import BoundedQueue, Lock


def until(condition, seconds=60):
    end = time.monotonic() + seconds
    while not condition():
        if time.monotonic() > end:
            raise AssertionError("it does not come about")
        time.sleep(0.005)


def unanswered(client):
    """The unanswered requests of the client's own session."""
    return list(client._core._outbox.window.unanswered.values())


class Sessions(WithFolder):
    def test_a_thousand_tasks_that_wait_hold_nobody_up(self):
        """With one session an operation that never waits would take more than a second here."""
        self.server()

        async def main():
            async with AsyncClient(self.path, 7, sessions=8) as client, AsyncClient(self.path, 100) as other:
                words = await client.create("words", 1000)
                tasks = [asyncio.ensure_future(client.readff(words, index)) for index in range(1000)]
                while len(client._core._elsewhere) < 1000:
                    await asyncio.sleep(0.01)
                for index in range(40):
                    self.assertEqual(unanswered(client), [])
                    self.assertEqual(await client.readxx(words, index), 0)
                    self.assertFalse(client._core._outbox._cancelled)
                await asyncio.gather(*[other.writexf(words, index, index) for index in range(1000)])
                self.assertEqual(await asyncio.gather(*tasks), list(range(1000)))
                self.assertFalse(client._core.is_busy())

        asyncio.run(main())

    def test_waits_that_fit_move_nobody(self):
        """As many waits as the further sessions have numbers: none is taken back to make room for another."""
        server = self.server()

        async def main():
            async with AsyncClient(self.path, 7, sessions=5) as client:
                words = await client.create("words", 128)
                tasks = [asyncio.ensure_future(client.readfe(words, index)) for index in range(128)]
                while len(list(server.model.waiting)) < 128:
                    await asyncio.sleep(0.01)
                await asyncio.sleep(0.3)
                self.assertTrue(all(not further._core._outbox._cancelled for further in client._further()))
                self.assertEqual({session for session, _ in list(server.model.waiting)}, set(client.sessions[1:]))
                for index in range(128):
                    await client.writeef(words, index, index)
                self.assertEqual(await asyncio.gather(*tasks), list(range(128)))

        asyncio.run(main())

    def test_threads_that_wait(self):
        self.server()
        with Client(self.path, 7, sessions=4) as client:
            words = client.create("words", 200)
            futures = [client.submit(requests.readfe(words, index)) for index in range(200)]
            until(lambda: len(client._core._elsewhere) == 200)
            self.assertEqual(client.readxx(words, 0), 0)
            for index in range(200):
                client.writeef(words, index, index)
            self.assertEqual([future.result(60) for future in futures], list(range(200)))
            self.assertIn("session 7 and 3 more", repr(client))

    def test_what_does_not_wait_is_done_in_order(self):
        self.server()
        with Client(self.path, 7, sessions=3) as client:
            words = client.create("words", 40)
            waiting = [client.submit(requests.readfe(words, index)) for index in range(1, 40)]
            client.writeef(words, 0, 5)
            asked = [requests.int_fetch_add(words, 0, 1), requests.readff(words, 0), requests.readfe(words, 0)]
            asked += [requests.writeef(words, 0, 9), requests.readxx(words, 0)]
            self.assertEqual(client.submit_many(asked), [5, 6, 6, None, 9])
            self.assertTrue(not any(future.done() for future in waiting))

    def test_times_and_withdrawals(self):
        self.server()
        with Client(self.path, 7, sessions=2, timeout=0.05) as client:
            word = client.create("word", 1)
            with self.assertRaises(femem.TimedOut):
                client.readfe(word, 0)
            future = client.submit(requests.readfe(word, 0), timeout=None)
            until(lambda: client._core._elsewhere)
            client.withdraw(future)
            self.assertIsInstance(future.exception(60), femem.Withdrawn)
            client.writeef(word, 0, 4)
            self.assertEqual(client.readff(word, 0), 4)
            future = client.submit(requests.writeef(word, 0, 5), timeout=None)
            client.withdraw(future)
            self.assertIsInstance(future.exception(60), femem.Withdrawn)
            self.assertEqual(client.readfe(word, 0), 4)

    def test_wait_for_loses_no_value(self):
        self.server()

        async def main():
            async with AsyncClient(self.path, 7, sessions=2) as taker, AsyncClient(self.path, 100) as giver:
                word = await giver.create("word", 1)
                for value in range(100):

                    async def give():
                        await asyncio.sleep(0.002 * (value % 5))
                        await giver.writeef(word, 0, value)

                    task = asyncio.ensure_future(give())
                    try:
                        found = await asyncio.wait_for(taker.readfe(word, 0), 0.006)
                    except asyncio.TimeoutError:
                        found = None
                    await task
                    try:
                        left = await giver.readfe(word, 0, nowait=True)
                    except femem.NotNow:
                        left = None
                    self.assertEqual([found, left].count(value), 1)

        asyncio.run(main())

    def test_stops(self):
        server = self.server()
        with Client(self.path, 7, sessions=3) as client:
            words = client.create("words", 50)
            count = client.create("count", 1, True)
            for stop in range(4):
                server.posts = False
                takers = [client.submit(requests.readfe(words, index)) for index in range(50)]
                adds = [client.submit(requests.int_fetch_add(count, 0, 1)) for _ in range(50)]
                time.sleep(0.05)
                server.kill()
                server.posts = True
                server.start()
                for index in range(50):
                    client.writeef(words, index, index)
                self.assertEqual([future.result(60) for future in takers], list(range(50)))
                self.assertEqual([future.result(60) for future in adds], list(range(50 * stop, 50 * stop + 50)))

    def test_patterns(self):
        self.server()
        with Client(self.path, 7, sessions=2) as client, Client(self.path, 100, sessions=2) as other:
            lock, queue = Lock(client, "lock"), BoundedQueue(client, "queue", 2)
            total = client.create("total", 1, True)

            def work(client):
                mine, jobs = Lock(client, "lock"), BoundedQueue(client, "queue", 2)
                for value in range(20):
                    with mine:
                        client.writexf(total, 0, client.readxx(total, 0) + 1)
                    jobs.put(value)

            threads = [threading.Thread(target=work, args=(each,)) for each in (client, other)]
            for thread in threads:
                thread.start()
            found = [queue.get() for _ in range(40)]
            for thread in threads:
                thread.join()
            self.assertEqual(sorted(found), sorted(2 * list(range(20))))
            self.assertEqual(client.readxx(total, 0), 40)
            lock.acquire()
            self.assertEqual(lock.owner(), 7)
            # Its presence is under the owning session. (it gets a new number now and then, and waits again a moment later)
            presence, end = client.find("presence"), time.monotonic() + 30
            while (presence.id, 7) not in [(w.array, w.session) for w in client.report().waiters]:
                self.assertLess(time.monotonic(), end)
            lock.release()


    def test_a_deadlock_over_further_sessions_is_a_cycle(self):
        self.server()
        with Client(self.path, 7, sessions=3) as one, Client(self.path, 8, sessions=3) as two:
            locks = [[Lock(client, name) for name in ("lock_a", "lock_b")] for client in (one, two)]
            locks[0][0].acquire()
            locks[1][1].acquire()
            threads = [threading.Thread(target=lock.acquire, args=(60,)) for lock in (locks[0][1], locks[1][0])]
            for thread in threads:
                thread.start()
            with femem.Observer(self.path) as observer:
                until(lambda: len(observer.report().waiters) == 4)
                report = observer.report()
                owners = observer.owners(report)
                text = graph(report, observer.look(), owners)
            first, second = one.find("lock_a").id, one.find("lock_b").id
            for arrow in (f'"s7" -> "w{second}_0"', f'"w{second}_0" -> "s8"', f'"s8" -> "w{first}_0"', f'"w{first}_0" -> "s7"'):
                self.assertIn(arrow, text)
            locks[0][0].release()
            locks[1][1].release()
            for thread in threads:
                thread.join(60)


class Grown(WithFolder):
    """A client whose session ends with it gets a further one once more than eight of its requests wait beside calls."""

    def grow(self, client):
        """31 requests wait, and calls are made until the further session has them."""
        words = client.create("words", 32, True)
        for index in range(31):
            client.purge(words, index)
        futures = [client.submit(requests.readfe(words, index)) for index in range(31)]
        until(lambda: client.int_fetch_add(words, 31, 1) is not None and client._core.moves_waits)
        until(lambda: not unanswered(client))
        return words, futures

    def test_calls_move_nothing_that_waits(self):
        server = self.server()
        os.mkdir(self.path + ".clients")
        with Client(self.path) as client:
            words, futures = self.grow(client)
            until(lambda: len(list(server.model.waiting)) == 31)
            own, further = client.sessions
            self.assertEqual({session for session, _ in list(server.model.waiting)}, {further})
            with open(f"{self.path}.clients/{own}") as entry:
                self.assertEqual(entry.read(), "2\n")  # whoever finds that it was killed ends both
            numbers = sorted(number for _, number in list(server.model.waiting))
            for _ in range(200):
                client.int_fetch_add(words, 31, 1)
                self.assertEqual(unanswered(client), [])
            self.assertEqual(sorted(number for _, number in list(server.model.waiting)), numbers)
            for index in range(31):
                client.writeef(words, index, index)
            self.assertEqual([future.result(60) for future in futures], list(range(31)))
        self.assertEqual(server.model.state.sessions, {})

    def test_eight_have_no_session_of_their_own(self):
        server = self.server()
        with Client(self.path) as client:
            words = client.create("words", 9)
            client.writeef(words, 8, 0)
            futures = [client.submit(requests.readfe(words, index)) for index in range(8)]
            for _ in range(200):
                client.int_fetch_add(words, 8, 1)
            self.assertEqual(len(server.model.state.sessions), 1)
            for index in range(8):
                client.writeef(words, index, index)
            self.assertEqual([future.result(60) for future in futures], list(range(8)))

    def test_a_session_that_was_given_stays_alone(self):
        self.server()
        with Client(self.path, 7) as client:
            words = client.create("words", 32)
            client.writeef(words, 31, 0)
            futures = [client.submit(requests.readfe(words, index)) for index in range(31)]
            for _ in range(50):
                client.int_fetch_add(words, 31, 1)
            self.assertEqual(client.sessions, [7])
            client.close()
            self.assertTrue(all(isinstance(future.exception(60), femem.Closed) for future in futures))

    def test_a_server_without_room(self):
        """All that wait stay in the client's own session."""
        server = self.server()
        others = [Client(self.path, 1000 + k) for k in range(63)]
        with Client(self.path) as client:
            words = client.create("words", 32)
            client.writeef(words, 31, 0)
            futures = [client.submit(requests.readfe(words, index)) for index in range(31)]
            for _ in range(50):
                client.int_fetch_add(words, 31, 1)
            until(lambda: client._worker.further is not None and not client._core.moves_waits and not client._core._elsewhere)
            self.assertEqual((client.failure, client.sessions), (None, [client.session]))
            for index in range(31):
                others[0].writeef(words, index, index)
            self.assertEqual([future.result(60) for future in futures], list(range(31)))
        self.assertEqual(len(server.model.state.sessions), 63)
        for other in others:
            other.close()

    def test_stops_while_it_grows(self):
        server = self.server()
        for stop in range(5):
            with self.subTest(stop=stop), Client(self.path) as client:
                words = client.create(f"words{stop}", 32)
                client.writeef(words, 31, 0)
                futures = [client.submit(requests.readfe(words, index)) for index in range(31)]
                adds = [client.submit(requests.int_fetch_add(words, 31, 1)) for _ in range(50)]
                time.sleep(0.002 * stop)
                server.kill()
                server.start()
                for index in range(31):
                    client.writeef(words, index, index)
                self.assertEqual([future.result(60) for future in futures], list(range(31)))
                self.assertEqual([future.result(60) for future in adds], list(range(50)))

    def test_tasks(self):
        server = self.server()

        async def main():
            async with AsyncClient(self.path) as client:
                words = await client.create("words", 32)
                await client.writeef(words, 31, 0)
                futures = [client.submit(requests.readfe(words, index)) for index in range(31)]
                while unanswered(client) or len(list(server.model.waiting)) < 31:
                    await client.int_fetch_add(words, 31, 1)
                self.assertEqual({session for session, _ in list(server.model.waiting)}, {client.sessions[1]})
                for index in range(31):
                    await client.writeef(words, index, index)
                self.assertEqual(await asyncio.gather(*futures), list(range(31)))

        asyncio.run(main())
        self.assertEqual(server.model.state.sessions, {})

    def test_tasks_at_a_server_without_room(self):
        server = self.server()
        others = [Client(self.path, 1000 + k) for k in range(63)]

        async def main():
            async with AsyncClient(self.path) as client:
                words = await client.create("words", 32)
                await client.writeef(words, 31, 0)
                futures = [client.submit(requests.readfe(words, index)) for index in range(31)]
                while not [*client._worker.wait_sessions] or client._core.moves_waits or client._core._elsewhere:
                    await client.int_fetch_add(words, 31, 1)
                self.assertEqual((client.failure, client.sessions), (None, [client.session]))
                for index in range(31):
                    await client.writeef(words, index, index)
                self.assertEqual(await asyncio.gather(*futures), list(range(31)))

        asyncio.run(main())
        self.assertEqual(len(server.model.state.sessions), 63)
        for other in others:
            other.close()


class Ends(WithFolder):
    def test_the_further_sessions_end_with_the_client(self):
        server = self.server()
        for ask in (Client.close, Client.bye):
            client = Client(self.path, 7, sessions=4)
            self.assertEqual(set(server.model.state.sessions), set(client.sessions))
            self.assertEqual((client.sessions[0], len(client.sessions)), (7, 4))
            ask(client)
            self.assertEqual(sorted(server.model.state.sessions), [7] if ask is Client.close else [])
        with Client(self.path, sessions=4):
            self.assertEqual(len(server.model.state.sessions), 4)
        self.assertEqual(sorted(server.model.state.sessions), [])

        async def main():
            async with AsyncClient(self.path, 7, sessions=4) as client:
                self.assertEqual(set(server.model.state.sessions), set(client.sessions))
            self.assertEqual(sorted(server.model.state.sessions), [7])

        asyncio.run(main())

    def test_an_end_withdraws_what_waits(self):
        server = self.server()
        client = Client(self.path, 7, sessions=2)
        word = client.create("word", 1)
        future = client.submit(requests.readfe(word, 0))
        until(lambda: list(server.model.waiting))
        with self.assertRaises(femem.StillWaiting):
            client.bye()
        client.close()
        self.assertIsInstance(future.exception(60), femem.Closed)
        self.assertEqual(list(server.model.waiting), [])

    def test_a_further_session_that_is_taken_over_ends_the_client(self):
        self.server()
        client = Client(self.path, 7, sessions=2, probe_interval=0.05)
        word = client.create("word", 1)
        future = client.submit(requests.readfe(word, 0))
        until(lambda: client._core._elsewhere)
        with Client(self.path, client.sessions[1]):
            self.assertIsInstance(future.exception(60), femem.TakenOver)
            until(lambda: client.failure is not None)
            with self.assertRaises(femem.TakenOver):
                client.readxx(word, 0)
            client.close()

    def test_a_process_that_is_started_again_has_the_same_ones(self):
        server = self.server()
        former = Client(self.path, 7, sessions=3)
        word = former.create("word", 1)
        future = former.submit(requests.readfe(word, 0))
        until(lambda: list(server.model.waiting))
        with Client(self.path, 7, sessions=3) as client:
            self.assertEqual(client.sessions, former.sessions)
            self.assertEqual(set(server.model.state.sessions), set(client.sessions))
            self.assertIsInstance(future.exception(60), femem.TakenOver)
            client.writeef(word, 0, 3)
            self.assertEqual(client.readfe(word, 0), 3)
        former.close()

    def test_what_can_not_be(self):
        server = self.server()
        file = os.path.join(os.path.dirname(self.path), "session")
        for kind in (Client, AsyncClient):
            with self.assertRaises(ValueError):
                kind(self.path, session_file=file, sessions=2)
            self.assertFalse(os.path.exists(file))
            for wrong in (0, 65, -1):
                with self.assertRaises(ValueError):
                    kind(self.path, 7, sessions=wrong)
            for wrong in (None, 2.0, "2"):
                with self.assertRaises(TypeError):
                    kind(self.path, 7, sessions=wrong)
        others = [Client(self.path, 1000 + k) for k in range(62)]
        with self.assertRaises(femem.SessionLimit):
            Client(self.path, 7, sessions=3)
        self.assertEqual(len(server.model.state.sessions), 63)  # its own session is kept, since it was given
        Client(self.path, 7).bye()
        with self.assertRaises(femem.SessionLimit):
            Client(self.path, sessions=3)

        async def main():
            async with AsyncClient(self.path, sessions=3):
                pass

        with self.assertRaises(femem.SessionLimit):
            asyncio.run(main())
        self.assertEqual(len(server.model.state.sessions), 62)  # the session that it chose has ended
        for other in others:
            other.close()


if __name__ == "__main__":
    unittest.main()
