"""What `on_event` is told, that Pipeline has types, and that requests leave nothing for the collector of cycles."""

import asyncio
import collections
import gc
import inspect

import paths  # noqa: F401
from serving import WithFolder
from test_ends import LONG, until

import femem
from femem import Client, Pipeline, requests
from femem.aio import AsyncClient
from femem.patterns import BoundedQueue, Counter


class Told:
    """Collects events."""

    def __init__(self):
        self.events = []

    def __call__(self, kind, session, seconds):
        assert isinstance(kind, str) and isinstance(session, int) and isinstance(seconds, float) and seconds >= 0.0
        self.events.append((kind, session))

    def counts(self):
        return collections.Counter(kind for kind, _ in self.events)


class Events(WithFolder):
    def test_each_kind(self):
        server = self.server()
        told = Told()
        with Client(self.path, 7, on_event=told) as client:
            word = client.create("word", 2, full=True)
            for _ in range(50):
                client.readff(word, 0)
            self.assertEqual(told.counts(), {"attached": 1, "answered": 51})
            client.purge(word, 1)
            waiting = client.submit(requests.readfe(word, 1))
            for _ in range(40):
                client.readff(word, 0)
            self.assertTrue(until(lambda: told.counts()["moved"] > 0))
            client.report()
            server.kill()
            server.start()
            self.assertTrue(until(lambda: told.counts()["attached"] == 2))
            client.writeef(word, 1, 5)
            self.assertEqual(waiting.result(LONG), 5)
            counts = told.counts()
            self.assertEqual((counts["lost"], counts["sent_again"], counts["answered"]), (1, 1, 94))
            self.assertEqual({session for _, session in told.events}, {7})
            client._core._reconnect_timeout = 0.2
            server.kill()
            with self.assertRaises(femem.ServerUnreachable):
                client.readff(word, 0)
            self.assertEqual(told.events[-1], ("failed", 7))

    def test_each_answer_of_a_pattern_is_told_once(self):
        model, asked = self.server().model, 0
        take = model.take

        def spy(conn, message):
            nonlocal asked
            asked += message[0] == "call"
            take(conn, message)

        model.take = spy
        told = Told()
        with Client(self.path, 7, on_event=told) as client:
            counter, queue = Counter(client, "counter"), BoundedQueue(client, "queue", 4)
            for value in range(50):
                counter.add()
                queue.put(value)
                self.assertEqual(queue.get(), value)
            self.assertEqual(counter.value(), 50)
            client.report()
            self.assertGreater(asked, 150)
            self.assertEqual(told.counts(), {"attached": 1, "answered": asked})

    def test_further_sessions_and_asyncio(self):
        self.server()
        told = Told()

        async def main():
            async with AsyncClient(self.path, 7, sessions=2, on_event=told) as client:
                word = await client.create("word", 1)
                task = asyncio.ensure_future(client.readfe(word, 0))
                while not (await client.report()).waiters:
                    pass
                await client.writeef(word, 0, 1)
                self.assertEqual(await task, 1)
                return client.sessions

        sessions = asyncio.run(main())
        self.assertEqual(told.counts(), {"attached": 2, "moved": 1, "answered": 3})
        self.assertEqual({session for _, session in told.events}, set(sessions))

    def test_whatever_it_raises_the_client_goes_on(self):
        self.server()

        def fails(*_):
            raise ValueError("on purpose")

        with self.assertLogs("femem", "ERROR"), Client(self.path, on_event=fails) as client:
            word = client.create("word", 1, full=True)
            self.assertEqual([client.int_fetch_add(word, 0, 1) for _ in range(50)], list(range(50)))
        with self.assertRaises(TypeError):
            Client(self.path, on_event=3)


class Leavings(WithFolder):
    def test_requests_leave_no_cycles(self):
        self.server()
        with Client(self.path, 7) as client:
            word = client.create("word", 1, full=True)

            def fails():
                try:
                    client.readff(word, 1)
                except femem.BadIndex:
                    pass

            works = {
                "submit": lambda: client.submit(requests.readff(word, 0)).result(LONG),
                "a call": lambda: client.readff(word, 0),
                "an error": fails,
                "a submitted error": lambda: client.submit(requests.readff(word, 1)).exception(LONG),
                "a batch": lambda: client.submit_many([requests.readff(word, 0)] * 5),
            }
            for name, work in works.items():
                with self.subTest(name):
                    work()
                    gc.collect()
                    gc.disable()
                    try:
                        for _ in range(200):
                            work()
                        self.assertLess(gc.collect(), 100)
                    finally:
                        gc.enable()


    def test_a_request_of_asyncio_leaves_no_cycle(self):
        self.server()

        async def main():
            async with AsyncClient(self.path, 7) as client:
                word = await client.create("word", 1, full=True)

                async def fails():
                    try:
                        await client.readff(word, 1)
                    except femem.BadIndex:
                        pass

                works = (
                    lambda: client.readff(word, 0),
                    lambda: client.submit(requests.readff(word, 0)),
                    lambda: client.submit_many([requests.readff(word, 0)] * 5),
                    fails,
                )
                for number, work in enumerate(works):
                    with self.subTest(number):
                        await work()
                        gc.collect()
                        gc.disable()
                        try:
                            for _ in range(200):
                                await work()
                            self.assertLess(gc.collect(), 100)
                        finally:
                            gc.enable()

        asyncio.run(main())


class Pipelines(WithFolder):
    def test_its_methods_are_those_of_requests(self):
        names = ["create", "find", "remove", *(name for name, _, _ in requests.OPERATIONS.values())]
        self.assertEqual(len(names), 11)
        for name in names:
            mine = inspect.signature(getattr(Pipeline, name))
            theirs = inspect.signature(getattr(requests, name))
            self.assertEqual(list(mine.parameters.values())[1:], list(theirs.parameters.values()), name)
            self.assertEqual(mine.return_annotation, "Pipeline")
        self.server()
        with Client(self.path, 7) as client:
            with client.pipeline() as pipe:
                pipe.create("word", 1, full=True).find("word").int_fetch_add(1, 0, 5).readff(1, 0).purge(1, 0)
                pipe.writeef(1, 0, 3).writeff(1, 0, 4).writexf(1, 0, 5).readxx(1, 0).readfe(1, 0).remove(1)
            array = femem.Array(1, 1)
            self.assertEqual(pipe.results, [array, array, 0, 5, None, None, None, None, 5, 5, None])
            with self.assertRaises(AttributeError):
                pipe.no_such_operation


if __name__ == "__main__":
    import unittest

    unittest.main()
