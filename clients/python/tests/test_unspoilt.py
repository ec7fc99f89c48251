"""Nothing from outside breaks a client: wrong arguments, exceptions from signal handlers, forks, cancelled tasks."""

import asyncio
import itertools
import multiprocessing
import os
import random
import signal
import sys
import threading
import time
import warnings

import paths  # noqa: F401
from serving import WithFolder

import femem
from femem import Client, patterns, requests
from femem.aio import AsyncClient

NO_NUMBERS = [0.5, "3", None, b"3", [], object()]
NO_NAMES = [5, None, 1.5, [], object()]
NO_FLAGS = ["yes", None, 1.5, 2, -1, []]
NO_SECONDS = ["3", b"", [], object(), float("nan"), True]


def wrong_calls(client, word):
    """Calls of each function with a wrong type for one parameter at a time."""
    numbers = {
        "readfe": 2,
        "readff": 2,
        "readxx": 2,
        "writeef": 3,
        "writeff": 3,
        "writexf": 3,
        "purge": 2,
        "int_fetch_add": 3,
    }
    for where in (requests, client):
        for name, count in numbers.items():
            ask = getattr(where, name)
            for at in range(count):
                for wrong in NO_NUMBERS + [-1, 2**64]:
                    words = [word, 0, 1][:count]
                    words[at] = wrong
                    yield ask, words, {}
            if name not in ("readxx", "writexf", "purge"):
                for wrong in NO_FLAGS:
                    yield ask, [word, 0, 1][:count], {"nowait": wrong}
        for wrong in NO_NAMES:
            yield where.create, [wrong, 1], {}
            yield where.find, [wrong], {}
        for wrong in NO_NUMBERS:
            yield where.create, ["made", wrong], {}
            yield where.remove, [wrong], {}
        for wrong in NO_FLAGS:
            yield where.create, ["made", 1, wrong], {}
    for wrong in NO_SECONDS:
        yield client.readxx, [word, 0], {"timeout": wrong}
        yield client.submit, [requests.readxx(word, 0)], {"timeout": wrong}
        yield client.submit_many, [[requests.readxx(word, 0)]], {"timeout": wrong}
    for wrong in NO_NUMBERS:
        yield client.submit, [wrong], {}
        yield client.submit_many, [[requests.readxx(word, 0), wrong]], {}


class Arguments(WithFolder):
    def test_each_argument_of_each_wrong_type(self):
        self.server()
        with Client(self.path, 7, reconnect_timeout=30.0) as client:
            word = client.create("word", 1, full=True)
            tried = 0
            for ask, words, more in wrong_calls(client, word):
                with self.subTest(call=f"{ask.__name__} {words} {more}"):
                    with self.assertRaises((TypeError, ValueError)):
                        ask(*words, **more)
                tried += 1
            self.assertGreater(tried, 300)
            self.assertEqual([client.int_fetch_add(word, 0, 1) for _ in range(100)], list(range(100)))

    def test_each_argument_of_a_client(self):
        for words in [(5, 7), (self.path, 0.5), (self.path, "7"), (self.path, -1), (self.path, 2**64)]:
            for make in (Client, AsyncClient):
                with self.assertRaises((TypeError, ValueError)):
                    make(*words)
        for name in ("timeout", "reconnect_timeout", "probe_interval"):
            for wrong in NO_SECONDS:
                for make in (Client, AsyncClient):
                    with self.assertRaises((TypeError, ValueError)):
                        make(self.path, 7, **{name: wrong})
        for make in (Client, AsyncClient):
            for more in ({"timeout": 10**400}, {"probe_interval": 0}, {"probe_interval": -1.0}):
                with self.assertRaises(ValueError):
                    make(self.path, 7, **more)

    def test_times_that_no_clock_reaches(self):
        self.server()
        for more in ({"probe_interval": 1e9}, {"timeout": 1e300}, {"reconnect_timeout": 1e300}):
            with Client(self.path, 7, **more) as client:
                time.sleep(0.02)
                self.assertRaises(femem.NoArray, client.find, "word")

    def test_a_counter_that_is_given_a_fraction(self):
        self.server()
        with Client(self.path, 7, reconnect_timeout=30.0) as client:
            counter = patterns.Counter(client, "counter")
            for wrong in NO_NUMBERS:
                with self.assertRaises(TypeError):
                    counter.add(wrong)
            self.assertEqual([counter.add() for _ in range(100)], list(range(100)))

    def test_asyncio(self):
        self.server()

        async def main():
            async with AsyncClient(self.path, 7, reconnect_timeout=30.0) as client:
                word = await client.create("word", 1, full=True)
                for wrong in NO_NUMBERS:
                    with self.assertRaises(TypeError):
                        await client.writexf(word, 0, wrong)
                got = [await client.int_fetch_add(word, 0, 1) for _ in range(100)]
                self.assertEqual(got, list(range(100)))

        asyncio.run(main())


class Stop(BaseException):
    """What a signal's handler raises."""


def interrupted(work, at):
    """Runs the work, and raises `Stop` before its bytecode number `at`. Returns whether it got that far.

    It counts only the library's functions, not those of the standard library.
    """
    count = 0

    def trace(frame, event, _):
        nonlocal count
        # (exceptions from a `__del__` are ignored)
        if not frame.f_code.co_filename.startswith(os.path.dirname(femem.__file__)) or frame.f_code.co_name == "__del__":
            return None
        frame.f_trace = trace
        frame.f_trace_opcodes = True
        frame.f_trace_lines = False
        if event == "opcode":
            # No exception can come between the return of a value and its caller, or where nothing is done.
            code = frame.f_code.co_code[frame.f_lasti]
            if code not in LAST:
                count += 1
                if count == at:
                    sys.settrace(None)
                    raise Stop()
        return trace

    # Later versions trace opcodes only if a frame has asked for it before.
    sys._getframe().f_trace_opcodes = True
    sys.settrace(trace)
    try:
        work()
    except Stop:
        return True
    finally:
        sys.settrace(None)
    return False


import dis  # noqa: E402

LAST = {dis.opmap[name] for name in ("RETURN_VALUE", "RETURN_CONST", "RESUME", "CACHE", "NOP") if name in dis.opmap}


class Interrupts(WithFolder):
    def each_bytecode(self, client, work, well):
        for _ in range(2):
            interrupted(work, 10**9)  # some versions trace a function's opcodes only from its second call on
            well()
        for at in itertools.count(1):
            was = interrupted(work, at)
            with self.subTest(bytecode=at):
                self.assertIsNone(client.failure)
                well()
            if not was:
                break
        self.assertGreater(at, 30)

    def test_submit(self):
        self.server()
        with Client(self.path, 7, reconnect_timeout=30.0) as client:
            word = client.create("word", 1, full=True)
            request = requests.readxx(word, 0)
            self.each_bytecode(client, lambda: client.submit(request), lambda: client.readxx(word, 0, timeout=30))

    def test_a_call(self):
        self.server()
        with Client(self.path, 7, reconnect_timeout=30.0) as client:
            word = client.create("word", 1, full=True)
            self.each_bytecode(client, lambda: client.readff(word, 0), lambda: client.readxx(word, 0, timeout=30))

    def test_submit_many(self):
        self.server()
        with Client(self.path, 7, reconnect_timeout=30.0) as client:
            word = client.create("word", 1, full=True)
            batch = [requests.readxx(word, 0)] * 3
            self.each_bytecode(client, lambda: client.submit_many(batch), lambda: client.readxx(word, 0, timeout=30))

    def test_acquire_and_release(self):
        self.server()
        with Client(self.path, 7, reconnect_timeout=30.0) as client:
            lock = patterns.Lock(client, "lock")

            def free():
                # The client's thread undoes the interrupted operation a moment later.
                self.assertTrue(lock.acquire(timeout=60))
                lock.release()
                deadline = time.monotonic() + 60
                while lock.owner() is not None and time.monotonic() < deadline:
                    time.sleep(0.001)
                self.assertIsNone(lock.owner())

            def once():
                lock.acquire()
                sys.settrace(None)
                lock.release()

            self.each_bytecode(client, once, free)

            def well():
                try:
                    lock.release()
                except femem.NotOwner:
                    pass  # it was released
                free()
                lock.acquire()

            lock.acquire()
            self.each_bytecode(client, lock.release, well)

    def test_put_and_get(self):
        self.server()
        with Client(self.path, 7, reconnect_timeout=30.0) as client:
            queue = patterns.BoundedQueue(client, "queue", 3)

            def well():
                self.assertLessEqual(queue.qsize(), 2)
                queue.put(5, timeout=30)
                while queue.qsize():
                    self.assertEqual(queue.get(timeout=30), 5)

            self.each_bytecode(client, lambda: queue.put(5), well)

            def full():
                while queue.qsize() < 3:
                    queue.put(5, timeout=30)

            full()
            self.each_bytecode(client, queue.get, full)

    def test_signals_within_submit(self):
        """Exceptions from a signal handler, at random moments."""
        self.server()

        def boom(*_):
            raise Stop()

        before = signal.signal(signal.SIGALRM, boom)
        self.addCleanup(signal.signal, signal.SIGALRM, before)
        self.addCleanup(signal.setitimer, signal.ITIMER_REAL, 0)
        chance = random.Random(5)
        with Client(self.path, 7, reconnect_timeout=30.0) as client:
            word = client.create("word", 1, full=True)
            stops = 0
            for _ in range(150):
                try:
                    signal.setitimer(signal.ITIMER_REAL, chance.random() * 0.003 + 0.0001)
                    for _ in range(40):
                        client.submit(requests.readxx(word, 0))
                    time.sleep(0.004)
                except Stop:
                    stops += 1
                signal.setitimer(signal.ITIMER_REAL, 0)
            self.assertGreater(stops, 50)
            self.assertEqual(client.readxx(word, 0, timeout=30), 0)


INHERITED = []


def ask_inherited(_):
    """What a pool's process gets from the client that it inherited."""
    ((client, word),) = INHERITED
    try:
        client.int_fetch_add(word, 0, 1)
    except femem.FememError as error:
        return type(error).__name__
    return "an answer"


class Forks(WithFolder):
    def in_child(self, work):
        """The result of the work in a child of this process."""
        read, write = os.pipe()
        child = os.fork()
        if child == 0:
            try:
                try:
                    said = repr(work())
                except BaseException as error:
                    said = type(error).__name__
                os.write(write, said.encode())
            finally:
                os._exit(0)
        os.close(write)
        with os.fdopen(read) as pipe:
            said = pipe.read()
        os.waitpid(child, 0)
        return said

    def test_a_child_leaves_its_parents_client_alone(self):
        self.server()
        with Client(self.path, 7, reconnect_timeout=30.0) as client:
            word = client.create("word", 1)
            waiting = client.submit(requests.readfe(word, 0))
            for work, said in [
                (lambda: client.readxx(word, 0), "Closed"),
                (lambda: client.submit(requests.readxx(word, 0)).result(30), "Closed"),
                (lambda: client.submit_many([requests.readxx(word, 0)]), "[Closed('a client is of the process that made it')]"),
                (client.report, "Closed"),
                (client.bye, "Closed"),
                (client.close, "None"),
                (lambda: client.withdraw(waiting), "None"),
                (lambda: patterns.Lock(client, "lock"), "Closed"),
            ]:
                self.assertEqual(self.in_child(work), said)
                time.sleep(0.02)
                self.assertFalse(waiting.done())
                self.assertEqual(client.readxx(word, 0), 0)
            client.writexf(word, 0, 3)
            self.assertEqual(waiting.result(30), 3)

    def test_a_fork_in_the_middle_of_a_send(self):
        self.server()
        with Client(self.path, 7, sessions=3, probe_interval=100.0) as client:
            word = client.create("word", 1)
            waiting = client.submit(requests.readfe(word, 0))
            while not client.report().waiters:
                time.sleep(0.01)
            # As in the middle of the thread's send.
            for sending in [client, *client._further()]:
                with memoryview(sending._core.to_send):
                    self.assertEqual(self.in_child(lambda: client.readxx(word, 0)), "Closed")
                    self.assertEqual(self.in_child(lambda: client.withdraw(waiting)), "None")
                    self.assertEqual(self.in_child(client.close), "None")
            client.writexf(word, 0, 3)
            self.assertEqual(waiting.result(30), 3)

    def test_a_pool_of_processes_that_inherited_a_client(self):
        """Each process of a pool finds the inherited client closed, and the parent's goes on."""
        self.server()
        with Client(self.path, 7) as client:
            word = client.create("word", 1, full=True)
            INHERITED.append((client, word))
            with warnings.catch_warnings():
                warnings.simplefilter("ignore", DeprecationWarning)
                with multiprocessing.get_context("fork").Pool(2) as pool:
                    self.assertEqual(pool.map(ask_inherited, [1, 2]), ["Closed", "Closed"])
            INHERITED.clear()
            self.assertEqual(client.int_fetch_add(word, 0, 1), 0)

    def test_a_child_may_have_a_client_of_its_own(self):
        self.server()
        with Client(self.path, 7) as client:
            word = client.create("word", 1, full=True)

            def work():
                with Client(self.path, 8) as own:
                    return own.int_fetch_add(word, 0, 1)

            self.assertEqual(self.in_child(work), "0")
            self.assertEqual(client.readff(word, 0), 1)

    def test_asyncio(self):
        self.server()

        async def main():
            async with AsyncClient(self.path, 7) as client:
                word = await client.create("word", 1, full=True)
                child = os.fork()
                if child == 0:
                    status = 1
                    try:
                        client.submit(requests.readxx(word, 0))
                    except femem.Closed:
                        status = 0
                    finally:
                        os._exit(status)
                self.assertEqual(os.waitpid(child, 0)[1], 0)
                self.assertEqual(await client.readxx(word, 0), 0)

        asyncio.run(main())


class Cancelled(WithFolder):
    def test_wait_for_loses_no_value(self):
        self.server()

        async def main():
            async with AsyncClient(self.path, 7) as one, AsyncClient(self.path, 8) as other:
                word = await one.create("word", 1)
                got, late = 0, 0
                for turn in range(200):

                    async def give():
                        await asyncio.sleep(0.002 * (turn % 5))
                        await other.writeef(word, 0, turn)

                    giver = asyncio.ensure_future(give())
                    try:
                        value = await asyncio.wait_for(one.readfe(word, 0), 0.006)
                        got += 1
                    except asyncio.TimeoutError:
                        value = None
                    await giver
                    if value is None:
                        late += 1
                        value = await other.readfe(word, 0, nowait=True)
                    self.assertEqual(value, turn)
                self.assertGreater(got, 0)
                self.assertGreater(late, 0)

        asyncio.run(main())

    def test_a_task_that_is_cancelled_twice_goes_at_once(self):
        server = self.server()

        async def main():
            async with AsyncClient(self.path, 7) as client:
                word = await client.create("word", 1)
                task = asyncio.ensure_future(client.readfe(word, 0))
                await asyncio.sleep(0.05)
                await asyncio.get_running_loop().run_in_executor(None, server.kill)
                await asyncio.sleep(0.05)
                for _ in range(2):
                    task.cancel()
                    await asyncio.sleep(0.01)
                self.assertTrue(task.cancelled())

        asyncio.run(main())


class Logging(WithFolder):
    def test_what_a_client_is(self):
        self.server()
        client = Client(self.path, 7)
        self.assertEqual(repr(client), f"<femem client of session 7 at {self.path}: requests are sent>")
        client.close()
        self.assertIn("Closed", repr(client))
        self.assertRegex(femem.__version__, r"^\d+\.\d+\.\d+(\.dev\d+(\+[0-9a-f]+)?)?$")
        self.assertEqual([t for t in threading.enumerate() if t.name == "femem session 7"], [])

    def test_a_session_that_nobody_named_ends_with_its_client(self):
        server = self.server()
        with Client(self.path) as client:
            word = client.create("word", 1)
            client.submit(requests.readfe(word, 0))
            self.assertEqual(len(server.model.stored.sessions), 1)
        self.assertEqual(server.model.stored.sessions, {})

    def test_a_failure_is_logged(self):
        server = self.server()
        with Client(self.path, 7) as client, self.assertLogs("femem", "ERROR") as logs:
            client._core._reconnect_timeout = 0.3
            future = client.submit(requests.readfe(client.create("word", 1), 0))
            server.kill()
            future.exception(60)
        self.assertIn("ServerUnreachable", logs.output[0])


if __name__ == "__main__":
    import unittest

    unittest.main()
