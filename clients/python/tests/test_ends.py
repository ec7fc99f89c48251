"""Nothing hangs and nothing stays behind: callbacks that raise, sends that fail, programs that end without `close`."""

import asyncio
import errno
import gc
import grp
import os
import pathlib
import signal
import subprocess
import sys
import tempfile
import threading
import time
import unittest
import warnings

import paths
from serving import WithFolder

import femem
from femem import Client, _registry as registry, requests
from femem.aio import AsyncClient
from femem.patterns import Lock

# How long something that must not hang may take, in seconds.
LONG = 60

FOLDER = str(pathlib.Path(paths.__file__).resolve().parents[1])


class Stop(BaseException):
    """No `Exception`, like `SystemExit` and `asyncio.CancelledError`."""


def raise_it(_):
    raise Stop


class Callbacks(WithFolder):
    def others(self, client, word, count=5):
        """Threads that wait for the word, and their outcomes."""
        outcomes = []

        def wait():
            try:
                outcomes.append(client.readff(word, 0))
            except BaseException as error:
                outcomes.append(type(error).__name__)

        threads = [threading.Thread(target=wait, daemon=True) for _ in range(count)]
        for thread in threads:
            thread.start()
        self.assertTrue(until(lambda: len(client.report().waiters) > count))
        return threads, outcomes

    def join(self, threads):
        for thread in threads:
            thread.join(LONG)
        self.assertFalse(any(thread.is_alive() for thread in threads))

    def spoil(self, how, client, word):
        future = client.submit(requests.readff(word, 0))
        if how == "a callback raises":
            future.add_done_callback(raise_it)
        else:
            future.set_result(1)

    def test_whatever_a_callback_raises_the_others_are_answered(self):
        self.server()
        for how in ("a callback raises", "somebody else sets the future"):
            with self.subTest(how=how), Client(self.path) as client:
                word = client.create("a" if how[0] == "a" else "b", 1)
                self.spoil(how, client, word)
                threads, outcomes = self.others(client, word)
                with self.assertLogs("femem", "ERROR"):
                    client.writeef(word, 0, 3)
                    self.join(threads)
                self.assertEqual((outcomes, client.failure), ([3] * 5, None))
                self.assertEqual(client.readxx(word, 0), 3)

    def test_whatever_a_callback_raises_close_ends_the_others(self):
        self.server()
        for how in ("a callback raises", "somebody else sets the future"):
            with self.subTest(how=how):
                client = Client(self.path, 7)
                word = client.create("a" if how[0] == "a" else "b", 1)
                self.spoil(how, client, word)
                threads, outcomes = self.others(client, word)
                with self.assertLogs("femem", "ERROR"):
                    closing = threading.Thread(target=client.close, daemon=True)
                    closing.start()
                    self.join([*threads, closing])
                self.assertEqual(outcomes, ["Closed"] * 5)

    def test_a_future_that_somebody_else_set_in_asyncio(self):
        self.server()

        async def main():
            async with AsyncClient(self.path) as client:
                word = await client.create("word", 1)
                client.submit(requests.readff(word, 0)).set_result(1)
                others = [asyncio.ensure_future(client.readff(word, 0)) for _ in range(5)]
                await client.report()
                with self.assertLogs("femem", "ERROR"):
                    await client.writeef(word, 0, 3)
                    self.assertEqual(await asyncio.wait_for(asyncio.gather(*others), LONG), [3] * 5)

        asyncio.run(main())


class Unwilling:
    """A socket whose next sends fail, although its connection stands."""

    def __init__(self, inner, failures):
        self.inner = inner
        self.failures = failures

    def send(self, content, *more):
        if self.failures:
            raise OSError(self.failures.pop(), "for now")
        return self.inner.send(content, *more)

    def __getattr__(self, name):
        return getattr(self.inner, name)


class Sends(WithFolder):
    def test_a_send_that_fails_is_made_up_for(self):
        """The connection stands, so no read fails: the client ends it, and sends everything again over the next one."""
        self.server()
        for failure in (errno.ENOBUFS, errno.ENOMEM):
            with Client(self.path, 7, reconnect_timeout=LONG) as client:
                word = client.create(f"w{failure}", 1, full=True)
                for ask in (requests.int_fetch_add(word, 0, 1), requests.readff(word, 0)):
                    client._worker._socket = Unwilling(client._worker._socket, [failure])
                    self.assertEqual(client.submit(ask).result(LONG), 0 if "add" in ask.what else 1)
                self.assertEqual(client.readxx(word, 0, timeout=LONG), 1)

    def test_a_step_of_a_pattern_is_sent_before_the_thread_sleeps(self):
        self.server()
        with Client(self.path, 7, probe_interval=100.0) as client:
            lock = Lock(client, "lock")
            slept = []
            inner = client._worker._bell

            class Bell:
                def acquire(self, *words, **more):
                    slept.append(bool(client._core.to_send))
                    return inner.acquire(*words, **more)

                def release(self):
                    inner.release()

            client._worker._bell = Bell()
            client.create("word", 1)
            for _ in range(50):
                with lock:
                    pass
            client._worker._bell = inner
            client._worker.ring()
            self.assertGreater(len(slept), 0)
            self.assertEqual(sum(slept), 0)


def until(condition):
    """Waits until the condition holds. Returns whether it did."""
    end = time.monotonic() + LONG
    while not condition():
        if time.monotonic() > end:
            return False
        time.sleep(0.002)
    return True


def threads_of_clients():
    return {thread for thread in threading.enumerate() if thread.name.startswith("femem session")}


class Closes(WithFolder):
    def ends(self, work):
        """Does the work in a thread, which must end."""
        outcomes = []

        def run():
            try:
                outcomes.append(work())
            except BaseException as error:
                outcomes.append(error)

        thread = threading.Thread(target=run, daemon=True)
        thread.start()
        thread.join(LONG)
        self.assertEqual(len(outcomes), 1, "it does not end")
        return outcomes[0]

    def test_close_does_not_wait_for_a_server_that_is_away(self):
        for more in ({}, {"session": 7}, {"session": 7, "sessions": 4}, {"sessions": 3}):
            with self.subTest(**more):
                server = self.server()
                client = Client(self.path, reconnect_timeout=None, **more)
                server.kill()
                self.assertIsNone(self.ends(client.close))
                self.assertIsInstance(client.failure, femem.Closed)

    def test_close_does_not_wait_for_a_server_that_is_silent(self):
        server = self.server()
        client = Client(self.path, reconnect_timeout=None)
        server.posts = False
        self.assertIsNone(self.ends(client.close))

    def test_close_does_not_wait_in_asyncio(self):
        for more in ({}, {"session": 7, "sessions": 4}):
            server = self.server()

            async def main():
                client = AsyncClient(self.path, reconnect_timeout=None, **more)
                await client.open()
                await asyncio.get_running_loop().run_in_executor(None, server.kill)
                await client.close()
                return client.failure

            self.assertIsInstance(self.ends(lambda: asyncio.run(main())), femem.Closed)

    def test_a_callback_that_closes_ends_the_session(self):
        server = self.server()
        client = Client(self.path)
        word = client.create("word", 1, full=True)
        client.submit(requests.readff(word, 0)).add_done_callback(lambda _: client.close())
        self.assertTrue(until(lambda: client.failure is not None))
        self.assertEqual(server.model.stored.sessions, {})

    def test_a_client_that_nobody_refers_to_is_closed(self):
        server = self.server()
        gc.collect()
        others = threads_of_clients()
        for session in (None, 7):
            with self.subTest(session=session):
                client = Client(self.path, session, sessions=2)
                client.submit(requests.readfe(client.create(f"w{session or 0}", 1), 0))
                worker = client._worker
                with warnings.catch_warnings(record=True) as told:
                    warnings.simplefilter("always")
                    del client
                    gc.collect()
                self.assertIn(ResourceWarning, [each.category for each in told])
                self.assertTrue(until(lambda: threads_of_clients() <= others))
                self.assertEqual(list(server.model.stored.sessions), [7] if session else [])
                self.assertEqual((worker._socket, worker._waker.fileno(), worker._woken.fileno()), (None, -1, -1))

    def test_a_loop_that_tries_again_leaves_one_session(self):
        """The server is slow: each client gives up, and its attach is carried out all the same."""
        server = self.server()
        server.posts = False
        for _ in range(8):
            with self.assertRaises(femem.ServerUnreachable):
                Client(self.path, reconnect_timeout=0.05)

        async def main():
            async with AsyncClient(self.path, reconnect_timeout=0.05):
                pass

        for _ in range(8):
            with self.assertRaises(femem.ServerUnreachable):
                asyncio.run(main())
        self.assertTrue(until(lambda: len(server.model.state.sessions) == 1))
        server.posts = True
        with Client(self.path):
            self.assertEqual(len(server.model.stored.sessions), 1)
        self.assertEqual(len(server.model.stored.sessions), 0)

    def test_a_path_that_can_not_be_is_told_at_once(self):
        folder = os.path.dirname(self.path)
        file = os.path.join(folder, "file")
        open(file, "w").close()
        for path in ("/none/of/these", "/" + 300 * "x", os.path.join(file, "socket"), folder, file):
            with self.subTest(path=path[-10:]):
                error = self.ends(lambda: Client(path, reconnect_timeout=None))
                self.assertIsInstance(error, femem.ServerUnreachable)

                async def main():
                    async with AsyncClient(path, reconnect_timeout=None):
                        pass

                self.assertIsInstance(self.ends(lambda: asyncio.run(main())), femem.ServerUnreachable)
        error = self.ends(lambda: Client("/" + 300 * "x", reconnect_timeout=None, wait_for_server=True))
        self.assertIsInstance(error, femem.ServerUnreachable)
        self.assertFalse(registry.left.get(self.path))

    def test_a_path_that_is_missing_is_a_server_that_is_away(self):
        """Also with its folder, as systemd has it, which belongs to root for a moment when it is made again."""
        away = os.path.join(os.path.dirname(self.path), "run", "socket")
        for path in (away, self.path):
            error = self.ends(lambda: Client(path, 7, reconnect_timeout=0.3))
            self.assertIsInstance(error, femem.ServerUnreachable)
            self.assertIn("No such file or directory", str(error))
        made = []

        async def main():
            async with AsyncClient(self.path, 8) as client:
                made.append(client.failure)

        threads = [
            threading.Thread(target=lambda: made.append(Client(self.path, 7))),
            threading.Thread(target=lambda: asyncio.run(main())),
        ]
        for thread in threads:
            thread.start()
        time.sleep(0.3)
        self.assertEqual(made, [])
        self.server()
        for thread in threads:
            thread.join(LONG)
        self.assertEqual(len(made), 2)
        for client in made:
            if client is not None:
                client.close()

    @unittest.skipUnless(os.geteuid() == 0, "only root can be a user who has no right")
    def test_who_has_no_right_to_the_socket_is_told_who_has(self):
        # (the folder of temporary files may be below one that only root may look into)
        place = tempfile.TemporaryDirectory(dir="/tmp")
        self.addCleanup(place.cleanup)
        folder = place.name
        self.path = os.path.join(folder, "s")
        self.server()
        group = grp.getgrgid(2).gr_name
        mine = f"may not use {self.path}: members of its group {group} may ('adduser nobody {group}', and a new login)"
        for at, mode, due in (
            (folder, 0o750, mine),
            (self.path, 0o770, mine),
            (self.path, 0o700, f"may not use {self.path}: its owner root may"),
        ):
            os.chmod(folder, 0o755)
            os.chown(at, 0, 2)
            os.chmod(at, mode)
            with self.subTest(at=at, mode=mode):
                reading, writing = os.pipe()
                child = os.fork()
                if child == 0:
                    try:
                        os.setgroups([])
                        os.setgid(65534)
                        os.setuid(65534)
                        for make in (lambda: Client(self.path, 7), self.asynchronous):
                            try:
                                make()
                            except femem.NoRight as error:
                                os.write(writing, str(error).encode() + b"\n")
                    finally:
                        os._exit(0)
                os.close(writing)
                with open(reading, encoding="utf-8") as told:
                    self.assertEqual(told.read().splitlines(), [due, due])
                os.waitpid(child, 0)

    def asynchronous(self):
        async def main():
            async with AsyncClient(self.path, 8):
                pass

        asyncio.run(main())

    def test_a_client_may_wait_for_its_server_to_start(self):
        made = []

        async def main():
            async with AsyncClient(self.path, 8, reconnect_timeout=None, wait_for_server=True) as client:
                made.append(client.failure)

        threads = [
            threading.Thread(target=lambda: made.append(Client(self.path, 7, reconnect_timeout=None, wait_for_server=True))),
            threading.Thread(target=lambda: asyncio.run(main())),
        ]
        for thread in threads:
            thread.start()
        time.sleep(0.1)
        self.assertEqual(made, [])
        self.server()
        for thread in threads:
            thread.join(LONG)
        self.assertEqual(len(made), 2)
        for client in made:
            if client is not None:
                client.close()


class Killed(WithFolder):
    def setUp(self):
        super().setUp()
        self.folder = registry.folder_of(self.path)

    def kill_one(self, **more):
        """A client in a child, which is killed once it is attached."""
        reader, writer = os.pipe()
        child = os.fork()
        if child == 0:
            try:
                client = Client(self.path, **more)
                os.write(writer, b"%d" % client.session)
                time.sleep(1000)
            finally:
                os._exit(1)
        os.close(writer)
        session = int(os.read(reader, 100))
        os.close(reader)
        os.kill(child, signal.SIGKILL)
        os.waitpid(child, 0)
        return session

    def test_the_next_client_ends_the_sessions_of_killed_ones(self):
        server = self.server()
        os.mkdir(self.folder)
        for more in ({}, {"sessions": 3}):
            for _ in range(3):
                self.kill_one(**more)
        with Client(self.path) as client:
            self.assertEqual(list(server.model.stored.sessions), [client.session])
            self.assertEqual(os.listdir(self.folder), [str(client.session)])
        self.assertEqual((server.model.stored.sessions, os.listdir(self.folder)), ({}, []))

    def test_seventy_killed_clients_lock_nobody_out(self):
        server = self.server()
        os.mkdir(self.folder)
        for _ in range(70):
            self.kill_one()
        with Client(self.path):
            self.assertEqual(len(server.model.stored.sessions), 1)

        async def main():
            async with AsyncClient(self.path):
                self.assertEqual(len(server.model.stored.sessions), 1)

        self.kill_one()
        asyncio.run(main())
        self.assertEqual((server.model.stored.sessions, os.listdir(self.folder)), ({}, []))

    def test_the_sessions_of_others_stay(self):
        """Those of living clients, of clients that name theirs, and those of a folder's other files."""
        server = self.server()
        os.mkdir(self.folder)
        for name in ("README", "-1", str(2**64), "9"):
            os.mkdir(os.path.join(self.folder, name))
        named = self.kill_one(session=9)
        with Client(self.path) as living:
            self.kill_one()
            with Client(self.path) as client:
                self.assertEqual(set(server.model.stored.sessions), {named, living.session, client.session})
            living.create("word", 1)

    def test_a_child_holds_no_file_of_its_parent(self):
        server = self.server()
        os.mkdir(self.folder)
        session = self.kill_one()
        client = Client(self.path)
        self.assertNotIn(session, server.model.stored.sessions)
        ready, (reader, writer) = os.pipe(), os.pipe()
        child = os.fork()
        if child == 0:
            os.close(writer)
            os.close(ready[1])  # the client's file was closed before
            os.read(reader, 1)
            os._exit(0)
        os.close(reader)
        os.close(ready[1])
        self.addCleanup(os.waitpid, child, 0)
        self.addCleanup(os.close, writer)
        os.read(ready[0], 1)
        os.close(ready[0])
        client._worker.entry.release()  # as if only the parent were killed
        with Client(self.path) as other:
            self.assertEqual(list(server.model.stored.sessions), [other.session])
        client.close()

    def test_without_the_folder_a_killed_client_leaves_its_session(self):
        server = self.server()
        session = self.kill_one()
        with Client(self.path) as client:
            self.assertEqual(set(server.model.stored.sessions), {session, client.session})
        self.assertFalse(os.path.exists(self.folder))


class Exits(WithFolder):
    def run_program(self, text, *, fails=False):
        """Runs the program in an interpreter of its own, which must end. Returns what it printed."""
        head = f"import sys; sys.path.insert(0, {FOLDER!r})\nS = {self.path!r}\nfrom femem import Client, requests\n"
        done = subprocess.run(
            [sys.executable, "-c", head + text], capture_output=True, text=True, timeout=LONG, env={**os.environ}
        )
        self.assertEqual(done.returncode != 0, fails, done.stderr)
        return done.stdout

    def sessions(self, server):
        return list(server.model.stored.sessions)

    def test_a_program_that_ends_without_close_leaves_no_session(self):
        server = self.server()
        for end in ("", "1/0", "sys.exit(3)"):
            with self.subTest(end=end):
                self.run_program(f"client = Client(S)\nclient.create('w{len(end)}', 1)\n{end}", fails=bool(end))
                self.assertEqual(self.sessions(server), [])

    def test_a_program_of_asyncio_that_ends_without_close_leaves_no_session(self):
        server = self.server()
        head = "import asyncio\nfrom femem.aio import AsyncClient\n"
        main = "async def main():\n    global client\n    client = AsyncClient(S)\n    await client.open()\n"
        for name, run in (
            ("run", "asyncio.run(main())"),
            ("stop", "asyncio.new_event_loop().run_until_complete(main())"),
            ("fail", "asyncio.run(main())\n1/0"),
            # (the interpreter does not end the frames of such threads)
            (
                "keep",
                "asyncio.new_event_loop().run_until_complete(main())\nimport threading, time\n"
                "threading.Thread(target=lambda mine: time.sleep(1000), args=(client,), daemon=True).start()",
            ),
        ):
            with self.subTest(run=name):
                self.run_program(f"{head}{main}{run}\n", fails=name == "fail")
                self.assertTrue(until(lambda: self.sessions(server) == []))

    def test_a_program_that_ends_while_a_thread_waits(self):
        server = self.server()
        self.run_program(
            "import threading\nclient = Client(S)\nword = client.create('word', 1)\n"
            "threading.Thread(target=lambda: client.readfe(word, 0), daemon=True).start()\n"
            "while not client.report().waiters: pass\n"
        )
        self.assertEqual(self.sessions(server), [])

    def test_a_program_that_ends_while_the_server_is_away(self):
        server = self.server()
        text = "import os\nclients = [Client(S), Client(S, 8), Client(S, sessions=3)]\nprint('ready', flush=True)\ninput()\n"
        head = f"import sys; sys.path.insert(0, {FOLDER!r})\nS = {self.path!r}\nfrom femem import Client\n"
        program = subprocess.Popen(
            [sys.executable, "-c", head + text], stdin=subprocess.PIPE, stdout=subprocess.PIPE, text=True
        )
        try:
            self.assertEqual(program.stdout.readline(), "ready\n")
            server.kill()
            program.communicate("\n", timeout=LONG)
            self.assertEqual(program.returncode, 0)
        finally:
            program.kill()
            program.wait()

    def test_an_object_that_uses_its_client_when_the_interpreter_ends(self):
        """The interpreter finalises a module's objects when its daemon threads are gone."""
        server = self.server()
        for session in ("", ", 8"):
            for use in ("self.client.close()", "self.client.readxx(self.word, 0)", "self.client.bye()"):
                with self.subTest(session=session, use=use):
                    self.run_program(
                        "class Job:\n"
                        f"    def __init__(self):\n        self.client = Client(S{session})\n"
                        "        self.word = self.client.submit(requests.create('word', 1))\n"
                        "        self.word = 1\n"
                        f"    def __del__(self):\n        {use}\n"
                        "job = Job()\n"
                        # A cycle, so that the object outlives the module's own clearing.
                        "job.me = job\n"
                    )
                    self.assertEqual(self.sessions(server), [8] if session else [])


if __name__ == "__main__":
    import unittest

    unittest.main()
