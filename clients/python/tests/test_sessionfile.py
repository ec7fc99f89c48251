"""At most once over the client's own restarts: a client with a session file is killed at each point, and continues."""

import asyncio
import enum
import itertools
import os
import random
import signal
import stat
import struct
import threading
import time

import paths  # noqa: F401
from model import Model
from serving import WithFolder
from test_unspoilt import interrupted
from world import Core

import femem
from femem import Client, aio, _core as core, _frames as frames, requests, _sessionfile as sessionfile
from femem.aio import AsyncClient
from femem._arguments import key_bytes
from femem._sessionfile import SessionFile
from femem._sessionstate import Asked
from femem._worker import Worker

POINTS = {
    "before the write": (SessionFile, "commit", "before"),
    "within the write": (SessionFile, "_write", "torn"),
    "after the write": (SessionFile, "commit", "after"),
    "before the send": (Worker, "_flush", "before"),
    "after the send": (Worker, "_flush", "after"),
    "before the answer is taken": (core.Core, "received", "before"),
    "after the answer is taken": (core.Core, "received", "after"),
    "before the compaction": (SessionFile, "compact", "before"),
    "before the new file's place": (SessionFile, "replace", "before"),
    "after the new file's place": (SessionFile, "replace", "after"),
    "after the compaction": (SessionFile, "compact", "after"),
}


def die():
    os.kill(os.getpid(), signal.SIGKILL)


def dies(point, after):
    """Makes this process die at that point, the `after`th time that it comes there."""
    where, name, moment = POINTS[point]
    todo = getattr(where, name)
    count = 0

    def instead(*words):
        nonlocal count
        count += 1
        if count == after and moment == "before":
            die()
        if count == after and moment == "torn":
            os.write(words[0], words[1][: len(words[1]) // 2])
            die()
        result = todo(*words)
        if count == after and moment == "after":
            die()
        return result

    setattr(where, name, staticmethod(instead) if name == "_write" else instead)


class Killed(WithFolder):
    BATCH = 4

    def setUp(self):
        super().setUp()
        self.file = self.path + ".session"
        self.progress = self.path + ".progress"

    def child(self, work, *words):
        """Runs the work in a child. Returns whether it came to its end without being killed."""
        pid = os.fork()
        if pid == 0:
            status = 1
            try:
                # Short, so that there are compactions.
                sessionfile._SHORT, sessionfile._GROWTH = 600, 1
                work(*words)
                status = 0
            except BaseException as error:
                os.write(2, f"child: {error!r}\n".encode())
            finally:
                os._exit(status)
        status = os.waitpid(pid, 0)[1]
        if os.WIFSIGNALED(status):
            self.assertEqual(os.WTERMSIG(status), signal.SIGKILL)
            return False
        self.assertEqual(status, 0)
        return True

    def count(self, word, steps):
        """Adds 1 `steps` times, four at a time, and notes its progress."""
        done = 0
        if os.path.exists(self.progress):
            with open(self.progress) as file:
                done = int(file.read())
        with Client(self.path, session_file=self.file, reconnect_timeout=100.0) as client:
            while done < steps:
                keys = range(done, done + self.BATCH)
                keys = [f"{word.id}-{step}" for step in keys]
                futures = [client.submit(requests.int_fetch_add(word, 0, 1), key=key) for key in keys]
                for future in futures:
                    future.result(100)
                done += self.BATCH
                with open(self.progress + ".new", "w") as file:
                    file.write(str(done))
                os.rename(self.progress + ".new", self.progress)
                for key in keys:
                    client.forget(key)

    def test_a_client_that_is_killed_at_each_point_counts_exactly(self):
        server = self.server()
        chance = random.Random(1)
        with Client(self.path, 1) as watcher:
            for point in POINTS:
                with self.subTest(point=point):
                    word = watcher.create(f"w{len(point)}{chance.randrange(10**6)}", 1, full=True)
                    kills = 0

                    def work(after):
                        dies(point, after)
                        self.count(word, 400)

                    for _ in range(20):
                        kills += not self.child(work, chance.randint(1, 9))
                    self.assertGreaterEqual(kills, 10)
                    self.child(self.count, word, 400)
                    self.assertEqual(watcher.readff(word, 0), 400)
                    os.unlink(self.progress)
        self.assertEqual(len(server.model.stored.sessions), 2)

    def test_client_and_server_are_killed_in_turns(self):
        server = self.server()
        chance = random.Random(2)
        with Client(self.path, 1) as watcher:
            word = watcher.create("word", 1, full=True)
        for turn in range(20):
            point = chance.choice(list(POINTS))

            def work(after):
                dies(point, after)
                self.count(word, 400)

            server.kill()
            restart = threading.Timer(0.03, server.start)
            pid = os.fork()
            if pid == 0:
                try:
                    sessionfile._SHORT, sessionfile._GROWTH = 600, 1
                    work(chance.randint(1, 9))
                finally:
                    os._exit(0)
            restart.start()
            os.waitpid(pid, 0)
            restart.join()
        self.child(self.count, word, 400)
        with Client(self.path, 1) as watcher:
            self.assertEqual(watcher.readff(word, 0), 400)

    def test_asyncio(self):
        self.server()

        async def count(word, steps):
            async with AsyncClient(self.path, session_file=self.file) as client:
                for step in range(steps):
                    await client.once(step, requests.int_fetch_add(word, 0, 1))

        def work(word, after):
            dies("after the answer is taken", after)
            asyncio.run(count(word, 30))

        with Client(self.path, 1) as watcher:
            word = watcher.create("word", 1, full=True)
        kills = 0
        for after in (3, 5, 9, 12, 3, 4, 17, 5, 7, 9):
            kills += not self.child(work, word, after)
        self.assertGreater(kills, 5)
        asyncio.run(count(word, 30))
        with Client(self.path, 1) as watcher:
            self.assertEqual(watcher.readff(word, 0), 30)


def blocks_of(content):
    """Where the blocks of a session file begin."""
    at, places = 20, []
    while at < len(content):
        places.append(at)
        at += 32 + struct.unpack_from(">I", content, at)[0]
    return places


class Files(WithFolder):
    def setUp(self):
        super().setUp()
        self.file = self.path + ".session"

    def abandon(self, client):
        """Acts as if the client's process were killed now."""
        client._core.file.abandon()
        client._core.file = None
        client._core._outbox._file = None
        client.close()

    @staticmethod
    def begin_to_leave(client):
        """Notes in the file, in the client's own thread, that the session is being ended."""
        noted = threading.Event()
        file = client._core.file
        client._ask(lambda now: (file.ending(), file.commit(), noted.set()))
        noted.wait(60)

    def test_a_key_is_asked_once(self):
        self.server()
        with Client(self.path, session_file=self.file) as client:
            word = client.create("word", 1, full=True)
            add = requests.int_fetch_add(word, 0, 1)
            self.assertEqual([client.once("a", add) for _ in range(3)], [0, 0, 0])
            with self.assertRaises(ValueError):
                client.once("a", requests.int_fetch_add(word, 0, 2))
            with self.assertRaises(femem.NotNow):
                client.once("b", requests.writeef(word, 0, 1, nowait=True))
            session = client.session
        with Client(self.path, session_file=self.file) as client:
            self.assertEqual(client.session, session)
            self.assertEqual([client.once("a", add) for _ in range(3)], [0, 0, 0])
            with self.assertRaises(femem.NotNow):
                client.once("b", requests.writeef(word, 0, 1, nowait=True))
            client.forget("a")
            self.assertEqual(client.once("a", add), 1)
            self.assertEqual(client.recovered, [])
        with Client(self.path, 5) as client:
            with self.assertRaises(ValueError):
                client.once("a", add)
            with self.assertRaises(ValueError):
                client.forget("a")

    def test_a_key_that_was_forgotten_is_gone_from_the_keys(self):
        """However late the client's thread is, also for its own callbacks."""
        self.server()
        with Client(self.path, session_file=self.file) as client:
            add = requests.int_fetch_add(client.create("count", 1, full=True), 0, 1)
            for key in ("a", "b"):
                client.once(key, add)
            client._ask(lambda now: time.sleep(0.2))
            client.forget("a")
            self.assertEqual(client.keys(), [b"b"])
            found = []
            client.submit(add).add_done_callback(lambda done: found.append(client.keys()))
        self.assertEqual(found, [[b"b"]])

    def test_whoever_asks_a_key_without_a_limit_gets_its_answer(self):
        """Several ask under a key. The first one's time runs out, and the others go on waiting."""
        self.server()
        with Client(self.path, session_file=self.file) as client, Client(self.path, 8) as other:
            word = client.create("word", 1)
            take = requests.readfe(word, 0)
            first = client.submit(take, key="job", timeout=0.05)
            others = [client.submit(take, key="job"), client.submit(take, key="job", timeout=0.2), client.submit(take, key="job")]
            self.assertIsInstance(first.exception(60), femem.TimedOut)
            self.assertIsInstance(others[1].exception(60), femem.TimedOut)
            client.withdraw(others[0])
            self.assertIsInstance(others[0].exception(60), femem.Withdrawn)
            other.writeef(word, 0, 7)
            self.assertEqual(others[2].result(60), 7)
            self.assertEqual(client.once("job", take), 7)
            self.assertEqual(other.readxx(word, 0), 7)

    def test_a_key_is_its_value(self):
        """Not what its class prints, which differs between versions of Python."""
        step = enum.IntEnum("Step", {"PAY": 1})
        name = enum.Enum("Name", {"PAY": "pay"}, type=str)

        class Odd(bytes):
            def __bytes__(self):
                return b"odd"

        class OddNumber(int):
            def __repr__(self):
                return "odd"

            __str__ = __repr__

        keys = [key_bytes(key) for key in (step.PAY, 1, "1", b"1", name.PAY, Odd(b"x"), -5, OddNumber(7))]
        self.assertEqual(keys, [b"1", b"1", b"1", b"1", b"pay", b"x", b"-5", b"7"])

    def test_two_that_ask_a_key_at_once_ask_it_once(self):
        self.server()
        with Client(self.path, session_file=self.file) as client:
            word = client.create("word", 1)
            take = requests.readfe(word, 0)
            futures = [client.submit(take, key="k") for _ in range(3)]
            client.writeef(word, 0, 4)
            self.assertEqual([future.result(30) for future in futures], [4, 4, 4])
            first = client.submit(take, key="l")
            with self.assertRaises(femem.TimedOut):
                client.once("l", take, timeout=0.05)
            client.writeef(word, 0, 5)
            self.assertEqual(first.result(30), 5)
            futures = [client.submit(take, key="m") for _ in range(3)]
            client.close()
            self.assertEqual([type(future.exception(30)) for future in futures], 3 * [femem.Closed])

    def test_what_was_unanswered_is_recovered(self):
        self.server()
        client = Client(self.path, session_file=self.file)
        word = client.create("word", 2)
        client.submit(requests.readfe(word, 0))
        client.submit(requests.readfe(word, 1), key="second")
        client.readxx(word, 0)
        self.abandon(client)
        with Client(self.path, session_file=self.file) as client:
            client.writeef(word, 0, 10)
            client.writeef(word, 1, 11)
            found = [(one.what, one.key, one.result(30)) for one in client.recovered]
            # Answered requests may be there too, if the file does not yet have the answer.
            self.assertEqual(found[:2], [("readfe 1 0", None, 10), ("readfe 1 1", b"second", 11)])
            self.assertEqual(client.once("second", requests.readfe(word, 1)), 11)

    def test_a_time_out_under_a_key_ends_what_was_recovered(self):
        """Whatever comes later stays in the word, and the key is free."""
        self.server()
        client = Client(self.path, session_file=self.file)
        word = client.create("word", 1)
        take = requests.readfe(word, 0)
        client.submit(take, key="job")
        client.readxx(word, 0)
        self.abandon(client)
        with Client(self.path, session_file=self.file) as client, Client(self.path, 8) as other:
            withdrawn = client.submit(take, key="job")
            with self.assertRaises(femem.TimedOut):
                client.once("job", take, timeout=0.05)
            self.assertEqual(client.keys(), [b"job"])  # another call waits for it
            client.withdraw(withdrawn)
            self.assertIsInstance(withdrawn.exception(60), femem.Withdrawn)
            self.assertIsInstance(client.recovered[0].future.exception(60), femem.Withdrawn)
            self.assertEqual((client.keys(), other.report().waiters), ([], []))
            other.writeef(word, 0, 7)
            self.assertEqual(other.readff(word, 0, nowait=True), 7)
            self.assertEqual(client.once("job", take), 7)

    def test_what_is_recovered_is_awaited_with_asyncio(self):
        self.server()
        client = Client(self.path, session_file=self.file)
        word = client.create("word", 1)
        client.submit(requests.readfe(word, 0), key="one")
        client.readxx(word, 0)
        self.abandon(client)

        async def main():
            async with AsyncClient(self.path, session_file=self.file) as client:
                one = client.recovered[0]
                with self.assertRaises(asyncio.InvalidStateError):
                    one.result()
                await client.writeef(word, 0, 5)
                self.assertEqual((await asyncio.wait_for(one.future, 30), one.result()), (5, 5))

        asyncio.run(main())

    def test_what_was_taken_back_is_not_asked_again(self):
        self.server()
        client = Client(self.path, session_file=self.file)
        word = client.create("word", 1)
        with self.assertRaises(femem.TimedOut):
            client.readfe(word, 0, timeout=0.05)
        self.abandon(client)
        with Client(self.path, session_file=self.file) as client:
            self.assertEqual(client.recovered, [])
            client.writeef(word, 0, 1)
            self.assertEqual(client.readff(word, 0), 1)

    def test_a_file_is_of_one_client(self):
        self.server()
        with Client(self.path, session_file=self.file) as client:
            with self.assertRaises(femem.SessionInUse):
                Client(self.path, session_file=self.file)
            with self.assertRaises(femem.SessionInUse):
                AsyncClient(self.path, session_file=self.file)
            session = client.session
        with self.assertRaises(ValueError):
            Client(self.path, session + 1, session_file=self.file)
        Client(self.path, session, session_file=self.file).close()

    def test_a_child_does_not_keep_the_file(self):
        self.server()
        client = Client(self.path, session_file=self.file)
        go, held = os.pipe()
        pid = os.fork()
        if pid == 0:
            os.close(held)
            os.read(go, 1)
            os._exit(0)
        os.close(go)
        client.close()
        Client(self.path, session_file=self.file).close()
        os.close(held)
        os.waitpid(pid, 0)

    def test_another_file_is_refused_and_not_touched(self):
        self.server()
        for content in (b"what a user wrote\n", b"femempy2" + bytes(40), b"FEMEMSF1" + bytes(40), b"FEMEMSF2", b"F"):
            with open(self.file, "wb") as file:
                file.write(content)
            with self.assertRaises(femem.SessionFileError):
                Client(self.path, session_file=self.file)
            with open(self.file, "rb") as file:
                self.assertEqual(file.read(), content)

    def test_damage_is_told_and_a_torn_end_is_not_damage(self):
        self.server()
        with Client(self.path, session_file=self.file) as client:
            word = client.create("word", 1, full=True)
            for _ in range(5):
                client.int_fetch_add(word, 0, 1)
        with open(self.file, "rb") as file:
            whole = file.read()
        for cut in range(len(whole) - 40, len(whole)):
            with open(self.file, "wb") as file:
                file.write(whole[:cut])
            SessionFile(self.file).abandon()
        first = blocks_of(whole)[1]
        with open(self.file, "wb") as file:
            file.write(whole[: first + 12] + b"\xff" + whole[first + 13 :])
        with self.assertRaises(femem.SessionFileError):
            SessionFile(self.file)

    def test_each_bit_that_is_flipped_before_the_last_entry_is_told(self):
        self.server()
        with Client(self.path, session_file=self.file) as client:
            word = client.create("word", 1, full=True)
            for _ in range(4):
                client.int_fetch_add(word, 0, 1)
        with open(self.file, "rb") as file:
            whole = file.read()
        last = blocks_of(whole)[-1]
        self.assertGreater(last, 200)
        for at, bit in itertools.product(range(last), (0x01, 0x10, 0x80)):
            damaged = whole[:at] + bytes([whole[at] ^ bit]) + whole[at + 1 :]
            with open(self.file, "wb") as file:
                file.write(damaged)
            with self.subTest(at=at, bit=bit), self.assertRaises(femem.SessionFileError):
                SessionFile(self.file).abandon()
            with open(self.file, "rb") as file:
                self.assertEqual(file.read(), damaged)

    def any_step(self, chance, file, out):
        """One random event of a session. `out` has the requests that have not ended."""
        drawn = chance.random()
        if drawn < 0.35 and file.state.next < file.state.asked_floor + 32:
            number, key = file.state.next, chance.choice([None, b"one", b"two", b"three"])
            taken = {file.state.unanswered[each].key for each in out} | set(file.keys())
            frame = requests.int_fetch_add(1, number, number).frame
            file.asked(number, Asked(frame, None if key in taken else key, drawn < 0.05))
            out.append(number)
        elif drawn < 0.6 and out:
            number = out.pop(chance.randrange(len(out)))
            if chance.random() < 0.7:
                file.answered(frames.Answer(number, 1, chance.randrange(100), 0))
            else:
                file.has_ended(number)
        elif drawn < 0.7 and file.state.asked_floor == file.state.floor < min(out, default=file.state.next):
            file.settling(min([*out, file.state.next, file.state.floor + 31]))
        elif drawn < 0.8:
            file.settled(file.state.asked_floor)
        elif drawn < 0.9 and file.keys():
            file.forget(chance.choice(sorted(file.keys())))
        elif file.must_sync:
            file.commit()

    @staticmethod
    def says(file):
        keyed = {key: file.kept(key) for key in file.keys()}
        numbers = (file.state.session, file.state.floor, file.state.asked_floor, file.state.next)
        return numbers, file.state.unanswered, keyed

    def test_what_is_read_is_what_was_kept(self):
        """Whatever happens to a session, and however often the file is rewritten, the next process reads it."""
        self.addCleanup(setattr, sessionfile, "_SHORT", sessionfile._SHORT)
        for seed in range(60):
            chance = random.Random(seed)
            sessionfile._SHORT = chance.choice([200, 65536])
            file = SessionFile(self.file)
            file.begin(33)
            out = []
            for _ in range(chance.randrange(1, 120)):
                self.any_step(chance, file, out)
            said = self.says(file)
            file.close()
            file = SessionFile(self.file)
            self.assertEqual(self.says(file), said, seed)
            file.remove()

    def test_what_is_no_plain_file_is_refused_and_not_touched(self):
        os.mkfifo(self.file)
        os.mkdir(self.path + ".folder")
        for path in (self.file, self.path + ".folder"):
            told = []
            opening = threading.Thread(target=lambda: told.append(self.error_of(path)), daemon=True)
            opening.start()
            opening.join(60)
            self.assertEqual(told, ["SessionFileError"])
        self.assertTrue(stat.S_ISFIFO(os.stat(self.file).st_mode))

    def test_a_file_with_two_names_is_refused(self):
        """The next compaction would make two files of it."""
        SessionFile(self.file).close()
        os.link(self.file, self.path + ".other")
        for path in (self.file, self.path + ".other"):
            self.assertEqual(self.error_of(path), "SessionFileError")
        os.unlink(self.file)
        SessionFile(self.path + ".other").abandon()

    def test_a_file_that_gets_another_name_is_one_file_as_long_as_it_has_it(self):
        """It is not rewritten: a copy would be of nobody, and the next client would have the same session."""
        self.server()
        other = self.path + ".other"
        with Client(self.path, session_file=self.file) as client:
            word = client.create("word", 1, full=True)
            os.link(self.file, other)
            for _ in range(3):
                client._core.file._limit = 0
                client.int_fetch_add(word, 0, 1)
            with self.assertRaises(femem.SessionInUse):
                Client(self.path, session_file=other)
            self.assertTrue(os.path.samefile(self.file, other))
            kept = os.stat(other)
            os.unlink(other)
            self.assertEqual(client.int_fetch_add(word, 0, 1), 3)
            self.assertFalse(os.path.samestat(os.stat(self.file), kept))
            session = client.session
        with Client(self.path, session_file=self.file) as client:
            self.assertEqual((client.session, client.readff(word, 0)), (session, 4))

    @staticmethod
    def error_of(path):
        try:
            SessionFile(path).abandon()
        except femem.SessionFileError:
            return "SessionFileError"

    def test_a_program_that_changes_its_folder_keeps_its_file(self):
        self.server()
        folders = [self.path + "1", self.path + "2"]
        for folder in folders:
            os.mkdir(folder)
        os.symlink("there", os.path.join(folders[0], "link"))
        self.addCleanup(os.chdir, os.getcwd())
        os.chdir(folders[0])
        with Client(self.path, session_file="link") as client:
            os.chdir(folders[1])
            client._core.file.compact()
            word = client.create("word", 1, full=True)
            self.assertEqual(client.once("key", requests.int_fetch_add(word, 0, 1)), 0)
        os.chdir(folders[0])
        self.assertEqual((sorted(os.listdir(".")), os.listdir(folders[1])), (["link", "there"], []))
        for name in ("link", "there"):
            with Client(self.path, session_file=name) as client:
                self.assertEqual(client.once("key", requests.int_fetch_add(word, 0, 1)), 0)

    def test_a_client_that_is_not_made_leaves_the_file_free(self):
        """The constructor is interrupted at bytecodes all over it, by an exception from a signal handler."""
        server = self.server()
        broken = 0
        for at in itertools.count(1, 23):
            made = []
            if not interrupted(lambda: made.append(Client(self.path, session_file=self.file)), at):
                made[0].close()
                break
            broken += 1
            with self.subTest(bytecode=at), self.next_one() as client:
                self.assertEqual(list(server.model.stored.sessions), [client.session])
        self.assertGreater(broken, 20)

    def next_one(self):
        """The file's next client. One that was made, and dropped at the very end of its constructor, is closed by its thread."""
        for _ in range(1000):
            try:
                return Client(self.path, session_file=self.file)
            except femem.SessionInUse:
                time.sleep(0.01)
        raise AssertionError("the file is not free")

    def test_what_a_full_disk_kept_out_is_not_written_later(self):
        """A client whose request the disk refuses ends; the next process does not make that request."""
        server = self.server()
        with Client(self.path, session_file=self.file) as client:
            word = client.create("word", 1, full=True)
            file, write = client._core.file, SessionFile._write

            def full(*words):
                file._write = write
                raise OSError(28, "no space is left")

            file._write = full
            with self.assertRaises(femem.SessionFileError):
                client.int_fetch_add(word, 0, 1)
        with Client(self.path, session_file=self.file) as client:
            self.assertNotIn(f"int_fetch_add {word.id} 0", [each.what for each in client.recovered])
            self.assertEqual(client.readff(word, 0), 0)
        self.assertEqual(server.model.stored.arrays[word.id][1][0][0], 0)

    def test_nothing_is_written_behind_half_a_block(self):
        """The disk is full in the middle of a write. Then there is room again, and what is noted later stays out."""
        self.server()

        def break_off(client):
            file, write = client._core.file, SessionFile._write

            def half(number, content):
                file._write = write
                os.write(number, content[: len(content) // 2])
                raise OSError(28, "no space is left")

            file._write = half

        with Client(self.path, session_file=self.file) as client:
            word = client.create("word", 1, full=True)
            client.once("kept", requests.int_fetch_add(word, 0, 1))
            break_off(client)
            with self.assertRaises(femem.SessionFileError):
                client.int_fetch_add(word, 0, 1)
            client.forget("kept")
        with Client(self.path, session_file=self.file) as client:
            self.assertEqual(client.once("kept", requests.int_fetch_add(word, 0, 1)), 0)

        async def main():
            async with AsyncClient(self.path, session_file=self.file) as client:
                break_off(client)
                with self.assertRaises(femem.SessionFileError):
                    await client.int_fetch_add(word, 0, 1)
                client.forget("kept")
            async with AsyncClient(self.path, session_file=self.file) as client:
                self.assertEqual(await client.once("kept", requests.int_fetch_add(word, 0, 1)), 0)

        asyncio.run(main())

    def test_a_file_that_cannot_be_written_stops_the_client_before_it_sends(self):
        server = self.server()
        with Client(self.path, session_file=self.file) as client:
            word = client.create("word", 1, full=True)
            os.close(client._core.file._file)
            client._core.file._file = os.open(self.file, os.O_RDONLY)
            with self.assertRaises(femem.SessionFileError):
                client.int_fetch_add(word, 0, 1)
            self.assertEqual(server.model.stored.arrays[word.id][1][0][0], 0)

    def test_one_sync_for_a_batch(self):
        self.server()
        syncs = []
        commit = SessionFile.commit
        self.addCleanup(setattr, SessionFile, "commit", commit)
        SessionFile.commit = lambda file: (syncs.append(1), commit(file))
        with Client(self.path, session_file=self.file) as client:
            word = client.create("word", 1, full=True)
            syncs.clear()
            client.submit_many([requests.int_fetch_add(word, 0, 1)] * 16)
            self.assertLessEqual(len(syncs), 3)
            syncs.clear()
            for _ in range(8):
                client.int_fetch_add(word, 0, 1)
            self.assertGreaterEqual(len(syncs), 8)

    def test_the_file_stays_short(self):
        self.server()
        with Client(self.path, session_file=self.file) as client:
            word = client.create("word", 1, full=True)
            for _ in range(150):
                client.submit_many([requests.int_fetch_add(word, 0, 1)] * 30)
            self.assertEqual(client.readff(word, 0), 4500)
            self.assertLess(os.path.getsize(self.file), 80_000)

    def test_a_session_that_is_taken_from_the_file_is_told(self):
        self.server()
        with Client(self.path, session_file=self.file) as client:
            word = client.create("word", 1, full=True)
            session = client.session
        Client(self.path, session).close()
        with self.assertRaises(femem.TakenOver):
            Client(self.path, session_file=self.file)
        self.assertEqual(word.length, 1)

    def test_a_file_whose_session_is_lost_is_removed_to_begin_anew(self):
        """A server with another store does not have the session; the file raises this error until it is removed."""
        server = self.server()
        Client(self.path, session_file=self.file).close()
        server.kill()
        server.model = Model(0)
        server.start()
        for _ in range(2):
            with self.assertRaises(femem.SessionLost):
                Client(self.path, session_file=self.file)
        os.unlink(self.file)
        with Client(self.path, session_file=self.file) as client:
            self.assertEqual(client.recovered, [])
            client.create("word", 1)

    def test_bye_ends_the_file_too(self):
        server = self.server()
        client = Client(self.path, session_file=self.file)
        client.create("word", 1)
        client.bye()
        self.assertFalse(os.path.exists(self.file))
        self.assertEqual(server.model.stored.sessions, {})

    def test_a_bye_that_is_broken_off_is_said_again(self):
        server = self.server()
        client = Client(self.path, session_file=self.file)
        client.create("word", 1)
        first = client.session
        self.begin_to_leave(client)
        self.abandon(client)
        with Client(self.path, session_file=self.file) as client:
            self.assertNotEqual(client.session, first)
            self.assertEqual(list(server.model.stored.sessions), [client.session])

    def test_a_bye_that_is_broken_off_stays_one_where_the_file_is_written_anew(self):
        file = SessionFile(self.file)
        file._limit = 0
        file.ending()
        file.commit()
        file.abandon()
        file = SessionFile(self.file)
        self.assertTrue(file.state.is_ending)
        file.remove()

    def test_a_bye_that_is_broken_off_is_said_again_in_asyncio(self):
        server = self.server()
        former = Client(self.path, session_file=self.file)
        word = former.create("word", 1)
        former.submit(requests.readfe(word, 0))
        former.readxx(word, 0)  # then its thread has nothing more to do
        self.begin_to_leave(former)
        self.abandon(former)

        async def main():
            client = AsyncClient(self.path, session_file=self.file)
            lock = aio.Lock(client, "lock")
            async with client:
                self.assertNotEqual(client.session, former.session)
                self.assertEqual(list(server.model.stored.sessions), [client.session])
                self.assertEqual(client.recovered, [])
                async with lock:
                    self.assertEqual(await lock.owner(), client.session)
                self.assertEqual(await client.once("key", requests.readxx(word, 0)), 0)

        asyncio.run(main())
        server.kill()

        async def alone():
            async with AsyncClient(self.path, session_file=self.file, reconnect_timeout=0.2):
                pass

        file = SessionFile(self.file)
        file.ending()
        file.commit()
        file.close()
        # Without a server, the file is free again.
        for _ in range(2):
            with self.assertRaises(femem.ServerUnreachable):
                asyncio.run(alone())


if __name__ == "__main__":
    import unittest

    unittest.main()
