"""What a killed process leaves in the words of a pattern, after each of its steps, and what its session's next one does.

A word with the session 77 is what a process of that session left: here another client writes it.
"""

import asyncio
import threading
import time
from unittest import mock

import paths  # noqa: F401
from serving import WithFolder

import femem
from femem import Client
from femem.aio import AsyncClient, ReadWriteLock as AsyncReadWriteLock
from femem.patterns import Election, Lock, Once, ReadWriteLock, Semaphore
from femem._semaphore import SLOTS

BOUND = 60
SEATS = ReadWriteLock.SEATS


class Leftovers(WithFolder):
    def setUp(self):
        super().setUp()
        self.model = self.server()
        self.one = Client(self.path, 1)
        self.addCleanup(self.one.close)

    def client(self, session):
        client = Client(self.path, session)
        self.addCleanup(client.close)
        return client

    def begin(self, act, *args, **how):
        """Runs it in a thread. What it returns comes into the list."""
        got = []
        thread = threading.Thread(target=lambda: got.append(act(*args, **how)))
        thread.start()
        self.addCleanup(thread.join, BOUND)
        return got

    def wait_for(self, holds):
        end = time.monotonic() + BOUND
        while not holds():
            self.assertLess(time.monotonic(), end)
            time.sleep(0.002)

    def waits(self, session, operation):
        return any((w.session, w.operation) == (session, operation) and w.array != self.presence() for w in self.one.report().waiters)

    def presence(self):
        return self.one.find("presence").id

    def sessions_in(self, name, words):
        """What these words have, of those that are full."""
        looks = [femem.requests.readff(self.one.find(name), word, nowait=True) for word in words]
        return [value for value in self.one.submit_many(looks) if not isinstance(value, BaseException)]

    # Locks.

    def test_a_lock_that_was_left_is_adopted_once(self):
        for kind, acquire, release in ((Lock, "acquire", "release"), (Election, "campaign", "resign")):
            other = kind(self.one, kind.__name__.lower())
            getattr(other, acquire)()
            getattr(other, release)()
            self.one.writeef(self.one.find(kind.__name__.lower()), kind.OWNER, 77)
            client = self.client(77)
            mine, again = kind(client, kind.__name__.lower()), kind(client, kind.__name__.lower())
            self.assertTrue(getattr(mine, acquire)(timeout=BOUND))
            self.assertTrue(mine.adopted)
            self.assertFalse(getattr(again, acquire)(timeout=0.05))  # it is held now, by this process
            getattr(mine, release)()
            self.assertTrue(getattr(again, acquire)(timeout=BOUND))
            self.assertFalse(again.adopted)
            getattr(again, release)()
            self.assertEqual(self.sessions_in(kind.__name__.lower(), [kind.OWNER]), [])
            client.bye()

    def test_a_lock_that_was_left_is_released_without_an_acquisition(self):
        Lock(self.one, "lock")
        self.one.writeef(self.one.find("lock"), Lock.OWNER, 77)
        mine = Lock(self.client(77), "lock")
        mine.release()
        self.assertEqual(mine.owner(), None)
        with self.assertRaises(femem.NotOwner):
            mine.release()

    def test_a_lock_that_was_left_and_broken_is_not_adopted(self):
        other = Lock(self.one, "lock")
        self.one.writeef(self.one.find("lock"), Lock.OWNER, 77)
        mine, wait = Lock(self.client(77), "lock"), Lock(self.client(2), "lock")
        self.assertTrue(mine.acquire(timeout=BOUND))
        other.break_()
        self.assertTrue(wait.acquire(timeout=BOUND))
        self.assertFalse(mine.acquire(timeout=0.05))
        with self.assertRaises(femem.NotOwner):
            mine.release()
        wait.release()
        self.assertTrue(mine.acquire(timeout=BOUND))
        self.assertFalse(mine.adopted)

    def test_a_lock_under_a_key_is_left_to_the_call_under_that_key(self):
        how = {"session_file": self.path + ".session"}
        with Client(self.path, **how) as client:
            self.assertTrue(Lock(client, "lock").acquire(key="one"))
            self.assertTrue(Semaphore(client, "permits", 2).acquire(key="two"))
        with Client(self.path, **how) as client:
            lock, permits = Lock(client, "lock"), Semaphore(client, "permits", 2)
            self.assertFalse(lock.try_acquire())
            self.assertTrue(permits.acquire(timeout=BOUND))
            self.assertFalse(permits.adopted)
            self.assertEqual(permits.holders(), [client.session] * 2)
            self.assertTrue(lock.acquire(key="one"))
            self.assertTrue(permits.acquire(key="two"))
            self.assertEqual((lock.adopted, permits.adopted), (True, True))
            lock.release()
            permits.release()
            permits.release()
            self.assertEqual((lock.owner(), permits.holders()), (None, []))

    # Readers and writers.

    # What a reader leaves: after its seat, the word OWNER, its bit, OWNER again; as it leaves, after its bit.
    READER = {"seat": (True, False, False), "turn": (True, True, False), "bit": (True, True, True), "inside": (True, False, True)}

    def leave_reader(self, name, seats, seat, state):
        ReadWriteLock(self.one, name, seats)
        words, (sits, owns, reads) = self.one.find(name), self.READER[state]
        if sits:
            self.one.writeef(words, SEATS + seat, 77)
        if owns:
            self.one.writeef(words, ReadWriteLock.OWNER, 77)
        if reads:
            self.one.int_fetch_add(words, ReadWriteLock.READERS, 1 << seat)

    def nothing_is_held(self, name, seats):
        held = self.sessions_in(name, [ReadWriteLock.OWNER, *range(SEATS, SEATS + seats)])
        self.assertEqual((held, self.one.readff(self.one.find(name), ReadWriteLock.READERS)), ([], 0))

    def test_a_reader_that_was_killed_at_any_step_comes_back_beside_a_writer(self):
        for takeover in (None, 20.0):
            for state in self.READER:
                for act in ("read", "write"):
                    with self.subTest(takeover=takeover, state=state, act=act):
                        name = f"{state}_{act}_{takeover is None:d}"
                        self.leave_reader(name, 4, 1, state)
                        writer = ReadWriteLock(self.client(2), name, 4)
                        wrote = self.begin(writer.acquire_write, BOUND, takeover_after=takeover)
                        if state != "seat":
                            self.wait_for(lambda: self.waits(2, "writeef") or self.waits(2, "readfe"))
                        back = self.client(77)
                        mine = ReadWriteLock(back, name, 4)
                        came = self.begin(getattr(mine, f"acquire_{act}"), BOUND, takeover_after=takeover)
                        self.wait_for(lambda: wrote or came)
                        if wrote:
                            self.assertEqual(came, [])
                            writer.release_write()
                        self.wait_for(lambda: came == [True])
                        getattr(mine, f"release_{act}")()
                        self.wait_for(lambda: wrote == [True])
                        if writer.owners()[0] == 2:
                            writer.release_write()
                        self.nothing_is_held(name, 4)
                        back.bye()
                        writer._client.bye()

    def test_a_reader_that_was_killed_comes_back_where_all_seats_are_taken(self):
        self.leave_reader("book", 1, 0, "inside")
        other = ReadWriteLock(self.client(2), "book", 1)
        got = self.begin(other.acquire_read, BOUND)
        self.wait_for(lambda: self.waits(2, "writeef"))
        mine = ReadWriteLock(self.client(77), "book", 1)
        came = self.begin(mine.acquire_read, BOUND)
        self.wait_for(lambda: got)
        self.assertEqual(got, [True])
        other.release_read()
        self.wait_for(lambda: came == [True])
        mine.release_read()
        self.nothing_is_held("book", 1)

    def test_seats_that_were_left_are_given_back_though_others_are_free(self):
        self.leave_reader("book", 4, 2, "inside")
        self.one.writeef(self.one.find("book"), SEATS + 3, 77)
        self.one.int_fetch_add(self.one.find("book"), ReadWriteLock.READERS, 8)
        mine, other = ReadWriteLock(self.client(77), "book", 4), ReadWriteLock(self.one, "book", 4)
        self.assertTrue(mine.acquire_read(timeout=BOUND))
        self.assertEqual(other.owners(), (None, [77]))
        mine.release_read()
        self.nothing_is_held("book", 4)
        self.assertTrue(other.acquire_write(timeout=BOUND))

    def test_a_reader_that_was_killed_with_a_turn_comes_back_where_all_seats_are_taken(self):
        ReadWriteLock(self.one, "book", 1)
        self.one.writeef(self.one.find("book"), ReadWriteLock.OWNER, 77)
        other = ReadWriteLock(self.client(2), "book", 1)
        got = self.begin(other.acquire_read, BOUND)
        self.wait_for(lambda: self.waits(2, "writeef"))
        mine = ReadWriteLock(self.client(77), "book", 1)
        came = self.begin(mine.acquire_read, BOUND)
        self.wait_for(lambda: got == [True])
        other.release_read()
        self.wait_for(lambda: came == [True])
        mine.release_read()
        self.nothing_is_held("book", 1)

    def test_a_writer_that_was_killed_comes_back(self):
        for act in ("read", "write"):
            ReadWriteLock(self.one, act, 4)
            self.one.writeef(self.one.find(act), ReadWriteLock.OWNER, 77)
            back = self.client(77)
            mine = ReadWriteLock(back, act, 4)
            self.assertTrue(getattr(mine, f"acquire_{act}")(timeout=BOUND))
            self.assertEqual(mine.adopted, act == "write")
            getattr(mine, f"release_{act}")()
            self.nothing_is_held(act, 4)
            back.bye()

    def test_who_reads_may_read_again_beside_a_writer(self):
        client, writer = self.client(2), ReadWriteLock(self.one, "book", 4)
        mine, again = ReadWriteLock(client, "book", 4), ReadWriteLock(client, "book", 4)
        self.assertTrue(mine.acquire_read(timeout=BOUND))
        wrote = self.begin(writer.acquire_write, BOUND)
        self.wait_for(lambda: self.waits(1, "readfe"))
        self.assertTrue(mine.acquire_read(timeout=BOUND))
        self.assertTrue(again.acquire_read(timeout=BOUND))
        thread = self.begin(again.acquire_read, 0.05)  # another thread waits for its turn
        self.wait_for(lambda: thread == [False])
        for lock in (mine, again, mine):
            self.assertEqual(wrote, [])
            lock.release_read()
        self.wait_for(lambda: wrote == [True])
        writer.release_write()
        self.nothing_is_held("book", 4)
        with self.assertRaises(femem.NotOwner):
            mine.release_read()

    def test_a_task_that_reads_may_read_again_beside_a_writer(self):
        ReadWriteLock(self.one, "book", 4)

        async def run():
            async with AsyncClient(self.path, 3) as client, AsyncClient(self.path, 4) as other:
                mine, writer = AsyncReadWriteLock(client, "book", 4), AsyncReadWriteLock(other, "book", 4)
                self.assertTrue(await mine.acquire_read())
                wrote = asyncio.ensure_future(writer.acquire_write())
                while not any(w.session == 4 and w.operation == "readfe" for w in (await client.report()).waiters):
                    await asyncio.sleep(0.005)
                self.assertTrue(await asyncio.wait_for(mine.acquire_read(), BOUND))
                self.assertFalse(await asyncio.ensure_future(self.read_for_a_moment(mine)))
                await mine.release_read()
                await mine.release_read()
                self.assertTrue(await asyncio.wait_for(wrote, BOUND))
                await writer.release_write()

        asyncio.run(run())
        self.nothing_is_held("book", 4)

    @staticmethod
    async def read_for_a_moment(lock):
        return await lock.acquire_read(timeout=0.05)

    @mock.patch("femem._locks.LAST_LOOK", BOUND)
    def test_a_read_and_a_write_lock_take_at_most_twelve_requests_for_any_number_of_readers(self):
        take = self.model.model.take
        for count in (0, 1, 20):
            for act in ("read", "write"):
                mine, locks = ReadWriteLock(self.one, f"{act}_{count}"), []
                self.assertTrue(mine.acquire_write(timeout=BOUND))  # its first use is over
                mine.release_write()
                clients = [self.client(100 + k) for k in range(count)]
                for client in clients:
                    locks.append(ReadWriteLock(client, f"{act}_{count}"))
                    self.assertTrue(locks[-1].acquire_read(timeout=BOUND))
                array, asked = self.one.find(f"{act}_{count}").id, []

                def spy(conn, message, array=array, asked=asked):
                    if message[0] == "call" and message[2][:1] == ("access",) and message[2][2] == array:
                        asked.append((self.model.model.session_of.get(conn), message))
                    take(conn, message)

                self.model.model.take = spy
                got = self.begin(getattr(mine, f"acquire_{act}"), BOUND)
                if act == "write" and count:
                    self.wait_for(lambda: self.waits(1, "readfe"))
                    time.sleep(0.3)  # it asks nothing meanwhile
                if act == "write":
                    for lock in locks:
                        lock.release_read()
                self.wait_for(lambda: got == [True])
                getattr(mine, f"release_{act}")()
                self.model.model.take = take
                own = [message for session, message in asked if session == 1]
                self.assertLessEqual(len(own), 12, own)
                self.assertGreaterEqual(len(own), 5)
                self.assertLessEqual(len(asked) - len(own), 4 * count)
                for client in clients:
                    client.bye()

    def test_threads_of_one_client_share_a_seat(self):
        client = self.client(2)
        locks = [ReadWriteLock(client, "book", 1) for _ in range(3)]
        for lock in locks:
            got = self.begin(lock.acquire_read, BOUND)
            self.wait_for(lambda: got == [True])
        self.assertEqual(locks[0].owners(), (None, [2]))
        for lock in locks:
            self.assertEqual(self.sessions_in("book", [SEATS]), [2])
            lock.release_read()
        self.nothing_is_held("book", 1)

    def test_each_reader_of_a_broken_lock_is_told(self):
        client = self.client(2)
        locks = [ReadWriteLock(client, "book", 2) for _ in range(2)]
        for lock in locks:
            self.assertTrue(lock.acquire_read(timeout=BOUND))
        ReadWriteLock(self.one, "book", 2).break_()
        for lock in locks:
            with self.assertRaises(femem.NotOwner):
                lock.release_read()

    def test_a_reader_whose_last_one_was_killed_before_it_told_the_writer_does_not_stop_it(self):
        self.leave_reader("book", 4, 1, "inside")
        writer = ReadWriteLock(self.client(2), "book", 4)
        wrote = self.begin(writer.acquire_write, BOUND)
        self.wait_for(lambda: self.waits(2, "readfe"))
        self.one.int_fetch_add(self.one.find("book"), ReadWriteLock.READERS, 2**64 - 2)
        self.wait_for(lambda: wrote == [True])

    def test_the_last_reader_tells_a_writer(self):
        with mock.patch("femem._locks.LAST_LOOK", 10.0 * BOUND):
            readers = [ReadWriteLock(self.client(2 + k), "book", 4) for k in range(2)]
            for reader in readers:
                self.assertTrue(reader.acquire_read(timeout=BOUND))
            wrote = self.begin(ReadWriteLock(self.one, "book", 4).acquire_write)
            self.wait_for(lambda: self.waits(1, "readfe"))
            for reader in readers:
                self.assertEqual(wrote, [])
                reader.release_read()
            self.wait_for(lambda: wrote == [True])

    def test_a_reader_out_of_time_leaves_no_seat(self):
        writer, mine = ReadWriteLock(self.one, "book", 4), ReadWriteLock(self.client(2), "book", 4)
        self.assertTrue(writer.acquire_write(timeout=BOUND))
        self.assertFalse(mine.acquire_read(timeout=0.05))
        writer.release_write()
        self.nothing_is_held("book", 4)

    # Permits.

    def leave_permits(self, name, permits, left):
        Semaphore(self.one, name, permits)
        words = self.one.find(name)
        for permit in left:
            self.one.writeef(words, SLOTS + permits + permit, 77)

    def test_permits_that_were_left_are_adopted_or_given_back_though_others_are_free(self):
        for left in ([0], [2], [0, 2], [1, 2, 3]):
            with self.subTest(left=left):
                name = "permits_" + "".join(map(str, left))
                self.leave_permits(name, 4, left)
                client = self.client(77)
                mine = Semaphore(client, name, 4)
                self.assertTrue(mine.acquire(timeout=BOUND))
                self.assertTrue(mine.adopted)
                self.assertEqual(mine.holders(), [77])
                mine.release()
                self.assertEqual(mine.holders(), [])
                others = [Semaphore(self.client(10 + k), name, 4) for k in range(4)]
                self.assertEqual([each.acquire(timeout=BOUND) for each in others], [True] * 4)
                for each in others:
                    each._client.bye()
                client.bye()

    def test_a_permit_that_was_left_may_be_given_back_by_anybody(self):
        self.leave_permits("permits", 2, [0, 1])
        mine = Semaphore(self.client(77), "permits", 2)
        mine.release()
        Semaphore(self.one, "permits", 2).release(holder=77)
        self.assertEqual(mine.holders(), [])
        self.assertTrue(mine.acquire(timeout=BOUND))
        self.assertFalse(mine.adopted)

    # What is done once.

    def test_once_whose_work_raises_is_done_by_another_one(self):
        def fails():
            raise KeyError("work")

        mine, yours = Once(self.one, "once"), Once(self.client(2), "once")
        with self.assertRaises(KeyError):
            mine.run(fails)
        self.assertEqual(self.sessions_in("once", [Once.DOER]), [])
        with self.assertRaises(ValueError):
            mine.run(lambda: 2**64)
        self.assertEqual(yours.run(lambda: 5, timeout=BOUND), 5)
        self.assertEqual(mine.run(fails, timeout=BOUND), 5)

    def test_once_that_is_interrupted_as_its_work_ends_is_done_by_another_one(self):
        mine, yours = Once(self.one, "once"), Once(self.client(2), "once")
        with mock.patch.object(mine, "_finish", side_effect=KeyboardInterrupt), self.assertRaises(KeyboardInterrupt):
            mine.run(lambda: 5)
        self.assertEqual(yours.run(lambda: 6, timeout=BOUND), 6)

    def test_one_that_waits_does_it_when_the_first_one_raises(self):
        begun, ends = threading.Event(), threading.Event()

        def fails():
            begun.set()
            ends.wait(BOUND)
            raise KeyError("work")

        def run():
            with self.assertRaises(KeyError):
                Once(self.one, "once").run(fails)

        thread = threading.Thread(target=run)
        thread.start()
        begun.wait(BOUND)
        client = self.client(2)
        got = self.begin(Once(client, "once").run, lambda: 6, BOUND)
        self.wait_for(lambda: any(w.session == 2 and w.operation == "writeef" for w in client.report().waiters))
        ends.set()
        thread.join(BOUND)
        self.wait_for(lambda: got == [6])

    def test_a_doer_that_was_killed_does_it_again(self):
        array = self.one.create("once", Once.LENGTH)
        self.one.writeef(array, Once.DOER, 77)
        other = self.begin(Once(self.client(2), "once").run, lambda: 1, BOUND)
        self.assertEqual(Once(self.client(77), "once").run(lambda: 7, timeout=BOUND), 7)
        self.wait_for(lambda: other == [7])

    def test_a_doer_that_was_killed_after_its_result_gets_it(self):
        array = self.one.create("once", Once.LENGTH)
        self.one.writeef(array, Once.DOER, 77)
        self.one.writexf(array, Once.RESULT, 3)
        self.assertEqual(Once(self.client(77), "once").run(lambda: 7, timeout=BOUND), 3)

    def test_a_result_that_another_one_has_set_leaves_no_doer(self):
        mine = Once(self.one, "once")
        self.one.writexf(self.one.create("once", Once.LENGTH), Once.RESULT, 3)
        self.assertEqual(mine.run(lambda: 7, timeout=BOUND), 3)
        self.assertEqual(self.sessions_in("once", [Once.DOER]), [])

    def test_a_result_that_is_set_while_the_work_goes_on_stays(self):
        yours = Once(self.client(2), "once")
        self.assertEqual(Once(self.one, "once").run(lambda: yours.done(3) + 4, timeout=BOUND), 3)
        self.assertEqual((yours.done(5), yours.run(lambda: 6, timeout=BOUND)), (3, 3))

    def test_a_task_whose_work_raises_or_is_cancelled_lets_another_one_do_it(self):
        from femem.aio import Once as AsyncOnce

        async def fails():
            raise KeyError("work")

        async def waits():
            await asyncio.sleep(BOUND)
            return 1

        async def works():
            return 9

        async def run():
            async with AsyncClient(self.path, 3) as client:
                once = AsyncOnce(client, "once")
                with self.assertRaises(KeyError):
                    await once.run(fails)
                task = asyncio.ensure_future(once.run(waits))
                while not self.sessions_in("once", [Once.DOER]):
                    await asyncio.sleep(0.005)
                task.cancel()
                with self.assertRaises(asyncio.CancelledError):
                    await task
                self.assertEqual(await once.run(works, timeout=BOUND), 9)

        Once(self.one, "made")
        asyncio.run(run())
