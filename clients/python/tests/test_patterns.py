"""Locks and the like, with threads that each have a client, and the model at a socket, which is killed in between."""

import os
import signal
import threading
import time

import paths  # noqa: F401
from serving import WithClients

import femem
from femem import Client
from femem.aio import AsyncClient
from femem import requests
from femem._jobs import Pause
from femem.patterns import Barrier, BoundedQueue, Channel, Counter, Election, Future, Lock, Once, ReadWriteLock, Semaphore
from femem.patterns import WorkQueue


class Patterns(WithClients):
    def test_lock(self):
        inside = []

        def work(client, k):
            lock = Lock(client, "lock")
            for _ in range(8):
                with lock:
                    inside.append(k)
                    self.assertEqual(inside, [k])
                    inside.remove(k)

        self.run_all(work)

    def test_lock_in_time(self):
        self.server()
        with Client(self.path, 1) as one, Client(self.path, 2) as two:
            mine, yours = Lock(one, "lock"), Lock(two, "lock")
            self.assertTrue(mine.try_acquire())
            self.assertFalse(yours.try_acquire())
            self.assertFalse(yours.acquire(timeout=0.05))
            yours.break_()
            self.assertTrue(yours.acquire(timeout=60))

    def test_barrier(self):
        arrived = []

        def work(client, k):
            barrier = Barrier(client, "barrier", self.CLIENTS)
            numbers = []
            for round in range(6):
                arrived.append(round)
                numbers.append(barrier.wait())
                self.assertGreaterEqual(arrived.count(round), self.CLIENTS)
            return numbers

        rounds = zip(*self.run_all(work))
        for numbers in rounds:
            self.assertEqual(sorted(numbers), list(range(self.CLIENTS)))

    def test_counter(self):
        def work(client, k):
            counter = Counter(client, "counter")
            return [counter.add() for _ in range(30)]

        got = self.run_all(work)
        self.assertEqual(sorted(value for values in got for value in values), list(range(150)))

    def test_counter_below_zero(self):
        self.server()
        with Client(self.path, 1) as client:
            counter = Counter(client, "counter")
            counter.add(5)
            self.assertEqual(counter.add(-2), 5)
            self.assertEqual(counter.value(), 3)

    def test_future(self):
        def work(client, k):
            future = Future(client, "future")
            time.sleep(0.05 * k)
            was_first = future.set(10 + k)
            self.assertTrue(future.is_set())
            return was_first, future.get(timeout=60)

        got = self.run_all(work)
        self.assertEqual(sum(was_first for was_first, _ in got), 1)
        self.assertEqual({value for _, value in got}, {10 + [first for first, _ in got].index(True)})

    def test_future_in_time(self):
        self.server()
        with Client(self.path, 1) as client:
            future = Future(client, "future")
            self.assertFalse(future.is_set())
            with self.assertRaises(femem.TimedOut):
                future.get(timeout=0.05)

    def test_once(self):
        runs = []

        def work(client, k):
            def compute():
                runs.append(k)
                time.sleep(0.1)
                return 77

            return Once(client, "once").run(compute)

        self.assertEqual(self.run_all(work), [77] * self.CLIENTS)
        self.assertEqual(len(runs), 1)

    def test_names_are_of_one_size(self):
        self.server()
        with Client(self.path, 1) as client:
            BoundedQueue(client, "q", 2)
            with self.assertRaises(ValueError):
                BoundedQueue(client, "q", 3)

    def test_a_barrier_leaves_the_page_of_a_work_queue_alone(self):
        self.server()
        with Client(self.path, 1) as client:
            WorkQueue(client, "same", 4).put(5)
            with self.assertRaises(femem.OtherPattern):
                Barrier(client, "same", 2)
            self.assertEqual(WorkQueue(client, "same", 4).take(timeout=1).value, 5)

    def test_whose_a_lock_is(self):
        self.server()
        with Client(self.path, 1) as one, Client(self.path, 2) as two:
            mine, yours = Lock(one, "lock"), Lock(two, "lock")
            self.assertEqual((mine.owner(), mine.locked()), (None, False))
            for lock in (mine, yours):
                with self.assertRaises(femem.NotOwner):
                    lock.release()
            mine.acquire()
            self.assertEqual((yours.owner(), yours.locked()), (1, True))
            with self.assertRaises(femem.NotOwner):
                yours.release()
            self.assertFalse(yours.try_acquire())
            mine.release()
            yours.acquire()
            self.assertGreater(yours.generation, mine.generation)
            with self.assertRaises(femem.NotOwner):
                mine.release()
            self.assertEqual(mine.owner(), 2)

    def test_a_lock_that_is_taken_over(self):
        self.server()
        with Client(self.path, 2) as two:
            lock = Lock(two, "lock")
            one = Client(self.path, 1)
            first = Lock(one, "lock")
            first.acquire()
            # While its owner is there it is not taken over.
            self.assertFalse(lock.acquire(timeout=1.0, takeover_after=0.2))
            one.close()
            self.assertTrue(lock.acquire(timeout=60, takeover_after=0.2))
            self.assertEqual((lock.broke, lock.owner()), (1, 2))
            with Client(self.path, 1) as back:
                again = Lock(back, "lock")
                with self.assertRaises(femem.NotOwner):
                    again.release()
                self.assertFalse(again.try_acquire())
            self.assertGreater(lock.generation, first.generation)
            lock.release()

    def test_the_former_owner_of_a_lock_is_told(self):
        self.server()
        with Client(self.path, 1) as one, Client(self.path, 2) as two:
            mine, yours = Lock(one, "lock"), Lock(two, "lock")
            mine.acquire()
            yours.break_()
            self.assertTrue(yours.acquire(timeout=60))
            with self.assertRaises(femem.NotOwner):
                mine.release()
            self.assertEqual(yours.owner(), 2)
            yours.release()
            self.assertTrue(mine.acquire(timeout=60))

    def test_an_owner_that_is_started_again_releases_its_lock(self):
        self.server()
        file = self.path + ".session"
        with Client(self.path, session_file=file) as client:
            Lock(client, "lock").acquire()
        with Client(self.path, session_file=file) as client, Client(self.path, 2) as other:
            lock = Lock(client, "lock")
            self.assertEqual(lock.owner(), client.session)
            self.assertFalse(Lock(other, "lock").try_acquire())
            lock.release()
            self.assertTrue(Lock(other, "lock").acquire(timeout=60))

    def test_a_lock_that_was_waited_for_by_a_process_that_ended_is_not_got_by_the_next(self):
        self.server()
        file = self.path + ".session"
        with Client(self.path, 2) as other:
            lock = Lock(other, "lock")
            lock.acquire()
            pid = os.fork()
            if pid == 0:
                with Client(self.path, session_file=file) as client:
                    Lock(client, "lock").acquire()
                os._exit(0)
            deadline = time.monotonic() + 60
            while not any(w.operation == "writeef" for w in other.report().waiters) and time.monotonic() < deadline:
                time.sleep(0.01)
            os.kill(pid, signal.SIGKILL)
            os.waitpid(pid, 0)
            with Client(self.path, session_file=file) as client:
                self.assertEqual(client.recovered, [])
                lock.release()
                client.readxx(other.find("lock"), 0)
                self.assertIsNone(lock.owner())

    def test_a_barrier_whose_wait_timed_out_is_broken_until_it_is_reset(self):
        self.server()
        with Client(self.path, 1) as one, Client(self.path, 2) as two, Client(self.path, 3) as three:
            mine, yours, theirs = (Barrier(client, "barrier", 3) for client in (one, two, three))
            told = []

            def wait():
                try:
                    told.append(yours.wait(timeout=60))
                except femem.BrokenBarrier as error:
                    told.append(type(error))

            thread = threading.Thread(target=wait)
            thread.start()
            with self.assertRaises(femem.TimedOut):
                mine.wait(timeout=0.3)
            thread.join(60)
            self.assertEqual(told, [femem.BrokenBarrier])
            with self.assertRaises(femem.BrokenBarrier):
                theirs.wait(timeout=60)
            theirs.reset()
            threads = [threading.Thread(target=lambda each=each: told.append(each.wait(60))) for each in (mine, yours, theirs)]
            for thread in threads:
                thread.start()
            for thread in threads:
                thread.join(60)
            self.assertEqual(sorted(told[1:]), [0, 1, 2])

    def test_a_barrier_whose_last_one_was_killed_before_it_opened_opens(self):
        self.server()
        with Client(self.path, 1) as one, Client(self.path, 2) as two:
            barrier = Barrier(one, "barrier", 2)
            done = []
            thread = threading.Thread(target=lambda: done.append(barrier.wait(60)))
            thread.start()
            while not any(w.operation == "readff" for w in two.report().waiters):
                time.sleep(0.01)
            self.assertEqual(two.int_fetch_add(two.find("barrier_0"), Barrier.ARRIVED, 1), 1)
            thread.join(30)
            self.assertEqual(done, [0])

    def test_an_owner_that_was_killed_and_is_started_again_acquires_its_lock(self):
        self.server()
        for how in ({"session": 950}, {"session_file": self.path + ".session"}):
            pid = os.fork()
            if pid == 0:
                Lock(Client(self.path, **how), "lock").acquire()
                os.kill(os.getpid(), signal.SIGKILL)
            os.waitpid(pid, 0)
            with Client(self.path, **how) as back, Client(self.path, 2) as other:
                mine, yours = Lock(back, "lock"), Lock(other, "lock")
                self.assertFalse(yours.acquire(timeout=0.3, takeover_after=10.0))
                self.assertTrue(mine.acquire(timeout=10))
                self.assertTrue(mine.adopted)
                self.assertFalse(Lock(back, "lock").try_acquire())  # it is held now, by this process
                mine.release()
                self.assertTrue(yours.acquire(timeout=10))
                yours.release()
                self.assertTrue(mine.acquire(timeout=10))
                self.assertFalse(mine.adopted)
                mine.release()

    def test_of_all_that_take_a_lock_over_one_broke_it(self):
        self.server()
        with Client(self.path, 904) as gone:
            Lock(gone, "lock").acquire()
        broke, generations, breaking, break_ = [], [], [], Lock._break

        def take(k):
            with Client(self.path, 910 + k) as client:
                lock = Lock(client, "lock")

                def break_together(array):
                    breaking.append(k)
                    while len(breaking) < 6:
                        yield Pause(0.005)
                    return (yield from break_(lock, array))

                lock._break = break_together
                self.assertTrue(lock.acquire(timeout=30, takeover_after=0.3))
                broke.append(lock.broke)
                generations.append(lock.generation)
                lock.release()

        threads = [threading.Thread(target=take, args=(k,)) for k in range(6)]
        for thread in threads:
            thread.start()
        for thread in threads:
            thread.join(60)
        self.assertEqual(sorted(broke, key=str), [904, None, None, None, None, None])
        self.assertEqual(generations, sorted(generations))

    def test_readers_and_writers(self):
        inside, seen = [], []

        def work(client, k):
            lock = ReadWriteLock(client, "book", 3)
            for round in range(4):
                if (k + round) % 3:
                    lock.acquire_read()
                    inside.append("r")
                    seen.append("".join(inside))
                    time.sleep(0.002)
                    inside.remove("r")
                    lock.release_read()
                else:
                    lock.acquire_write()
                    inside.append("w")
                    seen.append("".join(inside))
                    time.sleep(0.002)
                    inside.remove("w")
                    lock.release_write()

        self.run_all(work)
        self.assertTrue(all("w" not in each or each == "w" for each in seen), seen)
        self.assertLessEqual(max(map(len, seen)), 3)
        with Client(self.path, 1) as one, Client(self.path, 2) as two:
            mine, yours = ReadWriteLock(one, "book", 3), ReadWriteLock(two, "book", 3)
            self.assertTrue(mine.acquire_read())
            self.assertFalse(yours.acquire_write(timeout=0.2))
            self.assertTrue(yours.acquire_read())
            self.assertEqual(mine.owners(), (None, [1, 2]))
            yours.release_read()
            with self.assertRaises(femem.NotOwner):
                yours.release_read()
            mine.release_read()
            self.assertTrue(yours.acquire_write(timeout=30))
            self.assertFalse(mine.acquire_read(timeout=0.2))
            yours.release_write()

    def test_a_reader_and_a_writer_that_were_killed(self):
        self.server()
        for act in ("acquire_read", "acquire_write"):
            pid = os.fork()
            if pid == 0:
                getattr(ReadWriteLock(Client(self.path, 5), "book", 3), act)()
                os.kill(os.getpid(), signal.SIGKILL)
            os.waitpid(pid, 0)
            with Client(self.path, 6) as other:
                lock = ReadWriteLock(other, "book", 3)
                self.assertFalse(lock.acquire_write(timeout=0.2))
                self.assertTrue(lock.acquire_write(timeout=30, takeover_after=0.3))
                self.assertEqual(lock.broke, 5)
                lock.release_write()
            pid = os.fork()
            if pid == 0:
                getattr(ReadWriteLock(Client(self.path, 5), "book", 3), act)()
                os.kill(os.getpid(), signal.SIGKILL)
            os.waitpid(pid, 0)
            with Client(self.path, 5) as back:
                lock = ReadWriteLock(back, "book", 3)
                self.assertTrue(lock.acquire_write(timeout=30))
                lock.release_write()

    def test_a_reader_that_waits_for_a_seat_of_a_broken_lock_gets_one_of_the_next(self):
        self.server()
        with Client(self.path, 1) as one, Client(self.path, 2) as two, Client(self.path, 3) as three:
            first, second, third = (ReadWriteLock(client, "book", 1) for client in (one, two, three))
            self.assertTrue(first.acquire_read())
            got = []
            thread = threading.Thread(target=lambda: got.append(second.acquire_read(timeout=60)))
            thread.start()
            self.wait_for(lambda: any(w.operation == "writeef" for w in three.report().waiters))
            self.assertEqual(third.owners(), (None, [1]))  # it keeps nobody else from a turn
            third.break_()
            thread.join(60)
            self.assertEqual((got, third.owners()), ([True], (None, [2])))
            with self.assertRaises(femem.NotOwner):
                first.release_read()
            second.release_read()

    def test_who_waits_at_a_broken_lock_leaves_the_next_one_to_its_owner(self):
        """Another thread of the same client may have that, in the same session."""
        self.server()
        with Client(self.path, 1) as one, Client(self.path, 2) as two:
            for act in ("read", "write"):
                reader, mine, other = (ReadWriteLock(client, act, 1) for client in (one, two, two))
                wait, give = getattr(mine, f"acquire_{act}"), getattr(mine, f"release_{act}")
                with self.subTest(act):
                    self.assertTrue(reader.acquire_read())
                    got, is_taken, find = [], threading.Event(), type(mine)._find
                    thread = threading.Thread(target=lambda: got.append(wait(timeout=60)))
                    thread.start()
                    self.wait_for(lambda: any(w.session == 2 and w.operation != "readff" for w in one.report().waiters))

                    def find_late():
                        while not is_taken.is_set():
                            yield Pause(0.005)
                        return (yield from find(mine))

                    mine._find = find_late
                    reader.break_()
                    self.assertTrue(other.acquire_write(timeout=60))
                    is_taken.set()
                    self.wait_for(lambda: got or any(w.operation == "writeef" for w in one.report().waiters))
                    self.assertEqual((got, reader.owners()), ([], (2, [])))
                    other.release_write()
                    thread.join(60)
                    self.assertEqual(got, [True])
                    del mine._find
                    give()
                    self.assertRaises(femem.NotOwner, reader.release_read)

    def test_the_owners_of_a_broken_lock_are_those_of_the_next(self):
        self.server()
        with Client(self.path, 1) as one, Client(self.path, 2) as two:
            mine, yours = ReadWriteLock(one, "book", 2), ReadWriteLock(two, "book", 2)
            self.assertTrue(mine.acquire_read())
            self.assertEqual(yours.owners(), (None, [1]))
            mine.break_()
            self.assertEqual(yours.owners(), (None, []))

    def wait_for(self, holds):
        end = time.monotonic() + 60
        while not holds():
            self.assertLess(time.monotonic(), end)
            time.sleep(0.005)

    def test_leaders_follow_each_other_with_greater_numbers(self):
        self.server()
        with Client(self.path, 1) as one, Client(self.path, 2) as two:
            mine, yours = Election(one, "leader"), Election(two, "leader")
            first = mine.campaign()
            self.assertEqual((yours.leader(), yours.campaign(timeout=0.1)), (1, None))
            mine.resign()
            second = yours.campaign(timeout=30)
            self.assertGreater(second, first)
            with self.assertRaises(femem.NotOwner):
                mine.resign()
        with Client(self.path, 3) as three:
            third = Election(three, "leader")
            self.assertGreater(third.campaign(timeout=30, takeover_after=0.3), second)
            self.assertEqual(third.broke, 2)

    def test_the_first_of_several_words(self):
        self.server()
        with Client(self.path, 1) as client, Client(self.path, 2) as other:
            words = client.create("words", 3)
            asked = [requests.readfe(words, k) for k in range(3)]
            with self.assertRaises(femem.TimedOut):
                client.wait_any(asked, timeout=0.1)
            got = []
            thread = threading.Thread(target=lambda: got.append(client.wait_any(asked, timeout=60)))
            thread.start()
            while len(other.report().waiters) < 3:
                time.sleep(0.01)
            other.writeef(words, 1, 42)
            thread.join(60)
            self.assertEqual(got, [{1: 42}])
            self.assertEqual(other.report().waiters, [])
            for k in range(3):
                other.writeef(words, k, k)
            got = client.wait_any(asked)
            for k in got:
                self.assertEqual(got[k], k)
                other.writeef(words, k, k, nowait=True)
            self.assertEqual(client.wait_any([]), {})
            with self.assertRaises(femem.BadIndex):
                client.wait_any([requests.readfe(words, 9)])

    def test_once_in_time(self):
        self.server()
        with Client(self.path, 1) as one, Client(self.path, 2) as two:
            one.writeef(one.create("once", Once.LENGTH), Once.DOER, 99)
            with self.assertRaises(femem.TimedOut):
                Once(two, "once").run(lambda: 5, timeout=0.1)
            Once(two, "once").done(7)
            self.assertEqual(Once(one, "once").run(lambda: 5, timeout=60), 7)

    def test_keys(self):
        self.server()
        file = self.path + ".session"
        for life in range(2):
            with Client(self.path, session_file=file) as client:
                queue, counter = BoundedQueue(client, "queue", 3), Counter(client, "counter")
                queue.put(7, key="seven")
                self.assertEqual(counter.add(2, key="two"), 0)
                self.assertTrue(Future(client, "future").set(3, key="three"))
                lock, semaphore = Lock(client, "lock"), Semaphore(client, "semaphore", 2)
                self.assertTrue(lock.acquire(key="lock"))
                self.assertTrue(semaphore.acquire(key="permit"))
                self.assertEqual((lock.adopted, semaphore.adopted), (life == 1, life == 1))
                self.assertEqual((queue.qsize(), counter.value(), semaphore.holders()), (1, 2, [client.session]))
                self.assertEqual(sorted(client.keys()), [b"lock", b"permit", b"seven", b"three", b"two"])
                with self.assertRaises(ValueError):
                    queue.put(8, key="seven")
        with Client(self.path, session_file=file) as client, Client(self.path, 1) as other:
            lock, semaphore = Lock(client, "lock"), Semaphore(client, "semaphore", 2)
            lock.release()
            semaphore.release()
            for again in (lambda: lock.acquire(key="lock"), lambda: semaphore.acquire(key="permit")):
                with self.assertRaises(femem.NotOwner):
                    again()
            client.forget("lock", "permit", "three")
            self.assertTrue(lock.acquire(key="lock"))
            self.assertEqual(sorted(client.keys()), [b"lock", b"seven", b"two"])
            with self.assertRaises(ValueError):
                BoundedQueue(other, "queue", 3).put(1, key="one")
            with self.assertRaises(ValueError):
                other.keys()

    def test_two_callers_under_one_key(self):
        self.server()
        with Client(self.path, session_file=self.path + ".session") as client, Client(self.path, 1) as other:
            queue = BoundedQueue(client, "queue", 1)
            queue.put(1)
            threads = [threading.Thread(target=queue.put, args=(7,), kwargs={"key": "seven"}) for _ in range(4)]
            for thread in threads:
                thread.start()
            time.sleep(0.1)
            theirs = BoundedQueue(other, "queue", 1)
            self.assertEqual([theirs.get(timeout=60), theirs.get(timeout=60)], [1, 7])
            for thread in threads:
                thread.join(60)
            self.assertEqual((client.keys(), theirs.qsize()), ([b"seven"], 0))

    def test_a_client_of_another_kind(self):
        self.server()
        for make in (Channel, Counter, Election, Future, Lock, Once):
            for wrong in (AsyncClient(self.path, 5), None, self.path):
                with self.assertRaises(TypeError):
                    make(wrong, "name")
        for make in (Barrier, BoundedQueue, ReadWriteLock, Semaphore, WorkQueue):
            with self.assertRaises(TypeError):
                make(AsyncClient(self.path, 5), "name", 3)
