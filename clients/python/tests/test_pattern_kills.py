"""Patterns whose clients are killed at any moment, and whose server is too. Each history has an end, whatever happens."""

import fcntl
import os
import random
import signal
import threading
import time

import paths  # noqa: F401
from serving import WithFolder

import femem
from femem import Client, requests
from femem._jobs import Pause
from femem._locks import GENERATIONS
from femem.patterns import Barrier, BoundedQueue, Channel, Counter, Election, Future, Lock, ReadWriteLock, Semaphore
from femem.patterns import WorkQueue
from femem._queues import Ring

# How long what was begun may take to end, in seconds.
BOUND = 60


class Log:
    """Lines that a process adds to and its next life reads."""

    def __init__(self, name):
        self.file = os.open(name, os.O_RDWR | os.O_CREAT | os.O_APPEND, 0o600)

    def add(self, *words):
        os.write(self.file, (" ".join(map(str, words)) + "\n").encode())

    def lines(self):
        return [line.split() for line in os.pread(self.file, 1 << 24, 0).decode().splitlines()]

    def numbers(self, kind):
        return [int(line[1]) for line in self.lines() if line[0] == kind]


class Kills(WithFolder):
    SECONDS = 3.0

    def setUp(self):
        super().setUp()
        self.folder = os.path.dirname(self.path)
        self.model = self.server()
        self.chance = random.Random(5)

    def log(self, name):
        return Log(os.path.join(self.folder, name + ".log"))

    @staticmethod
    def first_value(log, k):
        """Where a life of process k begins to count: no other life has these values, whatever it noted of its own."""
        log.add("life")
        return (10**6 * k + len(log.lines())) * 10**6

    def put_in(self, *names):
        """How many values these logs say were put."""
        return lambda: sum(len(self.log(name).numbers("p")) for name in names)

    def held(self):
        return len(self.log("held").lines())

    def is_enough(self):
        return os.path.exists(self.path + ".enough")

    def fork(self, work, k):
        pid = os.fork()
        if pid:
            return pid
        status = 1
        os.closerange(3, 1024)  # the server's ends of connections among them, or its stop would not be seen
        try:
            work(k)
            status = 0
        except BaseException as error:
            self.log("errors").add(type(error).__name__, error)
        finally:
            os._exit(status)

    def history(self, work, count, made=lambda: 1, enough=0):
        """`count` processes run `work(k)` until more than `enough` is made. Each is killed and started again, at any moment.

        For three seconds and twelve kills that goes on whatever they do. If not enough is made by then, each kill waits until
        something more is made: however busy the machine is, a history ends, and nothing stands still in it.
        """
        running = {k: self.fork(work, k) for k in range(count)}
        kills, seen, begin = 0, 0, time.monotonic()
        server_at = [begin + self.SECONDS / 3, begin + self.SECONDS * 2 / 3]

        def is_at_pace():
            return time.monotonic() < begin + self.SECONDS or kills < 12 or len(server_at) > 0

        while is_at_pace() or made() <= enough:
            if not is_at_pace():
                self.wait_for_more(made, seen, running.values())
            time.sleep(0.02 + 0.12 * self.chance.random())
            k = self.chance.randrange(count)
            os.kill(running[k], signal.SIGKILL)
            os.waitpid(running[k], 0)
            kills += 1
            running[k] = self.fork(work, k)
            if server_at and time.monotonic() > server_at[0]:
                server_at.pop(0)
                self.model.kill()
                self.model.start()
            seen = made()
        self.end_all(running.values())
        self.assertGreater(kills, 11)
        self.assertGreater(made(), enough)
        return kills

    def end_all(self, processes):
        """Says that it is enough. Each process ends by itself."""
        with open(self.path + ".enough", "w"):
            pass
        end = time.monotonic() + BOUND
        for pid in processes:
            while os.waitpid(pid, os.WNOHANG) == (0, 0):
                if time.monotonic() > end:
                    self.give_up(processes, "a process does not end")
                time.sleep(0.01)
        self.assertEqual(self.log("errors").lines(), [])

    def wait_for_more(self, made, seen, processes):
        end = time.monotonic() + BOUND
        while made() <= seen:
            if time.monotonic() > end:
                self.give_up(processes, f"nothing is made after {seen}: {self.log('errors').lines()}")
            time.sleep(0.002)

    def give_up(self, processes, why):
        for pid in processes:
            try:
                os.kill(pid, signal.SIGKILL)
            except ProcessLookupError:
                pass  # it has ended
        self.fail(why)

    def test_a_client_that_is_stopped_within_a_queue_holds_up_nobody(self):
        """As by a debugger, or while its machine swaps, at any moment of a put or a get. When it goes on, it is well."""
        new_ticket = Ring._new_ticket

        def ticket_and_pause(ring, words, counter):
            ticket = yield from new_ticket(ring, words, counter)
            yield Pause(0.02)  # so that most stops come between a ticket and its use
            return ticket

        def work(k):
            Ring._new_ticket = ticket_and_pause  # in this process
            with Client(self.path, 100 + k) as client:
                queue, log = BoundedQueue(client, "queue", 4), self.log(f"stopped{k}")
                while not self.is_enough():
                    log.add("put", queue.put(k, timeout=BOUND))
                    log.add("get", queue.get(timeout=BOUND))

        with Client(self.path, 7) as client:
            queue, stopped = BoundedQueue(client, "queue", 4), [self.fork(work, k) for k in range(3)]
            try:
                for turn in range(24):
                    time.sleep(0.03 + 0.03 * self.chance.random())
                    self.use_beside(queue, stopped, turn % 8 == 7)
            finally:
                with open(self.path + ".enough", "w"):
                    pass
            self.assertEqual([os.waitpid(pid, 0)[1] for pid in stopped], [0] * 3)
            self.assertEqual(self.log("errors").lines(), [])
            self.assertGreater(sum(len(self.log(f"stopped{k}").lines()) for k in range(3)), 24)

    def use_beside(self, queue, stopped, kills_server):
        """Uses the queue while these processes are stopped."""
        for pid in stopped:
            os.kill(pid, signal.SIGSTOP)
        try:
            if kills_server:
                self.model.kill()
                self.model.start()
            for act in (lambda: queue.put(7, timeout=BOUND), lambda: queue.get(timeout=BOUND)) * 3:
                begin = time.monotonic()
                act()
                # (a client looks at all slots each second, and once more when its time is over)
                self.assertLess(time.monotonic() - begin, BOUND / 2)
        finally:
            for pid in stopped:
                os.kill(pid, signal.SIGCONT)

    # Queues.

    def put_under_keys(self, k, make):
        """A producer with a session file. A value is put once, in however many lives, and by no other producer."""
        log = self.log(f"put{k}")
        with Client(self.path, session_file=f"{self.path}.{k}", wait_for_server=True) as client:
            queue, chance = make(client), random.Random()
            number = len(log.lines())
            while not self.is_enough() or client.keys():
                for key in client.keys():
                    if key != b"%d" % number:
                        client.forget(key)
                try:
                    queue.put(10**6 * k + number, timeout=chance.choice((None, 0.0, 0.003, 0.2)), key=number)
                except femem.TimedOut:
                    if self.is_enough():
                        break
                    continue
                log.add("p", 10**6 * k + number)
                client.forget(number)
                number += 1
        log.add("end", k)

    def get_under_keys(self, k, make):
        """A consumer with a session file. A value is got once, in however many lives. It ends after the producers, which
        may wait for room without a limit."""
        log, producers = self.log(f"got{k}"), [self.log("put0"), self.log("put1")]
        with Client(self.path, session_file=f"{self.path}.{k}", wait_for_server=True) as client:
            queue, chance = make(client), random.Random()
            number = len(log.lines())
            while True:
                for key in client.keys():
                    if key != b"%d" % number:
                        client.forget(key)
                is_over = all(producer.numbers("end") for producer in producers)
                try:
                    value = queue.get(timeout=chance.choice((0.0, 0.003, 0.2)), key=number)
                except femem.TimedOut:
                    if is_over and not client.keys():
                        return
                    continue
                log.add("g", value)
                client.forget(number)
                number += 1

    def check_both_under_keys(self, make):
        """Nothing goes with a killed client on either side."""

        def work(k):
            (self.put_under_keys if k < 2 else self.get_under_keys)(k, make)

        self.history(work, 4, made=self.put_in("put0", "put1"), enough=20)
        got = [value for k in (2, 3) for value in self.log(f"got{k}").numbers("g")]
        with Client(self.path, 7) as client:
            queue = make(client)
            try:
                while True:
                    got.append(queue.get(timeout=2.0))
            except femem.TimedOut:
                pass
        put = [value for k in (0, 1) for value in self.log(f"put{k}").numbers("p")]
        self.assertEqual(sorted(got), sorted(put))
        self.assertGreater(len(put), 20)

    def test_what_goes_through_a_queue_under_keys_comes_once(self):
        self.check_both_under_keys(lambda client: BoundedQueue(client, "queue", 4))

    def test_what_goes_through_a_channel_under_keys_comes_once(self):
        self.check_both_under_keys(lambda client: Channel(client, "channel"))

    def check_puts_under_keys(self, make):
        got, stop = [], threading.Event()

        def take(session):
            with Client(self.path, session, wait_for_server=True) as client:
                queue = make(client)
                while True:
                    try:
                        got.append(queue.get(timeout=0.3))
                    except femem.TimedOut:
                        if stop.is_set():
                            return

        threads = [threading.Thread(target=take, args=(1 + k,)) for k in range(2)]
        for thread in threads:
            thread.start()
        try:
            self.history(lambda k: self.put_under_keys(k, make), 3, made=self.put_in("put0", "put1", "put2"), enough=50)
        finally:
            stop.set()
            for thread in threads:
                thread.join(BOUND)
        put = [value for k in range(3) for value in self.log(f"put{k}").numbers("p")]
        self.assertGreater(len(put), 50)
        self.assertEqual(sorted(got), sorted(put))

    def test_what_is_put_under_keys_is_got_once(self):
        self.check_puts_under_keys(lambda client: BoundedQueue(client, "queue", 4))

    def test_what_is_put_into_a_channel_under_keys_is_got_once(self):
        self.check_puts_under_keys(lambda client: Channel(client, "channel"))

    def test_a_put_that_was_sent_and_not_answered_ends(self):
        """Each life is killed as its put waits at a full queue: the next one takes it back, and puts it once there is room."""
        with Client(self.path, 1) as client:
            queue = BoundedQueue(client, "queue", 2)
            queue.put(1)
            queue.put(2)
            for _ in range(5):
                pid = self.fork(self.put_seven, 0)
                end = time.monotonic() + BOUND
                while not any(w.operation == "writeef" for w in client.report().waiters) and time.monotonic() < end:
                    time.sleep(0.005)
                os.kill(pid, signal.SIGKILL)
                os.waitpid(pid, 0)
            self.assertEqual([queue.get(timeout=BOUND), queue.get(timeout=BOUND)], [1, 2])
            for _ in range(2):
                self.put_seven(0)
            self.assertEqual((queue.get(timeout=BOUND), queue.qsize()), (7, 0))

    def put_seven(self, k):
        with Client(self.path, session_file=self.path + ".seven") as client:
            BoundedQueue(client, "queue", 2).put(7, timeout=BOUND, key="seven")

    def test_no_value_is_got_twice_and_one_at_most_goes_with_a_killed_taker(self):
        def work(k):
            log = self.log(f"w{k}")
            with Client(self.path, 10 + k, wait_for_server=True) as client:
                queue, value = BoundedQueue(client, "queue", 4), self.first_value(log, k)
                while not self.is_enough():
                    value += 1
                    try:
                        if k % 2:
                            log.add("g", queue.get(timeout=0.1))
                        else:
                            queue.put(value, timeout=0.1)
                            log.add("p", value)
                    except femem.TimedOut:
                        pass

        kills = self.history(work, 6, made=self.put_in("w0", "w2", "w4"), enough=50)
        with Client(self.path, 1) as client:
            queue = BoundedQueue(client, "queue", 4)
            got = [queue.get(timeout=BOUND) for _ in range(queue.qsize())]
        got += [value for k in (1, 3, 5) for value in self.log(f"w{k}").numbers("g")]
        put = [value for k in (0, 2, 4) for value in self.log(f"w{k}").numbers("p")]
        self.assertGreater(len(put), 50)
        self.assertEqual(len(got), len(set(got)))
        self.assertLessEqual(len(set(put) - set(got)), kills)

    def test_the_first_of_several_words_takes_each_value_once(self):
        """Takers wait at two words at once. At most what both had goes with a killed one."""

        def work(k):
            log = self.log(f"w{k}")
            with Client(self.path, 60 + k, wait_for_server=True) as client:
                words, value = self.two_words(client), self.first_value(log, k)
                takes = [requests.readfe(words, 0), requests.readfe(words, 1)]
                while not self.is_enough():
                    value += 1
                    try:
                        if k % 2:
                            for taken in client.wait_any(takes, timeout=0.1).values():
                                log.add("g", taken)
                        else:
                            client.writeef(words, value % 2, value, timeout=0.1)
                            log.add("p", value)
                    except femem.TimedOut:
                        pass

        kills = self.history(work, 4, made=self.put_in("w0", "w2"), enough=50)
        with Client(self.path, 1) as client:
            words = self.two_words(client)
            rest = client.submit_many([requests.readfe(words, k, nowait=True) for k in range(2)])
        got = [value for value in rest if isinstance(value, int)]
        got += [value for k in (1, 3) for value in self.log(f"w{k}").numbers("g")]
        put = [value for k in (0, 2) for value in self.log(f"w{k}").numbers("p")]
        self.assertGreater(len(put), 50)
        self.assertEqual(len(got), len(set(got)))
        self.assertLessEqual(len(set(put) - set(got)), 2 * kills)

    @staticmethod
    def two_words(client):
        try:
            return client.create("two", 2)
        except femem.NameTaken:
            return client.find("two")

    # What is held.

    def hold(self, acquire, release, files, how=fcntl.LOCK_EX, lock=None):
        """While it is held, one of these files is locked: there are as many as may hold it at a time.

        `lock` is what may be taken over: then each of its arrays has files of its own. Only a client that was absent, or
        was just started, may find that it was taken over.
        """
        if not acquire():
            return
        of = "" if lock is None else lock.generation // GENERATIONS
        for name in files:
            file = os.open(os.path.join(self.folder, f"{name}{of}"), os.O_RDWR | os.O_CREAT)
            try:
                fcntl.flock(file, how | fcntl.LOCK_NB)
                break
            except BlockingIOError:
                os.close(file)
        else:
            raise AssertionError("more hold it than may")
        self.log("held").add("h")
        time.sleep(0.002)
        os.close(file)
        try:
            release()
        except femem.NotOwner:
            if lock is None or self.turn - self.away_in > 1:
                raise

    def check_held(self, make, work):
        def run(k):
            self.turn = self.away_in = 0

            def note(kind, *_):
                if kind in ("attached", "lost"):
                    self.away_in = self.turn

            with Client(self.path, 20 + k, wait_for_server=True, on_event=note) as client:
                held = make(client)
                while not self.is_enough():
                    work(held, k)
                    self.turn += 1

        self.history(run, 4, made=self.held, enough=20)

    def test_a_lock(self):
        def work(lock, k):
            self.hold(lambda: lock.acquire(timeout=5, takeover_after=0.5), lock.release, ["one"], lock=lock)

        self.check_held(lambda client: Lock(client, "lock"), work)

    def test_a_semaphore(self):
        def work(semaphore, k):
            self.hold(lambda: semaphore.acquire(timeout=5), semaphore.release, ["one", "two"])

        self.check_held(lambda client: Semaphore(client, "semaphore", 2), work)
        # Every permit can be had again, by the clients whose earlier lives left them.
        clients = [Client(self.path, 20 + k) for k in range(4)]
        semaphores = [Semaphore(client, "semaphore", 2) for client in clients]
        for semaphore in semaphores:
            while semaphore.try_acquire():
                pass
        self.assertEqual(len(semaphores[0].holders()), 2)
        for client in clients:
            client.close()

    def test_readers_and_writers(self):
        def work(lock, k):
            if k % 2:
                begin, how = lambda: lock.acquire_read(5, takeover_after=0.5), fcntl.LOCK_SH
                self.hold(begin, lock.release_read, ["one"], how, lock)
            else:
                self.hold(lambda: lock.acquire_write(5, takeover_after=0.5), lock.release_write, ["one"], lock=lock)

        self.check_held(lambda client: ReadWriteLock(client, "book", 8), work)

    def test_the_numbers_of_leaders_grow(self):
        def work(election, k):
            def begin():
                number = election.campaign(timeout=5, takeover_after=0.5)
                if number is not None:
                    self.log("numbers").add("n", number)
                return number is not None

            def end():
                try:
                    election.resign()
                except femem.NotOwner:
                    self.log("numbers").add("over", election.generation)  # perhaps before its number was noted
                    raise

            self.hold(begin, end, ["one"], lock=election)

        self.check_held(lambda client: Election(client, "leader"), work)
        over = self.log("numbers").numbers("over")
        numbers = [number for number in self.log("numbers").numbers("n") if number not in over]
        self.assertEqual(numbers, sorted(set(numbers)))

    # The others.

    def test_what_is_added_under_keys_counts_once(self):
        def work(k):
            log = self.log(f"add{k}")
            with Client(self.path, session_file=f"{self.path}.{k}", wait_for_server=True) as client:
                counter, number = Counter(client, "counter"), len(log.lines())
                while not self.is_enough():
                    counter.add(key=number)
                    if not Future(client, f"f{k}").set(k, key="first"):
                        raise AssertionError("it was set under this key")
                    log.add("a", number)
                    client.forget(number)
                    number += 1

        self.history(work, 3, lambda: min(len(self.log(f"add{k}").lines()) for k in range(3)))
        with Client(self.path, 1) as client:
            added = sum(len(self.log(f"add{k}").lines()) for k in range(3))
            # (a life may have been killed between its answer and its line; the next one found that answer)
            self.assertEqual(Counter(client, "counter").value(), added + self.open_keys())
            self.assertEqual([Future(client, f"f{k}").get(timeout=BOUND) for k in range(3)], [0, 1, 2])

    def open_keys(self):
        count = 0
        for k in range(3):
            with Client(self.path, session_file=f"{self.path}.{k}") as client:
                lines = len(self.log(f"add{k}").lines())
                count += sum(key == b"%d" % lines for key in client.keys())
        return count

    def test_a_killed_client_has_arrived(self):
        def arrive(k):
            with Client(self.path, 30 + k) as client:
                Barrier(client, "barrier", 3).wait()

        with Client(self.path, 1) as one, Client(self.path, 2) as two:
            pid = self.fork(arrive, 0)
            end = time.monotonic() + BOUND
            while not one.report().waiters and time.monotonic() < end:
                time.sleep(0.005)
            os.kill(pid, signal.SIGKILL)
            os.waitpid(pid, 0)
            told = []
            thread = threading.Thread(target=lambda: told.append(Barrier(two, "barrier", 3).wait(BOUND)))
            thread.start()
            told.append(Barrier(one, "barrier", 3).wait(BOUND))
            thread.join(BOUND)
            self.assertEqual(sorted(told), [1, 2])

    def test_jobs_are_done_once_each(self):
        def work(k):
            if k < 2:
                self.put_under_keys(k, lambda client: WorkQueue(client, "jobs", 32, attempts=16, away_after=0.5))
                return
            log = self.log(f"take{k}")
            with Client(self.path, 40 + k, wait_for_server=True) as client:
                queue = WorkQueue(client, "jobs", 32, attempts=16, away_after=0.5)
                while True:
                    try:
                        job = queue.take(timeout=1.0)
                    except femem.TimedOut:
                        if self.is_enough():
                            return
                        continue
                    log.add("t", job.value)
                    try:
                        job.done()
                    except femem.NotOwner:
                        continue
                    log.add("d", job.value)

        kills = self.history(work, 5, made=self.put_in("put0", "put1"), enough=20)
        put = sorted(value for k in range(2) for value in self.log(f"put{k}").numbers("p"))
        with Client(self.path, 1) as client:
            queue = WorkQueue(client, "jobs", 32, attempts=16, away_after=0.5)
            rest = []
            try:
                while True:
                    with queue.take(timeout=2.0) as job:
                        rest.append(job.value)
            except femem.TimedOut:
                pass
            self.assertEqual(queue.aside(), [])
        taken = {value for k in (2, 3, 4) for value in self.log(f"take{k}").numbers("t")}
        done = [value for k in (2, 3, 4) for value in self.log(f"take{k}").numbers("d")] + rest
        self.assertGreater(len(put), 20)
        self.assertEqual(len(done), len(set(done)))
        self.assertEqual(set(put) - taken - set(rest), set())
        # (a taker may have been killed between the answer and its line)
        self.assertLessEqual(len(put) - len(done), kills)
