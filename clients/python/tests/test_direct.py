"""Calls that the caller itself sends and reads, over numbers that the client's thread lent: each hazard, and its outcome."""

import errno
import itertools
import os
import random
import signal
import socket
import struct
import sys
import threading
import time
from unittest import mock

import paths  # noqa: F401
from model import frame
from serving import BadServer, WithFolder
from test_ends import Unwilling
from test_malice import FIRST, attached
from test_unspoilt import Stop, interrupted

import femem
from femem import Client, _frames as frames, _lease as lease, requests, _worker as worker
from femem.patterns import BoundedQueue, Lock, ReadWriteLock, Semaphore, WorkQueue, shared_array

LONG = 60


def count_asks(client):
    """Counts what the client's thread is asked from now on."""
    asked = []
    ask = client._ask
    client._ask = lambda what: (asked.append(what), ask(what))
    return asked


class Slow:
    """A connection whose caller is held up by `wait`, before and behind each send."""

    def __init__(self, inner, wait):
        self.inner = inner
        self.wait = wait

    def send(self, content, *flags):
        self.wait("sending")
        sent = self.inner.send(content, *flags)
        self.wait("sent")
        return sent

    def __getattr__(self, name):
        return getattr(self.inner, name)


class Direct(WithFolder):
    def warm(self, client, word):
        """Calls until the client's thread lends numbers. Returns how many calls it took."""
        for count in range(1, 2000):
            client.readxx(word, 0)
            if client._worker.lease is not None:
                return count
        self.fail("the thread lends no number")

    def test_most_calls_do_not_need_the_thread(self):
        self.server()
        with Client(self.path, 7, probe_interval=100.0) as client:
            word = client.create("word", 1, full=True)
            for prepare in (lambda: None, lambda: Lock(client, "lock").locked(), lambda: self.use(client)):
                prepare()
                self.warm(client, word)
                asked = count_asks(client)
                first = client.readff(word, 0)
                self.assertEqual([client.int_fetch_add(word, 0, 1) for _ in range(1000)], list(range(first, first + 1000)))
                # (a thread that is not scheduled for a while takes its numbers back)
                self.assertLess(len(asked), 600)
                del client._ask
                client._ask = client._worker.ask

    def use(self, client):
        """A lock, which leaves the client's presence waiting."""
        with Lock(client, "lock"):
            pass

    def test_each_bytecode(self):
        self.server()
        with Client(self.path, 7) as client, Client(self.path, 8) as other:
            word = client.create("word", 1, full=True)
            lent = 0
            for at in itertools.count(1):
                self.warm(client, word)
                lent += client._worker.lease is not None
                before = other.readff(word, 0)
                was = interrupted(lambda: client.int_fetch_add(word, 0, 1), at)
                client.int_fetch_add(word, 0, 1, timeout=LONG)
                added = other.readff(word, 0) - before - 1
                self.assertIsNone(client.failure)
                self.assertIn(added, (0, 1) if was else (1,), at)
                if not was:
                    break
            self.assertGreater(at, 100)
            self.assertGreater(lent, at // 2)

    def test_a_floor_that_a_caller_raises_at_each_bytecode(self):
        model = self.server().model
        with Client(self.path, 7) as client, Client(self.path, 8) as other:
            word = client.create("word", 1, full=True)
            raised = 0
            for at in itertools.count(1):
                self.warm(client, word)
                lent = client._worker.lease
                if lent is not None and lent.floor:
                    lent._end = lent.next_number()
                    raised += 1
                before = other.readff(word, 0)
                was = interrupted(lambda: client.int_fetch_add(word, 0, 1), at)
                client.int_fetch_add(word, 0, 1, timeout=LONG)
                self.assertIsNone(client.failure)
                self.assertIn(other.readff(word, 0) - before - 1, (0, 1) if was else (1,), at)
                if not was:
                    break
            self.assertGreater(at, 100)
            if Client is not Waiting:
                self.assertGreater(raised, at // 2)
            self.assertGreater(model.state.sessions[7][0], 100)

    def test_callers_raise_the_floor(self):
        """So that its numbers do not run out, the holder of a lease asks for floors."""
        model, steps, raised = self.server().model, set(), []
        enter, settle = model.enter, lease.Lease._settle

        def note(entry):
            if entry[:2] == ("settled", 107):
                steps.add(entry[2] - model.state.sessions[107][0])
            enter(entry)

        def count(lent, number):
            raised.append(number)
            return settle(lent, number)

        with Client(self.path, 107, probe_interval=100.0) as client, mock.patch.object(lease.Lease, "_settle", count):
            model.enter = note
            queue, value, end = BoundedQueue(client, "queue", 4), 0, time.monotonic() + LONG
            while len(raised) < 20 and time.monotonic() < end or value < 200:
                queue.put(value)
                self.assertEqual(queue.get(), value)
                value += 1
                if Client is Waiting and value == 200:
                    break  # what waits holds the floor
            self.assertGreater(model.state.sessions[107][0], 1000)
            self.assertLess(max(steps), 32)  # a whole window is another client's step
            self.assertEqual(len(raised) >= 20, Client is not Waiting)

    def test_signals(self):
        self.server()

        def boom(*_):
            raise Stop

        before = signal.signal(signal.SIGALRM, boom)
        self.addCleanup(signal.signal, signal.SIGALRM, before)
        self.addCleanup(signal.setitimer, signal.ITIMER_REAL, 0)
        chance = random.Random(1)
        answered = stops = 0
        with Client(self.path, 7) as client:
            word = client.create("word", 1, full=True)
            while stops < 300:
                try:
                    signal.setitimer(signal.ITIMER_REAL, chance.random() * 2e-3 + 1e-6)
                    while True:
                        client.int_fetch_add(word, 0, 1)
                        answered += 1
                except Stop:
                    stops += 1
                signal.setitimer(signal.ITIMER_REAL, 0)
            self.assertIsNone(client.failure)
            end = client.readff(word, 0, timeout=LONG)
            self.assertTrue(answered <= end <= answered + stops, (answered, end, stops))

    def test_stops_of_the_server(self):
        for count in (1, 4):
            with self.subTest(threads=count):
                server = self.server()
                with Client(self.path, 7) as client:
                    word = client.create(f"w{count}", 1, full=True)
                    added, ends = [0] * count, False

                    def add(at):
                        while not ends:
                            client.int_fetch_add(word, 0, 1)
                            added[at] += 1

                    threads = [threading.Thread(target=add, args=(at,)) for at in range(count)]
                    for thread in threads:
                        thread.start()
                    for _ in range(10):
                        time.sleep(0.03)
                        server.kill()
                        server.start()
                    ends = True
                    for thread in threads:
                        thread.join(LONG)
                    self.assertEqual(client.readff(word, 0, timeout=LONG), sum(added))
                server.kill()

    def test_one_that_has_to_wait(self):
        self.server()
        with Client(self.path, 7) as client, Client(self.path, 8) as other:
            word = client.create("word", 2, full=True)
            for turn in range(20):
                client.purge(word, 1)
                self.warm(client, word)
                with self.assertRaises(femem.TimedOut):
                    client.readfe(word, 1, timeout=0.01)
                with self.assertRaises(femem.NotNow):
                    client.readfe(word, 1, nowait=True)
                self.warm(client, word)
                giver = threading.Timer(0.005, other.writeef, (word, 1, turn))
                giver.start()
                self.assertEqual(client.readfe(word, 1, timeout=LONG), turn)
                giver.join()

    @mock.patch("femem._lease.READ_TIME", LONG)
    def test_a_caller_that_waits_lets_others_call(self):
        """It waits by itself, and leaves the connection to the thread when that has something to do, however late."""
        model = self.server().model
        connections, connect = [], model.connect
        model.connect = lambda conn: (connections.append(conn), connect(conn))
        with Client(self.path, 7, probe_interval=LONG) as client:
            word, begun = client.create("word", 2, full=True), len(connections)
            waited = turn = 0
            while turn < 20 or turn < 200 and not waited:  # (on a busy machine the thread may be late each time)
                turn += 1
                client.purge(word, 1)
                self.warm(client, word)
                got = []
                waiter = threading.Thread(target=lambda: got.append(client.readfe(word, 1)))
                waiter.start()
                end = time.monotonic() + LONG
                while not client._worker.lead.locked() and client._worker.lease is not None and time.monotonic() < end:
                    time.sleep(0)
                waited += client._worker.lead.locked()
                client.writexf(word, 1, turn)
                waiter.join(LONG)
                self.assertEqual(got, [turn])
            self.assertGreater(waited, 0)
            self.assertEqual(len(connections), begun)

    def test_errors_are_those_of_any_call(self):
        self.server()
        with Client(self.path, 7) as client:
            word = client.create("word", 1, full=True)
            self.warm(client, word)
            for _ in range(40):
                self.assertRaises(femem.BadIndex, client.readff, word, 1)
                self.assertRaises(femem.NoArray, client.find, "nothing")
                self.assertRaises(femem.NameTaken, client.create, "word", 1)
                self.assertEqual(client.find("word"), word)

    def test_a_fork(self):
        """In the caller's thread, and in another one while callers use lent numbers."""
        self.server()
        with Client(self.path, 7) as client:
            word = client.create("word", 1, full=True)
            added, ends = 0, False

            def add():
                nonlocal added
                while not ends:
                    client.int_fetch_add(word, 0, 1)
                    added += 1

            for busy in (False, True):
                thread = threading.Thread(target=add)
                if busy:
                    thread.start()
                else:
                    self.warm(client, word)
                for _ in range(30):
                    child = os.fork()
                    if child == 0:
                        signal.alarm(LONG)
                        try:
                            client.readxx(word, 0)
                        except femem.Closed:
                            os._exit(0)
                        finally:
                            os._exit(1)
                    self.assertEqual(os.waitpid(child, 0)[1], 0)
                ends = True
                if busy:
                    thread.join(LONG)
            self.assertEqual(client.readff(word, 0), added)

    def test_a_fork_by_a_signal_handler_within_a_call(self):
        self.server()
        outcomes = []

        def fork(*_):
            child = os.fork()
            if child == 0:
                signal.alarm(LONG)
                is_child.append(True)
            else:
                outcomes.append(os.waitpid(child, 0)[1])

        is_child = []
        before = signal.signal(signal.SIGALRM, fork)
        self.addCleanup(signal.signal, signal.SIGALRM, before)
        chance = random.Random(2)
        with Client(self.path, 7) as client:
            word = client.create("word", 1, full=True)
            for turn in range(30):
                signal.setitimer(signal.ITIMER_REAL, chance.random() * 1e-3 + 1e-6)
                try:
                    while len(outcomes) <= turn:
                        client.readxx(word, 0)
                except femem.Closed:
                    os._exit(0 if is_child else 1)
                finally:
                    if is_child:
                        os._exit(1)
            self.assertEqual(outcomes, [0] * 30)
            self.assertEqual(client.readxx(word, 0, timeout=LONG), 0)

    def test_close_within_a_call(self):
        """By another thread, and by a signal handler of the caller's thread."""
        self.server()
        for turn in range(20):
            client = Client(self.path)
            word = client.create(f"w{turn}", 1, full=True)
            ended = []

            def call():
                try:
                    while True:
                        client.readxx(word, 0)
                except femem.Closed as error:
                    ended.append(error)

            thread = threading.Thread(target=call)
            thread.start()
            time.sleep(0.003)
            client.close()
            thread.join(LONG)
            self.assertEqual(len(ended) + (not thread.is_alive()), 2)

    def test_a_handler_that_uses_or_closes_the_client(self):
        self.server()
        before = signal.getsignal(signal.SIGALRM)
        self.addCleanup(signal.signal, signal.SIGALRM, before)
        self.addCleanup(signal.setitimer, signal.ITIMER_REAL, 0)
        chance = random.Random(3)
        with Client(self.path, 7) as client:
            word = client.create("word", 2, full=True)
            seen = []
            signal.signal(signal.SIGALRM, lambda *_: seen.append(client.int_fetch_add(word, 1, 1)))
            done = 0
            while len(seen) < 40:
                left = len(seen)
                signal.setitimer(signal.ITIMER_REAL, chance.random() * 1e-3 + 1e-6)
                while len(seen) == left:
                    client.int_fetch_add(word, 0, 1)
                    done += 1
            self.assertEqual((client.readff(word, 0), client.readff(word, 1)), (done, len(seen)))
            self.assertEqual(seen, list(range(len(seen))))
            signal.signal(signal.SIGALRM, lambda *_: client.close())
            signal.setitimer(signal.ITIMER_REAL, 0.001)
            with self.assertRaises(femem.Closed):
                while True:
                    client.int_fetch_add(word, 0, 1)

    def test_most_steps_of_a_pattern_do_not_need_the_thread(self):
        self.server()
        with Client(self.path, 7, probe_interval=100.0) as client:
            queue, lock, permits = BoundedQueue(client, "queue", 4), Lock(client, "lock"), Semaphore(client, "semaphore", 3)
            book, jobs = ReadWriteLock(client, "book"), WorkQueue(client, "jobs", 1000)
            for begin, end in (
                (lambda: queue.put(5), lambda: self.assertEqual(queue.get(), 5)),
                (lock.acquire, lock.release),
                (permits.acquire, permits.release),
                (book.acquire_write, book.release_write),
                (lambda: jobs.put(5), lambda: jobs.take().done()),
            ):
                begin(), end()
                asked = count_asks(client)
                for _ in range(200):
                    begin(), end()
                # (each has two steps or more; a thread that is not scheduled for a while takes its numbers back)
                self.assertLess(len(asked), 400)
                del client._ask
                client._ask = client._worker.ask

    def test_a_send_that_fails_is_made_up_for(self):
        """The connection stands, so no read fails: it is given up, and everything is sent again over the next one."""
        self.server()
        with Client(self.path, 7, reconnect_timeout=LONG, probe_interval=100.0) as client:
            word, queue, added = client.create("word", 1, full=True), BoundedQueue(client, "queue", 4), []

            def hand_on():
                queue.put(7, LONG)
                self.assertEqual(queue.get(LONG), 7)

            for work in (lambda: added.append(client.int_fetch_add(word, 0, 1, timeout=LONG)), hand_on):
                for failure in (errno.ENOBUFS, errno.ENOMEM):
                    failures = [failure]
                    while failures:
                        self.warm(client, word)
                        lent = client._worker.lease
                        if lent is not None:
                            lent.connection = Unwilling(lent.connection, failures)
                        work()
            self.assertEqual((added, queue.qsize(), client.failure), (list(range(len(added))), 0, None))

    def test_a_caller_that_is_held_up_keeps_its_numbers(self):
        """Between the choice of its number and its send, and behind it: longer than the thread waits for it."""
        model = self.server().model
        pack, held, take, asked = lease.pack_number, threading.Event(), model.take, {}

        def note(conn, message):
            if message[0] == "call":
                asked.setdefault(message[1], set()).add(message[2][4] if message[2][0] == "access" else 0)
            take(conn, message)

        model.take = note
        self.addCleanup(setattr, lease, "pack_number", pack)
        for where in ("before", "sending", "sent"):
            with self.subTest(where=where), Client(self.path, 7) as client:
                word = shared_array(client, "word", 1, full=True)
                begin = client.readff(word, 0)
                held.clear()
                got, slow = [], []

                def wait(at):
                    if at == where and threading.get_ident() in slow:
                        held.set()
                        time.sleep(5 * lease.READ_TIME)

                def call_slowly():
                    while not held.is_set():
                        self.warm(client, word)
                        lent = client._worker.lease
                        if lent is not None:  # (a thread that is not scheduled for a while takes its numbers back)
                            lent.connection = Slow(lent.connection, wait)
                        slow.append(threading.get_ident())
                        got.append(client.int_fetch_add(word, 0, 100))
                        slow.clear()

                lease.pack_number = lambda *args: (wait("before"), pack(*args))
                thread = threading.Thread(target=call_slowly)
                thread.start()
                self.assertTrue(held.wait(LONG))
                for _ in range(3):
                    client.int_fetch_add(word, 0, 1)
                thread.join(LONG)
                self.assertEqual((client.readff(word, 0), thread.is_alive()), (begin + 3 + 100 * len(got), False))
                self.assertIsNone(client.failure)
                self.assertEqual([number for number, operands in asked.items() if len(operands) > 1], [])

    def test_a_client_with_a_session_file_lends_nothing(self):
        """Each of its requests must be in the file before it is sent."""
        self.server()
        with Client(self.path, session_file=self.path + ".session") as client:
            word = client.create("word", 1, full=True)
            for _ in range(100):
                client.readxx(word, 0)
                self.assertIsNone(client._worker.lease)


class Waiting(Client):
    """A client that has a request that waits all the time. Its last step is to fill that word."""

    def __init__(self, *arguments, **more):
        super().__init__(*arguments, **more)
        self.array, self.at, self.got = shared_array(self, "waiting", 64, full=False), self.session % 64, []
        self.thread = threading.Thread(target=self.take)
        self.thread.start()

    def take(self):
        try:
            self.got.append(self.readfe(self.array, self.at))
        except femem.FememError:
            pass

    def __exit__(self, *failure):
        if failure[0] is None and self.failure is None:
            self.writeef(self.array, self.at, 5, timeout=LONG)
            self.thread.join(LONG)
            assert self.got == [5], self.got
        super().__exit__(*failure)


class BesideOneThatWaits(Direct):
    """The same hazards, while another thread waits."""

    def setUp(self):
        super().setUp()
        for module, name, value in ((sys.modules[__name__], "Client", Waiting), (worker, "_IN_A_ROW", 0)):
            patched = mock.patch.object(module, name, value)
            patched.start()
            self.addCleanup(patched.stop)


class Shown(Client):
    """A client that has used a lock, so that its presence waits."""

    def __init__(self, *arguments, **more):
        super().__init__(*arguments, **more)
        with Lock(self, f"shown{self.session % 64}"):
            pass


class BesideAPresence(Direct):
    """The same hazards, while what shows that the client is there waits: callers move it as they raise the floor."""

    def setUp(self):
        super().setUp()
        patched = mock.patch.object(sys.modules[__name__], "Client", Shown)
        patched.start()
        self.addCleanup(patched.stop)


class Replies(WithFolder):
    """What a server may send to a caller that reads by itself."""

    def client(self, then):
        server = BadServer(self.path, attached(then))
        self.addCleanup(server.close)
        client = Client(self.path, 7, reconnect_timeout=LONG, probe_interval=100.0)
        self.addCleanup(client.close)
        return client

    def test_pieces_and_delays(self):
        """An answer in pieces, late, or behind other replies, is the call's answer."""
        numbers = itertools.count(FIRST)

        def answers(piece, count):
            if piece[4] != 11 and piece[4] != 5:
                return b""
            whole = frame(66, next(numbers), 1, count, 0)
            how = count % 6
            if how == 1:
                return (part for part in self.slowly(whole, 1))
            if how == 2:
                return (part for part in self.slowly(whole, 25))
            if how == 3 and count < 12:
                return (part for part in self.slowly(whole, 13, lease.READ_TIME * 1.5))
            return whole

        client = self.client(answers)
        for count in range(14):
            self.assertEqual(client.readff(1, 0), count)
        self.assertIsNone(client.failure)

    def slowly(self, whole, size, pause=0.001):
        for at in range(0, len(whole), size):
            time.sleep(pause)
            yield whole[at : at + size]

    def test_a_wrong_answer_ends_the_client(self):
        numbers = itertools.count(FIRST)

        def answers(piece, count):
            number = next(numbers)
            if count < 4:
                return frame(66, number, 1, count, 0)
            return frame(66, number, wrong[0], *wrong[1:])

        for wrong in ((2, 0, 0), (3, 1, 1), (1, 5, 1), (4, 1, 0), (12, 0, 0)):
            with self.subTest(wrong=wrong):
                numbers = itertools.count(FIRST)
                self.path += "w"
                client = self.client(answers)
                with self.assertRaises(femem.ProtocolError):
                    for _ in range(10):
                        client.readff(1, 0)
                self.assertIsInstance(client.failure, femem.ProtocolError)
                client.close()

    def lent(self, here, end=50):
        return lease.Lease(here, frames.ReplyDecoder(), 40, end)

    def test_a_lease_hands_over_what_it_does_not_know(self):
        here, there = socket.socketpair()
        here.setsockopt(socket.SOL_SOCKET, socket.SO_RCVTIMEO, struct.pack("@ll", 0, 100_000))
        answer = frame(66, 40, 1, 5, 0)
        with here, there:
            for reply, known in (
                (frame(66, 41, 1, 5, 0), frames.Answer(41, 1, 5)),
                (frame(67, 40), frames.Withdrawn(40)),
                (frame(70, 40, 8), frames.Refusal(40, 8)),
                (b"\0", None),
                (answer[:25], None),
            ):
                lent = self.lent(here)
                ticket = femem._jobs.Ticket(requests.readff(1, 0))
                there.sendall(reply)
                self.assertFalse(lent.call([ticket]))
                self.assertEqual((lent.rest, lent.is_known), ([] if known is None else [known], True))
                self.assertIs(lent.tickets[-1], ticket)
                self.assertFalse(lent.call([ticket]))
                self.assertEqual(len(lent.tickets), 1)
                if known is None:
                    there.sendall(answer[len(reply) :])  # the thread goes on with the same decoder
                    self.assertEqual(lent.decoder.feed(here.recv(100)), [frames.Answer(40, 1, 5)])
                there.recv(100)

    def test_a_lease_keeps_what_comes_with_its_answers(self):
        """A floor may come any time. Anything else ends the lease, for the thread to take it."""
        here, there = socket.socketpair()
        answer, ticket = frame(66, 40, 1, 5, 0), femem._jobs.Ticket(requests.readff(1, 0))
        with here, there:
            lent = self.lent(here, 41)
            there.sendall(frame(68, 40) + answer)
            self.assertTrue(lent.call([ticket]))
            self.assertEqual((ticket.result, lent.rest), (5, [frames.Settled(40)]))
            for more, rest, failed in (
                (frame(66, 39, 1, 6, 0), [frames.Answer(39, 1, 6)], False),
                (frame(67, 39), [frames.Withdrawn(39)], False),
                (b"wrong", [], True),
            ):
                lent, ticket = self.lent(here), femem._jobs.Ticket(requests.readff(1, 0))
                there.sendall(answer + more)
                self.assertFalse(lent.call([ticket]))
                self.assertEqual((ticket.result, lent.rest), (None if failed else 5, rest))
                self.assertEqual((lent.is_known, lent.is_over, lent.failure is not None), (True, True, failed))
                self.assertFalse(lent.call([femem._jobs.Ticket(requests.readff(1, 0))]))

    @mock.patch.object(lease, "READ_TIME", LONG)
    def test_a_lease_takes_the_answers_of_a_batch(self):
        """Whatever pieces they come in: each one is a packet."""
        here, there = socket.socketpair(socket.AF_UNIX, socket.SOCK_SEQPACKET)
        here.setsockopt(socket.SOL_SOCKET, socket.SO_RCVTIMEO, struct.pack("@ll", 0, 100_000))
        answers = [frame(66, 40 + k, 1, k, 0) for k in range(3)]
        for pieces, done, is_done in (
            ([b"".join(answers)], 3, True),
            ([answers[0] + frame(68, 40) + answers[1][:7], answers[1][7:] + answers[2] + b"\0"], 3, True),
            ([answers[0], answers[2] + answers[1]], 2, False),
            ([answers[0] + answers[1]], 2, False),
        ):
            lent = self.lent(here)
            tickets = [femem._jobs.Ticket(requests.readff(1, 0, nowait=True)) for _ in range(3)]
            for piece in pieces:
                there.send(piece)
            self.assertEqual(lent.call(tickets), is_done)
            self.assertEqual([ticket.result for ticket in tickets], [*range(done), *[None] * (3 - done)])
            self.assertEqual(sum(ticket is not None for ticket in lent.tickets), 3 - done)
            self.assertTrue(lent.is_known)
        here.close()
        there.close()

    def test_a_lease_moves_what_shows_its_client(self):
        """It is asked again before it is taken back. Whatever becomes of its former number is of no account."""
        here, there = socket.socketpair()
        withdrawn, answered = frame(67, 35), frame(70, 35, 10) + frame(66, 35, 1, 0, 0)
        settled, answer = frame(68, 40), frame(66, 41, 1, 5, 0)
        with here, there:
            for replies, left, rest, is_done in (
                (withdrawn + settled + answer, 0, [], True),
                (answered + settled + answer, 0, [], True),
                (answer, 35, [], True),
                (withdrawn + withdrawn + answer, 0, [frames.Withdrawn(35)], False),
                (frame(70, 35, 1) + answer, 35, [frames.Refusal(35, 1)], False),
                (frame(68, 35) + answer, 35, [frames.Settled(35)], True),
                (frame(66, 40, 1, 0, 0) + answered + settled + answer, 0, [frames.Answer(40, 1)], False),
            ):
                shown, ticket = femem._jobs.Ticket(requests.readff(2, 0)), femem._jobs.Ticket(requests.readff(1, 0))
                shown.number = 35
                lent = lease.Lease(here, frames.ReplyDecoder(), 40, 40, None, 35, shown)
                there.sendall(replies)
                self.assertEqual(lent.call([ticket]), is_done)
                self.assertEqual((lent.left, lent.rest, lent.tickets, lent.tickets.left), (left, rest, [shown, None], 35))
                asked = (shown.request.frame, frames.cancel(35), frames.settle(40), frames.pack_access(30, frames.NOWAIT, 0, frames.READFF, 1, 0, 0))
                sent = bytearray(b"".join(asked))
                frames.pack_number(sent, 5, 40)
                frames.pack_number(sent, len(sent) - 29, 41)
                self.assertEqual(there.recv(1000), sent)


if __name__ == "__main__":
    import unittest

    unittest.main()
