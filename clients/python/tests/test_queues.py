"""Queues, channels, semaphores and work queues, with threads that each have a client, and the model at a socket."""

import os
import signal
import threading
import time
from unittest import mock

import paths  # noqa: F401
from serving import WithClients

import femem
import stepping
from femem import Client, _work as work
from femem._jobs import Job
from femem.patterns import BoundedQueue, Channel, Semaphore, WorkQueue
from femem._jobs import result_of
from femem._workpages import address


class ClientOf:
    """What patterns need of a client."""

    def __init__(self, core):
        self._core = core


def alone(core, now, steps, asked=None):
    """Runs the steps of a client that nobody disturbs, by a clock of its own. Counts what it sends, with each wait that it
    takes back."""
    job = Job(steps)
    core.begin(stepping.Call(job, "", None, None))
    while not job.done:
        if core.unsent:
            core.move()
            if asked is not None:
                asked[0] += 1
        elif core.inbox:
            core.hear()
        else:
            now[0] = max(now[0], core.next_time())
            core.tick()
            if asked is not None:
                asked[0] += 1
    return result_of(job)


class Queues(WithClients):
    def test_semaphore(self):
        inside, most = [], []

        def work(client, k):
            semaphore = Semaphore(client, "semaphore", 2)
            for _ in range(8):
                with semaphore:
                    inside.append(k)
                    most.append(len(inside))
                    time.sleep(0.001)
                    inside.remove(k)

        self.run_all(work)
        self.assertLessEqual(max(most), 2)

    def test_queue(self):
        def work(client, k):
            queue = BoundedQueue(client, "queue", 3)
            if k == 0:
                return [queue.get() for _ in range(40)]
            for value in range(10):
                queue.put(100 * k + value)
            return []

        got = self.run_all(work)[0]
        self.assertEqual(sorted(got), sorted(100 * k + value for k in range(1, 5) for value in range(10)))

    def test_a_queue_is_first_in_first_out(self):
        """Of puts that have ended. (Of two at the same time, one that is late comes later.)"""
        self.server()
        with Client(self.path, 1) as one, Client(self.path, 2) as two:
            mine, yours = BoundedQueue(one, "queue", 3), BoundedQueue(two, "queue", 3)
            for turn in range(30):
                for value in range(3):
                    mine.put(3 * turn + value)
                self.assertEqual([(yours, mine)[turn % 2].get() for _ in range(3)], [3 * turn, 3 * turn + 1, 3 * turn + 2])

    def test_a_queue_in_time(self):
        self.server()
        with Client(self.path, 1) as client:
            queue = BoundedQueue(client, "queue", 2)
            with self.assertRaises(femem.TimedOut):
                queue.get(timeout=0.05)
            queue.put(1)
            queue.put(2)
            with self.assertRaises(femem.TimedOut):
                queue.put(3, timeout=0.05)
            self.assertEqual([queue.get(), queue.get()], [1, 2])

    def test_clients_that_go_while_they_wait_leave_nothing_behind(self):
        self.server()
        with Client(self.path, 1) as client:
            queue, semaphore = BoundedQueue(client, "queue", 2), Semaphore(client, "semaphore", 1)
            semaphore.acquire()
            gone = [Client(self.path, 2 + k) for k in range(4)]
            for k, other in enumerate(gone):
                waits = BoundedQueue(other, "queue", 2).get if k < 2 else Semaphore(other, "semaphore", 1).acquire
                threading.Thread(target=lambda waits=waits: self.swallow(waits)).start()
            while len(client.report().waiters) < 4:
                time.sleep(0.01)
            for other in gone:
                other.close()
            for value in range(5):
                queue.put(value)
                self.assertEqual(queue.get(timeout=30), value)
            semaphore.release()
            self.assertTrue(semaphore.acquire(timeout=30))
            self.assertFalse(semaphore.acquire(timeout=0.05))

    @staticmethod
    def swallow(waits):
        try:
            waits()
        except femem.Closed:
            pass

    def test_a_put_and_a_get_are_two_sends_each(self):
        """One draws a ticket, and one puts the value, or takes it."""
        self.server()
        with Client(self.path, 7, probe_interval=100.0) as client:
            inner, sent = client._worker._socket, []

            class Counting:
                def __getattr__(self, name):
                    return getattr(inner, name)

                def send(self, content, *flags):
                    sent.append(inner.send(content, *flags))
                    return sent[-1]

            client._worker._socket = Counting()
            queue = BoundedQueue(client, "queue", 4)
            queue.put(4)
            for work in (lambda: queue.put(5), queue.get):
                sent.clear()
                work()
                # (a settle, of 13 bytes, may be sent by itself)
                self.assertEqual(len([size for size in sent if size > 13]), 2, sent)

    def test_a_queue_without_waiting(self):
        self.server()
        with Client(self.path, 1) as client:
            queue = BoundedQueue(client, "queue", 2)
            with self.assertRaises(femem.NotNow):
                queue.get_nowait()
            queue.put_nowait(1)
            queue.put(2)
            self.assertEqual(queue.qsize(), 2)
            with self.assertRaises(femem.NotNow):
                queue.put_nowait(3)
            self.assertEqual([queue.get_nowait(), queue.get(), queue.qsize()], [1, 2, 0])

    def test_whose_the_permits_are(self):
        self.server()
        with Client(self.path, 1) as one, Client(self.path, 2) as two:
            mine, yours = Semaphore(one, "semaphore", 2), Semaphore(two, "semaphore", 2)
            mine.acquire()
            mine.acquire()
            self.assertEqual(yours.holders(), [1, 1])
            self.assertFalse(yours.try_acquire())
            with self.assertRaises(femem.NotOwner):
                yours.release()
            yours.release(holder=1)
            self.assertTrue(yours.acquire(timeout=60))
            self.assertEqual(sorted(mine.holders()), [1, 2])

    def test_an_array_of_the_former_queue_is_not_misread(self):
        self.server()
        with Client(self.path, 1) as client:
            # (two counts, two signals and the values, as it was)
            old = client.create("queue", 3 + 5)
            client.writexf(old, 0, 2**32 + 1)
            for capacity in (4, 5):
                with self.assertRaises(femem.OtherPattern):
                    BoundedQueue(client, "queue", capacity)
            client.writexf(client.create("semaphore", 1 + 11), 0, 0)
            for permits in (4, 11):
                with self.assertRaises(femem.OtherPattern):
                    Semaphore(client, "semaphore", permits)

    def test_a_client_with_further_sessions_waits(self):
        self.server()
        with Client(self.path, 1, sessions=3) as client, Client(self.path, 2) as other:
            queue, semaphore = BoundedQueue(client, "queue", 2), Semaphore(client, "semaphore", 1)
            for _ in range(3):
                with self.assertRaises(femem.TimedOut):
                    queue.get(timeout=0.2)
                threading.Timer(0.3, BoundedQueue(other, "queue", 2).put, (5,)).start()
                self.assertEqual(queue.get(timeout=60), 5)
            semaphore.acquire()
            self.assertFalse(Semaphore(client, "semaphore", 1).acquire(timeout=0.3))

    def test_a_queue_whose_tickets_were_lost_goes_on(self):
        """Clients that were killed between ticket and slot: neither a value nor room is missed for long."""
        self.server()
        with Client(self.path, 1) as client, Client(self.path, 2) as other:
            queue, yours = BoundedQueue(client, "queue", 4), BoundedQueue(other, "queue", 4)
            words = client.find("queue")
            for head, tail in ((0, 9), (9, 0), (13, 6)):
                client.int_fetch_add(words, 1, head)
                client.int_fetch_add(words, 2, tail)
                for value in range(4):
                    queue.put(value, timeout=20)
                with self.assertRaises(femem.NotNow):
                    yours.put_nowait(9)
                self.assertEqual(sorted(yours.get(timeout=20) for _ in range(4)), [0, 1, 2, 3])
                with self.assertRaises(femem.NotNow):
                    queue.get_nowait()
                taken = []
                thread = threading.Thread(target=lambda: taken.extend(yours.get(timeout=20) for _ in range(6)))
                thread.start()
                for value in range(6):
                    queue.put(value, timeout=20)
                thread.join(30)
                self.assertEqual(sorted(taken), list(range(6)))

    def test_a_value_whose_taker_is_gone_wakes_one_client(self):
        """Of five that wait, one empties the signal and takes the value. The others ask for nothing."""
        server = self.server()
        with mock.patch("femem._queues.FIRST_LOOK", 60.0), Client(self.path, 1, probe_interval=100.0) as client:
            others = [Client(self.path, 2 + k, probe_interval=100.0) for k in range(5)]
            queue, taken, asked = BoundedQueue(client, "queue", 8), [], []
            queue.qsize()
            client.int_fetch_add(client.find("queue"), 1, 1)  # the ticket of a client that was killed
            gets = [lambda other=other: taken.append(BoundedQueue(other, "queue", 8).get(timeout=60)) for other in others]
            threads = [threading.Thread(target=get) for get in gets]
            for thread in threads:
                thread.start()
            while len(client.report().waiters) < 10:
                time.sleep(0.01)
            take = server.model.take
            server.model.take = lambda conn, message: (asked.append(message), take(conn, message))
            queue.put(0)
            while len(taken) < 1 or len(client.report().waiters) > 8:
                time.sleep(0.01)
            # (a ticket, the value, three looks and the signal; the value, and the wait that is taken back; reports)
            self.assertLess(len([message for message in asked if message[0] != "report"]), 20)
            for value in range(1, 5):
                queue.put(value)
            for thread in threads:
                thread.join(60)
            self.assertEqual(sorted(taken), list(range(5)))
            for other in others:
                other.close()

    def test_a_signal_that_went_with_a_killed_client_is_not_missed_for_long(self):
        self.server()
        with Client(self.path, 1) as client, Client(self.path, 2) as other:
            queue, yours = BoundedQueue(client, "queue", 4), BoundedQueue(other, "queue", 4)
            queue.qsize()
            words = client.find("queue")
            for _ in range(3):
                client.int_fetch_add(words, 1, 2)  # the tickets of two takers that were killed
                queue.put(1)
                self.assertEqual(client.readfe(words, 3), 4 + client.readff(words, 2) % 4 - 1)
                queue.put(2)
                client.purge(words, 3)
                self.assertEqual(sorted([yours.get(timeout=60), yours.get(timeout=60)]), [1, 2])

    def test_pollers_find_what_is_there(self):
        self.server()
        with Client(self.path, 1) as one, Client(self.path, 2) as two:
            mine, yours = BoundedQueue(one, "queue", 3), BoundedQueue(two, "queue", 3)
            for queue in (mine, yours, mine):
                with self.assertRaises(femem.NotNow):
                    queue.get_nowait()
            mine.put_nowait(1)
            self.assertEqual(yours.get_nowait(), 1)
            for value in range(3):
                yours.put_nowait(value)
            for queue in (mine, yours, mine):
                with self.assertRaises(femem.NotNow):
                    queue.put_nowait(9)
            got = [mine.get_nowait()]
            yours.put_nowait(3)
            got += [mine.get_nowait() for _ in range(3)]
            self.assertEqual(sorted(got), [0, 1, 2, 3])

    def test_a_channel(self):
        def work(client, k):
            channel = Channel(client, "channel")
            if k == 0:
                return [channel.get() for _ in range(40)]
            for value in range(10):
                channel.put(100 * k + value)
            return []

        got = self.run_all(work)[0]
        self.assertEqual(sorted(got), sorted(100 * k + value for k in range(1, 5) for value in range(10)))
        with Client(self.path, 1) as client:
            channel = Channel(client, "channel")
            with self.assertRaises(femem.TimedOut):
                channel.get(timeout=0.05)
            channel.put(1)
            with self.assertRaises(femem.TimedOut):
                channel.put(2, timeout=0.05)
            self.assertEqual(channel.get(), 1)

    def test_a_thousand_permits_take_few_requests(self):
        server = self.server()
        with Client(self.path, 1) as client:
            semaphore = Semaphore(client, "semaphore", 1000)
            semaphore.acquire()
            taken = []
            take = server.model.take
            server.model.take = lambda conn, message: (taken.append(message), take(conn, message))
            for _ in range(10):
                self.assertTrue(semaphore.acquire())
                semaphore.release()
            self.assertLess(len(taken), 200)

    def test_a_permit_of_an_earlier_process_is_adopted_and_the_others_are_given_back(self):
        self.server()
        pid = os.fork()
        if pid == 0:
            semaphore = Semaphore(Client(self.path, 5), "semaphore", 3)
            semaphore.acquire()
            semaphore.acquire()
            os.kill(os.getpid(), signal.SIGKILL)
        os.waitpid(pid, 0)
        with Client(self.path, 5) as client:
            semaphore = Semaphore(client, "semaphore", 3)
            self.assertEqual(semaphore.holders(), [5, 5])
            self.assertTrue(semaphore.try_acquire())
            self.assertTrue(semaphore.adopted)
            self.assertEqual(semaphore.holders(), [5])
            self.assertTrue(semaphore.acquire(timeout=10))
            self.assertFalse(semaphore.adopted)
            self.assertTrue(semaphore.acquire(timeout=10))
            self.assertFalse(semaphore.acquire(timeout=0.2))
            for _ in range(3):
                semaphore.release()
            self.assertEqual(semaphore.holders(), [])

    def test_jobs(self):
        self.server()
        with Client(self.path, 1) as one, Client(self.path, 2) as two:
            mine, yours = WorkQueue(one, "jobs", 8, attempts=2), WorkQueue(two, "jobs", 8, attempts=2)
            with self.assertRaises(femem.TimedOut):
                mine.take(timeout=0.05)
            mine.put(10)
            mine.put(11)
            with yours.take(timeout=30) as job:
                self.assertEqual((job.value, job.attempt), (10, 1))
                number = job.number
            with self.assertRaises(femem.NotOwner):
                job.done()
            for attempt in (1, 2):
                with self.assertRaises(KeyError):
                    with mine.take(timeout=30) as job:
                        self.assertEqual((job.value, job.attempt), (11, attempt))
                        raise KeyError
            self.assertNotEqual(job.number, number)
            with self.assertRaises(femem.TimedOut):
                yours.take(timeout=0.5)
            self.assertEqual(yours.aside(), [(job.number, 11)])
            yours.drop(job.number)
            self.assertEqual(mine.aside(), [])
            with self.assertRaises(ValueError):
                mine.put(2**64 - 1)
            mine.put(12)
            with self.assertRaises(femem.OtherPattern):
                WorkQueue(one, "jobs", 8, attempts=3).put(1)

    def test_a_put_waits_only_while_as_many_jobs_are_open_as_the_capacity_says(self):
        """Whichever of them end, and however the pages are cut."""
        self.server()
        with Client(self.path, 1) as one, Client(self.path, 2) as two:
            for capacity in (1, 3, 8, 64):
                with self.subTest(capacity=capacity):
                    mine, yours = (WorkQueue(client, f"jobs_{capacity}", capacity) for client in (one, two))
                    for value in range(capacity):
                        mine.put(value, timeout=0.0)
                    taken = [yours.take(timeout=30) for _ in range(min(capacity, 5))]
                    for _ in range(2 * capacity + 3):
                        with self.assertRaises(femem.TimedOut):
                            mine.put(9, timeout=0.0)
                        taken.pop().done()
                        mine.put(9, timeout=0.0)
                        taken.append(yours.take(timeout=30))
                    for job in taken:
                        job.done()

    def test_a_program_that_puts_a_job_for_each_that_it_takes_does_not_stop(self):
        self.server()
        with Client(self.path, 1) as client:
            queue = WorkQueue(client, "jobs", 64)
            for value in range(62):
                queue.put(value, timeout=30)
            for value in range(62, 262):
                with queue.take(timeout=0.0) as job:
                    self.assertEqual(job.value, value - 62)
                queue.put(value, timeout=0.0)

    def test_a_put_that_waits_goes_on_when_a_job_ends(self):
        self.server()
        with mock.patch("femem._work.FIRST_LOOK", 600.0), Client(self.path, 1) as one, Client(self.path, 2) as two:
            mine, yours = WorkQueue(one, "jobs", 2), WorkQueue(two, "jobs", 2)
            for value in range(2):
                mine.put(value)
            thread = threading.Thread(target=mine.put, args=(2, 60))
            thread.start()
            while not any((w.session, w.operation) == (1, "readff") for w in two.report().waiters):
                time.sleep(0.005)
            yours.take(timeout=30).done()
            thread.join(30)
            self.assertFalse(thread.is_alive())
            self.assertEqual([yours.take(timeout=30).value for _ in range(2)], [1, 2])

    def test_a_ticket_without_room_is_kept(self):
        self.server()
        with Client(self.path, 1) as client:
            queue = WorkQueue(client, "jobs", 4)
            for value in range(4):
                queue.put(value)
            for _ in range(3):
                with self.assertRaises(femem.TimedOut):
                    queue.put(4, timeout=0.0)
            page = client.find("jobs_1")
            self.assertEqual(client.readff(page, 0), 1)
            queue.take().done()
            queue.put(4, timeout=0.0)
            self.assertEqual([queue.take(timeout=30).value for _ in range(4)], [1, 2, 3, 4])
            self.assertEqual(client.readff(page, 0), 1)

    def test_a_job_whose_end_was_not_counted_takes_no_room(self):
        """Whoever ended it was killed in between."""
        self.server()
        with Client(self.path, 1) as client:
            queue = WorkQueue(client, "jobs", 1)
            for value in range(3):
                queue.put(value, timeout=30)
                with queue.take(timeout=30) as job:
                    job.has_ended = True
                    client.writeef(job.number >> 16, 4, 0)

    def test_old_jobs_that_hold_up_all_pages_stop_a_put_for_as_long(self):
        self.server()
        with Client(self.path, 1) as client:
            queue, old = WorkQueue(client, "jobs", 10, attempts=1), []
            for page in range(8):
                for slot in range(10):
                    queue.put(slot, timeout=30)
                    old.append(queue.take(timeout=30))
                    if slot:
                        old.pop().done()
            with self.assertRaises(femem.TimedOut):
                queue.put(9, timeout=0.1)
            old.pop(3).done()
            queue.put(9, timeout=30)

    def test_a_server_without_words_for_a_page_says_so(self):
        self.server()
        with Client(self.path, 1) as client:
            client.create("words", 60000)
            with self.assertRaises(femem.WordLimit):
                WorkQueue(client, "jobs", 60000).put(1)

    def test_a_work_queue_of_another_layout_is_refused(self):
        self.server()
        with Client(self.path, 1) as client:
            client.create("jobs", 4)
            with self.assertRaises(femem.OtherPattern):
                WorkQueue(client, "jobs", 4).put(1)

    def test_a_job_moves_once_whoever_takes_it(self):
        """Its former taker comes back after another one has taken it over, and moves it too."""
        self.server()
        with Client(self.path, 1) as one, Client(self.path, 2) as two:
            first, second = ([WorkQueue(client, name, 3) for name in ("first", "next")] for client in (one, two))
            first[0].put(7)
            mine = first[0].take(timeout=1)
            mine.fail()
            yours = second[0].take(timeout=5)
            self.assertEqual((mine.number, yours.attempt), (yours.number, 2))
            mine.has_ended = False  # as if it had been away
            second[1].put(70, for_job=yours)
            for again in (lambda: yours.move(second[1], 71), lambda: second[1].put(72, for_job=yours), yours.done):
                again()  # it has moved: nothing happens
            with self.assertRaises(femem.NotOwner):
                mine.move(first[1], 73)
            with self.assertRaises(femem.NotOwner):
                mine.done()
            last = first[1].take(timeout=1)
            self.assertEqual(last.value, 70)
            last.done()
            for queue in (first[0], first[1]):
                with self.assertRaises(femem.TimedOut):
                    queue.take(timeout=0.3)

    def test_a_job_that_moved_stays_when_its_former_page_goes(self):
        """Who moved it was killed before it counted. The former taker finds the job ended, and then all others of the page end."""
        self.server()
        with Client(self.path, 1) as one, Client(self.path, 2) as two:
            first, second = WorkQueue(one, "first", 4), WorkQueue(two, "next", 4)
            first.put(7)
            mine = first.take(timeout=1)
            self.assertEqual(second.aside(), [])  # (it is opened)
            page, slot = two._run_job(Job(second._ticket(None)))
            id, end, source = mine.number >> 16, first._end_at(mine.number & 0xFFFF), second._source_at(slot)
            two.writeef(page.id, source, address(id, end))
            two.writeef(page.id, second._value_at(slot), 70)
            two.writeef(id, end, address(page.id, source))
            with self.assertRaises(femem.NotOwner):
                mine.done()
            for _ in range(3):
                first.put(8)
                first.take(timeout=1).done()
            self.assertTrue(one._run_job(Job(first._remove_any())))
            with self.assertRaises(femem.NoArray):
                one.readxx(id, 0)
            self.assertEqual(second.take(timeout=1).value, 70)

    def test_a_job_that_does_not_move_in_time_stays(self):
        self.server()
        with Client(self.path, 1) as one, Client(self.path, 2) as other:
            first, full = WorkQueue(one, "first", 3), WorkQueue(one, "full", 1)
            first.put(7)
            full.put(1)
            with first.take(timeout=1) as job:
                with self.assertRaises(femem.TimedOut):
                    job.move(full, 70, timeout=0.1)
                self.assertFalse(job.has_moved)
                with self.assertRaises(ValueError):
                    WorkQueue(other, "full", 1).put(70, for_job=job)
                with self.assertRaises(ValueError):
                    full.put(70, key="k", for_job=job)
                full.take(timeout=1).done()
                job.move(full, 70, timeout=1)
            self.assertEqual(full.take(timeout=1).value, 70)

    def test_a_job_takes_at_most_thirteen_requests_whatever_the_backlog(self):
        server = self.server()
        with Client(self.path, 1) as one, Client(self.path, 2) as two:
            for capacity in (64, 1500):
                mine, yours = (WorkQueue(client, f"jobs_{capacity}", capacity) for client in (one, two))
                for value in range(capacity):
                    mine.put(value)
                asked, take = [], server.model.take
                server.model.take = lambda conn, message: (asked.append(message), take(conn, message))
                for value in range(300):
                    with yours.take(timeout=30):
                        pass
                    mine.put(value, timeout=30)
                server.model.take = take
                presence = two.find("presence").id
                # (what shows that the client is there is sent again with each window of numbers)
                calls = [m for m in asked if m[0] == "call" and (m[2][0] != "access" or m[2][2] != presence)]
                self.assertLess(len(calls) / 300, 13.0)
                self.assertGreater(len(calls) / 300, 9.0)

    def test_a_taker_that_waits_asks_at_most_two_requests_a_second(self):
        """Also after a backlog that it took, and beside the jobs that it had."""
        for jobs in (0, 3, 700):
            now = [0.0]
            core = stepping.Core(stepping.Server(), 1, lambda now=now: now[0])
            queue = stepping.stepped(work.WorkQueue)(ClientOf(core), "jobs", 700)
            for value in range(jobs):
                alone(core, now, work.WorkQueue.put.steps(queue, value))
            for _ in range(jobs):
                job = alone(core, now, work.WorkQueue.take.steps(queue, 1.0))
                alone(core, now, work.WorkJob.done.steps(job))
            asked, begin = [0], now[0]
            with self.assertRaises(femem.TimedOut):
                alone(core, now, work.WorkQueue.take.steps(queue, 120.0), asked)
            self.assertAlmostEqual(now[0] - begin, 120.0)
            self.assertLess(asked[0], 2 * 120)
            self.assertGreater(asked[0], 20)

    def test_a_job_of_an_absent_taker_is_found_among_many_that_others_have(self):
        """A look reads two of the open slots here: each is read again when several looks are over."""
        self.server()
        with Client(self.path, 1) as one, Client(self.path, 2) as two, mock.patch.object(work, "LOOK_OPEN", 2):
            gone = Client(self.path, 3)
            queue, busy = (WorkQueue(client, "jobs", 20, away_after=0.2) for client in (one, two))
            for value in range(16):
                busy.put(value)
            self.assertEqual(WorkQueue(gone, "jobs", 20, away_after=0.2).take(timeout=1).value, 0)
            for _ in range(15):
                busy.take(timeout=1)
            gone.close()
            self.assertEqual(queue.take(timeout=30).value, 0)

    def test_two_short_absences_are_no_long_one(self):
        self.server()
        now = [0.0]
        with Client(self.path, 1) as one, Client(self.path, 2) as two:
            queue = WorkQueue(one, "jobs", 4, away_after=5.0)
            queue._now = lambda: now[0]
            queue.put(7)
            yours = WorkQueue(two, "jobs", 4).take(timeout=1)
            two.close()
            for time_of_look in (0.0, 3.0, 1000.0, 1004.0, 1006.0):
                now[0] = time_of_look
                found = one._run_job(Job(queue._rescue(one.find("presence").id)))
                self.assertEqual(found is not None, time_of_look == 1006.0, time_of_look)
            self.assertEqual((found.number, found.attempt), (yours.number, 2))

    def test_a_backlog_of_jobs_that_are_set_aside_is_not_looked_at_again(self):
        server = self.server()
        with Client(self.path, 1) as client:
            queue = WorkQueue(client, "jobs", 100, attempts=1, away_after=0.4)
            for value in range(60):
                queue.put(value)
            for _ in range(60):
                queue.take(timeout=30).fail()
            with self.assertRaises(femem.TimedOut):
                queue.take(timeout=1.0)
            asked, take = [], server.model.take
            server.model.take = lambda conn, message: (asked.append(message), take(conn, message))
            with self.assertRaises(femem.TimedOut):
                queue.take(timeout=2.0)
            server.model.take = take
            self.assertLess(len(asked), 60)
            self.assertEqual(len(queue.aside()), 60)

    def test_a_work_queue_has_room_again_as_jobs_are_done(self):
        self.server()
        with Client(self.path, 1) as client:
            queue = WorkQueue(client, "jobs", 8)
            for value in range(8):
                queue.put(value, timeout=30)
            with self.assertRaises(femem.TimedOut):
                queue.put(9, timeout=0.2)
            got = []
            for value in range(0, 20, 2):
                for one in (value, value + 1):
                    with queue.take(timeout=30) as job:
                        got.append(job.value)
                    queue.put(100 + one, timeout=30)
                    with self.assertRaises(femem.TimedOut):
                        queue.put(9, timeout=0.0)
            self.assertEqual(got, [*range(8), *range(100, 112)])
