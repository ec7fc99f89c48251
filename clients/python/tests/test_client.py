"""The client for threads, with the model at a socket."""

import resource
import threading
import time
import unittest
from concurrent.futures import Future

import paths  # noqa: F401
from serving import WithFolder

import femem
from femem import Array, Client, requests
from femem.patterns import Lock


class Operations(WithFolder):
    def test_the_table(self):
        self.server()
        with Client(self.path, 7) as client:
            cells = client.create("cells", 2)
            self.assertEqual(cells, Array(1, 2))
            self.assertEqual(client.find("cells"), cells)
            client.writeef(cells, 0, 42)
            self.assertEqual(client.readff(cells, 0), 42)
            client.writeff(cells, 0, 2**64 - 1)
            self.assertEqual(client.int_fetch_add(cells, 0, 3), 2**64 - 1)
            self.assertEqual(client.readfe(cells, 0), 2)
            self.assertEqual(client.readxx(cells, 0), 2)
            client.writexf(cells, 0, 9)
            client.purge(cells, 0)
            self.assertEqual(client.readxx(1, 0), 0)
            client.remove(cells)

    def test_errors_of_answers(self):
        self.server()
        with Client(self.path, 7) as client:
            cells = client.create("a" * 32, 1)
            full = client.create("full", 1, full=True)
            for error, ask in [
                (femem.NameTaken, lambda: client.create("a" * 32, 1)),
                (femem.BadName, lambda: client.create("Cells", 1)),
                (femem.BadName, lambda: client.create("", 1)),
                (femem.BadName, lambda: client.create("a" * 33, 1)),
                (femem.BadName, lambda: client.find("ä")),
                (femem.BadLength, lambda: client.create("b", 0)),
                (femem.BadLength, lambda: client.create("b", 65537)),
                (femem.BadLength, lambda: client.create("b", -1)),
                (femem.WordLimit, lambda: client.create("b", 65536)),
                (femem.NoArray, lambda: client.find("b")),
                (femem.NoArray, lambda: client.remove(9)),
                (femem.NoArray, lambda: client.readxx(9, 0)),
                (femem.BadIndex, lambda: client.readxx(cells, 1)),
                (femem.NotNow, lambda: client.readfe(cells, 0, nowait=True)),
                (femem.NotNow, lambda: client.readff(cells, 0, nowait=True)),
                (femem.NotNow, lambda: client.writeff(cells, 0, 1, nowait=True)),
                (femem.NotNow, lambda: client.int_fetch_add(cells, 0, 1, nowait=True)),
                (femem.NotNow, lambda: client.writeef(full, 0, 1, nowait=True)),
                (ValueError, lambda: client.writexf(cells, 0, 2**64)),
                (ValueError, lambda: client.readxx(cells, 2**32)),
            ]:
                with self.assertRaises(error):
                    ask()
            for name in range(62):
                client.create(f"n{name}", 1)
            with self.assertRaises(femem.ArrayLimit):
                client.create("more", 1)

    def test_a_time_that_runs_out(self):
        self.server()
        with Client(self.path, 7, timeout=0.1) as client:
            word = client.create("word", 1)
            for timeout in ({}, {"timeout": 0.05}):
                with self.assertRaises(femem.TimedOut):
                    client.readfe(word, 0, **timeout)
            client.writeef(word, 0, 1, timeout=None)
            self.assertEqual(client.readff(word, 0), 1)
            self.assertEqual(client.report().waiters, [])

    def test_what_is_withdrawn(self):
        self.server()
        with Client(self.path, 7) as client:
            word = client.create("word", 1)
            future = client.submit(requests.readfe(word, 0))
            self.assertEqual((future.cancel(), future.cancelled(), client.readxx(word, 0)), (False, False, 0))
            self.assertEqual(len(client.report().waiters), 1)  # it waits on
            client.withdraw(future)
            self.assertIsInstance(future.exception(30), femem.Withdrawn)
            client.writeef(word, 0, 5)
            future = client.submit(requests.readff(word, 0))
            self.assertEqual(future.result(30), 5)
            client.withdraw(future)

    def test_what_another_client_asked_is_not_taken_back(self):
        self.server()
        with Client(self.path, 7) as one, Client(self.path, 8) as other:
            words = one.create("words", 40)
            for client in (one, other):
                client.futures = [client.submit(requests.readfe(words, index)) for index in range(40)]
            for future in one.futures:
                self.assertRaises(ValueError, other.withdraw, future)
            for wrong in (None, 5, Future()):
                self.assertRaises(TypeError, other.withdraw, wrong)
            one.submit_many([requests.writexf(words, index, index) for index in range(40)])
            for index in range(40):
                one.writeef(words, index, index, timeout=60)
            for client in (one, other):
                self.assertEqual([future.result(60) for future in client.futures], list(range(40)))

    def test_threads(self):
        self.server()
        with Client(self.path, 7) as client:
            hits = client.create("hits", 1, full=True)
            slot = client.create("slot", 1)
            got = []

            def count():
                for _ in range(50):
                    client.int_fetch_add(hits, 0, 1)

            def take():
                for _ in range(20):
                    got.append(client.readfe(slot, 0))

            threads = [threading.Thread(target=count) for _ in range(8)]
            threads += [threading.Thread(target=take) for _ in range(2)]
            for thread in threads:
                thread.start()
            for value in range(40):
                client.writeef(slot, 0, value)
            for thread in threads:
                thread.join()
            self.assertEqual(client.readff(hits, 0), 400)
            self.assertEqual(sorted(got), list(range(40)))

    def test_a_batch_is_one_send(self):
        """A batch is one lock, one send and one wait."""
        self.server()
        with Client(self.path, 7, probe_interval=100.0) as client:
            word = client.create("word", 1, full=True)
            sent = []
            inner = client._worker._socket

            class Counting:
                def send(self, content, *flags):
                    sent.append(inner.send(content, *flags))
                    return sent[-1]

            client._worker._socket = Counting()
            add = requests.int_fetch_add(word, 0, 1)
            self.assertEqual(client.submit_many([add] * 10), list(range(10)))
            self.assertEqual(sent, [10 * len(add.frame)])
            client._worker._socket = inner

    def test_what_waits_keeps_nobody_from_being_sent(self):
        self.server()
        with Client(self.path, 7) as client:
            words = client.create("words", 33)
            waiting = [client.submit(requests.readfe(words, index)) for index in range(33)]
            for index in range(33):
                client.writexf(words, index, index)
            self.assertEqual([future.result(30) for future in waiting], list(range(33)))

    def test_a_report(self):
        self.server()
        with Client(self.path, 7) as client, Client(self.path, 8) as other:
            words = client.create("words", 2)
            futures = [other.submit(requests.readff(words, 1)), client.submit(requests.readfe(words, 0))]
            deadline = time.monotonic() + 30
            while len(client.report().waiters) < 2 and time.monotonic() < deadline:
                time.sleep(0.01)
            report = client.report()
            self.assertEqual([(w.index, w.session, w.needs) for w in report.waiters], [(0, 7, "full"), (1, 8, "full")])
            self.assertEqual(report.sessions, {7: 1, 8: 1})
            self.assertTrue(report.all_wait)
            self.assertIn('"s8" -> "w1_1"', femem.observer.graph(report))
            client.remove(words)
            for future in futures:
                self.assertIsInstance(future.exception(30), femem.NoArray)


class Stops(WithFolder):
    def test_what_has_no_answer_is_sent_again(self):
        server = self.server()
        with Client(self.path, 7) as client:
            word = client.create("word", 1, full=True)
            for stop in range(5):
                server.posts = False
                futures = [client.submit(requests.int_fetch_add(word, 0, 1)) for _ in range(40)]
                time.sleep(0.05)
                server.kill()
                time.sleep(0.05)
                server.posts = True
                server.start()
                self.assertEqual([f.result(30) for f in futures], list(range(40 * stop, 40 * stop + 40)))

    def test_a_process_that_has_no_descriptor_left_connects_later(self):
        server = self.server()
        with Client(self.path, 7) as client:
            word = client.create("word", 1, full=True)
            limits = resource.getrlimit(resource.RLIMIT_NOFILE)
            server.kill()
            try:
                resource.setrlimit(resource.RLIMIT_NOFILE, (3, limits[1]))
                time.sleep(0.6)
            finally:
                resource.setrlimit(resource.RLIMIT_NOFILE, limits)
            server.start()
            self.assertEqual(client.int_fetch_add(word, 0, 1, timeout=60), 0)

    def test_what_waits_goes_on_waiting(self):
        server = self.server()
        with Client(self.path, 7) as client:
            word = client.create("word", 1)
            future = client.submit(requests.readfe(word, 0))
            server.kill()
            server.start()
            client.writeef(word, 0, 3)
            self.assertEqual(future.result(30), 3)

    def test_a_time_that_runs_out_while_the_server_is_away(self):
        server = self.server()
        with Client(self.path, 7) as client:
            word = client.create("word", 1)
            future = client.submit(requests.readfe(word, 0), timeout=2.0)
            time.sleep(0.05)
            server.kill()
            time.sleep(2.2)
            self.assertFalse(future.done())
            server.start()
            self.assertIsInstance(future.exception(30), femem.TimedOut)

    def test_a_server_that_never_comes_back(self):
        server = self.server()
        with Client(self.path, 7) as client:
            word = client.create("word", 1)
            client._core._reconnect_timeout = 0.5  # only now, so that it had enough time to attach
            futures = [client.submit(requests.readfe(word, 0)) for _ in range(40)]
            server.kill()
            begin = time.monotonic()
            for future in futures:
                self.assertIsInstance(future.exception(30), femem.ServerUnreachable)
            self.assertLess(time.monotonic() - begin, 15)
            with self.assertRaises(femem.ServerUnreachable):
                client.readxx(word, 0)

    def test_a_server_that_was_never_there(self):
        begin = time.monotonic()
        with self.assertRaises(femem.ServerUnreachable):
            Client(self.path, 7, reconnect_timeout=0.3)
        self.assertLess(time.monotonic() - begin, 15)

    def test_an_idle_client_waits_for_its_server_without_end(self):
        server = self.server()
        with Client(self.path, 7, reconnect_timeout=2.0) as client:
            word = client.create("word", 1, full=True)
            server.kill()
            time.sleep(2.5)
            server.start()
            self.assertEqual(client.int_fetch_add(word, 0, 1), 0)

    def test_another_store(self):
        server = self.server()
        with Client(self.path, 7) as client:
            word = client.create("word", 1, full=True)
            server.kill()
            server.model = type(server.model)()
            server.start()
            with self.assertRaises(femem.SessionLost):
                client.int_fetch_add(word, 0, 1)


class Sessions(WithFolder):
    def test_a_new_process_goes_on(self):
        self.server()
        client = Client(self.path, 7)
        word = client.create("word", 1, full=True)
        for _ in range(20):
            client.int_fetch_add(word, 0, 1)
        client.close()
        with Client(self.path, 7) as client:
            self.assertEqual(client.int_fetch_add(word, 0, 1), 20)

    def test_taken_over(self):
        self.server()
        with Client(self.path, 7, probe_interval=0.1) as first:
            word = first.create("word", 1)
            future = first.submit(requests.readfe(word, 0))
            with Client(self.path, 7) as second:
                self.assertIsInstance(future.exception(30), femem.TakenOver)
                with self.assertRaises(femem.TakenOver):
                    first.readxx(word, 0)
                second.writeef(word, 0, 1)
                self.assertEqual(second.readff(word, 0), 1)

    def test_bye(self):
        server = self.server()
        client = Client(self.path, 7)
        word = client.create("word", 1)
        future = client.submit(requests.readfe(word, 0))
        with self.assertRaises(femem.StillWaiting):
            client.bye()
        client.writeef(word, 0, 1)
        future.result(30)
        client.bye()
        self.assertEqual(server.model.stored.sessions, {})
        with self.assertRaises(femem.Closed):
            client.readxx(word, 0)

    def test_close_ends_what_is_under_way(self):
        self.server()
        client = Client(self.path, 7)
        word = client.create("word", 1)
        futures = [client.submit(requests.readfe(word, 0)) for _ in range(40)]
        client.close()
        client.close()
        for future in futures:
            self.assertIsInstance(future.exception(30), femem.Closed)

    def test_a_callback_may_use_the_client(self):
        self.server()
        with Client(self.path, 7) as client:
            word = client.create("word", 1, full=True)
            done = threading.Event()
            values = []

            def go_on(future):
                values.append(future.result())
                if len(values) < 5:
                    client.submit(requests.int_fetch_add(word, 0, 1)).add_done_callback(go_on)
                else:
                    client.close()
                    done.set()

            client.submit(requests.int_fetch_add(word, 0, 1)).add_done_callback(go_on)
            self.assertTrue(done.wait(30))
            self.assertEqual(values, list(range(5)))

    def test_a_callback_that_would_wait_for_its_own_client_is_told(self):
        self.server()
        with Client(self.path, 7, sessions=2) as client:
            word = client.create("word", 1, full=True)
            told = []

            def go_on(_):
                for wait in (
                    lambda: client.readff(word, 0),
                    lambda: client.submit_many([requests.readff(word, 0)]),
                    client.report,
                    client.bye,
                    lambda: Lock(client, "lock"),
                ):
                    try:
                        wait()
                    except RuntimeError as error:
                        told.append(error)

            client.submit(requests.readff(word, 0)).add_done_callback(go_on)
            self.assertEqual(client.int_fetch_add(word, 0, 1, timeout=60), 0)
            self.assertEqual(len(told), 5)


if __name__ == "__main__":
    unittest.main()
