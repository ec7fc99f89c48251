"""The core with the model of the server, in random schedules: streams in pieces, breaks, stops, take-overs.

The tests check what a user sees: each request that ended with a result happened once, each withdrawn one not at all, and
those under way when a client ended at most once.
"""

import os
import unittest
from unittest import mock

import paths  # noqa: F401
from model import Model
from world import World, run, run_beside

from femem import _errors as errors, requests
from femem._attachment import Phase
from femem._lease import Lease
from femem._jobs import Ticket


class Schedules(unittest.TestCase):
    SEEDS = int(os.environ.get("SEEDS", "30"))

    def test_a_counter_is_exact(self):
        for seed in range(self.SEEDS):
            with self.subTest(seed=seed):
                world = World(seed)
                cores = [world.core(session) for session in range(1, 4)]
                array = run(world, cores[0], requests.create("counter", 1, True))
                tickets = []
                for _ in range(500):
                    if world.random.random() < 0.3:
                        timeout = world.random.choice([None, None, 0.1])
                        core = world.random.choice(cores)
                        tickets.append(core.submit(requests.int_fetch_add(array, 0, 1), world.now, timeout))
                    world.any_step(cores)
                world.settle_down(cores)
                for core in cores:
                    self.assertIsNone(core.failure)
                values = [t.result for t in tickets if t.error is None]
                taken_back = [t for t in tickets if isinstance(t.error, errors.TimedOut)]
                self.assertEqual(len(values) + len(taken_back), len(tickets))
                self.assertEqual(sorted(values), list(range(len(values))))
                self.assertEqual(run(world, cores[0], requests.readff(array, 0)), len(values))

    def test_each_value_is_taken_once(self):
        """Producers and consumers of a word, which often wait for each other, with timeouts that run out."""
        for seed in range(self.SEEDS):
            with self.subTest(seed=seed):
                world = World(1000 + seed)
                cores = [world.core(session) for session in range(1, 4)]
                array = run(world, cores[0], requests.create("slot", 1))
                puts, gets = [], []
                for step in range(400):
                    if world.random.random() < 0.25:
                        core = world.random.choice(cores)
                        timeout = world.random.choice([None, 0.2, 1.0])
                        if world.random.random() < 0.5:
                            puts.append((step, core.submit(requests.writeef(array, 0, step), world.now, timeout)))
                        else:
                            gets.append(core.submit(requests.readfe(array, 0), world.now, timeout))
                    world.any_step(cores)
                # Lets the remaining ones through.
                more = 0
                while True:
                    try:
                        world.settle_down(cores, 300)
                        break
                    except AssertionError:
                        more += 1
                        self.assertLess(more, 500)
                        waiting = [t for _, t in puts if not t.done]
                        if waiting:
                            gets.append(cores[0].submit(requests.readfe(array, 0), world.now))
                        else:
                            step = 1000 + more
                            puts.append((step, cores[0].submit(requests.writeef(array, 0, step), world.now)))
                put = sorted(value for value, t in puts if t.error is None)
                got = [t.result for t in gets if t.error is None]
                for ticket in [t for _, t in puts] + gets:
                    self.assertTrue(ticket.error is None or isinstance(ticket.error, errors.TimedOut))
                word = world.model.state.arrays[array.id][1][0]
                if word[1]:
                    got.append(word[0])
                self.assertEqual(sorted(got), put)

    def test_a_session_goes_from_process_to_process(self):
        """Clients end in the middle, and others start in the same session."""
        for seed in range(self.SEEDS):
            with self.subTest(seed=seed):
                world = World(2000 + seed)
                cores = [world.core(7), world.core(8)]
                array = run(world, cores[0], requests.create("counter", 1, True))
                tickets = []
                for _ in range(500):
                    chance = world.random.random()
                    if chance < 0.3:
                        core = world.random.choice(cores)
                        if core.failure is None:
                            tickets.append(core.submit(requests.int_fetch_add(array, 0, 1), world.now))
                    elif chance < 0.31:
                        at = world.random.randrange(2)
                        world.die(cores[at])
                        cores[at] = world.core(cores[at].session)
                    world.any_step(cores)
                world.settle_down(cores)
                values = [t.result for t in tickets if t.error is None]
                # A late attach of a process that has ended may take the session from the next one.
                unknown = [t for t in tickets if isinstance(t.error, (errors.Closed, errors.TakenOver))]
                self.assertEqual(len(values) + len(unknown), len(tickets))
                self.assertEqual(len(set(values)), len(values))
                end = world.model.state.arrays[array.id][1][0][0]
                self.assertLessEqual(len(values), end)
                self.assertLessEqual(end, len(values) + len(unknown))

    def test_of_two_clients_in_a_session_one_is_told(self):
        """A client whose session is taken over is told, and what was answered to either client was done once."""
        for seed in range(self.SEEDS):
            with self.subTest(seed=seed):
                world = World(3000 + seed)
                first, other = world.core(7), world.core(8)
                array = run(world, first, requests.create("counter", 1, True))
                cores = [first, other]
                tickets = []
                for step in range(400):
                    if step == 150:
                        cores.append(world.core(7))
                    core = world.random.choice(cores)
                    if world.random.random() < 0.3 and core.failure is None:
                        tickets.append(core.submit(requests.int_fetch_add(array, 0, 1), world.now))
                    world.any_step([core for core in cores if core.failure is None])
                world.settle_down(cores)
                world.now += 10
                for core in cores[::2]:
                    core.tick(world.now)
                    if core.failure is None:
                        core.submit(requests.readff(array, 0), world.now)
                world.settle_down(cores)
                told = [core.failure for core in (cores[0], cores[2]) if core.failure is not None]
                self.assertGreaterEqual(len(told), 1)
                for failure in told:
                    self.assertIsInstance(failure, errors.TakenOver)
                values = [t.result for t in tickets if t.error is None]
                self.assertEqual(len(set(values)), len(values))
                end = run(world, other, requests.readff(array, 0))
                self.assertLessEqual(len(values), end)
                unknown = [t for t in tickets if t.error is not None]
                self.assertLessEqual(end, len(values) + len(unknown))


def exchange(world, core, rounds):
    """Moves everything to the server and back, while the clock stands still."""
    for _ in range(rounds):
        core.tick(world.now)
        there = world.links[core][1]
        there += core.to_send
        core.to_send.clear()
        world.feed(world.links[core][0], there, len(there))
        world.model.post()
        world.collect(core)
        back = world.links[core][2]
        piece = bytes(back)
        back.clear()
        core.received(piece, world.now)


class Windows(unittest.TestCase):
    def test_requests_that_wait_keep_nobody_from_being_sent(self):
        world = World(1)
        core = world.core(7)
        array = run(world, core, requests.create("words", 40))
        waiting = [core.submit(requests.readfe(array, index), world.now) for index in range(40)]
        for index in range(40):
            run_beside(world, core, requests.writeef(array, index, index))
        world.settle_down([core])
        self.assertEqual([t.result for t in waiting], list(range(40)))

    def test_calls_beside_what_waits_need_no_time(self):
        """Beside requests that wait, three hundred calls are answered while the clock stands still."""
        for waiters in (1, 2, 11, 12, 16, 17, 20, 31, 32, 40):
            with self.subTest(waiters=waiters):
                world = World(waiters)
                core = world.core(7)
                words = run(world, core, requests.create("words", 40))
                count = run(world, core, requests.create("count", 1, True))
                waiting = [core.submit(requests.readfe(words, index), world.now) for index in range(waiters)]
                exchange(world, core, 6)
                turns = 0
                for value in range(300):
                    ticket = core.submit(requests.int_fetch_add(count, 0, 1), world.now)
                    while not ticket.done and turns < 2400:
                        exchange(world, core, 1)
                        turns += 1
                    self.assertEqual(ticket.result, value)
                self.assertTrue(waiters > 16 or turns == 300, turns)
                for index in range(waiters):
                    run_beside(world, core, requests.writeef(words, index, index))
                world.settle_down([core])
                self.assertEqual([ticket.result for ticket in waiting], list(range(waiters)))

    def test_what_waits_moves_only_beside_other_requests(self):
        """More requests wait than there are numbers. They take turns, and meanwhile the client sends nothing."""
        world = World(1)
        core = world.core(7)
        words = run(world, core, requests.create("words", 40))
        for index in range(40):
            core.submit(requests.readfe(words, index), world.now)
        exchange(world, core, 20)
        for _ in range(10):
            sent = 0
            for _ in range(50):
                sent += len(core.to_send)
                exchange(world, core, 1)
            self.assertLess(sent, 40 * 64)
            self.assertEqual(len(core.to_send), 0)
            self.assertGreater(core.next_time(), world.now)
            world.now += 0.06

    def test_a_batch_is_not_taken_back(self):
        """Only what is known to wait is moved: not requests whose answers are on their way."""
        for size in range(1, 17):
            world = World(size)
            core = world.core(7)
            word = run(world, core, requests.create("words", 1, True))
            for _ in range(20):
                tickets = [core.submit(requests.int_fetch_add(word, 0, 1), world.now) for _ in range(size)]
                self.assertFalse(core._outbox._cancelled)
                exchange(world, core, 1)
                self.assertFalse(core._outbox._cancelled)
                self.assertTrue(all(ticket.done for ticket in tickets))

    def test_a_full_window_of_answers_moves(self):
        world = World(2)
        core = world.core(7)
        array = run(world, core, requests.create("words", 1, True))
        tickets = [core.submit(requests.int_fetch_add(array, 0, 1), world.now) for _ in range(200)]
        world.settle_down([core])
        self.assertEqual([t.result for t in tickets], list(range(200)))

    def test_refusals_of_calls_have_names(self):
        world = World(3)
        core = world.core(7)
        run(world, core, requests.create("a", 1))
        world.model.call = lambda *_: 8
        with self.assertRaises(errors.NoMemory):
            run(world, core, requests.create("b", 1))
        del world.model.call
        self.assertEqual(run(world, core, requests.create("b", 1)).length, 1)


class Endings(unittest.TestCase):
    def test_bye(self):
        world = World(1)
        core = world.core(7)
        run(world, core, requests.create("a", 1))
        ticket = core.leave(world.now)
        world.settle_down([core])
        self.assertTrue(ticket.done and ticket.error is None)
        self.assertEqual(world.model.state.sessions, {})
        self.assertEqual(core.phase, Phase.ENDED)

    def test_bye_over_stops(self):
        for seed in range(100):
            with self.subTest(seed=seed):
                world = World(seed)
                core, other = world.core(7), world.core(8)
                world.settle_down([core, other])
                ticket = core.leave(world.now)
                for _ in range(60):
                    if core.failure is None:
                        world.any_step([core, other], 0.1, 0.05)
                world.settle_down([core, other])
                world.model.post()
                self.assertTrue(ticket.done and ticket.error is None)
                self.assertEqual(list(world.model.state.sessions), [8])

    def test_a_bye_that_takes_long_to_be_stored(self):
        world = World(1)
        core = world.core(7)
        world.settle_down([core])
        ticket = core.leave(world.now)
        for _ in range(20):
            world.push(core)
            world.pull(core)
            world.now += 1
            core.tick(world.now)
        self.assertFalse(ticket.done)
        world.settle_down([core])
        self.assertIsNone(ticket.error)

    def test_a_bye_while_a_floor_is_asked_for(self):
        world = World(1)
        core = world.core(7)
        array = run(world, core, requests.create("a", 1, True))
        tickets = [core.submit(requests.int_fetch_add(array, 0, 1), world.now) for _ in range(20)]
        while not all(ticket.done for ticket in tickets):
            world.push(core)
            world.model.post()
            world.pull(core)
        self.assertNotEqual(core._outbox.window.asked, core._outbox.window.floor)
        ticket = core.leave(world.now)
        world.push(core)
        world.model.post()
        world.stop()
        world.settle_down([core])
        self.assertIsNone(ticket.error)
        self.assertEqual(world.model.state.sessions, {})

    def test_bye_is_refused_while_something_waits(self):
        world = World(1)
        core = world.core(7)
        array = run(world, core, requests.create("a", 1))
        core.submit(requests.readfe(array, 0), world.now)
        self.assertIsInstance(core.leave(world.now).error, errors.StillWaiting)

    def test_a_session_that_is_not_kept_is_told(self):
        world = World(1)
        core = world.core(7)
        array = run(world, core, requests.create("a", 1, True))
        world.stop()
        world.model = Model()
        ticket = core.submit(requests.int_fetch_add(array, 0, 1), world.now)
        world.settle_down([core])
        self.assertIsInstance(ticket.error, errors.SessionLost)

    def test_what_callers_moved_over_a_connection_that_breaks(self):
        """However much of it was sent: another connection takes the session over, or comes once the former one is gone."""
        for takes_over in (False, True):
            for most in range(98):
                with self.subTest(takes_over=takes_over, sent=most):
                    self.move_and_break(most, takes_over)

    def move_and_break(self, most, takes_over):
        world = World(most)
        core, sent = world.core(7), bytearray()
        word, presence = run(world, core, requests.create("word", 1, True)), run(world, core, requests.create("presence", 1))
        core._show(presence, world.now)
        run(world, core, requests.int_fetch_add(word, 0, 1))
        first, _, floor, shown = core.lends()
        lent = Lease(mock.Mock(send=lambda frames, _: sent.extend(frames[:most])), core.decoder, first, first, None, floor, shown)
        ticket = Ticket(requests.int_fetch_add(word, 0, 1))
        self.assertFalse(lent.call([ticket]))
        core.takes_back(lent.tickets, lent.floor, lent.left, world.now)
        core.take_on(ticket, None, lambda: None, world.now)
        link = world.links.pop(core)
        world.feed(link[0], sent, len(sent))
        core.disconnected(world.now)
        if takes_over:
            world.connect(core)
            for _ in range(20):
                world.push(core)
                world.model.post()
                world.pull(core)
        world.model.gone(link[0])
        world.settle_down([core])
        self.assertEqual((ticket.result, core.failure), (1, None))
        self.assertEqual([run(world, core, requests.int_fetch_add(word, 0, 1)) for _ in range(60)], [*range(2, 62)])
        self.assertEqual((world.model.report().count(f" {presence.id} 0"), core.is_present()), (1, True))

    def test_a_session_limit(self):
        world = World(1)
        world.settle_down([world.core(session) for session in range(64)])
        core = world.core(64)
        world.settle_down([core])
        self.assertIsInstance(core.failure, errors.SessionLimit)


if __name__ == "__main__":
    unittest.main()
