"""The core when another client had its session before, or has it now."""

import unittest

import paths  # noqa: F401
from world import World, run

from femem import _errors as errors, requests


class Strangers(unittest.TestCase):
    def stranger(self, world, *messages):
        """A connection that sends these messages and is gone, with nothing posted."""
        world.conns += 1
        world.model.connect(world.conns)
        for message in messages:
            world.model.take(world.conns, message)
        return world.conns

    def test_an_old_welcome_comes_first(self):
        """The former client attached, raised the floor and sent a request, all in one; its replies come to the new client."""
        add = ("access", 23, 1, 0, 1, False)
        for settles in ([20], [20, 50], [20, 33, 65], [33], [2]):
            with self.subTest(settles=settles):
                world = World(1)
                array = run(world, world.core(8), requests.create("counter", 1, True))
                messages = [("attach", 7), *[("settle", floor) for floor in settles]]
                last = settles[-1]
                messages += [("call", number, add) for number in range(last, last + 32)]
                conn = self.stranger(world, *messages)
                core = world.core(7)
                world.connect(core)
                world.push(core)
                while core.to_send or world.model.pending or world.links[core][1]:
                    world.push(core)
                    world.model.post()
                    world.pull(core, 30)
                world.model.gone(conn)
                self.assertEqual(run(world, core, requests.int_fetch_add(array, 0, 1)), 32)
                self.assertGreaterEqual(core._outbox.window.floor, last + 32)

    def test_what_waits_of_the_former_user_is_taken_back(self):
        world = World(1)
        run(world, world.core(8), requests.create("word", 1))
        self.stranger(world, ("attach", 7), *[("call", n, ("access", 16, 1, 0, 0, False)) for n in (1, 5, 32)])
        core = world.core(7)
        world.settle_down([core])
        self.assertIsNone(core.failure)
        self.assertEqual(world.model.waiting, {})

    def test_a_session_that_another_client_ended_and_began_again_goes_unnoticed(self):
        """The request is carried out twice, and no client can detect it. README.md says so."""
        world = World(1)
        word = run(world, world.core(8), requests.create("counter", 1, True))
        core = world.core(7)
        world.settle_down([core])
        ticket = core.submit(requests.int_fetch_add(word, 0, 1), world.now)
        while core.to_send or world.links[core][1]:
            world.push(core)
        world.model.post()
        world.model.gone(world.links[core][0])  # the reply is lost, and the connection with it
        world.lose(core)
        tidy = world.core(7)
        world.settle_down([tidy])
        tidy.leave(world.now)
        world.settle_down([tidy])
        self.assertIsInstance(tidy.failure, errors.Closed)
        world.lose(tidy)
        anew = world.core(7)
        world.settle_down([anew])
        world.lose(anew)
        world.settle_down([core])
        self.assertEqual((ticket.result, core.failure), (1, None))
        self.assertEqual(run(world, core, requests.readff(word, 0)), 2)

    def met(self, world, ask):
        """A client whose first window is all answered, and whose settle and further requests are lost on the way."""
        core = world.core(7)
        array = run(world, world.core(8), requests.create("counter", 1, True))
        world.settle_down([core])
        tickets = [core.submit(ask(array), world.now) for _ in range(32)]
        while not all(ticket.done for ticket in tickets):
            world.push(core)
            world.model.post()
            world.pull(core)
            if core._outbox.window.asked != core._outbox.window.floor:
                core.to_send.clear()
        tickets = [core.submit(ask(array), world.now) for _ in range(40)]
        world.model.gone(world.links[core][0])
        world.lose(core)
        return core, array, tickets

    def test_a_former_client_that_comes_back_gets_no_answer_of_another(self):
        for when in ("posted", "pending"):
            with self.subTest(when):
                world = World(1)
                core, array, tickets = self.met(world, lambda array: requests.int_fetch_add(array, 0, 1))
                other = world.core(7)
                world.settle_down([other])
                others = [other.submit(requests.int_fetch_add(array, 0, 1), world.now) for _ in range(32)]
                world.push(other)
                if when == "posted":
                    world.model.post()
                world.connect(core)
                world.push(core)
                world.model.post()
                world.pull(core)
                self.assertIsInstance(core.failure, errors.TakenOver)
                for ticket in tickets:
                    self.assertIsInstance(ticket.error, errors.TakenOver)
                self.assertEqual(len([t for t in others if t.result is not None]), 0)

    def test_a_session_that_is_taken_is_left(self):
        """Even if the other client does not raise the floor."""
        world = World(1)
        core = world.core(7)
        array = run(world, core, requests.create("counter", 1, True))
        conn = self.stranger(world, ("attach", 7))
        ticket = core.submit(requests.int_fetch_add(array, 0, 1), world.now)
        world.settle_down([core])
        self.assertIsInstance(ticket.error, errors.TakenOver)
        self.assertEqual(world.model.session_of[conn], 7)

    def test_a_cancel_is_sent_again(self):
        world = World(1)
        core = world.core(7)
        array = run(world, core, requests.create("word", 1))
        ticket = core.submit(requests.readfe(array, 0), world.now)
        world.push(core)
        core.withdraw(ticket, world.now)
        world.stop()
        world.settle_down([core])
        self.assertIsInstance(ticket.error, errors.Withdrawn)


if __name__ == "__main__":
    unittest.main()
