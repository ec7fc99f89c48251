"""The explorer itself: it tries what it says that it tries, and each of its checks sees what it is for."""

import math
import unittest
from unittest import mock

import paths  # noqa: F401
import explorer
from explorer import POINT, Fault, Interrupted, explore, replay, tried, wander
from scenarios import ALL, Scenario, call, is_empty, nothing
from stepping import Call, wait_for

from femem import _errors as errors, requests
from femem._jobs import Job, Look, Pause, Present, Wait
from femem._locks import Lock
from femem._operations import batch, is_there, shared_array


def scenario(clients, check=nothing, bounds=((2, 0, 0, 0, 0),), **more):
    return Scenario("of a test", clients, check, (bounds, ()), is_kept=False, make=making, **more)


def making(world, client):
    yield from call(shared_array("a", 4, False), "making")
    yield from call(shared_array("presence", 1, False), "making")


# The arrays that `making` makes.
A, PRESENCE = 1, 2


def steps(*asked, allowed=(errors.NotNow,)):
    """A call of one step for each of these lists of requests. Gives the outcomes of the last one."""

    def run():
        outcomes = []
        for each in asked:
            outcomes = yield from batch(each, *allowed)
        return outcomes

    return call(run(), "steps")


def waiting(request, seconds=None):
    def run():
        return (yield Wait(request, seconds))

    return wait_for(Call(Job(run()), "waiting", seconds))


def look(word):
    return requests.readff(A, word, nowait=True)


class Enumeration(unittest.TestCase):
    def orders(self, clients, count, bound):
        """In which orders the server was asked, if each client asks so many things. Each schedule is tried once."""
        seen = []

        def asking(world, client):
            yield from steps([requests.writexf(A, client.session, k) for k in range(count)])

        def check(world):
            seen.append(tuple(world.asked))

        one = scenario([asking] * clients, check, [(bound, 0, 0, 0, 0)])
        self.assertTrue(explore(one, one.bounds, merges=False).is_whole)
        return seen

    def test_every_order_of_two_clients(self):
        for count in (1, 2):
            orders = self.orders(2, count, 2 * count + 4)
            self.assertEqual(len({*orders}), math.comb(2 * count, count))

    def test_every_order_of_three_clients(self):
        self.assertEqual(len({*self.orders(3, 1, 6)}), math.factorial(3))

    def test_orders_with_one_preemption(self):
        """One client is preempted after 0 to 3 of its requests, and goes on once the other has ended."""
        orders = {*self.orders(2, 3, 1)}
        wanted = {(a,) * k + (b,) * 3 + (a,) * (3 - k) for a, b in ((1, 2), (2, 1)) for k in range(4)}
        self.assertEqual(orders, wanted)

    def test_merging_keeps_the_outcomes(self):
        """What can be there at the end is the same whether or not known states end schedules."""
        outcomes = []

        def adding(world, client):
            (value,) = yield from steps([requests.readxx(A, 0)])
            yield from steps([requests.writexf(A, 0, value * 2 + client.session)])

        for merges in (True, False):
            ends = set()
            one = scenario([adding] * 3, lambda world: ends.add(world.server.array("a")[0][0]), [(3, 0, 0, 0, 0)])
            self.assertTrue(explore(one, one.bounds, merges=merges).is_whole)
            outcomes.append(ends)
        self.assertEqual(outcomes[0], outcomes[1])
        self.assertIn(11, outcomes[0])  # in the order 1, 2, 3
        self.assertIn(3, outcomes[0])  # all read first, and the third is the last to write

    def test_a_kill_at_each_step(self):
        """A client that writes 1, 2, 3 is killed once, or not at all, with so many of them written."""
        left = set()

        def writing(world, client):
            if client.life:
                left.add(sum(full for _, full in world.server.array("a")))
            else:
                yield from steps([requests.writexf(A, k, k) for k in range(3)])
            yield POINT

        self.assertTrue(tried(scenario([writing], bounds=[(0, 1, 0, 0, 0)])).is_whole)
        self.assertEqual(left, {0, 1, 2, 3})


class Checks(unittest.TestCase):
    """A wrong program for each check."""

    def fault(self, clients, check=nothing, bounds=((2, 0, 0, 0, 0),), text="", **more):
        one = scenario(clients, check, bounds, **more)
        found = tried(one)
        self.assertIsNotNone(found.fault, found)
        self.assertIn(text, found.fault)
        with self.assertRaises(Fault) as again:
            replay(one, found.schedule)
        self.assertEqual(str(again.exception), found.fault)
        whole = explore(one, one.bounds, merges=False)
        self.assertEqual(whole.price, found.price)
        self.assertIn(text, whole.fault)
        return found

    def test_two_inside(self):
        def entering(world, client):
            (found,) = yield from steps([look(0)])
            if isinstance(found, errors.NotNow):
                yield from steps([requests.writexf(A, 0, client.session)])
                world.enter()
                yield POINT
                world.leave()
                yield from steps([requests.purge(A, 0)])

        found = self.fault([entering, entering], text="two inside")
        self.assertEqual(found.price.preemptions, 2)  # one between look and write, and the other one inside

    def test_held_at_the_end(self):
        def taking(world, client):
            yield from steps([requests.writeef(A, client.session, 1, nowait=True)])

        self.fault([taking, taking], is_empty("a", first=1), text="held after all have ended")

    def test_a_circle_of_waits(self):
        def both(first, second):
            def script(world, client):
                yield from waiting(requests.writeef(A, first, 1))
                yield from waiting(requests.writeef(A, second, 1))
                yield from steps([requests.purge(A, first), requests.purge(A, second)])

            return script

        found = self.fault([both(0, 1), both(1, 0)], text="all that is left waits")
        self.assertEqual(found.price.preemptions, 1)

    def test_a_lost_signal(self):
        """It looks first, and then empties the signal that may have come meanwhile."""

        def waits(world, client):
            (found,) = yield from steps([look(0)])
            if isinstance(found, errors.NotNow):
                yield from steps([requests.purge(A, 1)])
                yield from waiting(requests.readfe(A, 1))

        def tells(world, client):
            yield from steps([requests.writexf(A, 0, 1), requests.writexf(A, 1, 1)])

        self.fault([waits, tells], text="all that is left waits")

    def test_polling_for_ever(self):
        def polling():
            while isinstance((yield from batch([look(0)], errors.NotNow))[0], errors.NotNow):
                yield Pause(0.5)

        def polls(world, client):
            yield from call(polling(), "polls")

        self.fault([polls], text="nobody gets on")

    def test_one_that_is_killed_and_does_not_come_back_to_what_it_held(self):
        def locking(world, client):
            yield from waiting(requests.writeef(A, 0, client.session))
            yield POINT
            yield from steps([requests.purge(A, 0)])

        found = self.fault([locking, locking], bounds=[(0, 1, 0, 0, 0)], text="all that is left waits")
        self.assertEqual(found.price.kills, 1)

    def test_a_wait_past_the_end(self):
        def late(world, client):
            def run():
                yield Wait(requests.readfe(A, 0), 0.4)

            yield from wait_for(Call(Job(run()), "late", 0.3))

        self.fault([late], text="was to end at 0.3")

    def test_too_many_requests(self):
        def asking(world, client):
            def run():
                for _ in range(5):
                    yield from batch([look(0), look(1)], errors.NotNow)

            yield from wait_for(Call(Job(run()), "asking", bound=(9, 0)))

        self.fault([asking], text="has made 10 requests")

    def test_one_that_happened_after_its_time(self):
        """It puts once more where its time is over: seen where that ends while others could go on."""

        def putting(world, client):
            try:
                yield from waiting(requests.writeef(A, 0, 1), 0.3)
            except errors.TimedOut:
                world.note("not put")
                yield from steps([requests.writeef(A, 0, 1, nowait=True)])

        def holding(world, client):
            yield from steps([requests.writexf(A, 0, 7)])
            yield from steps([requests.purge(A, 0)])

        def check(world):
            if world.notes and world.server.array("a")[0] == [1, True]:
                raise Fault("it timed out and happened")

        found = self.fault([putting, holding], check, [(1, 0, 0, 1, 0)], "timed out")
        self.assertEqual(found.price.early, 1)

    def test_one_that_takes_what_the_absent_hold(self):
        """It does not wait for a client that the server's stop has only cut off."""

        def shown():
            yield Present(PRESENCE)

        def holds(world, client):
            yield from call(shown(), "shown")
            yield from steps([requests.writexf(A, 0, client.session)])
            world.enter()
            yield POINT
            world.leave()
            yield from steps([requests.purge(A, 0)])

        def breaking():
            (owner,) = yield from batch([look(0)], errors.NotNow)
            if not isinstance(owner, errors.NotNow):
                report = yield Look()
                return not is_there(report, requests.Array(PRESENCE, 1), owner)
            return False

        def takes(world, client):
            if (yield from call(breaking(), "breaking")):
                world.enter()

        self.assertTrue(tried(scenario([holds, takes], bounds=[(2, 0, 0, 0, 0)])).is_whole)
        self.fault([holds, takes], bounds=[(2, 0, 1, 0, 0)], text="two inside")

    def test_a_call_that_leaves_something_where_it_is_cut_off(self):
        def locking(world, client):
            try:
                yield from waiting(requests.writeef(A, 0, 1))
                yield from steps([requests.purge(A, 0)])
            except (Interrupted, errors.Withdrawn):
                pass

        self.fault([locking], is_empty("a", 0), [(0, 0, 0, 0, 1)], "held after all have ended")

    def test_another_error(self):
        def wrong(world, client):
            yield from steps([requests.readff(99, 0, nowait=True)])

        self.fault([wrong], text="client 1 raised NoArray")

    def test_by_chance(self):
        def adding(world, client):
            (value,) = yield from steps([requests.readxx(A, 0)])
            yield from steps([requests.writexf(A, 0, value + 1)])

        def check(world):
            if world.server.array("a")[0][0] != 2:
                raise Fault("one is lost")

        one = scenario([adding, adding], check)
        found = wander(one, 1, 10.0)
        self.assertEqual((found.fault, wander(one, 1, 10.0).schedule), ("one is lost", found.schedule))
        with self.assertRaises(Fault):
            replay(one, found.schedule)


# Scenarios in which known states end many schedules, each with a bound within which all of them are tried without that too.
MERGED = [
    ("lock_threads", (1, 0, 0, 0, 0)), ("lock_numbers", (0, 1, 0, 0, 0)), ("lock_timeout", (1, 0, 0, 1, 0)), ("lock_cut", (0, 0, 0, 0, 1)),
    ("semaphore_key", (0, 1, 0, 0, 0)), ("semaphore_of_one", (1, 0, 0, 0, 0)), ("rw_three", (1, 0, 0, 0, 0)), ("once", (1, 1, 0, 0, 0)),
    ("queue_timeout", (0, 0, 0, 1, 0)), ("queue", (1, 0, 0, 0, 0)), ("queue_two_get", (1, 0, 0, 0, 0)), ("channel_key", (0, 1, 0, 0, 0)),
    ("channel", (0, 0, 1, 0, 0)), ("lock_takeover", (0, 0, 0, 1, 0)), ("moves_of_one", (0, 1, 0, 0, 0)), ("any", (1, 0, 1, 0, 0)),
    ("barrier", (2, 0, 0, 0, 0)), ("lock_stranger", (3, 0, 0, 0, 0)),
]  # fmt: skip


class Merging(unittest.TestCase):
    def ends(self, scenario, bound, merges):
        """All that can be there at the end, with what was noted, and when."""
        ends = set()

        def check(world):
            counts = world.kills, world.stops, world.cuts
            ends.add((str(world.server.state.arrays), tuple(world.noted), world.now, counts))

        with mock.patch.object(scenario, "check", check):
            found = explore(scenario, [bound], merges=merges, is_coarse=True)
        self.assertTrue(found.is_whole)
        return ends, found.schedules

    def test_the_ends_are_the_same_without(self):
        count = 0
        for name, bound in MERGED:
            with self.subTest(name):
                merged, schedules = self.ends(ALL[name], bound, True)
                whole, more = self.ends(ALL[name], bound, False)
                self.assertEqual(merged, whole)
                count += more - schedules
        self.assertGreater(count, 1000)  # so many schedules end early


class Foreseeing(unittest.TestCase):
    """A schedule whose state is foreseen to be known is not run: no state is left out, and the world stays as it is."""

    def numbers(self, name):
        found = tried(ALL[name])
        return found.is_whole, found.schedules, found.known, found.steps, found.states

    def test_as_many_schedules_and_states_as_without(self):
        for name in ("lock_key", "lock_absent", "lock_cut", "semaphore_both", "keys_making", "queue_making", "channel_timeout"):
            with self.subTest(name):
                numbers = self.numbers(name)
                with mock.patch.object(explorer.World, "foresee", lambda world, choice: None):
                    self.assertEqual(numbers, self.numbers(name))

    def world(self, name, count):
        """After so many steps."""
        world = explorer.World(ALL[name], ALL[name].limit)
        for _ in range(count):
            choices = world.choices()
            if choices is None:
                break
            choices[0][0](choices[0][1])
        return world

    def test_a_state_that_is_foreseen_comes(self):
        """At each choice of a schedule: the world is as before, and then has that state."""
        kinds = {}
        for name in ("lock_key", "lock_cut", "rw_full", "queue_making", "channel_timeout"):
            for count in range(60):
                for k in range(len(self.world(name, count).choices() or ())):
                    other = self.world(name, count)
                    (how, at, _), question = other.choices()[k], other.question(other.choices()[k][0].__name__, other.choices()[k][1])
                    how(at)
                    world = self.world(name, count)
                    if question is not None:
                        world.known = {question: explorer.Shown(other, other.clients[other.current])}
                    choice = world.choices()[k]
                    before = world.state()
                    foreseen = world.foresee(choice)
                    self.assertEqual(world.state(), before)
                    if foreseen is not None:
                        other.choices()
                        self.assertEqual(other.state(), foreseen)
                        kinds[how.__name__] = kinds.get(how.__name__, 0) + 1
        self.assertGreaterEqual({*kinds}, {"_move", "_kill", "_hear", "_go", "_cut", "_take_back", "_pass_early"})
        self.assertGreater(sum(kinds.values()), 100)


class Undoing(unittest.TestCase):
    """A pattern whose operation is undone where its caller is interrupted."""

    def test_it_is_undone_at_each_step(self):
        def locking(world, client):
            lock = world.make(Lock, client, "l")
            try:
                yield from lock.acquire()
                yield from lock.release()
            except (Interrupted, errors.Withdrawn):
                world.note("cut off")

        cuts = []

        def check(world):
            cuts.append(len(world.notes))
            is_empty("l", Lock.OWNER)(world)

        self.assertTrue(tried(scenario([locking], check, [(0, 0, 0, 0, 1)])).is_whole)
        self.assertGreater(sum(cuts), 3)


if __name__ == "__main__":
    unittest.main()
