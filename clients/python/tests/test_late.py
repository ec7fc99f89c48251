"""Requests of an earlier process with the same session file that the server reads late, after they were taken back."""

import itertools
import os
import tempfile
import unittest

import paths  # noqa: F401
from serving import WithFolder
from world import Core, World, run

from femem import _errors as errors, _frames as frames, requests
from femem._arguments import Choice
from femem._attachment import Phase
from femem._sessionfile import SessionFile
from femem._sessionstate import Asked
from femem._jobs import Ticket


class SessionFolder:
    """Another folder for a part of a test."""

    def __init__(self, test):
        self.test = test

    def __enter__(self):
        self.folder = tempfile.TemporaryDirectory()
        self.test.path = os.path.join(self.folder.name, "s")

    def __exit__(self, *_):
        self.folder.cleanup()


class Late(WithFolder):
    SEEDS = int(os.environ.get("SEEDS", "30"))

    def opened(self, world, path):
        """A client with a session file."""
        file = SessionFile(path)
        core = Core(Choice("", file.state.session, file, pause=1.0))
        core.open(world.now)
        return core

    def kill(self, world, core):
        """Its process is killed once its file is synced."""
        core.file.commit()
        core.file.abandon()
        core.file = core._outbox._file = None
        world.die(core)

    def late(self, world, core, *calls):
        """What an earlier process's connection brings: it attaches the session again, and sends these requests."""
        world.conns += 1
        world.model.connect(world.conns)
        world.model.take(world.conns, ("attach", core.session))
        for number, array in calls:
            world.model.take(world.conns, ("call", number, ("access", frames.READFE, array.id, 0, 0, False)))

    def words(self, world):
        """A word that stays empty, and a counter."""
        other = world.core(8)
        return run(world, other, requests.create("word", 1)), run(world, other, requests.create("count", 1, True))

    def step(self, world, core):
        """Something goes each way."""
        if core not in world.links:
            world.connect(core)
        world.now += 0.05
        core.tick(world.now)
        world.push(core)
        world.model.post()
        world.pull(core)

    def left(self, world, request, key=None):
        """What an earlier process left waiting: its number, and the next process's client."""
        earlier = self.opened(world, self.path)
        world.settle_down([earlier])
        ticket = Ticket(request)
        ticket.key = key
        earlier.take((ticket,), None, world.now)
        world.push(earlier)
        self.assertTrue(world.model.waiting)
        self.kill(world, earlier)
        return ticket.number, self.opened(world, self.path)

    def test_a_request_of_an_earlier_process_that_comes_late_does_nothing(self):
        """Once the next process has said that it did not happen, the floor stands above its number."""
        world = World(1)
        word, count = self.words(world)
        number, core = self.left(world, requests.readfe(word, 0))
        (ticket,) = core.recovered
        core.withdraw(ticket, world.now)
        while not ticket.done:
            self.step(world, core)
        self.assertIsInstance(ticket.error, errors.Withdrawn)
        self.assertGreater(world.model.stored.sessions[core.session][0], number)
        run(world, world.core(9), requests.writeef(word, 0, 77))
        self.late(world, core, (number, word))
        self.assertEqual(world.model.state.arrays[word.id][1][0], [77, True])
        tickets = [core.submit(requests.int_fetch_add(count, 0, 1), world.now) for _ in range(100)]
        world.settle_down([core])
        self.assertIsNone(core.failure)
        self.assertEqual([ticket.result for ticket in tickets], list(range(100)))
        self.assertEqual((world.model.waiting, core._outbox._clearings), ({}, 0))

    def test_a_request_of_an_earlier_process_that_comes_late_at_any_step(self):
        """A value is there when it comes. It is the request's result, or is still there."""
        ends = set()
        for late_at in range(14):
            for taken_at in (0, 2, 5, 99):
                with self.subTest(late_at=late_at, taken_at=taken_at), SessionFolder(self):
                    world = World(1)
                    word, _ = self.words(world)
                    number, core = self.left(world, requests.readfe(word, 0))
                    other, (ticket,) = world.core(9), core.recovered
                    world.settle_down([other])
                    for at in range(14):
                        if at == taken_at:
                            core.withdraw(ticket, world.now)
                        if at == late_at:
                            run(world, other, requests.writeef(word, 0, 77))
                            self.late(world, core, (number, word))
                        self.step(world, core)
                    core.withdraw(ticket, world.now)
                    world.settle_down([core])
                    got = 77 if world.model.state.arrays[word.id][1][0][1] else ticket.result
                    self.assertEqual((got, ticket.done, core.failure), (77, True, None))
                    ends.add(type(ticket.error))
                    core.file.abandon()
        self.assertEqual(ends, {type(None), errors.Withdrawn})

    def test_a_put_under_a_key_is_done_once_whatever_comes_late(self):
        """The second process takes it back, and is killed at any step, or not. The third one puts it again."""
        put_by_the_second = 0
        for killed_at in range(12):
            for late_at in range(12):
                with self.subTest(killed_at=killed_at, late_at=late_at), SessionFolder(self):
                    put_by_the_second += self.put_twice(World(1), killed_at, late_at)
        self.assertGreater(put_by_the_second, 0)

    def put_twice(self, world, killed_at, late_at):
        word, _ = self.words(world)
        other = world.core(9)
        run(world, other, requests.writeef(word, 0, 1))
        put, got = requests.writeef(word, 0, 5), []
        number, core = self.left(world, put, b"job")
        (ticket,) = core.recovered
        core.withdraw(ticket, world.now)
        for at in range(12):
            if at == late_at:
                got.append(run(world, other, requests.readfe(word, 0)))
                self.late(world, core)
                world.model.take(world.conns, ("call", number, ("access", frames.WRITEEF, word.id, 0, 5, False)))
            if at == killed_at:
                core.file._limit = 0  # it is rewritten, unless that would lose something
                self.kill(world, core)
                core = self.opened(world, self.path)
            self.step(world, core)
        again = Ticket(put)
        again.key = b"job"
        core.take((again,), None, world.now)
        for _ in range(12):
            self.step(world, core)
            if world.model.state.arrays[word.id][1][0][1]:
                got.append(run(world, other, requests.readfe(word, 0)))
        self.assertTrue(again.done and again.error is None, again.error)
        self.assertEqual((got, core.failure), ([1, 5], None))
        core.file.abandon()
        return ticket.done and ticket.error is None

    def test_a_put_under_a_key_is_done_once_though_its_answer_is_not_read(self):
        """The second process gives it a new number. The third asks for the former one again, and is killed before it reads."""
        for second, third, is_read in itertools.product(range(6), range(6), (False, True)):
            with self.subTest(second=second, third=third, is_read=is_read), SessionFolder(self):
                self.put_by_four(World(1), second, third, is_read)

    def put_by_four(self, world, second, third, is_read):
        word, _ = self.words(world)
        other, put = world.core(9), requests.writeef(word, 0, 5)
        run(world, other, requests.writeef(word, 0, 1))
        _, core = self.left(world, put, b"job")
        for _ in range(second):
            self.step(world, core)
        self.kill(world, core)
        got = [run(world, other, requests.readfe(word, 0))]
        core = self.opened(world, self.path)
        for _ in range(third):
            self.step(world, core)
        if not is_read and core in world.links:
            core.tick(world.now)
            world.push(core)
            world.model.post()
        self.kill(world, core)
        core, again = self.opened(world, self.path), Ticket(put)
        again.key = b"job"
        core.take((again,), None, world.now)
        for _ in range(12):
            self.step(world, core)
            if world.model.state.arrays[word.id][1][0][1]:
                got.append(run(world, other, requests.readfe(word, 0)))
        self.assertTrue(again.done and again.error is None, again.error)
        self.assertEqual((got, core.failure), ([1, 5], None))
        core.file.abandon()

    def test_a_time_out_under_a_key_takes_back_what_an_earlier_process_left(self):
        """The call comes at any step, and the value too. It is the call's result, or is there after the time-out and stays there."""
        ends = set()
        for asked_at, put_at, waits in itertools.product(range(10), range(14), (False, True)):
            with self.subTest(asked_at=asked_at, put_at=put_at, waits=waits), SessionFolder(self):
                ends.add(self.time_out_under_a_key(World(1), asked_at, put_at, waits))
        self.assertEqual(ends, {(False, None), (False, errors.TimedOut), (True, None), (True, errors.TimedOut)})

    def time_out_under_a_key(self, world, asked_at, put_at, waits):
        """`waits`: another call under the key has no time-out. How the first one ended."""
        word, _ = self.words(world)
        take, other, late = requests.readfe(word, 0), world.core(9), 20
        _, core = self.left(world, take, b"job")
        (left,), calls = core.recovered, [Ticket(take) for _ in range(1 + waits)]
        for call in calls:
            call.key = b"job"
        for at in range(late):
            if at == asked_at:
                core.take(calls[:1], 0.1, world.now)
                core.take(calls[1:], None, world.now)
            if at == put_at:
                run(world, other, requests.writeef(word, 0, 77))
            self.step(world, core)
            self.assertFalse(not waits and calls[0].error is not None and core.is_open(b"job"))
        taken = not world.model.state.arrays[word.id][1][0][1]
        self.assertTrue(calls[0].done and (left.done or waits))
        self.assertEqual([call.result for call in calls[1:]], [77] * waits)
        self.assertEqual(taken, waits or calls[0].result == 77)
        self.assertEqual((left.result == 77, core.keys(), core.failure), (taken, [b"job"] * taken, None))
        core.file.abandon()
        return waits, None if calls[0].error is None else type(calls[0].error)

    def with_late(self, world):
        """A client that asks for the floor above a request that was taken back, which comes late just before that."""
        word, count = self.words(world)
        core = self.opened(world, self.path)
        world.settle_down([core])
        ticket = core.submit(requests.readfe(word, 0), world.now, 0.01)
        world.settle_down([core])
        self.late(world, core, (ticket.number, word))
        self.assertEqual((len(world.model.waiting), core._outbox._clearings), (1, 0))
        self.assertEqual(core._outbox.window.asked, ticket.number + 1)
        return core, count

    def test_a_server_that_takes_nothing_back_is_left(self):
        world = World(1)
        core, count = self.with_late(world)
        take, (late,) = world.model.take, world.model.waiting.items()

        def keeps(conn, message):
            take(conn, message)
            world.model.waiting.update([late])

        world.model.take = keeps
        tickets = [core.submit(requests.int_fetch_add(count, 0, 1), world.now) for _ in range(40)]
        world.settle_down([core])
        self.assertIsInstance(core.failure, errors.StillWaiting)
        self.assertTrue(all(type(ticket.error) in (errors.StillWaiting, type(None)) for ticket in tickets))

    def test_a_bye_behind_a_settle_that_is_refused(self):
        world = World(1)
        core, count = self.with_late(world)
        while core.phase is not Phase.ATTACHING:
            self.step(world, core)
        while core.phase is not Phase.READY:
            self.step(world, core)
        leaving = core.leave(world.now)
        world.settle_down([core])
        self.assertTrue(leaving.done and leaving.error is None)
        self.assertEqual(core._outbox._clearings, 1)

    def test_a_bye_that_is_refused_since_a_late_connection_has_the_session(self):
        world = World(1)
        core, count = self.with_late(world)
        leaving = core.leave(world.now)
        world.settle_down([core])
        self.assertTrue(leaving.done and leaving.error is None)
        self.assertNotIn(core.session, world.model.stored.sessions)

    def test_several_floors_that_an_earlier_process_asked_for(self):
        """As a client in C does. The first is refused because of the late request, and the second one because of the first."""
        world = World(1)
        word, count = self.words(world)
        file = SessionFile(self.path)
        file.begin(33)
        for number in range(33, 83):
            file.asked(number, Asked(requests.int_fetch_add(count, 0, 1).frame, None, False))
            file.answered(frames.Answer(number, frames.VALUE))
            file.settling(min(number + 1, 65) if number < 82 else 83)
        file.commit()
        file.abandon()
        core = self.opened(world, self.path)
        self.late(world, core)
        world.model.take(world.conns, ("settle", 33))
        world.model.post()
        world.model.take(world.conns, ("call", 40, ("access", frames.READFE, word.id, 0, 0, False)))
        self.assertEqual([run(world, core, requests.int_fetch_add(count, 0, 1)) for _ in range(40)], list(range(40)))
        self.assertEqual((core._outbox._clearings, core.failure), (1, None))

    def any_step(self, world, core, word, count, adds, waits):
        """Returns the next process's client if this one's is killed."""
        drawn = world.random.random()
        if drawn < 0.15:
            adds.append(core.submit(requests.int_fetch_add(count, 0, 1), world.now))
        elif drawn < 0.25:
            waits.append(core.submit(requests.readfe(word, 0), world.now, world.random.choice([0.01, 0.1, 0.5])))
        elif drawn < 0.26 and core.phase is Phase.READY:
            ended = [ticket.number for ticket in waits if ticket.error is not None and ticket.number is not None]
            ended = [number for number in ended if number >= core._outbox.window.floor]
            self.late(world, core, *[(number, word) for number in ended[: world.random.randint(1, 4)]])
        elif drawn < 0.263:
            path = core.file.path
            self.kill(world, core)
            core = self.opened(world, path)
            for ticket in core.recovered:
                if ticket.request.what.startswith("readfe"):
                    core.withdraw(ticket, world.now)
                    waits.append(ticket)
                else:
                    adds.append(ticket)
        for _ in range(3):
            world.any_step([core])
        return core

    def test_late_requests_at_any_moment(self):
        """Processes are killed, requests taken back, and requests that were taken back come late, several at a time."""
        cleared = 0
        for seed in range(self.SEEDS):
            with self.subTest(seed=seed):
                world = World(seed)
                word, count = self.words(world)
                core, adds, waits = self.opened(world, f"{self.path}{seed}"), [], []
                for _ in range(500):
                    core = self.any_step(world, core, word, count, adds, waits)
                    cleared += core._outbox._clearings
                world.settle_down([core])
                self.assertIsNone(core.failure)
                self.assertTrue(all(ticket.done for ticket in waits if not isinstance(ticket.error, errors.Closed)))
                values = sorted(ticket.result for ticket in adds if ticket.error is None)
                self.assertEqual(values, list(range(len(values))))
                self.assertEqual(world.model.state.arrays[count.id][1][0][0], len(values))
        self.assertGreater(cleared, 0)


if __name__ == "__main__":
    unittest.main()
