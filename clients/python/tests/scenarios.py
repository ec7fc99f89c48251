"""What the explorer runs: programs of two or three clients, and what must hold at the end.

A script is a generator of (world, client): it makes patterns by `world.make`, waits for their operations by `yield from`,
says where it is alone by `world.enter` and `world.leave`, and notes for the check what it knows by `world.note`. A client
that is killed runs its scripts again from their start, in the same session.
"""

import explorer
from explorer import POINT, Fault, Interrupted
from stepping import Call, wait_for

from femem import _errors as errors, _keylocks as keylocks, _locks as locks, _queues as queues, requests, _semaphore as semaphore, _words as words, _work as work
from femem._jobs import Job, first_of
from femem._operations import PRESENCE, once, shared_array

ALL = {}


class Scenario:
    """Programs of clients, and the bounds (`explorer.Price`) within which every schedule is tried, two lists (see below).

    `check` is run at the end. `victims` may be killed, and are started again after `away` seconds. `patience`: for so many
    seconds nobody need get on. `make` is a script that is run before, so that the clients find the arrays of their patterns.
    """

    made = None
    limit = explorer.FREE
    stall, ends_by = 0.0, None

    def __init__(
        self,
        name,
        clients,
        check,
        bounds,
        victims=(1, 2, 3),
        away=0.0,
        patience=6.0,
        kills_anywhere=False,
        make=None,
        deepest=(12, 2, 2, 3, 1),
        is_kept=True,
        stall=0.0,
        ends_by=None,
    ):
        """`deepest`: what a schedule by chance may cost, of the kinds that the bounds have. `stall`: how long one that ends
        a time early stands still. `ends_by`: when all have ended where nobody is killed, stopped or late."""
        self.name = name
        self.check = nothing
        self.patience = patience
        if make is not None:
            self.clients = [[make]]
            self.made = explorer.finish(explorer.World(self)).server.state
        self.clients = [scripts if isinstance(scripts, list) else [scripts] for scripts in clients]
        self.check = check
        self.bounds, self.bounds_of_steps = ([explorer.Price._make(bound) for bound in each] for each in bounds)
        self.victims = victims
        self.away = away
        self.kills_anywhere = kills_anywhere
        self.stall = stall
        self.ends_by = ends_by
        self.limit = explorer.Price._make(map(max, zip(*self.bounds, *self.bounds_of_steps)))
        self.deepest = explorer.Price._make(most if at else 0 for most, at in zip(deepest, self.limit))
        if is_kept:
            ALL[name] = self


def nothing(world):
    pass


def call(steps, name):
    return wait_for(Call(Job(steps), name))


def opened(pattern):
    """As the faces do where a pattern is made: finds its array."""
    if not isinstance(pattern, work.WorkQueue):
        yield from call(pattern._find(), "find")
    return pattern


def made(kind, *args, what="_find"):
    """Makes the array of that pattern, and the one that shows who is there."""

    def script(world, client):
        yield from call(getattr(world.make(kind, client, *args), what)(), what)
        yield from call(shared_array(PRESENCE, 1, False), "presence")

    return script


# Bounds: within the first ones somebody may come between the requests of a step, and not within the second ones. Each has
# preemptions, kills, stops of the server, times that end early, and calls that are cut off.
WIDE = [(3, 0, 0, 0, 0), (1, 1, 0, 0, 0), (1, 0, 1, 0, 0), (1, 0, 0, 1, 0)]
EACH = [(2, 0, 0, 0, 0), (0, 1, 0, 0, 0), (0, 0, 1, 0, 0), (0, 0, 0, 1, 0)]
MAKING = (EACH[:2], ())
SMALL = (WIDE, ())
TWO = (EACH, WIDE)
VARIANT = (EACH, [(3, 0, 0, 0, 0)])
THREE = ([(1, 0, 0, 0, 0)], EACH[:2])
FEWER = ([], [(1, 0, 0, 0, 0), *EACH[1:]])
TIMED = ([(2, 0, 0, 0, 0), (1, 0, 0, 1, 0), (0, 0, 0, 2, 0)], ())
KILLED = ([(0, 1, 0, 0, 0)], [(1, 1, 0, 0, 0)])
# By chance: who stands still after a stop of the server is absent, and loses what it holds.
APART = (12, 2, 0, 3, 0)
ABSENT = ([(0, 0, 1, 1, 0)], [(1, 0, 1, 1, 0)])
CUT_OFF = ([(0, 0, 0, 0, 1)], [(1, 0, 0, 0, 1)])


def without(bounds, *kinds):
    """The bounds without those of some kinds."""
    at = [explorer.Price._fields.index(kind) for kind in kinds]
    return tuple([bound for bound in each if not any(bound[k] for k in at)] for each in bounds)


def holding(make, most=1, how="alone", acquire="acquire", release="release", times=1, gone=(), **more):
    """Acquires, is inside, and releases. A call that ended with one of `gone` has acquired nothing."""

    def script(world, client):
        try:
            pattern = yield from opened(make(world, client))
            for _ in range(times):
                if not (yield from getattr(pattern, acquire)(**more)):
                    if "timeout" not in more:
                        raise Fault("not acquired, without a time")
                    return
        except (Interrupted, errors.Withdrawn, *gone):
            return
        world.enter(most, how)
        yield POINT
        world.leave()
        for _ in range(times):
            try:
                yield from getattr(pattern, release)()
            except Interrupted:
                pass  # it is done all the same

    return script


def is_empty(array, *words_, first=None):
    """These words are empty once all have ended, and those from the first one on."""

    def check(world):
        found = world.server.array(array)
        at = {*words_, *(range(first, len(found)) if first is not None else ())}
        held = [(k, found[k][0]) for k in sorted(at) if found[k][1]]
        if held:
            raise Fault(f"held after all have ended: {array}, words and sessions {held}")

    return check


# Locks.


def lock(world, client):
    return world.make(locks.Lock, client, "l")


def election(world, client):
    return world.make(locks.Election, client, "e")


def locking(**more):
    return holding(lock, **more)


def leading(world, client):
    """Each number is greater than those before."""
    post = yield from opened(election(world, client))
    number = yield from post.campaign(takeover_after=1.0)
    if any(number <= note[0] for note in world.notes):
        raise Fault(f"number {number} after {world.notes}")
    world.note(number)
    world.enter()
    yield POINT
    world.leave()
    yield from post.resign()


def numbered(**more):
    """Acquires a lock: its generation is above each that another client had before, and not below its own last one."""

    def script(world, client):
        pattern = yield from opened(lock(world, client))
        try:
            yield from pattern.acquire(**more)
        except errors.NotOwner:
            return
        number, mine = pattern.generation, client.session
        if any(number < last or number == last and session != mine for last, session in world.notes):
            raise Fault(f"generation {number} of {mine} after {world.notes}")
        world.note(number, mine)
        world.enter()
        yield POINT
        world.leave()
        yield from pattern.release()

    return script


def releasing(world, client):
    """Releases what it has not acquired."""
    pattern = yield from opened(lock(world, client))
    try:
        yield from pattern.release()
    except errors.NotOwner:
        return
    raise Fault("it released another one's lock, or a free one")


NOT_OWNER = (errors.NotOwner,)
AWAY = {"takeover_after": 0.4}
LOCK, FREE_LOCK = made(locks.Lock, "l"), is_empty("l", locks.Lock.OWNER)
POST, FREE_POST = made(locks.Election, "e"), is_empty("e", locks.Election.OWNER)



# Locks by key: two places, and a spare.


def key_lock(world, client):
    table = client.__dict__.setdefault(f"table {client.life}", keylocks.Locks(client, "k", 2))
    return world.make(keylocks.KeyLock, client, table, 0)


def keying(**more):
    return holding(key_lock, **more)


def key_is_free(world):
    """The place that the key has now."""
    found, at = world.server.array("k"), keylocks.PLACES
    while found and found[at + 1][1]:
        at = keylocks.PLACES + 2 * found[at + 1][0]
    is_empty("k", at)(world)


def with_keys(world, client):
    yield from call(key_lock(world, client)._find(), "find")
    yield from call(shared_array(PRESENCE, 1, False), "presence")


def breaking(world, client):
    """Frees the lock of another one, which then finds that out."""
    lock = yield from opened(key_lock(world, client))
    yield from lock.break_()
    yield from losing(world, client)


def losing(world, client):
    """Holds it until it is broken, or not."""
    lock = yield from opened(key_lock(world, client))
    yield from lock.acquire()
    yield POINT
    try:
        yield from lock.release()
    except errors.NotOwner:
        world.note("lost")


Scenario("lock_making", [locking(), locking()], FREE_LOCK, MAKING, ends_by=0.0)
Scenario("lock", [locking(), locking()], FREE_LOCK, SMALL, make=LOCK, ends_by=0.0)
Scenario("lock_stranger", [locking(), releasing], FREE_LOCK, ([(2, 0, 0, 0, 0)], []), make=LOCK, ends_by=0.0)
Scenario("lock_timeout", [locking(timeout=0.3), locking(timeout=0.3)], FREE_LOCK, TIMED, make=LOCK)
Scenario("lock_takeover", [locking(**AWAY), locking(**AWAY)], FREE_LOCK, SMALL, (1,), 2.0, make=LOCK, kills_anywhere=True, stall=1.5, deepest=APART)
Scenario("lock_absent", [locking(**AWAY), locking(**AWAY)], FREE_LOCK, ABSENT, (), make=LOCK, deepest=(12, 2, 1, 1, 0))
Scenario("lock_threads", [[locking(), locking()], locking()], FREE_LOCK, FEWER, (1,), make=LOCK, ends_by=0.0)
Scenario("lock_three", [locking(), locking(), locking()], FREE_LOCK, THREE, (1,), make=LOCK, ends_by=0.0)
Scenario("lock_cut", [locking(), locking()], FREE_LOCK, CUT_OFF, make=LOCK)
Scenario("lock_key", [locking(key=b"k", gone=NOT_OWNER), locking()], FREE_LOCK, KILLED, (1,), make=LOCK)
Scenario("lock_numbers", [numbered(key=b"k"), numbered()], FREE_LOCK, KILLED, (1,), make=LOCK)
Scenario("keys_making", [keying(), keying()], key_is_free, MAKING)
Scenario("keys", [keying(), keying()], key_is_free, SMALL, make=with_keys, ends_by=0.0)
Scenario("keys_timeout", [keying(timeout=0.3), keying(timeout=0.3)], key_is_free, TIMED, make=with_keys)
Scenario("keys_takeover", [keying(**AWAY), keying(**AWAY)], key_is_free, SMALL, (1,), 2.0, make=with_keys, kills_anywhere=True, stall=1.5, deepest=APART)
Scenario("keys_absent", [keying(**AWAY), keying(**AWAY)], key_is_free, ABSENT, (), make=with_keys, deepest=(12, 2, 1, 1, 0))
Scenario("keys_three", [keying(), keying(), keying()], key_is_free, THREE, (1,), make=with_keys, ends_by=0.0)
Scenario("keys_broken", [losing, breaking], key_is_free, ([(1, 0, 0, 0, 0)], [(2, 0, 0, 0, 0), (0, 1, 0, 0, 0)]), make=with_keys)
Scenario("keys_spent", [losing, breaking, breaking], key_is_free, ([], [(1, 0, 0, 0, 0)]), (), make=with_keys)
Scenario("keys_cut", [keying(), keying()], key_is_free, CUT_OFF, make=with_keys)
Scenario("election", [leading, leading], FREE_POST, VARIANT, make=POST, deepest=APART, ends_by=0.0)
Scenario("election_away", [leading, leading], FREE_POST, KILLED, (1,), 3.0, make=POST)


# Readers and writers.


def read_write(seats):
    return lambda world, client: world.make(locks.ReadWriteLock, client, "rw", seats)


def reading(seats=2, **more):
    return holding(read_write(seats), 9, "reads", "acquire_read", "release_read", **more)


def writing(seats=2, **more):
    return holding(read_write(seats), 1, "alone", "acquire_write", "release_write", **more)


def rw_is_free(world):
    is_empty("rw", locks.ReadWriteLock.OWNER, first=locks.ReadWriteLock.SEATS)(world)


RW, RW_OF_ONE = made(locks.ReadWriteLock, "rw", 2), made(locks.ReadWriteLock, "rw", 1)

Scenario("rw_making", [reading(), writing()], rw_is_free, MAKING, ends_by=0.0)
Scenario("rw", [reading(), writing()], rw_is_free, TWO, make=RW, ends_by=0.0)
Scenario("rw_readers", [reading(), reading()], rw_is_free, (EACH, [(1, 1, 0, 0, 0)]), make=RW, ends_by=0.0)
Scenario("rw_writers", [writing(), writing()], rw_is_free, VARIANT, make=RW, ends_by=0.0)
Scenario("rw_three", [reading(), reading(), writing()], rw_is_free, THREE, (1, 2), make=RW, ends_by=0.0)
Scenario("rw_twice", [reading(times=2), writing()], rw_is_free, MAKING, (1,), make=RW, ends_by=0.0)
Scenario("rw_threads", [[reading(), reading()], writing()], rw_is_free, FEWER, (1,), make=RW, ends_by=0.0)
Scenario("rw_full", [reading(1), reading(1)], rw_is_free, VARIANT, make=RW_OF_ONE, ends_by=0.0)
Scenario("rw_full_three", [reading(1), reading(1), writing(1)], rw_is_free, FEWER, (1,), make=RW_OF_ONE, ends_by=0.0)
Scenario("rw_timeout", [reading(timeout=0.3), writing(timeout=0.3)], rw_is_free, TIMED, make=RW)
Scenario("rw_takeover", [reading(**AWAY), writing(**AWAY)], rw_is_free, VARIANT, (1,), make=RW, stall=1.5, deepest=APART)
Scenario("rw_away", [reading(**AWAY), writing(**AWAY)], rw_is_free, KILLED, (1,), 2.0, make=RW, deepest=(12, 2, 1, 1, 0))
Scenario("rw_absent", [reading(**AWAY), writing(**AWAY)], rw_is_free, ABSENT, (), make=RW, deepest=(12, 2, 1, 1, 0))
Scenario("rw_cut", [reading(), writing()], rw_is_free, CUT_OFF, make=RW)


# Semaphores.


def permit(permits):
    return lambda world, client: world.make(semaphore.Semaphore, client, "s", permits)


def using(permits=2, **more):
    return holding(permit(permits), permits, "has a permit", **more)


def using_again(permits):
    """By one handle, which tries the permit that it gave back before it draws a ticket."""

    def script(world, client):
        pattern = permit(permits)(world, client)
        for _ in range(2):
            yield from holding(lambda *_: pattern, permits, "has a permit")(world, client)

    return script


def permits_are_free(permits):
    return is_empty("s", first=queues.SLOTS + permits)


SEMAPHORE, SEMAPHORE_OF_ONE = made(semaphore.Semaphore, "s", 2), made(semaphore.Semaphore, "s", 1)

Scenario("semaphore_making", [using(), using()], permits_are_free(2), MAKING, ends_by=0.02)
Scenario("semaphore", [using(), using()], permits_are_free(2), VARIANT, make=SEMAPHORE, ends_by=0.02)
Scenario("semaphore_of_one", [using(1), using(1)], permits_are_free(1), TWO, make=SEMAPHORE_OF_ONE, ends_by=0.02)
Scenario("semaphore_three", [using(), using(), using()], permits_are_free(2), THREE, (1,), make=SEMAPHORE, ends_by=0.02)
Scenario("semaphore_again", [using_again(1), using(1)], permits_are_free(1), ([(1, 0, 0, 0, 0)], [(2, 0, 0, 0, 0), (0, 1, 0, 0, 0)]), make=SEMAPHORE_OF_ONE)
Scenario("semaphore_two_again", [using_again(2), using_again(2)], permits_are_free(2), ([], [(1, 0, 0, 0, 0), (0, 1, 0, 0, 0)]), make=SEMAPHORE)
Scenario("semaphore_both", [using(times=2), using()], permits_are_free(2), ([], [(0, 1, 0, 0, 0)]), (1,), make=SEMAPHORE)
Scenario("semaphore_timeout", [using(1, timeout=0.3), using(1, timeout=0.3)], permits_are_free(1), TIMED, make=SEMAPHORE_OF_ONE)
Scenario("semaphore_cut", [using(1), using(1)], permits_are_free(1), CUT_OFF, make=SEMAPHORE_OF_ONE)
Scenario("semaphore_key", [using(key=b"k", gone=NOT_OWNER), using()], permits_are_free(2), KILLED, (1,), make=SEMAPHORE)


# What is done once, and barriers.


def doing(raises=False):
    """As the faces run it. The first work raises, if it is to."""

    def script(world, client):
        pattern = world.make(words.Once, client, "o")
        array, result = yield from pattern._begin(None)
        if array is not None:
            yield POINT
            if raises and not world.notes:
                world.note("raised")
                yield from pattern._give_up(array)
                return
            yield from pattern._finish(array, 7)
        elif result != 7:
            raise Fault(f"result {result}")

    return script


def doing_as(value):
    """Its own result, while another client may set one."""

    def script(world, client):
        pattern = world.make(words.Once, client, "o")
        array, result = yield from pattern._begin(None)
        if array is not None:
            yield POINT
            result = yield from pattern._finish(array, value)
        world.note(result)

    return script


def setting(value):
    def script(world, client):
        world.note((yield from world.make(words.Once, client, "o").done(value)))

    return script


def all_have_one_result(world):
    if len({*world.notes}) > 1:
        raise Fault(f"results: {world.notes}")


def meeting(world, client):
    barrier = yield from opened(world.make(words.Barrier, client, "b", 2))
    for _ in range(2):
        yield from barrier.wait()


def meeting_in_time(world, client):
    barrier = yield from opened(world.make(words.Barrier, client, "b", 2))
    try:
        yield from barrier.wait(timeout=0.3)
        world.note("passes")
    except (errors.TimedOut, errors.BrokenBarrier):
        world.note("does not")


def all_or_none_pass(world):
    if len({*world.notes}) > 1:
        raise Fault(f"some pass and some do not: {world.notes}")


BARRIER = made(words.Barrier, "b", 2)

Scenario("once", [doing(), doing()], nothing, SMALL, ends_by=0.0)
Scenario("once_three", [doing(), doing(), doing()], nothing, FEWER, ends_by=0.0)
Scenario("once_raises", [doing(True), doing(True)], nothing, without(SMALL, "kills", "early"), ends_by=0.0)
Scenario("once_set", [doing_as(7), setting(8), doing_as(9)], all_have_one_result, FEWER, make=made(words.Once, "o"), ends_by=0.0)
Scenario("barrier_making", [meeting_in_time, meeting_in_time], all_or_none_pass, (EACH[:1], ()))
Scenario("barrier", [meeting, meeting], nothing, without(TWO, "kills"), make=BARRIER, ends_by=0.0)
Scenario("barrier_timeout", [meeting_in_time, meeting_in_time], all_or_none_pass, TIMED, make=BARRIER)


# Queues and channels.


def putting(values, make, has_key=False, **more):
    """Each value has the client's life before it: one that is put again after a kill is another one. Not with a key."""

    def script(world, client):
        try:
            queue = yield from opened(make(world, client))
        except Interrupted:
            return
        for value in values:
            if any(note[0] == "put" and note[1] % 100 == value for note in world.notes):
                continue  # it is known to be in
            own = {"key": b"put %d" % value} if has_key else {}
            value += 0 if has_key else 100 * client.life
            try:
                yield from queue.put(value, **own, **more)
            except (errors.TimedOut, errors.Withdrawn):
                world.note("not put", value)
            except Interrupted:
                world.note("may be put", value)
            else:
                world.note("put", value, world.now)

    return script


def getting(count, make, timeout=3.0, has_key=False):
    """Gets until so many are known to be got, or a time ends."""

    def script(world, client):
        try:
            queue, had = (yield from opened(make(world, client))), 0
        except Interrupted:
            return
        while len({note[1] for note in world.notes if note[0] == "got"}) < count:
            own = {"key": b"get %d" % had} if has_key else {}
            since, before, had = world.now, [note[1] for note in world.notes if note[0] == "put"], had + 1
            try:
                value = yield from queue.get(timeout=timeout, **own)
            except errors.TimedOut:
                world.note("none", tuple(before), since + timeout)
                return
            except (Interrupted, errors.Withdrawn):
                return
            if not (has_key and client.life) and any(note[:2] == ("got", value) for note in world.notes):
                raise Fault(f"{value} twice")
            world.note("got", value)

    return script


def values_are_there(array, first, has_keys=False, cuts_lose=False, looks=True):
    """Each value that was put is got or lies there, once. One goes with each killed taker that had no key.

    `looks`: a get whose time ends has looked for a value just before.
    """

    def check(world):
        got = [note[1] for note in world.notes if note[0] == "got"]
        there = [word[0] for word in world.server.array(array)[first:] if word[1]]
        put = {note[1]: note[2] for note in world.notes if note[0] == "put"}
        lost = [value for value in put if value not in got and value not in there]
        got = [*{*got}] if has_keys else got
        if len({*got, *there}) < len(got + there):
            raise Fault(f"twice: got {got}, there {there}")
        if any(note[0] == "not put" and note[1] in got + there for note in world.notes):
            raise Fault(f"a put timed out and happened: {world.notes}, there {there}")
        if len(lost) > (world.kills if not has_keys else 0) + (world.cuts if cuts_lose else 0):
            raise Fault(f"lost {lost}: got {got}, there {there}")
        for note in world.notes:
            if looks and note[0] == "none" and any(v in put and (v in note[1] or put[v] < note[2] - 1.2) for v in there):
                raise Fault(f"a get timed out beside a value: {world.notes}, there {there}")

    return check


def queue(capacity):
    return lambda world, client: world.make(queues.BoundedQueue, client, "q", capacity)


def channel(world, client):
    return world.make(queues.Channel, client, "c")


QUEUE, QUEUE_OF_TWO, CHANNEL = made(queues.BoundedQueue, "q", 1), made(queues.BoundedQueue, "q", 2), made(queues.Channel, "c")
IN_QUEUE, IN_CHANNEL = values_are_there("q", queues.SLOTS), values_are_there("c", 0, looks=False)
TWO_VALUES, ONE_QUEUE, TWO_QUEUE = [1, 2], queue(1), queue(2)

Scenario("channel_making", [putting([1], channel), getting(1, channel)], IN_CHANNEL, MAKING, ends_by=0.0)
Scenario("channel", [putting(TWO_VALUES, channel), getting(2, channel)], IN_CHANNEL, without(SMALL, "early"), make=CHANNEL, ends_by=0.0)
Scenario("channel_timeout", [putting(TWO_VALUES, channel, timeout=0.3), getting(2, channel, 0.3)], IN_CHANNEL, TIMED, make=CHANNEL)
Scenario("channel_key", [putting(TWO_VALUES, channel, True), getting(2, channel, has_key=True)], values_are_there("c", 0, True),
         KILLED, make=CHANNEL)  # fmt: skip
Scenario("queue_making", [putting([1], ONE_QUEUE), getting(1, ONE_QUEUE)], IN_QUEUE, MAKING, ends_by=0.02)
Scenario("queue", [putting(TWO_VALUES, ONE_QUEUE), getting(2, ONE_QUEUE)], IN_QUEUE, TWO, make=QUEUE, ends_by=0.02)
Scenario("queue_two_put", [putting([1, 2], TWO_QUEUE), putting([3], TWO_QUEUE), getting(3, TWO_QUEUE)], IN_QUEUE, THREE, make=QUEUE_OF_TWO, ends_by=0.02)
Scenario("queue_two_get", [putting([1, 2], TWO_QUEUE), getting(2, TWO_QUEUE), getting(2, TWO_QUEUE)], IN_QUEUE, THREE, make=QUEUE_OF_TWO)
Scenario("queue_timeout", [putting(TWO_VALUES, ONE_QUEUE, timeout=0.3), getting(2, ONE_QUEUE, 0.3)], IN_QUEUE, TIMED, make=QUEUE)
Scenario("queue_key", [putting(TWO_VALUES, ONE_QUEUE, True), getting(2, ONE_QUEUE, has_key=True)],
         values_are_there("q", queues.SLOTS, True), KILLED, make=QUEUE)  # fmt: skip
Scenario("queue_cut", [putting([1], ONE_QUEUE), getting(1, ONE_QUEUE)], values_are_there("q", queues.SLOTS, False, True), CUT_OFF, make=QUEUE)


# Work queues.


def jobs(world, client):
    return world.make(work.WorkQueue, client, "w", 4, attempts=3, away_after=0.4)


def taking_jobs(count, fails=False):
    """Takes jobs until so many are known to be done, or in vain four times. Each fails at first, if it is to."""

    def script(world, client):
        pattern, in_vain = jobs(world, client), 0
        while len({note[1] % 100 for note in world.notes if note[0] == "done"}) < count and in_vain < 4:
            try:
                job = yield from pattern.take(timeout=1.2)
            except errors.TimedOut:
                # (a putter may be late)
                in_vain += sum(note[0] in ("put", "not put", "may be put") for note in world.notes) >= count
                continue
            except (Interrupted, errors.Withdrawn):
                continue
            if any(note[:2] == ("done", job.value) for note in world.notes):
                raise Fault(f"job {job.value} is given again after it was done")
            yield POINT
            if fails and job.attempt == 1:
                yield from job.fail()
                continue
            try:
                yield from job.done()
            except Interrupted:
                pass  # it is done all the same
            world.note("done", job.value)

    return script


def jobs_are_done(world):
    done = [note[1] for note in world.notes if note[0] == "done"]
    put = [note[1] for note in world.notes if note[0] == "put"]
    if len({*done}) < len(done) or len({*put} - {*done}) > world.kills:
        raise Fault(f"jobs put {put}, done {done}")


JOBS = made(work.WorkQueue, "w", 4, what="_open")
TWO_JOBS = putting(TWO_VALUES, jobs)

Scenario("jobs_making", [putting([1], jobs), taking_jobs(1)], jobs_are_done, MAKING, ends_by=0.02)
Scenario("jobs", [TWO_JOBS, taking_jobs(2)], jobs_are_done, THREE, make=JOBS, ends_by=0.02)
Scenario("jobs_two_take", [putting([1], jobs), taking_jobs(1), taking_jobs(1)], jobs_are_done, ([], [(1, 0, 0, 0, 0), (0, 1, 0, 0, 0)]), make=JOBS)
Scenario("jobs_fail", [TWO_JOBS, taking_jobs(2, True)], jobs_are_done, ([], [(1, 0, 0, 0, 0), (0, 1, 0, 0, 0)]), make=JOBS, ends_by=0.02)
Scenario("jobs_threads", [putting([1], jobs), [taking_jobs(1), taking_jobs(1)]], jobs_are_done, ([], [(1, 0, 0, 0, 0)]), make=JOBS)
Scenario("jobs_stall", [putting([1], jobs), taking_jobs(1), taking_jobs(1)], jobs_are_done, ([], [(0, 0, 0, 1, 0)]),
         stall=1.5, make=JOBS)  # fmt: skip
Scenario("jobs_cut", [putting([1], jobs), taking_jobs(1)], jobs_are_done, CUT_OFF, make=JOBS)
Scenario("jobs_key", [putting(TWO_VALUES, jobs, True), taking_jobs(2)], jobs_are_done, (KILLED[0], []), (1,), make=JOBS)


# Jobs that move from one work queue to the next.


def first_jobs(capacity):
    return lambda world, client: world.make(work.WorkQueue, client, "w", capacity, attempts=3, away_after=0.4)


def last_jobs(capacity):
    return lambda world, client: world.make(work.WorkQueue, client, "x", capacity, attempts=3, away_after=0.4)


def with_jobs(values, capacity, next_capacity):
    """Makes both queues, and puts these values into the first one."""

    def script(world, client):
        yield from call(last_jobs(next_capacity)(world, client)._open(), "open")
        yield from call(shared_array(PRESENCE, 1, False), "presence")
        first = first_jobs(capacity)(world, client)
        for value in values:
            yield from first.put(value)

    return script


def moving_jobs(count, capacity, next_capacity):
    """Moves jobs on until so many are known to have moved, or in vain four times. The next one is 10 greater."""

    def script(world, client):
        first, last = first_jobs(capacity)(world, client), last_jobs(next_capacity)(world, client)
        in_vain = 0
        while len({note[1] for note in world.notes if note[0] == "moved"}) < count and in_vain < 4:
            try:
                job = yield from first.take(timeout=1.2)
            except errors.TimedOut:
                in_vain += 1
                continue
            except (Interrupted, errors.Withdrawn):
                continue
            if any(note == ("moved", job.value) for note in world.notes):
                raise Fault(f"job {job.value} is given again after it moved")
            yield POINT
            try:
                yield from job.move(last, job.value + 10)
            except (errors.NotOwner, Interrupted, errors.Withdrawn):
                continue
            world.note("moved", job.value)

    return script


def last_ones(count, capacity):
    """Does the jobs of the last queue."""

    def script(world, client):
        last, in_vain = last_jobs(capacity)(world, client), 0
        while len({note[1] for note in world.notes if note[0] == "done"}) < count and in_vain < 5:
            try:
                job = yield from last.take(timeout=1.2)
            except errors.TimedOut:
                in_vain += 1
                continue
            except (Interrupted, errors.Withdrawn):
                continue
            if any(note == ("done", job.value) for note in world.notes):
                raise Fault(f"{job.value} is in the last queue twice")
            world.note("taken", job.value)
            yield POINT
            try:
                yield from job.done()
            except Interrupted:
                pass  # it is done all the same
            world.note("done", job.value)

    return script


def open_jobs(world, name, attempts=3):
    """The values that lie in a work queue and count, by the page's words."""
    found = []
    arrays = {id: words_ for id, (_, words_) in world.server.state.arrays.items()}
    for id, (array, words_) in world.server.state.arrays.items():
        if not array.startswith(name.encode() + b"_"):
            continue
        for at in range(3, len(words_), 3 + attempts):
            value, end, source = words_[at], words_[at + 1], words_[at + 2 + attempts]
            if not value[1] or value[0] == 2**64 - 1 or end[1]:
                continue
            old = arrays.get(source[0] >> 16) if source[1] and source[0] else None
            if not source[1] or source[0] == 0 or old and old[source[0] & 0xFFFF] == [id << 16 | at + 2 + attempts, True]:
                found.append(value[0])
    return found


def each_is_once(values):
    """Each is once in the last queue, open or taken, and in the first one no more."""

    def check(world):
        taken = {note[1] for note in world.notes if note[0] == "taken"}
        done = {note[1] for note in world.notes if note[0] == "done"}
        there, left = open_jobs(world, "x"), open_jobs(world, "w")
        wanted = sorted(value + 10 for value in values)
        if left or sorted({*taken, *there}) != wanted or len({*there}) < len(there) or done & {*there}:
            raise Fault(f"in the first queue {left}, in the last one {there}, taken there {taken}, done {done}")

    return check


def moves(name, values, clients, bounds, capacity=8, next_capacity=8, **more):
    make = with_jobs(values, capacity, next_capacity)
    last = {"moves": moving_jobs(len(values), capacity, next_capacity), "ends": last_ones(len(values), next_capacity)}
    Scenario(name, [last[each] for each in clients], each_is_once(values), bounds, make=make, **more)


moves("moves", [1], ["moves", "ends"], ([(0, 1, 0, 0, 0)], [(1, 0, 0, 0, 0), (0, 0, 1, 0, 0), (0, 0, 0, 1, 0)]))
moves("moves_two", [1], ["moves", "moves"], ([(0, 1, 0, 0, 0)], [(1, 1, 0, 0, 0)]), victims=(1,), away=2.0, deepest=APART)
moves("moves_of_one", [1], ["moves", "ends"], ([(0, 1, 0, 0, 0)], [(1, 1, 0, 0, 0)]), capacity=1, next_capacity=1)
moves("moves_three", [1], ["moves", "moves", "ends"], ([], [(0, 1, 0, 0, 0)]), victims=(1,), away=2.0, capacity=1, deepest=APART)
moves("moves_late", [1], ["moves", "moves"], ([], [(1, 0, 0, 1, 0)]), victims=(), stall=1.5, deepest=APART)
moves("moves_cut", [1], ["moves", "ends"], CUT_OFF)


# One of several requests.


def filling(*names):
    def script(world, client):
        for value, name in enumerate(names, 1):
            array = yield from call(world.make(queues.Channel, client, name)._find(), "find")
            value += 100 * client.life
            yield from call(once(client._core, None, requests.writeef(array, 0, value)), "writeef")
            world.note("put", value)

    return script


def taking_any(count):
    """So many values by `wait_any`, or fewer if its time ends."""

    def script(world, client):
        arrays = []
        for name in ("c", "d"):
            arrays.append((yield from call(world.make(queues.Channel, client, name)._find(), "find")))
        while sum(note[0] == "got" for note in world.notes) < count:
            asked = [requests.readfe(array, 0) for array in arrays]
            try:
                found = yield from wait_for(Call(Job(first_of(asked, 0.5)), "wait_any", 0.5))
            except errors.TimedOut:
                return
            for value in found.values():
                world.note("got", value)

    return script


def any_is_there(world):
    """Each value is got once or lies there. Two may go with a killed client, which took both at once."""
    got = [note[1] for note in world.notes if note[0] == "got"]
    there = [word[0] for name in "cd" for word in world.server.array(name) if word[1]]
    put = [note[1] for note in world.notes if note[0] == "put"]
    lost = {*put} - {*got} - {*there}
    if len({*got, *there}) < len(got + there) or len(lost) > 2 * world.kills:
        raise Fault(f"put {put}, got {got}, there {there}")


Scenario("any_one", [filling("d"), taking_any(1)], any_is_there, SMALL, ends_by=0.0)
Scenario("any", [filling("c", "d"), taking_any(2)], any_is_there, SMALL, ends_by=0.0)
