#!/usr/bin/env python3
"""Histories over kills of clients and of their server: `histories.py PROGRAM KIND [SECONDS] [SEED]`.

KIND is `words`, `queue`, `channel` or `jobs`. Three processes put values and four take them, each with a session file and
keys, and one of them is killed or stopped, or the server is killed, three times a second. Each value must be taken once.

Or KIND is `lock`, `rw`, `sem` or `barrier`: seven processes acquire and release, or meet. Each writes into shared memory when
it is inside.

It prints four numbers, and ends with status 0 if all of them are 0 and something came: what was lost; what came twice, or was
inside beside another one that must not be; what is held once all have ended; and how many times a process was blocked: did
nothing for five seconds though it could, or did not end.
"""

import mmap
import os
import random
import signal
import sys
import tempfile
import time

from check import Server

import femem
from femem import Client, requests
from femem.patterns import Barrier, BoundedQueue, Channel, Lock, ReadWriteLock, Semaphore, WorkQueue, shared_array
from femem._workpages import FIRST_SLOT

PUTTERS, TAKERS = 3, 4
PERMITS, SEATS, PARTIES = 3, 2, 3
CAPACITY = 8
STUCK = 5.0
TIMES = (None, None, None, 0.0, 0.003, 0.05, 1.0)


class Word:
    """One word, by the client's own calls under keys."""

    def __init__(self, client):
        self._client, self._word = client, shared_array(client, "word", 1, full=False)

    def put(self, value, timeout, key):
        self._client.once(key, requests.writeef(self._word, 0, value), timeout=timeout)

    def get(self, timeout, key):
        return self._client.once(key, requests.readfe(self._word, 0), timeout=timeout)


class Jobs:
    """A work queue. A job that was taken and is done again is `NotOwner`, so what `done` said is what counts."""

    ATTEMPTS = 16

    def __init__(self, client):
        self._client, self._queue = client, WorkQueue(client, "jobs", 64, attempts=self.ATTEMPTS, away_after=0.5)

    def put(self, value, timeout, key):
        self._queue.put(value, timeout, key=key)

    def get(self, timeout, key):
        return self._queue.take(timeout)

    def has_ended(self, number):
        """Whether the job has, by its word END. A page goes once all of its jobs have ended."""
        end = FIRST_SLOT + (number & 0xFFFF) * (3 + self.ATTEMPTS) + 1
        try:
            self._client.readff(number >> 16, end, nowait=True)
        except femem.NotNow:
            return False
        except femem.NoArray:
            pass
        return True

    def aside(self):
        return self._queue.aside()


KINDS = {
    "words": Word,
    "queue": lambda client: BoundedQueue(client, "queue", CAPACITY),
    "channel": lambda client: Channel(client, "channel"),
    "jobs": Jobs,
    "lock": lambda client: Lock(client, "lock"),
    "rw": lambda client: ReadWriteLock(client, "rw", SEATS),
    "sem": lambda client: Semaphore(client, "sem", PERMITS),
    "barrier": lambda client: Barrier(client, "barrier", PARTIES),
}

# How it is acquired and released, and how many may then be inside with how many that write.
HELD = {
    "lock": [("acquire", "release", 1, 0)],
    "rw": [("acquire_read", "release_read", SEATS, 0), ("acquire_write", "release_write", 1, 1)],
    "sem": [("acquire", "release", PERMITS, 0)],
}

# Who is inside: a byte for each process, 1 or, for one that writes, 2.
INSIDE = mmap.mmap(-1, PUTTERS + TAKERS)

# How often each lost its session to a connection of its former process, whose attach the server read late.
TAKEN = mmap.mmap(-1, PUTTERS + TAKERS)


def held(client, kind):
    """The sessions in the words of what all have given back."""
    if kind == "rw":
        words, first = client.find("rw"), ReadWriteLock.SEATS
        looks = [requests.readff(words, word, nowait=True) for word in (ReadWriteLock.OWNER, *range(first, first + SEATS))]
        return [each for each in client.submit_many(looks) if not isinstance(each, BaseException)]
    pattern = KINDS[kind](client)
    return {"lock": lambda: [pattern.owner()] if pattern.locked() else [], "sem": lambda: pattern.holders()}.get(kind, list)()


class Life:
    """A process and its log: a line for each value, `p` once it is put, `g` once it is taken.

    Of a job: `t` with its number before it is done, and then `g`, or `n` if another one has done it. A process that was killed
    in between looks in its next life: `d` if the job has ended, by itself or by one that has a `g`, and `n` if it has not.
    """

    def __init__(self, folder, kind, k):
        self.folder, self.kind, self.k = folder, kind, k
        self.log = os.open(f"{folder}/{k}.log", os.O_RDWR | os.O_CREAT | os.O_APPEND, 0o600)
        self.pid = 0

    def start(self):
        self.pid = os.fork()
        if self.pid == 0:
            status = 1
            try:
                while status:
                    try:
                        self._work()
                        status = 0
                    except femem.TakenOver:
                        INSIDE[self.k], TAKEN[self.k] = 0, min(TAKEN[self.k] + 1, 255)  # it begins again
            except femem.FememError as error:
                print(f"process {self.k}: {type(error).__name__}: {error}", file=sys.stderr, flush=True)
            finally:
                os._exit(status)

    def lines(self):
        return [(line[:1], int(line[2:].split()[0])) for line in self._text()]

    def _text(self):
        return os.pread(self.log, 1 << 30, 0).decode().splitlines()

    def size(self):
        return os.fstat(self.log).st_size

    def _work(self):
        if self.kind in HELD or self.kind == "barrier":
            self._hold()
            return
        chance, count = random.Random(), len(self.lines())
        file = f"{self.folder}/{self.k}.session"
        with Client(f"{self.folder}/socket", session_file=file, reconnect_timeout=200.0, wait_for_server=True) as client:
            words = KINDS[self.kind](client)
            for key in client.keys():
                if key != b"%d" % count:
                    client.forget(key)
            if self.kind == "jobs":
                self._look_back(words)
            step = self._put if self.k < PUTTERS else self._take
            while True:
                is_last = os.path.exists(f"{self.folder}/enough")
                try:
                    step(words, count, chance.choice(TIMES[3:] if is_last else TIMES))
                except femem.TimedOut:
                    if is_last and not client.keys():
                        return
                    continue
                if self.kind != "jobs" or self.k < PUTTERS:
                    client.forget(count)
                count += 1

    def _hold(self):
        chance = random.Random()
        with Client(f"{self.folder}/socket", 1000 + self.k, reconnect_timeout=200.0, wait_for_server=True) as client:
            pattern = KINDS[self.kind](client)
            is_last = False
            while not is_last:
                is_last = os.path.exists(f"{self.folder}/enough")
                if self.kind == "barrier":
                    self._meet(pattern)
                else:
                    self._be_inside(pattern, chance)

    def _meet(self, barrier):
        try:
            barrier.wait(timeout=0.5)
        except femem.TimedOut:
            barrier.reset()
        except femem.BrokenBarrier:
            pass
        os.write(self.log, b"h 0\n")

    def _be_inside(self, pattern, chance):
        acquire, release, most, writes = chance.choice(HELD[self.kind])
        if not getattr(pattern, acquire)(chance.choice(TIMES)):
            os.write(self.log, b"n 0\n")
            return
        INSIDE[self.k] = 1 + writes
        inside = [each for each in INSIDE[:] if each]
        if len(inside) > most or not writes and 2 in inside:
            os.write(self.log, b"x 0\n")
        time.sleep(0.003 * chance.random())
        INSIDE[self.k] = 0
        getattr(pattern, release)()
        os.write(self.log, b"h 0\n")

    def _put(self, words, count, timeout):
        value = 10**12 * (1 + self.k) + count
        words.put(value, timeout, key=count)
        os.write(self.log, b"p %d\n" % value)

    def _take(self, words, count, timeout):
        got = words.get(timeout, key=count)
        if self.kind == "jobs":
            job, got = got, got.value
            os.write(self.log, b"t %d %d\n" % (got, job.number))
            try:
                job.done()
            except femem.NotOwner:
                os.write(self.log, b"n %d\n" % got)
                raise femem.TimedOut("it was given to another one") from None
        os.write(self.log, b"g %d\n" % got)

    def _look_back(self, jobs):
        """What became of the job that this process was to do when it was killed."""
        last = (self._text() or [""])[-1].split()
        if last and last[0] == "t":
            os.write(self.log, b"%s %s\n" % (b"d" if jobs.has_ended(int(last[2])) else b"n", last[1].encode()))


class Pauses:
    """How long nothing was taken, and how long a process that could do something did nothing."""

    def __init__(self, lives):
        self.lives = lives
        self.worst, self.worst_of_one, self.late, self.blocked = 0.0, 0.0, 0.0, 0
        # How long each process's log was, and since when.
        self.seen = {}
        self.restart(range(len(lives)))
        self.taken_at = self.looked_at = time.monotonic()

    def restart(self, which):
        """Their time begins anew, since they were killed or stopped, or had no server."""
        for k in which:
            self._note(k)

    def _note(self, k):
        self.seen[k] = self.lives[k].size(), time.monotonic()

    def look(self):
        """Notes what has moved. How late it is itself shows how busy the machine is."""
        now = time.monotonic()
        self.late = max(self.late, now - self.looked_at)
        self.looked_at = now
        for k, life in enumerate(self.lives):
            size, since = self.seen[k]
            self.worst_of_one = max(self.worst_of_one, now - since)
            if life.size() != size:
                self.blocked += now - since >= STUCK
                self._note(k)
                if k >= PUTTERS:
                    self.worst, self.taken_at = max(self.worst, now - self.taken_at), now
        self.worst = max(self.worst, now - self.taken_at)


class History:
    def __init__(self, server, folder, kind, seed):
        self.server, self.folder = server, folder
        self.chance = random.Random(seed)
        self.lives = [Life(folder, kind, k) for k in range(PUTTERS + TAKERS)]
        self.kills = self.server_kills = self.stops = 0
        for life in self.lives:
            life.start()
        self.pauses = Pauses(self.lives)

    def wait(self, seconds):
        end = time.monotonic() + seconds
        while time.monotonic() < end:
            time.sleep(0.02)
            self.pauses.look()

    def disturb(self):
        """Kills or stops a client, or kills the server."""
        which, what = self.chance.randrange(len(self.lives)), self.chance.random()
        life = self.lives[which]
        if what < 0.75:
            os.kill(life.pid, signal.SIGKILL)
            os.waitpid(life.pid, 0)
            INSIDE[which] = 0
            life.start()
            self.kills += 1
        elif what < 0.87:
            os.kill(life.pid, signal.SIGSTOP)
            self.wait(0.5 * self.chance.random())
            os.kill(life.pid, signal.SIGCONT)
            self.stops += 1
        else:
            self.server.kill()
            self.wait(0.3 * self.chance.random())
            self.server.start()
            self.server_kills += 1
            self.pauses.restart(range(len(self.lives)))
        self.pauses.restart([which])

    def run(self, seconds):
        begin = time.monotonic()
        while time.monotonic() < begin + seconds:
            self.wait(0.6 * self.chance.random())
            self.disturb()
        return time.monotonic() - begin

    def finish(self):
        """Kills all once more, and lets the next ones come to their end: nothing more is put, and none waits without limit."""
        open(f"{self.folder}/enough", "w").close()
        for life in self.lives:
            os.kill(life.pid, signal.SIGKILL)
            os.waitpid(life.pid, 0)
            INSIDE[life.k] = 0
            life.start()
            self.kills += 1
        end = time.monotonic() + 60
        for life in self.lives:
            while os.waitpid(life.pid, os.WNOHANG) == (0, 0):
                if time.monotonic() > end:
                    self.pauses.blocked += 1
                    os.kill(life.pid, signal.SIGKILL)
                    os.waitpid(life.pid, 0)
                    break
                time.sleep(0.01)

    def rest(self):
        """Takes what is left: the values, and what is set aside."""
        left = Life(self.folder, self.lives[0].kind, len(self.lives))
        with Client(f"{self.folder}/socket", session_file=f"{self.folder}/rest.session") as client:
            words = KINDS[left.kind](client)
            count = 0
            try:
                while True:
                    left._take(words, count, 2.0)
                    count += 1
            except femem.TimedOut:
                aside = words.aside() if left.kind == "jobs" else []
                return [value for what, value in left.lines() if what == "g"], aside


def told(history, spent, lost, twice, held_, count, what):
    """Prints the four numbers, and what else came. Whether all are 0."""
    pauses = history.pauses
    events = f"{history.kills} kills of clients, {history.server_kills} of the server, {history.stops} stops"
    print(f"{spent:.0f} s: {events}; {sum(TAKEN[:])} times a former process's attach came late")
    print(f"lost {lost}, twice {twice}, held {len(held_)}, blocked {pauses.blocked}: {count:,} {what}, {count / spent:,.0f}/s")
    print(f"a process did nothing for {pauses.worst_of_one:.1f} s at most; this program was {pauses.late:.1f} s late at most", flush=True)
    return not (lost or twice or held_ or pauses.blocked) and count > 0


def judge_held(history, spent):
    lines = [line for life in history.lives for line, _ in life.lines()]
    with Client(f"{history.folder}/socket", 99) as client:
        left = held(client, history.lives[0].kind)
    return told(history, spent, 0, lines.count("x"), left, lines.count("h"), "times inside")


def judge(history, spent):
    put = [value for life in history.lives[:PUTTERS] for _, value in life.lines()]
    lines = [line for life in history.lives[PUTTERS:] for line in life.lines()]
    got, seen = [value for what, value in lines if what == "g"], [value for what, value in lines if what == "d"]
    rest, aside = history.rest()
    count, got = len(got), got + rest
    twice, lost = len(got) - len({*got}), len({*put} - {*got, *seen})
    unknown = len({*got} - {*put})
    print(f"{len(put):,} put, {unknown} not known; nothing was taken for {history.pauses.worst:.1f} s at most")
    return told(history, spent, lost, twice, aside, count, "taken") and not unknown and history.pauses.worst < STUCK


def main(program, kind, seconds="60", seed="1"):
    with tempfile.TemporaryDirectory(dir="/dev/shm" if os.path.isdir("/dev/shm") else None) as folder:
        server = Server(os.path.abspath(program), folder)
        server.start()
        try:
            history = History(server, folder, kind, int(seed))
            try:
                spent = history.run(float(seconds))
                history.finish()
            except BaseException:
                for life in history.lives:
                    os.kill(life.pid, signal.SIGKILL)
                raise
            is_held = kind in HELD or kind == "barrier"
            return 0 if (judge_held if is_held else judge)(history, spent) else 1
        finally:
            server.kill()


if __name__ == "__main__":
    sys.exit(main(*sys.argv[1:]))
