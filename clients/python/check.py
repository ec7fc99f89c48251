#!/usr/bin/env python3
"""Tries the client against a real server: `check.py PROGRAM`, where PROGRAM is the program `femem`.

It tries every pattern with 16 processes, the shell, a counter that 16 processes raise while the server is killed and
restarted twenty times, a client with a session file that is killed, a request that comes late, and a server that never
comes back. It prints a line for each, and ends with status 0 if all went well. Socket and store are in a temporary folder.
"""

import json
import os
import pathlib
import random
import signal
import socket
import subprocess
import sys
import tempfile
import time

ROOT = pathlib.Path(__file__).resolve().parent
sys.path.insert(0, str(ROOT))

import femem  # noqa: E402
from femem import Client, _errors as errors, _frames as frames, requests  # noqa: E402
from femem.patterns import Barrier, BoundedQueue, Channel, Counter, Election, Future, Lock, Once  # noqa: E402
from femem.patterns import ReadWriteLock, Semaphore, WorkQueue, shared_array  # noqa: E402

PROCESSES = 16
KILLS = 20


class Failure(Exception):
    """A part failed."""


def expect(what, got, wanted):
    if got != wanted:
        raise Failure(f"{what}: got {got}, not {wanted}")


class Server:
    """The program `femem serve`, with a store made for it."""

    def __init__(self, program, folder):
        self.path = os.path.join(folder, "socket")
        self._settings = os.path.join(folder, "femem.toml")
        self._program = program
        store = os.path.join(folder, "store")
        with open(self._settings, "w") as file:
            file.write(f'socket = "{self.path}"\nstore = "{store}"\nformat = true\n')

    def start(self):
        """The server is ready once its socket exists."""
        self._process = subprocess.Popen([self._program, "serve", "--settings", self._settings])
        end = time.monotonic() + 20
        while not os.path.exists(self.path):
            if self._process.poll() is not None or time.monotonic() > end:
                raise Failure(f"the server does not start, status {self._process.poll()}")
            time.sleep(0.01)

    def kill(self):
        """Removes the socket that the server leaves, as an operator does."""
        self._process.send_signal(signal.SIGKILL)
        self._process.wait()
        if os.path.exists(self.path):
            os.unlink(self.path)


# What each process does. It returns what the part checks.


def lock(client, k):
    """Inside the lock a number is read and written by two operations, so an addition by two holders at once would be lost."""
    mine, total = Lock(client, "lock"), shared_array(client, "total", 1, full=True)
    for _ in range(5):
        with mine:
            client.writexf(total, 0, client.readxx(total, 0) + 1)
    return None


def semaphore(client, k):
    permits, inside = Semaphore(client, "semaphore", 3), Counter(client, "inside")
    most = 0
    for _ in range(4):
        with permits:
            most = max(most, inside.add(1) + 1)
            inside.add(-1)
    return most


def queue(client, k):
    """Half of them give, half of them take."""
    values = BoundedQueue(client, "queue", 4)
    if k % 2:
        return [values.get() for _ in range(8)]
    for value in range(8):
        values.put(100 * k + value)
    return []


def channel(client, k):
    """Half of them give, half of them take."""
    values = Channel(client, "channel")
    if k % 2:
        return [values.get() for _ in range(8)]
    for value in range(8):
        values.put(100 * k + value)
    return []


def jobs(client, k):
    """Half of them give, half of them take. Each job fails once."""
    queue, done = WorkQueue(client, "jobs", 64), []
    if k % 2 == 0:
        for value in range(8):
            queue.put(100 * k + value)
        return []
    while len(done) < 8:
        job = queue.take()
        if job.attempt == 1:
            job.fail()
        else:
            job.done()
            done.append(job.value)
    return done


def book(client, k):
    """A writer raises two numbers, and a reader finds them equal."""
    lock, pages = ReadWriteLock(client, "book", 8), shared_array(client, "pages", 2, full=True)
    for _ in range(3):
        if k % 4 == 0:
            lock.acquire_write()
            for page in range(2):
                client.writexf(pages, page, client.readxx(pages, page) + 1)
            lock.release_write()
        else:
            lock.acquire_read()
            first, second = client.readxx(pages, 0), client.readxx(pages, 1)
            lock.release_read()
            if first != second:
                return [first, second]
    return None


def election(client, k):
    leader = Election(client, "leader")
    number = leader.campaign()
    leader.resign()
    return number


def barrier(client, k):
    """The number of arrivals seen after each wait: never fewer than all of that round."""
    gate, arrivals = Barrier(client, "barrier", PROCESSES), Counter(client, "arrivals")
    seen = []
    for _ in range(4):
        arrivals.add()
        gate.wait()
        seen.append(arrivals.value())
    return seen


def counter(client, k):
    hits = Counter(client, "counter")
    return [hits.add() for _ in range(10)]


def future(client, k):
    result = Future(client, "future")
    return [result.set(1000 + k), result.get()]


def once(client, k):
    runs = Counter(client, "runs")
    return Once(client, "once").run(lambda: 50 + runs.add())


def raising(client, k):
    """Raises a counter until a file says to stop: one by one, and 32 at a time."""
    word = shared_array(client, "raised", 1, full=True)
    values = []
    while not os.path.exists(client.path + ".enough"):
        if k % 2:
            values.append(client.int_fetch_add(word, 0, 1))
        else:
            futures = [client.submit(requests.int_fetch_add(word, 0, 1)) for _ in range(32)]
            values += [done.result() for done in futures]
    return values


def count_once(path, file, progress, steps):
    """Adds 1 that many times, each exactly once, although this process is killed. `progress` is how far it has come."""
    done = 0
    if os.path.exists(progress):
        with open(progress) as found:
            done = int(found.read())
    with Client(path, session_file=file, reconnect_timeout=100.0) as client:
        word = shared_array(client, "once_each", 1, full=True)
        while done < steps:
            client.once(done, requests.int_fetch_add(word, 0, 1))
            done += 1
            with open(progress + ".new", "w") as new:
                new.write(str(done))
            os.rename(progress + ".new", progress)
            client.forget(done - 1)


EVERY = (lock, semaphore, queue, channel, jobs, book, election, barrier, counter, future, once, raising)
WORK = {work.__name__: work for work in EVERY}


def work_as_told(path, k):
    """A process: for each name on standard input it does that work, and prints the result."""
    # On a slow machine the server may be killed again before each client is served.
    # Two out of three have further sessions.
    with Client(path, 1000 + k, sessions=1 + k % 3, reconnect_timeout=100.0) as client:
        print("ready", flush=True)
        for line in sys.stdin:
            print(json.dumps(WORK[line.strip()](client, k)), flush=True)


class Processes:
    """16 processes, each with a client."""

    def __init__(self, path):
        self._all = [
            subprocess.Popen(
                [sys.executable, __file__, "--work", path, str(k)],
                stdin=subprocess.PIPE,
                stdout=subprocess.PIPE,
                text=True,
            )
            for k in range(PROCESSES)
        ]
        for process in self._all:
            expect("a process", process.stdout.readline(), "ready\n")

    def begin(self, name):
        for process in self._all:
            process.stdin.write(name + "\n")
            process.stdin.flush()

    def results(self):
        lines = [process.stdout.readline() for process in self._all]
        if "" in lines:
            raise Failure("a process ended")
        return [json.loads(line) for line in lines]

    def run(self, name):
        self.begin(name)
        return self.results()

    def close(self):
        """Ends them by closing their input, or kills them."""
        for process in self._all:
            process.stdin.close()
        for process in self._all:
            try:
                process.wait(10)
            except subprocess.TimeoutExpired:
                process.kill()
                process.wait()
            process.stdout.close()


def flat(lists):
    return [value for values in lists for value in values]


def try_patterns(path, processes):
    with Client(path, 1) as client:
        processes.run("lock")
        expect("lock", client.readxx(client.find("total"), 0), 5 * PROCESSES)
        yield "lock"
        most = max(processes.run("semaphore"))
        if not 1 <= most <= 3:
            raise Failure(f"semaphore: {most} inside")
        yield "semaphore"
        put = [100 * k + value for k in range(0, PROCESSES, 2) for value in range(8)]
        expect("queue", sorted(flat(processes.run("queue"))), put)
        yield "queue"
        expect("channel", sorted(flat(processes.run("channel"))), put)
        yield "channel"
        expect("jobs", sorted(flat(processes.run("jobs"))), put)
        yield "jobs"
        expect("book", processes.run("book"), [None] * PROCESSES)
        expect("book", client.readxx(client.find("pages"), 1), 3 * len(range(0, PROCESSES, 4)))
        yield "book"
        expect("election", len(set(processes.run("election"))), PROCESSES)
        yield "election"
        for seen in processes.run("barrier"):
            if any(count < PROCESSES * (round + 1) for round, count in enumerate(seen)):
                raise Failure(f"barrier: arrivals {seen}")
        yield "barrier"
        expect("counter", sorted(flat(processes.run("counter"))), list(range(10 * PROCESSES)))
        yield "counter"
        got = processes.run("future")
        expect("future", [first for first, _ in got].count(True), 1)
        winner = [first for first, _ in got].index(True)
        expect("future", {value for _, value in got}, {1000 + winner})
        yield "future"
        expect("once", processes.run("once"), [50] * PROCESSES)
        expect("once", Counter(client, "runs").value(), 1)
        yield "once"


def try_shell(path):
    words = [sys.executable, "-m", "femem", path, "report"]
    shell = subprocess.run(words, cwd=ROOT, stdin=subprocess.DEVNULL, capture_output=True, text=True, timeout=30)
    # The patterns' clients keep a request waiting that shows in reports.
    expect("shell", (shell.returncode, shell.stdout.splitlines()[:1]), (0, [f"waiting {PROCESSES}"]))


def try_kills(server, processes):
    """The counter ends at the number of additions, and each of its values was answered once."""
    enough = server.path + ".enough"
    processes.begin("raising")
    for _ in range(KILLS):
        time.sleep(0.25)
        server.kill()
        server.start()
    with open(enough, "w"):
        pass
    values = flat(processes.results())
    with Client(server.path, 1) as client:
        end = client.readff(client.find("raised"), 0)
    expect("the counter's end", end, len(values))
    if sorted(values) != list(range(end)):
        raise Failure("a value of the counter was answered twice")


def try_restarts(server):
    """A process that is killed again and again, in turns with its server, has counted exactly."""
    steps, kills = 600, 0
    file, progress = server.path + ".session", server.path + ".progress"
    chance = random.Random(3)
    end = time.monotonic() + 100 * float(os.environ.get("FEMEM_PATIENCE", "1"))
    while time.monotonic() < end:
        process = subprocess.Popen([sys.executable, __file__, "--count", server.path, file, progress, str(steps)])
        try:
            # Half of them are killed early, so that there are many kills on any machine.
            status = process.wait(0.15 + chance.random() * (0.2 if kills < 20 else 60.0))
        except subprocess.TimeoutExpired:
            process.kill()
            process.wait()
            kills += 1
            if kills % 4 == 0:
                server.kill()
                server.start()
            continue
        expect("a process that counts", status, 0)
        break
    with Client(server.path, 1) as client:
        expect(f"the count after {kills} kills of the client", client.readff(client.find("once_each"), 0), steps)
    return kills


def try_late(server):
    """A request that was taken back comes late, over an earlier connection. It does nothing, and holds up no other request."""
    with Client(server.path, session_file=server.path + ".late") as client, socket.socket(socket.AF_UNIX) as earlier:
        word, count = client.create("late", 1), client.create("beside", 1, full=True)
        taken_back = client.submit(requests.readfe(word, 0), timeout=0.01)
        expect("a request that is taken back", type(taken_back.exception(60)), femem.TimedOut)
        number = taken_back.asked[1].number
        earlier.connect(server.path)
        earlier.sendall(frames.attach(client.session) + frames.pack_access(30, frames.ACCESS, number, frames.READFE, word.id, 0, 0))
        earlier.settimeout(60)
        decoder, refused = frames.ReplyDecoder(), []
        while not refused:
            refused = [it for it in decoder.feed(earlier.recv(4096)) if isinstance(it, frames.Refusal)]
        expect("what the late request is", errors.REFUSALS[refused[0].code], femem.BelowFloor)
        futures = [client.submit(requests.int_fetch_add(count, 0, 1)) for _ in range(100)]
        expect("what is asked beside it", [each.result(60) for each in futures], list(range(100)))
        expect("what waits then", client.report().waiters, [])
        client.bye()


def try_no_server(server):
    """Requests to a server that never comes back end with an error, after about the given time."""
    # This is long because on a slow machine even a running server may not answer at once.
    with Client(server.path, 1, reconnect_timeout=8.0) as client:
        word = shared_array(client, "word", 1, full=False)
        waiting = client.submit(requests.readfe(word, 0))
        server.kill()
        begin = time.monotonic()
        error = waiting.exception(60)
        expect("a server that is gone", type(error), femem.ServerUnreachable)
        if time.monotonic() - begin > 30:
            raise Failure("a server that is gone is told late")


def check(program):
    with tempfile.TemporaryDirectory() as folder:
        server = Server(program, folder)
        server.start()
        try:
            processes = Processes(server.path)
            try:
                for pattern in try_patterns(server.path, processes):
                    print(f"{pattern}: {PROCESSES} processes", flush=True)
                try_shell(server.path)
                print("shell: it reports what waits", flush=True)
                try_kills(server, processes)
                print(f"kills: {KILLS}, and the counter's end is exact", flush=True)
            finally:
                processes.close()
            print(f"restarts: {try_restarts(server)} kills of a client with a session file, and its count is exact", flush=True)
            try_late(server)
            print("a late request: it does nothing", flush=True)
            try_no_server(server)
            print("no server: it is told in time", flush=True)
        finally:
            server.kill()


def main(words):
    if len(words) == 3 and words[0] == "--work":
        work_as_told(words[1], int(words[2]))
        return 0
    if len(words) == 5 and words[0] == "--count":
        count_once(*words[1:4], int(words[4]))
        return 0
    if len(words) != 1:
        print("usage: check.py PROGRAM", file=sys.stderr)
        return 2
    try:
        check(os.path.abspath(words[0]))
    except (Failure, femem.FememError, OSError, subprocess.SubprocessError) as failure:
        print(f"check.py: {type(failure).__name__}: {failure}", file=sys.stderr)
        return 1
    return 0


if __name__ == "__main__":
    sys.exit(main(sys.argv[1:]))
