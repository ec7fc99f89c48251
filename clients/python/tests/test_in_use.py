"""Problems that users could meet, each as one test, which uses only the parts of the library that it needs."""

import asyncio
import os
import pathlib
import random
import re
import signal
import subprocess
import sys
import threading
import time

import paths
import test_unspoilt
from serving import WithFolder
from test_unspoilt import interrupted

import femem
from femem import Client, requests
from femem.aio import AsyncClient
from femem._attachment import FIRST_PROBE
from femem.patterns import Counter, Lock

ROOT = pathlib.Path(paths.__file__).resolve().parents[1]

# A sleep of Python's, half a second late.
LATE_SLEEP = """
#define _GNU_SOURCE
#include <dlfcn.h>
#include <errno.h>
#include <time.h>

typedef int (*sleeper)(clockid_t, int, const struct timespec *, struct timespec *);

int clock_nanosleep(clockid_t clock, int flags, const struct timespec *end, struct timespec *rest) {
  sleeper sleep_now = (sleeper)dlsym(RTLD_NEXT, "clock_nanosleep");
  struct timespec left = {0, 500000000};
  while (nanosleep(&left, &left) != 0 && errno == EINTR) {
  }
  return sleep_now(clock, flags, end, rest);
}
"""


def until(condition, seconds=60):
    """Waits until the condition holds. Returns whether it did."""
    end = time.monotonic() + seconds
    while not condition():
        if time.monotonic() > end:
            return False
        time.sleep(0.002)
    return True


def quiet(work):
    """Does the work, and ignores its error."""
    try:
        work()
    except femem.FememError:
        pass


class Spoilt(WithFolder):
    def test_a_fraction_ends_no_client(self):
        """A counter refuses a fraction, and the client goes on counting."""
        self.server()
        with Client(self.path, 7, reconnect_timeout=5.0) as client:
            counter = Counter(client, "counter")
            with self.assertRaises(Exception):
                counter.add(0.5)
            self.assertEqual([counter.add() for _ in range(100)], list(range(100)))

        async def main():
            async with AsyncClient(self.path, 8, reconnect_timeout=5.0) as client:
                word = await client.create("word", 1, full=True)
                with self.assertRaises(Exception):
                    await client.writexf(word, 0, 1.5)
                got = [await client.int_fetch_add(word, 0, 1, timeout=30) for _ in range(100)]
                self.assertEqual(got, list(range(100)))

        asyncio.run(main())

    def test_ctrl_c_ends_no_client(self):
        """`submit` is interrupted before each of its bytecodes, and the client still works each time."""
        self.server()
        with Client(self.path, 7, reconnect_timeout=5.0) as client:
            word = client.create("word", 1, full=True)
            request = requests.readxx(word, 0)
            broken = 0
            while interrupted(lambda: client.submit(request), broken + 1):
                broken += 1
                self.assertEqual(client.submit(request).result(30), 0)
            self.assertGreater(broken, 30)
            self.assertEqual([client.int_fetch_add(word, 0, 1, timeout=30) for _ in range(40)], list(range(40)))

    def test_a_child_that_says_bye_leaves_its_parent_alone(self):
        """A child of `fork` uses the client that it inherited; its parent's goes on waiting, and gets its answer."""
        self.server()
        uses = {
            "report": lambda client, waiting: client.report(),
            "withdraw": lambda client, waiting: client.withdraw(waiting),
            "bye": lambda client, waiting: client.bye(),
            "close": lambda client, waiting: client.close(),
        }
        for name, use in uses.items():
            with Client(self.path, 7, reconnect_timeout=5.0) as client:
                word = client.create(name, 1)
                waiting = client.submit(requests.readfe(word, 0))
                self.assertTrue(until(lambda: client.report().waiters))

                def in_child():
                    # It might never return, since the client is not the child's to use.
                    thread = threading.Thread(target=quiet, args=(lambda: use(client, waiting),), daemon=True)
                    thread.start()
                    thread.join(0.5)

                test_unspoilt.Forks.in_child(self, in_child)
                self.assertFalse(waiting.done(), name)
                client.writexf(word, 0, 3, timeout=10)
                self.assertEqual(waiting.result(10), 3, name)

    def test_wait_for_loses_nothing(self):
        """300 values are written, each about when its reader's time is over: every value reaches a reader."""
        self.server()

        async def main():
            lost = late = 0
            async with AsyncClient(self.path, 7) as one, AsyncClient(self.path, 8) as other:
                word = await one.create("word", 1)

                async def write(turn):
                    await asyncio.sleep(0.002 * (turn % 5))
                    await other.writeef(word, 0, turn)

                for turn in range(300):
                    writer = asyncio.ensure_future(write(turn))
                    got = None
                    try:
                        got = await asyncio.wait_for(one.readfe(word, 0), 0.006)
                    except asyncio.TimeoutError:
                        late += 1
                    await writer
                    try:
                        left = await other.readfe(word, 0, nowait=True)
                    except femem.NotNow:
                        left = None
                    lost += [got, left].count(turn) != 1
            self.assertEqual(lost, 0)
            self.assertGreater(late, 0)

        asyncio.run(main())

    def test_a_thousand_that_wait_do_not_hold_up_the_next(self):
        """While 1,000 tasks wait, an operation that never waits does not have to move any of them."""
        server = self.server()
        heard = []
        take = server.model.take

        def takes(conn, message):
            if message[0] != "cancel" or message[1] < FIRST_PROBE:  # (a probe only asks whether the server is there)
                heard.append(message[0:1] + message[2:])
            take(conn, message)

        server.model.take = takes

        async def main():
            async with AsyncClient(self.path, 7, sessions=34) as client:
                words = await client.create("words", 1000)
                tasks = [asyncio.ensure_future(client.readff(words, index)) for index in range(1000)]
                # (a request may wait already, and still be about to move)
                while True:
                    heard.clear()
                    await asyncio.sleep(0.05)
                    if len((await client.report()).waiters) == 1000 and {message[0] for message in heard} == {"report"}:
                        break
                heard.clear()
                for index in range(20):
                    await client.readxx(words, index)
                looks = [message for message in heard if message[0] == "call"]
                self.assertEqual(len(looks), 20)
                self.assertEqual([message for message in heard if message == ("cancel",)], [])
                await client.remove(words)
                ended = await asyncio.gather(*tasks, return_exceptions=True)
                self.assertEqual({type(each) for each in ended}, {femem.NoArray})

        asyncio.run(main())

    def test_a_batch_is_asked_in_one_step(self):
        """32 requests in one batch cost the client's thread one step; 32 calls of `submit` cost it 32."""
        self.server()
        with Client(self.path, 7) as client:
            hits = client.create("hits", 1, full=True)
            steps = []
            ask = client._ask
            client._ask = lambda what: (steps.append(what), ask(what))
            with client.pipeline() as pipe:
                for _ in range(32):
                    pipe.int_fetch_add(hits, 0, 1)
            self.assertEqual((pipe.results, len(steps)), (list(range(32)), 1))


class Killed(WithFolder):
    WORKER = """
import os, sys
sys.path.insert(0, sys.argv[1])
from femem import Client, requests
path, file, progress, recovered = sys.argv[2:6]
done = int(open(progress).read()) if os.path.exists(progress) else 0
with Client(path, session_file=file, reconnect_timeout=100.0) as client:
    word = client.find("word")
    with open(recovered, "a") as told:
        told.write("+" * len(client.recovered))
    print("ready", flush=True)
    while done < 600:
        client.once(done, requests.int_fetch_add(word, 0, 1))
        done += 1
        with open(progress + ".new", "w") as new:
            new.write(str(done))
        os.rename(progress + ".new", progress)
        client.forget(done - 1)
"""

    def test_a_worker_that_is_killed_counts_exactly(self):
        """A worker that a supervisor restarts counts to 600, however often it is killed on the way."""
        self.server()
        chance = random.Random(3)
        kills = 0
        with Client(self.path, 7) as client:
            word = client.create("word", 1, full=True)
            files = [self.path + end for end in (".session", ".progress", ".recovered")]
            words = [str(ROOT), self.path, *files]
            while True:
                worker = subprocess.Popen([sys.executable, "-c", self.WORKER, *words], stdout=subprocess.PIPE, text=True)
                with worker.stdout:
                    if worker.stdout.readline() == "ready\n" and kills < 12:
                        time.sleep(chance.random() * 0.05)
                        worker.kill()
                        kills += 1
                if worker.wait(100) != -signal.SIGKILL:
                    break
            self.assertEqual(worker.returncode, 0)
            self.assertEqual(kills, 12)
            self.assertEqual(client.readff(word, 0), 600)
        # Some of the kills left a request without an answer.
        self.assertTrue(pathlib.Path(files[2]).read_text())

    def test_a_signal_ends_a_watch(self):
        for number in (signal.SIGTERM, signal.SIGHUP):
            self.end_watch(number, os.environ)

    def test_a_signal_just_before_a_watch_sleeps_ends_it(self):
        """The sleep is half a second late, and the signal comes in that time."""
        late = self.path + "-late.so"
        compiler = ["cc", "-shared", "-fPIC", "-o", late, "-x", "c", "-"]
        subprocess.run(compiler, input=LATE_SLEEP.encode(), check=True)
        for number in (signal.SIGTERM, signal.SIGHUP):
            self.end_watch(number, {**os.environ, "LD_PRELOAD": late}, pause=0.2)

    def end_watch(self, number, environment, pause=0.0):
        """Ends a watch that sleeps for an hour."""
        server = self.server()
        words = [sys.executable, "-m", "femem", self.path, "watch", "3600"]
        with subprocess.Popen(words, cwd=ROOT, env=environment, stdout=subprocess.PIPE, stderr=subprocess.DEVNULL) as shell:
            self.addCleanup(shell.kill)
            line = shell.stdout.readline()
            time.sleep(pause)
            shell.send_signal(number)
            self.assertEqual(shell.wait(60), 128 + number)
        self.assertIn(b"nobody waits", line)
        server.kill()


class Seen(WithFolder):
    def test_a_deadlock_is_one(self):
        """Two clients wait for each other's lock, and the shell's report says that all wait."""
        self.server()
        with Client(self.path, 7) as one, Client(self.path, 8) as two:
            Lock(one, "first").acquire()
            Lock(two, "second").acquire()
            blocked = [(one, "second"), (two, "first")]
            threads = [threading.Thread(target=self.acquire, args=each, daemon=True) for each in blocked]
            for thread in threads:
                thread.start()
            locks = {one.find(name).id: session for session, name in ((8, "first"), (7, "second"))}

            def both_wait():
                return locks.items() <= {each.array: each.session for each in one.report().waiters}.items()

            self.assertTrue(until(both_wait))
            words = [sys.executable, "-m", "femem", self.path, "report"]
            shell = subprocess.run(words, cwd=ROOT, stdout=subprocess.PIPE, timeout=60)
            self.assertIn("all-wait yes", shell.stdout.decode())
        for thread in threads:
            thread.join(60)

    @staticmethod
    def acquire(client, name):
        try:
            Lock(client, name).acquire(timeout=60)
        except femem.FememError:
            pass  # its client was closed

    def test_what_a_client_can_not_tell_is_said(self):
        """The README says that a client does not notice if another one ends its session and begins it again."""
        promise = re.search(r"\*\*At most once\.\*\*.*?\n\n(.*?)\n\n", (ROOT / "README.md").read_text(), re.DOTALL)[1]
        self.assertIn("a second time, unnoticed", promise)
        self.assertIn("a session belongs to one client", promise)
