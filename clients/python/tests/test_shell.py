"""What shows what waits, with the model at a socket."""

import json
import os
import pathlib
import signal
import struct
import subprocess
import sys
import threading
import time

import paths  # noqa: F401
from serving import BadServer, WithFolder

import femem
from femem import Client, Observer
from femem.observer import blocked, overview, parse_look
from femem.patterns import Lock

ROOT = pathlib.Path(paths.__file__).resolve().parents[1]


def until(condition, seconds=60):
    """Waits until the condition holds. Returns whether it did."""
    end = time.monotonic() + seconds
    while not condition():
        if time.monotonic() > end:
            return False
        time.sleep(0.02)
    return True


class Shell(WithFolder):
    def one(self, *words, env=None, status=0):
        """Runs one command of the command line. Returns its output and its errors."""
        done = subprocess.run(
            [sys.executable, "-m", "femem", *words],
            cwd=ROOT,
            stdin=subprocess.DEVNULL,
            capture_output=True,
            text=True,
            timeout=60,
            env={**os.environ, **(env or {})},
        )
        self.assertEqual(done.returncode, status, done.stderr)
        return done.stdout + done.stderr

    def test_who_waits(self):
        server = self.server()
        with Client(self.path, 8) as client:
            read = client.submit(femem.requests.readfe(client.create("slot", 1), 0))
            self.assertTrue(until(lambda: client.report().waiters))
            lines = ["waiting 1", "word 1 0 session 8 number 34 readfe", "session 8 waits 1", "all-wait yes"]
            self.assertEqual(self.one(self.path, "report").splitlines(), lines)
            waiter = {"array": 1, "index": 0, "session": 8, "number": 34, "operation": "readfe"}
            self.assertEqual(json.loads(self.one(self.path, "--json", "report")), {"waiters": [waiter], "all_wait": True})
            self.assertIn('  "s8" -> "w1_0" [label="readfe, needs full"];', self.one(self.path, "graph"))
            self.assertEqual(self.one(self.path, "graph", self.path + ".dot"), "")
            self.assertEqual(pathlib.Path(self.path + ".dot").read_text(), self.one(self.path, "graph", "--owners"))
            self.assertIn("femem_waiting 1\n", self.one("metrics", env={"FEMEM_SOCKET": self.path}))
            client.writexf(1, 0, 5)
            self.assertEqual(read.result(60), 5)
        self.assertEqual(list(server.model.stored.sessions), [8])

    def test_watch(self):
        self.server()
        with Client(self.path, 8) as client:
            client.submit(femem.requests.readfe(client.create("slot", 1), 0))
            self.assertTrue(until(lambda: client.report().waiters))
            words = [sys.executable, "-m", "femem", self.path, "watch", "0.1"]
            # It may be ignored if the tests run in the background.
            set_signal = lambda: signal.signal(signal.SIGINT, signal.SIG_DFL)
            with subprocess.Popen(words, cwd=ROOT, stdout=subprocess.PIPE, text=True, preexec_fn=set_signal) as watch:
                lines = [watch.stdout.readline() for _ in range(6)]
                watch.send_signal(signal.SIGINT)
                self.assertEqual(watch.wait(60), 128 + signal.SIGINT)
        due = "  word 0 of array 1 is to become full for session 8 (readfe, number 34)\n"
        self.assertEqual(lines[1::2], [due] * 3)
        for line in lines[::2]:
            self.assertRegex(line, "^[0-9:]+ every attached session waits$")

    def test_a_watch_as_a_page(self):
        self.server()
        page = pathlib.Path(self.path + ".html")
        words = [sys.executable, "-m", "femem", self.path, "watch", "--html", page, "2"]
        with subprocess.Popen(words, cwd=ROOT) as watch:
            is_there = until(page.exists, 30)
            watch.send_signal(signal.SIGTERM)
            self.assertEqual(watch.wait(60), 128 + signal.SIGTERM)
        self.assertTrue(is_there)
        self.assertIn('http-equiv="refresh" content="2"', page.read_text())

    def test_no_server(self):
        said = self.one(self.path, "report", "--reconnect-timeout", "0.3", status=4)
        self.assertEqual(said, f"femem: server-unreachable: {self.path}: No such file or directory\n")
        self.assertIn("/nowhere", self.one("/nowhere", "report", status=4))

    def test_the_rest_is_left_to_femem_cli(self):
        server = self.server()
        operations = ["readfe", "readff", "readxx", "writeef", "writeff", "writexf", "purge", "int_fetch_add"]
        for command in ["create", "find", "remove", *operations, "queue", "lock"]:
            for words in ((self.path, "--session", "7", command, "slot", "1"), (self.path, command, "mine", "--", "touch", "run")):
                self.assertEqual(self.one(*words, status=2), f"femem: femem-cli has {command}\n")
            self.assertEqual(self.one(command, status=2, env={"FEMEM_SOCKET": self.path}), f"femem: femem-cli has {command}\n")
        said = "femem: femem-cli has a prompt, and reads lists; here are report, watch, graph and metrics\n"
        self.assertEqual(self.one(self.path, status=2), said)
        self.assertEqual(server.model.stored.arrays, {})

    def test_wrong_command_lines(self):
        self.server()
        self.assertEqual(self.one("jump", "slot", status=2, env={"FEMEM_SOCKET": self.path}), "femem: there is no jump\n")
        self.assertEqual(self.one(self.path, "report", "slot", status=2), "femem: slot is a word too many\n")
        self.assertEqual(self.one(self.path, "watch", "x", status=2), "femem: x is no time\n")
        self.assertIn("there is no --session", self.one(self.path, "report", "--session", "7", status=2))
        self.assertIn("no socket is given", self.one("report", status=2, env={"FEMEM_SOCKET": ""}))


class Looking(WithFolder):
    """What an observer sees. It attaches no session."""

    def wait_for(self, observer, count):
        deadline = time.monotonic() + 60
        while len(observer.report().waiters) < count and time.monotonic() < deadline:
            time.sleep(0.01)
        return observer.report()

    def test_a_deadlock_is_a_cycle_and_all_wait(self):
        server = self.server()
        with Client(self.path, 7) as one, Client(self.path, 8) as two, Observer(self.path) as observer:
            a, b = Lock(one, "lock_a"), Lock(two, "lock_b")
            a.acquire()
            b.acquire()
            threads = [
                threading.Thread(target=Lock(one, "lock_b").acquire, args=(60,), daemon=True),
                threading.Thread(target=Lock(two, "lock_a").acquire, args=(60,), daemon=True),
            ]
            for thread in threads:
                thread.start()
            report = self.wait_for(observer, 4)
            self.assertTrue(report.all_wait)
            self.assertEqual(sorted(server.model.stored.sessions), [7, 8])
            first, second, presence = [one.find(name).id for name in ("lock_a", "lock_b", "presence")]
            owners = observer.owners(report)
            self.assertEqual(owners, {first: 7, second: 8})
            # Requests that only show a client are known even without the store.
            self.assertEqual(observer.look().present(), presence)
            self.assertEqual(len(blocked(report, observer.look())), 2)
            look = parse_look(
                f"place 9\narray {first} lock_a 2\narray {presence} presence 1\nsession 7 floor 33 kept 4\n"
            )
            text = femem.observer.graph(report, look, owners)
            for arrow in (f'"s7" -> "w{second}_0"', f'"w{second}_0" -> "s8"', f'"s8" -> "w{first}_0"', f'"w{first}_0" -> "s7"'):
                self.assertIn(arrow, text)
            self.assertIn("word 0 of lock_a", text)
            self.assertNotIn(f'"w{presence}_0"', text)
            shown = femem.observer.metrics(report, look)
            for line in ("femem_waiting 2", "femem_all_wait 1", "femem_arrays 2", 'femem_session_waiting{session="7"} 1'):
                self.assertIn(line + "\n", shown)
            # Requests that only show a client do not count for `all-wait`.
            b.release()
            threads[0].join(60)
            self.assertFalse(femem.observer.all_wait(observer.report(), look))
            page = femem.observer.page(report, look, owners, 2.0)
            self.assertIn("<td>lock_a</td><td>0</td>", page)
            self.assertIn(">every attached session waits</span>", femem.observer.page(report, look, owners, 2.0))
            self.assertIn('http-equiv="refresh" content="2"', page)
            a.release()
            for thread in threads:
                thread.join(60)

    def test_64_sessions_are_no_hindrance(self):
        self.server()
        clients = [Client(self.path, session) for session in range(64)]
        with Observer(self.path) as observer:
            self.assertEqual(observer.report().waiters, [])
        out = subprocess.run(
            [sys.executable, "-m", "femem", self.path, "report"], cwd=ROOT, capture_output=True, text=True, timeout=60
        )
        self.assertEqual((out.stdout, out.returncode), ("waiting 0\n", 0))
        for client in clients:
            client.close()

    def test_a_server_that_is_started_again_and_one_that_is_gone(self):
        server = self.server()
        with Observer(self.path) as observer:
            observer.report()
            server.kill()
            server.start()
            self.assertEqual(observer.report().waiters, [])
            server.kill()
            with self.assertRaises(femem.ServerUnreachable):
                observer.report()

    def test_a_report_has_one_time_for_all_of_it(self):
        """However often the server sends a byte of it."""

        def drip():
            yield struct.pack(">IB", 1 + 200, 71)
            for _ in range(50):
                time.sleep(0.1)
                yield b"w"
            raise OSError("it ends the connection")

        server = BadServer(self.path, lambda piece, count: drip())
        self.addCleanup(server.close)
        with Observer(self.path, timeout=0.5) as observer, self.assertRaisesRegex(femem.ServerUnreachable, "timed out"):
            observer.report()

    def test_threads_share_an_observer(self):
        """Each report is asked by itself, whatever the time that one may take."""
        self.server()
        found, many = [], 25
        with Client(self.path, 7) as client, Observer(self.path, timeout=2**64) as observer:
            client.submit(femem.requests.readfe(client.create("jobs", 2), 1))
            self.wait_for(observer, 1)
            work = lambda: found.extend(len(observer.report().waiters) for _ in range(many))
            threads = [threading.Thread(target=work) for _ in range(4)]
            for thread in threads:
                thread.start()
            for thread in threads:
                thread.join()
        self.assertEqual(found, [1] * 4 * many)

    def test_what_look_says(self):
        self.server()
        program = self.path + ".program"
        with open(program, "w") as file:
            file.write("#!/bin/sh\necho array 1 jobs 2\necho session 7 floor 33 kept 4\n")
        os.chmod(program, 0o700)
        with Client(self.path, 7) as client, Observer(self.path, store="x", program=program) as observer:
            client.submit(femem.requests.readfe(client.create("jobs", 2), 1))
            text = overview(self.wait_for(observer, 1), observer.look())
            self.assertIn("word 1 of jobs is to become full for session 7", text)
            self.assertIn("session 7: 4 answers kept, waits", text)
        nobody = Observer(self.path, store="x", program="/nowhere")
        self.assertEqual(nobody.look().arrays, {})
        self.assertIn("/nowhere", nobody.trouble)

    def test_a_look_that_shows_nothing_says_why(self):
        self.server()
        program = self.path + ".program"
        with open(program, "w") as file:
            file.write("#!/bin/sh\necho femem: store device >&2\nexit 3\n")
        os.chmod(program, 0o700)
        words = ["--store", "x", "--program", program, self.path, "metrics"]
        out = subprocess.run(
            [sys.executable, "-m", "femem", *words], cwd=ROOT, capture_output=True, text=True, timeout=60
        )
        self.assertIn("femem_waiting 0\n", out.stdout)
        self.assertEqual((out.stderr, out.returncode), ("femem: the store shows no names: femem: store device\n", 0))
