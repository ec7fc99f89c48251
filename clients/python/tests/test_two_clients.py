"""One work queue that a client in C and one in Python use."""

import os
import pathlib
import re
import shutil
import subprocess
import tempfile
import threading
import unittest

import paths
from serving import WithFolder
from test_sessionformat import REFUSED, TAKEN, contents

from femem import Client
from femem.patterns import WorkQueue

HERE = pathlib.Path(paths.__file__).resolve().parent
LIBRARY = HERE.parents[1] / "c"


def sources():
    """Those of the C client's library, as its Makefile names them."""
    parts = re.search(r"^PARTS := ((?:.*\\\n)*.*)$", (LIBRARY / "Makefile").read_text(), re.MULTILINE)[1]
    return [LIBRARY / f"{name}.c" for name in [*parts.replace("\\", " ").split(), "session_file"]]


@unittest.skipUnless(shutil.which("cc"), "no C compiler")
class TwoClients(WithFolder):
    @classmethod
    def setUpClass(cls):
        folder = tempfile.TemporaryDirectory()
        cls.addClassCleanup(folder.cleanup)
        cls.program = os.path.join(folder.name, "two_clients")
        words = ["cc", "-O1", f"-I{LIBRARY}", "-o", cls.program, HERE / "two_clients.c", *sources()]
        subprocess.run(words, check=True, timeout=300)

    def setUp(self):
        super().setUp()
        self.server()

    def start(self, what, count):
        words = [self.program, self.path, what, str(count)]
        return subprocess.Popen(words, stdout=subprocess.PIPE, text=True)

    def queue(self, client):
        return WorkQueue(client, "jobs", 16, attempts=3, away_after=1.0)

    def test_both_refuse_the_same_session_files(self):
        file = self.path + ".session"
        cases = [(name, blocks, True) for name, blocks in REFUSED.items()]
        cases += [(name, blocks, False) for name, blocks in TAKEN.items()]
        for name, blocks, is_refused in cases:
            with open(file, "wb") as out:
                out.write(contents(blocks))
            done = subprocess.run([self.program, file, "open", "0"], timeout=60)
            with self.subTest(name):
                self.assertEqual(done.returncode, 3 if is_refused else 0)

    def test_jobs_of_each_are_done_by_the_other(self):
        with Client(self.path, 1) as client:
            queue = self.queue(client)
            putter = self.start("put", 60)
            got = []
            for _ in range(60):
                with queue.take(timeout=60) as job:
                    got.append(job.value)
            self.assertEqual((putter.wait(60), sorted(got)), (0, list(range(60))))
            taker = self.start("take", 60)
            for value in range(60):
                queue.put(value, timeout=60)
            done = taker.communicate(timeout=60)[0].split("\n")[:-1]
            self.assertEqual(sorted(map(int, (line.split()[0] for line in done))), list(range(60)))
            self.assertEqual(queue.aside(), [])
            putter.stdout.close()

    def test_a_job_of_a_killed_taker_in_c_is_given_to_python(self):
        with Client(self.path, 1) as client:
            queue = self.queue(client)
            queue.put(5)
            killed = self.start("hold", 1)
            self.assertEqual(killed.wait(60), -9)
            killed.stdout.close()
            with queue.take(timeout=60) as job:
                self.assertEqual((job.value, job.attempt), (5, 2))

    def test_a_job_that_failed_in_python_is_given_to_c(self):
        with Client(self.path, 1) as client:
            queue = self.queue(client)
            queue.put(6)
            queue.take(timeout=60).fail()
            out = self.start("take", 1).communicate(timeout=60)[0]
            self.assertEqual(out, "6 2\n")

    def test_both_take_at_the_same_time(self):
        with Client(self.path, 1) as client, Client(self.path, 2) as other:
            queue = self.queue(client)
            takers = [self.start("take", 20)]
            got = []

            def take():
                mine = self.queue(other)
                for _ in range(20):
                    with mine.take(timeout=60) as job:
                        got.append(job.value)

            thread = threading.Thread(target=take)
            thread.start()
            for value in range(40):
                queue.put(value, timeout=60)
            thread.join(60)
            for taker in takers:
                got += [int(line.split()[0]) for line in taker.communicate(timeout=60)[0].splitlines()]
            self.assertEqual(sorted(got), list(range(40)))


if __name__ == "__main__":
    unittest.main()
