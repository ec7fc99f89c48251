"""The fixture `femem_server`, run by pytest: that of an interpreter here, or else by its own generator, which a line says.

It serves by the program of FEMEM_PROGRAM, or by a model's process, which keeps nothing over a kill.
"""

import contextlib
import os
import pathlib
import re
import subprocess
import sys
import tempfile
import textwrap
import unittest
import unittest.mock

import paths
from test_testing import STANDS_IN

from femem import testing

ROOT = pathlib.Path(paths.__file__).resolve().parents[1]
# Debian's pytest is that of Debian's interpreter.
PYTEST = next(
    (each for each in (sys.executable, "/usr/bin/python3")
     if os.path.exists(each) and not subprocess.run([each, "-c", "import pytest"], capture_output=True).returncode),
    None,
)  # fmt: skip

OF_A_TEST = "from femem.testing import femem_server\n"
PAGE = (ROOT / "README.md").read_text()
# As the page shows it.
OF_A_SESSION = textwrap.dedent(re.search(r"^    import pytest.*?(?=^\S)", PAGE, re.MULTILINE | re.DOTALL)[0])

# What users' tests do. Each notes its server's folder and process.
TESTS = """
import os
from femem import Client
from femem.patterns import Counter

def note(server):
    with open(os.environ["NOTES"], "a", encoding="utf-8") as file:
        file.write(f"{os.path.dirname(server.path)} {server._process.pid}\\n")

def test_it_is_killed_and_serves_again(femem_server):
    note(femem_server)
    with Client(femem_server.path) as client:
        assert Counter(client, "hits").add() == 0
    femem_server.kill()
    assert not os.path.exists(femem_server.path)
    femem_server.start()
    note(femem_server)
    with Client(femem_server.path) as client:
        assert Counter(client, "hits").value() == int(os.environ["KEPT"])

def test_a_client_goes_on_over_a_restart(femem_server):
    note(femem_server)
    with Client(femem_server.path, wait_for_server=True) as client:
        assert Counter(client, "hits").add() == int(os.environ["HITS"])
        if int(os.environ["KEPT"]):
            femem_server.restart()
            assert Counter(client, "hits").value() == int(os.environ["HITS"]) + 1
    note(femem_server)

def test_that_fails(femem_server):
    note(femem_server)
    with Client(femem_server.path) as client:
        assert Counter(client, "hits").add() == -1

def test_that_leaves_it_killed(femem_server):
    note(femem_server)
    femem_server.kill()
"""
COUNT = TESTS.count("\ndef test_")


class Fixture(unittest.TestCase):
    def setUp(self):
        folder = tempfile.TemporaryDirectory()
        self.addCleanup(folder.cleanup)
        self.folder = pathlib.Path(folder.name)
        (self.folder / "test_mine.py").write_text(TESTS)
        real = os.environ.get("FEMEM_PROGRAM", "")
        self.program = self.folder / "bin" / "femem"
        self.program.parent.mkdir()
        if real:
            self.program.symlink_to(real)
        else:
            self.program.write_text(STANDS_IN)
            self.program.chmod(0o755)
        self.env = {**os.environ, "PYTHONPATH": str(ROOT), "PYTHONDONTWRITEBYTECODE": "1", "NOTES": str(self.folder / "notes")}
        self.env.update(KEPT="1" if real else "0", HITS="0", FEMEM_PROGRAM=str(self.program))

    def pytest(self, conftest):
        (self.folder / "conftest.py").write_text(conftest)
        words = [PYTEST, "-m", "pytest", "-q", "-p", "no:cacheprovider", "--tb=line", "--rootdir", self.folder, self.folder]
        done = subprocess.run(words, cwd=self.folder, env=self.env, capture_output=True, text=True, timeout=120)
        return done.returncode, done.stdout + done.stderr

    def by_hand(self):
        """What pytest does with the generator. How many passed, and how many failed."""
        names, passed, failed = {}, 0, 0
        exec(TESTS, names)
        for test in [each for name, each in names.items() if name.startswith("test_")]:
            served = testing._served()
            try:
                test(next(served))
                passed += 1
            except AssertionError:
                failed += 1
            self.assertIsNone(next(served, None))
        return passed, failed

    @staticmethod
    def runs(folder, process):
        """Another process may have the number of a server that has ended."""
        try:
            return folder in pathlib.Path(f"/proc/{process}/cmdline").read_text(errors="replace")
        except OSError:
            return False

    def ended(self, servers):
        """The folder of each server that was noted is gone, and so is its process."""
        notes = [line.split() for line in (self.folder / "notes").read_text().splitlines()]
        self.assertEqual((len(notes), len({folder for folder, _ in notes})), (COUNT + 2, servers))
        for folder, process in notes:
            self.assertFalse(os.path.exists(folder), folder)
            self.assertFalse(self.runs(folder, process), process)

    def test_each_test_has_a_server_of_its_own(self):
        if PYTEST is None:
            print("femem_server: there is no pytest, so its generator runs by hand", file=sys.stderr)
            with unittest.mock.patch.dict(os.environ, self.env):
                self.assertEqual(self.by_hand(), (COUNT - 1, 1))
        else:
            status, said = self.pytest(OF_A_TEST)
            self.assertEqual((status, f"1 failed, {COUNT - 1} passed" in said), (1, True), said)
            print(f"femem_server: under pytest of {PYTEST}, over {'a model' if self.env['KEPT'] == '0' else 'the program'}", file=sys.stderr)
        self.ended(servers=COUNT)

    def test_a_session_has_one_server(self):
        """The test that fails and the one that kills come last."""
        if PYTEST is None:
            with unittest.mock.patch.dict(os.environ, self.env), contextlib.ExitStack() as stack:
                server = stack.enter_context(testing.Server())
                self.assertTrue(os.path.exists(server.restart().path))
            return
        self.env["HITS"] = self.env["KEPT"]
        status, said = self.pytest(OF_A_SESSION)
        self.assertEqual((status, f"1 failed, {COUNT - 1} passed" in said), (1, True), said)
        self.ended(servers=1)

    def test_the_program_on_the_path_serves(self):
        del self.env["FEMEM_PROGRAM"]
        self.env["PATH"] = f"{self.program.parent}{os.pathsep}{self.env['PATH']}"
        if PYTEST is None:
            with unittest.mock.patch.dict(os.environ, self.env, clear=True):
                self.assertEqual(self.by_hand(), (COUNT - 1, 1))
        else:
            status, said = self.pytest(OF_A_TEST)
            self.assertEqual((status, f"1 failed, {COUNT - 1} passed" in said), (1, True), said)
        self.ended(servers=COUNT)


if __name__ == "__main__":
    unittest.main()
