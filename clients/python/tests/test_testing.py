"""`femem.testing`, as tests of its users call it."""

import os
import pathlib
import re
import sys
import textwrap
import unittest

import paths  # noqa: F401
from serving import WithFolder

from femem import Client
from femem.patterns import Counter
from femem.testing import ModelServer, Server

# A program that serves as the model does.
STANDS_IN = f"""#!{sys.executable}
import re, sys, threading
sys.path.insert(0, {os.path.dirname(os.path.dirname(os.path.abspath(__file__)))!r})
from femem.testing import ModelServer
text = open(sys.argv[3]).read()
ModelServer(re.search('socket = "(.*)"', text)[1]).start()
threading.Event().wait()
"""


class Testing(WithFolder):
    def test_a_model_keeps_what_was_answered(self):
        with ModelServer(self.path) as server:
            with Client(self.path, 7) as client:
                array = client.create("cells", 1)
                client.writeef(array, 0, 42)
                server.restart()
                self.assertEqual(client.readff(array, 0), 42)
        self.assertFalse(os.path.exists(self.path))

    def test_a_program_serves_in_a_folder_of_its_own(self):
        stand_in = os.path.join(os.path.dirname(self.path), "femem")
        with open(stand_in, "w", encoding="utf-8") as file:
            file.write(STANDS_IN)
        os.chmod(stand_in, 0o755)
        with Server(stand_in) as server:
            folder = os.path.dirname(server.path)
            for _ in range(2):
                with Client(server.path, wait_for_server=True) as client:
                    self.assertEqual(client.create("cells", 1).length, 1)
                server.restart()
        self.assertFalse(os.path.exists(folder))

    def test_the_page(self):
        """The test that the README shows."""
        page = (pathlib.Path(__file__).parents[1] / "README.md").read_text()
        shown = re.search(r"^    def test_a_restart.*?(?=^\S)", page, re.MULTILINE | re.DOTALL)[0]
        names = {"Client": Client, "Counter": Counter}
        exec(textwrap.dedent(shown), names)
        with ModelServer(self.path) as server:
            names["test_a_restart"](server)

    def test_a_program_that_does_not_serve_is_an_error(self):
        with self.assertRaises(RuntimeError):
            Server("/bin/false").start()

    def test_the_program_is_found(self):
        saved = dict(os.environ)
        try:
            os.environ.update(FEMEM_PROGRAM="/somewhere/femem", PATH="")
            with self.assertRaises(FileNotFoundError) as found:
                Server().start()
            self.assertEqual(found.exception.filename, "/somewhere/femem")
            del os.environ["FEMEM_PROGRAM"]
            with self.assertRaises(FileNotFoundError):
                Server()
        finally:
            os.environ.clear()
            os.environ.update(saved)


if __name__ == "__main__":
    unittest.main()
