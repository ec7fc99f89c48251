"""The model at a socket, in a thread; and servers that break the protocol."""

import os
import socket
import tempfile
import threading
import time
import unittest

import paths  # noqa: F401

from femem import Client
from femem.testing import ModelServer


class BadServer:
    """A server that answers each piece with the result of `answer(piece, count)`; `None` ends the connection."""

    def __init__(self, path, answer):
        self._answer = answer
        self._listener = socket.socket(socket.AF_UNIX, socket.SOCK_STREAM)
        self._listener.bind(path)
        self._listener.listen(64)
        threading.Thread(target=self._run, daemon=True).start()

    def close(self):
        self._listener.close()

    def _run(self):
        while True:
            try:
                link = self._listener.accept()[0]
            except OSError:
                return
            threading.Thread(target=self._serve, args=(link,), daemon=True).start()

    def _serve(self, link):
        count = 0
        try:
            with link:
                while True:
                    piece = link.recv(65536)
                    answer = self._answer(piece, count) if piece else None
                    if answer is None:
                        return
                    count += 1
                    for part in answer if isinstance(answer, list) or hasattr(answer, "__next__") else [answer]:
                        link.sendall(part)
        except OSError:
            pass


class WithFolder(unittest.TestCase):
    """Gives each test its own folder for its socket."""

    def setUp(self):
        folder = tempfile.TemporaryDirectory()
        self.addCleanup(folder.cleanup)
        self.path = os.path.join(folder.name, "s")

    def server(self, seed=0):
        server = ModelServer(self.path, seed).start()
        self.addCleanup(server.kill)
        return server


class WithClients(WithFolder):
    """Runs work over a server that is killed."""

    CLIENTS = 5

    def run_all(self, work, kills=2):
        """Runs `work(client, k)` in a thread for each client. Returns the results in order."""
        server = self.server()
        results = {}

        def run(k):
            with Client(self.path, 100 + k) as client:
                results[k] = work(client, k)

        threads = [threading.Thread(target=run, args=(k,)) for k in range(self.CLIENTS)]
        for thread in threads:
            thread.start()
        for _ in range(kills):
            time.sleep(0.1)
            server.kill()
            server.start()
        for thread in threads:
            thread.join(60)
        self.assertEqual(len(results), self.CLIENTS)
        return [results[k] for k in range(self.CLIENTS)]
