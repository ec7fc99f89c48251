"""For tests of programs that use femem: a server of their own, which can be killed, as often as a test likes.

    def test_it(femem_server):                  # a fixture of pytest: `from femem.testing import femem_server` in conftest.py
        with Client(femem_server.path) as client:
            ...
            femem_server.restart()              # SIGKILL, and a start with the same store

`Server` runs the program `femem`: that of FEMEM_PROGRAM, or the one on the PATH. `ModelServer` needs no program: it is a model of
the server in a thread of this process, which keeps its state in memory while it is killed and started again.
"""

from __future__ import annotations

import importlib
import os
import selectors
import shutil
import socket
import subprocess
import tempfile
import threading
import time
from contextlib import suppress
from typing import Any, Dict, Iterator, Optional, TypeVar

from . import _model

__all__ = ["ModelServer", "Server", "femem_server"]

_MODEL: Any = _model

START = 20.0  # how long a start may take, in seconds

S = TypeVar("S", bound="_Served")


class _Served:
    """Started by `with`, and ended with its block. `path` is the socket's."""

    path: str

    def start(self: S) -> S:
        """Serves, with what was stored."""
        raise NotImplementedError

    def kill(self) -> None:
        """Ends at once. Nothing that was answered is lost. Does nothing if it does not run."""
        raise NotImplementedError

    def restart(self: S) -> S:
        """Kills and starts it."""
        self.kill()
        return self.start()

    def close(self) -> None:
        """Ends for good."""
        self.kill()

    def __enter__(self: S) -> S:
        return self.start()

    def __exit__(self, *failure: object) -> None:
        self.close()


class Server(_Served):
    """The program `femem serve`, with a store and a socket in a folder of their own."""

    def __init__(self, program: Optional[str] = None) -> None:
        """`FileNotFoundError` if there is no program."""
        found = program or os.environ.get("FEMEM_PROGRAM") or shutil.which("femem")
        if found is None:
            raise FileNotFoundError("no program femem on the PATH, and no FEMEM_PROGRAM")
        self._program = found
        self._folder = tempfile.TemporaryDirectory(prefix="femem-")
        self.path = os.path.join(self._folder.name, "socket")
        self.store = os.path.join(self._folder.name, "store")
        self._process: Optional[subprocess.Popen[bytes]] = None

    def start(self) -> Server:
        """`RuntimeError` if it ends, or does not serve within 20 seconds."""
        settings = os.path.join(self._folder.name, "femem.toml")
        with open(settings, "w", encoding="utf-8") as file:
            file.write(f'socket = "{self.path}"\nstore = "{self.store}"\nformat = true\n')
        self._process = subprocess.Popen([self._program, "serve", "--settings", settings])
        end = time.monotonic() + START
        while not os.path.exists(self.path):
            if self._process.poll() is not None or time.monotonic() > end:
                status = self._process.poll()
                self.kill()
                raise RuntimeError(f"{self._program} does not serve: status {status}")
            time.sleep(0.01)
        return self

    def kill(self) -> None:
        """By SIGKILL."""
        if self._process is not None:
            self._process.kill()
            self._process.wait()
            self._process = None
            if os.path.exists(self.path):
                os.unlink(self.path)

    def close(self) -> None:
        """Removes the folder too."""
        self.kill()
        self._folder.cleanup()


class ModelServer(_Served):
    """A model of the server, in a thread. `seed` decides which of several waiting requests it serves first."""

    def __init__(self, path: str, seed: int = 0) -> None:
        self.path = path
        self.model: Any = _MODEL.Model(seed)
        self.posts = True  # whether it stores and answers after each round
        self._thread: Optional[threading.Thread] = None

    def start(self) -> ModelServer:
        self._listener = socket.socket(socket.AF_UNIX, socket.SOCK_STREAM)
        self._listener.bind(self.path)
        self._listener.listen(64)
        self._stop, self._stopped = socket.socketpair()
        self._thread = threading.Thread(target=self._run, daemon=True)
        self._thread.start()
        return self

    def kill(self) -> None:
        """Loses what was not answered."""
        if self._thread is not None:
            self._stop.shutdown(socket.SHUT_RDWR)  # a child may have it too
            self._stop.close()
            self._thread.join()
            self._thread = None
            self._stopped.close()
            os.unlink(self.path)
            self.model.stop()

    def _run(self) -> None:
        links: Dict[socket.socket, bytearray] = {}  # of each connection, what is no whole message yet
        with selectors.DefaultSelector() as selector:
            selector.register(self._stopped, selectors.EVENT_READ)
            selector.register(self._listener, selectors.EVENT_READ)
            stands = True
            while stands:
                for key, _ in selector.select(0.01):
                    if key.fileobj is self._stopped:
                        stands = False
                    elif key.fileobj is self._listener:
                        link = self._listener.accept()[0]
                        links[link] = bytearray()
                        self.model.connect(link)
                        selector.register(link, selectors.EVENT_READ)
                    else:
                        assert isinstance(key.fileobj, socket.socket)
                        self._read(key.fileobj, links[key.fileobj])
                if stands and self.posts:
                    self.model.post()
                self._write(selector, links)
        for link in [self._listener, *links]:
            link.close()

    def _read(self, link: socket.socket, stream: bytearray) -> None:
        try:
            piece = link.recv(65536)
        except OSError:
            piece = b""
        stream += piece
        try:
            for message in _MODEL.read_messages(stream):
                self.model.take(link, message)
        except _MODEL.BadFrame:
            piece = b""
        if not piece:
            self.model.gone(link)

    def _write(self, selector: selectors.BaseSelector, links: Dict[socket.socket, bytearray]) -> None:
        for link in list(links):
            try:
                if link not in self.model.boxes:
                    raise OSError("gone")
                for reply in self.model.take_mail(link):
                    link.sendall(reply)
            except OSError:
                self.model.gone(link)
                selector.unregister(link)
                link.close()
                del links[link]


def _served() -> Iterator[Server]:
    """A fixture of pytest: a `Server` that is started for each test, and ends with it, however the test ends."""
    with Server() as server:
        yield server


# A fixture if pytest is installed, and a context for others: `with Server() as server`.
femem_server: Any = _served
with suppress(ImportError):
    femem_server = importlib.import_module("pytest").fixture(name="femem_server")(_served)
