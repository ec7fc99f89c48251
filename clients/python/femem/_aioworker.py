"""What carries an asyncio client's bytes: its connection, its timer, and the task that connects.

It does not refer to the client, so a client that nobody refers to any more is closed.
"""

from __future__ import annotations

import asyncio
import os
from contextlib import suppress
from typing import Callable, Optional, cast

from . import _frames as frames
from ._attachment import READY
from ._carrier import FAREWELL, FIRST_PAUSE, LONGEST_PAUSE, Carrier, carriers


def now() -> float:
    return asyncio.get_running_loop().time()


class AsyncWorker(Carrier):
    """In one event loop."""

    transport: Optional[asyncio.Transport] = None
    connecting: Optional[asyncio.Task[None]] = None
    _timer: Optional[asyncio.TimerHandle] = None

    def start(self) -> None:
        self.changed = asyncio.Event()
        self.connecting = asyncio.get_running_loop().create_task(self._keep_connected())
        self.move()

    def abandon(self) -> None:
        """Ends a temporary session whose event loop no longer runs, or whose client is gone."""
        if self.connecting is None or self.core.failure is not None or self.process != os.getpid():
            return
        try:
            is_here = asyncio.get_running_loop() is self.connecting.get_loop()
        except RuntimeError:
            is_here = False
        if is_here:
            if self.is_temporary:
                self.core.depart(now(), FAREWELL)
            else:
                self.core.close()
            self.move()
        elif self.transport is not None and self.is_temporary and self.core.phase is READY:
            with suppress(OSError):
                os.write(self.transport.get_extra_info("socket").fileno(), frames.bye())

    async def close(self) -> None:
        try:
            await asyncio.sleep(0)  # a loop over jobs that was dropped just now gives its job back first
            if self.is_temporary and self.connecting is not None and self.core.failure is None:
                self.core.depart(now(), FAREWELL)  # the session is ended, within that time
                self.move()
                await asyncio.wait([self.connecting])
        finally:
            self.core.close()
            try:
                if self.connecting is not None:
                    self.move()
                    await asyncio.shield(self.connecting)
            finally:
                self.core.close_file()

    def ask(self, what: Callable[[float], object]) -> None:
        what(now())
        self.move()

    def move(self) -> None:
        """After each change: sends, completes the ended tickets, which may ask for more, and sets the timer."""
        while True:
            self._flush()
            ended = self.core.take_ended()
            if not ended:
                break
            self._finish(ended)
        if self._timer is not None:
            self._timer.cancel()
            self._timer = None
        if self.core.failure is not None:
            self.changed.set()
            return
        time = self.core.next_time()
        if time is not None and time != float("inf"):
            self._timer = asyncio.get_running_loop().call_at(time, self.ask, self.core.tick)

    def _flush(self) -> None:
        self._prepare()
        core = self.core
        if self.transport is not None and core.to_send:
            self.transport.write(bytes(core.to_send))
            core.to_send.clear()

    def forked(self) -> None:
        """In a child of the process: as in `Client`. The loop is the parent's too, so only the socket is closed."""
        super().forked()
        self.is_temporary = self.is_chosen = False
        if self.transport is not None:
            inherited = getattr(self.transport.get_extra_info("socket"), "_sock", None)
            if inherited is not None:
                inherited.close()
            self.transport = None

    async def _keep_connected(self) -> None:
        """Connects, and reconnects when the connection breaks, until the client or its event loop ends."""
        try:
            await self._connect_on()
        except asyncio.CancelledError:
            self.core.close()
            self.move()
            self.core.close_file()
            raise
        finally:
            self._sign_off()
        self.move()
        for further in self._end_further():
            await further.close()

    async def _connect_on(self) -> None:
        pause = FIRST_PAUSE
        while self.core.failure is None:
            connection = _Connection(self)
            try:
                await asyncio.wait_for(asyncio.get_running_loop().create_unix_connection(lambda: connection, self.path), 1.0)
            except asyncio.TimeoutError as error:
                self.core.trouble = f"{self.path}: {error!r}"
            except OSError as error:
                if self._not_connected(error):
                    return
            else:
                self._has_connected = True
                await self._until_lost(connection)
            if connection.was_ready:
                pause = FIRST_PAUSE
            await self._sleep(pause)
            pause = min(2 * pause, LONGEST_PAUSE)

    async def _until_lost(self, connection: _Connection) -> None:
        is_cancelled = False
        try:
            while self.core.failure is None and not connection.is_lost:
                try:
                    await self.changed.wait()
                except asyncio.CancelledError:
                    # The event loop ends. A temporary session is ended before.
                    if is_cancelled or not self.is_temporary:
                        raise
                    is_cancelled = True
                    self.core.depart(now(), FAREWELL)
                    self.move()
                self.changed.clear()
        finally:
            self.transport = None
            connection.close()
        if is_cancelled:
            raise asyncio.CancelledError
        self.ask(self.core.disconnected)

    async def _sleep(self, seconds: float) -> None:
        with suppress(asyncio.TimeoutError):
            await asyncio.wait_for(self.changed.wait(), seconds)
        self.changed.clear()


class _Connection(asyncio.Protocol):
    def __init__(self, worker: AsyncWorker) -> None:
        self.is_lost = False
        self.was_ready = False
        self._worker = worker
        self._transport: Optional[asyncio.Transport] = None

    def connection_made(self, transport: asyncio.BaseTransport) -> None:
        worker = self._worker
        self._transport = worker.transport = cast(asyncio.Transport, transport)
        worker.ask(worker.core.connected)

    def data_received(self, data: bytes) -> None:
        worker = self._worker
        if worker.transport is self._transport:
            worker.core.received(data, now())
            self.was_ready = self.was_ready or worker.core.phase is READY
            worker.move()

    def connection_lost(self, error: Optional[Exception]) -> None:
        self.is_lost = True
        self._worker.changed.set()

    def close(self) -> None:
        if self._transport is not None:
            self._transport.abort()


def at_exit() -> None:
    for worker in list(carriers):
        if isinstance(worker, AsyncWorker):
            worker.abandon()
