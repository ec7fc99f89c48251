"""The client for threads: what callers see. `_worker.py` has the client's own thread, its connection and its core."""

from __future__ import annotations

import atexit
import functools
import threading
import time
import warnings
from concurrent.futures import Future
from contextlib import suppress
from functools import partial
from inspect import Parameter, Signature, signature
from threading import get_ident
from typing import Any, Callable, List, Optional, Type

from . import _errors as errors, _registry as registry, _worker as worker, requests
from ._arguments import DEFAULT, Choice, Key, Timeout, numbers, request_of
from ._calls import Asking, Calls, Concatenate, ForThreads, P
from ._core import Core
from ._frames import ACCESSES
from ._jobs import Batch, Job, Last, Present, T, Ticket, Wait, result_of
from .requests import Request
from ._worker import Worker


def end_session(path: str, session: int, sessions: int) -> None:
    """Ends the sessions of a client that was killed."""
    for number in [session, *numbers(session, sessions)]:
        with suppress(errors.SessionLimit):  # it is not kept
            with Client(path, number, reconnect_timeout=worker.SWEEP_PATIENCE) as client:
                client.bye()


class Client(Calls, ForThreads):
    """A session of a femem server, over its Unix socket.

    Several threads of one process may use it at once. One client at a time should have a session. It reconnects by itself
    when the server is restarted, and sends unanswered requests again.

    It connects and attaches as it is made, within `reconnect_timeout`. With `wait_for_server` a server may come to any path.
    Errors: `ServerUnreachable`, `NoRight`, `SessionLimit`, `Closing`, `Spent`, `ProtocolError`; with a file also
    `SessionInUse`, `SessionFileError`.

    Without `session`, it has one of its own that ends with it. With `session_file` the session is that of the file, and
    continues when the process is killed and restarted.

    `timeout`, in seconds, is for operations that name none: one that still waits then is taken back. `reconnect_timeout`
    is how long the server may be unreachable, or owe a reply, while something is asked of it; `None` means no limit.

    `on_event(kind, session, seconds)` is called at what `femem.events` lists, in the client's or the caller's thread.

    With `sessions=N` it has N sessions: requests that wait are made over the further ones, 32 over each, and so hold up
    nothing else. They end with the client. Their numbers follow from that of its own session. A client whose session ends
    with it opens one by itself once many requests wait.
    """

    _worker: Worker

    def _begin(self, choice: Choice) -> None:
        try:
            if choice.file is not None and choice.file.state.is_ending:
                with Client(choice.path, choice.session, reconnect_timeout=choice.patience) as former:
                    former.bye()  # as the file's former process was about to
                choice.file.start_over()
                self.session = choice.file.state.session
                choice = choice._replace(session=self.session)
            self._make(choice)
            self._may_grow(choice, Client._of)
            self._opening.result()
            for each in choice.all_further():
                further = Client._of(each)
                self._worker.wait_sessions[further] = 0
                further._opening.result()
        except BaseException:
            if hasattr(self, "_worker"):
                self.close()
            if choice.file is not None:
                choice.file.close()
            raise

    def _make(self, choice: Choice) -> None:
        self._core = core = Core(choice)
        self._worker = Worker(core, choice)
        self._ask = self._worker.ask
        if choice.is_temporary:
            registry.sweep(self.path, partial(end_session, self.path))
            self._worker.entry = registry.enter(self.path, self.session, choice.sessions)
        self._opening = self._future(core.open(time.monotonic()))
        self._recover()
        try:
            self._worker.start()
        except BaseException:
            self.close()
            raise

    def __del__(self) -> None:
        """A client that nobody refers to any more is closed, without waiting for that."""
        worker = getattr(self, "_worker", None)
        if worker is not None and not worker.is_over and worker.core.failure is None:
            warnings.warn(f"unclosed {self!r}", ResourceWarning, source=self)
            worker.end_soon()

    def __enter__(self) -> Client:
        return self

    def __exit__(self, *failure: object) -> None:
        self.close()

    def close(self) -> None:
        """Closes the connection. The server keeps the session, unless the client chose it itself; what waits is
        withdrawn there.

        What has no answer ends with `Closed`: it happened once or not at all. It waits for a server that is away for a
        second at most.
        """
        self._worker.end()

    def submit(self, request: Request[T], *, timeout: Timeout = DEFAULT, key: Optional[Key] = None) -> Future[T]:
        """Asks without waiting for the answer: `client.submit(requests.readfe(array, 0))`.

        Up to 32 requests are under way; further ones wait in the client for room. The server takes them in the
        order of these calls, except requests that wait: they may be taken back and sent again after others.
        `Future.cancel` does nothing; use `withdraw`. With a key, as `once`.
        """
        ticket: Ticket[T] = Ticket(request_of(request)) if key is None else self._keyed(key, request)
        future = self._future(ticket)
        seconds = self._seconds(timeout)
        self._ask(partial(self._core.take, (ticket,), seconds))
        return future

    def pipeline(self) -> Pipeline:
        """Collects requests, and then asks them in one step."""
        return Pipeline(self)

    # How these are done.

    def _check_thread(self) -> None:
        """Raises if this is the client's own thread, which runs the futures' callbacks: it would wait for itself."""
        if get_ident() == self._worker.own_thread:
            raise RuntimeError("a callback can't wait for its own client: use submit")

    def _call(self, request: Request[T], timeout: Timeout) -> T:
        ticket: Ticket[T] = Ticket(request)
        seconds = self.timeout if timeout is DEFAULT else self._seconds(timeout)
        until = None if seconds is None else time.monotonic() + seconds
        try:
            worker = self._worker
            lease = worker.lease
            if lease is not None and not worker.asked and not worker.lead.locked():
                # No interruption comes between the lock's taking and the block.
                events = self._core.events
                begun = 0.0 if events is None else time.monotonic()
                with worker.lead:
                    is_done = worker.lease is lease and lease.call((ticket,), until)
                    is_answered = is_done or ticket.done  # (with something else to read, the thread is woken too)
                if events is not None and is_answered:
                    events.emit("answered", time.monotonic() - begun)
                if is_done:
                    return ticket.result if ticket.error is None else result_of(ticket)  # type: ignore[return-value]
            elif get_ident() == worker.own_thread:
                self._check_thread()
            gate = threading.Lock()
            gate.acquire()
            self._ask(partial(self._core.take_on, ticket, until, gate.release))
            worker.wait_at(gate)
            return result_of(ticket)
        except errors.FememError:
            del ticket  # the error's traceback has this frame
            raise
        except BaseException:
            self._ask(partial(self._core.withdraw, ticket))
            raise

    def _run_job(self, job: Job[T]) -> T:
        """Runs an operation of several steps. If this thread is interrupted, it is taken back and undone."""
        worker = self._worker
        if get_ident() == worker.own_thread:
            self._check_thread()
        try:
            # What is asked comes first: what mends the caller's last operation may be among it.
            if job.is_light and not worker.asked and worker.lease is not None and self._run_here(job):
                return job.result if job.error is None else result_of(job)  # type: ignore[return-value]
            gate = threading.Lock()
            gate.acquire()
            job.finished = gate.release
            self._ask(partial(self._core.start, job))
            worker.wait_at(gate)
            return result_of(job)
        except errors.FememError:
            raise
        except BaseException:
            self._abandon(job)
            raise

    def _run_here(self, job: Job[Any]) -> bool:
        """Runs the job over lent numbers as far as it need not wait. Whether it is done; the thread goes on otherwise."""
        steps = job.steps
        job.is_here = True
        try:
            step = next(steps)
            while True:
                if not isinstance(step, (Batch, Wait)):
                    if not isinstance(step, Present) or not self._core.is_present():
                        break
                    step = steps.send(None)
                    continue
                if step.key is not None or step.requests[0].frame[4] not in ACCESSES:
                    break  # (what mends a job knows words)
                tickets: List[Ticket[Any]] = [*map(Ticket, step.requests)]
                if step.seconds is not None:
                    job.until = time.monotonic() + step.seconds
                job.asked = tickets  # an interruption takes back what waits
                if job.mend is not None:
                    job.log += tickets
                if not self._ask_here(tickets, job.until):
                    break
                job.asked, job.until = (), None
                if isinstance(step, Batch):
                    step = steps.send([ticket.result if ticket.error is None else ticket.error for ticket in tickets])
                elif tickets[0].error is None:
                    step = steps.send(tickets[0].result)
                else:
                    step = steps.throw(tickets[0].error)
        except StopIteration as end:
            job.result, job.done = end.value, True
            return True
        except Exception as error:
            job.end(error=error)
            return True
        job.begun = step
        return False

    def _ask_here(self, tickets: List[Ticket[Any]], until: Optional[float]) -> bool:
        """Asks them over lent numbers, if there are enough. Whether all are done."""
        worker, events = self._worker, self._core.events
        lease, lead = worker.lease, worker.lead
        if lease is None or worker.asked or lead.locked():
            return False
        # No interruption comes between the lock's taking and the block.
        begun = 0.0 if events is None else time.monotonic()
        with lead:
            are_done = worker.lease is lease and lease.call(tickets, until)
            answered = 0 if events is None else sum(ticket.done for ticket in tickets)
        if events is not None:
            for _ in range(answered):
                events.emit("answered", time.monotonic() - begun)
        return are_done

    def _abandon(self, job: Job[Any]) -> None:
        """Takes back, or undoes, a job that no caller waits for. Calling it twice has the effect of once."""
        self._ask(partial(self._core.abandon, job))

    def _perform(self, asking: Asking[T]) -> T:
        """Asks, and waits until all is done. If this thread is interrupted, it is taken back."""
        self._check_thread()
        tickets = asking.tickets
        try:
            if tickets:
                gate = threading.Lock()
                gate.acquire()
                Last(tickets, gate.release)
                self._ask(asking.ask)
                self._worker.wait_at(gate)
        except BaseException:
            self._ask(partial(self._core.withdraw_all, tickets))
            raise
        result = asking.result()
        if asking.ends_client:
            self.close()
        return result

    def _catch_up(self) -> None:
        if get_ident() != self._worker.own_thread:
            gate = threading.Lock()
            gate.acquire()
            self._ask(lambda now: gate.release())
            self._worker.wait_at(gate)

    def _future(self, ticket: Ticket[T]) -> Future[T]:
        future: Future[Any] = Future()
        future.set_running_or_notify_cancel()
        return self._ending_with(ticket, future)


def _collecting(make: Callable[P, Request[Any]]) -> Callable[Concatenate[Any, P], Pipeline]:
    @functools.wraps(make)
    def collect(self: Any, /, *args: P.args, **more: P.kwargs) -> Pipeline:
        self._requests.append(make(*args, **more))
        return self  # type: ignore[no-any-return]

    own = Parameter("self", Parameter.POSITIONAL_OR_KEYWORD)
    collect.__signature__ = Signature(  # type: ignore[attr-defined]
        [own, *signature(make).parameters.values()], return_annotation="Pipeline"
    )
    return collect


class Pipeline:
    """Requests of one client that are asked together: `submit_many` of what its methods collect.

        with client.pipeline() as pipe:
            pipe.int_fetch_add(hits, 0, 1)
            pipe.readff(other, 3)
        pipe.results
    """

    def __init__(self, client: Client) -> None:
        self._client = client
        self._requests: List[Request[Any]] = []
        self.results: List[Any] = []  # the answers, once asked; errors are in the list too

    def add(self, request: Request[Any]) -> Pipeline:
        """Adds a request."""
        self._requests.append(request_of(request))
        return self

    create = _collecting(requests.create)
    find = _collecting(requests.find)
    remove = _collecting(requests.remove)
    readfe = _collecting(requests.readfe)
    readff = _collecting(requests.readff)
    readxx = _collecting(requests.readxx)
    writeef = _collecting(requests.writeef)
    writeff = _collecting(requests.writeff)
    writexf = _collecting(requests.writexf)
    purge = _collecting(requests.purge)
    int_fetch_add = _collecting(requests.int_fetch_add)

    def run(self, *, timeout: Timeout = DEFAULT) -> List[Any]:
        """Asks what was added since the last time. Returns the answers."""
        asked, self._requests = self._requests, []
        self.results = self._client._perform(self._client._together(asked, timeout))
        return self.results

    def __enter__(self) -> Pipeline:
        return self

    def __exit__(self, kind: Optional[Type[BaseException]], *failure: object) -> None:
        if kind is None:
            self.run()


atexit.register(worker.at_exit)
