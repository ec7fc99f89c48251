"""A client's events (`femem.events`), as metrics of Prometheus. It needs the package `prometheus_client`.

    from femem.contrib.prometheus import Metrics

    metrics = Metrics()     # one for all clients of a process
    client = Client("/run/femem/femem.socket", on_event=metrics)

| metric | what it is |
|---|---|
| `femem_client_events_total{kind=".."}` | how many events of each kind there were |
| `femem_client_seconds{kind=".."}` | a histogram of their seconds |
"""

from __future__ import annotations

import importlib
from typing import Any, Optional, Sequence

from ..events import KINDS

__all__ = ["Metrics"]

_prometheus: Any = importlib.import_module("prometheus_client")

# The upper bounds of the histogram's buckets, in seconds: from an answer to a server that is away.
BUCKETS = (0.00005, 0.0001, 0.0005, 0.001, 0.005, 0.01, 0.05, 0.1, 0.5, 1.0, 5.0, 30.0)


class Metrics:
    """What a client's `on_event` calls. Each registry can have one; by default that of the process."""

    def __init__(self, registry: Optional[Any] = None, buckets: Sequence[float] = BUCKETS) -> None:
        where = _prometheus.REGISTRY if registry is None else registry
        events = _prometheus.Counter("femem_client_events", "events of femem's clients", ["kind"], registry=where)
        seconds = _prometheus.Histogram(
            "femem_client_seconds", "how long these took, by femem.events", ["kind"], registry=where, buckets=buckets
        )
        self._of = {kind: (events.labels(kind), seconds.labels(kind)) for kind in KINDS}

    def __call__(self, kind: str, session: int, seconds: float) -> None:
        """An event. The session is no label: there would be a metric for each."""
        count, times = self._of[kind]
        count.inc()
        times.observe(seconds)
