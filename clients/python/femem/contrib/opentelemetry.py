"""A client's events (`femem.events`), as metrics of OpenTelemetry. It needs the package `opentelemetry`, of its API.

    from femem.contrib.opentelemetry import Metrics

    metrics = Metrics()     # for all clients of a process, by the process's meter provider
    client = Client("/run/femem/femem.socket", on_event=metrics)

| instrument | what it is |
|---|---|
| `femem.client.events`, a counter, unit `{event}` | how many events there were, by the attribute `kind` |
| `femem.client.duration`, a histogram, unit `s` | their seconds, by the attribute `kind` |
"""

from __future__ import annotations

import importlib
from typing import Any, Optional

from .. import __version__
from ..events import KINDS

__all__ = ["Metrics"]

_metrics: Any = importlib.import_module("opentelemetry.metrics")


class Metrics:
    """What a client's `on_event` calls. `meter_provider` is the process's by default."""

    def __init__(self, meter_provider: Optional[Any] = None) -> None:
        meter = _metrics.get_meter("femem", __version__, meter_provider)
        self._events = meter.create_counter("femem.client.events", unit="{event}", description="events of femem's clients")
        self._seconds = meter.create_histogram("femem.client.duration", unit="s", description="how long these took, by femem.events")
        self._of = {kind: {"kind": kind} for kind in KINDS}

    def __call__(self, kind: str, session: int, seconds: float) -> None:
        """An event. The session is no attribute: there would be a series for each."""
        self._events.add(1, self._of[kind])
        self._seconds.record(seconds, self._of[kind])
