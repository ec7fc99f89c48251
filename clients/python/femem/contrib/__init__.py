"""For packages of others. Each module here is imported where it is used alone, and needs the package that it is named after:

- `femem.contrib.prometheus`: prometheus_client;
- `femem.contrib.opentelemetry`: opentelemetry, of its API.
"""

from __future__ import annotations

__all__: list[str] = []
