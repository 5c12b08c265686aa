"""For programs that name this integration: each task has a scope of its own without it (hubs.py), and what ends one is
logged by asyncio, and so reported by the integration of logging."""
from __future__ import annotations

from . import Integration


class AsyncioIntegration(Integration):
    identifier = "asyncio"


integration = AsyncioIntegration
