"""The rate limits that a server asks for."""
from __future__ import annotations

import email.utils
import time
from typing import Callable, Dict, Mapping, Optional

# Seconds that a limit lasts whose length can't be read.
PAUSE = 60.0
# Categories that the server's limits call otherwise than reports of losses do.
LIMITED = {"trace_metric": "metric"}


class Limits:
    """What the server doesn't want for a while, by category; `None` is all."""

    def __init__(self, clock: Callable[[], float] = time.monotonic) -> None:
        self.clock = clock
        self.until: Dict[Optional[str], float] = {}

    def read(self, status: int, headers: Mapping[str, str]) -> None:
        """Keeps what the answer to a request says, with its headers in any case."""
        found = {name.lower(): it for name, it in headers.items()}
        limits = [it.strip() for it in found.get("x-sentry-rate-limits", "").split(",") if it.strip()]
        if limits:
            for limit in limits:
                seconds, colon, rest = limit.partition(":")
                for category in rest.split(":")[0].split(";") if colon else ():
                    self.keep(LIMITED.get(category, category) or None, seconds)
        elif status == 429:
            self.keep(None, found.get("retry-after", ""))

    def keep(self, category: Optional[str], length: str) -> None:
        until = self.clock() + seconds(length)
        self.until[category] = max(until, self.until.get(category, 0))

    def holds(self, category: Optional[str]) -> bool:
        now = self.clock()
        return any(self.until.get(it, 0) > now for it in (None, category))


def seconds(length: str) -> float:
    """How long a limit lasts, by a number of seconds or by the date at which it ends."""
    try:
        found = float(length)
    except ValueError:
        try:
            found = email.utils.parsedate_to_datetime(length).timestamp() - time.time()
        except (TypeError, ValueError, OverflowError):
            return PAUSE
    return max(0.0, found) if found == found and found < 1e9 else PAUSE
