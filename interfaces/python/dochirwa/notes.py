"""What the package tells the program, by the logger `dochirwa`: each kind of fault once at WARNING, then at DEBUG."""
from __future__ import annotations

import collections
import contextlib
import logging
from typing import Any, Iterator

from .native import CLOSED, STALE, Fault

LOGGER = logging.getLogger("dochirwa")
# How often each kind of fault was told since `init`. Adding to it takes no lock, since a signal handler may do so too.
told: collections.Counter[str] = collections.Counter()


def tell(fault: str, *words: Any) -> None:
    """Tells a fault, whose text is a format of `logging`."""
    told[fault] += 1
    first = told[fault] == 1
    LOGGER.log(logging.WARNING if first else logging.DEBUG, fault + (" (told once)" if first else ""), *words)


@contextlib.contextmanager
def tolerated(what: str = "a call") -> Iterator[None]:
    """A call that fails in the block is told, and the rest of the block left out. It is a record that the engine doesn't
    take, or too little memory, but never an error of the program. A call after `close` is silent."""
    try:
        yield
    except Fault as fault:
        if fault.number in (CLOSED, STALE):
            LOGGER.debug("%s after `close`", what)
        else:
            tell(f"{what} was refused: {fault}")
