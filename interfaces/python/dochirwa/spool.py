"""A folder of envelopes that could not be sent, for the next start."""
from __future__ import annotations

import contextlib
import itertools
import os
import time
from typing import BinaryIO, Iterator, List, Optional, Tuple

from .notes import tell

try:
    import fcntl
except ImportError:  # where two programs may send what waits twice
    fcntl = None  # type: ignore[assignment]

# At most so many envelopes, and bytes, wait in a folder.
MOST_FILES, MOST_BYTES = 1000, 50_000_000
ENDING = ".envelope"


class Spool:
    """Files of an envelope each, whose names are in the order of their moments, as `tools/ship` reads them. A file is whole
    once it has its name."""

    def __init__(self, folder: str) -> None:
        self.folder, self.numbers = folder, itertools.count()
        self.held: Optional[BinaryIO] = None
        try:
            os.makedirs(folder, mode=0o700, exist_ok=True)
        except OSError as why:
            tell("the spool folder can't be made, and nothing will be kept: %s", why)

    def names(self) -> List[str]:
        try:
            return sorted(it for it in os.listdir(self.folder) if it.endswith(ENDING))
        except OSError:
            return []

    def path(self, name: str) -> str:
        return os.path.join(self.folder, name)

    def used(self) -> Tuple[int, int]:
        """How many envelopes there are, and bytes of them."""
        names, total = self.names(), 0
        for name in names:
            with contextlib.suppress(OSError):
                total += os.path.getsize(self.path(name))
        return len(names), total

    def write(self, envelope: bytes) -> bool:
        """Writes an envelope, and answers whether it is there now."""
        name = f"{time.time_ns():020d}-{os.getpid()}-{next(self.numbers):06d}"
        try:
            with open(self.path(name + ".new"), "xb") as file:
                file.write(envelope)
            os.rename(self.path(name + ".new"), self.path(name + ENDING))
        except OSError:
            self.remove(name + ".new")  # a part of it, where the disk is full
            return False
        return True

    def keep(self, envelope: bytes) -> bool:
        """Writes an envelope if there is room, and answers whether it is there now."""
        return not self.keep_all([envelope])

    def keep_all(self, envelopes: List[bytes]) -> List[bytes]:
        """Writes envelopes in order, and answers those for which there is no room, or that can't be written."""
        (files, total), refused = self.used(), []
        for envelope in envelopes:
            size = len(envelope)
            if files < MOST_FILES and total + size <= MOST_BYTES and self.write(envelope):
                files, total = files + 1, total + size
            else:
                refused.append(envelope)
        return refused

    def read(self, name: str) -> Optional[bytes]:
        try:
            with open(self.path(name), "rb") as file:
                return file.read()
        except OSError:
            return None

    def remove(self, name: str) -> None:
        with contextlib.suppress(OSError):
            os.remove(self.path(name))

    @contextlib.contextmanager
    def taken(self) -> Iterator[bool]:
        """Whether this program alone sends the files that wait, in the block."""
        try:
            file = open(self.path(".lock"), "ab")
        except OSError:
            yield False
            return
        with file:
            self.held = file
            if fcntl is not None:
                try:
                    fcntl.flock(file, fcntl.LOCK_EX | fcntl.LOCK_NB)
                except OSError:
                    yield False
                    return
            yield True

    def after_fork(self) -> None:
        """In a process that was forked off: it holds a copy of the file by which the parent has the folder, and would have
        the folder after the parent's end."""
        if self.held is not None:
            self.held.close()
