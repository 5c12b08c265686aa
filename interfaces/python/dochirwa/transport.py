"""The thread that posts envelopes, and counts what is lost on the way."""
from __future__ import annotations

import collections
import contextlib
import queue
import threading
import time
from typing import Any, Callable, Deque, Iterable, Iterator, List, Optional, Set

from . import native
from .envelopes import CATEGORIES, ITEMS, REASONS, REPORT, WANTED, Item, Loss, Losses
from .envelopes import joined, losses, payload, python_of, reported, split
from .limits import Limits
from .notes import LOGGER, tell
from .posting import Address, Answer, Poster
from .spool import Spool

__all__ = ["Address", "CATEGORIES", "Limits", "MOST_WAITING", "REASONS", "Sender", "payload", "split"]

# At most so many envelopes wait for the server.
MOST_WAITING = 1000
# The threads that post. Nothing that they do is itself reported.
POSTING: Set[int] = set()

Post = Callable[[bytes], Answer]


def unsent(envelope: bytes) -> Answer:
    """In place of a post, where there is no DSN."""
    return 200, {}


def waitable(timeout: Optional[float]) -> float:
    """Seconds as locks take them. `None` is no end."""
    return threading.TIMEOUT_MAX if timeout is None else min(timeout, threading.TIMEOUT_MAX)


class Sender:
    """Ticks the client, and posts what waits.

    An envelope is in one place: in the engine, among those that wait, in flight, in the spool folder, or counted as lost.
    The lock of the engine is held while one comes out of it, and `turn` while one is moved between the others, so that
    `stop` finds each of them at its deadline.
    """

    def __init__(
        self,
        engine: Any,
        client: int,
        post: Optional[Post],
        spool: Optional[Spool] = None,
        interval: float = 1.0,
        losses: Optional[Losses] = None,
    ) -> None:
        self.engine, self.client, self.spool, self.interval = engine, client, spool, interval
        self.post: Post = post or unsent
        self.limits, self.losses = Limits(), Losses() if losses is None else losses
        self.turn = threading.RLock()
        # How many losses there were that the program didn't want, and of how many `flush` has told.
        self.failures = self.told = 0
        self.wakes: queue.SimpleQueue[None] = queue.SimpleQueue()
        self.idle = threading.Condition()
        self.waiting: Deque[bytes] = collections.deque()
        self.in_flight: Optional[bytes] = None
        # `is_over`: the thread is at its end. `has_left`: what waits is no longer the thread's.
        self.is_closing = self.is_over = self.has_left = False
        self.asked = self.done = 0
        self.thread: Optional[threading.Thread] = None

    def start(self) -> None:
        thread = threading.Thread(target=self.run, name="dochirwa", daemon=True)
        try:
            thread.start()
            self.thread = thread
        except RuntimeError as why:  # too many threads, or the program ends
            self.is_over = True
            tell("the thread that posts can't begin, and nothing is sent: %s", why)

    def restart(self) -> None:
        """In a process that was forked off: the other threads are gone, and may have held these locks. What waits, and what
        was lost, is the parent's to send, by the parent's connection."""
        self.wakes, self.idle, self.turn = queue.SimpleQueue(), threading.Condition(), threading.RLock()
        POSTING.clear()
        self.waiting.clear()
        self.losses.clear()
        self.in_flight, self.failures, self.told = None, 0, 0
        if isinstance(self.post, Poster):
            self.post.after_fork()
        if self.spool is not None:
            self.spool.after_fork()
        self.is_closing = self.is_over = self.has_left = False
        self.thread = None
        self.start()

    def wake(self) -> None:
        """Has the thread look at once. A signal handler may interrupt this by another call of it, which `put` of this
        queue allows, and `set` of an Event doesn't."""
        if self.wakes.empty():
            self.wakes.put(None)

    def sleep(self) -> None:
        with contextlib.suppress(queue.Empty):
            self.wakes.get(timeout=self.interval)
            while True:
                self.wakes.get_nowait()

    def run(self) -> None:
        POSTING.add(threading.get_ident())
        try:
            self.send_until_closed()
        finally:
            if isinstance(self.post, Poster):
                self.post.close()
            POSTING.discard(threading.get_ident())
            with self.idle:
                self.is_over = True
                self.idle.notify_all()

    def send_until_closed(self) -> None:
        spooled = self.send_spooled()
        has_spooled = self.spool is not None
        while True:
            closing, asked = self.is_closing, self.asked
            is_open = self.send_round(closing)
            with self.idle:
                self.done = max(self.done, asked)
                self.idle.notify_all()
            # One of these between what is new, which comes first.
            has_spooled = has_spooled and not self.has_left and next(spooled, False)
            if not is_open or closing and not has_spooled:
                return
            if not has_spooled:
                self.sleep()

    def send_round(self, closing: bool) -> bool:
        """Posts what waits, and answers whether the thread goes on."""
        try:
            self.engine.call("tick", self.client, native.steady_ns())
            self.send_all()
            if closing:
                self.send_report()
        except native.Fault as fault:
            return fault.number != native.CLOSED and not self.has_left
        except Exception as error:
            tell("an envelope is lost: %r", error)
            self.failures += 1
        return not self.has_left

    def send_all(self) -> None:
        self.fetch()
        while self.send_next():
            self.fetch()

    def taken(self) -> Optional[bytes]:
        """The envelope that has waited longest."""
        try:
            return self.waiting.popleft()
        except IndexError:
            return None

    def fetch(self, put: Optional[Callable[[bytes], None]] = None) -> None:
        """Takes what waits in the engine, and has it wait here, or puts it elsewhere."""
        with self.engine.lock:
            while (found := self.engine.next_envelope()) is not None:
                (put or self.queue)(python_of(found[1]))

    def queue(self, envelope: bytes) -> None:
        """Has an envelope wait. Beyond the limit, as where the server is slow, the latest ones are lost."""
        if len(self.waiting) < MOST_WAITING:
            self.waiting.append(envelope)
        else:
            self.lose(split(envelope)[1], "queue_overflow")

    def put(self, envelope: bytes) -> None:
        """The same of one that a hook has seen, which may have held it up until after the end."""
        self.queue(envelope)
        if self.has_left:
            self.leave()

    def lose(self, items: Iterable[Item], reason: str) -> None:
        """Counts items as lost, and what the reports among them count as not reported."""
        for item in items:
            self.losses.add(losses(item, reason))
            if reason not in WANTED and item.header.get("type") != REPORT:
                self.failures += 1

    def count_refused(self, category: str) -> None:
        """Counts a record that the engine can't read."""
        self.losses.add([Loss(category, "internal_sdk_error", 1)])
        self.failures += 1

    def allowed(self, items: List[Item]) -> List[Item]:
        """The items that the server wants now. The others are lost; reports that would be alone wait."""
        limited = [it for it in items if self.limits.holds(ITEMS.get(it.header.get("type", "")))]
        kept = [it for it in items if it not in limited]
        if all(it.header.get("type") == REPORT for it in kept):
            limited, kept = limited + kept, []
        if limited:
            self.lose(limited, "ratelimit_backoff")
        return kept

    def with_report(self, items: List[Item]) -> List[Item]:
        """The items, and one report of all that is to be reported."""
        reports = [it for it in items if it.header.get("type") == REPORT]
        if not self.losses.new and not self.losses.counts:
            return items
        for it in reports:
            self.losses.add(reported(it))
        report = self.losses.report()
        return [it for it in items if it not in reports] + ([report] if report else [])

    def send_next(self) -> bool:
        """Posts the envelope that has waited longest, and answers whether there was one."""
        with self.turn:
            envelope = None if self.has_left else self.taken()
            if envelope is None:
                return False
            header, items = split(envelope)
            items = self.allowed(items)
            if items:
                items = self.with_report(items)
                self.in_flight = joined(header, items)
        if items:
            self.post_in_flight(items)
        return True

    def send_report(self) -> None:
        """Posts what is to be reported, with nothing else, unless the server wants nothing at all."""
        with self.turn:
            report = None if self.has_left or self.limits.holds(None) else self.losses.report()
            if report is None:
                return
            self.in_flight = joined(b"{}", [report])
        self.post_in_flight([report])

    def post_in_flight(self, items: List[Item]) -> None:
        """Posts the envelope in flight, which has these items, and sees to what has not come of it."""
        envelope = self.in_flight
        status = None if envelope is None else self.posted(envelope)
        with self.turn:
            # At its deadline `stop` has taken over what is in flight, whatever is answered later.
            if self.in_flight is not None and self.in_flight is envelope:
                self.settle(envelope, items, status)
                self.in_flight = None

    def settle(self, envelope: bytes, items: List[Item], status: Optional[int]) -> None:
        """Keeps, or counts as lost, what has not come of an envelope that had this answer."""
        if status is None:
            if self.spool is not None and self.spool.keep(envelope):
                self.failures += 1  # it isn't lost, but neither has it come
            else:
                self.lose(items, "network_error")
        elif status == 429:
            # The server counts what it limits, but not what a report counts.
            self.lose([it for it in items if it.header.get("type") == REPORT], "ratelimit_backoff")
            self.failures += 1
        elif not 200 <= status < 300:
            self.lose(items, "send_error")

    def posted(self, envelope: bytes) -> Optional[int]:
        """Posts an envelope, and answers the status, or none where there was no answer."""
        try:
            status, headers = self.post(envelope)
            self.limits.read(status, headers)
            return int(status)
        except Exception as error:  # also one of http.client, or of the program's `post`
            LOGGER.debug("an envelope could not be posted: %r", error)
            return None

    def send_spooled(self) -> Iterator[bool]:
        """Posts what earlier runs could not, one at each step, until the server doesn't answer or wants no more."""
        if self.spool is None:
            return
        names = self.spool.names()
        with self.spool.taken() as is_mine:
            for name in names if is_mine else ():
                if self.limits.holds(None) or not self.post_spooled(self.spool, name):
                    return
                yield True

    def post_spooled(self, spool: Spool, name: str) -> bool:
        """Posts an envelope of the folder, and answers whether it is done with."""
        envelope = spool.read(name)
        if envelope is None:
            return True
        status = self.posted(envelope)
        if status is None or status == 429 or status >= 500:
            return False
        spool.remove(name)
        if not 200 <= status < 300:
            try:
                self.lose(split(envelope)[1], "send_error")
            except Exception as error:  # also a file that was never written to its end
                tell("a file of the spool folder is no envelope: %r", error)
                self.failures += 1
        return True

    def flush(self, timeout: Optional[float], closing: bool = False) -> bool:
        """Waits until what waits now is posted, and answers whether it was in time, and nothing was lost since the last
        call. If it is closing, the thread then ends."""
        with self.idle:
            self.asked += 1
            wanted = self.asked
            # Set last, as the thread reads it first: its last round is one that was asked for here.
            self.is_closing = self.is_closing or closing
            self.wake()
            self.idle.wait_for(lambda: self.done >= wanted or self.is_over, waitable(timeout))
            is_done = self.done >= wanted
        before, self.told = self.told, self.failures
        return is_done and self.told == before

    def stop(self, timeout: Optional[float]) -> bool:
        """A flush after which the thread ends, in this time in all. What can't be sent in this time goes into the spool
        folder, or else is told as lost. Answers as `flush`, and False if anything was left."""
        start = time.monotonic()
        is_well = self.flush(timeout, closing=True)
        if self.thread is not None and self.thread is not threading.current_thread():
            self.thread.join(max(0, start + waitable(timeout) - time.monotonic()))
        with self.turn:
            self.has_left = True
            if self.in_flight is not None:
                self.waiting.appendleft(self.in_flight)
                self.in_flight = None
        self.fetch()
        return self.leave() and is_well

    def leave(self) -> bool:
        """Puts what is left into the spool folder, with a report of what was lost, or else counts and tells it. What isn't
        reported stays counted. Answers whether nothing was left that the program wanted sent."""
        with self.turn:
            left = [*iter(self.taken, None)]
            for envelope in self.not_kept(left):
                self.lose(split(envelope)[1], "network_error")
            report = None if self.spool is None else self.losses.report()
            if report is not None and self.not_kept([joined(b"{}", [report])]):
                self.losses.add(reported(report))
            lost = self.losses.untold()
        if lost:
            quantities = ", ".join(f"{quantity} {category}" for category, quantity in sorted(lost.items()))
            LOGGER.warning("lost by the end, and not reported: %s", quantities)
        return not left and not lost

    def not_kept(self, envelopes: List[bytes]) -> List[bytes]:
        """Those of the envelopes that the spool folder doesn't take."""
        return envelopes if self.spool is None else self.spool.keep_all(envelopes)
