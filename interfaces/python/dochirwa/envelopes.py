"""Envelopes as Sentry writes them: taken apart, put together, and what is lost with one."""
from __future__ import annotations

import collections
import json
import re
import threading
import time
from typing import Any, Callable, Dict, Iterable, Iterator, List, Mapping, NamedTuple, Optional, Tuple

NAME, VERSION = "sentry.python.dochirwa", "0.2.0"
CATEGORIES = ("error", "transaction", "span", "session", "attachment", "log_item", "metric")
REASONS = (
    "event_processor before_send sample_rate buffer_overflow send_error internal_sdk_error network_error "
    "ratelimit_backoff queue_overflow"
).split()
# Reasons by which nothing fails: the program wants it so.
WANTED = ("event_processor", "before_send", "sample_rate")
REPORT = "client_report"
# The categories by which items are counted and limited.
ITEMS = {
    "event": "error",
    "transaction": "transaction",
    "session": "session",
    "sessions": "session",
    "attachment": "attachment",
    "log": "log_item",
    "trace_metric": "metric",
}


class Item(NamedTuple):
    """An item: its header, read, and all of its bytes."""

    header: Dict[str, Any]
    whole: bytes


class Loss(NamedTuple):
    category: str
    reason: str
    quantity: int


def split(envelope: bytes) -> Tuple[bytes, List[Item]]:
    """The header line of an envelope, and its items."""
    header, _, rest = envelope.partition(b"\n")
    items = []
    while rest:
        line = rest.partition(b"\n")[0]
        read = json.loads(line)
        size = len(line) + 1 + read["length"]
        items.append(Item(read, rest[:size]))
        rest = rest[size:].lstrip(b"\n")
    return header, items


def joined(header: bytes, items: Iterable[Item]) -> bytes:
    return header + b"\n" + b"\n".join(it.whole for it in items) + b"\n"


def payload(whole: bytes) -> Any:
    """What an item says, read."""
    return json.loads(whole.partition(b"\n")[2])


def item_of(header: Mapping[str, Any], content: Any) -> Item:
    """An item with this content, of the kind that the header says."""
    text = json.dumps(content, ensure_ascii=False, default=str, separators=(",", ":")).encode("utf-8", "replace")
    return whole_item(header, text)


def whole_item(header: Mapping[str, Any], text: bytes) -> Item:
    """An item of this text, of the kind that the header says."""
    read = {**header, "length": len(text)}
    return Item(read, json.dumps(read, separators=(",", ":")).encode() + b"\n" + text)


# What the engine, as the crate, says of who made a transaction.
RUST = re.compile(rb'"sdk":\{"name":"sentry\.rust","version":"[^"]*","packages":\[[^\]]*\]\},"platform":"other"')
PYTHON = f'"sdk":{{"name":"{NAME}","version":"{VERSION}"}},"platform":"python"'.encode()


def python_of(envelope: bytes) -> bytes:
    """The envelope, whose transactions say that this package made them."""
    if RUST.search(envelope) is None:
        return envelope
    header, items = split(envelope)
    return joined(header, [python_item(it) if it.header.get("type") == "transaction" else it for it in items])


def python_item(item: Item) -> Item:
    return whole_item(item.header, RUST.sub(PYTHON, item.whole.partition(b"\n")[2], 1))


def edited(
    envelope: bytes, edit: Callable[[str, Dict[str, Any]], Optional[Dict[str, Any]]]
) -> Tuple[Optional[bytes], List[Item]]:
    """An envelope whose event or transaction was handed to `edit`, which answers it, changed or not, or `None` where it is
    to be dropped. With an event go its attachments. Answers what is left, or none, and the items that were dropped."""
    header, items = split(envelope)
    kept, dropped = [], []
    for item in items:
        kind = item.header.get("type")
        if kind in ("event", "transaction"):
            content = edit(kind, payload(item.whole))
            if content is None:
                dropped.append(item)
                continue
            item = item_of(item.header, content)
        elif kind == "attachment" and dropped:
            dropped.append(item)
            continue
        kept.append(item)
    return (joined(header, kept) if kept else None), dropped


def losses(item: Item, reason: str) -> Iterator[Loss]:
    """What is lost with an item. A transaction is also a span, beside its own; what a report says would otherwise never be
    reported."""
    kind = item.header.get("type")
    if kind in ITEMS:
        yield Loss(ITEMS[kind], reason, item.header.get("item_count", 1))
    if kind == "transaction":
        yield Loss("span", reason, 1 + len(payload(item.whole).get("spans", ())))
    if kind == REPORT:
        yield from reported(item)


def reported(item: Item) -> Iterator[Loss]:
    """The losses that a report counts."""
    for it in payload(item.whole)["discarded_events"]:
        yield Loss(it["category"], it["reason"], it["quantity"])


class Losses:
    """What was lost and isn't reported yet. Losses come from any thread, and from signal handlers: so they wait in a queue,
    which takes no lock, until the thread that posts counts them."""

    def __init__(self) -> None:
        self.lock = threading.RLock()
        self.new: collections.deque[Loss] = collections.deque()
        self.counts: collections.Counter[Tuple[str, str]] = collections.Counter()
        # How many of each category the program was told of.
        self.told: collections.Counter[str] = collections.Counter()

    def add(self, losses: Iterable[Loss]) -> None:
        self.new.extend(losses)

    def clear(self) -> None:
        """Forgets them, in a process that was forked off: another thread may have held the lock then."""
        self.lock = threading.RLock()
        self.new.clear()
        self.counts.clear()
        self.told.clear()

    def fold(self) -> None:
        """Counts those that are new."""
        while self.new:
            category, reason, quantity = self.new.popleft()
            self.counts[category, reason] += quantity

    def untold(self) -> Dict[str, int]:
        """How many there are of each category that the program wasn't told of, and then is. Those that it wants don't count."""
        found: collections.Counter[str] = collections.Counter()
        with self.lock:
            self.fold()
            for (category, reason), quantity in self.counts.items():
                if reason not in WANTED:
                    found[category] += quantity
            new, self.told = found - self.told, found
        return dict(new)

    def report(self) -> Optional[Item]:
        """A report of all of them, which are then reported; none if there are none."""
        with self.lock:
            self.fold()
            lost = [{"reason": reason, "category": category, "quantity": it} for (category, reason), it in self.counts.items()]
            self.counts.clear()
            self.told.clear()
        return item_of({"type": REPORT}, {"timestamp": time.time(), "discarded_events": lost}) if lost else None
