"""Transactions and their spans."""
from __future__ import annotations

import functools
import inspect
from types import TracebackType
from typing import Any, Callable, Dict, List, Mapping, Optional, Type, TypeVar, Union, cast

from . import client as clients
from . import native
from .client import Client
from .hooks import captured
from .hubs import HUB, SPAN
from .notes import tell, tolerated
from .options import fraction
from .records import as_json, as_text, dumped, entries, request_of
from .statuses import span_status

F = TypeVar("F", bound=Callable[..., Any])


class Span:
    """A span, or a transaction: the current one while its block runs. Out of a block, call `finish`."""

    is_span = True

    def __init__(
        self,
        client: Optional[Client],
        number: int,
        op: str = "",
        name: str = "",
        transaction: Optional[Transaction] = None,
    ) -> None:
        self.client, self.number, self.op = client, number, op
        self._name = name
        self.containing_transaction: Transaction = transaction or cast(Transaction, self)
        self.is_finished = False
        self.outer: List[Optional[Span]] = []

    @property
    def transaction(self) -> Transaction:
        return self.containing_transaction

    @property
    def name(self) -> str:
        return self._name

    @name.setter
    def name(self, name: str) -> None:
        self.set_name(name)

    description = name

    def call(self, name: str, *arguments: Any) -> None:
        if self.client is not None and not self.is_finished:
            with tolerated(name.replace("_", " ")):
                self.client.engine.call(name, self.is_span, self.number, *arguments)

    def start_child(self, op: str = "", description: Optional[str] = None, name: Optional[str] = None, **more: Any) -> Span:
        """Starts a span within this one, with an operation and a description."""
        about = as_text(description if name is None else name) if (description or name) else ""
        if self.client is not None and not self.containing_transaction.is_finished:
            parent = self.containing_transaction if self.is_finished else self
            with tolerated("a span"):
                texts = as_text(op), about
                number = self.client.engine.number("start_child", parent.is_span, parent.number, *texts, native.fresh_span())
                child = Span(self.client, number, op, about, self.containing_transaction)
                self.containing_transaction.children[number] = child
                return child
        return Span(None, 0, op, about, self.containing_transaction)

    def set_data(self, key: str, value: Any) -> None:
        self.call("set_span_data", as_text(key), as_json(value))

    def set_tag(self, key: str, value: Any) -> None:
        self.call("set_span_tag", as_text(key), as_text(value))

    def set_status(self, status: str) -> None:
        """Sets the status of this name, such as `ok`, `internal_error` or `deadline_exceeded`."""
        self.call("set_span_status", as_text(status))

    def set_http_status(self, code: int) -> None:
        """Sets the status that belongs to the answer of a request, and this number as a tag."""
        self.set_tag("http.status_code", code)
        self.set_status(span_status(str(code)))

    def set_name(self, name: str) -> None:
        """Sets the name of a transaction, or the description of a span."""
        self._name = as_text(name)
        self.call("set_span_name", self._name)

    def set_op(self, op: str) -> None:
        self.op = op
        self.call("set_span_op", as_text(op))

    def set_request(self, request: Dict[str, Any]) -> None:
        """Sets the request: a dictionary with method, url, data, query_string, cookies, headers and env."""
        self.call("set_span_request", dumped(request_of(request)))

    def trace_headers(self) -> Dict[str, str]:
        """The headers by which another program continues the trace."""
        found: Dict[str, str] = {}
        if self.client is not None and not self.is_finished:
            with tolerated("a header"):
                found["sentry-trace"] = self.client.engine.text("trace_header", self.is_span, self.number)
                found["baggage"] = self.client.engine.text("baggage", self.is_span, self.number)
        return found

    def to_traceparent(self) -> str:
        return self.trace_headers().get("sentry-trace", "")

    def finish(self) -> None:
        if self.client is not None and not self.is_finished:
            self.is_finished = True
            self.containing_transaction.children.pop(self.number, None)
            with tolerated("the end of a span"):
                self.leave_scope(self.client)
                if self.client.engine.end_span(self.number):
                    self.client.hold(self)

    def leave_scope(self, client: Client) -> None:
        """Takes the span from the scope of this context, if that has it, so that it can be given back."""
        hub = HUB.get()
        if hub is not None and hub.span is self:
            client.set_span(hub, current_span(client))

    def __enter__(self: S) -> S:
        self.outer.append(SPAN.get())
        self.make_current(self)
        return self

    def make_current(self, span: Optional[Span]) -> None:
        SPAN.set(span)
        if self.client is not None and HUB.get() is self.client.main:
            self.client.main_span = span

    def __exit__(
        self, kind: Optional[Type[BaseException]], error: Optional[BaseException], trace: Optional[TracebackType]
    ) -> None:
        # Not so where a generator is closed, or the program ends.
        if kind is not None and issubclass(kind, Exception):
            self.set_status("internal_error")
        outer = self.outer.pop() if self.outer else None
        if SPAN.get() is self:
            self.make_current(outer)
        self.finish()


S = TypeVar("S", bound=Span)


class Transaction(Span):
    """A transaction, which finishes its children with it."""

    is_span = False

    def __init__(self, client: Optional[Client], number: int, op: str = "", name: str = "") -> None:
        super().__init__(client, number, op, name)
        # Those that aren't finished, by their numbers.
        self.children: Dict[int, Span] = {}

    def finish(self) -> None:
        if self.client is None or self.is_finished:
            return
        client, self.is_finished = self.client, True
        for child in [*self.children.values()]:
            child.finish()
        with tolerated("a transaction"):
            hub = client.hub_with_span()
            is_held, _ = captured(client, lambda: client.engine.end_transaction(self.number, hub.number), hub, {})
            client.discard([self] if is_held else [])
            client.sender.wake()


def headers_in(found: Mapping[str, Any]) -> Dict[str, str]:
    """The two headers of traces, of the headers of a request or of WSGI's environment."""
    headers = entries(found, "headers of a trace")
    names = {key.lower().replace("_", "-").replace("http-", "", 1): it for key, it in headers.items()}
    return {name: as_text(names.get(name, "")) for name in ("sentry-trace", "baggage")}


def sampled_rate(client: Client, name: str, op: str, headers: Mapping[str, str], more: Mapping[str, Any]) -> Optional[str]:
    """What the program's sampler says of a transaction, as a fraction; none where there is no sampler."""
    sampler = client.options.traces_sampler
    if sampler is None:
        return None
    parent = headers["sentry-trace"].strip()[-2:]
    sampled = {"-1": True, "-0": False}.get(parent)
    try:
        rate = float(sampler({"transaction_context": {"name": name, "op": op}, "parent_sampled": sampled, **more}) or 0.0)
    except Exception as why:
        tell("the sampler of traces failed, and a transaction isn't sampled: %r", why)
        rate = 0.0
    return fraction(rate if 0.0 <= rate <= 1.0 else 0.0)


def begun(client: Client, name: str, op: str, headers: Mapping[str, str], more: Mapping[str, Any]) -> Transaction:
    hub, texts = client.hub_with_span().number, (name, op, headers["sentry-trace"], headers["baggage"])
    rate = sampled_rate(client, name, op, headers, more)
    if rate is None:
        number = client.engine.number("continue_transaction", hub, *texts, native.fresh())
    else:
        number = client.engine.number("sample_transaction", hub, *texts, rate, native.fresh())
    return Transaction(client, number, op, name)


def start_transaction(
    name: Union[str, Transaction] = "<unlabeled transaction>",
    op: str = "task",
    headers: Optional[Mapping[str, Any]] = None,
    custom_sampling_context: Optional[Mapping[str, Any]] = None,
    transaction: Optional[Transaction] = None,
    **more: Any,
) -> Transaction:
    """Starts a transaction, which goes on with the trace of these headers of a request, if they say one. `name` may also be
    what `continue_trace` answered."""
    ready = name if isinstance(name, Transaction) else transaction
    if ready is not None:
        return ready
    client = clients.current
    if client is not None:
        with tolerated("a transaction"):
            return begun(client, as_text(name), as_text(op), headers_in(headers or {}), custom_sampling_context or {})
    return Transaction(None, 0, op, as_text(name))


def continue_trace(
    environ_or_headers: Mapping[str, Any],
    op: str = "task",
    name: str = "<unlabeled transaction>",
    source: Optional[str] = None,
) -> Transaction:
    """A transaction that goes on with the trace of a request's headers, or of WSGI's environment, if they say one: for
    `start_transaction`, or as it is."""
    return start_transaction(name, op, environ_or_headers)


def start_span(op: str = "", description: Optional[str] = None, name: Optional[str] = None, **more: Any) -> Span:
    """Starts a span within the current one. Without one it is sent nowhere."""
    span = current_span()
    if span is not None:
        return span.start_child(op, description, name)
    return Span(None, 0, op, name or description or "", Transaction(None, 0))


def current_span(client: Optional[Client] = None) -> Optional[Span]:
    """The innermost span, or the transaction, whose block runs in this thread or task."""
    span = SPAN.get()
    client = client or clients.current
    return span if span is not None and span.client is client and client is not None and not span.is_finished else None


def get_current_span() -> Optional[Span]:
    return current_span()


def get_traceparent() -> Optional[str]:
    """The header `sentry-trace` of the current span."""
    span = current_span()
    return span.to_traceparent() if span is not None else None


def get_baggage() -> Optional[str]:
    """The header `baggage` of the current span."""
    span = current_span()
    return span.trace_headers().get("baggage") if span is not None else None


def trace(function: Optional[F] = None, *, op: str = "function", name: Optional[str] = None) -> Any:
    """Makes each call of a function, also of an `async` one, a span of the current one: `@trace`, or `@trace(op="db")`."""
    if function is None:
        return lambda it: trace(it, op=op, name=name)
    called = function
    about = name or f"{called.__module__}.{called.__qualname__}"
    if inspect.iscoroutinefunction(called):

        @functools.wraps(called)
        async def waits(*words: Any, **more: Any) -> Any:
            with start_span(op, about):
                return await called(*words, **more)

        return waits

    @functools.wraps(called)
    def runs(*words: Any, **more: Any) -> Any:
        with start_span(op, about):
            return called(*words, **more)

    return runs
