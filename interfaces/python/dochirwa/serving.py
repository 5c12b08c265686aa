"""A request that a server answers: its scope, its transaction and its session. For the middlewares of WSGI and ASGI."""
from __future__ import annotations

from typing import Any, Dict, Mapping, Optional

from .capture import capture_exception
from .client import Client
from .hubs import HUB, hub_of
from .measures import end_session, start_session
from .scopes import TOP
from .tracing import start_transaction


def isolate(client: Client) -> None:
    """Gives this context a hub of its own, with a copy of the scope."""
    hub = hub_of(client)
    HUB.set(hub.fork(hub.thread, hub.task))


class Served:
    """A request, from its begin to its end, in a scope of its own."""

    def __init__(
        self, client: Client, name: str, request: Dict[str, Any], headers: Mapping[str, Any], more: Mapping[str, Any]
    ) -> None:
        self.client, self.name = client, name
        self.has_session = client.options.auto_session_tracking and client.options.session_mode == "request"
        self.is_over = self.is_crashed = False
        # Whether the answer's body is known as soon as the application has returned.
        self.is_whole = False
        if self.has_session:
            start_session()
        TOP.set_request(request)
        self.transaction = start_transaction(name, "http.server", headers, more)
        self.transaction.set_request(request)
        self.transaction.__enter__()

    def set_name(self, name: Optional[str]) -> None:
        """Names the transaction by what the application calls it, unless the program has named it."""
        if name and self.transaction.name == self.name:
            TOP.set_transaction_name(name)
            self.name = name

    def fail(self, error: BaseException, mechanism: str) -> None:
        """Sends what the application raised, once."""
        self.is_crashed = True
        capture_exception(error, handled=False, mechanism=mechanism)

    def end(self, name: Optional[str], error: Optional[BaseException] = None) -> None:
        if self.is_over:
            return
        self.is_over = True
        self.set_name(name)
        self.transaction.__exit__(None if error is None else type(error), error, None)
        if self.has_session:
            end_session("crashed" if self.is_crashed else "exited")


def method_and(method: str, rule: Any) -> Optional[str]:
    """The name of a request by the rule that its path met."""
    return f"{method} {rule}" if isinstance(rule, str) and rule else None
