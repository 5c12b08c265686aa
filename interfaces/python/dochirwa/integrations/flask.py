"""Applications of Flask: each request has a scope and a transaction of its own, which has the name of its rule, and what a
view raises is sent, although Flask answers it by a page of its own."""
from __future__ import annotations

from typing import Any, Callable, Dict, Iterable

from .. import client as clients
from ..capture import capture_exception
from ..serving import method_and
from . import Integration
from .wsgi import KEY, WsgiMiddleware


class FlaskIntegration(Integration):
    identifier = "flask"

    def __init__(self, transaction_style: str = "url") -> None:
        """Transactions have the name of the rule (`url`), or of the `endpoint`."""
        self.transaction_style = transaction_style

    @staticmethod
    def setup_once() -> None:
        from flask import Flask, got_request_exception, request_finished, request_started

        kind: Any = Flask
        before: Callable[..., Iterable[bytes]] = kind.__call__

        def call(self: Any, environ: Dict[str, Any], start_response: Callable[..., Any]) -> Iterable[bytes]:
            if not is_on():
                return before(self, environ, start_response)
            return WsgiMiddleware(lambda *words: before(self, *words))(environ, start_response)

        kind.__call__ = call
        request_started.connect(started, weak=False)
        request_finished.connect(finished, weak=False)
        got_request_exception.connect(failed, weak=False)


def is_on() -> bool:
    client = clients.current
    return client is not None and client.integration("flask") is not None


def started(sender: Any, **more: Any) -> None:
    """Names the transaction as soon as the rule is known, so that errors and logs have the name too."""
    from flask import request

    client, served = clients.current, request.environ.get(KEY)
    if client is None or served is None or request.url_rule is None or not is_on():
        return
    style = getattr(client.integration("flask"), "transaction_style", "url")
    named = request.url_rule.endpoint if style == "endpoint" else method_and(request.method, request.url_rule.rule)
    served.served.set_name(named)


def finished(sender: Any, response: Any, **more: Any) -> None:
    """Where the answer is no stream, the transaction ends with the view. Werkzeug's pages of errors are none either."""
    from flask import request

    served = request.environ.get(KEY)
    if served is not None:
        served.served.is_whole = not response.is_streamed or type(response.response).__name__ == "ClosingIterator"


def failed(sender: Any, exception: BaseException, **more: Any) -> None:
    from flask import request

    if is_on():
        served = request.environ.get(KEY) if request else None
        if served is not None:
            served.served.fail(exception, "flask")
        else:
            capture_exception(exception, handled=False, mechanism="flask")


integration = FlaskIntegration
