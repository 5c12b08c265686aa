"""Requests of `http.client`, and so of urllib and urllib3: each a span and a breadcrumb, which continues the trace."""
from __future__ import annotations

import http.client
import threading
from typing import Any, Optional

from .. import client as clients
from ..client import Client
from ..requests import filtered_url
from ..scopes import add_breadcrumb
from ..tracing import Span, current_span
from ..transport import POSTING
from . import Integration


def url_of(connection: Any, target: str) -> str:
    host, port = connection.host, connection.port
    if getattr(connection, "_tunnel_host", None):
        host, port = connection._tunnel_host, connection._tunnel_port
    if "://" in target:
        return target
    scheme = "https" if isinstance(connection, http.client.HTTPSConnection) or connection.default_port == 443 else "http"
    shown = f"[{host}]" if ":" in host else host
    return f"{scheme}://{shown}{'' if port in (None, connection.default_port) else f':{port}'}{target}"


def is_propagated(client: Client, url: str) -> bool:
    targets = client.options.trace_propagation_targets
    return targets is None or any(it in url for it in targets)


class Request:
    """A request that waits for its answer."""

    def __init__(self, method: str, url: str, span: Optional[Span]) -> None:
        self.method, self.url, self.span = method, url, span

    def end(self, status: Optional[int], reason: str = "") -> None:
        if self.span is not None:
            if status is None:
                self.span.set_status("internal_error")
            else:
                self.span.set_data("reason", reason)
                self.span.set_http_status(status)
            self.span.finish()
        level = "info" if status is not None and status < 500 else "error"
        data = {"url": self.url, "method": self.method, "status_code": status, "reason": reason or None}
        add_breadcrumb(None, "httplib", level, "http", {key: it for key, it in data.items() if it is not None})


class StdlibIntegration(Integration):
    identifier = "stdlib"

    @staticmethod
    def setup_once() -> None:
        kind: Any = http.client.HTTPConnection
        put, end_headers, answer = kind.putrequest, kind.endheaders, kind.getresponse

        def putrequest(self: Any, method: str, url: str, *words: Any, **more: Any) -> Any:
            client = clients.current
            made = put(self, method, url, *words, **more)
            self._dochirwa = None
            is_own = threading.get_ident() in POSTING or method == "CONNECT"
            if client is not None and client.integration("stdlib") and not is_own:
                whole, parent = url_of(self, url), current_span()
                span = parent.start_child("http.client", f"{method} {filtered_url(whole)}") if parent is not None else None
                self._dochirwa = Request(method, filtered_url(whole), span)
                if span is not None and is_propagated(client, whole):
                    for name, it in span.trace_headers().items():
                        if it:
                            self.putheader(name, it)
            return made

        def endheaders(self: Any, *words: Any, **more: Any) -> Any:
            try:
                return end_headers(self, *words, **more)
            except Exception:
                failed(self)
                raise

        def getresponse(self: Any, *words: Any, **more: Any) -> Any:
            try:
                found = answer(self, *words, **more)
            except Exception:
                failed(self)
                raise
            request, self._dochirwa = getattr(self, "_dochirwa", None), None
            if request is not None:
                request.end(found.status, found.reason)
            return found

        def failed(connection: Any) -> None:
            request, connection._dochirwa = getattr(connection, "_dochirwa", None), None
            if request is not None:
                request.end(None)

        kind.putrequest, kind.endheaders, kind.getresponse = putrequest, endheaders, getresponse


integration = StdlibIntegration
