"""Middleware for applications of WSGI."""
from __future__ import annotations

import contextlib
import contextvars
from typing import Any, Callable, Dict, Iterable, Iterator, List, Mapping, Optional, Tuple

from .. import client as clients
from ..client import Client
from ..requests import request_data
from ..serving import Served, isolate, method_and

# Where the environment of a request has what the middleware knows of it.
KEY = "dochirwa.request"
StartResponse = Callable[..., Any]
App = Callable[[Dict[str, Any], StartResponse], Iterable[bytes]]


def path_of(environ: Mapping[str, Any]) -> str:
    """The path of a request, whose bytes WSGI has as the characters of Latin-1."""
    path: str = environ.get("SCRIPT_NAME", "") + environ.get("PATH_INFO", "")
    return path.encode("latin-1", "replace").decode("utf-8", "replace")


def headers_of(environ: Mapping[str, Any]) -> List[Tuple[str, str]]:
    found = [(key[5:].replace("_", "-").title(), str(it)) for key, it in environ.items() if key.startswith("HTTP_")]
    others = [key for key in ("CONTENT_TYPE", "CONTENT_LENGTH") if environ.get(key)]
    return found + [(key.replace("_", "-").title(), str(environ[key])) for key in others]


def request_of(environ: Mapping[str, Any], with_personal: bool) -> Dict[str, Any]:
    host = environ.get("HTTP_HOST") or environ.get("SERVER_NAME", "")
    url = f"{environ.get('wsgi.url_scheme', 'http')}://{host}{path_of(environ)}"
    env = {key: environ.get(key) for key in ("REMOTE_ADDR", "SERVER_NAME", "SERVER_PORT")}
    method, query = environ.get("REQUEST_METHOD", ""), environ.get("QUERY_STRING", "")
    return request_data(method, url, query, headers_of(environ), env, with_personal)


def rule_of(environ: Mapping[str, Any]) -> Optional[str]:
    """The rule that the request's path met, where the application says it: of Werkzeug and so Flask, of Bottle, or by the
    key `dochirwa.route` of the environment."""
    for it in (getattr(environ.get("werkzeug.request"), "url_rule", None), environ.get("bottle.route")):
        rule = getattr(it, "rule", None)
        if isinstance(rule, str):
            return rule
    found = environ.get("dochirwa.route")
    return found if isinstance(found, str) else None


class Request:
    """A request and its answer, in a context of its own: so requests whose parts are asked for by turns in one thread share
    nothing."""

    def __init__(self, client: Client, environ: Dict[str, Any], start_response: StartResponse) -> None:
        self.context, self.environ, self.start_response = contextvars.copy_context(), environ, start_response
        self.method = environ.get("REQUEST_METHOD", "")
        self.served: Served = self.context.run(self.begin, client)
        self.body: Any = None

    def begin(self, client: Client) -> Served:
        isolate(client)
        request = request_of(self.environ, client.options.send_default_pii)
        name = f"{self.method} {path_of(self.environ)}"
        return Served(client, name, request, self.environ, {"wsgi_environ": self.environ})

    def respond(self, status: str, *rest: Any) -> Any:
        code = status.partition(" ")[0]
        self.served.transaction.set_http_status(int(code) if code.isdigit() else 0)
        return self.start_response(status, *rest)

    def run(self, function: Callable[..., Any], *words: Any) -> Any:
        """A step of the application, which ends the request if it fails."""
        return self.context.run(self.step, function, *words)

    def step(self, function: Callable[..., Any], *words: Any) -> Any:
        try:
            return function(*words)
        except StopIteration:
            raise
        except BaseException as error:
            if isinstance(error, Exception):
                self.served.fail(error, "wsgi")
            self.end(error)
            raise

    def end(self, error: Optional[BaseException] = None) -> None:
        self.served.end(method_and(self.method, rule_of(self.environ)), error)


class Body:
    """The parts of an answer."""

    def __init__(self, request: Request, body: Iterable[bytes]) -> None:
        self.request, self.body = request, body
        self.parts: Optional[Iterator[bytes]] = None

    def __iter__(self) -> Iterator[bytes]:
        return self

    def __next__(self) -> bytes:
        try:
            if self.parts is None:
                self.parts = self.request.run(iter, self.body)
            part: bytes = self.request.run(next, self.parts)
            return part
        except StopIteration:
            self.request.context.run(self.request.end)
            raise

    def close(self) -> None:
        try:
            if hasattr(self.body, "close"):
                self.request.run(self.body.close)
        finally:
            self.request.context.run(self.request.end)

    def __del__(self) -> None:
        # A server, or a test, that neither asked for all parts nor closed the answer.
        with contextlib.suppress(Exception):
            self.request.context.run(self.request.end)


class WsgiMiddleware:
    """Runs each request of a WSGI application in a scope and a transaction of its own, and sends what it raises."""

    def __init__(self, app: App) -> None:
        self.app = app

    def __call__(self, environ: Dict[str, Any], start_response: StartResponse) -> Iterable[bytes]:
        client = clients.current
        if client is None or KEY in environ:
            return self.app(environ, start_response)
        request = environ[KEY] = Request(client, environ, start_response)
        body: Iterable[bytes] = request.run(self.app, environ, request.respond)
        is_list = isinstance(body, (list, tuple))
        if is_list or request.served.is_whole:
            request.context.run(request.end)
        # A server finds the length of an answer by that of a list.
        return body if is_list else Body(request, body)


SentryWsgiMiddleware = WsgiMiddleware
