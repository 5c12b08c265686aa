"""Middleware for applications of ASGI."""
from __future__ import annotations

from typing import Any, Awaitable, Callable, Dict, Iterable, List, MutableMapping, Optional, Tuple

from .. import client as clients
from ..client import Client
from ..requests import request_data
from ..scopes import push_scope
from ..serving import Served, method_and

KEY = "dochirwa.request"
Message = MutableMapping[str, Any]
Receive = Callable[[], Awaitable[Message]]
Send = Callable[[Message], Awaitable[None]]
App = Callable[[MutableMapping[str, Any], Receive, Send], Awaitable[None]]


def headers_of(scope: MutableMapping[str, Any]) -> List[Tuple[str, str]]:
    return [(name.decode("latin-1"), it.decode("latin-1")) for name, it in scope.get("headers", ())]


def request_of(scope: MutableMapping[str, Any], headers: List[Tuple[str, str]], with_personal: bool) -> Dict[str, Any]:
    host, port = (scope.get("server") or ("", None))[:2]
    named = dict(headers).get("host") or (host if port in (None, 80, 443) else f"{host}:{port}")
    url = f"{scope.get('scheme', 'http')}://{named}{scope.get('root_path', '')}{scope.get('path', '')}"
    env = {"REMOTE_ADDR": (scope.get("client") or (None,))[0]}
    query = scope.get("query_string", b"").decode("latin-1")
    return request_data(scope.get("method", ""), url, query, headers, env, with_personal)


def rule_of(scope: MutableMapping[str, Any]) -> Optional[str]:
    """The rule that the request's path met, where the application says it: by `route` as FastAPI does, or as the route of
    Starlette's router that has the endpoint."""
    path = getattr(scope.get("route"), "path", None)
    if isinstance(path, str):
        return path
    endpoint = scope.get("endpoint")
    return route_to(getattr(scope.get("router"), "routes", ()), endpoint) if endpoint is not None else None


def route_to(routes: Optional[Iterable[Any]], endpoint: Any) -> Optional[str]:
    """The path of the route to an endpoint, also of one within others."""
    for it in routes or ():
        path = getattr(it, "path", "")
        if getattr(it, "endpoint", None) is endpoint:
            return str(path)
        within = route_to(getattr(it, "routes", None), endpoint)
        if within is not None:
            return f"{path}{within}"
    return None


class AsgiMiddleware:
    """Runs each request of an ASGI application in a scope and a transaction of its own, and sends what it raises."""

    def __init__(self, app: App) -> None:
        self.app = app

    async def __call__(self, scope: MutableMapping[str, Any], receive: Receive, send: Send) -> None:
        client = clients.current
        if client is None or scope.get("type") not in ("http", "websocket") or KEY in scope:
            return await self.app(scope, receive, send)
        with push_scope():
            await self.serve(client, scope, receive, send)

    async def serve(self, client: Client, scope: MutableMapping[str, Any], receive: Receive, send: Send) -> None:
        headers = headers_of(scope)
        method = scope.get("method") or "WEBSOCKET"
        request = request_of(scope, headers, client.options.send_default_pii)
        name = f"{method} {scope.get('root_path', '')}{scope.get('path', '')}"
        served = Served(client, name, request, dict(headers), {"asgi_scope": scope})
        scope[KEY] = served

        async def answer(message: Message) -> None:
            if message.get("type") == "http.response.start":
                served.transaction.set_http_status(message.get("status", 0))
            await send(message)

        try:
            await self.app(scope, receive, answer)
        except BaseException as error:
            if isinstance(error, Exception):
                served.fail(error, "asgi")
            served.end(method_and(method, rule_of(scope)), error)
            raise
        served.end(method_and(method, rule_of(scope)))


SentryAsgiMiddleware = AsgiMiddleware
