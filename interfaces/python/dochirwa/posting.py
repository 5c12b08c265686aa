"""Posting to a server by one connection that is kept, through a proxy where one is named."""
from __future__ import annotations

import base64
import contextlib
import encodings.idna  # noqa: F401  (a process that is forked off while the posting thread imports it could encode no host)
import gzip
import http.client
import io
import socket
import ssl
import time
import urllib.parse
import urllib.request
from typing import Any, Dict, Mapping, NamedTuple, Optional, Tuple

AGENT = "dochirwa.python/0.2.0"
# Bodies of more bytes are sent compressed.
SMALL = 1024
# Names of this machine, which no proxy of the environment is for.
LOOPBACK = "localhost", "127.0.0.1", "::1"
# Seconds that one post may take in all.
SECONDS = 10.0
# How it shows that the server has ended a connection.
ENDED = http.client.RemoteDisconnected, BrokenPipeError, ConnectionResetError, ssl.SSLEOFError, ssl.SSLZeroReturnError

Answer = Tuple[int, Mapping[str, str]]


class Address:
    """Where a DSN says that envelopes go."""

    def __init__(self, dsn: str) -> None:
        parts = urllib.parse.urlsplit(dsn.strip())
        path, _, project = parts.path.rstrip("/").rpartition("/")
        self.scheme, self.host = parts.scheme, parts.hostname or ""
        usual = 443 if parts.scheme == "https" else 80
        self.port = parts.port or usual
        shown = f"[{self.host}]" if ":" in self.host else self.host
        self.path = f"{path}/api/{project}/envelope/"
        self.url = f"{parts.scheme}://{shown}{'' if self.port == usual else f':{self.port}'}{self.path}"
        self.headers = {
            "Content-Type": "application/x-sentry-envelope",
            "User-Agent": AGENT,
            "X-Sentry-Auth": f"Sentry sentry_version=7, sentry_client={AGENT}, sentry_key={parts.username}",
        }


class Proxy(NamedTuple):
    """A proxy, with the headers that it wants."""

    host: str
    port: int
    headers: Dict[str, str]


def proxy_for(address: Address, named: Mapping[str, Optional[str]]) -> Optional[Proxy]:
    """The proxy for an address: the one that is named for its scheme, or that of the environment (HTTPS_PROXY and its
    like), unless this says that the host has none (NO_PROXY), or it is this machine. An empty name stands for none."""
    url = named.get(address.scheme)
    if url is None:
        if address.host in LOOPBACK or urllib.request.proxy_bypass(address.host):
            return None
        url = urllib.request.getproxies().get(address.scheme)
    if not url:
        return None
    parts = urllib.parse.urlsplit(url if "//" in url else f"http://{url}")
    headers = {}
    if parts.username is not None:
        pair = f"{urllib.parse.unquote(parts.username)}:{urllib.parse.unquote(parts.password or '')}"
        headers["Proxy-Authorization"] = "Basic " + base64.b64encode(pair.encode()).decode()
    return Proxy(parts.hostname or "", parts.port or 8080, headers)


class TimedReader(io.RawIOBase):
    """Reads a socket up to a moment, however slowly bytes come. `http.client` closes the socket of a connection that isn't
    kept before the answer is read: it stays open as long as this."""

    def __init__(self, sock: socket.socket, end: float) -> None:
        self.sock, self.end = sock, end
        self.file = sock.makefile("rb", buffering=0)

    def readable(self) -> bool:
        return True

    def readinto(self, room: Any) -> int:
        left = self.end - time.monotonic()
        if left <= 0:
            raise socket.timeout("the server answers too slowly")
        self.sock.settimeout(left)
        return self.file.readinto(room) or 0

    def close(self) -> None:
        self.file.close()
        super().close()


class TimedSocket:
    """What `http.client` reads an answer from."""

    def __init__(self, sock: socket.socket, end: float) -> None:
        self.sock, self.end = sock, end

    def makefile(self, mode: str) -> io.BufferedReader:
        return io.BufferedReader(TimedReader(self.sock, self.end))


def timed_response(end: float) -> Any:
    """In place of the class of answers: one whose answer has to be there at a moment."""
    made: Any = http.client.HTTPResponse
    return lambda sock, *words, **more: made(TimedSocket(sock, end), *words, **more)


def read_whole(answer: http.client.HTTPResponse) -> bool:
    """Whether the rest of an answer comes as its headers say. Its status holds in any case."""
    try:
        answer.read()
    except (OSError, http.client.HTTPException):
        return False
    return True


class Poster:
    """Posts envelopes to the server of a DSN. Redirections are answers: none is followed."""

    def __init__(
        self,
        dsn: str,
        proxies: Mapping[str, Optional[str]] = {},
        ca_certs: Optional[str] = None,
        seconds: float = SECONDS,
    ) -> None:
        self.address, self.seconds = Address(dsn), seconds
        self.proxy = proxy_for(self.address, proxies)
        self.context = ssl.create_default_context(cafile=ca_certs) if self.address.scheme == "https" else None
        self.connection: Optional[http.client.HTTPConnection] = None

    def __call__(self, envelope: bytes) -> Answer:
        """The answer's status and headers. Raises OSError or HTTPException where there is none."""
        headers = dict(self.address.headers)
        if len(envelope) > SMALL:
            envelope, headers["Content-Encoding"] = gzip.compress(envelope, 5, mtime=0), "gzip"
        is_kept, end = self.connection is not None, time.monotonic() + self.seconds
        try:
            return self.try_once(envelope, headers, end)
        except ENDED:
            # It was kept, and has perhaps ended before this post.
            if not is_kept:
                raise
            return self.try_once(envelope, headers, end)

    def try_once(self, body: bytes, headers: Mapping[str, str], end: float) -> Answer:
        try:
            connection = self.connection or self.connected()
            if connection.sock is None:
                connection.connect()
            connection.sock.settimeout(max(0.001, end - time.monotonic()))
            target = self.address.path
            if self.proxy is not None and self.context is None:
                target, headers = self.address.url, {**headers, **self.proxy.headers}
            connection.response_class = timed_response(end)
            # A server may answer, and end the connection, before it has read all, as where that is too much for it.
            with contextlib.suppress(*ENDED):
                connection.request("POST", target, body, dict(headers))
            answer = connection.getresponse()
            if not read_whole(answer) or answer.will_close:
                self.close()
            return answer.status, dict(answer.headers.items())
        except BaseException:
            self.close()
            raise

    def connected(self) -> http.client.HTTPConnection:
        """A connection that is opened at its first request."""
        host, port = (self.proxy.host, self.proxy.port) if self.proxy is not None else (self.address.host, self.address.port)
        if self.context is not None:
            self.connection = http.client.HTTPSConnection(host, port, timeout=self.seconds, context=self.context)
            if self.proxy is not None:
                self.connection.set_tunnel(self.address.host, self.address.port, self.proxy.headers)
        else:
            self.connection = http.client.HTTPConnection(host, port, timeout=self.seconds)
        return self.connection

    def close(self) -> None:
        connection, self.connection = self.connection, None
        if connection is not None:
            connection.close()

    def after_fork(self) -> None:
        """In a process that was forked off: leaves the connection to the parent. A thread that isn't here any more may hold
        the lock of an answer, which to close would wait for: so the number of the file alone is closed."""
        connection, self.connection = self.connection, None
        if connection is not None and connection.sock is not None:
            socket.close(connection.sock.detach())
