"""A server on loopback that keeps the envelopes which are posted to it, and answers as it is told."""
import contextlib
import gzip
import http.server
import json
import socket
import threading

from receiver import received


class Server(http.server.ThreadingHTTPServer):
    """Keeps what is posted: of each post the body as it came, its path and headers, and the items, read."""

    daemon_threads = True
    request_queue_size = 64

    def __init__(self, port=0, context=None):
        super().__init__(("127.0.0.1", port), Handler)
        if context is not None:
            self.socket = context.wrap_socket(self.socket, server_side=True)
        self.posts, self.answers, self.came = [], [], threading.Condition()
        # How many connections there were, and the names of members that occurred twice in an object.
        self.connections, self.doubled, self.open = 0, [], set()
        threading.Thread(target=self.serve_forever, daemon=True).start()

    @property
    def dsn(self):
        return f"http://key@127.0.0.1:{self.server_port}/42"

    def end(self):
        self.shutdown()
        self.server_close()
        for it in [*self.open]:
            with contextlib.suppress(OSError):
                it.shutdown(socket.SHUT_RDWR)

    def found(self, kind=None):
        return [it for post in [*self.posts] for it in post["items"] if kind is None or it[0]["type"] == kind]

    def items(self, kind=None, count=1, timeout=20):
        """The items that came, of a type, once there are as many."""
        with self.came:
            self.came.wait_for(lambda: len(self.found(kind)) >= count, timeout)
            return self.found(kind)

    def payloads(self, kind, count=1, timeout=20):
        return [it for _, it in self.items(kind, count, timeout)]

    def lost(self):
        """What reports count, by category and reason."""
        counts = {}
        for report in self.payloads("client_report", 0):
            for it in report["discarded_events"]:
                key = it["category"], it["reason"]
                counts[key] = counts.get(key, 0) + it["quantity"]
        return counts

    def handle_error(self, request, client_address):
        pass  # a client that is gone


class Tunnel:
    """A proxy of HTTP that joins a client with the server that it names."""

    def __init__(self):
        self.listening = socket.create_server(("127.0.0.1", 0))
        self.port, self.asked = self.listening.getsockname()[1], []
        threading.Thread(target=self.serve, daemon=True).start()

    def serve(self):
        with contextlib.suppress(OSError):
            while True:
                client, _ = self.listening.accept()
                head = b""
                while b"\r\n\r\n" not in head:
                    head += client.recv(1)
                self.asked.append(head.decode())
                host, port = head.split()[1].decode().rsplit(":", 1)
                server = socket.create_connection((host, int(port)))
                client.sendall(b"HTTP/1.1 200 OK\r\n\r\n")
                for one, other in ((client, server), (server, client)):
                    threading.Thread(target=self.relay, args=(one, other), daemon=True).start()

    def relay(self, one, other):
        with contextlib.suppress(OSError):
            while part := one.recv(65536):
                other.sendall(part)
            other.shutdown(socket.SHUT_WR)


class Handler(http.server.BaseHTTPRequestHandler):
    protocol_version = "HTTP/1.1"

    def setup(self):
        super().setup()
        self.server.connections += 1
        self.server.open.add(self.connection)

    def finish(self):
        self.server.open.discard(self.connection)
        super().finish()

    def do_POST(self):
        body = sent = self.rfile.read(int(self.headers["Content-Length"]))
        if self.headers["Content-Encoding"] == "gzip":
            body = gzip.decompress(body)
        status, headers = self.server.answers.pop(0) if self.server.answers else (200, {})
        if callable(status):
            status = status(self)
        # Kept before the answer, so that what was flushed has come.
        if status is not None:
            with self.server.came:
                self.server.posts.append(post_of(self, body, sent, status))
                self.server.came.notify_all()
            self.answer(status, headers)
        else:
            self.close_connection = True

    def answer(self, status, headers):
        self.send_response(status)
        for name, it in headers.items():
            self.send_header(name, it)
        self.send_header("Content-Length", "0")
        self.end_headers()

    def log_message(self, *words):
        pass


def post_of(handler, body, sent, status):
    # Sentry's SDK of 2022 posts an event as it is.
    header, items = ({}, [({"type": "event"}, body)]) if handler.path.endswith("/store/") else received(body)
    load = lambda text: json.loads(text, object_pairs_hook=lambda pairs: object_of(pairs, handler.server.doubled))
    read = [(it, load(text) if it["type"] != "attachment" else text) for it, text in items]
    auth, found = handler.headers["X-Sentry-Auth"], {key.lower(): it for key, it in handler.headers.items()}
    return {"body": body, "sent": sent, "path": handler.path, "auth": auth, "headers": found, "header": header, "items": read, "status": status}


def object_of(pairs, doubled):
    names = [name for name, _ in pairs]
    doubled += sorted({it for it in names if names.count(it) > 1})
    return dict(pairs)
