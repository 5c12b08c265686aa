"""A store of envelopes on loopback, to which a DSN points."""
import http.server
import threading


class Store:
    """Takes what is posted. `posted` has of each request the path, the header `X-Sentry-Auth` and the body."""

    def __init__(self, status=200):
        self.posted, store = [], self

        class Handler(http.server.BaseHTTPRequestHandler):
            def do_POST(self):
                body = self.rfile.read(int(self.headers["Content-Length"]))
                store.posted.append((self.path, self.headers["X-Sentry-Auth"], body))
                self.send_response(status)
                self.send_header("Content-Length", "2")
                self.end_headers()
                self.wfile.write(b"{}")

            def log_message(self, *_):
                pass

        self.server = http.server.ThreadingHTTPServer(("127.0.0.1", 0), Handler)
        threading.Thread(target=self.server.serve_forever, kwargs={"poll_interval": 0.02}, daemon=True).start()

    def dsn(self):
        return f"http://akey@127.0.0.1:{self.server.server_port}/7"

    def stop(self):
        self.server.shutdown()
        self.server.server_close()

    def __enter__(self):
        return self

    def __exit__(self, *_):
        self.stop()
