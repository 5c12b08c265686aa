"""interfaces/c/dochirwa_curl.c against a store of envelopes on loopback that is killed, slow, limited and failing in turn:
what it received, what it refused by 429, and what was reported as lost are all that was captured. A function answers a list:
what is looked at, what is wanted, and what was found."""
import collections
import http.server
import json
import signal
import subprocess
import threading
import time

from receiver import received

ITEMS = {"event": "error", "transaction": "transaction", "session": "session", "sessions": "session", "log": "log_item"}


def counts_of(text):
    """What an envelope has, and what its reports say, by category."""
    has, reported = collections.Counter(), collections.Counter()
    for header, payload in received(text)[1]:
        read = json.loads(payload)
        if header["type"] in ITEMS:
            has[ITEMS[header["type"]]] += header.get("item_count", 1)
        if header["type"] == "transaction":
            has["span"] += 1 + len(read["spans"])
        if header["type"] == "client_report":
            for it in read["discarded_events"]:
                reported[it["category"], it["reason"]] += it["quantity"]
    return has, reported


class Store:
    """A server on loopback. `answer` is the status and the headers of the next answers, `delay` what each waits; connections
    end with it unless `keeps_open`."""

    def __init__(self):
        self.answer, self.delay, self.port, self.keeps_open = (200, {}), 0, 0, False
        self.received, self.refused, self.reported = (collections.Counter() for _ in range(3))
        self.posts, self.texts, self.moments = [], [], []
        self.start()

    def start(self):
        store = self

        class Handler(http.server.BaseHTTPRequestHandler):
            protocol_version = "HTTP/1.1"

            def do_POST(self):
                text = self.rfile.read(int(self.headers["Content-Length"]))
                time.sleep(store.delay)
                status, headers = store.answer
                store.keep(self.path, self.headers, text, status)
                self.send_response(status)
                for name, value in {**headers, "Content-Length": "0", "Connection": "keep-alive" if store.keeps_open else "close"}.items():
                    self.send_header(name, value)
                self.end_headers()

            def log_message(self, *words):
                pass

        http.server.ThreadingHTTPServer.allow_reuse_address = True
        self.server = http.server.ThreadingHTTPServer(("127.0.0.1", self.port), Handler)
        self.server.daemon_threads = True
        self.port = self.server.server_port
        threading.Thread(target=self.server.serve_forever, kwargs={"poll_interval": 0.02}, daemon=True).start()

    def stop(self):
        self.server.shutdown()
        self.server.server_close()

    def keep(self, path, headers, text, status):
        has, reported = counts_of(text)
        self.texts.append(text)
        self.moments.append(time.monotonic())
        self.posts.append((path, headers["X-Sentry-Auth"], headers["Content-Type"], headers["Expect"], status))
        if status == 200:
            self.received += has
            self.reported += reported
        elif status == 429:
            self.refused += has


class Program:
    """The program of tests/posting.c, and what it captured."""

    def __init__(self, path, dsn, env):
        self.process = subprocess.Popen([path, dsn], stdin=subprocess.PIPE, stdout=subprocess.PIPE, text=True, env=env)
        self.dsn = dsn
        self.captured, self.first = collections.Counter(), self.process.stdout.readline().strip()

    def do(self, line):
        """What it answers to a line."""
        self.process.stdin.write(line + "\n")
        self.process.stdin.flush()
        return self.process.stdout.readline().strip()

    def capture(self, turns):
        """Captures something of each kind, some times."""
        for number in range(turns):
            answers = [self.do(line) for line in (f"error {number}", f"log {number}", f"transaction {number % 3}", "session")]
            if answers != ["0"] * 4:
                raise AssertionError(f"calls answer {answers}")
            self.captured.update(error=1, log_item=1, transaction=1, session=1, span=1 + number % 3)


def flushed(program, milliseconds=8000):
    """Flushes, and answers whether it was in time."""
    return program.do(f"flush {milliseconds}")


def all_of(path, env=None):
    """All that is looked at, with this program."""
    store = Store()
    program = Program(path, f"http://akey@127.0.0.1:{store.port}/7", env)
    yield "opening a reporter", "0", program.first
    store.keeps_open = True
    program.capture(3)
    yield "a long error", "0", program.do("long 2000000")
    program.captured["error"] += 1
    yield "a flush", "1", flushed(program)
    yield "where and how envelopes are posted", {("/api/7/envelope/", "Sentry sentry_key=akey, sentry_version=7, sentry_client=posting/1", "application/x-sentry-envelope", None, 200)}, set(store.posts)
    yield "connections that a program has which it starts", "0", program.do("inherited")
    store.keeps_open = False
    program.capture(1)
    flushed(program)
    program.do("refuse 1000000000")
    program.capture(1)
    yield "a flush without getrandom", "1", flushed(program)
    ids = [json.loads(it.split(b"\n", 1)[0]).get("event_id") for it in store.texts]
    named = [it for it in ids if it]
    yield "how many events have one id", 0, len(named) - len(set(named))
    program.do("refuse 0")
    yield "a flush without memory", "0", program.do("starved message")
    program.captured["error"] += 1
    yield "a flush with memory", "1", flushed(program)
    yield "a signal that the program waits for", str(int(signal.SIGTERM)), program.do("wait")
    store.stop()
    program.capture(5)
    yield "a flush while the store is killed", "1", flushed(program)
    store.start()
    store.delay = 0.05
    program.capture(4)
    yield "a flush of a slow store", "1", flushed(program)
    store.delay = 0
    yield from limited(store, program)
    store.answer = (500, {})
    program.capture(3)
    yield "a flush of a store that fails", "1", flushed(program)
    store.answer = (200, {})
    program.do("drop drop this")
    yield "an error that the program's hook drops", "0", program.do("error please drop this")
    program.captured["error"] += 1
    flushed(program)
    yield from full(store, program)
    yield from counted(store, program)
    yield "closing", ("1", 0), (program.do("close 5000"), program.process.wait(20))
    yield "how often a flush posts reports alone", 199, reports_alone(store, Program(path, program.dsn, env))
    for after in ("99999999999999999999", "18446744073709552", "-1"):
        yield f"how often is posted within a limit of {after} seconds", 1, posts_within(store, Program(path, program.dsn, env), after)
    store.stop()
    if int(subprocess.run(["curl-config", "--vernum"], capture_output=True).stdout, 16) >= 0x075700:
        yield "whether a close waits for an address", False, waits_for_address(path, env)


def waits_for_address(path, env):
    """Whether half a second of a close is 20 and more, where the host's address comes after 30."""
    program, begun = Program(path, "http://akey@sentry.invalid/7", env), time.monotonic()
    program.do("error without an address")
    program.do("close 500")
    program.process.wait(60)
    return time.monotonic() - begun >= 20


def reports_alone(store, program):
    """How often is posted, of 200 flushes with a log within a limit: the first has no report of an earlier one."""
    store.answer = (429, {"X-Sentry-Rate-Limits": "600:log_item:key"})
    program.do("log refused")
    flushed(program)
    store.answer, before = (200, {}), len(store.posts)
    program.do("flushes 200")
    program.do("close 5000")
    program.process.wait(20)
    return len(store.posts) - before


def posts_within(store, program, after):
    """How often is posted, of three times, where the first is refused with a Retry-After."""
    store.answer, before = (429, {"Retry-After": after}), len(store.posts)
    for _ in range(3):
        program.do("error within a limit")
        flushed(program)
    program.do("close 5000")
    program.process.wait(20)
    return len(store.posts) - before


def limited(store, program):
    """Limits by category and of all, which end after a second or two."""
    for headers in ({"X-Sentry-Rate-Limits": "2:error;transaction:organization, 1:default:key"}, {"Retry-After": "2"}):
        store.answer, first = (429, headers), len(store.posts)
        program.capture(1)
        flushed(program)
        store.answer, before = (200, {}), len(store.posts)
        for _ in range(20):
            program.do("error within a limit")
        program.captured["error"] += 20
        time.sleep(0.3)
        ends = store.moments[first] + 2
        yield f"how often is posted within the limits {headers}", 0, sum(it < ends for it in store.moments[before:])
        time.sleep(2)
        yield "a flush after the limits", "1", flushed(program)


def full(store, program):
    """More envelopes than the queue holds, while the store is slow."""
    store.delay = 0.5
    for _ in range(150):
        program.do("error of many")
    program.captured["error"] += 150
    store.delay = 0
    yield "a flush of a full queue", "1", flushed(program, 20000)


def counted(store, program):
    """The last errors bring the last report."""
    for _ in range(2):
        program.do("error at last")
        program.captured["error"] += 1
        flushed(program)
    for category in sorted(program.captured):
        told = sum(n for (of, _), n in store.reported.items() if of == category)
        yield f"what came, was refused or was reported of the category {category}", program.captured[category], store.received[category] + store.refused[category] + told
    reasons = {reason for _, reason in store.reported}
    wanted = {"network_error", "ratelimit_backoff", "send_error", "before_send", "queue_overflow"}
    yield "the reasons that were reported", wanted, reasons
    yield "how many errors the hook dropped", 1, store.reported["error", "before_send"]
