"""The client that `init` makes: an engine, its hubs, and the thread that posts what it sends."""
from __future__ import annotations

import atexit
import os
import sys
import threading
import time
import weakref
from typing import TYPE_CHECKING, Any, Callable, Dict, List, Optional, TypeVar

from . import integrations, native
from .envelopes import NAME, VERSION, Loss, Losses
from .hubs import HUB, Hub, hub_of, running_task
from .native import Fault
from .notes import told, tolerated
from .options import Options, options_of
from .posting import Poster
from .records import SESSION_STATUSES
from .spool import Spool
from .transport import Sender

if TYPE_CHECKING:
    from typing_extensions import ParamSpec

    from .tracing import Span

    P = ParamSpec("P")
T = TypeVar("T")

LABEL = 0
SDK = {"name": NAME, "version": VERSION}


class Client:
    """An engine with one client, and the thread that posts what it sends. One program has one at a time."""

    def __init__(self, options: Options) -> None:
        self.options, self.is_closed = options, False
        self.frame_options, self.set_up = options.frame_options(), integrations.chosen(options)
        self.finished: List[Span] = []
        # Where the envelopes of the capture go that is under way, while the lock is held.
        self.capturing: Optional[Callable[[bytes], None]] = None
        self.engine = native.Engine(options.library)
        try:
            self.number = self.engine.number("add_client", options.lines(), LABEL, native.steady_ns())
            # Kept beside the thread, which may end before the client.
            self.main_span: Optional[Span] = None
            task = running_task()
            number = self.engine.number("new_hub", self.number, native.fresh())
            self.main = Hub(self, number, threading.get_ident(), None if task is None else weakref.ref(task))
            spool = Spool(options.spool_folder) if options.spool_folder else None
            losses = UNREPORTED.setdefault(options.dsn or "", Losses())
            self.sender = Sender(self.engine, self.number, self.post(), spool, losses=losses)
        except Exception:
            self.engine.free()
            raise

    def post(self) -> Optional[Callable[[bytes], Any]]:
        options = self.options
        if options.post is not None or not options.dsn:
            return options.post
        return Poster(options.dsn, {"http": options.http_proxy, "https": options.https_proxy}, options.ca_certs)

    def start(self) -> None:
        HUB.set(self.main)
        self.sender.start()

    def integration(self, name: str) -> Optional[Any]:
        """The integration of this name, where it is set up for this client."""
        return self.set_up.get(name)

    def hub_with_span(self) -> Hub:
        """The hub of this context, whose scope has its span."""
        from .tracing import current_span

        hub, span = hub_of(self), current_span(self)
        if hub.span is not span:
            self.set_span(hub, span)
        return hub

    def set_span(self, hub: Hub, span: Optional[Span]) -> None:
        if span is not None:
            try:
                self.engine.call("set_span", hub.number, span.is_span, span.number, time.time_ns())
            except Fault as fault:
                if fault.number != native.STALE:
                    raise
                span = None  # another thread has finished it meanwhile
        if span is None:
            self.engine.call("clear_span", hub.number, time.time_ns())
        hub.span = span

    def hold(self, span: Span) -> None:
        """Keeps a span that was finished while a scope has it, until that can be given back."""
        with self.engine.lock:
            self.finished.append(span)

    def discard(self, spans: List[Span]) -> None:
        """Gives spans back that were finished while a scope had them: now, or, where one still has, with the next ones."""
        if not spans and not self.finished:
            return
        with self.engine.lock:
            waiting, self.finished = self.finished + spans, []
            for it in waiting:
                try:
                    self.engine.call("discard", it.is_span, it.number)
                except Fault as fault:
                    if fault.number == native.STILL_NAMED:
                        self.finished.append(it)

    def refuse(self, category: str) -> None:
        """Counts a record that can't be sent."""
        self.sender.count_refused(category)

    def drop(self, category: str, reason: str = "before_send") -> None:
        """Counts a record that the program wants dropped."""
        self.sender.losses.add([Loss(category, reason, 1)])

    def end_session(self) -> None:
        with tolerated("the end of the session"):
            self.engine.call("end_session", self.main.number, SESSION_STATUSES.index("exited"), time.time_ns())

    def record(self, call: Callable[[], T]) -> T:
        """Makes a call that captures something. Raises `Fault` where the client is closed, as the engine doesn't."""
        with self.engine.lock:
            if self.is_closed:
                raise Fault(native.CLOSED)
            return call()

    def close(self, timeout: Optional[float] = None) -> bool:
        with self.engine.lock:
            if self.is_closed:
                return True
            self.end_session()
            self.is_closed = True
            with tolerated("the end"):
                self.engine.call("close", self.number)
        is_well = self.sender.stop(self.options.shutdown_timeout if timeout is None else timeout)
        self.engine.free()
        return is_well

    def after_fork(self) -> None:
        """In a process that was forked off: what waits, also in queues, and the session are the parent's to post."""
        self.engine.lock = threading.RLock()
        self.end_session()
        with tolerated("a fork"):
            self.engine.call("flush", self.number)
        with tolerated("a fork"):
            self.engine.call("drop_envelopes")
        self.sender.restart()


current: Optional[Client] = None
# Held by `init` alone, until what it replaces has ended: `close` may be called by a signal handler.
REPLACING = threading.RLock()
# What was lost and isn't reported, by its DSN: so a client reports what an earlier one could not.
UNREPORTED: Dict[str, Losses] = {}


def begin(options: Options) -> Client:
    """Begins to report, in place of what an earlier call began. While this ends, the new client takes what is captured."""
    global current
    made = Client(options)
    with REPLACING:
        before, current = current, made
        told.clear()
        if before is not None:
            before.close()
        made.start()
        close_with_multiprocessing(made)
        integrations.install(made.set_up)
        if options.auto_session_tracking and options.session_mode == "application":
            start_session_of(made)
    return made


def replacing(client: Client, fault: Fault) -> Optional[Client]:
    """The client that has replaced one, whose call found it closed."""
    later = current
    return later if fault.number == native.CLOSED and later is not client else None


def start_session_of(client: Client) -> None:
    with tolerated("a session"):
        client.engine.call("start_session", client.main.number, native.fresh())


def as_options(options: Callable[P, Options], function: Callable[..., Client]) -> Callable[P, Client]:
    """The function, which a type checker sees with the arguments of `Options`."""
    return function


def init_by_words(dsn: Optional[str] = None, **words: Any) -> Client:
    """Begins to report, in place of what an earlier call began. `Options` says what the arguments mean. Raises `Fault`,
    ValueError where an option has more than one line, and TypeError where there is no such option."""
    return begin(options_of({"dsn": dsn, **words}))


init = as_options(Options, init_by_words)


def close(timeout: Optional[float] = None) -> bool:
    """Ends the session, posts what waits, and stops reporting. Answers whether all was posted in time, and nothing lost
    since the last `flush`. What could not be posted is in the spool folder, or else told as lost at `WARNING`, and reported
    by a later client of the same DSN."""
    global current
    client, current = current, None
    return client.close(timeout) if client else True


def flush(timeout: float = 2.0, callback: Optional[Callable[..., Any]] = None) -> bool:
    """Posts what waits, also in queues. Answers whether that was done in time, and nothing lost since the last call: by the
    network, a limit or the server, or as a record that can't be read. What the program wants dropped isn't lost."""
    client = current
    if client is None:
        return True
    with tolerated("a flush"):
        client.engine.call("flush", client.number)
    return client.sender.flush(timeout)


def is_initialized() -> bool:
    return current is not None


# The engine whose lock is held while the process forks, so that no other thread is in a call then.
forking: Optional[native.Engine] = None


def before_fork() -> None:
    global forking
    client = current
    if client is not None:
        client.engine.lock.acquire()
        forking = client.engine


def after_fork_in_parent() -> None:
    global forking
    engine, forking = forking, None
    if engine is not None:
        engine.lock.release()


def after_fork_in_child() -> None:
    global forking, REPLACING
    forking, REPLACING = None, threading.RLock()
    for it in UNREPORTED.values():
        it.clear()  # the parent's to report
    client = current
    if client is not None:
        client.after_fork()
        if client.options.auto_session_tracking and client.options.session_mode == "application":
            start_session_of(client)
        close_with_multiprocessing(client)


def close_with_multiprocessing(client: Client) -> None:
    """A process of `multiprocessing` ends by `os._exit`, and runs none of what `atexit` keeps, but its own finalizers: those
    that are made once its function runs, or by what is registered for a fork."""
    util, process = sys.modules.get("multiprocessing.util"), sys.modules.get("multiprocessing.process")
    if util is None or process is None:
        return
    util.register_after_fork(client, finalize_with_multiprocessing)
    if process.parent_process() is not None:
        finalize_with_multiprocessing(client)


def finalize_with_multiprocessing(client: Client) -> None:
    sys.modules["multiprocessing.util"].Finalize(None, close_after_threads, exitpriority=0)


def close_after_threads() -> None:
    """Closes once the threads have ended for which such a process waits after its finalizers."""
    here = threading.current_thread(), threading.main_thread()
    threads = [it for it in threading.enumerate() if not it.daemon and it not in here]

    def wait() -> None:
        for it in threads:
            it.join()
        close_after_threads()

    if threads:
        threading.Thread(target=wait, name="dochirwa-end").start()
    else:
        close()


atexit.register(close)
if hasattr(os, "register_at_fork"):
    os.register_at_fork(before=before_fork, after_in_parent=after_fork_in_parent, after_in_child=after_fork_in_child)
