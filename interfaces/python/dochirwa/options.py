"""The options of `init`, and what stands for those that aren't given."""
from __future__ import annotations

import dataclasses
import os
import socket
from typing import Any, Callable, Dict, Iterable, Optional, Sequence, Union

from .errors import Ignored
from .notes import tell
from .stacks import FrameOptions
from .transport import Post

Record = Dict[str, Any]
Hint = Dict[str, Any]
Hook = Callable[[Record, Hint], Optional[Record]]
# Names of releases in the environment, where no other says one, as hosts of programs set them.
RELEASES = "HEROKU_SLUG_COMMIT SOURCE_VERSION CODEBUILD_RESOLVED_SOURCE_VERSION CIRCLE_SHA1 GAE_DEPLOYMENT_ID".split()
# Options of Sentry's SDK that change nothing here.
PASSED_OVER = (
    "debug transport propagate_traces request_bodies max_request_body_size transport_queue_size _experiments dist "
    "enable_tracing profiles_sample_rate profile_session_sample_rate max_value_length keep_alive instrumenter"
).split()


@dataclasses.dataclass
class Options:
    """What `init` is told.

    dsn, release, environment   otherwise SENTRY_DSN, SENTRY_RELEASE (or the commit of the folder's Git repository) and
                                SENTRY_ENVIRONMENT (or production). Without a DSN nothing is sent
    server_name                 otherwise the name of the host
    sample_rate, traces_sample_rate   of events and transactions, from 0 to 1
    traces_sampler              is handed a dictionary with `transaction_context` (name and op), `parent_sampled`, and what
                                starts the transaction; it answers a rate, or whether the transaction is sampled
    send_default_pii            sends cookies and addresses of requests, and users' data that integrations find
    max_breadcrumbs             100 by default
    enable_logs, enable_metrics send what `log`, and `count` and its like, are given
    drop_events, drop_breadcrumbs, drop_logs, drop_metrics   drop what begins with their text: events and breadcrumbs by
                                their message, logs by their body, metrics by their name
    before_send, before_send_transaction, before_breadcrumb, before_send_log, before_send_metric   are handed a dictionary
                                and a hint, and answer it, changed or not, or `None` to drop it
    ignore_errors               types or names of exceptions that are not sent
    attach_stacktrace           sends the frames of messages too
    include_local_variables     sends the local variables of frames, but for those whose names say that they are secret
    include_source_context      sends lines of source
    in_app_include, in_app_exclude   modules that are or aren't the application's
    integrations                more of them, in place of the default ones of the same name
    default_integrations        sets up those of the standard library: excepthook, threading, logging, stdlib, subprocess
    auto_enabling_integrations  sets up those of packages that are imported: flask
    disabled_integrations       names or integrations that are not set up
    report_uncaught             sends what ends the program or a thread: without it, neither is reported
    auto_session_tracking       counts sessions: of the process, or by the `session_mode` "request" of each request
    trace_propagation_targets   parts of URLs whose requests continue the trace; by default all
    shutdown_timeout            seconds that `close` and the end of the program wait for the server
    http_proxy, https_proxy     otherwise those of the environment; an empty text stands for none
    ca_certs                    a file of certificates in place of the system's
    spool_folder                where envelopes wait that could not be sent, until the next start
    post                        is called with the bytes of each envelope in place of a request by HTTP, and answers a status
                                and headers
    library                     the path of libdochirwa.so
    """

    dsn: Optional[str] = None
    release: Optional[str] = None
    environment: Optional[str] = None
    server_name: Optional[str] = None
    sample_rate: float = 1.0
    traces_sample_rate: Optional[float] = None
    traces_sampler: Optional[Callable[[Record], Union[float, bool, None]]] = None
    send_default_pii: bool = False
    max_breadcrumbs: Optional[int] = None
    enable_logs: bool = True
    enable_metrics: bool = True
    drop_events: Optional[str] = None
    drop_breadcrumbs: Optional[str] = None
    drop_logs: Optional[str] = None
    drop_metrics: Optional[str] = None
    before_send: Optional[Hook] = None
    before_send_transaction: Optional[Hook] = None
    before_breadcrumb: Optional[Hook] = None
    before_send_log: Optional[Hook] = None
    before_send_metric: Optional[Hook] = None
    ignore_errors: Ignored = ()
    attach_stacktrace: bool = False
    include_local_variables: bool = False
    include_source_context: bool = True
    in_app_include: Sequence[str] = ()
    in_app_exclude: Sequence[str] = ()
    integrations: Iterable[Any] = ()
    default_integrations: bool = True
    auto_enabling_integrations: bool = True
    disabled_integrations: Iterable[Any] = ()
    report_uncaught: bool = True
    auto_session_tracking: bool = False
    session_mode: str = "application"
    trace_propagation_targets: Optional[Sequence[str]] = None
    shutdown_timeout: float = 2.0
    http_proxy: Optional[str] = None
    https_proxy: Optional[str] = None
    ca_certs: Optional[str] = None
    spool_folder: Optional[str] = None
    post: Optional[Post] = None
    library: Optional[str] = None

    def __post_init__(self) -> None:
        given = os.environ.get
        self.dsn = (self.dsn if self.dsn is not None else given("SENTRY_DSN", "")).strip()
        if self.release is None:
            self.release = given("SENTRY_RELEASE") or commit() or next(filter(None, map(given, RELEASES)), None)
        if self.environment is None:
            self.environment = given("SENTRY_ENVIRONMENT") or "production"
        if self.server_name is None:
            self.server_name = socket.gethostname()
        # A single one stands for a list of it. What can be read once alone is kept, for each error.
        ignored: Any = self.ignore_errors or ()
        self.ignore_errors = (ignored,) if isinstance(ignored, (str, type)) else tuple(ignored)

    def frame_options(self) -> FrameOptions:
        modules = frozenset(self.in_app_include), frozenset(self.in_app_exclude)
        return FrameOptions(self.include_local_variables, self.include_source_context, *modules)

    def lines(self) -> str:
        """The options that the engine reads. Raises ValueError where one has more than one line."""
        lines: Dict[str, Any] = {
            "dsn": self.dsn,
            "release": self.release,
            "environment": self.environment,
            "server": self.server_name,
            "platform": "python",
            "rate": fraction(self.sample_rate),
            "traces": fraction(self.traces_sample_rate or 0.0),
            "pii": str(int(bool(self.send_default_pii))),
            "mode": self.session_mode,
            "crumbs": None if self.max_breadcrumbs is None else str(int(self.max_breadcrumbs)),
            "logs": str(int(bool(self.enable_logs))),
            "metrics": str(int(bool(self.enable_metrics))),
            "drop_events": self.drop_events,
            "drop_breadcrumbs": self.drop_breadcrumbs,
            "drop_logs": self.drop_logs,
            "drop_metrics": self.drop_metrics,
        }
        for name, value in lines.items():
            if "\n" in str(value or ""):
                raise ValueError(f"the option {name} has more than one line")
        return "".join(f"{name}={value}\n" for name, value in lines.items() if value)


def options_of(words: Dict[str, Any]) -> Options:
    """The options that these words say. Those that Sentry's SDK has and this package hasn't are told, and passed over;
    others raise TypeError."""
    words = dict(words)
    if "with_locals" in words:
        words["include_local_variables"] = words.pop("with_locals")
    for name in [*words]:
        if name in PASSED_OVER:
            tell(f"the option {name} changes nothing here")
            del words[name]
    return Options(**words)


def fraction(rate: float) -> str:
    """A rate in digits, six of them after the point."""
    return f"{max(0.0, float(rate)):.6f}"


def commit(folder: Optional[str] = None) -> Optional[str]:
    """The commit of the Git repository in which a folder lies."""
    try:
        at = os.path.abspath(folder or os.getcwd())
    except OSError:  # the folder is removed
        return None
    while True:
        found = head_of(os.path.join(at, ".git"))
        if found or os.path.dirname(at) == at:
            return found
        at = os.path.dirname(at)


def first_line(*path: str) -> str:
    try:
        with open(os.path.join(*path), encoding="utf-8", errors="replace") as file:
            return file.readline().strip()
    except OSError:
        return ""


def head_of(git: str) -> Optional[str]:
    """The commit that `.git` says, which is a folder, or a file that names one."""
    if os.path.isfile(git):
        git = os.path.join(os.path.dirname(git), first_line(git).partition("gitdir: ")[2])
    head = first_line(git, "HEAD")
    kind, _, name = head.partition("ref: ")
    if not name:
        return kind or None
    common = os.path.join(git, first_line(git, "commondir") or ".")
    return first_line(git, name) or first_line(common, name) or packed(common, name)


def packed(git: str, name: str) -> Optional[str]:
    try:
        with open(os.path.join(git, "packed-refs"), encoding="utf-8", errors="replace") as file:
            return next((line.split()[0] for line in file if line.rstrip().endswith(f" {name}")), None)
    except OSError:
        return None
