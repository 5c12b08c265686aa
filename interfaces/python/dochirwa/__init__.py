"""Reports errors, logs, metrics, sessions and traces to Sentry, by the proved engine of Dochirwa.

    import dochirwa

    dochirwa.init(dsn="https://key@host/1", release="shop@1.0.0", traces_sample_rate=1.0)
    with dochirwa.start_transaction("checkout", "task") as transaction:
        with transaction.start_child("db.query", "take a lamp"):
            dochirwa.capture_message("a lamp was sold")

Each thread, each task of asyncio and each request has a scope of its own, which begins as a copy of the one that it began
under: a thread's as that of the main one. A thread of the package posts what waits.
"""
from . import envelopes, native, transport
from .capture import capture_event, capture_exception, capture_message, last_event_id
from .client import close, flush, init, is_initialized
from .hooks import add_global_event_processor
from .integrations.asgi import AsgiMiddleware
from .integrations.flask import FlaskIntegration
from .integrations.logging import LoggingHandler, LoggingIntegration, ignore_logger
from .integrations.wsgi import WsgiMiddleware
from .measures import count, distribution, end_session, gauge, log, start_session
from .native import Fault
from .options import Options
from .records import LEVELS, LOG_LEVELS, METRIC_KINDS, SESSION_STATUSES
from .scopes import (
    Scope,
    add_attachment,
    add_breadcrumb,
    configure_scope,
    get_current_scope,
    get_isolation_scope,
    isolation_scope,
    new_scope,
    push_scope,
    set_context,
    set_extra,
    set_fingerprint,
    set_level,
    set_tag,
    set_tags,
    set_transaction_name,
    set_user,
)
from .tracing import (
    Span,
    Transaction,
    continue_trace,
    current_span,
    get_baggage,
    get_current_span,
    get_traceparent,
    start_span,
    start_transaction,
    trace,
)

__version__ = "0.2.0"
__all__ = (
    "init close flush is_initialized capture_message capture_exception capture_event last_event_id add_breadcrumb set_tag "
    "set_tags set_extra set_context set_user set_level set_fingerprint set_transaction_name add_attachment push_scope "
    "new_scope isolation_scope configure_scope get_current_scope get_isolation_scope add_global_event_processor log count "
    "gauge distribution start_session end_session start_transaction start_span continue_trace current_span get_current_span "
    "get_traceparent get_baggage trace LoggingHandler LoggingIntegration ignore_logger FlaskIntegration WsgiMiddleware "
    "AsgiMiddleware Options Scope Span Transaction Fault"
).split()
