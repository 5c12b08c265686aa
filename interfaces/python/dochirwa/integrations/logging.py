"""Log records of the standard library as breadcrumbs, events and logs."""
from __future__ import annotations

import logging
import threading
import weakref
from typing import Any, Dict, List, Mapping, Optional

from .. import client as clients
from ..capture import capture_event, remember, was_captured
from ..client import Client
from ..errors import exceptions_of
from ..measures import log
from ..notes import tell
from ..records import LEVELS, LOG_LEVELS, as_text, entries, list_of
from ..scopes import add_breadcrumb
from ..transport import POSTING
from . import Integration

# Whose records are never reported: those of the package.
OWN = "dochirwa"
# The members that each record has.
USUAL = {*vars(logging.makeLogRecord({})), "message", "asctime", "taskName"}
IGNORED: List[str] = []
# The client that has reported a record. Not a member of the record, all of which other handlers may write.
SEEN: weakref.WeakKeyDictionary[logging.LogRecord, Client] = weakref.WeakKeyDictionary()


def ignore_logger(name: str) -> None:
    """Leaves the records of the logger of this name, and of those below it, out."""
    IGNORED.append(name)


def is_ignored(name: Any) -> bool:
    text = as_text(name)
    return text.partition(".")[0] == OWN or any(text == it or text.startswith(it + ".") for it in IGNORED)


def text_of(record: logging.LogRecord) -> str:
    try:
        return record.getMessage()
    except Exception:
        return as_text(record.msg)


def level_number(record: logging.LogRecord) -> int:
    """The place of the record's level among the engine's."""
    return min(max(int(record.levelno) // 10 - 1, 0), 4)


def params_of(record: logging.LogRecord) -> List[str]:
    args: Any = record.args
    return list_of([*entries(args, "arguments of a log record").values()] if isinstance(args, Mapping) else args)


def event_of_record(record: logging.LogRecord, text: str) -> Dict[str, Any]:
    """An event. Sentry groups it by its message as that was before its arguments came in."""
    event: Dict[str, Any] = {"level": LEVELS[level_number(record)], "message": text, "logger": record.name}
    extra = {key: it for key, it in vars(record).items() if key not in USUAL and not key.startswith("_")}
    if isinstance(record.msg, str) and record.args:
        event["logentry"] = {"message": record.msg, "formatted": text, "params": params_of(record)}
    return {**event, "extra": extra} if extra else event


def error_of(record: logging.LogRecord) -> Optional[BaseException]:
    found: Any = record.exc_info
    error = found[1] if isinstance(found, tuple) and len(found) == 3 else None
    return error if isinstance(error, BaseException) else None


def report(record: logging.LogRecord, level: Optional[int], event_level: Optional[int], logs_level: Optional[int]) -> None:
    """Sends a record: from these levels on, as a breadcrumb, an event and a log. What can't be read of a record, as of one
    that the program made itself, is told, and never an error of the program that logs."""
    try:
        report_read(record, level, event_level, logs_level)
    except Exception as why:
        tell("a log record is left out: %r", why)


def report_read(record: logging.LogRecord, level: Optional[int], event_level: Optional[int], logs_level: Optional[int]) -> None:
    client = clients.current
    if client is None or is_ignored(record.name) or SEEN.get(record) is client:
        return
    if threading.get_ident() in POSTING:  # a post would make another one
        return
    SEEN[record] = client
    text = text_of(record)
    error = error_of(record)
    if event_level is not None and record.levelno >= event_level and not was_captured(error):
        event = event_of_record(record, text)
        hint: Dict[str, Any] = {"log_record": record}
        if error is not None:
            event["exception"] = exceptions_of(error, True, "logging", client.frame_options)
            hint["exc_info"] = record.exc_info
        capture_event(event, hint)
        if error is not None:
            remember(error, "logging")
    if level is not None and record.levelno >= level:
        add_breadcrumb(text, record.name, LEVELS[level_number(record)], hint={"log_record": record})
    if logs_level is not None and record.levelno >= logs_level:
        log(LOG_LEVELS[level_number(record) + 1], text, logger=record.name)


class LoggingHandler(logging.Handler):
    """Sends log records from `level` on as logs, keeps them as breadcrumbs, and sends those from `event_level` on as
    events, with their exceptions."""

    def __init__(self, level: int = logging.INFO, event_level: Optional[int] = logging.ERROR) -> None:
        super().__init__(level)
        self.event_level = event_level

    def emit(self, record: logging.LogRecord) -> None:
        report(record, self.level, self.event_level, self.level)


class LoggingIntegration(Integration):
    """Keeps the records of all loggers as breadcrumbs from `level` on, and sends them as events from `event_level` on, and
    as logs from `sentry_logs_level` on. `None` is never."""

    identifier = "logging"

    def __init__(
        self,
        level: Optional[int] = logging.INFO,
        event_level: Optional[int] = logging.ERROR,
        sentry_logs_level: Optional[int] = None,
    ) -> None:
        self.level, self.event_level, self.logs_level = level, event_level, sentry_logs_level

    @staticmethod
    def setup_once() -> None:
        kind: Any = logging.Logger
        before = kind.callHandlers

        def call_handlers(self: logging.Logger, record: logging.LogRecord) -> None:
            before(self, record)
            client = clients.current
            found = client.integration("logging") if client is not None else None
            if found is not None:
                report(record, found.level, found.event_level, found.logs_level)

        kind.callHandlers = call_handlers


integration = LoggingIntegration
