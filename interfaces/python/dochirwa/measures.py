"""Logs, metrics and sessions."""
from __future__ import annotations

import time
from typing import Any, Dict, Optional, Tuple

from . import client as clients
from . import native
from .client import SDK, Client, replacing
from .hooks import is_in_hook, run_hook
from .native import Fault
from .notes import tell, tolerated
from .records import LOG_LEVELS, METRIC_KINDS, SESSION_STATUSES, as_json, as_text, entries, log_level_of

# What logs and metrics say of who made them, if the program doesn't.
SPEAKER = {"sentry.sdk.name": SDK["name"], "sentry.sdk.version": SDK["version"]}
# Units by what a smaller one is, and how many of it.
SMALLER = {
    "week": ("day", 7),
    "day": ("hour", 24),
    "hour": ("minute", 60),
    "minute": ("second", 60),
    "second": ("millisecond", 1000),
    "millisecond": ("microsecond", 1000),
    "microsecond": ("nanosecond", 1000),
    "megabyte": ("kilobyte", 1000),
    "kilobyte": ("byte", 1000),
    "byte": ("bit", 8),
    "ratio": ("percent", 100),
}


def call_hub(client: Client, category: Optional[str], name: str, *arguments: Any) -> None:
    """Makes a call on the hub of this context. A record that is refused counts as lost."""
    with tolerated(name.replace("_", " ")):
        try:
            hub = client.hub_with_span()
            client.record(lambda: client.engine.call(name, hub.number, *arguments))
        except Fault as fault:
            if category is not None and fault.number != native.CLOSED:
                client.refuse(category)
            later = replacing(client, fault)
            if later is not None:
                return call_hub(later, category, name, *arguments)
            raise
        client.sender.wake()


def log(level: str, body: Any, **attributes: Any) -> None:
    """Sends a log of a level (`trace`, `debug`, `info`, `warn`, `error` or `fatal`)."""
    client = clients.current
    if client is None or not client.options.enable_logs:
        return
    named, text = log_level_of(level), as_text(body)
    hook = client.options.before_send_log
    if hook is not None:
        if is_in_hook(client, "a log", "log_item"):
            return
        record = {"severity_text": named, "body": text, "attributes": attributes, "time_unix_nano": time.time_ns()}
        found = run_hook(hook, record, {})
        if found is None:
            return client.drop("log_item")
        named, text = log_level_of(found.get("severity_text", named)), as_text(found.get("body", text))
        attributes = entries(found.get("attributes") or {}, "attributes of a log")
    attributes = {**SPEAKER, **attributes}
    call_hub(client, "log_item", "capture_log", LOG_LEVELS.index(named), text, as_json(attributes), time.time_ns())


def whole(value: Any) -> Optional[int]:
    """The whole number of 64 bits that is next to a value, or `None`."""
    try:
        number = int(round(value))
    except Exception:
        return None
    return number if -(2**63) <= number < 2**63 else None


def exact(value: Any, unit: str) -> Optional[Tuple[int, str]]:
    """A value as a whole number: a fraction in the first smaller unit where it is whole, or else rounded in the smallest
    one, which is told. None if it is no number of 64 bits."""
    number, name, scaled = whole(value), unit, value
    if number is None or number == value or not isinstance(value, float):
        return None if number is None else (number, unit)
    while name in SMALLER:
        smaller, many = SMALLER[name]
        found = whole(scaled * many)
        if found is None:
            break
        name, scaled, number = smaller, scaled * many, found
        # Fractions such as 0.1 are only near to their decimal digits.
        if abs(number - scaled) <= 1e-12 * abs(scaled):
            return number, name
    tell(f"fractions of a metric of the unit {unit or 'none'!r} were rounded to whole numbers of {name or 'it'}")
    return number, name


def metric(kind: str, name: str, value: Any, unit: Optional[str], attributes: Dict[str, Any]) -> None:
    client = clients.current
    if client is None or not client.options.enable_metrics:
        return
    hook = client.options.before_send_metric
    if hook is not None:
        if is_in_hook(client, "a metric", "metric"):
            return
        found = run_hook(hook, {"type": kind, "name": name, "value": value, "unit": unit, "attributes": attributes}, {})
        if found is None:
            return client.drop("metric")
        name, value, unit = found.get("name", name), found.get("value", value), found.get("unit", unit)
        attributes = entries(found.get("attributes") or {}, "attributes of a metric")
    read = exact(value, as_text(unit or ""))
    if read is None:
        client.refuse("metric")
        return tell("the metric %s is left out: its value is %r", name, value)
    number, unit = read
    attributes = {**SPEAKER, **attributes}
    arguments = METRIC_KINDS.index(kind), as_text(name), number, unit, as_json(attributes), time.time_ns()
    call_hub(client, "metric", "capture_metric", *arguments)


def count(name: str, value: float = 1, unit: Optional[str] = None, **attributes: Any) -> None:
    """Adds to a counter. Metrics have whole numbers of 64 bits: a fraction is sent in a smaller unit where it is whole
    there, such as 0.25 seconds as 250 milliseconds, and else rounded, which is told."""
    metric("counter", name, value, unit, attributes)


def gauge(name: str, value: float, unit: Optional[str] = None, **attributes: Any) -> None:
    metric("gauge", name, value, unit, attributes)


def distribution(name: str, value: float, unit: Optional[str] = None, **attributes: Any) -> None:
    metric("distribution", name, value, unit, attributes)


def start_session(session_mode: Optional[str] = None) -> None:
    client = clients.current
    if client is not None:
        call_hub(client, None, "start_session", native.fresh())


def end_session(status: str = "exited") -> None:
    """Ends the session with a status (`ok`, `exited`, `crashed` or `abnormal`). Raises ValueError for another one."""
    if status not in SESSION_STATUSES:
        raise ValueError(f"{status!r} is none of {', '.join(SESSION_STATUSES)}")
    client = clients.current
    if client is not None:
        call_hub(client, None, "end_session", SESSION_STATUSES.index(status), time.time_ns())
