"""Messages, exceptions and other events."""
from __future__ import annotations

import contextlib
import contextvars
import sys
from typing import Any, Callable, Dict, List, Mapping, Optional, Tuple, Union

from . import client as clients
from . import native
from .client import SDK, Client, replacing
from .errors import ExcInfo, error_of, exceptions_of, is_ignored, member_of
from .hooks import captured, is_in_hook
from .native import Fault
from .notes import tell, tolerated
from .records import DEEPEST, as_text, beside, dumped, entries, event_of, level_of, plain
from .scopes import in_scope
from .stacks import frames_of, steps_to

class Mark:
    """What an exception carries that was captured: by what, and as which event."""

    def __init__(self, mechanism: str) -> None:
        self.mechanism = mechanism
        self.event_id: Optional[str] = None


# The mark of the exception that was captured last in this context.
LAST: contextvars.ContextVar[Optional[Mark]] = contextvars.ContextVar("dochirwa_error", default=None)
MARK = "__dochirwa__"
# The mechanism of what the program itself captures.
BY_HAND = "generic"
# An event whose text has more bytes has no frames in the engine.
MOST_BYTES = 1 << 20
AROUND = "pre_context", "post_context", "vars"
# Members of an event that has frames, or may have, of its own.
TRACES = "exception", "stacktrace", "threads"


def without_surroundings(frames: List[Any]) -> List[Any]:
    """The frames, each without the lines around its own, and without its variables."""
    return [{key: it for key, it in frame.items() if key not in AROUND} for frame in frames if isinstance(frame, dict)]


# What is cut of frames, until an event is short enough.
CUTS: Tuple[Callable[[List[Any]], List[Any]], ...] = (
    without_surroundings,
    lambda frames: frames[-20:],
    lambda frames: frames[-1:],
)


def mark_of(error: Optional[BaseException]) -> Optional[Mark]:
    """The mark of an exception, if it was captured last in this context."""
    mark = member_of(error, MARK)
    return mark if mark is not None and mark is LAST.get() else None


def was_captured(error: Optional[BaseException]) -> bool:
    return mark_of(error) is not None


def remember(error: BaseException, mechanism: str) -> Mark:
    mark = Mark(mechanism)
    with contextlib.suppress(Exception):  # a type without room for it
        setattr(error, MARK, mark)
    LAST.set(mark)
    return mark


def given_id(event: Any) -> Optional[native.Id]:
    """The id that an event has of its own."""
    found = event.get("event_id") if isinstance(event, Mapping) else None
    try:
        number = int(as_text(found).replace("-", ""), 16) if found else 0
    except ValueError:
        tell("the id %r of an event is none", found)
        return None
    return native.Id(number >> 64, number % 2**64) if 0 < number < 2**128 else None


def written(event: Dict[str, Any]) -> bytes:
    """The text of an event. The engine takes no frames from one that is too long: so what is around them is cut first."""
    text = dumped(event)
    if len(text) > MOST_BYTES:
        for cut in CUTS:
            for trace in [event.get("stacktrace"), *(it.get("stacktrace") for it in event.get("exception", ()))]:
                if isinstance(trace, dict) and isinstance(trace.get("frames"), list):
                    trace["frames"] = cut(trace["frames"])
            text = dumped(event)
            if len(text) <= MOST_BYTES:
                tell("an event of more than a mebibyte is sent with fewer frames, or less of them")
                break
        else:
            tell("an event of more than a mebibyte is sent without frames")
    return text


def send(
    read: Dict[str, Any],
    hint: Optional[Dict[str, Any]],
    more: Dict[str, Any] = {},
    event_id: Optional[native.Id] = None,
) -> Optional[str]:
    """Captures an event that is written as the engine reads it, with what is put beside it. Answers its id, or `None` where
    it was dropped or refused."""
    client = clients.current
    if client is None or is_in_hook(client, "an event", "error"):
        return None
    with tolerated("an event"):
        try:
            return send_by(client, read, hint or {}, more, native.fresh(event_id))
        except Fault as fault:
            if replacing(client, fault):
                return send(read, hint, more, event_id)
            raise
    return None


def send_by(
    client: Client, read: Dict[str, Any], hint: Dict[str, Any], more: Dict[str, Any], fresh: native.Fresh
) -> Optional[str]:
    """The same by one client, which may have been closed meanwhile."""
    hub = client.hub_with_span()
    read = {"platform": "python", "sdk": SDK, **read}
    if hub.request is not None:
        read.setdefault("request", hub.request)
    if hub.span is not None and hub.span.containing_transaction.name:
        read.setdefault("transaction", hub.span.containing_transaction.name)
    if client.options.attach_stacktrace and not any(it in read or it in more for it in TRACES):
        read["stacktrace"] = plain(frames_of(steps_to(sys._getframe()), client.frame_options), DEEPEST)
    text = written(read)
    call = lambda: client.engine.number("capture_event", hub.number, text, fresh, type=native.Id)
    try:
        sent, is_dropped = captured(client, lambda: client.record(call), hub, hint, fresh.id, more)
    except Fault as fault:
        if fault.number != native.CLOSED:
            client.refuse("error")
        raise
    client.sender.wake()
    return str(sent) if (sent.high or sent.low) and not is_dropped else None


def capture_event(
    event: Any, hint: Optional[Dict[str, Any]] = None, scope: Optional[Any] = None, **parts: Any
) -> Optional[str]:
    """Sends an event, a dictionary as Sentry writes it. Answers its id, or `None` where it was dropped. What the engine
    doesn't read of it is put into what is sent as it is. `tags`, `extras`, `contexts`, `user`, `level` and `fingerprint`
    stand over those of the scope."""
    read = entries(event, "an event") if isinstance(event, Mapping) else event
    return in_scope(scope, parts, lambda: send(event_of(read), hint, beside(read), given_id(read)))


def capture_message(message: Any, level: str = "info", scope: Optional[Any] = None, **parts: Any) -> Optional[str]:
    """Sends a message of a level (`debug`, `info`, `warning`, `error` or `fatal`). Answers its id, or `None`."""
    client = clients.current
    if client is None:
        return None
    event: Dict[str, Any] = {"level": level_of(level, "info"), "message": as_text(message)}
    return in_scope(scope, parts, lambda: send(event, None))


def capture_exception(
    error: Union[BaseException, ExcInfo, None] = None,
    level: str = "error",
    handled: bool = True,
    mechanism: str = BY_HAND,
    scope: Optional[Any] = None,
    hint: Optional[Dict[str, Any]] = None,
    **parts: Any,
) -> Optional[str]:
    """Sends an exception, also as `sys.exc_info()` has it, or the one that is being handled, with its causes. Answers the
    id of its event, or `None`. What an integration and the program capture one after the other is sent once."""
    client = clients.current
    found = error_of(error, sys.exc_info())
    if client is None or found is None:
        return None
    if not isinstance(found, BaseException):
        tell("an exception to capture is a %s: its text is sent", type(found).__name__)
        return capture_message(found, level, scope, **parts)
    mark = mark_of(found)
    if mark is not None and (mechanism, mark.mechanism) != (BY_HAND, BY_HAND):
        return mark.event_id  # an integration and the program, or two integrations, met it on its way out
    mark = remember(found, mechanism)
    if is_ignored(found, client.options.ignore_errors):
        client.drop("error")
        return None
    errors = exceptions_of(found, handled, mechanism, client.frame_options)
    event: Dict[str, Any] = {"level": level_of(level), "exception": errors}
    more = {"exc_info": (type(found), found, found.__traceback__), **(hint or {})}
    # Modules of types, and of a group of which other one each exception is a part.
    extra = beside(event)
    mark.event_id = in_scope(scope, parts, lambda: send(event, more, extra))
    return mark.event_id


def last_event_id() -> Optional[str]:
    client = clients.current
    if client is not None:
        with tolerated("the last id"):
            found = client.engine.number("last_event_id", client.hub_with_span().number, type=native.Id)
            return str(found) if found.high or found.low else None
    return None
