"""Values of the program as the engine reads them: what can be read is kept, and what can't is told."""
from __future__ import annotations

import json
import logging
import math
from typing import Any, Dict, Iterable, List, Mapping, Optional, Sequence, Tuple

from .notes import tell

LEVELS = ("debug", "info", "warning", "error", "fatal")
LOG_LEVELS = ("trace", "debug", "info", "warn", "error", "fatal")
METRIC_KINDS = ("counter", "gauge", "distribution")
SESSION_STATUSES = ("ok", "exited", "crashed", "abnormal")
# What other programs call levels.
OTHER_LEVELS = {"trace": "debug", "notset": "debug", "warn": "warning", "critical": "fatal", "log": "info"}
USER_TEXTS = ("id", "email", "username", "ip_address")
ENCODER = json.JSONEncoder(ensure_ascii=False)
# The members of an event that the engine reads.
TEXTS = ("message", "transaction", "server_name", "release", "environment", "platform")
# Types whose values never fail as they are read. What is raised there is raised by a signal handler, and the program's.
SAFE = frozenset((type(None), bool, int, float, str, list, tuple, set, frozenset, dict))
# How deep frames are.
DEEPEST = 12
READ = {*TEXTS, *"level fingerprint user request contexts breadcrumbs exception stacktrace tags extra sdk".split()}


def plain(value: Any, depth: int = 8, with_fractions: bool = False) -> Any:
    """A value as the engine takes it: numbers are whole and have 64 bits, and what is no JSON is a text. So is what fails as
    it is read. What the engine doesn't see may have fractions, too."""
    if type(value) in SAFE:
        found = opened(value, with_fractions)
    else:
        try:
            found = opened(value, with_fractions)
        except Exception:
            return as_text(value)
    if depth > 0 and type(found) is dict:
        return {as_text(key): plain(it, depth - 1, with_fractions) for key, it in found.items()}
    if depth > 0 and type(found) is list:
        return [plain(it, depth - 1, with_fractions) for it in found]
    return as_text(value) if type(found) in (dict, list) else found


def opened(value: Any, with_fractions: bool) -> Any:
    """The same of one value alone: a dictionary or a list is copied, since another thread may change it."""
    if value is None or isinstance(value, (bool, str)):
        return value
    if isinstance(value, float) and with_fractions and math.isfinite(value):
        return value
    if isinstance(value, float) and value.is_integer():
        value = int(value)
    if isinstance(value, int) and -(2**63) <= value < 2**64:
        return value
    if isinstance(value, dict):
        return dict([*value.items()])
    if isinstance(value, (list, tuple, set, frozenset)):
        return [*value]
    return as_text(value)


def as_text(value: Any) -> str:
    """A value as a text. Bytes are read as UTF-8."""
    try:
        return value.decode("utf-8", "replace") if isinstance(value, bytes) else str(value)
    except Exception:
        return object.__repr__(value)


def as_bytes(value: Any) -> bytes:
    """A value as bytes: those of its text, where it has none of its own."""
    if isinstance(value, (bytes, bytearray, memoryview)):
        return bytes(value)
    return as_text(value).encode("utf-8", "replace")


def dumped(value: Any) -> bytes:
    # Half of a pair of surrogates is no text.
    return ENCODER.encode(value).encode("utf-8", "replace")


def as_json(value: Any) -> bytes:
    return dumped(plain(value))


def entries(value: Any, what: str) -> Dict[str, Any]:
    """The entries of a dictionary, or of a list of pairs."""
    try:
        pairs = pairs_of(value)
    except Exception as why:
        tell(f"{what} is left out: it can't be read: %r", why)
        return {}
    if pairs is None:
        tell(f"{what} is left out: it is a %s, and no dictionary", type(value).__name__)
    return {as_text(key): it for key, it in pairs or ()}


def pairs_of(value: Any) -> Optional[List[Any]]:
    """Those of a dictionary, copied since another thread may change it, or of a list of them; none of anything else."""
    if isinstance(value, Mapping):
        return [*value.items()]
    is_list = isinstance(value, (list, tuple)) and all(isinstance(it, (list, tuple)) and len(it) == 2 for it in value)
    return [(key, it) for key, it in value] if is_list else None


def texts(value: Any, what: str = "a dictionary") -> Dict[str, str]:
    """The entries of a dictionary as texts, without those that are `None`."""
    return {key: as_text(it) for key, it in entries(value, what).items() if it is not None}


def list_of(value: Any) -> List[str]:
    """The elements of a list as texts; of anything else, that alone."""
    return [as_text(it) for it in (value if isinstance(value, (list, tuple)) else [value])]


def values_of(value: Any, what: str) -> List[Any]:
    """The elements of a list, also of one as `{"values": [..]}`."""
    if isinstance(value, Mapping):
        value = value.get("values")
    if value is None:
        return []
    if isinstance(value, (list, tuple)):
        return list(value)
    tell(f"{what} is left out: it is a %s, and no list", type(value).__name__)
    return []


def named(names: Sequence[str], value: Any, otherwise: str) -> str:
    """One of the names: this one, in any case, or another word for it, or the number of a level of `logging`."""
    if isinstance(value, str) and value in names:
        return value
    if isinstance(value, int) and not isinstance(value, bool):
        value = logging.getLevelName(min(value // 10 * 10, 50)) if value >= 10 else "debug"
    name = value.lower() if isinstance(value, str) else None
    for it in (name, OTHER_LEVELS.get(name or ""), "warn" if name == "warning" else None):
        if it in names:
            return it or otherwise
    tell("the level %r is none of %s: " + otherwise + " is sent in its place", value, ", ".join(names))
    return otherwise


def level_of(value: Any, otherwise: str = "error") -> str:
    return named(LEVELS, value, otherwise)


def log_level_of(value: Any) -> str:
    return named(LOG_LEVELS, value, "info")


def user_of(user: Any) -> Dict[str, Any]:
    """A user, with texts where the engine takes nothing else, and what it has no member for in `data`. Raises TypeError
    for what is no dictionary."""
    if not isinstance(user, Mapping):
        raise TypeError(f"a user is a dictionary, and no {type(user).__name__}")
    user = entries(user, "a user")
    found: Dict[str, Any] = {key: None if user.get(key) is None else as_text(user[key]) for key in USER_TEXTS if key in user}
    data = user.get("data")
    more = entries(data, "data of a user") if isinstance(data, Mapping) else {} if data is None else {"data": data}
    more.update((key, it) for key, it in user.items() if key not in (*USER_TEXTS, "data"))
    for key in USER_TEXTS:
        if key in more:  # they stand beside one another in what is sent
            more[f"data.{key}"] = more.pop(key)
    return {**found, "data": plain(more)} if more else found


def context_of(key: str, value: Any) -> Dict[str, Any]:
    """A context, an object. Its own member `type` is said by the engine."""
    read = plain(value)
    found: Dict[str, Any] = read if isinstance(read, dict) else {"value": read}
    kind = found.pop("type", None)
    return found if kind in (None, key, "unknown") else {**found, "kind": kind}


def request_of(request: Any) -> Dict[str, Any]:
    """A request, with texts where the engine takes nothing else."""
    found: Dict[str, Any] = {}
    for key, it in entries(request, "the request of an event").items():
        if it is None:
            continue
        if key in ("headers", "env"):
            found[key] = texts(it, f"{key} of a request")
        elif key in ("data", "cookies", "query_string") and not isinstance(it, (str, bytes)):
            found[key] = dumped(plain(it)).decode()
        else:
            found[key] = as_text(it)
    return found


def crumb_of(crumb: Any) -> Dict[str, Any]:
    """A breadcrumb, as the engine reads it."""
    read = entries(crumb, "a breadcrumb")
    found: Dict[str, Any] = {key: as_text(read[key]) for key in ("message", "category", "type") if read.get(key) is not None}
    if not isinstance(crumb, Mapping):
        return found
    if read.get("level") is not None:
        found["level"] = level_of(read["level"], "info")
    data = plain(read.get("data"))
    return found if data is None else {**found, "data": data if isinstance(data, dict) else {"value": data}}


def exception_of(value: Any) -> Dict[str, Any]:
    """An exception of an event, as the engine reads it."""
    found = entries(value, "an exception of an event")
    read: Dict[str, Any] = {"type": as_text(found.get("type") or "Error")}
    if found.get("value") is not None:
        read["value"] = as_text(found["value"])
    mechanism = found.get("mechanism")
    if isinstance(mechanism, Mapping):
        read["mechanism"] = {"type": as_text(mechanism.get("type") or "generic")}
        if mechanism.get("handled") is not None:
            read["mechanism"]["handled"] = bool(mechanism["handled"])
    if isinstance(found.get("stacktrace"), Mapping):
        read["stacktrace"] = plain(found["stacktrace"], DEEPEST)
    return read


def message_of(event: Mapping[str, Any]) -> Optional[str]:
    """The message of an event, also as `logentry` has it."""
    entry = event.get("message") if event.get("message") is not None else event.get("logentry")
    if not isinstance(entry, Mapping):
        return None if entry is None else as_text(entry)
    if entry.get("formatted") is not None:
        return as_text(entry["formatted"])
    text, params = as_text(entry.get("message", "")), entry.get("params")
    try:
        return text % (params if isinstance(params, dict) else tuple(params)) if params else text
    except Exception:  # also of a parameter
        return text


def read_members(event: Mapping[str, Any]) -> Iterable[Tuple[str, Any]]:
    """The members of an event that the engine reads, as it reads them, but for those that are `None`."""
    for key, it in event.items():
        if key not in READ or it is None or key == "message":
            continue
        if key in TEXTS:
            yield key, as_text(it)
        elif key == "level":
            yield key, level_of(it)
        elif key == "tags":
            yield key, texts(it, "tags of an event")
        elif key == "extra":
            yield key, plain(entries(it, "extra of an event"))
        elif key == "contexts":
            found = entries(it, "contexts of an event")
            yield key, {name: context_of(name, one) for name, one in found.items() if one is not None}
        elif key == "request":
            yield key, request_of(it)
        elif key == "fingerprint":
            yield key, list_of(it)
        elif key == "breadcrumbs":
            yield key, [crumb_of(one) for one in values_of(it, "breadcrumbs of an event")]
        elif key == "exception":
            yield key, [exception_of(one) for one in values_of(it, "exception of an event")]
        elif key == "stacktrace" and isinstance(it, Mapping) and event.get("exception") is None:
            yield key, plain(it, DEEPEST)
        elif key == "sdk":
            yield key, {name: text for name, text in texts(it, "sdk of an event").items() if name in ("name", "version")}


def event_of(event: Any) -> Dict[str, Any]:
    """An event as the engine reads it."""
    if not isinstance(event, Mapping):
        tell("an event is a dictionary, and no %s: its text is sent", type(event).__name__)
        return {"message": as_text(event)}
    found = dict(read_members(event))
    message = message_of(event)
    if message is not None:
        found["message"] = message
    if event.get("user") is not None:
        try:
            found["user"] = user_of(event["user"])
        except TypeError as why:
            found.pop("user", None)
            tell("the user of an event is left out: %s", why)
    return found


def beside(event: Any) -> Dict[str, Any]:
    """What the engine doesn't read of an event, and is put into what is sent after it: members, and of each exception
    those members."""
    if not isinstance(event, Mapping):
        return {}
    has_errors = event.get("exception") is not None
    read = READ - {"stacktrace"} if has_errors else READ
    more = {key: it for key, it in event.items() if key not in read and key != "event_id" and it is not None}
    values = event.get("exception")
    parts = [beside_exception(it) for it in (values_of(values, "exception of an event") if values is not None else [])]
    found: Dict[str, Any] = plain({**more, "exception": {"values": parts}} if any(parts) else more, DEEPEST, True)
    return found


def beside_exception(value: Any) -> Dict[str, Any]:
    if not isinstance(value, Mapping):
        return {}
    read = "type", "value", "mechanism", "stacktrace"
    more = {key: it for key, it in value.items() if key not in read and it is not None}
    mechanism = value.get("mechanism")
    members = mechanism if isinstance(mechanism, Mapping) else {}
    parts = {key: it for key, it in members.items() if key not in ("type", "handled")}
    return {**more, "mechanism": parts} if parts else more


def put_beside(sent: Any, more: Any) -> None:
    """Adds the members that an object lacks, also in the objects and lists within."""
    if isinstance(sent, dict) and isinstance(more, Mapping):
        for key, it in more.items():
            if key in sent and isinstance(it, (dict, list)):
                put_beside(sent[key], it)
            else:
                sent.setdefault(key, it)
    elif isinstance(sent, list) and isinstance(more, list) and len(sent) == len(more):
        for one, other in zip(sent, more):
            put_beside(one, other)
