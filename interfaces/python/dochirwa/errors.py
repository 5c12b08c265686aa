"""Exceptions as Sentry writes them: with their causes, the exceptions of groups, notes and frames."""
from __future__ import annotations

from typing import Any, Dict, Iterable, List, NamedTuple, Optional, Set, Tuple, Type, Union

from .records import as_text
from .stacks import FrameOptions, stacktrace_of

# At most so many exceptions are sent in an event.
MOST_LINKS = 50

ExcInfo = Tuple[Optional[Type[BaseException]], Optional[BaseException], Any]
Ignored = Iterable[Union[str, Type[BaseException]]]


class Link(NamedTuple):
    """An exception of an event, and that of which it is a part: its number, and what it is there."""

    error: BaseException
    parent: Optional[int]
    source: str


def cause_of(error: BaseException) -> Tuple[Optional[BaseException], str]:
    if error.__cause__ is not None:
        return error.__cause__, "__cause__"
    return (None if error.__suppress_context__ else error.__context__), "__context__"


def member_of(error: Optional[BaseException], name: str) -> Any:
    """A member of an exception, or none, also where its type finds members in a way of its own that fails."""
    try:
        return getattr(error, name, None)
    except Exception:
        return None


def parts_of(error: BaseException) -> Tuple[BaseException, ...]:
    """The exceptions of a group."""
    parts = member_of(error, "exceptions")
    return tuple(it for it in parts if isinstance(it, BaseException)) if isinstance(parts, (tuple, list)) else ()


def links(error: BaseException) -> List[Link]:
    """The error, its causes, and the exceptions of groups among these, each with the causes of its own. The error itself
    is the first one; each stands behind that which it is a part of."""
    found: List[Link] = []
    seen: Set[int] = set()
    waiting = [Link(error, None, "")]
    while waiting and len(found) < MOST_LINKS:
        link = waiting.pop(0)
        if id(link.error) in seen:
            continue
        seen.add(id(link.error))
        number = len(found)
        found.append(link)
        parts = [Link(it, number, f"exceptions[{at}]") for at, it in enumerate(parts_of(link.error))]
        cause, source = cause_of(link.error)
        waiting += parts + ([Link(cause, number, source)] if cause is not None else [])
    return found


def kind_of(error: BaseException) -> Dict[str, Any]:
    """The name of an exception's type, and of the module, where that is one of its own."""
    kind = type(error)
    named = {"type": kind.__qualname__}
    return named if kind.__module__ in ("builtins", "__main__") else {**named, "module": kind.__module__}


def value_of(error: BaseException) -> str:
    """The text of an exception, and its notes."""
    notes = member_of(error, "__notes__")
    return "\n".join([as_text(error), *map(as_text, notes if isinstance(notes, list) else [])])


def exceptions_of(error: BaseException, handled: bool, mechanism: str, options: FrameOptions) -> List[Dict[str, Any]]:
    """The member `exception` of an event: the error last, and before it what led to it."""
    chain = links(error)
    has_groups = any(parts_of(it.error) for it in chain)
    found: List[Dict[str, Any]] = []
    for number, link in enumerate(chain):
        how: Dict[str, Any] = {"type": mechanism, "handled": handled}
        if has_groups:
            how["exception_id"] = number
            if parts_of(link.error):
                how["is_exception_group"] = True
            if link.parent is not None:
                how = {**how, "parent_id": link.parent, "source": link.source, "type": "chained"}
        value: Dict[str, Any] = {**kind_of(link.error), "value": value_of(link.error), "mechanism": how}
        trace = stacktrace_of(link.error.__traceback__, options)
        found.append({**value, "stacktrace": trace} if trace else value)
    return found[::-1]


def error_of(error: Union[BaseException, ExcInfo, None], current: ExcInfo) -> Optional[BaseException]:
    """The exception itself, that of a tuple as `sys.exc_info()` gives it, or else the one that is being handled."""
    if isinstance(error, tuple):
        return error[1]
    return current[1] if error is None else error


def is_ignored(error: BaseException, ignored: Ignored) -> bool:
    """Whether an exception is of one of these types, or a type has this name, with or without its module."""
    for it in ignored:
        if isinstance(it, str):
            kinds = type(error).__mro__
            if any(it in (kind.__name__, f"{kind.__module__}.{kind.__qualname__}") for kind in kinds):
                return True
        elif isinstance(it, type) and isinstance(error, it):
            return True
    return False
