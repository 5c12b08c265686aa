"""Scopes: what is sent along with each event of the thread, the task or the block that set it."""
from __future__ import annotations

import contextlib
import time
from types import TracebackType
from typing import Any, Callable, Dict, Iterator, Mapping, Optional, Sequence, Type

from . import client as clients
from . import native
from .hooks import is_in_hook, run_hook
from .hubs import HUB, Hub, Processor, hub_of, hub_to_edit
from .notes import tell, tolerated
from .records import as_bytes, as_json, as_text, context_of, crumb_of, dumped, entries, level_of, list_of, request_of, user_of


class Scope:
    """The scope of a block of `push_scope`, or, without one, the innermost scope of the thread or the task."""

    def __init__(self, block: Optional[object] = None) -> None:
        self.block = block

    def hub(self) -> Optional[Hub]:
        """The hub to edit, where reporting has begun, and the block runs."""
        client = clients.current
        if client is None:
            return None
        hub = hub_to_edit(client)
        blocks = [it for it, _ in hub.pushed]
        if self.block is None or blocks[-1:] == [self.block]:
            return hub
        if self.block in blocks:
            return hub.pushed[blocks.index(self.block) + 1][1]
        tell("a scope is used outside of its block")
        return None

    def edit(self, name: str, *arguments: Any, what: str = "an edit of the scope") -> None:
        with tolerated(what):
            hub = self.hub()
            if hub is not None:
                hub.client.engine.call(name, hub.number, *arguments, time.time_ns())

    def edit_by(self, what: str, edits: Dict[str, Any]) -> None:
        self.edit("edit_scope", dumped(edits), what=what)

    def set_tag(self, key: str, value: Any) -> None:
        """Sets a tag, or removes it where the value is `None`."""
        if value is None:
            self.edit_by("a tag", {"tags": {as_text(key): None}})
        else:
            self.edit("set_tag", as_text(key), as_text(value), what="a tag")

    def set_tags(self, tags: Mapping[str, Any]) -> None:
        """Sets the tags of a dictionary, and removes those whose value is `None`."""
        found = entries(tags, "a dictionary of tags")
        self.edit_by("tags", {"tags": {key: None if it is None else as_text(it) for key, it in found.items()}})

    def remove_tag(self, key: str) -> None:
        self.set_tag(key, None)

    def set_extra(self, key: str, value: Any) -> None:
        """Sets a value that is sent as `extra`, or removes it where it is `None`."""
        self.edit("edit_scope", as_json({"extra": {key: value}}), what="extra data")

    def set_extras(self, extras: Mapping[str, Any]) -> None:
        for key, it in entries(extras, "a dictionary of extra data").items():
            self.set_extra(key, it)

    def remove_extra(self, key: str) -> None:
        self.set_extra(key, None)

    def set_context(self, key: str, value: Any) -> None:
        """Sets a context, a dictionary, or removes it where it is `None`."""
        name = as_text(key)
        self.edit_by("a context", {"contexts": {name: None if value is None else context_of(name, value)}})

    def set_contexts(self, contexts: Mapping[str, Any]) -> None:
        for key, it in entries(contexts, "a dictionary of contexts").items():
            self.set_context(key, it)

    def remove_context(self, key: str) -> None:
        self.set_context(key, None)

    def set_user(self, user: Optional[Mapping[str, Any]]) -> None:
        """Sets the user: a dictionary with id, email, username, ip_address and any others, or `None`. One that can't be
        read is told, and the user stays."""
        try:
            found = None if user is None else user_of(user)
        except TypeError as why:
            tell("the user stays as it was: %s", why)
            return
        self.edit_by("a user", {"user": found})

    def set_level(self, level: Optional[str]) -> None:
        """Sets the level of the scope's events, or `None`."""
        self.edit_by("a level", {"level": None if level is None else level_of(level)})

    def set_fingerprint(self, fingerprint: Optional[Sequence[Any]]) -> None:
        """Sets what Sentry groups the scope's events by, or `None`."""
        self.edit_by("a fingerprint", {"fingerprint": None if fingerprint is None else list_of(fingerprint)})

    def set_transaction_name(self, name: Optional[str], source: Optional[str] = None) -> None:
        """Sets the name of the transaction to which the scope's events belong, and that of the one that runs."""
        from .tracing import current_span

        self.edit_by("a transaction's name", {"transaction": None if name is None else as_text(name)})
        span = current_span()
        if span is not None and name is not None:
            span.containing_transaction.set_name(as_text(name))

    def add_breadcrumb(self, crumb: Any = None, hint: Optional[Dict[str, Any]] = None, **more: Any) -> None:
        """Adds a breadcrumb: a dictionary with `message`, `category`, `level`, `type` and `data`, these as arguments of
        their names, or its message alone."""
        client = clients.current
        if client is None:
            return
        found = {"message": crumb} if isinstance(crumb, str) else dict(entries(crumb, "a breadcrumb")) if crumb else {}
        found.update((key, it) for key, it in more.items() if it is not None)
        if not found:
            return
        hook = client.options.before_breadcrumb
        if hook is not None:
            if is_in_hook(client, "a breadcrumb"):
                return
            kept = run_hook(hook, {"level": "info", "type": "default", **found}, hint or {})
            if kept is None:
                return
            found = kept
        self.edit("add_breadcrumb", dumped(crumb_of(found)), what="a breadcrumb")

    def clear_breadcrumbs(self) -> None:
        self.edit("clear_breadcrumbs", what="breadcrumbs")

    def add_attachment(self, bytes: bytes, filename: str, content_type: Optional[str] = None) -> None:
        """Adds a file, which is sent with each event of the scope."""
        about = as_text(filename), as_text(content_type or "")
        self.edit("add_attachment", *about, as_bytes(bytes), what="an attachment")

    def add_event_processor(self, processor: Processor) -> None:
        """Adds a function that is handed each event and transaction of the scope, and a hint. It answers it, changed or
        not, or `None` to drop it."""
        with tolerated("an event processor"):
            hub = self.hub()
            if hub is not None:
                hub.processors += (processor,)

    def set_request(self, request: Optional[Dict[str, Any]]) -> None:
        """Sets the request that is sent with each event of the scope: a dictionary with method, url, data, query_string,
        cookies, headers and env, or `None`."""
        with tolerated("a request"):
            hub = self.hub()
            if hub is not None:
                hub.request = None if request is None else request_of(request)

    def clear(self) -> None:
        """Takes all away that the scope has, and gives it a trace of its own."""
        with tolerated("a scope"):
            hub = self.hub()
            if hub is not None:
                hub.client.engine.call("clear_scope", hub.number, native.fresh())
                hub.processors, hub.request, hub.span = (), None, None

    user = property(None, set_user)
    level = property(None, set_level)
    fingerprint = property(None, set_fingerprint)
    transaction = property(None, set_transaction_name)

    @property
    def span(self) -> Any:
        """The innermost span that runs."""
        from .tracing import current_span

        return current_span()


TOP = Scope()
set_tag, set_tags, set_extra, set_context = TOP.set_tag, TOP.set_tags, TOP.set_extra, TOP.set_context
set_user, set_level, set_fingerprint = TOP.set_user, TOP.set_level, TOP.set_fingerprint
set_transaction_name, add_attachment = TOP.set_transaction_name, TOP.add_attachment


def add_breadcrumb(
    message: Any = None,
    category: Optional[str] = None,
    level: Optional[str] = None,
    type: Optional[str] = None,
    data: Optional[Mapping[str, Any]] = None,
    crumb: Optional[Mapping[str, Any]] = None,
    hint: Optional[Dict[str, Any]] = None,
) -> None:
    """Adds a breadcrumb, by its parts or as one dictionary."""
    first = message if crumb is None else crumb
    more = {} if crumb is None else {"message": message}
    TOP.add_breadcrumb(first, hint, category=category, level=level, type=type, data=data, **more)


class push_scope:
    """A copy of the scope, until the end of the block: `with push_scope() as scope`. It has the scope's edits, and so have
    `set_tag` and the others in the block."""

    def __init__(self) -> None:
        self.hub: Optional[Hub] = None

    def __enter__(self) -> Scope:
        client = clients.current
        if client is not None:
            with tolerated("a scope"):
                outer = hub_of(client)
                made = outer.fork(outer.thread, outer.task)
                made.pushed = (*outer.pushed, (self, outer))
                self.hub = made
                HUB.set(made)
        return Scope(self)

    def __exit__(
        self, kind: Optional[Type[BaseException]], error: Optional[BaseException], trace: Optional[TracebackType]
    ) -> None:
        pushed, self.hub = self.hub, None
        hub = HUB.get()
        if pushed is None or pushed.client is not clients.current:
            return
        blocks = hub.pushed if hub is not None and hub.client is pushed.client else ()
        for block, outer in blocks:
            if block is self:
                if block is not blocks[-1][0]:
                    tell("a scope was left before those within it, which end with it")
                HUB.set(outer)
                return
        tell("a scope was left in another task or thread than it was entered in, or twice: there it stays")


new_scope = isolation_scope = push_scope


@contextlib.contextmanager
def configure_scope() -> Iterator[Scope]:
    """The innermost scope."""
    yield Scope()


def get_current_scope() -> Scope:
    return TOP


get_isolation_scope = get_current_scope


def in_scope(scope: Optional[Any], parts: Mapping[str, Any], capture: Callable[[], Optional[str]]) -> Optional[str]:
    """Captures, where there are any, with these parts of a scope, and what a function sets in a scope."""
    if not parts and not callable(scope):
        return capture()
    with push_scope() as pushed:
        if callable(scope):
            scope(pushed)
        for name, it in parts.items():
            apply_part(pushed, name, it)
        return capture()


def apply_part(scope: Scope, name: str, value: Any) -> None:
    setters: Dict[str, Callable[[Any], None]] = {
        "tags": scope.set_tags,
        "user": scope.set_user,
        "level": scope.set_level,
        "fingerprint": scope.set_fingerprint,
        "extras": scope.set_extras,
        "contexts": scope.set_contexts,
    }
    if name in setters:
        setters[name](value)
    else:
        tell(f"{name} is no part of a scope")
