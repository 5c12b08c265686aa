"""Hubs: each thread, each task of asyncio and each block of `push_scope` has one of its own, by `contextvars`."""
from __future__ import annotations

import contextvars
import sys
import threading
import weakref
from typing import TYPE_CHECKING, Any, Callable, Dict, Optional, Tuple

if TYPE_CHECKING:
    from .client import Client
    from .tracing import Span

Processor = Callable[[Dict[str, Any], Dict[str, Any]], Optional[Dict[str, Any]]]


class Hub:
    """A hub of the engine, with what is kept beside its scope here. It is given back once nothing names it.

    A hub belongs to the thread and the task that made it. Another task, which has it from the context that it began with,
    makes a copy at its first use. So that this copy is what the scope was when the task began, a hub of a task is never
    edited: each edit makes a copy."""

    __slots__ = ("client", "number", "thread", "task", "pushed", "request", "processors", "span")

    def __init__(self, client: Client, number: int, thread: int, task: Optional[weakref.ref[Any]]) -> None:
        self.client, self.number, self.thread, self.task = client, number, thread, task
        # The blocks of `push_scope` that it is in, the innermost last, each with the hub outside of it.
        self.pushed: Tuple[Tuple[object, Hub], ...] = ()
        self.request: Optional[Dict[str, Any]] = None
        self.processors: Tuple[Processor, ...] = ()
        # The span that its scope has in the engine.
        self.span: Optional[Span] = None

    def __del__(self) -> None:
        # `__init__` may have failed, or the program end.
        client = getattr(self, "client", None)
        if client is not None:
            client.engine.given_back.append(self.number)

    def is_of(self, thread: int, task: Optional[Any]) -> bool:
        own = self.task() if self.task is not None else None
        # The task of a hub may have ended, and no other one is it.
        return self.thread == thread and own is task and (task is not None or self.task is None)

    def fork(self, thread: int, task: Optional[weakref.ref[Any]]) -> Hub:
        """A hub with a copy of the top scope."""
        made = Hub(self.client, self.client.engine.number("new_hub_from_top", self.number), thread, task)
        made.request, made.processors, made.span = self.request, self.processors, self.span
        return made

    def copy(self) -> Hub:
        """The same, of this hub's own thread and task, in the same blocks."""
        made = self.fork(self.thread, self.task)
        made.pushed = self.pushed
        return made


# The hub of a context, and its innermost span.
SPAN: contextvars.ContextVar[Optional[Span]] = contextvars.ContextVar("dochirwa_span", default=None)
HUB: contextvars.ContextVar[Optional[Hub]] = contextvars.ContextVar("dochirwa_hub", default=None)


def running_task() -> Optional[Any]:
    """The task of asyncio that runs in this thread."""
    events = sys.modules.get("asyncio.events")
    loop = events._get_running_loop() if events is not None else None
    return sys.modules["asyncio.tasks"].current_task(loop) if loop is not None else None


def hub_of(client: Client) -> Hub:
    """The hub of this context: that of the innermost block, of the task or of the thread. A thread begins with the scope
    and the span of the main one."""
    hub, thread, task = HUB.get(), threading.get_ident(), running_task()
    if hub is None or hub.client is not client:
        hub = client.main
        SPAN.set(client.main_span)
    elif hub.is_of(thread, task):
        return hub
    made = hub.fork(thread, None if task is None else weakref.ref(task))
    HUB.set(made)
    return made


def hub_to_edit(client: Client) -> Hub:
    """The same, whose scope may be edited."""
    hub = hub_of(client)
    if hub.task is None:
        return hub
    made = hub.copy()
    if client.main is hub:
        client.main = made
    HUB.set(made)
    return made
