"""Hooks: functions of the program that see what is sent, and may change or drop it."""
from __future__ import annotations

import contextvars
from typing import TYPE_CHECKING, Any, Callable, Dict, List, Optional, Sequence, Tuple, TypeVar

from .envelopes import edited, split
from .hubs import Hub, Processor
from .notes import LOGGER, tell
from .records import put_beside

if TYPE_CHECKING:
    from .client import Client
    from .options import Hint, Hook, Record

T = TypeVar("T")
GLOBAL_PROCESSORS: List[Processor] = []
# The hook that runs in this context. What it captures would be handed to it again, and so is dropped. The list is emptied
# at the end of the hook, since a task that this has begun has it from then on.
RUNNING: contextvars.ContextVar[Sequence[Hook]] = contextvars.ContextVar("dochirwa_hook", default=())


def add_global_event_processor(processor: Processor) -> None:
    """Adds a function that is handed each event and transaction, and a hint, before `before_send`."""
    GLOBAL_PROCESSORS.append(processor)


def run_hook(hook: Hook, record: Record, hint: Hint) -> Optional[Record]:
    """What a hook makes of a record: none, where it drops it, and also where it fails, or answers something else."""
    running = [hook]
    token = RUNNING.set(running)
    try:
        found: Any = hook(record, hint)
        if found is None or isinstance(found, dict):
            return found
        tell(f"the hook {getattr(hook, '__name__', hook)!s} answered no dictionary, and what it was handed is dropped")
        return None
    except Exception:
        tell(f"the hook {getattr(hook, '__name__', hook)!s} failed, and what it was handed is dropped")
        LOGGER.debug("the hook's error", exc_info=True)
        return None
    finally:
        running.clear()
        RUNNING.reset(token)


def run_hooks(hooks: List[Hook], record: Record, hint: Hint) -> Optional[Record]:
    found: Optional[Record] = record
    for hook in hooks:
        if found is None:
            break
        found = run_hook(hook, found, hint)
    return found


def hooks_of(client: Client, processors: Tuple[Processor, ...]) -> Dict[str, List[Hook]]:
    """The hooks for each kind of item."""
    options, first = client.options, [*GLOBAL_PROCESSORS, *processors]
    last = {"event": options.before_send, "transaction": options.before_send_transaction}
    return {kind: [*first, *([hook] if hook else [])] for kind, hook in last.items()}


def captured(
    client: Client, call: Callable[[], T], hub: Hub, hint: Hint, event_id: object = None, more: Optional[Record] = None
) -> Tuple[T, bool]:
    """Makes a call that captures, and lets the hooks change or drop what it hands out: in this thread, and without the
    lock, which only the call and the fetch of its envelopes take together. `more` is put into the event of this id before.
    Answers what the call does, and whether its event was dropped."""
    hooks = hooks_of(client, hub.processors)
    if not more and not hooks["event"] and not hooks["transaction"] and not RUNNING.get():
        return call(), False
    envelopes: List[bytes] = []
    with client.engine.lock:
        # What waits before is of calls without hooks, or of that which this one interrupts, in a signal handler.
        outer = client.capturing
        client.sender.fetch(outer)
        client.capturing = envelopes.append
        try:
            result = call()
            client.sender.fetch(envelopes.append)
        finally:
            client.capturing = outer
    dropped = False

    def edit(kind: str, record: Record) -> Optional[Record]:
        if is_in_hook(client, f"a {kind}"):
            return None
        if more and record.get("event_id") == str(event_id):
            put_beside(record, more)
        return run_hooks(hooks[kind], record, hint)

    for envelope in envelopes:
        try:
            kept, lost = edited(envelope, edit)
        except Exception as error:  # of a hook's record that can't be written
            tell("what a hook answered can't be sent: %r", error)
            client.sender.lose(split(envelope)[1], "internal_sdk_error")
            dropped = True
            continue
        if lost:
            dropped = True
            client.sender.lose(lost, "before_send")
        if kept is not None:
            client.sender.put(kept)
    return result, dropped


def is_in_hook(client: Client, what: str, category: Optional[str] = None) -> bool:
    """Whether a hook runs in this context, whose captures are dropped. So are those of a signal handler that interrupts it."""
    if RUNNING.get():
        tell(f"{what} of a hook is dropped")
        if category is not None:
            client.drop(category)
        return True
    return False
