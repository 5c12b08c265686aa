"""The functions of the library (interfaces/c/dochirwa.h), by ctypes. Each makes one call on an engine, under its lock."""
from __future__ import annotations

import collections
import ctypes
import os
import struct
import threading
import time
from typing import Any, Deque, Dict, List, Optional, Tuple

U32, U64, I64, SIZE, BOOL = ctypes.c_uint32, ctypes.c_uint64, ctypes.c_int64, ctypes.c_size_t, ctypes.c_bool
STALE, STILL_NAMED, CLOSED = 2, 4, 12
FAULTS = (
    "out of memory|stale|out of order|still named|scopes open|invalid DSN|invalid rate|foreign losses|full|not UTF-8|"
    "a number or a word stands for nothing|the engine is closed|the engine is open already"
).split("|")
# As DOCHIRWA_VERSION of the header that this file declares.
VERSION = 200
# No text that is copied out of the engine is longer, but for envelopes.
ROOM_LENGTH = 4096


class Handle(ctypes.Structure):
    _fields_ = [("at", ctypes.c_void_p)]


class Id(ctypes.Structure):
    _fields_ = [("high", U64), ("low", U64)]
    high: int
    low: int

    def __str__(self) -> str:
        return f"{self.high:016x}{self.low:016x}"


class Fresh(ctypes.Structure):
    _fields_ = [("now", U64), ("id", Id), ("trace", Id), ("span", U64), ("draw", U32)]


class Fault(Exception):
    """A call that failed, and changed nothing. `number` is as in dochirwa.h."""

    def __init__(self, number: int) -> None:
        super().__init__(FAULTS[number - 1] if 0 < number <= len(FAULTS) else str(number))
        self.number = number


TEXT, FRESH, ENGINE = "text", ctypes.POINTER(Fresh), ctypes.POINTER(Handle)
NUMBER, IDENTITY, FLAG, LENGTH = ctypes.POINTER(U64), ctypes.POINTER(Id), ctypes.POINTER(U32), ctypes.POINTER(SIZE)
ROOM = ctypes.POINTER(ctypes.c_char)
# The arguments after the engine. TEXT is a pointer and a length.
SIGNATURES: Dict[str, Tuple[Any, ...]] = {
    "open": (),
    "add_client": (TEXT, U64, U64, NUMBER),
    "clone_client": (U64, U64, NUMBER),
    "drop_client": (U64,),
    "is_enabled": (U64, FLAG),
    "flush": (U64,),
    "tick": (U64, U64),
    "close": (U64,),
    "record_loss": (U64, U32, U32, U64),
    "new_hub": (U64, FRESH, NUMBER),
    "new_hub_from_top": (U64, NUMBER),
    "bind_client": (U64, U64),
    "release_hub": (U64, U64),
    "push_scope": (U64, LENGTH),
    "pop_scope": (U64, SIZE, U64),
    "set_tag": (U64, TEXT, TEXT, U64),
    "set_span": (U64, BOOL, U64, U64),
    "clear_span": (U64, U64),
    "edit_scope": (U64, TEXT, U64),
    "clear_scope": (U64, FRESH),
    "add_breadcrumb": (U64, TEXT, U64),
    "clear_breadcrumbs": (U64, U64),
    "add_attachment": (U64, TEXT, TEXT, TEXT, U64),
    "clear_attachments": (U64, U64),
    "capture_message": (U64, U32, TEXT, FRESH, IDENTITY),
    "capture_event": (U64, TEXT, FRESH, IDENTITY),
    "last_event_id": (U64, IDENTITY),
    "capture_log": (U64, U32, TEXT, TEXT, U64),
    "capture_metric": (U64, U32, TEXT, I64, TEXT, TEXT, U64),
    "start_session": (U64, FRESH),
    "end_session": (U64, U32, U64),
    "start_transaction": (U64, TEXT, TEXT, FRESH, NUMBER),
    "continue_transaction": (U64, TEXT, TEXT, TEXT, TEXT, FRESH, NUMBER),
    "sample_transaction": (U64, TEXT, TEXT, TEXT, TEXT, TEXT, FRESH, NUMBER),
    "start_child": (BOOL, U64, TEXT, TEXT, FRESH, NUMBER),
    "set_span_data": (BOOL, U64, TEXT, TEXT),
    "set_span_tag": (BOOL, U64, TEXT, TEXT),
    "set_span_name": (BOOL, U64, TEXT),
    "set_span_op": (BOOL, U64, TEXT),
    "set_span_status": (BOOL, U64, TEXT),
    "set_span_request": (BOOL, U64, TEXT),
    "trace_header": (BOOL, U64, ROOM, SIZE, LENGTH),
    "baggage": (BOOL, U64, ROOM, SIZE, LENGTH),
    "finish_span": (U64, U64),
    "finish_transaction": (U64, U64, U64),
    "discard": (BOOL, U64),
    "end_span": (U64, U64, FLAG),
    "end_transaction": (U64, U64, U64, FLAG),
    "next_envelope": (NUMBER, ROOM, SIZE, LENGTH),
    "drop_envelopes": (),
}
# Those that are called without an engine.
PLAIN_SIGNATURES: Dict[str, Tuple[Any, ...]] = {
    "version": (),
    "envelope_api_url": (TEXT, ROOM, SIZE, LENGTH),
    "to_auth": (TEXT, TEXT, ROOM, SIZE, LENGTH),
}


def library_path(path: Optional[str] = None) -> str:
    """Where the library is: at the path, at $DOCHIRWA_LIBRARY, or beside this file."""
    return path or os.environ.get("DOCHIRWA_LIBRARY") or os.path.join(os.path.dirname(__file__), "libdochirwa.so")


def load(path: Optional[str] = None) -> Dict[str, Any]:
    """The functions of the library, by their names. Raises OSError where it isn't there, or is of another version."""
    library = ctypes.CDLL(library_path(path))
    found: Dict[str, Any] = {}
    all_types: Dict[str, Tuple[Any, ...]] = {name: (ENGINE, *types) for name, types in SIGNATURES.items()}
    version = getattr(library, "dochirwa_version", lambda: 0)()
    if version // 100 != VERSION // 100:
        raise OSError(f"{library_path(path)} has the version {version}, and the package {VERSION}")
    for name, types in {**all_types, **PLAIN_SIGNATURES}.items():
        function = found[name] = getattr(library, "dochirwa_" + name)
        function.restype = U32
        function.argtypes = [word for it in types for word in ((ctypes.c_char_p, SIZE) if it == TEXT else (it,))]
    library.dochirwa_free.restype = None
    library.dochirwa_free.argtypes = [ENGINE]
    found["free"] = library.dochirwa_free
    return found


# What the clock that never goes back is behind the time.
BEHIND = time.time_ns() - time.monotonic_ns()


def steady_ns() -> int:
    """The moment of ticks, which goes on evenly, however the time is set."""
    return BEHIND + time.monotonic_ns()


def fresh(event_id: Optional[Id] = None) -> Fresh:
    """The moment, and random ids."""
    a, b, c, d, e, f = struct.unpack("6Q", os.urandom(48))
    return Fresh(time.time_ns(), event_id or Id(a, b), Id(c, d), e, f % 1000000)


def fresh_span() -> Fresh:
    """The moment, and the random id of a span: all that `start_child` uses."""
    (span,) = struct.unpack("Q", os.urandom(8))
    return Fresh(now=time.time_ns(), span=span)


class Engine:
    """An engine. ctypes lets other threads run during a call, so each call takes the lock."""

    def __init__(self, path: Optional[str] = None) -> None:
        self.functions = load(path)
        self.handle = Handle()
        self.at = ctypes.byref(self.handle)
        self.lock = threading.RLock()
        # Rooms for texts. A call takes one for itself, since a signal handler may make another call meanwhile.
        self.rooms: List[ctypes.Array[ctypes.c_char]] = []
        # Hubs that nothing names any more. Objects end at any moment, also in the middle of a call: so these wait.
        self.given_back: Deque[int] = collections.deque()
        self.call("open")

    def call(self, name: str, *arguments: Any) -> None:
        """Makes a call. A `str` or `bytes` is passed as a text. Raises `Fault`."""
        words: List[Any] = [self.at]
        for argument in arguments:
            if isinstance(argument, str):
                argument = argument.encode("utf-8", "replace")
            words.append(argument)
            if isinstance(argument, bytes):
                words.append(len(argument))
        with self.lock:
            if self.given_back:
                self.give_back()
            number: int = self.functions[name](*words)
        if number:
            raise Fault(number)

    def give_back(self) -> None:
        while self.given_back:
            try:
                hub = self.given_back.popleft()
            except IndexError:  # another thread was faster
                return
            self.functions["release_hub"](self.at, hub, time.time_ns())

    def number(self, name: str, *arguments: Any, type: Any = U64) -> Any:
        """Makes a call whose last argument is its result: a number, or an `Id`."""
        result = type()
        self.call(name, *arguments, ctypes.byref(result))
        return result if type is Id else result.value

    def copied(self, name: str, *arguments: Any) -> bytes:
        """Makes a call whose last arguments are room, its length, and the length of what is copied there."""
        length = SIZE()
        try:
            room = self.rooms.pop()
        except IndexError:
            room = ctypes.create_string_buffer(ROOM_LENGTH)
        try:
            with self.lock:
                self.call(name, *arguments, room, SIZE(ROOM_LENGTH), ctypes.byref(length))
                if length.value > ROOM_LENGTH:
                    larger = ctypes.create_string_buffer(length.value)
                    self.call(name, *arguments, larger, SIZE(len(larger)), ctypes.byref(length))
                    return ctypes.string_at(larger, length.value)
                return ctypes.string_at(room, length.value)
        finally:
            self.rooms.append(room)

    def text(self, name: str, *arguments: Any) -> str:
        """The same of a text."""
        return self.copied(name, *arguments).decode()

    def next_envelope(self) -> Optional[Tuple[int, bytes]]:
        """The client of the next envelope and its bytes, or none."""
        client = U64()
        envelope = self.copied("next_envelope", ctypes.byref(client))
        return (client.value, envelope) if envelope else None

    def end_span(self, span: int) -> bool:
        """Finishes a span and forgets it, and answers whether it is still to be discarded."""
        return bool(self.number("end_span", span, time.time_ns(), type=U32))

    def end_transaction(self, transaction: int, hub: int) -> bool:
        """The same of a transaction, under the top scope of a hub."""
        return bool(self.number("end_transaction", transaction, hub, time.time_ns(), type=U32))

    def free(self) -> None:
        with self.lock:
            self.functions["free"](self.at)
