"""Calls of the library as dochirwa.h declares them, by ctypes, and the items of the envelopes that they hand out."""
import ctypes
import json

from receiver import received

PLAIN = {"bool": ctypes.c_bool, "uint32_t": ctypes.c_uint32, "uint64_t": ctypes.c_uint64, "int64_t": ctypes.c_int64, "size_t": ctypes.c_size_t}


class Id(ctypes.Structure):
    _fields_ = [("high", ctypes.c_uint64), ("low", ctypes.c_uint64)]


class Fresh(ctypes.Structure):
    _fields_ = [("now", ctypes.c_uint64), ("id", Id), ("trace", Id), ("span", ctypes.c_uint64), ("draw", ctypes.c_uint32)]


def fresh(number, draw=0):
    """What a call at this second is to use: the number is also each of its ids."""
    return Fresh(number * 10**9, Id(0, number), Id(0, number), number, draw)


class Fault(Exception):
    """A call that didn't answer 0."""


class Library:
    """A shared library, and one engine. `header` has each function's result and the types of its arguments."""

    def __init__(self, shared, header):
        self.header, self.library, self.engine = header, ctypes.CDLL(shared), ctypes.c_void_p()
        for name, (result, types) in header.items():
            function = getattr(self.library, name)
            function.restype = None if result == "void" else PLAIN[result]
            function.argtypes = [PLAIN.get(it, ctypes.c_void_p) for it in types if it != "void"]
        self.call("open")

    def fault(self, name, *words):
        """What a call on the engine answers."""
        return self.plain(name, ctypes.byref(self.engine), *words)

    def plain(self, name, *words):
        """What a call answers. A text is passed with its length, `None` as null with the length 0."""
        passed = []
        for it in words:
            it = it.encode() if isinstance(it, str) else it
            if it is None or isinstance(it, bytes):
                passed += [it, len(it or b"")]
            elif isinstance(it, ctypes.Structure):
                passed.append(ctypes.byref(it))
            else:
                passed.append(it)
        return getattr(self.library, f"dochirwa_{name}")(*passed)

    def call(self, name, *words):
        """Makes a call on the engine. Raises `Fault`."""
        fault = self.fault(name, *words)
        if fault:
            raise Fault(f"dochirwa_{name} answers {fault}")

    def made(self, name, *words, of=ctypes.c_uint64):
        """Makes a call whose last argument is its result."""
        result = of()
        self.call(name, *words, ctypes.byref(result))
        return result.value

    def read(self, name, *words, size=4096, on_engine=True):
        """The text that a call copies into room of this size, and how long it says that it is."""
        room, length = ctypes.create_string_buffer(b"\xaa" * size, size), ctypes.c_size_t()
        words = [*words, ctypes.addressof(room), size, ctypes.byref(length)]
        fault = self.fault(name, *words) if on_engine else self.plain(name, *words)
        if fault:
            raise Fault(f"dochirwa_{name} answers {fault}")
        return room.raw[: min(length.value, size)], length.value

    def envelopes(self):
        """The envelopes that wait: each its header, and its items, of which a payload of JSON is read."""
        client, found = ctypes.c_uint64(), []
        while True:
            text, length = self.read("next_envelope", ctypes.byref(client), size=1 << 16)
            if length == 0:
                return found
            header, items = received(text)
            found.append((header, [(it, payload_of(it, payload)) for it, payload in items]))

    def items(self):
        """The items of all envelopes that wait."""
        return [it for _, items in self.envelopes() for it in items]

    def free(self):
        self.library.dochirwa_free(ctypes.byref(self.engine))


def payload_of(header, payload):
    return payload if header["type"] == "attachment" else json.loads(payload)
