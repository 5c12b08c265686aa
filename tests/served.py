"""A program that is started once, and runs again and again, each time on an input and with settings of its own (serve.c)."""
import os
import socket
import struct
import subprocess

import examples

HERE = os.path.dirname(os.path.abspath(__file__))
REQUEST, ANSWER = struct.Struct("=IIQ"), struct.Struct("=iIQQ")


def make_shim(folder, name=None):
    """Compiles serve.c, with another C file of this folder if one is named, to a shim, and says where it is."""
    shim = os.path.join(folder, f"{name or 'serve'}.so")
    sources = [f"{HERE}/{it}.c" for it in (name, "serve") if it]
    subprocess.run([os.environ.get("CC", "cc"), "-O2", "-shared", "-fPIC", "-o", shim, *sources], check=True)
    return shim


class Served:
    """A program under a shim."""

    def __init__(self, program, shim, arguments=()):
        self.socket, theirs = socket.socketpair()
        env = {"LD_PRELOAD": shim, "SERVES": str(theirs.fileno())}
        nothing = {it: subprocess.DEVNULL for it in ("stdin", "stdout", "stderr")}
        command = [examples.program_path(program), *arguments]
        self.process = subprocess.Popen(command, env=env, pass_fds=[theirs.fileno()], **nothing)
        theirs.close()

    def __enter__(self):
        return self

    def __exit__(self, *_):
        self.socket.close()
        self.process.wait()

    def receive(self, count):
        received = bytearray()
        while len(received) < count:
            some = self.socket.recv(count - len(received))
            if not some:
                raise EOFError(f"{self.process.args} serves no more: its status is {self.process.wait()}")
            received += some
        return bytes(received)

    def run(self, lines=None, **settings):
        """What a run gives on these lines, or on those of the run before, and whether the shim told that it came to what it
        does."""
        told = b"".join(f"{name}={value}\0".encode() for name, value in settings.items())
        self.socket.sendall(REQUEST.pack(len(told), lines is not None, len(lines or b"")) + told + (lines or b""))
        status, is_met, out, err = ANSWER.unpack(self.receive(ANSWER.size))
        return examples.Run(status, self.receive(out), self.receive(err)), bool(is_met)
