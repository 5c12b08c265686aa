"""The proved library of crates/dochirwa, and a shared object of it."""
import os
import shutil
import subprocess
import sys

from sources import TOP

CRATE = os.path.join(TOP, "crates", "dochirwa")


def archive():
    """Where the archive is: where the environment says (ARCHIVE), or where `rt lib` leaves it."""
    return os.environ.get("ARCHIVE") or os.path.join(CRATE, "out", "libdochirwa.a")


def kit():
    """The folder of the kit, whose C parts the archive needs."""
    program = os.path.realpath(shutil.which("rattle") or shutil.which("rt") or "/opt/rattle/bin/rattle")
    return os.environ.get("RATTLE_KIT") or os.path.dirname(os.path.dirname(program))


def libraries():
    """The archive, and what is linked with it."""
    return [archive(), f"{kit()}/c/liblibc_c.a", f"{kit()}/c/libos_c.a"]


def make_shared(compiler, room):
    """Makes a shared object of the whole archive in a folder. Answers where it is, and what the compiler did."""
    shared, (whole, *others) = os.path.join(room, "libdochirwa.so"), libraries()
    command = [compiler, "-shared", "-o", shared, "-Wl,--whole-archive", whole, "-Wl,--no-whole-archive", *others]
    return shared, subprocess.run(command, capture_output=True, timeout=300)


def shared_library(room):
    """A shared object of the archive, or none where something that it needs isn't there."""
    compiler = next(filter(shutil.which, ("cc", "gcc", "clang")), None)
    missing = [it for it in libraries() if not os.path.isfile(it)]
    if missing or not compiler:
        print(f"left out: all that runs the library (there is no {missing[0] if missing else 'C compiler'})")
        return None
    shared, made = make_shared(compiler, room)
    if made.returncode:
        sys.exit(f"{compiler} makes no shared object: {made.stderr.decode()}")
    return shared
