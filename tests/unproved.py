"""Programs that are not proved, compiled by `rt try` with checks where they run.

`rt try` compiles a program, runs it once, and removes it. Here its kit is one of links to the toolchain's, whose linker
also keeps the program, and whose prover, which `rt try` asks for a hint at the same time, does nothing.
"""
import hashlib
import os
import shutil
import subprocess
import sys
import tempfile

from edit_log import Sums
from library import kit
from sources import TOP

# Where the programs are kept, each beside the sum of the sources that it was made of.
KEPT = os.path.join(TOP, "out", "unproved")
LINKER = """#!/bin/sh
'{kit}/toolchain/bin/ld.lld' "$@" || exit
cp program '{kept}'
"""
NO_PROVER = """#!/bin/sh
case $1 in check) exit 0 ;; esac
exec '{kit}/bin/rattle' "$@"
"""


def link_all(source, copy, *others):
    """Makes a folder of links to what another has, but for what has one of these names."""
    os.makedirs(copy)
    for name in sorted(set(os.listdir(source)) - set(others)):
        os.symlink(os.path.join(source, name), os.path.join(copy, name))


def write_script(text, path):
    with open(path, "w", encoding="utf-8") as file:
        file.write(text)
    os.chmod(path, 0o755)


def make_kit(folder, kept):
    """Makes the kit in a folder, whose linker leaves the program at a path. Answers its `rt`."""
    true = kit()
    link_all(true, folder, "bin", "toolchain")
    link_all(f"{true}/bin", f"{folder}/bin", "rt", "rtlib.py", "rattle")
    link_all(f"{true}/toolchain", f"{folder}/toolchain", "bin")
    link_all(f"{true}/toolchain/bin", f"{folder}/toolchain/bin", "ld.lld")
    # `rt` takes the kit in which it is itself.
    for name in ("rt", "rtlib.py"):
        shutil.copy(f"{true}/bin/{name}", f"{folder}/bin/{name}")
    write_script(NO_PROVER.format(kit=true), f"{folder}/bin/rattle")
    write_script(LINKER.format(kit=true, kept=kept), f"{folder}/toolchain/bin/ld.lld")
    return f"{folder}/bin/rt"


def sum_of(crate):
    """The sum of all sources that a program is made of, and of the toolchain's name."""
    sums = Sums()
    version = subprocess.run(["rt", "version"], capture_output=True).stdout
    return hashlib.sha256(repr((sums.crate(crate), sums.below(crate), version)).encode()).hexdigest()


def program(crate):
    """The path of the program of a crate, which is compiled if its sources changed since. Stops where it doesn't compile."""
    os.makedirs(KEPT, exist_ok=True)
    path, now = os.path.join(KEPT, crate), sum_of(crate)
    noted = f"{path}.sum"
    if os.path.isfile(path) and os.path.isfile(noted):
        with open(noted, encoding="utf-8") as file:
            if file.read() == now:
                return path
    with tempfile.TemporaryDirectory(prefix="unproved-") as folder:
        made = os.path.join(folder, "program")
        # One step: the interpreter, which runs the program too, is not asked.
        command = [make_kit(os.path.join(folder, "kit"), made), "try", "--steps", "1"]
        ran = subprocess.run(command, cwd=os.path.join(TOP, "crates", crate), stdin=subprocess.DEVNULL, capture_output=True)
        if not os.path.isfile(made):
            sys.exit(f"{crate} doesn't compile:\n" + ran.stderr.decode("utf-8", "backslashreplace"))
        shutil.move(made, path)
    with open(noted, "w", encoding="utf-8") as file:
        file.write(now)
    return path
