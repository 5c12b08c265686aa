"""Sees whether edits compile: many of them at once, in a copy of the repository.

Edits of the same function, and those that change each other's texts, are tried one after another, in rounds. In each
round a program that uses all libraries is compiled by `rt try`, which proves nothing. An error that stands in a function
which an edit has changed is that edit's, and the round is tried again without it.
"""
import os
import re
import shutil
import subprocess
import sys
import tempfile

TOP = os.path.dirname(os.path.dirname(os.path.abspath(__file__)))
sys.path.insert(0, os.path.join(TOP, "tests"))
from edit_files import BadEdit, applied, pairs_of
from edit_log import SOURCES
from sources import read

PROGRAM = "every_library"
MAIN = """//! Uses every library of the repository.
#![tactic(auto)]

fn main(_rt: HostRuntime) {}
"""
FUNCTION = re.compile(r"^ *(?:pub(?:\(\w+\))? )?(?:const )?fn \w+.*$", re.M)
ERROR = re.compile(r"^(?:.*/)?crates/(\w+)/(src/\S+\.rt):(\d+):\d+: (error.*)$", re.M)


def function_at(text, position):
    """The first line of the function around a position, and how many of the same line stand before it."""
    heads = [it[0] for it in FUNCTION.finditer(text, 0, position)]
    return (heads[-1], heads.count(heads[-1])) if heads else None


class Round:
    """Edits that are tried at once."""

    def __init__(self):
        self.texts, self.of_function, self.edits = {}, {}, []

    def takes(self, edit):
        """Applies an edit, if no other one of the round is in its way."""
        crate = os.path.dirname(os.path.dirname(edit))
        try:
            pairs = pairs_of(edit)
            made = applied(crate, pairs, self.texts)
        except BadEdit:
            return False
        functions = set()
        for file, old, _ in pairs:
            path = os.path.join(crate, file)
            text = self.texts.get(path) or read(path)
            functions.add((path, function_at(text, text.find(old) + len(old))))
        if functions & self.of_function.keys():
            return False
        self.texts.update(made)
        self.of_function.update(dict.fromkeys(functions, edit))
        self.edits.append(edit)
        return True

    def edit_at(self, path, line):
        """The edit that has changed the function in which a line stands, or none."""
        text = self.texts.get(path)
        if text is None:
            return None
        end = sum(map(len, text.splitlines(True)[:line]))
        return self.of_function.get((path, function_at(text, end)))


def rounds_of(edits):
    """The edits in as few rounds as come of taking each into the first that has room."""
    rounds = []
    for edit in edits:
        if not any(it.takes(edit) for it in rounds):
            rounds.append(Round())
            if not rounds[-1].takes(edit):
                sys.exit(f"{os.path.relpath(edit, TOP)} doesn't apply: see tests/edits")
    return rounds


def copy_sources(room, parts=SOURCES):
    """Copies these folders of each crate, and what `rt` reads beside the crates."""
    for file in ("crates.txt", "HANDLES"):
        if os.path.isfile(f"{TOP}/{file}"):
            shutil.copy2(f"{TOP}/{file}", room)
    for crate in os.listdir(f"{TOP}/crates"):
        for part in parts:
            if os.path.isdir(f"{TOP}/crates/{crate}/{part}"):
                shutil.copytree(f"{TOP}/crates/{crate}/{part}", f"{room}/crates/{crate}/{part}")


def make_room(room, libraries):
    """A copy of the sources, and the program that uses all libraries."""
    copy_sources(room)
    os.makedirs(f"{room}/crates/{PROGRAM}/src")
    write(f"{room}/crates/{PROGRAM}/src/main.rt", MAIN)
    write(f"{room}/crates.txt", read(f"{TOP}/crates.txt") + f"{PROGRAM}: {' '.join(libraries)}\n")


def write(path, text):
    with open(path, "w", encoding="utf-8") as file:
        file.write(text)


def errors_of(room, texts):
    """The errors (crate, file, line, text) of the copy with these files in place of its own, and all that was said."""
    for path, text in texts.items():
        write(os.path.join(room, os.path.relpath(path, TOP)), text)
    ran = subprocess.run(["rt", "try"], cwd=f"{room}/crates/{PROGRAM}", stdin=subprocess.DEVNULL, capture_output=True, text=True)
    for path in texts:
        write(os.path.join(room, os.path.relpath(path, TOP)), read(path))
    said = ran.stdout + ran.stderr
    found = [(crate, file, int(line), what) for crate, file, line, what in ERROR.findall(said)]
    return found, None if ran.returncode == 0 else said


def round_of(edits):
    """A round of these edits, none of which is in the way of another."""
    made = Round()
    for edit in edits:
        made.takes(edit)
    return made


def bad_of(room, edits):
    """Those of these edits that don't compile, each with an error. Where no edit stands at an error, as one that changes
    the bounds of an impl breaks code elsewhere, it is sought in the halves of the edits."""
    if not edits:
        return {}
    tried = round_of(edits)
    errors, said = errors_of(room, tried.texts)
    if said is None:
        return {}
    found = [(tried.edit_at(f"{TOP}/crates/{crate}/{file}", line), what) for crate, file, line, what in errors]
    blamed = {edit: what for edit, what in reversed(found) if edit}
    if blamed:
        return blamed | bad_of(room, [it for it in edits if it not in blamed])
    if len(edits) == 1:
        return {edits[0]: errors[0][3] if errors else said.strip()}
    half = len(edits) // 2
    return bad_of(room, edits[:half]) | bad_of(room, edits[half:])


def compile_all(edits, libraries):
    """Tries the edits. Prints a line for each that doesn't compile, and how many do. Answers the exit status."""
    failed, rounds = 0, rounds_of(edits)
    with tempfile.TemporaryDirectory(prefix="compile-edits-") as room:
        make_room(room, libraries)
        for number, tried in enumerate(rounds, 1):
            print(f"round {number} of {len(rounds)}: {len(tried.edits)} edits", flush=True)
            for edit, what in bad_of(room, tried.edits).items():
                failed += 1
                print(f"{os.path.relpath(edit, TOP)}: {what}", flush=True)
    print(f"{len(edits) - failed} compile, {failed} don't")
    return 1 if failed else 0
