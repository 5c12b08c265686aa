"""Edits of a crate that are tried in one check: each changes the body of another function.

A body is proved by the contracts of what it calls and not by their bodies, so no edit of a round can have the function of
another one refused. Where that isn't plain from what the prover says, the edits are tried one by one.
"""
import functools
import os
import re

from compile_edits import FUNCTION, Round
from edit_files import pairs_of
from sources import read

ERROR = re.compile(r"^(src/\S+\.rt):(\d+):\d+: error", re.M)
# A function that isn't proved, by its path, and why not.
UNPROVED = re.compile(r"^fn (\S+): (?!proved(?:,|$))(.*)$", re.M)
CALLS_UNPROVED = re.compile(r"which (is|are) not proved|which has no proof")
# A form of code that the prover doesn't cover says nothing of an edit, and hides those of what calls the function.
UNCOVERED = re.compile(r"does not cover this function")
NAME = re.compile(r"fn (\w+)")
NOT_PROVED = re.compile(r"^note: (src/\S+\.rt):(\d+):\d+: (it is not proved .*)$", re.M)


def is_in_body(text, old):
    """Whether a text stands in the body of a function. The files are in rt fmt's layout, so a body ends at a line of one
    brace, indented as the function is."""
    at = text.find(old)
    heads = [it for it in FUNCTION.finditer(text, 0, at) if "const fn" not in it[0]]
    if not heads:
        return False
    indent = re.match(" *", heads[-1][0])[0]
    opens = re.compile(rf"^{indent}(?:\S.*)?\{{$", re.M).search(text, heads[-1].start())
    closes = re.compile(rf"^{indent}\}}$", re.M).search(text, heads[-1].start())
    return bool(opens and closes) and opens.end() <= at and at + len(old) <= closes.start()


@functools.cache
def changes_bodies(edit):
    """Whether all that an edit changes stands in bodies."""
    texts, crate = {}, os.path.dirname(os.path.dirname(edit))
    for file, old, new in pairs_of(edit):
        text = texts.get(file) or read(os.path.join(crate, file))
        if not is_in_body(text, old):
            return False
        texts[file] = text.replace(old, new)
    return True


@functools.cache
def names_of(edit):
    """The names of the functions in which the changes of an edit begin."""
    crate = os.path.dirname(os.path.dirname(edit))
    texts = [(read(os.path.join(crate, file)), old) for file, old, _ in pairs_of(edit)]
    heads = [list(FUNCTION.finditer(text, 0, text.find(old) + 1)) for text, old in texts if old in text]
    return {NAME.search(it[-1][0])[1] for it in heads if it}


def next_round(edits, size):
    """The edits of the next round: the first of them that fit into one, at most so many. None has functions of the name of
    another's, since the prover's words for a method don't always tell its type. Edits that change more than bodies come
    last, each alone."""
    tried, taken = Round(), set()
    for edit in edits:
        if len(tried.edits) < size and not names_of(edit) & taken and changes_bodies(edit) and tried.takes(edit):
            taken |= names_of(edit)
    return tried.edits or edits[:1]


def edit_at(crate, tried, file, line):
    """The edit of a round in whose function a line stands, or an attribute above that function."""
    path = os.path.join(crate, file)
    lines = (tried.texts.get(path) or "").splitlines(True)
    if line <= len(lines) and lines[line - 1].lstrip(" ").startswith("#"):
        head = FUNCTION.search("".join(lines), sum(map(len, lines[:line])))
        line = "".join(lines).count("\n", 0, head.start()) + 1 if head else line
    return tried.edit_at(path, line)


def module_of(crate, path):
    """The path of the module of a file, in parts."""
    parts = os.path.relpath(path, os.path.join(crate, "src")).removesuffix(".rt").split(os.sep)
    return [] if parts in (["lib"], ["main"]) else parts


def edits_of(crate, tried, function):
    """The edits of a round that change the function of a path: more than one if the path doesn't tell which."""
    words = re.split(r"::|\+\+", function)[1:]
    depths = {}
    for (path, (head, _)), edit in tried.of_function.items():
        module = module_of(crate, path)
        if NAME.search(head)[1] in [it.lstrip("+") for it in words]:
            depths.setdefault(len(module) if words[: len(module)] == module else -1, set()).add(edit)
    return depths[max(depths)] if depths else set()


def refused_of(crate, tried, said):
    """Of the edits of a round, by what a check said that did not prove the crate: those whose function isn't proved, other
    than for what it calls, with why not. None are told if the edit of one such function can't be told."""
    notes = {}
    for file, line, what in NOT_PROVED.findall(said):
        notes.setdefault(edit_at(crate, tried, file, int(line)), f"{file}:{line}: {what}")
    refused = {}
    for function, why in UNPROVED.findall(said):
        if CALLS_UNPROVED.search(why) or UNCOVERED.search(why):
            continue
        found = edits_of(crate, tried, function)
        # Several have this name, as methods of types in one module have: those of which something is noted.
        found = found if len(found) == 1 else found & notes.keys()
        if not found:
            return {}
        refused |= {edit: notes.get(edit, f"{function}: {why}") for edit in found}
    return refused


def uncovered_of(crate, tried, said):
    """The edits of a round whose functions the prover doesn't cover."""
    functions = [function for function, why in UNPROVED.findall(said) if UNCOVERED.search(why)]
    found = set().union(*(edits_of(crate, tried, it) for it in functions))
    return [it for it in tried.edits if it in found]


def bad_of(crate, tried, said):
    """The edits of a round in whose functions the errors stand of a check that did not come to a proof."""
    found = {edit_at(crate, tried, file, int(line)) for file, line in ERROR.findall(said)}
    return [it for it in tried.edits if it in found]
