"""The edits of crates/NAME/must-fail and crates/NAME/wrong: how they are read, and how they apply.

An edit is a line 'file: src/lib.rt', and then pairs of lines 'old: TEXT' and 'new: TEXT'. Each old text must stand once
in the file, where further pairs find what the earlier ones made. `rt` reads no other line, so there must be none.
"""
import glob
import os
import re

from sources import read

NAME = re.compile(r"[a-z][a-z0-9_]*\.edit")


class BadEdit(Exception):
    """Says why an edit can't be applied."""


def paths_of(crate, folders=("must-fail", "wrong")):
    """The edits of these folders of a crate."""
    return [path for folder in folders for path in sorted(glob.glob(f"{crate}/{folder}/*.edit"))]


def pairs_of(path):
    """The edit's triples of a file, an old text and a new one."""
    if not NAME.fullmatch(os.path.basename(path)):
        raise BadEdit("its name is to be of small letters, digits and _")
    file, old, pairs = None, None, []
    for line in read(path).split("\n"):
        if line.startswith("file: "):
            file = line[len("file: ") :].strip()
        elif line.startswith("old: "):
            if old:
                raise BadEdit(f"no new text follows an old one: {old[:80]}")
            old = line[len("old: ") :]
        elif line.startswith("new:"):
            if not file or not old:
                raise BadEdit("a new text stands before any file or old text")
            pairs.append((file, old, line[len("new:") :].removeprefix(" ")))
            old = None
        elif line:
            raise BadEdit(f"it has another line: {line[:80]}")
    if old:
        raise BadEdit(f"no new text follows an old one: {old[:80]}")
    if not pairs:
        raise BadEdit("it has no old and new text")
    return pairs


def applied(crate, pairs, texts):
    """The files that the edit makes, by path. `texts` has those that other edits have changed before."""
    made = {}
    for file, old, new in pairs:
        path = os.path.join(crate, file)
        if not file.startswith("src/") or not os.path.isfile(path):
            raise BadEdit(f"there is no source file {file}")
        text = made.get(path) or texts.get(path) or read(path)
        count = text.count(old)
        if count != 1:
            raise BadEdit(f"an old text stands {count} times in {file}: {old[:80]}")
        made[path] = text.replace(old, new)
    return made
