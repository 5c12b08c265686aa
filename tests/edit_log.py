"""The log tools/tried-edits/NAME.txt: what the prover said of each edit of crates/NAME/wrong, when, and on what text.

A line is CRATE/EDIT, the verdict, the date (UTC), two sums and, of a refused edit, what the prover said first. The first
sum is of the edit and the sources of its crate, the second of the sources of all crates below. A line is of the present
text if both are as now. Where only the second differs, the edit is to be tried again only if what the crate cites of
those below has changed.
"""
import fcntl
import glob
import hashlib
import os
import re
from collections import namedtuple

from sources import TOP, crate_lines, read

LOG = "tools/tried-edits"
VERDICTS = ("refused", "proved", "does-not-compile")
SOURCES = ("src", "specs", "proofs")
LINE = re.compile(r"(\w+/\w+) +(\S+) +(\d{4}-\d\d-\d\d) +([0-9a-f]{10}) +([0-9a-f]{10})(?: +(.*))?")
HEAD = """# When and on what text each edit of wrong/ was last tried (tests/edit_log.py has the form of a line).
# Written by tools/try-edits.
"""
# What tells the age of an edit's line.
PRESENT, OLDER_BELOW, OLDER, NONE = "of the present text", "the crates below were older", "of an older text", "never tried"

Tried = namedtuple("Tried", "verdict date own below said")


def crates_in_order(top=TOP):
    """The crates of crates.txt, lowest first, with those of the repository that each stands on."""
    stands_on, order = {words[0]: below for words, below in crate_lines(top)}, []

    def add(crate):
        for it in stands_on.get(crate, ()):
            add(it)
        if crate in stands_on and crate not in order:
            order.append(crate)

    for crate in stands_on:
        add(crate)
    return order, stands_on


def below(crates, stands_on):
    """All crates of the repository that one of these stands on."""
    found = {it for crate in crates for it in stands_on[crate] if it in stands_on}
    return found | below(found, stands_on) if found else found


def edits_to_try(top=TOP):
    """The paths of the edits of crates/*/wrong."""
    return sorted(glob.glob(f"{top}/crates/*/wrong/*.edit"))


def crate_of(path):
    return path.split(os.sep)[-3]


def key_of(path):
    """CRATE/EDIT, as the log names an edit."""
    return f"{crate_of(path)}/{os.path.basename(path).removesuffix('.edit')}"


class Sums:
    """The sums of edits and sources of a work tree."""

    def __init__(self, top=TOP):
        self.top, self.of_crate, self.of_those_below = top, {}, {}
        self.stands_on = crates_in_order(top)[1]

    def crate(self, crate):
        """The sum of a crate's sources."""
        if crate not in self.of_crate:
            made, folder = hashlib.sha256(), f"{self.top}/crates/{crate}"
            for part in SOURCES:
                for path in sorted(glob.glob(f"{folder}/{part}/**", recursive=True)):
                    if os.path.isfile(path):
                        made.update(repr((os.path.relpath(path, folder), read(path))).encode())
            self.of_crate[crate] = made.hexdigest()
        return self.of_crate[crate]

    def below(self, crate):
        """The sum of the sources of all crates below one."""
        if crate not in self.of_those_below:
            sums = [(it, self.crate(it)) for it in sorted(below([crate], self.stands_on))]
            self.of_those_below[crate] = short_sum(sums)
        return self.of_those_below[crate]

    def edit(self, path):
        """The two sums of an edit's line."""
        crate = crate_of(path)
        return short_sum((read(path), self.crate(crate))), self.below(crate)


def short_sum(values):
    return hashlib.sha256(repr(values).encode()).hexdigest()[:10]


def lines_of(crate, text):
    """What was tried of a crate, by CRATE/EDIT, and the lines that can't be read."""
    found, bad = {}, []
    for line in text.split("\n"):
        if line and not line.startswith("#"):
            parts = LINE.fullmatch(line)
            if parts and parts[2] in VERDICTS and parts[1] not in found and parts[1].startswith(f"{crate}/"):
                found[parts[1]] = Tried(*parts.groups()[1:])
            else:
                bad.append(line)
    return found, bad


def read_log(top=TOP, crate="*"):
    """The log of a work tree, or of a crate of it, empty where there is none."""
    found, bad = {}, []
    for path in sorted(glob.glob(f"{top}/{LOG}/{crate}.txt")):
        of_file, bad_of_file = lines_of(os.path.basename(path).removesuffix(".txt"), read(path))
        found |= of_file
        bad += bad_of_file
    return found, bad


def write_line(key, tried, top=TOP):
    """Writes an edit's line in place of its older one, and leaves out the lines of edits that no longer stand."""
    crate = key.partition("/")[0]
    os.makedirs(f"{top}/{LOG}", exist_ok=True)
    folder = os.open(f"{top}/{LOG}", os.O_RDONLY)
    try:
        # (another run may write too)
        fcntl.flock(folder, fcntl.LOCK_EX)
        log = read_log(top, crate)[0] | {key: tried}
        here = {key_of(it) for it in edits_to_try(top)}
        lines = [" ".join(filter(None, (it, *log[it]))) for it in sorted(log) if it in here]
        path = f"{top}/{LOG}/{crate}.txt"
        with open(f"{path}.new", "w", encoding="utf-8") as file:
            file.write(HEAD + "".join(f"{it}\n" for it in lines))
        os.replace(file.name, path)
    finally:
        os.close(folder)


def ages(paths, top=TOP):
    """How old the line of each edit is, by path."""
    log, sums = read_log(top)[0], Sums(top)

    def age(path):
        tried = log.get(key_of(path))
        own, others = sums.edit(path)
        if not tried:
            return NONE
        return OLDER if tried.own != own else OLDER_BELOW if tried.below != others else PRESENT

    return {it: age(it) for it in paths}


def summary(top=TOP):
    """The log in a sentence."""
    log, paths = read_log(top)[0], edits_to_try(top)
    age = ages(paths, top)
    count = lambda wanted: sum(1 for it in age.values() if it == wanted)
    verdict = lambda wanted: sum(1 for it in paths if age[it] == PRESENT and log[key_of(it)].verdict == wanted)
    said = ", ".join(f"{verdict(it)} {it.replace('-', ' ')}" for it in VERDICTS)
    return f"the log of {len(paths)} edits: on the present text {said}; {count(OLDER_BELOW)} lines are older only below, {count(OLDER)} older, {count(NONE)} lack"
