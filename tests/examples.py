"""The examples in the folders of examples/: what each gives to its program, and what the program must print.

No two have one name. NAME.scenario and NAME.replay are what the program of that name reads. NAME.out is what it must print, NAME.err what it
must say on standard error, and NAME.status its exit status; a file that lacks stands for nothing, and for status 0.
NAME.scenario.bad and NAME.replay.bad list lines of which each is, by itself, a bad command of that program.
"""
import glob
import os
import subprocess
import sys
from collections import namedtuple

from sources import TOP, printed_by_examples

FOLDER = os.path.join(TOP, "examples")
PROGRAMS = ("scenario", "replay")
# The argument with which `scenario` plays its input over the lock.
LOCK = "lock"
# Those with which it does so by other values where it makes the calls on transactions and spans.
OTHER_SPAN_CALLS = ("either", "lent")
# The argument before these, or alone, with which `scenario` prints the bytes of envelopes too.
BYTES = "--envelopes"
# Examples that have an item of each type between them, and play within milliseconds.
OF_EACH_ITEM = (
    "attachments_stand_between_event_and_report",
    "sessions_of_requests_by_user",
    "session_updates_stand_between_event_and_attachments",
    "finished_transactions_keep_their_status",
    "logs_and_metrics_that_options_switch_off",
)
# The lines that start a transaction. Without one there is no call on a transaction or a span that is held.
STARTS = (b"tx ", b"txsampled ", b"txat ", b"txfrom ", b"continue ")
# The program that runs a part of itself by its name.
PARTS = "examples"
# How long a run may take.
SECONDS = 60
# The files that its part `spool` writes.
SPOOL = os.path.join(TOP, "tests", "spool")

# What a run of a program gives: its exit status, and what it wrote.
Run = namedtuple("Run", "status out err")
# An example: a name, its program, the input, the run that is wanted, and the program's arguments.
Example = namedtuple("Example", "name program input wanted arguments", defaults=((),))


def program_path(name):
    """Where the program is: where the environment says (SCENARIO, REPLAY, EXAMPLES), or where the gate leaves the proved
    one."""
    return os.environ.get(name.upper()) or os.path.join(TOP, "crates", name, "out", name)


def read(path, otherwise=b""):
    if not os.path.isfile(path):
        return otherwise
    with open(path, "rb") as file:
        return file.read()


def plain_example(name, program, path):
    beside = os.path.join(os.path.dirname(path), name)
    wanted = Run(int(read(beside + ".status", b"0")), read(beside + ".out"), read(beside + ".err"))
    return Example(name, program, read(path), wanted)


def bad_lines(name, program, path):
    """One example for each line of the file that is no comment: it stands on line 3, and ends the run."""
    wanted = Run(2, b"refused E2\n", b"%s: line 3: bad command\n" % program.encode())
    for number, line in enumerate(read(path).removesuffix(b"\n").split(b"\n"), 1):
        if not line.startswith(b"#"):
            whole = b"message 0 info x\n\n%s\nmessage 0 info y\n" % line
            yield Example(f"{name}.bad line {number}", program, whole, wanted)


def stem(path):
    """The path of a file up to the first dot of its name."""
    folder, name = os.path.split(path)
    return os.path.join(folder, name.partition(".")[0])


def stop_on_strays(inputs):
    """Stops where two inputs share a name, or where a file lies beside no input of its name."""
    stems = [stem(it) for it in inputs]
    names = [os.path.basename(it) for it in stems]
    shared = {it for it in names if names.count(it) > 1}
    others = {os.path.join(at, it) for at, _, found in os.walk(FOLDER) for it in found} - set(inputs)
    strays = {it for it in others if stem(it) not in stems or not it.endswith((".out", ".err", ".status"))}
    if shared or strays:
        told = sorted(shared | {os.path.relpath(it, FOLDER) for it in strays})
        sys.exit(f"examples/: no input, or more than one, for {', '.join(told[:10])}")


def stop_without_programs(found):
    """Stops where a program that the examples are for isn't there."""
    missing = [it for it in sorted({it.program for it in found}) if not os.access(program_path(it), os.X_OK)]
    for program in missing:
        print(f"{program_path(program)} is not there: rt ci, or rt run in crates/{program}, makes it")
    if missing:
        print(f"0 passed, {len(found)} failed")
        sys.exit(1)


def listed(names):
    """The examples, by name; those with these names alone, if there are any."""
    endings = [f".{program}{kind}" for program in PROGRAMS for kind in ("", ".bad")]
    inputs = sorted(path for end in endings for path in glob.glob(os.path.join(FOLDER, "*", "*" + end)))
    stop_on_strays(inputs)
    found = []
    for path in inputs:
        name, program, *bad = os.path.basename(path).split(".")
        if not names or name in names:
            found += bad_lines(name, program, path) if bad else [plain_example(name, program, path)]
    unknown = sorted(set(names) - {it.name.partition(".")[0] for it in found})
    if unknown:
        sys.exit(f"examples/: there is no example {', '.join(unknown)}")
    return found


def find(names):
    """The same, where their programs are there."""
    found = listed(names)
    stop_without_programs(found)
    return found


def ways_over_the_lock(example):
    """The arguments with which `scenario` plays the example over the lock: all of them if transactions start in it."""
    has_spans = any(line.startswith(STARTS) for line in example.input.split(b"\n"))
    return (LOCK, *OTHER_SPAN_CALLS) if has_spans else (LOCK,)


def over_the_lock(found):
    """The scenarios among the examples, without single bad lines, as `scenario` plays them over the lock."""
    return [
        it._replace(name=f"{it.name}, {word}", arguments=(word,))
        for it in found
        if it.program == "scenario" and ".bad " not in it.name
        for word in ways_over_the_lock(it)
    ]


def with_bytes(found):
    """The same scenarios, as `scenario` prints the bytes of their envelopes too."""
    return [it._replace(name=f"{it.name}, bytes", arguments=(BYTES, *it.arguments)) for it in found if it.program == "scenario"]


def runs_by_name():
    """A run of each part of the program `examples` by its name, which must print what the part of the file stdout has."""
    found = [
        Example(f"{PARTS} {name}", PARTS, b"", Run(0, printed.encode(), b""), (name,))
        for name, printed in printed_by_examples().items()
    ]
    stop_without_programs(found)
    return found


def files_of(folder):
    """The bytes of each file of a folder, by the names in order."""
    return {name: read(os.path.join(folder, name)) for name in sorted(os.listdir(folder))}


def run(program, arguments=(), **given):
    """What a run of the program gives, or in words why there is none. It has no variables, unless `env` is given."""
    given = {"stdout": subprocess.PIPE, "stderr": subprocess.PIPE, "env": {}, **given}
    try:
        ran = subprocess.run([program_path(program), *arguments], timeout=SECONDS, **given)
    except subprocess.TimeoutExpired:
        return f"it had not ended after {SECONDS} seconds"
    return Run(ran.returncode, ran.stdout or b"", ran.stderr)


def around(line, at):
    """The line near a column, on one line of a terminal."""
    if line is None:
        return "no line"
    start = max(at - 40, 0)
    return ("'.." if start else "'") + line[start : at + 80] + ("..'" if line[at + 80 :] else "'")


def first_difference(what, got, wanted):
    """Says in which line one text is not the other, and what stands there, if they differ."""
    if got == wanted:
        return None
    lines = [[*text.split(b"\n"), None] for text in (got, wanted)]
    number = next(i for i, (a, b) in enumerate(zip(*lines)) if a != b)
    one, other = (None if it is None else it.decode("utf-8", "backslashreplace") for it in (lines[0][number], lines[1][number]))
    at = len(os.path.commonprefix([one or "", other or ""]))
    return f"line {number + 1} of {what} is {around(one, at)}, and not {around(other, at)}"


def fault(got, wanted):
    """What is wrong with a run, in one line, or none."""
    if isinstance(got, str):
        return got
    return (
        first_difference("the output", got.out, wanted.out)
        or first_difference("standard error", got.err, wanted.err)
        or (None if got.status == wanted.status else f"the status is {got.status}, and not {wanted.status}")
    )
