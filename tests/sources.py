"""What the sources of crates/ declare: exports, functions, records. It reads files, and proves nothing."""
import glob
import os
import re

TOP = os.path.dirname(os.path.dirname(os.path.abspath(__file__)))
CRATES = os.path.join(TOP, "crates")
ITEM = re.compile(r"^pub (?:const )?(?:struct|enum|trait|type|fn|const) (\w+)", re.M)


def read(*path):
    with open(os.path.join(TOP, *path), encoding="utf-8") as file:
        return file.read()


def crate_lines(top=TOP):
    """Of each line of crates.txt the name of the crate with the words beside it, and the libraries that it stands on."""
    for line in read(top, "crates.txt").splitlines():
        head, colon, below = line.partition("#")[0].partition(":")
        if colon:
            yield head.split(), below.split()


def printed_by_examples():
    """What each example of crates/examples prints, by its name: its part of the file stdout."""
    parts = re.split(r"^== (\w+)\n", read("crates", "examples", "stdout"), flags=re.M)
    return dict(zip(parts[1::2], parts[2::2]))


def sources():
    """The text of each source file of the repository."""
    for file in sorted(glob.glob(os.path.join(CRATES, "*", "src", "**", "*.rt"), recursive=True)):
        yield read(file)


def module_file(path):
    """The source of the module `(crate, module, ..)`, or None if that is no module."""
    base = os.path.join(CRATES, path[0], "src", *path[1:])
    file = os.path.join(base, "lib.rt") if len(path) == 1 else base + ".rt"
    return file if os.path.isfile(file) else None


def leaves(tree, prefix=()):
    """The (path, name) of each leaf of a use tree such as `a::{b, c as d}`."""
    if "{" in tree:
        head, inner = tree.split("{", 1)
        prefix += tuple(part for part in head.strip().split("::") if part)
        for leaf in inner.rsplit("}", 1)[0].split(","):
            if leaf.strip():
                yield from leaves(leaf, prefix)
    else:
        path, _, name = tree.partition(" as ")
        path = prefix + tuple(path.strip().split("::"))
        yield path, name.strip() or path[-1]


def macros(crate):
    """The exported macros of a crate, each with its `!`."""
    files = glob.glob(os.path.join(CRATES, crate, "src", "**", "*.rt"), recursive=True)
    found = (re.findall(r"^#\[macro_export\]\nmacro_rules! (\w+)", read(file), re.M) for file in files)
    return {name + "!" for names in found for name in names}


def exports(crate):
    """Every public path below a crate, and its macros. A module that is reached by two paths is gone through once."""
    names, seen, left = macros(crate), set(), [((crate,), "")]
    while left:
        module, prefix = left.pop(0)
        if module in seen:
            continue
        seen.add(module)
        text = re.sub(r"//.*", "", read(module_file(module)))
        names.update(prefix + name for name in ITEM.findall(text))
        found = [(module + (name,), name) for name in re.findall(r"^pub mod (\w+)", text, re.M)]
        for tree in re.findall(r"^pub use ([^;]+);", text, re.M):
            for path, name in leaves(tree):
                path = (crate,) + path[1:] if path[0] == "crate" else path
                found.append((path if module_file(path[:1]) else module + path, name))
        for path, name in found:
            names.add(prefix + name)
            if module_file(path):
                left.append((path, prefix + name + "::"))
    return names
