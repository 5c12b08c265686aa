"""What interfaces/c/dochirwa.h declares."""
import re

from sources import read

HEADER = "interfaces/c/dochirwa.h"


def functions():
    """Each function: its result and its arguments' types, as C writes them."""
    text = re.sub(r"/\*.*?\*/", "", read(HEADER), flags=re.S)
    found = re.findall(r"\b(void|uint32_t) (dochirwa_\w+)\(([^)]*)\);", text)
    types = lambda arguments: [re.sub(r" ?\w+$", "", it.strip()) for it in arguments.split(",") if it != "void"]
    return {name: (result, types(arguments)) for result, name, arguments in found}


def enumerations():
    """The names of each enumeration, without what they begin with."""
    found = {}
    for names in re.findall(r"^enum \{ (.*) \};$", read(HEADER), flags=re.M):
        kind = next((it for it in ("FAULT", "LOG", "SESSION", "LOST", "BY") if names.startswith(f"DOCHIRWA_{it}_")), None)
        begin = f"DOCHIRWA_{kind}_" if kind else "DOCHIRWA_"
        names = [it.split(" = ")[0].removeprefix(begin).lower() for it in names.split(", ")]
        found[kind or names[0].upper()] = names
    return found


def version():
    """The version that the header is of, as a text."""
    return re.search(r'^#define DOCHIRWA_VERSION_TEXT "(.*)"$', read(HEADER), flags=re.M)[1]
