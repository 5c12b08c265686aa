"""Stack traces as Sentry writes them, with bounds on all that they take."""
from __future__ import annotations

import dataclasses
import functools
import linecache
import logging
import os
import re
import sys
import sysconfig
from types import FrameType, TracebackType
from typing import Any, Callable, Dict, FrozenSet, Iterator, List, Optional, Tuple

MOST_FRAMES, MOST_VARS, LONGEST, CONTEXT = 100, 25, 200, 5
FILTERED = "[Filtered]"
SECRETS = "passw|pwd|secret|token|api_?key|auth|credential|cookie|session|csrf|private|bearer|ssn|card_?number"
SECRET = re.compile(SECRETS, re.I)
# Where code lies that is none of the application.
PLACES = (sysconfig.get_path(it) for it in ("stdlib", "platstdlib", "purelib", "platlib"))
OUTSIDE = tuple({os.path.realpath(it) + os.sep for it in (*PLACES, os.path.dirname(__file__)) if it})
# Files of those that report: of the package, and of loggers.
OWN = (os.path.dirname(__file__) + os.sep, os.path.dirname(logging.__file__) + os.sep)

Step = Tuple[FrameType, Optional[int]]


@dataclasses.dataclass(frozen=True)
class FrameOptions:
    """What is said of a frame: its local variables, and the modules that are or aren't the application's."""

    with_locals: bool = False
    with_source: bool = True
    in_app_include: FrozenSet[str] = frozenset()
    in_app_exclude: FrozenSet[str] = frozenset()


def is_secret(name: Any) -> bool:
    return isinstance(name, str) and SECRET.search(name) is not None


def shown(name: str, value: Any, depth: int = 2) -> Any:
    """A local variable, bounded: texts, lists and objects of these. One whose name says that it is secret is left out."""
    if is_secret(name):
        return FILTERED
    try:
        return bounded(value, depth)
    except Exception:
        return f"<{type(value).__qualname__}>"


def bounded(value: Any, depth: int) -> Any:
    if isinstance(value, dict) and depth > 0:
        found = [(key, it) for key, it in [*value.items()][:MOST_VARS] if isinstance(key, (str, int))]
        return {str(key)[:LONGEST]: shown(str(key), it, depth - 1) for key, it in found}
    if isinstance(value, (list, tuple)) and depth > 0:
        return [shown("", it, depth - 1) for it in value[:MOST_VARS]]
    if isinstance(value, (list, tuple, set, frozenset, dict)):
        return f"<{type(value).__name__} of {len(value)}>"
    if isinstance(value, (str, bytes)):
        value = value[:LONGEST]
    return repr(value)[:LONGEST]


def begins_with(module: str, names: FrozenSet[str]) -> bool:
    """Whether a module, or what stands before one of its dots, is among the names, however many there are."""
    if not names:
        return False
    at = len(module)
    while at >= 0:
        if module[:at] in names:
            return True
        at = module.rfind(".", 0, at)
    return False


def in_app(path: str, module: str, options: FrameOptions) -> bool:
    """Whether a frame is the application's: as the options say of its module, or by where its file lies."""
    if begins_with(module, options.in_app_include):
        return True
    if path.startswith("<"):  # what is typed in, or a program of one argument; the rest is made by other code
        return module == "__main__"
    return not (begins_with(module, options.in_app_exclude) or lies_outside(path))


@functools.lru_cache(1024)
def lies_outside(path: str) -> bool:
    """Whether a file is of the standard library, of what is installed, or of the package."""
    parts = f"{os.sep}site-packages{os.sep}", f"{os.sep}dist-packages{os.sep}"
    return any(it in path for it in parts) or whole(path, os.path.realpath).startswith(OUTSIDE)


def whole(path: str, function: Callable[[str], str]) -> str:
    """The whole path of a file by one of these functions, or, where the folder that it is told from is removed, as it is."""
    try:
        return function(path)
    except (OSError, ValueError):
        return path


@functools.lru_cache(1024)
def file_of(path: str, module: str) -> str:
    """The path of a file from the folder on that holds its package."""
    base = getattr(sys.modules.get(module.partition(".")[0]), "__file__", None)
    if base and "." in module:
        root = os.path.dirname(os.path.dirname(base)) + os.sep
        if path.startswith(root):
            return path[len(root) :]
    return os.path.basename(path)


def source_of(path: str, line: Optional[int], frame: FrameType) -> Dict[str, Any]:
    """A line of source, and those around it."""
    try:
        lines = linecache.getlines(path, frame.f_globals)
    except Exception:
        return {}
    if line is None or not 0 < line <= len(lines):
        return {}
    first = max(0, line - 1 - CONTEXT)
    shown = [it.rstrip("\r\n")[:LONGEST] for it in lines[first : line + CONTEXT]]
    at = line - 1 - first
    return {"pre_context": shown[:at], "context_line": shown[at], "post_context": shown[at + 1 :]}


def frame_of(frame: FrameType, line: Optional[int], options: FrameOptions) -> Dict[str, Any]:
    code, module = frame.f_code, frame.f_globals.get("__name__")
    module = module if isinstance(module, str) else ""
    path = code.co_filename
    found: Dict[str, Any] = {
        "filename": file_of(path, module),
        "abs_path": whole(path, os.path.abspath) if not path.startswith("<") else path,
        "function": getattr(code, "co_qualname", code.co_name),
        "module": module,
        "lineno": line or 0,
        "in_app": in_app(path, module, options),
    }
    if options.with_source:
        found.update(source_of(path, line, frame))
    if options.with_locals:
        local = frame.f_locals
        found["vars"] = {name: shown(name, local[name]) for name in list(local)[:MOST_VARS]}
    return found


def steps_of(trace: Optional[TracebackType]) -> Iterator[Step]:
    while trace is not None:
        yield trace.tb_frame, trace.tb_lineno
        trace = trace.tb_next


def steps_to(frame: Optional[FrameType]) -> List[Step]:
    """The frames that led to this one, the outermost first, without those by which the program reports."""
    steps: List[Step] = []
    while frame is not None:
        steps.append((frame, frame.f_lineno))
        frame = frame.f_back
    while steps and steps[0][0].f_code.co_filename.startswith(OWN):
        steps.pop(0)
    return steps[::-1]


def frames_of(steps: List[Step], options: FrameOptions) -> Optional[Dict[str, Any]]:
    """A stack trace of these frames, or none. Of more than 100 the middle ones are left out."""
    if len(steps) > MOST_FRAMES:
        steps = steps[: MOST_FRAMES // 2] + steps[-(MOST_FRAMES // 2) :]
    frames = [frame_of(frame, line, options) for frame, line in steps]
    if frames and not any(it["in_app"] for it in frames) and not options.in_app_exclude:
        for it in frames:
            it["in_app"] = True
    return {"frames": frames} if frames else None


def stacktrace_of(trace: Optional[TracebackType], options: FrameOptions = FrameOptions()) -> Optional[Dict[str, Any]]:
    """The frames of a traceback, the outermost first, or none."""
    return frames_of(list(steps_of(trace)), options)
