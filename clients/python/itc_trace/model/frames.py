"""Where the program itself stands: frames of its code, and places in that."""

from __future__ import annotations

from sys import _getframe
from types import CodeType, FrameType
from typing import Any

INTERNAL = frozenset({
    "threading", "queue", "concurrent", "asyncio", "logging", "functools", "importlib", "_frozen_importlib", "atexit",
    "itc_trace",
})
"""Library modules whose own locks and queues are not traced: what they promise is traced as a whole."""

INTERNAL_MODULES = frozenset(
    f"multiprocessing.{one}" for one in ("queues", "resource_tracker", "forkserver", "util", "heap", "managers")
)
"""Modules of a package that is not internal as a whole."""

TRACED_LIBRARIES = frozenset({"trio", "gevent", "twisted"})
"""Other libraries whose promises are traced as a whole. They may be watched, too."""

INTERNAL_NAMES: dict[Any, bool] = {}
"""Whether a module is one of these, of those that were asked for."""


def frame_at(depth: int) -> FrameType | None:
    """The frame so many calls above the caller.

    None, where the interpreter itself has called, as at the program's end.
    """
    try:
        return _getframe(depth + 1)
    except ValueError:
        return None


def is_internal(frame: FrameType | None) -> bool:
    """Whether this is code of the library modules that are traced as a whole, or of this package."""
    if frame is None:
        return False
    name = frame.f_globals.get("__name__")
    known = INTERNAL_NAMES.get(name)
    if known is None:
        known = INTERNAL_NAMES[name] = isinstance(name, str) and (
            name.partition(".")[0] in INTERNAL | TRACED_LIBRARIES or name in INTERNAL_MODULES
        )
    return known


def place(frame: FrameType | None) -> tuple[CodeType | None, int]:
    """Where the program itself stands: the innermost frame that is not internal."""
    while frame is not None:
        is_known = INTERNAL_NAMES.get(frame.f_globals.get("__name__"))
        if not (is_internal(frame) if is_known is None else is_known):
            return frame.f_code, frame.f_lasti
        frame = frame.f_back
    return None, 0


def place_of(frame: FrameType | None) -> tuple[CodeType | None, int]:
    return (None, 0) if frame is None else (frame.f_code, frame.f_lasti)


def line_of(code: CodeType, instruction: int) -> int:
    """The source line of an instruction."""
    for start, end, line in code.co_lines():
        if start <= instruction < end and line is not None:
            return line
    return code.co_firstlineno
