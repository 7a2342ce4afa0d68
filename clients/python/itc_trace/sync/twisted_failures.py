"""Leaves what stands in the place of Twisted's functions out of its failures, which keep the frames they came through.

Whoever prints a failure, or its traceback in a log, so sees what he would see untraced.
"""

from __future__ import annotations

from types import ModuleType
from typing import Any

from ..model.lines import state
from .base import STAND_INS, Patches
from .tracebacks import FOLDER, LAUNCH
from .twisted_flows import once_followed

Frame = tuple[Any, ...]
"""A frame as a failure keeps it: the function's name, its file, the line, and variables."""
_places: set[tuple[str, str, int]] = set()
_counted = [0]
"""How many stand-ins there were as their places were looked for."""


def put(patches: Patches) -> None:
    once_followed(patches, "twisted.python.failure", _put_all)


def _put_all(patches: Patches, module: ModuleType) -> None:
    patches.wrap(vars(module)["Failure"], "__init__", _begin_failure)


def _begin_failure(original: Any) -> Any:
    def __init__(self: Any, *words: Any, **named: Any) -> None:
        original(self, *words, **named)
        if state.is_patched:
            for name in ("frames", "stack"):
                frames = self.__dict__.get(name)
                if type(frames) is list and frames:
                    frames[:] = _of_program(frames)

    return __init__


def _of_program(frames: list[Frame]) -> list[Frame]:
    """From the outermost one inwards. The package runs the program from further out."""
    begin = max((number for number, one in enumerate(frames, 1) if one[1] == LAUNCH), default=0)
    return [one for one in frames[begin:] if not _is_stand_in(one)]


def _is_stand_in(frame: Frame) -> bool:
    """Each stands at the first line of the other function, where no other frame is."""
    if len(STAND_INS) != _counted[0]:
        _counted[0] = len(STAND_INS)
        _places.update((code.co_name, code.co_filename, code.co_firstlineno) for code in list(STAND_INS.values()))
    return tuple(frame[:3]) in _places or frame[1].startswith(FOLDER)
