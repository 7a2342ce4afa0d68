"""A debugger or a profiler of the program follows its threads by a function, which sees no frame of the package.

What is written in C follows by itself: it sees those that stand for the library's functions, and calls of hooks.
"""

from __future__ import annotations

import os
import sys
from collections.abc import Callable
from types import FrameType
from typing import Any

from ..model.frames_of_threads import follows
from .base import STAND_INS, Patches, like, named_like

PACKAGE = os.path.dirname(os.path.dirname(os.path.abspath(__file__))) + os.sep
ASIDE = tuple(os.path.join(PACKAGE, folder, "") for folder in ("watch", "record", "model"))
"""What is in these folders calls nothing of the program."""
DEEPEST = 8
"""So many frames of the library there are below one of these, at most."""
HOOKS = f"{__package__.partition('.')[0]}.watch.quick"
"""The module of the hooks in C."""
OWN_NAME = HOOKS.partition(".")[0]
OF_FUNCTION = "c_"
"""The events of a function in C begin so."""

Follow = Callable[[FrameType, str, Any], Any]


def put(patches: Patches) -> None:
    for name in ("settrace", "_settraceallthreads"):
        _put_one(patches, name, _without_frames(Tracing))
    for name in ("setprofile", "_setprofileallthreads"):
        _put_one(patches, name, _without_frames(Profiling))
    for name in ("gettrace", "getprofile"):
        _put_one(patches, name, _as_given)
    monitoring: Any = getattr(sys, "monitoring", None)
    if monitoring is not None:
        patches.replace(monitoring, "register_callback", like(monitoring.register_callback, _register(monitoring)))


def _put_one(patches: Patches, name: str, make: Callable[[Any], Any]) -> None:
    if hasattr(sys, name):
        patches.wrap(sys, name, make)


class Follower:
    """Stands for a function of the program that follows a thread."""

    __slots__ = ("function",)

    def __init__(self, function: Follow) -> None:
        self.function = function


class Tracing(Follower):
    """Follows each line. A frame of which the function is not told is not followed."""

    __slots__ = ()

    def __call__(self, frame: FrameType, event: str, argument: Any) -> Any:
        code = frame.f_code
        if code.co_filename.startswith(PACKAGE) or id(code) in STAND_INS or _is_aside(frame):
            return None
        return self.function(frame, event, argument)


class Profiling(Follower):
    """Follows calls. What stands for a function of the library stays, as what it calls is followed, too."""

    __slots__ = ()

    def __call__(self, frame: FrameType, event: str, argument: Any) -> None:
        is_of_c = event.startswith(OF_FUNCTION)
        is_seen = not is_of_c or getattr(argument, "__module__", None) != HOOKS
        if frame.f_code.co_filename == __file__:  # It is the call by which following begins or ends.
            is_seen = is_of_c
            frame = frame.f_back or frame
        if is_seen and not _is_aside(frame):
            self.function(frame, event, argument)


def _register(monitoring: Any) -> Any:
    """Tells a tool of the program of no code of the package, and of no call of it."""
    original, events = monitoring.register_callback, monitoring.events
    calls = events.CALL | events.C_RETURN | events.C_RAISE
    given: dict[tuple[int, int], Any] = {}

    def register_callback(tool_id: int, event: int, func: Any, /) -> Any:
        def follow(code: Any, *words: Any) -> Any:
            if code.co_filename.startswith(PACKAGE) or id(code) in STAND_INS or _is_aside(sys._getframe(1)):
                return None
            if event & calls and str(getattr(words[1], "__module__", "")).partition(".")[0] == OWN_NAME:
                return None
            return func(code, *words)

        before = original(tool_id, event, None if func is None else named_like(func, follow))
        known = given.get((tool_id, event))
        given[tool_id, event] = (func, follow)
        return known[0] if known is not None and before is known[1] else before

    return register_callback


def _is_aside(frame: FrameType) -> bool:
    """Whether it is what a hook does, or a note: code of the package, or of the library below that."""
    one: FrameType | None = frame
    for _ in range(DEEPEST):
        if one is None:
            return False
        if one.f_code.co_filename.startswith(ASIDE):
            return True
        one = one.f_back
    return False


def _without_frames(kind: type[Follower]) -> Callable[[Any], Any]:
    def make(original: Any) -> Any:
        def follow(function: Any, /) -> None:
            if function is not None:
                follows(kind.__name__)
            original(function if function is None else kind(function))

        return follow

    return make


def _as_given(original: Any) -> Any:
    def following() -> Any:
        found = original()
        return found.function if isinstance(found, Follower) else found

    return following
