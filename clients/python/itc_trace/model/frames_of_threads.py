"""Frames of other threads, looked at while no thread goes on.

What is asked of a frame may be made by that, as a dictionary of its variables. Up to Python 3.11 garbage is collected
as something is made, and that may let other threads go on. If the thread of the frame leaves it then, the interpreter
reads and writes where the frame was, and the process may end by SIGSEGV. So garbage is collected later. Between
operators no thread goes on, but behind calls: so the program cannot see that its collector was off.

Up to Python 3.12 the dictionary is a copy that the frame keeps, and that the next look brings up to date. What a
variable no longer refers to would go in the middle of that, and its finalizer let other threads go on. So the copy is
emptied before they do. It stays if a function in Python may follow threads: behind each call of that the interpreter
takes the variables from the copy.
"""

from __future__ import annotations

import gc
import sys
import threading
from collections.abc import Iterator
from operator import methodcaller
from types import AsyncGeneratorType, CoroutineType, FrameType, GeneratorType
from typing import Any, TypeVar

T = TypeVar("T")


class _Collector:
    """The collector of garbage, by operators."""

    __neg__ = gc.disable
    __pos__ = gc.enable
    __invert__ = gc.isenabled


class _Threads:
    """The threads, by an operator."""

    __invert__ = vars(sys)["_current_frames"]


class _References:
    """How many references there are of something, by an operator."""

    __getitem__ = sys.getrefcount


class _Emptied:
    """Takes out all that a dictionary has, by an operator."""

    __getitem__ = methodcaller("clear")


_collector: Any = _Collector()
_threads: Any = _Threads()
_references: Any = _References()
_emptied: Any = _Emptied()
_OPTIMIZED = 1
"""The flag of code whose variables are not in a namespace."""
_IS_COPY = sys.version_info < (3, 13)


def _references_of_copy() -> int:
    """How many references there are of a copy that its frame alone has, where it is looked at."""
    frame: Any = (one for one in "").gi_frame
    variables = frame.f_locals
    return int(_references[variables])


_OF_COPY = _references_of_copy()
_followers: set[str] = set()


def follows(name: str) -> None:
    """From here on a function in Python of this name may follow threads: a debugger, a profiler, or one for signals."""
    _followers.add(name)


def are_followed() -> bool:
    """Whether threads may be followed, by what has told so or by what was there before."""
    is_this_one = sys.gettrace() is not None or sys.getprofile() is not None
    return bool(_followers) or is_this_one or threading.gettrace() is not None or threading.getprofile() is not None


def locals_of(frame: FrameType) -> dict[str, Any]:
    """The variables of the frame. It keeps no copy of them, unless the program or a debugger may have that."""
    is_emptied = _IS_COPY and not are_followed()
    is_on = ~_collector
    if is_on:
        -_collector
    try:
        variables = frame.f_locals
        if is_emptied and frame.f_code.co_flags & _OPTIMIZED and _references[variables] <= _OF_COPY:
            found = {**variables}
            _emptied[variables]
            return found
        return variables
    finally:
        if is_on:
            +_collector


def caller_of(frame: FrameType) -> FrameType | None:
    """The frame that has called this one."""
    if not ~_collector:
        return frame.f_back
    -_collector
    try:
        return frame.f_back
    finally:
        +_collector


def frame_of(suspended: object) -> FrameType | None:
    """The frame of a coroutine or a generator that another thread may go on with. None if it is over, or none of them.
    """
    kind = type(suspended)
    what = 1 if kind is CoroutineType else 2 if kind is GeneratorType else 3 if kind is AsyncGeneratorType else 0
    if not what:
        return None
    one: Any = suspended
    is_on = ~_collector
    if is_on:
        -_collector
    try:
        found: FrameType | None = one.cr_frame if what == 1 else one.gi_frame if what == 2 else one.ag_frame
        return found
    finally:
        if is_on:
            +_collector


def all_at_once(values: Iterator[T]) -> list[T]:
    """What an iterator gives that is made in C alone, while no thread goes on.

    What the iterator holds is let go of before, if nobody else has it.
    """
    is_on = ~_collector
    if is_on:
        -_collector
    try:
        found = [*values]
        del values
        return found
    finally:
        if is_on:
            +_collector


def frames_now() -> dict[int, FrameType]:
    """The frame that each thread is in, by the thread's identity."""
    if not ~_collector:
        return ~_threads  # type: ignore[no-any-return]
    -_collector
    try:
        return ~_threads  # type: ignore[no-any-return]
    finally:
        +_collector
