"""Loops that began before there was a second task, and that go on beside it: nobody has noted what they go through.

A loop asks at the begin of its body whether it is one of these, by a set that is empty in most programs.
"""

from __future__ import annotations

import builtins
import gc
from collections.abc import Callable, Iterator
from types import AsyncGeneratorType, CoroutineType, FrameType, GeneratorType
from typing import Any

from ..model.frames_of_threads import caller_of, frame_of, frames_now
from . import passed_over
from .helper import quick
from .places import LOOPS, LOOPS_OF, OF_OTHERS

RUNS: dict[int, str] = {
    id(GeneratorType): "gi_running", id(CoroutineType): "cr_running", id(AsyncGeneratorType): "ag_running",
}
"""What may have been left in the middle of a loop, by the type's identity, and what says that it runs.

A type of the program may hash by code of its own.
"""
HELD_BY_OTHERS = "a loop that began before the first thread"


def among(objects: list[Any]) -> list[Any]:
    return [one for one in objects if id(type(one)) in RUNS]


_NAMES: dict[str, Any] = vars(builtins)
left_in_the_middle: Callable[[list[Any]], list[Any]] = among if quick is None else quick.left_in_the_middle
"""Which of these objects are of such a type. There may be as many as the program has."""


def begun() -> frozenset[int]:
    """The places of loops that have begun, and are not at their end. What something in C goes through is named."""
    sites: set[int] = set()
    for frame in frames():
        file, at = frame.f_code.co_filename, frame.f_lineno
        for site, first, last in LOOPS_OF.get(file, ()):
            if at is not None and first <= at <= last:
                if site == OF_OTHERS:
                    passed_over.keep(HELD_BY_OTHERS, file, first)
                else:
                    sites.add(site)
    return frozenset(sites)


def add(sites: frozenset[int]) -> None:
    """Has these known as well. Two threads may have looked at once: between operators no thread goes on."""
    _NAMES[LOOPS] = _NAMES[LOOPS] | sites if LOOPS in _NAMES else sites


def forget() -> None:
    _NAMES[LOOPS] = frozenset()


def frames() -> Iterator[FrameType]:
    """All frames that run or that wait to go on."""
    for top in frames_now().values():
        frame: FrameType | None = top
        while frame is not None:
            yield frame
            frame = caller_of(frame)
    for one in left_in_the_middle(gc.get_objects()):
        waiting = None if getattr(one, RUNS[id(type(one))]) else frame_of(one)
        if waiting is not None and waiting.f_lasti >= 0:
            yield waiting
