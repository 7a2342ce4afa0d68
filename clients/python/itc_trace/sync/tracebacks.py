"""Leaves what stands in the place of the library out of tracebacks that are shown:
a program would not see it untraced."""

from __future__ import annotations

import os
import sys
import threading
import traceback
from collections.abc import Callable, Iterator
from itertools import takewhile
from types import CodeType, TracebackType
from typing import Any

from .base import STAND_INS, Patches

FOLDER = os.path.dirname(os.path.abspath(__file__)) + os.sep
LAUNCH = os.path.join(os.path.dirname(os.path.dirname(FOLDER)), "cli", "launch.py")
OUTWARDS = "walk_stack"
_WALKS = ("walk_tb", OUTWARDS, "_walk_tb_with_full_positions")
"""Functions of `traceback` that give each frame with its line. All that it shows is of these."""


def put(patches: Patches) -> None:
    for name in _WALKS:
        if name in vars(traceback):
            patches.wrap(traceback, name, _without_stand_ins)
    patches.wrap(traceback, OUTWARDS, _up_to_the_program)
    if "_make_invoke_excepthook" in vars(threading):
        patches.wrap(threading, "_make_invoke_excepthook", _showing_without_stand_ins)


def is_stand_in(code: CodeType) -> bool:
    return id(code) in STAND_INS or code.co_filename.startswith(FOLDER)


def _without_stand_ins(original: Callable[[Any], Iterator[Any]]) -> Any:
    def walk(start: Any) -> Iterator[Any]:
        if start is None:
            return original(start)  # It counts the frames between itself and whoever asked.
        return (one for one in original(start) if not is_stand_in(one[0].f_code))

    return walk


def _up_to_the_program(original: Callable[[Any], Iterator[Any]]) -> Any:
    """From a frame outwards. Behind that of the program's main file there are those by which the package runs it."""

    def walk(start: Any) -> Iterator[Any]:
        if start is None:
            return original(start)
        return takewhile(lambda one: one[0].f_code.co_filename != LAUNCH, original(start))

    return walk


def _showing_without_stand_ins(original: Any) -> Any:
    """What a thread shows is written by the language itself, frame by frame."""

    def make_invoke_excepthook() -> Any:
        invoke = original()

        def invoke_excepthook(thread: Any) -> None:
            leave_out_of(sys.exc_info()[1])
            invoke(thread)

        return invoke_excepthook

    return make_invoke_excepthook


def leave_out_of(error: BaseException | None) -> None:
    """Takes the stand-ins out of the tracebacks of an error and of those behind it."""
    seen: set[int] = set()
    errors = [error]
    while errors:
        one = errors.pop()
        if one is not None and id(one) not in seen:
            seen.add(id(one))
            one.__traceback__ = left_of(one.__traceback__)
            errors += [one.__cause__, one.__context__, *getattr(one, "exceptions", ())]


def left_of(trace: TracebackType | None) -> TracebackType | None:
    """The traceback, without stand-ins."""
    while trace is not None and is_stand_in(trace.tb_frame.f_code):
        trace = trace.tb_next
    one = trace
    while one is not None:
        after = one.tb_next
        while after is not None and is_stand_in(after.tb_frame.f_code):
            after = after.tb_next
        if after is not one.tb_next:
            one.tb_next = after
        one = after
    return trace
