"""Calls what recurses deeper than the program may:
the language's own compiler takes deeper sources than code in Python does."""

from __future__ import annotations

import _thread
import sys
from collections.abc import Callable
from typing import TypeVar

from ..record import plain

LIMIT = 60_000
"""Of the language's own recursion.

Sources that it compiles at all are nested at most 3 times its usual limit of 1000.
"""
STACK = 1 << 29
"""Bytes that the compiler may take of the machine's stack for so many levels. They are taken as they are used."""

Given = TypeVar("Given")


def at_any_depth(call: Callable[[], Given]) -> Given:
    """What the call gives, which is tried once more with a deep stack if the usual one does not do."""
    try:
        return call()
    except RecursionError:
        return _deeply(call)


def _deeply(call: Callable[[], Given]) -> Given:
    """Calls in a thread of its own, which the program does not see, as the stack of this one is as deep as it is."""
    made: list[Given] = []
    faults: list[BaseException] = []
    done = plain.allocate_lock()
    done.acquire()

    def run() -> None:
        try:
            made.append(call())
        except BaseException as fault:
            faults.append(fault)
        done.release()

    limit, stack = sys.getrecursionlimit(), _thread.stack_size(STACK)
    sys.setrecursionlimit(max(limit, LIMIT))
    try:
        plain.start_new_thread(run, ())
        done.acquire()
    finally:
        sys.setrecursionlimit(limit)
        _thread.stack_size(stack)
    for fault in faults:
        raise fault
    return made[0]
