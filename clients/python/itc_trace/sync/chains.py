"""State machines of callbacks: a callback of a loop that has another one called goes on in that one.

All callbacks of a loop belong to the line of its thread. If two of these machines are under way at once, what they do
to each other is not seen, and that is named.
"""

from __future__ import annotations

import os
from _thread import get_ident
from types import CodeType
from weakref import WeakSet

from ..model.frames import line_of
from ..model.verdict import PassedOver
from .handed_on import watched_place

MACHINES = "tasks of callbacks"
found: dict[PassedOver, None] = {}
"""Where two of them were seen to be under way at once."""


class Chain:
    """The callbacks by which one goes on. It lives as long as a further one is to be called."""

    __slots__ = ("thread", "__weakref__")

    def __init__(self, thread: int) -> None:
        self.thread = thread


_running: dict[int, Chain] = {}
"""Whose callback each thread calls now."""
_going_on: WeakSet[Chain] = WeakSet()
"""Those of which a callback has had another one called."""


def asked_for(code: CodeType | None, instruction: int) -> Chain:
    """The chain of a callback that the program asks for at this place."""
    thread = get_ident()
    chain = _running.get(thread)
    if chain is None:
        return Chain(thread)
    if code is not None and watched_place(code, instruction) is not None:
        if any(one.thread == thread and one is not chain for one in _going_on):
            found[PassedOver(MACHINES, f"{os.path.basename(code.co_filename)}:{line_of(code, instruction)}")] = None
        _going_on.add(chain)
    return chain


def begin(chain: Chain) -> Chain | None:
    """A callback of the chain is about to be called. Gives the one whose callback was called by then."""
    thread = get_ident()
    before = _running.get(thread)
    _running[thread] = chain
    return before


def end(before: Chain | None) -> None:
    if before is None:
        _running.pop(get_ident(), None)
    else:
        _running[get_ident()] = before
