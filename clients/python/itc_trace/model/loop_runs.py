"""The loops of threads: which is which, and their runs.

What a thread does before and behind a run of its loop is in order with what the loop's tasks do in this run.
"""

from __future__ import annotations

import itertools
import weakref
from _thread import get_ident
from typing import Any

from .lines import LEAVE_LOOP, TAKE, Line, Token, What, state

BEGINS = What("loop", "run loop", "run in loop")
STOPS = What("loop", "run until loop stops", "loop has stopped")


_numbers = itertools.count(1)
_KNOWN: dict[int, tuple[weakref.ref[Any], int]] = {}
"""The loops that are there and their numbers, by where they stand in memory. Another one may stand there later."""


LOOPS: dict[int, int] = {}
"""The number of what each thread runs that is like a loop of asyncio, as a run of trio."""


def number_of_loop(loop: Any) -> int:
    """What tells the loop from all others of this process.

    None stands for what the thread runs that is like one, and 0 is the number of none.
    """
    if loop is None:
        return LOOPS.get(get_ident(), 0)
    known = _KNOWN.get(id(loop))
    return known[1] if known is not None and known[0]() is loop else _new_number(loop)


def _new_number(loop: Any) -> int:
    place = id(loop)
    try:
        reference = weakref.ref(loop, lambda gone: _forget(place, gone))
    except TypeError:
        return place  # One of another library, which is known by nothing else.
    number = next(_numbers)
    _KNOWN[place] = reference, number
    return number


def _forget(place: int, gone: weakref.ref[Any]) -> None:
    known = _KNOWN.get(place)
    if known is not None and known[0] is gone:
        del _KNOWN[place]


class LoopRun:
    """From where a thread begins to run a loop to where it goes on behind it, and the tasks that took a step meanwhile.

    The program's threads add tasks. The thread that reports leaves out those that ended once another task knows their
    end.
    """

    __slots__ = ("token", "lines", "keeper")

    def __init__(self, token: Token) -> None:
        self.token = token
        self.lines: set[Line] = set()
        self.keeper: Line | None = None
        """It knows the ends of those that nobody has waited for, from earlier parts of the run."""

    def add(self, line: Line) -> None:
        self.lines.add(line)
        line.loop_run = self

    def first_step(self, line: Line) -> None:
        """The task goes on in this run: it comes after what its thread did before."""
        self.add(line)
        note, token = state.note, self.token
        if note is not None and line.tracer is token.line.tracer is state.tracer:
            line.section = None
            note((TAKE, line, token, token.code, token.instruction))

    def leave(self, line: Line, place: tuple[Any, int]) -> None:
        """The thread goes on behind the run, as this line."""
        note = state.note
        if note is not None and line.tracer is self.token.line.tracer is state.tracer:
            for other in list(self.lines):
                other.section = None
            note((LEAVE_LOOP, line, self, *place))


RUNS: dict[int, LoopRun] = {}
"""The run of a loop that each thread is in, by the thread's identity."""


def take_step(line: Line | None) -> None:
    """A task of this line takes a step in this thread."""
    run = RUNS.get(get_ident())
    if run is not None and line is not None and line not in run.lines:
        run.first_step(line)


def begun_here(line: Line) -> None:
    """A task of this line was made by what this thread's loop runs."""
    run = RUNS.get(get_ident())
    if run is not None:
        run.add(line)
