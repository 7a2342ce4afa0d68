"""The functions that a library of tasks, as `trio` or `gevent`, has called by a thread: each is a task of its own."""

from __future__ import annotations

import functools
from collections.abc import Callable
from typing import Any

from ..model.frames import frame_at, place
from ..model.lines import FINISH, RESULT, SPAWN, SUBMIT, TAKE_END, LateJob, Line, Token, state
from ..record.noting import current, enter, joining, local, mark, starting, take
from .base import named_like
from .handed_on import called, handed_at


def named_job(function: Any, make: Callable[[Any], Any]) -> Any:
    """What is made of a function, with its name. A partial stays one."""
    if type(function) is functools.partial:
        return functools.partial(named_job(function.func, make), *function.args, **function.keywords)
    return named_like(function, make(function))


class Job:
    """A function that a thread of such a library calls: a task of its own, as long as these are not scarce."""

    __slots__ = ("_line", "_submitted", "_number", "_end", "_is_over", "_handed", "__weakref__")

    def __init__(self, function: Any) -> None:
        note, tracer = state.note, state.tracer
        self._line: Line | None = None
        self._submitted: Token | None = None
        self._end: Token | None = None
        self._is_over = False
        self._handed = handed_at(function)
        self._number = 0 if tracer is None else tracer.next_job()
        if note is None or tracer is None:
            return
        if self._number > tracer.most_lines:
            self._submitted = mark(SUBMIT)
            return
        line = self._line = Line(tracer, str(getattr(function, "__name__", "job")) + "#")
        line.must_finish = True
        line.watch(self)
        note((SPAWN, starting(line), line, *place(frame_at(1))))

    def run(self, function: Any, *args: Any, **named: Any) -> Any:
        line, worker = self._line, getattr(local, "line", None)
        if line is not None:
            enter(line)
        else:
            own = current()
            own.job = LateJob(own, self._number)
            take(self._submitted)
        called(function, args, self._handed)
        try:
            return function(*args, **named)
        finally:
            self._end_run(worker)

    def _end_run(self, worker: Line | None) -> None:
        line, note = self._line, state.note
        self._is_over = True
        if line is None:
            self._end = mark(RESULT)
            return
        enter(worker)
        if note is not None and line.tracer is state.tracer:
            note((FINISH, line, False))

    def was_awaited(self) -> None:
        """From now on the current task comes after the job, if that is over."""
        line, note = self._line, state.note
        if not self._is_over:
            return
        if line is None:
            take(self._end)
        elif note is not None and line.tracer is state.tracer:
            note((TAKE_END, joining(line), line, *place(frame_at(1))))
