"""The jobs that were given to a pool, for whoever waits for its end. One task takes the ends of all of them."""

from __future__ import annotations

import weakref
from types import CodeType
from typing import Any

from ..model.lines import MARK, RESULT, SPAWN, TAKE, TAKE_END, Line, Token, state
from ..record.awaited import await_at_exit
from ..record.noting import current, joining

KEEPER = "ended jobs"
"""What the task is called that comes after jobs whose results nobody can take any more."""
FEW = 64
"""So many jobs of a pool are known by themselves, and twice as many as the last look has left."""


class JobsOfPool:
    """The jobs of one pool. They are added one at a time, as the pool takes them.

    A task of its own takes their ends: once there are many those that are over, and all of them at the end of the pool.
    The first job begins it. So it knows nothing that the jobs do not know, and nobody but the end of the pool comes
    after it.
    """

    def __init__(self, pool: Any) -> None:
        self._pool: weakref.ref[Any] = weakref.ref(pool)
        self._lines: list[Line] = []
        self._keeper: Line | None = None
        self._most = FEW

    def add(self, line: Line) -> None:
        """The job of this line has been begun, and its result is still there."""
        if self._keeper is None or self._keeper.tracer is not state.tracer:
            self._begin_keeper(line)
        if len(self._lines) >= self._most:
            self._shorten()
            self._most = max(FEW, 2 * len(self._lines))
        line.pool = self._keeper
        self._lines.append(line)

    def _begin_keeper(self, job: Line) -> None:
        note, pool = state.note, self._pool()
        if note is None or pool is None:
            return
        self._keeper = Line(state.tracer, KEEPER)
        self._keeper.watch(pool)
        await_at_exit(self._keeper)
        note((SPAWN, job, self._keeper, None, 0))

    def _shorten(self) -> None:
        note = state.note
        over = [line for line in self._lines if _is_over(line)]
        if note is None or not over:
            return
        for line in over:
            note((TAKE_END, self._keeper, line, None, 0))
        left = set(over)
        self._lines = [line for line in self._lines if line.tracer is state.tracer and line not in left]

    def take(self, code: CodeType | None, instruction: int) -> None:
        """From now on the current task comes after all of them, at this place."""
        note, keeper = state.note, self._keeper
        if note is None or keeper is None or keeper.tracer is not state.tracer:
            return
        for line in list(self._lines):
            if line.tracer is state.tracer:
                joining(line)
                note((TAKE_END, keeper, line, code, instruction))
        token = Token(keeper, RESULT, None, 0)
        note((MARK, token))
        note((TAKE, current(), token, code, instruction))


def jobs_of(pool: Any) -> JobsOfPool:
    jobs: JobsOfPool = pool.__dict__.get("_itc_jobs") or pool.__dict__.setdefault("_itc_jobs", JobsOfPool(pool))
    return jobs


def _is_over(line: Line) -> bool:
    """Whether the job has ended, nobody has its result, and nobody was told to come after its end."""
    is_known = line.joined_by is None and not line.is_forgotten
    return line.tracer is state.tracer and line.has_ended and line.is_gone and is_known
