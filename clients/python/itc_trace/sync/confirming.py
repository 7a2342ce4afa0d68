"""Tries possible deadlocks: holds each task where it is about to acquire the inner lock, until the cycle closes.

A task is held for a bounded time, and a place a few times at most. So a program whose cycle does not close goes on.
"""

from __future__ import annotations

import sys
import threading
from collections.abc import Iterator
from time import monotonic, sleep
from typing import Any, NamedTuple

from ..model.file_names import name_of_file
from ..model.frames import frame_at, line_of
from ..model.lines import Line, state
from ..model.lock_identity import LockIdentity
from ..record import plain
from ..record.noting import line_of_now
from .base import like
from .later import once_imported
from .locks import OnePermit, TracedLock, TracedRLock, acquired_at, walk_always

HOLD = 2.0
"""So many seconds a task is held at most."""
PAUSE = 0.002
MOST_HOLDS = 8
"""So often tasks are held at one step of a cycle."""

Step = tuple[str, str]
"""Where the outer lock is acquired, and where the inner one, each as `shop.py:7`."""


class _Arrived(NamedTuple):
    line: Line
    held: LockIdentity
    wanted: LockIdentity


class _Cycle:
    """The tasks that are held at the steps of one cycle. Several steps may be at the same lines."""

    def __init__(self, steps: list[Step]) -> None:
        self._steps = steps
        self._left = {step: MOST_HOLDS * steps.count(step) for step in steps}
        self._arrived: dict[Step, list[_Arrived]] = {step: [] for step in steps}

    def steps(self) -> list[Step]:
        return list(self._arrived)

    def add(self, mine: _Arrived, step: Step) -> bool:
        """Whether the task is held there. None is if some were before, for whom it never closed."""
        if not self._left[step]:
            return False
        self._left[step] -= 1
        self._arrived[step].append(mine)
        return True

    def remove(self, mine: _Arrived, step: Step) -> None:
        self._arrived[step].remove(mine)

    def closes(self, mine: _Arrived, step: Step) -> bool:
        """Whether tasks are held at all steps, each of which wants what the next one holds."""
        return any(self._closes_at(mine, number) for number, one in enumerate(self._steps) if one == step)

    def _closes_at(self, mine: _Arrived, number: int) -> bool:
        path = [mine]
        for step in (*self._steps[number + 1:], *self._steps[:number]):
            others = (one for one in self._arrived[step] if one.held is path[-1].wanted)
            found = next(others, None)
            if found is None or any(found.line is one.line for one in path):
                return False
            path.append(found)
        return path[-1].wanted is mine.held


class Confirming:
    """Holds tasks at the steps of possible deadlocks."""

    def __init__(self, cycles: list[list[Step]]) -> None:
        self._cycles = [_Cycle([(str(held), str(wanted)) for held, wanted in steps]) for steps in cycles]
        self._wanted = {wanted for one in self._cycles for _, wanted in one.steps()}
        self._guard = plain.allocate_lock()

    def begin(self) -> None:
        """From here on tasks are held."""
        walk_always()
        for kind in (TracedLock, TracedRLock, threading.Semaphore):
            for name in ("acquire", "__enter__"):
                original = vars(kind)[name]
                setattr(kind, name, like(original, self._holding(original)))
        once_imported("asyncio", self._begin_in_loops)

    def _begin_in_loops(self, asyncio: Any) -> None:
        for of_a_loop in (asyncio.Lock, asyncio.Semaphore):
            original = vars(of_a_loop)["acquire"]
            setattr(of_a_loop, "acquire", like(original, self._holding_in_loop(original, asyncio.sleep)))

    def _holding(self, original: Any) -> Any:
        def holding(lock: Any, *words: Any, **named: Any) -> Any:
            for _ in self._looks(lock, frame_at(1)):
                sleep(PAUSE)
            return original(lock, *words, **named)

        return holding

    def _holding_in_loop(self, original: Any, pause: Any) -> Any:
        """The same of a task of a loop, which goes on with its others meanwhile."""
        async def holding(lock: Any) -> Any:
            for _ in self._looks(lock, frame_at(1)):
                await pause(PAUSE)
            return await original(lock)

        return holding

    def _looks(self, lock: Any, caller: Any) -> Iterator[None]:
        """Goes on as long as the current task is to be held before it acquires the lock."""
        wanted = _identity_of(lock)
        if state.note is None or wanted is None:
            return
        line = line_of_now()
        here = _here(*acquired_at(caller)) if line.held else ""
        if here not in self._wanted:
            return
        for cycle in self._cycles:
            for step in cycle.steps():
                held_at, wanted_at = step
                held = next((one for one in line.held if _here(one.taken_by, one.taken_at) == held_at), None)
                if wanted_at == here and held is not None and held is not wanted:
                    yield from self._looks_at(cycle, step, _Arrived(line, held, wanted))

    def _looks_at(self, cycle: _Cycle, step: Step, mine: _Arrived) -> Iterator[None]:
        with self._guard:
            if not cycle.add(mine, step):
                return
        end = monotonic() + HOLD
        while not cycle.closes(mine, step) and monotonic() < end:
            yield
        if not cycle.closes(mine, step):  # Else it stays, for the others to see.
            with self._guard:
                cycle.remove(mine, step)


def _semaphores() -> tuple[type, ...]:
    of_loops = getattr(sys.modules.get("asyncio"), "Semaphore", None)
    return (threading.Semaphore,) if of_loops is None else (threading.Semaphore, of_loops)


def _identity_of(lock: Any) -> LockIdentity | None:
    """What tells the lock from others. A semaphore is one as long as it has one permit."""
    one = lock.__dict__.get("_itc_permit") if isinstance(lock, _semaphores()) else lock
    if one is None or isinstance(one, OnePermit) and one._itc_identity.signal is not None:
        return None
    identity: LockIdentity | None = one._itc_identity
    return identity


def _here(code: Any, instruction: int) -> str:
    return "?" if code is None else f"{name_of_file(code.co_filename)}:{line_of(code, instruction)}"
