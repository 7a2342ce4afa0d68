"""Perturbs the schedule of a program by a seed: its threads take turns more often,
and pause before what they do to each other."""

from __future__ import annotations

import queue
import random
import sys
import threading
from concurrent.futures import Future, ThreadPoolExecutor
from time import sleep
from typing import Any

from ..model.frames import is_internal
from .base import like
from .locks import TracedLock, TracedRLock, walk_always

SHORTEST_TURN, LONGEST_TURN = 1e-6, 1e-4
LONGEST_PAUSE = 0.004
OFTEN = 2
"""At the beginning one in so many places has a pause, and later ever fewer."""
PAUSES_OF_AN_OCTAVE = 256

_PLACES: list[tuple[Any, str]] = [
    (threading.Thread, "start"), (threading.Thread, "join"),
    (threading.Condition, "wait"), (threading.Condition, "notify"), (threading.Event, "set"), (threading.Event, "wait"),
    (threading.Semaphore, "acquire"), (threading.Semaphore, "__enter__"), (threading.Semaphore, "release"),
    (threading.BoundedSemaphore, "release"), (threading.Barrier, "wait"),
    (queue.Queue, "put"), (queue.Queue, "get"), (queue.Queue, "task_done"), (queue.Queue, "join"),
    (ThreadPoolExecutor, "submit"), (Future, "result"), (Future, "set_result"),
]
_LOCK_CALLS = ("acquire", "__enter__", "release", "__exit__")


class Shaking:
    """Decides by a seed where threads pause, and how long."""

    def __init__(self, seed: int) -> None:
        self._random = random.Random(seed)
        self._pauses = 0
        self._turn = self._random.uniform(SHORTEST_TURN, LONGEST_TURN)

    def begin(self) -> None:
        """From here on threads take short turns, and pause before they synchronize."""
        sys.setswitchinterval(self._turn)
        walk_always()
        locks = [(kind, name) for kind in (TracedLock, TracedRLock) for name in _LOCK_CALLS]
        for owner, name in [*_PLACES, *locks]:
            if name in vars(owner):
                original = vars(owner)[name]
                setattr(owner, name, like(original, self._paused(original)))
        run = threading.Thread.run
        setattr(threading.Thread, "run", like(run, self._paused(run, always=True)))

    def _paused(self, original: Any, always: bool = False) -> Any:
        def paused(*words: Any, **named: Any) -> Any:
            # Else a lock of the library or of this package may be held.
            if always or not is_internal(sys._getframe(1)):
                self.pause()
            return original(*words, **named)

        return paused

    def pause(self) -> None:
        """Lets other threads go first, now and then. It is called with no lock of this package held."""
        rarely = OFTEN << (self._pauses // PAUSES_OF_AN_OCTAVE)
        if self._random.random() * rarely < 1:
            self._pauses += 1
            sleep(self._random.random() ** 2 * LONGEST_PAUSE)
