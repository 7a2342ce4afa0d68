"""How threads wait for an answer, and how the thread that reports is woken."""

from __future__ import annotations

import _thread

from . import plain

ANSWER_WAIT = 10.0
"""In seconds."""


def release(lock: _thread.LockType) -> None:
    """Releases a lock, also where somebody else was faster."""
    try:
        lock.release()
    except RuntimeError:
        pass


class Waiter:
    """Lets threads wait until something is answered."""

    def __init__(self) -> None:
        self._lock = plain.allocate_lock()
        self._lock.acquire()
        self.is_answered = False

    def wait(self, seconds: float) -> bool:
        if self._lock.acquire(True, seconds):
            self._lock.release()  # Others may wait as well.
        return self.is_answered

    def answer(self, is_answered: bool) -> None:
        self.is_answered = is_answered
        release(self._lock)
