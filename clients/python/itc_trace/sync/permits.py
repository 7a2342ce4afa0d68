"""The permits of a semaphore or a limiter. If there is one alone, it is a lock."""

from __future__ import annotations

from collections import deque
from typing import Any

from ..model.lines import SEMAPHORE, state
from ..record.noting import mark, take
from .locks import OnePermit, gave, took

MOST_PERMITS = 65536
"""What begins with more of them holds nobody back, and is not traced."""


class Permits:
    """Permits that are handed on first in, first out."""

    __slots__ = ("one", "free")

    def __init__(self, kind: str, count: int, frame: Any) -> None:
        self.one = OnePermit(kind, frame) if count == 1 else None
        self.free: deque[Any] = deque([None] * count)

    def _mark(self) -> Any:
        """The place of whoever gives a permit."""
        return mark(SEMAPHORE)

    def _take(self, place: Any) -> None:
        take(place)

    def take(self, has_waited: bool = True) -> None:
        if state.note is None:
            return
        if self.one is not None:
            took(self.one, has_waited)
        elif self.free:
            self._take(self.free.popleft())

    def give(self, free: int) -> None:
        if state.note is None:
            return
        if self.one is not None and not self.one.is_held:
            self.free, self.one = self.one.as_permits(free), None
        if self.one is not None:
            gave(self.one)
        else:
            self.free.append(self._mark())

    def grow(self, more: int, free: int) -> None:
        """There are so many more permits, and of a single one so many that are free."""
        if self.one is not None:
            self.free, self.one = self.one.as_permits(free), None
        self.free.extend([None] * more)
