"""Those who wait at a condition: each comes after the call of `notify` that wakes it."""

from __future__ import annotations

from collections import deque
from typing import Any

from ..model.lines import Token, state
from ..record.noting import current, who


class Waiters(deque[Any]):
    """What a condition keeps of those who wait, a lock or a future for each.

    Whoever uses it holds the condition's lock.
    """

    def __init__(self) -> None:
        super().__init__()
        self._mine: dict[int, Any] = {}
        """By who waits, and not by its line: it has another one once tracing has begun anew."""
        self._tokens: dict[int, Token | None] = {}

    @classmethod
    def of(cls, waiters: deque[Any]) -> Waiters:
        """The same ones. Those who wait already are not known."""
        if type(waiters) is cls:
            return waiters
        made = cls()
        made.extend(waiters)
        return made

    def append(self, waiter: Any) -> None:
        if state.note is not None:
            current()
            self._mine[who()] = waiter
        super().append(waiter)

    def are_notified(self, token: Token | None, count: int) -> None:
        """The first ones, so many, are about to be woken."""
        for waiter in self:
            if count <= 0:
                return
            if not (hasattr(waiter, "done") and waiter.done()):
                self._tokens[id(waiter)] = token
                count -= 1

    def woken(self) -> Token | None:
        """Whoever calls waits no longer. Gives the place of the call that woke it, if there was one."""
        waiter = self._mine.pop(who(), None)
        token = self._tokens.pop(id(waiter), None)
        if state.note is None:
            return None
        current()
        return token
