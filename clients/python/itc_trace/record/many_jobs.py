"""Jobs of pools that are no tasks of their own: whether two of them may race,
which nobody sees if one thread ran both."""

from __future__ import annotations

from collections.abc import Hashable

from ..model.conflicts import CHANGING
from ..model.lines import Touch
from ..model.lock_identity import LockIdentity

MOST_THINGS = 50_000


class _Shared:
    """What such jobs did to one thing."""

    __slots__ = ("thing", "job", "held", "has_other_job", "is_changed")

    def __init__(self, touch: Touch) -> None:
        self.thing = touch.thing
        self.job = touch.job
        self.held: frozenset[LockIdentity] = frozenset(touch.held)
        self.has_other_job = False
        self.is_changed = False

    def add(self, touch: Touch) -> None:
        self.held &= frozenset(touch.held)
        self.has_other_job = self.has_other_job or touch.job != self.job
        self.is_changed = self.is_changed or touch.kind in CHANGING

    @property
    def may_race(self) -> bool:
        return self.has_other_job and self.is_changed and not self.held


class ManyJobs:
    """Looks for a thing that two such jobs touch, one of them with a change, and with no lock in common."""

    def __init__(self) -> None:
        self._things: dict[Hashable, _Shared] = {}
        self._may_race = False
        self._is_told = False

    def add(self, touch: Touch) -> None:
        if self._may_race:
            return
        key = touch.thing if isinstance(touch.thing, str) else touch.thing.number
        shared = self._things.get(key)
        if shared is None:
            shared = self._things[key] = _Shared(touch)
        shared.add(touch)
        self._may_race = shared.may_race
        if self._may_race or len(self._things) > MOST_THINGS:
            self._forget()

    def _forget(self) -> None:
        """Forgets what no later job can touch."""
        kept = {} if self._may_race else self._things
        self._things = {key: one for key, one in kept.items() if not getattr(one.thing, "is_gone", False)}

    def has_new_suspicion(self) -> bool:
        """Whether two jobs may race. It says so once."""
        is_new, self._is_told = self._may_race and not self._is_told, self._is_told or self._may_race
        return is_new
