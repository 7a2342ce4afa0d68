"""Holds what cannot be referred to weakly, as a list or a dict, as long as somebody else does.

The hooks in C see that such an object goes. Python tells nobody, so the hooks in Python hold it: otherwise another
object might take its place in memory, and be taken for it.
"""

from __future__ import annotations

import gc
import os
from _thread import allocate_lock
from collections import deque
from collections.abc import Callable, Container, Iterator
from itertools import compress
from sys import getrefcount
from threading import get_ident
from time import monotonic, sleep
from typing import Any

from .both_languages import LOOKED_THROUGH, MOST_HELD, OLDEST

FIRST_LOOKED_AT = 1
"""Rings are let go of by collections of this generation and of older ones."""
HAS_COLLECTION = 1 << 14
"""The flag of a type whose objects the collector follows."""
MOST_OLD = 50_000
"""If there are more objects than that in the last generation, only its own collections let go of rings: each one looks
through all of them.
"""
DEEPEST = 8
LAST_LOOKED_AT = 48
SHORT_WAIT, LONGEST_WAIT = 0.0005, 1.0
"""In seconds, how long a thread waits at once, and in all, for the collection of another one that has all objects in a
list. There is a bound: the other thread may run a finalizer of the program that waits for this one.
"""
_collecting: set[int] = set()
"""The threads whose collections of garbage may refer to any object just now."""
if hasattr(os, "register_at_fork"):
    os.register_at_fork(after_in_child=_collecting.clear)


def _references_of_held() -> int:
    kept: dict[int, Any] = {0: []}
    return getrefcount(kept[0])


REFERENCES_OF_HELD = _references_of_held()
REFERENCES_OF_ONE = REFERENCES_OF_HELD + 1
"""Of what a variable refers to, too."""


class Held:
    """The objects that are held, by their identities.

    `left` is called for each that is held no more, and is told whether nobody else holds it.
    """

    def __init__(self, left: Callable[[int, bool], None]) -> None:
        self._left = left
        self._objects: dict[int, Any] = {}
        self._order: deque[int] = deque()
        self._latest: list[int] = []
        """Those that are held, the last one at the end, and some that no longer are. Any thread may add one."""
        self._shortening = allocate_lock()
        """Whoever takes some out of the latest ones has it."""
        self._released: dict[int, type] = {}
        """What the collector of garbage decides about just now, and of which type it is."""
        self._has_many_old = False
        self._collections = 0
        if hasattr(os, "register_at_fork"):
            os.register_at_fork(after_in_child=self._shortening._at_fork_reinit)  # type: ignore[attr-defined]

    def __len__(self) -> int:
        return len(self._order)

    def hold(self, key: int, one: Any) -> None:
        self._objects[key] = one
        self._order.append(key)
        if len(self._latest) > 2 * len(self._objects) + LAST_LOOKED_AT:
            self._shorten(0)
        self._latest.append(key)

    def has(self, key: int) -> bool:
        return key in self._objects

    def forget(self, key: int) -> None:
        """It is held no more, whoever else holds it."""
        self._released.pop(key, None)
        self._objects.pop(key, None)

    def let_go_of_some(self, most: int) -> bool:
        """Lets go of some of what nobody else holds any more, and of the oldest if too many are held.

        Says whether anything went: it may have held more of them.
        """
        has_gone = False
        for _ in range(min(most, len(self._order))):
            try:
                key = self._order.popleft()
            except IndexError:  # Another thread was faster.
                break
            if key in self._released:
                self._order.append(key)
                continue
            one = self._objects.get(key)
            if one is None:
                continue
            is_alone = getrefcount(one) <= REFERENCES_OF_ONE
            if not is_alone and len(self._order) < MOST_HELD:
                self._order.append(key)
            elif self._objects.pop(key, None) is not None:
                has_gone = has_gone or is_alone
                self._left(key, is_alone)
        return has_gone

    def let_go_at_once(self, most: int) -> None:
        """The same until nothing goes. What is held last is looked at first: it is most often what a function made."""
        end, latest = monotonic() + LONGEST_WAIT, self._latest[-LAST_LOOKED_AT:]
        while True:
            earlier, is_beside = self._collections, _is_beside_a_collection()
            while self._let_go_of(latest) or self._let_go_of_last() or self.let_go_of_some(most):
                pass
            if not is_beside and earlier == self._collections or monotonic() > end:
                return
            sleep(SHORT_WAIT)

    def _let_go_of(self, keys: list[int]) -> bool:
        """Those that were held last as the thread began. Others may hold more while it waits."""
        has_gone = False
        for key in keys:
            one = self._objects.get(key)
            if one is not None and getrefcount(one) <= REFERENCES_OF_ONE and self._objects.pop(key, None) is not None:
                has_gone = True
                self._left(key, True)
        return has_gone

    def _let_go_of_last(self) -> bool:
        has_gone = has_gaps = False
        first = max(0, len(self._latest) - LAST_LOOKED_AT)
        for key in self._latest[first:][::-1]:
            one = self._objects.get(key)
            if one is None:
                has_gaps = has_gaps or key not in self._released
            elif getrefcount(one) <= REFERENCES_OF_ONE and self._objects.pop(key, None) is not None:
                has_gone = has_gaps = True
                self._left(key, True)
        return has_gaps and self._shorten(first) or has_gone

    def _shorten(self, first: int) -> bool:
        """Takes out of the latest ones what is held no more, from this place on. Says whether it did.

        It does not if another thread does. What is added meanwhile stays.
        """
        if not self._shortening.acquire(False):
            return False
        try:
            last = len(self._latest)
            self._latest[first:last] = list(filter(self._is_known, self._latest[first:last]))
        finally:
            self._shortening.release()
        return True

    def _is_known(self, key: int) -> bool:
        return key in self._objects or key in self._released

    def collecting(self, phase: str, generation: int) -> None:
        """Has a collection of garbage find what only rings of objects hold, as it would if nothing were held here."""
        self._collections += 1
        _collecting.add(get_ident())
        try:
            self._look_at_all(phase, generation)
        finally:
            _collecting.discard(get_ident())

    def _look_at_all(self, phase: str, generation: int) -> None:
        if phase == "start":
            self.let_go_of_some(MOST_HELD if generation == OLDEST else LOOKED_THROUGH)
            if self._objects and (generation == OLDEST or generation >= FIRST_LOOKED_AT and not self._has_many_old):
                self._release(generation)
        elif self._released:
            self._take_back(min(generation + 1, OLDEST))

    def _release(self, generation: int) -> None:
        for number in range(generation + 1):
            for one in _of_keys(gc.get_objects(number), self._objects):
                if _stays_tracked(one, DEEPEST) and self._objects.get(id(one)) is one:
                    self._released[id(one)] = type(one)
                    self._objects.pop(id(one), None)

    def _take_back(self, generation: int) -> None:
        """What is still there has become older by the collection. What is new has not, wherever it lies in memory."""
        old = gc.get_objects(generation)
        self._has_many_old = len(old) > MOST_OLD
        for one in _of_keys(old, self._released):
            kind = self._released.pop(id(one), None)
            if kind is type(one):
                self._objects[id(one)] = one
            elif kind is not None:
                self._left(id(one), True)
        gone, self._released = self._released, {}
        for key in gone:
            self._left(key, True)

    def clear(self) -> None:
        self._order.clear()
        self._latest.clear()
        self._objects.clear()


def _is_beside_a_collection() -> bool:
    """Whether another thread collects garbage. What it looks at seems to be held by somebody else."""
    return bool(_collecting) and not _collecting <= {get_ident()}


def _of_keys(objects: list[Any], keys: Container[int]) -> Iterator[Any]:
    """Those that have one of these identities."""
    return compress(objects, map(keys.__contains__, map(id, objects)))


def _stays_tracked(one: Any, deepest: int) -> bool:
    """Whether the collector goes on following the object: it leaves dicts and tuples alone that have nothing to follow.
    """
    kind = type(one)
    if kind is not dict and kind is not tuple:
        return kind is not type and bool(kind.__flags__ & HAS_COLLECTION)
    return deepest > 0 and any([_stays_tracked(part, deepest - 1) for part in gc.get_referents(one)])
