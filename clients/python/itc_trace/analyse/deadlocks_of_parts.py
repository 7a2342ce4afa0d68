"""Possible deadlocks of a run in parts: within each part, and of two tasks across parts.

Two acquisitions of two locks in both orders are as two touches that conflict. So what is kept of those of earlier
parts is what is kept of touches, in the order without the hand-over of locks. A cycle of more tasks is looked for
within a part. If one may go across parts, that is told.
"""

from __future__ import annotations

import json
from collections import defaultdict
from collections.abc import Iterable, Iterator
from dataclasses import dataclass

from ..model.conflicts import ADDITION, LENGTH
from ..model.verdict import PassedOver
from ..record.dividing import Border
from ..record.journal import Row
from .across_parts import AcrossParts
from .deadlocks import (
    Deadlock, Step, TooMany, before_without, cycles, has_one_loop, locks_of,
)
from .lock_waits import Pattern, Place, acquisitions_of, number_of
from .queue_waits import needed_of, waits_of
from .trace import Events, Trace

ACROSS = "an order of locks across parts"
UP, DOWN = LENGTH, ADDITION
"""The two orders of two locks. As kinds of touches they conflict with each other, and not with themselves."""


@dataclass
class _WithoutLocks:
    """What comes before each event by anything but locks."""

    before: list[Events]


class DeadlocksOfParts:
    """The acquisitions of earlier parts."""

    def __init__(self, signals: frozenset[str]) -> None:
        self._signals = signals
        self._across = AcrossParts(True)
        self._order = _WithoutLocks([])
        self._rows: list[Row] = []
        self._met: dict[Pattern, set[int]] = defaultdict(set)
        """In which parts there was an acquisition of each pattern."""
        self._needed: dict[str, frozenset[str]] = {}
        """Of each queue the locks that all hold who put into it."""

    def look_at(self, rows: list[Row], trace: Trace) -> None:
        """The next part, before its acquisitions are compared."""
        self._rows = list(_pairs(rows, self._signals))
        self._order = _WithoutLocks(before_without(trace, locks_of(rows, trace, self._signals)))
        for pattern in waits_of(rows, self._signals):
            self._met[pattern].add(rows[0].part)
        for queue, locks in needed_of(rows).items():
            self._needed[queue] = self._needed.get(queue, locks) & locks

    def found(self) -> Iterator[Deadlock]:
        """Those of an acquisition of an earlier part and one of this part."""
        for pairing in self._across.races(self._rows, self._order):
            one, other, times = pairing.pair
            if one.task != other.task and _is_cycle(_pattern(one), _pattern(other)):
                yield Deadlock((_step(one), _step(other)), times)

    def move_on(self, border: Border) -> None:
        self._across.move_on(self._rows, self._order, border)

    def passed_over(self, listed: Iterable[Deadlock]) -> Iterator[PassedOver]:
        """The cycles of more than two tasks, or with a queue, whose acquisitions were in several parts."""
        known = {deadlock.key for deadlock in listed}
        try:
            for cycle in cycles(self._met):
                is_looked_for = len(cycle) == 2 and not any(one.owes for one in cycle)
                is_across = not is_looked_for and not set.intersection(*(self._met[one] for one in cycle))
                is_across = is_across and all(one.wants in self._needed[one.held[0]] for one in cycle if one.owes)
                if is_across and not has_one_loop(cycle) and _key(cycle) not in known:
                    yield PassedOver(ACROSS, str(cycle[0].place))
        except TooMany:
            yield PassedOver(ACROSS, str(next(iter(self._met)).place))


def _pairs(rows: Iterable[Row], signals: frozenset[str]) -> Iterator[Row]:
    """A row for each lock that is held and the one that is wanted, as a touch of both in this order.

    All that is to be told of it stands in its function, so that only what is the same is kept as one.
    """
    numbers = set(map(number_of, signals))
    for row in rows:
        if row.wants is None or number_of(row.wants) in numbers:
            continue
        for lock, at in zip(row.held, row.at, strict=False):
            one, other = number_of(lock), number_of(row.wants)
            if one not in numbers:
                told = json.dumps([row.function, lock, at, row.wants, row.held, row.shared])
                yield row._replace(
                    thing=f"{min(one, other)} {max(one, other)}", kind=UP if one < other else DOWN, function=told,
                )


def _pattern(row: Row) -> Pattern:
    return next(iter(acquisitions_of([row])))


def _is_cycle(one: Pattern, other: Pattern) -> bool:
    """Whether both may wait for each other. Other held locks of the same two tasks may keep them apart."""
    return one.waits_for(other) and other.waits_for(one) and not one.is_apart(other) and not has_one_loop((one, other))


def _step(row: Row) -> Step:
    function, lock, at, wants, *_ = json.loads(row.function)
    return Step(
        row.task, lock, Place(*at), wants, Place(row.file, row.line, function), row.event, row.part, row.loop,
    )


def _key(cycle: tuple[Pattern, ...]) -> object:
    steps = (
        Step("", "", one.at[one.held.index(cycle[number - 1].wants)], "", one.place) for number, one in enumerate(cycle)
    )
    return Deadlock(tuple(steps)).key
