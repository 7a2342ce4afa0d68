"""Waits for the items of a queue, with a lock held that everybody needs who puts one.

A task that waits so waits for whoever puts, and that one for the lock. So who puts into the queue is looked at as one
that holds the queue while it waits for the lock. That is so only if each item is put under the lock. If an item comes
before the wait by anything but locks, the queue is not empty, and the wait is passed over. The collector tells that.
"""

from __future__ import annotations

from collections import defaultdict
from collections.abc import Callable, Iterable, Iterator
from typing import NamedTuple

from ..record.journal import Row
from .lock_waits import Found, Pattern, Place, acquisitions_of, number_of
from .trace import Events, Trace

Begin = Callable[[Row, str], int]
"""The event from which on the task of the row may have waited for this lock."""


def waits_of(rows: list[Row], signals: frozenset[str] = frozenset(), begin: Begin | None = None) -> Found:
    """The acquisitions of locks with others held, and those of whoever puts into a queue for which others wait."""
    found = acquisitions_of(rows, signals)
    passed_over = frozenset(map(number_of, signals))
    needed = needed_of(rows)
    for queue, gifts in _gifts(rows).items():
        if queue in passed_over:
            continue
        for row in gifts:
            for pattern in _patterns(row, needed[queue] - passed_over, passed_over):
                found[pattern][row.task] |= 1 << (row.event if begin is None else begin(row, pattern.wants))
    return found


def needed_of(rows: list[Row]) -> dict[str, frozenset[str]]:
    """Of each queue the locks that all hold who put into it."""
    return {
        queue: frozenset.intersection(*(frozenset(map(number_of, row.held)) for row in gifts))
        for queue, gifts in _gifts(rows).items()
    }


def waits_in(
    rows: list[Row], signals: frozenset[str], trace: Trace, locks: set[int], before: list[Events],
) -> Found:
    """The same of one trace, where no item of the queue comes before a wait by anything but the hand-over of locks."""
    found = waits_of(rows, signals, _Begins(rows, trace, locks))
    for queue, gifts in _gifts(rows).items():
        given = sum({1 << row.event for row in gifts})
        for tasks in (tasks for pattern, tasks in found.items() if pattern.wants == queue):
            for task, events in tasks.items():
                tasks[task] = sum(1 << one for one in _numbers(events) if not (before[one] | 1 << one) & given)
    return found


def _numbers(events: Events) -> Iterator[int]:
    return (number for number in range(events.bit_length()) if events >> number & 1)


def _gifts(rows: Iterable[Row]) -> dict[str, list[Row]]:
    """The rows of who puts under locks, by the queue."""
    gifts: dict[str, list[Row]] = defaultdict(list)
    for row in rows:
        if row.gives is not None:
            gifts[number_of(row.gives)].append(row)
    return gifts


def _patterns(row: Row, needed: frozenset[str], passed_over: frozenset[str]) -> Iterator[Pattern]:
    """For each lock that is needed to put: the task owes the item while it waits for the lock, and holds the outer
    locks."""
    if row.gives is None:
        return
    owed = (row.gives, Place(row.file, row.line, row.function))
    for number, wanted in enumerate(row.held):
        if number_of(wanted) in needed:
            outer = [
                (lock, Place(*at)) for lock, at in zip(row.held[:number], row.at) if number_of(lock) not in passed_over
            ]
            held, at = zip(owed, *outer)
            yield Pattern(
                number_of(wanted), tuple(map(number_of, held)), at, Place(*row.at[number]), row.loop, (*held, wanted),
                owes=True,
            )


class _Told(NamedTuple):
    """What is told of an event: which lock is handed over, and which are held where something is touched."""

    handed: set[str]
    held: list[frozenset[str]]


class _Begins:
    """From which event on a task may have waited for a lock that it holds.

    It begins behind the last event at which the task surely does not hold the lock: it is handed over there, or nothing
    that is touched there is touched under it. What comes between may be under the lock, or before. An event has its
    touches in their order.
    """

    def __init__(self, rows: list[Row], trace: Trace, locks: set[int]) -> None:
        self._locks = locks
        """The events that hand locks over. They put nothing in order."""
        self._events: dict[str, list[int]] = defaultdict(list)
        for event in trace.events:
            self._events[event.task].append(event.number)
        self._told: dict[int, _Told] = defaultdict(lambda: _Told(set(), []))
        self._places: dict[Row, int] = {}
        """How many touches of its event come before each of who puts."""
        for row in rows:
            if row.gives is not None:
                self._places[row] = len(self._told[row.event].held)
            handed = row.lock or row.guard
            if handed is not None:
                self._told[row.event].handed.add(number_of(handed))
            elif row.is_touch or row.wants is not None or row.gives is not None:
                self._told[row.event].held.append(frozenset(map(number_of, row.held)))

    def __call__(self, row: Row, lock: str) -> int:
        first = row.event
        if any(lock not in held for held in self._told[first].held[:self._places[row]]):
            return first
        for number in reversed(self._events[row.task]):
            if number < row.event:
                if self._is_without(number, lock):
                    break
                first = first if number in self._locks else number
        return first

    def _is_without(self, number: int, lock: str) -> bool:
        told = self._told.get(number)
        if told is None:
            return False
        return lock in told.handed or bool(told.held) and not any(lock in held for held in told.held)
