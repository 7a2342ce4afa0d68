"""All pairs of lines at which a thing has races, and how many pairs of touches each is of.

Sets of touches are sets of their events, as the bits of numbers. So a touch is compared with all others of a line at
once.
"""

from __future__ import annotations

from bisect import bisect_left
from collections import defaultdict
from collections.abc import Iterable, Iterator
from itertools import count
from typing import NamedTuple

from .bit_matrix import transposed
from ..model.conflicts import (
    ADDITION, BY_KEY, BY_VALUE, CHANGING, CONFLICTING, FLAG, GIVEN, GUARDED_KEY, GUARDED_VALUE, ITERATION, KEYS, LENGTH,
    LOOKUP, REPLACEMENT, STEP, WRITE,
)
from ..record.journal import Row
from .trace import Events, Unordered, lowest

Pair = tuple[Row, Row, int]
"""Two touches that race, the earlier report first, and of how many such pairs they are an example."""


class _Alike:
    """The touches that differ in nothing but the task, the event and the locks. Each has an event of its own."""

    __slots__ = ("kind", "loop", "events", "rows", "by_lock")

    def __init__(self, row: Row) -> None:
        self.kind = row.kind
        self.loop = row.loop
        self.events: Events = 0
        self.rows: dict[int, Row] = {}
        self.by_lock: dict[str, Events] = defaultdict(int)

    def add(self, row: Row) -> None:
        self.events |= 1 << row.event
        self.rows[row.event] = row
        for lock in row.held:
            self.by_lock[lock] |= 1 << row.event

    def is_of_function(self, row: Row) -> bool:
        one = next(iter(self.rows.values()))
        return (one.file, one.function) == (row.file, row.function)

    def without(self, held: Iterable[str]) -> Events:
        """Those that held none of these locks."""
        events = self.events
        for lock in held:
            if lock in self.by_lock:
                events &= ~self.by_lock[lock]
        return events


class _Groups:
    """The touches of a thing in groups of those that are alike."""

    def __init__(self, with_locks: bool) -> None:
        self._with_locks = with_locks
        self._groups: dict[tuple[object, ...], _Alike] = {}
        self._by_kind: dict[str, Events] = defaultdict(int)

    def add(self, row: Row) -> _Alike:
        """The group that the touch belongs to.

        With locks, touches of one event with others held are in several groups.
        """
        for place in count():
            key = row.kind, row.file, row.line, row.function, row.loop, place
            alike = self._groups.setdefault(key, _Alike(row))
            known = alike.rows.get(row.event)
            if known is None:
                alike.add(row)
                self._by_kind[row.kind] |= 1 << row.event
            if known is None or not self._with_locks or known.held == row.held:
                return alike
        raise AssertionError("a group is always found")

    def conflicting(self, kind: str, events: Events) -> Iterator[_Alike]:
        """Those that may conflict with a touch of this kind at some of these events."""
        if any(events & known and other in CONFLICTING[kind] for other, known in self._by_kind.items()):
            yield from (alike for alike in self._groups.values() if alike.kind in CONFLICTING[kind])


def racing_pairs(
    touches: list[Row], unordered: Unordered, unordered_turns: Unordered, with_locks: bool, is_strict: bool,
    is_doubtful: bool | None = False,
) -> Iterator[Pair]:
    """The pairs of one thing, whose touches are given in the order of their events.

    With locks a pair is none if its tasks held a lock in common. If it is not strict, tasks of one loop take turns, for
    which there is an order of its own. Of these, changes that may be made from no look of an earlier turn are left out,
    or alone are looked at if it is to be doubtful. With None all are.
    """
    if is_doubtful is not True:
        yield from _pairs_of_all(touches, unordered, with_locks, is_strict)
    if not is_strict:
        for tasks in _tasks_by_loop(touches):
            yield from _SplitPairs(tasks, unordered_turns, with_locks, is_doubtful).pairs()


def _pairs_of_all(touches: list[Row], unordered: Unordered, with_locks: bool, is_strict: bool) -> Iterator[Pair]:
    """The pairs but for those of tasks of one loop, if these take turns."""
    groups = _Groups(with_locks)
    found: dict[tuple[_Alike, _Alike], Pair] = {}
    for touch in touches:
        events = unordered(touch.event)
        held = touch.held if with_locks else ()
        others = [
            (other, met) for other in groups.conflicting(touch.kind, events)
            if (is_strict or not touch.loop or touch.loop != other.loop) and (met := events & other.without(held))
        ]
        alike = groups.add(touch)
        for other, met in others:
            first, second, times = found.get((alike, other), (other.rows[lowest(met)], touch, 0))
            found[alike, other] = first, second, times + met.bit_count()
    yield from found.values()


# Tasks of one loop


class _Split(NamedTuple):
    """Reads in one turn of a loop, and what goes back to them in a later one: a change,
    or the next step of an iteration."""

    reads: list[Row]
    change: Row
    is_doubtful: bool = False
    """Whether the change may be made from no look: so its source and its rows leave it open."""
    is_kept_to_function: bool = False
    """Whether the same function of other tasks makes no change in between: it looks first."""


def _tasks_by_loop(touches: list[Row]) -> Iterable[dict[str, list[Row]]]:
    loops: dict[int, dict[str, list[Row]]] = defaultdict(lambda: defaultdict(list))
    for touch in touches:
        if touch.loop:
            loops[touch.loop][touch.task].append(touch)
    return loops.values()


def _splits(rows: list[Row]) -> Iterator[_Split]:
    """Each change by a task that has no read of its own turn before it, with the last reads of an earlier turn.

    A read and a change within one turn are one step. What surely goes with such a change of its own is left out.
    """
    yield from _iterations(rows)
    reads: list[Row] = []
    are_acted_on = has_changed = False
    for row in rows:
        is_of_turn = bool(reads) and reads[-1].turn == row.turn
        if row.kind in CHANGING:
            if reads and not is_of_turn:
                split = _split_of(reads, row, are_acted_on) if has_changed else _Split(reads, row)
                if split is not None:
                    yield split
            are_acted_on = are_acted_on or is_of_turn
            has_changed = True
        elif row.kind == STEP:
            pass
        elif is_of_turn:
            reads.append(row)
            are_acted_on = False
        else:
            reads = [row]
            are_acted_on = False


def _split_of(reads: list[Row], change: Row, are_acted_on: bool) -> _Split | None:
    """The split of a task that has changed the thing before. None if the change goes with that one in any case."""
    word = change.undoes
    if word in (FLAG, GUARDED_VALUE, GUARDED_KEY) and change.kind in (WRITE, REPLACEMENT):
        return _Split(reads, change, is_kept_to_function=True)
    is_of_shape = change.kind not in (WRITE, REPLACEMENT)
    if word in (BY_VALUE, GUARDED_VALUE) and is_of_shape or word in (BY_KEY, GUARDED_KEY) and change.kind == ADDITION:
        return None
    is_given = word == GIVEN and change.kind == ADDITION and are_acted_on
    return _Split(reads, change, is_given and all(read.kind in (LENGTH, LOOKUP) for read in reads))


def _iterations(rows: list[Row]) -> Iterator[_Split]:
    """Each step of an iteration that goes on in a later turn, with the look before it."""
    looks: dict[str, list[Row]] = defaultdict(list)
    for row in rows:
        if row.kind in (KEYS, ITERATION):
            looks[row.place].append(row)
    for row in rows:
        if row.kind == STEP:
            before = bisect_left(looks[row.place], row.turn, key=_turn)
            if before:
                yield _Split([looks[row.place][before - 1]], row)


def _turn(row: Row) -> int:
    return row.turn


class _SplitPairs:
    """Between two tasks of one loop: a read, a change by the same task that goes back to it in a later turn, and a
    change by the other task that may come in between."""

    def __init__(
        self, tasks: dict[str, list[Row]], unordered: Unordered, with_locks: bool, is_doubtful: bool | None,
    ) -> None:
        self._unordered = unordered
        self._with_locks = with_locks
        self._own: dict[str, Events] = {task: _events(row.event for row in rows) for task, rows in tasks.items()}
        groups = _Groups(with_locks)
        self._groups = {row: groups.add(row) for rows in tasks.values() for row in rows}
        self._changes = list(dict.fromkeys(alike for alike in self._groups.values() if alike.kind in CHANGING))
        self._splits = [
            split for rows in tasks.values() for split in _splits(rows) if is_doubtful in (None, split.is_doubtful)
        ]
        self._later = self._unordered_later()
        self._met: dict[tuple[_Alike, _Alike], dict[int, Events]] = defaultdict(lambda: defaultdict(int))
        """Of two groups the touches of the first one, each with those of the second that it races with."""

    def _unordered_later(self) -> dict[int, Events]:
        """Of each read of a split, and of each change, the later changes that it is not in order with."""
        reads = _events(row.event for split in self._splits for row in split.reads)
        reads |= _events(split.change.event for split in self._splits)
        changes = {event for alike in self._changes for event in alike.rows}
        return transposed((event, met) for event in changes if (met := self._unordered(event) & reads))

    def pairs(self) -> Iterator[Pair]:
        for split in self._splits:
            self._look_at(split)
        for (one, other), met in self._met.items():
            times = sum(events.bit_count() for events in met.values()) - self._told_twice(one, other)
            event, events = next(iter(met.items()))
            if times:
                yield *_by_event(one.rows[event], other.rows[lowest(events)]), times

    def _look_at(self, split: _Split) -> None:
        change = split.change
        for other in self._changes:
            if split.is_kept_to_function and other.is_of_function(change):
                continue
            between = 0
            for read in split.reads:
                if other.kind in CONFLICTING[read.kind] and (met := self._between(split, read, other)):
                    between |= met
                    if beside := met & (self._unordered(read.event) | self._later.get(read.event, 0)):
                        self._met[self._groups[read], other][read.event] |= beside
            if between and other.kind in CONFLICTING[change.kind]:
                self._met[self._groups[change], other][change.event] |= between

    def _between(self, split: _Split, read: Row, other: _Alike) -> Events:
        """Those changes of other tasks that may come behind the read and before the change.

        What comes after the read in any case may, too: who reads may start the other task itself.
        """
        change = split.change
        unordered = self._unordered(change.event) | self._later.get(change.event, 0)
        events = other.without({*read.held, *change.held}) if self._with_locks else other.events
        return unordered & events & ~self._own[change.task]

    def _told_twice(self, one: _Alike, other: _Alike) -> int:
        """How many pairs of two changes are told by both, as each lies between the other's read and itself.

        They are counted with the group that came first, and half of them if it is one group.
        """
        back = self._met.get((other, one))
        if back is None or one.kind not in CHANGING or one is not other and id(one) > id(other):
            return 0
        turned = transposed(back.items())
        twice = sum((events & turned.get(event, 0)).bit_count() for event, events in self._met[one, other].items())
        return twice // 2 if one is other else twice


def _events(numbers: Iterable[int]) -> Events:
    events = 0
    for number in numbers:
        events |= 1 << number
    return events


def _by_event(one: Row, other: Row) -> tuple[Row, Row]:
    return (one, other) if one.event < other.event else (other, one)
