"""What is kept of the touches of earlier parts, and which later touches race with them.

A touch of an earlier part comes before an event if and only if one of the positions that know the touch does. At the
next border the set of these positions moves on by the same rule. A touch that all live tasks know comes before all that
may still happen, and is dropped. So is one whose thing no later part touches. Touches of one line of the program that
the same positions know are kept as one.

Touches that the same positions know are a group, and move on together: a border costs what there is of groups and of
new touches, however many are kept.
"""

from __future__ import annotations

from collections import defaultdict
from collections.abc import Collection, Iterable, Iterator
from dataclasses import dataclass, field, replace
from typing import Protocol

from .bit_matrix import transposed
from ..model.digests import number_of
from ..model.conflicts import CHANGING, CONFLICTING, MAKING
from ..record.dividing import Border
from ..record.journal import Row
from .racing_pairs import Pair
from .trace import Events, Trace

_Alike = tuple[str, "str | None", int, str, int]
"""What is the same of touches of a thing that are kept as one: kind, file, line, function and loop."""


class Knowing(Protocol):
    """A trace, or what of its order is meant."""

    @property
    def before(self) -> list[Events]: ...


@dataclass
class _Kept:
    """Touches that are kept as one. The example is the first of them, and has a number below those of later ones."""

    number: int
    example: Row
    times: int = 1

    def joined(self, other: _Kept) -> _Kept:
        """These touches and the others, kept as one."""
        first = min(self, other, key=lambda one: one.number)
        return _Kept(first.number, first.example, self.times + other.times)


_Group = dict[str, dict[_Alike, _Kept]]
"""Touches that the same positions know, by their thing."""


@dataclass
class Pairing:
    """A touch of an earlier part and one of this part that race, and the positions that know the first one."""

    pair: Pair
    known: Events


@dataclass
class AcrossParts:
    """The touches of earlier parts that later ones may race with."""

    is_strict: bool = False
    _groups: dict[Events, _Group] = field(default_factory=dict)
    """The touches, by the positions that know them."""
    _count: int = 0
    """How many were kept, ever."""
    _reads: dict[tuple[str | None, str], Row] = field(default_factory=dict)
    """The last read of a thing by each task of a loop that goes on and has not changed it since."""

    def __len__(self) -> int:
        return sum(len(alike) for group in self._groups.values() for alike in group.values())

    def copy(self) -> AcrossParts:
        """What is kept now, which goes on by itself."""
        groups = {
            known: {thing: {key: replace(one) for key, one in alike.items()} for thing, alike in group.items()}
            for known, group in self._groups.items()
        }
        return AcrossParts(self.is_strict, groups, self._count, dict(self._reads))

    def races(self, touches: Iterable[Row], trace: Knowing) -> Iterator[Pairing]:
        """The pairs of an earlier part's touch and one of these, which are of this part."""
        touches = list(touches)
        positions = _union(self._groups)
        kept = self._kept_of({touch.thing or "" for touch in touches})
        groups: dict[tuple[object, ...], list[Row]] = defaultdict(list)
        for touch in touches:
            if touch.thing in kept:
                place = touch.thing, touch.kind, touch.file, touch.line, touch.loop
                groups[*place, trace.before[touch.event] & positions].append(touch)
        for key, alike in groups.items():
            known: Events = key[-1]  # type: ignore[assignment]
            touch, times = alike[0], len({row.event for row in alike})
            for known_first, one in kept[touch.thing or ""]:
                if not known_first & known and self._may_race(one.example, touch):
                    yield Pairing((one.example, touch, one.times * times), known_first)

    def _kept_of(self, things: set[str]) -> dict[str, list[tuple[Events, _Kept]]]:
        """What is kept of touches of each of these things, the oldest first, with the positions that know it."""
        found: dict[str, list[tuple[Events, _Kept]]] = defaultdict(list)
        for known, group in self._groups.items():
            for thing in things & group.keys():
                found[thing] += ((known, one) for one in group[thing].values())
        for kept in found.values():
            kept.sort(key=lambda one: one[1].number)
        return dict(found)

    def unseen_turns(self, touches: Iterable[Row], trace: Trace) -> Iterator[Row]:
        """Changes by a task of a loop that go back to a read in an earlier part, if another task's change may have come
        in between.

        Within a part such a change is a race. Across parts it is not known whether the other one comes after the read.
        """
        looped = sorted((row for row in touches if row.loop and self._takes_turns(row)), key=lambda row: row.event)
        changes = [row for row in looped if row.kind in CHANGING]
        for row in looped:
            if row.kind not in CHANGING:
                self._reads[row.thing, row.task] = row
                continue
            read = self._reads.pop((row.thing, row.task), None)
            is_later_turn = read is not None and read.part < row.part and read.turn < row.turn
            if is_later_turn and self._may_be_between(row, changes, trace):
                yield row

    def _may_be_between(self, change: Row, changes: list[Row], trace: Trace) -> bool:
        before = trace.before[change.event]
        thing = change.thing or ""
        for known, kept in self._kept_of({thing}).get(thing, ()):
            other = kept.example
            is_of_other_task = other.loop == change.loop and other.task != change.task
            if other.kind in CHANGING and is_of_other_task and not known & before:
                return True
        return any(
            other.thing == change.thing and other.loop == change.loop and other.task != change.task
            and not before >> other.event & 1 and not trace.before[other.event] >> change.event & 1
            for other in changes
        )

    def _takes_turns(self, row: Row) -> bool:
        """Whether tasks of one loop take turns in touching the thing, which the program has not named itself."""
        return not self.is_strict and bool(row.name)

    def _may_race(self, first: Row, second: Row) -> bool:
        takes_turns = first.loop and first.loop == second.loop and self._takes_turns(second)
        return first.kind in CONFLICTING[second.kind] and not takes_turns

    def move_on(self, touches: Iterable[Row], trace: Knowing, border: Border) -> None:
        """Takes over the touches of this part, and leaves all with the positions of the next one."""
        live = _union(1 << event for event in border.tasks)
        at = [(position, trace.before[event] | 1 << event) for event, position in border.positions]
        groups: dict[Events, _Group] = {}
        for group, known in self._moved(at):
            if known & live != live:
                groups[known] = _merged(groups[known], group) if known in groups else group
        for row, known in _new(touches, at):
            if known & live != live:
                self._add(groups.setdefault(known, {}), row)
        self._groups = groups

    def end_tasks(self, tasks: Collection[str]) -> None:
        """These tasks have ended, and write back nothing that they have read."""
        self._reads = {key: row for key, row in self._reads.items() if row.task not in tasks}

    def forget(self, things: set[int]) -> None:
        """Drops the touches of the things that have these numbers: no later part touches them."""
        if things:
            for group in self._groups.values():
                for thing in [thing for thing in group if number_of(thing) in things]:
                    del group[thing]
            self._groups = {known: group for known, group in self._groups.items() if group}

    def _moved(self, at: list[tuple[int, Events]]) -> Iterator[tuple[_Group, Events]]:
        for known, group in self._groups.items():
            yield group, _union(1 << position for position, before in at if before & known)

    def _add(self, group: _Group, row: Row) -> None:
        alike = group.setdefault(row.thing or "", {})
        key = row.kind, row.file, row.line, row.function, row.loop
        if key in alike:
            alike[key].times += 1
        else:
            self._count += 1
            alike[key] = _Kept(self._count, row)


def _merged(one: _Group, other: _Group) -> _Group:
    """The touches of both groups. The larger one takes over what the smaller one has."""
    smaller, larger = sorted((one, other), key=len)
    for thing, alike in smaller.items():
        others = larger.setdefault(thing, alike)
        if others is not alike:
            for key, kept in alike.items():
                others[key] = kept.joined(others[key]) if key in others else kept
    return larger


def _new(touches: Iterable[Row], at: list[tuple[int, Events]]) -> Iterator[tuple[Row, Events]]:
    """The touches of this part, each with the positions of the next part that know it."""
    rows = {
        (row.thing, row.kind, row.file, row.line, row.function, row.loop, row.event): row for row in touches
        if row.kind != MAKING
    }
    events = _union(1 << event for event in {row.event for row in rows.values()})
    known = transposed((position, met) for position, before in at if (met := before & events))
    for row in rows.values():
        yield row, known.get(row.event, 0)


def _union(sets: Iterable[Events]) -> Events:
    union = 0
    for one in sets:
        union |= one
    return union
