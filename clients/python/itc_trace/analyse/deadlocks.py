"""Possible deadlocks: tasks that acquire the same locks in an order that makes a cycle.

A task waits for a lock while it holds others. If each of several tasks wants what the next one holds, all of them may
wait for ever. This is the lock graph of GoodLock (Havelund 2000), with gate locks for any number of tasks (Bensalem and
Havelund 2005): two of the tasks must hold no lock in common, since that one lets only one of them in. Acquisitions at
the same lines with the same locks are one pattern, and cycles are looked for among patterns, as Tunç, Mathur,
Pavlogiannis and Viswanathan do (2023). Then each cycle needs an acquisition by another task for each of its patterns,
of which no two are in order by anything but the hand-over of locks. The collector answers that for the trace without
locks. No schedule is made up for it, so it is a possible deadlock, and none that has been.
"""

from __future__ import annotations

import re
from collections import defaultdict
from collections.abc import Callable, Iterable, Iterator
from dataclasses import dataclass
from typing import Any, NamedTuple

from ..model.finding import DEADLOCK, POSSIBLE_DEADLOCK, Finding, FoundSide
from ..model.sources import Sources
from ..record.journal import DeadlockTold, Row
from ..session import Refused
from .bit_matrix import transposed
from .hand_overs import is_poll_of_library
from .lock_waits import ACROSS, Found, Pattern, Place, number_of
from .queue_waits import waits_in
from .trace import Events, Trace, lock_events
from .without_locks import WithoutLocks

UNORDERED, CLOSED = "nothing but locks orders them", "each waits for the next one"
NUMBER = re.compile(r" \d+\Z")
MOST_STEPS = 200_000
"""So many steps from lock to lock are gone at most, to look for cycles."""


@dataclass(frozen=True)
class LockSide:
    """One of the lines of a deadlock, as a race has sides."""

    kind: str
    place: str
    function: str = ""


class Step(NamedTuple):
    """A task of a cycle: the lock that it holds, and the lock that it wants, which the next task holds."""

    task: str
    holds: str
    held_at: Place
    wants: str
    wanted_at: Place
    event: int = 0
    part: int = 1
    loop: int = 0
    owes: bool = False
    """Whether it holds no lock, and is about to put into a queue."""
    awaits: bool = False
    """Whether it wants no lock, and waits for an item of a queue."""

    @property
    def places(self) -> tuple[str, str]:
        return str(self.held_at), str(self.wanted_at)

    @property
    def lines(self) -> tuple[tuple[str, Place], tuple[str, Place]]:
        """What it does at both places."""
        holds, wants = "puts into" if self.owes else "holds", "waits for" if self.awaits else "wants"
        return (f"{holds} {_variable(self.holds)}", self.held_at), (f"{wants} {_variable(self.wants)}", self.wanted_at)


@dataclass
class Deadlock:
    """A cycle of tasks, each of which wants a lock that the next one holds."""

    steps: tuple[Step, ...]
    times: int = 1
    is_possible: bool = True
    """Whether it was found by the order of locks, and has not been."""
    is_confirmed: bool = False
    """Whether it was possible only, and a further run has met it."""

    @property
    def is_of_locks(self) -> bool:
        """Whether all of them wait for locks, and none for a queue."""
        return not any(one.owes for one in self.steps)

    @property
    def key(self) -> object:
        """What is the same of deadlocks that are listed as one, in other runs too."""
        return tuple(one.places for one in _turned(self.steps, lambda one: one.places))

    @property
    def thing(self) -> str:
        """The locks, in the order of the cycle."""
        return _thing_of(self.steps)

    @property
    def sides(self) -> tuple[LockSide, ...]:
        return tuple(LockSide(kind, str(at), at.function) for one in self.steps for kind, at in one.lines)

    def finding(self, sources: Sources | None = None) -> Finding:
        """The value that each format is written of. It begins with the same step in each run."""
        kept = sources or Sources()

        def sides(step: Step) -> list[FoundSide]:
            return [_found_side(step, kind, at, kept) for kind, at in step.lines]

        steps = _turned(self.steps, lambda one: [side.known_as for side in sides(one)])
        made = " and ".join(dict.fromkeys(place for one in steps if (place := _maker(one.holds))))
        return Finding(
            POSSIBLE_DEADLOCK if self.is_possible else DEADLOCK, _thing_of(steps),
            tuple(side for one in steps for side in sides(one)),
            UNORDERED if self.is_possible else CLOSED, self.times, f"made at {made}" if made else "", self.is_possible,
            self.is_confirmed,
        )

    def confirm(self) -> None:
        """A further run has met it."""
        self.is_possible, self.is_confirmed = False, True

    def __str__(self) -> str:
        return "\n    ".join(self.finding().lines())


def _thing_of(steps: Iterable[Step]) -> str:
    return " and ".join(dict.fromkeys(_variable(one.holds) for one in steps))


def _found_side(step: Step, kind: str, at: Place, sources: Sources) -> FoundSide:
    file = at.file or ""
    return FoundSide(
        kind, file, at.line, at.function, sources.task(step.task), step.event, step.part,
        () if step.owes else (step.holds,),
        bool(step.loop), False, *sources.around(file, at.line), sources.path(file),
    )


def _turned(steps: tuple[Step, ...], key: Callable[[Step], Any]) -> tuple[Step, ...]:
    """The same cycle, from the step on by which it is the least."""
    turned = [(*steps[number:], *steps[:number]) for number in range(len(steps))]
    return min(turned, key=lambda one: [key(step) for step in one])


def _name(lock: str) -> str:
    """A lock as a person calls it, without what tells it from others of the same name."""
    return lock.partition(" ")[2] if lock.startswith("#") else lock


def _variable(lock: str) -> str:
    """The name without the place that made it, which other lines may move, and how many were made there before."""
    return NUMBER.sub("", _name(lock).partition(" (")[0])


def _maker(lock: str) -> str:
    return _name(lock).partition(" (")[2].removesuffix(")")


def deadlocks_told(told: Iterable[DeadlockTold], rows: Iterable[Row]) -> list[Deadlock]:
    """Those that have been, as the program's process has told them.

    A task waits behind its last event. One that has none is shown where it was started.
    """
    told = list(told)
    last = {name: row for row in rows for name in (row.of, row.task)} if told else {}
    listed: dict[object, Deadlock] = {}
    for one in told:
        steps = []
        for step in one.steps:
            task = str(step["task"])
            event, part = (last[task].event, last[task].part) if task in last else (1, 1)
            steps.append(Step(
                task, str(step["holds"]), Place(*step["held_at"]), str(step["wants"]), Place(*step["wanted_at"]), event,
                part,
            ))
        add_deadlock(Deadlock(tuple(steps), is_possible=False), listed)
    return in_order(listed)


class TooMany(Exception):
    """There are more ways from lock to lock than are gone."""


def cycles(patterns: Iterable[Pattern]) -> Iterator[tuple[Pattern, ...]]:
    """The cycles of patterns, each from its first pattern on: each wants a lock that the next one holds.

    No two of them hold a lock in common.
    """
    left = _in_cycles(list(dict.fromkeys(patterns)))
    holding: dict[str, list[int]] = defaultdict(list)
    for number, pattern in enumerate(left):
        for lock in pattern.held:
            holding[lock].append(number)
    steps = 0
    for start in range(len(left)):
        paths: list[tuple[int, ...]] = [(start,)]
        while paths:
            path = paths.pop()
            last = left[path[-1]]
            for number in holding[last.wants]:
                steps += 1
                if steps > MOST_STEPS:
                    raise TooMany
                if not last.waits_for(left[number]):
                    continue
                if number == start and len(path) > 1:
                    yield tuple(left[one] for one in path)
                elif number > start and number not in path:
                    if not any(left[one].is_apart(left[number]) for one in path):
                        paths.append((*path, number))


def _in_cycles(patterns: list[Pattern]) -> list[Pattern]:
    """Those of which others want a held lock, and which want a lock that others hold, with the rest left out."""
    while True:
        wanted = {pattern.wants for pattern in patterns}
        held = {lock for pattern in patterns for lock in pattern.held}
        left = [one for one in patterns if one.wants in held and not wanted.isdisjoint(one.held)]
        if len(left) == len(patterns):
            return left
        patterns = left


def has_cycle(found: Found) -> bool:
    """Whether it is worth to ask for the order."""
    try:
        return any(True for _ in cycles(found))
    except TooMany:
        return True


def before_without(trace: Trace, locks: set[int]) -> list[Events]:
    """Of each event those before it, by anything but the hand-over of locks."""
    before = [0]
    for event in trace.events:
        source = trace.source(event) if event.number in locks and event.kind == "recv" else None
        known = 0
        for one in event.follows:
            if source is None or one != source.number:
                known |= before[one] | 1 << one
        before.append(known)
    return before


def locks_of(rows: Iterable[Row], trace: Trace, signals: frozenset[str]) -> set[int]:
    """The hand-over of all locks, also of those at whose conditions others wait, and of those that processes share.

    Of the latter only the receipt tells, and that is of a process which does not know what is a signal to others.
    """
    across = {lock for lock in map(number_of, signals) if lock.startswith(ACROSS)}
    handed_over = ((row.event, row.lock or row.guard) for row in rows)
    told = {
        event for event, lock in handed_over
        if lock is not None and number_of(lock) not in across and not is_poll_of_library(lock)
    }
    received = {trace[number].name for number in told if trace[number].kind == "recv"}
    return lock_events(trace, told) | {
        event.number for event in trace.events if event.kind in ("send", "recv") and event.name in received
    }


class _Concurrent:
    """Which of some events no two are in order."""

    def __init__(self, events: Events, before: list[Events]) -> None:
        self._events = events
        self._before = before
        numbers = [number for number in range(events.bit_length()) if events >> number & 1]
        self._after = transposed((number, before[number] & events) for number in numbers)

    def with_event(self, event: int) -> Events:
        return self._events & ~self._before[event] & ~self._after.get(event, 0) & ~(1 << event)


def find_deadlocks(rows: list[Row], signals: frozenset[str], trace: Trace) -> list[Deadlock]:
    """The possible deadlocks of one trace. Each is confirmed by a collector that has the trace without locks."""
    locks = locks_of(rows, trace, signals)
    before = before_without(trace, locks)
    found = waits_in(rows, signals, trace, locks, before)
    events = 0
    for tasks in found.values():
        for mask in tasks.values():
            events |= mask
    concurrent = _Concurrent(events, before)
    part = rows[0].part if rows else 1
    listed: dict[object, Deadlock] = {}
    for cycle in cycles(found):
        chosen = None if has_one_loop(cycle) else _chosen(cycle, found, concurrent, [])
        if chosen is not None:
            add_deadlock(Deadlock(tuple(_steps(cycle, chosen, part))), listed)
    if listed:
        with WithoutLocks(trace, locks) as tenant:
            confirm_all(listed.values(), tenant)
    return in_order(listed)


def has_one_loop(cycle: tuple[Pattern, ...]) -> bool:
    """Whether two tasks of one loop are to wait for locks of threads: while one waits, the other does not go on."""
    loops = [pattern.loop for pattern in cycle if pattern.loop]
    return len(loops) > len(set(loops))


_Chosen = list[tuple[str, int]]


def _chosen(cycle: tuple[Pattern, ...], found: Found, concurrent: _Concurrent, chosen: _Chosen) -> _Chosen | None:
    """An acquisition of another task for each pattern, no two in order."""
    if len(chosen) == len(cycle):
        return chosen
    tasks = {task for task, _ in chosen}
    free = -1
    for _, event in chosen:
        free &= concurrent.with_event(event)
    for task, events in found[cycle[len(chosen)]].items():
        left = events & free if task not in tasks else 0
        while left:
            event = (left & -left).bit_length() - 1
            left &= left - 1
            whole = _chosen(cycle, found, concurrent, [*chosen, (task, event)])
            if whole is not None:
                return whole
    return None


def _steps(cycle: tuple[Pattern, ...], chosen: _Chosen, part: int) -> Iterator[Step]:
    """Each step with the lock that is held of it: the one that the step before wants."""
    for number, (pattern, (task, event)) in enumerate(zip(cycle, chosen, strict=True)):
        held = pattern.held.index(cycle[number - 1].wants)
        following = cycle[(number + 1) % len(cycle)]
        yield Step(
            task, pattern.names[held], pattern.at[held], pattern.names[-1], pattern.place, event, part, pattern.loop,
            owes=pattern.owes and not held, awaits=following.owes and following.held[0] == pattern.wants,
        )


def confirm_all(deadlocks: Iterable[Deadlock], tenant: WithoutLocks) -> None:
    """Has the collector answer that no two of the acquisitions of each are in order."""
    pairs = [
        (min(one.event, other.event), max(one.event, other.event)) for deadlock in deadlocks
        for number, one in enumerate(deadlock.steps) for other in deadlock.steps[number + 1:]
    ]
    tenant.ask(pairs)
    for pair in pairs:
        if not tenant.is_concurrent(*pair):
            raise Refused("order {} {}".format(*pair), "it contradicts what the events follow")


def add_deadlock(deadlock: Deadlock, listed: dict[object, Deadlock]) -> None:
    """Adds one to those that are listed, from the first of its events on."""
    deadlock.steps = _turned(deadlock.steps, lambda one: (one.part, one.event))
    known = listed.setdefault(deadlock.key, deadlock)
    if known is not deadlock:
        known.times += deadlock.times


def in_order(listed: dict[object, Deadlock]) -> list[Deadlock]:
    return sorted(listed.values(), key=lambda deadlock: [(one.part, one.event) for one in deadlock.steps])

