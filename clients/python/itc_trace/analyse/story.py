"""What each task of a race did before and after it, and what would have put the two touches in order."""

from __future__ import annotations

from collections.abc import Callable, Iterable, Iterator

from ..model.conflicts import MAKING
from ..model.finding import Step, Story
from ..model.lines import END, RESULT
from ..model.sources import Sources
from ..record.dividing import GOES_ON
from ..record.journal import Row
from .races import Race

STEPS = 3
"""So many events of a task are told before and after its touch."""
MOST_TOUCHES = 2
START = "start "


def add_stories(races: Iterable[Race], rows: Iterable[Row], sources: Sources) -> None:
    """Gives each race its story, by the rows of the journal. Processes have their whole names."""
    told = list(races)
    if told:
        trace = _Rows(rows, {row.task for race in told for row in race.example}, sources.task)
        for race in told:
            race.story = trace.story(*race.example)


class _Rows:
    """The rows of some tasks, by their events."""

    def __init__(self, rows: Iterable[Row], tasks: set[str], named: Callable[[str], str]) -> None:
        self._called = named
        self._of_task: dict[str, dict[tuple[int, int], list[Row]]] = {}
        self._joins: dict[str, list[Row]] = {}
        self._spawns: dict[str, Row] = {}
        for row in rows:
            if _is_own(row):
                continue
            if row.task in tasks:
                self._of_task.setdefault(row.task, {}).setdefault(_place(row), []).append(row)
            if row.kind == "join" and _named(row) in tasks:
                self._joins.setdefault(_named(row), []).append(row)
            elif row.kind == "spawn" and _named(row) in tasks:
                self._spawns.setdefault(_named(row), row)

    def story(self, first: Row, second: Row) -> Story:
        around = [self._around(row) for row in (first, second)]
        return Story(
            tuple(before for before, _ in around), tuple(after for _, after in around),
            tuple(self._orders(first, second)),
        )

    def _around(self, row: Row) -> tuple[tuple[Step, ...], tuple[Step, ...]]:
        events = sorted(self._of_task.get(row.task, ()))
        before = [place for place in events if place < _place(row)][-STEPS:]
        after = [place for place in events if place > _place(row)][:STEPS]
        rows = self._of_task.get(row.task, {})
        return tuple(_step(place, rows[place]) for place in before), tuple(_step(place, rows[place]) for place in after)

    def _orders(self, first: Row, second: Row) -> Iterator[str]:
        """A sentence for each: the nearest lock, join and message."""
        yield self._lock(first, second)
        if first.task != second.task:
            yield self._join(first, second)
        yield self._message(first, second)

    def _lock(self, first: Row, second: Row) -> str:
        one, other = self._called(first.task), self._called(second.task)
        for lock in first.held:
            return f"{_name(lock)}: {one} holds it, and {other} has to hold it, too"
        for lock in second.held:
            return f"{_name(lock)}: {other} holds it, and {one} has to hold it, too"
        uses, others = self._uses(first), self._uses(second)
        both = [lock for lock in uses if lock in others]
        common = min(both, key=lambda lock: uses[lock] + others[lock], default=None)
        if common is None:
            return "a lock: no lock is used by both tasks, and one that both hold here keeps them apart"
        return f"{_name(common)}: both tasks use it, and neither holds it here"

    def _uses(self, touch: Row) -> dict[str, int]:
        """The locks that a task uses anywhere, and how near to its touch."""
        uses: dict[str, int] = {}
        for rows in self._of_task.get(touch.task, {}).values():
            for row in rows:
                for lock in (*row.held, *([row.lock] if row.lock else [])):
                    distance = abs(row.event - touch.event) if row.part == touch.part else 1 << 30
                    uses[lock] = min(uses.get(lock, distance), distance)
        return uses

    def _join(self, first: Row, second: Row) -> str:
        one, other = self._called(first.task), self._called(second.task)
        joins = sorted((row for row in self._joins.get(first.task, []) if _place(row) > _place(first)), key=_place)
        start = self._spawns.get(second.task)
        early = f"before {other} {f'is started{_at(start)}' if start else 'touches it'} would be early enough"
        if not joins:
            return f"a join: nobody joins {one}, and {early}"
        return f"a join: {self._called(joins[0].task)} joins {one}{_at(joins[0])}, and {early}"

    def _message(self, first: Row, second: Row) -> str:
        one, other = self._called(first.task), self._called(second.task)
        sent = next((row for row in self._after(first) if row.kind == "send" and _is_meant(row)), None)
        taken = next((row for row in self._before(second) if row.kind == "recv" and _is_meant(row)), None)
        if sent is None and taken is None:
            return f"a queue or an event: {one} sends nothing behind its touch"
        gives = f"behind its touch {self._does(sent)}" if sent else f"{one} sends nothing behind its touch"
        takes = f"before its own touch {self._does(taken)}" if taken else f"{other} takes nothing before its own"
        return f"a queue or an event: {gives}, and {takes}"

    def _does(self, row: Row) -> str:
        return f"{self._called(row.task)} does `{row.label}`{_at(row)}"

    def _after(self, touch: Row) -> Iterator[Row]:
        events = self._of_task.get(touch.task, {})
        yield from (row for place in sorted(events) if place > _place(touch) for row in events[place])

    def _before(self, touch: Row) -> Iterator[Row]:
        events = self._of_task.get(touch.task, {})
        yield from (row for place in sorted(events, reverse=True) if place < _place(touch) for row in events[place])


def _step(place: tuple[int, int], rows: list[Row]) -> Step:
    """An event of a task in few words."""
    touches = list(dict.fromkeys((row.label, row.place) for row in rows if row.is_touch and row.kind != MAKING))
    part, event = place
    if not touches:
        row = next((row for row in rows if row.file), rows[0])
        return Step(event, part, row.label, row.place if row.file else "")
    more = f" and {len(touches) - MOST_TOUCHES} more" if len(touches) > MOST_TOUCHES else ""
    return Step(event, part, ", ".join(label for label, _ in touches[:MOST_TOUCHES]) + more, touches[0][1])


def _is_own(row: Row) -> bool:
    """Whether no line of the program does this: a part begins with it, it keeps the order of ended threads, or it tells
    several of an end."""
    is_of_ends = (row.kind, row.label) in (("join", RESULT.taking), ("send", END.giving))
    return not row.file and (row.label == GOES_ON or is_of_ends)


def _is_meant(row: Row) -> bool:
    """Whether the message is of no lock, and of no task that is started by a nursery."""
    return not row.lock and not row.label.startswith(START)


def _place(row: Row) -> tuple[int, int]:
    return row.part, row.event


def _named(row: Row) -> str:
    """The task that a start or a join names."""
    return row.of or row.label.rpartition(" ")[2]


def _name(lock: str) -> str:
    return lock.partition(" ")[2] or lock


def _at(row: Row) -> str:
    return f" at {row.place}" if row.file else ""
