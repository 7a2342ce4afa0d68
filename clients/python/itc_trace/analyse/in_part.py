"""What is found in one part of a run by itself, and its trace, by which touches of several parts are compared."""

from __future__ import annotations

import contextlib
from collections.abc import Callable, Generator, Iterable, Iterator
from contextlib import AbstractContextManager
from dataclasses import dataclass, replace
from functools import cached_property
from typing import NamedTuple

from ..model.conflicts import MAKING
from ..model.digests import number_of
from ..model.verdict import Cause, Unseen
from ..record.collector import Collector
from ..record.journal import Row
from ..session import LONGEST_ANSWER, Refused, Session
from .divided_journal import Part
from .lasting import LastingThings
from .progress import Bar, Shown
from .races import Races, find_in
from .trace import Asked, LazyTrace, Trace

TENANT = "trace"
Opened = Callable[[list[str]], AbstractContextManager[Asked]]
"""Gives a view of a tenant to which these requests were reported."""
Kept = Callable[[Part, Asked, int], None]
"""Keeps a part, of which a view is given, and how many events it has."""


@contextlib.contextmanager
def collected(requests: list[str]) -> Iterator[Asked]:
    """A view of a tenant of a collector of its own, which takes each of the requests."""
    with Collector(TENANT) as collector, Session(TENANT, collector.port) as session:
        for request, reply in zip(requests, session.ask(requests)):
            if not reply.startswith("201 "):
                raise Refused(request, reply)
        yield session


class Counted(NamedTuple):
    """How much a part has."""

    touches: int
    events: int
    places: frozenset[int]
    """The numbers of places, each with its thing. What a process has counted itself is not among them."""
    things: frozenset[int]
    """The numbers of things."""


@dataclass
class InPart:
    """A part that was looked at by itself."""

    part: Part
    found: Races
    trace: Trace
    counted: Counted
    ended: frozenset[str]
    """The tasks that have ended in it."""

    @property
    def events(self) -> int:
        """How many events its tenant has."""
        return len(self.trace.events)

    def in_short(self, lasting: LastingThings) -> InPart:
        """The same with those rows alone by which it is compared with other parts."""
        number = self.part.number
        things = lasting.go_on(number) | lasting.are_over(number)
        rows = [
            row for row in self.part.rows
            if (number_of(row.thing) in things if row.thing is not None else _hands_over_or_waits(row))
        ]
        reports = self.part.requests() if self.part.last is None else None  # A tenant may have more than the journal.
        return replace(self, part=replace(self.part, rows=rows, reports=reports))

    @cached_property
    def touches(self) -> list[Row]:
        return [row for row in self.part.rows if row.is_touch]


def find_in_part(
    part: Part, is_strict: bool, signals: frozenset[str], opened: Opened, bar: Bar | None = None,
    keep: Kept | None = None,
) -> InPart:
    """Looks at a part by itself. It may be kept, too."""
    with opened_part(part, opened) as (view, events):
        asked: Asked = view if bar is None else Shown(view, bar)
        if keep is not None:
            keep(part, asked, events)
        trace = LazyTrace(asked, events)
        found = find_in(trace, part.rows, is_strict, signals)
        if part.damaged:
            text = f"{part.damaged} lines of part {part.number} of the journal are none"
            found.unseen.append(Unseen(Cause.JOURNAL, text))
        ended = frozenset(row.task for row in part.rows if row.kind == "end" and not row.is_touch)
        looked_at = InPart(part, found, trace.whole, _counted(part), ended)
        found.questions += trace.questions
        return looked_at


def _counted(part: Part) -> Counted:
    touches = [row for row in part.rows if row.is_touch and row.kind != MAKING]
    counted = [row for row in touches if not any(one.has(row) for one in part.looked_at)]
    places = {(row.thing, row.place) for row in counted}
    return Counted(
        len(touches), len({row.event for row in part.rows}),
        frozenset(number_of(f"{thing} {place}") for thing, place in places),
        frozenset(number_of(thing or "") for thing in {row.thing for row in counted}),
    )


def _hands_over_or_waits(row: Row) -> bool:
    return any(one is not None for one in (row.lock, row.guard, row.wants, row.gives))


@contextlib.contextmanager
def opened_part(part: Part, opened: Opened) -> Iterator[tuple[Asked, int]]:
    """A view of the part's tenant, and how many events that has."""
    if part.last is not None:
        tenant, port = part.last
        with Session(tenant, port, "view", answer_wait=LONGEST_ANSWER) as view:
            yield view, view.count()[0]
    else:
        requests = part.requests()
        with opened(requests) as asked:
            yield asked, len(requests)


def one_by_one(
    parts: Iterable[Part], is_strict: bool, signals: frozenset[str], opened: Opened, bar: Bar | None = None,
    keep: Kept | None = None,
) -> Generator[InPart, None, None]:
    """Looks at each part in turn."""
    for part in parts:
        yield find_in_part(part, is_strict, signals, opened, bar, keep)
