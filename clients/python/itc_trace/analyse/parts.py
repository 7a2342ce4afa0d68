"""The journal of a run that was divided into parts, and its races: within each part, and across."""

from __future__ import annotations

import contextlib
import os
import shutil
import tempfile
from collections.abc import Generator, Iterable, Iterator
from dataclasses import replace
from typing import Any

from .across_parts import AcrossParts, Pairing
from .benign import Looking
from .deadlocks import add_deadlock, deadlocks_told
from .deadlocks import in_order as deadlocks_in_order
from .deadlocks_of_parts import DeadlocksOfParts
from .distinct import Distinct
from .divided_journal import DividedJournal, Part, divided
from .in_part import TENANT, InPart, Opened, collected, one_by_one, opened_part
from .kept_sources import sources_of
from .lasting import LastingThings
from .parts_beside import Asking, NotLookedAt, found_beside, processes_for
from .progress import Bar
from .races import Race, Races, add_race, events_of_lock, in_order, list_pair, sides_of
from .snapshot import write_export
from .story import add_stories
from .trace import Asked, Steps, Told, Trace, told_by_signals
from ..model.digests import number_of
from ..model.lock_identity import ANSWER, REQUEST
from ..model.verdict import Cause, Unseen, end_row
from ..record.collector import NoCollector
from ..record.dividing import Border
from ..record.journal import BORDER, LookedAt, Row
from ..session import Refused

UNSEEN_TURNS = (
    "a task of a loop read {} in one part of the trace and wrote it back in the next, at {}: "
    "who came in between was not looked at"
)
BY_REQUESTS = "ordered in this run only by requests of the process to itself"
_LookedAt = Generator[InPart, None, None]
"""The parts in their order, as each was looked at by itself."""


def find_in_parts(
    looked_at: Iterable[InPart], found: Races, is_strict: bool, opened: Opened = collected,
    signals: frozenset[str] = frozenset(), lasting: LastingThings | None = None
) -> None:
    """Adds the races of all parts to what was found, those across parts too.

    What lasts for several parts may be known. All things may, else.
    """
    across, before = _Across(is_strict, signals, opened, lasting), None
    for here in looked_at:
        if before is not None and here.part.border is not None:
            if not here.part.may_follow(before.events):
                raise Refused("the journal of a part", "it lacks events")
            across.move_on(before, here.part.border)
        across.add(here, found)
        before = here
    across.tell(found)


class _Across:
    """What was found by now, and what is kept of earlier parts for later ones."""

    def __init__(
        self, is_strict: bool, signals: frozenset[str], opened: Opened, lasting: LastingThings | None,
    ) -> None:
        self._opened = opened
        self._lasting = lasting
        self._across = AcrossParts(is_strict)
        self._lucky = _Requests()
        self._waiting = DeadlocksOfParts(signals)
        self._listed: dict[object, Any] = {}
        self._possible: dict[object, Any] = {}
        self._hidden: dict[object, Any] = {}
        self._deadlocks: dict[object, Any] = {}

    def add(self, here: InPart, found: Races) -> None:
        """A further part, and the touches of it that race with those of earlier ones."""
        for races, listed in (
            (here.found.races, self._listed), (here.found.possible, self._possible), (here.found.hidden, self._hidden),
        ):
            for race in races:
                add_race(race, listed)
        for deadlock in here.found.possible_deadlocks:
            add_deadlock(deadlock, self._deadlocks)
        found.questions += here.found.questions
        found.unseen += here.found.unseen
        found.passed_over += here.found.passed_over
        self._compare(here, found)

    def _compare(self, here: InPart, found: Races) -> None:
        touches, trace = here.touches, here.trace
        turns = {row.name: row.place for row in self._across.unseen_turns(touches, trace)}
        found.unseen += [Unseen(Cause.FULL, UNSEEN_TURNS.format(name, place)) for name, place in turns.items()]
        shown = [one for one in self._across.races(touches, trace) if list_pair(one.pair, self._listed)]
        if shown:
            with opened_part(here.part, self._opened) as (view, _):
                for pairing in shown:
                    _confirm(pairing, view)
        self._lucky.look_at(here.part, trace, self._across)
        for race in self._lucky.races(touches):
            add_race(race, self._possible)
        self._waiting.look_at(here.part.rows, trace)
        for deadlock in self._waiting.found():
            add_deadlock(deadlock, self._deadlocks)

    def move_on(self, here: InPart, border: Border) -> None:
        """Goes on behind the border that follows this part."""
        touches = here.touches
        self._across.end_tasks(here.ended)
        if self._lasting is not None:
            go_on, are_over = self._lasting.go_on(here.part.number), self._lasting.are_over(here.part.number)
            touches = [row for row in touches if number_of(row.thing or "") in go_on]
            self._across.forget(are_over)
            self._lucky.forget(are_over)
        self._across.move_on(touches, here.trace, border)
        self._lucky.move_on(touches, border)
        self._waiting.move_on(border)

    def tell(self, found: Races) -> None:
        """Behind the last part."""
        listed, possible = self._listed, self._possible
        found.races = in_order(listed)
        found.possible = in_order({key: race for key, race in possible.items() if key not in listed})
        found.hidden = in_order(
            {key: race for key, race in self._hidden.items() if key not in listed and key not in possible}
        )
        found.possible_deadlocks = deadlocks_in_order(self._deadlocks)
        found.passed_over += self._waiting.passed_over(found.possible_deadlocks)
        found.pass_over_inner()


class _Requests:
    """Looks for touches of several parts that only the requests of the process to itself put in order.

    Whoever asks comes after the answers, and was meant to. So touches of tasks that ask are left out.
    """

    def __init__(self) -> None:
        self._across: AcrossParts | None = None
        self._told: Told | None = None
        self._askers: set[str] = set()

    def look_at(self, part: Part, trace: Trace, across: AcrossParts) -> None:
        """The next part, before its touches are compared. From the first request on, another order is kept than that
        across parts.

        In that order a lock hands on what a request does. Touches that only locks keep in order are not looked for.
        """
        locks = {row.event: row.lock for row in part.rows if row.lock is not None}
        answers = events_of_lock(locks, ANSWER)
        if self._across is None and events_of_lock(locks, REQUEST):
            self._across = across.copy()
        self._told = None if self._across is None else told_by_signals(
            trace, Steps(set(locks), set(locks) - answers, answers),
        )
        self._askers |= {row.task for row in part.rows if row.event in answers and row.kind == "recv"}

    def races(self, touches: list[Row]) -> Iterator[Race]:
        if self._across is None or self._told is None:
            return
        for pairing in self._across.races(touches, self._told):
            first, second, times = pairing.pair
            if self._askers.isdisjoint((first.task, second.task)):
                yield Race(
                    first.name or first.thing or "", sides_of(first, second), (first, second), times, BY_REQUESTS, True,
                )

    def forget(self, things: set[int]) -> None:
        if self._across is not None:
            self._across.forget(things)

    def move_on(self, touches: list[Row], border: Border) -> None:
        if self._across is not None and self._told is not None:
            self._across.move_on(touches, self._told, border)


def _confirm(pairing: Pairing, view: Asked) -> None:
    """Has the collector answer that none of the positions that know the first touch comes before the second."""
    second, known = pairing.pair[1].event, pairing.known
    positions = [event for event in range(known.bit_length()) if known >> event & 1]
    for event, reply in zip(positions, view.ask(f"order {event} {second}" for event in positions)):
        if reply not in ("200 after", "200 concurrent"):
            raise Refused(f"order {event} {second}", reply)


# The journal of a run in parts


def is_in_parts(journal: str) -> bool:
    """Whether a journal is of a run that was divided."""
    return number_of_parts(journal) > 1


def number_of_parts(journal: str) -> int:
    """Of how many parts the journal tells."""
    with open(journal, encoding="utf-8", errors="replace") as lines:
        return 1 + sum(line.startswith(BORDER) for line in lines)


def races_of_parts(
    journal: str, looking: Looking | None = None, bar: Bar | None = None, last: tuple[str, int] | None = None,
    export: str | None = None,
) -> Races:
    """The races of a run that was divided, by its journal. The tenant and the port of the last part are given if it is
    still there.

    Each part has an export and a journal of its own, if an export is named, where these are listed.
    """
    looking = looking or Looking()
    try:
        with tempfile.TemporaryDirectory(prefix="itc_trace_") as folder:
            return _races_of(replace(divided(journal, folder), last=last), looking, bar, export)
    except OSError as fault:
        return Races(unseen=[Unseen(Cause.JOURNAL, f"the journal cannot be looked at part by part: {fault.strerror}")])


def _races_of(parts: DividedJournal, looking: Looking, bar: Bar | None, export: str | None) -> Races:
    told = parts.told
    found = Races(
        deadlocks=deadlocks_told(told.deadlocks, parts.all_rows()), unseen=told.unseen,
        passed_over=told.passed_over, left=list(told.left),
        sources=sources_of(told.sources, told.processes, told.tests),
    )
    try:
        by_parts = _looked_at(parts, looking.strict, bar, export)
        with contextlib.closing(_counted(by_parts, found, told.looked_at)) as looked_at:
            find_in_parts(looked_at, found, looking.strict, collected, told.signals, parts.lasting)
    except (NoCollector, NotLookedAt, OSError, Refused) as fault:
        found.unseen.append(Unseen(Cause.COLLECTOR, f"the collector does not tell the order of events ({fault})"))
    all_found = [*found.races, *found.possible]
    numbers = sorted({row.part for race in all_found for row in race.example})
    add_stories(all_found, (row for number in numbers for row in parts.rows(number)), found.sources)
    looking.silence(found)
    return found


def _looked_at(parts: DividedJournal, is_strict: bool, bar: Bar | None, export: str | None) -> _LookedAt:
    """What each part has by itself. Exports are written in turn."""
    signals, processes = parts.told.signals, processes_for(parts.size)
    if export is None and processes:
        return found_beside(Asking(parts, is_strict, signals), processes, bar)
    keep = None if export is None else _Exports(export, parts).keep
    return one_by_one(map(parts.part, range(1, parts.count + 1)), is_strict, signals, collected, bar, keep)


def _counted(looked_at: _LookedAt, found: Races, told: tuple[LookedAt, ...]) -> _LookedAt:
    """The same. What they have is counted."""
    with contextlib.closing(looked_at), Distinct() as places, Distinct() as things:
        try:
            for one in looked_at:
                found.touches += one.counted.touches
                found.events += one.counted.events
                places.add(one.counted.places)
                things.add(one.counted.things)
                yield one
        finally:
            found.places = places.count() + sum(one.places for one in told)
            found.things = things.count() + sum(one.things for one in told)


class _Exports:
    """Writes an export of each part and the journal beside it, and lists them."""

    def __init__(self, name: str, parts: DividedJournal) -> None:
        self._name = name
        self._parts = parts
        with open(name, "w", encoding="utf-8"):
            pass

    def keep(self, part: Part, view: Asked, events: int) -> None:
        name = f"{self._name}.part-{part.number}"
        with open(name, "w", encoding="ascii", newline="\n") as output:
            write_export(view, events, TENANT, output)
        shutil.copyfile(self._parts.file(part.number), f"{name}.journal")
        with open(f"{name}.journal", "r+", encoding="utf-8") as journal:
            journal.write(end_row(sum(1 for _ in journal)))
        with open(self._name, "a", encoding="utf-8") as listed:
            listed.write(f"{os.path.basename(name)}\n")
