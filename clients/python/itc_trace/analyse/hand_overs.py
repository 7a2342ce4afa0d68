"""What puts touches in order by nothing but a hand-over: of a lock, also that of a condition, of a permit, or of a
request of the process to itself. To ask whether something is over is one, too, but for what only a yes leads to.

Who comes first there is luck, or was meant: a trace does not say. So such pairs are for a further run to try.
"""

from __future__ import annotations

from bisect import bisect_left
from collections import defaultdict
from collections.abc import Iterable, Mapping

from ..model.answers import Behind
from ..model.lines import SEMAPHORE
from ..model.lock_identity import POLL
from ..record.journal import PermitsTold, Row
from .trace import Events, Trace, lock_events

NO_LOCK = "# "
"""So begin the names of what is handed over and is no lock."""
_OF_PERMITS = frozenset((SEMAPHORE.giving, SEMAPHORE.taking))


def hand_overs_of(rows: Iterable[Row]) -> dict[int, str]:
    """The events by which something is handed over, and what."""
    found: dict[int, str] = {}
    for row in rows:
        what = row.lock or row.guard or _without_lock(row)
        if what is not None and not is_poll_of_library(what):
            found[row.event] = what
    return found


def is_poll_of_library(name: str) -> bool:
    """Whether it is what the library looks at for itself. It orders what it does itself, and is told as possible."""
    return not name.startswith("# ") and name.partition(" ")[2].startswith(POLL)


def _without_lock(row: Row) -> str | None:
    return f"{NO_LOCK}a permit" if row.label in _OF_PERMITS or row.permit is not None else None


def polls_of(rows: Iterable[Row]) -> dict[int, Row]:
    """The events by which a task has asked whether something is over, and was told so."""
    return {row.event: row for row in rows if row.asked}


def name_of_poll(row: Row) -> str:
    return f"{NO_LOCK}{row.asked} at {row.place}"


def needed_of(rows: Iterable[Row], told: Iterable[PermitsTold]) -> dict[int, list[int]]:
    """The events by which permits are taken, each with the releases that it comes after in each run.

    An acquire that is the tenth one of its task needs ten permits. If all others give seven, it needs three of a task.
    """
    begun_with, given_by = _told_by_all(told)
    given: dict[tuple[str, str], list[tuple[int, int]]] = defaultdict(list)
    taken = []
    for row in rows:
        if row.permit is not None and row.permit[0] in begun_with:
            if row.kind == "send":
                given[row.permit[0], row.task].append((row.permit[1], row.event))
            else:
                taken.append(row)
    needed = {}
    for row in taken:
        assert row.permit is not None
        semaphore, number = row.permit
        counted = given_by[semaphore]
        lacking = number - begun_with[semaphore] - sum(counted.values())
        ones = [_last_up_to(given[semaphore, task], lacking + count) for task, count in counted.items()]
        needed[row.event] = [event for event in ones if 0 < event < row.event]
    return needed


def _told_by_all(told: Iterable[PermitsTold]) -> tuple[dict[str, int], dict[str, dict[str, int]]]:
    """How many permits each semaphore began with, and what each task has given, if each process has counted that."""
    begun_with: dict[str, int] = {}
    given: dict[str, dict[str, int]] = defaultdict(dict)
    uncounted = set()
    for one in told:
        begun_with[one.semaphore] = one.begun_with
        given[one.semaphore].update(one.given or {})
        if one.given is None:
            uncounted.add(one.semaphore)
    return {name: count for name, count in begun_with.items() if name not in uncounted}, given


def _last_up_to(given: list[tuple[int, int]], number: int) -> int:
    """The last event of a task at which it has given no more than so many permits. 0 if there is none."""
    return max((event for first, event in given if first <= number), default=0)


class Known:
    """What comes before each touch if hand-overs give no order, and polls one of what only a yes leads to."""

    def __init__(
        self, trace: Trace, hand_overs: Iterable[int], polls: Mapping[int, Row], rows: Iterable[Row],
        needed: Mapping[int, list[int]],
    ) -> None:
        self._before: list[Events] = [0]
        self._polls: dict[str, dict[Behind, _Seen]] = defaultdict(lambda: defaultdict(_Seen))
        """Of each task what it has seen by polls."""
        told: list[Events] = [0]
        """What others know who come after the event."""
        without = lock_events(trace, hand_overs)
        places = {row.event: row for row in rows if row.thing is None} if polls else {}
        again = _taken_in_again(trace, places.values())
        for event in trace.events:
            is_left_out = event.number in without or event.number in polls
            source = trace.source(event) if is_left_out else None
            left_out = 0 if source is None else source.number
            known = 0
            for one in event.follows:
                if one != left_out:
                    known |= (self._before if trace[one].task == event.task else told)[one] | 1 << one
            for one in needed.get(event.number, ()):
                known |= told[one] | 1 << one
            number = again.get(event.number, left_out)
            by_source = told[number] | 1 << number if number else 0
            poll = polls.get(event.number)
            if poll is not None:
                self._polls[event.task][poll.behind].add(event.number, by_source)
            elif event.number in again:
                known |= by_source
            self._before.append(known)
            place = places.get(event.number)
            told.append(known if place is None else self.before(place))

    def has_polled(self, tasks: Iterable[str]) -> bool:
        return any(task in self._polls for task in tasks)

    def before(self, row: Row) -> Events:
        """What comes before the touch of a row, or before what else a task does there."""
        known = self._before[row.event]
        for behind, seen in self._polls[row.task].items() if row.task in self._polls else ():
            if behind.leads_to(row.file, row.line, row.function):
                known |= seen.before(row.event)
        return known


def _taken_in_again(trace: Trace, rows: Iterable[Row]) -> dict[int, int]:
    """The events at which a task takes in what it has taken in before by a poll, each with where that was given."""
    again = {row.event: row.again for row in rows if row.again}
    wanted = set(again.values())
    given = {
        name: event.number for event in trace.events if event.kind in ("send", "end")
        if (name := f"{event.kind} {event.name if event.kind == 'send' else event.task}") in wanted
    }
    return {event: given[name] for event, name in again.items() if given.get(name, event) < event}


class _Seen:
    """What a task knows by the polls that lead to the same lines."""

    def __init__(self) -> None:
        self._events: list[int] = []
        self._known: list[Events] = [0]

    def add(self, event: int, known: Events) -> None:
        self._events.append(event)
        self._known.append(self._known[-1] | known)

    def before(self, event: int) -> Events:
        return self._known[bisect_left(self._events, event)]
