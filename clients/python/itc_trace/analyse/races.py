"""Finds the races of a trace: touches of one thing that conflict, by tasks that nothing keeps in order.

The order comes from the collector alone. For each thing it is asked of the few pairs of touches that decide whether
there is a race. Only if there is one, it is asked which events each event follows, and all pairs of places that race
are looked for. A race is possible if nothing but locks that the two tasks do not both hold put two touches in order.
"""

from __future__ import annotations

from bisect import bisect_left, bisect_right
from collections import defaultdict
from collections.abc import Collection, Iterable, Iterator
from dataclasses import dataclass, field, replace
from itertools import islice
from typing import Protocol

from ..record.collector import HOST, NoCollector
from ..model.conflicts import CONFLICTING, INNER_READ, INNER_WRITE, MAKING, WRITE
from ..model.finding import POSSIBLE_RACE, RACE, Finding, FoundSide, Story, runs_in_words
from .deadlocks import Deadlock, TooMany, deadlocks_told, find_deadlocks, has_cycle
from .fast_track import deciding_pairs
from .hand_overs import NO_LOCK, Known, hand_overs_of, name_of_poll, needed_of, polls_of
from .looks import looks_of
from ..record.journal import Journal, PermitsTold, Row, read_whole
from .kept_sources import sources_of
from ..model.lock_identity import ANSWER, POLL, REQUEST
from .order import Order
from .progress import Bar, Shown
from .queue_waits import waits_of
from .racing_pairs import Pair, racing_pairs
from ..model.sources import Sources
from ..session import LONGEST_ANSWER, Refused, Session
from .trace import Asked, Events, LazyTrace, Steps, Trace, Unordered, lock_events, lock_that_tells, told_by_signals
from ..model.verdict import Cause, Left, PassedOver, Unseen, Verdict, listed, verdict_of
from .without_locks import WithoutLocks

NOTHING = "nothing orders them"
DOUBTFUL = f"{NOTHING}; whether the change goes back to a look of an earlier turn was not seen"
MOST_APART = 4096
"""So many touches of a thing are told apart by what only a yes leads to."""
MOST_ORDERS = 32768
"""So many pairs of touches that decide are asked for, each by itself.

What comes before what by these is known in another way, too.
"""


@dataclass(frozen=True)
class Side:
    """One of the two source lines of a race."""

    kind: str
    place: str
    function: str = ""

    def __str__(self) -> str:
        return f"{self.kind} at {self.place}"


@dataclass
class Race:
    """Two source lines that touch one thing with no order between them: how often, and one example."""

    thing: str
    sides: tuple[Side, Side]
    example: tuple[Row, Row]
    times: int = 0
    why: str = NOTHING
    is_possible: bool = False
    """Whether it was kept in order in this run, by luck alone."""
    is_confirmed: bool = False
    """Whether a further run, in which tasks were to meet here, had it."""
    is_by_poll: bool = False
    """Whether it was kept in order by no more than what the program asked for."""
    is_of_further_run: bool = False
    """Whether the run that is told of had it not, and its events are those of another one."""
    story: Story = Story()
    tasks: set[str] = field(default_factory=set, compare=False)
    """Those of the examples of all that are listed as this one."""

    def __post_init__(self) -> None:
        self.tasks.update(row.task for row in self.example)

    @property
    def key(self) -> object:
        """What is the same of races that are listed as one, in other runs too."""
        return _key(self.example)

    @property
    def may_meet(self) -> bool:
        """Whether two tasks may be had to meet here. Those of one loop take turns."""
        first, second = self.example
        return bool(first.name and first.file and second.file) and not 0 < first.loop == second.loop

    @property
    def is_of_shared(self) -> bool:
        """Whether it is of what processes share, and the package has found."""
        first = self.example[0]
        return bool(first.name) and first.thing == first.name

    @property
    def is_inner(self) -> bool:
        """Whether it is of parts of the thing that may not be the same, or of what may not change it."""
        return _is_inner(self.example)

    @property
    def places(self) -> tuple[str, str]:
        return self.sides[0].place, self.sides[1].place

    def confirm(self) -> None:
        """A further run has had it."""
        self.is_possible, self.is_confirmed = False, True
        self.why = f"{self.why}; both stood here at once in a further run"

    def of_further_run(self) -> Race:
        """The race, as it is told beside another run."""
        return replace(self, why=f"{self.why} in a further run", is_of_further_run=True)

    def try_in_vain(self, runs: int) -> None:
        """So many further runs were to have it, and had not."""
        self.why = f"{self.why}; not met in {runs_in_words(runs)} that tried"

    def finding(self, sources: Sources | None = None) -> Finding:
        """The value that each format is written of."""
        kept = sources or Sources()
        sides = [_found_side(row, side, kept) for row, side in zip(self.example, self.sides)]
        return Finding(
            POSSIBLE_RACE if self.is_possible else RACE, self.thing,
            tuple(replace(side, event=0) if self.is_of_further_run else side for side in sides),
            self.why, self.times, self.example[0].made, self.is_possible, self.is_confirmed,
            tests=kept.tests_of(self.tasks), story=self.story,
        )

    def __str__(self) -> str:
        return "\n    ".join(self.finding().lines())


def _found_side(row: Row, side: Side, sources: Sources) -> FoundSide:
    file, _, line = side.place.rpartition(":")
    number = int(line) if line.isdigit() else 0
    return FoundSide(
        side.kind, file, number, side.function, sources.task(row.task), row.event, row.part, row.held, bool(row.loop),
        row.is_write, *sources.around(file, number), sources.path(file),
    )


@dataclass
class Races:
    """All races of a trace, what was not seen of it, and what it took to find them."""

    races: list[Race] = field(default_factory=list)
    possible: list[Race] = field(default_factory=list)
    hidden: list[Race] = field(default_factory=list)
    """Those that are not told as possible, though hand-overs alone put them in order: they may have been meant to."""
    tries: int = 0
    """How many further runs were to have those that are possible or hidden."""
    deadlocks: list[Deadlock] = field(default_factory=list)
    """Those that have been."""
    possible_deadlocks: list[Deadlock] = field(default_factory=list)
    unseen: list[Unseen] = field(default_factory=list)
    passed_over: list[PassedOver] = field(default_factory=list)
    left: list[Left] = field(default_factory=list)
    """What the program has left at its end."""
    meant: list[Race | Deadlock] = field(default_factory=list)
    """Those that are silenced."""
    known: list[Race | Deadlock] = field(default_factory=list)
    """Those that are in the baseline."""
    sources: Sources = field(default_factory=Sources)
    """The lines of source that the journal has kept."""
    touches: int = 0
    places: int = 0
    things: int = 0
    events: int = 0
    questions: int = 0

    def __bool__(self) -> bool:
        return bool(self.races)

    def __len__(self) -> int:
        return len(self.races)

    def __iter__(self) -> Iterator[Race]:
        return iter(self.races)

    def verdict(self, fail_on_possible: bool = False) -> Verdict:
        """Which of the three answers this is."""
        possible = len(self.possible) + len(self.possible_deadlocks) if fail_on_possible else 0
        return verdict_of(len(self.races) + len(self.deadlocks) + possible, self.unseen)

    @property
    def found_ones(self) -> list[Race | Deadlock]:
        """Those that count, and behind them those that are possible only."""
        return [*self.races, *self.deadlocks, *self.possible, *self.possible_deadlocks]

    @property
    def tried(self) -> list[Deadlock]:
        """The deadlocks that a further run may bring about."""
        return [one for one in self.possible_deadlocks if one.is_of_locks]

    def pass_over_inner(self) -> None:
        """Where two tasks touch parts of a thing with no order, that is named as not looked into. It may be no race."""
        self.passed_over += [
            PassedOver(f"{race.thing}, in {order} with {race.places[1]},", race.places[0])
            for races, order in ((self.races, "no order"), (self.possible, "order by luck alone"))
            for race in races if race.is_inner
        ]
        self.races, self.possible, self.hidden = (
            [race for race in races if not race.is_inner] for races in (self.races, self.possible, self.hidden)
        )

    def confirm(self, keys: Collection[object]) -> None:
        """A further run has met the possible deadlocks of these keys."""
        met = [one for one in self.possible_deadlocks if one.key in keys]
        for deadlock in met:
            deadlock.confirm()
        self.deadlocks += met
        self.possible_deadlocks = [one for one in self.possible_deadlocks if one not in met]

    @property
    def tried_races(self) -> list[Race]:
        """The races that a further run may have, those that are told first."""
        return [race for race in (*self.possible, *self.hidden) if race.may_meet]

    def add_further(self, races: Iterable[Race]) -> None:
        """Adds what a further run has had beside what it was to have."""
        known = {one.key for one in (*self.races, *self.possible, *self.hidden, *self.meant, *self.known)}
        self.races += [one.of_further_run() for one in races if one.key not in known]

    def confirm_races(self, keys: Collection[object]) -> None:
        """A further run has had the races of these keys."""
        met = [race for race in (*self.possible, *self.hidden) if race.key in keys]
        for race in met:
            race.confirm()
        self.races += met
        self.possible = [race for race in self.possible if race not in met]
        self.hidden = [race for race in self.hidden if race not in met]

    def found(self) -> str:
        """How many races there are, in few words."""
        found = told_races(len(self.races), bool(self.known))
        where = "in what was seen" if self.unseen else "in this run"
        return f"{found} {where}" + (f"; {len(self.possible)} possible" if self.possible else "") + told_deadlocks(
            len(self.deadlocks), len(self.possible_deadlocks)) + (
            f"; {len(self.meant)} silenced" if self.meant else "") + (
            f"; {len(self.known)} in the baseline" if self.known else "") + told_hidden(
            self.hidden, self.tries) + listed(self.passed_over)

    def summary(self) -> str:
        return (
            f"{self.found()}: {_counted(self.places, 'place')} of {_counted(self.things, 'thing')}, "
            f"{_counted(self.events, 'event')}"
        )

    def text(self) -> str:
        return "\n".join([*map(str, self.found_ones), self.summary()])


def told_races(count: int, is_beside_known: bool) -> str:
    """How many races there are. Beside those of a baseline only new ones are counted."""
    word = "new race" if is_beside_known else "race"
    return f"no {word}" if count == 0 else _counted(count, word)


def told_hidden(hidden: Collection[Race], tries: int = 0) -> str:
    """How many pairs of lines are not told as possible races, in the last line."""
    count = len(hidden)
    if not count:
        return ""
    what = f"tried in {runs_in_words(tries)}" if tries else "run --confirm"
    by = " or ".join(sorted({"polls" if race.is_by_poll else "locks" for race in hidden}))
    return f"; {count} more {'pair is' if count == 1 else 'pairs are'} in order by {by} alone: {what}"


def told_deadlocks(count: int, possible: int) -> str:
    """How many deadlocks there are, in the last line."""
    told = f"; {_counted(count, 'deadlock')}" if count else ""
    return told + (f"; {_counted(possible, 'possible deadlock')}" if possible else "")


def _counted(count: int, one: str) -> str:
    return f"{count} {one if count == 1 else one + 's'}"


class _Thing:
    """The touches of one thing, in the order of their events."""

    def __init__(self, rows: list[Row]) -> None:
        self.touches = [row for row in rows if row.kind != MAKING]
        self.making = next((row for row in rows if row.kind == MAKING), None)
        self.tasks = {row.task for row in self.touches}
        self.is_named = not rows[0].name
        """Whether the program itself has named it: then its touches count as they stand, also those of one loop."""

    @property
    def may_race(self) -> bool:
        """Whether two tasks touch it in ways that conflict."""
        tasks: dict[str, set[str]] = defaultdict(set)
        for touch in self.touches:
            tasks[touch.kind].add(touch.task)
        pairs = ((tasks[kind], tasks[other]) for kind in list(tasks) for other in CONFLICTING[kind] if other in tasks)
        return len(self.tasks) > 1 and any(len(ones | others) > 1 for ones, others in pairs)

    @property
    def has_lock_in_common(self) -> bool:
        """Whether some lock is held at each touch."""
        return bool(frozenset(self.touches[0].held).intersection(*(touch.held for touch in self.touches)))


def find_races(
    tenant: str, port: int, journal: Iterable[str], host: str = HOST, strict: bool = False, bar: Bar | None = None
) -> Races:
    """The races among the touches that the journal lists, by the order that the collector answers.

    If it is strict, two tasks of one loop race as two threads do. If it is not, only a read that a task writes back in
    a later turn of the loop, with a change by another task in between, is a race of them. Things that the program has
    named are always strict. A bar shows how far it has come.
    """
    return races_of(read_whole(journal), tenant, port, host, strict, bar)


def races_of(
    whole: Journal, tenant: str, port: int, host: str = HOST, strict: bool = False, bar: Bar | None = None
) -> Races:
    """The same, of a journal that was read."""
    rows = sorted(dict.fromkeys(whole.rows), key=lambda row: row.event)
    touches = [row for row in rows if row.is_touch and row.kind != MAKING]
    found = Races(
        deadlocks=deadlocks_told(whole.deadlocks, rows), unseen=whole.unseen, passed_over=whole.passed_over,
        left=list(whole.left), touches=len(touches),
        events=len({row.event for row in rows}),
    )
    found.sources = sources_of(whole.sources, whole.processes, whole.tests)
    counted = [row for row in touches if not any(one.has(row) for one in whole.looked_at)]
    found.places = len({(row.thing, row.place) for row in counted}) + sum(one.places for one in whole.looked_at)
    found.things = len({row.thing for row in counted}) + sum(one.things for one in whole.looked_at)
    things = [thing for thing in _things_of(rows) if thing.may_race]
    if things or has_cycle(waits_of(rows, whole.signals)):
        with Session(tenant, port, "view", host, LONGEST_ANSWER) as view:
            events = view.count()[0]
            asked: Asked = view
            if bar is not None:
                asked = Shown(view, bar)
            trace = LazyTrace(asked, events)
            finder = _Finder(trace, rows, found, strict, whole.permits)
            finder.find(things)
            finder.find_deadlocks(whole.signals)
            found.questions += trace.questions
    found.pass_over_inner()
    return found


def find_in(trace: LazyTrace, rows: list[Row], strict: bool, signals: frozenset[str] = frozenset()) -> Races:
    """The races and the deadlocks of one trace, by its rows. Questions for the trace itself are not counted."""
    rows = sorted(dict.fromkeys(rows), key=lambda row: row.event)
    found = Races()
    finder = _Finder(trace, rows, found, strict)
    things = [thing for thing in _things_of(rows) if thing.may_race]
    if things:
        finder.find(things)
    finder.find_deadlocks(signals)
    return found


def _things_of(rows: list[Row]) -> list[_Thing]:
    by_thing: dict[str, list[Row]] = defaultdict(list)
    for row in rows:
        if row.thing is not None:
            by_thing[row.thing].append(row)
    return [_Thing(rows) for rows in by_thing.values()]


class _Finder:
    """Looks for the races of things, and for those that are possible."""

    def __init__(
        self, trace: LazyTrace, rows: list[Row], found: Races, is_strict: bool, permits: Iterable[PermitsTold] = (),
    ) -> None:
        self._asked = trace
        self._permits = permits
        self._found = found
        self._is_strict = is_strict
        self._locks = {row.event: row.lock for row in rows if row.lock is not None}
        self._rows = rows
        self._replaced = _replaced(rows)
        self._order = Order(trace.view)

    @property
    def _trace(self) -> Trace:
        return self._asked.whole

    def find(self, things: list[_Thing]) -> None:
        self._find_races(things)
        apart = [thing for thing in things if not thing.has_lock_in_common]
        if self._locks:
            try:
                self._find_possible(apart)
            except (NoCollector, Refused, OSError) as fault:
                self._found.unseen.append(Unseen(Cause.COLLECTOR, f"possible races cannot be told: {fault}"))
        self._find_hidden([thing for thing in apart if not thing.is_named])
        self._found.questions += self._order.questions

    def find_deadlocks(self, signals: frozenset[str]) -> None:
        """The possible deadlocks, if locks were acquired in orders that make a cycle."""
        if not has_cycle(waits_of(self._rows, signals)):
            return
        try:
            been = {deadlock.key for deadlock in self._found.deadlocks}
            found = find_deadlocks(self._rows, signals, self._trace)
            self._found.possible_deadlocks = [deadlock for deadlock in found if deadlock.key not in been]
        except TooMany:
            self._found.passed_over.append(cycles_passed_over(self._rows))
        except (NoCollector, Refused, OSError) as fault:
            self._found.unseen.append(Unseen(Cause.COLLECTOR, f"possible deadlocks cannot be told: {fault}"))

    def _find_races(self, things: list[_Thing]) -> None:
        listed: dict[object, Race] = {}
        doubtful: dict[object, Race] = {}
        for thing in self._racing(things):
            unordered, is_strict = self._trace.unordered, self._is_strict or thing.is_named
            for pair in racing_pairs(thing.touches, unordered, unordered, False, is_strict):
                list_pair(pair, listed)
            for pair in racing_pairs(thing.touches, unordered, unordered, False, is_strict, is_doubtful=True):
                list_pair(pair, doubtful)
        self._found.races = in_order(listed)
        _confirm(self._found.races, self._order)
        self._add_doubtful({key: race for key, race in doubtful.items() if key not in listed})

    def _add_doubtful(self, listed: dict[object, Race]) -> None:
        """Races of tasks of one loop, unless a change is made from no look of an earlier turn."""
        for race in listed.values():
            race.is_possible, race.why = True, DOUBTFUL
        self._found.possible = in_order(listed)
        _confirm(self._found.possible, self._order)

    def _racing(self, things: list[_Thing]) -> Iterator[_Thing]:
        """The things of which a pair that decides has no order,
        and those that have too many such pairs to ask for each."""
        deciding: list[tuple[_Thing, list[tuple[int, int]]]] = []
        room = MOST_ORDERS
        for thing in things:
            pairs = list(islice(deciding_pairs(thing.touches), room + 1))
            deciding.append((thing, [] if len(pairs) > room else pairs))
            room -= len(deciding[-1][1])
        self._order.ask(pair for _, pairs in deciding for pair in pairs)
        for thing, pairs in deciding:
            if not pairs or any(self._order.is_concurrent(*pair) for pair in pairs):
                yield thing

    def _find_possible(self, things: list[_Thing]) -> None:
        if not things:
            return
        trace = self._trace
        locks = lock_events(trace, self._locks)
        requests, answers = events_of_lock(self._locks, REQUEST), events_of_lock(self._locks, ANSWER)
        polls = events_of_lock(self._locks, POLL)
        told = told_by_signals(trace, Steps(locks, requests, answers, looks_of(self._rows, trace), polls)).known
        locks |= polls
        races = {_key(race.example) for race in (*self._found.races, *self._found.possible)}
        listed: dict[object, Race] = {}
        for thing in things:
            untold = _untold(thing, trace, told, self._replaced)

            def by_luck(touch: int, untold: Unordered = untold) -> Events:
                return trace.before[touch] & untold(touch)

            is_strict = self._is_strict or thing.is_named
            for pair in racing_pairs(thing.touches, by_luck, untold, True, is_strict, is_doubtful=None):
                if _key(pair[:2]) not in races:
                    list_pair(pair, listed)
        for race in listed.values():
            race.is_possible = True
            race.why = self._reason(
                lock_that_tells(trace, locks, race.example[0].event, race.example[1].event), *race.example
            )
        if listed:
            found = in_order(listed)
            self._found.possible += found
            with WithoutLocks(trace, locks) as tenant:
                _confirm(found, tenant)
                self._found.questions += tenant.questions

    def _find_hidden(self, things: list[_Thing]) -> None:
        """What hand-overs alone put in order, and is not told as possible."""
        hand_overs, polls = (hand_overs_of(self._rows), polls_of(self._rows)) if things else ({}, {})
        if not hand_overs and not polls:
            return
        trace = self._trace
        known = Known(trace, hand_overs, polls, self._rows, needed_of(self._rows, self._permits))
        told = {race.key for race in (*self._found.races, *self._found.possible)}
        listed: dict[object, Race] = {}
        for thing in things:
            for pair in _hidden_pairs(thing.touches, trace, known, self._is_strict):
                if _key(pair[:2]) not in told and not 0 < pair[0].loop == pair[1].loop:
                    list_pair(pair, listed)
        names = {**hand_overs, **{event: name_of_poll(row) for event, row in polls.items()}}
        events = lock_events(trace, hand_overs) | polls.keys()
        for race in listed.values():
            first, second = race.example
            receipt = lock_that_tells(trace, events, first.event, second.event)
            race.is_possible, race.is_by_poll = True, receipt in polls
            race.why = self._reason(receipt, first, second, names)
        self._found.hidden = [race for race in in_order(listed) if race.may_meet]

    def _reason(self, receipt: int | None, first: Row, second: Row, names: dict[int, str] | None = None) -> str:
        lock = (names or self._locks).get(receipt) if receipt is not None else None
        if lock is None:
            return "ordered in this run only by locks"
        name = lock.partition(" ")[2]
        if lock.startswith(NO_LOCK) or name.startswith((REQUEST, POLL)):
            return f"ordered in this run only by {name}"
        lacks = [lock not in touch.held for touch in (first, second)]
        who = "neither holds" if all(lacks) else "the first does not hold" if lacks[0] else "the second does not hold"
        return f"ordered in this run only by {name}, which {who}"


def _hidden_pairs(touches: list[Row], trace: Trace, known: Known, is_strict: bool) -> Iterator[Pair]:
    """The pairs of a thing that nothing else puts in order than what `known` leaves out.

    If a task has polled, two touches of one event may know different things. So each stands for an event of its own.
    """
    if len(touches) <= MOST_APART and known.has_polled({row.task for row in touches}):
        rows = [row._replace(event=number) for number, row in enumerate(touches, 1)]
    else:
        rows, touches = touches, []

    def by_luck(touch: int) -> Events:
        row = touches[touch - 1] if touches else next_of[touch]
        met = trace.before[row.event] & ~known.before(row)
        if not touches:
            return met
        return sum(1 << number for number, other in enumerate(touches[:touch - 1], 1) if met >> other.event & 1)

    next_of = {row.event: row for row in rows}
    for first, second, times in racing_pairs(rows, by_luck, by_luck, True, is_strict, is_doubtful=None):
        if touches:
            first, second = touches[first.event - 1], touches[second.event - 1]
        yield first, second, times


def events_of_lock(locks: dict[int, str], start: str) -> set[int]:
    """The events of locks whose names begin so."""
    return {event for event, lock in locks.items() if lock.partition(" ")[2].startswith(start)}


class _Confirms(Protocol):
    """Answers whether two events are in order."""

    def ask(self, pairs: Iterable[tuple[int, int]]) -> None: ...

    def is_concurrent(self, first: int, second: int) -> bool: ...


def _confirm(races: list[Race], order: _Confirms) -> None:
    """Has the example of each race answered by a collector."""
    pairs = [(race.example[0].event, race.example[1].event) for race in races]
    order.ask(pairs)
    for pair in pairs:
        if not order.is_concurrent(*pair):
            raise Refused("order {} {}".format(*pair), "it contradicts what the events follow")


def _untold(thing: _Thing, trace: Trace, told: list[Events], replaced: _Replaced) -> Unordered:
    """Which earlier events a touch was told of by locks at most."""
    making, handed_over, taken_out = thing.making, _handed_over(thing, trace), _taken_out(thing, replaced)

    def untold(touch: int) -> Events:
        known = told[touch] | taken_out.get(touch, 0)
        if making is not None and not known >> making.event & 1:
            known |= handed_over
        return ~known & ((1 << touch) - 2)

    return untold


_Replaced = dict[tuple[str, str], list[Row]]
"""Where a task has put something else into a field or a variable while it held a lock, by the task and the name."""


def _replaced(rows: list[Row]) -> _Replaced:
    found: _Replaced = defaultdict(list)
    for row in rows:
        if row.kind == WRITE and row.held and row.name:
            found[row.task, row.name].append(row)
    return found


def _taken_out(thing: _Thing, replaced: _Replaced) -> dict[int, Events]:
    """For each touch the earlier ones after which its task took the thing out of the place that it is named for.

    The task put something else there under a lock that the earlier touches were under, and had the thing alone from
    then on.
    """
    taken: dict[int, Events] = defaultdict(int)
    first, last = thing.touches[0], thing.touches[-1]
    for task in thing.tasks:
        puts = replaced.get((task, first.name), [])
        between = puts[bisect_left(puts, first.event, key=_event):bisect_right(puts, last.event, key=_event)]
        for put in between:
            known = sum(
                {
                    1 << row.event for row in thing.touches
                    if row.event <= put.event and not set(row.held).isdisjoint(put.held)
                }
            )
            for touch in thing.touches if known else ():
                if touch.task == task and touch.event >= put.event and touch.thing != put.thing:
                    taken[touch.event] |= known
    return taken


def _event(row: Row) -> int:
    return row.event


def _handed_over(thing: _Thing, trace: Trace) -> Events:
    """The events up to which whoever made the thing had it for himself."""
    if thing.making is None:
        return 0
    maker, first = thing.making.task, dict[str, int]()
    for touch in thing.touches:
        if touch.task != maker:
            first.setdefault(touch.task, touch.event)
    own = sum({1 << touch.event for touch in thing.touches if touch.task == maker})
    for event in first.values():
        own &= trace.before[event]
    return own if first else 0


def cycles_passed_over(rows: Iterable[Row]) -> PassedOver:
    """There are more ways from lock to lock than are gone."""
    first = next((row for row in rows if row.wants is not None), None)
    return PassedOver("all cycles of locks", "?" if first is None else first.place)


def _key(example: tuple[Row, Row]) -> object:
    """What races are listed as one by: the same kind of thing at the same two places, if it is as sure."""
    one, other = sorted(row.place for row in example)
    first = example[0]
    return first.group or first.name or first.thing, one, other, _is_inner(example)


def _is_inner(example: tuple[Row, Row]) -> bool:
    return any(row.kind in (INNER_READ, INNER_WRITE) for row in example)


def list_pair(pair: Pair, listed: dict[object, Race]) -> bool:
    """Adds a pair to the races that are listed. Says whether it is the example of one."""
    first, second, times = pair
    return add_race(Race(first.name or first.thing or "", sides_of(first, second), (first, second), times), listed)


def add_race(race: Race, listed: dict[object, Race]) -> bool:
    """Adds a race to those that are listed. Says whether its example is the one that is shown."""
    known = listed.setdefault(race.key, race)
    if known is race:
        return True
    known.times += race.times
    known.tasks |= race.tasks
    tells_more = _tells_more(*race.example, known.example)
    if tells_more:
        known.sides, known.example, known.why = race.sides, race.example, race.why
    return tells_more


def sides_of(first: Row, second: Row) -> tuple[Side, Side]:
    return Side(first.kind, first.place, first.function), Side(second.kind, second.place, second.function)


def _tells_more(first: Row, second: Row, example: tuple[Row, Row]) -> bool:
    """Whether these two are the better example: where lines change a thing it is these that are shown."""
    return first.place != second.place and first.is_write + second.is_write > sum(row.is_write for row in example)


def in_order(listed: dict[object, Race]) -> list[Race]:
    """The races by the events of their examples."""
    return sorted(listed.values(), key=lambda race: [(row.part, row.event) for row in race.example])
