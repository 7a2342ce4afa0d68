"""The order across the parts of a long run is that of the whole run, as plain reachability says, and each wrong rule is caught."""

from __future__ import annotations

import contextlib
import itertools
import os
import random
import unittest
from collections import deque
from collections.abc import Callable, Iterator
from types import SimpleNamespace
from typing import Any
from unittest import mock

from itc_trace import Races
from itc_trace.analyse import across_parts
from itc_trace.record import dividing
from itc_trace.analyse.across_parts import AcrossParts
from itc_trace.record.dividing import Border, Divider, Limits, Report
from itc_trace.record.journal import Row
from itc_trace.record.reports import Outstanding
from itc_trace.record.tracer import Tracer
from itc_trace.record.tracer_parts import Parts
from itc_trace.record.waiting import Waiter
from itc_trace.analyse.divided_journal import Part
from itc_trace.analyse.in_part import collected, one_by_one
from itc_trace.analyse.parts import find_in_parts
from itc_trace.session import Refused
from itc_trace.analyse.trace import Asked, Trace

from .random_runs import Answers, Found, RandomRun, Run

RUNS = int(os.environ.get("ITC_RANDOM_RUNS", "2000"))
RUNS_WITH_COLLECTOR = 12
SEEDS = 3000
"""By one of so many runs each wrong rule is to be caught."""


class LongRun(RandomRun):
    """A run of threads, that is divided into parts of 20 to 200 events."""

    has_loops = False

    def __init__(self, seed: int) -> None:
        super().__init__(seed, steps=100 + 50 * (seed % 6))


class Divided:
    """The parts of a run. What may be received or joined is what is so later on, and now and then something else."""

    def __init__(self, run: Run, seed: int) -> None:
        self.chance = random.Random(seed)
        self.parts = [Part()]
        self._run = run
        self._divider = Divider()
        self._rows: dict[int, list[Row]] = {}
        for row in run.rows:
            self._rows.setdefault(row.event, []).append(row)
        most = self._next_limit()
        for place, event in enumerate(run.events):
            if self._divider.is_full(Limits(events=most)):
                self._divide(place)
                most = self._divider.events + self._next_limit()
            self._report(event)

    def _next_limit(self) -> int:
        return self.chance.choice((20, 20, 40, 200))

    def _divide(self, place: int) -> None:
        later = self._run.events[place:]
        received = {event.name for event in later if event.kind == "recv"}
        joined = {event.name for event in later if event.kind == "join"}
        border = self._divider.divide(lambda name: name in received or self.chance.random() < 0.1,
                                      lambda name: name in joined or self.chance.random() < 0.1)
        rows = [
            Row(event, one.task, None, one.kind, None, 0, "goes on", part=len(self.parts) + 1, of=one.name)
            for event, one in enumerate(border.reports, 1)
        ]
        self.parts.append(Part(rows, border))

    def _report(self, event: Any) -> None:
        name = "" if event.name == "-" else event.name
        number = self._divider.report(Report(event.kind, event.task, name))
        placed = {"event": number, "part": len(self.parts), "of": name, "lock": None}
        self.parts[-1].rows += [row._replace(**placed) for row in self._rows[event.number]]


@contextlib.contextmanager
def answered(requests: list[str]) -> Iterator[Asked]:
    """Answers for a part by looking at all of its events."""
    run, last = Run(), {"root": 0}
    sent: dict[str, int] = {}
    for request in requests:
        kind, task, *names = request.split()
        if task not in last:
            raise Refused(request, "401 no task")
        source = sent[names[0]] if kind == "recv" else last[names[0]] if kind == "join" else 0
        event = run.add(kind, task, names[0] if names else "-", source=source).number
        last[task] = event
        if kind == "spawn":
            last[names[0]] = event
        if kind == "send":
            sent[names[0]] = event
    run.close()
    yield Answers(run)


def add_races(parts: list[Part], found: Races, opened: Any = answered) -> None:
    find_in_parts(one_by_one(parts, False, frozenset(), opened), found, False, opened)


def listed(parts: list[Part], opened: Any = answered) -> Found:
    found = Races()
    add_races(parts, found, opened)
    return {(race.thing, *sorted(row.place for row in race.example)): race.times for race in found.races}


def is_right(seed: int) -> bool:
    run = LongRun(seed)
    return listed(Divided(run, seed).parts) == dict(run.found(possible=False))


class Reachability(unittest.TestCase):
    def test_what_is_found_in_parts_is_what_all_pairs_of_the_whole_run_say(self) -> None:
        borders = across = 0
        for seed in range(RUNS):
            run = LongRun(seed)
            parts = Divided(run, seed).parts
            found = Races()
            add_races(parts, found)
            told = {(race.thing, *sorted(row.place for row in race.example)): race.times for race in found.races}
            self.assertEqual(told, dict(run.found(possible=False)), f"run {seed}")
            borders += len(parts) - 1
            across += sum(race.example[0].part != race.example[1].part for race in found.races)
        self.assertGreater(borders, RUNS)
        self.assertGreater(across, RUNS // 20)

    def test_the_collector_gives_the_same(self) -> None:
        for seed in range(10000, 10000 + RUNS_WITH_COLLECTOR):
            run = LongRun(seed)
            self.assertEqual(listed(Divided(run, seed).parts, collected), dict(run.found(possible=False)), f"run {seed}")

    def test_what_all_live_tasks_know_is_kept_no_longer(self) -> None:
        """A lock is handed on between three tasks, and each touches within it."""
        divider, across = Divider(), AcrossParts()
        parts, most = [Part()], []
        tasks = ["a", "b", "c"]

        def report(kind: str, task: str, name: str = "", thing: str | None = None) -> None:
            event = divider.report(Report(kind, task, name))
            parts[-1].rows.append(Row(event, task, thing, "write" if thing else kind, "a.py", 1, "", part=len(parts), of=name))

        for task in tasks:
            report("spawn", "root", task)
        report("end", "root")
        for turn in range(300):
            task = tasks[turn % 3]
            if turn:
                report("recv", task, f"m{turn - 1}")
            report("local", task, thing="stock")
            report("send", task, f"m{turn}")
            if divider.events > 30:
                border = divider.divide(lambda name, turn=turn: name == f"m{turn}", lambda name: False)  # type: ignore[misc]
                with answered(parts[-1].requests()) as view:
                    trace = Trace(view, len(parts[-1].requests()))
                across.move_on([row for row in parts[-1].rows if row.is_touch], trace, border)
                most.append(len(across))
                parts.append(Part([Row(event, one.task, None, one.kind, None, 0, "", part=len(parts) + 1, of=one.name)
                                   for event, one in enumerate(border.reports, 1)], border))
        self.assertGreater(len(most), 20)
        self.assertLessEqual(max(most), len(tasks))
        self.assertEqual(listed(parts), {})


class Full(unittest.TestCase):
    def test_a_part_is_left_at_the_report_that_fills_it(self) -> None:
        """Of several parts, each of which comes to have too many events, tasks, messages or new tasks."""
        reasons, most_parts = set(), 0
        for seed in range(40):
            chance, numbers = random.Random(seed), itertools.count(1)
            limits = Limits(chance.randint(20, 5000), chance.randint(5, 1400), chance.randint(5, 1400))
            kinds = chance.choices(("local", "spawn", "send"), k=2)
            parts = Parts(lambda: 0, limits)
            for _ in range(3000):
                kind = chance.choice(kinds)
                name = "" if kind == "local" else f"{kind}_{next(numbers)}"
                parts.divider.report((kind, dividing.ROOT, name))
                if kind == "spawn":
                    parts.divider.report(("end", name, ""))
                reached = self.reached(parts)
                self.assertEqual(parts.is_full, any(reached), (seed, reached))
                if any(reached):
                    reasons.add(reached.index(True))
                    parts.divide(lambda line: False)
            most_parts = max(most_parts, parts.number)
        self.assertEqual(reasons, {0, 1, 2, 3})
        self.assertGreater(most_parts, 5)

    def reached(self, parts: Parts) -> list[bool]:
        """Which limits the part has come to, counted plainly."""
        now, limits = parts.divider, parts._limits
        return [
            now.events >= limits.events, now.tasks >= limits.tasks, now.messages >= limits.messages,
            now.tasks - now.tasks_before >= dividing.MOST_NEW_TASKS,
        ]


class Turns(unittest.TestCase):
    """A read of a task of a loop in one part, which it writes back in the next."""

    def parts(self, *between: tuple[str, str, str]) -> Races:
        """Task a reads in the first part and writes back in the second, after what is done in between."""
        divider, parts = Divider(), [Part()]

        def report(kind: str, task: str, name: str = "", touch: str = "", turn: int = 0) -> None:
            event = divider.report(Report(kind, task, name))
            row = Row(event, task, "#1" if touch else None, touch or kind, "a.py", turn, "", name="x" if touch else "", part=len(parts), of=name,
                      loop=1 if touch else 0, turn=turn)
            parts[-1].rows.append(row)

        for task in "ab":
            report("spawn", "root", task)
        report("local", "a", touch="read", turn=1)
        border = divider.divide(lambda name: True, lambda name: True)
        parts.append(Part([Row(event, one.task, None, one.kind, None, 0, "", part=2, of=one.name)
                           for event, one in enumerate(border.reports, 1)], border))
        for kind, task, name in between:
            report("local" if kind == "touch" else kind, task, "" if kind == "touch" else name, name if kind == "touch" else "", 2)
        report("local", "a", touch="write", turn=3)
        found = Races()
        add_races(parts, found)
        return found

    def test_it_is_not_seen_whether_another_change_came_in_between(self) -> None:
        found = self.parts(("touch", "b", "write"))
        self.assertEqual([unseen.text for unseen in found.unseen], [
            "a task of a loop read x in one part of the trace and wrote it back in the next, at a.py:3: who came in between was not looked at"])

    def test_a_change_that_is_in_order_with_the_write_does_not_count(self) -> None:
        self.assertFalse(self.parts(("touch", "b", "write"), ("send", "b", "m"), ("recv", "a", "m")).unseen)

    def test_no_other_change_leaves_nothing_unseen(self) -> None:
        self.assertFalse(self.parts(("touch", "b", "read")).unseen)


# Wrong rules, each of which somebody may take for right


def _forgets_a_task(self: Divider, border: Border, task: str, sent: Any, last: int | None, ended: int | None) -> None:
    """As if the last live task that goes on had no position."""
    _go_on(self, border, task, sent, last, ended)
    if last is not None and task != dividing.ROOT and last % 5 == 0:
        border.positions.pop()


def _messages_at_the_last_event(self: Divider, border: Border, task: str, sent: Any, last: int | None, ended: int | None) -> None:
    """As if a message in flight knew all that its sender did later."""
    _go_on(self, border, task, [one._replace(event=last or ended or one.event) for one in sent], last, ended)


def _messages_of_nobody(self: Divider, border: Border, task: str, sent: Any, last: int | None, ended: int | None) -> None:
    """As if what stands behind a message in flight were dropped."""
    _go_on(self, border, task, sent, last, ended)
    dropped = {one.event for one in sent}
    border.positions[:] = [one for one in border.positions if one[0] not in dropped or one[1] in border.tasks]


def _not_moved_on(self: AcrossParts, at: Any) -> Any:
    """As if the positions of one part were those of the next."""
    return ((group, known) for known, group in self._groups.items())


def _nothing_kept(self: AcrossParts, touches: Any, trace: Any, border: Border) -> None:
    """As if a border put everything in order."""


def _dropped_if_one_knows(self: AcrossParts, touches: Any, trace: Any, border: Border) -> None:
    """As if a touch came before all that may happen if one live task knows it."""
    _move_on(self, touches, trace, border)
    live = across_parts._union(1 << event for event in border.tasks)
    self._groups = {known: group for known, group in self._groups.items() if not known & live}


def _kept_as_one(self: AcrossParts, touches: Any, trace: Any, border: Border) -> None:
    """As if what one position knows of a line were known of all touches of it."""
    _move_on(self, touches, trace, border)
    things = {thing for group in self._groups.values() for thing in group}
    for thing in things:
        alike = {known: group.pop(thing) for known, group in list(self._groups.items()) if thing in group}
        group = self._groups.setdefault(across_parts._union(alike), {})
        for one in alike.values():
            group = across_parts._merged(group, {thing: one})
        self._groups[across_parts._union(alike)] = group


def _ended_at_their_spawn(self: Divider, border: Border, task: str, sent: Any, last: int | None, ended: int | None) -> None:
    """As if the end of a task told nothing of what it did."""
    _go_on(self, border, task, sent, last, ended)
    if ended is not None:
        border.positions.pop()


_go_on, _move_on = Divider._go_on, AcrossParts.move_on
WRONG: list[tuple[Any, str, Callable[..., Any]]] = [
    (Divider, "_go_on", _forgets_a_task),
    (Divider, "_go_on", _messages_at_the_last_event),
    (Divider, "_go_on", _messages_of_nobody),
    (Divider, "_go_on", _ended_at_their_spawn),
    (AcrossParts, "_moved", _not_moved_on),
    (AcrossParts, "move_on", _nothing_kept),
    (AcrossParts, "move_on", _dropped_if_one_knows),
    (AcrossParts, "move_on", _kept_as_one),
]


class Borders(unittest.TestCase):
    def test_rows_of_a_part_are_written_before_its_border_may_be(self) -> None:
        """Else they would stand in the next part, with numbers of the one before."""
        tracer: Any = object.__new__(Tracer)
        row, count = (Outstanding("", "main", kind, "", None, 0, "") for kind in ("local", "count"))
        count.waiter = Waiter()
        tracer._reports = SimpleNamespace(is_over=False, outstanding=deque([row, count]))
        tracer._row = lambda event, report: f"{event} of {report.kind}\n"
        written: list[tuple[str, bool]] = []
        tracer._write_rows = lambda rows: written.append((rows, count.waiter.is_answered))
        tracer._take([b"201 7", b"200 7"])
        self.assertEqual((written, count.waiter.is_answered), ([("7 of local\n", False)], True))


class WrongRules(unittest.TestCase):
    def test_each_wrong_rule_is_caught(self) -> None:
        for owner, name, wrong in WRONG:
            with self.subTest(wrong=wrong.__doc__), mock.patch.object(owner, name, wrong):
                self.assertFalse(all(self.is_right_here(seed) for seed in range(SEEDS)))

    @staticmethod
    def is_right_here(seed: int) -> bool:
        try:
            return is_right(seed)
        except (LookupError, Refused):
            return False


if __name__ == "__main__":
    unittest.main()
