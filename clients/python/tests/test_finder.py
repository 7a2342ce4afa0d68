"""What is found is what plain reachability over all pairs says, and each wrong rule is caught by that."""

from __future__ import annotations

import os
import unittest
from collections.abc import Iterable, Iterator
from typing import Any
from unittest import mock

from itc_trace import Collector, Races, Session
from itc_trace.analyse import looks, races, racing_pairs
from itc_trace.model.conflicts import CHANGING, CONFLICTING, READ, WRITE
from itc_trace.record.journal import Row
from itc_trace.analyse.races import _Finder, _things_of
from itc_trace.session import Refused
from itc_trace.analyse.trace import LazyTrace, Steps, Told, Trace

from .random_runs import LOCKS, Answers, AnswersWithoutLocks, Found, RandomRun, Run

RUNS = int(os.environ.get("ITC_RANDOM_RUNS", "1500"))
RUNS_WITH_COLLECTOR = 48
SEEDS = 6000
"""By one of so many runs each wrong rule is to be caught."""


def found_in(run: Run, view: Any) -> Races:
    found = Races(events=len({row.event for row in run.rows}))
    things = [thing for thing in _things_of(run.rows) if thing.may_race]
    AnswersWithoutLocks.run = run
    with mock.patch.object(races, "WithoutLocks", AnswersWithoutLocks):
        _Finder(LazyTrace(view, len(run.events)), run.rows, found, False).find(things)
    return found


def listed(found: Iterable[Any]) -> Found:
    return {(race.thing, *sorted(row.place for row in race.example)): race.times for race in found}


def due(run: Run) -> tuple[Found, Found]:
    real = run.found(possible=False)
    return dict(real), {key: times for key, times in run.found(possible=True).items() if key not in real}


def is_right(seed: int) -> bool:
    run = RandomRun(seed)
    found = found_in(run, Answers(run))
    return (listed(found.races), listed(found.possible)) == due(run)


class Reachability(unittest.TestCase):
    def test_what_is_found_is_what_all_pairs_say(self) -> None:
        kinds = {"race": 0, "possible": 0, "neither": 0}
        for seed in range(RUNS):
            run = RandomRun(seed)
            view = Answers(run)
            found = found_in(run, view)
            real, possible = due(run)
            self.assertEqual(listed(found.races), real, f"races of run {seed}")
            self.assertEqual(listed(found.possible), possible, f"possible races of run {seed}")
            self.assertEqual(len(view.asked), len(set(view.asked)), "a question is asked twice")
            kinds["race" if real else "possible" if possible else "neither"] += 1
        self.assertGreater(min(kinds.values()), RUNS // 50, kinds)

    def test_a_thing_with_too_many_pairs_to_ask_for_is_told_all_the_same(self) -> None:
        with mock.patch.object(races, "MOST_ORDERS", 2):
            for seed in range(RUNS // 10):
                run = RandomRun(seed)
                found = found_in(run, Answers(run))
                self.assertEqual((listed(found.races), listed(found.possible)), due(run), f"run {seed}")

    def test_an_answer_that_contradicts_the_others_is_no_race(self) -> None:
        class Contradicting(Answers):
            def _answer(self, word: str, *numbers: str) -> str:
                reply = super()._answer(word, *numbers)
                return reply if word != "event" else f"{' '.join(reply.split()[:4])} 0"

        run = next(run for seed in range(RUNS) for run in [RandomRun(seed)] if any(due(run)) and not found_in(run, Answers(run)).possible)
        self.assertRaises(Refused, found_in, run, Contradicting(run))

    def test_a_journal_that_lacks_rows_gives_the_same(self) -> None:
        for seed in range(RUNS // 10):
            run = RandomRun(seed)
            run.rows = [row for row in run.rows if row.is_touch or row.lock is not None or run.chance.random() < 0.5]
            found = found_in(run, Answers(run))
            self.assertEqual((listed(found.races), listed(found.possible)), due(run), f"run {seed}")

    def test_the_collector_gives_the_same(self) -> None:
        tenants = [f"t{number}" for number in range(16)]
        for first in range(0, RUNS_WITH_COLLECTOR, len(tenants)):
            with Collector(*tenants) as collector:
                for seed, tenant in enumerate(tenants, 10000 + first):
                    self.assert_same_by_collector(seed, tenant, collector.port)

    def assert_same_by_collector(self, seed: int, tenant: str, port: int) -> None:
        run = RandomRun(seed)
        lines = [f"{one.kind} {one.task} {one.name}" if one.name != "-" else f"{one.kind} {one.task}" for one in run.events]
        with Session(tenant, port) as session:
            replies = list(session.ask(lines))
        self.assertEqual(replies, [f"201 {number}" for number in range(1, len(lines) + 1)])
        found = Races(events=len({row.event for row in run.rows}))
        with Session(tenant, port, "view") as view:
            _Finder(LazyTrace(view, len(run.events)), run.rows, found, False).find([thing for thing in _things_of(run.rows) if thing.may_race])
        self.assertEqual((listed(found.races), listed(found.possible)), due(run), f"run {seed}")


class Luck(unittest.TestCase):
    """Which orders are luck."""

    def possible(self, *steps: tuple[str, ...]) -> str:
        """What is possible in a run of these steps, in words. A touch names a thing, and the locks that are held."""
        run = Run()
        sent: dict[str, int] = {}
        for task, word, *words in steps:
            if word in ("read", "write", "making"):
                event = run.add("local", task).number
                run.rows.append(Row(event, task, words[0], word, "a.py", event, word, held=tuple(words[1:])))
            elif word in ("release", "send"):
                lock = words[0] if word == "release" else None
                sent[words[-1]] = run.add("send", task, f"m{len(run.events)}", lock).number
            elif word in ("acquire", "recv"):
                source = sent[words[-1]]
                run.add("recv", task, run.events[source - 1].name, words[0] if word == "acquire" else None, source)
            else:
                run.add(word, task, *words, source=run._last.get(words[0], 0) if word == "join" else 0)
        run.close()
        found = found_in(run, Answers(run))
        self.assertEqual((listed(found.races), listed(found.possible)), due(run))
        self.assertFalse(found.races, found.text())
        return "; ".join(race.why for race in found.possible)

    STARTS = (("root", "spawn", "a"), ("root", "spawn", "b"), ("root", "spawn", "c"))

    def test_a_lock_that_one_side_holds_is_named(self) -> None:
        lock, steps = LOCKS[0], self.STARTS
        for held, other, words in (((), (), "neither holds"), ((lock,), (), "the second does not hold"), ((), (lock,), "the first does not hold")):
            told = self.possible(
                *steps, ("a", "write", "x", *held), ("a", "release", lock), ("b", "acquire", lock, lock), ("b", "read", "x", *other),
            )
            self.assertEqual(told, f"ordered in this run only by lock A (a.py:1), which {words}")

    def test_two_locks_of_which_none_is_common_guard_nothing(self) -> None:
        first, second = LOCKS
        told = self.possible(
            *self.STARTS, ("a", "write", "x", first), ("a", "release", first), ("b", "acquire", first, first), ("b", "write", "x", second),
        )
        self.assertIn("lock A", told)

    def test_a_signal_as_the_last_step_is_no_luck(self) -> None:
        lock = LOCKS[0]
        steps = *self.STARTS, ("a", "write", "x"), ("a", "release", lock), ("c", "acquire", lock, lock)
        self.assertEqual(self.possible(*steps, ("c", "send", "s"), ("b", "recv", "s"), ("b", "read", "x")), "")
        told = self.possible(*self.STARTS, ("a", "write", "x"), ("a", "send", "s"), ("c", "recv", "s"), ("c", "release", lock),
                             ("b", "acquire", lock, lock), ("b", "read", "x"))
        self.assertIn("lock A", told)

    def test_a_signal_to_whoever_starts_the_task_is_no_luck(self) -> None:
        lock = LOCKS[0]
        steps = *self.STARTS, ("a", "write", "x"), ("a", "release", lock), ("c", "acquire", lock, lock), ("c", "send", "s")
        self.assertEqual(self.possible(*steps, ("root", "recv", "s"), ("root", "spawn", "d"), ("d", "read", "x")), "")

    def test_a_lock_of_whoever_starts_the_task_is_luck(self) -> None:
        lock = LOCKS[0]
        told = self.possible(*self.STARTS, ("a", "write", "x"), ("a", "release", lock), ("root", "acquire", lock, lock),
                             ("root", "spawn", "d"), ("d", "spawn", "e"), ("e", "read", "x"))
        self.assertIn("lock A (a.py:1), which neither holds", told)

    def test_what_is_handed_over_once_is_no_luck(self) -> None:
        lock = LOCKS[0]
        handed = ("a", "release", lock), ("b", "acquire", lock, lock), ("b", "write", "x")
        self.assertEqual(self.possible(*self.STARTS, ("a", "making", "x"), ("a", "write", "x"), *handed), "")
        self.assertIn("lock A", self.possible(*self.STARTS, ("a", "write", "x"), *handed))
        told = self.possible(("root", "making", "x"), *self.STARTS, ("root", "write", "x"), ("root", "release", lock),
                             ("b", "acquire", lock, lock), ("b", "write", "x"))
        self.assertIn("lock A", told)

    def test_what_comes_back_is_luck_on_its_way_back(self) -> None:
        lock = LOCKS[0]
        told = self.possible(
            *self.STARTS, ("a", "making", "x"), ("a", "write", "x"), ("a", "release", lock), ("b", "acquire", lock, lock), ("b", "write", "x"),
            ("b", "release", lock), ("a", "acquire", lock, lock), ("a", "read", "x"),
        )
        self.assertEqual(told.count("lock A"), 1)


# Wrong rules, each of which somebody may take for right


def _one_last_read(touches: Iterable[Row]) -> Iterator[tuple[int, int]]:
    """As if a read stood for the reads of other tasks."""
    last: dict[str, Row] = {}
    for touch in touches:
        for kind, other in last.items():
            if kind in CONFLICTING[touch.kind] and other.task != touch.task:
                yield other.event, touch.event
        last[touch.kind] = touch


def _forgotten(touches: Iterable[Row]) -> Iterator[tuple[int, int]]:
    """As if each touch stood for all before it."""
    last: Row | None = None
    for touch in touches:
        if last is not None and last.task != touch.task and last.kind in CONFLICTING[touch.kind]:
            yield last.event, touch.event
        last = touch


def _before_without(kind: str) -> Any:
    """As if what is received or taken in told nothing."""

    def before(trace: Trace) -> list[int]:
        known = [0]
        for event in trace.events:
            follows = [trace.previous(event)] if event.kind == kind else event.follows
            known.append(sum({1 << bit for one in follows for bit in (*_bits(known[one]), one)}))
        return known

    return property(before)


def _bits(number: int) -> list[int]:
    return [bit for bit in range(number.bit_length()) if number >> bit & 1]


def _no_split(rows: list[Row]) -> Iterator[Any]:
    return iter(())


def _split_in_one_turn(rows: list[Row]) -> Iterator[Any]:
    """As if a change went back to the first read, whatever was read since."""
    reads = [row for row in rows if row.kind not in CHANGING]
    for row in rows:
        if row.kind in CHANGING and reads and reads[0].turn < row.turn:
            yield racing_pairs._Split(reads[:1], row)


def _split_of_any_change(reads: list[Row], change: Row, are_acted_on: bool) -> Any:
    """As if no change went with an earlier one."""
    return racing_pairs._Split(reads, change)


def _no_split_of_a_later_change(reads: list[Row], change: Row, are_acted_on: bool) -> None:
    """As if what a task changes once more never went back to a look."""


def _splits_kept_to_no_function(rows: list[Row]) -> Iterator[Any]:
    """As if the same function of other tasks did not look first."""
    return (split._replace(is_kept_to_function=False) for split in _SPLITS(rows))


_SPLITS = racing_pairs._splits


def _no_signals(trace: Trace, steps: Steps) -> Told:
    """As if a task knew by signals only what its own task did."""
    told = [0]
    for event in trace.events:
        previous = trace.previous(event)
        told.append(told[previous] | 1 << previous)
    return Told(told, told)


def _all_signals(trace: Trace, steps: Steps) -> Told:
    """As if a lock told as a signal does."""
    return Told(trace.before, trace.before)


def _looks_by_one_who_writes(rows: Iterable[Row], trace: Trace) -> dict[int, int]:
    """As if whoever writes a thing looked at it."""
    return looks.looks_of([row._replace(kind=READ) if row.kind == WRITE and row.event % 2 else row for row in rows], trace)


def _any_hand_over(thing: Any, trace: Trace, told: list[int], replaced: Any) -> Any:
    """As if a thing that was made before the other task began could be handed over to it."""
    handed_over, taken_out = races._handed_over(thing, trace), races._taken_out(thing, replaced)
    return lambda touch: ~(told[touch] | taken_out.get(touch, 0) | handed_over) & ((1 << touch) - 2)


def _in_common(alike: Any, held: Iterable[str]) -> int:
    """As if locks kept nobody out."""
    return int(alike.events)


WRONG: list[tuple[Any, str, Any]] = [
    (races, "deciding_pairs", _one_last_read),
    (races, "deciding_pairs", _forgotten),
    (Trace, "before", _before_without("recv")),
    (Trace, "before", _before_without("join")),
    (racing_pairs, "_splits", _no_split),
    (racing_pairs, "_splits", _split_in_one_turn),
    (racing_pairs, "_split_of", _split_of_any_change),
    (racing_pairs, "_split_of", _no_split_of_a_later_change),
    (racing_pairs, "_splits", _splits_kept_to_no_function),
    (racing_pairs._SplitPairs, "_told_twice", lambda *_: 0),
    (racing_pairs._SplitPairs, "_unordered_later", lambda *_: {}),
    (racing_pairs._SplitPairs, "_between", lambda pairs, split, read, other: other.events & ~pairs._own[read.task]),
    (racing_pairs._Alike, "without", _in_common),
    (races, "told_by_signals", _no_signals),
    (races, "told_by_signals", _all_signals),
    (races, "looks_of", lambda *_: {}),
    (races, "looks_of", _looks_by_one_who_writes),
    (races, "_untold", _any_hand_over),
    (races, "_handed_over", lambda *_: 0),
]


class WrongRules(unittest.TestCase):
    def test_each_wrong_rule_is_caught(self) -> None:
        for owner, name, wrong in WRONG:
            with self.subTest(name=name, wrong=wrong), mock.patch.object(owner, name, wrong):
                self.assertFalse(all(self.is_right_here(seed) for seed in range(SEEDS)))

    @staticmethod
    def is_right_here(seed: int) -> bool:
        try:
            return is_right(seed)
        except (AssertionError, LookupError, Refused):
            return False


if __name__ == "__main__":
    unittest.main()
