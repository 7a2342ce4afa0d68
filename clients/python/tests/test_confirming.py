"""Races that hand-overs hide: they are counted, tried by further runs in which tasks are to meet, and then told."""

from __future__ import annotations

import json
import os
import re
import threading
import time
import unittest
from pathlib import Path

from itc_trace import Verdict
from itc_trace.analyse.hand_overs import hand_overs_of, polls_of
from itc_trace.analyse.races import Races, Side
from itc_trace.analyse.races import Race as FoundRace
from itc_trace.cli.trying import plan_of
from itc_trace.model.lines import state
from itc_trace.record.journal import Row
from itc_trace.report.race_rows import race_rows
from itc_trace.report.report import report_of
from itc_trace.sync import meeting
from itc_trace.model.handed_over import Plan
from itc_trace.sync.meeting import Meeting, Touching

from .hidden_races import CLEAN, HIDDEN, THREADS, TOUCHES, Ran, confirmed, program, programs
from .support import ProgramCase, run_traced

QUICK = ("lock_field", "first_holds_element", "own_queue_length", "lock_of_condition_keys", "permits_both_count", "poll_set")
QUICK_CLEAN = ("condition_set", "turns_both_count")
UNTOLD = program(HIDDEN["lock_of_condition"], TOUCHES["field"])
"""No possible race is told of it, since somebody may wait at the condition."""


class Confirmed(ProgramCase):
    def ran(self, forms: dict[str, str], names: tuple[str, ...]) -> list[Ran]:
        return list(confirmed({name: text for name, text in programs(forms).items() if name in names}))

    def test_what_a_lock_a_condition_a_permit_or_a_poll_hides_is_met(self) -> None:
        ran = self.ran(HIDDEN, QUICK)
        self.assertEqual(len(ran), len(QUICK))
        for one in ran:
            with self.subTest(one.name):
                self.assertTrue(one.is_confirmed, one.told)
                self.assertEqual(one.status, Verdict.RACES)
                self.assertIn("; both stood here at once in a further run; ", one.told)

    def test_what_is_in_order_is_not_met(self) -> None:
        ran = self.ran(CLEAN, QUICK_CLEAN)
        self.assertEqual(len(ran), len(QUICK_CLEAN))
        for one in ran:
            with self.subTest(one.name):
                self.assertEqual(one.status, 0, one.told)
                self.assertIn("no race in this run; 1 more pair is in order by locks alone: tried in 5 runs", one.told)
                self.assertIn("itc_trace: --confirm: 1 of the pairs of lines was not met in 5 runs", one.told)

    def test_what_was_not_met_stays_possible_and_says_so(self) -> None:
        ran = run_traced("--confirm", self.program(program(CLEAN["flag"], TOUCHES["field"])))
        self.assertEqual(ran.returncode, 0, ran.stderr)
        self.assertIn("itc_trace: possible race on Stock.left", ran.stderr)
        self.assertIn("; not met in 5 runs that tried; once", ran.stderr)


class Counted(ProgramCase):
    def last(self, text: str, *words: str) -> str:
        return run_traced(*words, self.program(text)).stderr.splitlines()[-1]

    def test_the_last_line_counts_what_is_not_told(self) -> None:
        self.assertRegex(
            self.last(UNTOLD), r"^itc_trace: no race in this run; 1 more pair is in order by locks alone: run --confirm: "
        )

    def test_what_is_told_as_possible_is_not_counted(self) -> None:
        self.assertRegex(
            self.last(program(HIDDEN["lock"], TOUCHES["field"])), r"^itc_trace: no race in this run; 1 possible: "
        )

    def test_what_both_did_under_one_lock_is_not_counted(self) -> None:
        self.assertRegex(self.last(program(CLEAN["common_lock"], TOUCHES["field"])), r"^itc_trace: no race in this run: ")

    def test_what_is_polled_to_the_end_is_not_counted(self) -> None:
        polled = program(CLEAN["polled_to_the_end"], TOUCHES["field"])
        self.assertRegex(self.last(polled), r"^itc_trace: no race in this run: ")
        left = polled.replace("while worker.is_alive():\n        time.sleep(0.001)", "time.sleep(0.1)\n    worker.is_alive()")
        self.assertRegex(
            self.last(left), r"^itc_trace: no race in this run; 1 more pair is in order by polls alone: run --confirm: "
        )

    def test_what_an_event_or_a_join_orders_is_not_counted(self) -> None:
        by_event = UNTOLD.replace("guard = threading.Condition()", "told, guard = threading.Event(), threading.Condition()")
        by_event = by_event.replace("time.sleep(0.05)", "told.wait()").replace("pass\ndef second", "pass\n    told.set()\ndef second")
        self.assertRegex(self.last(by_event), r"^itc_trace: no race in this run: ")
        by_join = UNTOLD.replace(THREADS, "\nfor work in first, second:\n    one = threading.Thread(target=work)\n    one.start()\n    one.join()\n")
        self.assertRegex(self.last(by_join), r"^itc_trace: no race in this run: ")

    def test_what_is_meant_is_not_counted(self) -> None:
        meant = UNTOLD.replace("seen = stock.left", "seen = stock.left  # itc: benign")
        self.assertRegex(self.last(meant), r"^itc_trace: no race in this run: ")

    def test_several_runs_direct_from_the_second_one_on(self) -> None:
        ran = run_traced("--runs", "4", self.program(UNTOLD))
        self.assertEqual(ran.returncode, Verdict.RACES, ran.stderr)
        self.assertRegex(ran.stderr, r"itc_trace: confirmed race on Stock.left")
        self.assertRegex(ran.stderr, r"in \d of 4 runs, first in run [2-4] \(--shake=\d+\)")
        self.assertEqual(ran.stderr.splitlines()[-1], "itc_trace: 1 race in 4 runs")

    def test_each_format_says_that_it_is_confirmed(self) -> None:
        file = self.program(UNTOLD)
        found = os.path.join(os.path.dirname(file), "found.json")
        ran = run_traced("--confirm", "--json", found, file)
        self.assertEqual(ran.returncode, Verdict.RACES, ran.stderr)
        told, = json.loads(Path(found).read_text(encoding="utf-8"))["findings"]
        self.assertEqual((told["kind"], told["possible"], told["confirmed"]), ("race", False, True))


def row(event: int, task: str, **named: object) -> Row:
    return Row(event, task, "#1", "write", "shop.py", event, "write total", "total")._replace(**named)


def race(*events: int) -> FoundRace:
    one, other = (row(event, f"task_{event}") for event in events)
    return FoundRace("total", (Side(one.kind, one.place), Side(other.kind, other.place)), (one, other), 1)


class FurtherRuns(unittest.TestCase):
    def test_a_race_that_only_a_further_run_had_counts(self) -> None:
        found = Races([race(1, 2)], hidden=[race(3, 4)])
        found.add_further([race(1, 2), race(3, 4), race(5, 6)])
        report = report_of(found)
        self.assertEqual(report.verdict, Verdict.RACES)
        self.assertEqual(len(report.findings), 2)
        self.assertRegex(report.findings[1].told_order, r"nothing orders them in a further run; once; id \w+$")
        self.assertEqual(race_rows(report).count("\n"), 2)  # The picture is of the first run.

    def test_tasks_of_one_loop_are_not_tried_and_those_of_a_child_are(self) -> None:
        one = race(1, 2)
        self.assertTrue(one.may_meet)
        one.example = (row(1, "a", loop=1), row(2, "b", loop=1))
        self.assertFalse(one.may_meet)
        one.example = (row(1, "a", loop=1), row(2, "b"))
        self.assertTrue(one.may_meet)
        one.example = (row(1, "a", thing="#c1_1"), row(2, "b", thing="#c1_1"))
        self.assertTrue(one.may_meet)

    def test_runs_hold_at_both_sides_and_at_each(self) -> None:
        plans = [plan_of([race(1, 2), race(3, 4)], number) for number in range(5)]
        self.assertEqual(plans[0].held, ["shop.py:1", "shop.py:2", "shop.py:3", "shop.py:4"])
        self.assertEqual((plans[2].held, plans[3].held), (["shop.py:2", "shop.py:4"], ["shop.py:1", "shop.py:3"]))
        self.assertEqual([len(plan.pairs) for plan in plans], [2, 2, 2, 2, 1])

    def test_a_lock_that_one_side_holds_is_a_gate(self) -> None:
        one = race(1, 2)
        one.example = (row(1, "a", held=("#7 lock guard (shop.py:9)",)), row(2, "b"))
        self.assertEqual([plan_of([one], number).gates for number in range(2)], [[], [("lock guard (shop.py:9)", "shop.py:2")]])

    def test_what_hands_over_is_known_by_its_row(self) -> None:
        rows = [
            row(1, "a", thing=None, lock="#1 lock guard"), row(2, "a", thing=None, guard="#2 lock ready"),
            row(3, "a", thing=None, label="acquire semaphore"), row(4, "a", thing=None, kind="join", label="join b"),
            row(5, "a", thing=None, kind="join", label="see the end of b", asked="is_alive"),
            row(6, "a", thing=None, label="set event"),
        ]
        self.assertEqual((sorted(hand_overs_of(rows)), sorted(polls_of(rows))), ([1, 2, 3], [5]))


class Meetings(unittest.TestCase):
    def setUp(self) -> None:
        self.noted, state.note = state.note, lambda note: None
        self.hold, meeting.HOLD = meeting.HOLD, 0.2

    def tearDown(self) -> None:
        state.note, meeting.HOLD = self.noted, self.hold

    def seconds(self, place: str, met: Meeting, touching: Touching = Touching()) -> float:
        begun = time.monotonic()
        met.arrive(place, touching)
        return time.monotonic() - begun

    def met_by_two(self, plan: Plan, *touching: Touching) -> bool:
        met, held = Meeting(plan), []
        first = threading.Thread(target=lambda: held.append(self.seconds("a:1", met, touching[0])))
        first.start()
        time.sleep(0.05)
        met.arrive("b:2", touching[1])
        first.join()
        return held[0] < 0.19

    def test_a_task_is_held_until_another_one_comes(self) -> None:
        self.assertTrue(self.met_by_two(Plan([("a:1", "b:2")], ["a:1"], True), Touching(1), Touching(1)))

    def test_two_that_touch_different_things_do_not_meet(self) -> None:
        exact, inexact = (Plan([("a:1", "b:2")], ["a:1"], is_exact) for is_exact in (True, False))
        self.assertFalse(self.met_by_two(exact, Touching(1), Touching(2)))
        self.assertFalse(self.met_by_two(exact, Touching(1, "x"), Touching(1, "y")))
        self.assertTrue(self.met_by_two(inexact, Touching(1), Touching(2)))

    def test_a_task_does_not_meet_itself_nor_wait_for_ever(self) -> None:
        met = Meeting(Plan([("a:1", "a:1")], ["a:1"], True))
        waits = [self.seconds("a:1", met) for _ in range(meeting.MOST_HOLDS + 2)]
        self.assertEqual([wait > 0.15 for wait in waits], [True] * meeting.MOST_HOLDS + [False] * 2)

    def test_a_task_is_held_before_a_lock_until_another_one_stands_there(self) -> None:
        met = Meeting(Plan([("a:1", "b:2")], ["b:2"], True, [("lock", "b:2")]))
        waits = []
        def first() -> None:
            begun = time.monotonic()
            met.come_to_lock("lock")
            waits.append(time.monotonic() - begun)
            met.arrive("a:1", Touching())
        one = threading.Thread(target=first)
        one.start()
        time.sleep(0.05)
        met.come_to_lock("lock")  # Others pass meanwhile.
        waits.append(self.seconds("b:2", met))
        one.join()
        self.assertTrue(all(wait < 0.19 for wait in waits), waits)

    def test_nobody_is_held_elsewhere_nor_if_nothing_is_noted(self) -> None:
        met = Meeting(Plan([("a:1", "b:2")], ["a:1"], True))
        self.assertLess(self.seconds("c:3", met) + self.seconds("b:2", met), 0.15)
        state.note = None
        self.assertLess(self.seconds("a:1", met), 0.15)


class Forms(unittest.TestCase):
    def test_the_set_has_forty_of_each(self) -> None:
        for forms in (HIDDEN, CLEAN):
            texts = programs(forms)
            self.assertEqual(len(set(texts.values())), 40)
            for name, text in texts.items():
                compile(text, name, "exec")
                self.assertIsNone(re.search("TOUCH", text))


if __name__ == "__main__":
    unittest.main()
