"""What the hand-over of a lock between processes puts in order is possible, and tried by further runs."""

from __future__ import annotations

import json
import multiprocessing
import os
import re
import time
import unittest
from pathlib import Path
from typing import Any, NamedTuple
from unittest import mock

from itc_trace import Verdict
from itc_trace.analyse.races import Race, Side
from itc_trace.cli.trying import plan_of
from itc_trace.model.handed_over import Plan
from itc_trace.model.lines import state
from itc_trace.record.journal import Row
from itc_trace.record.shared_names import SharedNames
from itc_trace.record.standing import MOST_STANDING, Board, Standing
from itc_trace.sync import meeting
from itc_trace.sync.meeting import Meeting, Touching

from .hidden_across import BEGIN, CLEAN, HIDDEN, SHARED, Form, program, programs
from .hidden_races import confirmed
from .support import WAIT, ProgramCase, chosen, run_traced, wait_until

COUNTED = "; 1 more pair is in order by locks alone: run --confirm: "
TRIED = ("lock_value_fork", "first_holds_value_spawn", "lock_of_condition_array_fork", "second_holds_memory_spawn")
"""One of each kind of thing, and of each way to hold a lock."""

MANY_GIVE = """
import multiprocessing, threading, time
class Stock: pass
stock = Stock()
def give(permits):
    stock.left = 0
    permits.release()
def give_many(permits):
    for _ in range(THREADS):
        thread = threading.Thread(target=permits.release)
        thread.start()
        thread.join()
if __name__ == "__main__":
    multiprocessing.set_start_method("fork")
    permits = multiprocessing.Semaphore(0)
    thread = threading.Thread(target=give, args=(permits,))
    thread.start()
    while not permits.get_value():
        time.sleep(0.01)
    child = multiprocessing.Process(target=give_many, args=(permits,))
    child.start()
    child.join()
    permits.acquire()
    permits.acquire()
    print(stock.left)
    thread.join()
"""


class Told(ProgramCase):
    def ran(self, text: str, *words: str) -> str:
        return run_traced(*words, self.program(text)).stderr

    def test_what_a_lock_alone_puts_in_order_is_never_silent(self) -> None:
        for name, text in chosen(list(programs(HIDDEN).items())):
            form = next(one for key, one in HIDDEN.items() if re.fullmatch(rf"{key}_[a-z]+_(fork|spawn)", name))
            with self.subTest(name):
                told = self.ran(text)
                if form.is_told:
                    self.assertRegex(told, "itc_trace: possible race on .*\n.* in first: .*\n.* in second: ")
                    self.assertRegex(told, r"ordered in this run only by lock .* \(\S+:\d+\), which ")
                    self.assertIn("itc_trace: no race in this run; 1 possible: ", told)
                else:
                    self.assertRegex(told, f"^itc_trace: no race in this run{COUNTED}")

    def test_what_else_keeps_processes_in_order_is_no_luck(self) -> None:
        for name, text in chosen(list(programs(CLEAN).items())):
            with self.subTest(name):
                self.assertRegex(self.ran(text), r"\Aitc_trace: no race in this run: ")

    def test_a_lock_of_a_file_gives_no_order(self) -> None:
        form = Form("open(__file__ + '.lock', 'w').name", """
import fcntl
def locked(by):
    with open(by, "w") as file:
        fcntl.flock(file, fcntl.LOCK_EX)
def first(one, by):
    FIRST
    locked(by)
    go_first()
def second(one, by):
    come_later()
    locked(by)
    SECOND
""")
        self.assertIn("itc_trace: race on Value made at ", self.ran(program(form, SHARED["value"], "fork")))

    def test_the_parent_and_a_child_that_is_spawned_call_a_lock_the_same(self) -> None:
        text = BEGIN + """
def first(one, by):
    with by:
        one.value = 5
if __name__ == "__main__":
    multiprocessing.set_start_method("spawn")
    one, guard = multiprocessing.Value("i", 0, lock=False), multiprocessing.Lock()
    child = multiprocessing.Process(target=first, args=(one, guard))
    child.start()
    HERE
    child.join()
"""
        under = self.ran(text.replace("HERE", "with guard: one.value += 1"))
        self.assertRegex(under, r"\Aitc_trace: no race in this run: ")
        self.assertRegex(self.ran(text.replace("HERE", "one.value += 1")), "itc_trace: (possible )?race on ")

    def test_a_notice_of_another_process_is_meant_and_the_lock_of_its_condition_is_not(self) -> None:
        for kind in ("multiprocessing.Condition()", "manager.Condition()"):
            form = Form(kind, """
def first(one, by):
    come_later()
    with by:
        pass
    with by:
        BEFORE
        by.notify_all()
        AFTER
def second(one, by):
    with by:
        go_first()
        by.wait()
    SECOND
""")
            text = program(form, SHARED["value"], "fork")
            with self.subTest(kind):
                self.assertRegex(
                    self.ran(text.replace("BEFORE", "one.value = 5").replace("AFTER", "pass")),
                    r"\Aitc_trace: no race in this run: ",
                )
                self.assertIn(COUNTED, self.ran(text.replace("BEFORE", "pass").replace("AFTER", "one.value = 5")))

    def test_permits_of_a_process_with_too_many_tasks_to_count_are_luck(self) -> None:
        for threads in 60, 70:
            with self.subTest(threads=threads):
                told = self.ran(MANY_GIVE.replace("THREADS", str(threads)))
                self.assertEqual((COUNTED in told, " no race in this run" in told), (True, True), told)

    def test_threads_of_a_child_are_counted_too(self) -> None:
        text = """
import multiprocessing, threading, time
class Stock: pass
guard = threading.Condition()
def wait():
    with guard:
        guard.wait(0.01)
def first(stock):
    stock.left = 5
    with guard:
        pass
def child():
    stock = Stock()
    one = threading.Thread(target=first, args=(stock,))
    one.start()
    while one.ident in [thread.ident for thread in threading.enumerate()]:
        time.sleep(0.01)
    with guard:
        pass
    seen = stock.left
    one.join()
if __name__ == "__main__":
    one = multiprocessing.get_context("fork").Process(target=child)
    one.start()
    one.join()
"""
        self.assertRegex(self.ran(text), f"itc_trace: no race in this run{COUNTED}")


class Confirmed(ProgramCase):
    def test_two_processes_are_had_to_meet(self) -> None:
        texts = {name: text for name, text in programs(HIDDEN).items() if name in TRIED}
        self.assertEqual(len(texts), len(TRIED))
        for one in confirmed(texts):
            with self.subTest(one.name):
                self.assertTrue(one.is_confirmed, one.told)
                self.assertEqual(one.status, Verdict.RACES)
                self.assertIn("; both stood here at once in a further run; ", one.told)

    def test_what_is_in_order_is_not_met_and_says_so(self) -> None:
        form = Form("multiprocessing.Lock()", """
def first(one, by):
    FIRST
    with by:
        with open(__file__ + str(os.getppid()), "w"):
            pass
def second(one, by):
    while True:
        with by:
            if os.path.exists(__file__ + str(os.getppid())):
                break
        time.sleep(0.01)
    SECOND
""")
        ran = run_traced("--confirm", self.program(program(form, SHARED["value"], "fork")))
        self.assertEqual(ran.returncode, 0, ran.stderr)
        self.assertIn("itc_trace: possible race on one, a Value made at ", ran.stderr)
        self.assertIn("; not met in 5 runs that tried; once", ran.stderr)

    def test_several_runs_tell_of_which_one_has_met(self) -> None:
        text = program(HIDDEN["lock_of_condition"], SHARED["value"], "fork")
        file = self.program(text)
        found = os.path.join(os.path.dirname(file), "found.json")
        ran = run_traced("--runs", "4", "--json", found, file)
        self.assertEqual(ran.returncode, Verdict.RACES, ran.stderr)
        self.assertRegex(ran.stderr, r"in \d of 4 runs, first in run [2-4] \(--shake=\d+\)")
        told, = json.loads(Path(found).read_text(encoding="utf-8"))["findings"]
        self.assertEqual((told["kind"], told["possible"], told["confirmed"]), ("race", False, True))


def row(event: int, **named: object) -> Row:
    return Row(event, f"task_{event}", "count", "write", "shop.py", event, "write count", "count")._replace(**named)


class Plans(unittest.TestCase):
    def test_lines_of_what_processes_share_are_told_apart_from_others(self) -> None:
        first, second = row(1, held=("#across7 lock guard (shop.py:9)",)), row(2)
        race = Race("count", (Side("write", "shop.py:1"), Side("write", "shop.py:2")), (first, second), 1)
        self.assertTrue(race.may_meet)
        plan = plan_of([race], 1)
        self.assertEqual((plan.pairs, plan.held), ([("@shop.py:1", "@shop.py:2")], ["@shop.py:1", "@shop.py:2"]))
        self.assertEqual(plan.gates, [("lock guard (shop.py:9)", "@shop.py:2")])
        self.assertEqual(Meeting(plan).places, frozenset())
        race.example = (row(1, thing="#c1_1"), row(2, thing="#c1_1"))
        self.assertEqual(plan_of([race], 0).held, ["shop.py:1", "shop.py:2"])

    def test_a_thing_that_the_program_has_named_is_not_tried(self) -> None:
        race = Race("count", (Side("write", "shop.py:1"), Side("write", "shop.py:2")), (row(1, name=""), row(2, name="")))
        self.assertFalse(race.may_meet)


class Arrival(NamedTuple):
    """A process that comes to a place."""

    place: str
    thing: str
    hold: float
    """How many seconds it is held at most."""


def arrive(names: str, one: Arrival, told: Any) -> None:
    """In another process: comes to the place, and tells how long it was held."""
    with mock.patch.object(meeting.following, "shared_names", lambda: SharedNames(names)), \
            mock.patch.object(meeting, "HOLD", one.hold):
        state.note = lambda note: None
        begun = time.monotonic()
        Meeting(Plan([("@a:1", "@b:2")], ["@a:1"], True)).arrive(one.place, Touching(one.thing))
        told.send(time.monotonic() - begun)


class Meetings(unittest.TestCase):
    def setUp(self) -> None:
        self.names = SharedNames()
        self.addCleanup(self.names.remove)

    def held(self, first: Arrival, second: Arrival) -> list[float]:
        """How long each of two processes is held, of which the second one comes once the first one stands."""
        context, board = multiprocessing.get_context("spawn"), Board(self.names)
        here, there = context.Pipe()
        processes = [context.Process(target=arrive, args=(self.names.path, one, there)) for one in (first, second)]
        processes[0].start()
        wait_until(lambda: list(board.standing()) or not processes[0].is_alive())
        processes[1].start()
        told = sorted(here.recv() for _ in processes)
        for process in processes:
            process.join()
        self.assertEqual(list(board.standing()), [])
        return told

    def test_who_stands_is_let_go_by_another_process_at_the_same_thing(self) -> None:
        self.assertLess(self.held(Arrival("@a:1", "count", WAIT), Arrival("@b:2", "count", WAIT))[1], WAIT)

    def test_who_comes_to_another_thing_is_not_met(self) -> None:
        self.assertGreaterEqual(self.held(Arrival("@a:1", "count", 5.0), Arrival("@b:2", "other", 5.0))[1], 5.0)

    def test_who_has_died_is_not_met_for_ever(self) -> None:
        board = Board(self.names)
        board.stand(Standing("1.1", 0, time.monotonic() - 1, "", ""))
        self.assertEqual(list(board.standing()), [])

    def test_there_is_room_for_so_many(self) -> None:
        board = Board(self.names)
        slots = [board.stand(Standing(f"1.{one}", 0, time.monotonic() + 600, "", "")) for one in range(MOST_STANDING + 1)]
        self.assertEqual((len(set(slots[:-1])), slots[-1]), (MOST_STANDING, None))
        board.leave(slots[0] or 0)
        self.assertIsNotNone(board.stand(Standing("1.0", 0, time.monotonic() + 600, "", "")))

    def test_what_was_waited_for_in_vain_counts_for_all(self) -> None:
        one, other = Board(self.names), Board(SharedNames(self.names.path))
        one.add("held 1", 3)
        one.add_seconds(1.5)
        self.assertEqual((other.count("held 1"), other.seconds), (3, 1.5))


if __name__ == "__main__":
    unittest.main()
