"""Possible deadlocks: cycles of locks that are told with all their places, and those that are none."""

from __future__ import annotations

import inspect
import threading
import unittest
from collections.abc import Callable

from itc_trace import Races, Verdict
from itc_trace.analyse.benign import Looking, Pattern
from itc_trace.analyse.deadlocks import Deadlock, cycles
from itc_trace.analyse.deadlocks_of_parts import ACROSS
from itc_trace.analyse.lock_waits import acquisitions_of
from itc_trace.record.journal import Row

from . import deadlock_programs
from .deadlock_programs import CLEAN, OF_SEVERAL, TOLD, Steps, queue_told_under_the_lock, two_locks
from .support import PART_EVENTS, PROGRAM_RUNS, ProgramCase, TracedCase, in_turn, run_traced


def marked(scenario: Callable[[], Steps]) -> set[int]:
    """The lines of the scenario that are to be told."""
    lines, begin = inspect.getsourcelines(scenario)
    own = {begin + number for number, line in enumerate(lines) if line.rstrip().endswith("# told")}
    every, _ = inspect.getsourcelines(deadlock_programs)
    by_name = f"# told by {scenario.__name__}"
    return own | {number for number, line in enumerate(every, 1) if line.rstrip().endswith(by_name)}


def lines_of(deadlocks: list[Deadlock]) -> set[int]:
    return {at.line for one in deadlocks for step in one.steps for at in (step.held_at, step.wanted_at)}


class Deadlocks(TracedCase):
    def found(self, scenario: Callable[[], Steps]) -> Races:
        """All of it has to be seen: what the collector contradicts is told as not seen."""
        def run() -> None:
            in_turn(*scenario())

        found = self.races(run)
        self.assertEqual(found.unseen, [])
        return found

    def test_each_is_told_with_all_its_places(self) -> None:
        for scenario in TOLD * PROGRAM_RUNS:
            with self.subTest(scenario.__name__):
                found = self.found(scenario)
                told = found.possible_deadlocks
                if scenario in OF_SEVERAL and PART_EVENTS and not told:  # Of two locks alone it is told across parts.
                    self.assertIn(ACROSS, [one.what for one in found.passed_over])
                    continue
                self.assertEqual(lines_of(told), marked(scenario), "\n".join(map(str, told)))
                self.assertTrue(marked(scenario))

    def test_what_is_none_is_not_told(self) -> None:
        for scenario in CLEAN * PROGRAM_RUNS:
            with self.subTest(scenario.__name__):
                found = self.found(scenario)
                self.assertEqual(list(map(str, found.possible_deadlocks)), [])
                if scenario is not queue_told_under_the_lock or not PART_EVENTS:  # Across parts its order is not asked.
                    self.assertEqual(found.passed_over, [])


PROCESSES = """
import multiprocessing, time
def forth(one, other):
    with one:  # told
        with other:  # told
            pass
def back(one, other):
    time.sleep(0.5)
    with other:  # told
        with one:  # told
            pass
if __name__ == "__main__":
    context = multiprocessing.get_context("fork")
    locks = [context.Lock() for _ in range(2)]
    processes = [context.Process(target=work, args=locks) for work in (forth, back)]
    for process in processes:
        process.start(); WAIT
    for process in processes:
        process.join()
"""

GIVEN = """
import multiprocessing, time
def forth(ready, one, other):
    with one, other:
        pass
    ready.release()
def back(ready, one, other):
    ready.acquire()
    with other, one:
        pass
if __name__ == "__main__":
    context = multiprocessing.get_context("fork")
    ready, *locks = [context.Lock() for _ in range(3)]
    ready.acquire()
    processes = [context.Process(target=work, args=[ready, *locks]) for work in (forth, back)]
    for process in processes:
        process.start()
    for process in processes:
        process.join()
"""
"""What another process has acquired, a process releases: whoever acquires it then comes after that."""

GATE = PROCESSES.replace("(one, other)", "(door, one, other)").replace("range(2)", "range(3)").replace(
    "with one:  # told\n        with other:  #", "with door, one, other:  #").replace(
    "with other:  # told\n        with one:  #", "with door, other, one:  #")
MAKE = "context.Lock()"
PERMITS = ("context.Semaphore(1)", "context.BoundedSemaphore()")

IN_LOOPS = PROCESSES.replace("multiprocessing, time", "asyncio, multiprocessing, time").replace("def ", "async def ").replace(
    "if __name__", """def child(work, *locks):
    asyncio.run(work(*locks))
if __name__""",
).replace("target=work, args=locks", "target=child, args=[work, *locks]")


class Processes(ProgramCase):
    def told(self, wait: str, text: str = PROCESSES) -> tuple[int, str]:
        ran = run_traced("--fail-on", "possible", "--watch-nothing", self.program(text.replace("WAIT", wait)))
        return ran.returncode, ran.stderr

    def test_the_loops_of_two_processes_are_two(self) -> None:
        status, told = self.told("pass", IN_LOOPS)
        self.assertEqual(status, Verdict.RACES, told)
        self.assertEqual(told.count("  # told\n"), 4, told)

    def test_locks_that_processes_share_are_told_with_all_places(self) -> None:
        status, told = self.told("pass")
        self.assertEqual(status, Verdict.RACES, told)
        self.assertEqual(told.count("  # told\n"), 4, told)

    def test_semaphores_of_one_permit_are_locks_however_processes_start(self) -> None:
        for make, method in zip((*PERMITS, *PERMITS, "context.RLock()"), ("fork", "fork", "spawn", "forkserver", "spawn")):
            with self.subTest(make, method=method):
                status, told = self.told("pass", PROCESSES.replace(MAKE, make).replace("fork", method))
                self.assertEqual(status, Verdict.RACES, told)
                self.assertEqual(told.count("  # told\n"), 4, told)

    def test_more_permits_than_one_keep_nobody_out(self) -> None:
        status, told = self.told("pass", PROCESSES.replace(MAKE, "context.Semaphore(2)"))
        self.assertEqual((status, told.count("deadlock")), (0, 0), told)

    def test_what_another_process_releases_is_an_order(self) -> None:
        for make in (MAKE, *PERMITS):
            with self.subTest(make):
                status, told = self.told("", GIVEN.replace(MAKE, make))
                self.assertEqual((status, told.count("deadlock")), (0, 0), told)

    def test_one_that_all_hold_is_a_gate(self) -> None:
        self.assertEqual(GATE.count("with door"), 2)
        for make in (MAKE, *PERMITS):
            with self.subTest(make):
                status, told = self.told("pass", GATE.replace(MAKE, make))
                self.assertEqual((status, told.count("deadlock")), (0, 0), told)

    def test_processes_one_after_another_are_in_order(self) -> None:
        for make in (MAKE, *PERMITS):
            with self.subTest(make):
                status, told = self.told("process.join()", PROCESSES.replace(MAKE, make))
                self.assertEqual((status, told.count("deadlock")), (0, 0), told)


class Readers(unittest.TestCase):
    def test_a_cycle_of_readers_is_gone_through_once(self) -> None:
        """Two patterns that hold locks for reading want each other's, and a third one wants the first of them."""
        def row(task: str, held: str, wants: str, event: int) -> Row:
            at = (("shop.go", event, "main"),)
            return Row(event, task, None, "local", "shop.go", event, "", held=(held,), wants=wants, at=at, shared=(0,))

        rows = [row("a", "#3 c", "#1 a", 1), row("b", "#1 a", "#2 b", 2), row("c", "#2 b", "#1 a", 3)]
        found = list(cycles(acquisitions_of(rows)))
        self.assertEqual([[one.wants for one in cycle] for cycle in found], [["#2", "#1"]])


class Findings(TracedCase):
    def test_it_counts_as_a_possible_race_does(self) -> None:
        found = self.races(lambda: in_turn(*two_locks()))
        self.assertEqual(found.verdict(), Verdict.NO_RACE)
        self.assertEqual(found.verdict(fail_on_possible=True), Verdict.RACES)
        self.assertRegex(found.summary(), r"\Ano race in this run; 1 possible deadlock: ")

    def test_it_is_known_if_other_lines_move_it(self) -> None:
        found = self.races(lambda: in_turn(*two_locks()))
        again = self.races(lambda: in_turn(*two_locks()))
        known = found.possible_deadlocks[0].finding().known_as
        self.assertEqual(again.possible_deadlocks[0].finding().known_as, known)
        self.assertNotRegex(str(known), r":\d")
        looking = Looking(baseline=[known])
        looking.silence(again)
        self.assertEqual((again.possible_deadlocks, len(again.known)), ([], 1))
        self.assertEqual(again.verdict(fail_on_possible=True), Verdict.NO_RACE)

    def test_it_is_known_whichever_task_comes_first(self) -> None:
        def run(is_turned: bool) -> None:
            first_lock = threading.Lock()
            second_lock = threading.Lock()

            def forth() -> None:
                with first_lock, second_lock:
                    pass

            def back() -> None:
                with second_lock, first_lock:
                    pass

            in_turn(*((back, forth) if is_turned else (forth, back)))

        one, other = (self.races(lambda: run(turned)).possible_deadlocks[0].finding() for turned in (False, True))
        self.assertEqual((one.known_as, one.identity), (other.known_as, other.identity))

    def test_it_is_silenced_by_any_two_of_its_places(self) -> None:
        lines = sorted(marked(two_locks))
        file = deadlock_programs.__file__
        for first, second in ((0, 2), (1, 3), (3, 0)):
            found = self.races(lambda: in_turn(*two_locks()))
            Looking(patterns=[Pattern("lock*", (f"{file}:{lines[first]}", f"{file}:{lines[second]}"))]).silence(found)
            self.assertEqual((found.possible_deadlocks, len(found.meant)), ([], 1))
        found = self.races(lambda: in_turn(*two_locks()))
        Looking(patterns=[Pattern("lock*", (f"{file}:{lines[0]}", f"{file}:1"))]).silence(found)
        self.assertEqual(len(found.possible_deadlocks), 1)


if __name__ == "__main__":
    unittest.main()
