"""Most of what a program does with queues, loops and attributes is noted without calls of Python, and nothing is missed
by that."""

from __future__ import annotations

import re
import unittest

from itc_trace import Verdict
from itc_trace.watch.helper import quick

from .support import ProgramCase, run_python, run_traced

NO_HELPER = "there is no compiler here, or another Python"
TURNS = 100

COUNTED = f"""
import sys
calls = [0]
def count(frame, event, _):
    if event == "call" and frame.f_globals.get("__name__", "").startswith("itc_trace."):
        calls[0] += 1
def begin():
    calls[0] = 0
    sys.setprofile(count)
def tell():
    sys.setprofile(None)
    print(calls[0] // {TURNS})
"""
QUEUE = COUNTED + f"""
import queue
items = queue.KIND()
def turns():
    for number in range({TURNS}):
        items.put(number)
        items.get()
turns()
begin()
turns()
tell()
"""
LOOP = COUNTED + f"""
import asyncio
async def turns():
    for _ in range({TURNS}):
        await asyncio.sleep(0)
async def main():
    await turns()
    begin()
    await turns()
    tell()
asyncio.run(main())
"""
HAND_OVERS = f"""
import asyncio, cProfile, os, time
import itc_trace
from itc_trace.model.lines import state
from itc_trace.record.tracer import Tracer
profile, folder, plain = cProfile.Profile(), os.path.dirname(itc_trace.__file__), Tracer._report_some
def report_some(tracer):
    profile.enable()
    plain(tracer)
    profile.disable()
def wait():
    while state.tracer.reported is None:
        time.sleep(0.001)
totals, lock = {{"left": 0}}, asyncio.Lock()
async def turns():
    for _ in range({TURNS} // 10):
        async with lock:
            totals["left"] += 1
            await asyncio.sleep(0)
async def main():
    await asyncio.gather(*(turns() for _ in range(10)))
    wait()
    BEGIN
    await asyncio.gather(*(turns() for _ in range(10)))
    wait()
    END
    files = [(one.callcount, getattr(one.code, "co_filename", "")) for one in profile.getstats()]
    print(sum(count for count, file in files if file.startswith(folder)) // {TURNS})
asyncio.run(main())
"""
FIELDS = """
import gc, threading
class Point:
    def __init__(self):
        self.left, self.right = 1, 2
    def move(self, steps):
        self.left += steps
def work():
    point = Point()
    known = [point]
    point.move(1)
    print(any(type(one) is dict for one in gc.get_referents(point)))
thread = threading.Thread(target=work)
thread.start()
thread.join()
"""
CHANGED_IN_PLACE = """
import threading
class Shop:
    pass
shop, table, row, lock = Shop(), {}, [0], threading.Lock()
of_shop, of_table, of_row = [], [], []
def add():
    with lock:
        shop.left = table["left"] = row[0] = 1
    for value in 1, 1, [1]:
        threading.Event().set()  # Another stretch begins.
        with lock:
            if type(value) is list:
                shop.left, table["left"], row[0] = of_shop, of_table, of_row
            shop.left += value
            table["left"] += value
            row[0] += value
def look():
    LOOK
threads = [threading.Thread(target=one) for one in (add, look)]
for thread in threads: thread.start()
for thread in threads: thread.join()
"""


class Calls(ProgramCase):
    """The numbers are those of functions that stand for some of the library, for each turn. A profiler sees no others."""

    def calls_of(self, text: str) -> int:
        ran = run_traced("--quiet", self.program(text))
        self.assertEqual(ran.returncode, Verdict.NO_RACE, ran.stderr)
        return int(ran.stdout)

    @unittest.skipIf(quick is None, NO_HELPER)
    def test_an_item_is_put_and_got_by_few(self) -> None:
        for kind in ("Queue", "PriorityQueue"):
            with self.subTest(kind):
                self.assertLess(self.calls_of(QUEUE.replace("KIND", kind)), 10)

    @unittest.skipIf(quick is None, NO_HELPER)
    def test_a_turn_of_a_loop_takes_few(self) -> None:
        self.assertLess(self.calls_of(LOOP), 4)

    @unittest.skipIf(quick is None, NO_HELPER)
    def test_a_lock_of_asyncio_that_another_task_acquires_is_noted_by_few(self) -> None:
        """All of the package count, and the tasks that are begun and awaited."""
        program = HAND_OVERS.replace("BEGIN", "profile.enable()").replace("END", "profile.disable()")
        self.assertLess(self.calls_of(program), 28)

    def test_a_hand_over_of_a_lock_is_reported_by_few(self) -> None:
        program = HAND_OVERS.replace("BEGIN", "Tracer._report_some = report_some").replace("END", "")
        self.assertLess(self.calls_of(program), 60)

    @unittest.skipIf(quick is None, NO_HELPER)
    def test_an_object_whose_field_is_changed_in_place_gets_no_dictionary(self) -> None:
        self.assertEqual(run_traced("--quiet", self.program(FIELDS)).stdout, "False\n")


class InPlace(ProgramCase):
    """A place has had a number, and has a list by then: an assignment as `+=` changes the list itself."""

    def raced(self, look: str, pure: str) -> set[str]:
        ran = run_traced(self.program(CHANGED_IN_PLACE.replace("LOOK", look)), ITC_TRACE_PURE=pure)
        return set(re.findall(r"^itc_trace: race on (\w+)", ran.stderr, re.MULTILINE))

    def test_who_looks_at_the_list_without_the_lock_races(self) -> None:
        for pure in ("", "1"):
            with self.subTest(hooks="Python" if pure else "C"):
                raced = self.raced("len(of_shop), len(of_table), len(of_row)", pure)
                self.assertEqual(raced, {"of_shop", "of_table", "of_row"})

    def test_who_looks_at_it_with_the_lock_does_not(self) -> None:
        for pure in ("", "1"):
            with self.subTest(hooks="Python" if pure else "C"):
                raced = self.raced("with lock: len(of_shop), len(of_table), len(of_row)", pure)
                self.assertEqual(raced, set())


WALKED = """
from itc_trace.sync import locks
locks.walk_always()
from itc_trace.watch import hooks
print("imported")
"""


class Left(unittest.TestCase):
    def test_queues_and_loops_are_left_to_python_if_locks_are(self) -> None:
        ran = run_python("-c", WALKED)
        self.assertEqual((ran.returncode, ran.stdout), (0, "imported\n"), ran.stderr)


if __name__ == "__main__":
    unittest.main()
