"""What a task touches between two synchronizations is one event, and the journal tells each touch once."""

from __future__ import annotations

import _thread
import asyncio
import gc
import json
import sys
import tempfile
import threading
import time
import unittest
from collections import Counter
from pathlib import Path
from typing import Any

from itc_trace import touch, tracing
from itc_trace.model.conflicts import MAKING, READ, WRITE
from itc_trace.record.journal import Row, read_whole
from itc_trace.record.noting import touched
from itc_trace.model.lines import Line, Stretch, state
from itc_trace.model.stretches import SITES, STRETCHES, Site
from itc_trace.watch import late
from itc_trace.watch.seen import Seen

from .support import ProgramCase, Step, TracedCase, fresh_tenant, in_turn, run_traced, wait_until

TURNS = 5000
_start_untraced = (_thread.start_new_thread,)  # It is kept before any test has it traced.


class Thing:
    """As the hooks of watched modules have them."""

    made, is_gone = "", False

    def __init__(self, number: int, name: str) -> None:
        self.number, self.name, self.group = number, name, name


def touch_thing(thing: Thing, kind: str, function: str = "work") -> None:
    SITES.append(Site("a.py", len(SITES) + 1, function))
    touched((thing.number, kind, len(SITES)), thing, kind, len(SITES) - 1)


class Events(TracedCase):
    def touches(self, thing: str = "x") -> list[Row]:
        return [row for row in self.rows if row.thing == thing]

    def events(self) -> int:
        return len({row.event for row in self.rows})

    def test_a_loop_of_touches_is_one_event(self) -> None:
        def scenario() -> None:
            for _ in range(TURNS):
                touch("x")
                touch("x", write=True)

        self.races(scenario)
        self.assertEqual([(row.event, row.kind) for row in self.touches()], [(1, "read"), (1, "write")])

    def test_a_lock_and_an_update_in_two_threads_take_few_events(self) -> None:
        def scenario() -> None:
            lock = threading.Lock()
            sys.setswitchinterval(1)  # Else it depends on the machine how often they take turns.

            def work() -> None:
                for _ in range(TURNS):
                    with lock:
                        touch("x", write=True)

            threads = [threading.Thread(target=work) for _ in range(2)]
            for thread in threads:
                thread.start()
            for thread in threads:
                thread.join()

        self.addCleanup(sys.setswitchinterval, sys.getswitchinterval())
        self.assertFalse(self.races(scenario).races)
        self.assertLess(self.events(), 100)

    def test_each_touch_has_the_locks_that_are_held(self) -> None:
        def scenario() -> None:
            outer = threading.Lock()
            inner = threading.RLock()
            for _ in range(3):
                touch("x")
                with outer:
                    touch("y")
                    with inner, inner:
                        touch("z")
                    touch("y", write=True)

        self.races(scenario)
        held = [{row.held for row in self.touches(thing)} for thing in "xyz"]
        self.assertEqual([[len(locks) for locks in one] for one in held], [[0], [1], [2]])
        self.assertEqual(held[1].pop(), held[2].pop()[:1])

    def test_a_line_that_is_reached_with_and_without_a_lock_is_told_twice(self) -> None:
        def look() -> None:
            touch("x")

        def scenario() -> None:
            lock = threading.Lock()
            look()
            with lock:
                look()

        self.races(scenario)
        self.assertEqual(sorted(len(row.held) for row in self.touches()), [0, 1])

    def test_touches_around_a_release_are_apart_once_somebody_takes_it(self) -> None:
        taken = Step()

        def first(lock: Any) -> None:
            with lock:
                touch("x", write=True)
            taken.done()
            touch("y", write=True)

        def second(lock: Any) -> None:
            taken.wait()
            with lock:
                touch("x")
            touch("y")

        def scenario() -> None:
            lock = threading.Lock()
            threads = [threading.Thread(target=one, args=(lock,)) for one in (first, second)]
            for thread in threads:
                thread.start()
            for thread in threads:
                thread.join()

        found = self.races(scenario)
        self.assertEqual({race.thing for race in found}, {"y"}, found.text())

    def test_a_lock_in_a_task_makes_it_no_child_of_whoever_took_it_later(self) -> None:
        async def first(lock: asyncio.Lock) -> None:
            async with lock:
                touch("y")
                await asyncio.sleep(0)
            await asyncio.sleep(0.01)
            touch("x", write=True)

        async def second(lock: asyncio.Lock) -> None:
            await asyncio.sleep(0)
            async with lock:
                pass
            await asyncio.sleep(0.1)
            gc.collect()
            touch("x", write=True)

        async def main() -> None:
            lock = asyncio.Lock()
            asyncio.get_running_loop().create_task(first(lock))
            await asyncio.get_running_loop().create_task(second(lock))

        found = self.races(lambda: asyncio.run(main()))
        self.assertEqual(len(found), 1, found.text())

    def test_touches_of_tasks_have_their_loop_and_turn(self) -> None:
        async def work() -> None:
            touch("x")
            touch("x", write=True)
            await asyncio.sleep(0)
            touch("x")

        async def main() -> None:
            await asyncio.gather(work(), work())

        self.races(lambda: asyncio.run(main()))
        touches = self.touches()
        self.assertEqual(len({row.loop for row in touches}), 1)
        turns = [[row.turn for row in touches if row.task == task] for task in ("work_1", "work_2")]
        self.assertEqual([[turn - mine[0] > 0 for turn in mine] for mine in turns], [[False, False, True]] * 2)
        self.assertEqual(len({*turns[0], *turns[1]}), 4)

    def test_an_event_within_a_stretch_does_not_hide_what_follows(self) -> None:
        """A thread that nobody saw start makes an event of the main task, which is in the middle of a stretch."""
        begun, go_on = Step(), Step()

        def stranger() -> None:
            touch("y")
            begun.done()
            go_on.wait()
            touch("x")
            begun.done()

        def scenario() -> None:
            touch("z")
            time.sleep(0.3)  # The thread that reports rests by now, so that it sees the rest at once.
            _start_untraced[0](stranger, ())
            begun.wait()
            touch("x", write=True)
            go_on.done()
            begun.wait()

        found = self.races(scenario)
        self.assertEqual({race.thing for race in found}, {"x"}, found.text())

    def test_a_thread_with_the_identity_of_another_has_a_stretch_of_its_own(self) -> None:
        done = Step()

        def stranger() -> None:
            touch("x", write=True)
            done.done()

        def scenario() -> None:
            for _ in range(2):
                _start_untraced[0](stranger, ())
                done.wait()
                time.sleep(0.05)

        found = self.races(scenario)
        self.assertEqual(len({row.task for row in self.touches()}), 2)
        self.assertEqual(len(found), 1, found.text())

    def test_nothing_is_kept_of_an_earlier_tracing(self) -> None:
        steps = [Step() for _ in range(4)]

        def stay() -> None:
            for number in (0, 2):
                steps[number].wait()
                touch("x")
                steps[number + 1].done()

        _start_untraced[0](stay, ())
        for number in (0, 2):
            self.races(lambda: (steps[number].done(), steps[number + 1].wait()))
            self.assertEqual(len(self.touches()), 1)
        self.races(lambda: None)
        self.assertEqual(STRETCHES, {})

    def test_an_open_stretch_is_in_the_journal_soon(self) -> None:
        port, tenant = fresh_tenant()
        with tempfile.NamedTemporaryFile("r", suffix=".journal") as journal:
            with tracing(port=port, tenant=tenant, journal=journal.name):
                touch("x", write=True)
                wait_until(lambda: '"x"' in Path(journal.name).read_text())
                journal.seek(0)
                self.assertEqual([row.thing for row in read_whole(journal).rows], ["x"])


ONE_PLACE = """import threading
class First: count = 0
class Second: count = other = 0
class Third: count = 0
table = {"a": 0, "b": 0, "c": 0}
lock = threading.Lock()
def put(box):
    box.count = 1
def keep(key):
    table[key] = 1
def use():
    Second.other = 1
    put(First)
    put(First)
    put(Second)
    for _ in range(2):
        with lock:
            put(Third)
            put(Third)
    put(Third)
    for key in ("a", "a", "b"):
        keep(key)
    with lock:
        keep("c")
        keep("c")
    keep("c")
threads = [threading.Thread(target=use) for _ in range(2)]
for thread in threads: thread.start()
for thread in threads: thread.join()
"""
"""Each place touches one thing twice, which is told once, and then another one, or the same with another lock held."""


class OnePlace(ProgramCase):
    def test_a_place_that_touched_one_thing_twice_tells_of_the_next_one_too(self) -> None:
        for pure in ("", "1"):
            with self.subTest(hooks="Python" if pure else "C"), tempfile.NamedTemporaryFile("r") as journal:
                run_traced("--journal", journal.name, self.program(ONE_PLACE), ITC_TRACE_PURE=pure)
                rows = [row for line in journal if (row := json.loads(line)).get("function") in ("put", "keep")]
                names = {row["thing"]: row["name"] for row in rows if "name" in row}
                told = Counter((names[row["thing"]], len(row.get("held", ()))) for row in rows if row["kind"] == "write")
                self.assertEqual(told, dict.fromkeys([
                    ("First.count", 0), ("Second.count", 0), ("Third.count", 1), ("Third.count", 0), ("table['a']", 0),
                    ("table['b']", 0), ("table['c']", 1), ("table['c']", 0),
                ], 2))


class Private(TracedCase):
    """Things of watched modules: what one task alone touches is not listed."""

    def listed(self, *steps: Any) -> list[str]:
        self.races(lambda: in_turn(*steps))
        return [f"{row.kind} {row.name}" for row in self.rows if row.is_touch]

    def test_what_one_task_touches_is_not_listed(self) -> None:
        one, other = Thing(1, "Shop.one"), Thing(2, "Shop.other")
        self.assertEqual(self.listed(lambda: touch_thing(one, WRITE), lambda: touch_thing(other, WRITE)), [])

    def test_what_nobody_changes_is_not_listed(self) -> None:
        one = Thing(1, "Shop.one")
        self.assertEqual(self.listed(lambda: touch_thing(one, READ), lambda: touch_thing(one, READ)), [])

    def test_to_make_it_is_no_change(self) -> None:
        one = Thing(1, "Shop.one")
        self.assertEqual(self.listed(lambda: touch_thing(one, MAKING), lambda: touch_thing(one, READ)), [])

    def test_what_a_constructor_writes_is_a_change(self) -> None:
        one = Thing(1, "Shop.one")
        steps = lambda: touch_thing(one, WRITE, "Shop.__init__"), lambda: touch_thing(one, READ)
        self.assertEqual(self.listed(*steps), ["write Shop.one", "read Shop.one"])

    def test_what_two_tasks_touch_and_one_changes_is_listed_whole(self) -> None:
        one = Thing(1, "Shop.one")
        steps = (lambda: touch_thing(one, WRITE, "Shop.__init__"), lambda: touch_thing(one, READ), lambda: touch_thing(one, WRITE),
                 lambda: touch_thing(one, READ))
        self.assertEqual(self.listed(*steps), ["write Shop.one", "read Shop.one", "write Shop.one", "read Shop.one"])

    def test_an_event_of_which_nothing_is_listed_is_told(self) -> None:
        one = Thing(1, "Shop.one")
        self.listed(lambda: touch_thing(one, WRITE), lambda: None)  # `races` looks whether each event has a row.
        self.assertIn("local", {row.kind for row in self.rows})

    def test_what_is_gone_is_forgotten_and_races_no_more(self) -> None:
        kept = Thing(0, "Shop.kept")

        def first() -> None:
            touch_thing(kept, WRITE)
            for number in range(1, 30000):
                thing = Thing(number, "Shop.short")
                touched((number, WRITE), thing, WRITE, 0)
                thing.is_gone = True
            time.sleep(0.2)

        self.assertEqual(self.listed(first, lambda: touch_thing(kept, WRITE)), ["write Shop.kept", "write Shop.kept"])


class SharedMeanwhile:
    """An owner that a task goes on to touch as another one shares it: what is known of a stretch gives way to the next."""

    is_sharing = False

    def __init__(self, *stretches: Stretch) -> None:
        self._stretches = iter(stretches)
        self.history: list[Any] = []
        self.touch()

    def touch(self) -> None:
        self.history.clear()
        seen = Seen(next(self._stretches))
        seen[f"touch of {seen.stretch.thread}"] = late.NOTHING
        self.history.append(seen)

    @property
    def is_shared(self) -> bool:
        return False

    @is_shared.setter
    def is_shared(self, is_shared: bool) -> None:
        self.touch()


class Sharing(unittest.TestCase):
    def test_what_is_seen_in_the_place_of_something_older_is_listed(self) -> None:
        noted: list[Any] = []
        before, state.note = state.note, noted.append
        try:
            late.share(SharedMeanwhile(*(Stretch(Line(None, "one"), 0, 0, number) for number in range(2))))  # type: ignore
        finally:
            state.note = before
        (_, listed), = noted
        self.assertEqual([stretch.thread for stretch, _ in listed], [0, 1])


if __name__ == "__main__":
    unittest.main()
