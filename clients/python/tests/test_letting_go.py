"""Objects of a watched program go when they go untraced, with both kinds of hooks."""

from __future__ import annotations

import gc
import os
import tempfile
import threading
import unittest
from pathlib import Path
from unittest import mock

from itc_trace.watch import holding
from itc_trace.watch.holding import FIRST_LOOKED_AT, LAST_LOOKED_AT, Held

from .same import FORMS
from .support import run_python, run_traced

PROGRAM = str(Path(__file__).with_name("letting_go.py"))
CASES = 54
MODULE = """
import collections, threading

class Fields:
    def __init__(self, name): self.name, self.count = name, 0
    def __del__(self): print("gone", self.name, flush=True)
class Slots:
    __slots__ = ("name", "count")
    __init__, __del__ = Fields.__init__, Fields.__del__
class Row(list):
    def __del__(self): print("gone row", len(self), flush=True)
class Table(dict):
    __slots__ = ()
    def __del__(self): print("gone table", len(self), flush=True)

fields, slots, row, table = Fields("fields"), Slots("slots"), Row([1]), Table(a=1)
queue, groups, nested = collections.deque([Fields("in a deque")]), collections.defaultdict(list), [[Fields("in a nested list")]]
groups["a"].append(Slots("in a group"))
steps, made = iter([Fields("of an iterator")]), (Fields("of a generator") for _ in range(2))
local, lock, event = threading.local(), threading.Lock(), threading.Event()
local.one, event.one = Fields("of a thread"), Fields("of an event")
def function(): pass
function.one = Fields("of a function")
class Holder:
    one = Fields("of a class")
untouched = Fields("untouched")

def work():
    with lock:
        fields.count += 1
        slots.count += 1
        row.append(2)
        table[str(len(table))] = 3
        queue.append(1)
        groups["b"].append(3)
        nested[0].append(3)
        function.one.count += 1
        Holder.one.count += 1

def run():
    threads = [threading.Thread(target=work) for _ in range(2)]
    for one in threads: one.start()
    for one in threads: one.join()
    next(steps), next(made)
run()
"""
"""Objects that only a module's variables hold, so that they go at the end of the process."""
OF_MODULE = 14


class LettingGo(unittest.TestCase):
    def test_objects_go_when_they_go_untraced(self) -> None:
        plain = run_python(PROGRAM).stdout.splitlines()
        self.assertGreaterEqual(len(plain), 3 * CASES)
        for form, pure in FORMS.items():
            with self.subTest(hooks=form):
                self.assertEqual(run_traced(PROGRAM, ITC_TRACE_PURE=pure).stdout.splitlines(), plain)

    def test_objects_that_only_modules_hold_go_at_the_end(self) -> None:
        with tempfile.TemporaryDirectory() as folder:
            program = os.path.join(folder, "program.py")
            Path(folder, "part.py").write_text(MODULE)
            Path(program).write_text("import part\n" + MODULE + "part.run()\n")
            plain = sorted(run_python(program).stdout.splitlines())
            self.assertEqual(len(plain), 2 * OF_MODULE, plain)
            for form, pure in FORMS.items():
                with self.subTest(hooks=form):
                    self.assertEqual(sorted(run_traced(program, ITC_TRACE_PURE=pure).stdout.splitlines()), plain)

    def test_an_object_goes_beside_the_collection_of_another_thread(self) -> None:
        left: list[int] = []
        held = Held(lambda key, is_gone: left.append(key))
        one, looks, may_end = [1], threading.Event(), threading.Event()
        key = id(one)
        held.hold(key, one)
        objects = [[[one]]]

        def all_objects(generation: int) -> list[object]:
            found = objects.pop() if objects else []
            looks.set()
            may_end.wait(20)
            return found

        def end_collecting(_: float) -> None:
            may_end.set()
            collecting.join()

        collecting = threading.Thread(target=held.collecting, args=("start", FIRST_LOOKED_AT))
        with mock.patch.object(gc, "get_objects", all_objects), mock.patch.object(holding, "sleep", end_collecting):
            collecting.start()
            looks.wait(20)
            del one
            held.let_go_at_once(8)
            self.assertEqual(left, [key])
            end_collecting(0)

    def test_what_is_held_while_another_thread_forgets_what_went_is_found(self) -> None:
        left: list[int] = []
        held, late, is_known = Held(lambda key, is_gone: left.append(key)), [[1]], Held._is_known
        gone = [[number] for number in range(LAST_LOOKED_AT)]

        def meanwhile(self: Held, number: int) -> bool:
            if late:
                one = late.pop()
                held._let_go_of_last()
                held.hold(id(one), one)
            return is_known(self, number)

        for one in gone:
            held.hold(id(one), one)
        del one
        gone.clear()
        with mock.patch.object(Held, "_is_known", meanwhile):
            held.let_go_at_once(0)
        self.assertEqual(len(left), LAST_LOOKED_AT + 1)


if __name__ == "__main__":
    unittest.main()
