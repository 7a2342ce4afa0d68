"""What a manager of `multiprocessing` serves: a call of a proxy touches a thing, or orders those who call."""

from __future__ import annotations

import os
import queue
import re
import threading
import unittest
from collections.abc import Sequence

from itc_trace import Verdict
from itc_trace.record.shared_names import SharedNames
from itc_trace.sync.managed import Told
from itc_trace.sync.served_queue import By, ServedQueue

from .support import ProgramCase, chosen, run_python, run_traced

METHODS = ("fork", "forkserver", "spawn")
KINDS_OF_HOOKS = ({}, {"ITC_TRACE_PURE": "1"})
THING = re.compile(r"itc_trace: race on (.+?)(?:, an? \w+ of a Manager made at program\.py:\d+(?:, number \d+)?)?$", re.MULTILINE)


def things(told: str) -> set[str]:
    """The things that race, without where they were made."""
    return set(THING.findall(told))


DATA = """
import multiprocessing, sys

def work(table, rows, fields, locked, number, cells, lock, own):
    for _ in range(2):
        with lock:
            table["locked"] = table["locked"] + 1
            rows[0] += 1
            fields.locked += 1
            locked.value += 1
            cells[0] += 1
    table["plain"] = table["plain"] + 1
    table[own] = own
    rows[own] = own
    rows[3] = own
    rows.append(own)
    fields.plain = own
    number.value = own
    cells[own] = own
    cells[-1] = own

method = sys.argv[1]
if __name__ == "__main__":
    context = multiprocessing.get_context(method)
    with context.Manager() as manager:
        table = manager.dict({"locked": 0, "plain": 0})
        rows = manager.list([0, 1, 2, 3])
        fields = manager.Namespace(locked=0)
        locked, number = manager.Value("i", 0), manager.Value("i", 0)
        cells = manager.Array("i", [0, 1, 2, 3])
        lock = manager.Lock()
        children = [context.Process(target=work, args=(table, rows, fields, locked, number, cells, lock, own)) for own in (1, 2)]
        for child in children:
            child.start()
        for child in children:
            child.join()
        print(table["locked"], sorted(map(str, table.keys())), rows[:3], len(rows), fields.locked, locked.value, cells[0], cells[1])
"""
IN_THREADS = """
import multiprocessing, sys, threading

def sell(table, lock):
    if sys.argv[1] == "locked":
        with lock:
            table["left"] -= 1
    else:
        table["left"] -= 1

if __name__ == "__main__":
    with multiprocessing.get_context("fork").Manager() as manager:
        table, lock = manager.dict(left=2), manager.Lock()
        threads = [threading.Thread(target=sell, args=(table, lock)) for _ in range(2)]
        for thread in threads:
            thread.start()
        for thread in threads:
            thread.join()
        table["left"]
"""
TWO_DO = """
import multiprocessing
from enum import Enum
class Color(Enum):
    RED = 1
class Odd:
    def __init__(self, n): self.n = n
    def __eq__(self, other): return type(other) is Odd and self.n == other.n
    def __hash__(self): return self.n
def one(tables, lists):
ONE
def other(tables, lists):
OTHER
if __name__ == "__main__":
    context = multiprocessing.get_context("fork")
    with context.Manager() as manager:
MAKE
        tables, lists = [TABLES], [LISTS]
        children = [context.Process(target=run, args=(tables, lists)) for run in (one, other)]
        for child in children:
            child.start()
        for child in children:
            child.join()
            assert child.exitcode == 0
"""


def program_of(pairs: Sequence[tuple[str, ...]]) -> str:
    """Two processes, of which one does all that stands first, each with a table and a list of its own, and the other what stands second."""
    calls = "    table, rows = tables[{0}], lists[{0}]\n    try:\n        {1}\n    except (AttributeError, IndexError, KeyError):\n        pass"
    table = "{'a': 1, 1: 1, Color.RED: 1, ('x', 2): 1}"
    made = [f"        table{n} = manager.dict({table})\n        rows{n} = manager.list(range(5))" for n in range(len(pairs))]
    text = TWO_DO.replace("MAKE", "\n".join(made))
    for place, word in enumerate(("ONE", "OTHER")):
        text = text.replace(f"\n{word}\n", "\n" + "\n".join(calls.format(n, pair[place]) for n, pair in enumerate(pairs)) + "\n")
    for word, name in (("TABLES", "table"), ("LISTS", "rows")):
        text = text.replace(f"[{word}]", f"[{', '.join(f'{name}{n}' for n in range(len(pairs)))}]")
    return text


RACES = (
    ("table['a'] = 2", "table['a']", "table['a']"),
    ("table['a'] = 2", "table.get('a')", "table['a']"),
    ("table['a'] = 2", "'a' in table", "table['a']"),
    ("table['new'] = 2", "len(table)", "table"),
    ("table['new'] = 2", "list(table)", "table"),
    ("table['a'] = 2", "table.items()", "table"),
    ("table['a'] = 2", "table.copy()", "table"),
    ("table['a'] = 2", "str(table)", "table"),
    ("del table['a']", "table.get('a')", "table['a']"),
    ("table.pop('a')", "table['a'] = 3", "table['a']"),
    ("table.clear()", "table.get('a')", "table"),
    ("table.update(a=3)", "table['a'] = 1", "table"),
    ("table.popitem()", "table.get('a')", "table"),
    ("table[True] = 2", "table[1.0]", "table[1]"),
    ("table[Color.RED] = 2", "table[Color.RED]", "table[Color.RED]"),
    ("table['x', 2] = 2", "table['x', 2.0]", "table[('x', 2)]"),
    ("table.setdefault('new', 1)", "table['new'] = 2", "table['new']"),
    ("rows[-1] = 2", "rows[4]", "rows[4]"),
    ("rows.append(9)", "len(rows)", "rows"),
    ("rows.append(9)", "rows[-1]", "rows"),
    ("rows.append(9)", "[one for one in rows]", "rows"),
    ("rows[0] = 9", "rows[1:3]", "rows"),
    ("rows[0:2] = [1, 2]", "rows[4]", "rows"),
    ("rows.sort()", "rows[0]", "rows"),
    ("rows.pop()", "rows[0]", "rows"),
    ("rows.insert(0, 1)", "rows[0]", "rows"),
    ("del rows[0]", "rows[4]", "rows"),
    ("rows += [1]", "3 in rows", "rows"),
    ("rows.reverse()", "rows.index(3)", "rows"),
)
NO_RACES = (
    ("table['new'] = 2", "table.get('a')"),
    ("table['new'] = 2", "table['newer'] = 1"),
    ("table['a'] = 2", "table.keys()"),
    ("table['a'] = 2", "len(table)"),
    ("table.pop('none', 0)", "len(table)"),
    ("table.setdefault('a', 3)", "table.setdefault('a', 4)"),
    ("table.setdefault('new', 3)", "table.setdefault('new', 4)"),
    ("table['a']", "table.copy()"),
    ("rows[-1] = 2", "rows[0]"),
    ("rows[0] = 2", "rows[1] = 2"),
    ("rows.append(2)", "rows.append(3)"),
    ("rows.append(2)", "rows[0]"),
    ("rows[1:3]", "list(rows)"),
)


@unittest.skipUnless(hasattr(os, "fork"), "there is no fork here")
class Data(ProgramCase):
    def test_two_requests_are_in_no_order_and_a_lock_of_the_manager_orders(self) -> None:
        for method in METHODS:
            for variables in KINDS_OF_HOOKS if method == "fork" else KINDS_OF_HOOKS[:1]:
                with self.subTest(method=method, variables=variables):
                    program = self.program(DATA)
                    ran, plain = run_traced(program, method, **variables), run_python(program, method)
                    self.assertEqual((ran.returncode, ran.stdout), (Verdict.RACES, plain.stdout), ran.stderr)
                    self.assertEqual(
                        things(ran.stderr), {"table['plain']", "rows[3]", "fields.plain", "number", "cells[3]"}, ran.stderr)
                    self.assertNotIn("incomplete", ran.stderr)
                    self.assertNotIn("not looked into", ran.stderr)
                    self.assertRegex(
                        ran.stderr, r"race on table\['plain'\], a dict of a Manager made at program\.py:26\n"
                        r" +(write|read ) at .*program\.py:12 in work: .*\n +(write|read ) at .*program\.py:12 in work")

    def test_threads_of_one_process_are_told_apart_too(self) -> None:
        for variables in KINDS_OF_HOOKS:
            with self.subTest(variables=variables):
                ran = run_traced(self.program(IN_THREADS), "locked", **variables)
                self.assertEqual(ran.returncode, Verdict.NO_RACE, ran.stderr)
                ran = run_traced(self.program(IN_THREADS), "plain", **variables)
                self.assertEqual(ran.returncode, Verdict.RACES, ran.stderr)
                self.assertEqual(things(ran.stderr), {"table['left']"}, ran.stderr)

    def test_methods_that_conflict_race(self) -> None:
        for variables in KINDS_OF_HOOKS:
            ran = run_traced(self.program(program_of(RACES)), **variables)
            self.assertEqual(ran.returncode, Verdict.RACES, ran.stderr)
            found = things(ran.stderr)
            for number, (one, other, thing) in enumerate(RACES):
                with self.subTest(one=one, other=other, variables=variables):
                    self.assertIn(re.sub(r"^(table|rows)", rf"\g<1>{number}", thing), found, ran.stderr)
            self.assertNotIn("incomplete", ran.stderr)

    def test_methods_that_do_not_conflict_do_not_race(self) -> None:
        ran = run_traced(self.program(program_of(NO_RACES)))
        self.assertEqual((ran.returncode, things(ran.stderr)), (Verdict.NO_RACE, set()), ran.stderr)
        self.assertNotIn("not looked into", ran.stderr)

    def test_a_key_that_only_code_of_the_program_compares_is_named_and_so_is_that_code(self) -> None:
        ran = run_traced(self.program(program_of([("table[Odd(1)] = 2", "table[Odd(1)] = 3")])))
        self.assertEqual(ran.returncode, Verdict.INCOMPLETE, ran.stderr)
        self.assertIn("not looked into: keys of type Odd at program.py:", ran.stderr)
        self.assertIn("a child process was not traced, and touched Odd.n at ", ran.stderr)


ORDERS = """
import multiprocessing, os, sys, tempfile, time
import itc_trace

def hit(*names):
    for name in names:
        itc_trace.touch(name, write=True, across=True)

def work(given, bounded, room, items, barrier, two, event, condition, ready, rlock, done, marker):
    hit("given right"); given.release(); hit("given wrong")
    hit("bounded right")
    with bounded:
        hit("bounded in")
    open(marker, "w").close()
    hit("bounded wrong")
    hit("room right"); room.get(); hit("room wrong")
    items.get(); hit("done right"); items.task_done(); hit("done wrong")
    for _ in range(20):
        barrier.wait()
    hit("barrier right"); barrier.wait(); hit("barrier wrong")
    with two:
        hit("apart")
    barrier.wait()
    hit("event right"); event.set(); hit("event wrong")
    hit("item right"); done.put(["item", 1]); hit("item wrong")
    with condition:
        while not ready.value:
            condition.wait()
    hit("told right", "told wrong")
    with rlock:
        with rlock:
            hit("inner")
        hit("outer")
    open(marker + "s", "w").close()

method = sys.argv[1]
if __name__ == "__main__":
    context = multiprocessing.get_context(method)
    with context.Manager() as manager, tempfile.TemporaryDirectory() as folder:
        given, bounded, room, items, barrier, two = (
            manager.Semaphore(0), manager.BoundedSemaphore(1), manager.Queue(1), manager.JoinableQueue(), manager.Barrier(2), manager.Semaphore(2),
        )
        event, condition, ready, rlock, done = manager.Event(), manager.Condition(), manager.Value("i", 0), manager.RLock(), manager.Queue()
        room.put(0)
        marker = os.path.join(folder, "marker")
        child = context.Process(
            target=work, args=(given, bounded, room, items, barrier, two, event, condition, ready, rlock, done, marker))
        child.start()
        given.acquire(); hit("given right", "given wrong")
        while not os.path.exists(marker):
            time.sleep(0.01)
        with bounded:
            hit("bounded in", "bounded right")
        hit("bounded wrong")
        room.put(1); hit("room right", "room wrong")
        items.put(1); items.join(); hit("done right", "done wrong")
        for _ in range(20):
            barrier.wait()
        barrier.wait(); hit("barrier right", "barrier wrong")
        with two:
            hit("apart")
        barrier.wait()
        event.wait(); hit("event right", "event wrong")
        assert done.get() == ["item", 1]; hit("item right", "item wrong")
        hit("told right")
        with condition:
            ready.value = 1
            condition.notify_all()
        hit("told wrong")
        while not os.path.exists(marker + "s"):
            time.sleep(0.01)
        with rlock:
            hit("inner", "outer")
        child.join()
        hit("given right", "room right", "done right", "barrier right", "event right", "item right", "apart", "outer")
"""
IN_ONE_PROCESS = ORDERS.replace("context.Process(", "__import__('threading').Thread(")
POLLS = """
import multiprocessing, sys, time
import itc_trace

def work(event, again):
    while not event.is_set():
        time.sleep(0.01)
    itc_trace.touch("seen", write=True, across=True)
    itc_trace.touch("again", write=True, across=True)
    again.set()

method = sys.argv[1]
if __name__ == "__main__":
    context = multiprocessing.get_context(method)
    with context.Manager() as manager:
        event, again = manager.Event(), manager.Event()
        again.set()
        child = context.Process(target=work, args=(event, again))
        child.start()
        itc_trace.touch("seen", write=True, across=True)
        event.set()
        while child._popen.poll() is None:
            time.sleep(0.01)
        assert again.wait()
        itc_trace.touch("again", write=True, across=True)
        child.join()
"""
NOT_HELD = """
import multiprocessing, sys

def add(table, lock):
    with lock:
        pass
    table["left"] += 1

if __name__ == "__main__":
    with multiprocessing.get_context("fork").Manager() as manager:
        table, lock = manager.dict(left=0), manager.Lock()
        child = multiprocessing.get_context("fork").Process(target=add, args=(table, lock))
        child.start()
        add(table, lock)
        child.join()
"""


@unittest.skipUnless(hasattr(os, "fork"), "there is no fork here")
class Orders(ProgramCase):
    WRONG = {f"{name} wrong" for name in ("given", "bounded", "room", "done", "barrier", "event", "item", "told")} | {"apart"}

    def test_what_orders_threads_in_one_process_orders_processes_by_a_manager(self) -> None:
        for method in METHODS:
            with self.subTest(method=method):
                ran = run_traced(self.program(ORDERS), method)
                self.assertEqual(things(ran.stderr), self.WRONG, ran.stderr)
                self.assertNotIn("incomplete", ran.stderr)

    def test_it_orders_the_threads_of_one_process_too(self) -> None:
        ran = run_traced(self.program(IN_ONE_PROCESS), "fork")
        self.assertEqual(things(ran.stderr), self.WRONG, ran.stderr)
        self.assertNotIn("incomplete", ran.stderr)

    def test_a_look_at_an_event_that_is_set_is_an_order_and_a_call_that_finds_it_set_is_none(self) -> None:
        for method in chosen(METHODS):
            with self.subTest(method=method):
                ran = run_traced(self.program(POLLS), method)
                self.assertEqual(things(ran.stderr), {"again"}, ran.stderr)

    def test_a_lock_that_is_not_held_is_no_order(self) -> None:
        ran = run_traced(self.program(NOT_HELD))
        self.assertEqual((ran.returncode, things(ran.stderr)), (Verdict.RACES, {"table['left']"}), ran.stderr)


REUSED = """
import multiprocessing

def work(manager):
    for turn in range(30):
        rows = manager.list([turn])
        rows[0] = turn
        assert rows[0] == turn
        del rows

if __name__ == "__main__":
    context = multiprocessing.get_context("fork")
    with context.Manager() as manager:
        children = [context.Process(target=work, args=(manager,)) for _ in range(2)]
        for child in children:
            child.start()
        for child in children:
            child.join()
            assert child.exitcode == 0
"""
NESTED = """
import multiprocessing, sys

def work(table, own):
    rows = table["rows"]
    rows.append(own)
    table["rows"][0] = own
    table["own"][own] = own

method = sys.argv[1]
if __name__ == "__main__":
    context = multiprocessing.get_context(method)
    with context.Manager() as manager:
        rows, own = manager.list([0]), manager.dict()
        table = manager.dict(rows=rows, own=own)
        children = [context.Process(target=work, args=(table, number)) for number in (1, 2)]
        for child in children:
            child.start()
        for child in children:
            child.join()
        print(len(table["rows"]), sorted(own.keys()))
"""
SAME = """
import multiprocessing, queue, threading
from multiprocessing.managers import SyncManager

def tries(*calls):
    for call in calls:
        try:
            print(call())
        except BaseException as error:
            print(type(error).__name__, str(error)[:60], type(error.__cause__).__name__)

def main():
    with multiprocessing.get_context("METHOD").Manager() as manager:
        table, rows, fields = manager.dict(a=1), manager.list([3, 1, 2]), manager.Namespace(x=1)
        tries(lambda: table["none"], lambda: table[[1]], lambda: table.pop("none"), lambda: table.pop("none", 3), lambda: table.get("a"),
              lambda: table.setdefault("b", 2), lambda: table.popitem(), lambda: sorted(table), lambda: len(table), lambda: "a" in table,
              lambda: table.update(c=4), lambda: table.items(), lambda: str(table), lambda: table.copy(), lambda: table.has(3))
        tries(lambda: rows[9], lambda: rows[-1], lambda: rows[0:2], lambda: rows.sort(), lambda: str(rows), lambda: [one for one in rows],
              lambda: rows.pop(9), lambda: rows.remove(77), lambda: rows + [1], lambda: rows * 2, lambda: rows.index(2), lambda: rows.extend([5]),
              lambda: len(rows), lambda: rows.__imul__(2) is rows, lambda: rows.count(1), lambda: rows.insert(0, 8))
        tries(lambda: fields.x, lambda: fields.y, lambda: str(fields), lambda: setattr(fields, "y", 2), lambda: delattr(fields, "x"), lambda: str(fields))
        cells, number = manager.Array("i", [1, 2]), manager.Value("i", 7)
        tries(lambda: cells[5], lambda: cells[-1], lambda: cells[:], lambda: len(cells), lambda: number.value, lambda: str(number), lambda: number.get())
        one, few = manager.Queue(), manager.Queue(1)
        tries(lambda: one.get(False), lambda: one.get_nowait(), lambda: few.put(1), lambda: few.put(2, False), lambda: few.put_nowait(3), lambda: few.full(),
              lambda: few.get(), lambda: few.get(timeout=0.01), lambda: few.put(1, timeout=-1), lambda: few.empty(), lambda: one.put(lambda: 0),
              lambda: one.put(None), lambda: one.qsize(), lambda: one.get(), lambda: one.task_done(), lambda: one.task_done(), lambda: one.join(),
              lambda: str(one)[:20], lambda: one.put(), lambda: one.none())
        lock, rlock, condition, event = manager.Lock(), manager.RLock(), manager.Condition(), manager.Event()
        tries(lambda: lock.acquire(), lambda: lock.acquire(False), lambda: lock.acquire(True, 0.01), lambda: lock.release(), lambda: lock.release(),
              lambda: str(lock)[:22], lambda: rlock.acquire(), lambda: rlock.acquire(), lambda: rlock.release(), lambda: rlock.release(),
              lambda: rlock.release(), lambda: condition.wait(0.01), lambda: condition.notify(), lambda: condition.acquire(), lambda: condition.wait(0.01),
              lambda: condition.wait_for(lambda: False, 0.01), lambda: condition.notify_all(), lambda: condition.release())
        tries(lambda: event.is_set(), lambda: event.wait(0.01), lambda: event.set(), lambda: event.is_set(), lambda: event.wait(), lambda: event.clear(), lambda: event.is_set())
        some, bounded, barrier = manager.Semaphore(2), manager.BoundedSemaphore(1), manager.Barrier(1)
        tries(lambda: some.acquire(), lambda: some.acquire(), lambda: some.acquire(False), lambda: some.release(), lambda: bounded.release(),
              lambda: bounded.acquire(), lambda: bounded.acquire(False), lambda: barrier.wait(), lambda: barrier.parties, lambda: barrier.n_waiting, lambda: barrier.broken)
        nested = manager.dict(rows=rows)
        tries(lambda: nested["rows"][0], lambda: type(nested["rows"]).__name__, lambda: repr(rows)[:30], lambda: type(one).__name__, lambda: manager.dict(3),
              lambda: manager.Semaphore(-1), lambda: manager.none(), lambda: manager._number_of_objects() > 5)
    tries(lambda: len(rows))

if __name__ == "__main__":
    main()
"""


@unittest.skipUnless(hasattr(os, "fork"), "there is no fork here")
class AsUntraced(ProgramCase):
    def test_proxies_do_what_they_do_untraced(self) -> None:
        for method in chosen(METHODS):
            with self.subTest(method=method):
                program = self.program(SAME.replace("METHOD", method))
                ran, plain = run_traced(program), run_python(program)
                self.assertGreater(len(plain.stdout.splitlines()), 100)
                self.assertEqual((ran.returncode, ran.stdout.splitlines()), (Verdict.NO_RACE, plain.stdout.splitlines()), ran.stderr)

    def test_what_takes_the_place_of_something_that_is_gone_is_another_thing(self) -> None:
        ran = run_traced(self.program(REUSED))
        self.assertEqual(ran.returncode, Verdict.NO_RACE, ran.stderr)

    def test_a_proxy_that_lies_in_a_table_is_the_same_thing(self) -> None:
        for method in chosen(METHODS):
            with self.subTest(method=method):
                ran = run_traced(self.program(NESTED), method)
                self.assertEqual((ran.returncode, ran.stdout), (Verdict.RACES, "3 [1, 2]\n"), ran.stderr)
                self.assertEqual(things(ran.stderr), {"rows[0]"}, ran.stderr)


SERVED = """
import multiprocessing, sys, threading
from multiprocessing.managers import BaseManager
import itc_trace

class Stock:
    def __init__(self):
        self.left, self.sold, self.lock = 100, 0, threading.Lock()
        itc_trace.touch("made", write=True, across=True)
    def sell(self):
        with self.lock:
            self.left -= 1
        if sys.argv[2] == "plain":
            self.sold += 1
        return self.left if sys.argv[2] == "plain" else 0
    def touch(self):
        itc_trace.touch("handed", write=True, across=True)
        return True

class Shops(BaseManager):
    pass

Shops.register("Stock", Stock)

def work(stock):
    for _ in range(3):
        stock.sell()

method = sys.argv[1]
if __name__ == "__main__":
    context = multiprocessing.get_context(method)
    with Shops(ctx=context) as shops:
        itc_trace.touch("made", write=True, across=True)
        stock = shops.Stock()
        itc_trace.touch("made", write=True, across=True)
        children = [context.Process(target=work, args=(stock,)) for _ in range(2)]
        for child in children:
            child.start()
        itc_trace.touch("handed", write=True, across=True)
        assert stock.touch()
        itc_trace.touch("handed", write=True, across=True)
        for child in children:
            child.join()
        assert all(child.exitcode == 0 for child in children)
"""
SERVES = """
import multiprocessing, queue, sys
from multiprocessing.managers import BaseManager, SyncManager

class Table(dict):
    pass

kept, waiting = [0], queue.Queue()
class Managers(SyncManager):
    pass
class Own:
    def double(self, number): return 2 * number
Managers.register("kept", callable=lambda: kept)
Managers.register("Table", Table)
Managers.register("waiting", callable=lambda: waiting)
Managers.register("Own", Own)

def act():
    pass
def double(number):
    return 2 * number
def work(thing):
    pass
if __name__ == "__main__":
    manager = Managers(ctx=multiprocessing.get_context("fork"))
    plain = SyncManager(ctx=multiprocessing.get_context("fork"))
    if START:
        manager.start()
        plain.start()
    thing = MAKE
    child = multiprocessing.get_context("fork").Process(target=work, args=(thing,))
    child.start()
    child.join()
    del thing
    if START:
        manager.shutdown()
        plain.shutdown()
"""
NOT_FOLLOWED = (
    "manager.kept()", "plain.get_server().address", "manager.Table()", "plain.Condition(plain.Lock())", "plain.Barrier(2, act)", "plain.Barrier(17)",
    "plain.Pool(1).apply(double, (2,))",
)
ARE_FOLLOWED = ("manager.waiting()", "manager.Own()", "plain.Queue()", "manager.dict()")
SEVERAL_TASKS = """
import multiprocessing
from multiprocessing.managers import BaseManager
class Shops(BaseManager):
    pass
class Stock:
    def look(self):
        return 1
Shops.register("Stock", Stock)
def job(stock):
    return stock.look()
if __name__ == "__main__":
    context = multiprocessing.get_context("fork")
    with Shops(ctx=context) as shops:
        stock = shops.Stock()
        with context.Pool(1) as pool:
            assert pool.map(job, [stock, stock], 1) == [1, 1]
"""


@unittest.skipUnless(hasattr(os, "fork"), "there is no fork here")
class OfPrograms(ProgramCase):
    def test_what_a_class_of_the_program_does_in_the_server_is_seen(self) -> None:
        for method in METHODS:
            for variables in KINDS_OF_HOOKS if method == "fork" else KINDS_OF_HOOKS[:1]:
                with self.subTest(method=method, variables=variables):
                    ran = run_traced(self.program(SERVED), method, "locked", **variables)
                    self.assertEqual(ran.returncode, Verdict.NO_RACE, ran.stderr)
                    ran = run_traced(self.program(SERVED), method, "plain", **variables)
                    self.assertEqual(ran.returncode, Verdict.RACES, ran.stderr)
                    self.assertIn("race on Stock.sold", ran.stderr)
                    self.assertNotIn("race on handed", ran.stderr)
                    self.assertNotIn("race on made", ran.stderr)
                    self.assertNotIn("incomplete", ran.stderr)

    def test_what_is_not_followed_is_no_all_clear(self) -> None:
        for make in NOT_FOLLOWED:
            with self.subTest(make=make):
                start = "False" if "get_server" in make else "True"
                ran = run_traced(self.program(SERVES.replace("MAKE", make).replace("START", start)))
                self.assertEqual(ran.returncode, Verdict.INCOMPLETE, ran.stderr)
                self.assertRegex(ran.stderr, "incomplete: .*(was not all seen|was not traced)")

    def test_what_is_followed_is_an_all_clear(self) -> None:
        for make in ARE_FOLLOWED:
            with self.subTest(make=make):
                ran = run_traced(self.program(SERVES.replace("MAKE", make).replace("START", "True")))
                self.assertEqual(ran.returncode, Verdict.NO_RACE, ran.stderr)

    def test_several_tasks_of_one_thread_that_ask_are_no_all_clear(self) -> None:
        ran = run_traced(self.program(SEVERAL_TASKS))
        self.assertEqual(ran.returncode, Verdict.INCOMPLETE, ran.stderr)
        self.assertRegex(ran.stderr, r"a proxy of a Manager, by several tasks of a thread, was used at \S*program\.py:11\n")


class Queues(unittest.TestCase):
    """The queue of a server, as those know it who bring messages, and others."""

    def test_whoever_brings_no_message_has_any_queue(self) -> None:
        one = ServedQueue(1)
        one.put("a")
        self.assertRaises(queue.Full, one.put_nowait, "b")
        self.assertRaises(queue.Full, one.put, "b", True, 0.01)
        self.assertEqual((one.get(), one.qsize(), one.empty()), ("a", 0, True))
        self.assertRaises(queue.Empty, one.get_nowait)
        one.task_done()
        self.assertIsNone(one.join())
        self.assertRaises(ValueError, one.task_done)
        self.assertRegex(repr(one), r"<queue\.Queue object at ")
        names = {name for name in dir(queue.Queue()) if not name.startswith("_")}
        self.assertEqual({name for name in dir(one) if not name.startswith("_")}, names)

    def test_an_item_brings_the_message_of_who_put_it_and_room_that_of_who_made_it(self) -> None:
        one = ServedQueue(2)
        self.assertEqual([one.put(item, itc_by=By("t", f"put {item}")) for item in (1, 2)], ["", ""])
        self.assertEqual(one.get(itc_by=By("u", "get 1")), (1, "put 1"))
        self.assertEqual(one.get_nowait(itc_by=By("u", "get 2")), (2, "put 2"))
        self.assertEqual(one.put_nowait(3, itc_by=By("t", "put 3")), "get 1")
        self.assertEqual(one.put(4, itc_by=By("t", "put 4")), "get 2")
        self.assertEqual((one.get(), one.get(itc_by=By("u", ""))), (3, (4, "put 4")))

    def test_a_queue_of_many_places_says_nothing_of_room(self) -> None:
        for places in (0, -1, 17):
            one = ServedQueue(places)
            for turn in range(20):
                self.assertEqual(one.put(turn, itc_by=By("t", "put")), "")
                one.get(itc_by=By("u", "get"))

    def test_whoever_joins_is_told_the_last_message_of_each_task(self) -> None:
        one = ServedQueue()
        for _ in range(3):
            one.put(1)
        for task, message in (("t", "1"), ("u", "2"), ("t", "3")):
            one.task_done(itc_by=By(task, message))
        self.assertEqual(sorted(one.join(itc_by=By("v", ""))), ["2", "3"])

    def test_whoever_joins_waits(self) -> None:
        one = ServedQueue()
        one.put(1)
        joined: list[object] = []
        thread = threading.Thread(target=lambda: joined.append(one.join(itc_by=By("v", ""))))
        thread.start()
        one.task_done(itc_by=By("t", "done"))
        thread.join()
        self.assertEqual(joined, [["done"]])


class Names(unittest.TestCase):
    def test_what_is_told_is_read(self) -> None:
        for told in (Told("dict", "stock", "shop.py:7", 1, 0), Told("Barrier", "", "shop.py:7 by c1", 12, 3)):
            self.assertEqual(Told.read(told.text()), told)
        for text in ("", "out_1", "none|a|b|1|0", "dict|a"):
            self.assertIsNone(Told.read(text))

    def test_each_is_called_by_its_variable_or_by_where_it_was_made(self) -> None:
        one = Told("dict", "stock", "shop.py:7", 1, 0)
        self.assertEqual(one.name("['left']"), "stock['left'], a dict of a Manager made at shop.py:7")
        self.assertEqual(one._replace(variable="", number=2).name("['left']"), "a dict of a Manager made at shop.py:7, number 2, ['left']")
        self.assertEqual(Told("Array", "", "shop.py:7", 1, 0).name(), "an Array of a Manager made at shop.py:7")

    def test_a_name_fits(self) -> None:
        names = SharedNames()
        self.addCleanup(names.remove)
        slot = names.slot_of("key")
        assert slot is not None
        text = Told("BoundedSemaphore", "x" * 32, "y" * 29 + ".py:12345 by c1234567", 9999, 65536).text()
        names.put(slot, text)
        self.assertEqual(names.name_at(slot), text)
        self.assertEqual(names.name_at(names.slot_of("other") or 0), "")


if __name__ == "__main__":
    unittest.main()
