"""Greenlets of gevent are tasks of the trace, and what gevent promises puts them in order.

Each scenario of ORDERS is run twice. In the right way a greenlet touches a thing, hands over, and another one that comes after it
touches that too. In the wrong way the first one touches it behind the handing over, so the two race.
"""

from __future__ import annotations

import re
import unittest

from itc_trace import Verdict

from .support import ProgramCase, needs, python_with, run_python, run_traced

BEGIN = """
import functools, gevent, itc_trace
from gevent.event import AsyncResult, Event
from gevent.lock import BoundedSemaphore, RLock, Semaphore
from gevent.pool import Group, Pool
from gevent.queue import Channel, JoinableQueue, LifoQueue, PriorityQueue, Queue
from gevent.threadpool import ThreadPool
scenarios = []
def nothing(): pass
def scenario(function):
    scenarios.append(function)
def run_all():
    for function in scenarios:
        for way in ("right", "wrong"):
            hit = functools.partial(itc_trace.touch, f"{function.__name__} {way}", write=True)
            before, behind = (hit, nothing) if way == "right" else (nothing, hit)
            function(before, behind, hit)
def together(*functions):
    gevent.joinall([gevent.spawn(function) for function in functions])
def a_while():
    for _ in range(8): gevent.sleep(0)
"""
ORDERS = BEGIN + """
@scenario
def a_greenlet_comes_after_its_start(before, behind, after):
    before()
    made = gevent.spawn(after)
    behind()
    made.join()

@scenario
def one_that_is_started_later(before, behind, after):
    before()
    made = gevent.spawn_later(0.001, after)
    behind()
    made.join()

@scenario
def a_raw_greenlet(before, behind, after):
    done = Event()
    def run():
        after()
        done.set()
    before()
    gevent.spawn_raw(run)
    behind()
    done.wait()

@scenario
def whoever_joins(before, behind, after):
    done = Event()
    def run():
        before()
        done.set()
        later.start()
    later = gevent.Greenlet(behind)
    made = gevent.spawn(run)
    made.join()
    after()
    later.join()

@scenario
def whoever_has_the_value(before, behind, after):
    later = gevent.Greenlet(behind)
    def run():
        before()
        later.start()
        return 1
    assert gevent.spawn(run).get() == 1
    after()
    later.join()

@scenario
def whoever_sees_that_it_is_over(before, behind, after):
    later = gevent.Greenlet(behind)
    def run():
        before()
        later.start()
    made = gevent.spawn(run)
    while not made.ready(): gevent.sleep(0)
    after()
    later.join()

@scenario
def whoever_waits_for_several(before, behind, after):
    later = gevent.Greenlet(behind)
    def run(number):
        if number == 2:
            before()
            later.start()
    assert len(gevent.joinall([gevent.spawn(run, number) for number in range(4)])) == 4
    after()
    later.join()

@scenario
def whoever_takes_them_one_by_one(before, behind, after):
    later = gevent.Greenlet(behind)
    def run():
        before()
        later.start()
    made = [gevent.spawn(nothing), gevent.spawn(run), gevent.spawn(nothing)]
    with gevent.iwait(made) as found:
        for one in found:
            gevent.sleep(0.001)
            if one is made[1]: after()
    later.join()

@scenario
def a_link(before, behind, after):
    later, done = gevent.Greenlet(behind), Event()
    def run():
        before()
        later.start()
    def linked(_):
        after()
        done.set()
    gevent.spawn(run).link(linked)
    done.wait()
    later.join()

@scenario
def what_the_hub_calls_at_the_end(before, behind, after):
    later, done = gevent.Greenlet(behind), Event()
    def run():
        before()
        later.start()
    def linked(_):
        after()
        done.set()
    gevent.spawn(run).rawlink(linked)
    done.wait()
    later.join()

@scenario
def a_greenlet_that_is_killed(before, behind, after):
    def run():
        try: gevent.sleep(60)
        except gevent.GreenletExit: after()
    made = gevent.spawn(run)
    gevent.sleep(0)
    before()
    made.kill(block=False)
    behind()
    made.join()

@scenario
def an_event_that_is_waited_for(before, behind, after):
    ready = Event()
    def one():
        a_while()
        before()
        ready.set()
        behind()
    def other():
        ready.wait()
        after()
    together(one, other)

@scenario
def an_event_that_is_set_already(before, behind, after):
    ready = Event()
    def one():
        before()
        ready.set()
        behind()
    def other():
        a_while()
        assert ready.wait()
        after()
    together(one, other)

@scenario
def an_event_that_is_seen_set(before, behind, after):
    ready = Event()
    def one():
        before()
        ready.set()
        behind()
    def other():
        a_while()
        assert ready.is_set()
        after()
    together(one, other)

@scenario
def an_event_beside_another_that_is_set_in_the_same_turn(before, behind, after):
    ready, wide = Event(), Event()
    def one():
        a_while()
        before()
        ready.set()
        behind()
    def another():
        a_while()
        wide.set()
    def other():
        wide.wait()
        ready.wait()
        after()
    together(one, another, other)

@scenario
def a_result(before, behind, after):
    result = AsyncResult()
    def one():
        a_while()
        before()
        result.set(3)
        behind()
    def other():
        assert result.get() == 3
        after()
    together(one, other)

@scenario
def a_result_that_is_there(before, behind, after):
    result = AsyncResult()
    def one():
        before()
        result.set_exception(ValueError(3))
        behind()
    def other():
        a_while()
        try: result.get()
        except ValueError: after()
    together(one, other)

@scenario
def a_result_that_is_asked_for(before, behind, after):
    result = AsyncResult()
    def one():
        before()
        result.set(3)
        behind()
    def other():
        a_while()
        assert result.ready()
        after()
    together(one, other)

@scenario
def an_item_that_lies_in_a_queue(before, behind, after):
    items = Queue()
    def one():
        before()
        items.put(1)
        behind()
    def other():
        a_while()
        assert items.get() == 1
        after()
    together(one, other)

@scenario
def an_item_that_is_waited_for(before, behind, after):
    items = Queue()
    def one():
        a_while()
        items.put(0)
        before()
        items.put(1)
        behind()
    def other():
        assert [items.get(), items.get()] == [0, 1]
        after()
    together(one, other)

@scenario
def two_items_of_two_greenlets(before, behind, after):
    items, more = Queue(), Queue()
    def first():
        a_while()
        items.put(0)
    def one():
        a_while()
        before()
        items.put(1)
        behind()
    def other():
        if items.get() == 1: after()
    together(other, other, first, one)

@scenario
def an_item_whose_greenlet_waits(before, behind, after):
    items = Queue(1)
    items.put(0)
    def one():
        before()
        items.put(1)
    def later(): behind()
    def other():
        a_while()
        assert [items.get(), items.get()] == [0, 1]
        after()
    together(one, later, other)

@scenario
def room_that_was_made(before, behind, after):
    items = Queue(1)
    items.put(0)
    def one():
        a_while()
        before()
        items.get()
        behind()
    def other():
        items.put(1)
        after()
    together(one, other)

@scenario
def room_that_was_made_before(before, behind, after):
    items = Queue(2)
    items.put(0)
    items.put(0)
    def one():
        before()
        items.get()
        behind()
    def other():
        a_while()
        items.put(1)
        after()
    together(one, other)

@scenario
def the_last_item_of_a_stack(before, behind, after):
    items = LifoQueue()
    items.put(0)
    def one():
        before()
        items.put(1)
        behind()
    def other():
        a_while()
        assert items.get() == 1
        after()
    together(one, other)

@scenario
def the_least_item(before, behind, after):
    items = PriorityQueue()
    items.put(2)
    def one():
        before()
        items.put(1)
        behind()
    def other():
        a_while()
        assert items.get() == 1
        after()
    together(one, other)

@scenario
def a_queue_whose_items_are_done(before, behind, after):
    items = JoinableQueue()
    for number in range(2): items.put(number)
    later = gevent.Greenlet(behind)
    def one():
        items.get()
        before()
        items.task_done()
        later.start()
    def another():
        a_while()
        items.get()
        items.task_done()
    def other():
        items.join()
        after()
    together(one, another, other)
    later.join()

@scenario
def a_channel_whose_taker_waits(before, behind, after):
    items = Channel()
    def one():
        a_while()
        before()
        items.put(1)
        behind()
    def other():
        assert items.get() == 1
        after()
    together(one, other)

@scenario
def a_channel_whose_giver_waits(before, behind, after):
    items, later = Channel(), gevent.Greenlet(behind)
    def one():
        before()
        later.start()
        items.put(1)
    def other():
        a_while()
        assert items.get() == 1
        after()
    together(one, other)
    later.join()

@scenario
def a_channel_whose_taker_has_come(before, behind, after):
    items, later = Channel(), gevent.Greenlet(behind)
    def one():
        before()
        later.start()
        items.get()
    def other():
        a_while()
        items.put(1)
        after()
    together(one, other)
    later.join()

@scenario
def a_permit_that_is_waited_for(before, behind, after):
    permits = Semaphore(0)
    def one():
        a_while()
        before()
        permits.release()
        behind()
    def other():
        permits.acquire()
        after()
    together(one, other)

@scenario
def the_second_permit_of_one_turn(before, behind, after):
    permits = Semaphore(0)
    def first():
        a_while()
        permits.release()
    def one():
        a_while()
        before()
        permits.release()
        behind()
    def one_more():
        permits.acquire()
    def other():
        permits.acquire()
        after()
    together(one_more, other, first, one)

@scenario
def a_permit_that_is_there(before, behind, after):
    permits = Semaphore(0)
    def one():
        before()
        permits.release()
        behind()
    def other():
        a_while()
        with permits: after()
    together(one, other)

@scenario
def a_group_that_is_joined(before, behind, after):
    group, later = Group(), gevent.Greenlet(behind)
    def run(number):
        if number == 0:
            before()
            later.start()
        else:
            a_while()
    for number in range(3): group.spawn(run, number)
    group.join()
    after()
    later.join()

@scenario
def a_pool_that_is_joined(before, behind, after):
    pool, later = Pool(2), gevent.Greenlet(behind)
    def run(number):
        if number == 0:
            before()
            later.start()
        else:
            a_while()
    for number in range(4): pool.spawn(run, number)
    pool.join()
    after()
    later.join()

@scenario
def all_that_a_pool_maps(before, behind, after):
    pool, later = Pool(2), gevent.Greenlet(behind)
    def run(number):
        if number == 0:
            before()
            later.start()
        else:
            a_while()
    assert len(pool.map(run, range(4))) == 4
    after()
    later.join()

@scenario
def one_value_of_imap(before, behind, after):
    pool, later = Pool(4), gevent.Greenlet(behind)
    def run(number):
        if number == 1:
            a_while()
            before()
            later.start()
        return number
    for number in pool.imap(run, range(4)):
        if number == 1: after()
    later.join()

@scenario
def one_value_of_imap_unordered(before, behind, after):
    pool, later = Pool(4), gevent.Greenlet(behind)
    def run(number):
        if number == 1:
            a_while()
            before()
            later.start()
        return number
    for number in pool.imap_unordered(run, range(4)):
        if number == 1: after()
    later.join()

@scenario
def a_pool_that_applies(before, behind, after):
    pool, later = Pool(4), gevent.Greenlet(behind)
    def run():
        before()
        later.start()
    pool.apply(run)
    after()
    later.join()

@scenario
def a_function_in_a_thread(before, behind, after):
    pool = ThreadPool(2)
    before()
    made = pool.spawn(after)
    behind()
    made.get()

@scenario
def what_a_thread_has_done(before, behind, after):
    pool = ThreadPool(2)
    made = pool.spawn(before)
    other = gevent.spawn(behind)
    gevent.sleep(0)
    made.get()
    after()
    other.join()

@scenario
def what_threads_have_mapped(before, behind, after):
    pool = ThreadPool(2)
    other = gevent.spawn(behind)
    gevent.sleep(0)
    pool.map(lambda number: before() if number == 1 else None, range(3))
    after()
    other.join()

@scenario
def what_a_callback_of_the_loop_is_called_with(before, behind, after):
    done = Event()
    def call():
        after()
        done.set()
    before()
    gevent.get_hub().loop.run_callback(call)
    behind()
    done.wait()

@scenario
def a_waiter(before, behind, after):
    waiter = gevent.hub.Waiter()
    def one():
        a_while()
        before()
        gevent.get_hub().loop.run_callback(waiter.switch, 1)
        behind()
    def other():
        waiter.get()
        after()
    together(one, other)

@scenario
def a_switch_by_hand(before, behind, after):
    import greenlet
    def other():
        after()
        main.switch()
        after()
    main = greenlet.getcurrent()
    made, later = greenlet.greenlet(other), gevent.Greenlet(behind)
    later.start()
    before()
    made.switch()
    later.join()

run_all()
"""
NO_ORDERS = BEGIN + """
@scenario
def greenlets_of_one_hub(before, behind, after):
    def one(): before(); behind()
    def other():
        a_while()
        after()
    together(one, other)

@scenario
def an_item_for_another(before, behind, after):
    items = Queue()
    def one():
        items.put(1)
        before(); behind()
    def other():
        a_while()
        items.put(2)
        after()
    together(one, other)

@scenario
def a_queue_that_is_asked(before, behind, after):
    items = Queue()
    def one():
        before(); behind()
        items.put(1)
    def other():
        a_while()
        assert items.qsize() == 1
        after()
    together(one, other)

@scenario
def another_permit_of_one_turn(before, behind, after):
    permits = Semaphore(0)
    def first():
        a_while()
        before(); behind()
        permits.release()
    def one():
        a_while()
        permits.release()
    def one_more():
        permits.acquire()
    def other():
        permits.acquire()
        after()
    together(one_more, other, first, one)

@scenario
def two_greenlets_of_one_pool(before, behind, after):
    pool = Pool(1)
    def run(number):
        if number == 0: before(); behind()
        if number == 2: after()
    def give(first):
        for number in (first, first + 1): Group().spawn(run, number).join()
    together(functools.partial(give, 0), functools.partial(give, 2))

@scenario
def two_functions_in_threads(before, behind, after):
    pool = ThreadPool(2)
    def one():
        before(); behind()
    made = [pool.spawn(one), pool.spawn(after)]
    gevent.joinall(made)

@scenario
def a_large_queue_that_has_room(before, behind, after):
    items = Queue(99)
    for number in range(99): items.put(number)
    def one():
        before(); behind()
        items.get()
    def other():
        a_while()
        items.put(1)
        after()
    together(one, other)

run_all()
"""
LOCKS = """
import gevent, itc_trace
from gevent.lock import BoundedSemaphore, RLock, Semaphore
from gevent.thread import allocate_lock
def sell(lock, name, is_in):
    with lock:
        if is_in: itc_trace.touch(name, write=True)
        gevent.sleep(0)
    if not is_in: itc_trace.touch(name, write=True)
def later(lock, name, is_in):
    gevent.sleep(0.02)
    if is_in:
        with lock: itc_trace.touch(name, write=True)
    else:
        with lock: pass
        itc_trace.touch(name, write=True)
def before(lock, name, is_in):
    itc_trace.touch(name, write=True)
    with lock: pass
for kind in (Semaphore, BoundedSemaphore, RLock, allocate_lock):
    lock = kind()
    name = type(lock).__name__
    gevent.joinall([*(gevent.spawn(sell, lock, f"{name} in", True) for _ in range(3)), gevent.spawn(later, lock, f"{name} in", True)])
    gevent.joinall([gevent.spawn(before, lock, f"{name} out", False), gevent.spawn(later, lock, f"{name} out", False)])
"""
WATCHED = """
import sys, gevent
from gevent.lock import Semaphore
table, lock, is_locked = {"left": 100}, Semaphore(), sys.argv[1] == "locked"
def sell():
    left = table["left"]
    gevent.sleep(0)
    table["left"] = left - 1
def sell_alone():
    if is_locked:
        with lock: sell()
    else:
        sell()
for made in [gevent.spawn(sell_alone) for _ in range(3)]: made.join()
assert (table["left"] == 97) is is_locked, table
table["left"] = 0
"""
ONE_TURN = """
import gevent
busy, seen = set(), {"count": 0}
def work(number):
    if len(busy) < 9: busy.add(number)
    gevent.sleep(0)
    seen["count"] += 1
gevent.joinall([gevent.spawn(work, number) for number in range(6)])
print(len(busy), seen)
"""
PATCHED = """
import sys
from gevent import monkey; monkey.patch_all()
import queue, threading, time
from concurrent.futures import ThreadPoolExecutor
stock, lock, rlock, changed, is_locked = {"left": 9}, threading.Lock(), threading.RLock(), threading.Condition(), sys.argv[1] == "locked"
def sell():
    left = stock["left"]
    time.sleep(0)
    stock["left"] = left - 1
def sell_alone():
    if is_locked:
        with lock, rlock: sell()
    else:
        sell()
threads = [threading.Thread(target=sell_alone) for _ in range(3)]
for thread in threads: thread.start()
for thread in threads: thread.join()
stock["left"] = 2
class Box: pass
handed, items, ready, box = Box(), queue.Queue(), threading.Event(), Box()
def give():
    handed.value = 1
    items.put(handed)
    box.value = 2
    ready.set()
    with changed:
        box.more = 3
        changed.notify_all()
def take():
    items.get().value = 2
    ready.wait()
    box.value = 3
    with changed:
        while not hasattr(box, "more"): changed.wait()
    box.more = 4
threads = [threading.Thread(target=one) for one in (take, give)]
for thread in threads: thread.start()
for thread in threads: thread.join()
with ThreadPoolExecutor(2) as pool:
    boxes = [Box() for _ in range(4)]
    def fill(one): one.value = 1
    list(pool.map(fill, boxes))
    for one in boxes: one.value = 2
timer = threading.Timer(0.001, sell)
timer.start()
timer.join()
stock["left"] = 0
"""
OTHER = """
import sys
from importlib.machinery import SourceFileLoader
plain = SourceFileLoader.exec_module
def exec_module(self, module):
    plain(self, module)
    if module.__name__ == "gevent.lock":
        del module.RLock
SourceFileLoader.exec_module = exec_module
import gevent
from gevent import lock
print(gevent.spawn(len, "gevents").get())
"""
DEADLOCK = """
import gevent
from gevent.lock import Semaphore
first, second = Semaphore(), Semaphore()
def go(one, other):
    with one:
        with other: pass
made = [gevent.spawn(go, first, second)]
gevent.sleep(0.01)
made.append(gevent.spawn(go, second, first))
gevent.joinall(made)
"""
FAULTS = """
import greenlet, io, sys, traceback, gevent
from gevent.event import AsyncResult, Event
from gevent.lock import BoundedSemaphore, RLock, Semaphore
from gevent.queue import Channel, Empty, Full, JoinableQueue, LifoQueue, PriorityQueue, Queue
from gevent.pool import Group, Pool, PoolFull
from gevent.threadpool import ThreadPool
def fail(): raise ValueError("no")
def tell():
    print("".join(line for line in traceback.format_exc().splitlines(True) if "src/gevent" not in line))
for call in (BoundedSemaphore().release, Queue(1).get_nowait, JoinableQueue().task_done, AsyncResult().get_nowait, Channel().get_nowait):
    try: call()
    except (Exception, gevent.Timeout) as fault: tell()
gevent.get_hub().exception_stream = io.StringIO()
made = gevent.spawn(fail)
try: made.get()
except ValueError: tell()
print(made.ready(), made.successful(), made.dead, made.exception)
items = Queue(1)
items.put(1)
try: items.put(2, timeout=0.001)
except Full: print("full", len(items), items.peek())
print(gevent.with_timeout(0.001, gevent.sleep, 1, timeout_value="late"), [type(one).__name__ for one in (items, made, Event(), AsyncResult(), Semaphore())])
print(type(items), type(made), type(Event()), type(Semaphore()), gevent.Greenlet, gevent.Greenlet.spawn.__qualname__, type(gevent.get_hub().loop))
class Own(gevent.Greenlet):
    def _run(self): return len(self.args)
class Stack(LifoQueue):
    def _put(self, item): LifoQueue._put(self, -item)
own, stack = Own.spawn(), Stack()
stack.put(3); stack.put(4)
print(own.get(), stack.get(), Own.__mro__[1].__name__, isinstance(own, gevent.Greenlet))
def kill(one): one.kill(); return one.value
sleeper = gevent.spawn(gevent.sleep, 9)
never = gevent.spawn(fail)
never.kill()
gevent.sleep(0)
print(repr(kill(sleeper)), repr(never.value), never.ready())
group = Group()
print(group.map(lambda one: one + 1, range(3)), list(Pool(2).imap_unordered(abs, [-1])), Pool(2).apply_async(abs, (-3,)).get())
with gevent.spawn(abs, -5) as inside: pass
print(inside.value, [one.value for one in gevent.wait([inside, gevent.spawn(abs, -6)])], gevent.wait(timeout=0.01))
seen = []
def tracer(event, words): seen.append(event)
print(greenlet.settrace(tracer), greenlet.gettrace() is tracer)
gevent.sleep(0)
print(greenlet.settrace(None) is tracer, greenlet.gettrace(), len(seen))
print(ThreadPool(1).apply(abs, (-7,)), [type(one).__name__ for one in gevent.iwait([gevent.spawn(abs, 1)])])
queue = Queue(items=(1, 2))
queue.put(StopIteration)
print(list(queue), queue.copy().empty(), sorted(name for name in dir(queue) if not name.startswith("_")))
"""
SHOP = """
import gevent
class Shop:
    def __init__(self): self.sold = 0
shop = Shop()
def visit(number):
    shop.sold += 1
    gevent.sleep(0)
gevent.joinall([gevent.spawn(visit, number) for number in range(3)])
print(shop.sold)
"""
BEFORE = """
from gevent import monkey; monkey.patch_all()
import threading, time, itc_trace
stock = {"left": 2}
def sell():
    left = stock["left"]
    time.sleep(0)
    stock["left"] = left - 1
with itc_trace.tracing() as traced:
    threads = [threading.Thread(target=sell) for _ in range(2)]
    for thread in threads: thread.start()
    for thread in threads: thread.join()
print(traced.races().verdict().name)
"""


def racing(told: str) -> list[str]:
    return re.findall(r"^itc_trace: race on (.*?)(?: \(a |\n)", told, re.MULTILINE)


@needs("python3-gevent", "gevent")
class Gevent(ProgramCase):
    def run_it(self, text: str, *words: str) -> tuple[int, str]:
        ran = run_traced(self.program(text), *words, python=python_with("gevent"))
        return ran.returncode, ran.stderr

    def test_what_hands_over_orders_and_nothing_else_does(self) -> None:
        status, told = self.run_it(ORDERS)
        self.assertEqual(status, Verdict.RACES, told)
        names = re.findall(r"@scenario\ndef (\w+)", ORDERS)
        self.assertEqual(racing(told), [f"{name} wrong" for name in names], told)

    def test_what_promises_no_order_gives_none(self) -> None:
        status, told = self.run_it(NO_ORDERS)
        names = re.findall(r"@scenario\ndef (\w+)", NO_ORDERS)
        self.assertEqual((status, racing(told)), (66, [f"{name} {way}" for name in names for way in ("right", "wrong")]), told)

    def test_what_is_behind_a_lock_is_in_order_by_luck(self) -> None:
        status, told = self.run_it(LOCKS)
        self.assertEqual((status, racing(told)), (0, []), told)
        self.assertEqual(re.findall(r"possible race on (.*)", told), ["RLock out", "LockType out"], told)

    def test_a_program_is_watched(self) -> None:
        for way, due in (("locked", (0, [])), ("free", (66, ["table['left']"]))):
            status, told = self.run_it(WATCHED, way)
            self.assertEqual((status, sorted(set(racing(told)))), due, told)
            self.assertNotIn("not looked into", told)

    def test_a_look_and_a_change_of_one_turn_are_one_step(self) -> None:
        for text in (ONE_TURN, SHOP):
            status, told = self.run_it(text)
            self.assertEqual((status, racing(told)), (0, []), told)

    def test_threads_that_are_greenlets_are_tasks(self) -> None:
        for way, due in (("locked", (0, [])), ("free", (66, ["stock['left']"]))):
            status, told = self.run_it(PATCHED, way)
            self.assertEqual((status, sorted(set(racing(told)))), due, told)
            self.assertNotIn("in the place of threads", told)

    def test_two_orders_of_locks_are_a_possible_deadlock(self) -> None:
        _, told = self.run_it(DEADLOCK)
        self.assertIn("possible deadlock on ", told)

    def test_a_gevent_that_was_there_before_is_told_of(self) -> None:
        ran = run_python(self.program(BEFORE), python=python_with("gevent"))
        self.assertEqual(ran.stdout, "INCOMPLETE\n", ran.stderr)

    def test_a_gevent_that_is_not_as_it_is_known_has_a_star(self) -> None:
        program = self.program(OTHER)
        ran = run_traced(program, python=python_with("gevent"))
        self.assertEqual((ran.returncode, ran.stdout), (0, "7\n"), ran.stderr)
        self.assertIn("not looked into: tasks of gevent at an import by a library", ran.stderr)

    def test_what_fails_does_so_as_ever(self) -> None:
        program, python = self.program(FAULTS), python_with("gevent")
        plain, traced = run_python(program, python=python), run_traced("--quiet", program, python=python)
        self.assertEqual(traced.stdout, plain.stdout, traced.stderr)
        self.assertEqual(traced.stderr, plain.stderr)
        self.assertGreater(plain.stdout.count("Traceback"), 5)


TABLE = """
import sys
from concurrent.futures import ThreadPoolExecutor
from greenlet import getcurrent
main, counts = getcurrent(), {}
def work(number):
    me = main if "main" in sys.argv else getcurrent()
    counts[me] = counts.get(me, 0) + number
with ThreadPoolExecutor(2) as pool:
    for job in [pool.submit(work, number) for number in range(6)]:
        job.result()
print(sum(counts.values()))
"""


@needs("python3-greenlet", "greenlet")
class TablesByGreenlet(ProgramCase):
    """Threads without gevent have a greenlet each, by which libraries keep what is the thread's own."""

    def test_the_element_of_a_greenlet_belongs_to_the_thread_that_runs_it(self) -> None:
        for words, due in (([], []), (["main"], ["counts[a greenlet]"])):
            for pure in ("", "1"):
                ran = run_traced(self.program(TABLE), *words, python=python_with("greenlet"), ITC_TRACE_PURE=pure)
                self.assertEqual(ran.stdout, "15\n", ran.stderr)
                self.assertEqual(sorted(set(racing(ran.stderr))), due, ran.stderr)


if __name__ == "__main__":
    unittest.main()
