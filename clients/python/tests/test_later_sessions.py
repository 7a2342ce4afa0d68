"""Several blocks are traced one after another in a process, as tests under pytest are. What one leaves behind harms no later one.

What goes on or lies around from before: threads, tasks and loops, jobs, timers, items of queues, locks that are held, loops through a
container. A later block is seen whole, has no false race, and its true races are told.
"""

from __future__ import annotations

import asyncio
import concurrent.futures
import gc
import itertools
import queue
import re
import sys
import threading
import unittest
from collections.abc import Callable, Coroutine
from multiprocessing.pool import ThreadPool
from typing import Any

import itc_trace
from itc_trace import Races
from itc_trace.sync import put_all

from .support import ProgramCase, Step, TracedCase, in_turn, run_python, wait_until
from .test_asyncio import writing
from .test_threads import write

put_all()  # As a plugin of pytest does before tests are imported. What is made before that is the library's own.


def is_joined() -> bool:
    """Whether somebody waits in `join`."""
    return any("join" in names_of(top) for top in sys._current_frames().values())


def names_of(frame: Any) -> set[str]:
    names = set()
    while frame is not None:
        names.add(frame.f_code.co_name)
        frame = frame.f_back
    return names


class LaterCase(TracedCase):
    def whole(self, scenario: Callable[[], Any]) -> None:
        """The block has no race, not even a possible one, and was seen whole."""
        found = self.races(scenario)
        self.assertEqual((found.races, found.possible, found.unseen), ([], [], []), found.text())

    def racing(self, scenario: Callable[[], Any]) -> Races:
        """The block has one race, and was seen whole."""
        found = self.races(scenario)
        self.assertEqual((len(found.races), found.unseen), (1, []), found.text())
        return found

    def first(self, scenario: Callable[[], Any]) -> None:
        """An earlier block."""
        self.assertEqual(self.races(scenario).unseen, [])


class LaterThreads(LaterCase):
    """Threads of earlier."""

    def begun(self, work: Callable[[], object], is_traced: bool) -> threading.Thread:
        thread = threading.Thread(target=work)
        if is_traced:
            self.first(thread.start)
        else:
            thread.start()
        return thread

    def test_who_joins_one_comes_after_what_it_touches_meanwhile(self) -> None:
        for is_traced in (True, False):
            goes_on = Step()
            thread = self.begun(lambda: (goes_on.wait(), write()), is_traced)

            def scenario() -> None:
                other = threading.Thread(target=lambda: (wait_until(is_joined), goes_on.done()))
                other.start()
                thread.join()
                write()
                other.join()

            self.whole(scenario)

    def test_all_who_join_one_come_after_it(self) -> None:
        goes_on = Step()
        thread = self.begun(lambda: (goes_on.wait(), write()), True)

        def scenario() -> None:
            others = [threading.Thread(target=lambda own: (thread.join(), write(own)), args=(f"of {number}",)) for number in range(3)]
            for other in others:
                other.start()
            wait_until(is_joined)
            goes_on.done()
            for other in others:
                other.join()
            write()

        self.whole(scenario)

    def test_who_sees_one_over_comes_after_it(self) -> None:
        goes_on = Step()
        thread = self.begun(lambda: (goes_on.wait(), write()), True)
        self.whole(lambda: (goes_on.done(), wait_until(lambda: not thread.is_alive()), write()))

    def test_a_timer_that_goes_off_later(self) -> None:
        timer = threading.Timer(0.2, write)
        self.first(timer.start)
        self.whole(lambda: (timer.join(), write()))

    def test_one_that_goes_on_races_in_each_block(self) -> None:
        turn, ends, done = Step(), [False], Step()

        def work() -> None:
            while True:
                turn.wait()
                if ends[0]:
                    return
                write()
                done.done()

        thread = self.begun(work, True)
        for _ in range(3):
            self.racing(lambda: (turn.done(), done.wait(), write()))
        ends[0] = True
        self.whole(lambda: (write(), turn.done(), thread.join(), write()))

    def test_those_that_hold_locks_as_a_block_begins(self) -> None:
        """What one of them did before its first release may be told as possible: nobody has seen that it held the lock."""
        lock, ends = threading.Lock(), [False]

        def work() -> None:
            while not ends[0]:
                with lock:
                    write()

        threads = [threading.Thread(target=work) for _ in range(3)]
        self.first(lambda: [thread.start() for thread in threads])

        def scenario() -> None:
            for _ in range(20):
                with lock:
                    write()

        try:
            for _ in range(4):
                found = self.races(scenario)
                self.assertEqual((found.races, found.unseen), ([], []), found.text())
        finally:
            ends[0] = True
        found = self.races(lambda: ([thread.join() for thread in threads], write()))
        self.assertEqual((found.races, found.unseen), ([], []), found.text())


class LaterWaits(LaterCase):
    """Threads that wait since earlier."""

    def waiting(self, wait: Callable[[], object], does_wait: Callable[[], bool]) -> threading.Thread:
        thread = threading.Thread(target=lambda: (wait(), write()))
        self.first(lambda: (thread.start(), wait_until(does_wait)))
        return thread

    def test_for_an_event(self) -> None:
        event = threading.Event()
        thread = self.waiting(event.wait, lambda: len(event._cond._waiters) == 1)  # type: ignore[attr-defined]
        self.whole(lambda: (write(), event.set(), thread.join(), write()))

    def test_for_an_event_that_is_set_anew_meanwhile(self) -> None:
        """Whoever has waited comes after the call that woke it, and not after a later one."""
        event = threading.Event()
        woken, goes_on = Step(), Step()

        def wait() -> None:
            event.wait()
            woken.done()
            goes_on.wait()

        thread = self.waiting(wait, lambda: len(event._cond._waiters) == 1)  # type: ignore[attr-defined]

        def scenario() -> None:
            in_turn(event.set, lambda: (woken.wait(), event.clear(), write(), event.set()), goes_on.done)
            thread.join()

        self.racing(scenario)

    def test_at_a_condition(self) -> None:
        condition = threading.Condition()

        def wait() -> None:
            with condition:
                condition.wait()

        def notify() -> None:
            write()
            with condition:
                condition.notify()

        thread = self.waiting(wait, lambda: len(condition._waiters) == 1)  # type: ignore[attr-defined]
        self.whole(lambda: (notify(), thread.join()))

    def test_at_a_barrier(self) -> None:
        barrier = threading.Barrier(2)
        thread = self.waiting(barrier.wait, lambda: barrier.n_waiting == 1)
        self.whole(lambda: (write(), barrier.wait(), thread.join(), write()))

    def test_for_a_result(self) -> None:
        future: concurrent.futures.Future[int] = concurrent.futures.Future()
        thread = self.waiting(future.result, lambda: len(future._condition._waiters) == 1)  # type: ignore[attr-defined]
        self.whole(lambda: (write(), future.set_result(1), thread.join(), write()))

    def test_for_an_item(self) -> None:
        items: queue.Queue[int] = queue.Queue()
        thread = self.waiting(items.get, lambda: len(items.not_empty._waiters) == 1)  # type: ignore[attr-defined]
        self.whole(lambda: (write(), items.put(1), thread.join(), write()))


class Stack(queue.Queue[Any]):
    """It puts and gets by code of the program."""

    def _put(self, item: Any) -> None:
        self.queue.append(item)

    def _get(self) -> Any:
        return self.queue.pop()


class LaterQueues(LaterCase):
    """Queues in which something lies since earlier, or that are used while nothing is traced."""

    def handed_over(self, put: Callable[[], object], get: Callable[[], object]) -> Callable[[], None]:
        return lambda: in_turn(lambda: (write(), put()), lambda: (get(), write()))

    def test_an_item_that_is_taken_out_while_nothing_is_traced(self) -> None:
        kinds: list[Callable[[], Any]] = [queue.Queue, queue.LifoQueue, queue.SimpleQueue, Stack]
        for kind in kinds:
            with self.subTest(kind):
                items = kind()
                self.first(lambda: items.put(None))
                items.get()
                self.whole(self.handed_over(lambda: items.put(None), items.get))

    def test_an_item_that_was_put_while_nothing_was_traced_is_of_nobody(self) -> None:
        for kind in (queue.Queue, queue.SimpleQueue):
            with self.subTest(kind):
                items: Any = kind()
                items.put(None)
                self.racing(self.handed_over(lambda: items.put(None), items.get))

    def test_an_item_of_an_earlier_block_is_of_nobody(self) -> None:
        for kind in (queue.Queue, queue.SimpleQueue):
            with self.subTest(kind):
                items: Any = kind()
                self.first(lambda: items.put(None))
                self.racing(self.handed_over(lambda: items.put(None), items.get))

    def test_one_that_is_put_between_two_blocks_keeps_its_place(self) -> None:
        items: queue.Queue[None] = queue.Queue()
        self.first(lambda: items.put(None))
        items.put(None)
        self.whole(self.handed_over(lambda: items.put(None), lambda: [items.get() for _ in range(3)]))

    def test_room_that_is_used_while_nothing_is_traced(self) -> None:
        items: queue.Queue[int] = queue.Queue(1)
        self.first(lambda: (items.put(1), items.get()))
        items.put(1)
        self.whole(lambda: in_turn(lambda: (write(), items.get()), lambda: (items.put(1), write())))

    def test_who_waits_for_all_items_comes_after_a_worker_of_earlier(self) -> None:
        items: queue.Queue[Any] = queue.Queue()

        def work() -> None:
            while items.get() is not None:
                write()
                items.task_done()

        thread = threading.Thread(target=work)
        self.first(lambda: (thread.start(), items.put(1), items.join()))
        for _ in range(2):
            items.put(1)
            self.whole(lambda: (items.put(2), items.join(), write(), items.put(3), items.join(), write()))
        items.put(None)
        thread.join()


class LaterMessages(LaterCase):
    def test_a_message_of_an_earlier_block_is_none_of_a_later_one(self) -> None:
        names: list[Any] = []
        self.first(lambda: names.append(itc_trace.outgoing()))
        self.racing(lambda: in_turn(lambda: (write(), names.append(itc_trace.outgoing())), lambda: (itc_trace.incoming(names[0]), write())))
        self.whole(lambda: in_turn(lambda: (write(), names.append(itc_trace.outgoing())), lambda: (itc_trace.incoming(names[2]), write())))


class LaterLocks(LaterCase):
    """Locks that a task has acquired before the block begins."""

    def test_what_is_done_under_one_is_apart_from_the_next_that_holds_it(self) -> None:
        for make, is_traced in itertools.product((threading.Lock, threading.RLock), (True, False)):
            lock: Any = make()
            held, goes_on = Step(), Step()

            def work() -> None:
                with lock:
                    held.done()
                    goes_on.wait()
                    write()

            def scenario() -> None:
                goes_on.done()
                with lock:
                    write()
                thread.join()

            thread = threading.Thread(target=work)
            if is_traced:
                self.first(lambda: (thread.start(), held.wait()))
            else:
                thread.start()
                held.wait()
            self.whole(scenario)

    def test_a_permit(self) -> None:
        """Whoever acquires it comes after its release, also if both are between two blocks for a while."""
        for permits in (1, 2):
            permit = threading.Semaphore(permits)
            self.first(lambda: [permit.acquire() for _ in range(permits)])
            permit.release()
            permit.acquire()
            self.whole(lambda: in_turn(lambda: (write(), permit.release()), lambda: (permit.acquire(), write())))

    def cycle(self, outer: Any, inner: Any, is_signal: bool) -> None:
        """Two tasks acquire both in two orders. It is no deadlock if the other one releases the inner one."""

        def one() -> None:
            with outer:
                inner.acquire()
                if not is_signal:
                    inner.release()

        def two() -> None:
            if is_signal:
                inner.release()
            with inner, outer:
                pass

        in_turn(one, two)

    def test_what_a_lock_was_in_an_earlier_block_is_forgotten(self) -> None:
        outer, inner = threading.Lock(), threading.Lock()
        for is_signal in (True, True, False, True, False):
            found = self.races(lambda: self.cycle(outer, inner, is_signal))
            self.assertEqual((found.text().startswith("possible deadlock on "), found.unseen), (not is_signal, []), found.text())

    def test_a_lock_that_hands_over_keeps_its_possible_races(self) -> None:
        """A release of what was acquired before says nothing of the later ones."""
        lock = threading.Lock()
        lock.acquire()
        self.first(lock.release)

        def with_lock(*works: Callable[[], object]) -> None:
            works[0]()
            with lock:
                works[1]()

        found = self.races(lambda: in_turn(lambda: with_lock(write, int), lambda: with_lock(int, int) or write()))
        self.assertEqual((found.races, len(found.possible), found.unseen), ([], 1, []), found.text())


class LaterJobs(LaterCase):
    """Pools of earlier, and their jobs."""

    def test_a_job_that_ends_later_ends_no_other_block(self) -> None:
        begun, goes_on = Step(), Step()
        with concurrent.futures.ThreadPoolExecutor(2) as pool:
            self.first(lambda: (pool.submit(lambda: (begun.done(), goes_on.wait())), begun.wait()))
            self.whole(lambda: (write(), goes_on.done(), pool.shutdown(), in_turn(write)))

    def test_who_takes_its_result_comes_after_it(self) -> None:
        begun, goes_on = Step(), Step()

        def job() -> None:
            begun.done()
            goes_on.wait()
            write()

        kept: list[Any] = []
        with concurrent.futures.ThreadPoolExecutor(2) as pool, ThreadPool(2) as other:
            self.first(lambda: (kept.append(pool.submit(job)), begun.wait()))
            self.whole(lambda: (goes_on.done(), kept[0].result(), write()))
            self.first(lambda: (kept.append(other.apply_async(job)), begun.wait()))
            self.whole(lambda: (goes_on.done(), kept[1].get(), write()))

    def test_who_waits_for_the_end_of_the_pool_comes_after_it(self) -> None:
        begun, goes_on = Step(), Step()

        def job() -> None:
            begun.done()
            goes_on.wait()
            write()

        pool = concurrent.futures.ThreadPoolExecutor(2)
        self.first(lambda: (pool.submit(job), begun.wait(), pool.submit(write, "y")))
        self.whole(lambda: (goes_on.done(), pool.submit(int).result(), pool.shutdown(), write(), write("y")))
        other = ThreadPool(2)
        self.first(lambda: (other.apply_async(job), begun.wait()))
        self.whole(lambda: (goes_on.done(), other.close(), other.join(), write()))

    def two_jobs_from_before(self, give: Callable[[Callable[..., Any], tuple[Any, ...]], Callable[[], Any]]) -> None:
        """One thread runs both, and the other one is held."""
        begun, goes_on = [Step(), Step()], [Step(), Step()]

        def block(number: int) -> None:
            begun[number].done()
            goes_on[number].wait()

        for number in range(2):
            give(block, (number,))
            begun[number].wait()
        results = [give(write, ()) for _ in range(2)]
        self.racing(lambda: (goes_on[0].done(), [result() for result in results]))
        goes_on[1].done()

    def test_two_that_were_given_before_race_also_if_one_thread_runs_them(self) -> None:
        with concurrent.futures.ThreadPoolExecutor(2) as pool, ThreadPool(2) as other:
            self.two_jobs_from_before(lambda work, words: pool.submit(work, *words).result)
            self.two_jobs_from_before(lambda work, words: other.apply_async(work, words).get)

    def test_those_of_a_pool_of_one_thread_stay_in_order(self) -> None:
        begun, goes_on = Step(), Step()
        kept: list[Any] = []
        with concurrent.futures.ThreadPoolExecutor(1) as pool, ThreadPool(1) as other:
            self.first(lambda: (pool.submit(lambda: (begun.done(), goes_on.wait(), write())), begun.wait(), kept.append(pool.submit(write))))
            self.whole(lambda: (goes_on.done(), kept[0].result(), write(), pool.submit(write).result()))
            other.apply_async(lambda: (begun.done(), goes_on.wait()))
            begun.wait()
            kept.append(other.apply_async(write))
            self.whole(lambda: (goes_on.done(), kept[1].get(), write(), other.apply(write)))


class LaterLoops(LaterCase):
    """Loops and tasks of earlier, as fixtures of a wider scope keep them."""

    def setUp(self) -> None:
        self.loop = asyncio.new_event_loop()
        self.addCleanup(self.loop.close)
        self.kept: list[Any] = []

    def run_in_loop(self, main: Callable[[], Coroutine[Any, Any, Any]]) -> None:
        self.loop.run_until_complete(main())

    def test_a_task_that_goes_later_ends_no_other_block(self) -> None:
        async def begin() -> None:
            self.kept.append(asyncio.create_task(writing()))
            await asyncio.sleep(0)

        self.first(lambda: asyncio.run(begin()))
        self.whole(lambda: (write(), self.kept.clear(), gc.collect(), in_turn(write)))

    def background(self) -> None:
        """A task that goes on in all later runs of the loop."""

        async def work() -> None:
            while True:
                write()
                await asyncio.sleep(0.001)

        async def begin() -> None:
            self.kept.append(asyncio.create_task(work()))
            await asyncio.sleep(0.01)

        async def some_time() -> None:
            await asyncio.sleep(0.01)

        async def touching() -> None:
            write()
            await asyncio.sleep(0.01)

        async def cancel() -> None:
            self.kept[0].cancel()
            await asyncio.wait(self.kept)

        self.first(lambda: self.run_in_loop(begin))
        self.whole(lambda: (write(), self.run_in_loop(some_time), write(), self.run_in_loop(some_time), write()))
        self.racing(lambda: self.run_in_loop(touching))
        self.whole(lambda: (write(), self.run_in_loop(cancel), write()))

    def test_a_task_of_a_loop_that_is_run_once_more(self) -> None:
        self.background()

    def test_the_same_beside_another_thread(self) -> None:
        ends = Step()
        thread = threading.Thread(target=ends.wait)
        thread.start()
        self.background()
        ends.done()
        thread.join()

    def test_two_tasks_of_earlier_race(self) -> None:
        tasks = [self.loop.create_task(writing()) for _ in range(2)]
        self.racing(lambda: [self.loop.run_until_complete(task) for task in tasks])

    def test_a_task_that_is_cancelled_comes_after_who_cancels_it(self) -> None:
        async def work() -> None:
            try:
                await asyncio.sleep(1000)
            finally:
                write()

        async def begin() -> None:
            self.kept.append(asyncio.create_task(work()))
            await asyncio.sleep(0)

        async def cancel() -> None:
            write()
            self.kept[0].cancel()
            await asyncio.wait(self.kept)
            write()

        self.first(lambda: self.run_in_loop(begin))
        self.whole(lambda: self.run_in_loop(cancel))

    def held(self, work: Callable[[asyncio.Future[None]], Coroutine[Any, Any, Any]]) -> Callable[[], Coroutine[Any, Any, Any]]:
        """A task begins, and waits for a future. Gives what sets that, and waits for the task."""

        async def begin() -> None:
            future = self.loop.create_future()
            self.kept.extend((future, asyncio.create_task(work(future))))
            await asyncio.sleep(0)

        async def end() -> None:
            write()
            self.kept[0].set_result(None)
            await self.kept[1]
            write()

        self.first(lambda: self.run_in_loop(begin))
        return end

    def test_a_task_that_waits_comes_after_what_it_waited_for(self) -> None:
        async def work(future: asyncio.Future[None]) -> None:
            await future
            write()

        end = self.held(work)
        self.whole(lambda: self.run_in_loop(end))

    def test_the_end_of_a_group_comes_after_its_tasks(self) -> None:
        async def wait_for(future: asyncio.Future[None]) -> None:
            await future
            write()

        async def work(future: asyncio.Future[None]) -> None:
            async with asyncio.TaskGroup() as group:
                group.create_task(wait_for(future))
                await future
            write()

        end = self.held(work)
        self.whole(lambda: self.run_in_loop(end))

    def test_a_lock_that_a_task_holds(self) -> None:
        lock = asyncio.Lock()

        async def work(future: asyncio.Future[None]) -> None:
            async with lock:
                await future
                await asyncio.sleep(0)
                write()

        async def beside() -> None:
            self.kept[0].set_result(None)
            async with lock:
                write()
            await self.kept[1]

        self.held(work)
        self.whole(lambda: self.run_in_loop(beside))

    def test_items_that_come_and_go_while_nothing_is_traced(self) -> None:
        async def both(first: Coroutine[Any, Any, Any], second: Coroutine[Any, Any, Any]) -> None:
            await asyncio.gather(first, second)

        async def put() -> None:
            write()
            await items.put(None)

        async def get() -> None:
            while items.qsize() < count:
                await asyncio.sleep(0)
            await items.get()
            write()

        items: asyncio.Queue[None] = asyncio.Queue()
        count = 1
        self.first(lambda: self.loop.run_until_complete(items.put(None)))
        self.loop.run_until_complete(items.get())
        self.whole(lambda: self.loop.run_until_complete(both(put(), get())))
        self.loop.run_until_complete(items.put(None))
        count = 2
        self.racing(lambda: self.loop.run_until_complete(both(put(), get())))

    def test_who_joins_the_thread_of_a_loop_comes_after_its_tasks(self) -> None:
        for is_traced in (True, False):
            loop, done = asyncio.new_event_loop(), Step()
            thread = threading.Thread(target=loop.run_forever)

            async def work() -> None:
                write()
                done.done()

            def scenario() -> None:
                asyncio.run_coroutine_threadsafe(work(), loop)
                done.wait()
                loop.call_soon_threadsafe(loop.stop)
                thread.join()
                write()

            if is_traced:
                self.first(thread.start)
            else:
                thread.start()
            self.whole(scenario)
            loop.close()

    def test_what_was_to_be_called_later(self) -> None:
        async def begin() -> None:
            self.loop.call_later(0.02, write)

        self.first(lambda: self.run_in_loop(begin))
        self.whole(lambda: (write(), self.loop.run_until_complete(asyncio.sleep(0.1)), write()))

    def test_an_asynchronous_generator_that_is_finalized_later(self) -> None:
        async def steps() -> Any:
            try:
                yield 1
            finally:
                write()

        async def begin() -> None:
            one = steps()
            await one.__anext__()
            self.kept.append(one)

        self.first(lambda: self.run_in_loop(begin))
        self.whole(lambda: (write(), self.kept.clear(), gc.collect(), self.loop.run_until_complete(asyncio.sleep(0.01)), write()))


HEAD = """
import _thread, threading, itc_trace
from itc_trace.record import noting

class Step:
    kept = (_thread.allocate_lock,)
    def __init__(self):
        self.lock = self.kept[0]()
        self.lock.acquire()
    def done(self):
        self.lock.release()
    def wait(self):
        self.lock.acquire()

def block(what):
    with itc_trace.tracing() as traced:
        what()
    found = traced.races()
    print(sorted({one.thing for one in found.races}), [one.text for one in found.unseen])

def in_turn(*works):
    steps = [Step() for _ in works]
    def run(number):
        if number:
            steps[number - 1].wait()
        works[number]()
        steps[number].done()
    threads = [threading.Thread(target=run, args=(number,)) for number in range(len(works))]
    for thread in threads:
        thread.start()
    for thread in threads:
        thread.join()
"""
"""The first block has the functions that are there by then watched."""
GOES_ON = HEAD + """
def goes_on(through, change):
    begun, further = Step(), Step()
    def work():
        for number, _ in enumerate(through()):
            if number == 1:
                begun.done()
                further.wait()
            if number == 3:
                break
    def begin():
        thread = threading.Thread(target=work)
        thread.start()
        begun.wait()
        return thread
    def beside():
        change()
        further.done()
        threads.pop().join()
    def ordered():
        further.done()
        threads.pop().join()
        change()
    threads = []
    block(lambda: threads.append(begin()))
    block(beside)
    block(lambda: threads.append(begin()))
    block(ordered)

rows, table, line = [*range(9)], dict.fromkeys(range(9)), Step.kept
def through_rows():
    return rows
def add_row():
    rows.append(1)
def through_table():
    return table.items()
def change_table():
    table[7] = 8
block(int)
goes_on(through_rows, add_row)
goes_on(through_table, change_table)
"""
LOOPS = HEAD + """
def loop(kind, through, change):
    begun, further = Step(), Step()
    def by_list():
        for number in through:
            if number == 1:
                begun.done()
                further.wait()
            if number == 3:
                break
    def by_values():
        for number in through.values():
            if number == 1:
                begun.done()
                further.wait()
            if number == 3:
                break
    def beside():
        change(through)
        further.done()
        threads.pop().join()
    def ordered():
        further.done()
        threads.pop().join()
        change(through)
    threads = []
    def begin():
        threads.append(threading.Thread(target=by_list if kind == "list" else by_values))
        threads[-1].start()
        begun.wait()
    block(begin)
    block(beside)
    block(begin)
    block(ordered)
def add(rows):
    rows.append(9)
def replace(table):
    table[5] = 9
block(int)
loop("list", [*range(6)], add)
loop("values", {number: number for number in range(6)}, replace)
"""
GENERATORS = HEAD + """
rows = [*range(9)]
others = iter(rows)
def steps():
    for row in rows:
        yield row
def step():
    next(kept[0])
def add():
    rows.append(1)
kept = []
def begin():
    kept.append(steps())
    in_turn(step)
def beside():
    in_turn(step, add)
def ordered():
    in_turn(step), add(), step()
def go_on():
    for _ in others:
        break
def one():
    in_turn(go_on, int)
def both():
    in_turn(go_on, go_on)
for what in (int, begin, beside, ordered, one, both):
    block(what)
"""
THINGS = HEAD + """
class Shop:
    pass
class Slots:
    __slots__ = ("left",)
shop, slots, table, names, count = Shop(), Slots(), {}, set(), 0
def closure():
    total = 0
    def add():
        nonlocal total
        total += 1
    return add
add = closure()
def change():
    global count
    shop.left = slots.left = table["left"] = 1
    names.add(1)
    count += 1
    add()
def beside():
    in_turn(change, change)
def ordered():
    change(), in_turn(change), change()
for what in (int, beside, ordered, beside, ordered):
    block(what)
"""
LOST = HEAD + """
def lose():
    in_turn(int)
    try:
        raise ValueError("planted")
    except ValueError as fault:
        noting.lost(fault)
for what in (int, lose, int):
    block(what)
"""
WHOLE = "[] []"
PROGRAMS = {
    "loops through lists and dictionaries": (
        LOOPS, [WHOLE, "['rows'] []", WHOLE, WHOLE, WHOLE, "['table'] []", WHOLE, WHOLE],
    ),
    "loops through what a call gives": (GOES_ON, [WHOLE, "['rows'] []", WHOLE, WHOLE, WHOLE, "['table'] []", WHOLE, WHOLE]),
    "generators, and an iterator": (GENERATORS, [WHOLE, "['rows'] []", WHOLE, WHOLE, "['others'] []"]),
    "things that were shared before": (
        THINGS, ["['Shop.left', 'Slots.left', 'count', 'names[1]', \"table['left']\", 'total'] []", WHOLE] * 2,
    ),
    "a touch that was lost": (LOST, ["[] ['1 touch could not be noted at program.py:LINE*: ValueError: planted in a hook']", WHOLE]),
}


class WatchedBlocks(ProgramCase):
    """What hooks know of what they have seen in an earlier block, with both kinds of them."""

    def test_each_block_of_a_watched_program(self) -> None:
        for name, (text, due) in PROGRAMS.items():
            program = self.program(text)
            for pure in ("", "1"):
                with self.subTest(name, pure=pure):
                    ran = run_python(program, ITC_TRACE_PURE=pure)
                    told = re.sub(r":\d+\*", ":LINE*", ran.stdout).splitlines()
                    self.assertEqual(told, [WHOLE, *due], ran.stderr)


if __name__ == "__main__":
    unittest.main()
