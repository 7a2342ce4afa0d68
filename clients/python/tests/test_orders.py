"""Orders that go past the common primitives: callbacks, imports, cached properties, bounded queues, the end of the program."""

from __future__ import annotations

import _thread
import asyncio
import contextvars
import functools
import importlib
import io
import logging
import multiprocessing
import multiprocessing.pool
import os
import queue
import sys
import tempfile
import threading
import time
import traceback
import unittest
from collections.abc import Awaitable, Callable
from concurrent.futures import Future, ProcessPoolExecutor
from pathlib import Path
from typing import Any

from itc_trace import touch

from .support import WAIT, ProgramCase, Step, TracedCase, in_turn, run_traced
from .test_threads import write


class Callbacks(TracedCase):
    def test_a_callback_comes_after_who_added_it(self) -> None:
        def scenario() -> None:
            future: Future[int] = Future()

            def add() -> None:
                write("x")
                future.add_done_callback(lambda _: (write("x"), write("y")))
                write("y")

            in_turn(add, lambda: future.set_result(1))

        self.assert_racing_things("y", scenario)

    def test_a_callback_comes_after_the_result(self) -> None:
        def scenario() -> None:
            future: Future[int] = Future()

            def give() -> None:
                write("x")
                future.set_result(1)

            in_turn(give, lambda: future.add_done_callback(lambda _: write("x")))

        self.assert_ordered(scenario)

    def test_who_does_not_wait_is_not_ordered_with_a_callback(self) -> None:
        def scenario() -> None:
            future: Future[int] = Future()
            future.add_done_callback(lambda _: write("x"))
            in_turn(lambda: future.set_result(1), lambda: (future.result(), write("x")))

        self.assert_race(scenario)

    def loop(self, racing: str, main: Callable[[], Awaitable[None]]) -> None:
        self.assert_racing_things(racing, lambda: asyncio.run(main()))  # type: ignore[arg-type]

    def test_a_callback_of_a_task_comes_after_who_added_it_and_after_the_task(self) -> None:
        async def main() -> None:
            async def work() -> None:
                await asyncio.sleep(0)
                write("task")

            async def add() -> None:
                write("x")
                task.add_done_callback(called)
                write("y")

            def called(_: Any) -> None:
                write("x")
                write("y")
                write("task")

            task = asyncio.create_task(work())
            await asyncio.gather(asyncio.create_task(add()), task)

        self.loop("y", main)

    def test_who_awaits_a_task_comes_after_its_callbacks(self) -> None:
        async def awaiting(task: Any) -> None:
            await task

        async def gathering(task: Any) -> None:
            await asyncio.gather(task, asyncio.sleep(0))

        async def waiting(task: Any) -> None:
            await asyncio.wait([task])

        for wait in (awaiting, gathering, waiting):
            with self.subTest(wait=wait):

                async def main() -> None:
                    task = asyncio.create_task(asyncio.sleep(0.001))
                    task.add_done_callback(lambda _: write("x"))
                    await wait(task)
                    write("x")

                self.loop("", main)

    @unittest.skipUnless(hasattr(asyncio, "TaskGroup"), "this Python has no TaskGroup")
    def test_who_leaves_a_group_comes_after_the_callbacks(self) -> None:
        async def main() -> None:
            async with asyncio.TaskGroup() as group:
                group.create_task(asyncio.sleep(0)).add_done_callback(lambda _: write("x"))
            write("x")

        self.loop("", main)

    def test_a_callback_that_was_called_before_the_await_by_luck_orders_nothing(self) -> None:
        async def main() -> None:
            task = asyncio.create_task(asyncio.sleep(0))
            task.add_done_callback(lambda _: write("x"))
            await asyncio.sleep(0.01)
            await task
            write("x")

        self.loop("x", main)

    def test_a_callback_can_be_removed(self) -> None:
        async def main() -> None:
            def called(_: Any) -> None:
                write("x")

            task = asyncio.create_task(asyncio.sleep(0))
            task.add_done_callback(called)
            task.add_done_callback(called)
            self.assertEqual(task.remove_done_callback(called), 2)
            await task
            await asyncio.sleep(0)

        self.assertEqual(self.races(lambda: asyncio.run(main())).touches, 0)

    def test_a_callback_of_a_future_comes_after_who_added_it(self) -> None:
        async def main() -> None:
            future = asyncio.get_running_loop().create_future()

            async def add() -> None:
                write("x")
                future.add_done_callback(lambda _: write("x"))

            async def give() -> None:
                await asyncio.sleep(0.001)
                future.set_result(1)

            await asyncio.gather(asyncio.create_task(add()), asyncio.create_task(give()))
            await asyncio.sleep(0)

        self.loop("", main)

    def test_who_sees_a_task_done_comes_after_it(self) -> None:
        async def main() -> None:
            async def work() -> None:
                write("x")

            task = asyncio.create_task(work())
            while not task.done():
                await asyncio.sleep(0)
            write("x")

        self.loop("", main)

    def test_who_is_cancelled_comes_after_who_cancelled(self) -> None:
        async def main() -> None:
            async def work() -> None:
                try:
                    await asyncio.sleep(WAIT)
                except asyncio.CancelledError:
                    write("x")
                    write("y")

            async def cancel() -> None:
                await asyncio.sleep(0.001)
                write("x")
                task.cancel()
                write("y")

            task = asyncio.create_task(work())
            await asyncio.gather(asyncio.create_task(cancel()), task)

        self.loop("y", main)

    def test_what_a_timer_calls_comes_after_who_set_it(self) -> None:
        async def main() -> None:
            loop = asyncio.get_running_loop()

            async def set_timers() -> None:
                write("x")
                write("y")
                loop.call_later(0.001, write, "x")
                loop.call_at(loop.time() + 0.001, write, "y")

            await asyncio.create_task(set_timers())
            await asyncio.sleep(0.01)

        self.loop("", main)

    def test_who_sees_a_future_cancelled_comes_after_who_cancelled(self) -> None:
        async def main() -> None:
            future = asyncio.get_running_loop().create_future()

            async def cancel() -> None:
                write("x")
                future.cancel()
                write("y")

            async def wait() -> None:
                with self.assertRaises(asyncio.CancelledError):
                    await future
                write("x")
                write("y")

            await asyncio.gather(asyncio.create_task(wait()), asyncio.create_task(cancel()))

        self.loop("y", main)


class CallsFromThreads(TracedCase):
    """What a thread has a loop call by `call_soon_threadsafe`."""

    def hand_over(self, prepare: Callable[[Any, Any], Callable[[], Awaitable[Any]]]) -> None:
        async def main() -> None:
            loop = asyncio.get_running_loop()

            def work() -> None:
                write("x")
                call()
                write("y")

            def call_soon(callback: Any, *args: Any) -> None:
                nonlocal call
                call = lambda: loop.call_soon_threadsafe(callback, *args)  # noqa: E731

            call: Any = None
            wait = prepare(call_soon, loop)
            thread = threading.Thread(target=work)
            thread.start()
            await wait()
            write("x")
            write("y")
            await asyncio.to_thread(thread.join)

        self.assert_racing_things("y", lambda: asyncio.run(main()))

    def test_an_item_that_it_puts_comes_after_the_thread(self) -> None:
        def prepare(call: Any, loop: Any) -> Any:
            one: asyncio.Queue[int] = asyncio.Queue()
            call(one.put_nowait, 1)
            return one.get

        self.hand_over(prepare)

    def test_a_permit_that_it_releases_comes_after_the_thread(self) -> None:
        def prepare(call: Any, loop: Any) -> Any:
            semaphore = asyncio.Semaphore(0)
            call(semaphore.release)
            return semaphore.acquire

        self.hand_over(prepare)

    def test_a_partial_of_an_event_s_method_comes_after_the_thread(self) -> None:
        def prepare(call: Any, loop: Any) -> Any:
            event = asyncio.Event()
            call(functools.partial(event.set))
            return event.wait

        self.hand_over(prepare)

    def test_a_method_of_a_list_is_called_after_the_thread(self) -> None:
        def scenario() -> None:
            loop = asyncio.new_event_loop()
            found: list[int] = []

            def work() -> None:
                write("x")
                loop.call_soon_threadsafe(found.append, 1)
                loop.call_soon_threadsafe(loop.stop)

            thread = threading.Thread(target=work)
            thread.start()
            loop.run_forever()
            write("x")
            thread.join()
            loop.close()
            self.assertEqual(found, [1])

        self.assert_ordered(scenario)

    def test_a_method_of_a_list_alone_carries_the_order(self) -> None:
        def scenario() -> None:
            loop = asyncio.new_event_loop()
            found: list[int] = []

            def work() -> None:
                write("x")
                loop.call_soon_threadsafe(found.append, 1)

            async def main() -> None:
                while not found:
                    await asyncio.sleep(0.001)

            thread = threading.Thread(target=work)
            thread.start()
            loop.run_until_complete(main())
            write("x")
            thread.join()
            loop.close()

        self.assert_ordered(scenario)

    def test_asyncio_s_own_steps_are_no_messages(self) -> None:
        async def main() -> None:
            for _ in range(3):
                await asyncio.create_task(asyncio.sleep(0))

        self.races(lambda: asyncio.run(main()))
        self.assertNotIn("call soon", [row.label for row in self.rows])


class PlainLocks(TracedCase):
    def test_a_lock_of_the_thread_module_gives_order(self) -> None:
        for name in ("allocate_lock", "allocate", "RLock"):
            with self.subTest(name=name):

                def scenario() -> None:
                    lock = getattr(_thread, name)()

                    def work() -> None:
                        with lock:
                            write()

                    in_turn(work, work)

                self.assert_ordered(scenario)

    def test_a_lock_that_serves_as_a_signal_gives_order(self) -> None:
        def scenario() -> None:
            lock = _thread.allocate_lock()
            lock.acquire()

            def work() -> None:
                write()
                lock.release()

            _thread.start_new_thread(work, ())
            lock.acquire()
            write()

        self.assert_ordered(scenario)


class LocksInside(TracedCase):
    """Locks of the library while which the program's own code runs."""

    def test_what_a_queue_of_the_program_does_inside_is_kept_apart(self) -> None:
        class Once(queue.Queue):  # type: ignore[type-arg]
            def _init(self, maxsize: int) -> None:
                self.queue: Any = []

            def _put(self, item: int) -> None:
                write("x")
                if item not in self.queue:
                    self.queue.append(item)

            def _get(self) -> Any:
                write("x")
                return self.queue.pop(0)

        for size in (0, 1, 9):
            with self.subTest(size=size):

                def scenario() -> None:
                    one = Once(size)

                    def work() -> None:
                        one.put(1)
                        one.get()
                        write("y")

                    in_turn(work, work)
                    self.assertEqual(one.qsize(), 0)

                self.assert_racing_things("y", scenario)

    def test_a_handler_of_the_program_emits_under_its_lock(self) -> None:
        class Counting(logging.Handler):
            def emit(self, record: logging.LogRecord) -> None:
                write("x")

        def scenario() -> None:
            logger = logging.Logger("own")
            logger.addHandler(Counting())
            in_turn(*[lambda: (logger.warning("a"), write("y"))] * 2)

        self.assert_racing_things("y", scenario)

    def test_a_handler_of_the_library_orders_nothing(self) -> None:
        def scenario() -> None:
            logger = logging.Logger("own")
            logger.addHandler(logging.StreamHandler(io.StringIO()))
            in_turn(*[lambda: (write("x"), logger.warning("a"))] * 2)

        self.assert_race(scenario)


class Processes(TracedCase):
    def test_a_lock_of_processes_gives_order_among_threads(self) -> None:
        for make in (multiprocessing.Lock, multiprocessing.RLock, lambda: multiprocessing.Semaphore(1),
                     lambda: multiprocessing.BoundedSemaphore(1), lambda: multiprocessing.Value("i").get_lock()):
            for entered in (True, False):
                with self.subTest(make=make, entered=entered):

                    def scenario() -> None:
                        lock: Any = make()

                        def enter() -> None:
                            with lock:
                                write("x")
                            write("y")

                        def call() -> None:
                            lock.acquire()
                            write("x")
                            lock.release()
                            write("y")

                        in_turn(*[enter if entered else call] * 3)

                    self.assert_racing_things("y", scenario)

    def test_only_the_outermost_release_of_an_rlock_counts(self) -> None:
        def scenario() -> None:
            lock = multiprocessing.RLock()

            def work() -> None:
                with lock:
                    with lock:
                        pass
                    write("x")

            in_turn(work, work)

        self.assert_ordered(scenario)

    def test_conditions_events_and_barriers_of_processes_order_threads(self) -> None:
        def signal_by_event() -> tuple[Any, Any]:
            event = multiprocessing.Event()
            return event.set, lambda: event.wait(WAIT)

        def signal_by_condition() -> tuple[Any, Any]:
            condition, ready = multiprocessing.Condition(), []

            def give() -> None:
                with condition:
                    ready.append(1)
                    condition.notify()

            def take() -> None:
                with condition:
                    while not ready:
                        condition.wait(WAIT)

            return give, take

        for make in (signal_by_event, signal_by_condition):
            with self.subTest(make=make):

                def scenario() -> None:
                    give, take = make()
                    in_turn(lambda: (write("x"), give()), lambda: (take(), write("x")))

                self.assert_ordered(scenario)

    def test_a_barrier_of_processes_orders_threads(self) -> None:
        def scenario() -> None:
            barrier = multiprocessing.Barrier(2)

            def work(mine: str, other: str) -> None:
                write(mine)
                barrier.wait(WAIT)
                touch(other)

            threads = [threading.Thread(target=work, args=names) for names in (("x", "y"), ("y", "x"))]
            for thread in threads:
                thread.start()
            for thread in threads:
                thread.join()

        self.assert_ordered(scenario)

    def test_the_result_of_another_process_comes_after_who_set_it(self) -> None:
        def scenario() -> None:
            with ProcessPoolExecutor(1, multiprocessing.get_context("spawn")) as pool:
                first, second = pool.submit(abs, -5), pool.submit(abs, -6)
                first.add_done_callback(lambda _: write("x"))  # The thread calls it that sets the second result, too.
                self.assertEqual(second.result(WAIT), 6)
                write("x")

        self.assert_ordered(scenario)

    def test_a_callback_of_another_process_comes_after_who_added_it(self) -> None:
        def scenario() -> None:
            with ProcessPoolExecutor(1, multiprocessing.get_context("spawn")) as pool:
                write("x")
                future = pool.submit(abs, -5)
                called = threading.Event()
                future.add_done_callback(lambda _: (touch("x"), called.set()))
                self.assertEqual(future.result(WAIT), 5)
                called.wait(WAIT)

        self.assert_ordered(scenario)

    def test_a_pool_of_threads_orders_a_job_with_who_takes_its_result(self) -> None:
        def scenario() -> None:
            with multiprocessing.pool.ThreadPool(2) as pool:
                write("x")
                pool.apply(write, ("x",))
                write("x")

        self.assert_ordered(scenario)

    def test_two_jobs_of_a_pool_of_threads_are_not_ordered_by_the_thread_that_runs_both(self) -> None:
        def scenario() -> None:
            step = Step()
            with multiprocessing.pool.ThreadPool(2) as pool:
                busy = pool.apply_async(step.wait)  # It leaves one thread for the others.
                for job in [pool.apply_async(write, ("x",)) for _ in range(2)]:
                    job.wait()
                step.done()
                busy.wait()
                pool.map(lambda number: write(f"part {number}"), range(4))
                write("part 0")

        self.assert_racing_things("x", scenario)

    def test_jobs_of_a_pool_of_one_thread_are_in_order(self) -> None:
        def scenario() -> None:
            with multiprocessing.pool.ThreadPool(1) as pool:
                pool.map(lambda _: write("x"), range(4))
                write("x")

        self.assert_ordered(scenario)

    def test_the_locks_of_a_queue_of_processes_give_no_order(self) -> None:
        def scenario() -> None:
            one: Any = multiprocessing.Queue()
            one.put(1)
            one.put(2)

            def get() -> None:
                one.get(timeout=WAIT)
                write("x")

            in_turn(get, get)
            one.close()
            one.join_thread()

        self.assert_race(scenario)


class Imports(TracedCase):
    """Two threads import one module."""

    def setUp(self) -> None:
        folder = tempfile.TemporaryDirectory()
        self.addCleanup(folder.cleanup)
        self.folder = Path(folder.name)
        sys.path.insert(0, folder.name)
        self.addCleanup(sys.path.remove, folder.name)

    number = 0

    def module(self, text: str = "import itc_trace\nitc_trace.touch('x', write=True)\n", folder: str = "") -> str:
        Imports.number += 1
        name = f"module_of_orders_{Imports.number}"
        where = self.folder / folder
        where.mkdir(exist_ok=True)
        (where / f"{name}.py").write_text(text)
        return name

    def test_who_imports_a_module_comes_after_who_executed_it(self) -> None:
        for load in (lambda name: exec(f"import {name}"), importlib.import_module, __import__):
            with self.subTest(load=load):
                name = self.module()

                def work() -> None:
                    load(name)
                    touch("x")

                importlib.invalidate_caches()
                self.assert_ordered(lambda: in_turn(work, work))

    def test_who_waits_for_the_import_lock_comes_after_it_too(self) -> None:
        name = self.module("import itc_trace, time\ntime.sleep(0.05)\nitc_trace.touch('x', write=True)\n")

        def work() -> None:
            exec(f"import {name}")
            touch("x")

        def scenario() -> None:
            threads = [threading.Thread(target=work) for _ in range(4)]
            for thread in threads:
                thread.start()
            for thread in threads:
                thread.join()

        importlib.invalidate_caches()
        self.assert_ordered(scenario)

    def test_a_package_and_a_part_of_it_count_too(self) -> None:
        name = self.module(folder="package_of_orders")
        (self.folder / "package_of_orders" / "__init__.py").write_text("import itc_trace\nitc_trace.touch('y', write=True)\n")
        importlib.invalidate_caches()

        def work() -> None:
            exec(f"from package_of_orders import {name}")
            touch("x")
            touch("y")

        self.assert_ordered(lambda: in_turn(work, work))

    def test_what_follows_the_import_is_not_ordered(self) -> None:
        name = self.module()
        importlib.invalidate_caches()

        def work() -> None:
            exec(f"import {name}")
            write("y")

        self.assert_racing_things("y", lambda: in_turn(work, work))

    def test_a_module_that_fails_fails_as_it_did(self) -> None:
        name = self.module("import itc_trace\nraise ValueError('spoilt')\n")
        importlib.invalidate_caches()

        def scenario() -> None:
            for _ in range(2):
                with self.assertRaisesRegex(ValueError, "spoilt"):
                    importlib.import_module(name)
            with self.assertRaises(ModuleNotFoundError):
                exec("import no_module_of_orders")

        self.races(scenario)

    def test_a_traceback_shows_no_frame_of_the_package(self) -> None:
        name = self.module("raise ValueError('spoilt')\n")
        importlib.invalidate_caches()

        def files(load: Callable[[], object]) -> list[str]:
            try:
                load()
            except (ValueError, ImportError) as error:
                return [frame.filename for frame in traceback.extract_tb(error.__traceback__)]
            return []

        loads: list[Callable[[], object]] = [
            lambda: exec(f"import {name}"), lambda: importlib.import_module(name), lambda: exec("import no_module_of_orders"),
        ]
        plain = [files(load) for load in loads]
        self.races(lambda: self.assertEqual([files(load) for load in loads], plain))
        self.assertTrue(all(plain))

    def test_a_warning_of_a_module_names_the_line_that_imports_it(self) -> None:
        name = self.module("import warnings\nwarnings.warn('old', DeprecationWarning, stacklevel=2)\n")
        importlib.invalidate_caches()

        def scenario() -> None:
            with self.assertWarns(DeprecationWarning) as warned:
                exec(compile(f"import {name}", "importing.py", "exec"), {})
            self.assertEqual(warned.filename, "importing.py")

        self.races(scenario)


class Config:
    """Has a value that is computed once."""

    def __init__(self) -> None:
        self.times = 0

    @functools.cached_property
    def value(self) -> int:
        write("x")
        self.times += 1
        return 5


class CachedProperties(TracedCase):
    def test_who_reads_a_property_comes_after_who_computed_it(self) -> None:
        def scenario() -> None:
            config = Config()

            def read() -> None:
                self.assertEqual(config.value, 5)
                touch("x")
                write("y")

            in_turn(read, read, read)
            self.assertEqual(config.times, 1)

        self.assert_racing_things("y", scenario)

    def test_two_objects_order_nothing_between_them(self) -> None:
        def scenario() -> None:
            one, other = Config(), Config()
            in_turn(lambda: one.value, lambda: other.value)

        if sys.version_info < (3, 12):
            self.assert_racing_things("x", scenario)

    def test_a_property_behaves_as_it_did(self) -> None:
        def scenario() -> None:
            config: Any = Config()
            self.assertEqual(config.value, 5)
            self.assertEqual(vars(config)["value"], 5)
            config.value = 6
            self.assertEqual((config.value, vars(config)["value"]), (6, 6))
            del config.value
            self.assertEqual((config.value, config.times), (5, 2))
            del config.value
            with self.assertRaises(AttributeError):
                del config.value
            self.assertIsInstance(Config.value, functools.cached_property)

        self.races(scenario)


class BoundedQueues(TracedCase):
    def test_a_bounded_queue_serves_as_a_lock(self) -> None:
        for make in (lambda: queue.Queue(1), lambda: queue.LifoQueue(1), lambda: queue.PriorityQueue(1)):
            with self.subTest(make=make):

                def scenario() -> None:
                    one = make()

                    def work() -> None:
                        one.put(1)
                        write("x")
                        one.get()
                        write("y")

                    in_turn(work, work, work)

                self.assert_racing_things("y", scenario)

    def test_who_waited_for_room_comes_after_who_made_it(self) -> None:
        def scenario() -> None:
            one: queue.Queue[int] = queue.Queue(1)

            def work() -> None:
                for _ in range(20):
                    one.put(1)
                    write("x")
                    one.get()

            threads = [threading.Thread(target=work) for _ in range(3)]
            for thread in threads:
                thread.start()
            for thread in threads:
                thread.join()

        self.assert_ordered(scenario)

    def test_room_that_was_there_orders_nothing(self) -> None:
        def scenario() -> None:
            one: queue.Queue[int] = queue.Queue(2)

            def work() -> None:
                one.put(1)
                write("x")
                one.get()

            in_turn(work, work)

        self.assert_race(scenario)

    def test_room_of_a_larger_queue_orders_nothing(self) -> None:
        def scenario() -> None:
            one: queue.Queue[int] = queue.Queue(17)

            def fill_and_take() -> None:
                for number in range(17):
                    one.put(number)
                write("x")
                one.get()

            in_turn(fill_and_take, lambda: (one.put(17), write("x")))

        self.assert_race(scenario)

    def test_a_put_that_fails_takes_no_room(self) -> None:
        def scenario() -> None:
            one: queue.Queue[int] = queue.Queue(1)

            def fail() -> None:
                with self.assertRaises(queue.Full):
                    one.put_nowait(2)

            def first() -> None:
                one.put(1)
                fail()
                write("x")
                one.get()

            def second() -> None:
                one.put(1, timeout=WAIT)
                write("x")

            in_turn(first, second)
            self.assertEqual((one.qsize(), one.unfinished_tasks, one.get_nowait()), (1, 2, 1))
            with self.assertRaises(queue.Empty):
                one.get(timeout=0.001)

        self.assert_ordered(scenario)

    def test_a_bounded_queue_of_asyncio_serves_as_a_lock(self) -> None:
        async def main() -> None:
            one: asyncio.Queue[int] = asyncio.Queue(1)

            async def work() -> None:
                for _ in range(3):
                    await one.put(1)
                    write("x")
                    await asyncio.sleep(0)
                    write("x")
                    one.get_nowait()

            await asyncio.gather(*(work() for _ in range(3)))

        self.assert_ordered(lambda: asyncio.run(main()))

    def test_a_subclass_of_a_stack_is_a_stack(self) -> None:
        class Undo(queue.LifoQueue):  # type: ignore[type-arg]
            pass

        class Lifo(queue.Queue):  # type: ignore[type-arg]
            pass

        for make, racing in ((Undo, "x"), (Lifo, "y"), (lambda: Undo(9), "x"), (lambda: Lifo(9), "y")):
            with self.subTest(make=make):

                def scenario() -> None:
                    one = make()

                    def put(thing: str) -> None:
                        write(thing)
                        one.put(None)

                    def get() -> None:
                        one.get()
                        write("x")
                        write("y")

                    in_turn(lambda: put("x"), lambda: put("y"), get)

                self.assert_racing_things(racing, scenario)


class Ends(ProgramCase):
    """What runs in `atexit`."""

    def told(self, text: str) -> str:
        ran = run_traced(self.program(text))
        return ran.stderr.splitlines()[-1] + f" ({ran.returncode})"

    def test_what_runs_at_exit_comes_after_the_threads(self) -> None:
        for wait in ("", "thread.join()", "pool = concurrent.futures.ThreadPoolExecutor(2); pool.submit(work)"):
            with self.subTest(wait=wait):
                told = self.told(
                    "import atexit, concurrent.futures, threading, time, itc_trace\n"
                    "def work():\n    time.sleep(0.02)\n    itc_trace.touch('x', write=True)\n"
                    "thread = threading.Thread(target=work)\n"
                    "atexit.register(lambda: itc_trace.touch('x'))\n"
                    + ("thread.start()\n" if "pool" not in wait else "") + wait + "\n"
                )
                self.assertRegex(told, r"no race in this run: 2 places of 1 thing.* \(0\)")

    def test_what_runs_at_exit_is_not_ordered_with_a_daemon(self) -> None:
        told = self.told(
            "import atexit, os, threading, itc_trace\n"
            "end, beginning = os.pipe()\n"
            "def work():\n    itc_trace.touch('x', write=True)\n    os.write(beginning, b'x')\n"
            "threading.Thread(target=work, daemon=True).start()\n"
            "os.read(end, 1)\n"
            "atexit.register(lambda: itc_trace.touch('x'))\n"
        )
        self.assertRegex(told, r"1 race in .* \(66\)")

    def test_what_runs_at_exit_comes_after_its_registration(self) -> None:
        told = self.told(
            "import atexit, os, threading, itc_trace\n"
            "end, beginning = os.pipe()\n"
            "def work():\n    itc_trace.touch('x', write=True)\n    atexit.register(lambda: itc_trace.touch('x'))\n    os.write(beginning, b'x')\n"
            "threading.Thread(target=work, daemon=True).start()\n"
            "os.read(end, 1)\n"
        )
        self.assertRegex(told, r"no race in this run: 2 places of 1 thing.* \(0\)")

    def test_who_joins_the_main_thread_comes_after_it(self) -> None:
        told = self.told(
            "import threading, itc_trace\n"
            "def work():\n    threading.main_thread().join()\n    itc_trace.touch('x', write=True)\n"
            "threading.Thread(target=work).start()\n"
            "itc_trace.touch('x', write=True)\n"
        )
        self.assertRegex(told, r"no race in this run: 2 places of 1 thing.* \(0\)")

    def test_what_the_interpreter_calls_itself_is_traced_without_a_place(self) -> None:
        ran = run_traced("--watch-nothing", self.program(
            "import asyncio, atexit, concurrent.futures, functools, importlib, queue, threading, itc_trace\n"
            "lock, again, event, semaphore = threading.Lock(), threading.RLock(), threading.Event(), threading.Semaphore(0)\n"
            "some, one, simple = queue.Queue(), queue.Queue(1), queue.SimpleQueue()\n"
            "future, condition, table = concurrent.futures.Future(), threading.Condition(), itc_trace.shared({}, 'table')\n"
            "class Thing:\n    field = 1\n    value = functools.cached_property(id)\n"
            "thing, thread = itc_trace.shared(Thing(), 'thing'), threading.Thread(target=int)\n"
            "calls = [(lock.acquire,), (again.acquire,), (lock.release,), (again.release,), (event.set,), (event.wait,),\n"
            "    (semaphore.release,), (semaphore.acquire,), (some.put, 1), (some.get,), (some.task_done,), (some.join,), (one.put, 1),\n"
            "    (one.get,), (simple.put, 1), (simple.get,), (future.add_done_callback, int.bit_count), (future.set_result, 1),\n"
            "    (future.result,), (concurrent.futures.wait, [future]), (condition.acquire,), (condition.notify,),\n"
            "    (condition.release,), (thread.start,), (thread.join,), (thread.is_alive,), (table.update,), (getattr, thing, 'field'),\n"
            "    (setattr, thing, 'field', 2), (getattr, thing, 'value'), (itc_trace.touch, 'x'), (__import__, 'wave'),\n"
            "    (importlib.import_module, 'sndhdr'), (threading.Lock,), (threading.RLock,), (threading.Condition,), (queue.Queue,),\n"
            "    (queue.SimpleQueue,), (threading.Barrier(1).wait,), (itc_trace.shared, [], 'list'), (atexit.register, int),\n"
            "    (asyncio.run, asyncio.sleep(0)), (threading.Event().is_set,), (print, 'done')]\n"
            "for call in reversed(calls):\n    atexit.register(*call)\n"
        ))
        errors = [line for line in ran.stderr.splitlines() if "Error" in line and "bit_count" not in line and "descriptor" not in line]
        self.assertEqual((ran.returncode, ran.stdout, errors), (0, "done\n", []), ran.stderr)

    def test_a_function_can_be_unregistered(self) -> None:
        told = self.told(
            "import atexit, itc_trace\n"
            "def work():\n    itc_trace.touch('x', write=True)\n"
            "assert atexit.register(work) is work\n"
            "atexit.unregister(work)\n"
        )
        self.assertIn("of 0 things", told)


class NoOrders(TracedCase):
    """What looks like an order, and is none."""

    def test_a_poll_of_how_many_threads_there_are_orders_nothing(self) -> None:
        def scenario() -> None:
            before = threading.active_count()
            thread = threading.Thread(target=write)
            thread.start()
            while threading.active_count() > before:
                time.sleep(0.001)
            write()
            thread.join()

        self.assert_race(scenario)

    def test_a_list_of_the_threads_orders_nothing(self) -> None:
        def scenario() -> None:
            thread = threading.Thread(target=write)
            thread.start()
            while thread in threading.enumerate():
                time.sleep(0.001)
            write()
            thread.join()

        self.assert_race(scenario)

    def test_a_poll_of_a_queue_or_of_a_lock_orders_nothing(self) -> None:
        def poll_of_queue() -> tuple[Any, Any]:
            one: queue.Queue[int] = queue.Queue()
            return lambda: one.put(1), lambda: one.empty() or one.qsize()

        def poll_of_lock() -> tuple[Any, Any]:
            lock = threading.Lock()
            return lock.acquire, lock.locked

        for make in (poll_of_queue, poll_of_lock):
            with self.subTest(make=make):

                def scenario() -> None:
                    give, look = make()
                    in_turn(lambda: (write(), give()), lambda: (self.assertTrue(look()), write()))

                self.assert_race(scenario)

    def test_a_barrier_that_breaks_orders_nothing(self) -> None:
        def scenario() -> None:
            barrier = threading.Barrier(2)

            def wait() -> None:
                with self.assertRaises(threading.BrokenBarrierError):
                    barrier.wait(WAIT)
                write()

            in_turn(lambda: (write(), barrier.abort()), wait)

        self.assert_race(scenario)

    def test_a_context_orders_nothing(self) -> None:
        variable: contextvars.ContextVar[int] = contextvars.ContextVar("variable")
        context = contextvars.copy_context()

        def scenario() -> None:
            in_turn(lambda: (write(), context.run(variable.set, 1)), lambda: (context.run(variable.get), write()))

        self.assert_race(scenario)

    def test_what_a_thread_keeps_to_itself_orders_nothing(self) -> None:
        own = threading.local()

        def scenario() -> None:
            in_turn(lambda: (write(), setattr(own, "x", 1)), lambda: (setattr(own, "x", 2), write()))

        self.assert_race(scenario)

    def test_a_pipe_orders_nothing(self) -> None:
        def scenario() -> None:
            one, other = multiprocessing.Pipe()
            in_turn(lambda: (write(), one.send(1)), lambda: (other.recv(), write()))
            one.close()
            other.close()

        self.assert_race(scenario)

    def test_a_queue_of_processes_orders_nothing_in_a_block(self) -> None:
        def scenario() -> None:
            jobs: multiprocessing.queues.Queue[int] = multiprocessing.Queue()
            in_turn(lambda: (write(), jobs.put(1)), lambda: (jobs.get(), write()))
            jobs.close()
            jobs.join_thread()

        self.assert_race(scenario)

    def test_a_descriptor_of_a_loop_orders_nothing(self) -> None:
        def scenario() -> None:
            one, other = os.pipe()

            async def main() -> None:
                seen = asyncio.Event()
                asyncio.get_running_loop().add_reader(one, seen.set)
                thread = threading.Thread(target=lambda: (write(), os.write(other, b"x")))
                thread.start()
                await seen.wait()
                asyncio.get_running_loop().remove_reader(one)
                write()
                await asyncio.to_thread(thread.join)

            asyncio.run(main())
            os.close(one)
            os.close(other)

        self.assert_race(scenario)


if __name__ == "__main__":
    unittest.main()
