"""Each primitive of `asyncio` by itself."""

from __future__ import annotations

import asyncio
import concurrent.futures
import contextlib
import gc
import sys
import threading
import time
import unittest
from collections.abc import Awaitable, Callable, Coroutine
from typing import Any

from itc_trace import touch

from .support import WAIT, TracedCase, in_turn
from .test_threads import PAIRS, touch_with_each, write

Work = Callable[[], Awaitable[Any]]


async def one_after_another(*steps: Work) -> None:
    """Runs each in a task of its own, one after another, and lets nothing that is traced tell so."""
    done = [False] * len(steps)

    async def run(number: int) -> None:
        while number > 0 and not done[number - 1]:
            await asyncio.sleep(0)
        await steps[number]()
        done[number] = True

    await asyncio.gather(*(run(number) for number in range(len(steps))))


async def writing(thing: str = "x") -> None:
    write(thing)


class Asynchronous(TracedCase):
    def ordered(self, main: Callable[[], Coroutine[Any, Any, Any]]) -> None:
        self.assert_ordered(lambda: asyncio.run(main()))

    def race(self, main: Callable[[], Coroutine[Any, Any, Any]]) -> None:
        self.assert_race(lambda: asyncio.run(main()))

    def racing(self, things: str, main: Callable[[], Coroutine[Any, Any, Any]]) -> None:
        self.assert_racing_things(things, lambda: asyncio.run(main()))


class Tasks(Asynchronous):
    def test_a_run_comes_between_what_precedes_and_what_follows(self) -> None:
        def scenario() -> None:
            write()
            asyncio.run(writing())
            write()

        self.assert_ordered(scenario)

    def test_each_run_of_a_runner_comes_between_what_precedes_and_what_follows(self) -> None:
        def scenario() -> None:
            with asyncio.Runner() as runner:
                for _ in range(2):
                    write()
                    runner.run(writing())
            write()

        self.assert_ordered(scenario)

    def test_runners_of_two_threads_are_not_ordered(self) -> None:
        def run() -> None:
            with asyncio.Runner() as runner:
                runner.run(writing())

        self.assert_race(lambda: in_turn(run, run))

    def test_a_runner_orders_no_threads_that_run_it_in_turn(self) -> None:
        def scenario() -> None:
            with asyncio.Runner() as runner:
                in_turn(lambda: runner.run(writing()), lambda: runner.run(writing()))

        self.assert_race(scenario)

    def test_a_task_comes_after_its_making_and_before_its_await(self) -> None:
        async def main() -> None:
            write()
            await asyncio.create_task(writing())
            write()

        self.ordered(main)

    def test_a_failed_task_comes_before_its_await_too(self) -> None:
        async def fail() -> None:
            write()
            raise ValueError

        async def main() -> None:
            with self.assertRaises(ValueError):
                await asyncio.create_task(fail())
            write()

        self.ordered(main)

    def test_what_follows_the_making_is_not_ordered(self) -> None:
        async def main() -> None:
            task = asyncio.create_task(writing())
            write()
            await task

        self.race(main)

    def test_two_tasks_are_not_ordered_by_turns(self) -> None:
        async def main() -> None:
            await one_after_another(writing, writing)

        self.race(main)

    def test_an_await_of_a_coroutine_is_no_task(self) -> None:
        async def main() -> None:
            await writing()
            write()

        self.ordered(main)
        self.assertEqual(len({row.task for row in self.rows if row.is_touch}), 1)

    def test_gather_comes_after_all(self) -> None:
        async def main() -> None:
            write("x")
            await asyncio.gather(writing("y"), writing("z"), asyncio.create_task(writing("u")))
            for thing in "xyzu":
                write(thing)

        self.ordered(main)

    def test_gathered_tasks_are_not_ordered(self) -> None:
        async def main() -> None:
            await asyncio.gather(writing(), writing())

        self.race(main)

    def test_wait_comes_after_those_that_are_done(self) -> None:
        async def main() -> None:
            never = asyncio.create_task(asyncio.sleep(WAIT))
            task = asyncio.create_task(writing())
            await asyncio.wait([task, never], return_when=asyncio.FIRST_COMPLETED)
            write()
            never.cancel()

        self.ordered(main)

    def test_other_ways_to_wait_come_after_the_task(self) -> None:
        async def as_completed(task: Any) -> None:
            for one in asyncio.as_completed([task]):
                await one

        for wait in (lambda task: asyncio.wait_for(task, WAIT), asyncio.shield, as_completed):
            with self.subTest(wait=wait):

                async def main() -> None:
                    await wait(asyncio.create_task(writing()))
                    write()

                self.ordered(main)

    def test_a_result_that_is_looked_at_comes_after_the_task(self) -> None:
        async def main() -> None:
            task = asyncio.create_task(writing())
            await asyncio.sleep(0.01)
            task.result()
            write()

        self.ordered(main)

    def test_a_group_comes_after_all_of_its_tasks(self) -> None:
        async def main() -> None:
            async with asyncio.TaskGroup() as group:
                group.create_task(writing("x"))
                group.create_task(writing("y"))
            write("x")
            write("y")

        self.ordered(main)

    def test_several_who_await_one_task_are_not_ordered_by_that(self) -> None:
        async def main() -> None:
            task = asyncio.create_task(writing())

            async def wait() -> None:
                await task
                touch("x")
                write("y")

            await one_after_another(wait, wait)

        self.racing("y", main)

    def test_who_take_what_a_task_gave_last_are_not_ordered_by_that(self) -> None:
        """The task is gone as they take it, and who has awaited it goes on."""
        def scenario() -> None:
            event, items = asyncio.Event(), asyncio.Queue[int]()

            async def give_last() -> None:
                write("x")
                give(event, items)

            async def first() -> None:
                await asyncio.create_task(give_last())
                touch_with_each(0)

            async def then(number: int) -> None:
                await take(event, items)
                touch("x")
                touch_with_each(number)

            in_turn(
                lambda: (asyncio.run(first()), gc.collect(), time.sleep(0.1)), lambda: asyncio.run(then(1)),
                lambda: asyncio.run(then(2)),
            )

        ways: tuple[tuple[Any, Any], ...] = (
            (lambda event, items: event.set(), lambda event, items: event.wait()),
            (lambda event, items: [items.put_nowait(number) for number in range(2)], lambda event, items: items.get()),
        )
        for give, take in ways:
            self.assert_racing_things(PAIRS, scenario)

    def test_tasks_are_named(self) -> None:
        async def main() -> None:
            await asyncio.create_task(writing(), name="alice")
            await asyncio.create_task(writing())

        self.ordered(main)
        self.assertEqual([row.task for row in self.rows if row.is_touch], ["alice", "writing_1"])

    def test_tasks_of_a_group_are_named(self) -> None:
        """The name of one that has none is no name of another."""

        async def main() -> None:
            async with asyncio.TaskGroup() as group:
                for number in range(3):
                    group.create_task(writing(f"x{number}"), name=f"writing_{number}")
                group.create_task(writing("y"), name=7)  # type: ignore[arg-type]
                group.create_task(coro=writing("z"), name="by_word")

        self.ordered(main)
        told = {row.thing: row.task for row in self.rows if row.is_touch}
        self.assertEqual(told, {"x0": "writing_0", "x1": "writing_1", "x2": "writing_2", "y": "7", "z": "by_word"})

    def test_hundreds_of_tasks_end_and_are_joined(self) -> None:
        async def main() -> None:
            for _ in range(500):
                await asyncio.create_task(writing())

        self.ordered(main)
        self.assertGreater([row.kind for row in self.rows].count("join"), 400)


    def test_who_sees_a_task_done_comes_after_its_end(self) -> None:
        async def main() -> None:
            task = asyncio.create_task(writing())
            while not task.done():
                await asyncio.sleep(0)
            write()

        self.ordered(main)


class Runs(Asynchronous):
    """What a thread does before and behind a run of its loop is in order with what the loop's tasks do in this run."""

    def test_what_follows_a_run_comes_after_tasks_that_nobody_awaits(self) -> None:
        async def begin(ends_first: bool) -> None:
            kept.append(asyncio.create_task(writing()))
            asyncio.create_task(writing("y"))
            if ends_first:
                await asyncio.sleep(0)

        def scenario() -> None:
            asyncio.run(begin(ends_first))
            write()
            write("y")

        for ends_first in (True, False):
            kept: list[Any] = []
            self.assert_ordered(scenario)

    def test_what_follows_a_run_comes_after_a_task_that_is_cancelled_at_its_end(self) -> None:
        async def last() -> None:
            try:
                await asyncio.sleep(WAIT)
            finally:
                write()

        async def begin() -> None:
            asyncio.create_task(last())
            await asyncio.sleep(0)

        def scenario() -> None:
            asyncio.run(begin())
            write()

        self.assert_ordered(scenario)

    def test_what_stands_between_two_runs_is_in_order_with_a_task_of_both(self) -> None:
        async def often() -> None:
            for _ in range(4):
                write()
                await asyncio.sleep(0)

        def scenario() -> None:
            with contextlib.closing(asyncio.new_event_loop()) as loop:
                task = loop.create_task(often())
                write()
                for _ in range(2):
                    loop.run_until_complete(asyncio.sleep(0))
                    write()
                loop.run_until_complete(task)

        self.assert_ordered(scenario)

    def test_who_joins_a_thread_comes_after_the_tasks_of_its_loop(self) -> None:
        async def begin() -> None:
            asyncio.create_task(writing())
            await asyncio.sleep(0)

        def scenario() -> None:
            thread = threading.Thread(target=asyncio.run, args=(begin(),))
            thread.start()
            thread.join()
            write()

        self.assert_ordered(scenario)

    def test_a_coroutine_of_another_thread_comes_after_what_precedes_the_run(self) -> None:
        def scenario() -> None:
            loop = asyncio.new_event_loop()

            def run() -> None:
                write()
                loop.run_forever()
                loop.close()

            thread = threading.Thread(target=run)
            thread.start()
            asyncio.run_coroutine_threadsafe(writing(), loop).result(WAIT)
            loop.call_soon_threadsafe(loop.stop)
            thread.join()

        self.assert_ordered(scenario)

    def test_a_thread_that_is_not_joined_is_not_in_order_with_the_tasks_of_its_loop(self) -> None:
        async def begin() -> None:
            asyncio.create_task(writing())
            await asyncio.sleep(0)

        def scenario() -> None:
            thread = threading.Thread(target=asyncio.run, args=(begin(),))
            thread.start()
            write()
            thread.join()

        self.assert_race(scenario)

    def test_a_task_for_the_loop_of_another_thread_is_in_order_with_nobody_where_it_was_made(self) -> None:
        async def begin() -> None:
            loop = asyncio.new_event_loop()
            threads.append(threading.Thread(target=loop.run_until_complete, args=(loop.create_task(last()),)))
            threads[0].start()
            while not is_written:
                await asyncio.sleep(0.001)

        async def last() -> None:
            write()
            is_written.append(True)

        def scenario() -> None:
            asyncio.run(begin())
            write()
            threads[0].join()

        threads: list[threading.Thread] = []
        is_written: list[bool] = []
        self.assert_race(scenario)

    def test_a_task_that_has_ended_is_in_order_with_nobody_before_its_loop_stops(self) -> None:
        async def main() -> None:
            asyncio.create_task(writing())
            await asyncio.sleep(0)
            asyncio.get_running_loop().call_soon(write)
            await asyncio.create_task(writing("y"))
            write("y")

        self.racing("x", main)


class Futures(Asynchronous):
    def test_an_error_of_a_future_carries_order(self) -> None:
        async def main() -> None:
            future = asyncio.get_running_loop().create_future()

            async def give() -> None:
                write()
                future.set_exception(ValueError())

            async def take() -> None:
                with contextlib.suppress(ValueError):
                    await future
                write()

            await asyncio.gather(take(), give())

        self.ordered(main)

    def test_who_takes_a_result_without_waiting_comes_after_who_set_it(self) -> None:
        for name in ("result", "exception", "done"):
            with self.subTest(name=name):

                async def main() -> None:
                    future = asyncio.get_running_loop().create_future()

                    async def give() -> None:
                        write()
                        future.set_result(None)

                    async def take() -> None:
                        getattr(future, name)()
                        write()

                    await one_after_another(give, take)

                self.ordered(main)

    def test_who_sees_it_cancelled_comes_after_who_cancelled_it(self) -> None:
        for steps, is_ordered in (("write cancel", True), ("cancel write", False)):
            with self.subTest(steps=steps):

                async def main() -> None:
                    future = asyncio.get_running_loop().create_future()
                    do = {"write": write, "cancel": future.cancel}

                    async def give() -> None:
                        for step in steps.split():
                            do[step]()

                    async def take() -> None:
                        self.assertTrue(future.cancelled())
                        write()

                    await one_after_another(give, take)

                (self.ordered if is_ordered else self.race)(main)

    def test_who_sees_a_task_cancelled_comes_after_its_end(self) -> None:
        async def main() -> None:
            async def give() -> None:
                write()
                raise asyncio.CancelledError

            task = asyncio.create_task(give())
            while not task.cancelled():
                await asyncio.sleep(0)
            write()

        self.ordered(main)

    def test_who_sees_a_gathering_done_comes_after_all_of_it(self) -> None:
        async def main() -> None:
            gathering = asyncio.gather(writing("x"), writing("y"))
            while not gathering.done():
                await asyncio.sleep(0)
            write("x")
            write("y")

        self.ordered(main)

    def test_a_later_callback_comes_after_who_asked_for_it(self) -> None:
        for name in ("call_later", "call_at"):
            with self.subTest(name=name):

                async def main() -> None:
                    loop, called = asyncio.get_running_loop(), []
                    write()
                    getattr(loop, name)(loop.time() if name == "call_at" else 0.001, lambda: (write(), called.append(1)))
                    while not called:
                        await asyncio.sleep(0)

                self.ordered(main)

    def test_a_wrapped_future_of_threads_carries_order(self) -> None:
        async def main() -> None:
            future: concurrent.futures.Future[None] = concurrent.futures.Future()
            thread = threading.Thread(target=lambda: (write(), future.set_result(None)))
            wrapped = asyncio.wrap_future(future)
            thread.start()
            await wrapped
            write()

        self.ordered(main)

    def test_a_future_carries_order(self) -> None:
        for make in (asyncio.get_running_loop, None):
            with self.subTest(make=make):

                async def main() -> None:
                    future = asyncio.Future() if make is None else make().create_future()

                    async def give() -> None:
                        write()
                        future.set_result(None)
                        write("y")

                    async def take() -> None:
                        await future
                        write()
                        write("y")

                    await asyncio.gather(take(), give())

                self.racing("y", main)

    def test_to_thread_is_ordered_both_ways(self) -> None:
        async def main() -> None:
            write()
            await asyncio.to_thread(write)
            write()

        self.ordered(main)

    def test_what_runs_in_a_thread_meanwhile_is_not_ordered(self) -> None:
        async def main() -> None:
            waiting = asyncio.ensure_future(asyncio.to_thread(write))
            await asyncio.sleep(0.02)
            write()
            await waiting

        self.race(main)

    def test_an_executor_is_ordered_both_ways(self) -> None:
        async def main() -> None:
            write()
            await asyncio.get_running_loop().run_in_executor(None, write)
            write()

        self.ordered(main)

    def test_a_coroutine_of_another_thread_is_ordered_both_ways(self) -> None:
        async def main() -> None:
            loop = asyncio.get_running_loop()

            def work() -> None:
                write()
                asyncio.run_coroutine_threadsafe(writing(), loop).result(WAIT)
                write()

            await asyncio.to_thread(work)

        self.ordered(main)

    def test_a_coroutine_of_another_thread_is_not_ordered_with_what_follows(self) -> None:
        async def main() -> None:
            loop = asyncio.get_running_loop()

            def work() -> None:
                future = asyncio.run_coroutine_threadsafe(writing(), loop)
                write()
                future.result(WAIT)

            await asyncio.to_thread(work)

        self.race(main)

    def test_a_callback_comes_after_who_asked_for_it(self) -> None:
        async def main() -> None:
            loop = asyncio.get_running_loop()
            for call in (loop.call_soon, loop.call_soon_threadsafe, lambda run: loop.call_later(0.001, run)):
                write()
                call(write)
                await asyncio.sleep(0.01)
                break

        self.assert_ordered(lambda: asyncio.run(main()))

    def test_a_call_from_another_thread_wakes_in_order(self) -> None:
        async def main() -> None:
            loop, event = asyncio.get_running_loop(), asyncio.Event()

            def work() -> None:
                write()
                loop.call_soon_threadsafe(event.set)

            thread = threading.Thread(target=work)
            thread.start()
            await event.wait()
            write()
            thread.join()

        self.ordered(main)

    def test_a_timer_of_the_loop_orders_nothing(self) -> None:
        async def main() -> None:
            async def sleep() -> None:
                await asyncio.sleep(0.01)
                write()

            await asyncio.gather(writing(), sleep())

        self.race(main)


class Locks(Asynchronous):
    def test_who_acquires_comes_after_who_released(self) -> None:
        for make in (asyncio.Lock, lambda: asyncio.Semaphore(1), lambda: asyncio.BoundedSemaphore(1), asyncio.Condition):
            with self.subTest(make=make):

                async def main() -> None:
                    lock = make()

                    async def work() -> None:
                        async with lock:
                            write()
                            await asyncio.sleep(0)

                    await asyncio.gather(work(), work(), work())

                self.ordered(main)

    def test_what_follows_a_release_is_not_ordered(self) -> None:
        async def main() -> None:
            lock = asyncio.Lock()

            async def first() -> None:
                async with lock:
                    pass
                write()

            async def second() -> None:
                async with lock:
                    write()

            await one_after_another(first, second)

        self.race(main)

    def test_a_permit_that_was_there_carries_no_order(self) -> None:
        async def main() -> None:
            semaphore = asyncio.Semaphore(2)

            async def work() -> None:
                async with semaphore:
                    write()

            await one_after_another(work, work)

        self.race(main)

    def test_who_is_notified_comes_after_who_notified(self) -> None:
        async def main() -> None:
            condition, ready = asyncio.Condition(), []

            async def consume() -> None:
                async with condition:
                    while not ready:
                        await condition.wait()
                write()

            async def produce() -> None:
                async with condition:
                    write()
                    ready.append(1)
                    condition.notify_all()

            await asyncio.gather(consume(), produce())

        self.ordered(main)

    def test_who_is_woken_comes_after_the_call_that_woke_it(self) -> None:
        async def main() -> None:
            condition: Any = asyncio.Condition()

            async def consume() -> None:
                async with condition:
                    await condition.wait()
                    self.assertEqual(condition._waiters._tokens, {})
                    self.assertEqual(condition._waiters._mine, {})

            waiting = asyncio.create_task(consume())
            while not condition._waiters:
                await asyncio.sleep(0)
            async with condition:
                condition.notify()
                self.assertEqual([token.what.hint for token in condition._waiters._tokens.values()], ["notify"])
            await waiting

        self.races(lambda: asyncio.run(main()))

    def test_who_sees_an_event_set_comes_after_who_set_it(self) -> None:
        async def main() -> None:
            event = asyncio.Event()

            async def first() -> None:
                write()
                event.set()

            async def second() -> None:
                if event.is_set():
                    write()

            await one_after_another(first, second)

        self.ordered(main)

    def test_an_event_carries_order(self) -> None:
        async def main() -> None:
            event = asyncio.Event()

            async def first() -> None:
                write()
                event.set()
                write("y")

            async def second() -> None:
                await event.wait()
                write()
                write("y")

            await asyncio.gather(second(), first())

        self.racing("y", main)

    @unittest.skipUnless(hasattr(asyncio, "Barrier"), "this Python has no barrier")
    def test_a_barrier_orders_arriving_before_leaving(self) -> None:
        async def main() -> None:
            barrier = asyncio.Barrier(3)

            async def work(number: int) -> None:
                for _ in range(2):
                    write(f"x{number}")
                    await barrier.wait()
                    for other in range(3):
                        touch(f"x{other}")
                    await barrier.wait()
                write("y")

            await asyncio.gather(*(work(number) for number in range(3)))

        self.racing("y", main)


class Queues(Asynchronous):
    def test_who_gets_an_item_comes_after_who_put_it(self) -> None:
        for make in (asyncio.Queue, asyncio.LifoQueue, asyncio.PriorityQueue):
            for size in (0, 1):
                with self.subTest(make=make, size=size):

                    async def main() -> None:
                        queue = make(size)

                        async def produce() -> None:
                            for number in range(3):
                                write(f"x{number}")
                                await queue.put(number)
                            write("y")

                        async def consume() -> None:
                            for _ in range(3):
                                write(f"x{await queue.get()}")
                            write("y")

                        await asyncio.gather(consume(), produce())

                    self.racing("y", main)

    def test_who_is_woken_by_another_item_is_not_ordered_by_that(self) -> None:
        async def main() -> None:
            queue: asyncio.Queue[str] = asyncio.Queue()

            async def put(thing: str) -> None:
                write(thing)
                queue.put_nowait(thing)

            async def get() -> None:
                self.assertEqual(await queue.get(), "x")
                write("x")
                write("y")

            await one_after_another(lambda: put("x"), lambda: put("y"), get)

        self.racing("y", main)

    def test_join_comes_after_every_item_that_is_done(self) -> None:
        async def main() -> None:
            queue: asyncio.Queue[str] = asyncio.Queue()

            async def work() -> None:
                write(await queue.get())
                queue.task_done()

            workers = [asyncio.create_task(work()) for _ in range(2)]
            queue.put_nowait("x")
            queue.put_nowait("y")
            await queue.join()
            write("x")
            write("y")
            await asyncio.gather(*workers)

        self.ordered(main)


if __name__ == "__main__":
    sys.exit(unittest.main())
