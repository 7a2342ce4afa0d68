"""Each primitive of `queue` and of `concurrent.futures` by itself."""

from __future__ import annotations

import concurrent.futures
import queue
import threading
import time
import unittest
from concurrent.futures import Future, ThreadPoolExecutor
from typing import Any

from itc_trace import touch
from itc_trace.sync.jobs_of_pools import FEW
from itc_trace.sync.queues import items_of

from .support import PART_EVENTS, WAIT, Step, TracedCase, in_turn, wait_until
from .test_threads import PAIRS, touch_with_each, write

MANY = 10 if PART_EVENTS else 3 * FEW
"""So many jobs of one pool. With a border after a few events each of them takes long."""

KINDS: list[Any] = [queue.Queue, queue.LifoQueue, queue.PriorityQueue, lambda: queue.SimpleQueue()]


class Queues(TracedCase):
    def test_who_gets_an_item_comes_after_who_put_it(self) -> None:
        for make in KINDS:
            with self.subTest(make=make):

                def scenario() -> None:
                    one = make()

                    def first() -> None:
                        write()
                        one.put(1)

                    def second() -> None:
                        one.get(timeout=WAIT)
                        write()

                    in_turn(first, second)

                self.assert_ordered(scenario)

    def test_what_follows_put_is_not_ordered(self) -> None:
        for make in KINDS:
            with self.subTest(make=make):

                def scenario() -> None:
                    one = make()

                    def first() -> None:
                        one.put(1)
                        write()

                    def second() -> None:
                        one.get()
                        write()

                    in_turn(first, second)

                self.assert_race(scenario)

    def test_an_item_of_somebody_else_orders_nothing(self) -> None:
        for make, racing in zip(KINDS, ("y", "x", "y", "y")):
            with self.subTest(make=make):

                def scenario() -> None:
                    one = make()

                    def put(thing: str) -> None:
                        write(thing)
                        one.put(thing)

                    def get() -> None:
                        one.get()
                        write("x")
                        write("y")

                    in_turn(lambda: put("x"), lambda: put("y"), get)

                self.assert_racing_things(racing, scenario)

    def test_the_same_item_twice_is_told_apart(self) -> None:
        def scenario() -> None:
            one: queue.Queue[None] = queue.Queue()

            def put(thing: str) -> None:
                write(thing)
                one.put(None)

            def get() -> None:
                one.get()
                write("x")
                write("y")

            in_turn(lambda: put("x"), lambda: put("y"), get)

        self.assert_racing_things("y", scenario)

    def test_the_same_item_often_is_told_apart(self) -> None:
        makes: list[tuple[Any, str]] = [(queue.Queue, "y z"), (queue.LifoQueue, "x y")]
        for make, racing in makes:
            with self.subTest(make=make):

                def scenario() -> None:
                    one = make()

                    def put(thing: str) -> None:
                        write(thing)
                        one.put(None)

                    def get() -> None:
                        one.get()
                        for thing in "xyz":
                            write(thing)

                    in_turn(*(lambda thing=thing: put(thing) for thing in "xyz"), get)

                self.assert_racing_things(racing, scenario)

    def test_items_that_a_task_puts_with_nothing_in_between_have_one_place(self) -> None:
        def scenario() -> None:
            one: queue.Queue[int] = queue.Queue()

            def put(touched: int | None) -> None:
                for number in range(4):
                    if number == touched:
                        write()
                    one.put(number)

            for touched, places in ((None, 1), (2, 2)):
                put(touched)
                self.assertEqual(len({items_of(one).remove(one.queue[number]) for number in range(4)}), places)
                one.queue.clear()

        self.races(scenario)

    def test_an_item_comes_after_what_was_done_before_it_at_a_line_that_has_put_another_one(self) -> None:
        for gets, told in ((1, self.assert_race), (2, self.assert_ordered)):
            with self.subTest(gets=gets):

                def scenario() -> None:
                    one: queue.Queue[int] = queue.Queue()

                    def first() -> None:
                        for number in range(2):
                            if number == 1:
                                write()
                            one.put(number)

                    def second() -> None:
                        for _ in range(gets):
                            one.get()
                        write()

                    in_turn(first, second)

                told(scenario)

    def test_what_a_task_learns_between_two_items_of_a_line_is_handed_on(self) -> None:
        for gets, told in ((1, self.assert_race), (2, self.assert_ordered)):
            with self.subTest(gets=gets):

                def scenario() -> None:
                    one: queue.Queue[int] = queue.Queue()
                    other: queue.Queue[int] = queue.Queue()
                    has_put, is_told, is_ready = Step(), Step(), Step()

                    def tell() -> None:
                        has_put.wait()
                        write()
                        other.put(1)
                        is_told.done()

                    def hand_on() -> None:
                        for number in range(2):
                            one.put(number)
                            if number == 0:
                                has_put.done()
                                is_told.wait()
                                other.get()
                        is_ready.done()

                    def use() -> None:
                        is_ready.wait()
                        for _ in range(gets):
                            one.get()
                        write()

                    threads = [threading.Thread(target=one) for one in (tell, hand_on, use)]
                    for thread in threads:
                        thread.start()
                    for thread in threads:
                        thread.join(WAIT)

                told(scenario)

    def test_who_takes_a_second_item_of_one_place_learns_nothing_later(self) -> None:
        def scenario() -> None:
            one: queue.Queue[int] = queue.Queue()

            def first() -> None:
                write("x")
                for number in range(2):
                    one.put(number)
                write("y")

            def second() -> None:
                one.get()
                write("x")
                one.get()
                write("y")

            in_turn(first, second)

        self.assert_racing_things("y", scenario)

    def test_a_condition_of_a_queue_that_is_not_held_cannot_be_notified(self) -> None:
        def scenario() -> None:
            one: queue.Queue[int] = queue.Queue()
            with self.assertRaises(RuntimeError):
                one.not_empty.notify()
            with one.not_empty:
                one.not_empty.notify()

        self.races(scenario)

    def test_join_comes_after_every_item_that_is_done(self) -> None:
        def scenario() -> None:
            one: queue.Queue[int] = queue.Queue()

            def work(thing: str) -> None:
                one.get()
                write(thing)
                one.task_done()

            one.put(1)
            one.put(2)
            workers = [threading.Thread(target=work, args=(thing,)) for thing in "xy"]
            for worker in workers:
                worker.start()
            one.join()
            write("x")
            write("y")
            for worker in workers:
                worker.join()

        self.assert_ordered(scenario)

    def test_a_full_queue_takes_no_token(self) -> None:
        def scenario() -> None:
            one: queue.Queue[int] = queue.Queue(1)
            one.put(1)
            with self.assertRaises(queue.Full):
                one.put_nowait(1)
            one.get()
            one.put(1)
            self.assertEqual(one.get(), 1)
            with self.assertRaises(queue.Empty):
                one.get_nowait()

        self.races(scenario)


class Pools(TracedCase):
    def test_a_job_comes_after_its_submission(self) -> None:
        for workers in (1, 4):
            with self.subTest(workers=workers):

                def scenario() -> None:
                    with ThreadPoolExecutor(workers) as pool:
                        write()
                        pool.submit(write)

                self.assert_ordered(scenario)

    def test_what_follows_submit_is_not_ordered(self) -> None:
        for workers in (1, 4):
            with self.subTest(workers=workers):

                def scenario() -> None:
                    with ThreadPoolExecutor(workers) as pool:
                        pool.submit(write)
                        write()

                self.assert_race(scenario)

    def test_the_end_of_a_pool_comes_after_a_job_whose_result_another_task_took(self) -> None:
        def scenario() -> None:
            pool = ThreadPoolExecutor(2)

            def end() -> None:
                pool.shutdown()
                write()

            in_turn(lambda: pool.submit(write).result(), end)

        self.assert_ordered(scenario)

    def test_the_end_of_a_pool_comes_after_jobs_that_are_long_over(self) -> None:
        def scenario() -> None:
            pool = ThreadPoolExecutor(2)

            def submit() -> None:
                for job in (write, *[int] * MANY):
                    pool.submit(job)
                    jobs = pool.__dict__["_itc_jobs"]
                    wait_until(lambda: all(line.has_ended for line in jobs._lines[:-2]))
                self.assertLess(len(jobs._lines), 2 * FEW)

            def end() -> None:
                pool.shutdown()
                write()

            in_turn(submit, end)

        self.assert_ordered(scenario)

    def test_who_waits_for_the_end_of_a_pool_behind_another_one_knows_nothing_of_that_one(self) -> None:
        def scenario() -> None:
            pool = ThreadPoolExecutor(2)
            for job in jobs(pool):
                job.result()
            del job
            time.sleep(0.1)

            def end(number: int) -> None:
                pool.shutdown()
                touch("job 0")
                touch_with_each(number)

            in_turn(lambda: end(0), lambda: end(1), lambda: end(2))

        for jobs in (
            lambda pool: [pool.submit(write, f"job {number}") for number in range(3)],
            lambda pool: [pool.submit(write, f"job {number}") for number in range(FEW + 9)],
        ):
            with self.subTest(jobs=jobs):
                found = self.races(scenario)
                self.assertEqual((" ".join(sorted(race.thing for race in found)), found.unseen), (PAIRS, []), found.text())

    def test_a_pool_knows_nothing_of_who_gave_its_first_job_later(self) -> None:
        def scenario() -> None:
            pool = ThreadPoolExecutor(2)

            def give() -> None:
                pool.submit(int)
                write("x")

            in_turn(give, lambda: (pool.shutdown(), write("x")))

        self.assert_race(scenario)

    def test_the_end_of_a_pool_does_not_come_after_what_those_did_who_took_results(self) -> None:
        for jobs in (1, MANY):
            for is_waited_for in (True, False):
                with self.subTest(jobs=jobs, is_waited_for=is_waited_for):

                    def scenario() -> None:
                        pool = ThreadPoolExecutor(2)

                        def ask() -> None:
                            for _ in range(jobs):
                                pool.submit(int).result()
                            write()

                        def end() -> None:
                            pool.shutdown(is_waited_for)
                            write()

                        in_turn(ask, end)

                    self.assert_race(scenario)

    def test_who_takes_a_result_comes_after_the_job(self) -> None:
        for take in (lambda future: future.result(), lambda future: future.exception(), wait_until_done,
                     lambda future: concurrent.futures.wait([future]),
                     lambda future: list(concurrent.futures.as_completed([future]))):
            for workers in (1, 4):
                with self.subTest(take=take, workers=workers):

                    def scenario() -> None:
                        with ThreadPoolExecutor(workers) as pool:
                            take(pool.submit(write))
                            write()

                    self.assert_ordered(scenario)

    def test_who_sees_that_a_future_is_cancelled_comes_after_who_cancelled_it(self) -> None:
        def scenario() -> None:
            future: Future[int] = Future()
            in_turn(lambda: (write(), future.cancel()), lambda: future.done() and write())

        self.assert_ordered(scenario)

    def test_who_asks_whether_a_future_is_cancelled_comes_after_who_cancelled_it(self) -> None:
        def after() -> None:
            future: Future[int] = Future()
            in_turn(lambda: (write(), future.cancel()), lambda: future.cancelled() and write())

        def too_late() -> None:
            future: Future[int] = Future()
            in_turn(lambda: (future.cancel(), write()), lambda: future.cancelled() and write())

        self.assert_ordered(after)
        self.assert_race(too_late)

    def test_the_end_of_a_pool_comes_after_its_jobs(self) -> None:
        def scenario() -> None:
            kept = []
            with ThreadPoolExecutor(4) as pool:
                kept.append(pool.submit(write, "x"))
                pool.submit(write, "y")
            write("x")
            write("y")

        self.assert_ordered(scenario)

    def test_jobs_of_one_pool_are_not_ordered(self) -> None:
        def scenario() -> None:
            with ThreadPoolExecutor(4) as pool:
                for _ in range(4):
                    pool.submit(write)
                    time.sleep(0.01)

        self.assert_race(scenario)

    def test_a_job_comes_after_its_own_submission_and_not_after_the_job_that_its_thread_ran_before(self) -> None:
        def scenario() -> None:
            step = Step()
            with ThreadPoolExecutor(2) as pool:
                pool.submit(step.wait)  # It leaves one thread for the others.
                first = pool.submit(write, "x")
                wait_until(lambda: first._state == "FINISHED")
                write("y")
                second = pool.submit(lambda: (write("x"), write("y")))
                wait_until(lambda: second._state == "FINISHED")
                step.done()

        self.assert_racing_things("x", scenario)

    def test_jobs_of_a_pool_of_one_thread_are_ordered(self) -> None:
        def scenario() -> None:
            with ThreadPoolExecutor(1) as pool:
                for _ in range(4):
                    pool.submit(write)

        self.assert_ordered(scenario)

    def test_map_is_ordered_both_ways(self) -> None:
        def scenario() -> None:
            write("x")
            with ThreadPoolExecutor(4) as pool:
                for number in pool.map(lambda number: (touch("x"), write(f"y{number}"), number)[2], range(4)):
                    write(f"y{number}")

        self.assert_ordered(scenario)

    def test_who_does_not_take_the_result_is_not_ordered(self) -> None:
        def scenario() -> None:
            with ThreadPoolExecutor(2) as pool:
                future = pool.submit(write)
                time.sleep(0.02)
                write()
                future.result()

        self.assert_race(scenario)

    def test_a_failed_job_tells_its_end_too(self) -> None:
        def fail() -> None:
            write()
            raise ValueError

        def scenario() -> None:
            with ThreadPoolExecutor(2) as pool:
                with self.assertRaises(ValueError):
                    pool.submit(fail).result()
                write()

        self.assert_ordered(scenario)

    def test_the_initializer_comes_before_the_jobs(self) -> None:
        for workers in (1, 3):
            with self.subTest(workers=workers):

                def scenario() -> None:
                    with ThreadPoolExecutor(workers, initializer=lambda: touch("x")) as pool:
                        pool.submit(time.sleep, 0).result()

                self.races(scenario)
                self.assertEqual([row.kind for row in self.rows if row.is_touch], ["read"])

    def test_two_who_take_one_result_are_not_ordered_by_that(self) -> None:
        def scenario() -> None:
            with ThreadPoolExecutor(2) as pool:
                future = pool.submit(write)

                def take() -> None:
                    future.result()
                    touch("x")
                    write("y")

                in_turn(take, take)

        self.assert_racing_things("y", scenario)

    def test_a_future_made_by_hand_carries_order(self) -> None:
        def scenario() -> None:
            future: Future[int] = Future()

            def first() -> None:
                write()
                future.set_result(1)
                write("y")

            def second() -> None:
                future.result(WAIT)
                write()
                write("y")

            in_turn(first, second)

        self.assert_racing_things("y", scenario)

    def test_a_callback_comes_after_the_job(self) -> None:
        def scenario() -> None:
            step = Step()
            with ThreadPoolExecutor(2) as pool:
                future = pool.submit(lambda: (step.wait(), write()))
                future.add_done_callback(lambda _: write())
                step.done()
            done: Future[int] = pool_result()
            done.add_done_callback(lambda _: touch("z"))

        self.assert_ordered(scenario)

    @unittest.skipIf(PART_EVENTS, "each of many borders would be crossed by a thousand jobs")
    def test_thousands_of_jobs_do_not_use_up_the_tasks(self) -> None:
        def scenario() -> None:
            with ThreadPoolExecutor(2) as pool:
                for _ in range(3000):
                    pool.submit(int).result()

        self.races(scenario)
        self.assertLess(len({row.task for row in self.rows}), 1100)


def pool_result() -> Future[int]:
    with ThreadPoolExecutor(2) as pool:
        return pool.submit(int)


def wait_until_done(future: Future[Any]) -> None:
    while not future.done():
        time.sleep(0.001)


if __name__ == "__main__":
    unittest.main()
