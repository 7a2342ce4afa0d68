"""The pool of threads of `multiprocessing`: what its two threads that hand jobs and results on do by luck is no order."""

from __future__ import annotations

import unittest
from _thread import get_ident
from collections.abc import Iterator
from multiprocessing.pool import ThreadPool
from typing import Any

from itc_trace import touch
from itc_trace.model.lines import state

from .support import Step, TracedCase, in_turn, wait_until
from .test_threads import PAIRS, touch_with_each, write


def write_part(number: int) -> int:
    write(f"part {number}")
    return number


class ThreadPools(TracedCase):
    def test_a_job_comes_after_its_submission_and_its_result_after_it(self) -> None:
        def scenario() -> None:
            with ThreadPool(2) as pool:
                write("x")
                pool.apply(write, ("x",))
                write("x")
                pool.map(write_part, range(4))
                write("part 0")
                write("part 3")

        self.assert_ordered(scenario)

    def test_a_result_is_not_ordered_with_a_job_that_was_done_before(self) -> None:
        def scenario() -> None:
            with ThreadPool(2) as pool:
                first = pool.apply_async(write, ("x",))
                wait_until(lambda: first._event._flag)
                pool.apply(write, ("y",))
                write("y")
                write("x")

        self.assert_racing_things("x", scenario)

    def test_a_job_is_not_ordered_with_who_submitted_another_one_before(self) -> None:
        def scenario() -> None:
            with ThreadPool(2) as pool:

                def submit() -> None:
                    write("x")
                    pool.apply(int)

                in_turn(submit, lambda: pool.apply(write, ("x",)))

        self.assert_racing_things("x", scenario)

    def test_two_jobs_are_not_ordered_by_the_thread_that_runs_both(self) -> None:
        def scenario() -> None:
            step = Step()
            with ThreadPool(2) as pool:
                busy = pool.apply_async(step.wait)  # It leaves one thread for the others.
                for job in [pool.apply_async(write, ("x",)) for _ in range(2)]:
                    job.wait()
                step.done()
                busy.wait()

        self.assert_racing_things("x", scenario)

    def test_who_joins_a_pool_behind_another_one_knows_nothing_of_that_one(self) -> None:
        def scenario() -> None:
            pool = ThreadPool(2)
            pool.apply(write, ("job",))
            pool.close()

            def end(number: int) -> None:
                pool.join()
                touch("job")
                touch_with_each(number)

            in_turn(lambda: end(0), lambda: end(1), lambda: end(2))

        self.assert_racing_things(PAIRS, scenario)

    def test_jobs_of_a_pool_of_one_thread_are_in_order(self) -> None:
        def scenario() -> None:
            with ThreadPool(1) as pool:
                write("x")
                pool.map(lambda _: write("x"), range(4))
                write("x")

        self.assert_ordered(scenario)

    def test_who_sees_that_a_result_is_there_comes_after_the_job(self) -> None:
        def scenario() -> None:
            with ThreadPool(2) as pool:
                result = pool.apply_async(write, ("x",))
                wait_until(lambda: result._event._flag)
                if result.ready():
                    write("x")

        self.assert_ordered(scenario)

    def test_who_waits_in_vain_does_not_come_after_the_job(self) -> None:
        def scenario() -> None:
            step = Step()
            with ThreadPool(2) as pool:
                result = pool.apply_async(lambda: (write("x"), step.wait()))
                result.wait(0.05)
                write("x")
                step.done()
                result.get()

        self.assert_race(scenario)

    def test_a_callback_comes_after_its_job_and_the_result_after_the_callback(self) -> None:
        def scenario() -> None:
            with ThreadPool(2) as pool:
                write("added")
                result = pool.apply_async(write_part, (1,), callback=lambda number: (write("added"), write(f"part {number}"), write("called")))
                result.wait()
                write("called")
                failed = pool.map_async(lambda number: 1 // number, [0], error_callback=lambda _: write("failed"))
                failed.wait()
                write("failed")

        self.assert_ordered(scenario)

    def test_each_result_of_imap_comes_after_its_own_job(self) -> None:
        for name in ("imap", "imap_unordered"):
            with self.subTest(name=name):
                first: list[int] = []

                def scenario() -> None:
                    with ThreadPool(2) as pool:
                        results: Any = getattr(pool, name)(write_part, range(2))
                        wait_until(lambda: len(results._items) == 2)
                        first[:] = [next(results)]
                        write("part 0")
                        write("part 1")
                        next(results)

                found = self.races(scenario)
                self.assertEqual({race.thing for race in found}, {f"part {1 - first[0]}"}, found.text())

    def test_jobs_of_imap_come_after_the_step_that_made_their_argument(self) -> None:
        def steps() -> Iterator[int]:
            for number in range(3):
                write("step")
                write(f"part {number}")
                yield number

        def scenario() -> None:
            with ThreadPool(2) as pool:
                write("step")
                for number in pool.imap(write_part, steps()):
                    write(f"part {number}")

        self.assert_ordered(scenario)

    def test_who_joined_a_pool_comes_after_all_of_its_jobs(self) -> None:
        def scenario() -> None:
            pool = ThreadPool(2)
            for number in range(3):
                pool.apply_async(write_part, (number,))
            pool.close()
            pool.join()
            for number in range(3):
                write(f"part {number}")

        self.assert_ordered(scenario)

    def test_a_job_comes_after_the_initializer(self) -> None:
        def scenario() -> None:
            with ThreadPool(2, lambda: write(f"thread {get_ident()}")) as pool:
                pool.map(lambda _: write(f"thread {get_ident()}"), range(1))

        self.assert_ordered(scenario)

    def test_jobs_that_are_no_tasks_of_their_own_are_ordered_with_their_results(self) -> None:
        def scenario() -> None:
            assert state.tracer is not None
            state.tracer.most_lines = 2
            with ThreadPool(2) as pool:
                for _ in range(6):
                    write("x")
                    pool.apply(write, ("x",))
                write("x")

        self.assert_ordered(scenario)


if __name__ == "__main__":
    unittest.main()
