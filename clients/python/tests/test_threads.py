"""Each primitive of `threading` by itself: the order that it gives, and none that it does not give."""

from __future__ import annotations

import _thread
import asyncio
import concurrent.futures
import gc
import threading
import time
import unittest
from typing import Any

from itc_trace import touch
from itc_trace.model.lines import TAKE_END, state
from itc_trace.record.awaited import awaited
from itc_trace.record.noting import line_of_now

from .support import PART_EVENTS, WAIT, Step, TracedCase, in_turn, wait_until


def write(thing: str = "x") -> None:
    touch(thing, write=True)


PAIRS = "01 02 12"
"""The things by which `touch_with_each` tells of three that none comes after another one."""


def touch_with_each(number: int) -> None:
    """Each two of three tasks have a thing of their own."""
    for pair in PAIRS.split():
        if str(number) in pair:
            write(pair)


class Threads(TracedCase):
    def test_what_precedes_start_comes_before_the_thread(self) -> None:
        def scenario() -> None:
            write()
            thread = threading.Thread(target=write)
            thread.start()
            thread.join()

        self.assert_ordered(scenario)

    def test_what_follows_start_is_not_ordered_with_the_thread(self) -> None:
        def scenario() -> None:
            thread = threading.Thread(target=write)
            thread.start()
            write()
            thread.join()

        self.assert_race(scenario)

    def test_join_comes_after_the_thread(self) -> None:
        def scenario() -> None:
            thread = threading.Thread(target=write)
            thread.start()
            thread.join()
            write()

        self.assert_ordered(scenario)

    def test_join_that_times_out_orders_nothing(self) -> None:
        def scenario() -> None:
            step, seen = Step(), Step()

            def work() -> None:
                write()
                seen.done()
                step.wait()

            thread = threading.Thread(target=work)
            thread.start()
            seen.wait()
            thread.join(0.01)
            write()
            step.done()
            thread.join()

        self.assert_race(scenario)

    def test_a_thread_seen_dead_has_happened_before(self) -> None:
        def scenario() -> None:
            thread = threading.Thread(target=write)
            thread.start()
            while thread.is_alive():
                time.sleep(0.001)
            write()

        self.assert_ordered(scenario)

    def test_two_threads_are_not_ordered_by_their_parent(self) -> None:
        self.assert_race(lambda: in_turn(write, write))

    def test_all_who_join_come_after_the_thread(self) -> None:
        def scenario() -> None:
            thread = threading.Thread(target=write)

            def wait() -> None:
                thread.join()
                touch("x")

            thread.start()
            in_turn(wait, wait)
            wait()

        self.assert_ordered(scenario)

    def test_several_who_wait_for_a_thread_are_not_ordered_by_that(self) -> None:
        def scenario() -> None:
            step = Step()

            def work() -> None:
                step.wait()
                write()

            def wait() -> None:
                thread.join()
                touch("x")
                write("y")

            thread = threading.Thread(target=work)
            thread.start()
            waiting = [threading.Thread(target=wait) for _ in range(2)]
            for one in waiting:
                one.start()
            wait_until(lambda: vars(thread)["_itc_line"].waiting == len(waiting))
            step.done()
            for one in waiting:
                one.join()

        self.assert_racing_things("y", scenario)

    def test_who_joins_behind_another_one_knows_nothing_of_that_one(self) -> None:
        def until_over(thread: threading.Thread) -> None:
            while thread.is_alive():
                thread.join(0.001)

        def poll(thread: threading.Thread) -> None:
            while thread.is_alive():
                time.sleep(0.001)

        ways = (threading.Thread.join, until_over, poll)
        kinds: tuple[Any, ...] = (
            lambda: threading.Thread(target=write, args=("end",)), lambda: threading.Timer(0.001, write, ("end",)),
            lambda: threading.Thread(target=write, args=("end",), daemon=True),
        )
        for first in ways:
            for second in ways:
                for make in kinds if first is second else kinds[:1]:
                    with self.subTest(first=first, second=second, make=make):
                        self.assert_racing_things(PAIRS, lambda: self._seen_by_three(make(), first, second))

    def _seen_by_three(self, thread: Any, first: Any, second: Any) -> None:
        """Each comes after the thread. What one does behind its look is in no order with the others."""
        def look(see: Any, number: int) -> None:
            see(thread)
            touch("end")
            touch_with_each(number)

        thread.start()
        in_turn(lambda: look(first, 0), lambda: look(second, 1), lambda: look(second, 2))

    def test_who_joins_behind_another_one_knows_nothing_of_what_that_one_did_before(self) -> None:
        def scenario() -> None:
            thread = threading.Thread(target=write)
            thread.start()
            in_turn(lambda: (write("own"), thread.join()), lambda: (thread.join(), write("own"), write()))

        self.assert_racing_things("own", scenario)

    def test_who_joins_behind_one_that_goes_on_knows_nothing_of_it(self) -> None:
        def scenario() -> None:
            joined, goes_on = Step(), Step()

            def join() -> None:
                thread.join()
                write("own")
                threading.Event().set()
                joined.done()
                goes_on.wait()

            thread = threading.Thread(target=write)
            thread.start()
            first = threading.Thread(target=join, daemon=True)
            first.start()
            joined.wait()
            thread.join()
            write("x")
            write("own")
            goes_on.done()
            first.join()

        self.assert_racing_things("own", scenario)

    def test_who_joins_behind_a_task_or_a_job_that_is_gone_comes_after_the_thread(self) -> None:
        def in_task(thread: threading.Thread) -> None:
            async def join() -> None:
                thread.join()

            async def main() -> None:
                await asyncio.create_task(join())

            asyncio.run(main())

        def in_job(thread: threading.Thread) -> None:
            over = Step()
            pool.submit(lambda: (thread.join(), over.done()))
            over.wait()

        def scenario() -> None:
            thread = threading.Thread(target=write)
            thread.start()
            in_turn(lambda: (first(thread), gc.collect(), time.sleep(0.1)), lambda: (thread.join(), write()))

        for first in (in_task, in_job):
            with self.subTest(first=first.__name__), concurrent.futures.ThreadPoolExecutor(2) as pool:
                self.assert_ordered(scenario)

    def test_a_daemon_that_has_joined_a_thread_is_not_ordered_with_the_end(self) -> None:
        """The thread is awaited at the end, and the daemon is not."""
        def scenario() -> None:
            joined, goes_on = Step(), Step()

            def join() -> None:
                threads.pop().join()
                write("own")
                threading.Event().set()
                joined.done()
                goes_on.wait()

            threads = [threading.Thread(target=write)]
            threads[0].start()
            daemon = threading.Thread(target=join, daemon=True)
            daemon.start()
            joined.wait()
            time.sleep(0.1)
            note = state.note
            for line in awaited():
                if note is not None:
                    note((TAKE_END, line_of_now(), line, None, 0))
            write("own")
            write()
            goes_on.done()
            daemon.join()

        self.assert_racing_things("own", scenario)

    @unittest.skipIf(PART_EVENTS, "possible races are looked for within a part")
    def test_a_poll_of_the_library_is_luck_whoever_joined_before(self) -> None:
        polls: dict[str, Any] = {"__name__": "socketserver"}
        exec("def poll(thread):\n    return not thread.is_alive()\n", polls)

        def scenario(*ways: Any) -> None:
            thread = threading.Thread(target=lambda: (write(), write("end")))
            thread.start()
            wait_until(lambda: not threading.Thread.is_alive.__wrapped__(thread))  # type: ignore[attr-defined]

            def poll_and_start() -> None:
                polls["poll"](thread)
                other = threading.Thread(target=write)
                other.start()
                other.join()

            steps = {"poll": poll_and_start, "join": lambda: (thread.join(), touch("end"))}
            in_turn(*(steps[way] for way in ways))

        for ways in (("poll",), ("join", "poll"), ("poll", "join"), ("join", "poll", "join")):
            with self.subTest(ways=ways):
                found = self.races(lambda: scenario(*ways))
                self.assertEqual({race.thing for race in found.possible}, {"x"}, found.text())
                self.assertFalse(found.unseen, found.unseen)
                self.assertFalse(found.races, found.text())

    def test_a_subclass_with_its_own_run_is_traced(self) -> None:
        class Worker(threading.Thread):
            def run(self) -> None:
                write()

        def scenario() -> None:
            worker = Worker()
            worker.start()
            worker.join()
            write()

        self.assert_ordered(scenario)
        self.assertIn("join", [row.kind for row in self.rows])

    def test_a_timer_comes_after_its_start(self) -> None:
        def scenario() -> None:
            write()
            timer = threading.Timer(0.01, write)
            timer.start()
            timer.join()
            write()

        self.assert_ordered(scenario)

    def test_who_sees_a_timer_finished_comes_after_what_it_did(self) -> None:
        def polls() -> None:
            timer = threading.Timer(0.01, write)
            timer.start()
            while not timer.finished.is_set():
                time.sleep(0.001)
            write()
            timer.join()

        def waits() -> None:
            timer = threading.Timer(0.01, write)
            timer.start()
            self.assertTrue(timer.finished.wait(WAIT))
            write()
            timer.join()

        for scenario in (polls, waits):
            with self.subTest(scenario=scenario):
                self.assert_ordered(scenario)

    def test_who_sees_a_timer_cancelled_is_not_ordered_with_another_thread(self) -> None:
        def scenario() -> None:
            timer = threading.Timer(WAIT, write)
            timer.start()
            in_turn(lambda: (timer.cancel(), write()), lambda: timer.finished.is_set() and write())
            timer.join()

        self.assert_race(scenario)

    def test_a_plain_thread_comes_after_its_start(self) -> None:
        def scenario() -> None:
            step = Step()

            def work() -> None:
                write()
                step.done()

            write()
            _thread.start_new_thread(work, ())
            step.wait()

        self.assert_ordered(scenario)

    def test_tasks_are_named_after_threads(self) -> None:
        def scenario() -> None:
            threads = [threading.Thread(target=write, name="alice"), threading.Thread(target=write, name="a b-c" * 20),
                       threading.Thread(target=write), threading.Thread(target=write, name="alice")]
            for thread in threads:
                thread.start()
                thread.join()

        self.assert_ordered(scenario)
        names = [row.task for row in self.rows if row.is_touch]
        self.assertEqual([names[0], names[2], names[3]], ["alice", "write_1", "alice_2"])
        self.assertLessEqual(len(names[1]), 24)


class Locks(TracedCase):
    def test_who_acquires_comes_after_who_released(self) -> None:
        for make in (threading.Lock, threading.RLock):
            with self.subTest(make=make):
                lock = make()

                def work() -> None:
                    with lock:
                        write()

                self.assert_ordered(lambda: in_turn(work, work, work))

    def test_what_follows_a_release_is_not_ordered(self) -> None:
        for make in (threading.Lock, threading.RLock):
            with self.subTest(make=make):
                lock = make()

                def first() -> None:
                    with lock:
                        pass
                    write()

                def second() -> None:
                    with lock:
                        write()

                self.assert_race(lambda: in_turn(first, second))

    def test_an_event_before_the_release_is_kept_apart_from_one_behind_it(self) -> None:
        def scenario() -> None:
            lock = threading.Lock()

            def first() -> None:
                with lock:
                    write("x")
                write("y")

            def second() -> None:
                with lock:
                    write("x")
                    write("y")

            in_turn(first, second)

        self.assert_racing_things("y", scenario)

    def test_two_locks_order_nothing_between_them(self) -> None:
        def scenario() -> None:
            one, other = threading.Lock(), threading.Lock()

            def work(lock: Any) -> None:
                with lock:
                    write()

            in_turn(lambda: work(one), lambda: work(other))

        self.assert_race(scenario)

    def test_only_the_outermost_release_of_an_rlock_counts(self) -> None:
        def scenario() -> None:
            lock = threading.RLock()
            inside, go_on = Step(), Step()

            def first() -> None:
                with lock:
                    with lock:
                        pass
                    write()
                inside.done()

            def second() -> None:
                inside.wait()
                with lock:
                    write()
                go_on.done()

            threads = [threading.Thread(target=first), threading.Thread(target=second)]
            for thread in threads:
                thread.start()
            go_on.wait()
            for thread in threads:
                thread.join()

        self.assert_ordered(scenario)

    def test_acquire_and_release_by_name_count_too(self) -> None:
        def scenario() -> None:
            lock = threading.Lock()

            def work() -> None:
                lock.acquire(timeout=WAIT)
                write()
                lock.release()

            in_turn(work, work)

        self.assert_ordered(scenario)

    def test_an_acquire_that_fails_orders_nothing(self) -> None:
        def scenario() -> None:
            lock = threading.Lock()

            def first() -> None:
                with lock:
                    pass
                lock.acquire()
                write()

            def second() -> None:
                self.assertFalse(lock.acquire(blocking=False))
                write()

            in_turn(first, second)

        self.assert_race(scenario)

    def test_a_loop_of_one_thread_sends_nothing(self) -> None:
        def scenario() -> None:
            lock = threading.Lock()
            for _ in range(100):
                with lock:
                    touch("x", write=True)

        self.assert_ordered(scenario)
        self.assertEqual({row.kind for row in self.rows}, {"write"})

    def test_a_lock_has_all_that_a_lock_has(self) -> None:
        def scenario() -> None:
            lock = threading.Lock()
            self.assertIsInstance(lock, _thread.LockType)
            self.assertFalse(lock.locked())
            with lock:
                self.assertTrue(lock.locked())
            with self.assertRaises(RuntimeError):
                lock.release()
            with self.assertRaises(TypeError):
                lock.__reduce__()
            again = threading.RLock()
            with self.assertRaises(RuntimeError):
                again.release()

        self.races(scenario)


class Conditions(TracedCase):
    def test_who_wakes_up_comes_after_who_notified(self) -> None:
        for make in (threading.Lock, threading.RLock):
            with self.subTest(make=make):
                self.assert_ordered(lambda: self.hand_over(threading.Condition(make())))
        self.assert_ordered(lambda: self.hand_over(threading.Condition()))

    @staticmethod
    def hand_over(condition: threading.Condition) -> None:
        ready: list[int] = []

        def consume() -> None:
            with condition:
                while not ready:
                    condition.wait(WAIT)
            write()

        def produce() -> None:
            with condition:
                write()
                ready.append(1)
                condition.notify()

        threads = [threading.Thread(target=consume), threading.Thread(target=produce)]
        for thread in threads:
            thread.start()
        for thread in threads:
            thread.join()

    def test_what_follows_the_notifier_s_release_is_not_ordered(self) -> None:
        def scenario() -> None:
            condition, ready = threading.Condition(), []
            woken = Step()

            def consume() -> None:
                with condition:
                    while not ready:
                        condition.wait(WAIT)
                woken.wait()
                write()

            def produce() -> None:
                with condition:
                    ready.append(1)
                    condition.notify_all()
                write()
                woken.done()

            threads = [threading.Thread(target=consume), threading.Thread(target=produce)]
            for thread in threads:
                thread.start()
            for thread in threads:
                thread.join()

        self.assert_race(scenario)


class Semaphores(TracedCase):
    def test_a_permit_carries_order(self) -> None:
        def scenario() -> None:
            semaphore = threading.Semaphore(0)

            def first() -> None:
                write()
                semaphore.release()

            def second() -> None:
                semaphore.acquire()
                write()

            in_turn(first, second)

        self.assert_ordered(scenario)

    def test_a_semaphore_of_one_is_a_lock(self) -> None:
        for make in (threading.Semaphore, threading.BoundedSemaphore):
            with self.subTest(make=make):
                semaphore = make(1)

                def work() -> None:
                    with semaphore:
                        write()

                self.assert_ordered(lambda: in_turn(work, work, work))

    def test_a_permit_that_was_there_carries_no_order(self) -> None:
        def scenario() -> None:
            semaphore = threading.Semaphore(2)

            def work() -> None:
                with semaphore:
                    write()

            in_turn(work, work)

        self.assert_race(scenario)

    def test_an_acquire_comes_after_one_release_alone(self) -> None:
        def scenario() -> None:
            semaphore = threading.Semaphore(0)

            def release(thing: str) -> None:
                write(thing)
                semaphore.release()

            def take() -> None:
                semaphore.acquire()
                write("x")
                write("y")

            in_turn(lambda: release("x"), lambda: release("y"), take)

        self.assert_racing_things("y", scenario)

    def test_one_release_of_many_permits_is_known_to_all(self) -> None:
        def scenario() -> None:
            semaphore = threading.Semaphore(0)

            def first() -> None:
                write()
                semaphore.release(2)

            def second() -> None:
                semaphore.acquire()
                touch("x")

            in_turn(first, second, second)

        self.assert_ordered(scenario)


class Events(TracedCase):
    def test_who_waits_comes_after_who_set_it(self) -> None:
        for look in ("wait", "is_set"):
            with self.subTest(look=look):
                event = threading.Event()

                def first() -> None:
                    write()
                    event.set()

                def second() -> None:
                    self.assertTrue(getattr(event, look)())
                    touch("x")

                self.assert_ordered(lambda: in_turn(first, second, second))

    def test_a_wait_that_times_out_orders_nothing(self) -> None:
        def scenario() -> None:
            event = threading.Event()

            def first() -> None:
                event.wait(0.001)
                write()

            def second() -> None:
                write()
                event.set()

            in_turn(first, second)

        self.assert_race(scenario)

    def test_who_sets_it_again_is_not_waited_for(self) -> None:
        def scenario() -> None:
            event = threading.Event()

            def second() -> None:
                write()
                event.set()

            def third() -> None:
                event.wait()
                write()

            in_turn(event.set, second, third)

        self.assert_race(scenario)

    def test_what_follows_set_is_not_ordered(self) -> None:
        def scenario() -> None:
            event = threading.Event()

            def first() -> None:
                event.set()
                write()

            def second() -> None:
                event.wait()
                write()

            in_turn(first, second)

        self.assert_race(scenario)


class Barriers(TracedCase):
    def meet(self, before: str, after: str, rounds: int = 1) -> None:
        barrier = threading.Barrier(3)

        def work(number: int) -> None:
            for _ in range(rounds):
                touch(f"{before}{number}", write=True)
                barrier.wait(WAIT)
                for other in range(3):
                    touch(f"{after}{other}")
                barrier.wait(WAIT)

        threads = [threading.Thread(target=work, args=(number,)) for number in range(3)]
        for thread in threads:
            thread.start()
        for thread in threads:
            thread.join()

    def test_all_who_arrive_come_before_all_who_leave(self) -> None:
        self.assert_ordered(lambda: self.meet("x", "x", rounds=3))

    def test_what_follows_a_barrier_is_not_ordered(self) -> None:
        def scenario() -> None:
            barrier = threading.Barrier(2)

            def work() -> None:
                barrier.wait(WAIT)
                write()

            threads = [threading.Thread(target=work) for _ in range(2)]
            for thread in threads:
                thread.start()
            for thread in threads:
                thread.join()

        self.assert_race(scenario)

    def test_the_action_comes_between_arriving_and_leaving(self) -> None:
        def scenario() -> None:
            barrier = threading.Barrier(2, action=lambda: touch("x", write=True))

            def work(thing: str) -> None:
                write(thing)
                barrier.wait(WAIT)
                touch("x")

            barrier_things = [threading.Thread(target=work, args=(f"y{number}",)) for number in range(2)]
            for thread in barrier_things:
                thread.start()
            for thread in barrier_things:
                thread.join()

        self.assert_ordered(scenario)


if __name__ == "__main__":
    unittest.main()
