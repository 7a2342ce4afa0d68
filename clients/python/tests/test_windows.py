"""An order is that of what has happened, also if another thread comes between two looks of this package."""

from __future__ import annotations

import asyncio
import contextlib
import queue
import threading
import unittest
from collections import deque
from collections.abc import Callable, Iterator
from concurrent.futures import Future, InvalidStateError, ThreadPoolExecutor
from multiprocessing.pool import ThreadPool
from typing import Any
from unittest import mock

from itc_trace import touch
from itc_trace.record import following
from itc_trace.model.lines import LateJob, Token, state
from itc_trace.sync import futures, thread_pools
from itc_trace.sync import threads as traced_threads
from itc_trace.cli.system import Running
from itc_trace.model.verdict import Cause

from .support import WAIT, Step, TracedCase, wait_until

Action = Callable[[], object]


def in_thread(action: Action) -> None:
    """Does it in a thread of its own, whose end gives no order."""
    done, failures = Step(), []

    def run() -> None:
        try:
            action()
        except BaseException as failure:
            failures.append(failure)
        finally:
            done.done()

    threading.Thread(target=run, daemon=True).start()
    done.wait()
    if failures:
        raise failures[0]


class Between:
    """Stands for the condition of something. Whoever is the first to leave it lets another one go first, or whoever is to enter it."""

    def __init__(self, condition: Any, behind: Action | None = None, before: Action | None = None) -> None:
        self._condition = condition
        self._behind = behind
        self._before = before
        self._depth = 0

    def __enter__(self) -> Any:
        before, self._before = self._before, None
        if before is not None:
            before()
        told = self._condition.__enter__()
        self._depth += 1
        return told

    def __exit__(self, *words: Any) -> None:
        self._depth -= 1
        is_left = self._depth == 0
        self._condition.__exit__(*words)
        behind = self._behind if is_left else None
        if behind is not None:
            self._behind = None
            behind()

    def __getattr__(self, name: str) -> Any:
        return getattr(self._condition, name)

    @property
    def _waiters(self) -> Any:
        return self._condition._waiters

    @_waiters.setter
    def _waiters(self, waiters: Any) -> None:
        self._condition._waiters = waiters


def write() -> None:
    touch("page", write=True)


def read() -> None:
    touch("page")


def done_by(*actions: Action) -> Action:
    """Does them in one thread, one after another."""
    return lambda: in_thread(lambda: [action() for action in actions])


class Events(TracedCase):
    def test_a_later_set_is_not_what_has_woken(self) -> None:
        event, waits = threading.Event(), Step()

        def scenario() -> None:
            event._cond = Between(event._cond)  # type: ignore[attr-defined]
            threading.Thread(target=lambda: (wait_until(lambda: event._cond._waiters), event.set())).start()  # type: ignore[attr-defined]
            condition: Any = event._cond  # type: ignore[attr-defined]
            condition._condition.wait = lambda timeout=None: self._waits(condition, waits, timeout, done_by(event.clear, write, event.set))
            event.wait()
            read()

        self.assert_race(scenario)

    def _waits(self, condition: Any, waits: Step, timeout: float | None, then: Action) -> bool:
        told = threading.Condition.wait(condition._condition, timeout)
        condition._behind = then
        return told

    def test_a_later_set_is_not_what_was_seen(self) -> None:
        event = threading.Event()

        def scenario() -> None:
            event.set()
            event._cond = Between(event._cond, behind=done_by(event.clear, write, event.set))  # type: ignore[attr-defined]
            event.wait()
            read()

        self.assert_race(scenario)

    def test_the_first_of_two_who_set_it_is_waited_for(self) -> None:
        event = threading.Event()
        firsts, plain_mark = [done_by(write, event.set)], traced_threads.mark

        def interrupted(*words: Any) -> Any:
            token = plain_mark(*words)
            while firsts:
                firsts.pop()()
            return token

        def scenario() -> None:
            with mock.patch.object(traced_threads, "mark", interrupted):
                in_thread(event.set)
            event.wait()
            read()

        self.assert_ordered(scenario)

    def test_an_event_from_before_the_tracing_gives_order_too(self) -> None:
        event = threading.Event()
        event._cond._waiters = deque()  # type: ignore[attr-defined]

        def scenario() -> None:
            threading.Thread(target=lambda: (wait_until(lambda: event._cond._waiters), write(), event.set())).start()  # type: ignore[attr-defined]
            event.wait()
            read()

        self.assert_ordered(scenario)


class Semaphores(TracedCase):
    def test_a_permit_is_not_that_of_who_acquired_before(self) -> None:
        acquired: list[bool] = []

        def scenario() -> None:
            semaphore = threading.Semaphore(1)

            def others() -> None:
                done_by(write, semaphore.release)()
                done_by(lambda: acquired.append(semaphore.acquire()), read)()

            semaphore._cond = Between(semaphore._cond, behind=others)  # type: ignore[attr-defined]
            in_thread(semaphore.acquire)

        self.assert_ordered(scenario)
        self.assertEqual(acquired, [True])

    def test_a_permit_is_not_that_of_who_has_not_released_yet(self) -> None:
        def scenario() -> None:
            semaphore = threading.Semaphore(0)

            def others() -> None:
                done_by(write, semaphore.release)()
                done_by(semaphore.acquire, read)()

            semaphore._cond = Between(semaphore._cond, before=others)  # type: ignore[attr-defined]
            in_thread(semaphore.release)

        self.assert_ordered(scenario)

    def test_a_release_that_is_refused_leaves_the_permits_of_others(self) -> None:
        def scenario() -> None:
            semaphore = threading.BoundedSemaphore(1)
            self.assertRaises(ValueError, semaphore.release)
            semaphore.acquire()
            done_by(write, semaphore.release)()
            done_by(semaphore.acquire, read)()

        self.assert_ordered(scenario)


class Queues(TracedCase):
    def test_an_item_is_not_that_of_who_has_not_put_yet(self) -> None:
        items: queue.Queue[None] = queue.Queue()

        def scenario() -> None:
            def others() -> None:
                done_by(write, lambda: items.put(None))()
                done_by(items.get, read)()

            items.not_full = Between(items.not_full, before=others)  # type: ignore[assignment]
            in_thread(lambda: items.put(None))

        self.assert_ordered(scenario)

    def test_an_item_is_not_that_of_who_has_got_one_before(self) -> None:
        items: queue.Queue[None] = queue.Queue()

        def scenario() -> None:
            items.put(None)
            done_by(write, lambda: items.put(None))()
            items.not_empty = Between(items.not_empty, behind=done_by(items.get, read))  # type: ignore[assignment]
            in_thread(items.get)

        self.assert_ordered(scenario)

    def test_a_later_job_is_none_of_those_that_were_joined(self) -> None:
        jobs: queue.Queue[None] = queue.Queue()

        def scenario() -> None:
            jobs.put(None)
            done_by(jobs.get, jobs.task_done)()
            later = done_by(lambda: jobs.put(None), jobs.get, write, jobs.task_done)
            jobs.all_tasks_done = Between(jobs.all_tasks_done, behind=later)  # type: ignore[assignment]
            jobs.join()
            read()

        self.assert_race(scenario)


class Futures(TracedCase):
    def future(self, **between: Action) -> Future[int]:
        made: Future[int] = Future()
        made._condition = Between(made._condition, **between)  # type: ignore[attr-defined]
        return made

    def test_whoever_sets_a_result_too_late_gives_none(self) -> None:
        for late in (lambda one: one.set_result(2), lambda one: one.set_exception(OSError())):
            one: Future[int] = Future()

            def scenario() -> None:
                done_by(write, lambda: one.set_result(1))()
                done_by(lambda: self.assertRaises(InvalidStateError, late, one))()
                one.result()
                read()

            with self.subTest():
                self.assert_ordered(scenario)

    def test_a_result_that_comes_behind_the_wait_was_not_seen(self) -> None:
        for look in (lambda one: one.result(0.01), lambda one: one.exception(0.01)):
            one: Future[int] = Future()

            def scenario() -> None:
                one._condition = Between(one._condition, behind=done_by(write, lambda: one.set_result(1)))  # type: ignore[attr-defined]
                self.assertRaises(TimeoutError, look, one)
                read()

            with self.subTest():
                self.assert_race(scenario)

    def test_whoever_sees_it_cancelled_comes_after_who_cancelled_it(self) -> None:
        one: Future[int] = Future()

        def scenario() -> None:
            one._condition = Between(one._condition, behind=done_by(one.done, read))  # type: ignore[attr-defined]
            done_by(write, one.cancel)()

        self.assert_ordered(scenario)

    def test_the_first_who_cancels_it_gives_the_order(self) -> None:
        one: Future[int] = Future()

        def scenario() -> None:
            one._condition = Between(one._condition, before=done_by(write, one.cancel))  # type: ignore[attr-defined]
            done_by(one.cancel)()
            one.done()
            read()

        self.assert_ordered(scenario)

    def test_callbacks_are_called_while_others_may_have_the_future(self) -> None:
        one: Future[int] = Future()
        seen: list[int] = []

        def scenario() -> None:
            touch("page", write=True)
            one.add_done_callback(lambda future: in_thread(lambda: seen.append(future.result(WAIT))))
            one.set_result(7)

        self.assert_ordered(scenario)
        self.assertEqual(seen, [7])

    def test_two_jobs_beyond_the_limit_are_never_taken_for_one(self) -> None:
        numbers: list[int] = []
        plain_mark = futures.mark

        def job(line: Any, number: int) -> LateJob:
            numbers.append(number)
            return LateJob(line, number)

        def scenario() -> None:
            touch("page", write=True)
            assert state.tracer is not None
            state.tracer.most_lines = 0
            with ThreadPoolExecutor(2) as pool, ThreadPool(2) as other:
                others = [lambda: other.apply(int)]

                def interrupted(*words: Any) -> Any:
                    token = plain_mark(*words)
                    while others:
                        in_thread(others.pop())
                    return token

                with mock.patch.object(futures, "mark", interrupted), both_with(job):
                    pool.submit(int).result()

        self.races(scenario)
        self.assertEqual(sorted(numbers), [1, 2])


@contextlib.contextmanager
def both_with(job: Any) -> Iterator[None]:
    """Both kinds of pools make their jobs beyond the limit by this."""
    with mock.patch.object(futures, "LateJob", job), mock.patch.object(thread_pools, "LateJob", job):
        yield


class Threads(TracedCase):
    @unittest.skipUnless(hasattr(threading.Thread, "_wait_for_tstate_lock"), "this Python waits for threads in another way")
    def test_an_end_that_comes_behind_the_join_was_not_seen(self) -> None:
        may_end = Step()

        class Late(threading.Thread):
            def run(self) -> None:
                may_end.wait()
                write()

            def _wait_for_tstate_lock(self, block: bool = True, timeout: float = -1) -> None:
                lock: Any = self._tstate_lock  # type: ignore[attr-defined]
                super()._wait_for_tstate_lock(block, timeout)  # type: ignore[misc]
                if timeout > 0:
                    may_end.done()
                    wait_until(lambda: not lock.locked())

        def scenario() -> None:
            thread = Late()
            thread.start()
            thread.join(0.01)
            read()
            thread.join()

        self.assert_race(scenario)

    def test_a_job_that_ends_behind_the_wait_was_not_seen(self) -> None:
        may_end, has_ended = Step(), Step()

        def job() -> None:
            may_end.wait()
            write()

        def scenario() -> None:
            with ThreadPool(1) as pool:
                result = pool.apply_async(job, callback=lambda _: has_ended.done())
                event: Any = result._event  # type: ignore[attr-defined]
                plain_wait = event.wait

                def wait(timeout: float | None = None) -> Any:
                    told = plain_wait(timeout)
                    may_end.done()
                    has_ended.wait()
                    wait_until(lambda: event._flag)
                    return told

                event.wait = wait
                result.wait(0.01)
                read()

        self.assert_race(scenario)

    def test_a_condition_that_is_notified_behind_the_wait_gives_no_order(self) -> None:
        condition = threading.Condition()

        def scenario() -> None:
            def notify() -> None:
                with condition:
                    write()
                    condition.notify()

            restore = condition._acquire_restore  # type: ignore[attr-defined]

            def acquire_restore(saved: Any) -> None:
                in_thread(notify)
                restore(saved)

            condition._acquire_restore = acquire_restore  # type: ignore[attr-defined]
            with condition:
                self.assertFalse(condition.wait(0.01))

        self.races(scenario)
        self.assertFalse([row for row in self.rows if row.label == "wake up"])

    def test_a_task_that_leaves_its_section_does_not_disturb_who_acquires_the_lock(self) -> None:
        class Leaving:
            tracer = None

            def __init__(self, line: Any) -> None:
                self._sections = [line.section]

            @property
            def section(self) -> Any:
                return self._sections.pop() if self._sections else None

        lock = threading.Lock()

        def scenario() -> None:
            touch("page", write=True)
            with lock:
                pass
            token: Any = lock._itc_token  # type: ignore[attr-defined]
            lock._itc_token = Token(Leaving(token.line), token.what, None, 0)  # type: ignore[attr-defined, arg-type]
            in_thread(lambda: lock.acquire(timeout=WAIT))

        self.assert_ordered(scenario)


class Ends(TracedCase):
    def test_reports_that_another_thread_takes_meanwhile_do_not_fail_the_program(self) -> None:
        class Emptied(deque[Any]):
            def popleft(self) -> Any:
                self.clear()
                return super().popleft()

        def scenario() -> None:
            touch("page", write=True)
            tracer = state.tracer
            assert tracer is not None
            tracer._reports.outstanding = Emptied([None])
            tracer._give_up(Cause.TRACER, "a test")

        self.assertTrue(self.unseen(scenario))

    def unseen(self, scenario: Action) -> list[Any]:
        from itc_trace import tracing

        with tracing() as traced:
            scenario()
        return list(traced.races().unseen)


class Processes(unittest.TestCase):
    def test_two_threads_that_make_the_shared_names_have_the_same(self) -> None:
        found: list[Any] = []
        plain, others = following.SharedNames, [lambda: found.append(following.shared_names())]

        def interrupted() -> Any:
            while others:
                in_thread(others.pop())
            return plain()

        with mock.patch.object(following, "_following", following._Following(mock.Mock())), mock.patch.object(following, "SharedNames", interrupted):
            found.append(following.shared_names())
            self.addCleanup(found[0].remove)
        self.assertIs(found[0], found[1])

    def test_a_process_that_has_ended_is_not_told_of_as_killed(self) -> None:
        running = Running(mock.Mock(), 0, "")
        running.processes = [mock.Mock(status=status, is_running=True) for status in (0, None)]
        running._kill_all()
        self.assertEqual(len(running.unseen), 1)


class Loops(TracedCase):
    def test_whoever_sets_a_future_of_a_loop_too_late_gives_no_result(self) -> None:
        async def late(future: asyncio.Future[int]) -> None:
            with self.assertRaises(asyncio.InvalidStateError):
                future.set_result(2)

        async def first(future: asyncio.Future[int]) -> None:
            write()
            future.set_result(1)

        async def main() -> None:
            future = asyncio.get_running_loop().create_future()
            tasks = [asyncio.create_task(first(future)), asyncio.create_task(late(future))]
            await asyncio.sleep(0)
            await asyncio.sleep(0)
            await future
            read()
            await asyncio.wait(tasks)

        self.assert_ordered(lambda: asyncio.run(main()))

    def test_a_later_set_is_not_what_has_woken_a_task(self) -> None:
        async def pulse(event: asyncio.Event, then: Action) -> None:
            then()
            event.set()
            event.clear()

        async def look(event: asyncio.Event) -> None:
            await event.wait()
            read()

        async def main() -> None:
            event = asyncio.Event()
            tasks = [asyncio.create_task(look(event))]
            await asyncio.sleep(0)
            tasks += [asyncio.create_task(pulse(event, lambda: None)), asyncio.create_task(pulse(event, write))]
            await asyncio.wait(tasks)

        self.assert_race(lambda: asyncio.run(main()))

    def test_an_event_of_a_loop_from_before_the_tracing_gives_order_too(self) -> None:
        async def look(event: asyncio.Event) -> None:
            await event.wait()
            read()

        async def main() -> None:
            for begins_early in (True, False):
                event = asyncio.Event()
                event._waiters = deque()  # type: ignore[attr-defined]
                looking = asyncio.create_task(look(event))
                await asyncio.sleep(0)
                if begins_early:
                    event._waiters = deque(event._waiters)  # type: ignore[attr-defined]
                write()
                event.set()
                await looking

        self.races(lambda: asyncio.run(main()))
        self.assertEqual([row.label for row in self.rows].count("see event set"), 2)

    def test_a_named_task_may_be_made_of_a_coroutine_by_its_keyword(self) -> None:
        async def main() -> str:
            async def work() -> None:
                write()

            task = asyncio.create_task(coro=work(), name="worker")
            await task
            return task.get_name()

        names: list[str] = []
        self.races(lambda: names.append(asyncio.run(main())))
        self.assertEqual(names, ["worker"])
        self.assertTrue([row for row in self.rows if row.task == "worker"])


if __name__ == "__main__":
    unittest.main()
