"""What is known of locks: which a task holds, the line that made each, and what their hand-over is called."""

from __future__ import annotations

import asyncio
import queue
import sys
import threading
import unittest
from concurrent.futures import Future
from typing import Any
from unittest import mock

from itc_trace import touch
from itc_trace.model.frames import line_of
from itc_trace.model.lines import state
from itc_trace.model.lock_identity import variable_of_result
from itc_trace.record.noting import current
from itc_trace.sync import locks
from itc_trace.watch.helper import quick

from .support import WAIT, Step, TracedCase, in_turn


def held() -> list[str]:
    """The names of the locks that the current task holds, without the file."""
    return [one.name.replace(__file__, "here") for one in current().held]


def line_here() -> int:
    return sys._getframe(1).f_lineno


class Names(TracedCase):
    def test_a_lock_is_known_by_its_variable_and_the_line_that_made_it(self) -> None:
        told: list[list[str]] = []
        line = line_here()

        def scenario() -> None:
            stock_lock = threading.Lock()
            guard = threading.RLock()
            some = [threading.Lock() for _ in range(2)]
            self.one = threading.Condition()
            with stock_lock, guard, some[0], some[1], self.one:
                told.append(held())

        self.races(scenario)
        self.assertEqual(told, [[
            f"stock_lock (here:{line + 3})", f"lock guard (here:{line + 4})", f"lock (here:{line + 5})",
            f"lock 2 (here:{line + 5})", f"lock one (here:{line + 6})",
        ]])

    def test_messages_and_labels_tell_which_lock_was_handed_over(self) -> None:
        def scenario() -> None:
            guard = threading.Lock()

            def work() -> None:
                with guard:
                    touch("x", write=True)

            in_turn(work, work)

        line = scenario.__code__.co_firstlineno + 1
        self.assert_ordered(scenario)
        labels = [(row.kind, row.label.replace(__file__, "here")) for row in self.rows]
        self.assertIn(("send", f"release lock guard (here:{line})"), labels)
        self.assertIn(("recv", f"acquire lock guard (here:{line})"), labels)


class FreeLocks(TracedCase):
    """A task acquires a lock once more that nobody else has acquired since."""

    def asked_of_python(self, kind: str) -> int:
        """How often the methods in C leave it to Python, in 100 turns."""
        asked: list[str] = []

        def counted(name: str) -> Any:
            original = getattr(locks, name)
            return lambda *words: (asked.append(name), original(*words))[1]

        def scenario() -> None:
            lock = getattr(threading, kind)()
            with mock.patch.object(locks, "took", counted("took")), mock.patch.object(locks, "gave", counted("gave")):
                for _ in range(50):
                    with lock:
                        touch("x", write=True)
                for _ in range(50):
                    lock.acquire()
                    lock.release()

        self.races(scenario)
        return len(asked)

    @unittest.skipIf(quick is None, "there is no compiler here, or another Python")
    def test_python_is_asked_no_more_than_at_the_first_turns(self) -> None:
        for kind in ("Lock", "RLock"):
            with self.subTest(kind):
                self.assertLessEqual(self.asked_of_python(kind), 4)

    def test_it_is_known_where_the_lock_was_acquired_last(self) -> None:
        told: list[tuple[int, int]] = []

        def scenario() -> None:
            for make in (threading.Lock, threading.RLock):
                guard = make()
                with guard:
                    pass
                with guard:
                    line = line_here() - 1
                    told.append((line - line_of(*where_held(guard)), len(held())))
                told.append((0, len(held())))

        self.races(scenario)
        self.assertEqual(told, [(0, 1), (0, 0)] * 2)

    def test_who_tries_is_told_of_as_one_that_need_not_wait(self) -> None:
        def scenario() -> None:
            for make in (threading.Lock, threading.RLock):
                tried, awaited = make(), make()
                for _ in range(2):
                    self.assertTrue(tried.acquire(False) and awaited.acquire())
                    self.assertRaises(ValueError, awaited.acquire, False, 1)
                    self.assertRaises(TypeError, awaited.acquire, True, 1, 2)
                    tried.release()
                    awaited.release()
                self.assertTrue(tried._itc_identity.is_tried)
                self.assertFalse(awaited._itc_identity.is_tried)
                self.assertRaises(RuntimeError, awaited.release)
                self.assertTrue(awaited.acquire(timeout=1))
                awaited.release()
                self.assertTrue(awaited._itc_identity.is_tried)

        self.races(scenario)

    def test_a_lock_of_its_owner_is_released_once_it_was_so_as_often_as_acquired(self) -> None:
        def scenario() -> None:
            guard = threading.RLock()
            for _ in range(2):
                with guard:
                    with guard:
                        self.assertEqual(len(held()), 1)
                    self.assertEqual(len(held()), 1)
                self.assertEqual(held(), [])

        self.races(scenario)

    def test_one_that_is_acquired_again_within_another_is_held_beside_that(self) -> None:
        told: list[list[str]] = []

        def scenario() -> None:
            outer, inner = threading.Lock(), threading.RLock()
            with outer:
                with inner:
                    pass
                with inner:
                    told.append(held())
            told.append(held())

        made = scenario.__code__.co_firstlineno + 1
        self.races(scenario)
        self.assertEqual(told, [[f"lock outer (here:{made})", f"lock inner (here:{made})"], []])

    def test_what_comes_behind_the_release_is_not_within(self) -> None:
        """Each of two tasks goes on in a section that it has left, and touches something behind that."""
        def scenario() -> None:
            guard = threading.Lock()

            def work() -> None:
                for _ in range(2):
                    with guard:
                        touch("within", write=True)
                touch("behind", write=True)

            in_turn(work, work)

        found = self.races(scenario)
        self.assertEqual({one.thing for one in (*found.races, *found.possible)}, {"behind"})

    def test_who_has_released_another_lock_since_goes_on_in_no_section_of_that(self) -> None:
        def scenario() -> None:
            one, other = threading.Lock(), threading.RLock()

            def work() -> None:
                for _ in range(3):
                    with one:
                        touch("x", write=True)
                    with other:
                        touch("x", write=True)

            in_turn(work, work)

        self.races(scenario)
        told = {tuple(lock.split()[2] for lock in row.held) for row in self.rows if row.thing == "x"}
        self.assertEqual(told, {("one",), ("other",)})

    def test_a_task_of_a_loop_begins_a_stretch_with_each_of_its_turns(self) -> None:
        def scenario() -> None:
            async def work() -> None:
                own = threading.Lock()
                for _ in range(3):
                    for _ in range(2):
                        with own:
                            touch("x", write=True)
                    await asyncio.sleep(0)

            async def both() -> None:
                await asyncio.gather(work(), work())

            asyncio.run(both())

        self.races(scenario)
        turns = {(row.task, row.turn) for row in self.rows if row.thing == "x"}
        self.assertEqual(len(turns), 6)


def where_held(lock: Any) -> tuple[Any, int]:
    return lock._itc_identity.taken_by, lock._itc_identity.taken_at


class Variables(unittest.TestCase):
    def test_a_lock_is_called_as_its_variable_where_several_are_given_their_values_at_once(self) -> None:
        found: list[str | None] = []

        def made(*_: object) -> list[str | None]:
            frame = sys._getframe(1)
            found.append(variable_of_result(frame.f_code, frame.f_lasti))
            return found

        one, other = made(), made()
        first, second, third, fourth = made(), made(1, 2), [], made()
        single = (made(), made())
        listed = [made()] if made() else made()
        both, also = made(), 1
        self.assertEqual(found, [
            "one", "other", "first", "second", "fourth", None, None, None, None, "both",
        ])
        self.assertTrue(all((one, other, first, second, fourth, single, listed, both, also)), third)


class Held(TracedCase):
    def test_what_a_task_holds_follows_each_way_to_acquire_and_release(self) -> None:
        def scenario() -> None:
            one, other, again = threading.Lock(), threading.Lock(), threading.RLock()
            counts = []

            def see() -> None:
                counts.append(len(current().held))

            one.acquire()
            see()
            with other, again, again:
                see()
                one.release()
                see()
            see()
            self.assertFalse(one.acquire() and one.acquire(timeout=0.001))
            see()
            one.release()
            see()
            self.assertEqual(counts, [1, 3, 2, 0, 1, 0])

        self.races(scenario)

    def test_whoever_waits_at_a_condition_does_not_hold_its_lock(self) -> None:
        for make in (threading.Lock, threading.RLock):
            with self.subTest(make=make):

                def scenario() -> None:
                    condition, ready, lines = threading.Condition(make()), [], []

                    def wait() -> None:
                        lines.append(current())
                        with condition:
                            while not ready:
                                condition.wait(WAIT)
                            self.assertEqual(len(current().held), 1)

                    def wake() -> None:
                        with condition:
                            self.assertEqual(len(lines[0].held), 0)
                            self.assertEqual(len(current().held), 1)
                            ready.append(1)
                            condition.notify()

                    waiting = threading.Thread(target=wait)
                    waiting.start()
                    while not condition._waiters:  # type: ignore[attr-defined]
                        pass
                    wake()
                    waiting.join()
                    self.assertEqual(lines[0].held, ())

                self.races(scenario)

    def test_each_task_of_a_loop_holds_its_own(self) -> None:
        async def main() -> None:
            lock, inside = asyncio.Lock(), asyncio.Event()

            async def hold() -> None:
                async with lock:
                    inside.set()
                    await asyncio.sleep(0)
                    self.assertEqual(len(current().held), 1)
                self.assertEqual(current().held, ())

            async def look() -> None:
                await inside.wait()
                self.assertEqual(current().held, ())

            await asyncio.gather(hold(), look())

        self.races(lambda: asyncio.run(main()))

    def test_a_lock_that_another_task_releases_is_a_signal(self) -> None:
        def scenario() -> None:
            door = threading.Lock()
            identity = door._itc_identity  # type: ignore[attr-defined]
            door.acquire()

            def work() -> None:
                touch("x", write=True)
                door.release()

            self.assertEqual(current().held, (identity,))
            thread = threading.Thread(target=work)
            thread.start()
            door.acquire()
            touch("x", write=True)
            self.assertEqual(current().held, (identity,))
            self.assertIsNotNone(identity.signal)
            door.release()
            thread.join()

        self.assert_ordered(scenario)

    def test_only_a_lock_by_itself_counts_as_luck(self) -> None:
        def scenario() -> None:
            def token_of(lock: Any) -> Any:
                with lock:
                    pass
                return lock._itc_token

            plain, guarded, door = threading.Lock(), threading.RLock(), threading.Lock()
            threading.Condition(guarded)
            self.assertIs(token_of(plain).what.lock, plain._itc_identity)  # type: ignore[attr-defined]
            self.assertFalse(token_of(guarded).what.lock.is_luck)
            door.acquire()
            thread = threading.Thread(target=door.release)
            thread.start()
            thread.join()
            self.assertIsNone(door._itc_token.what.lock)  # type: ignore[attr-defined]
            self.assertEqual(current().held, ())
            outer, inner = threading.Lock(), threading.Lock()
            outer.acquire()
            inner.acquire()
            outer.release()
            self.assertEqual(current().held, (inner._itc_identity,))  # type: ignore[attr-defined]
            inner.release()
            self.assertFalse(token_of(outer).what.lock.is_luck)
            self.assertFalse(token_of(inner).what.lock.is_luck)
            self.assertEqual(current().held, ())

        self.races(scenario)

    def test_nothing_is_held_where_nothing_is_traced(self) -> None:
        self.assertIsNone(state.note)
        lock: Any = threading.Lock()
        with lock:
            pass


class Sections(TracedCase):
    """A task that acquires a lock again goes on in its section only if it has done nothing in between."""

    def test_what_was_learnt_in_between_is_known_in_the_next_section(self) -> None:
        def by_queue() -> tuple[Any, Any]:
            one: queue.Queue[int] = queue.Queue()
            return lambda: one.put(1), one.get

        def by_event() -> tuple[Any, Any]:
            event = threading.Event()
            return event.set, event.wait

        def by_permit() -> tuple[Any, Any]:
            semaphore = threading.Semaphore(0)
            return semaphore.release, semaphore.acquire

        def by_result() -> tuple[Any, Any]:
            future: Future[int] = Future()
            return lambda: future.set_result(1), future.result

        def by_lock() -> tuple[Any, Any]:
            other = threading.Lock()

            def enter() -> None:
                with other:
                    pass

            return enter, enter

        for make in (by_queue, by_event, by_permit, by_result, by_lock):
            with self.subTest(make=make):

                def scenario() -> None:
                    lock, between, told = threading.Lock(), Step(), Step()
                    give, take = make()

                    def first() -> None:
                        with lock:
                            touch("x", write=True)
                        between.done()
                        told.wait()
                        take()
                        with lock:
                            touch("y", write=True)

                    def second() -> None:
                        between.wait()
                        touch("y", write=True)
                        give()
                        told.done()

                    threads = [threading.Thread(target=step) for step in (first, second)]
                    for thread in threads:
                        thread.start()
                    for thread in threads:
                        thread.join()

                self.assert_ordered(scenario)


class Notifying(TracedCase):
    def test_who_is_woken_comes_after_the_call_that_woke_it(self) -> None:
        def scenario() -> None:
            condition, ready = threading.Condition(), []

            def wait() -> None:
                with condition:
                    while not ready:
                        condition.wait(WAIT)

            waiting = threading.Thread(target=wait)
            waiting.start()
            while not condition._waiters:  # type: ignore[attr-defined]
                pass
            with condition:
                touch("x", write=True)
                ready.append(1)
                condition.notify()
                tokens = list(condition._waiters._tokens.values())  # type: ignore[attr-defined]
                self.assertEqual([token.what.hint for token in tokens], ["notify"])
            waiting.join()
            self.assertEqual(condition._waiters._tokens, {})  # type: ignore[attr-defined]
            self.assertEqual(condition._waiters._mine, {})  # type: ignore[attr-defined]

        self.races(scenario)


if __name__ == "__main__":
    unittest.main()
