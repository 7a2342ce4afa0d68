"""Scenarios whose tasks acquire locks in orders that make a cycle, and such that only seem to.

Each gives what its tasks do, which are run one after another, and nothing that is traced tells so. The lines that are
to be told have the comment `# told`.
"""

from __future__ import annotations

import asyncio
import contextlib
import multiprocessing
import queue
import threading
from collections.abc import Callable, Iterator
from concurrent.futures import ThreadPoolExecutor
from typing import Any

import itc_trace

Steps = list[Callable[[], object]]


def two_locks() -> Steps:
    one, other = threading.Lock(), threading.Lock()

    def forth() -> None:
        with one:  # told
            with other:  # told
                pass

    def back() -> None:
        with other:  # told
            with one:  # told
                pass

    return [forth, back]


def two_rlocks() -> Steps:
    one, other = threading.RLock(), threading.RLock()

    def forth() -> None:
        with one:  # told
            with one, other:  # told
                pass

    def back() -> None:
        with other:  # told
            with other:
                with one:  # told
                    pass

    return [forth, back]


def lock_and_rlock() -> Steps:
    one, other = threading.Lock(), threading.RLock()

    def forth() -> None:
        with one, other:  # told
            pass

    def back() -> None:
        with other, one:  # told
            pass

    return [forth, back]


def by_calls() -> Steps:
    one, other = threading.Lock(), threading.Lock()

    def forth() -> None:
        one.acquire()  # told
        other.acquire()  # told
        other.release()
        one.release()

    def back() -> None:
        other.acquire()  # told
        one.acquire()  # told
        one.release()
        other.release()

    return [forth, back]


def three_tasks() -> Steps:
    locks = [threading.Lock() for _ in range(3)]

    def step(number: int) -> None:
        with locks[number]:  # told
            with locks[(number + 1) % 3]:  # told
                pass

    return [lambda number=number: step(number) for number in range(3)]  # type: ignore[misc]


def four_tasks() -> Steps:
    locks = [threading.Lock() for _ in range(4)]

    def step(number: int) -> None:
        with locks[number], locks[(number + 1) % 4]:  # told
            pass

    return [lambda number=number: step(number) for number in (2, 0, 3, 1)]  # type: ignore[misc]


def five_locks_by_index() -> Steps:
    locks = [threading.Lock() for _ in range(5)]

    def step(number: int) -> None:
        with locks[number]:  # told
            with locks[(number + 1) % 5]:  # told
                pass

    return [lambda number=number: step(number) for number in (3, 1, 4, 0, 2)]  # type: ignore[misc]


def rlocks_that_are_acquired_again() -> Steps:
    one, other = threading.RLock(), threading.RLock()

    def forth() -> None:
        with one:  # told
            with other:  # told
                with one:
                    pass

    def back() -> None:
        with other:  # told
            with other:
                with one:  # told
                    with other:
                        pass

    return [forth, back]


def first_one_tried() -> Steps:
    """Whoever only tries its outer lock holds it all the same."""
    one, other = threading.Lock(), threading.Lock()

    def forth() -> None:
        if one.acquire(blocking=False):  # told
            with other:  # told
                pass
            one.release()

    def back() -> None:
        with other:  # told
            one.acquire(True, -1)  # told
            one.release()

    return [forth, back]


def generators_and_managers() -> Steps:
    one, other = threading.Lock(), threading.Lock()

    def held(lock: threading.Lock) -> Iterator[None]:
        with lock:  # told
            yield

    def forth() -> None:
        holding = held(one)
        next(holding)
        with other:  # told
            pass
        holding.close()

    def back() -> None:
        with contextlib.contextmanager(held)(other):
            one.acquire()  # told
            one.release()

    return [forth, back]


def three_locks_of_two_tasks() -> Steps:
    first, second, third = (threading.Lock() for _ in range(3))

    def forth() -> None:
        with first:  # told
            with second:
                with third:  # told
                    pass

    def back() -> None:
        with third:  # told
            with first:  # told
                pass

    return [forth, back]


def second_of_two() -> Steps:
    """The cycle is of the lock that was acquired second, and the first one is held beside it."""
    beside, second, third = (threading.Lock() for _ in range(3))

    def forth() -> None:
        with beside:
            with second:  # told
                with third:  # told
                    pass

    def back() -> None:
        with third:  # told
            with second:  # told
                pass

    return [forth, back]


def within_functions() -> Steps:
    one, other = threading.Lock(), threading.Lock()

    def inner_other() -> None:
        with other:  # told
            pass

    def inner_one() -> None:
        with one:  # told
            pass

    def forth() -> None:
        with one:  # told
            inner_other()

    def back() -> None:
        with other:  # told
            inner_one()

    return [forth, back]


def many_times() -> Steps:
    one, other = threading.Lock(), threading.Lock()

    def forth() -> None:
        for _ in range(50):
            with one:  # told
                with other:  # told
                    pass

    def back() -> None:
        for _ in range(50):
            with other:  # told
                with one:  # told
                    pass

    return [forth, back, forth]


class Account:
    def __init__(self) -> None:
        self.lock = threading.Lock()
        self.sum = 100

    def pay(self, other: Account) -> None:
        with self.lock:  # told by of_objects
            with other.lock:  # told by of_objects
                self.sum -= 1
                other.sum += 1


def of_objects() -> Steps:
    one, other = Account(), Account()
    return [lambda: one.pay(other), lambda: other.pay(one)]


def lock_and_condition() -> Steps:
    lock, condition = threading.Lock(), threading.Condition()

    def forth() -> None:
        with lock:  # told
            with condition:  # told
                condition.notify()

    def back() -> None:
        with condition:
            condition.wait(0.001)  # told
            with lock:  # told
                pass

    return [forth, back]


def two_conditions() -> Steps:
    full, free = threading.Condition(), threading.Condition()

    def forth() -> None:
        with full:  # told
            with free:  # told
                free.notify_all()

    def back() -> None:
        with free:  # told
            with full:  # told
                full.notify_all()

    return [forth, back]


def wait_with_a_lock() -> Steps:
    lock, condition = threading.Lock(), threading.Condition()

    def forth() -> None:
        with lock:  # told
            condition.acquire()  # told
            condition.release()

    def back() -> None:
        with condition, lock:  # told
            pass

    return [forth, back]


def wait_with_an_inner_lock() -> Steps:
    """Whoever is woken wants the outer lock again, and holds the inner one."""
    ready, inner = threading.Condition(), threading.Lock()

    def tell() -> None:
        with ready:
            ready.notify()

    def wait() -> None:
        with ready, inner:  # told
            threading.Timer(0.1, tell).start()
            ready.wait()  # told

    def work() -> None:
        with ready, inner:  # told
            pass

    return [wait, work]


def asyncio_wait_with_an_inner_lock() -> Steps:
    async def main() -> None:
        ready, inner = asyncio.Condition(), asyncio.Lock()

        async def wait() -> None:
            async with ready, inner:  # told
                await ready.wait()  # told

        async def work() -> None:
            await asyncio.sleep(0.05)
            async with ready:
                ready.notify()
            await asyncio.sleep(0.05)
            async with ready, inner:  # told
                pass

        await asyncio.gather(wait(), work())

    return [lambda: asyncio.run(main())]


def semaphores() -> Steps:
    one, other = threading.Semaphore(1), threading.BoundedSemaphore()

    def forth() -> None:
        with one:  # told
            with other:  # told
                pass

    def back() -> None:
        with other:  # told
            with one:  # told
                pass

    return [forth, back]


def semaphore_and_lock() -> Steps:
    permit, lock = threading.Semaphore(), threading.Lock()

    def forth() -> None:
        permit.acquire()  # told
        with lock:  # told
            pass
        permit.release()

    def back() -> None:
        with lock:  # told
            permit.acquire()  # told
            permit.release()

    return [forth, back]


def semaphores_of_processes() -> Steps:
    one, other = multiprocessing.Semaphore(1), multiprocessing.BoundedSemaphore()

    def forth() -> None:
        with one:  # told
            with other:  # told
                pass

    def back() -> None:
        with other:  # told
            one.acquire()  # told
            one.release()

    return [forth, back]


def permit_of_processes_and_lock() -> Steps:
    permit, lock = multiprocessing.Semaphore(), threading.Lock()

    def forth() -> None:
        if permit.acquire(timeout=100):  # told
            with lock:  # told
                pass
            permit.release()

    def back() -> None:
        with lock, permit:  # told
            pass

    return [forth, forth, back]


def stacks() -> Steps:
    one, other = threading.Lock(), threading.Lock()

    @contextlib.contextmanager
    def holding(lock: Any) -> Iterator[None]:
        lock.acquire()  # told
        yield
        lock.release()

    def forth() -> None:
        with holding(one), holding(other):
            pass

    def back() -> None:
        with holding(other), holding(one):
            pass

    return [forth, back]


def exit_stacks() -> Steps:
    """The library acquires each lock for the program."""
    one, other = threading.Lock(), threading.RLock()

    def work(*locks: Any) -> None:
        with contextlib.ExitStack() as stack:
            for lock in locks:
                stack.enter_context(lock)  # told

    return [lambda: work(one, other), lambda: work(other, one)]


def asyncio_exit_stacks() -> Steps:
    async def main() -> None:
        one, other = asyncio.Lock(), asyncio.Lock()

        async def work(wait: float, *locks: asyncio.Lock) -> None:
            await asyncio.sleep(wait)
            async with contextlib.AsyncExitStack() as stack:
                for lock in locks:
                    await stack.enter_async_context(lock)  # told

        await asyncio.gather(work(0, one, other), work(0.01, other, one))

    return [lambda: asyncio.run(main())]


def timeouts_that_are_over() -> Steps:
    """They do not end what is waited for behind them, and one without a time ends nothing."""
    async def main() -> None:
        one, other = asyncio.Lock(), asyncio.Semaphore(1)

        async def forth() -> None:
            async with asyncio.timeout(10):
                pass
            async with one, other:  # told
                pass

        async def back() -> None:
            await asyncio.sleep(0.01)
            async with asyncio.timeout(None), other, one:  # told
                pass

        await asyncio.gather(forth(), back())

    return [lambda: asyncio.run(main())]


def crossed() -> Steps:
    """The outer lock is released first."""
    one, other = threading.Lock(), threading.Lock()

    def forth() -> None:
        one.acquire()  # told
        other.acquire()  # told
        one.release()
        other.release()

    def back() -> None:
        other.acquire()  # told
        one.acquire()  # told
        other.release()
        one.release()

    return [forth, back]


def gate_that_is_let_go() -> Steps:
    """Both acquire their first lock behind a gate, and their second one without it."""
    door, one, other = (threading.Lock() for _ in range(3))

    def work(first: threading.Lock, second: threading.Lock) -> None:
        with door:
            first.acquire()  # told
        second.acquire()  # told
        second.release()
        first.release()

    return [lambda: work(one, other), lambda: work(other, one)]


def hand_over_hand_from_both_ends() -> Steps:
    locks = [threading.Lock() for _ in range(3)]

    def walk(*order: threading.Lock) -> None:
        order[0].acquire()  # told
        for one, other in zip(order, order[1:]):
            other.acquire()  # told
            one.release()
        order[-1].release()

    return [lambda: walk(*locks), lambda: walk(*reversed(locks))]


def jobs() -> Steps:
    one, other = threading.Lock(), threading.Lock()

    def forth() -> None:
        with one:  # told
            with other:  # told
                pass

    def back() -> None:
        with other:  # told
            with one:  # told
                pass

    def run() -> None:
        with ThreadPoolExecutor(2) as pool:
            for job in (forth, back):
                pool.submit(job)

    return [run]


def job_and_thread() -> Steps:
    one, other = threading.Lock(), threading.Lock()

    def forth() -> None:
        with one, other:  # told
            pass

    def back() -> None:
        with ThreadPoolExecutor(1) as pool:
            pool.submit(lambda: other.acquire() and one.acquire())  # told

    return [forth, back]


def timers() -> Steps:
    one, other = threading.Lock(), threading.Lock()

    def forth() -> None:
        with one, other:  # told
            pass

    def back() -> None:
        with other, one:  # told
            pass

    def run() -> None:
        timers = [threading.Timer(0.001, forth), threading.Timer(0.01, back)]
        for timer in timers:
            timer.start()
        for timer in timers:
            timer.join()

    return [run]


def asyncio_locks() -> Steps:
    async def main() -> None:
        one, other = asyncio.Lock(), asyncio.Lock()

        async def forth() -> None:
            async with one:  # told
                await asyncio.sleep(0)
                async with other:  # told
                    pass

        async def back() -> None:
            await asyncio.sleep(0.01)
            async with other:  # told
                async with one:  # told
                    pass

        await asyncio.gather(forth(), back())

    return [lambda: asyncio.run(main())]


def asyncio_conditions() -> Steps:
    async def main() -> None:
        lock, condition = asyncio.Lock(), asyncio.Condition()

        async def forth() -> None:
            async with lock:  # told
                async with condition:  # told
                    condition.notify()

        async def back() -> None:
            await asyncio.sleep(0.01)
            async with condition:  # told
                async with lock:  # told
                    pass

        await asyncio.gather(forth(), back())

    return [lambda: asyncio.run(main())]


def asyncio_semaphores() -> Steps:
    async def main() -> None:
        one, other = asyncio.Semaphore(1), asyncio.Lock()

        async def forth() -> None:
            async with one, other:  # told
                pass

        async def back() -> None:
            await asyncio.sleep(0.01)
            async with other, one:  # told
                pass

        await asyncio.gather(forth(), back())

    return [lambda: asyncio.run(main())]


def loops_of_two_threads() -> Steps:
    one, other = threading.Lock(), threading.Lock()

    async def forth() -> None:
        with one, other:  # told
            pass

    async def back() -> None:
        with other, one:  # told
            pass

    return [lambda: asyncio.run(forth()), lambda: asyncio.run(back())]


def tried_first() -> Steps:
    """A lock that was tried for is held all the same."""
    one, other = threading.Lock(), threading.Lock()

    def forth() -> None:
        if one.acquire(blocking=False):  # told
            with other:  # told
                pass
            one.release()

    def back() -> None:
        with other, one:  # told
            pass

    return [forth, back]


def queue_and_lock() -> Steps:
    lock, items = threading.Lock(), queue.Queue[int]()

    def give() -> None:
        with lock:  # told
            items.put(1)  # told

    def take() -> None:
        with lock:  # told
            items.get()  # told

    return [give, take]


def queue_and_lock_in_turns() -> Steps:
    """Each item but the first one is there before the next wait, and the first wait may come before any of them."""
    lock, items = threading.RLock(), queue.SimpleQueue[int]()

    def give() -> None:
        for number in range(20):
            with lock:  # told
                items.put(number)  # told

    def take() -> None:
        for _ in range(20):
            with lock:  # told
                items.get()  # told

    return [give, take]


def queue_and_two_locks() -> Steps:
    """Whoever puts holds a lock for which another one waits that holds the lock of whoever takes."""
    outer, inner, items = threading.Lock(), threading.Lock(), queue.Queue[int]()

    def give() -> None:
        with inner:  # told
            items.put_nowait(1)  # told

    def between() -> None:
        with inner:  # told
            with outer:  # told
                pass

    def take() -> None:
        with outer:  # told
            items.get()  # told

    return [give, between, take]


def queue_of_a_condition() -> Steps:
    """The lock is that of a condition, and one lock more is held while the item is put."""
    changed, own, items = threading.Condition(), threading.Lock(), queue.PriorityQueue[int]()

    def give() -> None:
        with own:
            with changed:  # told
                items.put(1)  # told
                changed.notify()

    def take() -> None:
        with changed:  # told
            items.get()  # told

    return [give, take]


def queue_and_gate() -> Steps:
    """The outer lock keeps both apart at the inner one, and is one for which they wait themselves."""
    gate, lock, items = threading.Lock(), threading.Lock(), queue.Queue[int]()

    def give() -> None:
        with gate:  # told
            with lock:
                items.put(1)  # told

    def take() -> None:
        with gate:  # told
            with lock:
                items.get()  # told

    return [give, take]


def queue_and_late_lock() -> Steps:
    """Whoever puts has told the other one before it acquires the lock, and touches something without it."""
    lock, items, ready = threading.Lock(), queue.Queue[int](), threading.Event()

    def give() -> None:
        ready.set()
        with lock:
            itc_trace.touch("stock", True)
        itc_trace.touch("price", True)
        with lock:  # told
            items.put(1)  # told

    def take() -> None:
        ready.wait()
        with lock:  # told
            items.get()  # told

    return [give, take]


TOLD = [
    two_locks, two_rlocks, lock_and_rlock, by_calls, three_tasks, four_tasks, three_locks_of_two_tasks, second_of_two,
    within_functions, many_times, of_objects, lock_and_condition, two_conditions, wait_with_a_lock,
    wait_with_an_inner_lock, asyncio_wait_with_an_inner_lock, semaphores, semaphore_and_lock,
    semaphores_of_processes, permit_of_processes_and_lock, stacks, exit_stacks, asyncio_exit_stacks, timeouts_that_are_over, crossed,
    gate_that_is_let_go, hand_over_hand_from_both_ends, jobs, job_and_thread, timers, asyncio_locks, asyncio_conditions, asyncio_semaphores,
    loops_of_two_threads, tried_first, queue_and_lock, queue_and_lock_in_turns, queue_and_two_locks,
    queue_of_a_condition, queue_and_gate, queue_and_late_lock, five_locks_by_index, rlocks_that_are_acquired_again,
    first_one_tried, generators_and_managers,
]


OF_SEVERAL = [
    three_tasks, four_tasks, five_locks_by_index, queue_and_lock, queue_and_lock_in_turns, queue_and_two_locks, queue_of_a_condition,
    queue_and_gate, queue_and_late_lock,
]
"""Those of more than two tasks, or of a queue."""


# Those that are none


def one_order() -> Steps:
    one, other = threading.Lock(), threading.Lock()

    def forth() -> None:
        with one, other:
            pass

    return [forth, forth]


def gate() -> Steps:
    door, one, other = (threading.Lock() for _ in range(3))

    def forth() -> None:
        with door, one, other:
            pass

    def back() -> None:
        with door, other, one:
            pass

    return [forth, back]


def gate_of_three() -> Steps:
    door, *locks = (threading.Lock() for _ in range(4))

    def step(number: int) -> None:
        with locks[number], locks[(number + 1) % 3]:
            pass

    def guarded(number: int) -> None:
        with door:
            step(number)

    return [lambda: guarded(0), lambda: guarded(1), lambda: step(2)]


def gate_within() -> Steps:
    """The gate is acquired between the two."""
    door, one, other = (threading.Lock() for _ in range(3))

    def forth() -> None:
        with one, door, other:
            pass

    def back() -> None:
        with door, other:
            pass

    return [forth, back]


def gate_that_is_a_condition() -> Steps:
    door, one, other = threading.Condition(), threading.Lock(), threading.Lock()

    def forth() -> None:
        with door, one, other:
            door.notify()

    def back() -> None:
        with door:
            door.wait(0.001)
            with other, one:
                pass

    return [forth, back]


def gate_that_is_a_semaphore() -> Steps:
    door, one, other = threading.Semaphore(1), threading.Lock(), threading.Lock()

    def forth() -> None:
        with door, one, other:
            pass

    def back() -> None:
        with door, other, one:
            pass

    return [forth, back]


def by_start() -> Steps:
    one, other = threading.Lock(), threading.Lock()

    def back() -> None:
        with other, one:
            pass

    def forth() -> None:
        with one, other:
            pass
        thread = threading.Thread(target=back)
        thread.start()
        thread.join()

    return [forth]


def by_join() -> Steps:
    one, other = threading.Lock(), threading.Lock()

    def forth() -> None:
        with one, other:
            pass

    def back() -> None:
        thread = threading.Thread(target=forth)
        thread.start()
        thread.join()
        with other, one:
            pass

    return [back]


def by_queue() -> Steps:
    one, other = threading.Lock(), threading.Lock()
    items: queue.Queue[int] = queue.Queue()

    def forth() -> None:
        with one, other:
            pass
        items.put(1)

    def back() -> None:
        items.get()
        with other, one:
            pass

    return [forth, back]


def by_event() -> Steps:
    one, other, done = threading.Lock(), threading.Lock(), threading.Event()

    def forth() -> None:
        with one, other:
            pass
        done.set()

    def back() -> None:
        done.wait()
        with other, one:
            pass

    return [forth, back]


def by_future() -> Steps:
    one, other = threading.Lock(), threading.Lock()

    def forth() -> None:
        with one, other:
            pass

    def back() -> None:
        with ThreadPoolExecutor(1) as pool:
            pool.submit(forth).result()
            with other, one:
                pass

    return [back]


def by_barrier() -> Steps:
    one, other = threading.Lock(), threading.Lock()

    def run() -> None:
        barrier = threading.Barrier(2)

        def forth() -> None:
            with one, other:
                pass
            barrier.wait()

        def back() -> None:
            barrier.wait()
            with other, one:
                pass

        threads = [threading.Thread(target=work) for work in (forth, back)]
        for thread in threads:
            thread.start()
        for thread in threads:
            thread.join()

    return [run]


def one_task() -> Steps:
    one, other = threading.Lock(), threading.Lock()

    def both() -> None:
        with one, other:
            pass
        with other, one:
            pass

    return [both]


def jobs_of_one_after_another() -> Steps:
    one, other = threading.Lock(), threading.Lock()

    def forth() -> None:
        with one, other:
            pass

    def back() -> None:
        with other, one:
            pass

    def run() -> None:
        with ThreadPoolExecutor(2) as pool:
            pool.submit(forth).result()
            pool.submit(back).result()

    return [run]


def re_entrance() -> Steps:
    one, other = threading.RLock(), threading.RLock()

    def forth() -> None:
        with one, other, one:
            pass

    return [forth, forth]


def tried() -> Steps:
    one, other = threading.Lock(), threading.Lock()

    def forth() -> None:
        with one, other:
            pass

    def back() -> None:
        with other:
            if one.acquire(blocking=False):
                one.release()

    return [forth, back]


def tried_for_a_while() -> Steps:
    one, other = threading.RLock(), threading.RLock()

    def forth() -> None:
        with one, other:
            pass

    def back() -> None:
        with other:
            if one.acquire(timeout=1):
                one.release()

    return [forth, back]


def tried_permit() -> Steps:
    one, other = threading.Semaphore(1), threading.Lock()

    def forth() -> None:
        with one, other:
            pass

    def back() -> None:
        with other:
            if one.acquire(timeout=1):
                one.release()

    return [forth, back]


def by_identity() -> Steps:
    accounts = [Account() for _ in range(4)]

    def pay(one: Account, other: Account) -> None:
        first, second = sorted((one, other), key=id)
        with first.lock, second.lock:
            one.sum -= 1
            other.sum += 1

    return [
        lambda one=one, other=other: pay(one, other)  # type: ignore[misc]
        for one in accounts for other in accounts if one is not other
    ]


def not_at_once() -> Steps:
    one, other = threading.Lock(), threading.Lock()

    def forth() -> None:
        with one:
            pass
        with other:
            pass

    def back() -> None:
        with other:
            pass
        with one:
            pass

    return [forth, back]


def hand_over_hand() -> Steps:
    locks = [threading.Lock() for _ in range(3)]

    def walk() -> None:
        locks[0].acquire()
        for one, other in zip(locks, locks[1:]):
            other.acquire()
            one.release()
        locks[-1].release()

    return [walk, walk]


def signal() -> Steps:
    """A lock that another task releases keeps nobody out."""
    door, lock = threading.Lock(), threading.Lock()

    def forth() -> None:
        with lock:
            door.acquire()

    def back() -> None:
        door.release()
        door.acquire()
        with lock:
            pass

    return [forth, back]


def read_write_lock_of_two() -> Steps:
    """The first reader acquires the lock of writers under another one, and the last one releases it under that."""
    guard, writing = threading.Lock(), threading.Lock()
    readers: list[int] = []

    def read() -> None:
        with guard:
            readers.append(1)
            if len(readers) == 1:
                writing.acquire()
        with guard:
            readers.pop()
            if not readers:
                writing.release()

    def write() -> None:
        with writing:
            pass

    return [read, write, read]


def timeouts_of_asyncio() -> Steps:
    """Whoever does not get the lock in time gives back what it holds."""
    async def main() -> None:
        one, other, permit = asyncio.Lock(), asyncio.Lock(), asyncio.Semaphore(1)

        async def forth() -> None:
            async with permit, one, other:
                await asyncio.sleep(0)

        async def back() -> None:
            await asyncio.sleep(0.01)
            async with asyncio.timeout(10), other, one, permit:
                pass

        await asyncio.gather(forth(), back())

    return [lambda: asyncio.run(main())]


def rlocks_in_one_order() -> Steps:
    one, other = threading.RLock(), threading.RLock()

    def work() -> None:
        with one, other, one, other:
            pass

    return [work, work]


def more_permits_than_one() -> Steps:
    """Somebody gives a permit that nobody took: from then on it is no lock."""
    one, other = threading.Semaphore(1), threading.Lock()

    def forth() -> None:
        with one, other:
            pass

    def back() -> None:
        with other, one:
            pass

    return [forth, back, one.release]


def permits_of_processes() -> Steps:
    one, other = multiprocessing.Semaphore(2), multiprocessing.Semaphore(1)

    def forth() -> None:
        with one, other:
            pass

    def back() -> None:
        with other, one:
            pass

    return [forth, back]


def more_permits_of_processes_than_one() -> Steps:
    one, other = multiprocessing.Semaphore(1), multiprocessing.Lock()

    def forth() -> None:
        with one, other:
            pass

    def back() -> None:
        with other, one:
            pass

    return [forth, back, one.release]


def tried_permit_of_processes() -> Steps:
    one, other = multiprocessing.Semaphore(1), multiprocessing.Lock()

    def forth() -> None:
        with one, other:
            pass

    def back() -> None:
        with other:
            for words in ((False,), (True, 100)):
                if one.acquire(*words):
                    one.release()

    return [forth, back]


def gate_that_is_a_permit_of_processes() -> Steps:
    door, one, other = multiprocessing.BoundedSemaphore(1), multiprocessing.Lock(), threading.Lock()

    def forth() -> None:
        with door, one, other:
            pass

    def back() -> None:
        with door, other, one:
            pass

    return [forth, back]


def permit_that_another_task_gives() -> Steps:
    """It is a signal: whoever acquires it comes after who gave it."""
    ready, one, other = multiprocessing.Semaphore(1), threading.Lock(), threading.Lock()
    ready.acquire()

    def forth() -> None:
        with one, other:
            pass
        ready.release()

    def back() -> None:
        ready.acquire()
        with other, one:
            pass

    return [forth, back]


def locks_that_are_no_more() -> Steps:
    """Others are at the same lines."""
    def work(is_turned: bool) -> None:
        for _ in range(50):
            locks = [threading.Lock(), threading.Lock()]
            with locks[is_turned], locks[not is_turned]:
                pass

    return [lambda: work(False), lambda: work(True)]


def permits() -> Steps:
    one, other = threading.Semaphore(2), threading.Lock()

    def forth() -> None:
        with one, other:
            pass

    def back() -> None:
        with other, one:
            pass

    return [forth, back]


def asyncio_gate() -> Steps:
    async def main() -> None:
        door, one, other = asyncio.Lock(), asyncio.Lock(), asyncio.Lock()

        async def forth() -> None:
            async with door, one, other:
                pass

        async def back() -> None:
            async with door, other, one:
                pass

        await asyncio.gather(forth(), back())

    return [lambda: asyncio.run(main())]


def asyncio_in_turn() -> Steps:
    async def main() -> None:
        one, other = asyncio.Lock(), asyncio.Lock()

        async def forth() -> None:
            async with one, other:
                pass

        async def back() -> None:
            async with other, one:
                pass

        await asyncio.create_task(forth())
        await asyncio.create_task(back())

    return [lambda: asyncio.run(main())]


def one_loop() -> Steps:
    """Locks of threads that tasks of one loop hold without an await are not held by two at once."""
    async def main() -> None:
        one, other = threading.Lock(), threading.Lock()

        async def forth() -> None:
            with one, other:
                pass

        async def back() -> None:
            with other, one:
                pass

        await asyncio.gather(forth(), back())

    return [lambda: asyncio.run(main())]


def queue_with_an_item() -> Steps:
    """The item is there before the wait, whoever comes first."""
    lock, items = threading.Lock(), queue.Queue[int]()
    items.put(0)

    def give() -> None:
        with lock:
            items.put(1)

    def take() -> None:
        with lock:
            items.get()

    return [give, take]


def queue_put_without_the_lock() -> Steps:
    """Who puts once does not need the lock."""
    lock, items = threading.Lock(), queue.Queue[int]()

    def give() -> None:
        with lock:
            items.put(1)

    def take() -> None:
        with lock:
            items.get()

    return [give, take, lambda: items.put(2)]


def queue_taken_in_time() -> Steps:
    """Whoever waits has a way back."""
    lock, items = threading.Lock(), queue.Queue[int]()

    def give() -> None:
        for _ in range(3):
            with lock:
                items.put(1)

    def take() -> None:
        with lock:
            items.get(timeout=100)
            items.get_nowait()
            items.get(block=False)

    return [give, take]


def queue_put_under_a_tried_lock() -> Steps:
    lock, items = threading.Lock(), queue.Queue[int]()

    def give() -> None:
        if lock.acquire(timeout=100):
            items.put(1)
            lock.release()

    def take() -> None:
        with lock:
            items.get()

    return [give, take]


def queue_told_under_the_lock() -> Steps:
    """Whoever takes begins only once the other one has the lock."""
    lock, items, ready = threading.Lock(), queue.Queue[int](), threading.Event()

    def give() -> None:
        with lock:
            ready.set()
            items.put(1)

    def take() -> None:
        ready.wait()
        with lock:
            items.get()

    return [give, take]


def queue_of_one_task() -> Steps:
    lock, items = threading.Lock(), queue.Queue[int]()

    def both() -> None:
        with lock:
            items.put(1)
            items.get()

    return [both, both]


def queue_of_other_locks() -> Steps:
    """Of the two who put each holds another lock, so none of both is needed."""
    one, other, items = threading.Lock(), threading.Lock(), queue.Queue[int]()

    def give(lock: Any) -> None:
        with lock:
            items.put(1)

    def take() -> None:
        with one:
            items.get()

    return [lambda: give(one), lambda: give(other), take]


CLEAN = [
    one_order, gate, gate_of_three, gate_within, gate_that_is_a_condition, gate_that_is_a_semaphore, by_start, by_join,
    by_queue, by_event, by_future, by_barrier, one_task, jobs_of_one_after_another, re_entrance, tried,
    tried_for_a_while, tried_permit, by_identity, not_at_once, hand_over_hand, signal,
    read_write_lock_of_two, timeouts_of_asyncio, permits, asyncio_gate, asyncio_in_turn, one_loop, queue_with_an_item, queue_put_without_the_lock, queue_taken_in_time,
    queue_put_under_a_tried_lock, queue_told_under_the_lock, queue_of_one_task, queue_of_other_locks,
    rlocks_in_one_order, more_permits_than_one, locks_that_are_no_more,
    permits_of_processes, more_permits_of_processes_than_one, tried_permit_of_processes,
    gate_that_is_a_permit_of_processes, permit_that_another_task_gives,
]
