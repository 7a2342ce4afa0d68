"""What is traced is of the library's types, and other libraries that look closely run."""

from __future__ import annotations

import _thread
import asyncio
import atexit
import concurrent.futures
import functools
import heapq
import importlib
import multiprocessing
import multiprocessing.managers
import pickle
import queue
import signal
import threading
import unittest
import warnings
from typing import Any

from .support import TracedCase

class Types(TracedCase):
    def traced(self, work: Any) -> None:
        with warnings.catch_warnings():
            warnings.simplefilter("ignore", DeprecationWarning)
            self.races(work)

    def test_classes_of_asyncio_keep_their_bases(self) -> None:
        plain_task, plain_future = asyncio.tasks._CTask, asyncio.futures._CFuture  # type: ignore[attr-defined]

        def work() -> None:
            self.assertTrue(issubclass(asyncio.Task, asyncio.Future))
            self.assertTrue(issubclass(plain_task, asyncio.Task))
            self.assertTrue(issubclass(plain_future, asyncio.Future))
            self.assertFalse(issubclass(asyncio.Future, asyncio.Task))
            self.assertFalse(issubclass(int, asyncio.Future))

            class Own(asyncio.Task):  # type: ignore[type-arg]
                pass

            class Promise(asyncio.Future):  # type: ignore[type-arg]
                pass

            async def main() -> None:
                task = asyncio.get_running_loop().create_task(asyncio.sleep(0))
                own = Own(asyncio.sleep(0), loop=asyncio.get_running_loop())
                future = plain_future(loop=asyncio.get_running_loop())
                self.assertIsInstance(own, Own)
                self.assertIsInstance(own, asyncio.Task)
                self.assertIsInstance(own, asyncio.Future)
                self.assertNotIsInstance(task, Own)
                self.assertNotIsInstance(future, Promise)
                self.assertIsInstance(future, asyncio.Future)
                self.assertNotIsInstance(future, asyncio.Task)
                self.assertTrue(issubclass(Own, asyncio.Task) and issubclass(Promise, asyncio.Future))
                self.assertFalse(issubclass(plain_task, Own))
                await asyncio.gather(task, own)

            asyncio.run(main())

        self.traced(work)

    def test_a_lock_names_the_module_that_made_it(self) -> None:
        plain: Any = functools.cached_property(len).__dict__.get("lock", vars(_thread)["RLock"]())

        def work() -> None:
            lock: Any = threading.RLock()
            self.assertEqual((lock.__class__.__module__, type(lock).__name__), ("_thread", "RLock"))
            self.assertRegex(repr(lock), r"<unlocked .*RLock object owner=0 count=0 at 0x[0-9a-f]+>")
            self.assertIsInstance(lock, type(plain))
            self.assertIsInstance(plain, type(lock))
            self.assertIsInstance(threading.Lock(), type(threading.Lock()))
            self.assertIsInstance(threading.Lock(), _thread.LockType)
            self.assertNotIsInstance(lock, type(threading.Lock()))

        self.traced(work)

    def test_what_is_replaced_can_be_pickled_by_its_name(self) -> None:
        def work() -> None:
            for one in (threading.Lock, threading.RLock, _thread.allocate_lock, _thread.start_new_thread, queue.SimpleQueue, queue.Queue,
                        heapq.heappush, heapq.heapify, asyncio.Task, asyncio.Future, asyncio.create_task, asyncio.wait, asyncio.shield,
                        asyncio.wrap_future, asyncio.run_coroutine_threadsafe, concurrent.futures.wait,
                        concurrent.futures.as_completed, importlib.import_module, atexit.register, functools.cached_property):
                with self.subTest(one=one):
                    self.assertIs(pickle.loads(pickle.dumps(one)), one)

        self.traced(work)

    def test_a_manager_starts_in_a_new_process(self) -> None:
        def work() -> None:
            with multiprocessing.get_context("spawn").Manager() as manager:
                lock = manager.Lock()
                with lock:
                    event = manager.Event()
                    event.set()
                    self.assertTrue(event.is_set())

        self.traced(work)

    @unittest.skipUnless(hasattr(signal, "setitimer"), "there are no such signals here")
    def test_a_signal_handler_may_acquire_what_it_interrupts(self) -> None:
        def work() -> None:
            lock = threading.RLock()
            count = 0

            def handle(*_: object) -> None:
                nonlocal count
                with lock:
                    count += 1

            before = signal.signal(signal.SIGALRM, handle)
            try:
                signal.setitimer(signal.ITIMER_REAL, 0.0005, 0.0005)
                for _ in range(20000):
                    with lock:
                        pass
            finally:
                signal.setitimer(signal.ITIMER_REAL, 0)
                signal.signal(signal.SIGALRM, before)
            self.assertGreater(count, 0)
            free = threading.Thread(target=lambda: (lock.acquire(timeout=1), lock.release()))
            free.start()
            free.join()

        self.traced(work)


if __name__ == "__main__":
    unittest.main()
